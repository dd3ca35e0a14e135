"""The words of a team's gateway that the client asks: who one is there, and the whole policy."""
from __future__ import annotations

import contextlib
import json
import os
from typing import Any, Dict, Iterator, List, Optional

from .connection import Disconnected, open_socket

Answer = Dict[str, Any]


class Words:
    """A connection to the socket beside a team's, which is asked one word after the other."""

    def __init__(self, reader: Any, writer: Any) -> None:
        self.reader, self.writer = reader, writer

    def ask(self, word: str, **keys: Any) -> Optional[Answer]:
        """The answer to a word; None where it is refused, or doesn't come."""
        try:
            self.writer.write(json.dumps({"word": word, **keys}).encode() + b"\n")
            self.writer.flush()
            told = json.loads(self.reader.readline())
        except (OSError, ValueError):
            return None
        return told if isinstance(told, dict) and told.get("ok") == word else None


@contextlib.contextmanager
def words_at(path: str) -> Iterator[Optional[Words]]:
    """The words of the gateway whose team's socket this is; None where it is no gateway's."""
    beside = os.path.join(os.path.dirname(path), "gateway.sock")
    if os.path.basename(path) != "team.sock" or not os.path.exists(beside):
        yield None
        return
    try:
        reader, writer, close = open_socket(beside)
    except Disconnected:
        yield None
        return
    with contextlib.ExitStack() as held:
        held.callback(close)
        yield Words(reader, writer)


def ping_at(path: str) -> Optional[Answer]:
    """What the gateway whose team's socket this is says of who asks; None where it is none's."""
    with words_at(path) as words:
        return words.ask("ping") if words else None


def policy_at(path: str, user: str, roles: List[str]) -> Optional[Answer]:
    """The whole policy, as the gateway tells this user; None where there is no gateway, or it
    doesn't tell the whole.
    """
    with words_at(path) as words:
        if words is None or words.ask("login", user=user, roles=roles) is None:
            return None
        told = words.ask("policy")
        words.ask("logout")
    return told if told and told.get("whole") else None
