"""How `run`, `shell` and `apply` come to a session of their own."""
from __future__ import annotations

import argparse
import contextlib
import sys
import threading
from typing import TYPE_CHECKING, Iterator, List, Tuple

from .connection import Client, connect, start
from .gateway_words import ping_at
from .programs import program_of
from .texts import Failed

if TYPE_CHECKING:
    from .connection import Answer

PATIENCE = 2.0  # seconds after which a person is told that the server is waited for


def user_of(arguments: argparse.Namespace) -> str:
    """The user to log in as: the one that is named; at a gateway root, one's own name, or the only
    one, where one may be that; else root. Raises Failed.
    """
    told = ping_at(arguments.socket) if arguments.socket and not arguments.user else None
    if told is None:
        return str(arguments.user or "root")
    users: List[str] = told.get("users", [])
    for user in ("root", told.get("person"), *(users if len(users) == 1 else ())):
        if user in users:
            return user
    known = f": you may be {' '.join(users)}" if users else ", which knows you as nobody"
    raise Failed(f"--user says who logs in at a gateway{known}")


def roles_of(arguments: argparse.Namespace) -> List[str]:
    """The roles to activate: those that are named, and else root for the user root, and none for
    others.
    """
    return arguments.role or (["root"] if arguments.user == "root" else [])


def tell_waiting() -> None:
    print(
        "no answer yet: perhaps each worker of the server has a client", file=sys.stderr, flush=True
    )


def tell_renewed(client: Client, answer: Answer) -> None:
    """Tells that the connection is a new one."""
    told = f"the connection has had its {client.reads:,} reads: connected again"
    print(f"{told}, session {answer['session']}", file=sys.stderr, flush=True)


@contextlib.contextmanager
def telling_of_waiting(arguments: argparse.Namespace) -> Iterator[None]:
    """Tells a person at a terminal where a server's answer doesn't come at once."""
    waiting = threading.Timer(PATIENCE, tell_waiting)
    waiting.daemon = True
    if arguments.socket and sys.stderr.isatty():
        waiting.start()
    try:
        yield
    finally:
        waiting.cancel()


def open_client(arguments: argparse.Namespace) -> Client:
    """A client of the server that is named, or of a program of its own. Raises Disconnected."""
    if arguments.socket:
        return connect(arguments.socket, reads=arguments.reads)
    return start(program_of(arguments))


@contextlib.contextmanager
def session_of(arguments: argparse.Namespace) -> Iterator[Tuple[Client, Answer]]:
    """A client that is logged in as the arguments say, and the answer to its login.

    It is closed at the end. Raises Refusal, Disconnected, NotText, Failed."""
    arguments.user = user_of(arguments)
    with open_client(arguments) as client:
        client.when_renewed = lambda answer: tell_renewed(client, answer)
        with telling_of_waiting(arguments):
            answer = client.login(arguments.user, roles_of(arguments))
        yield client, answer
