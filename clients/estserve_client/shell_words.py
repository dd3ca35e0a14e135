"""The words of the shell: its plain commands, their help, and how a line is cut."""
from __future__ import annotations

import dataclasses
import re
from typing import Any, Dict, Sequence

from .command_table import KEYS, NUMBERS, OPERATIONS

ROLES = ("role", "senior", "junior")
COMMENT = re.compile(r"(^|\s)[%#].*")
LEGEND = f"""  A B;: offers A and B in the slot of `use`, steps, and shows what came out
  ;: makes an instant without inputs
  SLOT may be left out: then it is the slot of `use`, 0 at the start. % and # begin comments
  USER, ROLE, SENIOR, JUNIOR, NAME: 1 to 24 letters, digits, _ and -
  OP: {' '.join(OPERATIONS)}
  OBJECT: policy, a slot as 0, or a signal of a slot as 0.A; for `grant` and `revoke` also 0.* or 0.A*,
    each such signal of the text that was loaded, or that `module` told"""


class Usage(Exception):
    """The words of a line don't fit the command."""


@dataclasses.dataclass(frozen=True)
class Plain:
    """A command that is sent as it is written: what it does, and what is so afterwards."""

    does: str
    said: str


PLAIN = {
    "adduser": Plain("adds the user, to whom no role is assigned", "{user} is a user"),
    "deluser": Plain(
        "deletes the user, takes its roles away and ends its sessions",
        "{user} is deleted, and its sessions have ended",
    ),
    "addrole": Plain("adds the role, which may do nothing yet", "{role} is a role"),
    "delrole": Plain(
        "deletes the role, and ends the sessions in which it is active", "{role} is deleted"
    ),
    "assign": Plain("assigns the role to the user", "{user} has the role {role}"),
    "deassign": Plain(
        "takes the role from the user, and ends the sessions that need it",
        "{user} no longer has the role {role}",
    ),
    "grant": Plain("lets the role do the operation on the object", "{role} may {op} on {object}"),
    "revoke": Plain(
        "takes the permission from the role; it keeps what it has from roles below it",
        "{role} itself no longer has {op} on {object}",
    ),
    "inherit": Plain(
        "puts the senior above the junior: it may do what the junior may do",
        "{senior} stands above {junior}",
    ),
    "disinherit": Plain(
        "takes away the edge by which the senior stands right above the junior",
        "{senior} no longer stands right above {junior}",
    ),
    "undsd": Plain("deletes the separation set", "the separation set {name} is deleted"),
    "activate": Plain("makes a role of yours active in this session", "{role} is active"),
    "drop": Plain("makes the role inactive in this session", "{role} is no longer active"),
    "offer": Plain(
        "puts the input or inputoutput into what is pending for the next instant",
        "{signal} is pending",
    ),
    "discard": Plain("takes away what is pending for the next instant", "nothing is pending"),
}


def without_comment(line: str) -> str:
    """A line without its comment, which begins with `%` or `#` at the line's start or after a
    blank.
    """
    return COMMENT.sub("", line, count=1).strip()


def number_of(word: str) -> int:
    """The number that a word is. Raises Usage."""
    if not (word.isascii() and word.isdigit() and len(word) <= 20):
        raise Usage(f"{word} is no number")
    return int(word)


def keys_of(wanted: Sequence[str], line: str, slot: int = 0) -> Dict[str, Any]:
    """These keys of a command, from its words; where the slot is left out, it is this one. Raises
    Usage.
    """
    words = line.split()
    if wanted[:1] == ("slot",) and len(words) == len(wanted) - 1:
        words.insert(0, str(slot))
    if len(words) != len(wanted):
        raise Usage("expected: " + (" ".join(wanted).upper() or "nothing after the command"))
    keys = dict(zip(wanted, words))
    return {name: number_of(word) if name in NUMBERS else word for name, word in keys.items()}


def command_keys(name: str, line: str, slot: int = 0) -> Dict[str, Any]:
    """The keys of the command of this name, from its words. Raises Usage."""
    return keys_of(KEYS[name], line, slot)
