"""The 24 commands of docs/PROTOCOL.md: the keys of each, and the form of each key.

Whatever speaks the protocol in Python takes them from here: the client's shell, its policies, and
the gateway.
"""
from __future__ import annotations

from typing import Any, Dict, Iterable, List, Tuple

# The keys of each command besides `cmd`, in the order in which people write them.
KEYS: Dict[str, Tuple[str, ...]] = {
    "login": ("user", "roles"),
    "logout": (),
    "adduser": ("user",),
    "deluser": ("user",),
    "addrole": ("role",),
    "delrole": ("role",),
    "assign": ("user", "role"),
    "deassign": ("user", "role"),
    "grant": ("role", "op", "object"),
    "revoke": ("role", "op", "object"),
    "inherit": ("senior", "junior"),
    "disinherit": ("senior", "junior"),
    "dsd": ("name", "count", "roles"),
    "undsd": ("name",),
    "activate": ("role",),
    "drop": ("role",),
    "load": ("slot", "main", "text"),
    "offer": ("slot", "signal"),
    "discard": ("slot",),
    "step": ("slot",),
    "unload": ("slot",),
    "look": ("slot", "instant"),
    "audit": ("slot",),
    "check": ("op", "object"),
}
ON_SLOTS = frozenset(name for name, keys in KEYS.items() if "slot" in keys)
WITHOUT_ENTRY = frozenset(("look", "audit", "check"))  # these add nothing to a journal
# the command that takes back what another one made
BACK = {
    "adduser": "deluser",
    "addrole": "delrole",
    "inherit": "disinherit",
    "assign": "deassign",
    "grant": "revoke",
    "dsd": "undsd",
}


def back_of(command: Dict[str, Any]) -> Dict[str, Any]:
    """The command that takes another one back."""
    back = BACK[command["cmd"]]
    return {"cmd": back, **{key: command[key] for key in KEYS[back]}}


def words_of(command: Dict[str, Any]) -> List[str]:
    """The words by which people write a command, in the order of its keys: without its slot, and of
    a load without the text.
    """
    keys = [key for key in KEYS[command["cmd"]] if key not in ("slot", "text") and key in command]
    values = [command[key] for key in keys]
    lists = [value if isinstance(value, list) else [value] for value in values]
    return [command["cmd"], *(str(word) for words in lists for word in words)]


OPERATIONS = ("offer", "observe", "step", "load", "administer", "audit")
SLOTS = 16
MOST_ROLES = 32  # that one command lists
MOST = 2**64 - 1  # the largest number of a command
OF_TEXTS = range(70, 81)  # the codes of faults of a module text


class Form:
    """The form of a word: its first letter, the later ones, and how many there are at most."""

    def __init__(self, first: str, later: str, most: int) -> None:
        self.first, self.later, self.most = first, frozenset(later), most

    def fullmatch(self, word: str) -> bool:
        """Whether the whole word has this form."""
        is_begun = 0 < len(word) <= self.most and word[0] in self.first
        return is_begun and self.later.issuperset(word)


class OneOf:
    """The form of a word that is one of a few."""

    def __init__(self, words: Iterable[str]) -> None:
        self.words = frozenset(words)

    def fullmatch(self, word: str) -> bool:
        """Whether it is one of them."""
        return word in self.words


class Object:
    """The form of an object: `policy`, a slot, or a signal of one."""

    def fullmatch(self, word: str) -> bool:
        """Whether the whole word has this form."""
        slot, dot, signal = word.partition(".")
        if slot not in SLOT_NUMBERS:
            return word == "policy"
        return not dot or IDENTIFIER.fullmatch(signal)


LETTERS, DIGITS = "abcdefghijklmnopqrstuvwxyzABCDEFGHIJKLMNOPQRSTUVWXYZ", "0123456789"
SLOT_NUMBERS = frozenset(map(str, range(SLOTS)))
NAME = Form(LETTERS + DIGITS + "_-", LETTERS + DIGITS + "_-", 24)
IDENTIFIER = Form(LETTERS, LETTERS + DIGITS + "_", 48)
OPERATION = OneOf(OPERATIONS)
OBJECT = Object()
NAMES = ("user", "role", "senior", "junior", "name", "roles")  # keys whose words are names
IDENTIFIERS = ("main", "signal")
NUMBERS = ("slot", "instant", "count")
