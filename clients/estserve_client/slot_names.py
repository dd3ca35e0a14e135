"""Names of slots in the shell: those of a policy file's table `slots`."""
from __future__ import annotations

from typing import Callable, Dict, List

from .close_words import meant
from .policy_file import BadPolicy, object_of, slots_of, tables_of
from .shell_words import Usage
from .texts import Failed, read_text

SLOT_WORDS = ("SLOT", "[SLOT]")


def names_of(path: str) -> Dict[str, int]:
    """The slots' numbers by the names that a policy file gives them. Raises Failed where it can't be
    read, or is none.
    """
    text = read_text(path, "the policy")
    try:
        return slots_of(tables_of(text).get("slots"))
    except BadPolicy as fault:
        raise Failed(f"{path}:{fault.line}: {fault.what}") from fault


def least_of(asked: List[str]) -> int:
    """How many words a command has at least, when its slot is among them."""
    return 1 + sum(not word.startswith("[") for word in asked[1:])


def slot_number(word: str, asked: List[str], slots: Dict[str, int]) -> str:
    """A slot's number for its name; any other word stays. Raises Usage, where it may only be the
    name of a slot and is none.
    """
    if word in slots:
        return str(slots[word])
    question = meant(word, slots)
    if question and "FILE.." not in asked:
        raise Usage(f"there is no slot {word}: {question}")
    return word


def numbered(line: str, help_of: Callable[[str], str], slots: Dict[str, int]) -> str:
    """A line of the shell with numbers for the names of slots, by the line of help for its command.
    Raises Usage.
    """
    name, *words = line.split() or [""]
    asked = help_of(name).partition(":")[0].split()[1:] if slots and words else []
    if not asked:
        return line
    if asked[0] in SLOT_WORDS and len(words) >= least_of(asked):
        words[0] = slot_number(words[0], asked, slots)
    if asked[-1] == "OBJECT" and len(words) == len(asked):
        words[-1] = object_of(words[-1], slots)
    return " ".join([name, *words])
