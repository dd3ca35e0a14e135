"""What a policy file asks for: docs/POLICY-FILE.md says its tables."""
from __future__ import annotations

import dataclasses
from typing import Any, Callable, Dict, Iterator, List, Optional, Tuple

from .close_words import meant
from .command_table import OBJECT, OPERATIONS, SLOTS
from .module_text import OFFERED
from .toml_reader import BadPolicy, Table, tables_of

Kinds = Dict[str, str]  # the signals of a text, with their kinds
MOST_PERMISSIONS = 16_384  # permissions of a policy: 256 for each of 64 roles
NOT_NAMED = "which the table modules doesn't name"
TABLES = ("inherit", "assign", "permissions", "slots", "modules")
__all__ = ["BadPolicy", "Policy", "Table", "Wish", "lists_of", "read_file", "tables_of"]


@dataclasses.dataclass
class Interfaces:
    """What tells the signals that patterns mean: `kinds_of` those of a slot, whose text has this path
    in the table modules, or None where it isn't named there; `lacking` says why it tells None.
    """

    kinds_of: Callable[[int, Optional[str]], Optional[Kinds]]
    lacking: str


@dataclasses.dataclass
class Wish:
    """One command that the file asks for, the line that it stands on, the command that takes it
    back, where it is not the usual one, and the permission by a pattern that it is a part of.
    """

    line: int
    command: Dict[str, Any]
    back: Optional[Dict[str, Any]] = None
    pattern: str = ""


@dataclasses.dataclass
class Policy:
    """What a file asks for: commands in an order that works, and the module text of each slot with
    its line.
    """

    wishes: List[Wish]
    modules: Dict[int, Tuple[int, str]]


def lists_of(table: Optional[Table]) -> Iterator[Tuple[str, str, int]]:
    """Each key of a table with each string of its list, and the string's line. No table has
    none.
    """
    for key, (line, value) in table.keys.items() if table else ():
        if not isinstance(value, list):
            listed = f': ["{value}"]' if isinstance(value, str) else ""
            raise BadPolicy(line, f"{key} has a list of strings{listed}")
        for string, at in value:
            yield key, string, at


def slots_of(table: Optional[Table]) -> Dict[str, int]:
    """The slots' numbers by their names."""
    slots = {}
    for name, (line, number) in table.keys.items() if table else ():
        if name.isdigit() or name == "policy":
            raise BadPolicy(line, f"{name} is no name for a slot: an object is called so already")
        if not isinstance(number, int) or number >= SLOTS:
            raise BadPolicy(line, f"{name} is the number of a slot, from 0 to {SLOTS - 1}")
        slots[name] = number
    return slots


def slot_of(written: str, slots: Dict[str, int]) -> Optional[int]:
    """The slot that a name or a number means; None where it means none."""
    if written.isdigit() and written.isascii():
        return int(written) if int(written) < SLOTS else None
    return slots.get(written)


def object_of(written: str, slots: Dict[str, int]) -> str:
    """An object as estserve has it, with the number of a slot for its name."""
    slot, dot, signal = written.partition(".")
    return f"{slots[slot]}{dot}{signal}" if slot in slots else written


def asking(told: str, question: str) -> str:
    """What is said, with a question after it where there is one."""
    return f"{told}; {question}" if question else told


def check_object(operation: str, written: str, slots: Dict[str, int], line: int) -> None:
    """Raises BadPolicy where a permission's second word is no object."""
    if not OBJECT.fullmatch(object_of(written, slots)):
        told = f"{written} is no object: policy, a slot, or a signal of one, as 0.A"
        name = written.partition(".")[0]
        question = meant(name, [*slots, "policy"])
        if written in OPERATIONS:
            question = f'the operation comes first: "{written} {operation}"'
        elif not question and not name.isdigit() and name not in slots:
            question = f"the table slots gives {name} no number"
        raise BadPolicy(line, asking(told, question))


def fits(name: str, pattern: str) -> bool:
    """Whether a name is one that a pattern means, in which each `*` stands for any letters."""
    first, *middle, last = pattern.split("*")
    at, end = len(first), len(name) - len(last)
    if at > end or not (name.startswith(first) and name.endswith(last)):
        return False
    for part in middle:
        found = name.find(part, at, end)
        if found < 0:
            return False
        at = found + len(part)
    return True


class Patterns:
    """What patterns as `door.*` are spread over: the interfaces of the slots."""

    def __init__(
        self,
        slots: Dict[str, int],
        modules: Dict[int, Tuple[int, str]],
        interfaces: Optional[Interfaces],
    ) -> None:
        self.slots, self.modules, self.interfaces = slots, modules, interfaces

    def objects_of(self, operation: str, written: str, line: int) -> List[str]:
        """The objects of a permission: those that a pattern means, or the one that is written.
        Raises BadPolicy, and what `kinds_of` raises.
        """
        name, _, pattern = written.partition(".")
        slot = slot_of(name, self.slots)
        if "*" not in pattern or slot is None:
            check_object(operation, written, self.slots, line)
            return [object_of(written, self.slots)]
        found = [
            f"{slot}.{signal}"
            for signal, kind in self.kinds(slot, written, line).items()
            if fits(signal, pattern) and (operation != "offer" or kind in OFFERED)
        ]
        if not found:
            _, text = self.modules.get(slot, (0, f"slot {slot}"))
            told = f"{text} has no signal that {written} fits"
            raise BadPolicy(line, told + (" and that can be offered" * (operation == "offer")))
        return found

    def kinds(self, slot: int, written: str, line: int) -> Kinds:
        """The signals of a slot. Raises BadPolicy where they are not known."""
        path = self.modules[slot][1] if slot in self.modules else None
        if self.interfaces is None and path is not None:
            raise BadPolicy(line, f"{written} is spread by `apply`, where the texts are")
        kinds = self.interfaces.kinds_of(slot, path) if self.interfaces else None
        if kinds is None:
            name = written.partition(".")[0]
            lacking = self.interfaces.lacking if self.interfaces else NOT_NAMED
            raise BadPolicy(line, f"{written} is spread over the text of {name}, {lacking}")
        return kinds


def permissions_of(table: Optional[Table], patterns: Patterns) -> Iterator[Wish]:
    """The grants of the permissions' table. Raises BadPolicy."""
    found = set()  # what stands for itself is granted as often as it stands there
    for role, written, line in lists_of(table):
        words = written.split()
        if len(words) != 2:
            told = f'"{written}" is no permission: an operation and an object, as "offer 0.A"'
            raise BadPolicy(line, told)
        operation, named = words
        pattern = f"{operation} {named}" if "*" in named else ""
        for object in patterns.objects_of(operation, named, line):
            if not pattern or (role, operation, object) not in found:
                grant = {"cmd": "grant", "role": role, "op": operation, "object": object}
                yield Wish(line, grant, pattern=pattern)
            found.add((role, operation, object))
        if len(found) > MOST_PERMISSIONS:
            told = f"up to here there are over {MOST_PERMISSIONS:,} permissions"
            raise BadPolicy(line, f"{told}: a policy has no room for so many")


def modules_of(table: Optional[Table], slots: Dict[str, int]) -> Dict[int, Tuple[int, str]]:
    """The module text of each slot, with the line of the file."""
    found = {}
    for name, (line, path) in table.keys.items() if table else ():
        slot = slot_of(name, slots)
        if slot is None:
            raise BadPolicy(
                line,
                f"{name} is no slot: a number from 0 to {SLOTS - 1}, or a name of the table slots",
            )
        if not isinstance(path, str):
            raise BadPolicy(line, f"{name} has a file's name, as a string")
        found[slot] = line, path
    return found


def separation_of(name: str, table: Table) -> Wish:
    """The separation set of one table."""
    if set(table.keys) != {"roles", "count"}:
        raise BadPolicy(table.line, f"the set {name} has the keys roles and count, and no others")
    line, count = table.keys["count"]
    if not isinstance(count, int):
        raise BadPolicy(line, "count is a whole number")
    line = table.keys["roles"][0]
    roles = [role for _, role, _ in lists_of(Table(line, {"roles": table.keys["roles"]}))]
    return Wish(line, {"cmd": "dsd", "name": name, "roles": roles, "count": count})


def check_names(tables: Dict[str, Table]) -> None:
    """Raises BadPolicy where a table, or a key before the first head, has no meaning here."""
    for name, table in tables.items():
        if name not in ("", *TABLES) and not name.startswith("separate."):
            told = f"there is no table {name}: {', '.join(TABLES)}, separate.NAME"
            raise BadPolicy(table.line, asking(told, meant(name, TABLES)))
    for key, (line, _) in tables[""].keys.items():
        if key not in ("users", "roles"):
            told = f"there is no key {key} here: users, roles"
            raise BadPolicy(line, asking(told, meant(key, ("users", "roles"))))


def read_file(text: str, interfaces: Optional[Interfaces] = None) -> Policy:
    """What a policy file asks for. Patterns are spread over these interfaces. Raises BadPolicy, and
    what `kinds_of` raises.
    """
    tables = tables_of(text)
    check_names(tables)
    slots = slots_of(tables.get("slots"))
    top = list(lists_of(tables[""]))
    wishes = [
        Wish(line, {"cmd": "addrole", "role": name}) for key, name, line in top if key == "roles"
    ]
    wishes += [
        Wish(line, {"cmd": "adduser", "user": name}) for key, name, line in top if key == "users"
    ]
    for senior, junior, line in lists_of(tables.get("inherit")):
        wishes.append(Wish(line, {"cmd": "inherit", "senior": senior, "junior": junior}))
    sets = [name for name in tables if name.startswith("separate.")]
    wishes += [separation_of(name[len("separate.") :], tables[name]) for name in sets]
    for user, role, line in lists_of(tables.get("assign")):
        wishes.append(Wish(line, {"cmd": "assign", "user": user, "role": role}))
    modules = modules_of(tables.get("modules"), slots)
    patterns = Patterns(slots, modules, interfaces)
    wishes += permissions_of(tables.get("permissions"), patterns)
    return Policy(wishes, modules)


def read_policy(text: str) -> List[Wish]:
    """The commands that a policy file asks for, in an order that works: roles, users, edges, sets,
    assignments, permissions. Raises BadPolicy.
    """
    return read_file(text).wishes
