"""Comparing an old record with the new one that was made of it: the models, and what servers show.

Each record's slots are run again from their last load on, line by line as they stand in it, each
record's in a server of its own that is ended afterwards. There all signals may be observed, whoever
may observe them in the team: nothing of it is told to anyone.
"""
import json
import pathlib
import sqlite3
from typing import Any, Dict, Iterator, List, Optional, Set, Tuple

from estserve_client.connection import line_of
from estserve_client.module_text import OFFERED

from ..record import open_reader
from ..replay import Talker
from ..server import Server
from .policy_model import PolicyModel
from .rebuilding import OPENING_FACTS, ArchiveFailed
from .slot_model import SLOTS, Slot
from .state import Models

FETCHED = 1_000  # rows, or looks, at a time
IS_PENDING = 65  # the refusal of an offer of what is pending
SINCE_LOAD = "SELECT request, instant FROM entries WHERE slot = ? AND place >= ? ORDER BY place"


def compare_facts(old: PolicyModel, new: PolicyModel) -> None:
    """Raises ArchiveFailed where the facts or their order differ; opening ones have no order."""
    facts = [[fact.command for fact in policy.facts()] for policy in (old, new)]
    for at, (was, now) in enumerate(zip(*map(later_facts, facts))):
        if was != now:
            raise ArchiveFailed(
                f"fact {at + 1} is {was} in the old record, and {now} in the new one"
            )
    counts = [len(later_facts(commands)) for commands in facts]
    opening = [[fact in commands for fact in OPENING_FACTS] for commands in facts]
    if counts[0] != counts[1] or opening[0] != opening[1]:
        raise ArchiveFailed(f"the policies differ: {counts}, {opening}")
    if new.sessions:
        raise ArchiveFailed("a session lives in the new record")


def later_facts(commands: List[Dict[str, Any]]) -> List[Dict[str, Any]]:
    """The facts that are not among the opening ones."""
    return [command for command in commands if command not in OPENING_FACTS]


def compare_slots(old: Models, new: Models, emptied: Optional[int]) -> None:
    """Raises ArchiveFailed where a slot differs; the emptied one has no entry in the new record."""
    for was, now in zip(old.slots.slots, new.slots.slots):
        if was.number == emptied:
            if now.entries:
                raise ArchiveFailed(f"slot {emptied} is not empty in the new record")
            continue
        for name in ("main", "text", "instants"):
            if getattr(was, name) != getattr(now, name):
                raise ArchiveFailed(f"slot {was.number} differs in its {name}")
        if list(was.pending) != list(now.pending):
            raise ArchiveFailed(f"slot {was.number} differs in its pending inputs")


class Witness:
    """A server in which a record's slots are run again. It is used with `with`."""

    def __init__(self, record: pathlib.Path, program: str, socket: pathlib.Path) -> None:
        self._record, self._socket = record, socket
        self._server = Server(program, socket)

    def __enter__(self) -> "Witness":
        self._server.start()
        try:
            self._talker = Talker(self._socket)
            self._accepted([{"cmd": "login", "roles": ["root"], "user": "root"}])
        except BaseException:
            self._server.end()
            raise
        return self

    def __exit__(self, *_: object) -> None:
        self._talker.close()
        self._server.end()

    def _accepted(self, commands: List[Dict[str, Any]]) -> List[bytes]:
        """The answers to commands that have to be accepted. Raises ArchiveFailed."""
        lines = [line_of(command)[:-1] for command in commands]
        replies = self._talker.ask_all(lines)
        for line, reply in zip(lines, replies):
            if b'"ok":' not in reply:
                raise ArchiveFailed(
                    f"a second run of {self._record.name}: {line!r} is answered {reply!r}"
                )
        return replies

    def run(self, slot: Slot) -> None:
        """Runs a slot from its last load on, as the record has it; all of it may be observed."""
        keys = self._permissions(slot)
        self._accepted([{"cmd": "grant", **permission} for permission in keys])
        with open_reader(self._record) as database:
            rows = database.execute(SINCE_LOAD, (slot.number, slot.loaded))
            for part in parts_of(rows):
                self._run_part(slot, part)

    @staticmethod
    def _permissions(slot: Slot) -> List[Dict[str, Any]]:
        pairs = [("load", f"{slot.number}"), ("step", f"{slot.number}")]
        for name, kind in slot.signals:
            pairs.append(("observe", f"{slot.number}.{name}"))
            if kind in OFFERED:
                pairs.append(("offer", f"{slot.number}.{name}"))
        return [{"object": object, "op": operation, "role": "root"} for operation, object in pairs]

    def _run_part(self, slot: Slot, rows: List[Tuple[bytes, Optional[int]]]) -> None:
        replies = self._talker.ask_all([bytes(request) for request, _ in rows])
        for (request, instant), reply in zip(rows, replies):
            answer = json.loads(reply)
            if "ok" not in answer or answer.get("instant") != instant:
                told = f"{bytes(request)[:200]!r} is answered {reply!r}"
                raise ArchiveFailed(f"a second run of slot {slot.number} differs: {told}")

    def looks(self, slot: Slot) -> Iterator[List[bytes]]:
        """What all instants of the slot show, some at a time."""
        for first in range(1, len(slot.instants) + 1, FETCHED):
            last = min(first + FETCHED, len(slot.instants) + 1)
            asked = [{"cmd": "look", "instant": n, "slot": slot.number} for n in range(first, last)]
            yield self._accepted(asked)

    def pending(self, slot: Slot) -> Set[str]:
        """The names that are pending: those that can't be offered since they are offered already.

        The others are pending afterwards too, so it is asked last."""
        names = [name for name, kind in slot.signals if kind in OFFERED]
        asked = [{"cmd": "offer", "signal": name, "slot": slot.number} for name in names]
        replies = self._talker.ask_all([line_of(command)[:-1] for command in asked])
        codes = [json.loads(reply).get("code") for reply in replies]
        return {name for name, code in zip(names, codes) if code == IS_PENDING}

    def end_slot(self, slot: Slot) -> None:
        """Takes the slot's permissions away: their table has a limit."""
        self._accepted([{"cmd": "revoke", **permission} for permission in self._permissions(slot)])


def parts_of(rows: sqlite3.Cursor) -> Iterator[List[Any]]:
    """The rows of a query, some at a time."""
    part = rows.fetchmany(FETCHED)
    while part:
        yield part
        part = rows.fetchmany(FETCHED)


def compare_shown(
    records: Tuple[pathlib.Path, pathlib.Path],
    models: Tuple[Models, Models],
    emptied: Optional[int],
    program: str,
    folder: pathlib.Path,
) -> int:
    """Compares what both records' slots show in each instant, and what is pending.

    Answers how many instants there are. Raises ArchiveFailed where they differ."""
    numbers = [n for n in range(SLOTS) if n != emptied and models[0].slots[n].is_loaded]
    paths = folder / "was.sock", folder / "now.sock"
    with Witness(records[0], program, paths[0]) as was, Witness(
        records[1], program, paths[1]
    ) as now:
        return sum(
            compare_slot((was, now), (models[0].slots[number], models[1].slots[number]))
            for number in numbers
        )


def compare_slot(witnesses: Tuple[Witness, Witness], slots: Tuple[Slot, Slot]) -> int:
    """Compares one slot in two servers. Answers how many instants it has. Raises ArchiveFailed."""
    was, now = witnesses
    for witness, slot in zip(witnesses, slots):
        witness.run(slot)
    for looks, others in zip(was.looks(slots[0]), now.looks(slots[1])):
        if looks != others:
            different = next(pair for pair in zip(looks, others) if pair[0] != pair[1])
            raise ArchiveFailed(
                f"slot {slots[0].number} shows {different[1]!r}, and not {different[0]!r}"
            )
    pending = was.pending(slots[0]), now.pending(slots[1])
    if pending[0] != pending[1] or pending[0] != set(slots[0].pending):
        raise ArchiveFailed(f"slot {slots[0].number} differs in its pending inputs: {pending}")
    for witness, slot in zip(witnesses, slots):
        witness.end_slot(slot)
    return len(slots[0].instants)
