"""Which cells of an instant depend on which: what a statement's begin and its codes are made of, by the
statuses that estlab tells.

A cell says whether a statement begins, which code it gives, or whether a test holds. Each is made of
others by `and` and `or`, so that one that is open has one that is open in it. An instant is worked
out here in one pass, since each signal's status is told; what comes out has to be what estlab tells
of the statements too.
"""
from __future__ import annotations

import dataclasses
from typing import Callable, Dict, Optional, Sequence, Tuple

from ..texts import Failed
from .completion import Completion, code_of_exit
from .inside import At, Inside, Look, pauses_of
from .kernel import TICK, Asked, Signal, Statement, Trap

Status = Optional[bool]  # None: open
DEEP = "the text is nested too deep for the client"
DIFFERS = "the client works out another instant than the program: statement {} runs in one of them"


@dataclasses.dataclass(eq=False)
class Cell:
    """A cell: its status, and those that it is made of, by an `or` or else an `and`. That of a test
    has its statement `at`, and whether the test `holds` or doesn't where the cell is true; that of a
    pause in which control rested has the pause, and no such word.
    """

    status: Status
    parts: Tuple["Cell", ...] = ()
    at: Optional[At] = None
    holds: Optional[bool] = None
    is_or: bool = False


TRUE, FALSE = Cell(True), Cell(False)
Codes = Dict[int, Cell]


def all_of(*parts: Cell) -> Cell:
    """A cell that is true where all of these are."""
    statuses = [part.status for part in parts]
    return Cell(False if False in statuses else None if None in statuses else True, parts)


def any_of(*parts: Cell) -> Cell:
    """A cell that is true where one of these is."""
    statuses = [part.status for part in parts]
    status = True if True in statuses else None if None in statuses else False
    return Cell(status, parts, is_or=True)


COMPLETION = Completion(all_of, any_of, FALSE)


def opposite(status: Status) -> Status:
    """The status of a `not`."""
    return None if status is None else not status


def combined(kind: str, statuses: Sequence[Status]) -> Status:
    """The status of a `not`, an `and` or an `or` over others."""
    if kind == "not":
        return opposite(statuses[0])
    decides = kind == "or"
    return decides if decides in statuses else None if None in statuses else not decides


def comes_to(cell: Cell, answer: Callable[[At], Status], known: Dict[int, Status]) -> Status:
    """What a cell would come to if open tests had these answers; `known` keeps it of each cell."""
    line = [cell]
    while line:
        one = line[-1]
        left = [part for part in one.parts if id(part) not in known]
        if one.status is not None:
            known[id(one)] = one.status
        elif one.at and one.holds is not None:
            holds = answer(one.at)
            known[id(one)] = None if holds is None else holds is one.holds
        elif not left:
            statuses = [known[id(part)] for part in one.parts]
            known[id(one)] = combined("or" if one.is_or else "and", statuses)
        else:
            line += left
            continue
        line.pop()
    return known[id(cell)]


@dataclasses.dataclass(frozen=True)
class Place:
    """Where a statement stands: whether it begins, whether what rests in it goes on, its incarnation,
    the traps around it, and whether no loop around begins it anew.
    """

    begins: Cell
    goes: Cell
    incarnation: int
    traps: Tuple[Trap, ...]
    once: bool

    def after(self, begins: Cell) -> Place:
        """The same for what begins by this cell."""
        return dataclasses.replace(self, begins=begins)


class Cells:
    """The cells of an instant. Raises Failed where its statements are others than estlab tells."""

    def __init__(self, inside: Inside, look: Look) -> None:
        self.inside, self.look, self.rested = inside, look, pauses_of(look.before)
        self.begins: Dict[At, Cell] = {}
        self.codes: Dict[At, Codes] = {}
        self.tests: Dict[At, Status] = {}  # whether each test that is asked holds
        self.statuses: Dict[Signal, Status] = {Signal(TICK): True, **self.interface()}
        root = inside.statements[0]
        try:
            self.lay(root, Place(Cell(look.before == "start"), TRUE, 0, (), True))
        except RecursionError as fault:
            raise Failed(DEEP) from fault
        self.check()

    def check(self) -> None:
        """Raises Failed where what ran is another than estlab tells."""
        began = {at for at, cell in self.begins.items() if cell.status}
        ran = {at for at, codes in self.codes.items() if any(one.status for one in codes.values())}
        went = {at for at in ran if self.begins[at].status is False}
        if began != self.look.began or went != self.look.went:
            told = sorted((began ^ self.look.began) | (went ^ self.look.went))
            raise Failed(DIFFERS.format(told[0][0]))

    def interface(self) -> Dict[Signal, Status]:
        """The statuses of the interface."""
        look, found = self.look, {}
        for name in self.inside.subject.module.kinds():
            is_present = name in look.inputs or name in look.outputs
            found[Signal(name)] = None if name in (look.undecided or ()) else is_present
        return found

    def lives(self, statement: Statement) -> bool:
        """Whether control rested in a statement."""
        if statement.kind == "pause":
            return statement.pause in self.rested
        return any(map(self.lives, statement.parts))

    def test(self, asked: Optional[Asked]) -> Status:
        """Whether a test holds."""
        assert asked
        if asked.signal:
            return self.statuses[asked.signal]
        return combined(asked.kind, [self.test(part) for part in asked.parts])

    def lay(self, statement: Statement, place: Place) -> Codes:
        """The codes of a statement."""
        at = (statement.number, place.incarnation)
        self.begins[at] = place.begins
        lay = getattr(self, "lay_" + statement.kind)
        codes: Codes = lay(statement, place, at)
        self.codes[at] = codes
        return codes

    def lay_nothing(self, _: Statement, place: Place, __: At) -> Codes:
        return {0: place.begins}

    lay_emit = lay_nothing

    def lay_exit(self, statement: Statement, place: Place, _: At) -> Codes:
        return {code_of_exit(statement.trap, place.traps): place.begins}

    def lay_pause(self, statement: Statement, place: Place, at: At) -> Codes:
        if not (place.once and self.lives(statement)):
            return {1: place.begins}
        return {0: Cell(place.goes.status, (place.goes,), at), 1: place.begins}

    def answers(self, status: Status, at: At) -> Tuple[Cell, Cell]:
        """The cells of a test that holds, and of one that doesn't."""
        self.tests[at] = status
        return Cell(status, (), at, True), Cell(opposite(status), (), at, False)

    def lay_present(self, statement: Statement, place: Place, at: At) -> Codes:
        holds, fails = self.answers(self.test(statement.test), at)
        return COMPLETION.merged(
            *(
                self.lay(part, place.after(all_of(place.begins, cell)))
                for part, cell in zip(statement.parts, (holds, fails))
            )
        )

    def lay_suspend(self, statement: Statement, place: Place, at: At) -> Codes:
        if not (place.once and self.lives(statement)):
            return self.lay(statement.parts[0], place)
        holds, fails = self.answers(self.test(statement.test), at)
        goes = dataclasses.replace(place, goes=all_of(place.goes, fails))
        stays = all_of(place.goes, holds)
        return COMPLETION.merged(self.lay(statement.parts[0], goes), {1: stays})

    def lay_seq(self, statement: Statement, place: Place, _: At) -> Codes:
        first = dict(self.lay(statement.parts[0], place))
        second = self.lay(statement.parts[1], place.after(first.pop(0, FALSE)))
        return COMPLETION.merged(first, second)

    def lay_loop(self, statement: Statement, place: Place, _: At) -> Codes:
        if not place.once:
            inner = dataclasses.replace(place, incarnation=place.incarnation + 1)
            return self.lay(statement.parts[0], inner)
        body = dict(self.lay(statement.parts[0], place))
        ends = body.pop(0, FALSE)
        anew = Place(ends, FALSE, 1, place.traps, False)
        return COMPLETION.merged(body, self.lay(statement.parts[0], anew))

    def lay_par(self, statement: Statement, place: Place, _: At) -> Codes:
        lives = [place.once and self.lives(part) for part in statement.parts]
        sides = []
        for part, here in zip(statement.parts, lives):
            codes = dict(self.lay(part, place))
            if any(lives) and not here:  # it has ended before
                codes[0] = any_of(codes.get(0, FALSE), place.goes)
            sides.append(codes)
        return COMPLETION.greatest(*sides)

    def lay_trap(self, statement: Statement, place: Place, _: At) -> Codes:
        assert statement.trap
        traps = (statement.trap, *place.traps)
        codes = self.lay(statement.parts[0], dataclasses.replace(place, traps=traps))
        return COMPLETION.trapped(codes)

    def lay_signal(self, statement: Statement, place: Place, at: At) -> Codes:
        assert statement.signal
        self.statuses[statement.signal] = self.look.locals[at]
        return self.lay(statement.parts[0], place)
