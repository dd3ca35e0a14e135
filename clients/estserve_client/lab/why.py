"""Why a signal is present, or absent, in an instant: the chain from it to the inputs.

An emission ran since tests held and since control rested somewhere; each signal of such a test is
asked for in its turn.
"""
from __future__ import annotations

from typing import Dict, Iterator, List, Optional, Sequence, Set, Tuple

from ..signal_test_writing import headed, written
from ..texts import Failed
from .cells import Cell, Cells
from .inside import At, Inside, Look, Meant
from .kernel import TICK, Asked, Signal
from .stuck import Stuck


class Why:
    """An instant that is explained."""

    def __init__(self, inside: Inside, look: Look) -> None:
        self.inside, self.look = inside, look
        self.stuck = Stuck(inside, look) if look.is_stuck else None
        self.cells = self.stuck.cells if self.stuck else Cells(inside, look)

    def asked_for(self, name: str) -> List[Meant]:
        """The signals of a name: of a local one each incarnation that ran. Raises Failed."""
        if name in self.inside.subject.module.kinds():
            return [name]
        named = [at for at in self.look.locals if self.inside.local(at) == name]
        if not named:
            raise Failed(f"{self.inside.subject.module.name} has no signal {name}")
        found: List[Meant] = []
        found += [at for at in named if self.look.ran(at)] or named[:1]
        return found

    def lines(self, name: str) -> List[str]:
        """What is said of a signal, and of all that its tests ask for; of open ones the circle in which
        they wait. Raises Failed.
        """
        line: List[Meant] = list(self.asked_for(name))
        told = []
        for asking in line:
            lines, more = self.paragraph(asking)
            told += lines
            line += [one for one in dict.fromkeys(more) if one not in line]
        if self.stuck and any(self.look.status(asking) is None for asking in line):
            told.append(self.stuck.told()[0])
        return told

    def paragraph(self, asking: Meant) -> Tuple[List[str], List[Meant]]:
        """What is said of one signal, and the signals that its emissions' tests ask for."""
        name, status = self.inside.called(asking), self.look.status(asking)
        if status is None:
            return self.undecided(asking)
        if not status:
            return self.absent(asking)
        if asking == TICK:
            return [f"{name} is present in each instant"], []
        emissions = [at for at in self.emissions(asking) if at in self.look.began]
        offered = asking in self.look.inputs
        return self.explained(f"{name} is {'offered' if offered else 'present'}", emissions, True)

    def absent(self, asking: Meant) -> Tuple[List[str], List[Meant]]:
        """What is said of a signal that is absent: of each emission in its first incarnation that control
        came near to.
        """
        name, emissions = self.inside.called(asking), self.emissions(asking)
        if asking in self.inside.subject.module.inputs() and not emissions:
            return [f"{name} is not offered"], []
        if not emissions:
            return [f"{name} is absent: nothing emits it"], []
        first = {at[0]: at for at in reversed(emissions)}
        reached = [
            at for at in reversed(emissions) if any(self.reasons(self.cells.begins[at], False))
        ]
        first.update({at[0]: at for at in reached})
        return self.explained(f"{name} is absent", sorted(first.values()), False)

    def undecided(self, asking: Meant) -> Tuple[List[str], List[Meant]]:
        """What is said of a signal that is open: the emissions that may still come, each with the test
        that it waits for first.
        """
        head = f"{self.inside.called(asking)} is undecided"
        if not self.stuck:
            return [head], []
        found = reversed([link for link, _ in self.stuck.links_from(asking)])
        links = sorted({link.emission: link for link in found}.items())
        told = [f"  may be emitted at {self.stuck.step(link).strip()}" for _, link in links]
        return [head, *told], [link.target for _, link in links]

    def emissions(self, asking: Meant) -> List[At]:
        """The emissions of a signal that have cells, in the order of the text."""
        return sorted(
            at
            for at in self.cells.begins
            if self.inside.statements[at[0]].kind == "emit" and self.emitted(at) == asking
        )

    def emitted(self, at: At) -> Meant:
        """What an emission emits."""
        signal = self.inside.statements[at[0]].signal
        assert signal
        return self.inside.meant(signal, at)

    def explained(self, head: str, emissions: List[At], ran: bool) -> Tuple[List[str], List[Meant]]:
        """Lines about emissions, each with what it depends on, and the signals of the tests there."""
        lines, more = [head], []
        for at in emissions:
            lines.append(f"  {'emitted' if ran else 'not emitted'} at {self.place(at)}")
            groups = self.by_statement(self.reasons(self.cells.begins[at], ran))
            lines += [f"    since at {self.reason(cells, ran)}" for cells in groups]
            if not groups:
                lines.append(f"    since {'the module began' if ran else 'control was elsewhere'}")
            more += [one for cells in groups for cell in cells for one in self.signals(cell)]
        return lines, more

    def by_statement(self, cells: Iterator[Cell]) -> List[List[Cell]]:
        """Cells, those of one statement of the text together."""
        groups: Dict[object, List[Cell]] = {}
        for cell in cells:
            assert cell.at
            statement = self.inside.statements[cell.at[0]]
            groups.setdefault((id(statement.node), statement.path), []).append(cell)
        return list(groups.values())

    def reasons(self, cell: Cell, status: bool) -> Iterator[Cell]:
        """The tests and pauses by which a cell has its status, the nearest first, each once."""
        line, seen = [cell], set()  # type: List[Cell], Set[object]
        for one in line:
            if one.status is not status:
                continue
            key = (one.at, one.holds) if one.at else id(one)
            if key in seen:
                continue
            seen.add(key)
            if one.at:
                yield one
            line += deciding(one)

    def place(self, at: At) -> str:
        """A statement with its place."""
        node = self.inside.statements[at[0]].node
        return f"{self.inside.subject.library.show(node.at.line, node.at.column)}: {headed(node)}"

    def reason(self, cells: List[Cell], ran: bool) -> str:
        """What is said of the cells of one statement of the text."""
        assert cells[0].at
        node = self.inside.statements[cells[0].at[0]].node
        told = []
        if any(cell.holds is None for cell in cells):
            told.append("control rested there" if ran else "control stood still there")
        tests = {cell.holds for cell in cells if cell.holds is not None}
        if node.test:
            held = {"held" if holds == ran else "didn't hold" for holds in tests}
            told += [f"`{written(node.test)}` {word}" for word in sorted(held, reverse=True)]
        return f"{self.place(cells[0].at)}: {' and '.join(told)}"

    def signals(self, cell: Cell) -> List[Meant]:
        """The signals that a test asks for."""
        if cell.holds is None or not cell.at:
            return []
        test = self.inside.statements[cell.at[0]].test
        return [self.inside.meant(signal, cell.at) for signal in signals_in(test)]


def deciding(cell: Cell) -> Sequence[Cell]:
    """The parts by which a cell has its status. Where control didn't come to a test, what the test is
    decides nothing.
    """
    if cell.is_or or cell.status is not False:
        return cell.parts
    return [one for one in cell.parts if one.holds is None and one.status is False] or cell.parts


def signals_in(asked: Optional[Asked]) -> List[Signal]:
    """The signals of a test, each once."""
    if asked is None:
        return []
    if asked.signal:
        return [asked.signal]
    return list(dict.fromkeys(one for part in asked.parts for one in signals_in(part)))
