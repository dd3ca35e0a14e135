"""Why an instant is stuck: the circle of signals that wait for one another, by what estlab tells is
open.

An open signal has an emission of which it is open whether it begins; that cell is made of open ones,
and so on, down to a test of an open signal. Such ways from signal to signal close a circle.
"""
from __future__ import annotations

import dataclasses
import itertools
from typing import Any, Callable, ContextManager, Dict, Iterator, List, Optional, Sequence, Set
from typing import Tuple

from ..circles import shortest_circle
from ..connection import Disconnected, Refusal, TimedOut, TooLong
from ..signal_test_writing import headed, written
from ..texts import Failed
from .asking import Lab, Subject
from .cells import Cell, Cells, combined, comes_to
from .inside import At, Inside, Look, Meant, undecided_lines
from .kernel import Asked

CANT = "which signals are open inside can't be said: {}"
NOT_STUCK = "estlab comes to a reaction there, with the inputs that are known here"
NO_CIRCLE = "no circle is found among them: each neither must nor can't be emitted"
TRIED = 8  # open signals of a test that are tried both ways


@dataclasses.dataclass(frozen=True)
class Link:
    """A signal that waits for another: an emission of the one, the test for the other that it depends
    on, and whether it begins where that holds.
    """

    signal: Meant
    emission: At
    test: At
    target: Meant
    holds: bool


class Stuck:
    """An instant that is stuck."""

    def __init__(self, inside: Inside, look: Look) -> None:
        self.inside, self.look = inside, look
        self.cells = Cells(inside, look)
        self.ties = [tie for tie in look.ties if not tie.waits or self.cells.tests[tie.at] is None]
        self.emissions: Dict[Meant, List[At]] = {}
        self.waiting: Dict[At, List[Meant]] = {}
        self.suppositions: Dict[Tuple[Meant, bool], Dict[int, Optional[bool]]] = {}
        for tie in self.ties:
            if tie.waits:
                self.waiting.setdefault(tie.at, []).append(tie.signal)
            else:
                self.emissions.setdefault(tie.signal, []).append(tie.at)

    def tests_of(self, cell: Cell, seen: Set[int]) -> Iterator[Cell]:
        """The tests that an open cell depends on, by open cells alone: nearest first."""
        line = [cell]
        for one in line:
            if one.status is not None or id(one) in seen:
                continue
            seen.add(id(one))
            if one.at and one.holds is not None:
                yield one
            line += one.parts

    def links_from(self, signal: Meant) -> List[Tuple[Link, Meant]]:
        """What a signal waits for: of each emission what it can begin by, or else all that it depends
        on.
        """
        found: List[Link] = []
        for emission in self.emissions.get(signal, ()):
            links = [
                Link(signal, emission, test.at, target, bool(test.holds))
                for test in self.tests_of(self.cells.begins[emission], set())
                if test.at
                for target in self.waiting.get(test.at, ())
            ]
            found += [link for link in links if self.can_begin(link)] or links
        return [(link, link.target) for link in found]

    def can_begin(self, link: Link) -> bool:
        """Whether an emission isn't ruled out where the test comes out so: by its signal, if that alone
        is open, since other tests ask for that too.
        """
        begins, opened = self.cells.begins[link.emission], self.waiting[link.test]
        if len(opened) > 1:
            return self.supposed(begins, link.test, link.holds) is not False
        asked = self.inside.statements[link.test[0]].test
        assert asked
        ways = [
            way
            for way in (True, False)
            if self.comes_out(asked, link.test, {link.target: way}) is link.holds
        ]
        return any(self.supposed(begins, link.target, way) is not False for way in ways)

    def supposed(self, cell: Cell, what: Meant, holds: bool) -> Optional[bool]:
        """What a cell would come to if one signal, or the test of one statement, were so."""

        def answer(at: At) -> Optional[bool]:
            asked = self.inside.statements[at[0]].test
            assert asked
            return holds if at == what else self.comes_out(asked, at, {what: holds})

        return comes_to(cell, answer, self.suppositions.setdefault((what, holds), {}))

    def circle(self) -> List[Link]:
        """A shortest circle, through an output that is undecided where there is one."""
        inner = [at for at, present in self.look.locals.items() if present is None]
        signals: List[Meant] = [*(self.look.undecided or ()), *inner]
        circles = [shortest_circle(signal, self.links_from) for signal in signals]
        found = [circle for circle in circles if circle]
        outer = [circle for circle in found if any(isinstance(one.signal, str) for one in circle)]
        return min(outer or found, key=len, default=[])

    def either_way(self, signal: Meant) -> List[Link]:
        """Emissions of a signal that come whatever it is: one by a test that comes out so either
        way, or two, one where a test for it holds and one where it doesn't.
        """
        own = [link for link, target in self.links_from(signal) if target == signal]
        fails = {link.test: link for link in reversed(own) if not link.holds}
        found = ([link, fails[link.test]] for link in own if link.holds and link.test in fails)
        return [link for link in own if self.is_anyway(link)][:1] or next(found, [])

    def is_anyway(self, link: Link) -> bool:
        """Whether a link's test comes out as it has to, whatever its open signals are."""
        opened, test = self.waiting[link.test], self.inside.statements[link.test[0]].test
        assert test
        ways = itertools.product((True, False), repeat=min(TRIED, len(opened)))
        tried = (dict(zip(opened, way)) for way in ways)
        return all(self.comes_out(test, link.test, one) is link.holds for one in tried)

    def comes_out(self, asked: Asked, at: At, tried: Dict[Meant, bool]) -> Optional[bool]:
        """What a test comes to where open signals are as they are tried."""
        if asked.signal:
            meant = self.inside.meant(asked.signal, at)
            return tried.get(meant, self.look.status(meant))
        parts = [self.comes_out(part, at, tried) for part in asked.parts]
        return combined(asked.kind, parts)

    # In words.

    def line_of(self, at: At) -> str:
        """The line of a statement, with its file where that isn't the first one."""
        library = self.inside.subject.library
        return library.name_line(self.inside.line(at[0]), library.paths[0])

    def condition(self, link: Link) -> str:
        """When an emission begins, by the test that it depends on."""
        statement = self.inside.statements[link.test[0]]
        asked, node = statement.test, statement.node
        assert asked and node.test
        holds = link.holds
        while asked.kind == "not":
            asked, holds = asked.parts[0], not holds
        if asked.signal:
            return f"{self.inside.called(link.target)} is {'present' if holds else 'absent'}"
        told = written(node.test)
        return f"`{told}` {'holds' if link.holds else 'fails'}"

    def sentence(self, circle: List[Link], both: List[Link]) -> str:
        """What waits for what, in one sentence; `both` are emissions either way."""
        first = circle[0]
        name, line = self.inside.called(first.signal), self.line_of(first.emission)
        if both:
            lines = list(dict.fromkeys(self.line_of(link.emission) for link in both))
            told = f"{name} neither must nor can't be emitted: it waits for itself"
            return f"{told}, and {' and '.join(lines)} may emit it whether it is present or not"
        if len(circle) == 1:
            return f"{name} waits for itself: {line} may emit it once {self.condition(first)}"
        told = f"{name} ({line}) waits for {self.inside.called(first.target)}"
        later = [
            f", which {self.line_of(link.emission)} may emit once {self.condition(link)}"
            for link in circle[1:]
        ]
        return told + "".join(later)

    def step(self, link: Link) -> str:
        """The place of an emission in the circle, and what it waits for."""
        node, name = self.inside.statements[link.emission[0]].node, self.inside.called(link.signal)
        shown = self.inside.subject.library.show(node.at.line, node.at.column)
        also = f" ({name})" if node.names[0].text != name else ""
        return f"  {shown}: {headed(node)}{also}, once {self.condition(link)}"

    def told(self) -> Tuple[str, List[Link]]:
        """What waits for what, in one sentence, and the emissions and tests that it speaks of."""
        circle = self.circle()
        if not circle:
            return NO_CIRCLE, []
        both = self.either_way(circle[0].signal) if len(circle) == 1 else []
        return self.sentence(circle, both), both or circle

    def lines(self) -> List[str]:
        """What is said of the instant."""
        told, links = self.told()
        if not links:
            return [*undecided_lines(self.inside, self.look), told]
        return [told, *map(self.step, links)]

    def opened(self) -> Set[int]:
        """The lines of tests that wait, and of emissions that may still come."""
        return {self.inside.line(tie.at[0]) for tie in self.ties}

    def drawn(self) -> Dict[str, Any]:
        """It as a page draws it over the text: what is said, the lines of open emissions and tests,
        and the circle by lines. Each signal's emission waits for a test of the next one.
        """
        told, links = self.told()
        inside, targets = self.inside, [*links[1:], *links[:1]]
        if len({link.signal for link in links}) < len(links):
            targets = links  # emissions of one signal, which waits for itself
        return {
            "told": told,
            "open": sorted(self.opened()),
            "circle": [
                {
                    "signal": inside.called(link.signal),
                    "emission": inside.line(link.emission[0]),
                    "test": inside.line(link.test[0]),
                    "target": inside.called(link.target),
                    "to": inside.line(after.emission[0]),
                }
                for link, after in zip(links, targets)
            ],
        }


def stuck_lines(
    begin: Callable[[], ContextManager[Lab]], subject: Subject, word: Sequence[Sequence[str]]
) -> List[str]:
    """What waits for what in the last instant of a word, which is stuck; or why that can't be said.
    `begin` gives an estlab.
    """
    try:
        with begin() as lab:
            inside = Inside(lab, subject)
            *_, last = inside.looks(word)
            return Stuck(inside, last).lines() if last.is_stuck else [NOT_STUCK]
    except (Disconnected, Failed, Refusal, TimedOut, TooLong) as fault:
        return [CANT.format(fault)]
