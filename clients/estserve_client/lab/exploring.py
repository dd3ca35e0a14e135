"""The instants of a slot, followed by an estlab of one's own: what ran in one, and what an instant would
be. The slot is only looked at.
"""
from __future__ import annotations

from typing import TYPE_CHECKING, List, Optional, Sequence, Set

from ..colours import BOLD, GREEN, RED, Colours
from ..connection import Client
from ..seeing import instants_from
from ..texts import Failed
from .asking import Lab, Subject
from .inside import Inside, Look, presences
from .stuck import Stuck
from .why import Why
from .within import OTHERS, mark_of

if TYPE_CHECKING:
    from ..pictures import Instant

HIDDEN = "you may not observe {}, so that what happens inside {} can't be worked out"
RAN, RESTS, OPEN = ">", "*", "?"
LEGEND = "`>` ran, `*` control rests there afterwards"


class Explorer:
    """The module of a slot in an estlab of its own."""

    def __init__(self, lab: Lab, subject: Subject) -> None:
        """Loads the module there. Raises Failed."""
        self.lab, self.subject, self.inside = lab, subject, Inside(lab, subject)
        self.word: List[List[str]] = []  # the inputs of the slot's instants
        self.last: Optional[Instant] = None  # the last one, as the slot shows it
        self.look: Optional[Look] = None  # the instant that was looked at last
        self.trial: Optional[Look] = None  # the last one that was only tried

    def follow(self, client: Client, slot: int) -> None:
        """Takes in the instants that the slot has made meanwhile. Raises Failed, Refusal."""
        seen = instants_from(client, slot, max(1, len(self.word)))
        if self.word and (not seen or seen[0] != self.last):  # it was loaded anew
            self.word, self.look = [], None
            self.inside.back(0)
            seen = instants_from(client, slot, 1)
        elif self.word:
            seen = seen[1:]
        if seen:
            self.stand(len(self.word))
            self.take(seen)

    def take(self, seen: List[Instant]) -> None:
        """Takes in these instants. Raises Failed."""
        word = [self.inputs_of(instant) for instant in seen]
        outputs = self.subject.module.outputs()
        for names, shown, look in zip(word, seen, self.inside.looks(word)):
            told = look.outputs | look.inputs
            if look.is_stuck or any(
                shown.get(one, one in told) != (one in told) for one in outputs
            ):
                raise Failed(OTHERS.format(len(self.word) + 1))
            self.word.append(names)
            self.last, self.look = shown, look

    def inputs_of(self, shown: Instant) -> List[str]:
        """The inputs of an instant, of which an inputoutput that was present counts as offered. Raises
        Failed.
        """
        names = self.subject.module.inputs()
        for name in names:
            if name not in shown:
                raise Failed(HIDDEN.format(name, self.subject.module.name))
        return [name for name in names if shown[name]]

    def stand(self, number: int) -> None:
        """Stands after this many of the slot's instants, and looks at the last of these."""
        is_elsewhere = self.look is None or self.is_tried
        if number < self.inside.at or (number and is_elsewhere):
            self.inside.back(max(0, min(number, self.inside.at) - 1))
        looks = list(self.inside.looks(self.word[self.inside.at : number]))
        self.look = looks[-1] if looks else self.look if number else None

    def tried(self, names: Sequence[str]) -> Look:
        """What an instant with these inputs would be; it is the one that is looked at then. Raises
        Refusal.
        """
        self.look = self.trial = self.inside.tried(names)
        return self.look

    @property
    def is_tried(self) -> bool:
        """Whether the instant that is looked at was only tried, or got stuck: it was not made."""
        return self.look is not None and self.look is self.trial

    def number_before(self) -> int:
        """The number of the instant before the one that is looked at; -1 before the first."""
        return self.inside.at if self.is_tried else self.inside.at - 1

    # In words.

    def told(self, look: Look) -> str:
        """What came of an instant: the outputs and local signals that were present."""
        names = [name for name in self.subject.module.outputs() if name in look.outputs]
        first = " ".join(names) or "no output"
        inner = [
            name + mark_of(*counts)
            for name, counts in presences(self.inside, look).items()
            if counts[0]
        ]
        return first + (f" ({' '.join(inner)})" if inner else "")

    def stuck_lines(self) -> List[str]:
        """What waits for what in the instant that was looked at last. Raises Failed."""
        assert self.look
        return Stuck(self.inside, self.look).lines()

    def why_lines(self, name: str) -> List[str]:
        """Why a signal is as it is in the instant that was looked at last. Raises Failed."""
        if self.look is None:
            raise Failed("there is no instant yet")
        return Why(self.inside, self.look).lines(name)

    def where_lines(self, colours: Colours) -> List[str]:
        """The text, its lines marked by the instant that was looked at last."""
        library, lines = self.subject.library, self.subject.library.text.rstrip().split("\n")
        ran, rests, opened = self.marked()
        wide, found = len(str(len(lines))), []
        for number, text in enumerate(lines, 1):
            path, inner = library.place(number)
            found += [f"{path}:"] * (inner == 1 and len(library.paths) > 1)
            first = OPEN if number in opened else RAN if number in ran else " "
            told = f"{first}{RESTS if number in rests else ' '} {inner:>{wide}}  {text}".rstrip()
            colour = RED if number in opened else GREEN if number in ran else ""
            found.append(colours.put(colour + BOLD * (number in rests), told))
        return found

    def marked(self) -> List[Set[int]]:
        """The lines that ran, those in which control rests, and those of open emissions and tests."""
        look = self.look
        if look is None:
            return [set(), set(), set()]
        opened = Stuck(self.inside, look).opened() if look.is_stuck else set()
        return [self.inside.ran(look), self.inside.rests(look), opened]
