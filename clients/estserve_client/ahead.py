"""Instants of slot 0 that are asked for ahead of their answers, so that client and program work at
the same time.

Nearly all answers of a run have one form, and few of its instants differ from all others. So all
answers that come at once are held against that form at once, and are read one by one where they
have another.
"""
from __future__ import annotations

import bisect
import itertools
import re
import time

from .cache import Known
from .connection import Refusal, answer_of, line_of

TYPE_CHECKING = False
if TYPE_CHECKING:
    from typing import Callable, Iterator, List

    from .connection import Answer, Batch, Client
    from .inputs import Names
    from .pictures import Instant

MOST_AT_ONCE = 256  # instants of a batch
SOON, LATE = 0.05, 0.1  # a batch is longer after one that took less, and shorter after one over
LOOK = b'%b{"cmd":"look","instant":%d,"slot":0}\n'  # after the lines before it
# the answers to an instant, in the group what it shows
FORM = re.compile(
    rb'(?:\{"ok":"offer","place":\d+,"version":\d+\}\n)*'
    rb'\{"instant":\d+,"ok":"step","place":\d+,"version":\d+\}\n'
    rb'\{"instant":\d+,"ok":"look","signals":(\[.*\]),"version":\d+\}\n'
)


def commands_of(names: Names, number: int) -> List[Answer]:
    """The commands of one instant: its offers, the step, and a look at it."""
    offered = [{"cmd": "offer", "slot": 0, "signal": name} for name in names]
    return [*offered, {"cmd": "step", "slot": 0}, {"cmd": "look", "slot": 0, "instant": number}]


def instant_of(shown: bytes) -> Instant:
    """The instant that is shown by these bytes of an answer. Raises Disconnected."""
    return dict(answer_of(b'{"ok":"look","signals":%b}' % shown)["signals"])


class Turn:
    """What an instant with these inputs asks: its lines up to the look, and how many answers
    come.
    """

    def __init__(self, names: Names) -> None:
        *others, _ = commands_of(names, 0)
        self.names, self.count = names, len(names) + 2
        self.lines = b"".join(map(line_of, others))


class Asked:
    """Instants that are sent at once: the number of the first, and what each of them asks."""

    def __init__(self, first: int, turns: List[Turn]) -> None:
        self.first, self.turns = first, turns
        self.counts = [turn.count for turn in turns]  # of the answers to each


class Ahead:
    """A run of the module in slot 0 of a client's program."""

    def __init__(self, client: Client, inputs: List[Names]) -> None:
        """`inputs` has the names that are offered before each step."""
        self.client, self.inputs = client, inputs
        self.sent = 0  # this many of them
        self.number = 0  # of the instant whose answers are received one by one
        self.turns = Known(Turn)  # by the names
        self.seen = Known(instant_of)  # by the bytes that show them
        self.size, self.since = 1, time.monotonic()

    def instants(self, stopped: Callable[[], bool]) -> Iterator[List[Instant]]:
        """The instants as they come, in lists of those that came at once, until it is stopped;
        those that are alike are one object.

        Raises Refusal where one is refused: `number` says which; Disconnected, TimedOut, NotText.
        """
        return self.client.ask_ahead(self.batches(), self.instants_of, stopped)

    def batches(self) -> Iterator[Batch]:
        """The instants that are sent at once, batch after batch."""
        while self.sent < len(self.inputs):
            yield self.next_batch()

    def next_batch(self) -> Batch:
        """The instants that are sent next: one, or as many as have room in a batch."""
        turns = list(map(self.turns.__getitem__, self.inputs[self.sent : self.sent + self.size]))
        lines = [LOOK % (turn.lines, number) for number, turn in enumerate(turns, self.sent + 1)]
        room = max(1, bisect.bisect(list(itertools.accumulate(map(len, lines))), self.client.room))
        asked = Asked(self.sent + 1, turns[:room])
        self.sent += len(asked.turns)
        return asked, b"".join(lines[:room]), sum(asked.counts)

    def instants_of(self, asked: Asked) -> Iterator[List[Instant]]:
        """What comes of instants that were sent. Raises Refusal, Disconnected, TimedOut."""
        came, counts = 0, asked.counts
        while came < len(counts):
            shown = self.client.take_answers(FORM, counts[came:])
            if shown is None:
                yield from self.read_instants(asked, came)
                return
            yield list(map(self.seen.__getitem__, shown))
            came += len(shown)
        self.set_pace()

    def read_instants(self, asked: Asked, came: int) -> Iterator[List[Instant]]:
        """What comes of instants that were sent, after this many of them, one by one. Raises as
        `instants_of`.
        """
        for self.number, turn in enumerate(asked.turns[came:], asked.first + came):
            commands = commands_of(turn.names, self.number)
            answers = list(self.client.answers_to(commands))
            for command, answer in zip(commands, answers):
                if "code" in answer:
                    raise Refusal(answer, command)
            yield [dict(answers[-1]["signals"])]

    def set_pace(self) -> None:
        """Sends more at once while a batch is answered soon, and less where it takes long: what is
        under way when the run is stopped is answered in a moment, and the first rows come at once.
        """
        now = time.monotonic()
        took, self.since = now - self.since, now
        if took < SOON:
            self.size = min(2 * self.size, MOST_AT_ONCE)
        elif took > LATE:
            self.size = max(1, self.size // 2)
