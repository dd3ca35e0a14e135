"""What happens inside the instants of slots, for the page: worked out by programs estlab, which this
process starts. The gateway says first who may know it, and gives the text and the inputs."""
import asyncio
import time
from typing import Any, Callable, Dict, List, Mapping

from estserve_client.connection import Disconnected, Refusal, TimedOut
from estserve_client.lab.asking import Subject, start_lab
from estserve_client.lab.inside import Inside, Look, presences
from estserve_client.lab.stuck import Stuck
from estserve_client.library_text import join_texts
from estserve_client.module_text import main_of
from estserve_client.texts import Failed

from ..refusals import failed
from .asking import SLOTS, slot_of
from .trials import Turns, apart

NAME = "text"  # of the text, in places
SECONDS = 20.0  # an answer of estlab is waited for so long
LOOK_SECONDS = 8.0  # one look may take so long, and the next goes on from where it came
QUICK_SECONDS = 0.2  # as long as a batch takes no longer, the next one has twice as many instants
BATCH = 1_024  # instants at most
AT_ONCE = 2  # looks, each for another person and into another slot
KEPT = 512  # instants of a module that are told again without being worked out again
ROWS = 256  # instants whose local signals are told at once
Told = Dict[str, Any]


class Held:
    """A module of a slot in a program of its own, which has taken in some instants."""

    def __init__(self, name: str, load: int, main: str, text: str) -> None:
        """Starts the program. Raises Failed, Disconnected, TimedOut."""
        self.name, self.load = name, load
        self.word: List[List[str]] = []
        self.kept: Dict[int, Told] = {}
        self.lab = start_lab(None, SECONDS, searches=False)
        try:
            subject = Subject(join_texts([(NAME, text)]), main_of(text, main))
            self.inside = Inside(self.lab, subject)
        except BaseException:
            self.lab.client.close()
            raise

    def come(self, first: int, last: int) -> bool:
        """Goes on to an instant, and keeps what happened from the first one on. Whether it came
        there: what takes long goes on as it is asked again. Raises Failed, Refusal, Disconnected,
        TimedOut."""
        inside, until, many = self.inside, time.monotonic() + LOOK_SECONDS, 1
        while inside.at < last:
            began = time.monotonic()
            for look in inside.looks(self.word[inside.at : min(inside.at + many, last)]):
                if look.is_stuck:
                    raise Failed(f"instant {inside.at + 1} was made, and estlab finds it stuck")
                if inside.at >= first:
                    self.kept.pop(inside.at, None)
                    self.kept[inside.at] = self.shown(look)
            now = time.monotonic()
            if now > until and inside.at < last:
                return False
            many = min(2 * many, BATCH) if now - began < QUICK_SECONDS else 1
        return True

    def walk(self, first: int, last: int) -> bool:
        """Works these instants out, as far as that was not done lately. Whether all are there.
        Raises as `come`."""
        lacking = [instant for instant in range(first, last + 1) if instant not in self.kept]
        if not lacking:
            return True
        if lacking[0] <= self.inside.at:
            self.inside.back(lacking[0] - 1)
        is_there = self.come(lacking[0], last)
        for instant in list(self.kept)[: max(0, len(self.kept) - KEPT)]:
            del self.kept[instant]
        return is_there

    def shown(self, look: Look) -> Told:
        """What the page shows of an instant: lines that ran, lines in which control rests, and of
        each local signal how many incarnations were present, and how many ran."""
        inside = self.inside
        return {
            "ran": sorted(inside.ran(look)),
            "rests": sorted(inside.rests(look)),
            "locals": [[name, *counts] for name, counts in presences(inside, look).items()],
        }

    def later(self) -> Told:
        """What is told where it takes too long: it is to be asked again."""
        return {"load": self.load, "instant": None, "later": True}

    def told(self, instant: int) -> Told:
        """What happened inside an instant. Raises as `come`."""
        if not self.walk(instant, instant):
            return self.later()
        return {"load": self.load, "instant": instant, **self.kept[instant]}

    def rows(self, first: int, last: int) -> Told:
        """The local signals, each with the modules around it, and a letter for each in each of these
        instants: 1 where an incarnation was present. Raises as `come`."""
        inside, last = self.inside, min(last, len(self.word), first + ROWS - 1)
        if first <= last and not self.walk(first, last):
            return self.later()
        kept = (self.kept[instant]["locals"] for instant in range(first, last + 1))
        paths = (inside.statements[number].signal for number in inside.names)
        return {
            "load": self.load,
            "signals": [
                [name, ".".join(signal.path if signal else ())]
                for name, signal in zip(inside.names.values(), paths)
            ],
            "rows": ["".join("01"[present > 0] for _, present, _ in one) for one in kept],
        }

    def stuck(self, pending: List[str]) -> Told:
        """What the next instant would be with what is pending, and why it is stuck, if it is.
        Raises as `come`."""
        inside, last = self.inside, len(self.word)
        if not self.come(last, last):
            return self.later()
        told: Told = {"load": self.load, "instant": last + 1, "stuck": None}
        try:
            look = inside.tried(pending)
        except Refusal:  # by a relation: it is not stuck
            return told
        if look.is_stuck:
            told.update(self.shown(look), stuck=Stuck(inside, look).drawn())
        return told


class Insides:
    """The modules of slots that were looked into."""

    def __init__(self) -> None:
        self._held: Dict[int, Held] = {}
        self._slots = [asyncio.Lock() for _ in range(SLOTS)]  # one looks into a slot at a time
        self._turns = Turns(AT_ONCE)

    async def look(self, seat: Any, query: Mapping[str, str]) -> Told:
        """What happened inside an instant. Raises ValueError, Denied, Refused."""
        instant = int(query.get("instant", ""))

        def act(held: Held, _: Told) -> Told:
            known = 1 <= instant <= len(held.word)
            return held.told(instant) if known else {"load": held.load, "instant": None}

        return await self._ask(seat, query, act, {"instant": None})

    async def rows(self, seat: Any, query: Mapping[str, str]) -> Told:
        """The local signals in some instants. Raises ValueError, Denied, Refused."""
        first, last = (int(query.get(name, "")) for name in ("from", "to"))
        return await self._ask(
            seat, query, lambda held, _: held.rows(max(1, first), last), {"signals": [], "rows": []}
        )

    async def stuck(self, seat: Any, query: Mapping[str, str]) -> Told:
        """Why the next instant is stuck, with what is pending. Raises ValueError, Denied,
        Refused."""
        return await self._ask(
            seat, query, lambda held, told: held.stuck(told["pending"]), {"stuck": None}
        )

    async def _ask(
        self,
        seat: Any,
        query: Mapping[str, str],
        act: Callable[[Held, Told], Told],
        empty: Told,
    ) -> Told:
        """What is told of a slot; of one that is empty, this. Raises ValueError, Denied, Refused."""
        slot = slot_of(query)
        async with self._turns.of(seat, self._slots[slot]):
            told = await self._taken(seat, slot)
            held = self._held.get(slot)
            if held is None:
                return {"load": told["load"], **empty}
            found: Told = await self._apart(slot, act, held, told)
            return found

    async def _taken(self, seat: Any, slot: int) -> Told:
        """Takes in what a slot has made meanwhile. What the gateway told last. Raises Denied,
        Refused."""
        while True:
            held = self._held.get(slot)
            name, known = (held.name, len(held.word)) if held else ("", 0)
            told: Told = await seat.ask("inside", slot=slot, load=name, known=known)
            if held and told["name"] != name:
                self._drop(slot)
            if told["load"] is None:
                return told
            if slot not in self._held:
                asked = (told[key] for key in ("name", "load", "main", "text"))
                self._held[slot] = await self._apart(slot, Held, *asked)
            self._held[slot].word += told["inputs"]
            if len(self._held[slot].word) >= told["instants"]:
                return told

    async def _apart(self, slot: int, act: Any, *asked: Any) -> Any:
        """Does what takes its time, beside the others. Raises Refused."""
        try:
            return await apart(act, *asked)
        except (Failed, Refusal, Disconnected, TimedOut) as fault:
            self._drop(slot)
            raise failed(str(fault)) from fault

    def _drop(self, slot: int) -> None:
        """Ends the program of a slot's module."""
        held = self._held.pop(slot, None)
        if held is not None:
            held.lab.client.close()

    def close(self) -> None:
        """Ends all programs."""
        for slot in list(self._held):
            self._drop(slot)
