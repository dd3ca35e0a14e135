"""What a stream of a tab is told: what has changed, as its own session may see it.

An entry says only which slot to look at again. What is told is asked anew on the tab's own
session, once for all that share it. Changes that come together are told once, and the more a
telling costs, the longer the next one waits, but no longer than two seconds."""
import asyncio
import json
from typing import Any, Callable, Dict, List, Optional, Set

from ..reads.filling import warnings
from ..record import POLICY, Entry
from ..refusals import Refused
from .page_slots import page_slot
from .seats import Seat

SLOTS = 16
PAUSE = 0.04  # seconds between two tellings
LONGEST_PAUSE = 1.0  # after one that took long
QUIET = ("login", "logout")  # after which the policy is as before
# policy commands after which each session that lives may do what it might do before
HARMLESS = (*QUIET, "adduser", "addrole", "assign", "dsd", "undsd")
NO_SESSION = 4
LIFE = {
    "cmd": "look",
    "slot": SLOTS,
    "instant": 1,
}  # there is no such slot, which is told to the living


def text_of(value: Any) -> bytes:
    """A value as JSON."""
    return json.dumps(value, separators=(",", ":")).encode()


def changes_permissions(entry: Entry) -> bool:
    """Whether a session may do more or less after an entry."""
    return entry.slot == POLICY and entry.command not in HARMLESS


class Watcher:
    """What one stream has still to be told."""

    def __init__(self, gateway: Any, seat: Seat, forget: Callable[["Watcher"], None]) -> None:
        """`forget` is called once, when the stream has ended."""
        self._gateway, self.seat, self._forget = gateway, seat, forget
        self._slots: Set[int] = set(range(SLOTS))
        self._policy = self._record = True
        self._warnings: List[str] = []
        self._news = asyncio.Event()
        self._news.set()
        self._not_before = 0.0
        seat.streams += 1
        self._is_closed = False

    def note(self, entries: List[Entry]) -> None:
        """New entries were recorded."""
        for entry in entries:
            self._record = True
            if entry.slot != POLICY:
                self._slots.add(entry.slot)
            elif entry.command not in QUIET:
                self._policy = True
            if changes_permissions(entry):
                self._slots.update(range(SLOTS))
        self._news.set()

    def wake(self) -> None:
        """The seat may be over."""
        self._news.set()

    def close(self) -> None:
        """The stream has ended."""
        if not self._is_closed:
            self._is_closed = True
            self.seat.streams -= 1
            self._forget(self)
        self._news.set()

    async def next(self) -> bytes:
        """What there is to tell, as JSON, once there is something; nothing, where the seat is
        over."""
        loop = asyncio.get_running_loop()
        while True:
            await self._news.wait()
            if self.seat.is_over or self._is_closed:
                return b""
            if self._not_before > loop.time():
                await asyncio.sleep(self._not_before - loop.time())
            self._news.clear()
            begun = loop.time()
            told = await self._tell()
            now = loop.time()
            self._not_before = now + min(LONGEST_PAUSE, max(PAUSE, 3 * (now - begun)))
            if told:
                return told

    async def _tell(self) -> bytes:
        """What there is to tell now."""
        slots, policy, record = sorted(self._slots), self._policy, self._record
        self._slots, self._policy, self._record = set(), False, False
        try:
            ended = await self._end_of_session() if policy else None
            if ended:
                await self.seat.leave()
                return text_of({"ended": ended})
            told = [await page_slot(self.seat, number) for number in slots]
        except Refused:  # it is told with the next news, if the seat isn't over
            self._slots.update(slots)
            self._policy, self._record = self._policy or policy, self._record or record
            self._news.set()
            return b""
        return self._joined(told, policy, record)

    def _joined(self, slots: List[Any], policy: bool, record: bool) -> bytes:
        """News as one object."""
        more: Dict[str, Any] = {}
        if policy:
            more["policy"] = True
        if record:
            more["record"] = True
        held = warnings(self._gateway)
        if held != self._warnings:
            self._warnings = more["warnings"] = held
        if not slots:
            return text_of(more) if more else b""
        rest = text_of(more)[1:] if more else b"}"
        return b'{"slots":' + self._slots_told(slots) + (b"," if more else b"") + rest

    def _slots_told(self, told: List[Any]) -> bytes:
        """The news of slots, which tabs that share a login mostly have in common."""
        board, made = self.seat.board, list(map(id, told))
        if board.told[0] != made:
            board.told = made, text_of(told), told  # kept, so that no id comes again
        return board.told[1]

    async def _end_of_session(self) -> Optional[Dict[str, Any]]:
        """The refusal of a session that the policy has ended; None of one that lives. It is asked
        once for all who share it."""
        board, count = self.seat.board, self.seat.changes.count
        if board.life[0] != count:
            board.life = count, asyncio.ensure_future(self.seat.share.ask_answer(LIFE))
        life = board.life
        try:
            answer = await asyncio.shield(life[1])
        except Refused:  # it is asked again
            board.life = (-1, None) if board.life is life else board.life
            raise
        return answer if answer.get("code") == NO_SESSION else None
