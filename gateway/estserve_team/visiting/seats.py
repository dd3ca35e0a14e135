"""Seats: each tab that is logged in has one, with its share of a login.

Tabs of one person with the same user and roles share the login. A seat whose page is silent for a
while is given up, so that its login, one of sixteen, is free again; a page that comes back takes a
new one by itself."""
import asyncio
import contextlib
import secrets
import time
import weakref
from typing import Any, Dict, List, Optional, Tuple

from ..limits import Limits
from ..refusals import Refused
from ..words import Context
from .visits import one_too_many

SILENT_SECONDS = 30  # a page that follows no events and asks for nothing is gone after so long
SEATS = 512  # at most this many pages at once
LOOKING = 2  # requests for instants that one share has under way


class Board:
    """What one share was told: the answers to `check`, and the slots as they may be seen. All pages
    that share a login share it."""

    def __init__(self) -> None:
        self.looking = asyncio.Semaphore(LOOKING)
        self.rights: Any = None  # the answers to `check`,
        self.rights_at = -1  # when permissions had changed so often
        self.slots: Dict[int, Tuple[Any, "asyncio.Future[Any]"]] = {}  # by what they were made of
        self.life: Tuple[int, Any] = -1, None  # whether its session lives, when they were so many
        self.told: Tuple[Any, bytes, Any] = (
            None,
            b"",
            None,
        )  # of slots, the last, by what it is made of


class Changes:
    """How often permissions have changed, since the site began; and what was told since."""

    def __init__(self) -> None:
        self.count = 0
        self._boards: "weakref.WeakKeyDictionary[Any, Board]" = weakref.WeakKeyDictionary()

    def board_of(self, share: Any) -> Board:
        """What a share was told."""
        board = self._boards.get(share)
        if board is None:
            board = self._boards[share] = Board()
        return board


class Seat:
    """The seat of one tab: whose visit it is of, its share, the page by whose connection it came,
    and how it is used."""

    def __init__(self, cookie: str, context: Context, changes: Changes, page: Any = None) -> None:
        self.name = secrets.token_urlsafe(18)
        self.cookie, self.context, self.page = cookie, context, page
        self.share: Any = context.session
        self.changes = changes
        self.streams = 0
        self.used = time.monotonic()
        self.is_left = False

    @property
    def board(self) -> Board:
        """What its share was told."""
        return self.changes.board_of(self.share)

    @property
    def is_over(self) -> bool:
        """Whether the page has to take another seat."""
        return self.is_left or self.share.is_over

    def is_silent(self) -> bool:
        """Whether its page seems to be gone."""
        return not self.streams and time.monotonic() - self.used > SILENT_SECONDS

    async def leave(self) -> None:
        """Gives the share up, once. A login that is over by then needs no logout."""
        if not self.is_left:
            self.is_left = True
            with contextlib.suppress(Refused):
                await self.share.leave()


class Seats:
    """All seats."""

    def __init__(self, limits: Limits = Limits()) -> None:
        self._most = limits.person_seats
        self._seats: Dict[str, Seat] = {}
        self._leaving: "set[asyncio.Task[None]]" = set()

    def add(self, seat: Seat) -> None:
        """Adds a seat; where its person has too many, the one that was used least lately goes, and
        where all have, one of the person who has most."""
        owners = (one.context.person.name for one in self._seats.values())
        too_many = one_too_many(owners, seat.context.person.name, self._most, SEATS)
        if too_many is not None:
            own = (one for one in self._seats.values() if one.context.person.name == too_many)
            self.drop(min(own, key=lambda one: one.used))
        self._seats[seat.name] = seat

    def find(self, name: Optional[str], cookie: str) -> Optional[Seat]:
        """The seat of this name, of this visit, if it isn't over."""
        seat = self._seats.get(name or "")
        if seat is None or seat.cookie != cookie:
            return None
        if seat.is_over:
            self.drop(seat)
            return None
        seat.used = time.monotonic()
        return seat

    def drop(self, seat: Seat) -> None:
        """Gives a seat up; its logout goes on by itself."""
        self._seats.pop(seat.name, None)
        task = asyncio.get_running_loop().create_task(seat.leave())
        self._leaving.add(task)
        task.add_done_callback(self._leaving.discard)

    def all(self) -> List[Seat]:
        """All seats."""
        return list(self._seats.values())

    def drop_visit(self, cookie: str) -> None:
        """Gives up all seats of a visit."""
        for seat in [one for one in self._seats.values() if one.cookie == cookie]:
            self.drop(seat)

    def drop_page(self, page: Any) -> None:
        """Gives up all seats that came by a page's connection."""
        for seat in [one for one in self._seats.values() if one.page is page]:
            self.drop(seat)

    async def watch(self) -> None:
        """Gives up seats whose pages are gone, again and again."""
        while True:
            await asyncio.sleep(SILENT_SECONDS / 6)
            self.drop_silent()

    def drop_silent(self) -> None:
        """Gives up the seats whose pages are gone."""
        for seat in [one for one in self._seats.values() if one.is_silent() or one.is_over]:
            self.drop(seat)

    async def drop_all(self) -> None:
        """Gives up all seats, and waits for their logouts."""
        for seat in list(self._seats.values()):
            self.drop(seat)
        if self._leaving:
            await asyncio.wait(list(self._leaving), timeout=5)
