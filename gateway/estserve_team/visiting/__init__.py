"""What browsers may have of the team: links, visits and seats. All of it lies in the gateway; the
page's process has none of it, and bears what its visitors show."""
import asyncio
import functools
from typing import Any, Dict, List, Optional

from ..people import Person
from ..reads.who import time_text
from ..refusals import Refused
from ..words import Context, Word
from .news import Watcher, changes_permissions
from .seats import Changes, Seat, Seats
from .visits import LINK_SECONDS, Links, Visit, Visits

NO_HTTP = 1020  # the code of the refusal of a link where no page is served
NAME_LETTERS = 12  # of a visit's name
ADDRESS_LETTERS = 512


class Denied(Exception):
    """What is asked is for a visit, a person, a seat or a link that there isn't; `what` says
    which. Whether there ever was one is not told. `proxy` is a name of the proxy's, which the
    gateway believes of nobody."""

    def __init__(self, what: str) -> None:
        super().__init__(what)
        self.what = what


class Visiting:
    """The links, visits and seats of one gateway."""

    def __init__(self, gateway: Any, names_are_trusted: bool = False) -> None:
        """`names_are_trusted` says that the page names persons, as a proxy has told them."""
        self.gateway, self.names_are_trusted = gateway, names_are_trusted
        self.links, self.seats = Links(limits=gateway.limits), Seats(gateway.limits)
        self.visits = Visits(
            gateway.private / "visits.json",
            limits=gateway.limits,
            tell=functools.partial(gateway.log, kind="page"),
        )
        self.changes = Changes()
        self.restarts = 0  # of the server; a load is known by these and its place
        self.watchers: "set[Watcher]" = set()
        self.address: Optional[str] = None  # where browsers find the page, once one has told it
        self.has_page = asyncio.Event()
        self.pages: "set[Any]" = set()  # the connections of pages that serve
        self._watching: "Optional[asyncio.Future[None]]" = None
        gateway.listen(self._note)
        gateway.on_restart(self.note_restart)

    def begin(self) -> None:
        """Gives up seats whose tabs are gone, from now on."""
        self._watching = asyncio.ensure_future(self.seats.watch())

    async def stop(self) -> None:
        """Gives up all seats, and keeps the visits."""
        if self._watching is not None:
            self._watching.cancel()
            await self.seats.drop_all()
            self.visits.keep()

    def take_page(self, page: Any, address: Any) -> None:
        """A page serves at an address, which links have from now on."""
        is_plain = isinstance(address, str) and address.isascii() and address.isprintable()
        if is_plain and len(address) <= ADDRESS_LETTERS and " " not in address:
            self.address = address
            self.pages.add(page)
            self.has_page.set()

    # ---- who it is

    def enter(self, link: Any, named: Any) -> "tuple[Person, str, str]":
        """Begins a visit: of the person whose link it is, or whom the proxy names. The person, and
        the two secrets of the visit. Raises Denied."""
        if isinstance(named, str) and not self.names_are_trusted:
            raise Denied("proxy")  # the same for each name: none is looked up
        name = named if isinstance(named, str) else None
        if name is None:
            name = self.links.use(link) if isinstance(link, str) else None
        if name is None:
            raise Denied("link")
        person = self.person(name)
        return (person, *self.visits.begin(person.name))

    def person(self, name: str) -> Person:
        """The person of this name. Raises Denied."""
        try:
            person: Person = self.gateway.people.named(name)
        except Refused:
            raise Denied("person") from None
        return person

    def visit_of(self, asked: Dict[str, Any]) -> Visit:
        """The visit whose two secrets are shown. Raises Denied."""
        cookie, token, named = (asked.get(key) for key in ("cookie", "token", "named"))
        texts = [one if isinstance(one, str) else None for one in (cookie, token)]
        visit = self.visits.find(*texts)
        if visit is None or named not in (None, visit.person):
            raise Denied("visit")
        return visit

    def seat_of(self, asked: Dict[str, Any]) -> Seat:
        """The seat that is named, of the visit whose secrets are shown. Raises Denied."""
        visit, name = self.visit_of(asked), asked.get("seat")
        self.person(visit.person)
        seat = self.seats.find(name if isinstance(name, str) else None, visit.cookie)
        if seat is None:
            raise Denied("seat")
        return seat

    async def take_seat(self, asked: Dict[str, Any], page: Any) -> Seat:
        """A seat in a login as `user` in `roles`, which lasts as long as the page's connection.
        Raises Denied, Refused."""
        visit = self.visit_of(asked)
        person = self.person(visit.person)
        share = await self.gateway.share(person, asked["user"], asked["roles"])
        seat = Seat(visit.cookie, Context(self.gateway, person, share), self.changes, page)
        self.seats.add(seat)
        return seat

    # ---- who oversees them

    def visits_of(self, person: Optional[str]) -> List[Dict[str, Any]]:
        """The visits of a person, or of all: a name, the person, and when each was used last."""
        return [
            {"person": one.person, "used": time_text(one.used), "visit": one.cookie[:NAME_LETTERS]}
            for one in self.visits.all()
            if person in (None, one.person)
        ]

    def end_visits(self, person: Optional[str], name: Optional[str]) -> int:
        """Ends the visits of a person, or of all, or the one of this name. Answers how many."""
        ended = [
            one
            for one in self.visits.all()
            if person in (None, one.person) and name in (None, one.cookie[:NAME_LETTERS])
        ]
        for visit in ended:
            self.end_visit(visit)
        self.wake_all()
        return len(ended)

    def end_visit(self, visit: Visit) -> None:
        """Ends a visit, and gives up its seats."""
        self.seats.drop_visit(visit.cookie)
        self.visits.end(visit)

    def follow_people(self) -> None:
        """Ends the seats whose login their person may no more have."""
        for seat in self.seats.all():
            try:
                is_allowed = self.person(seat.context.person.name).may_be(seat.share.user)
            except Denied:
                is_allowed = False
            if not is_allowed:
                self.seats.drop(seat)
        self.wake_all()

    def leave_page(self, page: Any) -> None:
        """The connection of a page has ended, and with it its seats."""
        self.pages.discard(page)
        self.seats.drop_page(page)
        self.wake_all()

    # ---- what is new

    def watch(self, seat: Seat) -> Watcher:
        """What a stream of this seat will be told, until it is closed."""
        watcher = Watcher(self.gateway, seat, self.watchers.discard)
        self.watchers.add(watcher)
        return watcher

    def _note(self, entries: List[Any]) -> None:
        self.changes.count += sum(map(changes_permissions, entries))
        for watcher in self.watchers:
            watcher.note(entries)

    def note_restart(self) -> None:
        """The server was begun anew: all sessions are over."""
        self.restarts += 1
        self.wake_all()

    def wake_all(self) -> None:
        """Has each stream see whether its seat is over."""
        for watcher in self.watchers:
            watcher.wake()


async def link(context: Context, keys: Dict[str, Any]) -> Dict[str, Any]:
    """A link to the page for the person who asks, which can be used once. Raises Refused."""
    visiting = context.gateway.visiting
    if visiting.address is None:
        raise Refused(NO_HTTP, "NoHttp")
    secret = visiting.links.make(context.person.name)
    return {"link": f"{visiting.address}#link={secret}", "seconds": LINK_SECONDS}


WORDS: Dict[str, Word] = {"link": Word(link, needs_session=False)}
