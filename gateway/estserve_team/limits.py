"""How much one Unix user may hold and use, and what is kept for administrators. docs/GATEWAY.md
says why each number is as it is."""
import argparse
import time
from typing import TYPE_CHECKING, Any, Callable, Dict, List, NamedTuple, Sequence

from .lines import LINE_BYTES
from .places import Failed
from .reads.policy_model import JOURNAL, SESSIONS
from .refusals import Refused, too_many

if TYPE_CHECKING:
    from .gateway import Gateway
    from .people import Person
    from .sessions import Session

HOUR = 3_600.0
OWN_DESCRIPTORS = 200  # of the gateway itself: logins, a replay, the record, what is kept
SEATS = 16


class Limits(NamedTuple):
    """Each limit, by the name under which `--limit` sets it."""

    connections: int = 512  # at the two Unix sockets together
    person_connections: int = 128  # of them, of one Unix user
    person_logins: int = 8  # of the sixteen, of one who is no administrator
    kept_logins: int = 1  # of the sixteen, for administrators alone
    hour_entries: int = 1_200  # logins, activations and drops of one who is no administrator
    kept_sessions: int = 1_000  # session numbers, for administrators alone
    kept_entries: int = 4_096  # of the policy's journal, for administrators alone
    waiting_bytes: int = 262_144  # of the lines of one connection
    idle_seconds: int = 7_200  # after which a connection is ended, and its login given up
    slow_seconds: int = 60  # after which one is ended that reads no answers
    person_links: int = 16  # to the page, that were not used yet
    person_visits: int = 32  # of browsers
    person_seats: int = 128  # of pages
    http_connections: int = 1_024
    address_connections: int = 256  # of them, of one address, that have not said who they are
    person_http: int = 192  # of them, of one person
    header_seconds: int = 10  # for the head of a request, on a new connection
    body_seconds: int = 20  # for its body
    refusals_logged: int = 60  # an hour, of one Unix user by one fault
    page_seconds: int = 30  # after which a page that asks nothing stands still


# what a limit is at the least, where that is not 1
LEAST = {
    "connections": 2,  # one has the page's process
    "person_connections": 2,
    "kept_logins": 0,
    "kept_sessions": 0,
    "kept_entries": 0,
    "waiting_bytes": LINE_BYTES,  # of the longest line
    "http_connections": 2,  # one for news, one for requests
    "person_http": 2,
    "refusals_logged": 0,
    "page_seconds": 4,  # in which it gives as many signs of life, and the gateway looks as often
}
# and at the most: others than administrators need one too
MOST = {"kept_logins": SEATS - 1, "kept_sessions": SESSIONS - 1, "kept_entries": JOURNAL - 1}


def add_limits(parser: argparse.ArgumentParser) -> None:
    """Adds the option that sets limits."""
    parser.add_argument(
        "--limit",
        action="append",
        default=[],
        metavar="NAME=NUMBER",
        help="set one of the limits of docs/GATEWAY.md",
    )


def read_limits(words: Sequence[str]) -> Limits:
    """The limits, changed by words as `idle_seconds=60`. Raises Failed, also where nobody could do
    anything any more."""
    changed: Dict[str, int] = {}
    for word in words:
        name, _, number = word.partition("=")
        if name not in Limits._fields or not number.isdecimal() or len(number) > 9:
            raise Failed(f"--limit {word}: one of {', '.join(Limits._fields)} is set to a number")
        changed[name] = int(number)
        if changed[name] < LEAST.get(name, 1):
            raise Failed(f"--limit {word}: it has to be {LEAST.get(name, 1)} at least")
        if changed[name] > MOST.get(name, changed[name]):
            raise Failed(f"--limit {word}: it may be {MOST[name]} at most")
    return Limits()._replace(**changed)


def fit_to(limits: Limits, descriptors: int) -> Limits:
    """The limits of connections, so that so many descriptors are enough, and nobody has all."""
    room = max(descriptors - OWN_DESCRIPTORS, 32)
    if limits.connections + limits.http_connections <= room:
        return limits
    connections = min(limits.connections, room // 2)
    http = room - connections
    return limits._replace(
        connections=connections,
        person_connections=min(limits.person_connections, connections // 2),
        http_connections=http,
        person_http=min(limits.person_http, http // 2),
        address_connections=min(limits.address_connections, http // 2),
    )


class Bucket:
    """What may be used of something in an hour: all of it at once, and then as it fills again."""

    __slots__ = ("left", "at")

    def __init__(self, most: int, now: float) -> None:
        self.left, self.at = float(most), now

    def use(self, most: int, now: float) -> bool:
        """Uses one, where there is one."""
        self.left = min(float(most), self.left + (now - self.at) * most / HOUR)
        self.at = now
        if self.left < 1:
            return False
        self.left -= 1
        return True


class Hourly:
    """A bucket for each person."""

    def __init__(self, most: int, clock: Callable[[], float] = time.monotonic) -> None:
        self._most, self._clock = most, clock
        self._buckets: Dict[str, Bucket] = {}

    def use(self, person: str) -> bool:
        """Uses one of this person's, where there is one."""
        now = self._clock()
        if len(self._buckets) > 4_096:  # those that are full again need not be known
            self._buckets = {
                name: one for name, one in self._buckets.items() if now - one.at < HOUR
            }
        bucket = self._buckets.setdefault(person, Bucket(self._most, now))
        return bucket.use(self._most, now)


class Accounts:
    """What each Unix user holds and has used."""

    def __init__(self, gateway: "Gateway", limits: Limits) -> None:
        self._gateway, self.limits = gateway, limits
        self._connections: Dict[int, int] = {}
        self._entries = Hourly(limits.hour_entries)
        self._refusals = Hourly(limits.refusals_logged)

    # ---- connections

    def connect(self, uid: int) -> None:
        """Notes a connection of a Unix user. Raises Refused, where it is one too many."""
        own = self._connections.get(uid, 0)
        if own >= self.limits.person_connections:
            raise too_many("connections of one Unix user", self.limits.person_connections)
        if sum(self._connections.values()) >= self.limits.connections:
            raise too_many("connections", self.limits.connections)
        self._connections[uid] = own + 1

    def disconnect(self, uid: int) -> None:
        """Notes that a connection has ended."""
        left = self._connections.get(uid, 0) - 1
        if left > 0:
            self._connections[uid] = left
        else:
            self._connections.pop(uid, None)

    def connected(self) -> int:
        """How many connections there are."""
        return sum(self._connections.values())

    def may_log_refusal(self, person: str, fault: str) -> bool:
        """Whether another refusal of this person by this fault is told: those that are of no
        account push out no others."""
        return self._refusals.use(f"{fault} {person}")

    # ---- logins

    def is_administrator(self, user: str, roles: List[str]) -> bool:
        """Whether a login of this user in these roles may administer the policy."""
        try:
            model = self._gateway.reads.policy
        except Refused:  # the record could not be followed: then root is
            return user == "root"
        below = model.below(roles)
        return (
            user in model.users
            and model.authorized(user).issuperset(roles)
            and any((role, "administer", "policy") in model.granted for role in below)
        )

    def check_login(self, person: "Person", user: str, roles: List[str], held: List[Any]) -> None:
        """Raises Refused, where this login is for administrators alone, or one too many of its
        person. `held` are the sessions that there are."""
        if self.is_administrator(user, roles):
            return
        if len(held) >= SEATS - self.limits.kept_logins:
            raise too_many("logins of others than administrators", SEATS - self.limits.kept_logins)
        own = sum(session.person.name == person.name for session in held)
        if own >= self.limits.person_logins:
            raise too_many("logins of one Unix user", self.limits.person_logins)
        self._use_entry(person)

    def check_entry(self, session: "Session") -> None:
        """Raises Refused, where another entry of the policy's journal is for administrators
        alone, or one too many of its person."""
        if not self.is_administrator(session.user, session.roles):
            self._use_entry(session.person)

    def _use_entry(self, person: "Person") -> None:
        limits = self.limits
        try:
            model = self._gateway.reads.policy
        except Refused:
            model = None
        if model is not None:
            if model.logins >= SESSIONS - limits.kept_sessions:
                raise too_many("session numbers", SESSIONS - limits.kept_sessions)
            if model.version >= JOURNAL - limits.kept_entries:
                raise too_many("entries of the policy's journal", JOURNAL - limits.kept_entries)
        if not self._entries.use(person.name):
            raise too_many("logins and changes of roles in an hour", limits.hour_entries)
