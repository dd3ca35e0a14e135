"""Who has come in by HTTP: links that are used once, and visits, each of one browser.

A visit has two secrets: a cookie, which no script reads, and a token, which the page sends with
each request and which no other origin has. Either alone opens nothing. Only their digests are kept,
in a file that only the gateway's user may read, so that a visit goes on when the gateway is started
anew."""
import collections
import contextlib
import hashlib
import pathlib
import secrets
import time
from typing import Callable, Dict, Iterable, List, NamedTuple, Optional, Tuple

from ..limits import Limits
from ..places import read_json, write_json

LINK_SECONDS = 300  # a link may be used for so long
VISIT_SECONDS = 12 * 3600  # a visit ends when it was not used for so long
KEPT_AFTER = 600  # seconds after which it is written anew that a visit was used
LINKS, VISITS = 2_048, 4_096  # at most, at once: then one goes of the person who has most


def one_too_many(persons: Iterable[str], own: str, most_own: int, most: int) -> Optional[str]:
    """The person one of whose things has to go, so that there is place for another of `own`; None
    where there is place."""
    counts = collections.Counter(persons)
    if counts[own] >= most_own:
        return own
    return counts.most_common(1)[0][0] if sum(counts.values()) >= most else None


def digest_of(secret: str) -> str:
    """What is kept of a secret."""
    return hashlib.sha256(secret.encode("utf-8", "surrogatepass")).hexdigest()


class Visit(NamedTuple):
    """A visit: its cookie's digest, its token's, the person's name, and when it was used last."""

    cookie: str
    token: str
    person: str
    used: float


class Links:
    """Links that were given out and not yet used."""

    def __init__(
        self, clock: Callable[[], float] = time.monotonic, limits: Limits = Limits()
    ) -> None:
        self._clock, self._most = clock, limits.person_links
        self._links: Dict[str, Tuple[str, float]] = {}

    def make(self, person: str) -> str:
        """The secret of a new link of this person."""
        secret = secrets.token_urlsafe(32)
        now = self._clock()
        self._links = {name: link for name, link in self._links.items() if link[1] > now}
        owners = (owner for owner, _ in self._links.values())
        too_many = one_too_many(owners, person, self._most, LINKS)
        if too_many is not None:
            del self._links[next(name for name, one in self._links.items() if one[0] == too_many)]
        self._links[digest_of(secret)] = person, self._clock() + LINK_SECONDS
        return secret

    def use(self, secret: str) -> Optional[str]:
        """The person of a link, which is spent by that; None where there is none, or its time is
        over."""
        person, end = self._links.pop(digest_of(secret), ("", 0.0))
        return person if person and self._clock() < end else None


class Visits:
    """The visits, in a file."""

    def __init__(
        self,
        path: pathlib.Path,
        clock: Callable[[], float] = time.time,
        limits: Limits = Limits(),
        tell: Callable[[str], None] = lambda text: None,
    ) -> None:
        """`tell` is told of a file that can't be read."""
        self._path, self._clock, self._most = path, clock, limits.person_visits
        self._tell = tell
        self._visits: Dict[str, Visit] = {}
        self._kept = 0.0
        self._read()

    def _read(self) -> None:
        """Reads the file. One that can't be read holds no visits: people ask for links again."""
        visits: List[Visit] = []
        try:
            rows = read_json(self._path)
            visits = [Visit(str(c), str(t), str(p), float(u)) for c, t, p, u in rows]
        except FileNotFoundError:
            pass
        except (OSError, ValueError, TypeError, OverflowError) as fault:
            self._tell(f"{self._path} can't be read, and is made anew: {fault!r}")
        self._visits = {visit.cookie: visit for visit in visits}
        self._drop_old()

    def keep(self) -> None:
        """Writes the file anew, in one piece. Where that can't be, the visits go on until the
        gateway ends."""
        with contextlib.suppress(OSError):
            write_json(self._path, [list(visit) for visit in self._visits.values()])
        self._kept = self._clock()

    def _drop_old(self) -> None:
        oldest = self._clock() - VISIT_SECONDS
        self._visits = {
            cookie: visit for cookie, visit in self._visits.items() if visit.used >= oldest
        }

    def begin(self, person: str) -> Tuple[str, str]:
        """The cookie and the token of a new visit of this person."""
        self._drop_old()
        owners = (visit.person for visit in self._visits.values())
        too_many = one_too_many(owners, person, self._most, VISITS)
        if too_many is not None:
            own = (visit for visit in self._visits.values() if visit.person == too_many)
            del self._visits[min(own, key=lambda visit: visit.used).cookie]
        cookie, token = secrets.token_urlsafe(32), secrets.token_urlsafe(32)
        self._visits[digest_of(cookie)] = Visit(
            digest_of(cookie), digest_of(token), person, self._clock()
        )
        self.keep()
        return cookie, token

    def find(self, cookie: Optional[str], token: Optional[str]) -> Optional[Visit]:
        """The visit that has this cookie and this token, if one has."""
        visit = self._visits.get(digest_of(cookie or ""))
        if visit is None or not secrets.compare_digest(visit.token, digest_of(token or "")):
            return None
        now = self._clock()
        if visit.used < now - VISIT_SECONDS:
            return None
        self._visits[visit.cookie] = visit._replace(used=now)
        if self._kept < now - KEPT_AFTER:
            self._drop_old()
            self.keep()
        return visit

    def all(self) -> List[Visit]:
        """All visits."""
        return list(self._visits.values())

    def end(self, visit: Visit) -> None:
        """Ends a visit: its secrets open nothing any more."""
        self._visits.pop(visit.cookie, None)
        self.keep()
