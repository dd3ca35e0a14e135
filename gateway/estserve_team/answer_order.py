"""Which answer may go out when, and which entry may be written when. Nothing here reads or writes.

Answers of two connections overtake each other. An entry is written after all that it may have
seen: policy entry v after v - 1; the entry of place p of a slot after p - 1, and after the
policy entry whose version it bears; and each after those that its own connection made before. An
answer goes out when its own entry is written; one without an entry when all is written, or known
to add nothing, that it may have seen: the policy up to the version that it tells, or else each
policy command that was under way when it came; and each command on its slot that was under way
when it came.
"""
from typing import Any, Dict, List, Optional

from .lines import Request
from .record import POLICY

SLOTS = 16


class Inconsistent(Exception):
    """An answer that the protocol can't give here. The server is not to be trusted any more."""


class Asked:
    """A request that was sent to the server, and what became of it.

    `done(asked)` is called when its answer may go out. `context` is the sender's own."""

    __slots__ = (
        "request",
        "session",
        "done",
        "context",
        "request_id",
        "domain",
        "number",
        "time",
        "reply",
        "fields",
        "place",
        "version",
        "policy_mark",
        "slot_mark",
        "before",
        "after",
        "is_ready",
        "is_written",
    )

    def __init__(
        self,
        request: Request,
        session: Any,
        done: Any,
        context: Any = None,
        request_id: Optional[str] = None,
    ) -> None:
        self.request, self.session, self.done, self.context, self.request_id = (
            request,
            session,
            done,
            context,
            request_id,
        )
        self.domain: Optional[Domain] = None  # to which it may add an entry
        self.number = 0  # among the commands of its domain
        self.time = 0.0
        self.reply = b""
        self.fields: Dict[str, Any] = {}
        self.place = 0  # of its entry, if it has one
        self.version = 0  # that the answer tells
        self.policy_mark = 0
        self.slot_mark = 0
        self.before: Optional[
            Asked
        ] = None  # the entry before it on its connection, and the one after it
        self.after: Optional[Asked] = None
        self.is_ready = self.is_written = False

    def lose(self) -> None:
        """Tells the sender that no answer comes."""
        self.reply = b""
        self.done(self)


def domain_of(request: Request) -> Optional[int]:
    """Which list the request may add an entry to: a slot's number, or -1 for the policy. None where
    it adds to none."""
    if not request.adds_entry:
        return None
    if request.slot is None:
        return POLICY
    return request.slot if request.slot < SLOTS else None


class Domain:
    """The policy, or one slot: commands that are under way, entries that wait, and how far all is
    ready and written."""

    __slots__ = ("sent", "open", "held", "ready", "written")

    def __init__(self, written: int) -> None:
        self.sent = 0
        self.open: Dict[
            int, Asked
        ] = {}  # by number, the oldest first: not yet written, nor known to add nothing
        self.held: Dict[int, Asked] = {}  # by place: answered, but not ready
        self.ready = self.written = written

    def is_settled(self, mark: int) -> bool:
        """Whether each command up to this number is written, or known to add nothing."""
        return not self.open or next(iter(self.open)) > mark


class Order:
    """All answers of one server."""

    def __init__(self, version: int, places: List[int]) -> None:
        """What is written already: the version of the policy, and how many entries each slot
        has."""
        self._domains = {slot: Domain(places[slot]) for slot in range(SLOTS)}
        self._slots = list(self._domains.values())
        self._last: Dict[Any, Asked] = {}  # the last entry of each session
        self._policy = self._domains[POLICY] = Domain(version)
        self._ready: List[Asked] = []

    @property
    def version(self) -> int:
        """The version of the policy that is written."""
        return self._policy.written

    @property
    def has_ready(self) -> bool:
        """Whether entries are ready to be written."""
        return bool(self._ready)

    def sent(self, asked: Asked) -> None:
        """Notes a request. This comes before its line is sent."""
        name = domain_of(asked.request)
        if name is not None:
            domain = asked.domain = self._domains[name]
            domain.sent += 1
            asked.number = domain.sent
            domain.open[asked.number] = asked

    def forget(self, asked: Asked) -> None:
        """Notes that a request adds nothing, though no answer to it is read."""
        if asked.domain is not None:
            asked.domain.open.pop(asked.number, None)

    def answered(self, asked: Asked) -> None:
        """Notes the answer of a request: `reply` and `fields` are set. Raises Inconsistent."""
        fields, domain = asked.fields, asked.domain
        if "code" in fields or not asked.request.adds_entry:
            self._mark(asked)
        elif domain is None:
            raise Inconsistent("a slot that there isn't has an entry")
        else:
            asked.version = fields["version"]
            asked.place = asked.version if domain is self._policy else fields["place"]
            self._hold(asked, domain)
            self._collect(asked)

    def _mark(self, asked: Asked) -> None:
        """Notes what an answer without an entry may have seen."""
        if asked.domain is not None:
            del asked.domain.open[asked.number]
        version = asked.fields.get("version")
        if version is None:
            asked.policy_mark = self._policy.sent
        else:
            asked.version = version
        slot = asked.request.slot
        if slot is not None and slot < SLOTS:
            asked.slot_mark = self._domains[slot].sent

    def _hold(self, asked: Asked, domain: Domain) -> None:
        """Keeps an entry until it is ready. Raises Inconsistent, where its place is taken."""
        if asked.place <= domain.ready or asked.place in domain.held:
            raise Inconsistent(f"place {asked.place} is given twice")
        domain.held[asked.place] = asked
        before = self._last.get(asked.session)
        self._last[asked.session] = asked
        if before is not None and not before.is_ready:
            asked.before, before.after = before, asked

    def _collect(self, asked: Asked) -> None:
        """Makes ready what became so by an answer."""
        waiting: List[Optional[Asked]] = [asked]
        while waiting:
            found = waiting.pop()
            domain = found.domain if found is not None else None
            if found is None or domain is None or found.is_ready or not self._is_next(found):
                continue
            found.is_ready = True
            domain.ready = found.place
            del domain.held[found.place]
            self._ready.append(found)
            waiting.append(found.after)
            if domain.held:
                waiting.append(domain.held.get(domain.ready + 1))
            if domain is self._policy:
                waiting += [slot.held.get(slot.ready + 1) for slot in self._slots if slot.held]

    def _is_next(self, asked: Asked) -> bool:
        """Whether all that an entry comes after is ready."""
        domain, before = asked.domain, asked.before
        if domain is None or asked.place != domain.ready + 1:
            return False
        if before is not None and not before.is_ready:
            return False
        return domain is self._policy or asked.version <= self._policy.ready

    def is_slot_settled(self, slot: int) -> bool:
        """Whether no command on a slot is under way."""
        return not self._domains[slot].open

    def leave(self, session: Any) -> None:
        """Notes that a session is closed: it adds nothing any more."""
        self._last.pop(session, None)

    def take_ready(self) -> List[Asked]:
        """The entries that are to be written next, in an order that keeps the rules, all in one
        transaction."""
        ready, self._ready = self._ready, []
        return ready

    def written(self, entries: List[Asked]) -> None:
        """Notes that these, which `take_ready` gave, are on the disk."""
        for asked in entries:
            domain = asked.domain
            assert domain is not None  # else it has no entry
            domain.written = asked.place
            del domain.open[asked.number]
            asked.is_written = True
            asked.before = None

    def may_go(self, asked: Asked) -> bool:
        """Whether the answer of a request may go out."""
        if asked.place:
            return asked.is_written
        if asked.version > self._policy.written or not self._policy.is_settled(asked.policy_mark):
            return False
        slot = asked.request.slot
        return slot is None or slot >= SLOTS or self._domains[slot].is_settled(asked.slot_mark)
