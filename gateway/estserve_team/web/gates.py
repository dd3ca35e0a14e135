"""The connections over HTTP: how many there may be, and how long each may take for what.

A connection is known once a request on it has shown a visit. One that isn't is the first to be
ended where others need its place."""
import asyncio
import time
import weakref
from typing import Any, Callable, Dict, Iterator, Optional

from ..limits import Limits
from ..people import peer_uid
from ..refusals import Refused, too_many

AHEAD_BYTES = 1 << 20  # may come before an answer is whole
AHEAD_HEADS = 8  # so may the heads of further requests, each of which takes memory
AT_ONCE = 8  # requests of one person that the gateway carries out
KEPT_SECONDS = 60  # a known connection may be silent so long between two requests
REFUSED = b"HTTP/1.1 503 Service Unavailable\r\nContent-Length: 0\r\nConnection: close\r\n\r\n"


class Gate(asyncio.Protocol):
    """One connection, on its way to aiohttp."""

    def __init__(self, gates: "Gates", inner: Any, address: str) -> None:
        self._gates, self._inner = gates, inner
        self.address = address  # empty for the proxy's
        self.person: Optional[str] = None
        self.shown: Optional[Dict[str, str]] = None  # the secrets of the person's visit
        self.transport: Any = None
        self.since = time.monotonic()  # when it began to wait for a head
        self.is_at_work = False  # a request is being answered
        self._came = self._heads = 0
        self._tail = b""
        self._choked: Optional[float] = None
        self._is_closed = False

    def connection_made(self, transport: Any) -> None:
        self.transport = transport
        if self._is_closed:
            transport.abort()
        self._gates.by_transport[transport] = self
        self._inner.connection_made(transport)

    def data_received(self, data: bytes) -> None:
        self._came += len(data)
        self._count_heads(data)
        if self._came > AHEAD_BYTES or self._heads > AHEAD_HEADS:
            self.transport.abort()
        else:
            self._inner.data_received(data)

    def _count_heads(self, data: bytes) -> None:
        """Counts what may be ends of heads, by lines that are empty."""
        text = self._tail + data
        for end in (b"\n\r\n", b"\n\n"):
            self._heads += text.count(end) - self._tail.count(end)
        self._tail = text[-2:]

    def eof_received(self) -> Optional[bool]:
        stays: Optional[bool] = self._inner.eof_received()
        return stays

    def pause_writing(self) -> None:
        self._choked = time.monotonic()
        self._inner.pause_writing()

    def resume_writing(self) -> None:
        self._choked = None
        self._inner.resume_writing()

    def connection_lost(self, fault: Optional[Exception]) -> None:
        self._gates.forget(self)
        if self.transport is not None:
            self._inner.connection_lost(fault)

    def begin(self) -> None:
        """The head of a request has come."""
        self.is_at_work = True

    def end(self) -> None:
        """A request is answered."""
        self.is_at_work, self.since, self._came = False, time.monotonic(), 0
        self._heads = max(0, self._heads - 1)

    def is_late(self, now: float, limits: Limits) -> bool:
        """Whether it takes too long for what it does."""
        if self._choked is not None:
            return now - self._choked > limits.slow_seconds
        most = limits.header_seconds if self.person is None else KEPT_SECONDS
        return not self.is_at_work and now - self.since > most

    def close(self) -> None:
        """Ends it at once."""
        self._is_closed = True
        self._gates.forget(self)
        if self.transport is not None:
            self.transport.abort()


class Gates:
    """All connections over HTTP."""

    def __init__(
        self, limits: Limits, make: Callable[[], Any], proxy: Optional[int] = None
    ) -> None:
        """`make` gives the protocol of aiohttp; `proxy` is whom the Unix socket is for."""
        self._limits, self._make, self._proxy = limits, make, proxy
        self._gates: Dict[Gate, None] = {}  # the oldest first
        self.by_transport: Dict[Any, Gate] = {}
        self._turns: "weakref.WeakValueDictionary[Any, asyncio.Semaphore]" = (
            weakref.WeakValueDictionary()
        )

    def __len__(self) -> int:
        return len(self._gates)

    def admit(self, connection: Any) -> Gate:
        """The protocol of a connection that was just made. Raises Refused, where there are too
        many of those that are known; others make place."""
        address = self._address_of(connection)
        if address:
            own = [gate for gate in self._strangers() if gate.address == address]
            if len(own) >= self._limits.address_connections:
                own[0].close()
        if len(self._gates) >= self._limits.http_connections:
            stranger = next(self._strangers(), None)
            if stranger is None:
                raise too_many("connections over HTTP", self._limits.http_connections)
            stranger.close()
        gate = Gate(self, self._make(), address)
        self._gates[gate] = None
        return gate

    def _address_of(self, connection: Any) -> str:
        """Whence a connection comes: a host, or at the Unix socket a user who is not the proxy;
        empty for the proxy's."""
        name = connection.getpeername()
        if isinstance(name, tuple):
            return str(name[0])
        uid = peer_uid(connection) if self._proxy is not None else None
        return "" if uid == self._proxy else f"user {uid}"

    def _strangers(self) -> Iterator[Gate]:
        return (gate for gate in self._gates if gate.person is None)

    def is_known(self, transport: Any, secrets: Dict[str, str]) -> bool:
        """Whether the secrets were found to be those of a visit on this connection. The gateway
        sees each time whether they still are."""
        gate = self.by_transport.get(transport)
        return gate is not None and gate.shown == secrets

    def know(self, transport: Any, person: str, secrets: Dict[str, str]) -> None:
        """Notes whose connection it is. Raises Refused, where this person has too many."""
        gate = self.by_transport.get(transport)
        if gate is None:
            return
        most = self._limits.person_http
        if gate.person != person:
            if sum(other.person == person for other in self._gates) >= most:
                raise too_many("connections of one person over HTTP", most)
        gate.person, gate.shown = person, dict(secrets)

    def turn_of(self, transport: Any) -> asyncio.Semaphore:
        """What a request has to hold while the gateway carries it out: each person may have a few
        under way, and those who are not known together too."""
        gate = self.by_transport.get(transport)
        person = gate.person if gate is not None else None
        turn = self._turns.get(person)
        if turn is None:
            turn = self._turns[person] = asyncio.Semaphore(AT_ONCE)
        return turn

    def forget(self, gate: Gate) -> None:
        """A connection has ended."""
        self._gates.pop(gate, None)
        self.by_transport.pop(gate.transport, None)

    def look_after(self) -> None:
        """Ends the connections that take too long."""
        now = time.monotonic()
        for gate in [one for one in self._gates if one.is_late(now, self._limits)]:
            gate.close()

    @staticmethod
    def told(refused: Refused) -> bytes:
        """What a connection is told that can't be taken."""
        return REFUSED
