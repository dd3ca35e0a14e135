"""A client of a Unix socket that sends lines: who it is, its lines as they come, and when it is its
turn to have them read."""
import asyncio
import socket
import time
from collections import deque
from typing import TYPE_CHECKING, Any, Deque, Optional

from .lines import LINE_BYTES, cut_lines
from .people import Person, peer_uid
from .refusals import Refused, unknown_person

if TYPE_CHECKING:
    from .gateway import Gateway

MOST_LINES = 1_000  # of one client wait; beyond that no more are read
FEW_LINES = 200


class LineClient(asyncio.Protocol):
    """A client that sends lines: who it is, and its lines as they come."""

    line_bytes = LINE_BYTES

    def __init__(self, gateway: "Gateway", clients: "set[LineClient]") -> None:
        self.gateway, self.clients = gateway, clients
        self.lines: Deque[
            Optional[bytes]
        ] = deque()  # None stands for a line that is too long; after it nothing counts
        self.person: Person = None  # type: ignore[assignment]
        self.uid: Optional[int] = None  # where its connection is counted
        self.is_gone = self.is_at_end = False
        self.waiting = 0  # bytes of the lines that wait
        self.has_asked = False  # for its turn to have lines read
        self._held = b""
        self._is_paused = False
        self._transport: Any = None
        self._heard = time.monotonic()
        self._choked: Optional[float] = None  # since when it reads no answers

    def connection_made(self, transport: Any) -> None:
        self._transport = transport
        self.clients.add(self)
        try:
            self.identify(transport.get_extra_info("socket"))
        except (Refused, OSError) as fault:
            refused = fault if isinstance(fault, Refused) else unknown_person(-1)
            self.is_at_end = True
            transport.write(refused.line + b"\n")
            self.close()

    def identify(self, connection: socket.socket) -> None:
        """Notes who the peer is. Raises Refused, OSError."""
        self.person = self.gateway.people.of_uid(peer_uid(connection))

    def data_received(self, data: bytes) -> None:
        if self.is_at_end or self.is_gone:
            return
        self._heard = time.monotonic()
        lines, self._held = cut_lines(self._held, data)
        for line in lines:
            if len(line) > self.line_bytes:
                self._end_lines(None)
                break
            self.lines.append(line)
            self.waiting += len(line)
        else:
            if len(self._held) > self.line_bytes:
                self._end_lines(None)
        if not self._is_paused and self._has_enough():
            self._is_paused = True
            self._transport.pause_reading()
        self.pump()

    def _has_enough(self) -> bool:
        """Whether no more lines are to be read now."""
        return len(self.lines) > MOST_LINES or self.waiting > self.gateway.limits.waiting_bytes

    def next_line(self) -> Optional[bytes]:
        """The line that waits longest, which waits no more; None for one that is too long."""
        line = self.lines.popleft()
        self.waiting -= len(line or b"")
        return line

    def look_after(self) -> None:
        """Ends a connection that reads no answers, or is not used."""
        now, limits = time.monotonic(), self.gateway.limits
        if self._choked is not None and now - self._choked > limits.slow_seconds:
            self.gateway.log("a client reads no answers: its connection is ended", "slow")
            self._transport.abort()
        elif now - self._heard > limits.idle_seconds and not self.is_busy():
            self.close()

    def is_busy(self) -> bool:
        """Whether an answer is missing."""
        return bool(self.lines)

    def pause_writing(self) -> None:
        self._choked = time.monotonic()

    def resume_writing(self) -> None:
        self._choked = None
        self.pump()

    def _end_lines(self, *last: Optional[bytes]) -> None:
        """Takes no more lines than these."""
        self.is_at_end = True
        self._held = b""
        self.lines.extend(last)

    def resume(self) -> None:
        """Reads on, where that was paused and few lines are left."""
        if not self._is_paused or self.is_gone:
            return
        if len(self.lines) < FEW_LINES and self.waiting < self.gateway.limits.waiting_bytes // 2:
            self._is_paused = False
            self._transport.resume_reading()

    def eof_received(self) -> bool:
        if not self.is_at_end:
            self._end_lines(*([self._held] if self._held else []))
        self.pump()
        return True

    def connection_lost(self, fault: Optional[Exception]) -> None:
        self.is_gone = self.is_at_end = True
        self.lines.clear()
        self.clients.discard(self)
        uid, self.uid = self.uid, None
        if uid is not None:
            self.gateway.accounts.disconnect(uid)
        self.leave()

    def follow_people(self) -> None:
        """Takes the person anew, after who may be whom was changed; a login that this person may no
        more have is ended."""
        if self.uid is not None and not self.is_gone:
            try:
                self.person = self.gateway.people.of_uid(self.uid)
            except Refused:
                self.close()
                return
            user = self.held_user()
            if user is not None and not self.person.may_be(user):
                self.close()

    def held_user(self) -> Optional[str]:
        """The user of the login that is held, if one is."""
        session = getattr(self, "session", None)
        return None if session is None or session.is_over else session.user

    def close(self) -> None:
        """Ends the connection, once what was written is sent."""
        if not self.is_gone:
            self.is_gone = True
            self.lines.clear()
            self._transport.close()

    def pump(self) -> None:
        """Takes lines when it is the client's turn, as far as that is possible then."""
        if not self.lines or not self.may_take():
            self.settle()
        elif not self.has_asked:
            self.has_asked = True
            self.gateway.turns.ask(self)

    def take_turn(self, until: float) -> bool:
        """Takes lines, one at least, until some time. Answers whether there are more that could be
        taken."""
        while self.lines and self.may_take():
            self.take(self.next_line())
            if time.monotonic() >= until:
                break
        self.has_asked = bool(self.lines) and self.may_take()
        self.settle()
        return self.has_asked

    def may_take(self) -> bool:
        """Whether a line can be taken now, where there is one."""
        raise NotImplementedError

    def take(self, line: Optional[bytes]) -> None:
        """Has one line answered."""
        raise NotImplementedError

    def settle(self) -> None:
        """Does what there is to do after lines were taken, or none could be."""
        raise NotImplementedError

    def leave(self) -> None:
        """Gives up the login, if one is held."""
        raise NotImplementedError
