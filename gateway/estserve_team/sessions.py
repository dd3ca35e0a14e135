"""The sixteen logins: each has a connection of its own to the server, from its login to the answer
of its logout."""
import asyncio
import json
import pathlib
import socket
import time
from collections import deque
from typing import (
    Any,
    Callable,
    Deque,
    Dict,
    List,
    NamedTuple,
    Optional,
    TYPE_CHECKING,
    Tuple,
    cast,
)

from . import fault_points
from .answer_order import Asked
from .lines import Request, cut_lines, request_of
from .loop import begin
from .people import Person
from .record import Connection
from .refusals import id_taken, interrupted, on_shared

if TYPE_CHECKING:
    from .gateway import Gateway

SEATS = 16
MOST_SENDS = 900_000  # of one connection: its server ends after 1,000,000 reads
PIECE = 4_096  # a longer send may take as many reads as it has such pieces
WAIT_SECONDS = 120  # without an answer in this time the server is given up
MOST_UNDER_WAY = 64  # of one shared session
LONGEST_ID = 64
DECODE: Any = json.JSONDecoder().scan_once  # type: ignore[attr-defined]  # which no stub has
CHANGES = frozenset(("login", "activate", "drop"))  # what changes a session
LOGOUT = cast(Request, request_of({"cmd": "logout"}))
NOT_A_REQUEST = b'{"code":3,"fault":"NotARequest"}'
KEPT_FROM_SHARED = {"login", "logout", "activate", "drop"}


class Holder(NamedTuple):
    """Who holds one of the sixteen, since when, and the number of its recorded connection."""

    user: str
    person: str
    roles: Tuple[str, ...]
    session: int
    since: float
    connection: int


class Session(asyncio.Protocol):
    """A connection to the server, for one login."""

    def __init__(
        self, gateway: "Gateway", number: int, person: Person, user: str, roles: List[str]
    ) -> None:
        self.gateway, self.number, self.person, self.user = gateway, number, person, user
        self.login_roles = json.dumps(roles)
        self.roles = list(roles)  # that are active
        self.session = 0  # the program's number, once the login is answered
        self.since = time.time()
        self.flight: Deque[Asked] = deque()  # sent, not answered
        self.answered: Deque[Asked] = deque()  # answered, not gone out
        self.sends = 0
        self.is_over = False  # lost with the server, or logged out
        self.is_recorded = False  # its login is in the record, or may be, since a write has failed
        self.keeps_seat = False
        self.on_close: Optional[
            Callable[[], None]
        ] = None  # whoever holds it is told that it is lost, or logged out by the gateway
        self._lines: List[bytes] = []
        self._held = b""
        self._awaited: Tuple[Optional[Asked], float] = None, 0.0  # the oldest, and since when
        self._transport: Any = None

    async def connect(self, path: pathlib.Path) -> None:
        """Opens the connection. Raises OSError."""
        connection = socket.socket(socket.AF_UNIX, socket.SOCK_STREAM)
        try:
            connection.setblocking(False)
            await asyncio.get_running_loop().sock_connect(connection, str(path))
            await begin(connection, self)
        except BaseException:
            connection.close()
            raise

    def connection_made(self, transport: Any) -> None:
        self._transport = transport

    @property
    def is_connected(self) -> bool:
        """Whether the connection is made."""
        return self._transport is not None

    @property
    def is_worn(self) -> bool:
        """Whether it was sent to so often that it is to be changed."""
        return self.sends >= self.gateway.most_sends

    def holder(self) -> Holder:
        """Who holds it."""
        return Holder(
            self.user, self.person.name, tuple(self.roles), self.session, self.since, self.number
        )

    def as_recorded(self) -> Connection:
        """Its connection, for the record, which has it from now on, or may have it."""
        self.is_recorded = True
        return Connection(self.number, self.session, self.user, self.person.name, self.login_roles)

    def ask(self, asked: Asked) -> None:
        """Sends a request with the next `flush`."""
        asked.time = time.time()
        self.gateway.order.sent(asked)
        self.flight.append(asked)
        self._lines.append(asked.request.line)

    def flush(self) -> None:
        """Sends what was asked."""
        if self._lines:
            self._lines.append(b"")
            text = b"\n".join(self._lines)
            self._lines = []
            self.sends += 1 + len(text) // PIECE
            self._transport.write(text)
            fault_points.reach(fault_points.ASKED)

    def data_received(self, data: bytes) -> None:
        if self.is_over:
            return
        try:
            lines, self._held = cut_lines(self._held, data)
            fault_points.reach(fault_points.ANSWERED)
            for line in lines:
                self._take(line)
        except Exception as fault:  # an answer is lost, whatever the cause is
            self.gateway.fail(f"the server gives an answer that cannot be: {fault!r}")
            return
        self.gateway.after_answers()

    def _take(self, line: bytes) -> None:
        """Takes the answer to the oldest request."""
        asked = self.flight.popleft()
        text = line.decode()
        fields, end = DECODE(text, 0)
        cmd = asked.request.cmd
        is_done = fields.get("ok") == cmd
        if end != len(text) or is_done == ("code" in fields) or is_done != ("ok" in fields):
            raise ValueError(line)
        asked.reply, asked.fields, asked.time = line, fields, time.time()
        if not is_done or cmd in CHANGES:
            self._follow(asked)
        self.gateway.order.answered(asked)
        self.answered.append(asked)

    def _follow(self, asked: Asked) -> None:
        """Notes what an answer changes in this session."""
        cmd, keys = asked.request.cmd, asked.request.keys
        if "ok" not in asked.fields:
            fault = str(asked.fields.get("fault"))
            self.gateway.note_refusal(self.person.name, self.user, cmd, fault)
            return
        if cmd == "login":
            self.session = asked.fields["session"]
        elif cmd == "activate":
            self.roles.append(keys["role"])
        elif cmd == "drop":
            self.roles.remove(keys["role"])

    def connection_lost(self, fault: Optional[Exception]) -> None:
        if not self.is_over:
            self.gateway.fail("the server has ended a connection")

    def is_late(self, now: float) -> bool:
        """Whether an answer is missing for too long, by a clock that nobody sets; this is asked
        again and again."""
        oldest = self.flight[0] if self.flight else None
        if oldest is not self._awaited[0]:
            self._awaited = oldest, now
        return oldest is not None and now - self._awaited[1] > WAIT_SECONDS

    def end(self) -> None:
        """Closes the connection, and frees its seat."""
        self.is_over = True
        if self._transport is not None:
            self._transport.close()
        if not self.keeps_seat:
            self.gateway.sessions.pop(self.number, None)
        for asked in self.flight:  # without a login nothing that was asked has an entry
            self.gateway.order.forget(asked)
        self.gateway.order.leave(self)
        self._lose_all()

    def abandon(self) -> None:
        """Gives up the connection with the server: what was not answered, or may not go out, is
        lost."""
        self.is_over = True
        if self._transport is not None:
            self._transport.abort()
        self._lose_all()
        if self.on_close:
            self.on_close()

    def _lose_all(self) -> None:
        """Tells whoever waits for an answer that none comes."""
        lost = [*self.answered, *self.flight]
        self.answered.clear()
        self.flight.clear()
        for asked in lost:
            asked.lose()


def set_result(asked: Asked) -> None:
    """Gives an answer to the future that waits for it: `done` of what is asked with a future as its
    context."""
    future = asked.context
    if future.done():
        return
    if asked.reply:
        future.set_result(asked.reply)
    else:
        future.set_exception(interrupted())
        future.exception()  # it is no fault where nobody waits any more


def ask_later(
    session: Session, request: Request, request_id: Optional[str] = None
) -> "asyncio.Future[bytes]":
    """Sends a request, and gives the future of its answer."""
    future: "asyncio.Future[bytes]" = asyncio.get_running_loop().create_future()
    session.ask(Asked(request, session, set_result, future, request_id))
    session.flush()
    return future


def login_request(user: str, roles: List[str]) -> Optional[Request]:
    """The login of a user in these roles, if they are names."""
    return request_of({"cmd": "login", "user": user, "roles": list(roles)})


class SharedSession:
    """One login that all who came with the same person, user and roles share."""

    def __init__(
        self, gateway: "Gateway", key: Tuple[str, str, Tuple[str, ...]], session: Session
    ) -> None:
        self._gateway, self.key, self._session = gateway, key, session
        self.person, self.user, self.roles = session.person, session.user, tuple(session.roles)
        self.count = 0
        self._room = asyncio.Semaphore(MOST_UNDER_WAY)
        self._renewing = asyncio.Lock()

    @property
    def number(self) -> int:
        """The program's number of the session."""
        return self._session.session

    @property
    def is_over(self) -> bool:
        """Whether the session is lost, or logged out: share again."""
        return self._session.is_over and not self._renewing.locked()

    async def ask(self, command: Dict[str, Any], request_id: Optional[str] = None) -> bytes:
        """Asks one command; the answer line without LF, once it may go out.

        One with an id that is recorded is answered from the record; one that is under way is
        joined. Raises Refused: 1004 where no answer came, 1014 for what changes the login
        itself, 1015 where the id is another request's."""
        request = request_of(command)
        if request is None:
            return NOT_A_REQUEST
        if request.cmd in KEPT_FROM_SHARED:
            raise on_shared(request.cmd)
        if request_id is None:
            return await self._send(request, None)
        return await self._ask_once(request, request_id)

    async def ask_answer(
        self, command: Dict[str, Any], request_id: Optional[str] = None
    ) -> Dict[str, Any]:
        """As `ask`, with the answer as an object."""
        answer: Dict[str, Any] = json.loads(await self.ask(command, request_id))
        return answer

    async def _ask_once(self, request: Request, request_id: str) -> bytes:
        """Asks a request with an id, which is carried out once."""
        if not (
            0 < len(request_id) <= LONGEST_ID and request_id.isascii() and request_id.isprintable()
        ):
            raise id_taken(request_id[:LONGEST_ID])
        key = (self.person.name, request_id)
        under_way = self._gateway.under_way.get(key)
        if under_way is None:
            recorded = self._gateway.answer_to(*key)
            if recorded is not None:
                self._check_same(recorded[0], request, request_id)
                return recorded[1]
            task = asyncio.ensure_future(self._send(request, request_id))
            under_way = self._gateway.under_way[key] = (request.line, task)
            task.add_done_callback(lambda _: self._gateway.under_way.pop(key, None))
        self._check_same(under_way[0], request, request_id)
        return await asyncio.shield(under_way[1])

    @staticmethod
    def _check_same(line: bytes, request: Request, request_id: str) -> None:
        """Raises Refused, where a request with this id isn't the one that had it before."""
        if line != request.line:
            raise id_taken(request_id)

    async def _send(self, request: Request, request_id: Optional[str]) -> bytes:
        """Sends a request, where there is room, and waits for its answer. Raises Refused."""
        async with self._room:
            if self._session.is_worn:
                await self._renew()
            await self._gateway.slot_gate.until_open(request.slot)
            return await ask_later(self.own_session(), request, request_id)

    def own_session(self) -> Session:
        """The session that is shared. Raises Refused, where it is over."""
        if self._session.is_over:
            raise interrupted()
        return self._session

    async def _renew(self) -> None:
        """Changes the connection, once for all who wait."""
        async with self._renewing:
            if self._session.is_worn and not self._session.is_over:
                self._session = await self._gateway.renew(self._session)

    async def leave(self) -> None:
        """Gives up this share. The last one logs out."""
        self.count -= 1
        if self.count == 0:
            held = self._gateway.shared.get(self.key)
            if held is not None and held.done() and not held.exception() and held.result() is self:
                del self._gateway.shared[self.key]
            if not self._session.is_over:
                await self._gateway.close_session(self._session)
