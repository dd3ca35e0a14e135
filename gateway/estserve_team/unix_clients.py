"""The clients at the two Unix sockets: team.sock speaks the program's lines, gateway.sock the
gateway's own words."""
import asyncio
import json
from collections import deque
from typing import Any, Deque, Dict, List, Optional

from . import fault_points, words
from .answer_order import Asked
from .gateway import Gateway
from .line_client import LineClient
from .lines import Request, read_plain
from .refusals import Refused, failed, not_a_word, not_you
from .sessions import Session, SharedSession

WINDOW = 128  # answers that one client may have to wait for
CHANGES_OF_ROLES = ("activate", "drop")
TOO_LONG = b'{"code":1,"fault":"TooLong"}'


class Item:
    """One answer that a client has to get, once it may go out: its line, without LF."""

    __slots__ = ("line", "size")

    def __init__(self, size: int = 0) -> None:
        self.line: Optional[bytes] = None
        self.size = size  # of the line that asked for it


class TeamClient(LineClient):
    """A client of team.sock: it has the answers of the program, and those of the gateway where it
    refuses a login."""

    def __init__(self, gateway: Gateway, clients: "set[LineClient]") -> None:
        super().__init__(gateway, clients)
        self.session: Optional[Session] = None
        self.items: Deque[Item] = deque()
        self.under_way = 0  # bytes of the lines that these answer
        self._is_busy = False  # a login or a logout is under way

    def may_take(self) -> bool:
        return not self._is_busy and self._choked is None and self._has_room()

    def settle(self) -> None:
        if self.session is not None and not self.session.is_over:
            self.session.flush()
        self.resume()
        if self.is_at_end and not self.lines and not self.items and not self._is_busy:
            self.close()

    def _has_room(self) -> bool:
        """Whether another line may be under way."""
        return len(self.items) < WINDOW and self.under_way <= self.gateway.limits.waiting_bytes

    def is_busy(self) -> bool:
        return bool(self.lines or self.items or self._is_busy)

    def take(self, line: Optional[bytes]) -> None:
        item = Item(len(line or b""))
        self.items.append(item)
        self.under_way += item.size
        if line is None:
            self._put(item, TOO_LONG)
            return
        request = self.gateway.reader.understand(line)
        fault_points.reach(fault_points.TAKEN)
        if request is None or (self.session is None and request.cmd != "login"):
            self.gateway.answerer.ask(line, lambda answer: self._put(item, answer))
        elif request.cmd == "login" and not self.person.may_be(request.keys["user"]):
            user = request.keys["user"]
            self.gateway.note_refusal(self.person.name, user, "login", "NotYou")
            self._put(item, not_you(user).line)
        elif self.session is None:
            self._begin(self._log_in(request, item))
        elif self.session.is_worn and request.cmd != "logout":
            self._begin(self._renew(line))
            self.under_way -= self.items.pop().size
        elif request.slot in self.gateway.slot_gate.closed:
            self._is_busy = True
            self._put_back(line)
            self.gateway.slot_gate.wait_for(self)
        elif request.cmd in CHANGES_OF_ROLES and self._is_refused(item):
            return
        else:
            self._is_busy = request.cmd == "logout"
            self.session.ask(Asked(request, self.session, self._have, item))

    def _put_back(self, line: bytes) -> None:
        """Has a line wait on, which was taken last."""
        self.under_way -= self.items.pop().size
        self.lines.appendleft(line)
        self.waiting += len(line)

    def go_on(self) -> None:
        """Takes the line again for which it had to wait."""
        self._is_busy = False
        self.pump()

    def _is_refused(self, item: Item) -> bool:
        """Whether this person has changed roles too often; then that is the answer."""
        assert self.session is not None  # else the line is a login
        try:
            self.gateway.accounts.check_entry(self.session)
        except Refused as refused:
            self._put(item, refused.line)
            return True
        return False

    def _begin(self, work: Any) -> None:
        """Does something before the next line is taken."""
        self._is_busy = True
        asyncio.ensure_future(work)

    def _put(self, item: Item, line: bytes) -> None:
        """Has an answer that is none of the session's. It goes out with the next flush."""
        item.line = line
        if not self.gateway.dirty:
            asyncio.get_running_loop().call_soon(self.gateway.flush)
        self.gateway.dirty.add(self)

    def _have(self, asked: Asked) -> None:
        """Has an answer of the session, which may go out; or none comes, and the connection
        ends."""
        if not asked.reply:
            self.lose()
            return
        asked.context.line = asked.reply
        if asked.request.cmd == "logout":
            self._is_busy = False
            if asked.session.is_over:
                self.session = None
        self.gateway.dirty.add(self)

    async def _log_in(self, request: Request, item: Item) -> None:
        """Makes a session by a login, or has its refusal."""
        try:
            session = await self.gateway.open_session(
                self.person,
                request.keys["user"],
                request.keys["roles"],
                answer=lambda reply: self._put(item, reply),
            )
        except Refused as refused:
            session = None
            if refused.code == 1004:
                self.lose()
            elif item.line is None:
                self._put(item, refused.line)
        await self._take_session(session)

    async def _take_session(self, session: Optional[Session]) -> None:
        """Holds a session, or gives it up again where the client has gone meanwhile. Where it is
        over already, the connection ends."""
        self._is_busy = False
        if session is not None and self.is_gone:
            await self.gateway.close_session(session)
            return
        if session is not None and session.is_over:
            self.lose()
            return
        self.session = session
        if session is not None:
            session.on_close = self.lose
        self.pump()

    async def _renew(self, line: bytes) -> None:
        """Changes the connection to the server, and takes the line again. Where that can't be, the
        client's connection ends."""
        session, self.session = self.session, None
        assert session is not None
        session.on_close = None
        try:
            renewed = await self.gateway.renew(session)
        except Refused:
            self.lose()
            return
        self.lines.appendleft(line)
        self.waiting += len(line)
        await self._take_session(renewed)

    def lose(self) -> None:
        """Ends the connection, since its session is lost: what may go out goes out."""
        self.session = None
        self._write()
        self.close()

    def flush(self) -> None:
        """Sends the answers that are there, in the order of their lines."""
        self._write()
        self.pump()

    def _write(self) -> None:
        out: List[bytes] = []
        items = self.items
        while items and items[0].line is not None:
            item = items.popleft()
            self.under_way -= item.size
            out.append(item.line)  # type: ignore[arg-type]
        if out and not self._transport.is_closing():
            out.append(b"")
            self._transport.write(b"\n".join(out))

    def leave(self) -> None:
        session, self.session = self.session, None
        if session is not None and not session.is_over:
            session.on_close = None
            asyncio.ensure_future(self.gateway.close_session(session))


class WordClient(LineClient):
    """A client of gateway.sock: it asks one word after the other, in a shared session that it logs
    in to."""

    def __init__(self, gateway: Gateway, clients: "set[LineClient]") -> None:
        super().__init__(gateway, clients)
        self.session: Optional[SharedSession] = None
        self.is_parked = False  # until another word of this user is done
        self._archives = gateway.archives  # of which it knows
        self._task: "Optional[asyncio.Future[None]]" = None

    def may_take(self) -> bool:
        return self._task is None and self._choked is None and not self.is_parked

    def settle(self) -> None:
        if self.is_at_end and not self.lines and self._task is None and self._choked is None:
            self.close()

    def take_turn(self, until: float) -> bool:
        self.has_asked = False
        if self.lines and self.may_take() and self.gateway.turns.begin_word(self):
            self.take(self.next_line())
        self.settle()
        return False

    def take(self, line: Optional[bytes]) -> None:
        user, asked = self.uid, read_plain(line) if line is not None else None
        self._task = asyncio.ensure_future(self._answer(line, asked))
        self._task.add_done_callback(lambda _: self._go_on(user))

    def _go_on(self, user: Any) -> None:
        self._task = None
        self.gateway.turns.end_word(user)
        self.resume()
        self.pump()

    def is_busy(self) -> bool:
        return bool(self.lines) or self._task is not None

    async def _answer(self, line: Optional[bytes], asked: Optional[Dict[str, Any]]) -> None:
        """Answers one word."""
        try:
            answer = await self._act(line, asked)
        except Refused as refused:
            answer = refused.answer
        except Exception as fault:  # a fault of one word is told, and the gateway goes on
            self.gateway.log(f"a word failed: {fault!r}")
            answer = failed("the gateway has a fault").answer
        if not self._transport.is_closing():
            self._transport.write(
                json.dumps(answer, separators=(",", ":"), sort_keys=True).encode() + b"\n"
            )

    async def _act(self, line: Optional[bytes], asked: Optional[Dict[str, Any]]) -> Dict[str, Any]:
        """Carries out the word of a line. Raises Refused."""
        if line is None:
            raise not_a_word("the line is too long")
        if asked is None:
            raise not_a_word("the line is no object of JSON")
        if asked.get("word") in ("login", "logout"):
            return await self._change_login(asked)
        session = self.session if self.session is not None and not self.session.is_over else None
        context = words.Context(self.gateway, self.person, session)
        act = self._archive if asked.get("word") == "archive" else words.act_on
        return await act(context, asked)

    async def _archive(self, context: words.Context, asked: Dict[str, Any]) -> Dict[str, Any]:
        """Has an archive made, unless another has come since this client was told of the last one: of
        several that are asked for at once one is made, however long the others had to wait. Raises
        Refused."""
        try:
            if self._archives != self.gateway.archives:
                raise failed("an archive was made meanwhile; ask again")
            return await words.act_on(context, asked)
        finally:
            self._archives = self.gateway.archives

    async def _change_login(self, asked: Dict[str, Any]) -> Dict[str, Any]:
        """`login` shares a session for this connection, `logout` gives it up. Raises Refused."""
        word = asked["word"]
        keys = {key: value for key, value in asked.items() if key != "word"}
        words.check_keys(words.LOGINS[word], keys)
        await self._give_up()
        if word == "logout":
            return {"ok": word}
        roles = keys.get("roles", [])
        if not all(isinstance(role, str) for role in roles):
            raise not_a_word("roles is a list of names")
        self.session = await self.gateway.share(self.person, keys["user"], roles)
        if self.is_gone:
            await self._give_up()
        return {"ok": word, "session": self.session.number if self.session else 0}

    async def _give_up(self) -> None:
        session, self.session = self.session, None
        if session is not None:
            await session.leave()

    def leave(self) -> None:
        asyncio.ensure_future(self._give_up())
