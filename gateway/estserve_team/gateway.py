"""The gateway: the server, the record, the sixteen logins and who listens to new entries, on one
asyncio loop.

What comes from clients goes to the server by `Session.ask`; what comes from the server goes to
`Order`, which says what may be written and what may go out. Entries that are ready are written
at once by `_commit`, to the record's head, and answers that may go out then go out in `release`;
the record's file takes entries of some time together. Whatever goes wrong between server and record
ends in `fail`: from there on nothing is answered, the server is ended, and begun anew from the
record.
"""
import asyncio
import sqlite3
import time
from pathlib import Path
from typing import Any, Callable, Dict, List, Optional, Set, Tuple

from . import administrator_words, fault_points, reads, visiting, words
from .answer_order import Asked, Order
from .answerer import Answerer
from .limits import Accounts, Limits
from .lines import Reader, Request
from .log import Log, is_out_of_descriptors
from .metrics import Counts
from .people import People, Person
from .places import Failed, Places
from .record import POLICY, Connection, Entry, GivenUp, RecordWriter, remove_record
from .refusals import ProgramRefused, Refused, all_taken, failed, interrupted, not_you, stopping
from .server import Lost
from .sessions import (
    LOGOUT,
    MOST_SENDS,
    SEATS,
    Holder,
    Session,
    SharedSession,
    ask_later,
    login_request,
)
from .slot_gate import SlotGate
from .starting import Begun, replace_record, restore_record, start_server
from .turns import Turns
from .watchdog import Reserve, Watchdog

STARTING, SERVING, BEGINNING, ARCHIVING, STOPPING = (
    "starting",
    "serving",
    "beginning anew",
    "archiving",
    "stopping",
)
WATCH_SECONDS = 1.0
FLUSH_SECONDS = 0.25  # after this time the record's file takes what the head has already
UNUSED_SECONDS = 5.0  # after this time a shared login for which nobody has waited is logged out
AGAIN_SECONDS = 0.05  # after this time a logout for which there was no memory is asked again
MOST_STARTS = 5  # of servers that are lost while they are begun, or before they answer one login
STOP_SECONDS = 60  # so long the gateway waits for the answers to its logouts


def is_past(held: "asyncio.Future[SharedSession]") -> bool:
    """Whether a shared session is over, or its login has failed."""
    return held.done() and (
        held.cancelled() or held.exception() is not None or held.result().is_over
    )


class Gateway:
    """One team's gateway."""

    reads: Any  # what its words read, once it has begun

    def __init__(
        self,
        places: Places,
        people: People,
        program: str,
        most_sends: int = MOST_SENDS,
        limits: Limits = Limits(),
    ) -> None:
        self.places, self.people = places, people
        self.program, self.most_sends = program, most_sends
        self.state, self.private, self.record_path = places.state, places.private, places.record
        self.name = self.state.name
        self.reader = Reader()
        self.words = {**words.WORDS, **reads.WORDS, **visiting.WORDS, **administrator_words.WORDS}
        self.counts = Counts()
        self.slot_gate = SlotGate()
        self.turns = Turns()
        self.phase = STARTING
        self.sessions: Dict[int, Session] = {}
        self.shared: Dict[Tuple[str, str, Tuple[str, ...]], "asyncio.Future[SharedSession]"] = {}
        self.under_way: Dict[Tuple[str, str], Tuple[bytes, "asyncio.Future[bytes]"]] = {}
        self.dirty: Set[Any] = set()  # clients that have answers to send
        self.order = Order(0, [0] * 16)
        self.entries_written = 0
        self.archives = 0  # that were made
        self.finished: "asyncio.Future[None]" = asyncio.get_running_loop().create_future()
        self._serving = asyncio.Event()
        self._writer: RecordWriter = None  # type: ignore[assignment]
        self._server: Any = None
        self._connections = 0
        self._givenup: List[Asked] = []  # logouts of sessions that had ended
        self._is_commit_due = self._is_flush_due = False
        self._is_lost = self._is_closed = self._is_held = False
        self._beginning: "Optional[asyncio.Future[None]]" = None
        self._listeners: List[Callable[[List[Entry]], None]] = []
        self._restart_listeners: List[Callable[[], None]] = []
        self.log = Log()
        self.limits, self.accounts = limits, Accounts(self, limits)
        self.clients: Set[Any] = set()  # of the Unix sockets
        self.visiting = visiting.Visiting(self)
        self.page_users: Set[int] = set()  # as whom a page's process may come
        self.reserve = Reserve()
        self.answerer = Answerer(program, places.children, self.log, self.reserve)
        self.watchdog: Optional[Watchdog] = None  # where the process is the gateway's own

    # ---- what others ask

    def listen(self, callback: Callable[[List[Entry]], None]) -> Callable[[], None]:
        """Calls back with new entries after they were recorded; the answer takes the listener away
        again."""
        self._listeners.append(callback)
        return lambda: self._listeners.remove(callback)

    def on_restart(self, callback: Callable[[], None]) -> None:
        """Calls back after the server was begun anew, or the record archived: all sessions are
        over."""
        self._restart_listeners.append(callback)

    def holders(self) -> List[Holder]:
        """Who holds the sixteen."""
        return [session.holder() for session in self.sessions.values()]

    async def settle_record(self) -> None:
        """Has the record's file show all that was answered. Raises Refused."""
        await self.until_serving()
        self._flush_record()
        if self._is_lost:
            raise interrupted()

    def old_records(self) -> List[Path]:
        """The records that `archive` has kept, the oldest first."""
        return sorted(self.places.old_records.glob("[0-9]*.sqlite"))

    def answer_to(self, person: str, request_id: str) -> Optional[Tuple[bytes, bytes]]:
        """The request and the answer that are recorded under a person's id, if some are. Raises
        Refused, while the record is closed."""
        try:
            self._writer.flush()
            return self._writer.answer_to(person, request_id)
        except sqlite3.Error:
            raise interrupted() from None

    async def share(self, person: Person, user: str, roles: List[str]) -> SharedSession:
        """A share of the login of this person as this user in these roles, which is made if there
        is none. Raises Refused."""
        key = (person.name, user, tuple(sorted(roles)))
        held = self.shared.get(key)
        if held is None or is_past(held):
            held = self.shared[key] = asyncio.ensure_future(
                self._share_first(key, person, user, roles)
            )
        try:
            shared = await asyncio.shield(held)
        except Refused:
            if self.shared.get(key) is held:
                del self.shared[key]
            raise
        except asyncio.CancelledError:
            asyncio.get_running_loop().call_later(UNUSED_SECONDS, self._end_unused, held)
            raise
        shared.count += 1
        return shared

    def _end_unused(self, held: "asyncio.Future[SharedSession]") -> None:
        """Logs out a shared session that nobody came to use."""
        if held.done() and not held.exception() and held.result().count == 0:
            held.result().count = 1
            asyncio.ensure_future(held.result().leave())

    async def _share_first(
        self, key: Tuple[str, str, Tuple[str, ...]], person: Person, user: str, roles: List[str]
    ) -> SharedSession:
        return SharedSession(self, key, await self.open_session(person, user, roles))

    def forget_shared(self) -> None:
        """Forgets the shared sessions that are over. Logins that are under way go on, for all who
        wait for them."""
        self.shared = {key: held for key, held in self.shared.items() if not is_past(held)}

    def follow_people(self, people: People) -> None:
        """Has other people from now on. Logins that they may no more have are ended."""
        self.people = people
        self.log("who may be whom was read anew", "people")
        self.tell_doubts()
        for client in list(self.clients):
            self._tell(client.follow_people)
        self._tell(self.visiting.follow_people)

    def tell_doubts(self) -> None:
        """Tells the operator what of the file of people is probably a mistake."""
        for doubt in self.people.doubts():
            self.log(f"in the file of people: {doubt}", "people")

    @property
    def is_serving(self) -> bool:
        """Whether commands are carried out now."""
        return self.phase == SERVING and not self._is_lost

    def note_refusal(self, person: str, user: str, cmd: str, fault: str) -> None:
        """Notes that a command was refused, and to whom."""
        self.counts.refused(fault)
        if self.accounts.may_log_refusal(person, fault):
            text = f"{cmd} of {user} is refused: {fault}"
            self.log(text, "refused", person=person, user=user, command=cmd, fault=fault)

    def note_act(self, what: str, told: Dict[str, Any]) -> None:
        """Has the record tell of something that is no entry. Raises Refused."""
        if not self.is_serving:
            raise stopping()
        try:
            self._writer.note_act(what, told)
        except Failed as fault:
            self.fail(str(fault))
            raise interrupted() from None

    # ---- what is recorded at once

    def hold_commits(self) -> None:
        """Has what comes now be written in one transaction with what comes until `let_commit`."""
        self._is_held = True

    def let_commit(self) -> None:
        """Writes what was held."""
        self._is_held = False
        if self._givenup or self.order.has_ready:
            self._commit_soon()

    async def until_answered(self, session: Session) -> None:
        """Waits until the server has answered a session, or it is over."""
        while session.flight and not session.is_over:
            await asyncio.sleep(0.001)

    # ---- logins

    async def until_serving(self) -> None:
        """Waits while the server is being begun anew. Raises Refused, where the gateway stops."""
        while self.phase != SERVING:
            if self.phase == STOPPING:
                raise stopping()
            await self._serving.wait()

    async def open_session(
        self,
        person: Person,
        user: str,
        roles: List[str],
        instead: Optional[Session] = None,
        answer: Callable[[bytes], None] = lambda reply: None,
    ) -> Session:
        """A session of this login, on a connection of its own; it takes the seat of another, where
        one is given.

        `answer` is called with the program's answer. Raises Refused."""
        if not person.may_be(user):
            raise not_you(user)
        request = login_request(user, roles)
        if request is None:
            raise ProgramRefused(b'{"code":3,"fault":"NotARequest"}')
        session, reply = await self._log_in(person, user, roles, request, instead)
        answer(reply)
        if not session.session:
            session.end()
            raise ProgramRefused(reply)
        return session

    async def _log_in(
        self,
        person: Person,
        user: str,
        roles: List[str],
        request: Request,
        instead: Optional[Session],
    ) -> Tuple[Session, bytes]:
        """A session with a seat, and the program's answer to its login. Where the server is lost
        before that answer may go out, the next one is asked, unless the login may be recorded.
        Raises Refused."""
        for _ in range(MOST_STARTS):
            session = await self._connect(person, user, roles, instead)
            try:
                if not session.is_over:
                    return session, await ask_later(session, request)
            except Refused:
                if session.is_recorded:
                    raise
        raise interrupted()

    async def _connect(
        self, person: Person, user: str, roles: List[str], instead: Optional[Session]
    ) -> Session:
        """A connection to the server with a seat, on which nothing is asked yet. It is over, where
        the server is lost meanwhile. Raises Refused."""
        await self.until_serving()
        if instead is not None:
            self.sessions.pop(instead.number, None)  # which is gone already, if its server was lost
        else:
            self.accounts.check_login(person, user, roles, list(self.sessions.values()))
        if len(self.sessions) >= SEATS:
            raise all_taken([[holder.user, holder.person] for holder in self.holders()])
        self._connections += 1
        session = Session(self, self._connections, person, user, roles)
        self.sessions[session.number] = session
        try:
            await session.connect(self.places.inner_socket)
        except OSError as fault:
            if is_out_of_descriptors(fault):
                self.sessions.pop(session.number, None)
                raise failed("the gateway has no descriptor left; try again") from None
            self.fail(f"the server takes no connection: {fault}")
        return session

    async def close_session(self, session: Session) -> bool:
        """Logs a session out, which is recorded, and closes it. Answers whether it lived until
        then."""
        while not session.is_over:
            if session.is_connected:
                try:
                    reply = await ask_later(session, LOGOUT)
                except Refused:
                    return False
                if session.is_over:
                    return reply.startswith(b'{"ok"')
            await asyncio.sleep(AGAIN_SECONDS)
        return False

    async def renew(self, session: Session) -> Session:
        """The same login on another connection, in the roles that are active. Raises Refused, where
        its session had ended."""
        session.keeps_seat = True
        try:
            if await self.close_session(session):
                return await self.open_session(session.person, session.user, session.roles, session)
        finally:
            self.sessions.pop(session.number, None)
        raise interrupted()

    # ---- answers and entries

    def after_answers(self) -> None:
        """Does what answers of the server make possible: entries are written soon, in one
        transaction with those of answers that are under way, and at once where none is; other
        answers go out."""
        if self._is_lost:
            return
        if self.order.has_ready:
            if not self._is_held and not self._is_busy():
                self._commit()
                return
            self._commit_soon()
        self.release()

    def _is_busy(self) -> bool:
        """Whether the server has something to answer."""
        for session in self.sessions.values():
            if session.flight:
                return True
        return False

    def _commit_soon(self) -> None:
        if not self._is_commit_due:
            self._is_commit_due = True
            asyncio.get_running_loop().call_soon(self._commit)

    def _entry_of(self, asked: Asked, number: int) -> Entry:
        """The row of an entry that is to be written."""
        session, request = asked.session, asked.request
        slot = POLICY if request.slot is None else request.slot
        return Entry(
            number,
            slot,
            asked.place,
            asked.version,
            session.number,
            session.session,
            session.user,
            session.person.name,
            asked.time,
            asked.fields.get("instant"),
            request.cmd,
            request.line,
            asked.reply,
            asked.request_id,
            self._writer.program,
        )

    def _commit(self) -> None:
        """Writes what is ready, in one transaction, and lets go what waited for it. After a fault
        nothing is written, and nothing goes out."""
        self._is_commit_due = False
        if self._is_lost or self._is_held:
            return
        ready, givenup = self.order.take_ready(), self._givenup
        self._givenup = []
        try:
            if ready or givenup:
                self._write(ready, givenup)
        except Exception as fault:  # whatever it is, it may or may not be written
            self.fail(f"the record cannot be written: {fault}")
            return
        self.release()

    def _write(self, ready: List[Asked], givenup: List[Asked]) -> None:
        """Writes entries, and connections that are given up. Raises what goes wrong."""
        entries, version = [], self.order.version
        connections: List[Connection] = []
        for number, asked in enumerate(ready, self.entries_written + 1):
            entries.append(self._entry_of(asked, number))
            if asked.request.slot is None:
                version = max(version, asked.place)
                if asked.request.cmd == "login":
                    connections.append(asked.session.as_recorded())
        now, began = time.time(), time.monotonic()
        given = [GivenUp(asked.session.number, version, now) for asked in givenup]
        self._writer.append(entries, connections, given)
        if not self._is_flush_due:
            self._is_flush_due = True
            asyncio.get_running_loop().call_later(FLUSH_SECONDS, self._flush_soon)
        self.counts.committed(len(entries), time.monotonic() - began, now)
        self.entries_written += len(entries)
        self.order.written(ready)
        for asked in givenup:
            asked.session.end()
            asked.done(asked)
        for listener in list(self._listeners) if entries else ():
            self._tell(listener, entries)

    def _flush_soon(self) -> None:
        self._is_flush_due = False
        self._flush_record()

    def _flush_record(self) -> None:
        """Has the record's file take what the head has."""
        if not self._is_lost:
            try:
                self._writer.flush()
            except Exception as fault:  # whatever it is, the head has what is missing
                self.fail(f"the record cannot be written: {fault}")

    def _tell(self, listener: Callable[..., None], *told: Any) -> None:
        """Calls a listener, whose fault is its own."""
        try:
            listener(*told)
        except Exception as fault:
            self.log(f"a listener failed: {fault!r}", "fault")

    def release(self) -> None:
        """Lets the answers go out that may, of each session in its order. After a fault none
        may."""
        if self._is_lost:
            return
        may_go = self.order.may_go
        for session in list(self.sessions.values()):
            answered = session.answered
            while answered and may_go(answered[0]):
                asked = answered.popleft()
                if asked.request.cmd != "logout" or self._closes(session, asked):
                    asked.done(asked)
        self.flush()

    def _closes(self, session: Session, asked: Asked) -> bool:
        """Closes a session by the answer to its logout, and answers whether that may go out.

        Where its session had ended, it is first recorded that the connection is given up."""
        code = asked.fields.get("code")
        if code == 4 and session.session:
            if all(other.session is not session for other in self._givenup):
                self._givenup.append(asked)
                self._commit_soon()
                return False
            asked.lose()
            return False
        if code is None:
            session.end()
        return True

    def flush(self) -> None:
        """Has the clients send what may go out."""
        while self.dirty:
            client = self.dirty.pop()
            try:
                client.flush()
            except Exception as fault:  # it is this client's alone
                self.log(f"a client could not be answered: {fault!r}", "fault")
                client.close()
        fault_points.reach(fault_points.RELEASED)

    # ---- start, restart, end

    async def start(self) -> None:
        """Starts the children, and replays the record. Raises Failed."""
        asyncio.get_running_loop().set_exception_handler(self._note_exception)
        self.reserve.fill()
        await self.answerer.start()
        await self._begin()
        self._watching = asyncio.ensure_future(self._watch())

    def _note_exception(self, _: Any, context: Dict[str, Any]) -> None:
        """Tells of an exception that nobody has caught."""
        fault = context.get("exception")
        self.log(f"{context.get('message')}: {fault!r}", "fault")

    async def _begin(self) -> None:
        """A server that has what the record says, with nobody logged in. Raises Failed."""
        begun = await self._start_server()
        self.reserve.fill()
        self._writer, self.order = begun.writer, Order(*begun.extent)
        self.entries_written, connections = begun.writer.last_numbers()
        self._connections = max(self._connections, connections)
        await asyncio.get_running_loop().run_in_executor(None, reads.on_start, self)
        self._is_lost = False
        if begun.count:
            self.log(f"{begun.count} entries replayed, {begun.logged_out} sessions logged out")
        if self.phase != STOPPING:
            self.phase = SERVING
            self._serving.set()

    async def _start_server(self) -> Begun:
        """A server that has what the record says; another one, where it is lost meanwhile. Raises
        Failed."""
        for left in reversed(range(MOST_STARTS)):
            try:
                return await start_server(self.places, self.program, self._note_server)
            except Lost as fault:
                self._server.end()
                if not left or self._is_closed:
                    raise
                self.log(f"{fault}; it is begun anew once more")
        raise AssertionError("there is a last start")

    def _note_server(self, server: Any) -> None:
        self._server = server

    def fail(self, why: str) -> None:
        """Begins anew from the record: an answer is lost, or an entry can't be written.

        The first thing is a mark, after which nothing is answered or recorded. The rest takes no
        file and no descriptor; where it does not come to its end, the watchdog ends the process."""
        if self.phase not in (SERVING, ARCHIVING, STOPPING) or self._is_lost:
            return
        self._is_lost = True
        self._is_held = False
        self.counts.restarts += 1
        if self.phase != STOPPING:
            self.phase = BEGINNING
            self._serving.clear()
        self._hurry()
        self.log(f"{why}; the server is begun anew from the record", "fault")
        self.reserve.release()
        self._server.end()
        self._drop_sessions()
        self._beginning = asyncio.ensure_future(self._begin_anew())

    def _hurry(self) -> None:
        if self.watchdog is not None:
            self.watchdog.hurry()

    def _beat(self) -> None:
        if self.watchdog is not None and not self.finished.done():
            self.watchdog.beat()

    def _drop_sessions(self) -> None:
        """Gives up all sessions: whoever waits for an answer gets none."""
        lost, self._givenup = self._givenup, []
        self.order.take_ready()
        sessions, self.sessions = list(self.sessions.values()), {}
        for drop in [*(asked.lose for asked in lost), *(session.abandon for session in sessions)]:
            self._tell(drop)
        self.forget_shared()
        self.flush()

    async def _begin_anew(self) -> None:
        try:
            self._beat()
            self._writer.close()
            await self._begin()
        except Exception as fault:  # whatever it is, there is no server
            self.stop_failed(str(fault) if isinstance(fault, Failed) else repr(fault))
            return
        self._tell_restart()

    def stop_failed(self, why: str) -> None:
        """Ends the gateway with a fault, in a few seconds."""
        self._is_lost = True
        self._hurry()
        if not self.finished.done():
            self.finished.set_exception(Failed(why))
            self.finished.exception()  # which is told at the end

    async def _watch(self) -> None:
        """Sees every second whether the server runs and answers."""
        while not self._is_closed:
            self._beat()
            await asyncio.sleep(WATCH_SECONDS)
            if self.phase == SERVING and not self._server.is_running:
                self.fail("the server has ended")
            now = time.monotonic()
            if any(session.is_late(now) for session in self.sessions.values()):
                self.fail("an answer is missing")
            for client in list(self.clients):
                self._tell(client.look_after)
            self.reads.catch_up()

    async def _log_all_out(self) -> None:
        """Logs out each session, which is recorded, and tells who holds it."""
        sessions = list(self.sessions.values())
        await asyncio.gather(*(self.close_session(session) for session in sessions))
        self.forget_shared()
        for session in sessions:
            if session.on_close:
                session.on_close()

    async def stop(self) -> None:
        """Logs everyone out, and ends the server. Raises Failed, where that can't be recorded."""
        was, self.phase = self.phase, STOPPING
        self._serving.set()
        try:
            if was == SERVING:
                await asyncio.wait_for(self._log_all_out(), STOP_SECONDS)
            if self._is_lost and self._beginning is not None:
                await self._beginning  # which records the logouts
        except asyncio.TimeoutError:
            raise Failed("the logouts are not answered") from None
        finally:
            self.close()

    def close(self) -> None:
        """Ends the children, and closes the record. Never raises."""
        self._is_closed = True
        self.reserve.release()
        self._tell(self.answerer.close)
        if self._server is not None:
            self._tell(self._server.end)
        if self._writer is not None:
            self._tell(self._writer.close)

    async def archive(self, build: Callable[[Path, Path, str, Path], None]) -> None:
        """Logs everyone out, has `build` make a new record of the old one, and begins anew from it.
        Raises Refused."""
        if self.phase != SERVING:
            raise stopping()
        self.phase = ARCHIVING
        self._serving.clear()
        fault: Optional[Exception] = None
        try:
            await self._log_all_out()
            await self._follow_record(build)
        except Exception as found:  # whatever `build` raises, the old record goes on
            fault = found
        if self.phase == ARCHIVING:
            self._server.end()
            await self._begin_anew()
        elif self.phase == SERVING:
            self._tell_restart()
        if fault is not None:
            raise failed(str(fault)) from fault
        self.archives += 1

    async def _follow_record(self, build: Callable[[Path, Path, str, Path], None]) -> None:
        """Has a new record made, puts it in the place of the old one, and begins anew from it.
        Raises Failed, and what `build` raises."""
        if self.phase != ARCHIVING:
            raise Failed("the server has ended meanwhile")
        loop = asyncio.get_running_loop()
        self._writer.flush()
        remove_record(self.places.next_record)
        await loop.run_in_executor(
            None, build, self.record_path, self.places.next_record, self.program, self.private
        )
        self._server.end()
        self._writer.close()
        await loop.run_in_executor(None, replace_record, self.places)
        try:
            await self._begin()
        except Failed:
            restore_record(self.places)
            raise

    def _tell_restart(self) -> None:
        for callback in self._restart_listeners:
            self._tell(callback)
