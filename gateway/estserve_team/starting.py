"""How a start comes from the record to a server with nobody logged in, and how one record follows
another."""
import asyncio
import os
import pathlib
import sqlite3
import time
from typing import Callable, List, NamedTuple, Optional, Tuple

from .chain import Head, NotProven, sync_folder
from .places import Failed, Places, digest_of
from .record import (
    POLICY,
    Aside,
    Entry,
    GivenUp,
    RecordWriter,
    last_tip,
    open_reader,
    remove_record,
)
from .replay import Live, Replay
from .server import Server
from .sessions import LOGOUT
from .verifying import check_record


class Begun(NamedTuple):
    """A server that has what the record says: the record, how far it goes, what was replayed and
    who was logged out."""

    writer: RecordWriter
    extent: Tuple[int, List[int]]
    count: int  # type: ignore[assignment]  # which hides the method of tuples
    logged_out: int


def open_record(places: Places, program: str, is_accepted: bool = False) -> RecordWriter:
    """The team's record, which is made where there is none; it has to be what was written, or it
    is accepted as it stands. Raises Failed."""
    settle_records(places)
    head = Head(places.head)
    try:
        if check_record(places.record, head, is_accepted):
            return RecordWriter(places.record, head)
        if not is_accepted and any(places.old_records.glob("*.sqlite")):
            raise NotProven(places.record, "it is gone with its head, and older ones are there")
        return RecordWriter.make(places.record, program, head=head)
    except BaseException as fault:
        head.close()
        if is_accepted and isinstance(fault, NotProven):
            raise fault.after_accept() from fault
        raise


def open_there(places: Places, is_accepted: bool = False) -> RecordWriter:
    """The team's record, where there is one. Raises Failed."""
    settle_records(places)
    if not places.record.exists():
        raise Failed("there is no record yet")
    return open_record(places, "", is_accepted)


def put_aside(places: Places, place: Aside, is_accepted: bool = False) -> int:
    """Keeps aside what the record has from a place on. Raises Failed."""
    with open_there(places, is_accepted) as writer:
        return writer.put_aside(place, f"--until {place}")


def settle_records(places: Places) -> None:
    """Finishes what an archiving left that was broken off: the present record is none of the old
    ones, and there is no next one."""
    remove_record(places.next_record)
    for old in sorted(places.old_records.glob("[0-9]*.sqlite")):
        if places.record.exists() and os.path.samestat(old.lstat(), places.record.lstat()):
            old.unlink()


def replace_record(places: Places) -> None:
    """Keeps the record among the old ones, and puts the next one in its place. Raises Failed."""
    name = next_name(places)
    with RecordWriter(places.next_record) as writer:
        writer.note_kept(name)
    for path in (places.record, places.next_record):
        database = sqlite3.connect(path, isolation_level=None)
        mode = database.execute("PRAGMA journal_mode=DELETE").fetchone()[0]
        database.close()
        if mode != "delete":
            raise Failed(f"{path} is open elsewhere")
    prepare_head(places)
    os.link(places.record, places.old_records / name)
    sync_folder(places.old_records)
    os.replace(places.next_record, places.record)
    sync_folder(places.private)


def next_name(places: Places) -> str:
    """The name of the next record that is kept, which none of those had that are there, nor the one
    that the present record follows."""
    names = [path.name for path in places.old_records.glob("[0-9]*.sqlite")]
    with open_reader(places.record) as database:
        names += [row[0] for row in database.execute("SELECT value FROM facts WHERE name = 'kept'")]
    numbers = [int(name.partition(".")[0]) for name in names if name.partition(".")[0].isdecimal()]
    return f"{max(numbers, default=0) + 1:04}.sqlite"


def prepare_head(places: Places) -> None:
    """Has the head know the next record beside the present one. Raises Failed."""
    head = Head(places.head)
    try:
        for path in (places.record, places.next_record):
            with open_reader(path) as database:
                name = dict(database.execute("SELECT name, value FROM facts"))["id"]
                if path == places.record:
                    head.of(name)  # its place is left alone
                else:
                    head.write(last_tip(database, name))
    except OSError as fault:
        raise Failed(f"the head cannot be written: {fault}") from fault
    finally:
        head.close()


def restore_record(places: Places) -> None:
    """Puts the last of the old records back in the place of the present one. Raises Failed."""
    last = sorted(places.old_records.glob("[0-9]*.sqlite"))[-1]
    for suffix in ("-wal", "-shm"):
        places.record.with_name(places.record.name + suffix).unlink(missing_ok=True)
    os.replace(last, places.record)
    sync_folder(places.private)
    head = Head(places.head)
    try:
        with open_reader(places.record) as database:
            name = dict(database.execute("SELECT name, value FROM facts"))["id"]
            head.begin(last_tip(database, name))
    finally:
        head.close()


async def start_server(places: Places, program: str, note: Callable[[Server], None]) -> Begun:
    """A server that has what the record says. `note` is told of each server that is started, before
    it is asked. Raises Failed."""
    loop = asyncio.get_running_loop()
    writer = await loop.run_in_executor(None, open_record, places, program)
    try:
        if writer.digest != digest_of(program):
            await try_program(places, program, note)
            writer.note_program(program)
        server = Server(program, places.inner_socket, places.children)
        note(server)
        server.start()
        count, logged_out = await loop.run_in_executor(None, replay_and_log_out, writer, server)
        return Begun(writer, writer.extent(), count, logged_out)
    except BaseException:
        writer.close()
        raise


async def try_program(places: Places, program: str, note: Callable[[Server], None]) -> None:
    """Replays the record on a server that is ended afterwards: the program is another one than made
    it. Raises Failed."""
    server = Server(program, places.private / "trial.sock", places.children)
    note(server)
    server.start()
    try:
        await asyncio.get_running_loop().run_in_executor(
            None, replay_alone, places.record, server.path
        )
    except Failed as fault:
        raise Failed(
            f"this program is another one than made the record, and in a trial {fault}"
        ) from fault
    finally:
        server.end()


def replay_alone(record: pathlib.Path, server: pathlib.Path) -> None:
    """Replays a record on a server. Raises Failed."""
    with Replay(record, server) as replay:
        replay.run()


def replay_and_log_out(writer: RecordWriter, server: Server) -> Tuple[int, int]:
    """Replays the record, and logs out each session that lives still, which is recorded. Answers
    how many entries and sessions. Raises Failed."""
    with Replay(writer.path, server.path) as replay:
        replay.run()
        entries: List[Entry] = []
        givenup: List[GivenUp] = []
        version, number = writer.extent()[0], writer.last_numbers()[0]
        for live in replay.live.values():
            entry = log_out(live, number + 1, version + 1, writer.program)
            if entry is None:
                givenup.append(GivenUp(live.login.connection, version, time.time()))
            else:
                entries.append(entry)
                version, number = version + 1, number + 1
        try:
            if entries or givenup:
                writer.append(entries, (), givenup)
                writer.flush()
        except (sqlite3.Error, OSError) as fault:
            raise Failed(f"the record cannot be written: {fault}") from fault
        return replay.count, len(entries)


def log_out(live: Live, number: int, version: int, program: int) -> Optional[Entry]:
    """The logout of a session, as an entry with this number and version. None where it had ended.
    Raises Failed."""
    reply = live.talker.ask(LOGOUT.line)
    if reply.startswith(b'{"code":4,'):
        return None
    if reply != b'{"ok":"logout","version":%d}' % version:
        raise Failed(f"the logout at the start is answered {reply[:200]!r}")
    login = live.login
    return Entry(
        number,
        POLICY,
        version,
        version,
        login.connection,
        login.session,
        login.user,
        login.person,
        time.time(),
        None,
        "logout",
        LOGOUT.line,
        reply,
        None,
        program,
    )
