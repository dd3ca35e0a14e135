"""The record: each accepted command that has an entry, in a SQLite file, with its answer.

An entry is written after all that it may have seen: policy entry v after v - 1, a slot's entry
of place p after p - 1 and after the policy entry whose version it bears. So what stands in the
file is what some run of the program alone has made. Each entry bears a hash, by `chain`.

Where a head follows the record, new rows are on the disk there first; the file takes many of them
in one transaction, by `flush`.
"""
import contextlib
import heapq
import json
import math
import os
import pathlib
import secrets
import sqlite3
import time
from typing import Any, Dict, Iterable, Iterator, List, NamedTuple, Optional, Sequence, Tuple

from . import fault_points
from .chain import Block, Head, Tip, hash_of, hash_of_text, new_tip, row_of, sync_folder, text_of
from .places import Failed, digest_of

POLICY = -1  # the slot of a policy entry
OPENING = 4  # entries of the policy that each server begins with
SLOTS = 16
FORMAT = "2"
FORMAT_OF_BEFORE = "1"  # without hashes
LOCKED_SECONDS = 1.0  # so long a write waits for another process to end its own
KEPT_ANSWERS = 10_000  # that an archive takes over, to requests with an id
UNDO = "undo of "  # begins the reason of what an undo has put aside, before a place
FETCHED = 500  # rows of one part of the record at a time

SCHEMA = """
CREATE TABLE facts (name TEXT PRIMARY KEY, value TEXT NOT NULL);
CREATE TABLE programs (
    number INTEGER PRIMARY KEY, digest TEXT NOT NULL, path TEXT NOT NULL, time REAL NOT NULL);
CREATE TABLE connections (
    number INTEGER PRIMARY KEY, session INTEGER NOT NULL, user TEXT NOT NULL, person TEXT NOT NULL,
    roles TEXT NOT NULL);
CREATE TABLE entries (
    number INTEGER PRIMARY KEY, slot INTEGER NOT NULL, place INTEGER NOT NULL,
    version INTEGER NOT NULL, connection INTEGER NOT NULL, session INTEGER NOT NULL,
    user TEXT NOT NULL, person TEXT NOT NULL, time REAL NOT NULL, instant INTEGER,
    command TEXT NOT NULL, request BLOB NOT NULL, reply BLOB NOT NULL, request_id TEXT,
    program INTEGER NOT NULL, hash BLOB NOT NULL);
CREATE UNIQUE INDEX entry_places ON entries (slot, place);
CREATE UNIQUE INDEX entry_requests ON entries (person, request_id) WHERE request_id IS NOT NULL;
CREATE TABLE givenup (
    number INTEGER PRIMARY KEY, connection INTEGER NOT NULL, version INTEGER NOT NULL,
    time REAL NOT NULL, hash BLOB NOT NULL, aside_time REAL);
CREATE TABLE aside (
    number INTEGER PRIMARY KEY, slot INTEGER, place INTEGER, version INTEGER, connection INTEGER,
    session INTEGER, user TEXT, person TEXT, time REAL, instant INTEGER, command TEXT,
    request BLOB, reply BLOB, request_id TEXT, program INTEGER, hash BLOB NOT NULL,
    aside_time REAL NOT NULL, aside_reason TEXT NOT NULL);
CREATE TABLE kept_answers (
    person TEXT NOT NULL, request_id TEXT NOT NULL, request BLOB NOT NULL, reply BLOB NOT NULL,
    time REAL NOT NULL, PRIMARY KEY (person, request_id));
CREATE TRIGGER entries_have_no_hole BEFORE INSERT ON entries
WHEN NEW.number <> 1 + max(
    ifnull((SELECT max(number) FROM entries), 0), ifnull((SELECT max(number) FROM aside), 0))
    AND NOT EXISTS (SELECT 1 FROM aside WHERE number = NEW.number)
BEGIN SELECT RAISE(ABORT, 'the numbers of entries have no hole'); END;
CREATE TRIGGER givenup_has_no_hole BEFORE INSERT ON givenup
WHEN NEW.number <> 1 + ifnull((SELECT max(number) FROM givenup), 0)
BEGIN SELECT RAISE(ABORT, 'the numbers of connections that are given up have no hole'); END;
"""


class Entry(NamedTuple):
    """One row of `entries`: a command that was accepted, and its answer. `slot` is -1 for the
    policy."""

    number: int
    slot: int
    place: int
    version: int
    connection: int
    session: int
    user: str
    person: str
    time: float
    instant: Optional[int]
    command: str
    request: bytes
    reply: bytes
    request_id: Optional[str]
    program: int


class Connection(NamedTuple):
    """A recorded connection to the server: it was opened for this login."""

    number: int
    session: int
    user: str
    person: str
    roles: str


class GivenUp(NamedTuple):
    """A connection that was closed without a logout entry, since its session had ended, when the
    policy had this version."""

    connection: int
    version: int
    time: float


class Aside(NamedTuple):
    """A place in the record, in the order in which it is replayed: `--until` starts before it."""

    slot: int
    place: int

    def __str__(self) -> str:
        return f"policy:{self.place}" if self.slot == POLICY else f"{self.slot}:{self.place}"


def place_of(text: str) -> Aside:
    """The place that a text names: `policy:17`, or `3:45` for place 45 of slot 3. Raises
    ValueError."""
    name, _, number = text.partition(":")
    slot = POLICY if name == "policy" else int(name)
    place = int(number)
    if not POLICY <= slot < SLOTS or place < 1 or (slot == POLICY and place <= OPENING):
        raise ValueError(text)
    return Aside(slot, place)


Rows = List[Tuple[Any, ...]]


class NewRows(NamedTuple):
    """Rows that a record is to get in one transaction."""

    entries: Rows
    connections: List[Connection]
    givenup: Rows


INSERT_ENTRY = f"INSERT INTO entries VALUES ({','.join('?' * len(Entry._fields))},?)"
INSERT_CONNECTION = "INSERT INTO connections VALUES (?,?,?,?,?)"
INSERT_GIVENUP = "INSERT INTO givenup VALUES (?,?,?,?,?,NULL)"
COLUMNS = ", ".join(Entry._fields)
ANSWERS = "SELECT person, request_id, request, reply, time"
KEEP_ANSWER = "INSERT OR IGNORE INTO kept_answers VALUES (?,?,?,?,?)"
REST = (
    "SELECT * FROM facts ORDER BY name",
    "SELECT * FROM programs ORDER BY number",
    "SELECT number, aside_time, aside_reason FROM aside ORDER BY number",
    "SELECT number, aside_time FROM givenup WHERE aside_time IS NOT NULL ORDER BY number",
    "SELECT * FROM kept_answers ORDER BY person, request_id",
)


@contextlib.contextmanager
def open_reader(path: pathlib.Path) -> Iterator[sqlite3.Connection]:
    """The record at the path, to read only. It sees what was committed."""
    database = sqlite3.connect(
        f"{path.resolve().as_uri()}?mode=ro",
        uri=True,
        isolation_level=None,
        check_same_thread=False,
    )
    try:
        database.execute("PRAGMA trusted_schema=OFF")
        yield database
    finally:
        database.close()


def rows_of(
    database: sqlite3.Connection, slot: int
) -> Iterator[Tuple[Tuple[int, int, int], Entry]]:
    """The entries of the policy or of a slot by place, each with its place in the order of
    replay."""
    cursor = database.execute(
        f"SELECT {COLUMNS} FROM entries WHERE slot = ? ORDER BY place", (slot,)
    )
    while True:
        rows = cursor.fetchmany(FETCHED)
        if not rows:
            return
        for row in map(Entry._make, rows):
            yield (row.version, slot, row.place), row


def in_order(database: sqlite3.Connection) -> Iterator[Entry]:
    """All entries in the order of replay: policy entry v, and then the slots' entries of version v
    by slot and place."""
    for _, entry in heapq.merge(*(rows_of(database, slot) for slot in range(POLICY, SLOTS))):
        yield entry


def rest_of(database: sqlite3.Connection) -> str:
    """The hash of what a record has beside its entries: its facts, its programs, what was put
    aside, and answers of before."""
    found = b""
    for sql in REST:
        for row in database.execute(sql):
            found = hash_of(found, row)
        found = hash_of(found, (sql,))
    return found.hex()


class RecordWriter:
    """Writes a record. Used with `with`, it is closed at the end. One at a time may have a file
    open."""

    def __init__(self, path: pathlib.Path, head: Optional[Head] = None) -> None:
        """The record at a path, and the head that follows it, if one does. Raises Failed, where it
        is none."""
        self.path, self.head = path, head
        try:
            self._database = open_writer(path)
            found = dict(self._database.execute("SELECT name, value FROM facts"))
            row = self._database.execute(
                "SELECT number, digest FROM programs ORDER BY number DESC LIMIT 1"
            ).fetchone()
            if found.get("format") != FORMAT or row is None:
                raise Failed(f"the record {path} has a format that this gateway does not know")
            self.tip = last_tip(self._database, found["id"])
            if head is not None:  # which has on the disk what SQLite has not
                self._database.execute("PRAGMA synchronous=NORMAL")
        except sqlite3.Error as fault:
            raise Failed(f"the record {path} cannot be opened: {fault}") from fault
        self._log: List[int] = []  # a descriptor of SQLite's log, once there is one
        self._waiting = NewRows([], [], [])  # rows that the head has and the file has not
        self._is_ahead = False  # the head may have rows that the record has not on the disk
        self.program, self.digest = row
        self.follows = found.get("follows", "")

    @classmethod
    def make(
        cls,
        path: pathlib.Path,
        program: str,
        follows: str = "",
        head: Optional[Head] = None,
        record: Optional[str] = None,
    ) -> "RecordWriter":
        """Makes a new record at a path where no file is, by this program. Raises Failed."""
        record = record or secrets.token_hex(16)
        try:
            database = open_writer(path)
            database.executescript(f"BEGIN IMMEDIATE; {SCHEMA}")
            facts = {
                "format": FORMAT,
                "id": record,
                "made": time.strftime("%Y-%m-%dT%H:%M:%SZ", time.gmtime()),
                "follows": follows,
            }
            database.executemany("INSERT INTO facts VALUES (?,?)", facts.items())
            database.execute(
                "INSERT INTO programs VALUES (1,?,?,?)",
                (digest_of(program), str(program), time.time()),
            )
            if head is not None:
                head.begin(new_tip(record, (rest_of(database),)))
            database.execute("COMMIT")
            database.close()
        except (sqlite3.Error, OSError) as fault:
            raise Failed(f"the record {path} cannot be made: {fault}") from fault
        return cls(path, head)

    def __enter__(self) -> "RecordWriter":
        return self

    def __exit__(self, *_: object) -> None:
        self.close()

    def close(self) -> None:
        """Closes the file, and the head, which then has no rows that the record might miss, where
        that can be."""
        if self._is_ahead:
            with contextlib.suppress(OSError, sqlite3.Error):
                self._settle(self.tip)
        self.close_record()
        if self.head is not None:
            self.head.close()

    def close_record(self) -> None:
        """Closes the file alone."""
        self._database.close()
        for log in self._log:
            os.close(log)
        self._log = []

    @property
    def has_waiting(self) -> bool:
        """Whether the head has rows that the file has not: `flush` writes them."""
        return bool(self._waiting.entries or self._waiting.givenup)

    def append(
        self,
        entries: Iterable[Entry],
        connections: Sequence[Connection] = (),
        givenup: Sequence[GivenUp] = (),
    ) -> None:
        """Has these on the disk when this returns: in the head, with the tip after them, or, where
        there is no place for them, in the file. Raises OSError, sqlite3.Error."""
        tip, texts, rows = after_entries(self.tip, entries)
        given_texts: List[bytes] = []
        given: Rows = []
        if givenup:
            tip, given_texts, given = after_givenup(tip, givenup)
        fault_points.reach(fault_points.HASHED)
        if self.head is not None:
            self._is_ahead = True
        block = Block(tip, texts, [text_of(row) for row in connections], given_texts)
        is_held = self.head is not None and self.head.add(block)
        self.tip = tip
        self._waiting.entries.extend(rows)
        self._waiting.connections.extend(connections)
        self._waiting.givenup.extend(given)
        if not is_held:
            self._settle(tip)
        fault_points.reach(fault_points.SYNCED)

    def flush(self) -> None:
        """Writes into the file what waits, in one transaction. Raises sqlite3.Error, with nothing
        written."""
        if self.has_waiting:
            with transaction(self._database) as database:
                insert(database, self._waiting)
                fault_points.reach(fault_points.INSERTED)
            self._waiting = NewRows([], [], [])
            fault_points.reach(fault_points.COMMITTED)

    def _settle(self, tip: Tip) -> None:
        """Has all of the record on the disk, and then the tip in the head, whose blocks count no
        more. Raises OSError, sqlite3.Error."""
        self.flush()
        if self.head is None:
            return  # SQLite has synced it
        if not self._log:  # SQLite's, which is there as long as the record is open
            path = self.path.with_name(self.path.name + "-wal")
            self._log.append(os.open(path, os.O_RDONLY | os.O_NOFOLLOW | os.O_CLOEXEC))
            sync_folder(self.path.parent)
        os.fdatasync(self._log[0])
        self.head.write(tip)
        self._is_ahead = False

    def take_over(self) -> None:
        """Takes into the record what only the head has, since the gateway or the system ended
        before the record had it. Raises Failed."""
        assert self.head is not None
        try:
            self.tip = add_blocks(self._database, self.tip, self.head.blocks_of(self.tip.record))
            if self.head.blocks:
                self._settle(self.tip)
        except (sqlite3.Error, OSError) as fault:
            raise Failed(f"the record {self.path} cannot be written: {fault}") from fault

    @contextlib.contextmanager
    def changing_rest(self) -> Iterator[sqlite3.Connection]:
        """A transaction that changes what the record has beside its entries. While it is under way
        the head knows both. Raises Failed."""
        try:
            if self.head is not None:
                self._settle(self.tip)
            with transaction(self._database) as database:
                yield database
                rest = rest_of(database)
                if self.head is not None:
                    self.head.write(self.tip._replace(rest=(*self.tip.rest, rest)))
            self.tip = last_tip(self._database, self.tip.record)
            self._settle(self.tip)
        except (sqlite3.Error, OSError) as fault:
            raise Failed(f"the record cannot be written: {fault}") from fault

    def extent(self) -> Tuple[int, List[int]]:
        """The version of the policy, and how many entries each of the sixteen slots has."""
        found = dict(self._database.execute("SELECT slot, max(place) FROM entries GROUP BY slot"))
        return found.get(POLICY, OPENING), [found.get(slot, 0) for slot in range(SLOTS)]

    def last_numbers(self) -> Tuple[int, int]:
        """The last numbers of an entry and of a connection that were given, 0 where there is
        none."""
        connection = self._database.execute(
            "SELECT ifnull(max(number), 0) FROM connections"
        ).fetchone()[0]
        return self.tip.entries, connection

    def answer_to(self, person: str, request_id: str) -> Optional[Tuple[bytes, bytes]]:
        """The request and the answer that are recorded under this person's id, if some are."""
        for table in ("entries", "kept_answers"):
            found = self._database.execute(
                f"SELECT request, reply FROM {table} WHERE person = ? AND request_id = ?",
                (person, request_id),
            ).fetchone()
            if found is not None:
                return found[0], found[1]
        return None

    def keep_answers(self, old: pathlib.Path) -> None:
        """Takes over the answers to requests with an id from the record before, the newest ones.
        Raises Failed."""
        with open_reader(old) as source, self.changing_rest() as database:
            kept = database.executemany(
                KEEP_ANSWER,
                source.execute(
                    f"{ANSWERS} FROM entries WHERE request_id IS NOT NULL "
                    f"ORDER BY number DESC LIMIT {KEPT_ANSWERS}"
                ),
            ).rowcount
            if has_table(source, "kept_answers"):  # which has the newest first
                left = KEPT_ANSWERS - max(kept, 0)
                older = f"{ANSWERS} FROM kept_answers ORDER BY rowid LIMIT {left}"
                database.executemany(KEEP_ANSWER, source.execute(older))

    def note_kept(self, name: str) -> None:
        """Notes the name under which the record before this one is kept. Raises Failed."""
        with self.changing_rest() as database:
            database.execute("INSERT OR REPLACE INTO facts VALUES ('kept', ?)", (name,))

    def note_act(self, what: str, told: Dict[str, Any]) -> None:
        """Notes what somebody has done that is no entry, under the time. Raises Failed."""
        now = time.time()
        stamp = time.strftime("%Y-%m-%dT%H:%M:%S", time.gmtime(now)) + f".{int(now % 1 * 1e6):06}Z"
        text = json.dumps(told, sort_keys=True)
        with self.changing_rest() as database:
            database.execute("INSERT OR REPLACE INTO facts VALUES (?,?)", (f"{what} {stamp}", text))

    def note_program(self, program: str) -> None:
        """Notes that entries are made by this program from now on. Raises Failed."""
        self.program, self.digest = self.program + 1, digest_of(program)
        with self.changing_rest() as database:
            database.execute(
                "INSERT INTO programs VALUES (?,?,?,?)",
                (self.program, self.digest, str(program), time.time()),
            )

    def put_aside(self, place: Aside, reason: str) -> int:
        """Keeps all entries aside from this place on, in the order of replay. Answers how many.
        Raises Failed, where it is not there."""
        row = self._database.execute(
            "SELECT version FROM entries WHERE slot = ? AND place = ?", place
        ).fetchone()
        if row is None:
            raise Failed(f"the record has no entry {place}")
        cut = Cut(row[0], *place)
        with self.changing_rest() as database:
            return put_later_aside(database, cut, stamp_after(database), reason)

    def bring_back(self) -> Tuple[int, int]:
        """Undoes the last `put_aside`: what was recorded since is put aside, and what was put aside
        comes back. Answers how many of both. Raises Failed.

        What was recorded since stands where that stood, in the order of replay: no clock is asked.
        """
        row = self._database.execute("SELECT max(aside_time) FROM aside").fetchone()
        if row[0] is None:
            raise Failed("nothing was put aside")
        then = {"then": row[0]}
        with self.changing_rest() as database:
            cut = cut_of(database, row[0])
            stamp, reason = stamp_after(database), f"{UNDO}{Aside(cut.slot, cut.place)}"
            aside = put_later_aside(database, cut, stamp, reason)
            columns = f"{COLUMNS}, hash"
            back = database.execute(
                f"INSERT INTO entries SELECT {columns} FROM aside WHERE aside_time = :then", then
            ).rowcount
            database.execute("DELETE FROM aside WHERE aside_time = :then", then)
            database.execute("UPDATE givenup SET aside_time = NULL WHERE aside_time = :then", then)
            check_places(database)
        return aside, back


def after_entries(tip: Tip, entries: Iterable[Entry]) -> Tuple[Tip, List[bytes], Rows]:
    """The tip after these entries, their texts, and their rows."""
    last = bytes.fromhex(tip.entry_hash)
    texts: List[bytes] = []
    rows: Rows = []
    for entry in entries:
        text = text_of(entry)
        last = hash_of_text(last, text)
        texts.append(text)
        rows.append((*entry, last))
    count = tip.entries + len(rows)
    after = Tip(tip.record, count, last.hex(), tip.givenup, tip.givenup_hash, tip.rest)
    return after, texts, rows


def after_givenup(tip: Tip, givenup: Iterable[GivenUp]) -> Tuple[Tip, List[bytes], Rows]:
    """The tip after these connections were given up, their texts, and their rows."""
    last = bytes.fromhex(tip.givenup_hash)
    texts: List[bytes] = []
    rows: Rows = []
    for number, one in enumerate(givenup, tip.givenup + 1):
        text = text_of(one)
        last = hash_of_text(last, text)
        texts.append(text)
        rows.append((number, *one, last))
    if not rows:
        return tip, texts, rows
    return tip._replace(givenup=tip.givenup + len(rows), givenup_hash=last.hex()), texts, rows


def insert(database: sqlite3.Connection, rows: NewRows) -> None:
    """Puts rows into their tables. Raises sqlite3.Error."""
    database.executemany(INSERT_ENTRY, rows.entries)
    database.executemany(INSERT_CONNECTION, rows.connections)
    database.executemany(INSERT_GIVENUP, rows.givenup)


def rows_after(tip: Tip, block: Block) -> Optional[NewRows]:
    """The rows of a block, where they are the next ones after a tip, with the hashes that the
    block says."""
    first = (block.tip.entries - len(block.entries), block.tip.givenup - len(block.givenup))
    if first != (tip.entries, tip.givenup):
        return None  # the record was cut: that is told when it is held against the head
    entries = [Entry._make(row_of(text)) for text in block.entries]
    connections = [Connection._make(row_of(text)) for text in block.connections]
    after, _, rows = after_entries(tip, entries)
    after, _, given = after_givenup(after, [GivenUp._make(row_of(one)) for one in block.givenup])
    is_known = (after.entry_hash, after.givenup_hash) == (
        block.tip.entry_hash,
        block.tip.givenup_hash,
    )
    return NewRows(rows, connections, given) if is_known else None


def add_blocks(database: sqlite3.Connection, tip: Tip, blocks: Iterable[Block]) -> Tip:
    """Puts into a record with this tip what blocks of the head have and it has not. Answers the
    tip after that. Raises sqlite3.Error."""
    for block in blocks:
        is_there = tip.entries >= block.tip.entries and tip.givenup >= block.tip.givenup
        rows = None if is_there else rows_after(tip, block)
        if rows is not None:
            with transaction(database):
                insert(database, rows)
            tip = block.tip._replace(rest=tip.rest, serial=tip.serial)
    return tip


def remove_record(path: pathlib.Path) -> None:
    """Takes a file of SQLite's away, with what belongs to it."""
    for suffix in ("-wal", "-shm", ""):
        path.with_name(path.name + suffix).unlink(missing_ok=True)


def open_writer(path: pathlib.Path) -> sqlite3.Connection:
    """The file, to write: what is committed is on the disk."""
    database = sqlite3.connect(
        path, isolation_level=None, check_same_thread=False, timeout=LOCKED_SECONDS
    )
    database.execute("PRAGMA trusted_schema=OFF")
    database.execute("PRAGMA journal_mode=WAL")
    database.execute("PRAGMA synchronous=FULL")
    return database


@contextlib.contextmanager
def transaction(database: sqlite3.Connection) -> Iterator[sqlite3.Connection]:
    """A transaction: all of it is on the disk when this ends, or, where it raises, nothing."""
    database.execute("BEGIN IMMEDIATE")
    try:
        yield database
        database.execute("COMMIT")
    except BaseException:
        if database.in_transaction:
            database.execute("ROLLBACK")
        raise


def has_table(database: sqlite3.Connection, name: str) -> bool:
    """Whether there is a table of this name."""
    found = database.execute("SELECT 1 FROM sqlite_master WHERE type='table' AND name=?", (name,))
    return found.fetchone() is not None


def last_tip(database: sqlite3.Connection, record: str) -> Tip:
    """How far a record has come, by its last rows alone."""
    tip = new_tip(record, (rest_of(database),))
    entry = database.execute(
        "SELECT number, hash FROM entries UNION ALL SELECT number, hash FROM aside "
        "ORDER BY number DESC LIMIT 1"
    ).fetchone()
    givenup = database.execute(
        "SELECT number, hash FROM givenup ORDER BY number DESC LIMIT 1"
    ).fetchone()
    if entry is not None:
        tip = tip._replace(entries=entry[0], entry_hash=entry[1].hex())
    if givenup is not None:
        tip = tip._replace(givenup=givenup[0], givenup_hash=givenup[1].hex())
    return tip


class Cut(NamedTuple):
    """The first entry, in the order of replay, that is put aside."""

    version: int
    slot: int
    place: int


def stamp_after(database: sqlite3.Connection) -> float:
    """What stands for the time at which something is put aside: it is later than that of all that
    was put aside before, though the clock was set back."""
    last = database.execute(
        "SELECT max(aside_time) FROM (SELECT aside_time FROM aside "
        "UNION ALL SELECT aside_time FROM givenup)"
    ).fetchone()[0]
    return time.time() if last is None else max(time.time(), math.nextafter(last, math.inf))


def cut_of(database: sqlite3.Connection, stamp: float) -> Cut:
    """Where that begins which was put aside under a stamp. What an undo has put aside begins where
    that began which it brought back."""
    *least, reason = database.execute(
        "SELECT version, slot, place, aside_reason FROM aside WHERE aside_time = ? "
        "ORDER BY version, slot, place LIMIT 1",
        (stamp,),
    ).fetchone()
    begun = None
    if reason.startswith(UNDO):
        with contextlib.suppress(ValueError):
            begun = database.execute(
                "SELECT version, slot, place FROM entries WHERE slot = ? AND place = ?",
                place_of(reason[len(UNDO) :]),
            ).fetchone()
    return min(Cut._make(least), Cut._make(begun or least))


def put_later_aside(database: sqlite3.Connection, cut: Cut, stamp: float, reason: str) -> int:
    """Moves the entries from a cut on into the table `aside`, and notes of the connections that were
    given up since then that they are aside too. Answers how many entries."""
    keys = {**cut._asdict(), "stamp": stamp, "reason": reason}
    later = "(version, slot, place) >= (:version, :slot, :place)"
    database.execute(
        f"INSERT INTO aside SELECT {COLUMNS}, hash, :stamp, :reason FROM entries WHERE {later}",
        keys,
    )
    database.execute(
        "UPDATE givenup SET aside_time = :stamp WHERE aside_time IS NULL AND version >= :version",
        keys,
    )
    return database.execute(f"DELETE FROM entries WHERE {later}", keys).rowcount


def check_places(database: sqlite3.Connection) -> None:
    """Raises Failed, where the places of the policy or of a slot have a hole."""
    for slot, count, first, last in database.execute(
        "SELECT slot, count(*), min(place), max(place) FROM entries GROUP BY slot"
    ):
        begin = OPENING + 1 if slot == POLICY else 1
        if (first, last) != (begin, begin + count - 1):
            raise Failed(f"the places of {'the policy' if slot == POLICY else slot} have a hole")
