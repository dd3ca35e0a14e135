"""Whether a record is what was written: its hashes, its numbers, and the head beside it. And how a
record without hashes gets some."""
import contextlib
import hashlib
import json
import pathlib
import sqlite3
import stat
from typing import Any, Dict, Iterator, List, NamedTuple, Optional, Sequence, Tuple

from .chain import Block, Head, NotProven, Tip, first_hash, hash_of, row_of
from .places import Failed
from .record import (
    COLUMNS,
    FORMAT,
    FORMAT_OF_BEFORE,
    SCHEMA,
    Aside,
    Entry,
    RecordWriter,
    has_table,
    last_tip,
    open_writer,
    remove_record,
    rest_of,
    transaction,
)

LINES = f"SELECT {COLUMNS}, hash FROM entries UNION ALL SELECT {COLUMNS}, hash FROM aside"
GIVEN = "SELECT number, hash, connection, version, time FROM givenup ORDER BY number"
CONNECTIONS = "SELECT number, session, user, person, roles FROM connections"
LOGIN = "SELECT connection, session, user, person, request FROM {} WHERE command = 'login'"
LOGINS = f"{LOGIN.format('entries')} UNION ALL {LOGIN.format('aside')}"
OBJECTS = "SELECT type, name, tbl_name, sql FROM sqlite_master"
ENTRIES_AT = len(Entry._fields)


class Verified(NamedTuple):
    """What was found right: how many entries, how many of them aside, how many connections that
    were given up, how many entries the head didn't know yet, and how many only the head has."""

    entries: int
    aside: int
    givenup: int
    ahead: int
    behind: int


def place_text(row: Any) -> str:
    """Where an entry stands."""
    return f"entry {row[0]}, at {Aside(row[1], row[2])}"


def all_entries(database: sqlite3.Connection, blocks: Sequence[Block]) -> Iterator[Any]:
    """The entries of a record with their hashes, and then what only the head has, without."""
    count = 0
    for row in database.execute(f"SELECT * FROM ({LINES}) ORDER BY number"):
        count += 1
        yield row
    for block in blocks:
        for row in map(row_of, block.entries):
            if row[0] > count:
                yield (*row, None)


def check_entries(
    path: pathlib.Path, database: sqlite3.Connection, tip: Tip, blocks: Sequence[Block]
) -> int:
    """Answers how many entries there are, each with the hash that it has to have, and the one that
    the head knows among them. Raises NotProven."""
    last, count = first_hash(tip.record), 0
    if tip.entries == 0 and tip.entry_hash != last.hex():
        raise NotProven(path, "its head is of another record")
    for row in all_entries(database, blocks):
        count += 1
        if row[0] != count:
            raise NotProven(path, f"entry {count} is missing")
        last = hash_of(last, row[:ENTRIES_AT])
        if row[ENTRIES_AT] not in (None, last):
            raise NotProven(path, f"{place_text(row)}, is not as it was written")
        if count == tip.entries and last.hex() != tip.entry_hash:
            raise NotProven(path, f"up to {place_text(row)}, it is another one than the head knows")
    if count < tip.entries:
        raise NotProven(path, f"it has {count} entries, and {tip.entries} were written")
    return count


def all_givenup(database: sqlite3.Connection, blocks: Sequence[Block]) -> Iterator[Any]:
    """As `all_entries`, of the connections that were given up."""
    count = 0
    for row in database.execute(GIVEN):
        count += 1
        yield row
    for block in blocks:
        first = block.tip.givenup - len(block.givenup) + 1
        for number, row in enumerate(map(row_of, block.givenup), first):
            if number > count:
                yield (number, None, *row)


def check_givenup(
    path: pathlib.Path, database: sqlite3.Connection, tip: Tip, blocks: Sequence[Block]
) -> int:
    """As `check_entries`, of the connections that were given up. Raises NotProven."""
    last, count = first_hash(tip.record), 0
    for row in all_givenup(database, blocks):
        count += 1
        last = hash_of(last, row[2:])
        is_known = count != tip.givenup or last.hex() == tip.givenup_hash
        if row[0] != count or row[1] not in (None, last) or not is_known:
            raise NotProven(path, f"connection {row[2]}, given up, is not as it was written")
    if count < tip.givenup:
        raise NotProven(path, f"{count} connections are given up, and {tip.givenup} were")
    return count


def roles_of(request: bytes) -> str:
    """The roles that the request of a login names, as `connections` has them."""
    try:
        return json.dumps(json.loads(request)["roles"])
    except (ValueError, KeyError, TypeError, RecursionError):
        return ""


def check_connections(path: pathlib.Path, database: sqlite3.Connection) -> None:
    """Sees that the connections are those of the logins, each with its user, person and roles.
    Raises NotProven."""
    logins = {(*row[:4], roles_of(row[4])) for row in database.execute(LOGINS)}
    wrong = logins ^ set(database.execute(CONNECTIONS))
    if wrong:
        number = min(row[0] for row in wrong)
        raise NotProven(path, f"its connections are not those of its logins: {number}")


Objects = Dict[Tuple[str, str], Tuple[str, Optional[str]]]


def objects_of(database: sqlite3.Connection) -> Objects:
    """The tables, indexes, triggers and views of a file, each with the text that made it."""
    return {(kind, name): (table, sql) for kind, name, table, sql in database.execute(OBJECTS)}


def objects_made(schema: str) -> Objects:
    """The objects that a schema makes."""
    with contextlib.closing(sqlite3.connect(":memory:")) as database:
        database.executescript(schema)
        return objects_of(database)


def check_objects(path: pathlib.Path, database: sqlite3.Connection, schema: str) -> None:
    """Sees that a file has what its schema makes, and nothing else: a trigger could change entries
    later. Raises NotProven."""
    made, found = objects_made(schema), objects_of(database)
    for kind, name in sorted({*made, *found}):
        if (kind, name) not in made:
            raise NotProven(path, f"it has the {kind} {name}, which no gateway makes")
        if found.get((kind, name)) != made[kind, name]:
            raise NotProven(path, f"its {kind} {name} is not as a gateway makes it")


def verify_record(
    path: pathlib.Path,
    database: sqlite3.Connection,
    tip: Optional[Tip],
    schema: str = SCHEMA,
    blocks: Sequence[Block] = (),
) -> Verified:
    """Reads a whole record with the head's blocks, and holds it against its schema, and against the
    tip that the head has. Raises NotProven."""
    try:
        check_objects(path, database, schema)
        found = database.execute("PRAGMA integrity_check(1)").fetchone()[0]
        if found != "ok":
            raise NotProven(path, f"the file is damaged: {found.splitlines()[-1]}")
        if tip is None:
            raise NotProven(path, "no head is beside it that knows it")
        givenup = check_givenup(path, database, tip, blocks)
        entries = check_entries(path, database, tip, blocks)
        if rest_of(database) not in tip.rest:
            raise NotProven(path, "what it has beside its entries is not as it was written")
        check_connections(path, database)
        aside = database.execute("SELECT count(*) FROM aside").fetchone()[0]
        there = database.execute("SELECT count(*) FROM entries").fetchone()[0] + aside
    except sqlite3.Error as fault:
        raise unreadable(path, fault) from fault
    behind = max(0, entries - there)  # where a gateway runs, there may be more by now
    return Verified(entries, aside, givenup, entries - tip.entries, behind)


def check_plain(path: pathlib.Path) -> None:
    """Sees that a record is a file, where something is, and no link: what a link names is
    another's. Raises NotProven."""
    with contextlib.suppress(FileNotFoundError):
        if not stat.S_ISREG(path.lstat().st_mode):
            raise NotProven(path, "it is a link, or no file")


def facts_of(path: pathlib.Path) -> Optional[Dict[str, Any]]:
    """The facts of a record; None of a file in which nothing was made yet. Raises NotProven."""
    try:
        with contextlib.closing(open_writer(path)) as database:
            if database.execute("SELECT count(*) FROM sqlite_master").fetchone()[0] == 0:
                return None
            return dict(database.execute("SELECT name, value FROM facts"))
    except sqlite3.Error as fault:
        raise unreadable(path, fault) from fault


def unreadable(path: pathlib.Path, fault: sqlite3.Error) -> Failed:
    """What is told of a file that can't be read: it may be damaged, or only held by another
    process, or on a disk that has no room."""
    if any(word in str(fault) for word in ("locked", "disk I/O", "disk is full", "unable to open")):
        return Failed(f"the record {path} cannot be opened: {fault}")
    return NotProven(path, f"the file cannot be opened: {fault}")


def check_record(path: pathlib.Path, head: Head, is_accepted: bool) -> bool:
    """Sees that the record at a path is the one that the head knows. One of before gets its hashes,
    and so does one that is accepted as it stands. Answers whether there is one. Raises
    NotProven."""
    check_plain(path)
    written = max((tip.entries for tip in head.tips()), default=0)
    facts = facts_of(path) if path.exists() else None
    if facts is None:
        if written and not is_accepted:
            raise NotProven(path, f"it is gone, and {written} entries were written")
        remove_record(path)
        return False
    if facts.get("format") == FORMAT_OF_BEFORE:
        take_over(path, head, name_of_before(facts), is_accepted)
    elif is_accepted:
        with contextlib.suppress(Failed):  # where the record is not such that they fit
            take_over_blocks(path, head)
        take_over(path, head, facts["id"], True)
    with contextlib.closing(open_writer(path)) as database:
        found = dict(database.execute("SELECT name, value FROM facts"))
        if found.get("format") != FORMAT:
            raise Failed(f"the record {path} has a format that this gateway does not know")
        name = found.get("id", "")
        verify_record(path, database, head.of(name), blocks=head.blocks_of(name))
    if head.blocks:
        take_over_blocks(path, head)
    return True


def take_over_blocks(path: pathlib.Path, head: Head) -> None:
    """Has all in the record that the head has, which then has no blocks. Raises Failed."""
    writer = RecordWriter(path, head)
    try:
        writer.take_over()
    finally:
        writer.close_record()


def name_of_before(facts: Dict[str, Any]) -> str:
    """The name that a record without one gets, the same one each time."""
    text = "\n".join(f"{name}={facts[name]}" for name in sorted(facts))
    return hashlib.sha256(text.encode()).hexdigest()[:32]


def take_over(path: pathlib.Path, head: Head, record: str, is_accepted: bool) -> None:
    """Gives each entry of a record its hash, in one transaction. Raises NotProven, where the head
    knows another one."""
    try:
        with contextlib.closing(open_writer(path)) as database, transaction(database):
            rows = old_rows(database)
            if is_accepted:
                drop_strangers(database)
            make_anew(database, record, *rows)
            check_connections(path, database)  # before the head knows what was accepted
            tip = last_tip(database, record)
            known = head.of(record)
            is_known = known is not None and known._replace(serial=0) == tip
            if not is_accepted and head.tips() and not is_known:
                raise NotProven(path, "it is one of before, and the head knows a later one")
            head.begin(tip)
    except sqlite3.Error as fault:
        raise unreadable(path, fault) from fault


Rows = List[Tuple[Any, ...]]


def old_rows(database: sqlite3.Connection) -> Tuple[Rows, Rows, Rows]:
    """The entries, those that are aside, and the connections that were given up, of a record of
    either format, without hashes."""
    entries = database.execute(f"SELECT {COLUMNS} FROM entries").fetchall()
    aside = database.execute(f"SELECT {COLUMNS}, aside_time, aside_reason FROM aside").fetchall()
    is_of_before = not has_table(database, "kept_answers")
    order = "version, time, NULL FROM givenup ORDER BY version, connection"
    if not is_of_before:
        order = "version, time, aside_time FROM givenup ORDER BY number"
    return entries, aside, database.execute(f"SELECT connection, {order}").fetchall()


def drop_strangers(database: sqlite3.Connection) -> None:
    """Takes away the tables and views that no gateway makes."""
    made = objects_made(SCHEMA)
    for kind, name in objects_of(database):
        if kind in ("table", "view") and (kind, name) not in made:
            quoted = name.replace('"', '""')
            database.execute(f'DROP {kind.upper()} "{quoted}"')


def make_anew(
    database: sqlite3.Connection, record: str, entries: Rows, aside: Rows, givenup: Rows
) -> None:
    """Makes the tables anew, with hashes, and with numbers that have no hole."""
    kept = {
        name: database.execute(f"SELECT * FROM {name}").fetchall()
        for name in ("facts", "programs", "connections", "kept_answers")
        if has_table(database, name)
    }
    for name in ("entries", "aside", "givenup", *kept):
        database.execute(f"DROP TABLE {name}")
    for statement in statements(SCHEMA):
        database.execute(statement)
    for name, rows in kept.items():
        for row in rows:
            database.execute(f"INSERT INTO {name} VALUES ({','.join('?' * len(row))})", row)
    for name, value in (("format", FORMAT), ("id", record)):
        database.execute("INSERT OR REPLACE INTO facts VALUES (?,?)", (name, value))
    last = first_hash(record)
    for number, row in enumerate(sorted([*entries, *aside], key=lambda row: int(row[0])), 1):
        entry = (number, *row[1:ENTRIES_AT])
        last = hash_of(last, entry)
        values = (*entry, last, *row[ENTRIES_AT:])
        table = "aside" if len(row) > ENTRIES_AT else "entries"
        database.execute(f"INSERT INTO {table} VALUES ({','.join('?' * len(values))})", values)
    last = first_hash(record)
    for number, (*row, aside_time) in enumerate(givenup, 1):
        last = hash_of(last, row)
        database.execute(
            "INSERT INTO givenup VALUES (?,?,?,?,?,?)", (number, *row, last, aside_time)
        )


def statements(script: str) -> Iterator[str]:
    """The statements of a script, one after the other."""
    held = ""
    for line in script.splitlines(keepends=True):
        held += line
        if sqlite3.complete_statement(held):
            yield held
            held = ""
