"""The words that keep a record: `verify`, `backup`, `restore` and `undo-until`. They read and write
the team's folder itself, so they are for the Unix user who runs the gateway."""
import argparse
import contextlib
import os
import pathlib
import sqlite3
import time
from typing import Any, List, Tuple

from .chain import Block, Head, NotProven, Tip, sync_folder
from .places import Failed, Places, add_state
from .record import (
    FORMAT,
    FORMAT_OF_BEFORE,
    SCHEMA,
    add_blocks,
    has_table,
    last_tip,
    open_reader,
    remove_record,
)
from .starting import open_there, settle_records
from .verifying import Verified, check_plain, take_over_blocks, verify_record

BACKUP = "CREATE TABLE backup (time REAL NOT NULL, entries INTEGER NOT NULL, hash TEXT NOT NULL)"


def folder_of(arguments: argparse.Namespace) -> pathlib.Path:
    """The team's folder. Raises Failed."""
    if arguments.state is None:
        raise Failed("the team's folder is missing: --state DIR")
    private = arguments.state / "private"
    if arguments.state.exists() and not os.access(private, os.R_OK | os.X_OK):
        raise Failed(f"{private} can't be read: this is for the Unix user who runs the gateway")
    return pathlib.Path(arguments.state)


def record_of(state: pathlib.Path) -> pathlib.Path:
    """The record of a folder, which is there, and no link. Raises Failed, NotProven."""
    path = state / "private" / "record.sqlite"
    if not path.exists():
        raise Failed(f"there is no record at {path}")
    check_plain(path)
    return path


def known_of(
    state: pathlib.Path, path: pathlib.Path, database: sqlite3.Connection
) -> Tuple[Tip, List[Block]]:
    """The tip that the head of a folder has of its record, and its blocks. Raises Failed."""
    place = state / "private" / "head"
    if not place.exists():
        name_of(path, database, has_hashes=False)
        raise Failed(f"there is no head at {place}")
    head = Head(place)
    try:
        name = name_of(path, database, has_hashes=bool(head.tips()))
        tip = head.of(name)
    finally:
        head.close()
    if tip is None:
        raise NotProven(path, "the head is another record's")
    return tip, head.blocks_of(name)


def name_of(path: pathlib.Path, database: sqlite3.Connection, has_hashes: bool) -> str:
    """The name of a record; `has_hashes` says that it was written with hashes. Raises Failed."""
    try:
        facts = dict(database.execute("SELECT name, value FROM facts"))
    except sqlite3.Error as fault:
        raise Failed(f"the record {path} cannot be read: {fault}") from fault
    if facts.get("format") == FORMAT_OF_BEFORE and not has_hashes:
        raise Failed(f"the record {path} has no hashes yet: the next start gives it some")
    if facts.get("format") != FORMAT or "id" not in facts:
        raise NotProven(path, "its format or its name was changed")
    return str(facts["id"])


def told(verified: Verified) -> str:
    """What was found right, in words."""
    return (
        f"{verified.entries} entries, {verified.aside} of them aside, and {verified.givenup} "
        "connections that were given up: no number is missing, and each hash is right"
    )


def verify(arguments: argparse.Namespace) -> None:
    """Says whether the record is what was written. Raises Failed, NotProven."""
    state = folder_of(arguments)
    path = record_of(state)
    with open_reader(path) as database:
        tip, blocks = known_of(state, path, database)
        database.execute("BEGIN")  # where a gateway runs, all is read of one moment
        verified = verify_record(path, database, tip, blocks=blocks)
        if tip.entries < verified.entries:  # a gateway that runs went on since the head was read
            tip, _ = known_of(state, path, database)
    print(told(verified))
    if verified.behind:
        print(
            f"the last {verified.behind} stand in the head alone, from which the record takes them"
        )
    print(f"the head knows entry {tip.entries}, and its hash is that of the record")
    if tip.entries < verified.entries:
        print("the head's end is gone, and with it perhaps what stood there alone")
        return
    print("so nothing was cut or changed since it was written, but by who could write both files")


def backup(arguments: argparse.Namespace) -> None:
    """Copies the record into one file, also while the gateway runs. Raises Failed."""
    state, target = folder_of(arguments), arguments.file.absolute()
    path = record_of(state)
    if target.exists():
        raise Failed(f"{target} is there already")
    beside = target.with_name(target.name + ".part")
    try:
        beside.unlink(missing_ok=True)
        os.close(os.open(beside, os.O_WRONLY | os.O_CREAT | os.O_EXCL, 0o600))
        with open_reader(path) as source, contextlib.closing(sqlite3.connect(beside)) as copy:
            tip, blocks = known_of(state, path, source)  # the copy has at least as much
            source.backup(copy)
            copy.isolation_level = None
            copy.execute("PRAGMA journal_mode=DELETE")
            add_blocks(copy, last_tip(copy, tip.record), blocks)
            verified = verify_record(beside, copy, tip)
            copy.execute(BACKUP)
            last = last_tip(copy, tip.record)
            copy.execute(
                "INSERT INTO backup VALUES (?,?,?)", (time.time(), last.entries, last.entry_hash)
            )
        os.replace(beside, target)
        sync_folder(target.parent)
    except (sqlite3.Error, OSError) as fault:
        raise Failed(f"{target} cannot be made: {fault}") from fault
    finally:
        with contextlib.suppress(OSError):
            beside.unlink()
    print(f"{target}: {told(verified)}")


def backed_up_tip(path: pathlib.Path, database: sqlite3.Connection) -> Tip:
    """How far a backup has to come, by its own word. Raises Failed."""
    if not has_table(database, "backup"):
        raise Failed(f"{path} is no backup")
    tip = last_tip(database, name_of(path, database, has_hashes=True))
    ((entries, entry_hash),) = database.execute("SELECT entries, hash FROM backup").fetchall()
    return tip._replace(entries=entries, entry_hash=entry_hash)


def restore(arguments: argparse.Namespace) -> None:
    """Puts a backup in the place of the record, which is kept. Raises Failed."""
    with Places(folder_of(arguments)) as places:
        settle_records(places)
        try:
            with open_reader(arguments.file) as source:
                tip = backed_up_tip(arguments.file, source)
                verified = verify_record(arguments.file, source, tip, SCHEMA + BACKUP)
                remove_record(places.next_record)
                with contextlib.closing(sqlite3.connect(places.next_record)) as copy:
                    source.backup(copy)
                    copy.execute("DROP TABLE backup")
                    copy.commit()
            head = Head(places.head)
            with contextlib.suppress(Failed):  # where it is not such that they fit
                if head.blocks and places.record.exists():
                    take_over_blocks(places.record, head)
            kept = put_away(places)
            head.begin(tip)
            head.close()
            os.replace(places.next_record, places.record)
            sync_folder(places.private)
        except (sqlite3.Error, OSError) as fault:
            raise Failed(f"{arguments.file} cannot be restored: {fault}") from fault
    print(f"restored: {told(verified)}")
    if kept is not None:
        print(f"what was there before is kept as {kept}")


def put_away(places: Places) -> Any:
    """Moves the record with all that belongs to it to another name. Answers where it is; None where
    there is none."""
    if not places.record.exists():
        return None
    stamp = time.strftime("%Y%m%dT%H%M%SZ", time.gmtime())
    kept = places.old_records / f"replaced-{stamp}-{os.getpid()}.sqlite"
    for suffix in ("-wal", "-shm", ""):
        part = places.record.with_name(places.record.name + suffix)
        if part.exists():
            os.replace(part, kept.with_name(kept.name + suffix))
    return kept


def undo_until(arguments: argparse.Namespace) -> None:
    """Brings back what the last `--until` has kept aside. Raises Failed."""
    with Places(folder_of(arguments)) as places, open_there(places) as writer:
        aside, back = writer.bring_back()
    print(f"{back} entries are back; {aside} that were recorded since are kept aside")


def add_words(subparsers: Any) -> None:
    """Adds these words to the command `team`."""
    for word, act, help in (
        ("verify", verify, "whether the record is what was written"),
        ("backup", backup, "copy the record into one file, also while the gateway runs"),
        ("restore", restore, "put a backup in the place of the record, while no gateway runs"),
        ("undo-until", undo_until, "bring back what the last --until has kept aside"),
    ):
        parser = subparsers.add_parser(word, help=help, description=help)
        add_state(parser, argparse.SUPPRESS)
        if word in ("backup", "restore"):
            parser.add_argument("file", metavar="FILE", type=pathlib.Path)
        parser.set_defaults(act=act)
