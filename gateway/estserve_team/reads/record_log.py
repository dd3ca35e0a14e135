"""The word `log`: who gave which command when, from the present record and the kept ones."""
import asyncio
import json
import pathlib
from typing import Any, Dict, List, NamedTuple, Optional, Tuple

from estserve_client.sentences import out_of_form

from ..record import POLICY, Entry, open_reader
from ..refusals import failed, not_a_word
from ..words import Context
from .rights import Rights, refuse_others
from .slot_model import SLOTS
from .who import time_text

SHOWN = 50  # entries that are shown where their number isn't said
MOST = 1_000  # entries of one answer


class Wanted(NamedTuple):
    """Which entries are asked for; `person` is set where only this person's own may be seen."""

    slot: Optional[int] = None
    user: Optional[str] = None
    instant: Optional[int] = None
    person: Optional[str] = None


class Part(NamedTuple):
    """A record as a part of the whole log: its entries have the numbers from `first` + 1 to `last`.

    `kept` is the name of a kept record's file, None of the present one."""

    path: pathlib.Path
    first: int
    last: int
    kept: Optional[str]


def parts_of(old_records: List[pathlib.Path], present: pathlib.Path, written: int) -> List[Part]:
    """The records as parts of one log, the oldest first. Of the present one `written` entries
    count."""
    parts, first = [], 0
    for path in old_records:
        with open_reader(path) as database:
            last = database.execute("SELECT COALESCE(MAX(number), 0) FROM entries").fetchone()[0]
        parts.append(Part(path, first, first + last, path.name))
        first += last
    return [*parts, Part(present, first, first + written, None)]


def query_of(wanted: Wanted, below: int, count: int) -> Tuple[str, List[Any]]:
    """The SQL for the newest entries that are wanted, and its values."""
    columns = [(f"{name} = ?", value) for name, value in wanted._asdict().items()]
    conditions = [("number <= ?", below), *(pair for pair in columns if pair[1] is not None)]
    where = " AND ".join(condition for condition, _ in conditions)
    order = (
        "number" if wanted.slot is None else "place"
    )  # along a slot both agree; places are indexed
    sql = f"SELECT {', '.join(Entry._fields)} FROM entries WHERE {where}"
    sql += f" ORDER BY {order} DESC LIMIT ?"
    return sql, [value for _, value in conditions] + [count]


def entries_below(part: Part, wanted: Wanted, below: int, count: int) -> List[Dict[str, Any]]:
    """The newest entries of a part under a number of the whole log, the newest first."""
    sql, values = query_of(wanted, min(below - 1, part.last) - part.first, count)
    with open_reader(part.path) as database:
        rows = database.execute(sql, values).fetchall()
    return [entry_dict(Entry._make(row), part) for row in rows]


def entry_dict(entry: Entry, part: Part) -> Dict[str, Any]:
    """What is told of an entry. The text of a load is told by its length alone."""
    told: Dict[str, Any] = {"number": part.first + entry.number, "time": time_text(entry.time)}
    if part.kept is not None:
        told["kept"] = part.kept
    told.update(person=entry.person, user=entry.user, session=entry.session)
    told.update(place=entry.place, version=entry.version)
    request = json.loads(entry.request)
    if "text" in request:
        request["text"] = len(request["text"].encode())
    told["request"] = request
    if entry.slot != POLICY:
        told["slot"] = entry.slot
    if entry.instant is not None:
        told["instant"] = entry.instant
    return told


def read_log(parts: List[Part], wanted: Wanted, below: int, count: int) -> List[Dict[str, Any]]:
    """The newest `count` entries under a number of the whole log, the oldest of them first."""
    found: List[Dict[str, Any]] = []
    for part in reversed(parts):
        if len(found) < count and part.first < below - 1:
            found += entries_below(part, wanted, below, count - len(found))
    return found[::-1]


def wanted_of(keys: Dict[str, Any]) -> Tuple[Wanted, int]:
    """What the keys of the word ask for, and how many entries. Raises Refused."""
    wrong = out_of_form({"user": keys["user"]}) if "user" in keys else None
    if not 0 <= keys.get("slot", 0) < SLOTS:
        wrong = "slots are 0 to 15"
    if not 1 <= keys.get("last", 1) <= MOST:
        wrong = f"1 to {MOST} entries are told at a time"
    if not all(0 <= keys.get(name, 0) < 2**63 for name in ("instant", "before")):
        wrong = "there is no such number"
    if wrong:
        raise not_a_word(wrong)
    wanted = Wanted(keys.get("slot"), keys.get("user"), keys.get("instant"))
    return wanted, keys.get("last", SHOWN)


async def tell_log(context: Context, keys: Dict[str, Any]) -> Dict[str, Any]:
    """The newest entries that are asked for, oldest first; of others for `administer` or `audit`.

    `before` asks for those under a number of the log; `older` tells whether there may be more."""
    wanted, count = wanted_of(keys)
    gateway, loop = context.gateway, asyncio.get_running_loop()
    await gateway.settle_record()
    records, written = (list(gateway.old_records()), gateway.record_path), gateway.entries_written
    oversees = await Rights(context.session).oversees()
    if not oversees:
        if wanted.user is not None and not context.person.may_be(wanted.user):
            raise refuse_others(f"the log of {wanted.user}")
        wanted = wanted._replace(person=context.person.name)

    def read() -> List[Dict[str, Any]]:
        parts = parts_of(*records, written)
        below = min(keys.get("before", parts[-1].last + 1), parts[-1].last + 1)
        return read_log(parts, wanted, below, count)

    entries = await loop.run_in_executor(None, read)
    if list(gateway.old_records()) != records[0]:
        raise failed("the record was archived meanwhile; ask again")
    return {"entries": entries, "older": len(entries) == count, "whole": oversees}
