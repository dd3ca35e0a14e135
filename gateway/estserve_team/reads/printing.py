"""The answers of the gateway's words, as lines for people."""
from typing import Any, Callable, Dict, Iterable, Iterator, List, Sequence

from estserve_client.command_table import words_of
from estserve_client.texts import Failed

from .filling import sentence_of
from .policy_model import Filling

Answer = Dict[str, Any]


def columns(rows: Sequence[Sequence[object]]) -> List[str]:
    """Rows of words, each column as wide as its widest word."""
    texts = [[str(word) for word in row] for row in rows]
    wide = [max(len(row[at]) for row in texts) for at in range(len(texts[0]))] if texts else []
    return ["  ".join(map(str.ljust, row, wide)).rstrip() for row in texts]


def who_lines(answer: Answer) -> Iterator[str]:
    """Who holds a login, a line each."""
    rows: List[List[object]] = [["user", "person", "since", "session", "roles"]]
    for holder in answer["holders"]:
        row = [holder["user"], holder["person"], holder["since"]]
        ended = " (ended)" if holder.get("ended") else ""
        rows.append(
            [*row, f"{holder.get('session', '')}{ended}", " ".join(holder.get("roles", ()))]
        )
    yield from columns(rows)
    yield f"{len(answer['holders'])} of {answer['most']} logins are held"


def slots_lines(answer: Answer) -> Iterator[str]:
    """What runs in each slot. `active` has the roles of the login, where they are known."""
    if not answer["slots"]:
        why = "" if answer.get("active", True) else ": no role is active, name one by --role ROLE"
        yield f"you have no permission on a slot{why}"
    for slot in answer["slots"]:
        yield from slot_lines(slot)


def slot_lines(slot: Answer) -> Iterator[str]:
    """One slot: its module, its interface, what is pending, its last instant and its text."""
    count = slot["instants"]
    what = (
        f"{slot['main']}, {count} instant{'' if count == 1 else 's'}" if slot["main"] else "empty"
    )
    yield f"slot {slot['slot']}: {what}"
    pending = set(slot["pending"])
    rows = [
        [" ", kind, name, "pending" if name in pending else ""] for name, kind in slot["signals"]
    ]
    yield from columns(rows)
    if slot.get("last"):
        told = [name + ("" if present else "=0") for name, present in slot["last"]]
        yield f"   instant {slot['instants']}: {' '.join(told)}"
    if "filling" in slot:
        yield f"   {filling_text(slot['filling'])}"
    yield from (f"   | {line}" for line in (slot.get("text") or "").splitlines())


def filling_text(told: Answer) -> str:
    """The sentence of how full something is."""
    return sentence_of(Filling(told["what"], told["used"], told["limit"]))


def quoted(names: Iterable[str]) -> str:
    """A list of names as a policy file has it."""
    return "[" + ", ".join(f'"{name}"' for name in names) + "]"


def grouped(pairs: Iterable[Sequence[str]]) -> Iterator[str]:
    """Pairs as the lines of a table of a policy file: each first word with its second ones."""
    lists: Dict[str, List[str]] = {}
    for key, value in pairs:
        lists.setdefault(key, []).append(value)
    return (f"{key} = {quoted(values)}" for key, values in lists.items())


def policy_lines(answer: Answer) -> Iterator[str]:
    """The policy in the form that `apply` reads, what it has not as comments."""
    what = "the whole policy" if answer["whole"] else "your part of the policy"
    yield f"# {what} at version {answer['version']}"
    yield f"users = {quoted(answer['users'])}"
    yield f"roles = {quoted(answer['roles'])}"
    grants = [(role, f"{op} {object}") for role, op, object in answer["granted"]]
    tables = {"inherit": answer["edges"], "assign": answer["assigned"], "permissions": grants}
    for name, pairs in tables.items():
        if pairs:
            yield from ("", f"[{name}]", *grouped(pairs))
    for one in answer["sets"]:
        yield from (
            "",
            f"[separate.{one['name']}]",
            f"roles = {quoted(one['roles'])}",
            f"count = {one['count']}",
        )
    yield ""
    for session in answer["sessions"]:
        roles = " ".join(session["roles"]) or "no role"
        yield f"# session {session['session']} of {session['user']}, with {roles}"
    for filling in answer.get("filling", ()):
        count = f"{filling['used']} of {filling['limit']}"
        yield f"# {filling['what']}: {filling['percent']} % full, {count}"


def why_lines(answer: Answer) -> Iterator[str]:
    """The ways by which a user has a permission."""
    user, what = answer["user"], f"{answer['op']} on {answer['object']}"
    if not answer["known"]:
        yield f"there is no user {user}"
    elif not answer["ways"]:
        why = f"no role of {user}, and no role below one, has that permission"
        yield f"{user} may not {what}: {why}"
    else:
        yield f"{user} may {what}:"
        yield from map(way_line, answer["ways"])
        sessions = " ".join(map(str, answer["sessions"])) or "none"
        yield f"living sessions in which such a role is active: {sessions}"
    if "allowed" in answer:
        yield f"your session {'may' if answer['allowed'] else 'may not'}"


def way_line(way: Answer) -> str:
    """One way: the assigned role, the roles down to the one that has the permission."""
    first, *below = way["roles"]
    parts = [f"{first}, assigned {origin_text(way['assigned'])}"]
    parts += [f"above {role} {origin_text(edge)}" for role, edge in zip(below, way["edges"])]
    return "  " + "; ".join([*parts, f"granted {origin_text(way['granted'])}"])


def origin_text(origin: Answer) -> str:
    """When a fact was made, and by whom where that is told."""
    by = f" by {origin['by']} in session {origin['session']}" if origin.get("by") else ""
    return f"at version {origin['version']}{by}"


def log_lines(answer: Answer) -> Iterator[str]:
    """The entries, a line each."""
    rows = []
    for entry in answer["entries"]:
        who = f"{entry['user']} ({entry['person']})"
        where = f"slot {entry['slot']} place {entry['place']}" if "slot" in entry else "policy"
        row = [entry["number"], entry["time"], who, f"session {entry['session']}", where]
        rows.append([*row, f"version {entry['version']}", request_text(entry)])
    kept = [entry.get("kept") for entry in answer["entries"]]
    for at, line in enumerate(columns(rows)):
        if at and kept[at] != kept[at - 1]:
            yield f"what stands above is kept as {kept[at - 1]}; here a new record begins"
        yield line
    if not rows:
        yield "no entry"
    elif answer["older"]:
        yield f"perhaps there are older ones: --before {answer['entries'][0]['number']}"
    if not answer["whole"]:
        yield "entries of others are for who may administer or audit the policy"


def request_text(entry: Answer) -> str:
    """A command in words, as `grant driver offer 0.A`; of a step the instant too."""
    request = entry["request"]
    text = [f"({request['text']} bytes)"] if "text" in request else []
    told = [*words_of(request), *text]
    if "instant" in entry:
        told.append(f"-> instant {entry['instant']}")
    return " ".join(told)


def archive_lines(answer: Answer) -> Iterator[str]:
    """What an archive has done."""
    kept = f"the old one is kept as {answer['kept']}"
    yield f"a new record begins at version {answer['version']}; {kept}"
    yield "everyone is logged out"


def link_lines(answer: Answer) -> Iterator[str]:
    """The link alone, so that it can be handed on to a browser."""
    yield answer["link"]


def health_lines(answer: Answer) -> Iterator[str]:
    """Whether the gateway is well."""
    yield f"{answer['phase']}, {answer['entries']} entries, {answer['full']} % full at most"
    yield f"the server was begun anew {answer['restarts']} times"


def visit_lines(answer: Answer) -> Iterator[str]:
    """The visits of browsers, a line each."""
    rows = [["visit", "person", "used"]]
    rows += [[one["visit"], one["person"], one["used"]] for one in answer["visits"]]
    yield from columns(rows)


def counted(number: int, what: str) -> str:
    """A number of things, in words."""
    return f"{number} {what}{'' if number == 1 else 's'}"


def kick_lines(answer: Answer) -> Iterator[str]:
    """What was ended. Raises Failed where nothing was."""
    if answer["sessions"]:
        yield f"the session is ended, with {counted(answer['connections'], 'connection')}"
        return
    if not answer["connections"] and not answer["visits"]:
        told = "`who` has the columns person, a Unix user, and session"
        raise Failed(f"nothing of that is open: {told}")
    ended = counted(answer["connections"], "connection"), counted(answer["visits"], "visit")
    yield f"{' and '.join(ended)} are ended"


def close_lines(answer: Answer) -> Iterator[str]:
    """What was ended."""
    yield f"{answer['visits']} visits are ended"


def retract_lines(answer: Answer) -> Iterator[str]:
    """What is pending still."""
    yield f"pending in slot {answer['slot']}: {', '.join(answer['pending']) or 'nothing'}"


PRINTERS: Dict[str, Callable[[Answer], Iterable[str]]] = {
    "who": who_lines,
    "slots": slots_lines,
    "policy": policy_lines,
    "why": why_lines,
    "log": log_lines,
    "archive": archive_lines,
    "link": link_lines,
    "health": health_lines,
    "visits": visit_lines,
    "kick": kick_lines,
    "close": close_lines,
    "retract": retract_lines,
}
