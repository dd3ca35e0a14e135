"""What the page reads and does, each asked of the gateway on the seat that shows its secrets."""
from typing import Any, Awaitable, Callable, Dict, List, Mapping

from estserve_client.command_table import OF_TEXTS, words_of
from estserve_client.connection import NotText, TooLong, line_of
from estserve_client.module_text import main_of

from ..lines import LINE_BYTES
from ..refusals import Refused
from . import trials
from .core import Core
from .refusing import refusal_of

NOT_HERE = 1021  # the code of the refusal of what would change a login that others share
SHARED = ("login", "logout", "activate", "drop")
LOG_ENTRIES = 200  # at most this many entries of the log are told at once
IDENTIFIERS = range(1, 65)  # letters that a request's id may have
AWAY = (1004, 1005)  # refusals after which the same request may be sent again
SLOTS = 16

Told = Dict[str, Any]


class Seat:
    """The seat of a tab, by the secrets that its visitor shows."""

    def __init__(self, core: Core, secrets: Told, name: Any) -> None:
        self.core, self.keys = core, {**secrets, "seat": name if isinstance(name, str) else None}

    async def ask(self, request: str, **keys: Any) -> Told:
        """What the gateway tells. Raises Denied, Refused."""
        return await self.core.ask(request, **self.keys, **keys)

    async def word(self, word: str, **keys: Any) -> Told:
        """The answer to a word of the gateway's. Raises Denied, Refused."""
        return await self.ask("word", asked={"word": word, **keys})


# What changes something.


def completed(command: Told) -> Told:
    """A command as the program has it: a load that names no main module takes the first that no
    other runs."""
    text = command.get("text")
    if command.get("cmd") != "load" or "main" in command or not isinstance(text, str):
        return command
    is_short = len(text) <= LINE_BYTES  # a longer one is refused whatever it says
    return {**command, "main": main_of(text).name if is_short else "main"}


async def ask(seat: Seat, body: Told) -> Told:
    """One command of the program. One that bears an id which was recorded is answered from the
    record. Raises Denied, Refused."""
    command, identifier = body.get("command"), body.get("id")
    if (
        not isinstance(command, dict)
        or not isinstance(identifier, str)
        or len(identifier) not in IDENTIFIERS
    ):
        raise Refused(3, "NotARequest")
    command = completed(command)
    if command.get("cmd") in SHARED:
        raise Refused(NOT_HERE, "NotHere")
    try:
        line_of(command)
    except TooLong:
        return refusal_of({"code": 1, "fault": "TooLong"}, command)
    except NotText:
        return refusal_of({"code": 2, "fault": "NotJson"}, {})
    answer = (await seat.ask("ask", command=command, id=identifier))["answer"]
    if "code" not in answer:
        return {"reply": answer}
    if answer["code"] in AWAY:
        raise Refused(answer["code"], answer["fault"])
    relations = await relations_of(seat, command.get("slot")) if "relation" in answer else []
    told = refusal_of(answer, command, relations)
    if command.get("cmd") == "load" and answer["code"] in OF_TEXTS:
        told["diagnosis"] = await trials.diagnosis(answer, command)
    return told


async def relations_of(seat: Seat, slot: Any) -> List[str]:
    """The relations of the module in a slot, as far as the seat may know them."""
    if type(slot) is not int or not 0 <= slot < SLOTS:
        return []
    try:
        told = await seat.ask("text", slot=slot)
    except Refused:
        return []
    return main_of(told["text"], told["main"]).relations if told["main"] else []


async def archive(seat: Seat, body: Told) -> Told:
    """Begins a new record. Raises Denied, Refused."""
    return await seat.word("archive", **{name: body[name] for name in ("slot",) if name in body})


async def retract(seat: Seat, body: Told) -> Told:
    """Takes one offer back, and leaves the others. Raises Denied, Refused."""
    keys = {name: body[name] for name in ("slot", "signal") if name in body}
    return await seat.word("retract", **keys)


ACTS: Dict[str, Callable[[Seat, Told], Awaitable[Told]]] = {
    **{one.__name__: one for one in (ask, archive, retract)},
    **trials.ACTS,
}


# What is read.


class NoSlot(ValueError):
    """A query names a slot that there isn't."""


async def here(seat: Seat, query: Mapping[str, str]) -> Told:
    """That the seat is there. Raises Denied."""
    return await seat.ask("here")


def slot_of(query: Mapping[str, str]) -> int:
    """The slot that a query names. Raises ValueError, NoSlot."""
    slot = int(query.get("slot", ""))
    if not 0 <= slot < SLOTS:
        raise NoSlot
    return slot


async def text(seat: Seat, query: Mapping[str, str]) -> Told:
    """The text that was loaded. Raises ValueError, Denied, Refused."""
    told = await seat.ask("text", slot=slot_of(query))
    return {"load": told["load"], "text": told["text"]}


async def looks(seat: Seat, query: Mapping[str, str]) -> Told:
    """Instants for the wave. Raises ValueError, Denied, Refused."""
    span = {name: int(query.get(name, "")) for name in ("from", "to")}
    return await seat.ask("looks", slot=slot_of(query), **span)


async def policy(seat: Seat, query: Mapping[str, str]) -> Told:
    """The policy, as far as the session may read it. Raises Denied, Refused."""
    read = await seat.word("policy")
    asked = {"cmd": "check", "op": "administer", "object": "policy"}
    may = (await seat.ask("ask", command=asked))["answer"]
    users = [
        {"user": user, "roles": [role for one, role in read["assigned"] if one == user]}
        for user in read["users"]
    ]
    roles = [
        {
            "role": role,
            "juniors": [junior for senior, junior in read["edges"] if senior == role],
            "permissions": [grant[1:] for grant in read["granted"] if grant[0] == role],
        }
        for role in read["roles"]
    ]
    told = {name: read[name] for name in ("version", "whole", "sets", "sessions")}
    return {**told, "users": users, "roles": roles, "may_administer": bool(may.get("allowed"))}


def way_in_words(user: str, way: Told, operation: str, thing: str) -> str:
    """One way to a permission, as a sentence."""
    first, *below = way["roles"]
    chain = "".join(f", above {role}" for role in below)
    last = way["roles"][-1]
    assigned, granted = (way[name]["version"] for name in ("assigned", "granted"))
    had = f"{user} has {first} (version {assigned}){chain}"
    return f"{had}; {last} may {operation} on {thing} (version {granted})"


async def why(seat: Seat, query: Mapping[str, str]) -> Told:
    """Through which role and edges somebody may do something, in sentences. Raises Denied,
    Refused."""
    user, operation, thing = (query.get(name, "") for name in ("user", "operation", "object"))
    told = await seat.word("why", user=user, op=operation, object=thing)
    lines = [way_in_words(user, way, operation, thing) for way in told["ways"]]
    if not lines:
        lines = [
            f"No role of {user} has {operation} on {thing}."
            if told["known"]
            else f"There is no user {user}."
        ]
    if "allowed" in told:
        may = "may" if told["allowed"] else "may not"
        lines.append(f"This login {may}, with the roles that are active in it.")
    return {"lines": lines}


def request_in_words(request: Told) -> str:
    """A recorded request in words, in the order of the client's; a module's text by its length."""
    text = [f"({request['text']} bytes)"] if "text" in request else []
    return " ".join([*words_of(request), *text])


def log_line(entry: Told) -> Told:
    """An entry of the log for the page."""
    names = ("number", "time", "user", "person", "session", "place", "version")
    told = {name: entry[name] for name in names}
    return {
        **told,
        "slot": entry.get("slot"),
        "instant": entry.get("instant"),
        "told": request_in_words(entry["request"]),
    }


async def log(seat: Seat, query: Mapping[str, str]) -> Told:
    """Entries of the record, the newest first. Raises ValueError, Denied, Refused."""
    asked: Told = {"last": max(1, min(LOG_ENTRIES, int(query.get("limit", LOG_ENTRIES))))}
    asked.update(
        {name: int(query[name]) for name in ("slot", "before", "instant") if name in query}
    )
    if "user" in query:
        asked["user"] = query["user"]
    told = await seat.word("log", **asked)
    return {
        "entries": [log_line(entry) for entry in reversed(told["entries"])],
        "more": told["older"],
        "whole": told["whole"],
    }


async def who(seat: Seat, query: Mapping[str, str]) -> Told:
    """Who holds the sixteen logins. Raises Denied, Refused."""
    return await seat.word("who")


READS: Dict[str, Callable[[Seat, Mapping[str, str]], Awaitable[Told]]] = {
    one.__name__: one for one in (here, text, looks, policy, why, log, who)
}
