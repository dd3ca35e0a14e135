"""What the page's process may ask, each on the visit and the seat whose secrets it shows."""
import json
from typing import TYPE_CHECKING, Any, Awaitable, Callable, Dict

from .. import words
from ..metrics import health
from ..reads.slot_model import SLOTS
from ..refusals import Refused, not_a_word
from . import Denied
from .inside import inside_of
from .looks import rows_of
from .page_slots import text_of

if TYPE_CHECKING:
    from .page_client import PageClient

Told = Dict[str, Any]
SEEN = ("archive", "log", "policy", "retract", "who", "why")  # the words that a seat may ask


def key_of(asked: Told, name: str, kind: type) -> Any:
    """A key of what is asked. Raises Refused, where it is of another type."""
    value = asked.get(name)
    if type(value) is not kind:
        raise not_a_word(f"the key {name} has a value of another type")
    return value


def slot_of(asked: Told) -> int:
    """The slot that is asked for. Raises Refused."""
    slot: int = key_of(asked, "slot", int)
    if not 0 <= slot < SLOTS:
        raise not_a_word("slots are 0 to 15")
    return slot


def roles_of(gateway: Any, user: str) -> Told:
    """The roles that a user may activate, and those of them that are assigned."""
    model = gateway.reads.policy
    if user not in model.users:
        return {"known": False, "assigned": [], "authorized": []}
    assigned = [role for one, role in model.assigned if one == user]
    below = [
        role for role in model.roles if role in model.authorized(user) and role not in assigned
    ]
    return {"known": True, "assigned": assigned, "authorized": assigned + below}


def person_told(gateway: Any, person: Any) -> Told:
    """Who a person is, and which users and roles are theirs."""
    users = [{"user": user, **roles_of(gateway, user)} for user in person.users]
    return {"person": person.name, "team": gateway.name, "users": users}


# ---- without a visit


async def hello(page: "PageClient", asked: Told) -> Told:
    """A page tells where browsers find it."""
    page.visiting.take_page(page, asked.get("address"))
    return {"team": page.gateway.name}


async def tell_health(page: "PageClient", asked: Told) -> Told:
    """Whether the gateway is well."""
    return health(page.gateway)


async def enter(page: "PageClient", asked: Told) -> Told:
    """Begins a visit. Raises Denied."""
    person, cookie, token = page.visiting.enter(asked.get("link"), asked.get("named"))
    return {**person_told(page.gateway, person), "cookie": cookie, "token": token}


# ---- with a visit


async def visit(page: "PageClient", asked: Told) -> Told:
    """Whose visit it is. Raises Denied."""
    return {"person": page.visiting.person(page.visiting.visit_of(asked).person).name}


async def me(page: "PageClient", asked: Told) -> Told:
    """Who the visitor is, and which users and roles are theirs. Raises Denied."""
    person = page.visiting.person(page.visiting.visit_of(asked).person)
    return person_told(page.gateway, person)


async def login(page: "PageClient", asked: Told) -> Told:
    """Takes a seat. Raises Denied, Refused."""
    if not all(isinstance(role, str) for role in key_of(asked, "roles", list)):
        raise not_a_word("roles is a list of names")
    key_of(asked, "user", str)
    seat = await page.visiting.take_seat(asked, page)
    share = seat.share
    return {
        "seat": seat.name,
        "user": share.user,
        "roles": list(share.roles),
        "session": share.number,
    }


async def out(page: "PageClient", asked: Told) -> Told:
    """Ends the visit. Raises Denied."""
    page.visiting.end_visit(page.visiting.visit_of(asked))
    return {}


# ---- with a seat


async def leave(page: "PageClient", asked: Told) -> Told:
    """Gives up the seat. Raises Denied."""
    page.visiting.seats.drop(page.visiting.seat_of(asked))
    return {}


async def here(page: "PageClient", asked: Told) -> Told:
    """That the seat is there, and whose it is. Raises Denied."""
    seat = page.visiting.seat_of(asked)
    return {"person": seat.context.person.name, "session": seat.share.number}


async def ask(page: "PageClient", asked: Told) -> Told:
    """One command of the program, and its answer. One that bears an id which was recorded is
    answered from the record. Raises Denied, Refused."""
    seat = page.visiting.seat_of(asked)
    identifier = asked.get("id")
    if identifier is not None and not isinstance(identifier, str):
        raise not_a_word("an id is a text")
    line = await seat.share.ask(key_of(asked, "command", dict), request_id=identifier)
    return {"answer": json.loads(line)}


async def word(page: "PageClient", asked: Told) -> Told:
    """A word of the gateway's. Raises Denied, Refused."""
    seat, wanted = page.visiting.seat_of(asked), key_of(asked, "asked", dict)
    if wanted.get("word") not in SEEN:
        raise not_a_word("there is no such word")
    return await words.act_on(seat.context, wanted)


async def text(page: "PageClient", asked: Told) -> Told:
    """The text of a slot. Raises Denied, Refused."""
    seat = page.visiting.seat_of(asked)
    return await text_of(seat, slot_of(asked))


async def looks(page: "PageClient", asked: Told) -> Told:
    """Instants for the wave. Raises Denied, Refused."""
    seat = page.visiting.seat_of(asked)
    first, last = (key_of(asked, name, int) for name in ("from", "to"))
    return await rows_of(seat, slot_of(asked), max(1, first), last)


async def inside(page: "PageClient", asked: Told) -> Told:
    """What the inside of a slot's instants is worked out from. Raises Denied, Refused."""
    seat = page.visiting.seat_of(asked)
    load, known = key_of(asked, "load", str), key_of(asked, "known", int)
    return await inside_of(seat, slot_of(asked), load, known)


async def news(page: "PageClient", asked: Told) -> bytes:
    """What a stream is to be told next, as JSON. Raises Denied, Refused."""
    return await page.watcher_of(asked).next() or b'{"over":true}'


async def hush(page: "PageClient", asked: Told) -> Told:
    """A stream has ended."""
    page.close_watcher(asked.get("stream"))
    return {}


REQUESTS: Dict[str, Callable[["PageClient", Told], Awaitable[Any]]] = {
    one.__name__: one
    for one in (
        *(hello, enter, visit, me, login, out, leave, here, ask, word, text, looks, inside, news),
        hush,
    )
}
REQUESTS["health"] = tell_health


async def act(page: "PageClient", asked: Told) -> Any:
    """Carries out what a line asks. Raises Denied, Refused."""
    name = asked.get("ask")
    request = REQUESTS.get(name) if isinstance(name, str) else None
    if request is None:
        raise not_a_word("there is no such request")
    return await request(page, asked)


__all__ = ["Denied", "Refused", "act"]
