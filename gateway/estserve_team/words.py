"""The gateway's own words, which gateway.sock and the page speak: what each needs, and who carries
it out."""
from typing import TYPE_CHECKING, Any, Awaitable, Callable, Dict, NamedTuple, Optional

from .people import Person
from .refusals import needs_login, not_a_word

if TYPE_CHECKING:
    from .gateway import Gateway
    from .sessions import SharedSession


class Context(NamedTuple):
    """Who asks a word: the gateway that is asked, the person, and the session that it shares, if it
    has one."""

    gateway: "Gateway"
    person: Person
    session: "Optional[SharedSession]"


class Word(NamedTuple):
    """A word: what carries it out and gives the answer's further keys, its keys with their types,
    whether it needs a session."""

    act: Callable[[Context, Dict[str, Any]], Awaitable[Dict[str, Any]]]
    required: Dict[str, type] = {}
    optional: Dict[str, type] = {}
    needs_session: bool = True


def check_keys(word: Word, keys: Dict[str, Any]) -> None:
    """Raises Refused where a key is missing, unknown or of another type."""
    for key in word.required:
        if key not in keys:
            raise not_a_word(f"the key {key} is missing")
    for key, value in keys.items():
        kind = word.required.get(key) or word.optional.get(key)
        if kind is None:
            raise not_a_word(f"there is no key {key} here")
        if type(value) is not kind:
            raise not_a_word(f"the key {key} has a value of another type")


async def act_on(context: Context, asked: Dict[str, Any]) -> Dict[str, Any]:
    """Carries out `{"word": .., ..}`, and gives the whole answer. Raises Refused."""
    name = asked.get("word")
    word = context.gateway.words.get(name) if isinstance(name, str) else None
    if word is None:
        raise not_a_word("there is no such word")
    keys = {key: value for key, value in asked.items() if key != "word"}
    check_keys(word, keys)
    if word.needs_session and context.session is None:
        raise needs_login()
    return {"ok": name, **await word.act(context, keys)}


async def ping(context: Context, keys: Dict[str, Any]) -> Dict[str, Any]:
    """Who the gateway takes the caller for, and the policy users that it may name."""
    return {
        "person": context.person.name,
        "team": context.gateway.name,
        "users": list(context.person.users),
    }


WORDS = {"ping": Word(ping, needs_session=False)}
# a connection of gateway.sock carries these out itself
LOGINS = {
    "login": Word(ping, required={"user": str}, optional={"roles": list}),
    "logout": Word(ping),
}
