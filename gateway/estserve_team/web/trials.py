"""What the page tries before it is done: a text on a program of its own, a policy file beside the
policy. Nothing of the team changes."""
import asyncio
import contextlib
import functools
import weakref
from typing import Any, AsyncIterator, Awaitable, Callable, Dict, List, Optional

from estserve_client.command_table import SLOTS
from estserve_client.connection import Disconnected, Refusal, TimedOut
from estserve_client.module_text import main_of
from estserve_client.planning import plan as plan_of
from estserve_client.trying_out import diagnosis_of, try_text

from ..refusals import Refused, failed

AT_ONCE = 2  # programs that try texts, each for another person
Told = Dict[str, Any]


class Turns:
    """Who does what takes its time: a few at once, each another person. One who asks for much waits
    for oneself alone."""

    def __init__(self, at_once: int) -> None:
        self._places = asyncio.Semaphore(at_once)
        self._own: "weakref.WeakValueDictionary[str, asyncio.Lock]" = weakref.WeakValueDictionary()

    @contextlib.asynccontextmanager
    async def of(self, seat: Any, thing: Optional[asyncio.Lock] = None) -> AsyncIterator[None]:
        """A turn of a seat's person, with a thing that one alone may use. Raises Denied."""
        person = (await seat.ask("here"))["person"]
        own = self._own.setdefault(person, asyncio.Lock())
        async with own, thing or asyncio.Lock(), self._places:
            yield


async def apart(act: Callable[..., Told], *asked: Any) -> Told:
    """Does what takes its time, beside the others."""
    return await asyncio.get_running_loop().run_in_executor(None, functools.partial(act, *asked))


async def diagnosis(answer: Told, command: Told) -> Told:
    """What the refusal of a load means."""
    return await apart(diagnosis_of, Refusal(answer, command))


async def texts_of(seat: Any) -> List[Told]:
    """The texts of the slots that one may see, and in which something runs. Raises Denied."""
    found = []
    for slot in range(SLOTS):
        with contextlib.suppress(Refused):
            told = await seat.ask("text", slot=slot)
            found += [{"slot": slot, **told}] if told["main"] else []
    return found


def plan_over(toml: Any, known: Told, texts: List[Told]) -> Told:
    """What a policy file would change, with its patterns spread over the interfaces of texts."""
    interfaces = {one["slot"]: main_of(one["text"], one["main"]).kinds() for one in texts}
    return plan_of(toml, known, interfaces)


async def plan(seat: Any, body: Told) -> Told:
    """What a policy file would change. Raises Denied, Refused."""
    toml = body.get("toml")
    has_pattern = isinstance(toml, str) and "*" in toml
    texts = await texts_of(seat) if has_pattern else []
    return await apart(plan_over, toml, await seat.word("policy"), texts)


class Trials:
    """The programs on which texts are tried, a few at once."""

    def __init__(self, program: Optional[str]) -> None:
        self._program = program
        self._turns = Turns(AT_ONCE)

    async def try_out(self, seat: Any, body: Told) -> Told:
        """What becomes of a text on a program of its own. Raises Denied, Refused."""
        asked = [body.get(name) for name in ("text", "main", "inputs")]
        async with self._turns.of(seat):
            try:
                return await apart(try_text, self._program, *asked)
            except (Disconnected, TimedOut) as fault:
                raise failed(str(fault)) from fault


ACTS: Dict[str, Callable[[Any, Told], Awaitable[Told]]] = {"plan": plan}
