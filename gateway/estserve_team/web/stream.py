"""Live events of a tab: the news that the gateway has for its seat, as a stream of events."""
import asyncio
import itertools
import json
from typing import Any, AsyncIterator, Dict, List, Tuple

from ..refusals import Refused
from .asking import Seat
from .core import Core, Denied, answer_of
from .refusing import sentence_of

TURN = 2  # seconds after which it is seen whether the tab has gone
BEATS = 5  # after this many such turns a stream without news tells that it is there
HERE = b": here\n\n"  # a sign of life
NAMES = itertools.count(1)


def event_bytes(name: str, value: Any) -> bytes:
    """An event as the stream has it."""
    text = json.dumps(value, separators=(",", ":"))
    return f"event: {name}\ndata: {text}\n\n".encode()


def events_of(news: Dict[str, Any]) -> bytes:
    """News as events."""
    if "ended" in news:
        return event_bytes("ended", sentence_of(news["ended"], {}))
    events: List[Tuple[str, Any]] = []
    if "slots" in news:
        events.append(("slots", news["slots"]))
    events += [(name, {}) for name in ("policy", "record") if name in news]
    if "warnings" in news:
        events.append(("warnings", news["warnings"]))
    return b"".join(event_bytes(*event) for event in events)


class Rendered:
    """The events of the last news; tabs that share a login mostly have the same."""

    def __init__(self) -> None:
        self._plain, self._events = b"", b""

    def of(self, plain: bytes) -> bytes:
        """The events of news that came so; none, where the seat is over. Raises Denied, Refused."""
        if plain != self._plain:
            news = answer_of(plain)
            self._plain, self._events = plain, b"" if "over" in news else events_of(news)
        return self._events


RENDERED = Rendered()


class Stream:
    """The stream of one tab."""

    def __init__(self, core: Core, seat: Seat) -> None:
        self._core, self._seat = core, seat
        self._name = next(NAMES)
        self._is_over = False
        self._waiting: "asyncio.Future[bytes]" = None  # type: ignore[assignment]

    async def events(self) -> AsyncIterator[bytes]:
        """What the stream has, as it comes, until the seat is over; nothing, now and then, to
        see whether the tab is there."""
        turns = 0
        while not self._is_over:
            if self._waiting is None:
                asked = self._core.ask_plain("news", stream=self._name, **self._seat.keys)
                self._waiting = asyncio.ensure_future(asked)
            done, _ = await asyncio.wait({self._waiting}, timeout=TURN)
            if not done:
                turns = (turns + 1) % BEATS
                yield b"" if turns else HERE
                continue
            try:
                waiting, self._waiting = self._waiting, None  # type: ignore[assignment]
                events = RENDERED.of(waiting.result())
            except (Denied, Refused):
                return
            if not events:
                return
            yield events

    def stop(self) -> None:
        """The page stops."""
        self._is_over = True
        if self._waiting is not None:
            self._waiting.cancel()

    def close(self) -> None:
        """The tab has gone."""
        if self._waiting is not None:
            self._waiting.cancel()
        self._core.send("hush", stream=self._name)
