"""The page's connection to the gateway: requests of all visitors on one line each, answered by
their number."""
import asyncio
import json
import pathlib
from typing import Any, Callable, Dict, Optional

from ..refusals import Refused, interrupted

AGAIN_SECONDS = 0.2  # before a connection is tried again
BEATS = 4  # signs of life in the time that a page may be silent
Told = Dict[str, Any]


class Denied(Exception):
    """The gateway knows no such visit, person, seat or link, or doesn't believe the proxy."""


class Asked:
    """A request that is under way; `is_plain` has its answer be given as the bytes that came."""

    __slots__ = ("future", "is_plain")

    def __init__(self, future: "asyncio.Future[Any]", is_plain: bool) -> None:
        self.future, self.is_plain = future, is_plain


def answer_of(rest: bytes) -> Told:
    """What an answer tells, by what stands after its number. Raises Denied, Refused."""
    found = json.loads(rest)
    if "denied" in found:
        raise Denied(found["denied"])
    if "refused" in found:
        raise Refused(**found["refused"])
    told: Told = found["told"]
    return told


class Core(asyncio.Protocol):
    """The connection, which is made again where it is lost."""

    def __init__(self, path: pathlib.Path, seconds: float, hello: Callable[[], Told]) -> None:
        """`seconds` may pass without a sign of life; `hello` gives what the gateway is told
        first."""
        self._path, self._hello, self._beat_seconds = path, hello, seconds / BEATS
        self._transport: Any = None
        self._held = b""
        self._asked: Dict[int, Asked] = {}
        self._number = 0
        self._may_send = asyncio.Event()
        self._may_send.set()
        self._ended = asyncio.Event()

    # ---- the connection

    async def keep(self) -> None:
        """Has a connection, and another one where it is lost."""
        loop = asyncio.get_running_loop()
        while True:
            self._ended.clear()
            try:
                await loop.create_unix_connection(lambda: self, str(self._path))
            except OSError:
                await asyncio.sleep(AGAIN_SECONDS)
                continue
            beating = asyncio.ensure_future(self._beat())
            await self._ended.wait()
            beating.cancel()
            await asyncio.sleep(AGAIN_SECONDS)

    async def _beat(self) -> None:
        """Says where the page serves, and then that it goes on."""
        try:
            await self.ask("hello", **self._hello())
            while True:
                await asyncio.sleep(self._beat_seconds)
                self.send("hush", stream=0)  # there is none of this number
        except Refused:
            pass

    def connection_made(self, transport: Any) -> None:
        self._transport, self._held = transport, b""
        self._may_send.set()

    def connection_lost(self, fault: Optional[Exception]) -> None:
        self._transport = None
        self._may_send.set()
        asked, self._asked = self._asked, {}
        for one in asked.values():
            if not one.future.done():
                one.future.set_exception(interrupted())
                one.future.exception()  # it is no fault where nobody waits any more
        self._ended.set()

    def pause_writing(self) -> None:
        self._may_send.clear()

    def resume_writing(self) -> None:
        self._may_send.set()

    def data_received(self, data: bytes) -> None:
        *lines, self._held = (self._held + data).split(b"\n")
        for line in lines:
            self._take(line)

    def _take(self, line: bytes) -> None:
        """Gives an answer to whoever waits for it."""
        number, _, rest = line.partition(b" ")
        asked = self._asked.pop(int(number), None) if number.isdigit() else None
        if asked is None or asked.future.done():
            return
        if asked.is_plain:
            asked.future.set_result(rest)
            return
        try:
            asked.future.set_result(answer_of(rest))
        except (Denied, Refused) as refused:
            asked.future.set_exception(refused)

    # ---- what is asked

    def send(self, name: str, **keys: Any) -> Optional[int]:
        """Sends a request, and gives its number; None where there is no connection."""
        if self._transport is None:
            return None
        self._number += 1
        text = json.dumps({"ask": name, **keys}, separators=(",", ":"))
        self._transport.write(f"{self._number} {text}\n".encode())
        return self._number

    async def _ask(self, name: str, is_plain: bool, keys: Told) -> Any:
        await self._may_send.wait()
        number = self.send(name, **keys)
        if number is None:
            raise interrupted()
        future = asyncio.get_running_loop().create_future()
        self._asked[number] = Asked(future, is_plain)
        try:
            return await future
        finally:
            self._asked.pop(number, None)

    async def ask(self, name: str, **keys: Any) -> Told:
        """What the gateway tells. Raises Denied, Refused: 1004 where no answer comes."""
        told: Told = await self._ask(name, False, keys)
        return told

    async def ask_plain(self, name: str, **keys: Any) -> bytes:
        """The answer as it came, after its number; `answer_of` reads it. Raises Refused."""
        told: bytes = await self._ask(name, True, keys)
        return told
