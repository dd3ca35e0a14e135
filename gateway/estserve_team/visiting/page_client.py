"""The connection of a page's process at page.sock: requests of all its visitors, each with a number
that its answer bears too. It may do nothing of its own; see `requests`."""
import asyncio
import json
import time
from typing import Any, Dict, List, Set

from ..line_client import LineClient
from ..lines import read_plain
from ..people import peer_uid
from ..refusals import Refused, failed, not_a_word, too_many, unknown_person
from . import Denied, requests
from .news import Watcher
from .seats import SEATS

PAGE_LINE_BYTES = 1 << 19  # a command of 65,536 bytes may take six times as many in JSON
PAGES = 4  # at once
AT_ONCE = 128  # requests that are under way
STREAMS = SEATS  # that are told news: one for each tab
NUMBER_DIGITS = 15


class PageClient(LineClient):
    """A page's process."""

    line_bytes = PAGE_LINE_BYTES

    def __init__(self, gateway: Any, clients: "set[LineClient]") -> None:
        super().__init__(gateway, clients)
        self.visiting = gateway.visiting
        self._tasks: "Set[asyncio.Future[None]]" = set()
        self._listening: "Set[asyncio.Future[None]]" = set()  # for news
        self._watchers: Dict[int, Watcher] = {}
        self._out: List[bytes] = []

    def identify(self, connection: Any) -> None:
        """Sees that the peer is a page's process, and no further one. Raises Refused."""
        uid = peer_uid(connection)
        if uid not in self.gateway.page_users:
            raise unknown_person(uid)
        if sum(isinstance(client, PageClient) for client in self.clients) > PAGES:
            raise too_many("pages", PAGES)

    def follow_people(self) -> None:
        """A page is nobody's."""

    def look_after(self) -> None:
        """Ends the connection of a page that stands still."""
        now, limits = time.monotonic(), self.gateway.limits
        is_slow = self._choked is not None and now - self._choked > limits.slow_seconds
        is_silent = now - self._heard > limits.page_seconds and not self.is_busy()
        if is_slow or is_silent:
            self.gateway.log("the page stands still: its connection is ended", "page")
            self._transport.abort()

    def is_busy(self) -> bool:
        return bool(self.lines or self._tasks)

    def may_take(self) -> bool:
        return self._choked is None and len(self._tasks) < AT_ONCE

    def settle(self) -> None:
        self.resume()
        if self.is_at_end and not self.lines and not self._tasks:
            self.close()

    def take(self, line: Any) -> None:
        """Has one request answered: a number, a blank, and an object."""
        number, _, text = (line or b"").partition(b" ")
        if not number.isdigit() or len(number) > NUMBER_DIGITS:
            self.close()  # a page never does so
            return
        asked = read_plain(text)
        if asked is None:
            self._send(number, {"refused": not_a_word("this is no object of JSON").answer})
            return
        is_news = asked.get("ask") == "news"
        if is_news and len(self._listening) >= STREAMS:
            self._send(number, {"refused": too_many("streams", STREAMS).answer})
            return
        tasks = self._listening if is_news else self._tasks
        task = asyncio.ensure_future(self._answer(number, asked))
        tasks.add(task)
        task.add_done_callback(lambda done: self._go_on(tasks, done))

    def _go_on(self, tasks: Any, done: Any) -> None:
        tasks.discard(done)
        if self.lines or self.is_at_end:
            self.pump()

    async def _answer(self, number: bytes, asked: Dict[str, Any]) -> None:
        """Answers one request."""
        try:
            told = {"told": await requests.act(self, asked)}
        except Denied as denied:
            told = {"denied": denied.what}
        except Refused as refused:
            told = {"refused": refused.answer}
        except Exception as fault:  # a fault of one request is told, and the gateway goes on
            self.gateway.log(f"the page's request {asked.get('ask')} failed: {fault!r}", "fault")
            told = {"refused": failed("the gateway has a fault").answer}
        self._send(number, told)

    def _send(self, number: bytes, told: Dict[str, Any]) -> None:
        """Has an answer go out, with others of the same turn."""
        value = told.get("told")
        if isinstance(value, bytes):
            text = b'{"told":' + value + b"}"
        else:
            text = json.dumps(told, separators=(",", ":")).encode()
        if not self._out:
            asyncio.get_running_loop().call_soon(self._flush)
        self._out.append(number + b" " + text + b"\n")

    def _flush(self) -> None:
        out, self._out = self._out, []
        if not self._transport.is_closing():
            self._transport.write(b"".join(out))

    # ---- streams

    def watcher_of(self, asked: Dict[str, Any]) -> Watcher:
        """What the stream of this number is told. Raises Denied, Refused."""
        seat, stream = self.visiting.seat_of(asked), asked.get("stream")
        if type(stream) is not int:
            raise not_a_word("a stream has a number")
        watcher = self._watchers.get(stream)
        if watcher is None or watcher.seat is not seat:
            self.close_watcher(stream)
            if len(self._watchers) >= STREAMS:
                raise too_many("streams", STREAMS)
            self._watchers[stream] = self.visiting.watch(seat)
        return self._watchers[stream]

    def close_watcher(self, stream: Any) -> None:
        """A stream has ended."""
        watcher = self._watchers.pop(stream, None) if type(stream) is int else None
        if watcher is not None:
            watcher.close()

    def leave(self) -> None:
        """The page has gone: nobody waits for an answer, and its seats are given up."""
        for stream in list(self._watchers):
            self.close_watcher(stream)
        self.visiting.leave_page(self)
