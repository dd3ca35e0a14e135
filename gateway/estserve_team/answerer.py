"""The second child, `estserve script`: it answers what was not understood, and what comes before a
login. It shares nothing.

No login is ever made in it. Should it accept one, the program has read a line otherwise than the
gateway: the child is ended, nothing was done, and the client is told so.
"""
import asyncio
import socket
import subprocess
from collections import deque
from typing import Any, Callable, Deque, List, Optional, Tuple

from .lines import cut_lines
from .places import Children
from .refusals import failed, not_understood
from .watchdog import Reserve

MOST_SENDS = 900_000
PIECE = 4_096
DESCRIPTORS = 8  # that a start takes, at most
MOST_FAULTS = 3  # after so many ends in turn the line that waits longest is given up
FIRST_PAUSE, LONGEST_PAUSE = 0.1, 30.0  # seconds before the next start, from then on

Done = Callable[[bytes], None]


class Pipe(asyncio.Protocol):
    """The connection to one child. Once another child is used, it tells nothing any more."""

    def __init__(self, answerer: "Answerer", process: subprocess.Popen[Any]) -> None:
        self.answerer, self.process = answerer, process
        self.transport: Any = None
        self.held = b""
        self.sends = 0

    def connection_made(self, transport: Any) -> None:
        self.transport = transport

    def send(self, lines: List[bytes]) -> None:
        """Sends lines."""
        if lines:
            text = b"\n".join(lines) + b"\n"
            self.sends += 1 + len(text) // PIECE
            self.transport.write(text)

    def data_received(self, data: bytes) -> None:
        lines, self.held = cut_lines(self.held, data)
        if self.answerer.pipe is self:
            self.answerer.take(lines)

    def connection_lost(self, fault: Optional[Exception]) -> None:
        if self.answerer.pipe is self:
            self.answerer.lose()


def pause_after(faults: int) -> float:
    """The seconds before the next start, after so many ends in turn without an answer."""
    if faults < MOST_FAULTS:
        return 0.0
    return min(FIRST_PAUSE * 2.0 ** min(faults - MOST_FAULTS, 20), LONGEST_PAUSE)


class Answerer:
    """One child after the other, and the lines that are asked."""

    def __init__(
        self, program: str, children: Children, log: Callable[[str, str], None], reserve: Reserve
    ) -> None:
        self._program, self._children, self._log = program, children, log
        self._reserve = reserve
        self._is_closed = False
        self._due: Optional[asyncio.TimerHandle] = None  # for the next start
        self._asked: Deque[Tuple[bytes, Done]] = deque()
        self._lines: List[bytes] = []
        self._faults = 0
        self.pipe: Optional[Pipe] = None

    async def start(self) -> None:
        """Starts a child, and asks it what was asked and not answered. Raises Failed."""
        ours, theirs = socket.socketpair()
        theirs.setblocking(True)
        ours.setblocking(False)
        with theirs:
            process = self._children.start([self._program, "script"], stdin=theirs, stdout=theirs)
        pipe = Pipe(self, process)
        await asyncio.get_running_loop().create_connection(lambda: pipe, sock=ours)
        self.pipe, self._lines = pipe, []
        pipe.send([line for line, _ in self._asked])

    def ask(self, line: bytes, done: Done) -> None:
        """Asks a line, without LF and under the limit; `done` is called with its answer."""
        self._asked.append((line, done))
        if self.pipe is not None:
            if not self._lines:
                asyncio.get_running_loop().call_soon(self._flush)
            self._lines.append(line)

    def _flush(self) -> None:
        lines, self._lines = self._lines, []
        if self.pipe is not None:
            self.pipe.send(lines)

    def take(self, lines: List[bytes]) -> None:
        """Takes answers of the child."""
        for line in lines:
            self._faults = 0
            done = self._asked.popleft()[1]
            if line.startswith(b'{"ok":"login"'):
                done(not_understood().line)
                self._begin_anew()
                return
            done(line)
        if self.pipe is not None and self.pipe.sends >= MOST_SENDS and not self._asked:
            self._begin_anew()

    def lose(self, why: str = "the second child has ended") -> None:
        """Takes it that there is no child, unasked. Where it is so again and again, the line that
        waits longest may be why: it is given up, and the next start comes after a pause."""
        self._faults += 1
        self._log(why, "fault")
        if self._faults % MOST_FAULTS == 0 and self._asked:
            self._asked.popleft()[1](failed("the second child has ended at this line").line)
        self._begin_anew(pause_after(self._faults))

    def _begin_anew(self, pause: float = 0.0) -> None:
        """Ends the child, and starts another after some seconds."""
        self._end()
        if not self._is_closed:
            loop = asyncio.get_running_loop()
            self._due = loop.call_later(pause, lambda: asyncio.ensure_future(self._restart()))

    async def _restart(self) -> None:
        if self._is_closed:
            return
        self._reserve.release(DESCRIPTORS)
        try:
            await self.start()
        except Exception as fault:  # whatever it is, the next start may go better
            self.lose(f"the second child cannot be started: {fault}")
        self._reserve.fill()

    def close(self) -> None:
        """Ends the child, and starts none any more."""
        self._is_closed = True
        if self._due is not None:
            self._due.cancel()
        self._end()

    def _end(self) -> None:
        """Ends the child."""
        pipe, self.pipe = self.pipe, None
        if pipe is not None:
            self._children.end(pipe.process)
            pipe.transport.abort()
