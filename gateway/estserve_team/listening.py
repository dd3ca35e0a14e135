"""Taking connections: no more than there may be, and without a word for each that can't be
taken."""
import asyncio
import contextlib
import socket
from typing import Any, Callable, Optional

from .log import Log, is_out_of_descriptors
from .loop import begin
from .refusals import Refused
from .watchdog import Reserve

AT_ONCE = 32  # connections that are taken before others have a turn
PAUSE_SECONDS = 0.25  # after one that could not be taken


class Listener:
    """Takes connections from a socket that listens, and gives each a protocol."""

    def __init__(
        self,
        listening: socket.socket,
        make: Callable[[socket.socket], asyncio.BaseProtocol],
        log: Log,
        reserve: Reserve,
        told: Callable[[Refused], bytes] = lambda refused: refused.line + b"\n",
    ) -> None:
        """`make` gives a connection's protocol, or raises Refused: then that is told, as `told`
        has it, and the connection is closed."""
        self._listening, self._make, self._log = listening, make, log
        self._reserve, self._told = reserve, told
        self._loop = asyncio.get_running_loop()
        self._again: Optional[asyncio.TimerHandle] = None
        self._tasks: "set[asyncio.Task[Any]]" = set()
        self._listening.setblocking(False)
        self._begin()

    def _begin(self) -> None:
        self._again = None
        self._loop.add_reader(self._listening.fileno(), self._take_some)

    def _take_some(self) -> None:
        """Takes what waits."""
        for _ in range(AT_ONCE):
            try:
                connection, _ = self._listening.accept()
            except (BlockingIOError, InterruptedError, ConnectionAbortedError):
                return
            except OSError as fault:
                self._wait(fault)
                return
            self._take(connection)

    def _take(self, connection: socket.socket) -> None:
        """Gives a connection its protocol, or refuses it."""
        connection.setblocking(False)
        try:
            protocol = self._make(connection)
        except OSError:  # it is gone already
            connection.close()
            return
        except Refused as refused:
            self._log(f"a connection is refused: {refused.fault}", "refused")
            with contextlib.suppress(OSError):
                connection.send(self._told(refused), socket.MSG_DONTWAIT)
            connection.close()
            return
        task = self._loop.create_task(self._connect(protocol, connection))
        self._tasks.add(task)
        task.add_done_callback(self._tasks.discard)

    async def _connect(self, protocol: Any, connection: socket.socket) -> None:
        try:
            await begin(connection, protocol)
        except OSError:
            connection.close()
            protocol.connection_lost(None)

    def _wait(self, fault: OSError) -> None:
        """Takes nothing for a while. Where descriptors are missing, the one that waits longest is
        ended by one that was kept."""
        self._log(f"a connection cannot be taken: {fault}", "accept")
        if is_out_of_descriptors(fault):
            self._reserve.release(1)
            with contextlib.suppress(OSError):
                self._listening.accept()[0].close()
            self._reserve.fill()
        self._loop.remove_reader(self._listening.fileno())
        self._again = self._loop.call_later(PAUSE_SECONDS, self._begin)

    def close(self) -> None:
        """Takes nothing any more."""
        if self._again is not None:
            self._again.cancel()
        if self._listening.fileno() >= 0:
            self._loop.remove_reader(self._listening.fileno())
            self._listening.close()
