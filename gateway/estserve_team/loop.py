"""asyncio's loop, with a short way for the connections that carry commands.

What is ready on a `Pipe` is read where the selector sees it, without a handle and a turn of the
loop in between. Turns of the loop come in time: as soon as something else is ready or due.
"""
import asyncio
import math
import select
import selectors
import socket
import time
from typing import Any, Callable, Dict, List, Mapping, Optional, Tuple

RECEIVED = 65_536  # bytes that are read at once
MOST_HELD = 65_536  # bytes that wait to be sent, before the protocol is told so
READS, WRITES = select.EPOLLIN, select.EPOLLOUT
READ, WRITE = selectors.EVENT_READ, selectors.EVENT_WRITE
MOST_EVENTS = 256
LONGEST_WAIT = 3_600.0


class Selector(selectors.BaseSelector):
    """A selector that reads pipes itself, and answers what else is ready."""

    def __init__(self) -> None:
        self._epoll = select.epoll()
        self._keys: Dict[int, selectors.SelectorKey] = {}
        self._pipes: Dict[int, Pipe] = {}
        self.is_due = False  # the loop has something to do

    @staticmethod
    def _number_of(fileobj: Any) -> int:
        return fileobj if isinstance(fileobj, int) else int(fileobj.fileno())

    @staticmethod
    def _mask_of(events: int) -> int:
        return (select.EPOLLIN if events & READ else 0) | (select.EPOLLOUT if events & WRITE else 0)

    def register(self, fileobj: Any, events: int, data: Any = None) -> selectors.SelectorKey:
        number = self._number_of(fileobj)
        if number in self._keys or number in self._pipes:
            raise KeyError(f"{fileobj!r} is registered already")
        self._epoll.register(number, self._mask_of(events))
        key = self._keys[number] = selectors.SelectorKey(fileobj, number, events, data)
        return key

    def unregister(self, fileobj: Any) -> selectors.SelectorKey:
        key = self._keys.pop(self._number_of(fileobj))
        try:
            self._epoll.unregister(key.fd)
        except OSError:  # it was closed before
            pass
        return key

    def modify(self, fileobj: Any, events: int, data: Any = None) -> selectors.SelectorKey:
        number = self._number_of(fileobj)
        key = self._keys[number]
        if events != key.events:
            self._epoll.modify(number, self._mask_of(events))
        key = self._keys[number] = key._replace(events=events, data=data)
        return key

    def get_map(self) -> Mapping[Any, selectors.SelectorKey]:
        return self._keys

    def get_key(self, fileobj: Any) -> selectors.SelectorKey:
        return self._keys[self._number_of(fileobj)]

    def close(self) -> None:
        self._epoll.close()
        self._keys.clear()
        self._pipes.clear()

    def follow(self, pipe: "Pipe", number: int, before: int, mask: int) -> None:
        """Has a pipe be told of other events than before. Raises OSError."""
        if not mask:
            self._pipes.pop(number, None)
            self._epoll.unregister(number)
        elif before:
            self._epoll.modify(number, mask)
        else:
            self._epoll.register(number, mask)
            self._pipes[number] = pipe

    def select(self, timeout: Optional[float] = None) -> List[Tuple[selectors.SelectorKey, int]]:
        """What is ready beside pipes. Pipes are read until something else is ready or due."""
        self.is_due = False
        wait = LONGEST_WAIT if timeout is None else max(0.0, timeout)
        end = time.monotonic() + wait
        while True:
            try:
                events = self._epoll.poll(math.ceil(wait * 1e3) * 1e-3, MOST_EVENTS)
            except InterruptedError:
                return []
            found = self._read(events) if events else []
            if found or self.is_due or not wait:
                return found
            wait = end - time.monotonic()
            if wait <= 0:
                return found

    def _read(self, events: List[Tuple[int, int]]) -> List[Tuple[selectors.SelectorKey, int]]:
        """Has pipes take what is ready on them, and answers what else is ready."""
        found = []
        pipes = self._pipes
        for number, mask in events:
            pipe = pipes.get(number)
            if pipe is not None:
                pipe.take(mask)
                continue
            key = self._keys.get(number)
            if key is not None:
                ready = (WRITE if mask & ~select.EPOLLIN else 0) | (
                    READ if mask & ~select.EPOLLOUT else 0
                )
                if ready & key.events:
                    found.append((key, ready & key.events))
        return found


class Loop(asyncio.SelectorEventLoop):
    """A loop on which there are pipes."""

    def __init__(self) -> None:
        self.pipes = Selector()
        super().__init__(self.pipes)

    def call_soon(self, callback: Any, *args: Any, context: Any = None) -> asyncio.Handle:
        self.pipes.is_due = True
        return super().call_soon(callback, *args, context=context)

    def call_at(
        self, when: float, callback: Any, *args: Any, context: Any = None
    ) -> asyncio.TimerHandle:
        self.pipes.is_due = True
        return super().call_at(when, callback, *args, context=context)


class Policy(asyncio.DefaultEventLoopPolicy):
    """Has each new loop be a `Loop`."""

    def new_event_loop(self) -> Loop:
        return Loop()


class Pipe(asyncio.Transport):
    """A connection on a `Loop`, which its protocol uses as any transport."""

    def __init__(self, loop: Loop, connection: socket.socket, protocol: Any) -> None:
        """The socket does not block. Raises OSError."""
        super().__init__()
        self._loop, self._socket, self._protocol = loop, connection, protocol
        self._number = connection.fileno()
        self._mask = 0
        self._out: List[bytes] = []  # what waits to be sent
        self._held = 0  # bytes of that
        self._is_reading = True
        self._is_at_end = self._is_closing = self._is_lost = self._is_choked = False
        self._follow(select.EPOLLIN)
        protocol.connection_made(self)

    def _follow(self, mask: int) -> None:
        if mask != self._mask and not self._is_lost:
            self._loop.pipes.follow(self, self._number, self._mask, mask)
            self._mask = mask

    def _look(self) -> None:
        """Is told of what it waits for."""
        is_reading = self._is_reading and not self._is_closing and not self._is_at_end
        reads = select.EPOLLIN if is_reading else 0
        self._follow(reads | (select.EPOLLOUT if self._out else 0))

    def take(self, mask: int) -> None:
        """Takes what is ready. Never raises."""
        try:
            if mask == READS and self._mask & READS:  # which is nearly always so
                self._receive()
            else:
                self._take(mask)
        except Exception as fault:  # it is this connection's alone
            self._loop.call_exception_handler({"message": "a connection", "exception": fault})
            self._lose(fault)

    def _take(self, mask: int) -> None:
        if mask & ~READS and self._out:
            self._send_more()
        if mask & ~WRITES and self._mask & READS:
            self._receive()
        elif mask & (select.EPOLLHUP | select.EPOLLERR) and not self._out:
            self._lose(None)

    def _receive(self) -> None:
        try:
            data = self._socket.recv(RECEIVED)
        except (BlockingIOError, InterruptedError):
            return
        except OSError as fault:
            self._lose(fault)
            return
        if data:
            self._protocol.data_received(data)
            return
        self._is_at_end = True
        self._look()
        if not self._protocol.eof_received():
            self.close()

    def write(self, data: Any) -> None:
        if self._is_lost or not data:
            return
        if not self._out:
            try:
                sent = self._socket.send(data)
            except (BlockingIOError, InterruptedError):
                sent = 0
            except OSError as fault:
                self._lose(fault)
                return
            if sent == len(data):
                return
            data = data[sent:]
        self._out.append(bytes(data))
        self._held += len(data)
        self._look()
        if self._held > MOST_HELD and not self._is_choked:
            self._is_choked = True
            self._protocol.pause_writing()

    def _send_more(self) -> None:
        """Sends what waits, as much as can be sent."""
        text = b"".join(self._out)
        try:
            sent = self._socket.send(text)
        except (BlockingIOError, InterruptedError):
            return
        except OSError as fault:
            self._lose(fault)
            return
        self._out = [text[sent:]] if sent < len(text) else []
        self._held = len(text) - sent
        self._look()
        if self._is_choked and self._held <= MOST_HELD // 4:
            self._is_choked = False
            self._protocol.resume_writing()
        if self._is_closing and not self._out:
            self._lose(None)

    def close(self) -> None:
        if not self._is_closing:
            self._is_closing = True
            if self._out:
                self._look()
            else:
                self._lose(None)

    def abort(self) -> None:
        self._lose(None)

    def _lose(self, fault: Optional[Exception]) -> None:
        """Ends the connection; the protocol is told soon."""
        if not self._is_lost:
            self._follow(0)
            self._is_lost = self._is_closing = True
            self._out, self._held = [], 0
            self._loop.call_soon(self._tell_lost, fault)

    def _tell_lost(self, fault: Optional[Exception]) -> None:
        try:
            self._protocol.connection_lost(fault)
        finally:
            self._socket.close()

    def is_closing(self) -> bool:
        return self._is_closing

    def pause_reading(self) -> None:
        self._is_reading = False
        self._look()

    def resume_reading(self) -> None:
        self._is_reading = True
        self._look()

    def get_extra_info(self, name: str, default: Any = None) -> Any:
        return self._socket if name == "socket" else default


async def begin(connection: socket.socket, protocol: Any) -> None:
    """Gives a connection to a protocol, the short way where the loop has it. Raises OSError."""
    loop = asyncio.get_running_loop()
    if isinstance(loop, Loop):
        Pipe(loop, connection, protocol)
    else:
        made: Any = lambda: protocol
        await loop.connect_accepted_socket(made, connection)
