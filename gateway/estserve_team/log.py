"""The log: one JSON object a line, on standard error. To log never raises and never waits: a line
that can't be written at once is dropped and counted.
"""
import contextlib
import errno
import fcntl
import json
import logging
import os
import select
import sys
import time
from typing import Any, Callable, Dict, List

LINE_BYTES = 4_000  # a pipe that takes something takes so much without waiting
MOST_LINES = 100  # of one kind in a span; the others are counted
SPAN_SECONDS = 10.0
FIRST_FREE = 10  # no descriptor of the standard streams


def fill_standard_streams() -> None:
    """Opens what is closed of the descriptors 0, 1 and 2, so that no other file gets their
    number."""
    for number in (0, 1, 2):
        try:
            os.fstat(number)
        except OSError:
            with contextlib.suppress(OSError):
                os.open(os.devnull, os.O_RDWR)


def write_now(descriptor: int, data: bytes) -> bool:
    """Writes as much as can be written without waiting. Answers whether that was all."""
    try:
        poll = select.poll()
        poll.register(descriptor, select.POLLOUT)
        ready = poll.poll(0)
        if not ready or ready[0][1] & (select.POLLERR | select.POLLNVAL):
            return False
        return os.write(descriptor, data) == len(data)
    except (OSError, ValueError):
        return False


class Log:
    """The log at a descriptor, which is kept under another number."""

    def __init__(self, descriptor: int = 2, clock: Callable[[], float] = time.monotonic) -> None:
        self._clock = clock
        self._counts: Dict[str, List[float]] = {}  # of each kind: begin of its span, its lines
        self.dropped = 0  # lines since the last one that was written
        self.lost = 0  # and in all
        try:
            self._descriptor = fcntl.fcntl(descriptor, fcntl.F_DUPFD_CLOEXEC, FIRST_FREE)
        except OSError:
            self._descriptor = -1

    def __call__(self, text: str, kind: str = "gateway", **fields: Any) -> None:
        """Writes a line, or drops it where there were too many of its kind just now."""
        with contextlib.suppress(Exception):
            if self._may(kind):
                self._write(text, kind, fields)
            else:
                self._drop()

    def _drop(self) -> None:
        self.dropped += 1
        self.lost += 1

    def _may(self, kind: str) -> bool:
        """Whether a line of this kind is not one too many."""
        now = self._clock()
        span = self._counts.setdefault(kind, [now, 0])
        if now - span[0] >= SPAN_SECONDS:
            span[:] = [now, 0]
        span[1] += 1
        return span[1] <= MOST_LINES

    def _write(self, text: str, kind: str, fields: Dict[str, Any]) -> None:
        now = time.time()
        stamp = time.strftime("%Y-%m-%dT%H:%M:%S", time.gmtime(now)) + f".{int(now % 1 * 1000):03}Z"
        line: Dict[str, Any] = {"kind": kind, "text": text[:1_000], "time": stamp, **fields}
        if self.dropped:
            line["dropped"] = self.dropped
        data = json.dumps(line, separators=(",", ":"), sort_keys=True).encode()
        if write_now(self._descriptor, data[: LINE_BYTES - 1] + b"\n"):
            self.dropped = 0
        else:
            self._drop()

    def close(self) -> None:
        """Gives the descriptor back."""
        descriptor, self._descriptor = self._descriptor, -1
        if descriptor >= 0:
            with contextlib.suppress(OSError):
                os.close(descriptor)


class Forward(logging.Handler):
    """Has what libraries log go the same way."""

    def __init__(self, log: Log) -> None:
        super().__init__(logging.WARNING)
        self._log = log

    def emit(self, record: logging.LogRecord) -> None:
        fault = record.exc_info[1] if record.exc_info else None
        self._log(f"{record.getMessage()}: {fault!r}" if fault else record.getMessage(), "library")


def forward_all(log: Log) -> None:
    """Has nothing of this process written to standard error but by this log."""
    logging.raiseExceptions = False
    logging.getLogger().handlers[:] = [Forward(log)]
    sys.unraisablehook = lambda told: log(f"{told.err_msg}: {told.exc_value!r}", "library")


def is_out_of_descriptors(fault: OSError) -> bool:
    """Whether a call failed since there is no descriptor, or no memory for one."""
    return fault.errno in (errno.EMFILE, errno.ENFILE, errno.ENOBUFS, errno.ENOMEM)
