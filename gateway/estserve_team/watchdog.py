"""What has the gateway end where nothing else can: a clock that needs neither Python nor a
descriptor, and descriptors that are kept for the time of a fault."""
import contextlib
import faulthandler
import os
import resource
import signal
import socket
from typing import List, Optional

STILL_SECONDS = 60  # the loop stands still for so long: the process ends with status 1
FAULT_SECONDS = 5  # so long may be taken to end the server, or to end after a fault
KEPT = 32  # descriptors: a server, its first connections and the record take no more
WANTED = 4_096  # descriptors in all, where the system lets it be so many


def raise_descriptors() -> int:
    """Lets this process have as many descriptors as it may, up to `WANTED`. Answers how many."""
    soft, hard = resource.getrlimit(resource.RLIMIT_NOFILE)
    wanted = WANTED if hard == resource.RLIM_INFINITY else min(WANTED, hard)
    if soft < wanted:
        with contextlib.suppress(OSError, ValueError):
            resource.setrlimit(resource.RLIMIT_NOFILE, (wanted, hard))
    return resource.getrlimit(resource.RLIMIT_NOFILE)[0]


class Reserve:
    """Descriptors that are kept, and given back where others are missing."""

    def __init__(self) -> None:
        self._held: List[int] = []

    def fill(self) -> None:
        """Takes as many as are missing, and can be had."""
        with contextlib.suppress(OSError):
            while len(self._held) < KEPT:
                self._held.append(os.open(os.devnull, os.O_RDONLY | os.O_CLOEXEC))

    def release(self, count: int = KEPT) -> None:
        """Gives this many back."""
        for _ in range(min(count, len(self._held))):
            with contextlib.suppress(OSError):
                os.close(self._held.pop())


class Watchdog:
    """Ends the process with status 1 where nobody says in time that it goes on. None of this
    raises."""

    def __init__(self) -> None:
        self._nowhere = os.open(os.devnull, os.O_WRONLY | os.O_CLOEXEC)
        self._told = notify_socket()
        self._is_watched = "WATCHDOG_USEC" in os.environ

    def beat(self) -> None:
        """The loop goes on."""
        self._arm(STILL_SECONDS)
        if self._is_watched:
            self.tell(b"WATCHDOG=1")

    def hurry(self) -> None:
        """There is a fault: what comes now may not take long."""
        self._arm(FAULT_SECONDS)

    def _arm(self, seconds: int) -> None:
        try:
            faulthandler.dump_traceback_later(seconds, exit=True, file=self._nowhere)
            signal.alarm(0)
        except (OSError, RuntimeError, ValueError):  # there is no thread for it
            with contextlib.suppress(OSError, ValueError):
                signal.alarm(seconds)  # which ends the process by a signal

    def tell(self, text: bytes) -> None:
        """Tells systemd, where it wants to know."""
        if self._told is not None:
            with contextlib.suppress(OSError):
                self._told.send(text, socket.MSG_DONTWAIT)

    def stop(self) -> None:
        """Nothing ends the process any more."""
        faulthandler.cancel_dump_traceback_later()
        signal.alarm(0)


def notify_socket() -> Optional[socket.socket]:
    """The socket at which systemd listens, if it does."""
    path = os.environ.get("NOTIFY_SOCKET")
    if not path:
        return None
    told = socket.socket(socket.AF_UNIX, socket.SOCK_DGRAM)
    try:
        told.connect("\0" + path[1:] if path.startswith("@") else path)
    except OSError:
        told.close()
        return None
    return told
