"""The server of a team: `estserve serve`, a child that dies with the gateway."""
import contextlib
import pathlib
import socket
import subprocess
import time
from typing import Any, Callable, Optional

from .places import Children, Failed, check_socket_path, end_child, start_child

WORKERS = 16
START_SECONDS = 30  # the program is given up if it doesn't listen in this time
POLL_SECONDS = 0.002


class Lost(Failed):
    """The server has gone away, or gives no answer."""


class Server:
    """`estserve serve --workers 16` at a socket. Used with `with`, it is started, and ended at the
    end.

    It dies with the thread that starts it, and is listed among `children` where these are given."""

    def __init__(
        self, program: str, path: pathlib.Path, children: Optional[Children] = None
    ) -> None:
        self.program, self.path = program, path
        self._children = children
        self._process: Optional[subprocess.Popen[Any]] = None

    def start(self) -> None:
        """Starts it, and waits until it listens. Raises Failed."""
        check_socket_path(self.path)
        self.path.unlink(missing_ok=True)
        command = [
            str(self.program),
            "serve",
            "--socket",
            str(self.path),
            "--workers",
            str(WORKERS),
        ]
        start: Any = self._children.start if self._children else start_child
        process: "subprocess.Popen[Any]" = start(
            command, stdin=subprocess.DEVNULL, stdout=subprocess.DEVNULL
        )
        self._process = process
        end = time.monotonic() + START_SECONDS
        while not self._listens():
            if not self.is_running or time.monotonic() > end:
                was_killed = self.is_running or process.returncode < 0
                self.end()
                raise (Lost if was_killed else Failed)(f"{self.program} does not serve")
            time.sleep(POLL_SECONDS)

    def _listens(self) -> bool:
        """Whether the socket takes connections: one is made and ended, which leaves no entry."""
        with socket.socket(socket.AF_UNIX, socket.SOCK_STREAM) as connection:
            try:
                connection.connect(str(self.path))
            except OSError:
                return False
        return True

    @property
    def is_running(self) -> bool:
        """Whether the process runs."""
        return self._process is not None and self._process.poll() is None

    @property
    def process(self) -> int:
        """The id of the process, 0 where there is none."""
        return self._process.pid if self._process else 0

    def end(self) -> None:
        """Ends it, and takes its socket away. Never raises."""
        if self._process is not None:
            (self._children.end if self._children else end_child)(self._process)
        self._process = None
        with contextlib.suppress(OSError):
            self.path.unlink()

    def __enter__(self) -> "Server":
        self.start()
        return self

    def __exit__(self, *_: object) -> None:
        self.end()
