"""The gateway as a process of its own, on a folder of its own, for the tests of this folder.

The program is the one that the variable ESTSERVE names, or one that `rt try` builds WITHOUT
proof, once.
"""
from __future__ import annotations

import contextlib
import json
import os
import pathlib
import pwd
import random
import shlex
import signal
import subprocess
import sys
import tempfile
import threading
from typing import Any, Callable, Iterator, List, Optional, Sequence, TypeVar

ROOT = pathlib.Path(__file__).resolve().parents[2]
sys.path[:0] = [str(ROOT / name) for name in ("clients", "gateway", "tests/socket")]
sys.dont_write_bytecode = True
import running as programs  # noqa: E402
from estserve_client.connection import Client, connect  # noqa: E402
from estserve_team.chain import Head, row_of  # noqa: E402
from estserve_team.record import COLUMNS, Entry, open_reader  # noqa: E402
from estserve_team.replay import Talker  # noqa: E402
from estserve_team.server import Server  # noqa: E402

ME = pwd.getpwuid(os.geteuid()).pw_name
WAIT_SECONDS = 60
Self = TypeVar("Self", bound="Team")
SEED = int(os.environ.get("GATEWAY_SEED", "31"))
_folder = tempfile.TemporaryDirectory(prefix="gateway-")
_writing = threading.Lock()


def random_of(name: str) -> random.Random:
    """Numbers for one test, the same ones each time, but where GATEWAY_SEED says otherwise."""
    return random.Random(f"{SEED} {name}")


def program_file() -> str:
    """A file that calls the program."""
    words = programs.program()
    if len(words) == 1:
        return str(words[0])
    path = pathlib.Path(_folder.name) / "estserve"
    with _writing:
        if not path.exists():
            path.write_text(f'#!/bin/sh\nexec {shlex.join(words)} "$@"\n')
            path.chmod(0o755)
    return str(path)


def line_of(**command: Any) -> bytes:
    """A command's line, without LF."""
    return json.dumps(command, separators=(",", ":"), sort_keys=True, ensure_ascii=False).encode()


def login_line(user: str = "root", roles: Sequence[str] = ("root",)) -> bytes:
    """The line of a login."""
    return line_of(cmd="login", user=user, roles=list(roles))


def processes_of(state: pathlib.Path) -> List[int]:
    """The processes that a team's gateway has listed, by id."""
    try:
        told = json.loads((state / "private" / "children").read_text())
        return [int(process) for process in told["processes"]]
    except FileNotFoundError:
        return []


class WordTalker(Talker):
    """A connection to gateway.sock, which asks one word after the other."""

    def word(self, word: str, **keys: Any) -> Any:
        """The answer to a word, an object."""
        return json.loads(self.ask(json.dumps({"word": word, **keys}).encode()))


class Team:
    """A gateway process. Used with `with`, it is started, and killed at the end if it runs still;
    its folder is then gone.

    `people` is the text of a file of people; `state` is a folder that is there already, and
    stays."""

    def __init__(
        self,
        *words: str,
        people: Optional[str] = None,
        state: Optional[pathlib.Path] = None,
        program: Optional[str] = None,
        python: Optional[str] = None,
    ) -> None:
        self._held = tempfile.TemporaryDirectory(prefix="gateway-")
        self.state = pathlib.Path(state) if state else pathlib.Path(self._held.name) / "team"
        self._words, self._people, self._program = list(words), people, program
        self._python = python or sys.executable
        self.process: Any = None

    def __enter__(self: Self) -> Self:
        try:
            self.start()
        except BaseException:
            self.__exit__()
            raise
        return self

    def command(self) -> List[str]:
        """The words that start the gateway."""
        words = [
            self._python,
            "-B",
            str(ROOT / "clients" / "estserve.py"),
            "team",
            "--state",
            str(self.state),
        ]
        words += ["--program", self._program or program_file(), *self._words]
        if self._people is not None:
            path = pathlib.Path(self._held.name) / "people.toml"
            path.write_text(self._people)
            words += ["--people", str(path)]
        return words

    def launch(self) -> None:
        """Starts the gateway, and doesn't wait."""
        self._told = open(pathlib.Path(self._held.name) / "told", "ab")
        self.process = subprocess.Popen(
            self.command(),
            stdin=subprocess.DEVNULL,
            stdout=subprocess.PIPE,
            stderr=self._told,
            text=True,
        )

    def start(self) -> None:
        """Starts the gateway, and waits until clients may come. Fails, where it ends before."""
        self.launch()
        self.printed = []
        for line in self.process.stdout:
            if line.startswith("ready: "):
                return
            self.printed.append(line)
        self.process.wait()
        raise AssertionError(f"the gateway ended with {self.process.returncode}: {self.told()}")

    def told(self) -> str:
        """What the gateway has written on standard error since its folder was made."""
        return (pathlib.Path(self._held.name) / "told").read_text(errors="replace")

    def end(self, number: int = signal.SIGTERM) -> int:
        """Sends a signal, and gives the status that the gateway ends with."""
        self.process.send_signal(number)
        return self.wait()

    def wait(self) -> int:
        """The status that the gateway ends with."""
        try:
            return self.process.wait(WAIT_SECONDS)
        finally:
            self.process.stdout.close()
            self._told.close()

    def __exit__(self, *_: object) -> None:
        if self.process is not None and self.process.poll() is None:
            self.process.kill()
            self.wait()
        self._held.cleanup()

    @property
    def path(self) -> pathlib.Path:
        """The socket for the program's lines."""
        return self.state / "team.sock"

    @property
    def record(self) -> pathlib.Path:
        """The record."""
        return self.state / "private" / "record.sqlite"

    def client(self) -> Client:
        """A client of the team's socket."""
        return connect(self.path)

    def root(self) -> Client:
        """A client that is logged in as root."""
        client = self.client()
        client.login("root", ["root"])
        return client

    def talker(self) -> Talker:
        """A connection to the team's socket, for plain lines."""
        return Talker(self.path)

    def words(self) -> WordTalker:
        """A connection to gateway.sock."""
        return WordTalker(self.state / "gateway.sock")

    def entries(self) -> List[Entry]:
        """All entries of the record, in the order of their recording, with those that only the head
        has yet."""
        later = head_entries(self.state)  # before the record, which may take them meanwhile
        with open_reader(self.record) as database:
            rows = database.execute(f"SELECT {COLUMNS} FROM entries ORDER BY number")
            found = list(map(Entry._make, rows))
            last = database.execute("SELECT max(number) FROM aside").fetchone()[0] or 0
        last = max([last, *(entry.number for entry in found[-1:])])
        return found + [entry for entry in later if entry.number > last]

    def rows(self, sql: str) -> List[Any]:
        """The rows of a query on the record, once it has all that the head has."""
        if self.process is not None and self.process.poll() is None:
            wait_for(lambda: len(self.entries()) == self._count())
        with open_reader(self.record) as database:
            return database.execute(sql).fetchall()

    def _count(self) -> int:
        """How many entries the record has by itself."""
        with open_reader(self.record) as database:
            return int(database.execute("SELECT count(*) FROM entries").fetchone()[0])

    def server(self) -> int:
        """The id of the server's process, once one runs, also where it is just being begun anew."""
        return wait_for(
            lambda: next(
                (
                    process
                    for process in children_of(self.process.pid)
                    if b"serve\0--socket" in command_of(process)
                ),
                None,
            )
        )


def head_entries(state: pathlib.Path) -> List[Entry]:
    """The entries that the head of a folder has, some of which the record may have too."""
    path = state / "private" / "head"
    if not path.exists():
        return []
    head = Head(path)
    head.close()
    return [Entry._make(row_of(text)) for block in head.blocks for text in block.entries]


def children_of(process: int) -> List[int]:
    """The children of a process, by id."""
    found = []
    for path in pathlib.Path("/proc").glob("[0-9]*/stat"):
        try:
            fields = path.read_text(errors="replace").rpartition(")")[2].split()
        except OSError:
            continue
        if fields[0] not in "ZX" and int(fields[1]) == process:
            found.append(int(path.parent.name))
    return found


def command_of(process: int) -> bytes:
    """The command line of a process, empty where there is none."""
    try:
        return pathlib.Path(f"/proc/{process}/cmdline").read_bytes()
    except OSError:
        return b""


def is_running(process: int) -> bool:
    """Whether a process runs."""
    try:
        return (
            pathlib.Path(f"/proc/{process}/stat").read_text().rpartition(")")[2].split()[0]
            not in "ZX"
        )
    except OSError:
        return False


def hold(process: int) -> None:
    """Has a process stand still, and waits until each of its threads does."""
    os.kill(process, signal.SIGSTOP)
    threads = pathlib.Path(f"/proc/{process}/task")
    wait_for(
        lambda: all(
            (thread / "stat").read_text().rpartition(")")[2].split()[0] == "T"
            for thread in threads.iterdir()
        )
    )


def wait_for(what: Callable[[], Any], seconds: float = WAIT_SECONDS) -> Any:
    """The first answer of `what` that isn't None or false. Fails, where there is none in time."""
    return programs.wait_for(what, seconds)


@contextlib.contextmanager
def program_alone() -> Iterator[Talker]:
    """A connection to a server without a gateway, for plain lines."""
    with tempfile.TemporaryDirectory(prefix="gateway-") as folder:
        with Server(program_file(), pathlib.Path(folder) / "socket") as server, Talker(
            server.path
        ) as talker:
            yield talker
