"""The program, as `estserve serve` over a Unix socket, for the tests of this folder.

The program is built WITHOUT proof by `rt try`, once; the variable ESTSERVE names one that is built already.
"""
import os
import pathlib
import re
import shlex
import shutil
import signal
import socket
import subprocess
import sys
import tempfile
import threading
import time

ROOT = pathlib.Path(__file__).resolve().parents[2]
sys.path.insert(0, str(ROOT / "clients"))
from estserve_client.connection import Disconnected, connect  # noqa: E402

# What runs in the background may have been started with interrupts ignored, and programs inherit that.
signal.signal(signal.SIGINT, signal.default_int_handler)

BUILD_SECONDS = 1_800  # the program is built in this time, or not at all
WAIT_SECONDS = 60  # whatever a test waits for comes in this time, or not at all
ACCEPTS = 0x10000  # the flag of a socket that listens, in the system's list of sockets
socket.setdefaulttimeout(WAIT_SECONDS)


def wait_for(what, seconds=WAIT_SECONDS):
    """The first answer of `what` that isn't None or false. Fails where there is none in time."""
    end = time.monotonic() + seconds
    while time.monotonic() < end:
        found = what()
        if found:
            return found
        time.sleep(0.01)
    raise AssertionError(f"nothing came in {seconds} seconds")


def commands_below(process):
    """The command lines of the processes that a process started, and of those that these did."""
    parents = {}
    for folder in pathlib.Path("/proc").glob("[0-9]*"):
        try:
            parent = int((folder / "stat").read_text().rpartition(")")[2].split()[1])
            parents[int(folder.name)] = parent, (folder / "cmdline").read_bytes().decode().split("\0")[:-1]
        except (OSError, ValueError):
            pass
    found, line = [], [process]
    for above in line:
        below = [(child, words) for child, (parent, words) in parents.items() if parent == above]
        line += [child for child, _ in below]
        found += [words for _, words in below]
    return found


def built_program(folder):
    """How to call the program that `rt try` builds: it is asked to serve, and its file is copied while it runs."""
    path = folder / "first"
    trial = subprocess.Popen(
        ["rt", "try", "--", "serve", "--socket", str(path)],
        cwd=ROOT / "crates" / "estserve",
        start_new_session=True,
        stdin=subprocess.DEVNULL, stdout=subprocess.DEVNULL, stderr=subprocess.PIPE, text=True,
    )
    try:
        wait_for(lambda: path.exists() or trial.poll() is not None, BUILD_SECONDS)
        if trial.poll() is not None:
            raise AssertionError(f"the program could not be built: {trial.stderr.read()}")
        ends = [words[:words.index("serve")] for words in commands_below(trial.pid) if "serve" in words and "--arg" not in words]
        caller = next(words for words in ends if words[-1].endswith("/program"))
        program = shutil.copy(caller[-1], folder / "estserve")
        return [*caller[:-1], str(program)]
    finally:
        trial.send_signal(signal.SIGTERM)
        trial.communicate()


def sockets_of(process):
    """The numbers of the sockets that a process has open."""
    found = set()
    for link in pathlib.Path(f"/proc/{process}/fd").glob("*"):
        try:
            found.update(re.findall(r"^socket:\[(\d+)\]$", os.readlink(link)))
        except OSError:
            pass
    return found


def is_listening(path, process):
    """Whether a socket of this process takes connections at this path. Its file is there a moment before, and a connection is
    refused then; another process may have one whose file was at this path."""
    with open("/proc/net/unix", encoding="utf-8", errors="replace") as sockets:
        rows = [row.rstrip("\n").split(None, 7) for row in sockets]
    listening = {row[6] for row in rows[1:] if len(row) == 8 and row[-1] == str(path) and int(row[3], 16) & ACCEPTS}
    return bool(listening & sockets_of(process))


_folder = tempfile.TemporaryDirectory(prefix="estserve-")
_program = []
_finding = threading.Lock()


def words_of(named):
    """How to call the program that is named: as the caller does which scripts/trial.py has written, or by its name."""
    with open(named, "rb") as file:
        called = re.match(rb'#!/bin/sh\nexec (.*) "\$@"\n\Z', file.read(10_000))
    return shlex.split(called[1].decode()) if called else [named]


def program():
    """How to call the program: the first words of its command line, of which the last is its file."""
    with _finding:
        if not _program:
            named = os.environ.get("ESTSERVE")
            _program.extend(words_of(named) if named else built_program(pathlib.Path(_folder.name)))
    return _program


def report(entries, *slots):
    """The report on the journals of a server that has ended: how many entries its policy list has, and the lines of its slots."""
    lines = [f"policy: {entries} entries", *slots, "check: ok"]
    return "".join(f"{line}\n" for line in lines).encode()


class Server:
    """The program, which serves at a socket of its own. Used with `with`, it is stopped at the end if it runs still."""

    def __init__(self, *words, path=None, environment=None, output=subprocess.PIPE):
        self._held = tempfile.TemporaryDirectory(prefix="estserve-")
        self.path = path or pathlib.Path(self._held.name) / "socket"
        self._words = words
        self._environment = environment
        self._output = output

    def order(self):
        """The words that the program is called with."""
        return ["serve", "--socket", str(self.path), *self._words]

    def __enter__(self):
        command = [*program(), *self.order()]
        streams = {"stdin": subprocess.DEVNULL, "stdout": self._output, "stderr": subprocess.PIPE}
        self.process = subprocess.Popen(command, **streams, env=self._environment)
        try:
            wait_for(self.answers)
        except BaseException:
            self.__exit__()
            raise
        return self

    def __exit__(self, *_):
        if self.process.poll() is None:
            self.process.kill()
        self.process.communicate()
        self._held.cleanup()

    def answers(self):
        """Whether the program listens at its path, or has ended."""
        return is_listening(self.path, self.process.pid) or self.process.poll() is not None

    def client(self):
        """A client of the server."""
        return connect(self.path)

    def root(self):
        """A client of the server, logged in as root."""
        client = self.client()
        client.login("root", ["root"])
        return client

    def end(self, seconds=WAIT_SECONDS):
        """Waits so long for the program's end: its status, and what it wrote on standard output and standard error."""
        told = self.process.communicate(timeout=seconds)
        return self.process.returncode, *told


def run(*words):
    """Runs the program to its end: its status, and what it wrote on standard output and standard error."""
    ran = subprocess.run([*program(), *words], stdin=subprocess.DEVNULL, capture_output=True, timeout=WAIT_SECONDS)
    return ran.returncode, ran.stdout, ran.stderr
