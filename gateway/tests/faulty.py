"""A gateway that has something fail at a moment of a command.

usage: faulty.py FAULT MOMENT team --state DIR ..

Once it gets SIGUSR1, the fault comes the next time that the moment is reached, and stays until
SIGUSR2. The faults are real ones: a file fills the file system on which the folder lies,
descriptors are opened until there is none, standard error is a pipe that nobody reads any more,
another connection holds the record, or the system refuses to fork. Where such a fault alone hurts
nobody, the server is killed too.
"""
from __future__ import annotations

import ctypes
import json
import os
import pathlib
import resource
import signal
import sqlite3
import struct
import sys
from typing import Any, List, Optional, Union

ROOT = pathlib.Path(__file__).resolve().parents[2]
sys.path[:0] = [str(ROOT / "clients"), str(ROOT / "gateway")]
from estserve_client import command_line  # noqa: E402
from estserve_team import fault_points  # noqa: E402

NOBODY = 65_534
FILLER = "filler"
CAPABILITIES = 0x20080522  # the version of the form of `capset`
FORM = struct.Struct("IIIIII")  # what is effective, permitted and inherited, in two parts
SYS_ADMIN, SYS_RESOURCE = 21, 24


def give_up_forking_at_will() -> None:
    """Becomes one whom the limit of processes binds, which root is not."""
    os.setresuid(NOBODY, 0, 0)
    library = ctypes.CDLL(None, use_errno=True)
    header = ctypes.create_string_buffer(struct.pack("Ii", CAPABILITIES, 0))
    held = ctypes.create_string_buffer(FORM.size)
    if library.capget(header, held):
        raise OSError(ctypes.get_errno(), "capget")
    effective, permitted, *rest = FORM.unpack(held.raw)
    left = ~(1 << SYS_ADMIN | 1 << SYS_RESOURCE)
    if library.capset(header, FORM.pack(effective & left, permitted, *rest)):
        raise OSError(ctypes.get_errno(), "capset")


class Fault:
    """One fault, from when it is armed."""

    def __init__(self, name: str, moment: str, state: pathlib.Path) -> None:
        self.state, self.make, self.moment = state, getattr(self, name), moment
        self.is_armed = self.is_made = False
        self.held: List[Union[int, sqlite3.Connection]] = []
        self.processes = resource.getrlimit(resource.RLIMIT_NPROC)
        signal.signal(signal.SIGUSR1, self.arm)
        signal.signal(signal.SIGUSR2, self.take_away)

    def arm(self, *_: Any) -> None:
        self.server = self.server_process()
        self.is_armed = True

    def take_away(self, *_: Any) -> None:
        """Takes the cause away."""
        while self.held:
            held = self.held.pop()
            if isinstance(held, sqlite3.Connection):
                held.close()
            else:
                os.close(held)
        if os.getresuid()[0] == NOBODY:
            os.setresuid(0, 0, 0)
        resource.setrlimit(resource.RLIMIT_NPROC, self.processes)

    def reach(self, moment: str) -> None:
        """What happens at a moment."""
        if self.is_armed and not self.is_made and moment == self.moment:
            self.is_made = self.make() is not False

    def full_disk(self) -> None:
        with open(self.state.parent / FILLER, "ab", buffering=0) as filler:
            for size in (1 << 16, 1 << 12, 1):
                try:
                    while filler.write(b"x" * size) == size:
                        pass
                except OSError:
                    pass

    def no_descriptors(self) -> None:
        try:
            while True:
                self.held.append(os.open(os.devnull, os.O_RDONLY))
        except OSError:
            self.kill_server()

    def closed_stderr(self) -> None:
        told = os.stat(2)
        reader, writer = os.pipe()
        os.close(reader)
        for number in map(int, os.listdir("/proc/self/fd")):
            try:
                found = os.stat(number)
            except OSError:
                continue
            if (found.st_dev, found.st_ino) == (told.st_dev, told.st_ino):
                os.dup2(writer, number)
        self.kill_server()

    def locked_record(self) -> Optional[bool]:
        other = sqlite3.connect(
            self.state / "private" / "record.sqlite", isolation_level=None, timeout=0
        )
        try:
            other.execute("BEGIN IMMEDIATE")
        except sqlite3.OperationalError:  # the gateway holds it: at the next moment
            self.moment = fault_points.COMMITTED
            return False
        self.held.append(other)
        return None

    def no_forks(self) -> None:
        give_up_forking_at_will()
        resource.setrlimit(resource.RLIMIT_NPROC, (0, self.processes[1]))
        self.kill_server()

    def kill_server(self) -> None:
        os.kill(self.server, signal.SIGKILL)

    def server_process(self) -> int:
        told = json.loads((self.state / "private" / "children").read_text())
        for process in map(int, told["processes"]):
            if b"--socket" in pathlib.Path(f"/proc/{process}/cmdline").read_bytes():
                return process
        raise ValueError("there is no server")


def main() -> None:
    name, moment, *words = sys.argv[1:]
    state = pathlib.Path(words[words.index("--state") + 1])
    fault_points.reach = Fault(name, moment, state).reach
    command_line.end(command_line.main(words))


if __name__ == "__main__":
    main()
