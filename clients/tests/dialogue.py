#!/usr/bin/env python3
"""Stands for the program `estserve` in the client's tests: it plays a stored dialogue, or stores
one.

The variable DIALOGUE names the stored lines, one command each; the answers stand in the file of
that name with `.stdout` after it. A command that is not the stored one, or one that never comes,
is told in the file that the variable FAULTS names. Where BESIDE names a real program, it is run
beside, on the same commands, and an answer of its that isn't the stored one is told too. Where
RECORD names one, the commands are sent to it, and stored with its answers.
"""
from __future__ import annotations

import json
import os
import pathlib
import subprocess
import sys
from typing import Callable, Iterable, Optional, Tuple


class Program:
    """A real program that is asked each command as it comes."""

    def __init__(self, path: str) -> None:
        pipe = subprocess.PIPE
        self.child = subprocess.Popen([path, "script"], stdin=pipe, stdout=pipe)
        assert self.child.stdin and self.child.stdout
        self.stdin, self.stdout = self.child.stdin, self.child.stdout

    def answer(self, line: bytes) -> bytes:
        """Its answer to a line."""
        self.stdin.write(line)
        self.stdin.flush()
        return self.stdout.readline()

    def end(self) -> Tuple[bytes, int]:
        """Ends its input. Answers what it wrote that nobody asked for, and its status."""
        self.stdin.close()
        return self.stdout.read(), self.child.wait()


def play(
    stored: Iterable[Tuple[bytes, bytes]],
    beside: Optional[Program],
    tell: Callable[[str], object],
) -> object:
    """Answers each command that is the stored one. Stops, and tells, at the first that isn't, and
    at the end if one is missing.
    """
    for number, (line, answer) in enumerate(stored, 1):
        given = sys.stdin.buffer.readline()
        if not given:
            return tell(f"command {number} never came: {line!r}")
        if json.loads(given) != json.loads(line):
            return tell(f"command {number} is {given!r} in place of {line!r}")
        if beside and (real := beside.answer(given)) != answer:
            return tell(f"command {number}, {given!r}, is answered {real!r} in place of {answer!r}")
        sys.stdout.buffer.write(answer)
        sys.stdout.buffer.flush()
    more = sys.stdin.buffer.readline()
    if more:
        return tell(f"a command too many: {more!r}")
    if beside and (ended := beside.end()) != (b"", 0):
        return tell(f"the program ended so: {ended}")
    return None


def record(program: Program, path: pathlib.Path) -> None:
    """Sends each command to the program, and stores both sides."""
    with path.open("wb") as lines, path.with_name(path.name + ".stdout").open("wb") as answers:
        for line in sys.stdin.buffer:
            answer = program.answer(line)
            lines.write(line)
            answers.write(answer)
            sys.stdout.buffer.write(answer)
            sys.stdout.buffer.flush()
    program.end()


def main() -> None:
    path = pathlib.Path(os.environ["DIALOGUE"])
    if "RECORD" in os.environ:
        record(Program(os.environ["RECORD"]), path)
        return
    beside = Program(os.environ["BESIDE"]) if "BESIDE" in os.environ else None
    faults = pathlib.Path(os.environ["FAULTS"])
    with path.open("rb") as lines, path.with_name(path.name + ".stdout").open("rb") as answers:
        play(zip(lines, answers), beside, lambda text: faults.write_text(text + "\n"))


if __name__ == "__main__":
    main()
