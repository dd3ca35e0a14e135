#!/usr/bin/env python3
"""Microseconds that a step takes whose module asks one test of n names, for n from 1 to 1,000.

usage: expressions.py PROGRAM [STEPS]

PROGRAM is the built `estserve`. It answers a script of steps of one module, for each kind of test and each n. The time is its processor
time, user and system: of three runs of STEPS steps (10,000 if it is left out) the fastest, less the fastest of three runs without steps.
No kind of test is decided before its last name is asked.

The last column tells whether the time is linear: how many times as long a name takes in a test of 1,000 as in one of 250, each less the
step with one name. 1 is linear, 4 would be quadratic; the run fails where it is over 1.5.
"""
import json
import os
import subprocess
import sys
import tempfile

SIZES = 1, 10, 100, 250, 1000
MOST_TIMES = 1.5
# what a module asks: the names, and what else it does in an instant
KINDS = {
    "`A or B or A ..`, of inputs that are absent": (" or ".join, "A", "B", "nothing"),
    "`not A and not B ..`, of such inputs": (" and ".join, "not A", "not B", "nothing"),
    "`O or O ..`, of an output that is emitted beside it": (" or ".join, "O", "O", "emit O"),
}
OPENING = [{"cmd": "login", "roles": ["root"], "user": "root"}] + [
    {"cmd": "grant", "object": "0", "op": op, "role": "root"} for op in ("load", "step")
]


def module(kind, size):
    join, first, second, act = kind
    test = join([first, second][at % 2] for at in range(size))
    return f"module M: input A, B; output O, P; loop [present [{test}] then emit P end || {act}]; pause end end module"


def script(kind, size, steps):
    load = {"cmd": "load", "main": "M", "slot": 0, "text": module(kind, size)}
    return [*OPENING, load, *[{"cmd": "step", "slot": 0}] * steps]


def processor_seconds(program, commands):
    """The processor time of a run over these commands. Each of them has to be accepted."""
    with tempfile.TemporaryFile() as lines, tempfile.TemporaryFile() as answers:
        lines.write("".join(json.dumps(command) + "\n" for command in commands).encode())
        lines.seek(0)
        process = subprocess.Popen([program, "script"], stdin=lines, stdout=answers)
        _, status, usage = os.wait4(process.pid, 0)
        process.returncode = os.waitstatus_to_exitcode(status)
        answers.seek(0)
        told = answers.read().splitlines()
    if process.returncode or len(told) != len(commands) or not all(b'"ok":' in answer for answer in told):
        sys.exit(f"status {process.returncode}, {told[-1:]}")
    return usage.ru_utime + usage.ru_stime


def microseconds(program, kind, size, steps):
    """What a step takes."""
    whole = min(processor_seconds(program, script(kind, size, steps)) for _ in range(3))
    start = min(processor_seconds(program, script(kind, size, 0)) for _ in range(3))
    return (whole - start) / steps * 1e6


def main():
    program, steps = sys.argv[1], int(sys.argv[2]) if len(sys.argv) > 2 else 10_000
    print(f"| Test of n names | {' | '.join(f'n = {size:,}' for size in SIZES)} | Linear: 1 |")
    print("|---|" + "---|" * (len(SIZES) + 1))
    worst = 0
    for name, kind in KINDS.items():
        times = [microseconds(program, kind, size, steps) for size in SIZES]
        a_name = [(time - times[0]) / (size - 1) for time, size in zip(times[-2:], SIZES[-2:])]
        ratio = a_name[1] / a_name[0]
        worst = max(worst, ratio)
        print(f"| {name} | {' | '.join(f'{time:.2f}' for time in times)} | {ratio:.2f} |")
    if worst > MOST_TIMES:
        sys.exit(f"a name of a long test takes {worst:.2f} times as long as one of a quarter of the length")


if __name__ == "__main__":
    main()
