#!/usr/bin/env python3
"""What it costs to close a server: to compare its journals with the receipts of its seats, and to audit them.

usage: closing.py PROGRAM [NAME ..]

PROGRAM is the built `crates/estserve/out/estserve`. One client fills journals, 500 lines ahead of their answers, and leaves; the server,
which serves one connection, then closes. What is timed is the processor time of the server from the last answer to its end: the logout, the
comparison, the audit and its report. Beside each size stands a server that is closed after next to nothing.

Then each program of `bench/worklist.py`, and its `sequence` under fewer local signals, runs in slot 0, for half as many instants and for as
many as take SECONDS about; with NAMEs, these programs alone. Printed are the processor time of the run, lines and offers included, that of the
close, and the second over the first, for both. The audit replays each step on the engine of its module, and asks the plain engine too where
local signals nest at most four deep.
"""
import sys

FOLDER = sys.path.pop(0)  # where this file stands, which has the name of a module that others take

import importlib.util
import json
import os
import pathlib
import socket
import subprocess
import tempfile
import time

TEXT = "module B: input I; output O, P; loop present I then emit O else emit P end; pause end end module"
AHEAD = 500
STEPS = [0, 16_000, 32_000, 65_000]  # entries of one slot
USERS = [0, 2_500, 5_000, 10_000]  # entries of the policy list
WAIT_SECONDS = 120
SECONDS = 1.0  # how long a run of a program takes, about
MOST_ENTRIES = 60_000  # of a program, which a slot's journal has room for
FEWER_LOCALS = (1, 2, 3, 4, 5)  # around the parts of a sequence
TICKS = os.sysconf("SC_CLK_TCK")


def line_of(cmd, **keys):
    """The line of a command."""
    return json.dumps({"cmd": cmd, **keys}, separators=(",", ":"), sort_keys=True).encode() + b"\n"


def beginning():
    """A session of root that may load and step slot 0, where a module runs."""
    grants = [line_of("grant", object="0", op=op, role="root") for op in ("load", "step")]
    return [line_of("login", roles=["root"], user="root"), *grants, line_of("load", main="B", slot=0, text=TEXT)]


def policy_lines(count):
    """This many policy commands in turn: a user is added, and deleted again."""
    pair = [line_of("adduser", user="ann"), line_of("deluser", user="ann")]
    return pair * (count // 2)


def send(connection, answers, lines):
    """Sends the lines, some ahead of their answers. None may be refused."""
    for start in range(0, len(lines), AHEAD):
        part = lines[start:start + AHEAD]
        connection.sendall(b"".join(part))
        for _ in part:
            answer = answers.readline()
            if not answer.startswith(b'{"') or b'"ok"' not in answer:
                raise SystemExit(f"closing.py: a line was answered {answer!r}")


def seconds_of(process):
    """The processor seconds of a process that runs, or has just ended and was not waited for."""
    fields = pathlib.Path(f"/proc/{process}/stat").read_text().rpartition(")")[2].split()
    return (int(fields[11]) + int(fields[12])) / TICKS


def wait_for_end(server):
    """Waits until the server has ended, and gives its processor seconds, before it is waited for."""
    end = time.monotonic() + WAIT_SECONDS
    while time.monotonic() < end:
        state = pathlib.Path(f"/proc/{server.pid}/stat").read_text().rpartition(")")[2].split()[0]
        if state == "Z":
            return seconds_of(server.pid)
        time.sleep(0.001)
    raise SystemExit("closing.py: the server does not end")


def connect(connection, path):
    """Connects to the server as soon as it listens there."""
    end = time.monotonic() + WAIT_SECONDS
    while time.monotonic() < end:
        try:
            return connection.connect(path)
        except (FileNotFoundError, ConnectionRefusedError):
            time.sleep(0.005)
    raise SystemExit("closing.py: the server does not listen")


def close_after(program, opening, lines):
    """The processor seconds of these lines, after others, and of a close after them."""
    with tempfile.TemporaryDirectory() as folder:
        path = str(pathlib.Path(folder) / "socket")
        words = [program, "serve", "--socket", path, "--workers", "1", "--connections", "1"]
        server = subprocess.Popen(words, stdout=subprocess.PIPE)
        with socket.socket(socket.AF_UNIX) as connection:
            connection.settimeout(WAIT_SECONDS)
            connect(connection, path)
            with connection.makefile("rb") as answers:
                send(connection, answers, opening)
                start = seconds_of(server.pid)
                send(connection, answers, lines)
                before = seconds_of(server.pid)
        after = wait_for_end(server)
        report = server.stdout.read().decode()
        server.wait()
        if server.returncode != 0 or not report.endswith("check: ok\n"):
            raise SystemExit(f"closing.py: status {server.returncode}, report {report!r}")
        return before - start, after - before


def worklist():
    """The script of the bench's programs."""
    spec = importlib.util.spec_from_file_location("worklist", pathlib.Path(FOLDER) / "worklist.py")
    module = importlib.util.module_from_spec(spec)
    spec.loader.exec_module(module)
    return module


def opening_of(text, inputs):
    """A session of root that may load, step and offer in slot 0, where this module runs."""
    grants = [line_of("grant", object="0", op=op, role="root") for op in ("load", "step")]
    offers = [line_of("grant", object=f"0.{name}", op="offer", role="root") for name in inputs]
    return [line_of("login", roles=["root"], user="root"), *grants, *offers, line_of("load", main="M", slot=0, text=text)]


def instants_of(inputs, masks, count):
    """The lines of so many instants: the offers of each, and its step."""
    lines = []
    for n in range(count):
        mask = masks[n % len(masks)]
        lines += [line_of("offer", signal=name, slot=0) for at, name in enumerate(inputs) if mask >> at & 1]
        lines.append(line_of("step", slot=0))
    return lines


def count_for(program, opening, inputs, masks):
    """How many instants take SECONDS, within what the journal has room for."""
    count = 8
    while True:
        lines = instants_of(inputs, masks, count)
        taken, _ = close_after(program, opening, lines)
        if taken > SECONDS / 8 or 4 * len(lines) > MOST_ENTRIES:
            most = count * MOST_ENTRIES // len(lines)
            return max(2, min(most, int(count * SECONDS / taken) if taken else most))
        count *= 4


def audit(program, name, inputs, text, masks):
    """Prints what the close costs after a run of this program."""
    opening = opening_of(text, inputs)
    count = count_for(program, opening, inputs, masks)
    told = []
    for instants in (count // 2, count):
        lines = instants_of(inputs, masks, instants)
        run, close = map(min, zip(*(close_after(program, opening, lines) for _ in range(3))))
        told.append(f"{instants} instants in {run:.2f} s, closed in {close:.2f} s, {close / run if run else 0:.2f} of it")
    print(f"{name}: {'; '.join(told)}", flush=True)


def time_lists(program):
    """Prints what the close costs after so many steps, and after so many policy commands."""
    for name, sizes, make in (
        ("steps of one slot", STEPS, lambda count: [line_of("step", slot=0)] * count),
        ("policy commands", USERS, policy_lines),
    ):
        for count in sizes:
            seconds = min(close_after(program, beginning(), make(count))[1] for _ in range(3))
            print(f"{count:7} {name}: closed and audited in {seconds:.2f} s")


def programs_of(bench):
    """The programs of the bench, and its sequence under fewer local signals."""
    shorter = {f"sequence{n}": ("", [], bench.names("O", 64), bench.sequence(depth=n), [0]) for n in FEWER_LOCALS}
    return {**bench.programs(), **shorter}


def main():
    program, *chosen = sys.argv[1:]
    if not chosen:
        time_lists(program)
    bench = worklist()
    sys.setrecursionlimit(20000)
    for name, (_, inputs, outputs, statement, masks) in programs_of(bench).items():
        if not chosen or name in chosen:
            audit(program, name, inputs, bench.module_of(inputs, outputs, statement), masks)


if __name__ == "__main__":
    main()
