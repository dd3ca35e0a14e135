#!/usr/bin/env python3
"""How long the client takes for a long run, beside the program alone on the same commands.

usage: client.py [--site] PROGRAM [INSTANTS]

PROGRAM is the built `crates/estserve/out/estserve`. The client runs the arbiter of six cells for
20,000 instants (or INSTANTS) with inputs that are drawn at random from a fixed seed, and writes its
table. What it sends is recorded once. Then client and program take turns: the client runs, and the
program alone answers the recorded commands from a file. Printed are the medians and the least of
both, their ratios, when the first row of the table came, and what is hoped of each; the processor
time of both; how much of the client's time a start of Python takes that does nothing, which differs
from machine to machine; and how many processes wanted a processor meanwhile. Python starts as it
does for who calls the installed command: without its site, and with the client's bytecode (in a
folder of this run); and it gathers what it writes. With `--site` it starts as `python3` does alone.

On a machine with other work, put this before it: `chrt -r 50 python3 bench/client.py PROGRAM`.
"""
import sys

HERE = sys.path.pop(0)  # a file of this folder has the name of a module that is taken

import os
import pathlib
import random
import resource
import shlex
import statistics
import subprocess
import tempfile
import time

ROOT = pathlib.Path(HERE).parent
PYTHON = [sys.executable] if "--site" in sys.argv else [sys.executable, "-S"]
CLIENT = [*PYTHON, ROOT / "clients" / "estserve.py"]
MODULE = ROOT / "examples" / "arbiter" / "arbiter.strl"
TURNS = 15
HOPED_RATIO = 1.3  # of the client's time to the program's, at most
HOPED_SECONDS = 1  # until the first row, at most


def draw_inputs(count):
    """The lines of this many instants: each cell asks in a third of them."""
    drawn = random.Random(1)
    cells = [f"R{number}" for number in range(1, 7)]
    chosen = ([cell for cell in cells if drawn.random() < 1 / 3] for _ in range(count))
    return "".join((" ".join(names) or ";") + "\n" for names in chosen)


def words_of(program, inputs):
    """The command line of a run of the client."""
    return [*CLIENT, "run", MODULE, "--inputs", inputs, "--table", "--program", program]


def environment_in(folder):
    """The environment of a run: without what changes how Python starts, but where bytecode is."""
    kept = {name: value for name, value in os.environ.items() if not name.startswith("PYTHON")}
    return {**kept, "PYTHONPYCACHEPREFIX": str(folder / "bytecode")}


def record(program, inputs, folder):
    """The file of the commands that a run of the client sends."""
    sent, through = folder / "commands", folder / "recorded"
    words = f"tee {shlex.quote(str(sent))} | {shlex.quote(str(program))}"
    through.write_text(f'#!/bin/sh\n{words} "$@"\n')
    through.chmod(0o755)
    words = words_of(through, inputs)
    subprocess.run(words, stdout=subprocess.DEVNULL, env=environment_in(folder), check=True)
    return sent


def processor_seconds():
    """The processor time of all programs that were started and have ended."""
    used = resource.getrusage(resource.RUSAGE_CHILDREN)
    return used.ru_utime + used.ru_stime


def time_client(program, inputs, environment):
    """The seconds of a run, those of the processors, and those until its first row is there."""
    begun, used = time.perf_counter(), processor_seconds()
    words = words_of(program, inputs)
    with subprocess.Popen(words, stdout=subprocess.PIPE, env=environment) as client:
        rows = iter(client.stdout.readline, b"")
        first = next(time.perf_counter() for row in rows if row.split()[:1] == [b"1"])
        client.stdout.read()
    if client.returncode:
        sys.exit("client.py: the client refused the run")
    return time.perf_counter() - begun, processor_seconds() - used, first - begun


def time_program(program, commands):
    """The seconds of the program alone on the commands of a file, and those of the processors."""
    begun, used = time.perf_counter(), processor_seconds()
    with commands.open("rb") as lines:
        subprocess.run([program, "script"], stdin=lines, stdout=subprocess.DEVNULL, check=True)
    return time.perf_counter() - begun, processor_seconds() - used


def time_python(environment):
    """The seconds of a start of Python that does nothing."""
    begun = time.perf_counter()
    subprocess.run([*PYTHON, "-c", "pass"], env=environment, check=True)
    return time.perf_counter() - begun


def told(seconds):
    """The median and the least of some times, in words."""
    return f"{statistics.median(seconds):.3f} s (median of {TURNS}; least {min(seconds):.3f})"


def main():
    named, *counts = [word for word in sys.argv[1:] if word != "--site"]
    program, count = pathlib.Path(named).resolve(), int(counts[0]) if counts else 20_000
    with tempfile.TemporaryDirectory() as name:
        folder = pathlib.Path(name)
        inputs = folder / "inputs"
        inputs.write_text(draw_inputs(count))
        commands = record(program, inputs, folder)
        clients, programs, starts = [], [], []
        for _ in range(TURNS):
            clients.append(time_client(program, inputs, environment_in(folder)))
            programs.append(time_program(program, commands))
            starts.append(time_python(environment_in(folder)))
    runs, run_used, rows = zip(*clients)
    alone, alone_used = zip(*programs)
    ratio, least = statistics.median(runs) / statistics.median(alone), min(runs) / min(alone)
    print(f"the client's run: {told(runs)}")
    print(f"a start of Python: {told(starts)} of it")
    print(f"the program alone: {told(alone)}")
    print(f"processor time of the run, the program's with it: {told(run_used)}")
    print(f"processor time of the program alone: {told(alone_used)}")
    print(f"ratio: {ratio:.2f} (hoped for: at most {HOPED_RATIO}); of the least: {least:.2f}")
    print(f"first row: {max(rows):.3f} s at the latest (hoped for: at most {HOPED_SECONDS})")
    print(f"processes that wanted a processor: {os.getloadavg()[0]:.0f}, on {os.cpu_count()}")


main()
