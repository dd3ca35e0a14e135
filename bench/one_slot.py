#!/usr/bin/env python3
"""What clients on one slot cost, as one program serves them and as another does, and beside redis.

usage: one_slot.py PROGRAM OTHER [ROUNDS]

PROGRAM and OTHER are two builds of `crates/estserve`: of two versions of the program that are to be compared. For two cores and for
four, 4, 8 and 16 clients in processes of their own, each at a worker of its own, send steps, looks and checks of one slot, 100 lines
ahead. The clients run on the same cores. Where a redis-server is installed, as many clients send it INCR, GET and EXISTS.

Each round has a turn of each, on the next slot. Printed are the microseconds a line by the clock: of each the median over ROUNDS
rounds (nine if left out, at most sixteen) and the least; and the ratio of PROGRAM to OTHER by medians.
"""
import sys

HERE = sys.path.pop(0)  # a file of this folder has the name of a module that is taken

import contextlib
import importlib.util
import multiprocessing
import os
import pathlib
import shutil
import statistics
import tempfile
import time

CORES = (2, 4)
CLIENTS = (4, 8, 16)
WORKERS = 16
LINES = 24_000  # of all clients, in a round: the journal of a slot has room for two rounds
HOPED = 1.1  # PROGRAM takes at most so many times as long as OTHER
KEY = [b"INCR slot\r\n", b"GET slot\r\n", b"EXISTS slot\r\n"]


def read_socket_bench():
    """The bench of this folder whose name is that of a module of the library."""
    spec = importlib.util.spec_from_file_location("socket_bench", pathlib.Path(HERE) / "socket.py")
    module = importlib.util.module_from_spec(spec)
    sys.path.insert(0, HERE)  # which it takes away itself
    spec.loader.exec_module(module)
    return module


bench = read_socket_bench()


def one_of_many(path, first, lines, barrier, spans):
    """A client in a process of its own: sends its first lines, waits for the others, asks, and tells when it began and ended."""
    with bench.Connection(path) as client:
        client.ask(first, 1)
        barrier.wait(bench.WAIT_SECONDS)
        begun = time.monotonic()
        client.ask(lines, bench.AHEAD)
        spans.put((begun, time.monotonic()))


def time_of(path, first, lines, clients):
    """The microseconds a line of this many clients, which all begin at once."""
    context = multiprocessing.get_context("fork")
    barrier, spans = context.Barrier(clients), context.Queue()
    asking = [context.Process(target=one_of_many, args=(path, first, lines, barrier, spans)) for _ in range(clients)]
    for client in asking:
        client.start()
    told = [spans.get(timeout=bench.WAIT_SECONDS) for _ in asking]
    for client in asking:
        client.join()
    seconds = max(end for _, end in told) - min(begun for begun, _ in told)
    return seconds / (clients * len(lines)) * 1e6


def server(stack, folder, name, program):
    """The path of a server of this program, in each of whose slots the module runs."""
    path = folder / name
    stack.enter_context(bench.serving(path, [program, "serve", "--socket", str(path), "--workers", str(WORKERS)]))
    with bench.prepare(path):
        pass
    return path


def times_on(folder, programs, clients, rounds):
    """The times of each program, and of redis where there is one, a list for each."""
    login = [bench.line_of("login", roles=["root"], user="root")]
    count = LINES // clients // 3 * 3
    with contextlib.ExitStack() as stack:
        paths = [server(stack, folder, f"{clients}-{at}", program) for at, program in enumerate(programs)]
        asked = [(path, login, None) for path in paths]
        if redis := shutil.which("redis-server"):
            path = folder / f"{clients}-redis"
            words = [redis, "--port", "0", "--unixsocket", str(path), "--save", "", "--appendonly", "no", "--logfile", "/dev/null"]
            stack.enter_context(bench.serving(path, words))
            asked.append((path, [], KEY * (count // 3)))
        found = [[] for _ in asked]
        for number in range(rounds):
            shared = bench.lines_on_shared(number % bench.SLOTS, count)
            for times, (path, first, lines) in zip(found, asked):
                times.append(time_of(path, first, lines or shared, clients))
    return found


def main():
    programs = sys.argv[1:3]
    rounds = int(sys.argv[3]) if len(sys.argv) > 3 else 9
    names = ["PROGRAM", "OTHER", "redis"]
    worst = 0.0
    for cores in CORES:
        os.sched_setaffinity(0, set(range(cores)))
        for clients in CLIENTS:
            with tempfile.TemporaryDirectory(prefix="estserve-") as name:
                found = times_on(pathlib.Path(name), programs, clients, rounds)
            medians = [statistics.median(times) for times in found]
            told = ", ".join(f"{name} {middle:.2f} (least {min(times):.2f})" for name, middle, times in zip(names, medians, found))
            ratio = medians[0] / medians[1]
            worst = max(worst, ratio)
            print(f"{cores} cores, {clients} clients: {told}; PROGRAM over OTHER {ratio:.2f}", flush=True)
    print(f"at most {worst:.2f} times as long (hoped: at most {HOPED}{'' if worst <= HOPED else ', MISSED'})")


if __name__ == "__main__":
    main()
