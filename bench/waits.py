#!/usr/bin/env python3
"""How long a change of the policy waits while another client loads texts that take long.

usage: waits.py PROGRAM [RUNS]

PROGRAM is the built `crates/estserve/out/estserve`. One client grants and revokes 1,000 permissions or more, one line after the other,
and each answer is timed: first alone, and then while another client, on a connection of its own, loads a text that takes long
into one slot, again and again: a module that runs another RUNS times (20 if left out). Printed are the greatest time of a load, the greatest wait of a grant alone and beside the loads,
and what is hoped of their difference.
"""
import sys

HERE = sys.path.pop(0)  # a file of this folder has the name of a module that is taken

import importlib.util
import multiprocessing
import pathlib
import tempfile
import time

GRANTS = 1_000
OUTPUTS = 1_000
RUNS = int(sys.argv[2]) if len(sys.argv) > 2 else 20
SECONDS = 3  # at least so long
HOPED_MILLISECONDS = 5  # the greatest wait beside loads, over the greatest alone: at most


def read_socket_bench():
    """The bench of this folder whose name is that of a module of the library."""
    spec = importlib.util.spec_from_file_location("socket_bench", pathlib.Path(HERE) / "socket.py")
    module = importlib.util.module_from_spec(spec)
    sys.path.insert(0, HERE)  # which it takes away itself
    spec.loader.exec_module(module)
    return module


bench = read_socket_bench()


def long_text():
    """A module that runs another with a renaming each time; the other emits many outputs."""
    names = [f"O{number}" for number in range(OUTPUTS)]
    listed = ",".join(names)
    emissions = ";".join(f"emit {name}" for name in names)
    runs = "run N[signal P/O0];" * RUNS
    return (
        f"module M:output {listed},P;{runs}halt end module "
        f"module N:output {listed};{emissions} end module"
    )


def answer_to(client, line):
    """The answer to one line, and the milliseconds that it took."""
    begun = time.perf_counter()
    client.socket.sendall(line)
    answer = b""
    while not answer.endswith(b"\n"):
        answer += client.socket.recv(65_536)
    return answer, (time.perf_counter() - begun) * 1e3


def load_again_and_again(path, begun, ended, times):
    """Loads the text until it is told to end. Tells the greatest time of a load, and how many there were."""
    line, longest, count = bench.line_of("load", main="M", slot=0, text=long_text()), 0.0, 0
    with bench.Connection(path) as client:
        client.ask([bench.line_of("login", roles=["root"], user="root")], 1)
        while not ended.is_set():
            answer, took = answer_to(client, line)
            if b'"TooLarge"' not in answer:
                sys.exit(f"the load was answered {answer!r}")
            longest, count = max(longest, took), count + 1
            begun.set()
    times.put((longest, count))


def greatest_wait(client, seconds=0.0):
    """The greatest time of 1,000 grants and revocations in turn, or of more in a number of seconds, in milliseconds."""
    keys = {"object": "1.I", "op": "offer", "role": "root"}
    lines = [bench.line_of(command, **keys) for command in ("grant", "revoke")]
    longest, number, end = 0.0, 0, time.perf_counter() + seconds
    while number < GRANTS or number % 2 or time.perf_counter() < end:
        answer, took = answer_to(client, lines[number % 2])
        if b'"fault"' in answer:
            sys.exit(f"a grant was answered {answer!r}")
        longest, number = max(longest, took), number + 1
    return longest


def wait_beside_loads(path, client):
    """The greatest wait of a grant beside loads, the greatest time of a load, and how many loads there were."""
    context = multiprocessing.get_context("fork")
    begun, ended, times = context.Event(), context.Event(), context.Queue()
    loader = context.Process(target=load_again_and_again, args=(path, begun, ended, times))
    loader.start()
    if not begun.wait(bench.WAIT_SECONDS):
        sys.exit("no load was answered")
    longest = greatest_wait(client, SECONDS)
    ended.set()
    load, count = times.get(timeout=bench.WAIT_SECONDS)
    loader.join()
    return longest, load, count


def main():
    program = sys.argv[1]
    with tempfile.TemporaryDirectory(prefix="estserve-") as name:
        path = pathlib.Path(name) / "waits"
        with bench.serving(path, [program, "serve", "--socket", str(path)]), bench.Connection(path) as client:
            opening = [bench.line_of("login", roles=["root"], user="root")]
            opening += [bench.line_of("grant", object="0", op="load", role="root")]
            client.ask(opening, 1)
            alone = greatest_wait(client, SECONDS)
            beside, load, count = wait_beside_loads(path, client)
    more = beside - alone
    print(f"{count} loads beside {GRANTS} grants or more; the longest load took {load:.1f} milliseconds")
    print(f"the longest wait of a grant: {alone:.2f} milliseconds alone, {beside:.2f} beside the loads")
    missed = "" if more <= HOPED_MILLISECONDS else ", MISSED"
    print(f"more beside the loads: {more:.2f} (hoped: at most {HOPED_MILLISECONDS}{missed})")


if __name__ == "__main__":
    main()
