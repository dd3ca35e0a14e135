#!/usr/bin/env python3
"""What a server over a Unix socket costs, beside two that only send back what they are sent.

usage: socket.py PROGRAM BENCHES [ROUNDS]

PROGRAM is the built `crates/estserve/out/estserve`, BENCHES the built `crates/benches/out/benches`, which is the echo in the kit's language. All ratios are of one run:

- one client's round trip, a step, a look and a check in turn, beside the same lines sent back by BENCHES, and by a few lines of Python;
- 100 lines sent ahead of their answers, beside one at a time;
- four clients in processes of their own, each on a slot of its own, all on one slot, and four that only check, beside one, 100 lines ahead;
- the time of a step in a slot with 60,000 entries, beside that in one with 100.

The figure of a kind of work is that of the fastest of ROUNDS rounds (five if left out, at most twelve), in each of which every kind has
its turn: what else the machine does makes a round slower, never faster. The answers are counted, and none may be a refusal. Beside the
clock's figures stand the server's own processor time, which says more where the machine has other work.
"""
import sys

sys.path.pop(0)  # where this file stands, which has the name of a module that it takes

import contextlib
import json
import multiprocessing
import os
import pathlib
import socket
import subprocess
import tempfile
import time

TEXT = "module B: input I; output O, P; loop present I then emit O else emit P end; pause end end module"
WAIT_SECONDS = 60
AHEAD = 100
CLIENTS = 4
SLOTS = 16
TRIPS = 9_000  # lines of a round, one at a time
LINES = 30_000  # lines of a client in a round, sent ahead
FEW, MANY, STEPS = 100, 60_000, 2_000  # entries of a slot's journal, and the steps that are then timed
HOPES = {
    "a round trip, beside the echo in the kit's language": (1.5, "at most"),
    "a round trip, beside the echo in Python": (1.5, "at most"),
    "100 lines ahead, beside one at a time": (10, "at least"),
    "four clients on slots of their own, beside one": (2.5, "at least"),
    "four clients on one slot, beside four on slots of their own": (1.1, "at most"),
    "four clients that check, beside one": (3, "at least"),
    "a step after 60,000 entries, beside one after 100": (1.1, "at most"),
}


def line_of(cmd, **keys):
    """The line of a command."""
    return json.dumps({"cmd": cmd, **keys}, separators=(",", ":"), sort_keys=True).encode() + b"\n"


def lines_on(slot, count):
    """This many lines in turn: a step of the slot, a look at its last instant, a check."""
    lines = []
    for instant in range(1, count // 3 + 1):
        lines.append(line_of("step", slot=slot))
        lines.append(line_of("look", instant=instant, slot=slot))
        lines.append(line_of("check", op="step", object=str(slot)))
    return lines


def lines_on_shared(slot, count):
    """This many lines in turn, for a slot that others step too: a step, a look at the first instant, a check."""
    step, look, check = line_of("step", slot=slot), line_of("look", instant=1, slot=slot), line_of("check", op="step", object=str(slot))
    return [step, look, check] * (count // 3)


def checks(count):
    """This many checks."""
    return [line_of("check", op="step", object="0")] * count


class Connection:
    """A connection for lines: to a server at a path, or over a socket that is connected."""

    def __init__(self, path, connected=None):
        self.socket = connected or socket.socket(socket.AF_UNIX, socket.SOCK_STREAM)
        self.socket.settimeout(WAIT_SECONDS)
        if connected is None:
            self.socket.connect(str(path))

    def __enter__(self):
        return self

    def __exit__(self, *_):
        self.socket.close()

    def take(self, count):
        """Reads this many answers, of which none is a refusal."""
        last = b""
        while count > 0:
            some = self.socket.recv(65_536)
            if not some or b'"fault"' in last + some:
                sys.exit(f"the server ended, or refused: {some!r}")
            last = some[-8:]
            count -= some.count(b"\n")

    def ask(self, lines, ahead):
        """The seconds that the lines take where this many are sent at once, and their answers awaited before the next."""
        parts = [(b"".join(lines[at:at + ahead]), len(lines[at:at + ahead])) for at in range(0, len(lines), ahead)]
        begun = time.perf_counter()
        for part, count in parts:
            self.socket.sendall(part)
            self.take(count)
        return time.perf_counter() - begun


def wait_for(path):
    """Waits until a server takes connections at this path."""
    end = time.monotonic() + WAIT_SECONDS
    while time.monotonic() < end:
        rows = pathlib.Path("/proc/net/unix").read_text().splitlines()
        if any(" 00010000 " in row and row.endswith(f" {path}") for row in rows):
            return
        time.sleep(0.01)
    sys.exit(f"no server came to {path}")


def send_back(path):
    """The echo in Python: sends back what one client sends."""
    with socket.socket(socket.AF_UNIX, socket.SOCK_STREAM) as listener:
        listener.bind(str(path))
        listener.listen()
        with listener.accept()[0] as peer:
            while some := peer.recv(65_536):
                peer.sendall(some)


@contextlib.contextmanager
def serving(path, words=None):
    """A process that serves at this path: of these words, or the echo in Python."""
    if words is None:
        process = multiprocessing.get_context("fork").Process(target=send_back, args=(path,), daemon=True)
        process.start()
    else:
        process = subprocess.Popen(words, stdin=subprocess.DEVNULL)
    try:
        wait_for(path)
        yield process
    finally:
        process.terminate()
        process.wait() if words else process.join()


@contextlib.contextmanager
def echoing(program):
    """The echo in the kit's language, and a connection to it: the other end is its standard input and output."""
    ours, theirs = socket.socketpair(socket.AF_UNIX, socket.SOCK_STREAM)
    with theirs:
        process = subprocess.Popen([program, "echo"], stdin=theirs, stdout=theirs)
    try:
        with Connection(None, ours) as connection:
            yield process, connection
    finally:
        process.terminate()
        process.wait()


def processor_time(process):
    """The microseconds of processor time of all threads of a process."""
    tasks = pathlib.Path(f"/proc/{process.pid}/task").iterdir()
    return sum(int((task / "schedstat").read_text().split()[0]) for task in tasks) / 1e3


def timed(process, count, work):
    """Does a work of this many lines. Answers what it answers, and the server's microseconds of processor time a line."""
    before = processor_time(process)
    answer = work()
    return answer, (processor_time(process) - before) / count


def load(slot):
    """The line that loads the module."""
    return line_of("load", main="B", slot=slot, text=TEXT)


def prepare(path):
    """A client of estserve, logged in as root, which may do all in each slot. The module is loaded in each."""
    client = Connection(path)
    lines = [line_of("login", roles=["root"], user="root")]
    rights = [("load", ""), ("step", ""), ("observe", ".I"), ("observe", ".O"), ("observe", ".P")]
    for slot in range(SLOTS):
        lines += [line_of("grant", object=f"{slot}{what}", op=op, role="root") for op, what in rights]
        lines.append(load(slot))
    client.ask(lines, AHEAD)
    return client


def begin_anew(client, slots):
    """Loads the module into these slots anew, so that their next instant is the first. Their journals go on."""
    for slot in slots:
        client.ask([line_of("unload", slot=slot), load(slot)], AHEAD)


def round_trips(connection, lines):
    """The microseconds of a round trip."""
    return connection.ask(lines, 1) / len(lines) * 1e6


def one_of_many(path, lines, barrier, spans):
    """A client in a process of its own: waits for the others, asks, and tells when it began and ended."""
    with Connection(path) as client:
        client.ask([line_of("login", roles=["root"], user="root")], 1)
        barrier.wait(WAIT_SECONDS)
        begun = time.monotonic()
        client.ask(lines, AHEAD)
        spans.put((begun, time.monotonic()))


def rate(path, works):
    """The lines a second of clients, each with its lines, which all begin at once."""
    context = multiprocessing.get_context("fork")
    barrier, spans = context.Barrier(len(works)), context.Queue()
    clients = [context.Process(target=one_of_many, args=(path, lines, barrier, spans)) for lines in works]
    for client in clients:
        client.start()
    told = [spans.get(timeout=WAIT_SECONDS) for _ in clients]
    for client in clients:
        client.join()
    seconds = max(end for _, end in told) - min(begun for begun, _ in told)
    return sum(map(len, works)) / seconds


def least(pairs):
    """Of each part of these pairs the least."""
    return tuple(map(min, zip(*pairs)))


def times_of_trips(folder, program, benches, rounds):
    """Microseconds a line of one client, by the clock and of processor time: of round trips, and of lines sent ahead."""
    path, plain = folder / "trips", folder / "plain"
    found = {"estserve": [], "the echo in the kit's language": [], "the echo in Python": []}
    many = []
    with (
        serving(path, [program, "serve", "--socket", str(path)]) as server,
        echoing(benches) as (first, to_first),
        serving(plain) as second,
        prepare(path) as client,
        Connection(plain) as to_second,
    ):
        asked = zip(found, [(server, client), (first, to_first), (second, to_second)])
        asked = [(found[kind], *pair) for kind, pair in asked]
        for slot in range(rounds):
            trips, lines = lines_on(slot, TRIPS), lines_on(slot, LINES)
            for times, process, connection in asked:
                times.append(timed(process, TRIPS, lambda: round_trips(connection, trips)))
            begin_anew(client, [slot])
            many.append(timed(server, LINES, lambda: client.ask(lines, AHEAD) / LINES * 1e6))
    return {kind: least(times) for kind, times in found.items()}, least(many)


def rates_of_clients(folder, program, rounds):
    """Microseconds a line, by the clock and of processor time: of one client and of four, on slots of their own, on one, at checks."""
    path = folder / "clients"
    found = {"one": [], "four": [], "four on one slot": [], "one that checks": [], "four that check": []}
    with serving(path, [program, "serve", "--socket", str(path), "--workers", str(CLIENTS + 1)]) as server:
        with prepare(path) as client:
            for number in range(rounds):
                slots = [(CLIENTS * number + at) % SLOTS for at in range(CLIENTS)]
                works = [lines_on(slot, LINES) for slot in slots]
                shared = [lines_on_shared(slots[-1], LINES // CLIENTS)] * CLIENTS
                asked = zip(found, [works[:1], works, shared, [checks(LINES)], [checks(LINES)] * CLIENTS])
                for kind, lines in asked:
                    begin_anew(client, slots)
                    count = sum(map(len, lines))
                    found[kind].append(timed(server, count, lambda: 1e6 / rate(path, lines)))
    return {kind: least(times) for kind, times in found.items()}


def times_of_steps(folder, program, rounds):
    """Microseconds of a step, by the clock and of processor time: after few entries, and after many."""
    path, few, many = folder / "steps", [], []
    with serving(path, [program, "serve", "--socket", str(path)]) as server, prepare(path) as client:
        for slot in range(rounds):
            step = [line_of("step", slot=slot)]
            for times, entries in ((few, FEW - 1), (many, MANY - FEW - STEPS)):
                client.ask(step * entries, AHEAD)
                times.append(timed(server, STEPS, lambda: client.ask(step * STEPS, AHEAD) / STEPS * 1e6))
    return least(few), least(many)


def say(what, ratio):
    """Prints a ratio beside what is hoped of it."""
    hope, side = HOPES[what]
    holds = ratio <= hope if side == "at most" else ratio >= hope
    print(f"{what}: {ratio:.2f} (hoped: {side} {hope}{'' if holds else ', MISSED'})", flush=True)


def tell(what, times):
    """Prints the microseconds of a line."""
    print(f"{what}: {times[0]:.2f} microseconds a line, {times[1]:.2f} of the server's processor time", flush=True)


def main():
    program, benches = sys.argv[1:3]
    rounds = int(sys.argv[3]) if len(sys.argv) > 3 else 5
    with tempfile.TemporaryDirectory(prefix="estserve-") as name:
        folder = pathlib.Path(name)
        trips, ahead = times_of_trips(folder, program, benches, rounds)
        for kind, times in trips.items():
            tell(f"a round trip to {kind}", times)
        tell("100 lines ahead", ahead)
        one = trips["estserve"][0]
        say("a round trip, beside the echo in the kit's language", one / trips["the echo in the kit's language"][0])
        say("a round trip, beside the echo in Python", one / trips["the echo in Python"][0])
        say("100 lines ahead, beside one at a time", one / ahead[0])
        clients = rates_of_clients(folder, program, rounds)
        for kind, times in clients.items():
            tell(f"clients, {kind}", times)
        say("four clients on slots of their own, beside one", clients["one"][0] / clients["four"][0])
        say("four clients on one slot, beside four on slots of their own", clients["four on one slot"][0] / clients["four"][0])
        say("four clients that check, beside one", clients["one that checks"][0] / clients["four that check"][0])
        few, many = times_of_steps(folder, program, rounds)
        tell(f"a step after {FEW} entries", few)
        tell(f"a step after {MANY:,}", many)
        say("a step after 60,000 entries, beside one after 100", many[0] / few[0])


if __name__ == "__main__":
    main()
