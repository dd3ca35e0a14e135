#!/usr/bin/env python3
"""What the team's gateway costs: a step through it beside one without, accepted commands a second
over four connections, what one sync costs, and a bare loop that passes lines on and syncs; a hundred
tabs that watch, and a start from a long record, and from one whose policy's journal is nearly full.

usage: gateway.py PROGRAM [steps | sync | bare | tabs | start | policy ..]

Clients are processes of their own; each steps a slot of its own. Processor time is that of the
gateway's process, the core; the record is synced to the disk before each answer, so that the clock
says as much about the disk. Of the tabs it is that of the core and of the page, in cores."""
import sys

sys.path[
    0
] += "/../gateway/tests"  # where this file stands, a file has the name of a module that is taken
sys.dont_write_bytecode = True

import hashlib
import json
import multiprocessing
import os
import pathlib
import select
import selectors
import socket
import tempfile
import time

import teams
import visitors
from test_two_processes import page_of

STEPS = 2_000
CLIENTS = 4
SYNCS = 500
TABS, SECONDS = 100, 10
LONG = 100_000  # entries
POLICY = 262_000  # entries of the policy's journal, which has room for 262,144
MODULE = "module M: input A; output O; loop present A then emit O end; pause end end module"


def cpu_of(process):
    """The processor time of a process, in seconds: of its threads, as the scheduler counts it."""
    threads = pathlib.Path(f"/proc/{process}/task").glob("*/schedstat")
    return sum(int(one.read_text().split()[0]) for one in threads) / 1e9


def set_up(talker):
    """Loads a module into a slot for each client, and lets them all be stepped."""
    talker.ask(teams.login_line())
    for slot in range(CLIENTS):
        for op in ("load", "step"):
            talker.ask(teams.line_of(cmd="grant", object=str(slot), op=op, role="root"))
        talker.ask(teams.line_of(cmd="load", main="M", slot=slot, text=MODULE))
    talker.ask(teams.line_of(cmd="logout"))


def step(path, slot, steps, ahead, begin):
    """One client: steps of its slot, a number of them ahead of their answers."""
    with teams.Talker(path) as talker:
        talker.ask(teams.login_line())
        begin.wait()
        line = teams.line_of(cmd="step", slot=slot)
        for _ in range(steps // ahead):
            assert all(b'"ok":"step"' in answer for answer in talker.ask_part([line] * ahead))
        talker.ask(teams.line_of(cmd="logout"))


def timed(path, process, clients, ahead, steps=STEPS):
    """Seconds by the clock, and of a process, for a step of this many clients."""
    begin = multiprocessing.Barrier(clients + 1)
    running = [
        multiprocessing.Process(target=step, args=(path, slot, steps, ahead, begin))
        for slot in range(clients)
    ]
    for client in running:
        client.start()
    begin.wait()
    began, before = time.monotonic(), cpu_of(process)
    for client in running:
        client.join()
    return (time.monotonic() - began) / steps / clients, (
        cpu_of(process) - before
    ) / steps / clients


def tell(name, seconds, spent):
    print(f"{name:56} {seconds * 1e6:9.0f} {1 / seconds:9.0f} {spent * 1e6:9.0f}", flush=True)


def tell_steps():
    """What a step costs, with the gateway and without."""
    print(f"{'':56} {'us a step':>9} {'a second':>9} {'us cpu':>9}")
    with tempfile.TemporaryDirectory(prefix="gateway-") as folder:
        with teams.Server(teams.program_file(), pathlib.Path(folder) / "socket") as server:
            with teams.Talker(server.path) as talker:
                set_up(talker)
            for clients, ahead in [(1, 1), (1, 50), (CLIENTS, 1), (CLIENTS, 50)]:
                tell(
                    f"the server alone, {clients} clients, {ahead} ahead",
                    *timed(server.path, server.process, clients, ahead),
                )
    with teams.Team() as team:
        with team.talker() as talker:
            set_up(talker)
        for clients, ahead in [(1, 1), (1, 50), (CLIENTS, 1), (CLIENTS, 50)]:
            tell(
                f"the gateway, {clients} clients, {ahead} ahead",
                *timed(team.path, team.process.pid, clients, ahead),
            )
        print(f"{len(team.entries())} entries recorded")


def listen(visitor, seats, told):
    """Tabs that follow their events, until the gateway ends; counts the bytes that come."""
    selector, held = selectors.DefaultSelector(), []
    for seat in seats:
        visitor.seat = seat
        connection, _ = visitor.open("GET", f"/api/events?seat={seat}")
        connection.sock.setblocking(False)
        selector.register(connection.sock, selectors.EVENT_READ)
        held.append(connection)
    told.value = 0
    while selector.get_map():
        for key, _ in selector.select():
            data = key.fileobj.recv(65_536)
            told.value += len(data)
            if not data:
                selector.unregister(key.fileobj)


def tell_tabs():
    """What tabs that watch cost, all of one login, while a slot is stepped."""
    told = multiprocessing.Value("q", -1)
    with visitors.Team("--http", "127.0.0.1:0") as team:
        visitors.set_up(team)
        visitor = visitors.visitor_of(team)
        seats = []
        for _ in range(TABS):
            visitor.login("bob", "watcher")
            seats.append(visitor.seat)
        tabs = multiprocessing.Process(target=listen, args=(visitor, seats, told), daemon=True)
        tabs.start()
        teams.wait_for(lambda: told.value >= 0)
        processes = [team.process.pid, page_of(team)]
        with team.client() as client:
            client.login("cho", ["stepper"])
            before, began, came = list(map(cpu_of, processes)), time.monotonic(), told.value
            for at in range(20 * SECONDS):
                client.step(0)
                time.sleep(max(0, began + at / 20 - time.monotonic()))
            seconds = time.monotonic() - began
        spent = [(after - since) / seconds for after, since in zip(map(cpu_of, processes), before)]
        told_bytes = (told.value - came) / seconds / TABS
        rate = 20 * SECONDS / seconds
        print(f"{TABS} tabs, {rate:.1f} steps a second: {told_bytes:.0f} bytes a second each")
        print(f"  {spent[0]:.2f} of a core in the core, {spent[1]:.2f} in the page")
        tabs.terminate()


def tell_sync():
    """What one sync costs: the last row of a record, of 512 bytes, in a file that is there."""
    with tempfile.TemporaryDirectory(prefix="gateway-") as folder:
        number = os.open(pathlib.Path(folder) / "file", os.O_RDWR | os.O_CREAT)
        os.pwrite(number, bytes(1 << 18), 0)
        os.fsync(number)
        began, before = time.monotonic(), cpu_of(os.getpid())
        for at in range(SYNCS):
            os.pwrite(number, bytes(512), at * 512)
            os.fdatasync(number)
        seconds, spent = time.monotonic() - began, cpu_of(os.getpid()) - before
        os.close(number)
        tell("one sync of 512 bytes, by itself", seconds / SYNCS, spent / SYNCS)


LINE = b'{"cmd":"step","slot":0}\n'
REPLY = b'{"instant":3,"ok":"step","place":45,"version":17}\n'


def answer_lines(connection):
    """A server that answers the same to each line."""
    while connection.recv(4_096):
        connection.send(REPLY)


def ask_lines(connection):
    """A client that asks one line after the other."""
    for _ in range(STEPS):
        connection.send(LINE)
        connection.recv(4_096)


def pass_on(client, server, file):
    """Passes each line to the server. Its answer is read, its row is hashed and synced, and then it
    is passed to the client."""
    poll, last, count = select.epoll(), b"", 0
    poll.register(client, select.EPOLLIN)
    poll.register(server, select.EPOLLIN)
    while count < STEPS:
        ((number, _),) = poll.poll()
        if number == client.fileno():
            server.send(client.recv(4_096))
            continue
        reply = server.recv(4_096)
        fields = json.loads(reply)
        row = (count, fields["place"], fields["version"], time.time(), LINE, reply)
        text = ascii(row).encode()
        last = hashlib.sha256(last + text).digest()
        os.pwrite(file, last + text, count % SYNCS * 512)
        os.fdatasync(file)
        client.send(reply)
        count += 1


def tell_bare():
    """What a step costs a loop of Python that does no more than has to be: it reads no line, keeps
    no order and knows nobody."""
    with tempfile.TemporaryDirectory(prefix="gateway-") as folder:
        file = os.open(pathlib.Path(folder) / "file", os.O_RDWR | os.O_CREAT)
        os.pwrite(file, bytes(1 << 18), 0)
        os.fsync(file)
        (client, asking), (server, answering) = socket.socketpair(), socket.socketpair()
        others = [
            multiprocessing.Process(target=answer_lines, args=(answering,), daemon=True),
            multiprocessing.Process(target=ask_lines, args=(asking,), daemon=True),
        ]
        for process in others:
            process.start()
        began, before = time.monotonic(), cpu_of(os.getpid())
        pass_on(client, server, file)
        seconds, spent = time.monotonic() - began, cpu_of(os.getpid()) - before
        os.close(file)
        others[0].terminate()
        tell("a bare loop that passes a line on, and syncs", seconds / STEPS, spent / STEPS)


def tell_start():
    """How long a start takes that replays a long record."""
    tell_start_of([teams.line_of(cmd="step", slot=at % 2) for at in range(500)], LONG)


def tell_policy():
    """How long a start takes that replays a policy's journal that is nearly full."""
    changes = [teams.line_of(cmd=cmd, role="one") for cmd in ("addrole", "delrole")]
    tell_start_of(changes * 250, POLICY)


def tell_start_of(lines, count):
    """How long a start takes that replays these lines, again and again."""
    with teams.Team() as team:
        with team.talker() as talker:
            set_up(talker)
            talker.ask(teams.login_line())
            for _ in range(count // len(lines)):
                answers = talker.ask_part(lines)
            assert b'"ok"' in answers[-1]
            talker.ask(teams.line_of(cmd="logout"))
        assert team.end() == 0
        began = time.monotonic()
        team.start()
        seconds, server = time.monotonic() - began, cpu_of(team.server())
        print(f"a start with {len(team.entries())} entries: {seconds:.2f} s; processor time")
        print(f"  {cpu_of(team.process.pid):.2f} s of the core, {server:.2f} s of the server")


PARTS = {
    "steps": tell_steps,
    "sync": tell_sync,
    "bare": tell_bare,
    "tabs": tell_tabs,
    "start": tell_start,
    "policy": tell_policy,
}


def main():
    os.environ["ESTSERVE"] = os.path.abspath(
        sys.argv[1]
    )  # `teams` reads it when the program is first needed
    for part in sys.argv[2:] or PARTS:
        PARTS[part]()


if __name__ == "__main__":
    main()
