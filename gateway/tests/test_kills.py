"""The gateway, the server, or both are killed at random moments under load, or the system seems to
end before the record was on the disk: nothing that was answered is lost.

Four clients of each team send commands, some ahead of their answers, and note what they sent and
what came. Afterwards the record has to have each accepted answer, in the order of its
connection; and beyond these no more than what was sent and not answered, each at most once; and
each look that was answered shows the instant that the record gives. The variable GATEWAY_KILLS
says how often is killed.
"""
import json
import os
import signal
import socket
import threading
import time
import unittest

import teams
from teams import Team, line_of, login_line, random_of
from estserve_team.chain import Head
from estserve_team.record import open_reader

KILLS = int(os.environ.get("GATEWAY_KILLS", "40"))
TEAMS = 3  # run beside each other
KILLS_OF_A_RECORD = 12
LOG_HEAD = 32  # bytes of SQLite's log, which are others when it begins anew
CLIENTS = 4
MODULE = "module M: input A; output O; loop present A then emit O end; pause end end module"
SETUP = [
    login_line(),
    *(
        line_of(cmd="grant", object=f"{slot}{name}", op=op, role="root")
        for slot in (0, 1)
        for name, op in (
            ("", "load"),
            ("", "step"),
            (".A", "offer"),
            (".A", "observe"),
            (".O", "observe"),
        )
    ),
    *(line_of(cmd="load", main="M", slot=slot, text=MODULE) for slot in (0, 1)),
    line_of(cmd="logout"),
]


class Connection:
    """What one connection has sent, and what it was answered."""

    def __init__(self):
        self.sent, self.told = [], []


class Client(threading.Thread):
    """A client that sends until it is told to end, and connects again where its connection ends."""

    def __init__(self, path, number, numbers):
        super().__init__(daemon=True)
        self.path, self.number, self.numbers = path, number, numbers
        self.connections, self.is_over = [], False

    def run(self):
        while not self.is_over:
            try:
                with socket.socket(socket.AF_UNIX) as connection:
                    connection.settimeout(teams.WAIT_SECONDS)
                    connection.connect(str(self.path))
                    self.speak(connection)
            except OSError:
                time.sleep(0.005)

    def speak(self, connection):
        """Logs in, and sends commands until the connection ends."""
        seen = Connection()
        self.connections.append(seen)
        self.ask(connection, seen, [login_line()])
        while not self.is_over:
            self.ask(
                connection,
                seen,
                [self.command() for _ in range(self.numbers.choice([1, 1, 4, 16]))],
            )

    @staticmethod
    def ask(connection, seen, lines):
        """Sends lines, and notes the answers that come, whole lines alone."""
        seen.sent += lines
        connection.sendall(b"\n".join(lines) + b"\n")
        held, left = b"", len(lines)
        while left:
            more = connection.recv(65_536)
            if not more:
                raise ConnectionResetError
            *told, held = (held + more).split(b"\n")
            seen.told += told
            left -= len(told)

    def command(self):
        """A command on a slot that another client uses too, or on a permission that is this
        client's own."""
        numbers, slot = self.numbers, self.number % 2
        kind = numbers.randrange(10)
        if kind < 4:
            return line_of(cmd="step", slot=slot)
        if kind < 6:
            return line_of(cmd="offer", signal="A", slot=slot)
        if kind < 9:
            return line_of(
                cmd="look",
                instant=numbers.randrange(1, 2_000) if kind == 8 else numbers.randrange(1, 60),
                slot=slot,
            )
        return line_of(
            cmd=numbers.choice(["grant", "revoke"]),
            object=f"{self.number}.X",
            op="offer",
            role="root",
        )


def answers_of(clients):
    """How many answers the clients have got."""
    return sum(len(seen.told) for client in clients for seen in list(client.connections))


def wait_for_load(clients, numbers):
    """Waits for some answers, and a moment more; now and then for none, so that a start is killed
    too."""
    if numbers.randrange(8):
        enough = answers_of(clients) + numbers.randrange(10, 150)
        teams.wait_for(lambda: answers_of(clients) >= enough)
    time.sleep(numbers.uniform(0, 0.02))


def kill(team, numbers, clients):
    """Kills the gateway, the server or both at some moment, and waits until clients may come
    again."""
    wait_for_load(clients, numbers)
    what, server = numbers.choice(["gateway", "server", "both", "system"]), team.server()
    if what == "gateway":
        team.process.kill()
    elif what == "system":
        before = files_of(team.record)
        time.sleep(numbers.choice([0, 0.01, 0.05, 0.2]))
        team.process.kill()
        team.process.wait()
        put_back(team.record, before)
    else:
        os.kill(server, signal.SIGKILL)
    if what == "both":
        time.sleep(numbers.choice([0, 0, 0.002]))
        team.process.kill()
    if what != "server":
        team.wait()
        team.start()
        if teams.is_running(server):
            raise AssertionError("the server outlived its gateway")
    elif team.process.poll() is not None:
        raise AssertionError(f"the gateway ended with its server: {team.told()}")
    return what


def files_of(record):
    """The bytes of a record that is being written, by file; None where its log began anew just
    then."""
    log = record.with_name("record.sqlite-wal")
    first = log.read_bytes()[:LOG_HEAD]
    found = {record: record.read_bytes(), log: log.read_bytes()}
    return found if found[log][:LOG_HEAD] == first else None


def write_files(files):
    """Has a record be these files."""
    for path, text in files.items():
        path.with_name("record.sqlite-shm").unlink(missing_ok=True)
        path.write_bytes(text)


def count_of(record):
    """How many entries, and connections that were given up, a record has."""
    with open_reader(record) as database:
        return [
            database.execute(f"SELECT count(*) FROM {table}").fetchone()[0]
            for table in ("entries", "givenup")
        ]


def put_back(record, before):
    """Puts a record back as it was, as if the system had ended before the rest was on its disk: but
    for what was synced since, which then was on the disk too."""
    after, head = files_of(record), Head(record.with_name("head"))
    head.close()
    if before is None or not head.blocks:
        return
    first = head.blocks[0]
    synced = (
        first.tip.entries - len(first.entries),
        first.tip.givenup - len(first.givenup),
    )
    write_files(before)
    if any(there < least for there, least in zip(count_of(record), synced)):
        write_files(after)


def instants_of(entries):
    """Whether A is present in each instant of each slot, by the record's entries."""
    present, pending = {0: [], 1: []}, {0: False, 1: False}
    for entry in entries:
        if entry.command == "offer":
            pending[entry.slot] = True
        elif entry.command == "step":
            present[entry.slot].append(pending[entry.slot])
            pending[entry.slot] = False
    return present


class Judged:
    """What a record is held against."""

    def __init__(self, test, entries):
        self.test, self.entries = test, entries
        self.present = instants_of(entries)
        self.by_session = {}
        for entry in entries:
            self.by_session.setdefault(entry.session, []).append(entry)
        self.accepted = self.looks = self.unanswered = self.undone = 0
        self.known = set()

    def judge(self, seen):
        """Holds what one connection saw against the record."""
        answers = list(map(json.loads, seen.told))
        for line, answer in zip(seen.sent, answers):
            if answer.get("ok") == "look":
                self.look(json.loads(line), answer)
        with_entry = [
            (line, told)
            for line, told, answer in zip(seen.sent, seen.told, answers)
            if answer.get("ok", "look") != "look"
        ]
        self.accepted += len(with_entry)
        unanswered = seen.sent[len(seen.told) :]
        self.unanswered += len(unanswered)
        if with_entry:
            session = answers[0]["session"]
            self.test.assertNotIn(session, self.known)
            self.known.add(session)
            self.compare(self.by_session.get(session, []), with_entry, unanswered)

    def compare(self, entries, with_entry, unanswered):
        """The entries of one session: those that were answered, then some of the unanswered, each
        once; then a logout at the next start."""
        told = [(entry.request, entry.reply) for entry in entries[: len(with_entry)]]
        self.test.assertEqual(told, with_entry)
        left = [entry.request for entry in entries[len(with_entry) :]]
        if left and left[-1] == line_of(cmd="logout"):
            left.pop()
        self.undone += len(left)
        at = 0
        for line in left:
            self.test.assertIn(line, unanswered[at:])
            at += unanswered[at:].index(line) + 1

    def look(self, asked, answer):
        """A look shows the instant that the record gives."""
        self.looks += 1
        present = self.present[asked["slot"]]
        self.test.assertLessEqual(asked["instant"], len(present))
        is_present = present[asked["instant"] - 1]
        self.test.assertEqual(answer["signals"], [["A", is_present], ["O", is_present]])


class Killed(unittest.TestCase):
    def one_record(self, number, kills, numbers, sums):
        """One team, killed so often, and its record judged."""
        with Team() as team:
            with team.talker() as talker:
                talker.ask_all(SETUP)
            clients = [
                Client(team.path, at, random_of(f"client {number} {at}")) for at in range(CLIENTS)
            ]
            for client in clients:
                client.start()
            for _ in range(kills):
                sums.append(kill(team, numbers, clients))
            for client in clients:
                client.is_over = True
            for client in clients:
                client.join(teams.WAIT_SECONDS)
            self.assertEqual(team.end(), 0, team.told())
            judged = Judged(self, team.entries())
            for seen in (seen for client in clients for seen in client.connections):
                judged.judge(seen)
            with Team(state=team.state) as again:
                self.assertEqual(again.end(), 0)
        return judged

    def one_thread(self, first, found):
        """One team after the other, until this thread has killed as often as it has to."""
        numbers, sums = random_of(f"kills {first}"), []
        share = KILLS // TEAMS + (first < KILLS % TEAMS)
        try:
            while len(sums) < share:
                judged = self.one_record(
                    f"{first} {len(sums)}", min(KILLS_OF_A_RECORD, share - len(sums)), numbers, sums
                )
                found.append((judged, None))
            found.append((None, sums))
        except BaseException as fault:
            found.append((fault, None))

    def test_nothing_that_was_answered_is_lost(self):
        found, threads = [], []
        for first in range(TEAMS):
            threads.append(threading.Thread(target=self.one_thread, args=(first, found)))
            threads[-1].start()
        for thread in threads:
            thread.join()
        for fault, _ in found:
            if isinstance(fault, BaseException):
                raise fault
        judged = [one for one, sums in found if sums is None]
        kills = [kind for _, sums in found if sums is not None for kind in sums]
        self.assertEqual(len(kills), KILLS)
        told = {
            name: sum(getattr(one, name) for one in judged)
            for name in ("accepted", "looks", "unanswered", "undone")
        }
        kinds = ", ".join(f"{kind} {kills.count(kind)}" for kind in sorted(set(kills)))
        print(f"{len(kills)} kills ({kinds}): {told}")
        self.assertGreater(told["accepted"], 5 * KILLS)
        self.assertGreater(told["looks"], KILLS)
        self.assertGreater(told["unanswered"], KILLS)


if __name__ == "__main__":
    unittest.main()
