"""After each restart the gateway's world is what its clients were answered: a server alone is
given the same commands, and both are asked the same, byte for byte.

Gateway, server or both are killed at random, or the disk is full for a while, or another process
holds the record, or the gateway is told to end. The variable GATEWAY_RESTARTS says how often;
without it twenty seconds are taken.
"""
import contextlib
import itertools
import json
import os
import pathlib
import signal
import sqlite3
import tempfile
import time
import unittest

import teams
from teams import Server, Talker, Team, line_of, login_line, program_file, random_of
from estserve_team.server import Lost
from test_failures import END_SECONDS, setUpModule, small_disk

RESTARTS = int(os.environ.get("GATEWAY_RESTARTS", "0"))
SECONDS, FEWEST = 20, 6  # where it is not said how often; each kind of fault comes once
OF_A_RECORD = 50  # restarts, after which another team begins: each start replays its whole record
SHOWN = 40  # instants, of which each is asked for after a restart
COMMANDS = 25  # between two restarts, at most
MODULE = "module M: input A, B; output O; loop [ await A || await B ]; emit O; pause end end module"
LOGOUT = line_of(cmd="logout")
PAIRS = [
    (op, f"{slot}{name}")
    for slot in (0, 1)
    for op, names in (
        ("load", [""]),
        ("step", [""]),
        ("offer", [".A", ".B"]),
        ("observe", [".A", ".O"]),
    )
    for name in names
]


class Worlds:
    """The gateway's world, and that of a server alone which was given the same commands."""

    def __init__(self, test, team, model, numbers):
        self.test, self.team, self.numbers = test, team, numbers
        self.model_path, self.talker, self.mirror = model.path, None, None
        self.instants = [0, 0]
        self.compared = 0
        self.last = b""  # the last answer to a command that has an entry

    def begin(self):
        """Logs in to both."""
        self.talker, self.mirror = Talker(self.team.path), Talker(self.model_path)
        self.both(login_line())

    def both(self, line):
        """Asks both, and compares the answers. Raises Lost, where the gateway gives none."""
        told = self.talker.ask(line)
        self.follow(line, told)
        return told

    def follow(self, line, told):
        """Gives the server alone a command that was carried out, and compares its answer."""
        self.test.assertEqual(self.mirror.ask(line), told, line)
        self.compared += 1
        self.last = told if b'"place"' in told or b'"version"' in told else self.last
        request, answer = json.loads(line), json.loads(told)
        if answer.get("ok") == "step":
            self.instants[request["slot"]] = answer["instant"]
        elif answer.get("ok") == "load":
            self.instants[request["slot"]] = 0

    def command(self):
        """Some command."""
        numbers, slot = self.numbers, self.numbers.randrange(2)
        kind = numbers.randrange(12)
        if kind < 4:
            return line_of(cmd="step", slot=slot)
        if kind < 7:
            return line_of(cmd="offer", signal=numbers.choice("AB"), slot=slot)
        if kind < 8:
            return line_of(cmd="discard", slot=slot)
        if kind < 9:
            return numbers.choice(
                [
                    line_of(cmd="unload", slot=slot),
                    line_of(cmd="load", main="M", slot=slot, text=MODULE),
                ]
            )
        op, object = numbers.choice(PAIRS)
        cmd = numbers.choice(["grant", "grant", "revoke"])
        return line_of(cmd=cmd, object=object, op=op, role="root")

    def work(self, count):
        """Some commands. Answers the one that was not answered, if one was not."""
        line = login_line()
        try:
            for _ in range(count):
                line = self.command()
                self.both(line)
        except (Lost, OSError):
            return line
        return None

    def settle(self, line):
        """After a restart: gives the server alone what the record has of the command that was not
        answered, and the logout."""
        self.talker.close()
        entries = self.team.entries()
        self.test.assertEqual(entries[-1].command, "logout")
        last = entries[-2]
        if line is not None and last.request == line and last.reply != self.last:
            self.follow(line, last.reply)
        self.test.assertEqual(self.mirror.ask(LOGOUT), entries[-1].reply)
        self.mirror.close()

    def probe(self):
        """Asks both what there is to see."""
        for slot in (0, 1):
            newest = self.instants[slot] + 1
            for instant in range(max(1, newest - SHOWN), newest + 1):
                self.both(line_of(cmd="look", instant=instant, slot=slot))
        for op, object in PAIRS:
            self.both(line_of(cmd="check", object=object, op=op))


def faults_of(numbers, disk):
    """Faults at random, of which each kind comes as often as the others."""
    while True:
        kinds = ["gateway", "server", "both", "end", "lock", *["disk"] * bool(disk)]
        numbers.shuffle(kinds)
        yield from kinds


class Restarts(unittest.TestCase):
    def test_each_restart_is_what_was_answered(self):
        numbers, until = random_of("restarts"), time.monotonic() + SECONDS
        self.kinds, compared = [], 0
        while self.goes_on(until):
            compared += self.of_a_record(numbers, until)
        told = (f"{kind} {self.kinds.count(kind)}" for kind in sorted(set(self.kinds)))
        print(f"{len(self.kinds)} restarts ({', '.join(told)}): {compared} answers compared")

    def of_a_record(self, numbers, until):
        """The restarts of one team. Answers how many answers were compared."""
        with tempfile.TemporaryDirectory(
            prefix="gateway-"
        ) as folder, contextlib.ExitStack() as held:
            disk = held.enter_context(small_disk()) if os.geteuid() == 0 else None
            state = (disk or pathlib.Path(folder)) / "team"
            model = held.enter_context(Server(program_file(), pathlib.Path(folder) / "model"))
            team = held.enter_context(Team(state=state))
            worlds = Worlds(self, team, model, numbers)
            worlds.begin()
            for op, object in PAIRS:
                worlds.both(line_of(cmd="grant", object=object, op=op, role="root"))
            for kind in itertools.islice(faults_of(numbers, disk), OF_A_RECORD):
                if not self.goes_on(until):
                    break
                self.once(kind, team, worlds, disk)
                self.kinds.append(kind)
            worlds.talker.close(), worlds.mirror.close()
            self.assertEqual(team.end(), 0, team.told())
            return worlds.compared

    def goes_on(self, until):
        """Whether there is to be another restart."""
        done = len(self.kinds)
        return done < (RESTARTS or FEWEST) or (not RESTARTS and time.monotonic() < until)

    def once(self, kind, team, worlds, disk):
        """One fault at some moment, the restart, and the comparison."""
        self.assertIsNone(worlds.work(worlds.numbers.randrange(COMMANDS)))
        line = self.strike(kind, team, worlds, disk)
        if team.process.poll() is not None:
            team.wait()
            team.start()
        teams.wait_for(lambda: self.is_back(team), END_SECONDS)
        worlds.settle(line)
        worlds.begin()
        worlds.probe()

    def strike(self, kind, team, worlds, disk):
        """Makes the fault, with a command under way. Answers the command that was not answered."""
        server, line = team.server(), worlds.command()
        if kind == "disk":
            return self.fill(team, worlds, disk)
        if kind == "lock":
            return self.lock(team, worlds)
        worlds.talker._socket.sendall(line + b"\n")
        time.sleep(worlds.numbers.choice([0, 0, 0.001, 0.005]))
        if kind in ("server", "both"):
            os.kill(server, signal.SIGKILL)
        if kind in ("gateway", "both"):
            team.process.kill()
        if kind == "end":
            team.process.terminate()
        if kind != "server":
            team.process.wait(teams.WAIT_SECONDS)
        try:
            told = self.last_of(worlds.talker)
        except (Lost, OSError):
            told = b""
        if told:
            worlds.follow(line, told)
            return None
        return line

    @staticmethod
    def last_of(talker):
        """The answer that came before the connection ended, if one did."""
        while b"\n" not in talker._held:
            talker._held += talker._receive()
        answer, _, talker._held = talker._held.partition(b"\n")
        return answer

    def fill(self, team, worlds, disk):
        """Fills the disk until a command is not answered, and empties it again."""
        filler = disk / "filler"
        with open(filler, "ab", buffering=0) as file, contextlib.suppress(OSError):
            while file.write(b"x" * 4_096) == 4_096:
                pass
        line = worlds.work(400)
        if line is None:  # there was room still
            filler.unlink()
            os.kill(team.server(), signal.SIGKILL)
            return worlds.work(3)
        time.sleep(0.5)
        filler.unlink()
        with contextlib.suppress(Exception):
            team.process.wait(0.5)
        return line

    @staticmethod
    def lock(team, worlds):
        """Holds the record until a command is not answered, and lets it go again."""
        with contextlib.closing(sqlite3.connect(team.record, isolation_level=None)) as database:
            database.execute("BEGIN IMMEDIATE")
            return worlds.work(400)

    @staticmethod
    def is_back(team):
        """Whether the gateway serves again, with nobody logged in."""
        with contextlib.suppress(Exception), team.words() as words:
            if not words.word("health")["ready"] or words.word("who")["holders"]:
                return False
            return team.entries()[-1].command == "logout"
        if team.process.poll() is not None:
            team.wait()
            team.start()
        return False


if __name__ == "__main__":
    unittest.main()
