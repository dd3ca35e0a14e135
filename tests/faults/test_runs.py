"""Each growth of memory of a whole run, refused in turn: of `script` with its report, and of a server's start and end."""
import collections
import contextlib
import subprocess
import unittest

from refusing import Growths
from peers import LOGIN, STORED, Peer, Server, accepted, command, refused, report
from running import WAIT_SECONDS, program
from replay import Histories, Replay

MEMORY = refused(90)
NO_MEMORY = b"estserve: no memory\n"
SCRIPT = (STORED / "stdin").read_bytes()
LINES = SCRIPT.splitlines(keepends=True)
LOGGED_IN = accepted("login", session=1, version=5)
REPORT = report(10, "slot 0: 4 entries, 1 loads, 3 instants")
WORKERS = 3
ALL = 1 << 40  # growths that are refused in a row: every one from then on
AGAIN = 40  # growths that are refused in a row, of a logout that is asked again
ENTRIES = 12  # a policy list is full at some length below


class ScriptWithReport(unittest.TestCase):
    def read(self, answers):
        """A reading of these answers, some of them want of memory."""
        histories = Histories()
        replay = Replay(histories)
        for line, answer in zip(LINES, answers):
            if answer != MEMORY:
                replay.take(line.rstrip(b"\n"), answer)
        replay.end()
        self.assertEqual(histories.faults, [])
        return histories

    def one_run(self, words, growths):
        """How a run ended in which one growth was refused."""
        ran = subprocess.run(words, input=SCRIPT, capture_output=True, env=growths.environment, timeout=WAIT_SECONDS)
        told = ran.stdout.splitlines(keepends=True)
        histories = self.read(told[: len(LINES)])
        report = histories.report().encode().splitlines(keepends=True)
        if ran.returncode == 0:
            self.assertEqual((told[len(LINES) :], ran.stderr), (report, b""))
            return "answered Memory" if MEMORY in told else "passed over"
        self.assertEqual((ran.returncode, ran.stderr), (1, NO_MEMORY))
        self.assertNotIn(MEMORY, told)
        self.assertLessEqual(len(told), len(LINES))
        return "no report" if len(told) == len(LINES) else "no answer any more" if told else "nothing served"

    def test_each_growth_of_a_run(self):
        words, ends = [*program(), "script", "--report"], collections.Counter()
        with Growths(program()[-1]) as growths:
            while True:
                growths.refuse(sum(ends.values()) + 1)
                end = self.one_run(words, growths)
                if growths.refused == 0:
                    break
                ends[end] += 1
        print(f"faults: script --report: {sum(ends.values())} growths refused in turn: {dict(ends)}")
        for end in ("nothing served", "answered Memory", "no answer any more", "no report"):
            self.assertGreater(ends[end], 0, end)


class Servers(unittest.TestCase):
    def setUp(self):
        self.growths = self.enterContext(Growths(program()[-1]))

    def serving(self, workers, connections=1):
        words = "--workers", str(workers), "--connections", str(connections)
        return Server(*words, environment=self.growths.environment)

    def login(self, server):
        """What a new client is answered at its login; nothing where there is no server, or its connection is ended."""
        with contextlib.suppress(OSError), Peer(server.path) as peer:
            return peer.ask(LOGIN)
        return b""

    def start(self, number):
        """What became of a server at whose start, or first connection, this growth was refused; None where it took fewer."""
        self.growths.refuse(number)
        with self.serving(WORKERS) as server:
            first = self.login(server)
            if self.growths.refused == 0:
                self.assertEqual(first, LOGGED_IN)
                return None
            if first:
                self.assertIn(first, (LOGGED_IN, MEMORY))
                return "a login refused" if first == MEMORY else "passed over"
            if self.login(server):
                return "a connection ended"
            self.assertEqual(server.end(), (1, b"", NO_MEMORY))
            self.assertFalse(server.path.exists())
            return "no server"

    def test_each_growth_of_a_start(self):
        ends, number = collections.Counter(), 1
        while end := self.start(number):
            ends[end] += 1
            number += 1
        print(f"faults: a server's start and its first login: {ends.total()} growths refused in turn: {dict(ends)}")
        for end in ("no server", "a connection ended", "a login refused"):
            self.assertGreater(ends[end], 0, end)

    def ended(self, lines, first, count=1):
        """The end of a server to which these lines were said, with this many growths refused after them."""
        self.growths.refuse(0)
        with self.serving(1) as server, Peer(server.path) as peer:
            for line in lines:
                self.assertIn(b'"ok"', peer.ask(line))
            self.growths.refuse(first, count)
            self.assertEqual(peer.rest(), b"")
            return server.end()

    def test_every_growth_from_one_of_a_load_on(self):
        """Want of memory is told without memory: each line is answered so, and the connection goes on. It ends where a load is done
        and the text of its answer finds no memory."""
        self.growths.refuse(0)
        *before, load = LINES[:6]
        number = 1
        with self.serving(1, connections=2) as server, Peer(server.path) as peer:
            for line in before:
                self.assertIn(b'"ok"', peer.ask(line))
            while True:
                self.growths.refuse(number, ALL)
                answer = peer.ask(load)
                if answer != MEMORY:
                    break
                self.assertEqual([peer.ask(line) for line in (LOGIN, load, load)], [MEMORY] * 3)
                number += 1
            self.growths.refuse(0)
            self.assertEqual(answer, b"")
            with Peer(server.path) as last:
                self.assertEqual(last.rest(), b"")
            self.assertEqual(server.end(), (0, report(10, "slot 0: 1 entries, 1 loads, 0 instants"), b""))
        print(f"faults: every growth refused from one of {number - 1} of a load on: four lines answered each time")
        self.assertGreater(number, 10)

    def test_each_growth_of_an_end(self):
        number, passed = 1, 0
        while True:
            ended = self.ended(LINES[:-1], number)
            if self.growths.refused == 0:
                break
            number += 1
            if ended == (0, REPORT, b""):
                passed += 1
            else:
                self.assertEqual(ended, (1, b"", NO_MEMORY))
        self.assertEqual(ended, (0, REPORT, b""))
        print(f"faults: a server's end: {number - 1} growths refused in turn: {number - 1 - passed} no report, {passed} passed over")
        self.assertGreater(number - 1, passed)

    def test_a_logout_at_the_end_is_asked_again(self):
        """Where the policy list is full, the logout has it grow; else the first growth is one of the end."""
        asked_again = 0
        for count in range(ENTRIES):
            grants = [command("grant", object=f"0.A{at}", op="observe", role="root") for at in range(count)]
            ended = self.ended([LOGIN, *grants], 1, AGAIN)
            if ended == (0, report(6 + count), b""):
                self.assertEqual(self.growths.refused, AGAIN)
                asked_again += 1
            else:
                self.assertEqual(ended, (1, b"", NO_MEMORY))
        print(f"faults: {asked_again} logouts at the end of a connection, each refused memory {AGAIN} times, and then done")
        self.assertGreater(asked_again, 0)


if __name__ == "__main__":
    unittest.main()
