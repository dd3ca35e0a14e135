"""How the gateway ends, and what it does where the server or the record fails it."""
import contextlib
import json
import os
import pathlib
import signal
import sqlite3
import subprocess
import tempfile
import threading
import time
import unittest

import teams
from running import sockets_of
from teams import Team, line_of, login_line
from estserve_client.connection import Disconnected

STEP = line_of(cmd="check", object="0", op="step")


class Ended(unittest.TestCase):
    def ended_by(self, number):
        with Team() as team:
            talkers = [team.talker() for _ in range(6)]
            for talker in talkers[:4]:
                talker.ask(login_line())
            words = team.words()
            self.assertEqual(words.word("login", user="root", roles=["root"])["session"], 5)
            children = teams.processes_of(team.state)
            self.assertEqual(team.end(number), 0)
            self.assertEqual(
                [entry.command for entry in team.entries()], ["login"] * 5 + ["logout"] * 5
            )
            self.assertEqual({path.name for path in team.state.iterdir()}, {"private"})
            self.assertFalse(any(map(teams.is_running, children)))
            for talker in (*talkers, words):
                self.assertEqual(talker._socket.recv(1), b"")
                talker.close()

    def test_sigterm_logs_all_out_and_leaves_nothing_behind(self):
        self.ended_by(signal.SIGTERM)

    def test_sigint_too(self):
        self.ended_by(signal.SIGINT)

    def test_under_load_what_was_answered_is_recorded(self):
        with Team() as team:
            told = [[] for _ in range(4)]

            def load(name, answers):
                try:
                    with team.root() as client:
                        while True:
                            answers.append(client.grant("root", "offer", name))
                            answers.append(client.revoke("root", "offer", name))
                except Disconnected:
                    pass

            threads = [
                threading.Thread(target=load, args=(f"{at}.S", answers))
                for at, answers in enumerate(told)
            ]
            for thread in threads:
                thread.start()
            teams.wait_for(lambda: all(len(answers) > 5 for answers in told))
            self.assertEqual(team.end(), 0)
            for thread in threads:
                thread.join()
            entries = {entry.version: entry for entry in team.entries()}
            for answer in (answer for answers in told for answer in answers):
                self.assertEqual(json.loads(entries[answer["version"]].reply), answer)
            self.assertEqual(
                {entry.session for entry in entries.values() if entry.command == "logout"},
                {1, 2, 3, 4},
            )
            self.assertEqual(entries[max(entries)].command, "logout")

    def test_a_server_that_is_killed_just_before_leaves_no_logout_out(self):
        numbers = teams.random_of("ends")
        for _ in range(6):
            with Team() as team, team.root() as client, team.talker() as talker:
                client.addrole("driver")
                os.kill(team.server(), signal.SIGKILL)
                time.sleep(numbers.choice([0, 0.001, 0.01, 0.05]))
                talker._socket.sendall(login_line() + b"\n")
                time.sleep(numbers.choice([0, 0.001, 0.01]))
                self.assertEqual(team.end(), 0, team.told())
                commands = [entry.command for entry in team.entries()]
                self.assertIn(
                    commands,
                    (
                        ["login", "addrole", "logout"],
                        ["login", "addrole", "logout", "login", "logout"],
                    ),
                )

    def test_a_start_that_is_ended(self):
        with Team() as team:
            with team.root() as client:
                client.addrole("driver")
            team.end(signal.SIGKILL)
            again = Team(state=team.state)
            again.launch()
            teams.wait_for(lambda: teams.processes_of(team.state))
            self.assertIn(again.end(), (0, -signal.SIGTERM))
            again._held.cleanup()
            with Team(state=team.state):
                self.assertEqual(
                    [entry.command for entry in team.entries()], ["login", "addrole", "logout"]
                )


SPOILED = """#!/usr/bin/env python3
import os, subprocess, sys
program = {program!r}
if sys.argv[1:] != ["script"]:
    os.execv(program, [program, *sys.argv[1:]])
for line in sys.stdin.buffer:
    if b"spoiled" in line:
        sys.exit(1)
    told = subprocess.run([program, "script"], input=line, stdout=subprocess.PIPE).stdout
    sys.stdout.buffer.write(told)
    sys.stdout.buffer.flush()
"""


class SecondChildLost(unittest.TestCase):
    def child(self, team):
        """The id of the second child, once one runs."""
        return teams.wait_for(
            lambda: next(
                (
                    process
                    for process in teams.children_of(team.process.pid)
                    if teams.command_of(process).endswith(b"script\0")
                ),
                None,
            )
        )

    def test_it_is_begun_anew_however_often_it_is_killed(self):
        with Team() as team, team.talker() as idle, team.root() as client:
            for _ in range(5):
                child = self.child(team)
                os.kill(child, signal.SIGKILL)
                teams.wait_for(lambda: child not in teams.children_of(team.process.pid))
            self.assertEqual(idle.ask(STEP), b'{"code":4,"fault":"NoSession"}')
            self.assertEqual(client.addrole("one")["ok"], "addrole")
            self.assertEqual(team.end(), 0)
            self.assertIn("the second child has ended", team.told())

    def test_a_line_that_ends_it_three_times_is_given_up(self):
        with tempfile.TemporaryDirectory(prefix="gateway-") as folder:
            path = pathlib.Path(folder) / "program"
            path.write_text(SPOILED.format(program=teams.program_file()))
            path.chmod(0o755)
            with Team(program=str(path)) as team, team.talker() as idle, team.root() as client:
                answers = idle.ask_all([STEP, b"spoiled", STEP])
                self.assertEqual([json.loads(one)["code"] for one in answers], [4, 1013, 4])
                self.assertEqual(client.addrole("one")["ok"], "addrole")


class ServerLost(unittest.TestCase):
    def test_it_is_begun_anew_and_clients_without_a_login_stay(self):
        with Team() as team, team.root() as client, team.talker() as idle, team.words() as words:
            words.word("login", user="root", roles=[])
            client.addrole("driver")
            idle.ask(STEP)
            os.kill(team.server(), signal.SIGKILL)
            with self.assertRaises(Disconnected):
                for _ in range(2):
                    client.check("step", "0")
            self.assertEqual(idle.ask(STEP), b'{"code":4,"fault":"NoSession"}')
            self.assertEqual(json.loads(idle.ask(login_line("root", ["driver"])))["code"], 21)
            self.assertEqual(json.loads(idle.ask(login_line()))["version"], 10)
            self.assertEqual(words.word("ping")["person"], teams.ME)
            self.assertEqual(
                [entry.command for entry in team.entries()],
                ["login", "login", "addrole", "logout", "logout", "login"],
            )

    def test_with_nobody_logged_in_it_is_noticed_too(self):
        with Team() as team, team.talker() as talker:
            server = team.server()
            os.kill(server, signal.SIGKILL)
            teams.wait_for(lambda: not teams.is_running(server))
            self.assertEqual(talker.ask(login_line()), b'{"ok":"login","session":1,"version":5}')
            teams.wait_for(lambda: team.server() != server)

    def test_logins_that_it_takes_and_does_not_answer_are_answered_by_the_next_one(self):
        """It stands still, and takes connections, as one does whose first thread has ended and
        whose others are about to."""
        with Team() as team, contextlib.ExitStack() as held:
            talkers = [held.enter_context(team.talker()) for _ in range(3)]
            for talker in talkers:
                talker.ask(STEP)
            server, count = team.server(), len(sockets_of(team.process.pid))
            teams.hold(server)
            for talker in talkers:
                talker._socket.sendall(login_line() + b"\n")
            teams.wait_for(lambda: len(sockets_of(team.process.pid)) == count + len(talkers))
            os.kill(server, signal.SIGKILL)
            told = [talker._receive() for talker in talkers]
            self.assertEqual(
                sorted(told),
                [b'{"ok":"login","session":%d,"version":%d}\n' % (at, at + 4) for at in (1, 2, 3)],
            )
            self.assertEqual([entry.command for entry in team.entries()], ["login"] * 3)

    def test_the_second_child_is_begun_anew(self):
        with Team() as team, team.talker() as talker:
            talker.ask(b"x")
            for _ in range(5):
                second = next(
                    process
                    for process in teams.processes_of(team.state)
                    if process != team.server()
                )
                os.kill(second, signal.SIGKILL)
                self.assertEqual(talker.ask(b"x"), b'{"code":2,"fault":"NotJson"}')
            self.assertEqual(json.loads(talker.ask(login_line()))["session"], 1)


class RecordFails(unittest.TestCase):
    def test_what_was_answered_while_the_record_is_locked_is_kept(self):
        with Team() as team, team.root() as client:
            client.addrole("one")
            other = sqlite3.connect(team.record, isolation_level=None)
            other.execute("BEGIN IMMEDIATE")
            answered = []
            with self.assertRaises(Disconnected):
                for at in range(1_000):
                    client.grant("root", "offer", f"{at % 16}.S{at // 16}")
                    answered.append(at)
                    time.sleep(0.05)
            other.execute("ROLLBACK")
            other.close()
            with contextlib.suppress(subprocess.TimeoutExpired):
                self.assertEqual(team.process.wait(2), 1)
                self.assertIn("the record cannot be written", team.told())
            with Team(state=team.state) if team.process.poll() is not None else team.root():
                granted = [entry.command for entry in team.entries()].count("grant")
                self.assertIn(granted - len(answered), (0, 1))


def memory_of(process):
    """The kilobytes that a process has in memory."""
    with open(f"/proc/{process}/status") as status:
        return int(next(line for line in status if line.startswith("VmRSS")).split()[1])


class Slow(unittest.TestCase):
    def test_a_client_that_reads_nothing_holds_up_nobody(self):
        with Team() as team, team.root() as client, team.talker() as slow:
            client.grant("root", "step", "0")
            slow._socket.settimeout(0.2)
            slow._socket.sendall(login_line() + b"\n")
            sent = 0
            try:
                while sent < 60_000:
                    slow._socket.sendall(
                        (line_of(cmd="check", object="0", op="step") + b"\n") * 500
                    )
                    sent += 500
            except OSError:
                pass
            began = time.monotonic()
            for _ in range(10):
                self.assertTrue(client.check("step", "0")["allowed"])
            self.assertLess(time.monotonic() - began, 20)
            self.assertLess(memory_of(team.process.pid), 200_000)


if __name__ == "__main__":
    unittest.main()
