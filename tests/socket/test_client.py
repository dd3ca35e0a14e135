"""The client beside others at one server: the shell and its `watch`, `apply`, the library."""
import queue
import signal
import subprocess
import sys
import threading
import unittest

from running import ROOT, WAIT_SECONDS, Server

import estserve

TEAM = ROOT / "examples" / "team"
TEXT = (TEAM / "team.strl").read_text()
CLIENT = [sys.executable, "-B", "clients/estserve.py"]


def run(*words, typed=""):
    """Runs the client to its end: its status, and the lines that it printed and told."""
    ran = subprocess.run(
        [*CLIENT, *map(str, words)], cwd=ROOT, input=typed, capture_output=True, text=True, timeout=WAIT_SECONDS
    )
    return ran.returncode, ran.stdout.splitlines(), ran.stderr.splitlines()


class Shell:
    """A shell at a server, into which lines are typed, and whose lines are read as they come. Used with `with`."""

    def __init__(self, server, *words):
        pipe = subprocess.PIPE
        command = [*CLIENT, "shell", "--socket", str(server.path), *words]
        self.process = subprocess.Popen(command, cwd=ROOT, stdin=pipe, stdout=pipe, stderr=pipe, text=True)
        self.printed, self.told = queue.Queue(), queue.Queue()
        for stream, lines in ((self.process.stdout, self.printed), (self.process.stderr, self.told)):
            threading.Thread(target=lambda stream=stream, lines=lines: [*map(lines.put, stream)], daemon=True).start()

    def __enter__(self):
        return self

    def __exit__(self, *_):
        if self.process.poll() is None:
            self.process.kill()
        self.process.wait()
        for stream in (self.process.stdin, self.process.stdout, self.process.stderr):
            try:
                stream.close()
            except BrokenPipeError:
                pass

    def type(self, line):
        self.process.stdin.write(line + "\n")
        self.process.stdin.flush()

    def line(self):
        """The next line that it prints."""
        return self.printed.get(timeout=WAIT_SECONDS).rstrip("\n")

    def says(self):
        """The next line that it tells on standard error."""
        return self.told.get(timeout=WAIT_SECONDS).rstrip("\n")

    def interrupt(self):
        self.process.send_signal(signal.SIGINT)

    def status(self):
        return self.process.wait(timeout=WAIT_SECONDS)


def apply_team(server):
    """Makes the team of the examples."""
    assert run("apply", TEAM / "team.toml", "--socket", server.path)[0] == 0


class AtOneServer(unittest.TestCase):
    def test_a_watcher_sees_instants_as_they_come(self):
        with Server() as server, server.client() as cho:
            apply_team(server)
            with server.root() as root:
                root.load(0, "TEAM", TEXT)
                cho.login("cho", ["stepper"])
                with Shell(server, "--user", "bob", "--role", "watcher") as bob:
                    self.assertIn("of bob, with watcher", bob.line())
                    bob.type(f"module 0 {TEAM / 'team.strl'}")
                    self.assertEqual(bob.line(), "TEAM: inputs A B R, outputs O")
                    bob.type("watch 0")
                    self.assertEqual(bob.line(), "instant  inputs  outputs")
                    with server.client() as ann:
                        ann.login("ann", ["lead"])
                        cho.step(0)
                        self.assertEqual(bob.line(), "      1  . .")
                        ann.offer(0, "A")
                        ann.offer(0, "B")
                        cho.step(0)
                        self.assertEqual(bob.line(), "      2  A . .   O")
                    root.unload(0)
                    self.assertEqual(bob.line(), "line 2: Empty: the slot is empty: load a module first")
                    root.load(0, "TEAM", TEXT)
                    bob.type("watch 0")
                    self.assertEqual(bob.line(), "instant  inputs  outputs")
                    bob.interrupt()
                    self.assertEqual(bob.line(), "")
                    bob.type("quit")
                    self.assertEqual(bob.status(), 1)  # since line 2 was refused

    def test_one_who_does_not_know_the_module_sees_its_signals(self):
        with Server() as server:
            apply_team(server)
            typed = f"load 0 {TEAM / 'team.strl'}\n"
            self.assertEqual(run("shell", "--socket", server.path, typed=typed)[1][1:], ["TEAM runs in slot 0"])
            words = ["shell", "--socket", server.path, "--user"]
            self.assertEqual(run(*words, "cho", "--role", "stepper", typed="step 0\nshow 0\n")[1][1:], [
                "instant 1", "1 instant: nothing that you may observe",
            ])
            self.assertEqual(run(*words, "ann", "--role", "driver", "watcher", typed="offer 0 A\n")[1], [
                "session 4 of ann, with driver watcher; help lists the commands", "A is pending",
            ])
            self.assertEqual(run(*words, "cho", "--role", "stepper", typed="step 0\n")[1][1:], ["instant 2"])
            self.assertEqual(run(*words, "bob", "--role", "watcher", typed="show 0\nwave 0\n")[1][1:], [
                "instant  signals",
                "      1",
                "      2  A",
                "instant           1   2",
                "A        signal _____/‾\\",
                "O        signal ________",
            ])

    def test_an_instant_is_watched_that_comes_after_an_unwatched_load(self):
        with Server() as server, server.root() as root:
            apply_team(server)
            root.grant("root", "step", "0")
            root.load(0, "TEAM", TEXT)
            for _ in range(2):
                root.step(0)
            with Shell(server, "--user", "bob", "--role", "watcher") as bob:
                bob.type("watch 0")
                self.assertEqual([bob.line() for _ in range(4)][1:], ["instant  signals", "      1", "      2"])
                root.ask_all([{"cmd": "unload", "slot": 0}, {"cmd": "load", "slot": 0, "main": "TEAM", "text": TEXT}])
                self.assertIn(bob.line(), ("slot 0 was loaded anew", "line 1: Empty: the slot is empty: load a module first"))

    def test_a_server_that_is_killed(self):
        with Server() as server, Shell(server) as root:
            root.type("grant root load 0")
            self.assertEqual([root.line() for _ in range(2)][1:], ["root may load on 0"])
            server.process.kill()
            server.process.wait()
            root.type("grant root step 0")
            self.assertEqual(root.says(), "estserve.py: the server has gone away")
            self.assertEqual(root.status(), 1)
            self.assertTrue(root.printed.empty() and root.told.empty())
            status, printed, told = run("shell", "--socket", server.path)
            self.assertEqual((status, printed), (1, []))
            self.assertEqual(told, [f"estserve.py: no server answers at {server.path}: Connection refused"])

    def test_an_end_logs_out(self):
        with Server("--workers", "1") as server:
            for number in (1, 2):
                status, printed, told = run("shell", "--socket", server.path, typed="quit\n" if number == 1 else "")
                self.assertEqual((status, told), (0, []))
                self.assertIn(f"session {number} of root", printed[0])
            with server.client() as client:
                self.assertEqual(client.login("root", ["root"])["version"], 4 + 2 * 2 + 1)


class Policies(unittest.TestCase):
    def test_what_was_there_already_and_what_is_refused_is_told_with_its_line(self):
        path = TEAM / "team.toml"
        with Server() as server:
            words = ["apply", path, "--socket", server.path]
            self.assertEqual(run(*words), (0, ["0 there already, 22 added"], []))
            status, printed, told = run(*words)
            self.assertEqual((status, printed), (0, ["22 there already, 0 added"]))
            warning = "a set drive_and_step is there already, and the server doesn't tell its roles: if they have changed, `undsd drive_and_step` first"
            self.assertEqual(told, [f"{path}:9: warning: {warning}"])
            status, printed, told = run(*words, "--user", "ann", "--role", "lead")
            self.assertEqual((status, printed), (1, []))
            self.assertEqual(told, [
                f"{path}:3: addrole driver: Permission: needs administer on policy",
                "estserve.py: a command was refused; 21 after it were not sent; 0 of 0 that were made are taken back",
            ])


class Library(unittest.TestCase):
    def test_as_the_documents_have_it(self):
        with Server() as server:
            with estserve.connect(server.path) as c:
                c.login("root", ["root"])
                c.grant("root", "load", "0")
                c.load(0, "TEAM", TEXT)
                with self.assertRaises(estserve.Refusal) as raised:
                    c.step(slot=0)
                refusal = raised.exception
                self.assertEqual((refusal.code, refusal.name), (10, "Permission"))
                self.assertEqual(refusal.fields, {"object": "0", "op": "step"})
                self.assertEqual(estserve.sentence(refusal), "Permission: needs step on 0")
                with self.assertRaises(estserve.TooLong):
                    c.load(1, "M", "%" * 65_536)
                with self.assertRaises(TypeError):
                    c.login("root", "root")
                self.assertEqual(c.audit(0) if c.grant("root", "audit", "policy") else None, {
                    "entries": 1, "instants": 0, "ok": "audit", "version": 7,
                })


if __name__ == "__main__":
    unittest.main()
