"""The dialogue in a terminal: its prompt, completion and history, Ctrl-C and Ctrl-D, and how wide
its pictures are.
"""
import fcntl
import importlib.util
import os
import pty
import re
import select
import socket
import struct
import subprocess
import sys
import termios
import time
import unittest

from support import (
    CLIENTS,
    DIALOGUES,
    EXAMPLES,
    InAFolder,
    dialogue_variables,
    needs_program,
    read_vcd,
)

SECONDS = 60  # whatever a terminal is to show comes in this time
LOGIN = '{"ok":"login","session":1,"version":5}'
# takes the terminal of its standard input as its own, and becomes the command. Not `pty.fork`: a
# process that has threads may stand still in the child of a fork
TAKE_TERMINAL = """import fcntl, os, sys, termios
fcntl.ioctl(0, termios.TIOCSCTTY, 0)
os.execv(sys.argv[1], sys.argv[1:])
"""
# a program that takes its time with its second answer: up to when there is a file `go`
SLOW = f"""#!/bin/sh
cd "$(dirname "$0")"
read line; echo '{LOGIN}'
read line; : > begun
while [ ! -e go ]; do sleep 0.05; done
echo '{{"instant":1,"ok":"step","place":2,"version":5}}'
read line; echo '{{"allowed":true,"ok":"check"}}'
cat > /dev/null
"""
# the program that ESTSERVE names, which is handed its input piece by piece
SLOWED = f"""#!{sys.executable}
import os, subprocess, sys, time
child = subprocess.Popen([os.environ["ESTSERVE"], "script"], stdin=subprocess.PIPE)
while piece := os.read(0, 20_000):
    child.stdin.write(piece)
    child.stdin.flush()
    time.sleep(0.3)
child.stdin.close()
sys.exit(child.wait())
"""


def wait_for(path):
    """Waits for a file."""
    end = time.monotonic() + SECONDS
    while not path.exists():
        if time.monotonic() > end:
            raise AssertionError(f"{path.name} never came")
        time.sleep(0.02)


class Terminal:
    """The client in a terminal of a number of columns. Used with `with`."""

    def __init__(self, words, variables, columns=200):
        self.words, self.columns = words, columns
        quiet = {"TERM": "dumb", "PYTHONIOENCODING": "utf-8", "XDG_STATE_HOME": "/dev/null/none"}
        self.variables = {**os.environ, **quiet, **variables}
        self.shown = ""

    def __enter__(self):
        command = [sys.executable, "-B", str(CLIENTS / "estserve.py"), *map(str, self.words)]
        self.screen, terminal = pty.openpty()
        fcntl.ioctl(terminal, termios.TIOCSWINSZ, struct.pack("HHHH", 50, self.columns, 0, 0))
        self.process = subprocess.Popen(
            [sys.executable, "-c", TAKE_TERMINAL, *command],
            stdin=terminal,
            stdout=terminal,
            stderr=terminal,
            env=self.variables,
            start_new_session=True,
        )
        os.close(terminal)
        return self

    def __exit__(self, *_):
        self.process.kill()
        self.process.wait()
        os.close(self.screen)

    def type(self, text):
        os.write(self.screen, text.encode())

    def read(self):
        """What is shown next, without bells."""
        return os.read(self.screen, 65_536).decode().replace("\r\n", "\n").replace("\a", "")

    def sees(self, text):
        """Waits until this text is shown after what was seen so far."""
        end = time.monotonic() + SECONDS
        while text not in self.shown:
            ready = select.select([self.screen], [], [], max(0, end - time.monotonic()))[0]
            if not ready:
                raise AssertionError(f"{text!r} is not shown: {self.shown!r}")
            self.shown += self.read()
        self.shown = self.shown.partition(text)[2]

    def ends(self):
        """What is shown up to the end, and the status."""
        try:
            while True:
                self.shown += self.read()
        except OSError:
            pass
        return self.shown, self.process.wait(SECONDS)


class InATerminal(InAFolder):
    def over(self, path, words, **more):
        return Terminal(words, dialogue_variables(path, self.folder / "faults"), **more)

    @unittest.skipUnless(importlib.util.find_spec("readline"), "this Python has no readline")
    def test_completion_and_history(self):
        with self.over(DIALOGUES / "terminal", ["shell"]) as terminal:
            terminal.sees("root> ")
            terminal.type("addu\tann\n")
            terminal.sees("adduser ann\nann is a user\nroot> ")
            terminal.type("\x1b[A\n")
            terminal.sees("adduser ann\nUserExists: the user ann is there already\nroot> ")
            terminal.type("grant ro\tlo\t1\t5\n")
            terminal.sees("grant root load 15\nroot may load on 15\nroot> ")
            terminal.type(f"load 15 {EXAMPLES}/abro/abro.s\t\n")
            terminal.sees("abro.strl \nABRO runs in slot 15\nroot> ")
            terminal.type("grant root offer \t15.A\n")
            terminal.sees("root may offer on 15.A\nroot> ")
            terminal.type("off\t\tA\t\n")
            terminal.sees("offer 15 A \nA is pending\nroot> ")
            terminal.type("help ste\t\n")
            terminal.sees(
                "step [SLOT]: makes the next instant of what is pending, and shows what came out\n"
            )
            terminal.sees("root> ")
            terminal.type("half a line\x03")
            terminal.sees("root> ")
            terminal.type("logout\n")
            terminal.sees("logged out\n> ")
            terminal.type("\x04")
            self.assertEqual(terminal.ends(), ("\n", 0))
        faults = self.folder / "faults"
        self.assertFalse(faults.exists(), faults.exists() and faults.read_text())

    @unittest.skipUnless(importlib.util.find_spec("readline"), "this Python has no readline")
    def test_lines_are_kept_from_one_shell_to_the_next(self):
        path = self.script("program", f"#!/bin/sh\nread line; echo '{LOGIN}'; cat > /dev/null\n")
        words, state = ["shell", "--program", path], {"XDG_STATE_HOME": str(self.folder / "state")}
        for typed, shown in [("use 3\n", "use 3\n"), ("\x1b[A\x1b[A\n", "use 3\n")]:
            with Terminal(words, state) as terminal:
                terminal.sees("root> ")
                terminal.type(typed)
                terminal.sees(f"{shown}slot 3\nroot 3> ")
                terminal.type("quit\n")
                self.assertEqual(terminal.ends()[1], 0)
        kept = self.folder / "state" / "estserve" / "shell_history"
        self.assertEqual(kept.read_text().splitlines(), ["use 3", "quit", "use 3", "quit"])
        self.assertEqual(kept.stat().st_mode & 0o777, 0o600)

    def test_a_fault_has_colours_in_a_terminal_unless_they_are_refused(self):
        text = self.folder / "m.strl"
        text.write_text("module M: emit end module\n")
        words = ["format", text]
        for variables, is_bold in [
            ({"TERM": "xterm"}, True),
            ({"TERM": "xterm", "NO_COLOR": "1"}, False),
        ]:
            with Terminal(words, variables) as terminal:
                shown, status = terminal.ends()
            self.assertEqual((status, "\x1b[1m" in shown), (1, is_bold))

    def test_a_refusal_is_red_in_a_terminal(self):
        path = self.script("program", f"#!/bin/sh\nread line; echo '{LOGIN}'; cat > /dev/null\n")
        with Terminal(["shell", "--program", path], {"TERM": "xterm"}) as terminal:
            terminal.sees("root> ")
            terminal.type("fly\n")
            terminal.sees("\x1b[31mthere is no command fly: help lists them\x1b[0m")
            terminal.type("quit\n")
            self.assertEqual(terminal.ends()[1], 0)

    def test_ctrl_c_interrupts_a_command_and_not_the_program(self):
        path = self.script("program", SLOW)
        with Terminal(["shell", "--program", path], {}) as terminal:
            terminal.sees("root> ")
            terminal.type("step 0\n")
            wait_for(self.folder / "begun")
            terminal.type("\x03")
            terminal.sees("interrupted; the command may have been carried out\nroot> ")
            (self.folder / "go").touch()
            terminal.type("check step 0\n")
            terminal.sees("yes\nroot> ")
            terminal.type("quit\n")
            self.assertEqual(terminal.ends()[1], 0)

    def test_a_person_is_told_that_the_server_is_waited_for(self):
        path = self.folder / "socket"
        with socket.socket(socket.AF_UNIX) as server:
            server.bind(str(path))
            server.listen()
            with Terminal(["shell", "--socket", path], {}) as terminal:
                terminal.sees("no answer yet: perhaps each worker of the server has a client\n")
                connection, _ = server.accept()
                connection.sendall(LOGIN.encode() + b"\n")
                terminal.sees("session 1 of root, with root; help lists the commands\nroot> ")
                terminal.type("\x04")
                self.assertEqual(terminal.ends(), ("\n", 0))
                connection.close()

    def test_waves_are_as_wide_as_the_terminal(self):
        words = [
            "run",
            EXAMPLES / "abro" / "abro.strl",
            "--inputs",
            EXAMPLES / "abro" / "abro.inputs",
            "--wave",
        ]
        with self.over(EXAMPLES / "abro" / "abro.dialogue", words, columns=33) as terminal:
            shown, status = terminal.ends()
        self.assertEqual(status, 0)
        self.assertEqual(
            [line for line in shown.split("\n") if line.startswith("instant")],
            [
                "instant           1   2   3   4",
                "instant           5   6   7",
            ],
        )
        self.assertTrue(all(len(line) <= 33 for line in shown.split("\n")), shown)

    def test_inputs_from_the_keyboard(self):
        with self.over(
            EXAMPLES / "abro" / "abro.dialogue", ["run", EXAMPLES / "abro" / "abro.strl"]
        ) as terminal:
            terminal.sees("the list of inputs is read from the keyboard, up to Ctrl-D:\n")
            terminal.type((EXAMPLES / "abro" / "abro.inputs").read_text())
            terminal.sees("R A B")
            terminal.type("\x04")
            terminal.sees("instant  inputs  outputs\n")
            shown, status = terminal.ends()
        self.assertEqual(status, 0)
        self.assertEqual(re.findall(r"^ +(\d) .*O$", shown, re.MULTILINE), ["3", "6"])

    def test_an_instant_and_the_slot_in_the_prompt(self):
        answers = [
            LOGIN,
            '{"ok":"offer","place":2,"version":5}',
            '{"instant":1,"ok":"step","place":3,"version":5}',
            '{"instant":1,"ok":"look","signals":[["A",true],["O",false]],"version":5}',
        ]
        lines = "".join(f"read line; echo '{answer}'\n" for answer in answers)
        path = self.script("program", f"#!/bin/sh\n{lines}cat > /dev/null\n")
        with Terminal(["shell", "--program", path], {}) as terminal:
            terminal.sees("root> ")
            terminal.type("use 3\n")
            terminal.sees("slot 3\nroot 3> ")
            terminal.type("A;\n")
            terminal.sees("instant 1: present: A\nroot 3> ")
            terminal.type("fly\n")
            terminal.sees("\nthere is no command fly: help lists them\nroot 3> ")
            terminal.type("quit\n")
            self.assertEqual(terminal.ends()[1], 0)  # a person has seen what was refused

    @needs_program
    def test_a_long_run_shows_how_far_it_is(self):
        inputs, vcd = self.folder / "inputs", self.folder / "out.vcd"
        inputs.write_text("R3\nR1 R3\n" * 10_000)
        words = ["run", EXAMPLES / "arbiter" / "arbiter.strl", "--inputs", inputs, "--vcd", vcd]
        with Terminal([*words, "--program", self.script("program", SLOWED)], {}) as terminal:
            terminal.sees(" of 20,000 instants")
            terminal.sees(" of 20,000 instants")
            terminal.type("\x03")
            terminal.sees("interrupted after ")
            shown, status = terminal.ends()
        self.assertEqual(status, 130)
        self.assertRegex(shown, r"\A[0-9,]+ of 20,000 instants\n\Z")
        number = int(shown.split()[0].replace(",", ""))
        lines = vcd.read_text().splitlines()  # it is whole
        self.assertEqual(lines[-1], f"#{10 * (number + 1)}")
        self.assertEqual(list(read_vcd(lines)["tick"].values()), ["1", "0"] * number)

    @needs_program
    def test_prune_asks(self):
        policy = self.folder / "p.toml"
        policy.write_text('roles = ["guest"]\n')
        for answer, told in (
            ("y", "0 there already, 1 added, on a program of its own"),
            ("", "nothing is changed"),
            ("no", "nothing"),
        ):
            with Terminal(["apply", policy, "--prune"], {}) as terminal:
                terminal.sees("asked for: addrole guest\n")
                terminal.sees("sessions that need it end [y/N] ")
                terminal.type(f"{answer}\n")
                terminal.sees(told)
                self.assertEqual(terminal.ends()[1], 0)


if __name__ == "__main__":
    unittest.main()
