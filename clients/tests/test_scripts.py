"""The shell over the real program: instants, slots, scripts with comments and statuses, help; and a
connection that ends.
"""
import io
import json
import os
import pathlib
import re
import socket
import subprocess
import sys
import tempfile
import threading
import unittest

from support import CLIENTS, EXAMPLES, InAFolder, needs_program, run_client, serve

import estserve
from estserve_client.shell import Shell
from estserve_client.shell_words import PLAIN, without_comment

ABRO = EXAMPLES / "abro" / "abro.strl"
GRANTS = "".join(f"grant root {op} 0\n" for op in ("load", "step"))
GRANTS += "".join(
    f"grant root {op} 0.{name}\n" for op, name in [("offer", "A"), ("offer", "B"), ("observe", "O")]
)


@needs_program
class Scripts(unittest.TestCase):
    def run_script(self, typed, *words):
        """The status of a script, and its lines after those that grant and load."""
        ran = run_client(["shell", *words], GRANTS + f"load {ABRO}\n" + typed)
        self.assertEqual(ran.told, "")
        return ran.status, ran.printed.splitlines()[7:]

    def test_a_line_of_signals_is_an_instant(self):
        status, lines = self.run_script(";\nA;\nB;\nA; B ; A B;;\nlook 3\nshow\n")
        self.assertEqual(
            (status, lines[:8]),
            (
                0,
                [
                    "instant 1: no output",
                    "instant 2: no output",
                    "instant 3: O",
                    "instant 4: no output",
                    "instant 5: no output",
                    "instant 6: no output",
                    "instant 7: no output",
                    "O",
                ],
            ),
        )
        self.assertEqual(lines[8], "instant  inputs  outputs")

    def test_offers_of_an_instant_that_is_refused_stay_pending(self):
        status, lines = self.run_script(";\nA R B;\nB;\n")
        self.assertEqual(
            lines,
            [
                "instant 1: no output",
                "line 8: R: Permission: needs offer on 0.R; A stays pending: discard takes that away",
                "instant 2: O",
            ],
        )
        self.assertEqual(status, 1)
        self.assertEqual(self.run_script("offer A\n;\nA;A\n")[0], 0)

    def test_who_may_not_step_is_not_told_to_discard(self):
        status, lines = self.run_script("revoke root step 0\nA;\ndiscard\n")
        told = "Permission: needs step on 0"
        wanted = [f"line 8: {told}; A stays pending", f"line 9: {told}"]
        self.assertEqual((status, lines[1:]), (1, wanted))

    def test_the_slot_of_use(self):
        grants = (
            "".join(f"grant root {op} 3\n" for op in ("load", "step")) + "grant root offer 3.A\n"
        )
        status, lines = self.run_script(
            f"{grants}use 3\n;\nload {ABRO}\nA;\nstep\nuse 0\nstep\nuse\n"
        )
        self.assertEqual(
            (status, lines[3:]),
            (
                1,
                [
                    "slot 3",
                    "line 11: Empty: the slot is empty: load a module first (slot 3; `use` names another)",
                    "ABRO runs in slot 3",
                    "instant 1",
                    "instant 2",
                    "slot 0",
                    "instant 1: no output",
                    "line 17: expected: SLOT, from 0 to 15",
                ],
            ),
        )

    def test_pictures_of_what_may_not_be_observed_say_so(self):
        script = f"grant root load 3\ngrant root step 3\nload 3 {ABRO}\nstep 3\n"
        status, lines = self.run_script(f"{script}show 3\nmodule 3 {EXAMPLES}/team/team.strl\n")
        self.assertEqual((status, lines[3:5]), (0, ["instant 1", "instant  inputs  outputs"]))
        with tempfile.TemporaryDirectory() as name:
            path = pathlib.Path(name) / "m.strl"
            path.write_text("module M: pause end module\n")
            status, lines = self.run_script(
                f"grant root load 4\ngrant root step 4\nload 4 {path}\n" "step 4\nshow 4\nwave 4\n"
            )
        self.assertEqual(lines[4:], ["1 instant: nothing that you may observe"] * 2)

    def test_comments_and_the_lines_of_what_is_refused(self):
        status, lines = self.run_script(
            "# a remark\n\n  % another\nstep 0 % the first\nfly\n# a line\nstep 9 # none\nA B; % both\n"
        )
        self.assertEqual(
            (status, lines),
            (
                1,
                [
                    "instant 1: no output",
                    "line 11: there is no command fly: help lists them",
                    "line 13: Permission: needs step on 9",
                    "instant 2: O",
                ],
            ),
        )
        self.assertEqual(without_comment("load 0 a#b%c.strl"), "load 0 a#b%c.strl")

    def test_a_script_that_stops(self):
        status, lines = self.run_script("step 9\nstep 0\n", "--stop")
        self.assertEqual((status, lines), (1, ["line 7: Permission: needs step on 9"]))

    def test_a_stuck_instant_and_a_text_that_is_refused(self):
        with tempfile.TemporaryDirectory() as name:
            path = pathlib.Path(name) / "m.strl"
            path.write_text("module M: output O;\nemit Q end module\n")
            status, lines = self.run_script(
                f"unload\nload {path}\nload {EXAMPLES}/paradox/paradox.strl\n;\nuse 1\nuse 0\n"
            )
        self.assertEqual(
            lines[1:6],
            [
                f"{path}:2:6: UnknownName: the name Q is not visible there: M sees no signal Q here",
                "emit Q end module",
                "     ^",
                "line 8: the module text is refused",
                "PARADOX runs in slot 0",
            ],
        )

    def test_a_grant_for_each_signal_of_a_text(self):
        typed = "grant root observe 1.*\ngrant root observe 0.*\ngrant root offer 0.*\n"
        typed += "grant root offer 0.X*\n;\nlook 1\nrevoke root observe 0.*\nlook 1\n"
        status, lines = self.run_script(typed)
        wanted = [
            "line 7: the text of slot 1 isn't known here: `module 1 FILE` tells it",
            "root may observe on 0.A 0.B 0.R 0.O",
            "root may offer on 0.A 0.B 0.R",
            "line 10: ABRO has no signal that 0.X* fits",
            "instant 1: no output",
            "A=0 B=0 R=0 O=0",
            "root itself no longer has observe on 0.A 0.B 0.R 0.O",
            "nothing that you may observe",
        ]
        self.assertEqual((status, lines), (1, wanted))

    def test_what_was_meant_by_a_line_of_another_form(self):
        typed = "A\nexit\noffer 0.A\noffer A; step\nstep;\n"
        apart = "is a command, which stands on a line without `;`"
        wanted = [
            "line 7: there is no command A: a line with `;` is an instant, as `A;`",
            "line 8: there is no command exit: did you mean `quit`?",
            "line 9: expected: [SLOT] SIGNAL, two words, as `offer 0 A`",
            f"line 10: offer: Permission: needs offer on 0.offer; `offer` {apart}",
            f"line 11: step: Permission: needs offer on 0.step; `step` {apart}",
        ]
        self.assertEqual(self.run_script(typed), (1, wanted))

    def test_a_session_without_roles_says_so_where_it_is_denied(self):
        status, lines = self.run_script("drop root\nstep\nactivate root\nstep\nstep 1\n")
        wanted = [
            "root is no longer active",
            "line 8: Permission: needs step on 0",
            "no role is active: `activate ROLE` makes one so",
            "root is active",
            "instant 1: no output",
            "line 11: Permission: needs step on 1",
        ]
        self.assertEqual((status, lines), (1, wanted))

    def test_a_session_that_has_ended_says_how_to_go_on(self):
        typed = "deassign root root\nstep\nlogout\nlogout\n"
        status, lines = self.run_script(typed)
        ended = "NoSession: there is no login, or its session has ended"
        wanted = [
            f"line 8: {ended}",
            "the session of root has ended: `logout`, then `login`",
            f"line 9: {ended}",
            f"line 10: {ended}",
        ]
        self.assertEqual((status, lines[1:]), (1, wanted))

    def test_without_a_session_it_is_said_how_one_begins(self):
        status, lines = self.run_script("logout\nstep\nlogout\n")
        none = "NoSession: there is no login, or its session has ended"
        wanted = ["logged out", f"line 8: {none}", "`login USER ROLE..` begins a session"]
        self.assertEqual((status, lines), (1, [*wanted, f"line 9: {none}"]))

    def test_a_module_that_the_text_has_not(self):
        team = EXAMPLES / "team" / "team.strl"
        status, lines = self.run_script(f"module 0 {team} TEEM\nmodule 0 {team} TEAM\n")
        told = f"line 7: there is no module TEEM in {team}; did you mean `TEAM`?"
        self.assertEqual((status, lines), (1, [told, "TEAM: inputs A B R, outputs O"]))

    def test_help_says_what_a_command_does(self):
        ran = run_client(["shell"], "help adduser\nhelp step\nhelp\nhelp fly\n")
        lines = ran.printed.splitlines()
        self.assertEqual(lines[1], "  adduser USER: adds the user, to whom no role is assigned")
        self.assertEqual(
            lines[2],
            "  step [SLOT]: makes the next instant of what is pending, and shows what came out",
        )
        self.assertEqual(lines[-1], "line 4: there is no command fly: help lists them")
        listed = [line for line in lines[3:-1] if re.match(r"  [a-z]+( [A-Z\[\].; ]+)?: ", line)]
        self.assertEqual(
            len(listed), len(PLAIN) + len([name for name in dir(Shell) if name.startswith("do_")])
        )
        for line in listed:  # each begins with what it does: adds, takes, shows
            self.assertRegex(line.partition(": ")[2], r"^[a-z]+s\b")

    def test_vcd_of_a_slot_has_scopes(self):
        with tempfile.TemporaryDirectory() as name:
            path = pathlib.Path(name) / "out.vcd"
            status, lines = self.run_script(f"A;\nvcd {path}\n")
            self.assertEqual((status, lines[-1]), (0, f"1 instant in {path}"))
            self.assertIn("$scope module ABRO $end", path.read_text())


class FakeServer:
    """A server that ends each connection after some reads, as a real one does after 1,000,000. Used
    with `with`.
    """

    def __init__(self, path, reads):
        self.path, self.reads, self.lines = path, reads, []
        self.server = socket.socket(socket.AF_UNIX)

    def __enter__(self):
        self.server.bind(str(self.path))
        self.server.listen()
        self.thread = threading.Thread(target=self.serve, daemon=True)
        self.thread.start()
        return self

    def __exit__(self, *_):
        self.server.close()

    def serve(self):
        """Serves one connection after the other."""
        try:
            while True:
                connection, _ = self.server.accept()
                self.lines.append([])
                self.serve_one(connection)
        except OSError:
            pass

    def serve_one(self, connection):
        with connection:
            for _ in range(self.reads):
                line = connection.recv(65_536)
                if not line:
                    return
                command = json.loads(line)
                self.lines[-1].append(command)
                answer = {
                    "ok": command["cmd"],
                    "session": len(self.lines),
                    "allowed": True,
                    "version": 9,
                    "entries": len(self.lines),
                }
                connection.sendall(json.dumps(answer).encode() + b"\n")


class Renewals(InAFolder):
    def setUp(self):
        super().setUp()
        self.path = self.folder / "socket"

    def test_a_connection_that_the_server_ends_is_made_again(self):
        with FakeServer(self.path, 5) as server, estserve.connect(self.path, reads=6) as client:
            renewed = []
            client.when_renewed = renewed.append
            client.login("ann", ["driver", "watcher"])
            client.activate("chief")
            client.drop("driver")
            client.check("step", "0")
            client.check("step", "1")
            client.check("step", "2")  # the sixth: the server has ended the connection without it
        logins = [lines[0] for lines in server.lines]
        self.assertEqual(
            [login["roles"] for login in logins], [["driver", "watcher"], ["watcher", "chief"]]
        )
        self.assertEqual([lines[-1]["object"] for lines in server.lines], ["1", "2"])
        self.assertEqual([answer["session"] for answer in renewed], [2])

    def test_one_that_ends_early_is_not(self):
        with FakeServer(self.path, 2) as server, estserve.connect(self.path, reads=100) as client:
            client.login("ann", [])
            client.check("step", "0")
            with self.assertRaisesRegex(estserve.Disconnected, "the server has gone away"):
                client.check("step", "1")
        self.assertEqual(len(server.lines), 1)

    def test_a_program_of_its_own_is_not_made_again(self):
        for reads, told in ((2, "as it does after 2 reads"), (9, "the server has gone away")):
            client = estserve.Client(io.BytesIO(), io.BytesIO(), lambda: None, reads=reads)
            with self.assertRaisesRegex(estserve.Disconnected, told):
                client.check("step", "0")

    def test_the_shell_says_so_and_goes_on(self):
        with FakeServer(self.path, 100):
            ran = run_client(
                ["shell", "--socket", self.path, "--reads", "5"], "check step 0\n" * 12
            )
        self.assertEqual((ran.status, ran.printed.splitlines()[1:]), (0, ["yes"] * 12))
        told = "the connection has had its 5 reads: connected again, session {}"
        self.assertEqual(
            ran.told.splitlines(),
            [told.format(number) for number in (2, 3, 4, 5)][: len(ran.told.splitlines())],
        )
        self.assertGreaterEqual(len(ran.told.splitlines()), 3)

    @needs_program
    def test_a_watch_goes_on(self):
        with serve() as server, server.root() as root:
            for op, object in [("load", "0"), ("step", "0"), ("observe", "0.O")]:
                root.grant("root", op, object)
            root.load(0, "ABRO", ABRO.read_text())
            words = ["shell", "--socket", str(server.path), "--reads", "8"]
            pipe = subprocess.PIPE
            command = [sys.executable, "-B", str(CLIENTS / "estserve.py"), *words]
            watcher = subprocess.Popen(command, stdin=pipe, stdout=pipe, stderr=pipe, text=True)
            self.addCleanup(watcher.communicate)
            self.addCleanup(watcher.kill)
            watcher.stdin.write("watch 0\n")
            watcher.stdin.flush()
            lines = [watcher.stdout.readline() for _ in range(2)]
            for number in (1, 2):
                told = watcher.stderr.readline()
                self.assertIn("the connection has had its 8 reads: connected again", told)
                root.step(0)
                lines.append(watcher.stdout.readline())
            self.assertEqual(lines[2:], ["      1\n", "      2\n"])

    @needs_program
    def test_a_real_server_and_its_slot(self):
        with serve() as server, server.root() as root:
            for op, object in [
                ("load", "0"),
                ("step", "0"),
                ("offer", "0.A"),
                ("offer", "0.B"),
                ("observe", "0.O"),
            ]:
                root.grant("root", op, object)
            root.load(0, "ABRO", ABRO.read_text())
            with estserve.connect(server.path, reads=6) as client:
                client.login("root", ["root"])
                sessions = []
                client.when_renewed = lambda answer: sessions.append(answer["session"])
                outputs = [
                    client.instant(0, names).present
                    for names in ([], ["A"], ["B"], [], ["A", "B"], [])
                ]
            self.assertEqual(outputs, [[], [], ["O"], [], [], []])
            self.assertGreaterEqual(len(sessions), 3)


if __name__ == "__main__":
    unittest.main()
