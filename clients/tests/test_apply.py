"""The command `apply` on the real program: what is tried, warned of, taken back and taken away;
slots by their names.
"""
import contextlib
import json
import os
import socket
import threading
import unittest
import unittest.mock

from support import InAFolder, needs_program, run_client, serve

import estserve
from estserve_client import applying
from estserve_client.applying import ALONE
from estserve_client.policy_file import BadPolicy, read_file

POLICY = """users = ["ann", "bob"]
roles = ["driver", "chief"]
[slots]
door = 3
[inherit]
chief = ["driver"]
[assign]
ann = ["chief"]
[permissions]
driver = ["offer door.OPEN", "step door", "load 4"]
"""
DOOR = "module DOOR: input OPEN; output LAMP; every OPEN do emit LAMP end end module\n"


class OfPolicy(InAFolder):
    def setUp(self):
        super().setUp()
        self.path = self.file("p.toml", POLICY)

    def apply(self, *more):
        """Applies the policy: the status, the lines that are printed and told, without the file's
        folder.
        """
        ran = run_client(["apply", self.path, *more])
        lines = [
            text.replace(f"{self.folder}/", "").splitlines() for text in (ran.printed, ran.told)
        ]
        return (ran.status, *lines)


class Words(OfPolicy):
    def test_words_of_prune_alone(self):
        told = "estserve.py: --before and --yes are for --prune"
        for more in (["--yes"], ["--before", self.path]):
            self.assertEqual(self.apply(*more), (1, [], [told]))


class Slots(OfPolicy):
    def test_a_name_of_a_slot_stands_for_its_number(self):
        grants = [
            wish.command["object"]
            for wish in read_file(POLICY).wishes
            if wish.command["cmd"] == "grant"
        ]
        self.assertEqual(grants, ["3.OPEN", "3", "4"])
        moved = read_file(POLICY.replace("door = 3", "door = 5")).wishes
        self.assertEqual(
            [wish.command["object"] for wish in moved if wish.command["cmd"] == "grant"],
            ["5.OPEN", "5", "4"],
        )

    def test_what_is_no_slot_is_told_with_its_line(self):
        wrong = {
            "[slots]\ndoor = 16": 2,
            '[slots]\ndoor = "3"': 2,
            "[slots]\n3 = 3": 2,
            "[slots]\npolicy = 3": 2,
            '[permissions]\na = ["step dor"]': 2,
            '[permissions]\na = ["step 16"]': 2,
            '[modules]\ndoor = "a"': 2,
            "[modules]\n0 = 5": 2,
            '[modules]\n16 = "a"': 2,
        }
        for text, line in wrong.items():
            with self.subTest(text), self.assertRaises(BadPolicy) as raised:
                read_file(text)
            self.assertEqual(raised.exception.line, line, text)


@needs_program
class OnTheProgram(OfPolicy):
    def test_a_dry_run_lists_the_commands_and_sends_nothing(self):
        with serve() as server:
            for more in (["--socket", server.path], ["--prune", "--yes"]):
                status, printed, told = self.apply("--dry-run", *more)
                self.assertIn("leave --socket and --prune away", told[0])
                self.assertEqual((status, printed), (1, []))
            status, printed, told = self.apply("--dry-run")
            self.assertEqual((status, told), (0, []))
            self.assertEqual(printed[0], "p.toml:2: addrole driver")
            self.assertEqual(printed[-2], "p.toml:10: grant driver load 4")
            self.assertEqual(
                printed[-1], "9 commands, on a program of its own; nothing was sent to a server"
            )
            with server.root() as root:
                root.adduser("ann")  # she isn't there
        self.path.write_text(POLICY.replace('["chief"]', '["chef"]'))
        status, printed, told = self.apply("--dry-run")
        wanted = (
            "p.toml:8: assign ann chef: UnknownRole: there is no role chef; did you mean `chief`?"
        )
        self.assertEqual((status, told[0]), (1, wanted))

    def test_a_refusal_takes_back_what_was_made(self):
        with serve() as server, server.root() as root:
            root.addrole("driver")
            self.path.write_text(POLICY.replace('"step door"', '"fly door"'))
            status, printed, told = self.apply("--socket", server.path)
            self.assertEqual(
                (status, printed),
                (1, []),
            )
            self.assertEqual(
                told,
                [
                    "p.toml:10: grant driver fly 3: NotARequest: fly is not an operation: offer observe"
                    " step load administer audit",
                    "estserve.py: a command was refused; 1 after it were not sent; 6 of 6 that were made"
                    " are taken back",
                ],
            )
            for make in (
                lambda: root.addrole("chief"),
                lambda: root.adduser("ann"),
                lambda: root.adduser("bob"),
            ):
                make()  # none of them is there
            with self.assertRaisesRegex(estserve.Refusal, "RoleExists"):
                root.addrole("driver")  # which was there before
            with self.assertRaisesRegex(estserve.Refusal, "NotGranted"):
                root.revoke("driver", "offer", "3.OPEN")

    def test_what_cannot_be_taken_back_is_listed(self):
        self.path.write_text(
            'roles = ["boss"]\n[permissions]\nroot = ["audit policy"]\nboss = ["fly 0"]\n'
        )

        class Half(estserve.Client):
            """A client that may not revoke."""

            def ask(self, cmd, **keys):
                if cmd == "revoke":
                    raise estserve.Refusal(
                        {"code": 10, "fault": "Permission", "object": "policy", "op": "administer"}
                    )
                return super().ask(cmd, **keys)

        with serve() as server:
            client = estserve.connect(server.path)
            client.__class__ = Half
            with client:
                client.login("root", ["root"])
                applied = client.apply(self.path)
        self.assertEqual([wish.command["op"] for wish in applied.left], ["audit"])
        self.assertEqual(
            (len(applied.made), applied.refused.line, applied.refusal.fault), (2, 4, "NotARequest")
        )

    def test_a_permission_on_a_signal_that_the_module_does_not_have_is_warned_of(self):
        (self.folder / "door.strl").write_text(DOOR)
        permissions = (
            '["offer door.OPEN", "offer door.OPNE", "observe 3.LAMP", "offer 3.LAMP", "offer 4.X"]'
        )
        text = POLICY.replace('["offer door.OPEN", "step door", "load 4"]', permissions)
        self.path.write_text(text + '[modules]\ndoor = "door.strl"\n')
        status, printed, told = self.apply()
        self.assertEqual((status, printed), (0, ["0 there already, 11 added" + ALONE]))
        self.assertEqual(
            told,
            [
                "p.toml:10: warning: grant driver offer 3.OPNE: DOOR of door.strl has no signal OPNE; did"
                " you mean `OPEN`?",
                "p.toml:10: warning: grant driver offer 3.LAMP: DOOR of door.strl gives LAMP as an"
                " output, which nobody can offer",
            ],
        )
        (self.folder / "door.strl").unlink()
        line = len(self.path.read_text().splitlines())
        told = self.apply()[2][0]
        self.assertTrue(told.startswith(f"p.toml:{line}: the module text"), told)
        self.assertIn("door.strl cannot be read", told)

    def test_a_pattern_is_spread_over_the_text_of_its_slot(self):
        (self.folder / "door.strl").write_text(DOOR)
        for pattern, granted in (
            ("observe door.*", ["observe 3.OPEN", "observe 3.LAMP"]),
            ("offer 3.*", ["offer 3.OPEN"]),
            ("observe door.L*P", ["observe 3.LAMP"]),
            ('observe door.*", "observe 3.LAMP', ["observe 3.OPEN", "observe 3.LAMP"] * 2),
        ):
            text = POLICY.replace('"offer door.OPEN", "step door", "load 4"', f'"{pattern}"')
            self.path.write_text(text + '[modules]\ndoor = "door.strl"\n')
            status, printed, told = self.apply("--dry-run")
            found = [line.split("grant driver ")[1] for line in printed if "grant driver" in line]
            wanted = list(dict.fromkeys(granted))
            again = [f"{one}: there already" for one in ["observe 3.LAMP"] if len(granted) > 2]
            self.assertEqual((status, found, told), (0, wanted + again, []), pattern)
        for pattern, fault in (
            ("offer door.L*", "door.strl has no signal that door.L* fits and that can be offered"),
            ("observe door.X*", "door.strl has no signal that door.X* fits"),
            (
                "observe 4.*",
                "4.* is spread over the text of 4, which the table modules doesn't name",
            ),
        ):
            text = POLICY.replace('"offer door.OPEN", "step door", "load 4"', f'"{pattern}"')
            self.path.write_text(text + '[modules]\ndoor = "door.strl"\n')
            self.assertEqual(self.apply()[::2], (1, [f"p.toml:10: {fault}"]))

    def test_a_permission_that_does_nothing_is_warned_of(self):
        wanted = '["step 0.A", "offer policy", "audit 0", "step 0", "audit policy", "observe 0.A"]'
        self.path.write_text(f'roles = ["r"]\n[permissions]\nr = {wanted}\n')
        told = [
            ("step 0.A", "step is asked for on a slot"),
            ("offer policy", "offer is asked for on a signal"),
            ("audit 0", "audit is asked for on policy"),
        ]
        lines = [f"p.toml:3: warning: grant r {one}: this does nothing: {why}" for one, why in told]
        self.assertEqual(self.apply()[2], lines)

    def test_a_role_that_no_session_can_have_is_warned_of(self):
        text = 'users = ["ann"]\nroles = ["a", "b", "top", "c"]\n[inherit]\ntop = ["c"]\nc = ["a", "b"]\n'
        self.path.write_text(text + '[separate.apart]\nroles = ["a", "b"]\ncount = 2\n')
        place = "p.toml:7: warning: dsd apart 2 a b: no session may have"
        told = [f"{place} {role}, which stands above a and b" for role in ("top", "c")]
        self.assertEqual(self.apply()[2], told)

    def test_an_operation_that_comes_last_is_told(self):
        self.path.write_text('roles = ["r"]\n[permissions]\nr = ["0.A offer"]\n')
        told = "p.toml:3: offer is no object: policy, a slot, or a signal of one, as 0.A; the operation"
        self.assertEqual(self.apply()[2], [told + ' comes first: "offer 0.A"'])

    def test_prune_takes_away_what_the_file_does_not_ask_for(self):
        with serve() as server, server.root() as root:
            words = ["--socket", server.path, "--prune"]
            self.assertEqual(self.apply("--socket", server.path)[0], 0)
            old = self.folder / "old.toml"
            old.write_text(
                'users = ["cho"]\nroles = ["guest"]\n'
                '[separate.apart]\nroles = ["guest", "chief"]\ncount = 2\n'
            )
            self.assertEqual(run_client(["apply", old, "--socket", server.path]).status, 0)
            root.assign("bob", "driver")
            root.grant("driver", "observe", "3.OPEN")
            self.path.write_text(POLICY.replace("ann = ", "bob = ").replace(', "load 4"', ""))
            status, printed, told = self.apply(*words)
            self.assertEqual(
                (status, told),
                (1, ["estserve.py: --prune asks, and standard input is no terminal: say --yes"]),
            )
            status, printed, told = self.apply(*words, "--yes", "--before", old)
            self.assertEqual((status, told), (0, []))
            self.assertEqual(
                sorted(printed[-8:-1]),
                sorted(
                    [
                        "revoke driver observe 3.OPEN",
                        "revoke driver load 4",
                        "deassign ann chief",
                        "deassign bob driver",
                        "undsd apart",
                        "deluser cho",
                        "delrole guest",
                    ]
                ),
            )
            self.assertEqual(printed[-1], "7 taken away")
            self.assertEqual(self.apply(*words, "--yes")[1][-1], "0 taken away")
            root.adduser("cho")  # root may administer still


@needs_program
class AtAGateway(OfPolicy):
    """The real program behind a stand-in for a gateway, which tells the whole policy."""

    KNOWN = {
        "whole": True,
        "assigned": [["root", "root"], ["ann", "chief"], ["cho", "driver"]],
        "edges": [["chief", "driver"]],
        "granted": [["root", "administer", "policy"], ["driver", "offer", "3.OPNE"]],
        "roles": ["root", "driver", "chief", "guest"],
        "sets": [{"name": "apart", "roles": ["guest", "chief"], "count": 2}],
        "users": ["root", "ann", "bob", "cho"],
    }

    def answer(self, listening, asked):
        """Answers what the client asks on one connection after the other."""
        while True:
            try:
                connected, _ = listening.accept()
            except OSError:
                return
            with connected, connected.makefile("rwb") as lines:
                for line in lines:
                    asked.append(json.loads(line)["word"])
                    told = {"ok": asked[-1], "users": ["root"], "person": "x", **self.KNOWN}
                    lines.write(json.dumps(told).encode() + b"\n")
                    lines.flush()

    @contextlib.contextmanager
    def team(self, server):
        """The path of a team's socket, with a gateway beside it, and what that is asked."""
        asked, path = [], self.folder / "team.sock"
        path.symlink_to(server.path)
        with socket.socket(socket.AF_UNIX) as listening:
            listening.bind(str(self.folder / "gateway.sock"))
            listening.listen()
            thread = threading.Thread(target=self.answer, args=(listening, asked))
            thread.start()
            try:
                yield path, asked
            finally:
                listening.shutdown(socket.SHUT_RDWR)
                thread.join(60)

    def test_prune_is_exact(self):
        with serve() as server, server.root() as root, self.team(server) as (path, asked):
            self.apply("--socket", server.path)
            root.grant("driver", "offer", "3.OPNE")
            root.adduser("cho")
            root.assign("cho", "driver")
            root.addrole("guest")
            root.dsd("apart", ["guest", "chief"], 2)
            taken = ["revoke driver offer 3.OPNE", "deassign cho driver", "undsd apart"]
            taken += ["deluser cho", "delrole guest"]
            with unittest.mock.patch.object(applying, "check_terminal"):
                status, printed, told = self.apply("--socket", path, "--prune")
            made = ["grant driver offer 3.OPEN", "grant driver step 3", "grant driver load 4"]
            plan = [f"to make: {one}" for one in made] + [f"not asked for: {one}" for one in taken]
            self.assertEqual((status, printed[:-1], told), (0, plan, []))
            self.assertTrue(printed[-1].endswith("[y/N] nothing is changed"))
            status, printed, told = self.apply("--socket", path, "--prune", "--yes")
            self.assertEqual((status, printed[1:], told), (0, [*taken, "5 taken away"], []))
            self.assertEqual(printed[0], "9 there already, 0 added")
        self.assertEqual(asked, ["ping", "login", "policy", "logout"] * 2)

    def test_a_set_that_is_another_one_is_made_anew(self):
        sets = '[separate.apart]\nroles = ["driver", "chief"]\ncount = 2\n'
        self.path.write_text(sets)
        with serve() as server, server.root() as root:
            for role in ("driver", "chief", "guest"):
                root.addrole(role)
            root.adduser("bob")
            root.assign("bob", "driver")
            root.assign("bob", "chief")
            root.dsd("apart", ["guest", "chief"], 2)
            status, printed, told = self.apply("--socket", server.path)
            self.assertEqual((status, printed), (0, ["1 there already, 0 added"]))
            self.assertIn("p.toml:2: warning: a set apart is there already, and the", told[0])
            with self.team(server) as (path, _):
                self.check_made_anew(server, root, path, sets)

    def check_made_anew(self, server, root, path, sets):
        """A gateway has the set made anew, and where that can't be done it stays."""
        status, printed, told = self.apply("--socket", path)
        self.assertEqual((status, printed), (0, ["0 there already, 1 added"]))
        line = "p.toml:2: dsd apart 2 guest chief was there: it is made anew"
        self.assertEqual(told, [line])
        with estserve.connect(server.path) as bob:
            with self.assertRaises(estserve.Refusal):
                bob.login("bob", ["driver", "chief"])
        self.path.write_text(sets.replace('"chief"', '"nobody"'))
        root.undsd("apart")
        root.dsd("apart", ["guest", "chief"], 2)
        self.assertEqual(self.apply("--socket", path)[0], 1)
        with self.assertRaisesRegex(estserve.Refusal, "DsdExists"):
            root.dsd("apart", ["guest", "chief"], 2)  # it is taken back


class Library(OfPolicy):
    @needs_program
    def test_a_policy_is_applied_by_the_library(self):
        with estserve.start(os.environ["ESTSERVE"]) as client:
            client.login("root", ["root"])
            applied = client.apply(self.path)
            self.assertEqual((len(applied.made), applied.refused, applied.left), (9, None, []))
            again = client.apply(str(self.path))
            self.assertEqual((len(again.made), len(again.there)), (0, 9))
            self.path.write_text("hosts = []")
            with self.assertRaises(estserve.BadPolicy):
                client.apply(self.path)


if __name__ == "__main__":
    unittest.main()
