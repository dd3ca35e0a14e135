"""The client's commands over stored dialogues, which `make examples` holds against the real
program, and what it says of what goes wrong.
"""
import os
import pathlib
import socket
import subprocess
import tempfile
import threading
import unittest

from support import (
    DIALOGUE,
    DIALOGUES,
    EXAMPLES,
    dialogue_variables,
    needs_program,
    play_dialogue,
    read_vcd,
    run_client,
    run_words,
)

import estserve
from estserve_client.applying import ALONE
from estserve_client.module_text import main_of


# what is told besides of the runs that end at an instant which is refused
REFUSED = {
    "paradox": f"""estserve.py: instant 2: Stuck: the instant has no constructive reaction; undecided: O
O waits for itself: line 6 may emit it once O is absent
  {EXAMPLES}/paradox/paradox.strl:6:16: emit O, once O is absent""",
    "no_second": f"{EXAMPLES}/crossing/no_second.inputs:3:1: instant 2: Implied: "
    "relation 1 (MINUTE => SECOND) asks for SECOND too",
    "both": f"{EXAMPLES}/team/both.inputs:3:3: instant 2: Excluded: "
    "relation 1 (A # R) excludes R, since A is pending",
}


class Controllers(unittest.TestCase):
    """Each controller of the examples gives the pictures that stand beside it."""

    def check_picture(self, path, *more):
        """What the client draws of the list of inputs by this name, over the dialogue by this
        name.
        """
        words = run_words(path.parent.name, path.stem, *more)
        ran = play_dialogue(path.with_suffix(".dialogue"), words)
        told, came = REFUSED.get(path.stem), ran.told
        if not os.environ.get("ESTLAB"):  # which says more of an instant that is stuck
            told, came = (one and one.partition("\n")[0] for one in (told, came))
        self.assertEqual((ran.status, came.strip()), (1, told) if told else (0, ""))
        return ran.printed

    def test_tables(self):
        paths = sorted(EXAMPLES.glob("*/*.table"))
        self.assertEqual(
            [path.with_suffix(".inputs") for path in paths], sorted(EXAMPLES.glob("*/*.inputs"))
        )
        for path in paths:
            with self.subTest(path.stem):
                self.assertEqual(self.check_picture(path), path.read_text())

    def test_each_output_of_the_bus_comes_in_its_run(self):
        folder = EXAMPLES / "shared_bus"
        kinds = main_of((folder / "shared_bus.strl").read_text()).kinds()
        came = {name for row in (folder / "shared_bus.table").read_text().split("\n")
                for name in row.split()}  # fmt: skip
        self.assertEqual([name for name in kinds if name not in came], [])

    def test_waves(self):
        for path in sorted(EXAMPLES.glob("*/*.wave")):
            with self.subTest(path.stem):
                self.assertEqual(self.check_picture(path, "--wave"), path.read_text())

    def test_a_vcd_file_of_each(self):
        for path in sorted(EXAMPLES.glob("*/*.table")):
            with self.subTest(path.stem), tempfile.TemporaryDirectory() as folder:
                file = pathlib.Path(folder) / "out.vcd"
                self.assertEqual(self.check_picture(path, "--vcd", file), "")
                changes = read_vcd(file.read_text().splitlines())
                self.check_changes(changes, path.read_text().splitlines()[1:])

    def check_changes(self, changes, rows):
        """Each wire is 1 in the instants in whose rows of the table its signal stands, and 0 in the
        others.
        """
        self.assertEqual(list(changes.pop("tick").values()), ["1", "0"] * len(rows))
        for name, values in changes.items():
            now, drawn = None, []
            for instant in range(1, len(rows) + 1):
                now = values.get(instant, now)
                drawn.append(now)
            self.assertEqual(drawn, ["1" if name in row.split()[1:] else "0" for row in rows], name)

    def test_a_vcd_file_of_abro(self):
        with tempfile.TemporaryDirectory() as folder:
            path = pathlib.Path(folder) / "abro.vcd"
            self.assertEqual(
                self.check_picture(EXAMPLES / "abro" / "abro.table", "--vcd", path), ""
            )
            changes = read_vcd(path.read_text().splitlines())
        self.assertEqual(changes["O"], {1: "0", 3: "1", 4: "0", 6: "1", 7: "0"})
        self.assertEqual(sorted(changes), ["A", "B", "O", "R", "tick"])


class Policies(unittest.TestCase):
    def test_a_policy_is_applied(self):
        ran = play_dialogue(DIALOGUES / "apply", ["apply", EXAMPLES / "team" / "team.toml"])
        self.assertEqual((ran.status, ran.told), (0, ""))
        self.assertEqual(ran.printed, f"0 there already, 22 added{ALONE}\n")

    def test_what_is_there_and_what_is_refused_is_told_with_its_line(self):
        ran = play_dialogue(DIALOGUES / "apply_again", ["apply", DIALOGUES.parent / "again.toml"])
        self.assertEqual(ran.status, 1)
        self.assertEqual(ran.printed, "")
        self.assertIn(
            "again.toml:5: assign ann nobody: UnknownRole: there is no role nobody", ran.told
        )
        self.assertIn("0 after it were not sent; 1 of 1 that were made are taken back\n", ran.told)


class Dialogues(unittest.TestCase):
    """What is typed into the shell, and what it prints; each ends at the end of standard input."""

    def check(self, name):
        typed, wanted = (
            (DIALOGUES.parent / f"{name}.{kind}").read_text().replace("EXAMPLES", str(EXAMPLES))
            for kind in ("typed", "printed")
        )
        ran = play_dialogue(DIALOGUES / name, ["shell"], typed)
        self.assertEqual((ran.printed, ran.told, ran.status), (wanted, "", 1))

    def test_a_dialogue_for_people(self):
        self.check("shell")

    def test_policy_commands(self):
        self.check("policy_commands")

    def test_an_inputoutput_is_offered_and_shown(self):
        self.check("inouts")


class SeveralFiles(unittest.TestCase):
    @needs_program
    def test_the_shell_loads_several_files_as_one_library(self):
        with tempfile.TemporaryDirectory() as folder:
            main, part = (pathlib.Path(folder) / name for name in ("main.strl", "part.strl"))
            main.write_text("module MAIN: output O; run PART [signal O/P] end module")
            part.write_text("module PART: output P; emit P end module")
            lines = [
                "grant root load 0",
                f"load {main} {part}",
                "unload",
                f"load 0 {main} {part} PART",
            ]
            ran = run_client(["shell"], "\n".join(lines) + "\nload\n")
        self.assertEqual(ran.status, 1)
        self.assertIn("MAIN runs in slot 0\nslot 0 is empty\nPART runs in slot 0\n", ran.printed)
        self.assertIn("expected: [SLOT] FILE.. [MODULE]", ran.printed + ran.told)


class OverASocket(unittest.TestCase):
    """A client over a Unix socket, at which a stored dialogue answers as a server."""

    def serve(self, path, dialogue, faults):
        server = socket.socket(socket.AF_UNIX, socket.SOCK_STREAM)
        server.bind(str(path))
        server.listen()

        def answer():
            connection, _ = server.accept()
            variables = dict(os.environ, **dialogue_variables(dialogue, faults))
            subprocess.run(
                [str(DIALOGUE), "script"], stdin=connection, stdout=connection, env=variables
            )
            connection.close()
            server.close()

        thread = threading.Thread(target=answer)
        thread.start()
        return thread

    def test_as_a_library(self):
        with tempfile.TemporaryDirectory() as folder:
            path, faults = pathlib.Path(folder) / "socket", pathlib.Path(folder) / "faults"
            thread = self.serve(path, DIALOGUES / "library", faults)
            with estserve.connect(path) as client:
                self.assertEqual(client.login("root", ["root"])["session"], 1)
                client.adduser("ann")
                with self.assertRaises(estserve.Refusal) as raised:
                    client.load(0, "M", "module M: pause end module")
                self.assertEqual(
                    (raised.exception.code, raised.exception.fault), (10, "Permission")
                )
                self.assertEqual(raised.exception.fields, {"object": "0", "op": "load"})
                client.logout()
            thread.join()
            self.assertFalse(faults.exists())


if __name__ == "__main__":
    unittest.main()
