"""The commands `run` and `test` on the real program: what streams, what is expected, what is
watched, what is interrupted.
"""
import os
import signal
import subprocess
import sys
import unittest

from support import CLIENTS, EXAMPLES, InAFolder, needs_program, run_client, run_words, serve

from estserve_client.drawing import Progress
from estserve_client.library_text import join_texts
from estserve_client.module_text import Module
from estserve_client.running import play
from estserve_client.scenarios import Scenario
from estserve_client.texts import Interrupted

COMMAND = [sys.executable, "-B", str(CLIENTS / "estserve.py")]
SECONDS = 60  # whatever is waited for comes in this time
ARBITER = EXAMPLES / "arbiter" / "arbiter.strl"
ABRO = EXAMPLES / "abro" / "abro.strl"
LONG = 20_000


class Running(InAFolder):
    def start(self, *words):
        """The client as a program of its own, whose output is read as it comes."""
        pipe = subprocess.PIPE
        child = subprocess.Popen(
            [*COMMAND, *map(str, words)],
            stdin=subprocess.DEVNULL,
            stdout=pipe,
            stderr=pipe,
            text=True,
        )
        self.addCleanup(child.communicate)
        self.addCleanup(child.kill)
        return child


@needs_program
class LongRuns(Running):
    """A list of inputs whose run takes minutes: what is read at once has streamed."""

    def setUp(self):
        super().setUp()
        self.inputs = self.file("inputs", "R3\nR1 R3\n" * (LONG // 2))

    def interrupted(self, child):
        """Interrupts the client. Answers what it printed since, and how many instants it says that
        there were.
        """
        child.send_signal(signal.SIGINT)
        printed, told = child.stdout.read(), child.stderr.read()
        self.assertEqual(child.wait(SECONDS), 130, told)
        self.assertRegex(told, r"\Aestserve\.py: interrupted after [0-9,]+ of 20,000 instants\n\Z")
        return printed, int(told.split()[3].replace(",", ""))

    def test_the_table_streams_and_is_whole_after_an_interrupt(self):
        child = self.start("run", ARBITER, "--inputs", self.inputs)
        self.assertEqual(child.stdout.readline(), "instant  inputs  outputs\n")
        self.assertEqual(child.stdout.readline(), "      1  R3      G3 T1 P1 P2\n")
        self.assertIsNone(child.poll())
        printed, number = self.interrupted(child)
        rows = printed.splitlines()
        self.assertLess(number, LONG)
        self.assertEqual([int(row.split()[0]) for row in rows], list(range(2, number + 1)))
        self.assertRegex(rows[-1], r"^ +\d+  R(3|1 R3) +G\d.* T\d")


@needs_program
class Runs(Running):
    def test_signals_that_are_named(self):
        ran = run_client(run_words("abro", None, "--signals", "O,B", "--wave"))
        self.assertEqual(
            [line.split()[0] for line in ran.printed.splitlines()], ["instant", "O", "B"]
        )
        ran = run_client(run_words("abro", None, "--signals", "O"))
        self.assertEqual(ran.printed.splitlines()[3:5], ["      3          O", "      4"])
        ran = run_client(run_words("abro", None, "--signals", "O,X"))
        self.assertEqual((ran.status, ran.told), (1, "estserve.py: ABRO has no signal X\n"))

    def test_what_is_expected(self):
        expected = self.folder / "abro.expected"
        words = run_words("abro", None, "--expect", expected)
        self.assertEqual(
            run_client(words).told,
            f"estserve.py: there is no {expected}: --update writes it\n",
        )
        self.assertEqual(
            run_client([*words, "--update"]).printed, f"{expected} is written: 7 instants\n"
        )
        self.assertEqual(expected.read_text(), (EXAMPLES / "abro" / "abro.table").read_text())
        self.assertEqual(
            run_client([*words, "--update"]).printed, f"{expected} is as it was: 7 instants\n"
        )
        ran = run_client(words)
        self.assertEqual((ran.status, ran.printed, ran.told), (0, "7 instants, as expected\n", ""))
        expected.write_text(
            "instant  inputs     outputs\n"
            + "".join(  # the same, with wider columns and blank lines
                f"{line[:16]}   {line[16:]}\n" for line in expected.read_text().splitlines()[1:]
            )
            + "\n\n"
        )
        self.assertEqual(run_client(words).status, 0)

    def test_the_first_difference_is_shown(self):
        text = (EXAMPLES / "abro" / "abro.table").read_text()
        expected = self.file(
            "abro.expected",
            text.replace("      3  B       O\n", "      3  B\n").replace(
                "      6  A B     O", "      6  A B"
            ),
        )
        ran = run_client(run_words("abro", None, "--expect", expected))
        self.assertEqual(ran.status, 1)
        self.assertEqual(
            ran.printed.splitlines(),
            [
                f"--- {expected}",
                "+++ this run",
                "@@ instant 3 @@",
                "       1",
                "       2  A",
                "-      3  B",
                "+      3  B       O",
            ],
        )
        self.assertEqual(
            ran.told, f"estserve.py: {expected}: the first difference is at instant 3\n"
        )
        expected.write_text(text.rsplit("\n", 2)[0] + "\n")
        ran = run_client(run_words("abro", None, "--expect", expected))
        self.assertEqual(
            ran.printed.splitlines()[2:],
            ["@@ instant 7 @@", "       5  R", "       6  A B     O", "+      7  A B R"],
        )

    def test_an_instant_that_is_to_be_refused(self):
        expected = self.folder / "expected"
        words = run_words("crossing", "no_second", "--expect", expected)
        run_client([*words, "--update"])
        self.assertEqual(
            expected.read_text().splitlines()[-1],
            "instant 2: Implied: relation 1 (MINUTE => SECOND) asks for SECOND too",
        )
        self.assertEqual(run_client(words).status, 0)
        expected.write_text(expected.read_text().replace("SECOND too", "HOUR too"))
        self.assertEqual(
            run_client(words).told,
            f"estserve.py: {expected}: the first difference is at instant 2\n",
        )

    def test_a_name_that_is_mistyped_is_told_at_its_place(self):
        text = self.file("m.strl", "module M: input START; pause end module")
        inputs = self.file("inputs", "% first\nSTART; STRAT START\n")
        ran = run_client(["run", text, "--inputs", inputs])
        told = f"{inputs}:2:8: M has no input STRAT; did you mean `START`?\n"
        self.assertEqual((ran.status, ran.printed, ran.told), (1, "", told))
        ran = run_client(["run", text], "START\nSTRAT\n")
        self.assertEqual(
            ran.told, "standard input:2:1: M has no input STRAT; did you mean `START`?\n"
        )
        told = "M has no input START,START; names stand apart by blanks, without commas\n"
        self.assertEqual(
            run_client(["run", text], "START,START\n").told, f"standard input:1:1: {told}"
        )

    def test_a_main_module_whose_name_is_none(self):
        for name in ("T\N{LATIN SMALL LETTER U WITH DIAERESIS}r", "N" * 49):
            with self.subTest(name):
                ran = run_client(["run", self.file("m.strl", f"module {name}: pause end module\n")])
                self.assertRegex(ran.told, r"\A\S*m\.strl:1:[89]: Lexical: no token stands here\n")

    def test_the_main_module_that_was_meant(self):
        text = self.file("m.strl", "module LIGHT: pause end module")
        ran = run_client(["run", text, "--main", "LIGTH"])
        told = "UnknownModule: there is no module LIGTH\ndid you mean `LIGHT`?\n"
        self.assertEqual((ran.status, ran.told), (1, f"estserve.py: {text}: {told}"))
        ran = run_client(["run", text, "--main", "DARK"])
        self.assertTrue(ran.told.endswith("there is no module DARK\n"), ran.told)

    def test_inputs_that_a_relation_refuses_are_told_at_their_place(self):
        text = self.file(
            "m.strl", "module M: input A, B, C; relation A => B, B # C; halt end module"
        )
        excluded = "Excluded: relation 2 (B # C) excludes C, since B is pending"
        implied = "Implied: relation 1 (A => B) asks for B too"
        for listed, place, number, told in (
            ("% first\nB; C; C B; C\n", "2:9", 3, "Excluded: relation 2 (B # C) excludes B"),
            ("B\n\n B  C % both\n", "3:5", 3, excluded),
            ("A B\nB;C;A;\n", "2:5", 4, implied),
        ):
            inputs = self.file("inputs", listed)
            ran = run_client(["run", text, "--inputs", inputs])
            self.assertEqual(ran.status, 1)
            self.assertIn(f"{inputs}:{place}: instant {number}: {told}", ran.told)
        self.file("m.inputs", "A\n")
        self.file("m.expected", "instant  inputs  outputs\n      1  A\n")
        ran = run_client(["test", self.folder])
        self.assertIn(f"{self.folder}/m.inputs:1:1: {implied}\n", ran.printed)
        self.assertIn(f"+instant 1: {implied}\n", ran.printed)

    def test_blank_lines_within_are_instants(self):
        ran = run_client(["run", ABRO, "--inputs", self.file("inputs", "\nA\n\nB\n\n\n")])
        self.assertEqual(
            ran.printed.splitlines()[1:], ["      1", "      2  A", "      3", "      4  B       O"]
        )

    def test_words_that_do_not_go_together(self):
        for more, told in [
            (["--update"], "--update writes the file that --expect names"),
            (["--slot", "3"], "--slot and --loaded are for a server"),
            (["--expect", "x", "--wave"], "--expect compares tables"),
        ]:
            ran = run_client(run_words("abro", None, *more))
            self.assertEqual(ran.status, 1)
            self.assertIn(told, ran.told)
        self.assertIn("--watch looks at files", run_client(["run", ABRO, "--watch"]).told)

    def test_it_runs_again_when_a_file_is_saved(self):
        text, inputs = self.file("m.strl", ABRO.read_text()), self.file("inputs", ";\nA B\n")
        child = self.start("run", text, "--inputs", inputs, "--watch")
        lines = [child.stdout.readline() for _ in range(3)]
        self.assertEqual(lines[1:], ["      1\n", "      2  A B     O\n"])
        inputs.write_text(";\nA\n")
        lines = [child.stdout.readline() for _ in range(4)]
        self.assertRegex(lines[0], rf"^-- {inputs} saved at \d\d:\d\d:\d\d --\n$")
        self.assertEqual(lines[2:], ["      1\n", "      2  A\n"])
        text.write_text("module M: emit end module\n")
        self.assertIn(" saved at ", child.stdout.readline())
        self.assertEqual(child.stderr.readline(), f"{text}:1:16: Syntax: a name expected\n")
        text.write_text(ABRO.read_text())
        self.assertIn(" saved at ", child.stdout.readline())
        self.assertEqual([child.stdout.readline() for _ in range(3)][2], "      2  A\n")
        child.send_signal(signal.SIGINT)
        self.assertEqual(child.wait(SECONDS), 0)


class Interrupts(unittest.TestCase):
    """Where an interrupt comes in the middle of a run, and where it comes with its last instant."""

    class Place:
        """Stands for a program: it interrupts the client with the instant of this number."""

        def __init__(self, number):
            self.number = number

        def play(self, scenario, stopped):
            for number in range(1, 4):
                if number == self.number:
                    os.kill(os.getpid(), signal.SIGINT)
                if stopped():
                    return
                yield [{"number": number}]

    def test_it_is_told_how_many_instants_there_were(self):
        module = Module("M", [], [], [])
        scenario = Scenario(join_texts([("m.strl", "")]), module, ";\n" * 3)
        for number, count in ((2, 1), (3, 2), (4, 3)):
            seen = []

            def add(instants, number=number, seen=seen):
                seen += instants
                if len(seen) == number - 1 == 3:  # after the last instant, before the run has ended
                    os.kill(os.getpid(), signal.SIGINT)

            with self.assertRaisesRegex(Interrupted, f"interrupted after {count} of 3 instants"):
                play(self.Place(number), scenario, add, Progress(3, False))
            self.assertEqual(len(seen), count)


@needs_program
class OnAServer(Running):
    def test_a_slot_of_a_server(self):
        with serve() as server, server.root() as root:
            for op in ("load", "step"):
                root.grant("root", op, "3")
            for op, name in [("offer", "A"), ("offer", "B"), ("observe", "A"), ("observe", "O")]:
                root.grant("root", op, f"3.{name}")
            words = [
                "run",
                ABRO,
                "--inputs",
                self.file("inputs", ";\nA\nB\n"),
                "--socket",
                server.path,
                "--slot",
                "3",
            ]
            wanted = [
                "instant  inputs  outputs",
                "      1  . .",
                "      2  A . .",
                "      3  . .     O",
            ]
            for _ in range(2):  # it is unloaded at the end
                ran = run_client(words)
                self.assertEqual((ran.status, ran.printed.splitlines(), ran.told), (0, wanted, ""))
            root.load(3, "ABRO", ABRO.read_text())
            ran = run_client(words)
            self.assertEqual(
                ran.told,
                "estserve.py: slot 3 is loaded: name another by --slot, or run what is there by --loaded\n",
            )
            ran = run_client([*words, "--loaded"])
            self.assertEqual((ran.status, ran.printed.splitlines()), (0, wanted))
            root.grant("root", "audit", "policy")
            self.assertEqual(root.audit(3)["instants"], 3)
            self.file("inputs", ";\nR\n;\n")
            ran = run_client([*words, "--loaded"])
            self.assertEqual(ran.told, "estserve.py: instant 2: Permission: needs offer on 3.R\n")
            self.assertEqual(
                root.audit(3)["instants"], 4
            )  # the instant that was refused is no instant


@needs_program
class Folders(Running):
    def test_a_folder_of_scenarios(self):
        self.file("abro.strl", ABRO.read_text())
        self.file("both.inputs", ";\nA B\n")
        self.file("both.expected", "instant  inputs  outputs\n      1\n      2  A B     O\n")
        self.file("wrong.inputs", ";\nA\n")
        self.file("wrong.expected", "instant  inputs  outputs\n      1\n      2  A       O\n")
        self.file("new.inputs", "R\n")
        self.file("typo.inputs", "A C\n")
        ran = run_client(["test", self.folder])
        self.assertEqual((ran.status, ran.told), (1, ""))
        self.assertEqual(
            ran.printed.splitlines(),
            [
                "ok      both (ABRO): 2 instants",
                "FAILED  new (ABRO): there is no new.expected: --update writes it",
                f"FAILED  typo (ABRO): {self.folder}/typo.inputs:1:3: ABRO has no input C",
                "FAILED  wrong (ABRO): the first difference is at instant 2",
                f"--- {self.folder}/wrong.expected",
                "+++ this run",
                "@@ instant 2 @@",
                "       1",
                "-      2  A       O",
                "+      2  A",
                "1 passed, 3 failed",
            ],
        )
        (self.folder / "typo.inputs").unlink()
        ran = run_client(["test", self.folder, "--update"])
        self.assertEqual(
            (ran.status, ran.printed.splitlines()[-1]), (0, "1 passed, 0 failed, 2 written")
        )
        ran = run_client(["test", self.folder])
        self.assertEqual((ran.status, ran.printed.splitlines()[-1]), (0, "3 passed, 0 failed"))

    def test_modules_of_their_own_on_one_program(self):
        paradox, paths = EXAMPLES / "paradox", ["paradox.strl", "paradox.inputs"]
        for path in paths:
            self.file(path, (paradox / path).read_text())
        for name in ("arbiter", "mouse", "crossing"):
            self.file(f"{name}.strl", (EXAMPLES / name / f"{name}.strl").read_text())
            self.file(f"{name}.inputs", (EXAMPLES / name / f"{name}.inputs").read_text())
            self.file(f"{name}.expected", (EXAMPLES / name / f"{name}.table").read_text())
        self.file(
            "paradox.expected",
            (paradox / "paradox.table").read_text()
            + "instant 2: Stuck: the instant has no constructive reaction; undecided: O\n",
        )
        ran = run_client(["test", self.folder])
        self.assertEqual(
            (ran.status, ran.printed.splitlines()[-1]), (0, "4 passed, 0 failed"), ran.printed
        )

    def test_a_folder_without_scenarios(self):
        self.assertEqual(
            run_client(["test", self.folder]).told,
            f"estserve.py: there is no NAME.inputs in {self.folder}\n",
        )
        self.file("a.inputs", "")
        ran = run_client(["test", self.folder])
        self.assertEqual(
            ran.printed.splitlines(),
            [
                f"FAILED  a: there is no a.strl, and no other module text in {self.folder}",
                "0 passed, 1 failed",
            ],
        )


if __name__ == "__main__":
    unittest.main()
