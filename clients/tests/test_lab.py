"""The commands that ask estlab of all runs: prove, coverage, lint, whocan, graph."""
import os
import pathlib
import re
import shlex
import shutil
import textwrap
import unittest
import xml.etree.ElementTree

from support import EXAMPLES, ROOT, InAFolder, needs_program, run_client

from estserve_client.lab.asking import Subject, start_lab
from estserve_client.lab.inside import Inside
from estserve_client.library_text import join_texts
from estserve_client.module_text import main_of

TWO_STATES = """digraph PARADOX {
  rankdir=LR;
  node [shape=circle];
  0 [label="0\\nstart"];
  1 [label="1"];
  stuck [label="Stuck", shape=octagon];
  0 -> 1 [label="always"];
  1 -> 1 [label="not I"];
  1 -> stuck [label="I / undecided: O"];
}
"""
OF_NO_USE = """module M:
input A, IDLE;
output O, SILENT;
loop
  present A then
    present not A then emit SILENT else emit O end
  end;
  pause
end
end module
"""
COUNTER = """module M: output O; {} emit O end module
module SAYS_TWO:
input O;
output TWO;
await O; await O; emit TWO
end module
"""
POLICY = """users = ["ann", "bob", "cho", "dan"]
roles = ["driver", "stepper", "chief", "guest"]
[inherit]
chief = ["driver", "stepper"]
[separate.duties]
roles = ["driver", "stepper"]
count = 2
[slots]
door = 3
[permissions]
driver = ["offer door.A", "offer door.B"]
stepper = ["step door", "offer door.R"]
guest = ["step door"]
[assign]
ann = ["chief"]
bob = ["driver"]
cho = ["driver", "guest", "stepper"]
[modules]
door = "abro.strl"
"""


def abro():
    """The text of ABRO."""
    return EXAMPLES / "abro" / "abro.strl"


def needs_lab(test):
    """Marks a test that runs estlab, which the variable ESTLAB names."""
    told = "the variable ESTLAB names no program"
    return unittest.skipUnless(os.environ.get("ESTLAB"), told)(test)


class WithLab(unittest.TestCase):
    """Tests with a program estlab."""

    def setUp(self):
        self.lab = start_lab()
        self.addCleanup(self.lab.client.close)

    def inside_of(self, text, main=None):
        """A module in it."""
        return Inside(self.lab, Subject(join_texts([("m.strl", text)]), main_of(text, main)))


class OfLab(InAFolder):
    """Tests of commands that ask estlab."""

    def copied(self, path):
        """A copy of a file in the folder."""
        return pathlib.Path(shutil.copy(path, self.folder))

    def ran(self, *words):
        """What a command that tells no fault prints, and its status."""
        ran = run_client(words)
        self.assertEqual(ran.told, "")
        return ran.printed, ran.status

    def fault(self, *words):
        """What a command tells that does nothing."""
        ran = run_client(words)
        self.assertEqual((ran.printed, ran.status), ("", 1))
        return ran.told


@needs_lab
class Proving(OfLab):
    def test_what_holds_is_said_with_how_much_was_searched(self):
        words = ["--never", "O and R", "--always", "not O or A or B"]
        printed, status = self.ran("prove", abro(), *words)
        self.assertEqual(status, 0)
        self.assertEqual(
            printed,
            "ok      it is never Stuck\nok      never O and R\nok      always not O or A or B\n"
            "holds in every run: 5 states, 40 reactions\n",
        )

    def test_a_counterexample_is_drawn_and_written(self):
        path = self.copied(abro())
        printed, status = self.ran("prove", path, "--never", "O", "--never", "O and A and not B")
        self.assertEqual(status, 1)
        lines = printed.splitlines()
        self.assertEqual(lines[1], "FAILED  never O: fails in instant 2")
        self.assertEqual(lines[6], "O        output _____/‾\\")
        self.assertEqual(lines[-1], "2 of 3 fail: 5 states, 36 reactions")
        words = [self.folder / f"abro.counterexample{more}.inputs" for more in ("", "2")]
        head = "% never O: fails in the last of these instants.\n"
        self.assertEqual(words[0].read_text(), head + ";\nA B\n")
        self.assertEqual(words[1].read_text().splitlines()[1:], [";", "B", "A"])

    @needs_program
    def test_run_replays_a_counterexample(self):
        path, word = self.copied(abro()), self.folder / "word.inputs"
        test = "O and A and not B"
        printed, _ = self.ran("prove", path, "--never", test, "--write", word)
        wave = [line for line in printed.splitlines() if "put " in line]
        ran = run_client(["run", path, "--inputs", word, "--wave"])
        self.assertEqual(ran.printed.splitlines()[1:], wave)

    def test_a_module_that_gets_stuck_is_shown_with_what_is_open(self):
        path = self.copied(EXAMPLES / "paradox" / "paradox.strl")
        printed, status = self.ran("prove", path)
        self.assertEqual(status, 1)
        self.assertIn("FAILED  it is never Stuck: fails in instant 2\n", printed)
        self.assertIn("instant 2: Stuck: the instant has no constructive reaction", printed)
        self.assertIn("O waits for itself: line 6 may emit it once O is absent\n", printed)
        self.assertIn(f"{path}:6:16: emit O, once O is absent\n", printed)
        self.assertEqual(self.ran("prove", path, "--inputs", "")[1], 0)

    def test_inputs_say_what_may_be_offered(self):
        words = ["prove", abro(), "--never", "O", "--write", self.folder / "word"]
        self.assertIn("FAILED  never O: fails in instant 2", self.ran(*words)[0])
        self.assertEqual(self.ran(*words, "--inputs", "A,R")[1], 0)

    def test_an_observer_says_what_must_not_be(self):
        path = self.file("m.strl", COUNTER.format("emit O; pause; pause;"))
        words = ["--main", "M", "--observer", "SAYS_TWO"]
        printed, status = self.ran("prove", path, *words)
        self.assertEqual((printed.splitlines()[1], status), ("ok      never TWO", 0))
        printed, status = self.ran("prove", path, *words, "--same", path)
        self.assertEqual((printed.splitlines()[2], status), (f"ok      the same as {path}", 0))
        path = self.file("m.strl", COUNTER.format("pause; emit O; pause; pause;"))
        printed, status = self.ran("prove", path, *words)
        self.assertEqual(status, 1)
        self.assertIn("FAILED  never TWO: fails in instant 4\n", printed)
        self.assertIn("TWO      output _____________/‾\\\n", printed)

    def test_an_observer_beside_a_module_of_the_longest_name(self):
        name = "M" * 48
        text = f"module {name}: input A; nothing end module\nmodule N: input A; output B; halt end module"
        words = ["prove", self.file("m.strl", text), "--main", name, "--observer", "N"]
        self.assertEqual(self.ran(*words)[1], 0)

    def test_two_modules_that_do_the_same(self):
        other = self.file("other.strl", abro().read_text().replace("await B", "await immediate B"))
        printed, status = self.ran("prove", abro(), "--same", abro())
        self.assertEqual((printed.splitlines()[1], status), (f"ok      the same as {abro()}", 0))
        words = ["--same", other, "--write", self.folder / "word"]
        printed, status = self.ran("prove", abro(), *words)
        self.assertEqual(status, 1)
        lines = printed.splitlines()
        self.assertEqual(lines[1], f"FAILED  the same as {other}: fails in instant 2")
        self.assertEqual([line for line in lines if line.startswith("O ")], [
            "O        output ________", "O        output _____/‾\\",
        ])  # fmt: skip
        self.assertEqual((self.folder / "word").read_text().splitlines()[1:], ["B", "A"])

    def test_a_module_of_another_name_is_compared(self):
        other = self.file("other.strl", abro().read_text().replace("ABRO", "ABRO2"))
        printed, status = self.ran("prove", abro(), "--main", "ABRO", "--same", other)
        self.assertEqual((printed.splitlines()[1], status), (f"ok      the same as {other}", 0))

    def test_too_many_states_decide_nothing(self):
        printed, status = self.ran("prove", abro(), "--most", "3")
        self.assertEqual(status, 3)
        self.assertIn("1 of 1 undecided: the search ended at ", printed)


@needs_lab
class Claims(OfLab):
    def test_each_example_keeps_its_claims(self):
        folders = sorted(path.parent for path in EXAMPLES.glob("*/*.claims"))
        texts = sorted(path.parent for path in EXAMPLES.glob("*/*.strl"))
        self.assertEqual(folders, texts)
        for folder in folders:
            with self.subTest(folder.name):
                printed, status = self.ran("prove", folder)
                self.assertEqual((printed.splitlines()[-1], status), ("1 passed, 0 failed", 0))

    def test_a_folder_with_one_that_fails(self):
        self.copied(abro())
        self.file("abro.claims", "never O and R % R wins\n\ninputs A, B\n")
        self.file("b.claims", "main ABRO\nnever O\n")
        self.file("c.claims", "never O and\n")
        ran = run_client(["prove", self.folder])
        lines = ran.printed.splitlines()
        told = "holds in every run: 5 states, 10 reactions"
        self.assertEqual((lines[0], lines[3]), ("abro (ABRO):", told))
        self.assertEqual((lines[-1], ran.status), ("1 passed, 2 failed", 1))
        told = f"{self.folder}/c.claims:1: the claim `never O and` cannot be read"
        self.assertIn(told, ran.printed)
        self.assertTrue((self.folder / "b.counterexample.inputs").exists())

    def test_a_file_of_junit(self):
        self.copied(abro())
        self.file("abro.claims", "never O and R\n")
        path = self.file("b.claims", "main ABRO\nnever O\n")
        self.file("c.claims", "never O and\n")
        out, other = self.folder / "out.xml", EXAMPLES / "abro"
        ran = run_client(["prove", self.folder, other, "--junit", out])
        self.assertEqual((ran.printed.splitlines()[-1], ran.status), ("2 passed, 2 failed", 1))
        suite = xml.etree.ElementTree.parse(out).getroot()
        told = (suite.get("name"), suite.get("failures"), suite.get("errors"))
        self.assertEqual(told, (f"{self.folder} {other}", "2", "0"))
        cases = {(one.get("classname"), one.get("name")): one for one in suite}
        self.assertGreater(float(cases["abro", "never O and R"].get("time")), 0)
        case = cases["b", "never O"]
        self.assertEqual(case.get("file"), str(path))
        failure = case.find("failure")
        self.assertEqual(failure.get("message"), "fails in instant 2")
        self.assertIn("O        output _____/‾\\", failure.text)
        self.assertIn("cannot be read", cases["c", "c"].find("failure").get("message"))
        run_client(["prove", abro(), "--junit", out, "--most", "3"])
        undecided = xml.etree.ElementTree.parse(out).getroot()[0].find("failure")
        self.assertIn("undecided", undecided.get("message"))

    def test_what_is_no_claim(self):
        for test, told in [
            ("X", "ABRO has no input or output X\n"),
            ("not BB", "ABRO has no input or output BB\n"),
            ("O or", "a test can't go on so\nnever O or\n          ^\n"),
            ("O ? R", "no token stands here\nnever O ? R\n        ^\n"),
            (
                "O && R",
                "no token stands here\nnever O && R\n        ^\n"
                "`and` stands between two signals of a test: `A and B`\n",
            ),
        ]:
            told = f"estserve.py: the claim `never {test}` cannot be read: {told}"
            self.assertEqual(self.fault("prove", abro(), "--never", test), told)
        watched = [abro(), EXAMPLES / "abro" / "late.observer", "--observer", "WATCH"]
        told = self.fault("prove", *watched, "--never", "LATR")
        self.assertIn("ABRO has no input or output LATR; did you mean `LATE`?\n", told)
        inner = EXAMPLES / "reincarnation" / "reincarnation.strl"
        told = self.fault("prove", inner, "--never", "S")
        self.assertTrue(
            told.endswith(": it is a local signal, of which nothing can be claimed\n"), told
        )
        told = self.fault("prove", abro(), "--inputs", "A,O")
        self.assertEqual(told, "estserve.py: ABRO has no input O\n")
        told = f"estserve.py: there is no module ABR0 in {abro()}; did you mean `ABRO`?\n"
        for word in ("prove", "graph"):
            self.assertEqual(self.fault(word, abro(), "--main", "ABR0", "--inputs", "A"), told)
        told = self.fault("prove", abro(), "--observer", "ABRA")
        self.assertIn(f"there is no module ABRA in {abro()}; did you mean `ABRO`?\n", told)
        path = self.file("m.strl", "module M: output O; emmit O end module")
        self.assertTrue(self.fault("prove", path).startswith(f"{path}:1:21: "))
        other = self.file("n.strl", "module N: output P; emit P end module")
        told = self.fault("prove", abro(), "--same", other)
        self.assertIn("don't declare the same signals", told)
        self.assertTrue(told.endswith(": ABRO has input A where N has output P\n"), told)
        other = self.file("n.strl", "module N: input A, B, R; pause end module")
        told = self.fault("prove", abro(), "--same", other)
        self.assertTrue(told.endswith(": ABRO has output O where N has nothing more\n"), told)


@needs_lab
class Coverage(OfLab):
    def test_what_is_written_tries_the_rest(self):
        self.copied(EXAMPLES / "mouse" / "mouse.strl")
        self.copied(EXAMPLES / "mouse" / "mouse.inputs")
        self.copied(abro())  # mouse.MORE.inputs are of the mouse all the same
        printed, status = self.ran("coverage", self.folder)
        lines = printed.splitlines()
        head = "MOUSE, 1 scenario: 9 of 13 states, 10 of 73 reactions, 3 of 3 emissions"
        self.assertEqual((lines[0], status), (head, 1))
        self.assertEqual(lines[1], "  state 2: tried by `; RIGHT`")
        self.assertEqual(self.ran("coverage", self.folder, "--write")[1], 1)
        printed, status = self.ran("coverage", self.folder)
        told = "13 of 13 states, 73 of 73 reactions, 3 of 3 emissions\n"
        self.assertEqual((printed.partition(": ")[2], status), (told, 0))

    def test_a_name_that_is_no_input_is_refused(self):
        self.copied(abro())
        self.file("abro.inputs", "A\nPUSH\n")
        told = f"{self.folder}/abro.inputs:2:1: ABRO has no input PUSH\n"
        self.assertEqual(self.fault("coverage", self.folder), told)

    def test_a_text_or_a_scenario_with_a_fault_leaves_the_others(self):
        self.copied(abro())
        self.file("abro.inputs", ";\nA B\n")
        path = self.file("m.strl", "module M: output O; emmit O end module")
        self.file("m.inputs", ";\n")
        self.file("abro.wrong.inputs", "PUSH\n")
        other = self.folder / "other"
        other.mkdir()
        shutil.copy(abro(), other)
        (other / "abro.inputs").write_text(";\n")
        ran = run_client(["coverage", self.folder, other])
        wrong = f"FAILED  {self.folder}/abro.wrong.inputs:1:1: ABRO has no input PUSH\n"
        self.assertTrue(ran.printed.startswith(wrong), ran.printed)
        self.assertIn("ABRO, 1 scenario: 3 of 5 states, 2 of 14 reactions", ran.printed)
        self.assertIn(f"FAILED  {path}:1:21: Syntax", ran.printed)
        self.assertIn("ABRO, 1 scenario: 2 of 5 states, 1 of 14 reactions", ran.printed)
        self.assertEqual((ran.status, ran.told), (1, ""))

    def test_an_emission_that_is_not_tried(self):
        self.copied(abro())
        self.file("abro.inputs", ";\nA\n;\n")
        printed, _ = self.ran("coverage", self.folder)
        head = "ABRO, 1 scenario: 3 of 5 states, 3 of 14 reactions, 0 of 1 emissions"
        place = f"{self.folder}/abro.strl:7:3"
        self.assertIn(f"{head}\n  emission of O at {place}: tried by `; A B`\n", printed)


@needs_lab
class Linting(OfLab):
    def test_each_thing_of_no_use(self):
        path = self.file("m.strl", OF_NO_USE)
        printed, status = self.ran("lint", path)
        self.assertEqual(status, 1)
        self.assertEqual(printed, textwrap.dedent(f"""\
            {path}:2:10: no reaction looks at IDLE
            {path}:3:11: no run emits SILENT
            {path}:6:24: no run begins this statement
            3 found: 2 states, 4 reactions
            """))  # fmt: skip

    def test_inputs_that_come_together_alone_are_not_told_of(self):
        both = "input A, B; relation A => B, B => A; output O;"
        path = self.file("m.strl", f"module M: {both} every A do emit O end end module")
        self.assertEqual(self.ran("lint", path)[1], 0)

    def test_examples(self):
        self.assertEqual(self.ran("lint", abro()), ("nothing found: 5 states, 14 reactions\n", 0))
        path = EXAMPLES / "paradox" / "paradox.strl"
        told = "Stuck: the instant has no constructive reaction; undecided: O"
        self.assertIn(f"{path}:2:8: with the inputs `; I`: {told}\n", self.ran("lint", path)[0])


@needs_lab
class WhoCan(OfLab):
    def setUp(self):
        super().setUp()
        self.copied(abro())
        self.policy = self.file("team.toml", POLICY)

    def test_who_by_which_roles(self):
        printed, status = self.ran("whocan", self.policy, "O", "R")
        apart = ", in sessions one after another (duties)"
        self.assertEqual(printed.splitlines(), [
            f"3.O: ann as driver and stepper{apart}: by `; A B`",
            f"3.O: cho as driver and stepper{apart}: by `; A B`",
            "3.O: cho as driver and guest: by `; A B`",
            "3.R: ann as stepper: by `R`",
            "3.R: cho as stepper: by `R`",
        ])  # fmt: skip
        self.assertEqual(status, 0)

    def test_roles_together(self):
        printed, _ = self.ran("whocan", self.policy, "door.O", "3.A", "--roles", "driver,stepper")
        self.assertEqual(printed.splitlines(), [
            "3.O: driver and stepper together: by `; A B`",
            "3.A: driver and stepper together: by `A`",
        ])  # fmt: skip
        printed, _ = self.ran("whocan", self.policy, "O", "--roles", "stepper,guest")
        self.assertEqual(printed, "3.O: nobody\n")

    def test_what_is_not_there(self):
        for words, told in [
            (["X"], "ABRO has no signal X"),
            (["2.O"], "the policy's table `modules` names no text for the slot 2"),
            (["O", "--roles", "king"], "the policy has no role king"),
            (["O", "--roles", "steper"], "the policy has no role steper; did you mean `stepper`?"),
        ]:
            self.assertEqual(self.fault("whocan", self.policy, *words), f"estserve.py: {told}\n")


@needs_lab
@needs_program
class Documents(OfLab):
    BLOCK = re.compile(
        r"<!-- lab -->\s*```console\n\$ python3 clients/estserve.py ([^\n]*)\n(.*?)```\n", re.DOTALL
    )

    def test_each_command_prints_what_is_told(self):
        self.addCleanup(os.chdir, os.getcwd())
        os.chdir(ROOT)
        for name, count in [("TUTORIAL", 3), ("PROVING", 4), ("LANGUAGE", 1)]:
            text = (ROOT / "docs" / f"{name}.md").read_text()
            blocks = self.BLOCK.findall(text)
            self.assertEqual((len(blocks), text.count("<!-- lab -->")), (count, count))
            for words, printed in blocks:
                with self.subTest(words):
                    words = shlex.split(words.replace("/tmp/", f"{self.folder}/"))
                    ran = run_client(words)
                    told = (ran.printed + ran.told).replace(f"{self.folder}/", "/tmp/")
                    self.assertEqual(told, printed)


@needs_lab
class Graphs(OfLab):
    def test_a_drawing(self):
        path = EXAMPLES / "paradox" / "paradox.strl"
        self.assertEqual(self.ran("graph", path), (TWO_STATES, 0))

    def test_sixty_states_are_too_many(self):
        path = self.file("m.strl", f"module M: output O; {'pause; ' * 58}emit O; halt end module")
        told = "estserve.py: M has 60 states: a drawing has under 60\n"
        self.assertEqual(self.fault("graph", path), told)
        told = "there are more than 20 states or reactions: --most allows more"
        self.assertIn(told, self.fault("graph", path, "--most", "20"))


if __name__ == "__main__":
    unittest.main()
