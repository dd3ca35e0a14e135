"""What `test` tells of a folder for machines, and of which scenarios; colours, the bar of a long run,
and the workflows of examples/ci.
"""
import io
import json
import os
import pathlib
import re
import shlex
import unittest
import unittest.mock
import xml.etree.ElementTree

from support import EXAMPLES, InAFolder, needs_program, run_client

import estserve
from estserve_client.colours import Colours
from estserve_client.commands import make_parser
from estserve_client.drawing import Progress, bar
from estserve_client.outcomes import FAILED, PASSED, Outcome, write_junit
from estserve_client.texts import Failed
from estserve_client.texts_beside import tell_choice, texts_beside

ABRO = EXAMPLES / "abro" / "abro.strl"
CELL = "module CELL: input I; output O; loop present I then emit O end; pause end end module\n"
CI = EXAMPLES / "ci"


@needs_program
class Folders(InAFolder):
    def setUp(self):
        super().setUp()
        self.file("abro.strl", ABRO.read_text())
        self.file("both.inputs", ";\nA B\n")
        self.file("both.expected", "instant  inputs  outputs\n      1\n      2  A B     O\n")
        self.file("wrong.inputs", ";\nA\n")
        self.file("wrong.expected", "instant  inputs  outputs\n      1\n      2  A       <O>\n")

    def test_a_file_of_junit(self):
        path = self.folder / "out.xml"
        ran = run_client(["test", self.folder, "--junit", path])
        self.assertEqual((ran.status, ran.printed.splitlines()[-1]), (1, "1 passed, 1 failed"))
        suite = xml.etree.ElementTree.parse(path).getroot()
        self.assertEqual(
            (suite.tag, suite.get("tests"), suite.get("failures")), ("testsuite", "2", "1")
        )
        both, wrong = suite
        self.assertEqual((both.get("name"), both.findall("failure")), ("both", []))
        self.assertEqual(both.find("properties")[0].attrib, {"name": "module", "value": "ABRO"})
        self.assertEqual(wrong.get("file"), f"{self.folder}/wrong.inputs")
        failure, told = wrong.find("failure"), "the first difference is at instant 2"
        self.assertEqual((failure.get("message"), failure.text.split("\n")[0]), (told, told))
        self.assertIn("-      2  A       <O>\n+      2  A", failure.text)
        times = [float(one.get("time")) for one in (both, wrong)]
        self.assertGreater(min(times), 0)  # which take less than a millisecond
        self.assertAlmostEqual(float(suite.get("time")), sum(times), 5)

    def test_lines_of_tap(self):
        lines = run_client(["test", self.folder, "--tap"]).printed.splitlines()
        self.assertEqual(lines[:3], ["TAP version 13", "1..2", "ok 1 - both (ABRO): 2 instants"])
        self.assertEqual(lines[3], "not ok 2 - wrong (ABRO): the first difference is at instant 2")
        self.assertEqual(lines[-1], "# +      2  A")

    def test_an_object_of_json(self):
        told = json.loads(run_client(["test", self.folder, "--json"]).printed)
        self.assertEqual((told["passed"], told["failed"], told["written"]), (1, 1, 0))
        outcomes = [(one["name"], one["outcome"]) for one in told["scenarios"]]
        self.assertEqual(outcomes, [("both", "ok"), ("wrong", "failed")])

    def test_scenarios_by_their_names(self):
        for words, names in [
            (["-k", "ro"], ["wrong"]),
            (["-k", "b*"], ["both"]),
            (["-k", "ot", "-k", "wr"], ["both", "wrong"]),
        ]:
            told = json.loads(run_client(["test", self.folder, "--json", *words]).printed)
            self.assertEqual([one["name"] for one in told["scenarios"]], names)
        ran = run_client(["test", self.folder, "-k", "none"])
        self.assertEqual(ran.told, f"estserve.py: no scenario in {self.folder} is called none\n")

    def test_several_folders(self):
        other = self.folder / "other"
        other.mkdir()
        (other / "cell.strl").write_text(CELL)
        (other / "both.inputs").write_text("I\n")
        (other / "both.expected").write_text("instant  inputs  outputs\n      1  I       O\n")
        path = self.folder / "out.xml"
        ran = run_client(["test", self.folder, other, "-k", "both", "--junit", path])
        told = f"ok      {self.folder}/both (ABRO): 2 instants\n"
        told += f"ok      {other}/both (CELL): 1 instant\n2 passed, 0 failed\n"
        self.assertEqual((ran.status, ran.printed), (0, told))
        suite = xml.etree.ElementTree.parse(path).getroot()
        self.assertEqual(suite.get("name"), f"{self.folder} {other}")
        self.assertEqual([one.get("classname") for one in suite], [str(self.folder), str(other)])
        self.assertEqual([one.get("name") for one in suite], ["both", "both"])
        empty = self.folder / "empty"
        empty.mkdir()
        for path, told in (
            (empty, f"there is no NAME.inputs in {empty}"),
            (self.folder / "none", f"{self.folder}/none is no folder: it is not there"),
            (
                other / "both.inputs",
                f"{other}/both.inputs is no folder: name its folder, and -k both",
            ),
        ):
            self.assertEqual(run_client(["test", self.folder, path]).told, f"estserve.py: {told}\n")

    def test_a_table_that_is_held_against_nothing(self):
        self.file("old.expected", "instant  inputs  outputs\n")
        for more in ([], ["--update"]):
            ran = run_client(["test", self.folder, "-k", "old", *more])
            told = "FAILED  old: there is no old.inputs: old.expected is held against nothing\n"
            self.assertEqual((ran.status, ran.printed.splitlines(True)[0]), (1, told))
        for path in pathlib.Path(self.folder).glob("*.inputs"):
            path.unlink()
        self.assertIn(told, run_client(["test", self.folder]).printed)

    def test_several_files_of_modules(self):
        main = self.file(
            "main.txt", "module MAIN: input A; output B; run CELL [signal A/I, B/O] end module\n"
        )
        cell = self.file("cell.txt", CELL)
        self.file("cells.inputs", "A\n;\n")
        self.file("cells.expected", "instant  inputs  outputs\n      1  A       B\n      2\n")
        ran = run_client(["test", self.folder, "-k", "cells", "--module", main, cell])
        self.assertEqual(
            (ran.status, ran.printed), (0, "ok      cells (MAIN): 2 instants\n1 passed, 0 failed\n")
        )

    def test_a_refusal_is_not_blessed_without_a_word(self):
        paradox = EXAMPLES / "paradox"
        stuck = "instant 2: Stuck: the instant has no constructive reaction; undecided: O"
        self.file("paradox.strl", (paradox / "paradox.strl").read_text())
        self.file("paradox.inputs", (paradox / "paradox.inputs").read_text())
        words = ["test", self.folder, "-k", "paradox", "--update"]
        blessed = f"WITH A REFUSAL as what is expected: {stuck}"
        told = f"written paradox (PARADOX): 1 instant, then Stuck; {blessed}"
        self.assertEqual(run_client(words).printed.splitlines()[0], told)
        self.assertEqual(
            run_client(words).printed.splitlines()[0],
            f"ok      paradox (PARADOX): 1 instant, then Stuck; {stuck}",
        )
        self.file("paradox.inputs", ";\nI\n;\n;\n")
        told = "ok      paradox (PARADOX): 1 instant, then Stuck; 2 instants not run"
        self.assertEqual(run_client(words[:-1]).printed.splitlines()[0], told)
        path = self.folder / "table"
        words = ["run", self.folder / "paradox.strl", "--inputs", self.folder / "paradox.inputs"]
        ran = run_client([*words, "--expect", path, "--update"])
        told = f"{path} is written: 1 instant, then Stuck; 2 instants not run; {blessed}\n"
        self.assertEqual(ran.printed, told)


@needs_program
class Modules(InAFolder):
    """Which module a scenario, or a list of claims, is of."""

    def setUp(self):
        super().setUp()
        self.file("abro.strl", ABRO.read_text())
        self.file("cell.strl", CELL)

    def test_one_that_is_not_there_is_not_guessed(self):
        self.file("door_two.inputs", "A\n")
        self.file("cell.on.inputs", "I\n")
        ran = run_client(["test", self.folder, "--update"])
        beside = "there is no door_two.strl, and several modules beside it are run by none"
        told = f"FAILED  door_two: {beside} (ABRO, CELL): name the texts by --module"
        self.assertIn(told, ran.printed)
        self.assertIn("written cell.on (CELL): 1 instant\n", ran.printed)
        self.assertFalse((self.folder / "door_two.expected").exists())
        ran = run_client(["test", self.folder, "--update", "--main", "ABRO", "-k", "door"])
        self.assertEqual(ran.printed.split("\n")[0], "written door_two (ABRO): 1 instant")

    def test_what_a_module_runs_is_found_beside_it(self):
        self.file(
            "ring.strl", "module RING: input A; output B; run LINK [signal A/I, B/O] end module"
        )
        link = "module LINK: input I; output O; run CELL end module"
        self.file("link.strl", link)
        self.file("ring.inputs", "A\n;\n")
        ran = run_client(["test", self.folder, "--update"])
        self.assertEqual(ran.printed.split("\n")[0], "written ring (RING): 2 instants")
        expected = "instant  inputs  outputs\n      1  A       B\n      2\n"
        self.assertEqual((self.folder / "ring.expected").read_text(), expected)
        self.file("more.strl", link)
        ran = run_client(["test", self.folder])
        told = "link.strl and more.strl have a module LINK each, which ring.strl runs"
        self.assertIn(f"FAILED  ring: {told}: name the texts by --module", ran.printed)
        self.file("more.strl", "module OTHER: run NONE end module")
        self.file("link.strl", "module LINK: run NONE end module")
        self.assertIn(
            "UnknownModule: there is no module NONE", run_client(["test", self.folder]).printed
        )

    def test_claims_are_of_a_module_that_is_there(self):
        path = self.file("lampe.claims", "never O\n")
        with self.assertRaisesRegex(Failed, r"no lampe\.strl, .* \(ABRO, CELL\): name the"):
            texts_beside(path, None, "name the module")
        for main, name, texts in [
            ("CELL", "lampe.claims", ["abro.strl", "cell.strl"]),
            (None, "cell.on.claims", ["cell.strl"]),
        ]:
            found = texts_beside(self.folder / name, main, "")
            self.assertEqual([text.name for text in found], texts)

    def test_what_is_not_read_any_more_is_no_fault_of_the_program(self):
        told = self.folder / "told"
        late = f"trap '' PIPE; cat >&2; sleep 0.1; echo late 2> {told} && rm {told}"
        path = self.file("late", f"#!/bin/sh\n{late}\n")
        path.chmod(0o755)
        estserve.start(path).close()
        self.assertFalse(told.exists())

    def test_a_choice_among_several_is_told_once(self):
        both = self.file("both.strl", CELL + CELL.replace("CELL", "SPIN"))
        for name in ("both.one.inputs", "both.two.inputs"):
            path = self.file(name, "I\n")
        told = "running CELL; SPIN too is run by none: choose by --main\n"
        for words in (["test", self.folder, "--update"], ["run", both, "--inputs", path]):
            tell_choice.cache_clear()
            self.assertEqual(run_client(words).told, told)
        tell_choice.cache_clear()
        self.assertEqual(run_client([*words, "--main", "SPIN"]).told, "")

    def test_a_counterexample_is_no_scenario(self):
        self.file("abro.inputs", "A\n")
        for name in ("abro.counterexample", "abro.counterexample2"):
            self.file(f"{name}.inputs", "A B\n")
        ran = run_client(["test", self.folder, "--update"])
        self.assertEqual(ran.printed.splitlines()[-1], "0 passed, 0 failed, 1 written")
        self.assertFalse((self.folder / "abro.counterexample.expected").exists())

    def test_a_fault_of_a_text_is_shown_once(self):
        text = self.file("m.strl", "module M: output O; emmit O end module\n")
        for name in ("m.a", "m.b"):
            self.file(f"{name}.inputs", "\n;\n")
        lines = run_client(["test", self.folder]).printed.splitlines()
        self.assertTrue(lines[0].startswith(f"FAILED  m.a (M): {text}:1:21: "), lines[0])
        self.assertEqual(lines[-2], lines[0].replace("m.a", "m.b") + " (as for m.a)")
        self.assertEqual(sum(line.lstrip().startswith("^") for line in lines), 1)

    def test_what_is_overwritten_is_written_anew(self):
        self.file("abro.inputs", "A\n")
        self.file("abro.expected", "instant  inputs  outputs\n      1  A       O\n")
        lines = run_client(["test", self.folder, "--update"]).printed.splitlines()
        told = ["written anew abro (ABRO): 1 instant", "0 passed, 0 failed, 1 written"]
        self.assertEqual(lines, told)


class Files(InAFolder):
    def test_a_file_of_junit_where_nothing_ran(self):
        self.file("abro.strl", ABRO.read_text())
        self.file("abro.inputs", "A\n")
        path = self.folder / "out.xml"
        words = ["test", f"{self.folder}/", "--junit", path, "--program", "/bin/false"]
        told = "/bin/false ended before it answered anything"
        self.assertEqual(run_client(words).told, f"estserve.py: {told}\n")
        suite = xml.etree.ElementTree.parse(path).getroot()
        self.assertEqual((suite.get("name"), suite.get("errors")), (str(self.folder), "1"))
        self.assertEqual(suite[0].find("error").get("message"), told)

    def test_a_file_of_junit_holds_any_text(self):
        path = self.folder / "out.xml"
        told = "\x00\x1b[31m <&\"'> é \udcff"
        write_junit(
            str(path),
            told,
            [Outcome(told, FAILED, told, [told, "]]>"], told), Outcome("a", PASSED, "", [], "a")],
        )
        suite = xml.etree.ElementTree.parse(path).getroot()
        self.assertEqual(suite[0].get("name"), "??[31m <&\"'> é ?")
        self.assertTrue(suite[0][0].text.endswith("\n]]>"))


class Terminals(unittest.TestCase):
    class Screen(io.StringIO):
        def isatty(self):
            return True

    def colours(self, **variables):
        with unittest.mock.patch.dict(os.environ, {"TERM": "xterm", "NO_COLOR": "", **variables}):
            return Colours(self.Screen())

    def test_colours_are_for_terminals_that_have_them(self):
        self.assertEqual(self.colours().word("ok", True), "\033[32mok\033[0m")
        for variables in ({"NO_COLOR": "1"}, {"TERM": "dumb"}):
            self.assertEqual(self.colours(**variables).word("ok", True), "ok")
        self.assertFalse(Colours(io.StringIO()).is_on)

    def test_a_fault_in_colours(self):
        text = "m.strl:2:3: Syntax: a name expected\n  emit end\n       ^\ndid you mean: this"
        self.assertEqual(self.colours(NO_COLOR="1").of_fault(text), text)
        lines = self.colours().of_fault(text).split("\n")
        self.assertEqual(lines[0], "\033[1mm.strl:2:3:\033[0m Syntax: a name expected")
        self.assertEqual(lines[1:], ["  emit end", "\033[31m       ^\033[0m", "did you mean: this"])

    def test_a_bar_for_runs_that_take_over_a_second(self):
        self.assertEqual(bar(1_000, 4_000, 200), f"[{'#' * 10}{' ' * 30}] 1,000 of 4,000 instants")
        self.assertEqual(len(bar(10, 40, 30)), 30)
        with unittest.mock.patch("sys.stderr", self.Screen()) as screen:
            progress = Progress(40, True)
            progress.at(10)
            self.assertEqual(screen.getvalue(), "")
            progress.next = 0
            progress.at(20)
            self.assertRegex(screen.getvalue(), r"^\r\[#+ +\] 20 of 40 instants$")
            progress.end()
            self.assertRegex(screen.getvalue(), r"\r +\r$")


class Workflows(unittest.TestCase):
    def test_each_call_of_the_client_is_one_that_it_knows(self):
        for name in ("github.yml", "gitlab.yml"):
            text = (CI / name).read_text()
            calls = re.findall(r"^\s*(?:- |run: )*estserve-client (.*)$", text, re.MULTILINE)
            commands = [call.split()[0] for call in calls]
            self.assertEqual(commands, ["format", "test", "prove"], name)
            for call in calls:
                words = shlex.split(call)
                self.assertEqual(make_parser(words[0]).parse_args(words).command, words[0])
            for report in ("scenarios.xml", "claims.xml"):
                self.assertIn(f"--junit {report}", text)
                self.assertGreaterEqual(text.count(report), 2, f"{name} keeps {report}")
            self.assertNotIn("\t", text)
            self.assertIn(
                'echo "${ESTSERVE_SHA256:?}  /tmp/estserve.deb" | sha256sum --check', text
            )
            self.assertIn('"${ESTSERVE_PACKAGE:?}"', text)


if __name__ == "__main__":
    unittest.main()
