"""The parts of the commands that ask estlab, without it: claims, marks, tables, tours, roles."""
import contextlib
import io
import os
import pathlib
import signal
import subprocess
import sys
import tempfile
import time
import unittest
import unittest.mock

from support import CLIENTS, EXAMPLES

from estserve_client import connection
from estserve_client.inputs import read_inputs
from estserve_client.lab.asking import Lab, Subject, read_subject, start_lab
from estserve_client.lab.claims import Claim, read_claims
from estserve_client.lab.coverage import SHOWN, Untried, tell_untried
from estserve_client.lab.linting import matters
from estserve_client.lab.marks import mark, parts_to_mark, reached
from estserve_client.lab.observing import observed
from estserve_client.lab.parts import parts_of
from estserve_client.access import Access
from estserve_client.lab.table import Table
from estserve_client.lab.tours import tours_of
from estserve_client.lab.whocan import MOST_ROLES, least_sets
from estserve_client.lab.words import in_one_line
from estserve_client.library_text import join_texts
from estserve_client.module_text import main_of
from estserve_client.policy_file import read_file
from estserve_client.syntax_tree import parse
from estserve_client.texts import Failed, Placed

CLAIMS = """% a comment
never  A and B  % another one
main M
inputs A, B C
always [ O ]
text more.strl
observer WATCH
same other.strl
"""


def row(before, asked, inputs, after, outputs=""):
    """A row of a table, as the program writes it."""
    told = {"from": before, "asked": asked.split(), "inputs": inputs.split()}
    return {**told, "next": after, "outputs": outputs.split()}


def subject_of(text, main=None):
    """A module of a text."""
    return Subject(join_texts([("m.strl", text)]), main_of(text, main))


class Ends(unittest.TestCase):
    def test_a_search_ends_with_its_command(self):
        with tempfile.TemporaryDirectory() as name:
            told, lab = pathlib.Path(name) / "told", pathlib.Path(name) / "estlab"
            script = f"#!/bin/sh\nread line\necho $$ > {told}.new\nmv {told}.new {told}\n"
            lab.write_text(script + "exec sleep 600\n")  # once it is asked, it searches
            lab.chmod(0o755)
            words = ["prove", str(EXAMPLES / "abro" / "abro.strl"), "--estlab", str(lab)]
            command = [sys.executable, "-B", str(CLIENTS / "estserve.py"), *words]
            for number in (signal.SIGTERM, signal.SIGHUP):
                with subprocess.Popen(command) as child:
                    wait_for(told.exists)
                    search = int(told.read_text())
                    child.send_signal(number)
                    self.assertEqual(child.wait(60), 128 + number)
                wait_for(lambda: not pathlib.Path(f"/proc/{search}").exists())
                told.unlink()


def wait_for(what):
    """Waits until this is so. Fails, where it isn't in time."""
    end = time.monotonic() + 60
    while not what():
        if time.monotonic() > end:
            raise AssertionError("not in time")
        time.sleep(0.02)


class Claims(unittest.TestCase):
    def test_a_file_of_claims(self):
        found = read_claims(CLAIMS, "m.claims")
        self.assertEqual(
            found.claims,
            [Claim("never", "A and B", "m.claims:2"), Claim("always", "[ O ]", "m.claims:5")],
        )
        self.assertEqual((found.main, found.inputs), ("M", ["A", "B", "C"]))
        self.assertEqual(
            (found.texts, found.observers, found.same), (["more.strl"], ["WATCH"], ["other.strl"])
        )
        self.assertEqual(read_claims("inputs\n", "m.claims").inputs, [])
        self.assertIsNone(read_claims("", "m.claims").inputs)

    def test_what_is_none(self):
        for text in ("nevver A", "never", "main A B", "main", "A"):
            with self.assertRaises(Placed, msg=text) as raised:
                read_claims(f"% head\n{text}\n", "m.claims")
            self.assertTrue(str(raised.exception).startswith("m.claims:2: this is no claim"))
            meant = str(raised.exception).endswith("or same; did you mean `never`?")
            self.assertEqual(meant, text == "nevver A")


class Words(unittest.TestCase):
    def test_a_line_is_read_as_the_word_it_was(self):
        for word in ([["A", "B"]], [[]], [[], ["A"]], [["A"], []], [[], []], [["A"], [], ["B"]]):
            line = in_one_line(word)
            self.assertEqual([list(names) for names in read_inputs(line).names], word, line)

    def test_what_is_not_tried_is_counted(self):
        for more, told in ((1, "  and 1 more state"), (2, "  and 2 more states")):
            with contextlib.redirect_stdout(io.StringIO()) as printed:
                tell_untried("state", [Untried("1", [])] * (SHOWN + more))
            self.assertEqual(printed.getvalue().splitlines()[SHOWN:], [told])


class Marks(unittest.TestCase):
    def test_each_module_has_the_marks_and_the_statement_emits_its_own(self):
        text = (EXAMPLES / "arbiter" / "arbiter.strl").read_text()
        subject = subject_of(text)
        nodes = [node for module in reached(subject) for node in parts_to_mark(module.body)]
        marked = mark(subject, nodes[:3])
        added = marked.subject.library.text
        self.assertEqual(list(marked.statements), ["BEGUN0", "BEGUN1", "BEGUN2"])
        self.assertEqual(added.count("output BEGUN0, BEGUN1, BEGUN2; "), 2)
        self.assertEqual(added.count("emit BEGUN1; "), 1)
        self.assertEqual(added.count("\n"), text.count("\n"))
        self.assertIsNotNone(parse(added))
        names = [name for name, _ in marked.subject.module.signals]
        self.assertEqual(names[:4], ["BEGUN0", "BEGUN1", "BEGUN2", "R1"])

    def test_statements_that_may_not_begin(self):
        text = """module M: input A; output O;
  emit O; [ pause; nothing || abort emit O; halt when A ]; present A then emit O end;
  abort sustain O when immediate A; trap T in exit T end; every A do emit O; pause end
end module"""
        module = parse(text)[0]
        found = [(node.kind, node.at.line) for node in parts_to_mark(module.body)]
        self.assertEqual(found, [
            ("pause", 2), ("nothing", 2), ("halt", 2), ("present", 2), ("emit", 2),
            ("abort", 3), ("sustain", 3), ("trap", 3), ("every", 3), ("emit", 3), ("pause", 3),
        ])  # fmt: skip


class Observers(unittest.TestCase):
    TEXT = """module M: input A; inputoutput L; output O; relation A # L; nothing end module
module W: input A, O, L; output ALARM; nothing end module"""

    def test_the_module_with_its_observer_is_a_module(self):
        found = observed(subject_of(self.TEXT, "M"), ["W"])
        text = found.library.text
        self.assertEqual(main_of(text, found.module.name).signals, found.module.signals)
        self.assertEqual(found.module.relations, ["A # L"])
        self.assertEqual(found.module.signals[-1], ("ALARM", "output"))
        self.assertIsNotNone(parse(text))

    def test_what_only_observes(self):
        for old, new in [("output ALARM", "output O"), ("input A, O", "input A, P")]:
            with self.assertRaises(Failed):
                observed(subject_of(self.TEXT.replace(old, new), "M"), ["W"])


class Tables(unittest.TestCase):
    def test_a_row_stands_for_all_sets_that_agree_with_it(self):
        rows = [row(0, "A", "A", 1, "O"), row(0, "A B", "", 0), row(0, "A B", "B", 1)]
        table = Table(["start", [0]], [*rows, row(1, "", "", 1)])
        numbers = [table.row_for(0, frozenset(names)).number for names in ("A", "AB", "B", "")]
        self.assertEqual(numbers, [0, 0, 2, 1])
        self.assertEqual(table.row_for(1, frozenset("AB")).number, 3)
        self.assertEqual([one.number for one in table.word_to(table.rows[3])], [0, 3])

    def test_what_is_not_lawful_has_no_row(self):
        table = Table(["start"], [row(0, "", "", 0)], ["A # B # C", "D => A"])
        for names, is_lawful in [("A", True), ("AC", False), ("D", False), ("AD", True)]:
            self.assertEqual(table.row_for(0, frozenset(names)) is not None, is_lawful, names)

    def test_an_input_that_no_row_asked_for_does_not_matter(self):
        rows = [row(0, "A C", "", 0), row(0, "A C", "A C", 0, "O")]
        table = Table(["start"], rows, ["C => A", "A => C"])
        self.assertEqual([matters(table, name) for name in "ABC"], [True, False, True])

    def test_tours_try_each_row(self):
        rows = [row(0, "A", "", 0), row(0, "A", "A", 1), row(1, "A", "", 0), row(1, "A", "A", None)]
        rows[3] = {**rows[3], "undecided": ["O"]}
        table = Table(["start", [0]], rows)
        for tried in (set(), {0, 3}, {0, 1, 2, 3}):
            tours = tours_of(table, tried)
            walked = {one.number for tour in tours for one in table.walk(r.inputs for r in tour)}
            self.assertEqual(walked | tried, {0, 1, 2, 3})
        self.assertEqual(len(tours_of(table, set())), 1)

    def test_conditions_of_an_arrow_say_as_little_as_can_be(self):
        rows = [row(0, "A B", names, 0) for names in ("A", "A B", "B")]
        table = Table(["start"], [*rows, row(0, "A B", "", 0, "O")])
        parts = parts_of(table.rows[:3], table.rows[3:])
        self.assertEqual(
            set(parts),
            {(frozenset("A"), frozenset("A")), (frozenset("B"), frozenset("B"))},
        )

    def test_a_condition_keeps_apart_what_asks_for_other_inputs(self):
        told = [row(0, "A B", "B", 0), row(0, "A", "A", 0, "O"), row(0, "A B", "", 0, "O")]
        table = Table(["start"], told)
        parts = parts_of(table.rows[:1], table.rows[1:])
        self.assertEqual(parts, [(frozenset("AB"), frozenset("B"))])


class Roles(unittest.TestCase):
    POLICY = """users = ["ann"]
roles = ["a", "b", "c"]
[inherit]
c = ["a", "b"]
[separate.apart]
roles = ["a", "b"]
count = 2
[assign]
ann = ["c"]
[permissions]
a = ["step 0"]
b = ["offer 0.A"]
"""

    def test_what_a_user_may_do(self):
        access = Access(read_file(self.POLICY))
        self.assertEqual(access.authorized("ann"), {"a", "b", "c"})
        self.assertEqual(access.usable("ann"), ["a", "b"])
        self.assertEqual(access.keeping_apart(["a", "b"]), ["apart"])
        self.assertEqual(access.keeping_apart(["c"]), ["apart"])
        self.assertEqual(access.permissions(["c"]), {("step", "0"), ("offer", "0.A")})
        self.assertEqual(access.usable("root"), ["root"])

    def test_the_least_sets_that_can(self):
        def can(roles):
            return "c" in roles or {"a", "b"} <= roles

        self.assertEqual(list(least_sets(["a", "b", "c"], can)), [{"c"}, {"a", "b"}])
        self.assertEqual(list(least_sets(["a", "d"], can)), [])
        many = ["c", "a", "b", *(f"r{number}" for number in range(MOST_ROLES))]
        self.assertEqual(list(least_sets(many, can)), [{"a", "b"}])


class Programs(unittest.TestCase):
    def test_where_estlab_is_looked_for(self):
        with tempfile.TemporaryDirectory() as root:
            nowhere = {"PATH": "", "ESTSERVE": "/bin/true", "ESTLAB": ""}
            patched = unittest.mock.patch.dict(os.environ, nowhere)
            with patched, unittest.mock.patch.object(connection, "ROOT", root):
                told = "there is no program estlab on PATH: .* --estlab, or by the variable ESTLAB"
                with self.assertRaisesRegex(connection.Disconnected, told):
                    start_lab()
                built = pathlib.Path(root, "crates", "estlab", "out", "estlab")
                built.parent.mkdir(parents=True)
                built.touch()
                self.assertEqual(connection.find_program(None, "estlab"), str(built))
                os.environ["ESTLAB"] = "/bin/false"
                self.assertEqual(connection.find_program(None, "estlab"), "/bin/false")
                self.assertEqual(connection.find_program("/a", "estlab"), "/a")
                with self.assertRaisesRegex(connection.Disconnected, "cannot be started"):
                    start_lab(root)


class Answers:
    """A client that answers `toomany` up to a limit."""

    def __init__(self, enough):
        self.enough, self.asked = enough, []

    def ask(self, cmd, claims, inputs, most):
        """The answer to a search that may find so much."""
        self.asked.append(most)
        name = "holds" if most >= self.enough else "toomany"
        told = {"verdict": name}
        return {"ok": cmd, "stuck": told, "verdicts": [told], "states": 1, "reactions": most}


class Rows(Answers):
    """An estlab that has a table of so many reactions, and takes a while for it."""

    def ask(self, cmd, inputs, most):
        """The table, where it may be that large."""
        self.asked.append(most)
        time.sleep(0.05)
        if most < self.enough:
            told = {"code": 83, "fault": "TooMany", "states": 12, "reactions": most + 1}
            raise connection.Refusal(told)
        return {"ok": cmd, "states": ["start"], "rows": []}


class Terminal(io.StringIO):
    """What is printed to a terminal."""

    def isatty(self):
        return True


class Searches(unittest.TestCase):
    def table(self, stream, enough, most=1_000_000):
        """Which limits were asked for one after another, and what was told meanwhile."""
        client, terminal = Rows(enough), {"TERM": "xterm", "NO_COLOR": ""}
        with contextlib.redirect_stderr(stream), unittest.mock.patch.dict(os.environ, terminal):
            with unittest.mock.patch("estserve_client.lab.asking.RENEWED", 0.01):
                with contextlib.suppress(Failed):
                    Lab(client).table(["A"], most)
        return client.asked, stream.getvalue()

    def test_a_terminal_is_told_how_far_the_search_for_a_table_has_come(self):
        asked, told = self.table(Terminal(), 30_000)
        self.assertEqual(asked, [2_000, 20_000, 200_000])
        self.assertIn("\rsearching for 0 s\r", told)
        self.assertIn("\r12 states and 20,001 reactions are found; searching for 0 s", told)
        self.assertTrue(told.endswith("\r\033[K"), told)
        self.assertEqual(self.table(Terminal(), 10**9, 3_000)[0], [2_000, 3_000])
        self.assertEqual(self.table(io.StringIO(), 30_000), ([1_000_000], ""))

    def test_a_search_goes_on_until_all_is_decided_or_it_may_not(self):
        for enough, most, asked, name in [
            (5, 1_000_000, [20_000], "holds"),
            (30_000, 1_000_000, [20_000, 200_000], "holds"),
            (10**9, 300_000, [20_000, 200_000, 300_000], "toomany"),
            (10**9, 7, [7], "toomany"),
        ]:
            client = Answers(enough)
            found = Lab(client).explore(["never A"], ["A"], most)
            self.assertEqual((client.asked, found.stuck.name), (asked, name))


class Subjects(unittest.TestCase):
    def test_the_first_module_that_none_runs(self):
        subject = read_subject([EXAMPLES / "arbiter" / "arbiter.strl"], None)
        self.assertEqual(subject.module.name, "ARBITER")
        self.assertEqual([module.name.text for module in reached(subject)], ["CELL", "ARBITER"])


if __name__ == "__main__":
    unittest.main()
