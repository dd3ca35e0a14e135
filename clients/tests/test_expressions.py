"""Expressions over signals, and `inputoutput`: the client's own reading of texts with them, its
pictures and its words; and the same texts on a program that reads them.
"""
import contextlib
import io
import pathlib
import re
import tempfile
import time
import unittest

from support import EXAMPLES, ROOT, WithProgram, needs_expressions, read_vcd, refusal_of, run_client

import estserve
from estserve_client.applying import warnings_of, wrong_permission
from estserve_client.expecting import rows_of
from estserve_client.fault_places import places_of
from estserve_client.instants import Instant
from estserve_client.left_out import left_out
from estserve_client.library_text import join_texts
from estserve_client.load_faults import load_fault
from estserve_client.module_text import main_of
from estserve_client.pictures import Seen, Table, table_lines, vcd_lines, wave_lines
from estserve_client.policy_file import read_file
from estserve_client.scenarios import Scenario, check_inputs, grants_of
from estserve_client.scopes import scopes_of
from estserve_client.shell import Shell
from estserve_client.signal_test_writing import written
from estserve_client.syntax_tree import KEYWORDS, parse
from estserve_client.texts import Placed

# Tests, and how they are written with no more parentheses than are needed.
TESTS = {
    "A": "A",
    "[A]": "A",
    "((A))": "A",
    "not A": "not A",
    "not not A": "not not A",
    "A and B or C": "A and B or C",
    "A or B and C": "A or B and C",
    "(A or B) and C": "(A or B) and C",
    "(A and B) or C": "A and B or C",
    "not A and B": "not A and B",
    "(not A) and B": "not A and B",
    "not (A and B)": "not (A and B)",
    "[A and (not (B or tick) or C) and D]": "A and (not (B or tick) or C) and D",
    "%{ a remark }% [ A\nor\tB ]": "A or B",
}
# What stands in a module's body, and can't.
NO_TESTS = [
    "await [A",
    "await [[A]]",
    "await A]",
    "await (A",
    "await ()",
    "await []",
    "await A and",
    "await and A",
    "await A not B",
    "await not",
    "await not [A]",
    "present [A] and B then emit O end",
    "present A or then emit O end",
    "every [A] or B do emit O end",
    "emit not O",
    "emit (O)",
    "emit [O]",
    "sustain O or O",
    "trap T in exit T and T end",
    "await (A and [B])",
]
# Each statement that has a test.
TESTED = [
    ("await", "await {}"),
    ("await", "await immediate {}"),
    ("present", "present {} then emit O end"),
    ("present", "present {} else emit O end"),
    ("suspend", "suspend sustain O when {}"),
    ("abort", "abort sustain O when immediate {}"),
    ("weak", "weak abort sustain O when {} end weak abort"),
    ("each", "loop emit O each {}"),
    ("every", "every {} do emit O end"),
    ("every", "every immediate {} do emit O end every"),
]
INOUT = "module M: inputoutput B, C; input A; output O; relation A # B; {} end module"
# Texts of which M is loaded, the fault that estserve answers, its name, the places that are drawn.
PLACES = [
    (INOUT.format("await A and not X;\npresent (B or X) and X then emit O end"), "UnknownName", "X",
     ["1:80", "2:15", "2:22"]),
    (INOUT.format("loop emit B each not (X)"), "UnknownName", "X", ["1:86"]),
    ("module M: input A; inputoutput B,\nA; nothing end module", "DuplicateName", "A", ["2:1"]),
    ("module M: inputoutput tick; nothing end module", "DuplicateName", "tick", ["1:23"]),
    ("module M: input A; inputoutput B; output O;\n"
     "relation A # B, B => A, B # O; emit O end module", "Semantics", 3, ["2:29"]),
    ("module M: input A; run N [signal A/B] end module\n"
     "module N: inputoutput B; present not B then emit B end end module",
     "EmitInput", "A", ["1:24"]),
    (INOUT.format("run N") + "\nmodule N: inputoutput B, D; nothing end module", "UnknownName", "D",
     ["1:68"]),
    (INOUT.format("loop present A or not A then pause end end"), "InstantLoop", "", ["1:64"]),
]  # fmt: skip
# Texts that have none of these faults.
FAULTLESS = [
    INOUT.format("emit B; sustain C"),
    INOUT.format("run N [signal C/D]")
    + " module N: inputoutput B; output D; emit B; emit D end module",
    "module M: inputoutput A, B; relation A # B, B => A; nothing end module",
    INOUT.format("loop [present A and B then pause else halt end] end"),
]
# Places at which a text of the new forms stops, and what is said of each.
STOPS = [
    ("await A and", "end", None),
    ("await [A or B", "end", None),
    ("present not then", "then", None),
    ("emit (O)", "(", None),
    ("emit O and O", "and", None),
    ("await A (B)", "(", None),
    ("await [A or B] do emit O end", "do", "`do` part"),
    ("abort halt when immediate A and not (B or A) do emit O end", "do", "`do` part"),
    ("present not pre(A) then emit O end", "(A", "`pre`"),
    ("present A and pre B then emit O end", "B then", "`pre`"),
    ("emit O(A)", "(", "value"),
    ("await 3 [A or B]", "3", "count"),
    ("await case [A and B] do emit O end", "[", "cases"),
    ("do await A or B; emit O watching B", "do", "watching"),
]
# Texts of which M is stuck at its first step, and what is undecided then.
STUCK = [
    ("module M: output O; present [O or not O] then emit O end end module", ["O"]),
    ("module M: input A; output O, P; present [A or O] then emit P else emit O end end module",
     ["O", "P"]),
    ("module M: inputoutput B; output O;\n"
     "present not (B or tick and not O) then emit O end end module", ["O"]),
    ("module M: inputoutput B; present B else emit B end end module", ["B"]),
    ("module N: inputoutput X; output Y; present not X or Y then emit Y end end module\n"
     "module M: inputoutput B; output O;\n"
     "run N [signal B/X, O/Y] || present O then emit B end end module", ["B", "O"]),
]  # fmt: skip
# Each statement that has a test: how many statements its kernel has besides the test, and how often
# that stands there.
SIZES = [
    ("await {}", 7, 1),
    ("await immediate {}", 7, 1),
    ("present {} then pause end", 3, 1),
    ("suspend pause when {}", 2, 1),
    ("suspend pause when immediate {}", 6, 2),
    ("abort pause when {}", 12, 2),
    ("abort pause when immediate {}", 14, 3),
    ("weak abort pause when {}", 11, 1),
    ("weak abort pause when immediate {}", 11, 1),
    ("loop pause each {}", 16, 2),
    ("every {} do pause end", 24, 3),
    ("every immediate {} do pause end", 24, 3),
]
STATEMENTS, UNITS = 2_048, 128  # the most that a kernel has, and the most that may be open at once
# What stands before a test, what closes the statement, and how many units are open there.
OPEN = [
    ("await ", "", 0),
    ("await [", "]", 0),
    ("present ", " then pause end", 1),
    ("abort pause when ", "", 1),
    ("suspend pause when immediate [", "] end suspend", 1),
    ("weak abort pause when ", "", 1),
    ("loop pause each ", "", 1),
    ("every ", " do pause end", 1),
    ("[ await ", " ]", 1),
]
LANGUAGE = (ROOT / "docs" / "LANGUAGE.md").read_text()
BUS = (EXAMPLES / "shared_bus" / "shared_bus.strl").read_text()
SIGNALS = [("A", "input"), ("B", "inout"), ("O", "output"), ("C", "inout")]
SEEN = Seen(
    "M",
    SIGNALS,
    [
        {"A": True, "B": False, "O": True, "C": False},
        {"A": False, "B": True, "O": False, "C": True},
        {"A": True, "O": True, "C": True},
    ],
)


def rows_of_instants():
    """The rows of docs/LANGUAGE.md with instants: a module's body, what is offered, what comes."""
    head = "| Body of the module | Offered | Present |\n|---|---|---|\n"
    for row in LANGUAGE.partition(head)[2].partition("\n\n")[0].splitlines():
        body, offered, told = (cell.strip() for cell in re.split(r"(?<!\\)\|", row)[1:-1])
        yield body.strip("`").replace("\\|", "|"), offered.split("; "), told.split("; ")


def module_of(body):
    return f"module M: input A, B, C, D; output O; {body} end module"


def test_of(text):
    """The test of the first statement of a module; None where the text has no tree."""
    modules = parse(text)
    return modules and next(node for node in modules[0].body.walk() if node.test).test


class Reading(unittest.TestCase):
    def test_how_tight_the_words_bind(self):
        for text, wanted in TESTS.items():
            with self.subTest(text):
                self.assertEqual(written(test_of(module_of(f"await {text}"))), wanted)
                self.assertEqual(written(test_of(module_of(f"await {wanted}"))), wanted)

    def test_a_test_stands_wherever_a_signal_was_asked_for(self):
        for kind, form in TESTED:
            for text in ("A", "A or not B", "[(A and B) or C]"):
                body = form.format(text)
                with self.subTest(body):
                    node = next(one for one in parse(module_of(body))[0].body.walk() if one.test)
                    names = [letter for letter in text if letter in "ABC"]
                    self.assertEqual([node.kind, [name.text for name in node.names]], [kind, names])
                    self.assertEqual(node.immediate, "immediate" in body)

    def test_what_is_no_test(self):
        for body in NO_TESTS:
            with self.subTest(body):
                self.assertIsNone(parse(module_of(body)))

    def test_a_long_and_a_deep_test(self):
        for text in (" or ".join(["A"] * 5_000), "not " * 128 + "A", "(" * 128 + "A" + ")" * 128):
            self.assertIsNotNone(parse(module_of(f"await {text}")))

    def test_the_interface_in_its_order(self):
        (module,) = parse(INOUT.format("nothing"))
        self.assertEqual(module.names(), ["B", "C", "A", "O"])
        self.assertEqual([token.text for token in module.inputoutputs], ["B", "C"])
        module = main_of(INOUT.format("nothing"))
        kinds = [("B", "inout"), ("C", "inout"), ("A", "input"), ("O", "output")]
        self.assertEqual((module.signals, module.relations), (kinds, ["A # B"]))
        self.assertEqual(module.inputs(), ["B", "C", "A"])
        self.assertEqual(module.outputs(), ["B", "C", "O"])

    def test_places_of_faults(self):
        for text, fault, name, places in PLACES:
            with self.subTest(text):
                found = places_of(fault, name, text, "M")
                drawn = [f"{place.at.line}:{place.at.column}" for place in found]
                self.assertEqual(drawn, places)

    def test_texts_without_a_fault(self):
        names = ("A", "B", "C", "D", "O", "tick", "M", "N", "1", "2")
        faults = ("DuplicateName", "UnknownName", "EmitInput", "BadRename", "InstantLoop")
        for text in FAULTLESS:
            for fault in faults:
                found = [place for name in names for place in places_of(fault, name, text, "M")]
                self.assertEqual(found, [], (text, fault))
            for number in range(len(parse(text)[0].relations)):
                self.assertEqual(places_of("Semantics", number + 1, text, "M"), [], text)

    def test_what_is_in_the_language_is_not_named_as_left_out(self):
        for body, at, word in STOPS:
            with self.subTest(body):
                text = module_of(body)
                told = left_out(text, 1, text.index(at, text.index(body)) + 1)
                self.assertEqual(told is None, word is None, told)
                self.assertIn(word or "", told or "")

    def test_an_inputoutput_with_a_value_is_named(self):
        for text, at in (("inputoutput S : integer;", " :"), ("inputoutput S(integer);", "(")):
            whole = f"module M: {text} nothing end module"
            told = left_out(whole, 1, whole.index(at, 10) + len(at))
            self.assertIn("a signal with a value", told)

    def test_scopes_of_runs(self):
        (one, other) = scopes_of(BUS, "BUS")
        self.assertEqual([one.name, other.name], ["STATION_1", "STATION_2"])
        self.assertIn(("LINE", "LINE"), one.signals)
        self.assertNotIn("SECOND", dict(one.signals))  # bound to a local signal

    def test_the_rows_of_the_document_are_read(self):
        rows = list(rows_of_instants())
        self.assertGreater(len(rows), 5)
        for body, offered, told in rows:
            self.assertIsNotNone(parse(f"module M: {body} end module"), body)
            self.assertEqual(len(offered), len(told), body)


class Pictures(unittest.TestCase):
    def test_a_table_has_a_column_of_inouts(self):
        self.assertEqual(
            table_lines(SEEN),
            [
                "instant  inputs  inouts  outputs",
                "      1  A               O",
                "      2          B C",
                "      3  A       . C     O",
            ],
        )

    def test_one_without_an_inout_has_none(self):
        self.assertEqual(table_lines(Seen("M", SIGNALS[:1], []))[0], "instant  inputs  outputs")
        self.assertEqual(
            table_lines(Seen("M", SIGNALS[1:2], []))[0], "instant  inputs  inouts  outputs"
        )

    def test_the_column_has_room_for_all_of_them(self):
        names = ["FIRST_OF_THEM", "SECOND"]
        seen = Seen("M", [(name, "inout") for name in names] + [("O", "output")], [])
        table = Table(seen)
        rows = [{name: name in present for name in [*names, "O"]} for present in (["O"], names)]
        lines = [table.head(), *table.rows(1, rows)]
        self.assertEqual(lines[0], "instant  inputs  inouts                outputs")
        self.assertEqual(lines[1], "      1" + " " * 32 + "O")
        self.assertEqual(
            rows_of(lines), [("instant", "inputs", "inouts", "outputs"), ("1", "", "", "O"),
                             ("2", "", " ".join(names), "")]
        )  # fmt: skip

    def test_waves_say_inout(self):
        lines = wave_lines(SEEN, plain=True)
        self.assertEqual(
            lines[1:],
            [
                "A        input  _/^\\_____/^\\",
                "B        inout  _____/^\\....",
                "O        output _/^\\_____/^\\",
                "C        inout  _____/^\\_/^\\",
            ],
        )

    def test_a_vcd_file_has_a_wire_for_it(self):
        changes = read_vcd(vcd_lines(SEEN))
        self.assertEqual(changes["B"], {1: "0", 2: "1", 3: "x"})
        self.assertEqual(changes["C"], {1: "0", 2: "1"})


class Words(unittest.TestCase):
    def setUp(self):
        self.module = main_of(BUS)

    def scenario(self, inputs):
        return Scenario(join_texts([("bus.strl", BUS)]), self.module, inputs)

    def test_a_list_of_inputs_may_have_inouts(self):
        check_inputs(self.scenario("LINE\nFRAME WANT_A\n"))
        with self.assertRaises(Placed) as raised:
            check_inputs(self.scenario("LINE\nLINE; A_WON\n"))
        told = "standard input:2:7: A_WON is an output of BUS, which nobody can offer"
        self.assertEqual(str(raised.exception), told)

    def test_root_is_granted_to_offer_and_to_observe_them(self):
        told = [(grant["op"], grant["object"]) for grant in grants_of(self.module)]
        self.assertIn(("offer", "0.LINE"), told)
        self.assertEqual(told.count(("observe", "0.LINE")), 1)
        self.assertNotIn(("offer", "0.A_WON"), told)

    def test_no_warning_of_an_offer_of_one(self):
        kinds = self.module.kinds()
        self.assertIsNone(wrong_permission("offer", "LINE", kinds))
        self.assertIsNone(wrong_permission("observe", "LINE", kinds))
        self.assertIn("as an output", wrong_permission("offer", "A_WON", kinds))
        self.assertIsNone(wrong_permission("step", "LINE", kinds))

    def test_a_policy_is_warned_of_what_nobody_can_offer(self):
        policy = read_file(
            'roles = ["d"]\n[modules]\n0 = "bus.strl"\n[permissions]\n'
            'd = ["offer 0.LINE", "offer 0.B_WON", "step 0.LINE"]\n'
        )
        with tempfile.TemporaryDirectory() as name:
            (pathlib.Path(name) / "bus.strl").write_text(BUS)
            lines = list(warnings_of(policy, f"{name}/p"))
        self.assertEqual(len(lines), 2)
        self.assertTrue(lines[0].endswith(" gives B_WON as an output, which nobody can offer"))
        self.assertTrue(
            lines[1].endswith("this does nothing: step is asked for on a slot"), lines[1]
        )

    def shell(self):
        """A shell that knows the module, and speaks with nobody."""
        shell = Shell(None, "root", False)
        with contextlib.redirect_stdout(io.StringIO()) as printed:
            shell.onecmd(f"module {EXAMPLES}/shared_bus/shared_bus.strl")
        return shell, printed.getvalue()

    def test_the_shell_tells_the_inouts_of_a_module(self):
        told = "BUS: inputs FRAME WANT_A WANT_B, inouts LINE, outputs A_WON A_LOST B_WON\n"
        self.assertEqual(self.shell()[1], told)

    def test_a_step_shows_an_inout_among_what_came_out(self):
        shell, _ = self.shell()
        signals = {name: name in ("FRAME", "LINE", "B_WON") for name in self.module.kinds()}
        self.assertEqual(shell.instant_line(0, Instant(3, signals)), "instant 3: LINE B_WON")

    def test_the_shell_completes_what_can_be_offered(self):
        shell, _ = self.shell()
        self.assertEqual(shell.completenames("L"), ["LINE "])
        self.assertEqual(shell.completedefault("L", "offer 0 L", 8), ["LINE "])
        self.assertEqual(shell.completedefault("", "offer 0 ", 8)[0], "FRAME ")
        self.assertEqual(shell.completedefault("0.L", "grant root offer 0.L", 17), ["0.LINE "])
        self.assertEqual(shell.completedefault("A", "FRAME A", 6), [])  # an output

    def test_the_shell_completes_what_a_permission_can_be_on(self):
        shell, _ = self.shell()

        def completed(typed):
            return "".join(shell.completedefault("0.", f"{typed} 0.", len(typed) + 1)).split()

        offered = ["0.FRAME", "0.LINE", "0.WANT_A", "0.WANT_B"]
        for words in ("grant root", "revoke root", "check"):
            with self.subTest(words):
                self.assertEqual(completed(f"{words} offer"), offered)
                outputs = ["0.A_LOST", "0.A_WON", "0.B_WON"]
                self.assertEqual(completed(f"{words} observe"), sorted(outputs + offered))
                self.assertEqual(completed(f"{words} step"), [])

    def test_the_keywords_are_as_they_were(self):
        self.assertLess({"and", "or", "not", "inputoutput"}, KEYWORDS)


@needs_expressions
class OnTheProgram(WithProgram):
    def setUp(self):
        super().setUp()
        self.grant(("load", "0"), ("step", "0"), *(("observe", f"0.{name}") for name in "OPB"))

    def test_what_the_client_reads_is_loaded(self):
        for text in [*TESTS, *(form.format("[A and not B]") for _, form in TESTED)]:
            body = text if text.split()[0] in KEYWORDS - {"not"} else f"await {text}"
            self.assertIsNone(refusal_of(self.client, module_of(body)), body)
        for text in FAULTLESS:
            self.assertIsNone(refusal_of(self.client, text), text)

    def test_what_it_does_not_read_is_no_syntax(self):
        for body in NO_TESTS:
            self.assertEqual(refusal_of(self.client, module_of(body)).fault, "Syntax", body)

    def test_places_of_faults(self):
        for text, fault, name, places in PLACES:
            with self.subTest(text):
                refusal = refusal_of(self.client, text)
                self.assertEqual(refusal.fault, fault)
                self.assertIn(name or None, [*refusal.fields.values(), None])
                told = load_fault(refusal, join_texts([("m.strl", text)]), "M")
                self.assertIsInstance(told, Placed)
                self.assertTrue(str(told).startswith(f"m.strl:{places[0]}: "), told)

    def test_stops_are_where_they_are_said_to_be(self):
        for body, at, _ in STOPS:
            text = module_of(body)
            fields = refusal_of(self.client, text).fields
            wanted = text.index(at, text.index(body)) + 1
            self.assertEqual((fields.get("line"), fields.get("column")), (1, wanted), body)

    def test_stuck_instants(self):
        for text, undecided in STUCK:
            with self.subTest(text):
                self.client.load(0, "M", text)
                with self.assertRaises(estserve.Refusal) as raised:
                    self.client.step(0)
                self.client.unload(0)
                self.assertEqual(raised.exception.fields["undecided"], undecided)

    def test_the_rows_of_the_document(self):
        for op, object in [("offer", "0.A"), ("offer", "0.B"), ("observe", "0.A")]:
            self.client.grant("root", op, object)
        for body, offered, wanted in rows_of_instants():
            with self.subTest(body):
                self.client.load(0, "M", f"module M: {body} end module")
                self.assertEqual([self.instant(names) for names in offered], wanted)
                self.client.unload(0)

    def instant(self, offered):
        """What comes of an instant in which these are offered, as the document tells it."""
        names = [] if offered == "none" else offered.split(", ")
        try:
            return ", ".join(self.client.instant(0, names).present) or "none"
        except estserve.Refusal as refusal:
            return f"Stuck: {', '.join(refusal.fields['undecided'])}"

    def test_how_often_a_test_counts(self):
        for form, others, times in SIZES:
            most = (STATEMENTS - others) // times
            for words in (most, most + 1):
                refusal = refusal_of(self.client, module_of(form.format("A" + " or A" * words)))
                limit = refusal and (refusal.fault, refusal.fields["limit"])
                wanted = None if words == most else ("TooLarge", "statements")
                self.assertEqual(limit, wanted, (form, words))

    def test_how_many_may_be_open(self):
        for before, after, opened in OPEN:
            most = UNITS - opened
            for begin, end in (("not ", ""), ("(", ")")):
                for number in (most, most + 1):
                    text = module_of(f"{before}{begin * number}A{end * number}{after}")
                    refusal = refusal_of(self.client, text)
                    limit = refusal and (refusal.fault, refusal.fields["limit"])
                    wanted = None if number == most else ("TooLarge", "nesting")
                    self.assertEqual(limit, wanted, (before, begin, number))

    def test_a_text_that_is_one_test(self):
        for test in (" or ".join(["A"] * 12_000), "not " * 15_000 + "A", "(" * 60_000):
            begun = time.monotonic()
            refusal = refusal_of(self.client, module_of(f"await {test}"))
            self.assertEqual(refusal.fault, "TooLarge")
            self.assertLess(
                time.monotonic() - begun, 60
            )  # without proof, on a busy machine; bench measures it

    def test_the_inouts_of_a_run(self):
        with tempfile.TemporaryDirectory() as name:
            inputs = pathlib.Path(name) / "inputs"
            inputs.write_text("LINE\nA_WON\n")
            ran = run_client(["run", EXAMPLES / "shared_bus/shared_bus.strl", "--inputs", inputs])
            self.assertIn("A_WON is an output of BUS", ran.told)
            inputs.write_text("LINE\n")
            ran = run_client(["run", EXAMPLES / "shared_bus/shared_bus.strl", "--inputs", inputs])
            self.assertEqual(
                ran.printed, "instant  inputs  inouts  outputs\n      1          LINE\n"
            )


if __name__ == "__main__":
    unittest.main()
