"""What the client says of a text that is refused, and of an instant that is stuck: held against the
real program.
"""
import pathlib
import tempfile
import unittest

from support import WithProgram, needs_program, refusal_of, run_client

from estserve_client.library_text import join_texts
from estserve_client.load_faults import load_fault
from estserve_client.module_text import Module
from estserve_client.scenarios import grants_of
from estserve_client.texts import Placed

# Texts of which M is loaded, the fault that estserve answers, and the places that are drawn, the
# first one most likely.
PLACES = [
    ("module M: output A;\n input B, A; nothing end module", "DuplicateName", ["2:11"]),
    ("module M: input tick; output A, A; nothing end module", "DuplicateName", ["1:17"]),
    ("module M: nothing end module\nmodule M: nothing end module", "DuplicateName", ["2:8"]),
    (
        "module M: signal S, S in signal T, S, T in emit S end end end module",
        "DuplicateName",
        ["1:21"],
    ),
    ("module M:\n run N || run N end module", "UnknownModule", ["2:6", "2:15"]),
    (
        "module M: run N end module\nmodule N: run O end module\nmodule O: pause; run N end module",
        "RecursiveRun",
        ["2:15", "3:22"],
    ),
    (
        "module M: input X; run N [signal X/Z] end module\nmodule N: input Y; nothing end module",
        "BadRename",
        ["1:36"],
    ),
    (
        "module M: input X; run N [signal X/Y, X/Y] end module\nmodule N: input Y; nothing end module",
        "BadRename",
        ["1:41"],
    ),
    ("module M: await X;\n emit X;\n sustain X end module", "UnknownName", ["1:17", "2:7", "3:10"]),
    ("module M: run N end module\nmodule N: input Y; nothing end module", "UnknownName", ["1:15"]),
    (
        "module M: run N [signal X/Y] end module\nmodule N: input Y; nothing end module",
        "UnknownName",
        ["1:25"],
    ),
    ("module M: trap T in await T end; exit T end module", "UnknownName", ["1:27", "1:39"]),
    ("module M: exit T end module", "UnknownName", ["1:16"]),
    ("module M: signal S in emit S end;\n\té: end module", "Lexical", ["2:2"]),
    (
        "module M: input X;\n emit X; signal X in emit X end;\n sustain X end module",
        "EmitInput",
        ["2:7", "3:10"],
    ),
    ("module M: emit tick end module", "EmitInput", ["1:16"]),
    (
        "module M: input X; run N [signal X/Y] end module\nmodule N: output Y; run O end module\n"
        "module O: output Y; emit Y end module",
        "EmitInput",
        ["1:24"],
    ),
    (
        "module M: input A; output O;\nrelation A # A, A => O; nothing end module",
        "Semantics",
        ["2:22"],
    ),
    (
        "module M: input I; loop pause end ||\n"
        " loop trap T in [exit T || emit I_ ] end end; output O end module",
        "Syntax",
        ["2:47"],
    ),
    ("module M: output O; loop\n loop emit O end; pause end end module", "InstantLoop", ["2:2"]),
    (
        "module M: input I; loop pause end ||\nloop present I then pause end end ||\n"
        "loop run N end end module\n"
        "module N: input I; abort pause when immediate I end module",
        "InstantLoop",
        ["2:1", "3:1"],
    ),
    (
        "module M: input I; loop weak abort sustain I_ when immediate I end end module",
        "UnknownName",
        ["1:44"],
    ),
    (
        "module M: input I; loop suspend pause when immediate I; await I end || loop trap T in\n"
        "loop trap U in exit T end end end end end module",
        "InstantLoop",
        ["1:72"],
    ),
]
# Texts that are loaded: none of them has a loop whose body takes no time, by the client's reading either.
LOADED = [
    "module M: input I; loop abort halt when immediate I; pause end end module",
    "module M: input I; loop every immediate I do nothing end end || loop loop pause each I end end module",
    "module M: input I; loop trap T in [pause || await I; exit T] end end end module",
    "module M: input I; loop suspend nothing when I; await I end end module",
]
# Texts of the full language, and what the client calls the construct at which they stop.
LEFT_OUT = [
    ("await 3 S", "count"),
    ("every 3 S do emit O end", "count"),
    ("abort halt when 3 S", "count"),
    ("await case S do emit O end", "cases"),
    ("abort halt when case S do emit O end", "cases"),
    ("present case S do emit O end", "cases"),
    ("repeat 3 times emit O end", "`repeat`"),
    ("repeat N times emit O end", "`repeat`"),
    ("trap T in exit T handle T do emit O end", "`handle`"),
    ("trap T, U in exit T end", "traps"),
    ("present pre(S) then emit O end", "`pre`"),
    ("present pre S then emit O end", "`pre`"),
    ("emit O(?S)", "value"),
    ("emit O(3)", "value"),
    ("emit O, S", "emissions"),
    ("do halt upto S", "upto"),
    ("do halt watching S", "watching"),
    ("await S do emit O end", "`do` part"),
    ("abort halt when S do emit O end", "`do` part"),
    ("run N/P", "new name"),
    ("var X := 3 in emit O end", "variable"),
    ("if X then emit O end", "variable"),
    ("call P()()", "host"),
    ("exec T()()", "host"),
    ("copymodule N", "copymodule"),
    ("signal L : integer in emit L end", "value"),
]
DECLARED_LEFT_OUT = [
    ("module M: input S : integer; nothing end module", "value"),
    ("module M: input S(integer); nothing end module", "value"),
    ("module M: sensor S : integer; nothing end module", "sensor"),
    ("module M: constant N = 3 : integer; nothing end module", "host"),
    ("module M: nothing end module.", "full stop"),
    ("module M: function F() : integer; nothing end module", "host"),
    ("module M: type T; nothing end module", "host"),
]


@needs_program
class OnTheProgram(WithProgram):
    def setUp(self):
        super().setUp()
        outputs = Module("M", [("O", "output"), ("P", "output")], [], [])
        self.client.ask_all(grants_of(outputs))

    def told_of(self, text):
        refusal = refusal_of(self.client, text)
        self.assertIsNotNone(refusal, text)
        return refusal.fault, load_fault(refusal, join_texts([("m.strl", text)]), "M")

    def test_places_of_faults(self):
        for text, fault, places in PLACES:
            with self.subTest(text):
                found, told = self.told_of(text)
                self.assertEqual(found, fault)
                self.assertIsInstance(told, Placed)
                drawn = [
                    line.split(" ")[0]
                    for line in str(told).split("\n")
                    if line.startswith("m.strl:")
                ]
                self.assertEqual(drawn, [f"m.strl:{place}:" for place in places])
                self.assertEqual(
                    "here, most likely" in str(told), len(places) > 1 and fault != "RecursiveRun"
                )

    def test_loops_that_take_time(self):
        for text in LOADED:
            with self.subTest(text):
                self.assertIsNone(refusal_of(self.client, text))
                self.assertEqual(estserve_places("InstantLoop", text), [])

    def test_what_is_left_out_is_named(self):
        bodies = [
            (f"module M: input S; output O; {body} end module", word) for body, word in LEFT_OUT
        ]
        for text, word in bodies + DECLARED_LEFT_OUT:
            with self.subTest(text):
                last = str(self.told_of(text)[1]).split("\n")[-1]
                self.assertIn(word, last)
                self.assertIn(" is left out of this language: ", last)


def estserve_places(fault, text):
    from estserve_client.fault_places import places_of

    return places_of(fault, "", text, "M")


@needs_program
class SeveralFiles(unittest.TestCase):
    def test_a_library_of_several_files(self):
        with tempfile.TemporaryDirectory() as name:
            folder = pathlib.Path(name)
            (folder / "main.strl").write_text(
                "module MAIN: input A; output B;\nrun CELL [signal A/I, B/O]\nend module"
            )
            (folder / "cell.strl").write_text(
                "module CELL: input I; output O;\nloop present I then emit O end; pause end\nend module\n"
            )
            (folder / "inputs").write_text("A\n;\n")
            words = [
                "run",
                folder / "main.strl",
                folder / "cell.strl",
                "--inputs",
                folder / "inputs",
            ]
            ran = run_client(words)
            self.assertEqual((ran.status, ran.told), (0, ""))
            self.assertEqual(ran.printed.split("\n")[1:], ["      1  A       B", "      2", ""])
            alone = run_client([*words[:2], "--inputs", folder / "inputs"])
            told = f"{folder}/cell.strl has a module CELL: name that file too"
            self.assertEqual(alone.told.splitlines()[-1], told)
            (folder / "cell.strl").write_text(
                "module CELL: input I; output O;\n  emit O emit\nend module\n"
            )
            ran = run_client(words)
            self.assertEqual((ran.status, ran.printed), (1, ""))
            self.assertEqual(
                ran.told,
                f"{folder}/cell.strl:2:10: Syntax: a `;` is missing before `emit`\n"
                "  emit O emit\n         ^\n",
            )
            (folder / "cell.strl").write_text(
                "module CELL: input I; output O;\n  emit Q\nend module\n"
            )
            ran = run_client(words)
            self.assertEqual(
                ran.told.split("\n")[0],
                f"{folder}/cell.strl:2:8: UnknownName: the name Q is not visible there:"
                " CELL sees no signal Q here",
            )


if __name__ == "__main__":
    unittest.main()
