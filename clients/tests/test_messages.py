"""What the client says of mistakes that are often made: each text is refused by the real program,
and the message says what was expected, what is open, what was meant.
"""
import collections
import os
import pathlib
import random
import re
import tempfile
import unittest

from support import EXAMPLES, ROOT, WithProgram, needs_program, refusal_of, run_client
from test_format import texts_of_the_repository

import estserve
from estserve_client.close_words import closest, is_one_edit
from estserve_client.command_table import IDENTIFIER
from estserve_client.diagnosis import diagnose_load
from estserve_client.library_text import join_texts
from estserve_client.load_faults import load_fault
from estserve_client.module_text import Module, main_of
from estserve_client.scenarios import grants_of
from estserve_client.syntax_faults import expected_at, spot_at
from estserve_client.syntax_tree import parse, tokens_of

LONG = "A" * 49
# Texts with a syntax fault, and the column of its token, beside those of docs/LANGUAGE.md.
REFUSED = [
    ("module M: output await; pause end module", 18),
    ("module M: input I; pause", 25),
    ("module M: pause;; pause end module", 17),
    ("module M: pause || end module", 20),
    ("module M: await [[A]] end module", 18),
    ("module M: await [A] or B end module", 21),
    ("module M: await A not B end module", 19),
    ("module M: await A and end module", 23),
    ("module M: emit not A end module", 16),
    ("module M: weak pause when S end module", 16),
    ("module M: abort pause when S end suspend end module", 34),
    ("module M: loop pause end every end module", 26),
    ("module M: run P [A/B] end module", 18),
    ("module M: pause; input I; end module", 18),
    ("module M: inputoutput B nothing end module", 25),
]
# Bodies of `module M: input A, B; output O, P; .. end module`, and what is said after the fault's name.
SYNTAX = [
    ("present A\nemit O end", "`then` or `else` expected; the `present` of line 1 is open"),
    ("present A then emit O ] end", "`else` or `end` expected; the `present` of line 1 is open"),
    (
        "present A then emit O",
        "this `end` closes the `present` of line 1, so that one more is missing",
    ),
    ("loop\n  pause\n  emit O\nend", "a `;` is missing before `emit`"),
    ("await A emit O", "a `;` is missing before `emit`"),
    ("every A emit O end", "`do` expected; the `every` of line 1 is open"),
    ("abort halt with A", "`when` expected; the `abort` of line 1 is open"),
    (
        "loop pause end every",
        "this `end` closes the `loop` of line 1, and may stand alone or before `loop`",
    ),
    ("[emit O || emit P", "`]` expected; the `[` of line 1 is open"),
    ("await A B", "`and`, `or` or `;` expected"),
    ("trap emit O end", "a name expected"),
    ("pause;; pause", "a statement expected"),
]
ADVICE = [
    ("pause;; pause", "one `;` is enough: take the other one away"),
    ("signal await in pause end", "`await` is a word of the language, and no name"),
    ("run N [A/I]", "renamings begin with the word `signal`: `[signal I/IN]`"),
    ("present A || B then pause end", "in a test write `or`"),
    ("await [A] or B", "the brackets of a test stand around the whole of it"),
    ("present A && B then pause end", "`and` stands between two signals of a test: `A and B`"),
    ("present !A then pause end", "`not` stands before a signal of a test: `not A`"),
    ("pause # a remark", "comments begin with `%`, or stand between `%{` and `}%`"),
    ("emit O; # it's a remark", "comments begin with `%`, or stand between `%{` and `}%`"),
    ("pause // a remark", "comments begin with `%`, or stand between `%{` and `}%`"),
    ("// it's a remark\npause", "comments begin with `%`, or stand between `%{` and `}%`"),
    ("/* a remark */ pause", "comments begin with `%`, or stand between `%{` and `}%`"),
    ("pause %{ a remark", "this comment has no end: `}%`"),
    ("signal 1A in pause end", "a name begins with a letter"),
    (f"emit {LONG}", "a name has at most 48 bytes, and this one has 49"),
    ("if A then emit O end", "a signal is asked for by `present S then p else q end`"),
    ("while A pause end", "`abort` ends it: `abort loop p end when S`"),
    ("present A then emit O elseif B then emit P end", "`else present B then .. end end`"),
    ("present A then emit O endpresent", "`end` and what it ends are two words: `end present`"),
    ("emmit O", "did you mean `emit`?"),
    ("lop pause end", "did you mean `loop`?"),
    ("await imediate A", "did you mean `immediate`?"),
    ("present A then emit O edn", "did you mean `end`?"),
    ("trap T ni exit T end", "did you mean `in`?"),
    ("emit ÄO", "names have the letters A to Z and a to z, digits and `_`"),
    ("abort halt when A do emit O end", "`trap T in abort p; exit T when S; q end`"),
    ("weak abort halt when A do emit O end", "`trap T in abort p; exit T when S; q end`"),
    ("do halt watching A timeout emit O end", "`trap T in abort p; exit T when S; q end`"),
    ("await A do emit O end", "`await S; p`"),
    ("pause; output Q; emit Q", "declarations stand before the body"),
    ("emit O; (await A || pause)", "statements are kept together by `[` and `]`"),
    ("present A then else emit O end", "a part that does nothing is written `nothing`"),
    ("pause end module; module N: pause", "no `;` stands after a module"),
]
NAMES = [
    ("run N [signal I/A] end module module N: input I; pause", "write `A/I`"),
    ("run N [signal A/STRAT] end module module N: input START; pause", "did you mean `START`?"),
    ("run NODES end module module NODE: pause", "did you mean `NODE`?"),
    ("signal READY in emit REDAY end", "did you mean `READY`?"),
    ("signal Ready in emit READY end", "did you mean `Ready`?"),
    ("trap DONE in exit DONNE end", "did you mean `DONE`?"),
]
PATHS = [
    ("loop\nemit O\nend", ["3:1: emit O"]),
    (
        "loop\npresent A then pause end;\nemit O\nend",
        ["3:1: present A, which doesn't hold", "4:1: emit O"],
    ),
    (
        "loop trap T in\n[exit T || emit O]\nend end",
        ["3:2: exit T", "3:12: emit O"],
    ),
    (
        "loop\nweak abort halt when immediate A\nend",
        ["3:1: weak abort .. when immediate A, which holds"],
    ),
    (
        "loop\nrun N [signal A/I]\nend end module\nmodule N: input I;\nabort pause when immediate I",
        ["3:1: run N", "6:1: abort .. when immediate I, which holds"],
    ),
    (
        "loop\nrun N end end module module N:\nrun L end module module L:\nawait immediate tick",
        ["3:1: run N", "4:1: run L", "5:1: await immediate tick, which holds"],
    ),
]


def module_of(body):
    return f"module M: input A, B; output O, P;\n{body} end module\n"


@needs_program
class OnTheProgram(WithProgram):
    def setUp(self):
        super().setUp()
        self.client.ask_all(grants_of(Module("M", [], [], [])))

    def told_of(self, text):
        """The lines that are told of a text, which is refused."""
        refusal = refusal_of(self.client, text)
        self.assertIsNotNone(refusal, text)
        library = join_texts([("m.strl", text)])
        found = diagnose_load(refusal, library, "M").as_json()
        self.assertEqual(found["fault"], refusal.fault)
        lines = str(load_fault(refusal, library, "M")).split("\n")
        for mark in found["marks"]:
            self.assertTrue(
                any(f"m.strl:{mark['line']}:{mark['column']}: " in line for line in lines)
            )
        return lines

    def test_what_was_expected_and_what_is_open(self):
        for body, told in SYNTAX:
            with self.subTest(body):
                first = self.told_of(f"module M: input A, B; output O, P; {body} end module\n")[0]
                self.assertEqual(first.partition(" Syntax: ")[2], told)

    def test_what_is_said_besides(self):
        for body, told in ADVICE + NAMES:
            with self.subTest(body):
                self.assertIn(told, self.told_of(module_of(body))[-1])

    def test_the_path_that_takes_no_time(self):
        for body, steps in PATHS:
            with self.subTest(body):
                lines = self.told_of(module_of(body))
                at = lines.index("a path through it that takes no time:")
                self.assertEqual([line.strip()[7:] for line in lines[at + 1 :]], steps)

    def test_a_text_that_ends_too_early(self):
        told = {
            "module M: pause end": "a module ends by `end module`",
            "module M: loop pause end": "the text ends before it is closed",
            "modul M: pause end module": "did you mean `module`?",
        }
        for text, last in told.items():
            self.assertEqual(self.told_of(text)[-1], last)

    def test_texts_that_nest_deeper_than_the_calls_of_python(self):
        runs = "".join(f"module M{n}: run M{n + 1} end module " for n in range(600))
        text = f"module M: loop run M0 end end module {runs} module M600: nothing end module"
        self.assertIn("InstantLoop: a loop's body can end", self.told_of(text)[0])
        lines = self.told_of("module M: " + 5_000 * "[" + "?")
        self.assertEqual(lines[0], "m.strl:1:5011: Lexical: no token stands here")

    def test_what_is_open_is_told_by_its_file(self):
        main = "module M: pause\n\n"
        for text, told in [
            ("module N:\nloop pause end module\n", "`loop` of line 2, so that one more is missing"),
            ("module N:\nevery tick nothing\n", "`every` of line 2 is open"),
        ]:
            whole = f"{main}end module\n{text}"
            library = join_texts([("m.strl", f"{main}end module\n"), ("n.strl", text)])
            found = diagnose_load(refusal_of(self.client, whole), library, "M")
            self.assertIn(told, found.told)
            self.assertEqual((found.marks[0].file, found.marks[0].line), ("n.strl", 2))
        library = join_texts([("m.strl", main), ("n.strl", "end\n")])
        found = diagnose_load(refusal_of(self.client, f"{main}end\n"), library, "M")
        self.assertEqual(found.told, "Syntax: `module` expected")
        library = join_texts([("m.strl", main), ("n.strl", "each A")])
        found = diagnose_load(refusal_of(self.client, f"{main}each A"), library, "M")
        self.assertEqual(
            found.told, "Syntax: `end` expected; the `module` of line 1 of m.strl is open"
        )

    def test_each_refused_text_has_its_expectation(self):
        page = (ROOT / "docs" / "LANGUAGE.md").read_text()
        rows = re.findall(r"^\| `(module M: [^`|]*)` \| syntax \| 1, (\d+) \|", page, re.MULTILINE)
        self.assertGreater(len(rows), 3)
        for text, column in [*REFUSED, *((text, int(column)) for text, column in rows)]:
            with self.subTest(text):
                refusal = refusal_of(self.client, text)
                self.assertEqual(refusal.fields, {"line": 1, "column": column})
                spot = spot_at(tokens_of(text), 1, column)
                self.assertNotIn(expected_at(spot), ("", "the text cannot go on so"))
                self.assertNotIn(spot.word(), [word for word in spot.words() if word.isalpha()])


@needs_program
class Mutated(unittest.TestCase):
    """Texts of the repository with tokens taken out, put in or exchanged: whatever the program says of
    one, the client has a message, and its own reader takes what the program takes.
    """

    MORE = "; || [ ] ( ) , / # => end then else when do in each and or not await emit".split()
    MORE += "X % { & 3 module signal".split()

    def mutated(self, text, chance):
        words = [token.text for token in tokens_of(text)]
        for _ in range(chance.randint(1, 2)):
            at, way = chance.randrange(len(words)), chance.randrange(4)
            if way == 0:
                del words[at : at + 1]
            elif way == 1:
                words.insert(at, chance.choice(self.MORE))
            elif way == 2:
                words[at] = chance.choice(self.MORE)
            else:
                other = chance.randrange(len(words))
                words[at], words[other] = words[other], words[at]
            if not words:
                return ""
        return "".join(word + chance.choice(" \n") for word in words)

    def test_whatever_the_program_says_has_a_message(self):
        chance, counts = random.Random(1_958), collections.Counter()
        texts = [text for text in texts_of_the_repository() if len(text) < 1_500]
        with estserve.start(os.environ["ESTSERVE"]) as client:
            client.login("root", ["root"])
            client.ask_all(grants_of(Module("M", [], [], [])))
            for _ in range(1_500):
                text = self.mutated(chance.choice(texts), chance)
                fault = self.check(client, text, main_of(text).name)
                counts[fault] += 1
        self.assertGreater(counts["Syntax"], 200)
        self.assertGreater(len(counts), 6)

    def check(self, client, text, main):
        try:
            client.load(0, main if IDENTIFIER.fullmatch(main) else "M", text)
        except estserve.Refusal as refusal:
            told = str(load_fault(refusal, join_texts([("m.strl", text)]), main))
            self.assertIn(refusal.fault, told)
            if refusal.fault == "Syntax":
                spot = spot_at(tokens_of(text), refusal.fields["line"], refusal.fields["column"])
                self.assertTrue(spot.wanted, text)
                self.assertNotIn(spot.word() or "the end", spot.words(), text)
                self.assertIsNone(parse(text), text)
            elif refusal.fault not in ("Lexical", "TooLarge"):
                self.assertIsNotNone(parse(text), text)
            return refusal.fault
        client.unload(0)
        self.assertIsNotNone(parse(text), text)
        return "loaded"


class Expectations(unittest.TestCase):
    """What is expected is what the grammar takes: each word that is expected can stand there."""

    WORDS = {"a name": "X", "a statement": "pause", "a declaration": "input X;"}

    def test_what_is_expected_can_stand_there(self):
        text = (
            "module M: input A; relation A # A; output O; trap T in signal S in loop present [A and not"
            " (S or A)] then emit O else exit T end; await immediate A; run N [signal A/I, O/P] end end ||"
            " suspend sustain O when A end suspend; weak abort halt when A end weak abort; every A do"
            " pause end every; loop pause each A; [nothing] end trap end module"
        )
        tokens = tokens_of(text)
        for at, token in enumerate(tokens):
            spot = spot_at(tokens, token.line, token.column)
            kinds = {"a name", "a statement", "a declaration"}
            is_known = token.text in spot.words() or (kinds & set(spot.wanted))
            self.assertTrue(is_known, f"{token.text} at {token.column}: {spot.wanted}")
            for wanted in spot.wanted:
                more = tokens_of(self.WORDS.get(wanted, wanted))
                longer = [
                    *tokens[:at],
                    *[type(token)(one.text, 9, n) for n, one in enumerate(more)],
                ]
                after = spot_at([*longer, type(token)("?", 10, 1)], 10, 1)
                self.assertTrue(after.wanted, f"{wanted} after {text[: token.column]}")


@needs_program
class Shell(unittest.TestCase):
    def test_what_was_meant_is_asked(self):
        with tempfile.TemporaryDirectory() as name:
            path = pathlib.Path(name) / "m.strl"
            path.write_text("module M: input START; pause end module\n")
            typed = (
                f"gramt\ngrant root load 0\ngrant root offer 0.STRAT\nload {path}\noffer STRAT\n"
            )
            lines = run_client(["shell"], typed).printed.splitlines()
        self.assertEqual(lines[1], "line 1: there is no command gramt: did you mean `grant`?")
        self.assertEqual(
            lines[-2:],
            ["line 5: UnknownSignal: the module has no such signal", "did you mean `START`?"],
        )

    def test_a_name_that_is_no_input_is_told_before_a_permission_is_asked_for(self):
        abro = EXAMPLES / "abro" / "abro.strl"
        typed = f"grant root load 0\nload {abro}\noffer O\nO;\na;\nA, B;\nA;\n"
        lines = run_client(["shell"], typed).printed.splitlines()
        needs = "Permission: needs offer on 0."
        form = "is not an identifier: a letter, then letters, digits and _, at most 48"
        self.assertEqual(
            lines[3:],
            [
                f"line 3: {needs}O",
                "O is an output of ABRO, which nobody can offer",
                f"line 4: O: {needs}O",
                "O is an output of ABRO, which nobody can offer",
                f"line 5: a: {needs}a",
                "ABRO has no input a; did you mean `A`?",
                f"line 6: A,: NotARequest: A, {form}",
                "ABRO has no input A,; names stand apart by blanks, without commas",
                f"line 7: A: {needs}A",
            ],
        )

    def test_names_of_the_policy_and_of_a_permission(self):
        abro = EXAMPLES / "abro" / "abro.strl"
        typed = (
            "adduser ann\naddrole driver\nassign anm driver\nassign ann drivr\nhelp grnt\n"
            f"grant root load 0\nload {abro}\ngrant driver offer 0.AB\nrevoke driver offer 0.AB\n"
            "grant driver offer 0.B\ndsd keep 2 driver root\nundsd kep\nundsd else\n"
        )
        useless = "grant driver offer 0.O\ngrant driver observe 0.O\ngrant driver step 0.A\n"
        printed = run_client(["shell"], typed + useless).printed
        for told in (
            "driver may offer on 0.O; ABRO there gives O as an output, which nobody can offer\n",
            "driver may observe on 0.O\n",
            "driver may step on 0.A; this does nothing: step is asked for on a slot\n",
            "line 3: UnknownUser: there is no user anm\ndid you mean `ann`?\n",
            "line 4: UnknownRole: there is no role drivr\ndid you mean `driver`?\n",
            "line 5: there is no command grnt: did you mean `grant`?\n",
            "driver may offer on 0.AB; ABRO there has no signal AB\n",
            "driver itself no longer has offer on 0.AB\n",
            "driver may offer on 0.B\n",
            "line 12: NoDsd: there is no separation set kep\ndid you mean `keep`?\n",
        ):
            self.assertIn(told, printed)
        self.assertIn("line 13: NoDsd: there is no separation set else\ndriver may", printed)
        rights = "grant root audit policy\ngrant root load 0\ngrant root step 0\n"
        typed = f"{rights}load {abro}\n;\naudit\n;\naudit\n"
        lines = run_client(["shell"], typed).printed.splitlines()
        counted = [line for line in lines if " since the load" in line]
        self.assertEqual(
            counted,
            ["2 entries, 1 instant since the load", "3 entries, 2 instants since the load"],
        )


class Circles(unittest.TestCase):
    def test_of_a_circle_of_runs_the_first_module_is_main(self):
        text = "module A: run B end module module B: run A end module"
        self.assertEqual(main_of(text).name, "A")
        self.assertEqual(main_of("module A: run A end module").name, "A")


class Words(unittest.TestCase):
    def test_one_edit(self):
        for one, other in [
            ("STRAT", "START"),
            ("emit", "emmit"),
            ("loop", "lop"),
            ("end", "edn"),
            ("on", "one"),
        ]:
            self.assertTrue(is_one_edit(one, other) and is_one_edit(other, one), (one, other))
        for one, other in [
            ("A", "A"),
            ("START", "STOP"),
            ("ab", "ba_"),
            ("abcd", "badc"),
            ("abc", "cab"),
        ]:
            self.assertFalse(is_one_edit(one, other) or is_one_edit(other, one), (one, other))

    def test_short_names_are_not_guessed(self):
        self.assertIsNone(closest("A", ["B", "AB", "C"]))
        self.assertEqual(closest("a", ["B", "A"]), "A")
        self.assertEqual(closest("STRAT", ["STRATA", "START"]), "STRATA")


if __name__ == "__main__":
    unittest.main()
