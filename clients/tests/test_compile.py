"""The command `compile`: a module as a table in C, which is compared with all its runs."""
import contextlib
import io
import os
import random
import re
import shutil
import subprocess
import sys
import unittest
import unittest.mock

from support import EXAMPLES, ROOT
from test_lab import OfLab, needs_lab

sys.path.insert(0, str(ROOT / "clients"))
sys.path.insert(0, str(ROOT / "tests" / "lab"))
from drawing_modules import Drawer  # noqa: E402

from estserve_client.commands import make_parser  # noqa: E402
from estserve_client.connection import Refusal  # noqa: E402
from estserve_client.lab import c_check, compiling  # noqa: E402
from estserve_client.lab.asking import Subject, lab_of, read_subject  # noqa: E402
from estserve_client.lab.c_cells import CellsCode  # noqa: E402
from estserve_client.lab.c_code import TableCode  # noqa: E402
from estserve_client.lab.kernel import checked_kernel  # noqa: E402
from estserve_client.lab.parsers import MOST  # noqa: E402
from estserve_client.library_text import join_texts  # noqa: E402
from estserve_client.module_text import main_of  # noqa: E402
from estserve_client.texts import Failed  # noqa: E402

TEXTS = sorted(path for path in EXAMPLES.glob("*/*.strl") if path.stem == path.parent.name)
ROW = re.compile(r"^    (\{0x\w+, 0x\w+, )0x(\w+)(, \d+\},)$", re.MULTILINE)
BLINK = """#include <stdio.h>
#include "abro.h"

int main(void) {
  struct abro machine;
  uint64_t given, inputs[] = {0, ABRO_A, ABRO_B, ABRO_A | ABRO_B, ABRO_R, ABRO_A | ABRO_B, 16};
  abro_reset(&machine);
  for (int instant = 0; instant < 7; instant++) {
    int status = abro_react(&machine, inputs[instant], &given);
    printf("%d:%d ", status, (int)given);
  }
  return 0;
}
"""
BLINKED = "0:0 0:0 0:8 0:0 0:0 0:8 3:16 "
RELATIONS = """module M:
input A, B, C, OK, OK_, INPUTS;
output O;
relation A # B # A, C => A, B => B, OK # OK;
present A then emit O end
end module
"""
RANDOM = 20  # modules
NEEDED = "no compiler of C is installed"


def needs_compiler(test):
    """Marks a test that compiles C."""
    return unittest.skipUnless(any(map(shutil.which, c_check.COMPILERS)), NEEDED)(test)


class Words:
    """What the words of the command line give."""

    unproved, most = False, MOST

    def __init__(self):
        self.estlab = os.environ["ESTLAB"]


@needs_lab
@needs_compiler
class Compiling(OfLab):
    def code_of(self, path, name):
        """The C of a module, written into the test's folder."""
        subject = read_subject([path], None)
        with lab_of(Words()) as lab:
            lab.load(subject)
            table = lab.table(subject.module.inputs(), MOST)
        code = TableCode(subject, name, "", table)
        compiling.write_files(code, str(self.folder))
        return code

    def test_each_example_is_compared_in_full_and_a_changed_row_is_found(self):
        self.assertGreater(len(TEXTS), 9)
        for path in TEXTS:
            with self.subTest(path.stem):
                code = self.code_of(path, path.stem)
                inputs = len(code.subject.module.inputs())
                pairs = len(code.table.states) << inputs
                self.assertEqual(c_check.compare(code, str(self.folder)), pairs)
                source = self.folder / f"{path.stem}.c"
                rows = list(ROW.finditer(source.read_text()))
                self.assertEqual(len(rows), sum(map(len, code.lines)))
                changed = rows[len(rows) // 2]
                given = int(changed[2], 16) ^ 1 << len(code.places) - 1
                text = source.read_text()
                mutant = f"    {changed[1]}{given:#x}{changed[3]}"
                source.write_text(text[: changed.start()] + mutant + text[changed.end() :])
                with self.assertRaisesRegex(Failed, "the C differs at state "):
                    c_check.compare(code, str(self.folder))

    def test_a_state_of_another_row_is_found(self):
        code = self.code_of(EXAMPLES / "abro" / "abro.strl", "abro")
        source = self.folder / "abro.c"
        source.write_text(source.read_text().replace("0x8, 4},", "0x8, 3},", 1))
        with self.assertRaisesRegex(Failed, "the C differs at state 1, input set 3: `0 8 3` and"):
            c_check.compare(code, str(self.folder))

    def test_abro_in_a_program(self):
        out = self.folder / "abro"
        told = "abro.h, abro.c: 5 states, 14 rows; compared in full: 40 pairs of a state and a set"
        path = EXAMPLES / "abro" / "abro.strl"
        said, status = self.ran("compile", path, "-o", out, "--check")
        self.assertEqual((said, status), (told + " of inputs\n", 0))
        main, program = self.folder / "main.c", self.folder / "main"
        main.write_text(BLINK)
        words = [*c_check.compiler(), *c_check.STRICT, main, self.folder / "abro.c", "-o", program]
        subprocess.run(words, check=True)
        self.assertEqual(subprocess.check_output([program], text=True), BLINKED)

    @unittest.skipUnless(shutil.which("g++"), "g++ is not installed")
    def test_abro_in_a_program_of_cpp(self):
        self.code_of(EXAMPLES / "abro" / "abro.strl", "abro")
        made, main, program = self.folder / "abro.o", self.folder / "main.cpp", self.folder / "main"
        words = [*c_check.compiler(), *c_check.STRICT, "-c", self.folder / "abro.c", "-o", made]
        subprocess.run(words, check=True)
        main.write_text(BLINK)
        subprocess.run(
            ["g++", "-Wall", "-Wextra", "-Werror", main, made, "-o", program], check=True
        )
        self.assertEqual(subprocess.check_output([program], text=True), BLINKED)

    def test_relations_are_asked_first_and_names_are_kept_apart(self):
        path = self.folder / "m.strl"
        path.write_text(RELATIONS)
        code = self.code_of(path, "m")
        self.assertEqual(c_check.compare(code, str(self.folder)), 2 * 64)
        self.assertEqual(code.answer(0, ["A", "B", "C"]), (2, 1, 0))
        self.assertEqual(code.answer(0, ["C"]), (2, 2, 0))
        self.assertEqual(code.answer(0, ["A", "C"])[:2], (0, 64))
        header = (self.folder / "m.h").read_text()
        for name in ("M_A", "M_OK__", "M_OK_", "M_INPUTS_"):
            self.assertRegex(header, rf"#define {name} UINT64_C")

    def test_what_is_too_large_and_what_is_no_name_is_refused(self):
        path = EXAMPLES / "abro" / "abro.strl"
        told = "estserve.py: 5 states and 8 sets of inputs are 40 pairs: --pairs allows more, and"
        told += " --cells needs no table\n"
        self.assertEqual(self.fault("compile", path, "--pairs", "39"), told)
        told = "estserve.py: a-b is no name in C: -o NAME gives one\n"
        self.assertEqual(self.fault("compile", path, "-o", "a-b"), told)
        path_of_switch = self.folder / "switch.strl"
        path_of_switch.write_text("module Switch: output O; emit O end module")
        told = "estserve.py: switch is no name in C: -o NAME gives one\n"
        self.assertEqual(self.fault("compile", path_of_switch), told)
        told = "estserve.py: there are more than 3 states or reactions: --most allows more, and"
        told += " --cells needs no table\n"
        self.assertEqual(self.fault("compile", path, "--most", "3"), told)
        self.assertIn("cannot be written", self.fault("compile", path, "-o", "/nowhere/abro"))

    def test_sets_of_inputs_alone_may_be_too_many(self):
        names = [f"I{number}" for number in range(32)]
        path = self.folder / "m.strl"
        parts = " || ".join(f"await {name}" for name in names)
        path.write_text(f"module M: input {', '.join(names)}; {parts} end module")
        told = "estserve.py: each state has 4,294,967,296 sets of inputs: --pairs allows more, and"
        told += " --cells needs no table\n"
        self.assertEqual(self.fault("compile", path), told)

    def test_a_compiler_or_c_that_cannot_be_started_is_told(self):
        path, out, compiler = (
            EXAMPLES / "abro" / "abro.strl",
            self.folder / "abro",
            self.folder / "cc",
        )
        with unittest.mock.patch.dict(os.environ, {"CC": "nocc -O"}):
            told = "estserve.py: nocc cannot be started: No such file or directory\n"
            self.assertEqual(self.fault("compile", path, "-o", out, "--check"), told)
        compiler.write_text('#!/bin/sh\nfor made; do :; done\necho of another machine > "$made"\n')
        compiler.chmod(0o755)
        with unittest.mock.patch.dict(os.environ, {"CC": str(compiler)}):
            for words in ((), ("--cells",)):
                told = self.fault("compile", path, "-o", out, "--check", *words)
                self.assertRegex(told, r"estserve.py: \S+/driver cannot be started: ")

    def test_numbers_below_0_are_refused(self):
        for word in ("--most", "--pairs"):
            told = io.StringIO()
            with contextlib.redirect_stderr(told), self.assertRaises(SystemExit):
                make_parser("compile").parse_args(["compile", "abro.strl", word, "-1"])
            self.assertIn(f"argument {word}: invalid number value: '-1'\n", told.getvalue())

    def test_what_c_has_already_is_refused(self):
        path = EXAMPLES / "abro" / "abro.strl"
        for name in ("asm", "typeof", "bool", "class"):
            told = f"estserve.py: {name} is no name in C: -o NAME gives one\n"
            self.assertEqual(self.fault("compile", path, "-o", self.folder / name), told)
        for name in ("signal", "stdint", "time"):
            told = f"estserve.py: {name}.h is a header of C: -o NAME gives another\n"
            self.assertEqual(self.fault("compile", path, "-o", self.folder / name), told)
        self.assertEqual(list(self.folder.iterdir()), [])

    def test_a_file_of_another_is_left_alone(self):
        path, other = EXAMPLES / "abro" / "abro.strl", self.folder / "abro.c"
        other.write_text("int main(void) { return 0; }\n")
        told = (
            f"estserve.py: {other} is there, and not made by compile: -o NAME gives another name\n"
        )
        self.assertEqual(self.fault("compile", path, "-o", self.folder / "abro"), told)
        self.assertEqual([other], list(self.folder.iterdir()))
        self.assertEqual(other.read_text(), "int main(void) { return 0; }\n")
        other.unlink()
        for words in ((), ("--cells",), ()):
            self.ran("compile", path, "-o", self.folder / "abro", *words)

    def test_a_folder_alone_takes_the_name_of_the_module(self):
        path = EXAMPLES / "abro" / "abro.strl"
        told = "abro.h, abro.c: 5 states, 14 rows\n"
        self.assertEqual(self.ran("compile", path, "-o", f"{self.folder}/"), (told, 0))
        self.assertTrue((self.folder / "abro.c").exists())

    def test_constants_are_none_of_c_and_no_functions(self):
        path = self.folder / "m.strl"
        for name, signals in (
            ("M", "react, reset"),
            ("size", "MAX, MIN"),
            ("is", "NO, FALSE, TRUE"),
        ):
            path.write_text(f"module M: input {signals}; output O; emit O end module")
            for words in ((), ("--cells",)):
                with self.subTest(name, words=words):
                    out = self.folder / name
                    told, status = self.ran("compile", path, "-o", out, "--check", *words)
                    self.assertEqual(status, 0, told)

    def walked(self, lab, text, dice):
        """Compares the cells of a module with its table on a random walk; answers how many instants
        there were, or none where the text is refused or the table is large.
        """
        subject = Subject(join_texts([("text", text)]), main_of(text, None))
        try:
            lab.load(subject)
            table = lab.table(subject.module.inputs(), 200)
        except (Failed, Refusal):
            return 0
        cells = CellsCode(subject, "m", "", checked_kernel(lab, subject))
        compiling.write_files(cells, str(self.folder))
        walker = c_check.built(cells, str(self.folder), str(self.folder), c_check.WALKER)
        code, names = TableCode(subject, "m", "", table), subject.module.inputs()
        sets = [[name for name in names if dice.random() < 0.4] for _ in range(200)]
        state, wanted = 0, []
        for inputs in sets:
            status, given, state = code.answer(state, inputs)
            wanted.append(f"{status} {given:x}")
        given = "".join(f"{cells.mask(inputs):x}\n" for inputs in sets)
        ran = subprocess.run([walker], input=given, stdout=subprocess.PIPE, text=True, check=True)
        self.assertEqual(ran.stdout.splitlines(), wanted, text)
        return len(sets)

    def test_cells_of_random_modules_react_as_their_tables(self):
        drawer, dice = Drawer(11), random.Random(11)
        with lab_of(Words()) as lab:
            instants = [self.walked(lab, drawer.module(), dice) for _ in range(RANDOM)]
        self.assertGreater(sum(map(bool, instants)), RANDOM // 3)

    def test_cells_of_examples_react_as_estserve(self):
        for name in ("arbiter", "paradox", "reincarnation"):
            with self.subTest(name):
                path, out = EXAMPLES / name / f"{name}.strl", self.folder / name
                told, status = self.ran("compile", path, "-o", out, "--cells", "--check")
                self.assertEqual(status, 0)
                form = r"\w+\.h, \w+\.c: \d+ gates, \d+ pauses; compared with estserve on random walks:"
                self.assertRegex(told, form)

    def test_a_changed_gate_is_found(self):
        path = EXAMPLES / "abro" / "abro.strl"
        subject = read_subject([path], None)
        with lab_of(Words()) as lab:
            lab.load(subject)
            code = CellsCode(subject, "abro", "", checked_kernel(lab, subject))
        compiling.write_files(code, str(self.folder))
        self.assertEqual(c_check.compare_walks(code, str(self.folder), None), 2000)
        source = self.folder / "abro.c"
        text = source.read_text()
        source.write_text(text.replace("machine->began = 1;", "machine->began = 0;"))
        with self.assertRaisesRegex(Failed, "the C differs at walk 1, instant "):
            c_check.compare_walks(code, str(self.folder), None)

    def test_what_is_given_at_a_refused_instant_is_compared(self):
        stuck = "module M: input A; output O, P; emit P; pause;\n"
        stuck += "present O else emit O end end module"
        for text, right, wrong, told in (
            (stuck, "is_stuck ? OPEN : YES", "YES", "`1 0` and not `1 2`"),
            (RELATIONS, "*given = 2;", "*given = 1;", "`2 1` and not `2 2`"),
            (RELATIONS, "return M_BROKEN;", "return M_OK;", "`0 1` and not `2 1`"),
        ):
            with self.subTest(wrong), lab_of(Words()) as lab:
                subject = Subject(join_texts([("text", text)]), main_of(text, None))
                lab.load(subject)
                code = CellsCode(subject, "m", "", checked_kernel(lab, subject))
                compiling.write_files(code, str(self.folder))
                c_check.compare_walks(code, str(self.folder), None)
                source = self.folder / "m.c"
                self.assertIn(right, source.read_text())
                source.write_text(source.read_text().replace(right, wrong))
                with self.assertRaisesRegex(Failed, "the C differs at walk .*" + told):
                    c_check.compare_walks(code, str(self.folder), None)


if __name__ == "__main__":
    unittest.main()
