"""What is said of the inside of instants: local signals, the lines that ran, why a signal is present."""
import os
import sys
import unittest
import unittest.mock

from support import EXAMPLES, ROOT, InAFolder, needs_program, read_vcd, run_client, serve
from test_lab import WithLab, needs_lab

from estserve_client.connection import Client
from estserve_client.lab.asking import Subject, start_lab
from estserve_client.lab.why import Why
from estserve_client.library_text import join_texts
from estserve_client.module_text import main_of

RUNS = (ROOT / "tests" / "lab" / "motors.strl").read_text()
NESTED = """
module MAIN: input GO; output DONE; run PAIR [signal GO/START, DONE/END] end module
module PAIR: input START; output END;
  signal MIDDLE in run RELAY [signal START/I, MIDDLE/O] || run RELAY [signal MIDDLE/I, END/O] end
end module
module RELAY: input I; output O; await I; emit O end module
"""


@needs_lab
class Reincarnation(WithLab):
    """In each instant but the first the loop ends its body and begins it anew: the old S is emitted
    before it ends, the new one is not, so one of the two is present.
    """

    def setUp(self):
        super().setUp()
        path = EXAMPLES / "reincarnation" / "reincarnation.strl"
        self.inside = self.inside_of(path.read_text())

    def test_two_incarnations_have_statuses_of_their_own(self):
        first, second = self.inside.looks([(), ()])
        self.assertEqual(first.locals, {(1, 0): False, (1, 1): False})
        self.assertEqual(second.locals, {(1, 0): True, (1, 1): False})
        self.assertTrue(second.ran((1, 0)) and second.ran((1, 1)))
        self.assertFalse(first.ran((1, 1)))

    def test_why_tells_both(self):
        *_, second = self.inside.looks([(), ()])
        lines = Why(self.inside, second).lines("S")
        self.assertEqual(lines[0], "S is present")
        self.assertIn("S (as it begins anew) is absent", lines)

    def test_back_and_try_move_nothing_else(self):
        first, second = self.inside.looks([(), ()])
        self.assertEqual(self.inside.tried(()).locals, second.locals)
        self.assertEqual(self.inside.at, 2)
        self.inside.back(1)
        again = self.inside.look(())
        self.assertEqual((again.before, again.began), (first.after, second.began))


@needs_lab
@needs_program
class Runs(InAFolder):
    def ran_with(self, text, listed, *more):
        """What `run` prints of a text and a list of inputs, and its status."""
        path, inputs = self.file("m.strl", text), self.file("m.inputs", listed)
        return run_client(["run", path, "--inputs", inputs, *more])

    def test_local_signals_stand_in_the_table_with_their_modules(self):
        # The first motor hears A, and its OFF is the second one's GO in the same instant.
        ran = self.ran_with(RUNS, ";\nA\n;\n", "--locals")
        self.assertEqual((ran.told, ran.status), ("", 0))
        self.assertEqual(
            ran.printed.splitlines(),
            [
                "instant  inputs  outputs  locals",
                "      1",
                "      2  A       O        S MOTOR_1.OVER MOTOR_2.OVER",
                "      3",
            ],
        )

    def test_several_incarnations_are_counted(self):
        words = EXAMPLES / "reincarnation"
        listed = ["--inputs", words / "reincarnation.inputs", "--locals", "--trace"]
        ran = run_client(["run", words / "reincarnation.strl", *listed])
        self.assertEqual(
            ran.printed.splitlines()[:3],
            [
                "instant  inputs  outputs           locals  lines",
                "      1          OLD_IS_GONE               5-8",
                "      2          OLD_IS_GONE       S(1/2)  5-9",
            ],
        )

    def test_waves_have_local_signals(self):
        ran = self.ran_with(RUNS, ";\nA\n;\n", "--locals", "--wave", "--signals", "A,MOTOR_2.OVER")
        self.assertEqual(
            ran.printed.splitlines()[1:],
            ["A             input  ____" + wave for wave in ("_/‾\\____",)]
            + ["MOTOR_2.OVER  local  _____/‾\\____"],
        )

    def test_a_vcd_file_has_them_in_scopes_by_their_modules(self):
        out = self.folder / "out.vcd"
        ran = self.ran_with(RUNS, ";\nA\n;\n", "--locals", "--vcd", out)
        self.assertEqual((ran.printed, ran.told, ran.status), ("", "", 0))
        lines = out.read_text().splitlines()
        outer, inner = read_vcd(lines), read_vcd(lines, 2)
        self.assertEqual(sorted(outer), ["A", "O", "S", "tick"])
        self.assertIn("MOTOR_1.OVER", inner)
        self.assertEqual(inner["MOTOR_2.OVER"], {1: "0", 2: "1", 3: "0"})
        # S stands in both by the names that they have for it.
        names = {"MOTOR_1": ["GO", "OFF", "OVER"], "MOTOR_2": ["GO", "OFF", "OVER"]}
        self.assertEqual(
            sorted(inner), [f"{run}.{name}" for run, some in names.items() for name in some]
        )
        self.assertEqual(inner["MOTOR_1.OFF"], outer["S"])
        self.assertEqual(inner["MOTOR_2.GO"], outer["S"])

    def test_a_vcd_file_has_scopes_in_scopes(self):
        out = self.folder / "out.vcd"
        ran = self.ran_with(NESTED, ";\nGO\n;\n", "--locals", "--vcd", out)
        self.assertEqual((ran.printed, ran.told, ran.status), ("", "", 0))
        lines = out.read_text().splitlines()
        outer, pair, relays = (read_vcd(lines, depth) for depth in (1, 2, 3))
        self.assertEqual(sorted(pair), ["PAIR.END", "PAIR.MIDDLE", "PAIR.START"])
        self.assertEqual(pair["PAIR.MIDDLE"], {1: "0", 2: "1", 3: "0"})
        # Each name is the one that the module around it hands on.
        means = {"1.I": outer["GO"], "1.O": pair["PAIR.MIDDLE"]}
        means.update({"2.I": pair["PAIR.MIDDLE"], "2.O": outer["DONE"]})
        self.assertEqual(relays, {f"PAIR.RELAY_{name}": wave for name, wave in means.items()})

    def test_the_lines_that_ran_are_traced(self):
        ran = self.ran_with(RUNS, ";\nA\n", "--trace")
        self.assertEqual(
            [line.split()[-1] for line in ran.printed.splitlines()],
            ["lines", "3-4,9-11", "3-4,9-13"],
        )

    def test_lines_of_several_files_stand_with_them(self):
        main, motor = RUNS.split("module MOTOR", 1)
        paths = self.file("main.strl", main), self.file("motor.strl", "module MOTOR" + motor)
        inputs = self.file("m.inputs", ";\n")
        ran = run_client(["run", *paths, "--inputs", inputs, "--trace"])
        told = f"{paths[0]}:3-4 {paths[1]}:3-5"
        self.assertTrue(ran.printed.splitlines()[1].endswith(told), ran.printed)

    def test_a_run_stops_where_a_test_holds(self):
        ran = self.ran_with(RUNS, ";\n;\nA\n;\nA\n", "--until", "O and A")
        self.assertEqual(ran.status, 0)
        self.assertEqual(ran.told, "estserve.py: instant 3: O and A holds\n")
        self.assertEqual(len(ran.printed.splitlines()), 4)
        inner = self.ran_with(RUNS, ";\n;\nA\n", "--locals", "--until", "MOTOR_1.OVER and not S")
        self.assertEqual(inner.status, 1)
        self.assertTrue(inner.told.endswith("not S held in none of 3 instants\n"), inner.told)

    def test_tests_that_are_none(self):
        for test, told in (
            ("O and", "this is no test"),
            ("O X", "this is no test"),
            ("MOTOR_1.OVER", "there is no signal MOTOR_1.OVER"),
            ("Q", "there is no signal Q"),
        ):
            with self.subTest(test):
                ran = self.ran_with(RUNS, ";\n", "--until", test)
                self.assertEqual((ran.printed, ran.status), ("", 1))
                self.assertIn(told, ran.told)

    def test_local_signals_are_asked_for_with_locals_alone(self):
        for words in (["--until", "O and S"], ["--signals", "O,S"]):
            with self.subTest(words):
                ran = self.ran_with(RUNS, ";\n", *words)
                told = (
                    "estserve.py: there is no signal S outside of the module: --locals shows it\n"
                )
                self.assertEqual((ran.told, ran.status), (told, 1))

    def test_words_that_do_not_go_together(self):
        for words in (
            ["--locals", "--expect", "x"],
            ["--trace", "--wave"],
            ["--trace", "--socket", "x", "--loaded"],
        ):
            with self.subTest(words):
                ran = self.ran_with(RUNS, ";\n", *words)
                self.assertEqual((ran.printed, ran.status), ("", 1))
                self.assertIn("leave ", ran.told)

    def test_nothing_is_drawn_where_the_kernels_differ(self):
        ask = Client.ask

        def another(client, cmd, **keys):
            answer = ask(client, cmd, **keys)
            if cmd == "kernel":
                answer["statements"].pop()
            return answer

        with unittest.mock.patch.object(Client, "ask", another):
            ran = self.ran_with(RUNS, ";\nA\n", "--locals")
        self.assertEqual((ran.printed, ran.status), ("", 1))
        self.assertIn("the client reads another kernel than the program", ran.told)

    def test_without_estlab_nothing_is_drawn(self):
        missing = os.path.join(self.folder, "none")
        ran = self.ran_with(RUNS, "A\n", "--estlab", missing, "--locals")
        self.assertEqual((ran.printed, ran.status), ("", 1))


GRANTS = "".join(
    f"grant root {op} {on}\n"
    for op, on in [("load", "0"), ("step", "0")]
    + [("offer", f"0.{name}") for name in "ABR"]
    + [("observe", f"0.{name}") for name in "ABRO"]
)


@needs_lab
@needs_program
class Shells(InAFolder):
    def lines(self, *typed):
        """What a shell prints for these lines, after ABRO was loaded and `;` and `A;` were made."""
        abro = EXAMPLES / "abro" / "abro.strl"
        script = f"{GRANTS}load 0 {abro}\n;\nA;\n" + "".join(line + "\n" for line in typed)
        ran = run_client(["shell"], script)
        self.assertEqual(ran.told, "")
        return [line.replace(str(abro), "abro.strl") for line in ran.printed.splitlines()[13:]]

    def test_where_marks_what_ran_and_where_control_rests(self):
        lines = self.lines("where", "B;", "where")
        self.assertEqual(
            lines[4:8],
            [
                ">* 5  loop",
                ">* 6    [ await A || await B ];",
                "   7    emit O",
                "   8  each R",
            ],
        )
        self.assertEqual(lines[-3:-1], [">  7    emit O", "   8  each R"])

    def test_colours_stand_where_there_is_a_terminal(self):
        from estserve_client.colours import Colours
        from estserve_client.lab.exploring import Explorer

        abro = EXAMPLES / "abro" / "abro.strl"
        with start_lab() as lab:
            explorer = Explorer(
                lab, Subject(join_texts([("a", abro.read_text())]), main_of(abro.read_text()))
            )
            explorer.tried(())
            with unittest.mock.patch("estserve_client.colours.has_colours", lambda _: True):
                drawn = explorer.where_lines(Colours(sys.stdout))
            self.assertIn("\033[32m", drawn[4])
            plain = explorer.where_lines(Colours(sys.stdout))
        self.assertNotIn("\033", "".join(plain))

    def test_why_goes_back_to_the_inputs(self):
        self.assertEqual(
            self.lines("B;", "why O")[1:],
            [
                "O is present",
                "  emitted at abro.strl:7:3: emit O",
                "    since at abro.strl:5:1: loop each R: `R` didn't hold",
                "    since at abro.strl:6:16: await B: control rested there and `B` held",
                "R is not offered",
                "B is offered",
            ],
        )
        self.assertEqual(
            self.lines("why O"),
            [
                "O is absent",
                "  not emitted at abro.strl:7:3: emit O",
                "    since at abro.strl:6:16: await B: `B` didn't hold",
                "B is not offered",
            ],
        )

    def test_why_not_tells_no_test_that_control_did_not_come_to(self):
        # A ends the abort before B is asked for. Then C holds the loop still. In the fourth instant
        # B is there, and nothing waits for it.
        text = "module M: input A, B, C; output O, P, Q;\nabort\nawait B; emit O\nwhen A;\n"
        text += "suspend\nloop emit P; pause end\nwhen C end module"
        path = self.file("m.strl", text)
        grants = "".join(f"grant root {op} 0\n" for op in ("load", "step"))
        grants += f"load 0 {path}\ngrant root offer 0.*\ngrant root observe 0.*\n"
        typed = ";\nA B;\nwhy O\nC;\nwhy P\nB;\nwhy O\nwhy Q\n"
        printed = run_client(["shell"], grants + typed).printed.replace(f"{path}:", "")
        self.assertEqual(
            printed.splitlines()[7:],
            [
                "instant 2: P",
                "O is absent",
                "  not emitted at 3:10: emit O",
                "    since at 3:1: await B: control stood still there",
                "    since at 2:1: abort when A: `A` held",
                "A is offered",
                "instant 3: no output",
                "P is absent",
                "  not emitted at 6:6: emit P",
                "    since at 6:14: pause: control stood still there",
                "    since at 5:1: suspend when C: `C` held",
                "C is offered",
                "instant 4: P",
                "O is absent",
                "  not emitted at 3:10: emit O",
                "    since control was elsewhere",
                "Q is absent: nothing emits it",
            ],
        )

    def test_try_and_back_leave_the_slot_where_it_is(self):
        lines = self.lines("try B;", "back", "try A B;", "back 0", "back 2", "try R;", "show", "B;")
        self.assertEqual(
            lines[:6],
            [
                "instant 3 would be: O",
                "instant 2: no output",
                "instant 3 would be: O",
                "before instant 1",
                "instant 2: no output",
                "instant 3 would be: no output",
            ],
        )
        self.assertEqual(lines[-1], "instant 3: O")
        self.assertEqual(len(lines), 10)  # the table has two instants

    def stuck_lines(self, *typed):
        """What a shell prints for these lines, after two instants of a module that A gets stuck in the
        second one and later.
        """
        text = "module M: input A; output O; pause; loop\n"
        text += "present A then present O else emit O end end; pause end end module"
        path = self.file("m.strl", text)
        script = f"{GRANTS}load 0 {path}\n;\n;\n" + "".join(line + "\n" for line in typed)
        return run_client(["shell"], script).printed.replace(str(path), "m").splitlines()[13:]

    def test_back_from_a_stuck_instant_goes_to_the_one_before_it(self):
        for stuck in ("A;", "try A;"):
            with self.subTest(stuck):
                lines = self.stuck_lines(stuck, "back", "where", "back", "back")
                self.assertIn("Stuck", lines[0])
                told = [line for line in lines if "instant" in line][1:]
                self.assertEqual(
                    told, ["instant 2: no output", "instant 1: no output", "before instant 1"]
                )
                self.assertFalse([line for line in lines if line.startswith("?")])  # of `where`
        told = run_client(["shell"], "help back\n").printed
        self.assertIn("the one before; a tried or stuck one counts too\n", told)

    def test_an_instant_is_looked_at_again_after_one_was_tried(self):
        lines = self.lines("try B;", "back 2", "why O")
        self.assertEqual(
            lines[:3], ["instant 3 would be: O", "instant 2: no output", "O is absent"]
        )

    def test_a_stuck_instant_follows_the_last_one_wherever_one_looks(self):
        here, elsewhere = self.stuck_lines("A;"), self.stuck_lines("back 0", "A;")
        self.assertIn("O waits for itself", here[1])
        self.assertEqual(elsewhere[0], "before instant 1")
        self.assertEqual(elsewhere[2:], here[1:])  # after a line with its number

    def test_local_signals_stand_after_the_outputs_or_after_none(self):
        text = "module M: input A; output O;\nsignal S in emit S; pause; emit O end end module"
        script = f"{GRANTS}load 0 {self.file('m.strl', text)}\ntry A;\n;\nA;\nback 1\nback 2\n"
        printed = run_client(["shell"], script).printed.splitlines()
        told = ["instant 1 would be: no output (S)", "instant 1: no output", "instant 2: O"]
        self.assertEqual(printed[-5:], [*told, "instant 1: no output (S)", "instant 2: O"])

    def test_a_signal_may_be_called_try(self):
        text = "module M: input try, A; output O;\nloop present try then emit O end; pause end end module"
        path = self.file("m.strl", text)
        script = GRANTS + f"grant root offer 0.try\nload 0 {path}\ntry A;\n"
        printed = run_client(["shell"], script).printed.splitlines()
        self.assertEqual(printed[-1], "instant 1: O")

    def test_what_is_refused_is_said(self):
        lines = self.lines("try Q;", "try A; B;", "back 9", "why Q", "where 1", "back 0", "back")
        self.assertIn("UnknownSignal", lines[0])
        self.assertIn("one instant", lines[1])
        self.assertIn("from 0 to 2", lines[2])
        self.assertIn("ABRO has no signal Q", lines[3])
        self.assertIn("nothing after the command", lines[4])
        self.assertIn("this is before instant 1 already", lines[6])

    def test_an_input_that_may_not_be_observed_hides_the_inside(self):
        lines = self.lines("revoke root observe 0.R", "B;", "where")
        self.assertIn("you may not observe R", lines[-1])

    def test_without_a_text_it_is_asked_for(self):
        ran = run_client(["shell"], "where\n")
        self.assertIn("the text of slot 0 isn't known here", ran.printed)

    def test_a_slot_of_a_server_that_others_load_anew(self):
        with serve() as server:
            abro = EXAMPLES / "abro" / "abro.strl"
            script = f"{GRANTS}load 0 {abro}\n;\nA;\nwhere\nunload\nload 0 {abro}\n;\nback\nwhy O\n"
            ran = run_client(["shell", "--socket", server.path], script)
            self.assertIn("before instant 1", ran.printed)


if __name__ == "__main__":
    unittest.main()
