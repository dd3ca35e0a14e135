"""Names of slots in the shell: what a policy file calls a slot stands for its number."""
import contextlib
import io
import unittest

from support import EXAMPLES, InAFolder, needs_program, run_client

from estserve_client.shell import Shell
from estserve_client.shell_words import Usage
from estserve_client.slot_names import names_of, numbered
from estserve_client.texts import Failed

ABRO = EXAMPLES / "abro" / "abro.strl"
POLICY = '[slots]\ndoor = 3\nbell = 15\n\n[permissions]\nroot = ["step door"]\n'
SLOTS = {"door": 3, "bell": 15}


class Lines(InAFolder):
    def setUp(self):
        super().setUp()
        self.policy = self.file("policy.toml", POLICY)
        self.shell = Shell(None, "ann", True)

    def numbered(self, line):
        return numbered(line, self.shell.help_of, SLOTS)

    def test_a_name_stands_where_a_slot_or_an_object_may(self):
        for line, wanted in (
            ("step door", "step 3"),
            ("use bell", "use 15"),
            ("offer door OPEN", "offer 3 OPEN"),
            ("look door 2", "look 3 2"),
            ("load door door.strl", "load 3 door.strl"),
            ("load door a.strl b.strl DOOR", "load 3 a.strl b.strl DOOR"),
            ("vcd bell door", "vcd 15 door"),
            ("grant driver step door", "grant driver step 3"),
            ("grant door offer door.door", "grant door offer 3.door"),
            ("check step bell", "check step 15"),
        ):
            self.assertEqual(self.numbered(line), wanted)

    def test_elsewhere_it_is_a_word_as_any_other(self):
        for line in (
            "step",
            "offer door",  # a signal of the slot of `use`
            "load door",  # a file
            "look 2",
            "adduser door",
            "grant door step",
            "check step policy",
            "fly door",
            "help door",
            "",
        ):
            self.assertEqual(self.numbered(line), line)
        self.assertEqual(numbered("step door", self.shell.help_of, {}), "step door")

    def test_one_that_is_wrong_by_a_letter_is_asked_about(self):
        with self.assertRaisesRegex(Usage, "there is no slot dor: did you mean `door`?"):
            self.numbered("step dor")
        self.assertEqual(self.numbered("load dor door.strl"), "load dor door.strl")  # two files

    def test_they_are_the_policy_files(self):
        self.assertEqual(names_of(self.policy), SLOTS)
        self.policy.write_text("[slots]\ndoor = 16\n")
        with self.assertRaisesRegex(Failed, "policy.toml:2: door is the number of a slot"):
            names_of(self.policy)

    def test_they_are_completed_and_stand_in_the_prompt(self):
        self.shell.take_names(SLOTS)
        self.assertEqual(self.shell.prompt, "ann> ")
        with contextlib.redirect_stdout(io.StringIO()):
            self.shell.onecmd("use door")
            self.shell.onecmd(f"module door {ABRO}")
        self.assertEqual(self.shell.prompt, "ann door> ")
        self.assertEqual(self.shell.completedefault("do", "step do", 5, 7), ["door "])
        self.assertEqual(self.shell.completedefault("A", "offer door A", 11, 12), ["A "])
        found = self.shell.completedefault("door.", "check observe door.", 14, 19)
        self.assertEqual(found, ["door.A ", "door.B ", "door.O ", "door.R "])

    @needs_program
    def test_a_script_uses_them(self):
        grants = "".join(f"grant root {op} door\n" for op in ("load", "step"))
        grants += "grant root offer door.A\ngrant root observe door.O\n"
        typed = (
            f"{grants}load door {ABRO}\noffer door A\nstep door\nuse door\nA;\nstep dor\nnames\n"
        )
        ran = run_client(["shell", "--names", str(self.policy)], typed)
        self.assertEqual((ran.status, ran.told), (1, ""))
        wanted = """root may load on 3
root may step on 3
root may offer on 3.A
root may observe on 3.O
ABRO runs in slot 3
A is pending
instant 1: no output
slot 3
instant 2: no output
line 10: there is no slot dor: did you mean `door`?
door is slot 3
bell is slot 15"""
        self.assertEqual(ran.printed.splitlines()[1:], wanted.splitlines())
        ran = run_client(["shell"], f"names\nnames {self.policy}\nnames nowhere.toml\n")
        self.assertEqual(
            ran.printed.splitlines()[1:],
            [
                "no slot has a name",
                "door is slot 3",
                "bell is slot 15",
                "line 3: the policy nowhere.toml cannot be read: No such file or directory",
            ],
        )


if __name__ == "__main__":
    unittest.main()
