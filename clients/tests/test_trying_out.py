"""What is tried before it is done: texts on a program of their own, policy files beside a policy."""
import os
import unittest
import unittest.mock

from support import EXAMPLES, needs_program

from estserve_client.connection import Client
from estserve_client.planning import plan
from estserve_client.trying_out import INSTANTS, try_text

ASK_ALL = Client.ask_all
TEXT = "module T:\ninput A, B;\noutput O;\nevery A do emit O end\nend module\n"
TOML = (EXAMPLES / "team" / "team.toml").read_text()
TEAM = {0: {"A": "input", "B": "input", "R": "input", "O": "output"}}  # what runs, by its slot
KNOWN = {
    "users": ["root", "ann"],
    "roles": ["root", "driver", "old"],
    "assigned": [["root", "root"], ["ann", "old"]],
    "granted": [["root", "administer", "policy"], ["driver", "offer", "0.A"], ["old", "step", "0"]],
    "edges": [],
    "sets": [{"name": "drive_and_step", "count": 2, "roles": ["driver", "old"]}],
}


def trial(*words):
    return try_text(os.environ["ESTSERVE"], *words)


@needs_program
class TextTest(unittest.TestCase):
    def test_instants_and_what_is_left_out(self):
        told = trial(TEXT, None, [["A"], [], ["A", "X"], []])
        self.assertEqual(told["main"], "T")
        self.assertEqual(told["signals"], [["A", "input"], ["B", "input"], ["O", "output"]])
        self.assertEqual(told["rows"], ["100", "000", "101", "000"])
        self.assertEqual((told["ended"], told["left"]), (None, ["X"]))

    def test_a_fault_of_the_text(self):
        found = trial(TEXT.replace("do", "od"))["diagnosis"]
        self.assertIn("`do` expected", found["told"])
        self.assertEqual([(one["line"], one["column"]) for one in found["marks"]], [(4, 9)])
        self.assertEqual(found["remedies"], ["did you mean `do`?"])

    def test_a_text_with_too_many_signals_is_asked_about_once(self):
        names = ",".join(f"I{at}" for at in range(300))
        with unittest.mock.patch.object(Client, "ask_all", autospec=True) as asked:
            asked.side_effect = ASK_ALL
            told = trial(f"module M: input {names}; halt end module")
        self.assertEqual(told["diagnosis"]["fault"], "TooLarge")
        self.assertEqual([len(call.args[1]) for call in asked.call_args_list], [3])

    def test_an_instant_that_is_refused(self):
        told = trial(
            "module P: input A; output X; await A; present X else emit X end end module",
            None,
            [[], ["A"], []],
        )
        self.assertEqual(told["rows"], ["00"])
        self.assertIn("Stuck: the instant has no constructive reaction", told["ended"])

    def test_what_cannot_be_tried(self):
        for words in (
            (1,),
            (TEXT, "no name"),
            (TEXT, None, "A"),
            (TEXT, None, ["A"]),
            (TEXT, None, [["A\n"]]),
            (TEXT, None, [[]] * (INSTANTS + 1)),
            ("x" * 70_000,),
            ("module \ud800",),
        ):
            self.assertEqual(list(trial(*words)), ["fault"], words)


class PlanTest(unittest.TestCase):
    def test_what_is_added_taken_and_there(self):
        told = plan(TOML, KNOWN, TEAM)
        added = [tuple(command.values()) for command in told["add"]]
        self.assertNotIn(("adduser", "ann"), added)
        self.assertIn(("adduser", "bob"), added)
        self.assertNotIn(("grant", "driver", "offer", "0.A"), added)
        self.assertIn(("grant", "driver", "offer", "0.B"), added)
        sets = [one for one in added if one[0] in ("undsd", "dsd")]
        self.assertEqual([one[0] for one in sets], ["undsd", "dsd"], "the set has other roles")
        taken = [tuple(command.values()) for command in told["take"]]
        self.assertEqual(
            taken,
            [
                ("revoke", "old", "step", "0"),
                ("deassign", "ann", "old"),
                ("delrole", "old"),
            ],
        )
        self.assertEqual(told["there"], 3)

    def test_patterns_are_spread_over_the_slots_that_one_may_see(self):
        slots = {0: {"A": "input", "B": "input", "M": "inout", "O": "output"}}
        text = (
            '[slots]\ndoor = 0\n[permissions]\ndriver = ["offer door.*", "observe 0.*", "step 0"]\n'
        )
        told = plan(text, KNOWN, slots)
        self.assertEqual(
            [(one["op"], one["object"]) for one in told["add"]],
            [("offer", "0.B"), ("offer", "0.M"), *[("observe", f"0.{name}") for name in "ABMO"]]
            + [("step", "0")],
        )
        wanted = [*["offer door.*"] * 2, *["observe 0.*"] * 4, ""]
        self.assertEqual((told["patterns"], told["there"]), (wanted, 1))
        for wrong, why in (
            ("observe 1.*", "1.* is spread over the text of 1, of which you may see nothing"),
            ("offer door.O*", "slot 0 has no signal that door.O* fits and that can be offered"),
        ):
            told = plan(f'[slots]\ndoor = 0\n[permissions]\ndriver = ["{wrong}"]\n', KNOWN, slots)
            self.assertEqual(told, {"fault": why, "line": 4})

    def test_a_file_that_is_none(self):
        self.assertEqual(plan('users = ["a"\n', KNOWN, {})["line"], 1)
        self.assertIn("there is no table", plan("[permisions]\n", KNOWN, {})["fault"])
        self.assertIn("fault", plan(None, KNOWN, {}))


if __name__ == "__main__":
    unittest.main()
