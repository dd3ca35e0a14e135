"""The client's parts, each by itself: lists of inputs, module texts, pictures, policies in
files.
"""
import importlib.util
import unittest

from support import read_vcd

from estserve_client.inputs import read_inputs
from estserve_client.library_text import show_place
from estserve_client.module_text import main_of, modules_of
from estserve_client.pictures import Seen, Table, code_of, table_lines, vcd_lines, wave_lines
from estserve_client.policy_file import BadPolicy, read_policy
from estserve_client.scopes import scopes_of

TEXT = """% a comment with module X: in it
module A:
input I, J; %{ input K;
}% output O;
relation I # J, I => J;
present I then emit O end
end module
module B: output P; pause end module
"""
SEEN = Seen(
    "A",
    [("I", "input"), ("J", "input"), ("O", "output")],
    [{"I": True, "J": False}, {"I": True, "O": True}],
)


class Inputs(unittest.TestCase):
    def names(self, text):
        inputs = read_inputs(text)
        self.assertEqual([offers.names for offers in inputs], inputs.names)
        return list(map(list, inputs.names))

    def test_a_line_is_an_instant(self):
        self.assertEqual(self.names("A\nB C\n\nA\n"), [["A"], ["B", "C"], [], ["A"]])

    def test_a_semicolon_ends_an_instant_too(self):
        self.assertEqual(self.names("A; B\nA;\n;\n;;\n"), [["A"], ["B"], ["A"], [], [], []])

    def test_lines_end_at_their_line_feeds(self):
        self.assertEqual(self.names("A\r\n\r\nB\x0cC\n"), [["A"], [], ["B", "C"]])
        self.assertEqual([self.names(""), self.names("\n"), self.names("A")], [[], [], [["A"]]])

    def test_blank_lines_are_instants_within_and_none_at_the_end(self):
        self.assertEqual(self.names("\n\nA\n\n;\n\n% end\n \n"), [[], [], ["A"], [], []])

    def test_a_comment_is_no_instant(self):
        self.assertEqual(self.names("% nothing\nA % then B\n;% empty\n"), [["A"], []])

    def test_a_name_counts_once_and_the_line_is_kept(self):
        inputs = read_inputs("% first\nA A\n")
        self.assertEqual([(offers.names, offers.line) for offers in inputs], [(("A",), 2)])


class Texts(unittest.TestCase):
    def test_modules_with_their_signals(self):
        first, second = modules_of(TEXT)
        self.assertEqual(first.signals, [("I", "input"), ("J", "input"), ("O", "output")])
        self.assertEqual(first.relations, ["I # J", "I => J"])
        self.assertEqual((second.name, second.signals), ("B", [("P", "output")]))

    def test_main_is_the_first_module_that_is_not_run(self):
        text = "module CELL: pause end module module RING: run CELL [signal A/B] || run CELL end module"
        text += " module LAST: pause end module"
        self.assertEqual([main_of(text).name, main_of(text, "CELL").name], ["RING", "CELL"])
        self.assertEqual([module.runs for module in modules_of(text)], [[], ["CELL", "CELL"], []])

    def test_main_is_the_named_module(self):
        self.assertEqual([main_of(TEXT).name, main_of(TEXT, "B").name], ["A", "B"])
        self.assertEqual(main_of(TEXT, "C").signals, [])
        self.assertEqual(main_of("").signals, [])

    def test_a_place_is_shown_by_bytes(self):
        self.assertEqual(show_place("a\n\té b", 2, 5), "\té b\n\t  ^")
        self.assertEqual(show_place("", 1, 1), "\n^")


class Pictures(unittest.TestCase):
    def test_a_table(self):
        self.assertEqual(
            table_lines(SEEN),
            ["instant  inputs  outputs", "      1  I       .", "      2  I .     O"],
        )

    def test_waves(self):
        lines = wave_lines(SEEN, plain=True)
        self.assertEqual(lines[0].split(), ["instant", "1", "2"])
        self.assertEqual(
            lines[1:],
            ["I        input  _/^\\_/^\\", "J        input  ____....", "O        output ...._/^\\"],
        )

    def test_a_table_of_signals_of_which_no_more_is_known(self):
        seen = Seen(
            "slot0",
            [("I", "signal"), ("O", "signal")],
            [{"I": True, "O": True}, {"I": False}],
            first=7,
        )
        self.assertEqual(table_lines(seen), ["instant  signals", "      7  I O", "      8  ."])
        self.assertEqual(
            table_lines(Seen("slot0", [], [{}])), ["instant  inputs  outputs", "      1"]
        )

    def test_a_table_that_goes_on_keeps_its_columns(self):
        table = Table(SEEN, 9)
        self.assertEqual(table.rows(2, SEEN.instants[1:]), ["      2  I .        O"])

    def test_waves_go_on_in_blocks_within_the_columns(self):
        instants = [{"I": number % 2 == 0, "J": False, "O": True} for number in range(7)]
        lines = wave_lines(Seen("A", SEEN.signals, instants), plain=True, columns=28)
        self.assertEqual(
            lines[:5],
            [
                "instant           1   2   3",
                "I        input  _/^\\_____/^\\",
                "J        input  ____________",
                "O        output _/^\\_/^\\_/^\\",
                "",
            ],
        )
        self.assertEqual(
            [line for line in lines if line.startswith("instant")][1:],
            ["instant           4   5   6", "instant           7"],
        )
        self.assertEqual(len(wave_lines(Seen("A", SEEN.signals, instants), columns=3)), 7 * 5 - 1)
        self.assertEqual(wave_lines(Seen("A", [], [])), ["instant"])

    def test_the_ruler_of_many_instants_stands_over_their_waves(self):
        lines = wave_lines(
            Seen("A", [("I", "input")], [{"I": number % 5 == 4} for number in range(1_200)])
        )
        ruler, wave = lines[0][16:], lines[1][16:]
        for number in (5, 995, 1_000, 1_200):
            self.assertEqual(wave[4 * number - 4 : 4 * number], "_/‾\\")
            self.assertEqual(ruler[4 * number - 3 :].split()[0], str(number))

    def test_a_vcd_file(self):
        changes = read_vcd(vcd_lines(SEEN))
        self.assertEqual(changes.pop("tick"), {1: "1", 1.5: "0", 2: "1", 2.5: "0"})
        self.assertEqual(changes, {"I": {1: "1"}, "J": {1: "0", 2: "x"}, "O": {1: "x", 2: "1"}})
        hidden = Seen("A", SEEN.signals, [{"I": True}, {"I": False}])
        self.assertEqual(sorted(read_vcd(vcd_lines(hidden))), ["I", "tick"])
        self.assertEqual(vcd_lines(SEEN)[-1], "#30")

    def test_ten_present_instants_are_counted_by_the_tick(self):
        seen = Seen("A", [("I", "input")], [{"I": True}] * 10)
        changes = read_vcd(vcd_lines(seen))
        self.assertEqual(changes["I"], {1: "1"})
        self.assertEqual(list(changes["tick"].values()), ["1", "0"] * 10)

    def test_a_vcd_file_without_instants_has_wires(self):
        lines = vcd_lines(Seen("A", SEEN.signals, []))
        self.assertEqual(
            [line.split()[4] for line in lines if line.startswith("$var")], ["tick", "I", "J", "O"]
        )
        self.assertEqual(read_vcd(lines), {})

    def test_a_scope_for_each_module_that_is_run(self):
        text = """module CELL: input I; output O; run LEAF [signal I/L] end module
            module LEAF: input L; pause end module
            module M: input A; output B;
            signal S in run CELL [signal A/I, S/O] || run CELL [signal S/I, B/O] end end module"""
        signals = [("A", "input"), ("B", "output")]
        lines = vcd_lines(
            Seen("M", signals, [{"A": True, "B": False}], scopes=scopes_of(text, "M"))
        )
        self.assertEqual(read_vcd(lines, 2), {"CELL_1.I": {1: "1"}, "CELL_2.O": {1: "0"}})
        self.assertEqual(read_vcd(lines, 3), {"CELL_1.LEAF.L": {1: "1"}})
        self.assertEqual(lines.count("$upscope $end"), 5)

    def test_wires_have_names_of_their_own(self):
        codes = [code_of(number) for number in range(9000)]
        self.assertEqual(len(set(codes)), 9000)
        self.assertTrue(all("!" <= letter <= "~" for code in codes for letter in code))


POLICY = """
users = ["ann"]     # people
roles = ["driver",
         "chief"]
[inherit]
chief = ["driver"]
[assign]
ann = ["chief"]
[permissions]
driver = ["offer 0.A", "step 0"]
[separate.duties]
roles = ["driver", "chief"]
count = 2
"""


class Policies(unittest.TestCase):
    def test_commands_in_an_order_that_works(self):
        told = [(wish.line, *wish.command.values()) for wish in read_policy(POLICY)]
        self.assertEqual(
            told[:4],
            [
                (3, "addrole", "driver"),
                (4, "addrole", "chief"),
                (2, "adduser", "ann"),
                (6, "inherit", "chief", "driver"),
            ],
        )
        self.assertEqual(
            told[4:],
            [
                (12, "dsd", "duties", ["driver", "chief"], 2),
                (8, "assign", "ann", "chief"),
                (10, "grant", "driver", "offer", "0.A"),
                (10, "grant", "driver", "step", "0"),
            ],
        )

    @unittest.skipUnless(importlib.util.find_spec("tomllib"), "this Python has no reader of TOML")
    def test_it_is_toml(self):
        import tomllib

        whole = tomllib.loads(POLICY)
        self.assertEqual(whole["roles"], ["driver", "chief"])
        self.assertEqual(whole["separate"]["duties"], {"roles": ["driver", "chief"], "count": 2})

    def test_what_is_no_policy_is_told_with_its_line(self):
        wrong = {
            'users = ["a"': 1,
            "users = a": 1,
            "\nhosts = []": 2,
            "[people]\na = []": 1,
            "users = [1]": 1,
            '[permissions]\na = ["offer"]': 2,
            "x": 1,
            "users = []\nusers = []": 2,
            "[assign]\n[assign]": 2,
            "\n\n[people]": 3,
            '\n[separate.s]\nroles = ["a"]': 2,
            '[separate.s]\nroles = ["a"]\ncount = ["b"]': 3,
            "[assign]\na = 1": 2,
        }
        for text, line in wrong.items():
            with self.subTest(text), self.assertRaises(BadPolicy) as raised:
                read_policy(text)
            self.assertEqual(raised.exception.line, line, text)


if __name__ == "__main__":
    unittest.main()
