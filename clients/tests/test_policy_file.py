"""Policy files: whatever is read here, Python's reader of the whole of TOML reads alike; and
docs/POLICY-FILE.md says what there is.
"""
import importlib.util
import random
import re
import unittest

from support import EXAMPLES, ROOT

from estserve_client.policy_file import TABLES, BadPolicy, Interfaces, fits, read_file
from estserve_client.toml_reader import tables_of

PAGE = ROOT / "docs" / "POLICY-FILE.md"
SEEDS = [
    (EXAMPLES / "team" / "team.toml").read_text(),
    '# a comment\r\nusers = [ "a", # one\n  "b" , ]\n[a . b]\nx=0\ny = 19\t# n\n[a.c]\n'
    'z = ""\n[a]\nk = "v"\n',
    '[people]\nroot = ["ann"]\n[ slots ]\ndoor=3\n[modules]\ndoor = "do#or.strl"\nempty = []\n',
]
PIECES = [
    "\r", "\r\n", "\n", "\t", " ", "0", "02", "-1", "1_0", "1.5", '"', '""', "'", "\\", "\\n", "#", ",", "[",
    "]", "[[", "]]", "=", ".", "\x00", "\x07", "\x0b", "\x0c", "\x1f", "\x7f", "\x85", "\u00a0", "\u2028",
    "\ufeff", "é", "true", "a", "a.b", "[a]", "[a.b]", "[a.b.c]", "k = 1\n", '"x"', "x = [\n",
    "# \x01", "{}", "é = 1",
    "9" * 25, "0x1", "1979-05-27", '"""', "separate", "\n[separate.x]\n",
]  # fmt: skip


def plain(tables):
    """Tables as a reader of the whole of TOML gives them."""
    whole = {}
    for name, table in tables.items():
        inner = whole
        for word in filter(None, name.split(".")):
            inner = inner.setdefault(word, {})
        for key, (_, value) in table.keys.items():
            inner[key] = [text for text, _ in value] if isinstance(value, list) else value
    return whole


def mutated(text, chance):
    """A text with one to four places changed."""
    for _ in range(chance.randint(1, 4)):
        at, end = chance.randint(0, len(text)), chance.randint(0, 3)
        piece = chance.choice([*PIECES, "", "", text[at : at + chance.randint(1, 30)]])
        text = text[:at] + piece + text[at + end :]
    return text


class Toml(unittest.TestCase):
    def reads(self, text):
        try:
            return tables_of(text)
        except BadPolicy:
            return None

    @unittest.skipUnless(importlib.util.find_spec("tomllib"), "this Python has no reader of TOML")
    def test_what_is_read_is_read_alike(self):
        import tomllib

        chance, accepted = random.Random(20_261_127), 0
        for number in range(20_000):
            text = (
                SEEDS[number % len(SEEDS)]
                if number < len(SEEDS)
                else mutated(chance.choice(SEEDS), chance)
            )
            tables = self.reads(text)
            if tables is None:
                continue
            accepted += 1
            try:
                whole = tomllib.loads(text)
            except tomllib.TOMLDecodeError as fault:
                self.fail(f"{text!r}: {fault}")
            self.assertEqual(plain(tables), whole, repr(text))
        self.assertGreater(accepted, 2_000)
        self.assertLess(accepted, 18_000)

    def test_what_toml_forbids_is_refused_at_its_line(self):
        wrong = {
            "[separate.s]\ncount = 02": 2,
            "users = []\n# \x07": 2,
            'users = ["a\x7f"]': 1,
            "users = []\r": 1,
            "users = []\x0c": 1,
            "users = [] roles = []": 1,
            "[assign] # x\n[ assign ]": 2,
            "users = [\n'a']": 2,
            "users = [,]": 1,
            "count = " + "9" * 20: 1,
            "a = 1\n[a]": 2,
            "[a.b]\n[a]\nb = 1": 3,
            "[[users]]": 1,
            f"\n[{'a.' * 200_000}a]": 2,  # which took the memory of its square
        }
        for text, line in wrong.items():
            with self.subTest(text), self.assertRaises(BadPolicy) as raised:
                tables_of(text)
            self.assertEqual(raised.exception.line, line, text)

    def test_what_was_meant_is_asked(self):
        wrong = {
            "[permission]\na = []": "; did you mean `permissions`?",
            "user = []": "; did you mean `users`?",
            '[slots]\ndoor = 3\n[permissions]\na = ["step dor"]': "; did you mean `door`?",
            '[permissions]\na = ["step door"]': "; the table slots gives door no number",
            '[permissions]\na = ["observe 3.*"]': "3.* is spread over the text of 3, which the table"
            " modules doesn't name",
            '[permissions]\na = ["observe 3.*"]\n[modules]\n3 = "a"': "3.* is spread by `apply`, where"
            " the texts are",
            '[permissions]\na = ["observe *.A"]': "; the table slots gives * no number",
            '[permissions]\na = ["step 3*"]': "; the table slots gives 3* no number",
            '[assign]\nann = "driver"': 'ann has a list of strings: ["driver"]',
            "[assign]\nann = 1": "ann has a list of strings",
            "[separate.s]\ncount = 02": "a whole number doesn't begin with 0",
            'users = ["a"\nroles = []': "; this one begins on line 1",
        }
        for text, told in wrong.items():
            with self.subTest(text), self.assertRaises(BadPolicy) as raised:
                read_file(text)
            self.assertTrue(str(raised.exception).endswith(told), str(raised.exception))

    def test_patterns_stand_for_no_more_than_a_policy_has_room_for(self):
        kinds = {f"A{at}": "input" for at in range(128)}
        of_any = Interfaces(lambda slot, _: kinds, "")
        lines = [f'r{at} = ["offer {at % 16}.*", "observe {at % 16}.*"]' for at in range(64)]
        wishes = read_file("[permissions]\n" + "\n".join(lines), of_any).wishes
        self.assertEqual(len(wishes), 64 * 256)
        with self.assertRaisesRegex(
            BadPolicy, "line 66: .* over 16,384 permissions: a policy has no"
        ):
            read_file("[permissions]\n" + "\n".join([*lines, 's = ["offer 0.*"]']), of_any)

    def test_names_that_a_pattern_means(self):
        for pattern, name, is_meant in (
            ("*", "A", True),
            ("*", "", True),
            ("A*", "A", True),
            ("A*B", "AB", True),
            ("A*A", "A", False),
            ("*OR*", "DOOR_1", True),
            ("*O*O*", "DOOR", True),
            ("*O*O*O*", "DOOR", False),
            ("D*R", "DOORS", False),
            ("DO*OR", "DOOR", True),
            ("DOO*OR", "DOOR", False),
        ):
            with self.subTest(pattern=pattern, name=name):
                self.assertEqual(fits(name, pattern), is_meant)

    def test_brackets_and_comments_in_strings(self):
        tables = tables_of('users = ["a[", "#b"]  # c "\nroles = [  # x\n"r"\n,]\n')
        self.assertEqual(plain(tables), {"users": ["a[", "#b"], "roles": ["r"]})
        self.assertEqual(tables[""].keys["roles"], (2, [("r", 3)]))


class Page(unittest.TestCase):
    def test_the_page_names_each_table_and_its_example_is_read(self):
        text = PAGE.read_text()
        block = re.search(r"```toml\n(.*?)```", text, re.DOTALL)[1]
        commands = {wish.command["cmd"] for wish in read_file(block).wishes}
        self.assertEqual(commands, {"adduser", "addrole", "inherit", "assign", "grant", "dsd"})
        for table in (*TABLES, "separate.", "users", "roles"):
            self.assertIn(f"`{table}", text)
            self.assertIn(table, block)


if __name__ == "__main__":
    unittest.main()
