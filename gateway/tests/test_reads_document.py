"""Each command of docs/GATEWAY.md prints what stands there, but for times and persons."""
import pathlib
import re
import shlex
import subprocess
import sys
import unittest

from teams import ME, ROOT, Team, wait_for

DOCUMENT = ROOT / "docs" / "GATEWAY.md"
PROMISES = ROOT / "gateway" / "tests" / "PROMISES.md"
BLOCK = re.compile(r"```console\n(.*?)```", re.DOTALL)
TIME = re.compile(r"\d{4}-\d\d-\d\dT\d\d:\d\d:\d\d\.\d{3}Z")
STATE = "/srv/team"
PEOPLE = "[people]\n" + "".join(f'{user} = ["{ME}"]\n' for user in ("root", "ann", "bob", "cho"))


def words_of(text):
    """The lines of a text as lists of words, without times, with kim for who runs the test."""
    plain = re.sub(
        rf'\({ME}\)|(?<="person":"){ME}(?=")',
        lambda found: found[0].replace(ME, "kim"),
        TIME.sub("TIME", text),
    )
    return [line.split() for line in plain.splitlines()]


class Document(unittest.TestCase):
    def check(self, piece, team):
        """Runs one command, with what is typed, and compares what it prints."""
        command, *lines = piece.splitlines()
        typed = "".join(line[2:] + "\n" for line in lines if line.startswith("> "))
        printed = "".join(line + "\n" for line in lines if not line.startswith("> "))
        words = [sys.executable, "-B", *shlex.split(command.replace(STATE, str(team.state)))[1:]]
        ran = subprocess.run(words, cwd=ROOT, input=typed, capture_output=True, text=True)
        wait_for(lambda: self.logged_out(team))
        told = words_of(ran.stdout + ran.stderr)
        if " who " in command:
            told = [
                [word if at != 1 or word != ME else "kim" for at, word in enumerate(line)]
                for line in told
            ]
        with self.subTest(command):
            self.assertTrue(command.startswith("python3 clients/estserve.py "))
            self.assertEqual(told, words_of(printed))

    @staticmethod
    def logged_out(team):
        """Whether each login that is recorded has its logout."""
        rows = team.rows("SELECT command FROM entries WHERE command IN ('login', 'logout')")
        return rows.count(("login",)) == rows.count(("logout",))

    def test_each_command_prints_what_is_told(self):
        pieces = re.split(
            r"^\$ ", "".join(BLOCK.findall(DOCUMENT.read_text())), flags=re.MULTILINE
        )[1:]
        self.assertGreater(len(pieces), 12)
        with Team(people=PEOPLE) as team:
            for piece in pieces:
                self.check(piece, team)

    def test_each_promise_names_tests_that_are_there(self):
        table = PROMISES.read_text()
        rows = [line.split("|")[2] for line in table.splitlines() if line.startswith("| ")]
        named = {name for row in rows for name in re.findall(r"`(test_\w+(?:\.py)?)`", row)}
        files = list(pathlib.Path(__file__).parent.rglob("test_*.py"))
        written = {path.name for path in files}
        written |= {
            name for path in files for name in re.findall(r"def (test_\w+)", path.read_text())
        }
        self.assertGreater(len(named), 30)
        self.assertEqual(named - written, set())

    def test_the_table_of_limits_is_that_of_the_gateway(self):
        from estserve_team.limits import Limits

        table = DOCUMENT.read_text().partition("## Limits")[2].partition("\n## ")[0]
        told = {}
        for line in table.splitlines():
            if line.startswith("| `"):
                names, numbers = (line.split("|")[at] for at in (1, 2))
                values = re.findall(r"\d[\d,]*\d|\d", numbers)
                pairs = zip(re.findall(r"`(\w+)`", names), values)
                told.update((name, int(value.replace(",", ""))) for name, value in pairs)
        self.assertEqual(told, Limits()._asdict())

    def test_the_table_of_words_is_that_of_the_gateway(self):
        from estserve_team import administrator_words, reads

        words = {**reads.WORDS, **administrator_words.WORDS}
        table = (
            DOCUMENT.read_text().partition("## Answers on")[2].partition("\n## ")[0].splitlines()
        )
        rows = [line.split("|")[1:3] for line in table if line.startswith("| `")]
        told = {word.strip(" `"): set(re.findall(r"`(\w+)`", keys)) for word, keys in rows}
        self.assertEqual(
            told, {name: {*word.required, *word.optional} for name, word in words.items()}
        )


if __name__ == "__main__":
    unittest.main()
