"""The layout of module texts: over all texts of the repository the tokens and comments stay, and what
is laid out doesn't change.
"""
import json
import os
import random
import re
import unittest

from support import EXAMPLES, ROOT, InAFolder, needs_program, run_client

from estserve_client.formatting import WIDTH, format_text
from estserve_client.layout_tree import Words
from estserve_client.syntax_tree import parse, tokens_of

COMMENTS = [
    "% c\n",
    "%{ c }%",
    "\n% own line\n",
    "\n\n%{ two\n   lines }%\n",
    "\n",
    "\n\n\n",
    "   ",
    "\r\n",
    "\t",
]
UGLY = """

%{ first }%
module M:input A,B;output O;
relation A#B,A=>B;  % both
loop present A and not(B)then emit O;pause else
  % nothing here
[await A||await B]end present ; emit O %{ again }% ;
     % at the end
  end loop
end module
"""
PRETTY = """%{ first }%
module M:
input A, B;
output O;
relation A # B, A => B;  % both
loop
  present A and not (B) then
    emit O; pause
  else
    % nothing here
    [ await A || await B ]
  end present;
  emit O %{ again }%;
  % at the end
end loop
end module
"""


def texts_of_the_repository():
    """Each module text that stands in the repository as a file, in a load, or in a block of a page,
    as far as the grammar reads it.
    """
    texts = {path.read_text() for path in ROOT.glob("examples/**/*.strl")}
    folders = [EXAMPLES, ROOT / "tests" / "dialogues", ROOT / "clients" / "tests" / "dialogues"]
    for path in (path for folder in folders for path in folder.rglob("*") if path.is_file()):
        for line in path.read_text(errors="replace").splitlines():
            try:
                texts.add(str(json.loads(line)["text"]))
            except (ValueError, KeyError, TypeError):
                pass
    for path in ROOT.glob("docs/*.md"):
        texts |= set(
            re.findall(r"^```\n(module .*?)```", path.read_text(), re.DOTALL | re.MULTILINE)
        )
    for path in ROOT.glob("crates/language_tests/src/**/*.rt"):
        texts |= set(re.findall(r'"(module [^"\\]* end module)"', path.read_text()))
    return sorted(text for text in texts if parse(text))


def comments_of(text):
    words = Words(text)
    lists = [list_ for word in words.words for list_ in (word.before, word.after)] + [words.rest]
    return [comment.text for list_ in lists for comment in list_]


def scattered(text, chance):
    """A text with blanks, line ends and comments put between its tokens."""
    words = [token.text for token in tokens_of(text)]
    return "".join(
        word + (chance.choice(COMMENTS) if chance.random() < 0.15 else " ") for word in words
    )


class Layouts(unittest.TestCase):
    def check(self, text):
        laid_out = format_text(text)
        self.assertIsNotNone(laid_out, text)
        before, after = tokens_of(text), tokens_of(laid_out)
        self.assertEqual([token.text for token in before], [token.text for token in after], text)
        self.assertEqual(comments_of(text), comments_of(laid_out), text)
        self.assertEqual(format_text(laid_out), laid_out, text)
        self.assertNotRegex(laid_out, r"[ \t]\n|\n\n\n|\A\n|\n\n\Z", text)
        return laid_out

    def test_tokens_and_comments_of_all_texts_of_the_repository_stay(self):
        texts = texts_of_the_repository()
        self.assertGreater(len(texts), 150)
        for text in texts:
            self.check(text)

    def test_comments_and_line_ends_anywhere(self):
        chance, texts = random.Random(58), texts_of_the_repository()
        for _ in range(600):
            text = chance.choice(texts)
            if len(text) < 3_000:
                self.check(scattered(text, chance))

    def test_a_text_is_laid_out(self):
        self.assertEqual(self.check(UGLY), PRETTY)

    def test_the_examples_are_laid_out(self):
        for path in EXAMPLES.glob("**/*.strl"):
            self.assertEqual(format_text(path.read_text()), path.read_text(), path.name)

    def test_what_is_too_wide_is_broken(self):
        names = ", ".join(f"SIGNAL_{number}" for number in range(20))
        renamings = ", ".join(f"SIGNAL_{number}/S{number}" for number in range(20))
        test = " or ".join(f"SIGNAL_{number}" for number in range(20))
        body = f"run N [signal {renamings}]; present {test} then pause end"
        text = f"module M: input {names}; {body} end module"
        laid_out = self.check(text)
        self.assertLessEqual(max(map(len, laid_out.splitlines())), WIDTH)
        self.assertIn("\nrun N [signal SIGNAL_0/S0, ", laid_out)
        self.assertIn("\n    SIGNAL_", laid_out)

    def test_what_the_grammar_does_not_read(self):
        self.assertIsNone(format_text("module M: emit end module"))
        self.assertIsNone(format_text(""))


class Command(InAFolder):
    def setUp(self):
        super().setUp()
        self.path = self.file("m.strl", UGLY)

    def test_a_file_is_laid_out_once(self):
        ran = run_client(["format", self.path])
        self.assertEqual((ran.status, ran.printed), (0, f"{self.path} is laid out anew\n"))
        self.assertEqual(self.path.read_text(), PRETTY)
        ran = run_client(["format", self.folder])
        self.assertEqual((ran.status, ran.printed), (0, ""))

    def test_what_would_change_is_told_and_not_written(self):
        ran = run_client(["format", "--check", self.folder])
        self.assertEqual((ran.status, ran.printed), (1, f"{self.path} would be laid out anew\n"))
        ran = run_client(["format", "--diff", self.path])
        self.assertEqual((ran.status, ran.printed.splitlines()[0]), (1, f"--- {self.path}"))
        self.assertIn("\n+input A, B;\n", ran.printed)
        self.assertEqual(self.path.read_text(), UGLY)
        self.path.write_text(PRETTY)
        self.assertEqual(run_client(["format", "--check", self.path]).status, 0)

    def test_ends_of_lines_are_told_in_words(self):
        for text, told in [
            (PRETTY.replace("\n", "\r\n"), "line ends are CRLF"),
            (PRETTY.rstrip("\n"), "no newline at the end"),
        ]:
            self.path.write_bytes(text.encode())
            ran = run_client(["format", "--diff", self.path])
            self.assertEqual((ran.status, ran.printed), (1, f"{self.path}: {told}\n"))

    @needs_program
    def test_lexical_faults_are_those_of_the_program(self):
        head = "module M: output O;\n"
        for text in ("emit O %{ open", "[ A && B ]", "/* c */", "{", "a | b", "é", "A'", "O := 1"):
            self.path.write_text(head + text)
            told = run_client(["format", self.path]).told.split("\n")[0]
            ran = run_client(["run", self.path, "--inputs", os.devnull])
            self.assertEqual(told, ran.told.split("\n")[0], text)
            self.assertIn(": Lexical: no token stands here", told)

    def test_from_standard_input(self):
        ran = run_client(["format", "-"], UGLY)
        self.assertEqual((ran.status, ran.printed), (0, PRETTY))

    def test_a_text_that_cannot_be_read_is_told_at_its_place(self):
        wrong = self.folder / "a.strl"
        wrong.write_text("module M:\n  emit end module\n")
        ran = run_client(["format", self.folder])
        self.assertEqual(ran.told, f"{wrong}:2:8: Syntax: a name expected\n")
        self.assertEqual((ran.status, ran.printed), (1, f"{self.path} is laid out anew\n"))
        ran = run_client(["format", self.folder / "none.strl"])
        self.assertIn("none.strl cannot be read", ran.told)


if __name__ == "__main__":
    unittest.main()
