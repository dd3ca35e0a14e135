"""The colours for editors have each keyword of the language."""
import json
import pathlib
import re
import shutil
import subprocess
import sys
import tempfile
import unittest
import xml.etree.ElementTree
import zipfile

from support import EXAMPLES, ROOT

from estserve_client import __version__
from estserve_client.syntax_tree import KEYWORDS

EDITORS = ROOT / "editors"
VIM = EDITORS / "vim" / "syntax" / "esterel.vim"
VSCODE = EDITORS / "vscode"
SOURCE = ROOT / "crates" / "est_text" / "src" / "keyword.rt"


def words_in_vim():
    """The words that the syntax file for Vim has, each with its group."""
    found = {}
    for group, words in re.findall(
        r"^syntax keyword (\w+) ([a-z ]+)$", VIM.read_text(), re.MULTILINE
    ):
        found.update(dict.fromkeys(words.split(), group))
    return found


class Grammar:
    """The patterns of the TextMate grammar, as far as a line without comments needs them."""

    def __init__(self):
        self.whole = json.loads((VSCODE / "syntaxes" / "esterel.tmLanguage.json").read_text())
        self.patterns = [
            (re.compile(pattern["match"]), pattern)
            for pattern in self.whole["patterns"]
            if "match" in pattern
        ]

    def scope_of(self, word):
        """The name that a word alone is given."""
        found = next(pattern for match, pattern in self.patterns if match.fullmatch(word))
        return found["name"]

    def is_illegal(self, letter):
        """Whether a letter alone is marked as one that no token begins with."""
        found = [pattern["name"] for match, pattern in self.patterns if match.fullmatch(letter)]
        return found[:1] == ["invalid.illegal.esterel"]


class Editors(unittest.TestCase):
    def test_the_keywords_are_those_of_the_program(self):
        told = re.findall(r'^\s+"(\w+)" => Some\(Keyword::', SOURCE.read_text(), re.MULTILINE)
        self.assertEqual(set(told), KEYWORDS)

    def test_vim_has_each_keyword(self):
        words = words_in_vim()
        self.assertEqual(KEYWORDS | {"tick"}, set(words))
        linked = re.findall(r"^highlight default link (\w+)", VIM.read_text(), re.MULTILINE)
        self.assertLessEqual(set(words.values()), set(linked))

    def test_the_grammar_has_each_keyword(self):
        grammar = Grammar()
        for word in KEYWORDS:
            self.assertRegex(grammar.scope_of(word), r"^(keyword|storage)\.", word)
        for word in ("A", "emits", "in_", "tock"):
            self.assertEqual(grammar.scope_of(word), "variable.other.esterel")
        self.assertEqual(grammar.scope_of("tick"), "constant.language.esterel")

    def test_words_and_brackets_of_tests(self):
        words, grammar = words_in_vim(), Grammar()
        for word in ("and", "or", "not"):
            self.assertEqual(words[word], "esterelOperator")
            self.assertEqual(grammar.scope_of(word), "keyword.operator.word.esterel")
        self.assertEqual(words["inputoutput"], words["input"])
        self.assertEqual(grammar.scope_of("inputoutput"), grammar.scope_of("input"))
        pairs = json.loads((VSCODE / "language-configuration.json").read_text())["brackets"]
        self.assertEqual(pairs, [["[", "]"], ["(", ")"]])
        for letter in "()[]":
            self.assertFalse(grammar.is_illegal(letter))
        self.assertTrue(grammar.is_illegal("?"))

    def test_the_extension_names_files_that_are_there(self):
        package = json.loads((VSCODE / "package.json").read_text())["contributes"]
        language, grammar = package["languages"][0], package["grammars"][0]
        json.loads((VSCODE / language["configuration"]).read_text())
        whole = json.loads((VSCODE / grammar["path"]).read_text())
        self.assertEqual(whole["scopeName"], grammar["scopeName"])
        self.assertEqual(["." + kind for kind in whole["fileTypes"]], language["extensions"])

    def test_the_extension_is_a_zip_with_all_its_files(self):
        with tempfile.TemporaryDirectory() as name:
            paths = [pathlib.Path(name) / number for number in ("1.vsix", "2.vsix")]
            for path in paths:
                subprocess.run([sys.executable, EDITORS / "make_vsix.py", path], check=True)
            self.assertEqual(*[path.read_bytes() for path in paths])
            with zipfile.ZipFile(paths[0]) as made:
                files = {name: made.read(name) for name in made.namelist()}
        package = json.loads(files["extension/package.json"])
        named = [package["main"], package["contributes"]["languages"][0]["configuration"]]
        named += [grammar["path"] for grammar in package["contributes"]["grammars"]]
        for path in named:
            self.assertIn(f"extension/{path[2:]}", files)
        manifest = xml.etree.ElementTree.fromstring(files["extension.vsixmanifest"])
        space = manifest.tag.partition("}")[0] + "}"
        identity = manifest.find(f"{space}Metadata/{space}Identity")
        self.assertEqual(
            (identity.get("Version"), identity.get("Id"), package["version"]),
            (__version__, package["name"], __version__),
        )
        types = xml.etree.ElementTree.fromstring(files["[Content_Types].xml"])
        known = {kind.get("Extension") for kind in types}
        endings = {pathlib.PurePath(name).suffix for name in files if name != "[Content_Types].xml"}
        self.assertLessEqual(endings, known)

    @unittest.skipUnless(shutil.which("vim"), "vim is not installed")
    def test_vim_reads_it(self):
        with tempfile.NamedTemporaryFile("r", suffix=".txt") as written:
            asked = 'synIDattr(synID({}, 1, 1), "name")'
            script = "|".join(
                [
                    "filetype plugin on",
                    "syntax on",
                    f"edit {EXAMPLES / 'abro' / 'abro.strl'}",
                    f"let names = [&filetype, {', '.join(map(asked.format, (1, 2, 8)))}, &formatprg]",
                    f"call writefile(names, '{written.name}')",
                    "qall!",
                ]
            )
            words = [
                "vim",
                "-u",
                "NONE",
                "-N",
                "-es",
                "--cmd",
                f"set runtimepath^={EDITORS / 'vim'}",
                "-c",
                script,
            ]
            subprocess.run(words, stdin=subprocess.DEVNULL, capture_output=True, timeout=60)
            lines = written.read().splitlines()
        if not lines:
            self.skipTest("this vim has no syntax")
        names = ["esterel", "esterelComment", "esterelStructure", "esterelRepeat"]
        self.assertEqual(lines, [*names, "estserve-client format -"])


if __name__ == "__main__":
    unittest.main()
