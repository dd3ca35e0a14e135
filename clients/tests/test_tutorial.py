"""Each command of docs/TUTORIAL.md prints what stands there.

A block between fences that are marked `console` is run: a line that begins with `$ ` is a command,
the lines under it are what it prints, and where it reads standard input, lines that begin with `> `
are typed. A comment `<!-- dialogue: PATH -->` before a block names the stored dialogue that stands
for the program, which `make examples` holds against the real one; so `--unproved` is left out. What
is written into /tmp goes into a folder of the test's own. The blocks after `<!-- server -->` speak
to a server; tests/socket runs them. Those after `<!-- lab -->` ask estlab; test_lab runs them.
"""
import os
import re
import shlex
import unittest

from support import ROOT, InAFolder, play_dialogue, read_vcd

BLOCK = re.compile(r"<!-- dialogue: (\S+) -->\s*```console\n(.*?)```", re.DOTALL)
CLIENT = "python3 clients/estserve.py "


def commands_of(block):
    """The commands of a block: each with what is typed, and what it prints."""
    for piece in re.split(r"^\$ ", block, flags=re.MULTILINE)[1:]:
        first, *lines = piece.splitlines()
        typed = [line[2:] for line in lines if line.startswith("> ")]
        printed = [line for line in lines if not line.startswith("> ")]
        yield first, "".join(line + "\n" for line in typed), "".join(
            line + "\n" for line in printed
        )


class Tutorial(InAFolder):
    def setUp(self):
        super().setUp()
        self.addCleanup(os.chdir, os.getcwd())
        os.chdir(ROOT)

    def check(self, path, command, typed, printed):
        """Runs a command over a stored dialogue."""
        self.assertTrue(command.startswith(CLIENT), command)
        words = shlex.split(command[len(CLIENT) :].replace("/tmp/", f"{self.folder}/"))
        words = [word for word in words if word != "--unproved"]
        ran = play_dialogue(ROOT / path, words, typed)
        self.assertEqual(ran.printed + ran.told, printed)

    def test_each_command_prints_what_is_told(self):
        text = (ROOT / "docs" / "TUTORIAL.md").read_text()
        blocks = BLOCK.findall(text)
        served = len(re.findall(r"<!-- (?:server|lab) -->\s*```console\n", text))
        self.assertEqual(
            len(blocks) + served, text.count("```console"), "a block names no dialogue"
        )
        for path, block in blocks:
            for command, typed, printed in commands_of(block):
                with self.subTest(command):
                    self.check(path, command, typed, printed)
        changes = read_vcd((self.folder / "abro.vcd").read_text().splitlines())
        self.assertEqual(sorted(changes), ["A", "B", "O", "R", "tick"])

    def test_the_first_screen_shows_the_waves_of_abro(self):
        screen = (ROOT / "README.md").read_text().partition("## ")[0]
        for line in (ROOT / "examples" / "abro" / "abro.wave").read_text().splitlines():
            self.assertIn(line, screen)


if __name__ == "__main__":
    unittest.main()
