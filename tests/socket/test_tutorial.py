"""Each command of docs/TUTORIAL.md that speaks to a server prints what stands there.

The blocks after `<!-- server -->` are run in turn, over one server, in place of the one that the tutorial has started. A line
that begins with `$ ` is a command, lines that begin with `> ` are typed, and the others are what it prints. A folder of the test's
own stands for /tmp.
"""
import pathlib
import re
import shlex
import subprocess
import sys
import tempfile
import unittest

from running import ROOT, Server

BLOCK = re.compile(r"<!-- server -->\s*```console\n(.*?)```", re.DOTALL)
SOCKET = "/tmp/estserve.sock"  # where the tutorial's server is


class Tutorial(unittest.TestCase):
    def check(self, piece):
        """Runs one command, with what is typed, and compares what it prints."""
        command, *lines = piece.splitlines()
        typed = "".join(line[2:] + "\n" for line in lines if line.startswith("> "))
        printed = "".join(line + "\n" for line in lines if not line.startswith("> "))
        words = [sys.executable, "-B", *shlex.split(command)[1:]]
        ran = subprocess.run(words, cwd=ROOT, input=typed, capture_output=True, text=True)
        with self.subTest(command):
            self.assertTrue(command.startswith("python3 clients/estserve.py "))
            self.assertEqual(ran.stdout + ran.stderr, printed)

    def test_each_command_prints_what_is_told(self):
        text = (ROOT / "docs" / "TUTORIAL.md").read_text()
        self.assertIn(f"estserve serve --socket {SOCKET}\n", text)
        blocks = BLOCK.findall(text)
        self.assertTrue(blocks)
        with tempfile.TemporaryDirectory(prefix="estserve-") as name:
            folder = pathlib.Path(name)
            with Server(path=folder / pathlib.Path(SOCKET).name):
                pieces = re.split(r"^\$ ", "".join(blocks), flags=re.MULTILINE)[1:]
                for piece in pieces:
                    self.check(piece.replace("/tmp/", f"{folder}/"))
            wires = re.findall(r"^\$var wire 1 \S+ (\w+) \$end$", (folder / "team.vcd").read_text(), re.MULTILINE)
            self.assertEqual(wires, ["tick", "A", "O"])


if __name__ == "__main__":
    unittest.main()
