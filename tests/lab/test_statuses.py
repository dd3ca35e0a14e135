"""The program `estlab prove`: the line that it writes, and its status."""
import json
import os
import pathlib
import subprocess
import tempfile
import unittest

TEXT = """module M:
input A, B;
output O;
loop
  present A then present B then emit O end end;
  pause
end
end module
"""
ROWS = (
    ("--main M", 0),
    ("--main M --never O", 1),
    ("--main M --always A --never O", 1),
    ("--main M --inputs A --never O", 0),
    ("--main M --never B --inputs A --inputs B", 1),
    ("--main M --never O --most 1", 3),
    ("--main M --most 1", 3),
    ("--main M --inputs O", 2),
    ("--main M --never X", 2),
    ("--main N", 2),
    ("--never O", 2),
    ("--main M --most 0", 2),
)


class Statuses(unittest.TestCase):
    """What `prove` ends with."""

    def ran(self, words):
        """What is printed for these words after `prove FILE`, and the status."""
        with tempfile.TemporaryDirectory() as folder:
            text = pathlib.Path(folder, "m.strl")
            text.write_text(TEXT)
            ran = subprocess.run(
                [os.environ["ESTLAB"], "prove", text, *words],
                stdin=subprocess.DEVNULL,
                stdout=subprocess.PIPE,
                stderr=subprocess.DEVNULL,
                text=True,
            )
        return ran.stdout, ran.returncode

    def test_the_status_tells_what_was_found(self):
        for words, status in ROWS:
            with self.subTest(words=words):
                self.assertEqual(self.ran(words.split())[1], status)

    def test_a_claim_has_words_of_its_own(self):
        printed, status = self.ran(["--main", "M", "--never", "O and not A"])
        self.assertEqual(status, 0)
        self.assertEqual(json.loads(printed)["verdicts"], [{"verdict": "holds"}])

    def test_a_file_that_is_missing_has_status_2(self):
        words = [os.environ["ESTLAB"], "prove", "no.such.file", "--main", "M"]
        ran = subprocess.run(words, stdin=subprocess.DEVNULL, capture_output=True)
        self.assertEqual((ran.stdout, ran.returncode), (b"", 2))


if __name__ == "__main__":
    unittest.main()
