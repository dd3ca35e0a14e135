"""Each growth of memory of `estlab`, refused in turn: of its lines, and of `prove`. Skipped where the variable ESTLAB names no program."""
import collections
import json
import os
import pathlib
import subprocess
import tempfile
import unittest

from refusing import Growths
from peers import refused, written
from running import WAIT_SECONDS, words_of

MODULE = "module M: input A; output O; loop present A then emit O end; pause end end module"
LOOK = {"inputs": ["A"], "most": 9}
LINES = [
    {"cmd": "load", "main": "M", "text": MODULE},
    {"cmd": "kernel"},
    {"cmd": "explore", "claims": ["never O", "always O or not A"], **LOOK},
    {"cmd": "explore", "claims": ["always A", "never (O"], **LOOK},
    {"cmd": "same", "main": "M", "text": MODULE, **LOOK},
    {"cmd": "table", **LOOK},
    {"cmd": "try", "inputs": ["A"]},
    {"cmd": "instant", "inputs": []},
    {"cmd": "back", "to": 0},  # answered alike where the instant before was refused
]
SCRIPT = b"".join(json.dumps(line).encode() + b"\n" for line in LINES)
TOLD = ["load", "kernel", "explore", None, "same", "table", "instant", "instant", "back"]  # the word of each answer; the second of the fourth line's claims is none
MEMORY, EMPTY = refused(90), refused(62)
NO_ROOM = [written({"claim": number, "code": 81, "fault": "Claim", "why": {"code": 90, "fault": "Memory"}}) for number in (1, 2)]
UNREAD, UNKNOWN = 2, 3


@unittest.skipUnless(os.environ.get("ESTLAB"), "the variable ESTLAB names no program")
class Lab(unittest.TestCase):
    def setUp(self):
        self.words = words_of(os.environ["ESTLAB"])
        self.growths = self.enterContext(Growths(self.words[-1]))

    def ran(self, number, *words, given=b""):
        """A run in which this growth is refused; 0 for none."""
        self.growths.refuse(number)
        return subprocess.run(
            [*self.words, *words], input=given, capture_output=True, env=self.growths.environment, timeout=WAIT_SECONDS
        )

    def ends(self, what, end):
        """How often the runs end in which one growth after the other is refused, by what `end` says of a run."""
        found, number = collections.Counter(), 1
        while True:
            told = end(number)
            if self.growths.refused == 0:
                break
            found[told] += 1
            number += 1
        print(f"faults: estlab {what}: {found.total()} growths refused in turn: {dict(found)}")
        return found

    def end_of_lines(self, usual, number):
        """How a run on the lines ended. Each answer is as always, or tells that there was no memory."""
        run = self.ran(number, given=SCRIPT)
        told = run.stdout.splitlines(keepends=True)
        if run.returncode != 0:
            self.assertIn((run.returncode, bool(told)), [(UNREAD, False), (UNKNOWN, False), (UNKNOWN, True)])
            self.assertEqual(told, usual[: len(told)])
            return "no answer any more" if told else "nothing served"
        if told[0] == MEMORY:
            self.assertEqual(told[1:], [EMPTY] * (len(LINES) - 1))
            return "nothing loaded"
        others = [at for at in range(len(LINES)) if told[at] != usual[at]]
        self.assertLessEqual(len(others), 1)
        for at in others:
            self.assertIn(told[at], [MEMORY, *NO_ROOM] if LINES[at]["cmd"] == "explore" else [MEMORY])
        return "a question refused" if others else "passed over"

    def test_each_growth_of_lines(self):
        run = self.ran(0, given=SCRIPT)
        usual = run.stdout.splitlines(keepends=True)
        self.assertEqual([json.loads(line).get("ok") for line in usual], TOLD)
        ends = self.ends("on lines", lambda number: self.end_of_lines(usual, number))
        for end in ("nothing served", "nothing loaded", "a question refused", "no answer any more"):
            self.assertGreater(ends[end], 0, end)

    def end_of_proof(self, words, usual, number):
        """How a proof ended: as always, or by saying that nothing is known."""
        run = self.ran(number, *words)
        if (run.returncode, run.stdout) == (usual.returncode, usual.stdout):
            return "passed over"
        self.assertIn(run.returncode, (UNREAD, UNKNOWN))
        return "nothing known"

    def test_each_growth_of_a_proof(self):
        with tempfile.TemporaryDirectory() as folder:
            path = pathlib.Path(folder) / "m.strl"
            path.write_text(MODULE)
            for claim, status in [("O and not A", 0), ("O", 1)]:
                words = ["prove", path, "--main", "M", "--never", claim]
                usual = self.ran(0, *words)
                self.assertEqual(usual.returncode, status)
                ends = self.ends(f"prove --never '{claim}'", lambda number: self.end_of_proof(words, usual, number))
                self.assertGreater(ends["nothing known"], 0)


if __name__ == "__main__":
    unittest.main()
