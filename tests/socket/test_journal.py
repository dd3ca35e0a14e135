"""Slots' journals that grow long, by `estserve script --report`: one that is filled up to its limit, and one of many modules."""
import subprocess
import sys
import unittest

from running import ROOT, program

sys.path.insert(0, str(ROOT / "tests" / "journals"))
import full  # noqa: E402
from wire import written  # noqa: E402

FILL_SECONDS = 1_200  # the journal is filled in this time, or not at all
TIMES = 10_000


def loads_and_unloads():
    """A module is loaded and unloaded again and again: each line with its answer."""
    yield {"cmd": "login", "roles": ["root"], "user": "root"}, {"ok": "login", "session": 1, "version": 5}
    for version, (operation, target) in enumerate([("load", "0"), ("audit", "policy")], 6):
        yield {"cmd": "grant", "object": target, "op": operation, "role": "root"}, {"ok": "grant", "version": version}
    text = "module M: input A; output B; pause end module"
    for time in range(1, TIMES + 1):
        yield {"cmd": "load", "main": "M", "slot": 0, "text": text}, {"ok": "load", "place": 2 * time - 1, "version": 7}
        yield {"cmd": "unload", "slot": 0}, {"ok": "unload", "place": 2 * time, "version": 7}
    yield {"cmd": "audit", "slot": 0}, {"entries": 2 * TIMES, "instants": 0, "ok": "audit", "version": 7}


# the logout at the end is an entry too
REPORT = f"policy: 8 entries\nslot 0: {2 * TIMES} entries, {TIMES} loads, 0 instants\ncheck: ok\n"


class Journals(unittest.TestCase):
    def is_answered(self, lines, wanted):
        ran = subprocess.run(
            [*program(), "script", "--report"], input=lines, stdout=subprocess.PIPE, stderr=subprocess.PIPE, text=True, timeout=FILL_SECONDS,
        )
        self.assertEqual((ran.returncode, ran.stderr), (0, ""))
        self.assertTrue(ran.stdout == wanted, "other answers, or another report, than those that are written here")

    def test_a_full_journal_refuses_what_adds_an_entry(self):
        lines, answers = full.dialogue()
        self.is_answered(lines, answers + full.REPORT)

    def test_ten_thousand_loads_and_unloads(self):
        lines, answers = (b"".join(map(written, side)).decode() for side in zip(*loads_and_unloads()))
        self.is_answered(lines, answers + REPORT)


if __name__ == "__main__":
    unittest.main()
