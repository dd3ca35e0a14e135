"""Each growth of memory of calls that no line of the protocol tells apart, refused in turn, by tests of the crates.

Such a test makes its calls with ample memory. Where one is refused, it looks whether all is as before, makes the same call again, and
ends with words that tell which call it was; or it goes on, and what it compares at its end has to be as always.
"""
import collections
import re
import subprocess
import unittest

from refusing import Growths, tests_of

# of a test, the words with which its runs may end, and how many have to, at least; `went on` is the end as always
CALLS = {
    "server_tests": {
        "events::runs::a_version_behind_or_ahead": {"room": 1, "went on": 20},
        "events::runs::a_discard_and_an_unload_take_what_was_offered": {"room": 1, "went on": 20},
        "audit::memory::audits_without_memory": {"room": 1, "refused a check": 1, "refused a report": 1},
        "board::receipts::receipts_without_memory": {"a board": 5, "went on": 1},
    },
}
TEST_SECONDS = 60


class EachGrowth(unittest.TestCase):
    def end(self, words, growths, test, ends):
        """The words with which a test ended."""
        ran = subprocess.run([*words, test], capture_output=True, text=True, env=growths.environment, timeout=TEST_SECONDS)
        told = ran.stdout + ran.stderr
        if ran.returncode == 0:
            return "went on"
        found = [end for end in ends if re.search(rf'^\s*(error: "?)?{end}(?!\w)', told, re.M)]
        self.assertEqual(len(found), 1, told)
        return found[0]

    def sweep(self, words, growths, test, ends):
        counts = collections.Counter()
        while True:
            growths.refuse(counts.total() + 1)
            end = self.end(words, growths, test, ends)
            if growths.refused == 0:
                break
            counts[end] += 1
        self.assertEqual(end, "went on")
        return counts

    def test_of_each_test(self):
        for crate, tests in CALLS.items():
            words = tests_of(crate)
            with Growths(words[-1]) as growths:
                for test, ends in tests.items():
                    with self.subTest(test):
                        counts = self.sweep(words, growths, test, ends)
                        print(f"faults: {crate} {test}: {counts.total()} growths refused in turn: {dict(counts)}")
                        for end, least in ends.items():
                            self.assertGreaterEqual(counts[end], least, end)


if __name__ == "__main__":
    unittest.main()
