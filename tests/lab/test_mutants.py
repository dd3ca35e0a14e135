"""Mistakes made on purpose in small examples: docs/PROVING.md tells how many the claims find."""
import unittest

from mutants import rows_of
from support import ROOT

NAMES = ["abro", "crossing", "stopwatch"]


class Mutants(unittest.TestCase):
    def test_the_table_tells_what_is_found(self):
        lines = (ROOT / "docs" / "PROVING.md").read_text().splitlines()
        rows = rows_of(NAMES)
        self.assertEqual(list(rows), NAMES)
        for name, row in rows.items():
            self.assertIn(row, lines, name)


if __name__ == "__main__":
    unittest.main()
