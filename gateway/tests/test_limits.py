"""The limits: what the command line says of them, what an hour gives back, and descriptors."""
import pathlib
import subprocess
import sys
import tempfile
import unittest

import teams
from estserve_team.limits import HOUR, OWN_DESCRIPTORS, Hourly, Limits, fit_to, read_limits
from estserve_team.places import Failed


TEAM = [sys.executable, "-B", str(teams.ROOT / "clients" / "estserve.py"), "team"]


class Read(unittest.TestCase):
    def test_each_is_set_by_its_name(self):
        limits = read_limits(["idle_seconds=5", "kept_logins=0"])
        self.assertEqual(limits, Limits()._replace(idle_seconds=5, kept_logins=0))

    def test_what_is_none_is_told(self):
        for word in ("", "idle_seconds", "idle_seconds=", "idle_seconds=-1", "idle=1", "a=b=1"):
            with self.assertRaises(Failed, msg=word):
                read_limits([word])

    def test_what_makes_no_sense_is_refused(self):
        may_be_none = {"kept_logins", "kept_sessions", "kept_entries", "refusals_logged"}
        for name in set(Limits._fields) - may_be_none:
            with self.assertRaisesRegex(Failed, f"^--limit {name}=0: it has to be .* at least$"):
                read_limits([f"{name}=0"])
        for name in may_be_none:
            self.assertEqual(getattr(read_limits([f"{name}=0"]), name), 0)
        for name, number, step, told in (
            ("waiting_bytes", 65_536, -1, "has to be 65536 at least"),
            ("person_connections", 2, -1, "has to be 2 at least"),
            ("page_seconds", 4, -1, "has to be 4 at least"),
            ("kept_logins", 15, 1, "may be 15 at most"),
            ("kept_sessions", 65_534, 1, "may be 65534 at most"),
            ("kept_entries", 262_079, 1, "may be 262079 at most"),
        ):
            self.assertEqual(getattr(read_limits([f"{name}={number}"]), name), number)
            with self.assertRaisesRegex(Failed, f"^--limit {name}={number + step}: it {told}$"):
                read_limits([f"{name}={number + step}"])

    def test_the_defaults_make_sense(self):
        read_limits([f"{name}={number}" for name, number in Limits()._asdict().items()])

    def test_nothing_is_made_before_they_are_read(self):
        with tempfile.TemporaryDirectory() as folder:
            state = pathlib.Path(folder) / "team"
            for word in ("page_seconds=0", "seconds=1"):
                words = [*TEAM, "--state", str(state), "--limit", word, "--program", "/bin/true"]
                ran = subprocess.run(words, capture_output=True, text=True, timeout=60)
                self.assertEqual((ran.returncode, ran.stdout), (1, ""), ran.stderr)
                self.assertRegex(ran.stderr, rf"^estserve\.py: --limit {word}: [^\n]*\n$")
                self.assertFalse(state.exists())


class Used(unittest.TestCase):
    def test_all_of_an_hour_at_once_and_then_as_it_fills_again(self):
        now = [0.0]
        hourly = Hourly(4, lambda: now[0])
        self.assertEqual([hourly.use("ann") for _ in range(6)], [True] * 4 + [False] * 2)
        self.assertTrue(hourly.use("bob"))
        now[0] += HOUR / 4
        self.assertEqual([hourly.use("ann") for _ in range(2)], [True, False])
        now[0] += 9 * HOUR
        self.assertEqual([hourly.use("ann") for _ in range(5)], [True] * 4 + [False])


class Descriptors(unittest.TestCase):
    def test_few_descriptors_make_few_connections(self):
        self.assertEqual(fit_to(Limits(), 4_096), Limits())
        for descriptors in (256, 512, 1_024, 1_700):
            limits = fit_to(Limits(), descriptors)
            held = limits.connections + limits.http_connections
            self.assertLessEqual(held, max(descriptors - OWN_DESCRIPTORS, 32))
            self.assertGreater(min(limits.connections, limits.http_connections), 15)
            self.assertLessEqual(limits.person_connections * 2, limits.connections)
            self.assertLessEqual(limits.person_http * 2, limits.http_connections)
            self.assertLessEqual(limits.address_connections * 2, limits.http_connections)


if __name__ == "__main__":
    unittest.main()
