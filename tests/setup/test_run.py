"""`make run` over a stand-in for the kit: crates are proved side by side, those below first."""
import os
import pathlib
import signal
import subprocess
import sys
import tempfile
import time
import unittest
import unittest.mock

ROOT = pathlib.Path(__file__).resolve().parents[2]
sys.path.insert(0, str(ROOT / "scripts"))
import run  # noqa: E402

SCRIPTS = ("run.py", "crates.py", "over_gate.py")
# tells when each crate is begun and ended, and what of the crates below is there; the crate `wrong` is not proved
KIT = """#!/bin/sh
if [ "$1" = version ]; then echo kit; exit; fi
crate=$(basename "$PWD")
echo "begun $crate" >> "$CALLS"
echo "the long text of $crate, beside $(ls -d ../*/out/kept 2> /dev/null | tr '\\n' ' ')"
sleep "$SECONDS_EACH"
mkdir -p out
echo "$crate" > out/kept
[ "$crate" != wrong ] || exit 1
echo "ended $crate" >> "$CALLS"
if [ "$1" = run ]; then
    shift
    echo "the program: $*"
    cat
    echo "built of $(cat ../long/out/kept) ${WHERE:+in $PWD}" > "out/$crate"
fi
"""
# `long` is under a longer chain than `short`; `top` stands on both
CRATES = "# Storey: of tests\nshort:\nlong:\nmiddle: long\ntop: short middle kit_library\n"
TABLE = "| `short` | 1.0 | 0.0 | 0.0 | 1.0 |\n| `long` | 1.0 | 0.0 | 0.0 | 1.0 |\n| `middle` | 3.0 | 0.0 | 0.0 | 3.0 |\n| `top` | 2.0 | 0.0 | 0.0 | 2.0 |\n"
WAIT_SECONDS = 60


def take_interrupts():
    """Undoes that a shell has what runs in the background pass over interrupts."""
    signal.signal(signal.SIGINT, signal.SIG_DFL)


class Runs(unittest.TestCase):
    def setUp(self):
        held = tempfile.TemporaryDirectory(prefix="estserve-")
        self.addCleanup(held.cleanup)
        self.folder = pathlib.Path(held.name)
        self.calls = self.folder / "calls"
        for name in SCRIPTS:
            self.write(f"scripts/{name}", (ROOT / "scripts" / name).read_text())
        self.write("docs/generated/MINUTES.md", TABLE)
        self.write("bin/rt", KIT).chmod(0o755)
        self.list(CRATES)

    def write(self, name, text):
        path = self.folder / name
        path.parent.mkdir(parents=True, exist_ok=True)
        path.write_text(text)
        return path

    def list(self, crates):
        """Makes a repository of these crates."""
        self.write("crates.txt", crates)
        for line in crates.splitlines()[1:]:
            (self.folder / "crates" / line.partition(":")[0]).mkdir(parents=True, exist_ok=True)

    def variables(self, lanes=2, seconds="0.3"):
        path = f"{self.folder / 'bin'}:{os.environ['PATH']}"
        return {**os.environ, "PATH": path, "CALLS": str(self.calls), "LANES": str(lanes), "SECONDS_EACH": seconds}

    def start(self, *words, **more):
        return subprocess.Popen(
            [sys.executable, "-B", self.folder / "scripts" / "run.py", *words],
            stdin=subprocess.PIPE, stdout=subprocess.PIPE, stderr=subprocess.PIPE, text=True, env=self.variables(**more),
            preexec_fn=take_interrupts,
        )  # fmt: skip

    def run_to_end(self, *words, **more):
        """The status, what the program wrote, and the lines that were told."""
        printed, told = (process := self.start(*words, **more)).communicate("typed\n", WAIT_SECONDS)
        return process.returncode, printed, told.splitlines()

    def wait_for_calls(self, count):
        end = time.monotonic() + WAIT_SECONDS
        while time.monotonic() < end and not (self.calls.exists() and len(self.told_calls()) == count):
            time.sleep(0.02)

    def told_calls(self):
        return self.calls.read_text().splitlines()

    def test_crates_are_proved_side_by_side_and_the_program_is_run(self):
        status, printed, told = self.run_to_end("top", "script")
        self.assertEqual((status, printed.splitlines()[1:]), (0, ["the program: -- script", "typed"]))
        calls = self.told_calls()
        self.assertEqual(set(calls[:2]), {"begun long", "begun short"})
        self.assertEqual(calls[-2:], ["begun top", "ended top"])
        self.assertLess(calls.index("ended long"), calls.index("begun middle"))
        self.assertEqual(told[0], "4 crates, 2 at a time; the long texts go into crates/top/out/proofs")
        self.assertRegex(told[-2], r"^3 of 4: middle proved, \d+ s; 2 minutes left by the last table$")
        self.assertRegex(told[-1], r"^top proved, built and run, \d+ s$")
        texts = self.folder / "crates" / "top" / "out" / "proofs"
        self.assertEqual((texts / "long.log").read_text(), "the long text of long, beside \n")
        self.assertEqual((texts / "middle.log").read_text(), "the long text of middle, beside ../long/out/kept \n")
        for crate in ("short", "long", "middle", "top"):
            self.assertEqual((self.folder / "crates" / crate / "out" / "kept").read_text(), f"{crate}\n")
        self.assertFalse((self.folder / "out" / "lanes").exists())

    def test_what_is_proved_and_has_not_changed_is_not_proved_again(self):
        self.write("crates/long/src/lib.rt", "old")
        self.assertEqual(self.run_to_end("top", seconds="0")[0], 0)
        for changed, begun in ((None, ["top"]), ("crates/short/src/lib.rt", ["short", "top"]), ("crates/long/src/lib.rt", ["long", "middle", "top"])):
            self.calls.unlink()
            if changed:
                self.write(changed, "new")
            status, _, told = self.run_to_end("top", seconds="0")
            self.assertEqual((status, told[1]), (0, f"{4 - len(begun)} of 4 are proved already"))
            self.assertEqual([line.split()[1] for line in self.told_calls() if line.startswith("begun")], begun)

    def test_what_a_killed_run_has_kept_is_taken_back(self):
        started = self.start("top", seconds="30")
        self.wait_for_calls(2)
        self.write("out/lanes/long/crates/long/out/half", "kept")
        os.kill(started.pid, signal.SIGKILL)
        started.communicate(timeout=WAIT_SECONDS)
        self.assertEqual(self.run_to_end("top", seconds="0")[0], 0)
        self.assertEqual((self.folder / "crates" / "long" / "out" / "half").read_text(), "kept")

    def test_the_crate_under_the_longest_chain_is_first(self):
        self.assertEqual(self.run_to_end("top", lanes=1, seconds="0")[0], 0)
        begun = [line.split()[1] for line in self.told_calls() if line.startswith("begun")]
        self.assertEqual(begun, ["long", "middle", "short", "top"])

    def test_a_crate_that_is_not_proved_ends_it_and_what_runs_beside_it(self):
        self.list(CRATES + "wrong:\nabove: wrong long\n")
        status, printed, told = self.run_to_end("above", seconds="0.2")
        self.assertEqual((status, printed), (1, ""))
        self.assertEqual(told[-1], "wrong NOT proved: crates/above/out/proofs/wrong.log says why")
        self.assertNotIn("begun above", self.told_calls())

    def test_another_folder_is_seen_to_give_the_same_program_or_another(self):
        self.list(CRATES + "estserve: long\n")
        script = self.write("tests/setup/same_program", (ROOT / "tests" / "setup" / "same_program").read_text())
        self.write("HANDLES", "")
        self.assertEqual(self.run_to_end("estserve", seconds="0")[0], 0)
        for words in ([], ["--anew"]):
            for where, status, told in (("", 0, "the same"), ("1", 1, "ANOTHER")):
                variables = {**self.variables(seconds="0"), "WHERE": where}
                ran = subprocess.run([sys.executable, "-B", script, *words], capture_output=True, text=True, env=variables)
                self.assertEqual((ran.returncode, ran.stdout), (status, f"crates/estserve/out/estserve: another folder gives {told} program\n"))

    def test_an_interrupt_ends_what_runs(self):
        started = self.start("top", seconds="30")
        self.wait_for_calls(2)
        started.send_signal(signal.SIGINT)
        started.communicate(timeout=WAIT_SECONDS / 4)
        self.assertEqual(started.returncode, 130)
        self.assertEqual(len(self.told_calls()), 2)

    def test_it_says_where_the_disk_has_no_room(self):
        script = self.folder / "scripts" / "run.py"
        text = script.read_text()
        self.assertIn("\nKEPT = 11 * GIGABYTE", text)
        script.write_text(text.replace("\nKEPT = 11 * GIGABYTE", "\nKEPT = 10**9 * GIGABYTE"))
        status, printed, told = self.run_to_end("top")
        self.assertEqual((status, printed, len(told)), (1, "", 1))
        self.assertRegex(told[0], r"^no room: the proofs take 1000000000 GB more of the disk, and \d+ GB are free$")
        self.assertFalse(self.calls.exists())

    def test_there_are_two_lanes_at_least_and_no_more_than_processors(self):
        variables = {name: value for name, value in os.environ.items() if name != "LANES"}
        for gigabytes, wanted in ((1, 2), (10, 2), (1000, max(2, len(os.sched_getaffinity(0))))):
            with unittest.mock.patch.dict(os.environ, variables, clear=True):
                with unittest.mock.patch.object(run, "available_memory", lambda: gigabytes * run.GIGABYTE):
                    self.assertEqual(run.lanes(), wanted)


if __name__ == "__main__":
    unittest.main()
