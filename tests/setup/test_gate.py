"""The end of the gate: what `rt ci` says comes as it is, its last line last, and the examples for C and random kernels before that."""
import contextlib
import io
import os
import pathlib
import sys
import tempfile
import unittest
import unittest.mock

ROOT = pathlib.Path(__file__).resolve().parents[2]
sys.path.insert(0, str(ROOT / "scripts"))
import gate  # noqa: E402

COUNT = "3 passed, 0 failed\n"


class Gate(unittest.TestCase):
    def run_gate(self, rt_status=0, are_left=True, is_built=True, library=0, examples=0, kernels=0):
        """The status, what is written, and the scripts that ran, where `rt ci`, the build of the library, the examples and the kernels end
        with these statuses.
        """
        held = tempfile.TemporaryDirectory(prefix="estserve-")
        self.addCleanup(held.cleanup)
        rt, program = pathlib.Path(held.name) / "rt", pathlib.Path(held.name) / "benches"
        rt.write_text(f"#!/bin/sh\necho one\nprintf '{COUNT}'\nexit {rt_status}\n")
        rt.chmod(0o755)
        if is_built:
            program.touch()
        written, ran = io.StringIO(), []

        def run(words):
            is_kernels = words[0] == sys.executable
            ran.append(pathlib.Path(words[is_kernels]).name)
            return unittest.mock.Mock(returncode=kernels if is_kernels else examples)

        with contextlib.ExitStack() as patched:
            patched.enter_context(contextlib.redirect_stdout(written))
            patched.enter_context(unittest.mock.patch.dict(os.environ, PATH=f"{held.name}:{os.environ['PATH']}"))
            patched.enter_context(unittest.mock.patch("over_gate.is_over_gate", return_value=are_left))
            patched.enter_context(unittest.mock.patch("library.main", return_value=library))
            patched.enter_context(unittest.mock.patch("gate.BENCHES", program))
            patched.enter_context(unittest.mock.patch("subprocess.run", run))
            return gate.main(), written.getvalue(), ran

    def test_the_count_is_the_last_line_where_all_is_well(self):
        self.assertEqual(self.run_gate(), (0, f"one\n{COUNT}", ["run", "engines.py", "tables.py"]))

    def test_without_libraries_the_examples_are_not_run_and_that_is_said(self):
        status, written, ran = self.run_gate(are_left=False)
        self.assertEqual((status, ran), (0, ["engines.py", "tables.py"]))
        self.assertRegex(written, rf"\Aone\ntargets: not run, .*\n{COUNT}\Z")

    def test_without_the_program_no_kernels_are_run_and_that_is_said(self):
        status, written, ran = self.run_gate(is_built=False)
        self.assertEqual((status, ran), (0, ["run"]))
        self.assertRegex(written, rf"\Aone\nkernels: not run, .*\n{COUNT}\Z")

    def test_where_rt_ci_fails_its_status_is_that_of_all(self):
        self.assertEqual(self.run_gate(rt_status=1), (1, f"one\n{COUNT}", []))

    def test_where_one_of_them_fails_the_count_is_not_the_last_line(self):
        for name, statuses in (("targets", {"library": 1}), ("targets", {"examples": 1}), ("kernels", {"kernels": 1})):
            status, written, _ = self.run_gate(**statuses)
            self.assertEqual(status, 1)
            self.assertEqual(written.splitlines(), ["one", f"{name}: failed, and so does the gate"])


if __name__ == "__main__":
    unittest.main()
