"""`make doctor` over stand-ins for what it looks for, and the messages on aiohttp."""
import argparse
import os
import pathlib
import shutil
import subprocess
import sys
import tempfile
import unittest
import unittest.mock

ROOT = pathlib.Path(__file__).resolve().parents[2]
sys.path[:0] = [str(ROOT / "clients"), str(ROOT / "gateway")]
from estserve_client.running import Failed  # noqa: E402
from estserve_team.web import serving  # noqa: E402

DOCTOR = ROOT / "scripts" / "doctor.py"
INSTALL = ROOT / "scripts" / "install_debian.sh"
WITHOUT_MODULES = f'#!/bin/sh\nexec {sys.executable} -S -E "$@"\n'


class Doctor(unittest.TestCase):
    def setUp(self):
        held = tempfile.TemporaryDirectory(prefix="estserve-")
        self.addCleanup(held.cleanup)
        self.folder = pathlib.Path(held.name)

    def put(self, name, text="#!/bin/sh\n"):
        path = self.folder / name
        path.write_text(text)
        path.chmod(0o755)

    def run_doctor(self):
        """The status, and the lines, where nothing but the stand-ins is on the path."""
        variables = {"PATH": str(self.folder), "HOME": str(self.folder)}
        ran = subprocess.run([sys.executable, "-B", DOCTOR], capture_output=True, text=True, env=variables)
        self.assertEqual(ran.stderr, "")
        return ran.returncode, ran.stdout.splitlines()

    def test_what_make_run_needs_is_named_and_the_status_says_so(self):
        status, lines = self.run_doctor()
        self.assertEqual((status, lines[-1]), (1, "make run lacks: the Rattle kit, Python 3.9 or later, as python3"))
        self.assertIn("NEEDED   the Rattle kit, for everything that is proved or built here. To get it: ", lines[0])

    def test_what_is_here_is_told_with_its_version_and_its_place(self):
        self.put("rt", "#!/bin/sh\necho kit of tests\n")
        self.put("python3", WITHOUT_MODULES)
        self.put("chromium")
        status, lines = self.run_doctor()
        version = ".".join(map(str, sys.version_info[:3]))
        self.assertEqual((status, lines[-1]), (0, "make run has all that it needs"))
        self.assertIn(f"here     the Rattle kit: kit of tests, at {self.folder}/rt", lines)
        self.assertIn(f"here     Python 3.9 or later, as python3: {version}, at {self.folder}/python3", lines)
        self.assertIn(f"here     a browser: {self.folder}/chromium", lines)

    def test_each_thing_that_lacks_is_told_with_its_use_and_what_gets_it(self):
        self.put("python3", WITHOUT_MODULES)
        lines = self.run_doctor()[1]
        lacking = [line for line in lines if line.startswith(("lacking", "NEEDED"))]
        self.assertGreater(len(lacking), 5)
        for line in lacking:
            self.assertRegex(line, r"^(lacking|NEEDED)  *[^,]+(, as python3)?, for .+\. To get it: \S+")
        aiohttp = next(line for line in lacking if "aiohttp" in line)
        self.assertIn(f"aiohttp for {self.folder}/python3, for the gateway's page", aiohttp)
        self.assertIn(f"{self.folder}/python3 -m pip install aiohttp", aiohttp)

    def test_the_set_up_asks_the_interpreter_that_runs_the_page(self):
        for name in ("dpkg-query", "apt-get"):
            self.put(name, "#!/bin/sh\necho installed\n")
        self.put("python3", WITHOUT_MODULES)
        path = f"{self.folder}:{os.environ['PATH']}"
        ran = subprocess.run([shutil.which("bash"), INSTALL], capture_output=True, text=True, env={"PATH": path})
        self.assertEqual(ran.returncode, 0)
        self.assertIn(f"{self.folder}/python3 has no aiohttp, so start the page by /usr/bin/python3", ran.stderr)

    def test_the_gateway_names_the_interpreter_that_has_no_aiohttp(self):
        parser = argparse.ArgumentParser()
        serving.add_word(parser.add_subparsers())
        with unittest.mock.patch.dict(sys.modules, {"estserve_team.web.site": None}):
            with self.assertRaises(Failed) as failed:
                serving.serve_page(parser.parse_args(["page", "--state", str(self.folder), "--http"]))
        self.assertIn(f"aiohttp, which {sys.executable} lacks", str(failed.exception))


if __name__ == "__main__":
    unittest.main()
