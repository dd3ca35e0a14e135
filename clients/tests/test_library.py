"""The client as a library: instants, waves, answers that don't come in time, type hints, and `pip
install ./clients`.
"""
import dataclasses
import importlib
import importlib.util
import inspect
import pathlib
import pkgutil
import re
import shutil
import subprocess
import sys
import tempfile
import time
import unittest

from support import CLIENTS, EXAMPLES, ROOT, WithProgram, needs_program, run_client

import estserve
import estserve_client

ABRO = (EXAMPLES / "abro" / "abro.strl").read_text()


@needs_program
class OnTheProgram(WithProgram):
    def setUp(self):
        super().setUp()
        self.grant(
            ("load", "0"),
            ("step", "0"),
            ("offer", "0.A"),
            ("offer", "0.B"),
            ("observe", "0.A"),
            ("observe", "0.O"),
        )
        self.client.load(0, "ABRO", ABRO)

    def test_an_instant(self):
        self.assertEqual(self.client.instant(0).number, 1)
        self.client.offer(0, "A")  # as another client may have
        instant = self.client.instant(0, ["A", "B"])
        self.assertEqual(
            (instant.number, instant.signals, instant.present),
            (2, {"A": True, "O": True}, ["A", "O"]),
        )
        with self.assertRaises(estserve.Refusal) as raised:
            self.client.instant(0, ["A", "R"])
        self.assertEqual(
            (raised.exception.fault, raised.exception.command["signal"]), ("Permission", "R")
        )
        self.assertEqual(self.client.instant(0).present, ["A"])
        with self.assertRaises(TypeError):
            self.client.instant(0, "A")

    def test_waves(self):
        for names in ([], ["A", "B"], []):
            self.client.instant(0, names)
        self.assertEqual(
            self.client.waves(0),
            "".join(
                line + "\n"
                for line in [
                    "instant           1   2   3",
                    "A        signal _____/‾\\____",
                    "O        signal _____/‾\\____",
                ]
            ),
        )
        self.assertEqual(
            self.client.waves(0, ABRO, plain=True).splitlines()[1:],
            [
                "A        input  _____/^\\____",
                "B        input  ............",
                "R        input  ............",
                "O        output _____/^\\____",
            ],
        )


class InTime(unittest.TestCase):
    def test_an_answer_that_does_not_come_in_time(self):
        with tempfile.TemporaryDirectory() as name:
            program = pathlib.Path(name) / "program"
            program.write_text(
                '#!/bin/sh\nread line; sleep 1\necho \'{"allowed":true,"ok":"check"}\'\n'
                'read line; echo \'{"allowed":false,"ok":"check"}\'; cat > /dev/null\n'
            )
            program.chmod(0o755)
            with estserve.start(program, timeout=0.2) as client:
                begun = time.monotonic()
                with self.assertRaises(estserve.TimedOut) as raised:
                    client.check("step", "0")
                self.assertEqual(raised.exception.seconds, 0.2)
                self.assertLess(time.monotonic() - begun, 30)
                self.assertTrue(client.is_owed)
                client.timeout = 60
                self.assertEqual(
                    client.check("step", "1")["allowed"], False
                )  # the late answer is passed over


class Hints(unittest.TestCase):
    """Each function of the package has its types."""

    def functions(self):
        for found in pkgutil.iter_modules(estserve_client.__path__, "estserve_client."):
            module = importlib.import_module(found.name)
            holders = [module, *[kind for kind in vars(module).values() if inspect.isclass(kind)]]
            for holder in holders:
                made = dataclasses.is_dataclass(holder)
                for name, function in vars(holder).items():
                    is_own = inspect.isfunction(function) and function.__module__ == found.name
                    if is_own and not (made and name.startswith("__")):
                        yield function

    def test_each_parameter_and_answer_has_a_type(self):
        functions = {function.__qualname__: function for function in self.functions()}
        self.assertGreater(len(functions), 200)
        for name, function in functions.items():
            signature = inspect.signature(function)
            bare = [
                parameter.name
                for parameter in signature.parameters.values()
                if parameter.annotation is parameter.empty and parameter.name != "self"
            ]
            self.assertEqual(
                (bare, signature.return_annotation is not signature.empty), ([], True), name
            )

    def test_the_package_says_that_it_has_types(self):
        self.assertTrue((CLIENTS / "estserve_client" / "py.typed").exists())

    def test_what_is_exported_is_there(self):
        for module in (estserve, estserve_client):
            for name in module.__all__:
                self.assertTrue(hasattr(module, name), name)


class Version(unittest.TestCase):
    def test_the_version_is_the_changelog_s_first(self):
        words = [sys.executable, "-B", str(CLIENTS / "estserve.py"), "--version"]
        told = subprocess.run(words, capture_output=True, text=True, timeout=60).stdout
        self.assertEqual(told, f"estserve-client {estserve.__version__}\n")
        first = re.search(r"^## (\S+)", (ROOT / "CHANGELOG.md").read_text(), re.MULTILINE)
        self.assertEqual(first[1], estserve.__version__)


class Installed(unittest.TestCase):
    def test_a_copy_of_the_client_alone_gives_no_wheel(self):
        with tempfile.TemporaryDirectory() as name:
            copy = pathlib.Path(name, "clients")
            shutil.copytree(CLIENTS, copy, ignore=shutil.ignore_patterns("__pycache__", "tests"))
            words = [sys.executable, "-B", "-c", "import build_wheel; build_wheel.folders()"]
            ran = subprocess.run(words, capture_output=True, text=True, cwd=copy, timeout=60)
            self.assertEqual(ran.returncode, 1)
            self.assertIn(f"estserve_team is not beside {copy}", ran.stderr)

    @unittest.skipUnless(importlib.util.find_spec("ensurepip"), "this Python has no pip for a venv")
    def test_pip_installs_a_command_and_a_package(self):
        with tempfile.TemporaryDirectory() as name:
            folder = pathlib.Path(name)
            left_out = shutil.ignore_patterns("__pycache__", "build", "*.egg-info")
            source = shutil.copytree(CLIENTS, folder / "clients", ignore=left_out)
            shutil.copytree(ROOT / "gateway", folder / "gateway", ignore=left_out)
            subprocess.run(
                [sys.executable, "-m", "venv", folder / "venv"], check=True, capture_output=True
            )
            here = folder / "venv" / "bin"
            words = [
                here / "python3",
                "-m",
                "pip",
                "install",
                "--quiet",
                "--no-index",
                "--disable-pip-version-check",
                source,
            ]
            ran = subprocess.run(words, capture_output=True, text=True, cwd=folder)
            self.assertEqual(ran.returncode, 0, ran.stderr)
            ran = subprocess.run(
                [here / "estserve-client", "--version"], capture_output=True, text=True, cwd=folder
            )
            self.assertEqual(ran.stdout, f"estserve-client {estserve.__version__}\n")
            ran = subprocess.run(
                [here / "estserve-client", "run", "none"],
                capture_output=True,
                text=True,
                cwd=folder,
            )
            self.assertEqual(
                ran.stderr,
                "estserve-client: the module text none cannot be read: No such file or directory\n",
            )
            ran = subprocess.run(
                [here / "estserve-client", "team", "who", "--state", folder / "none"],
                capture_output=True,
                text=True,
                cwd=folder,
            )
            self.assertIn("none/gateway.sock", ran.stderr)
            code = "import estserve_client as e; print(e.__file__, e.connect.__name__)"
            ran = subprocess.run(
                [here / "python3", "-c", code], capture_output=True, text=True, cwd=folder
            )
            self.assertRegex(
                ran.stdout, rf"^{folder}/venv/.*/estserve_client/__init__\.py connect$"
            )


if __name__ == "__main__":
    unittest.main()
