#!/usr/bin/env python3
"""Runs each example on the program, built without proof, and compares its answers.

The examples are the scripts of examples/scripts, and the dialogue of each controller's folder beside them; each has its answers in a file
with `.stdout` after the name. The worked examples of tests/dialogues and the dialogues of the client's tests, clients/tests/dialogues, are
run with them. The program is built once.
"""
import pathlib
import shutil
import subprocess
import sys
import tempfile

ROOT = pathlib.Path(__file__).resolve().parent.parent
FOLDERS = [ROOT / "examples" / "scripts", ROOT / "tests" / "dialogues", ROOT / "clients" / "tests" / "dialogues"]


def dialogues():
    """The stored dialogues, each by the name that it is run under."""
    found = {}
    controllers = sorted((ROOT / "examples").glob("*/*.dialogue.stdout"))
    for answers in [path for folder in FOLDERS for path in sorted(folder.glob("*.stdout"))] + controllers:
        lines = answers.with_suffix("")
        found[lines.name.replace(".dialogue", "_dialogue")] = lines, answers
    return found


def main():
    with tempfile.TemporaryDirectory() as folder:
        for name, (lines, answers) in dialogues().items():
            shutil.copy(lines, pathlib.Path(folder) / name)
            shutil.copy(answers, pathlib.Path(folder) / f"{name}.stdout")
        command = ["rt", "try", "--cases", folder, "--", "script"]
        return subprocess.run(command, cwd=ROOT / "crates" / "estserve").returncode


if __name__ == "__main__":
    sys.exit(main())
