#!/usr/bin/env python3
"""Checks how the Python and JavaScript of clients, the gateway and its page, and the editors is
written.

No line is too wide. Where Debian's `black`, `mypy` and `node` are there, black would change no file,
`mypy --strict` finds nothing in the packages of clients and gateway and in what their tests share, and
node reads each script. What is not there, or there in another version than Debian 12 has, is said:
scripts/install_debian.sh installs it.
Ends with status 1 after naming what differs.
"""
from __future__ import annotations

import os
import pathlib
import shutil
import subprocess
import sys
import tempfile
from typing import Iterator, List

ROOT = pathlib.Path(__file__).resolve().parent.parent
CLIENTS, GATEWAY = ROOT / "clients", ROOT / "gateway"
FOLDERS = (CLIENTS, GATEWAY, ROOT / "editors")
KINDS = (".py", ".js", ".mjs", ".css")
WIDTH = 110  # columns of a line, at most; black breaks at 100 what it can break
SHOWN = 20  # lines of what a tool says
VERSIONS = {"black": "black, 23.", "mypy": "mypy 1.0", "node": "v"}  # others may decide otherwise
PACKAGES = (CLIENTS / "estserve_client", GATEWAY / "estserve_team")
READ = """
const [fs, vm] = [require("fs"), require("vm")];
for (const path of process.argv.slice(1)) {
  const text = fs.readFileSync(path, "utf8").replace(/^#!.*/, "");
  const words = { filename: path, identifier: path };
  if (path.endsWith(".mjs") || path.includes("/page/")) new vm.SourceTextModule(text, words);
  else new vm.Script(require("module").wrap(text), words);
}
"""
SHARED = (CLIENTS / "tests" / "support.py", CLIENTS / "tests" / "dialogue.py")
# what tests of the gateway share
OF_GATEWAY = ("browsers", "faulty", "listed_modules", "page_case", "picture", "reads_support")
OF_GATEWAY += ("teams", "visitors")
# what tests call of elsewhere has no types yet
LENIENT = "--follow-imports=silent --ignore-missing-imports --no-warn-return-any".split()
LENIENT.append("--allow-untyped-calls")


def files(*kinds: str) -> List[pathlib.Path]:
    """The files of these kinds, in the order of their names."""
    found = [path for folder in FOLDERS for path in folder.rglob("*") if path.suffix in kinds]
    return sorted(path for path in found if "out" not in path.parts and path.is_file())


def wide_lines() -> Iterator[str]:
    """A line for each line that is too wide."""
    for path in files(*KINDS):
        for number, line in enumerate(path.read_text().split("\n"), 1):
            if len(line) > WIDTH:
                place = f"{path.relative_to(ROOT)}:{number}"
                yield f"{place}: {len(line)} characters, and at most {WIDTH}"


def run(words: List[str], folder: pathlib.Path = ROOT) -> List[str]:
    """What a tool says where it finds something; nothing where it finds nothing."""
    ran = subprocess.run(words, cwd=folder, capture_output=True, text=True, check=False)
    told = (ran.stdout + ran.stderr).splitlines()
    return [f"{' '.join(words[:2])} ..", *told[:SHOWN]] if ran.returncode else []


def black() -> List[str]:
    """What black would change."""
    words = ["black", "--check", "--quiet", "--diff", "--line-length", "100"]
    return run([*words, str(CLIENTS), str(GATEWAY), __file__])


def mypy() -> List[str]:
    """What mypy finds in the packages, and in what tests share."""
    with tempfile.TemporaryDirectory() as cache:
        words = ["mypy", "--strict", "--no-error-summary", f"--cache-dir={cache}"]
        programs = [str(path) for path in sorted(CLIENTS.glob("*.py"))]
        found = run([*words, *programs, *map(str, PACKAGES)], CLIENTS)
        found += run([*words, *map(str, SHARED)], CLIENTS)
        os.environ["MYPYPATH"] = f"{CLIENTS}:{GATEWAY}:{ROOT / 'tests' / 'socket'}"
        shared = [f"{name}.py" for name in OF_GATEWAY]
        return found + run([*words, *LENIENT, *shared], GATEWAY / "tests")


def node() -> List[str]:
    """What node finds in the scripts of the page, of the editors and of tests: in each what
    `node --check` finds, by one process. Those of the page are modules.
    """
    paths = [str(path) for path in files(".js", ".mjs")]
    return run(["node", "--experimental-vm-modules", "--no-warnings", "-e", READ, *paths])


def lacks(name: str) -> str:
    """Why a tool can't be asked; empty where it can."""
    if not shutil.which(name):
        return f"{name} is not there: scripts/install_debian.sh installs it"
    words = [name, "--version"]
    told = subprocess.run(words, capture_output=True, text=True, check=False).stdout.split("\n")[0]
    return "" if told.startswith(VERSIONS[name]) else f"{told} is not the version that decides"


def main() -> int:
    """Checks all, and says what could not be checked."""
    faults = list(wide_lines())
    for tool in (black, mypy, node):
        why = lacks(tool.__name__)
        faults += [] if why else tool()
        if why:
            print(f"style: not checked by {tool.__name__}: {why}")
    print("\n".join(faults) if faults else "style: as agreed")
    return 1 if faults else 0


if __name__ == "__main__":
    sys.exit(main())
