#!/usr/bin/env python3
"""Says what of all that this repository can use is here, what the rest is for, and how to get it.

usage: doctor.py

Ends with status 0 if `make run` has all that it needs, and else with 1.
"""
import os
import pathlib
import shutil
import subprocess
import sys

import run

ROOT = pathlib.Path(__file__).resolve().parent.parent
DEBIAN_PYTHON = "/usr/bin/python3"
LEAST_PYTHON = (3, 9)
INSTALL = "scripts/install_debian.sh"
GIGABYTE = run.GIGABYTE


class Finding:
    """Something that can be here or not: what is here, what it is for, and what gets it."""

    def __init__(self, name, here, purpose, remedy, needed=False):
        self.name, self.here, self.purpose, self.remedy, self.needed = name, here, purpose, remedy, needed

    def line(self):
        if self.here:
            return f"here     {self.name}: {self.here}"
        return f"{'NEEDED' if self.needed else 'lacking':8} {self.name}, for {self.purpose}. To get it: {self.remedy}"


def said_by(*words):
    """What a command says on standard output, or None where it can't be run or fails."""
    try:
        ran = subprocess.run(words, stdin=subprocess.DEVNULL, capture_output=True, text=True)
    except OSError:
        return None
    return ran.stdout.strip() if ran.returncode == 0 else None


def kit():
    path = shutil.which("rt")
    found = path and said_by("rt", "version")
    here = found and f"{found}, at {path}"
    return Finding("the Rattle kit", here, "everything that is proved or built here", "unpack the kit, and put its bin/rt on the PATH", True)


def python():
    path, told = shutil.which("python3"), said_by("python3", "-c", "import sys; print(*sys.version_info[:3])")
    numbers = tuple(map(int, told.split())) if told else ()
    here = numbers >= LEAST_PYTHON and f"{'.'.join(map(str, numbers))}, at {path}"
    return Finding("Python 3.9 or later, as python3", here, "the client, the gateway and the tests", "apt-get install python3", True)


def pythons():
    """The interpreters that may run the page: python3, and Debian's where that is another one."""
    found = [shutil.which("python3"), DEBIAN_PYTHON]
    return list(dict.fromkeys(path for path in found if path and os.access(path, os.X_OK)))


def module(name, purpose):
    """A finding for each interpreter that may need the module."""
    findings = []
    for path in pythons():
        here = said_by(path, "-c", f"import {name}; print({name}.__version__)")
        remedy = INSTALL if path == DEBIAN_PYTHON else f"{path} -m pip install {name}; or use {DEBIAN_PYTHON}, which has it by {INSTALL}"
        findings.append(Finding(f"{name} for {path}", here, purpose, remedy))
    return findings


def program(names, purpose, remedy, called):
    """A finding for the first of these programs that is here."""
    here = next(filter(None, map(shutil.which, names)), None)
    return Finding(called, here, purpose, remedy)


def disk():
    free, wanted = shutil.disk_usage(ROOT).free, max(run.KEPT - run.bytes_kept(), 0)
    here = free >= wanted and f"{free / GIGABYTE:.0f} GB are free"
    remedy = f"make room: {free / GIGABYTE:.0f} GB are free"
    return Finding(f"{wanted / GIGABYTE:.0f} GB of disk", here, "what is kept of the proofs", remedy, True)


def memory():
    whole = os.sysconf("SC_PAGE_SIZE") * os.sysconf("SC_PHYS_PAGES")
    here = whole >= 2 * run.MEMORY and f"{whole / GIGABYTE:.0f} GB, for {run.lanes()} proofs at a time now"
    remedy = f"LANES=1 make run proves one crate at a time in {whole / GIGABYTE:.0f} GB"
    return Finding(f"{2 * run.MEMORY / GIGABYTE:.0f} GB of memory", here, "two proofs side by side", remedy)


def findings():
    """All that can be here, what is needed first."""
    page = "the gateway's page"
    return [
        kit(),
        python(),
        disk(),
        memory(),
        *module("aiohttp", page),
        *module("hypothesis", "the tests of the gateway's orders and lines"),
        *module("selenium", "the tests of the page in a browser"),
        program(["chromium"], "the tests of the page in a browser", INSTALL, "a browser"),
        program(["chromedriver"], "the tests of the page in a browser", INSTALL, "the browser's driver"),
        program(["black"], "the test of how Python is laid out", INSTALL, "black"),
        program(["mypy"], "the test of Python's types", INSTALL, "mypy"),
        program(["node"], "the tests of the page's scripts", INSTALL, "node"),
        program(["gcc"], "the programs of targets, and make bench", INSTALL, "gcc"),
        program(["g++"], "the programs of targets", INSTALL, "g++"),
        program(["valgrind"], "the test of the library's use of memory", INSTALL, "valgrind"),
        program(["rustc"], "the example of targets in Rust", INSTALL, "rustc"),
        program(["iverilog"], "make bench, which simulates the gates of a module", "apt-get install iverilog", "Icarus"),
        program(["dpkg-deb"], "make package", "use Debian, or apt-get install dpkg", "dpkg-deb"),
        program(["mmdebstrap"], "the test of the package on a bare system", INSTALL, "mmdebstrap"),
        program(["lintian"], "the test that Debian's rules are kept by the package", INSTALL, "lintian"),
        program(["buildah"], "make container", "apt-get install buildah", "buildah"),
        program(["podman"], "make container", "apt-get install podman", "podman"),
    ]


def main():
    found = findings()
    for finding in found:
        print(finding.line())
    lacking = [finding.name for finding in found if finding.needed and not finding.here]
    print(f"make run lacks: {', '.join(lacking)}" if lacking else "make run has all that it needs")
    return 1 if lacking else 0


if __name__ == "__main__":
    sys.exit(main())
