#!/usr/bin/env python3
"""Runs `rt ci`, and then, over what it has proved, the examples of targets/ and random kernels. The last line is that of `rt ci`.

usage: gate.py

The kernels run on the program of crates/benches: on both engines (bench/engines.py), and on the microstep engine cell by cell
(bench/tables.py). Where an example or a kernel fails, its words are the last, and the status is not 0. Where `rt ci` left no library to build
the one for C over, or no such program, this says so, and they are not run.
"""
import subprocess
import sys

import library
import over_gate
from crates import ROOT

BENCHES = ROOT / "crates" / "benches" / "out" / "benches"
KERNELS = "20000"


def run_gate():
    """Runs `rt ci`, and shows all that it says but the last line. Answers its status and that line."""
    last = ""
    with subprocess.Popen(["rt", "ci"], cwd=ROOT, stdout=subprocess.PIPE, text=True, errors="replace") as ran:
        for line in ran.stdout:
            print(last, end="", flush=True)
            last = line
    return ran.returncode, last


def run_targets():
    """Builds the library, and runs the examples. Answers a status."""
    if not over_gate.is_over_gate(library.CRATE):
        print("targets: not run, as rt ci has left no libraries here to build the one for C over: make targets proves it", flush=True)
        return 0
    return library.main([]) or subprocess.run([ROOT / "tests" / "targets" / "run"]).returncode


def run_kernels():
    """Runs random kernels on the proved program. Answers a status."""
    if not BENCHES.exists():
        print("kernels: not run, as rt ci has left no program here", flush=True)
        return 0
    return any(subprocess.run([sys.executable, ROOT / "bench" / script, BENCHES, KERNELS]).returncode for script in ("engines.py", "tables.py"))


def main():
    status, last = run_gate()
    if status == 0:
        for name, run in (("targets", run_targets), ("kernels", run_kernels)):
            status = int(run())
            if status:
                print(f"{name}: failed, and so does the gate")
                return status
    print(last, end="")
    return status


if __name__ == "__main__":
    sys.exit(main())
