#!/usr/bin/env python3
"""Runs the gate, and then prints the processor minutes that each crate took of it, as docs/generated/MINUTES.md has them.

usage: times.py [COMMAND ..]

COMMAND is `rt ci` if left out; `rt must-fail CRATE`, or `rt verdict` in a crate's folder, can be timed alike. While it runs, the
processor time of each of its processes is read four times a second, and counted for the crate and the work that the process is started
for: its proof, its tests, or its wrong bodies. What ends between two readings is in the last row, with rt's own work.
"""
import os
import re
import subprocess
import sys
import time

TICKS = os.sysconf("SC_CLK_TCK")
WORK = ["proof", "tests", "wrong bodies"]


def processes():
    """The parent and the processor seconds of each process there is."""
    found = {}
    for name in filter(str.isdigit, os.listdir("/proc")):
        try:
            with open(f"/proc/{name}/stat") as file:
                fields = file.read().rpartition(")")[2].split()
        except OSError:
            continue
        found[int(name)] = int(fields[1]), (int(fields[11]) + int(fields[12])) / TICKS
    return found


def descendants(found, top):
    """The processes that the top one started, and those that they started."""
    known, more = {top}, True
    while more:
        fresh = {process for process, (parent, _) in found.items() if parent in known} - known
        known, more = known | fresh, bool(fresh)
    return known - {top}


def read_purpose(process):
    """The crate and the work that a process of rattle is started for, or None."""
    try:
        with open(f"/proc/{process}/cmdline", "rb") as file:
            words = file.read().decode(errors="replace").split("\0")
        folder = os.readlink(f"/proc/{process}/cwd")
    except OSError:
        return None
    if "--crate-name" not in words:
        return None
    crate = words[words.index("--crate-name") + 1]
    if re.search(r"/rt-edit-", folder):
        return crate, "wrong bodies"
    return crate, "tests" if "--test" in words else "proof"


def measure(command):
    """Runs the command. Answers its status, the seconds of each crate and work, all its seconds, and how long it took."""
    purposes, seconds, start = {}, {}, time.monotonic()
    started = subprocess.Popen(command)
    while started.poll() is None:
        found = processes()
        for process in descendants(found, started.pid):
            if purposes.get(process) is None:
                purposes[process] = read_purpose(process)
            seconds[process] = found[process][1]
        time.sleep(0.25)
    sums = {}
    for process, purpose in purposes.items():
        if purpose:
            sums[purpose] = sums.get(purpose, 0) + seconds[process]
    user, system = os.times()[2:4]
    return started.returncode, sums, user + system, time.monotonic() - start


def print_table(sums, whole):
    crates = list(dict.fromkeys(crate for crate, _ in sums))
    row = lambda name, numbers: f"| {name} | " + " | ".join(f"{number / 60:.1f}" for number in numbers) + " |"
    print("| Crate | " + " | ".join(word.capitalize() for word in WORK) + " | Together |")
    print("|---" * (len(WORK) + 2) + "|")
    for crate in crates:
        numbers = [sums.get((crate, work), 0) for work in WORK]
        print(row(f"`{crate}`", [*numbers, sum(numbers)]))
    columns = [sum(sums.get((crate, work), 0) for crate in crates) for work in WORK]
    print(row("all", [*columns, sum(columns)]))
    print(row("programs, links and rt's own", [0, 0, 0, whole - sum(columns)]).replace("0.0", ""))


def main():
    status, sums, whole, lasted = measure(sys.argv[1:] or ["rt", "ci"])
    print(f"\nProcessor minutes: {whole / 60:.0f}, in {lasted / 60:.0f} minutes")
    print_table(sums, whole)
    return status


sys.exit(main())
