#!/usr/bin/env python3
"""Proves and builds a program, saying one line for each crate, and then runs it.

usage: run.py PROGRAM [ARGUMENT ..] < INPUT
       run.py --library CRATE

The second form proves and builds a static library, and runs nothing.

Of the crates that PROGRAM stands on, those whose own libraries are proved are proved side by side, each in a clone of its own, as many as
there are processors and memory for: first the one under the longest chain of others, by the minutes of docs/generated/MINUTES.md. What was
proved before, and has not changed, is taken as it is. The lines go to standard error, the long texts of the proofs to
crates/PROGRAM/out/proofs, which each run begins anew.
Standard output has what the program wrote, and nothing else. The variable LANES says how many crates are proved at a time.
"""
import contextlib
import fcntl
import functools
import hashlib
import os
import pathlib
import re
import shutil
import signal
import subprocess
import sys
import time

from crates import ROOT, add_lowest_first, libraries, minutes_by_crate, say

GIGABYTE = 10**9
MEMORY = 4 * GIGABYTE  # of a proof
KEPT = 11 * GIGABYTE  # of all proofs, on the disk
LOOK_SECONDS = 0.2
LANES = ROOT / "out" / "lanes"
STAMP = "proved-by-run"


def available_memory():
    """The memory that new processes can have, in bytes."""
    for line in pathlib.Path("/proc/meminfo").read_text().splitlines():
        if line.startswith("MemAvailable:"):
            return int(line.split()[1]) * 1024
    return 0


def lanes():
    """How many crates are proved at a time: at least two."""
    if os.environ.get("LANES"):
        return int(os.environ["LANES"])
    return max(2, min(len(os.sched_getaffinity(0)), available_memory() // MEMORY))


def bytes_kept():
    """What the proofs of earlier runs take on the disk."""
    found = 0
    for folder in (ROOT / "crates").glob("*/out"):
        for at, _, names in os.walk(folder):
            for name in names:
                with contextlib.suppress(OSError):  # another run may have taken the file away
                    found += os.lstat(os.path.join(at, name)).st_size
    return found


def has_room():
    """Whether the disk has room for all proofs. Says so if it hasn't."""
    wanted, free = KEPT - bytes_kept(), shutil.disk_usage(ROOT).free
    if wanted > free:
        say(f"no room: the proofs take {wanted / GIGABYTE:.0f} GB more of the disk, and {free / GIGABYTE:.0f} GB are free")
    return wanted <= free


@functools.lru_cache(None)
def digest_of_files(crate):
    """A digest of a crate's files, but for what is kept."""
    found, folder = hashlib.sha256(), ROOT / "crates" / crate
    for path in sorted(path for part in folder.iterdir() if part.name != "out" for path in [part, *part.rglob("*")] if path.is_file()):
        found.update(f"{path.relative_to(folder)} {path.stat().st_size}\n".encode() + path.read_bytes())
    return found.digest()


class Plan:
    """What is to be proved, and how long it takes by the table."""

    def __init__(self, program):
        self.order = []
        add_lowest_first(program, libraries(), self.order)
        self.below = {crate: [it for it in libraries()[crate] if it in self.order] for crate in self.order}
        table = minutes_by_crate()
        self.minutes = {crate: table.get(crate, [1.0])[0] for crate in self.order}
        self.kit = subprocess.run(["rt", "version"], stdin=subprocess.DEVNULL, capture_output=True).stdout
        self.chain = {}
        for crate in reversed(self.order):
            above = [self.chain[it] for it in self.order if crate in self.below[it]]
            self.chain[crate] = self.minutes[crate] + max(above, default=0)

    def all_below(self, crate):
        """All crates of this repository that a crate stands on, lowest first."""
        found = []
        add_lowest_first(crate, self.below, found)
        return found[:-1]

    def digest(self, crate):
        """A digest of all that a proof of the crate is made of: its files, those of the crates below, and the kit."""
        found = hashlib.sha256(self.kit)
        for it in [*self.all_below(crate), crate]:
            found.update(digest_of_files(it))
        return found.hexdigest()

    def is_kept(self, crate):
        """Whether a run of this script has proved the crate as it is. (At the end `rt run` looks for itself.)"""
        stamp = ROOT / "crates" / crate / "out" / STAMP
        return stamp.exists() and stamp.read_text() == self.digest(crate)

    def keep(self, crate):
        """Notes that the crate is proved as it is."""
        (ROOT / "crates" / crate / "out" / STAMP).write_text(self.digest(crate))

    def ready(self, proved, begun):
        """The crates that can be proved now, first the one under the longest chain."""
        found = [it for it in self.order if it not in begun and all(below in proved for below in self.below[it])]
        return sorted(found, key=lambda crate: -self.chain[crate])

    def minutes_left(self, proved, ages, count):
        """How long the rest takes in so many lanes by the table. `ages` has the minutes since each running crate was begun."""
        proved, now = set(proved), 0.0
        ends = {crate: max(self.minutes[crate] - age, 0) for crate, age in ages.items()}
        while len(proved) < len(self.order):
            for crate in self.ready(proved, proved | set(ends))[: count - len(ends)]:
                ends[crate] = now + self.minutes[crate]
            first = min(ends, key=ends.get)
            now = ends.pop(first)
            proved.add(first)
        return now


class Work:
    """A command of the kit on a crate, which writes its text into a file of a folder."""

    def __init__(self, command, crates, crate, texts, **streams):
        self.crate, self.start = crate, time.monotonic()
        with (texts / f"{crate}.log").open("w") as log:
            streams = {"stdin": subprocess.DEVNULL, "stdout": log, "stderr": log, **streams}
            self.process = subprocess.Popen(command, cwd=crates / crate, start_new_session=True, **streams)

    def seconds(self):
        return time.monotonic() - self.start

    def has_ended(self):
        return self.process.poll() is not None

    def is_well(self):
        return self.process.returncode == 0

    def end(self):
        """Ends what still runs of it."""
        if not self.has_ended():
            os.killpg(self.process.pid, signal.SIGTERM)
            self.process.wait()


class Lane(Work):
    """The proof of a library in a clone of its own, since `rt` lets one run alone into all crates that a crate stands on.

    The clone has links to the files of those crates. The crate's own folder `out` is moved there, and back at the end; meanwhile no other
    `rt` can work in the crate.
    """

    def __init__(self, crate, below, texts):
        self.own, self.clone = ROOT / "crates" / crate, LANES / crate
        self.held = os.open(self.own, os.O_RDONLY)
        fcntl.flock(self.held, fcntl.LOCK_EX)
        crates = self.clone / "crates"
        crates.mkdir(parents=True)
        for it in below:
            subprocess.run(["cp", "-al", ROOT / "crates" / it, crates], check=True)
        shutil.copytree(self.own, crates / crate, ignore=lambda folder, names: {"out"} if folder == str(self.own) else ())
        lines = (ROOT / "crates.txt").read_text().splitlines(keepends=True)
        own_lines = [line for line in lines if re.split("[ :]", line)[0] in {crate, *below}]
        (self.clone / "crates.txt").write_text("".join(own_lines))
        if (self.own / "out").exists():
            (self.own / "out").rename(crates / crate / "out")
        super().__init__(["rt", "lib", "--jobs", "1"], crates, crate, texts)

    def close(self):
        """Ends what still runs, and takes back what is kept of the proof."""
        self.end()
        kept = self.clone / "crates" / self.crate / "out"
        if kept.exists():
            kept.rename(self.own / "out")
        shutil.rmtree(self.clone)
        os.close(self.held)


def take_back():
    """Takes back what lanes of a run kept that was killed."""
    for kept in LANES.glob("*/crates/*/out"):
        own = ROOT / "crates" / kept.parent.name / "out"
        if kept.parent.name == kept.parents[2].name and not own.exists():
            kept.rename(own)
    shutil.rmtree(LANES, ignore_errors=True)


def prove_libraries(plan, texts, count):
    """Proves all crates but the last, which is the program. Answers whether they are proved."""
    program, running = plan.order[-1], []
    proved = {crate for crate in plan.order[:-1] if plan.is_kept(crate)}
    if proved:
        say(f"{len(proved)} of {len(plan.order)} are proved already")
    try:
        while len(proved) < len(plan.order) - 1:
            begun = proved | {lane.crate for lane in running} | {program}
            for crate in plan.ready(proved, begun)[: count - len(running)]:
                running.append(Lane(crate, plan.all_below(crate), texts))
            time.sleep(LOOK_SECONDS)
            for lane in [lane for lane in running if lane.has_ended()]:
                running.remove(lane)
                lane.close()
                if not lane.is_well():
                    say(f"{lane.crate} NOT proved: {texts.relative_to(ROOT)}/{lane.crate}.log says why")
                    return False
                plan.keep(lane.crate)
                proved.add(lane.crate)
                left = plan.minutes_left(proved, {it.crate: it.seconds() / 60 for it in running}, count)
                say(f"{len(proved)} of {len(plan.order)}: {lane.crate} proved, {lane.seconds():.0f} s; {left:.0f} minutes left by the last table")
    finally:
        for lane in running:
            lane.close()
        take_back()
    return True


def prove_and_run(program, words, texts):
    """Proves, builds and runs the program. Answers what it wrote, or None where it was not proved or ended badly."""
    work = Work(words, ROOT / "crates", program, texts, stdin=None, stdout=subprocess.PIPE)
    try:
        written = work.process.communicate()[0]
    finally:
        work.end()
    if not work.is_well():
        say(f"{program} NOT proved, or not run: {texts.relative_to(ROOT)}/{program}.log says why")
        return None
    say(f"{program} proved, built and run, {work.seconds():.0f} s")
    return written


def main():
    if sys.argv[1] == "--library":
        program, words = sys.argv[2], ["rt", "lib"]
    else:
        program, words = sys.argv[1], ["rt", "run", "--", *sys.argv[2:]]
    plan, count = Plan(program), lanes()
    texts = ROOT / "crates" / program / "out" / "proofs"
    shutil.rmtree(texts, ignore_errors=True)
    texts.mkdir(parents=True)
    take_back()
    if not has_room():
        return 1
    say(f"{len(plan.order)} crates, {count} at a time; the long texts go into {texts.relative_to(ROOT)}")
    if not prove_libraries(plan, texts, count):
        return 1
    written = prove_and_run(program, words, texts)
    if written is None:
        return 1
    if words == ["rt", "lib"]:
        return 0
    sys.stdout.buffer.write(written)
    return 0


if __name__ == "__main__":
    try:
        sys.exit(main())
    except KeyboardInterrupt:
        sys.exit(130)
