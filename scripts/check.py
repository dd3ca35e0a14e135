#!/usr/bin/env python3
"""Judges one crate after a change: its proof, its wrong bodies, and the proofs and tests of all crates that stand on it.

usage: check.py CRATE [--plan]

First it says what will be judged, and how many processor minutes each part took in the table of docs/generated/MINUTES.md. --plan stops there.
Crates below are proved where they have changed. The text of the proofs goes to out/check.log of the crate. It stops at the first
crate that is not proved. Nothing here counts for `make test`: only what `rt ci` passes does.
"""
import subprocess
import sys
import time

from crates import ROOT, add_lowest_first, libraries, minutes_by_crate, say


def has_tests(crate):
    return any("#[test]" in file.read_text() for file in (ROOT / "crates" / crate / "src").rglob("*.rt"))


def is_library(crate):
    return (ROOT / "crates" / crate / "src" / "lib.rt").exists()


def touched_by(crate):
    """The crate, and those that stand on it, lowest first."""
    below, order = libraries(), []
    for name in below:
        add_lowest_first(name, below, order)
    touched = {crate}
    for name in order:
        if touched & set(below[name]):
            touched.add(name)
    return [name for name in order if name in touched]


def plan(crate):
    """The commands in turn: the crate, the command, its folder below the root, and its minutes, None where no table has them."""
    works, minutes = [], minutes_by_crate()
    for name in touched_by(crate):
        proof, tests, wrong = minutes.get(name, [None] * 3)
        works.append((name, ["rt", "lib" if is_library(name) else "check"], f"crates/{name}", proof))
        if has_tests(name):
            works.append((name, ["rt", "check", "--test"], f"crates/{name}", tests))
        if name == crate and any((ROOT / "crates" / name).glob("must-fail/*.edit")):
            works.append((name, ["rt", "must-fail", name], ".", wrong))
    return works


def tell_plan(works):
    known = [minutes for *_, minutes in works if minutes is not None]
    for name, command, _, minutes in works:
        say(f"  {name:16} {' '.join(command[:3]):32} {'not measured' if minutes is None else f'{minutes:.1f} minutes'}")
    say(f"{len(works)} parts; {sum(known):.0f} processor minutes by the last table, and what changed below")


def judge(works, log):
    """Runs each part in turn. Answers whether all are well."""
    for number, (name, command, folder, _) in enumerate(works, 1):
        say(f"{number} of {len(works)}: {' '.join(command)} in {folder} ..", end="")
        start = time.monotonic()
        ran = subprocess.run(command, cwd=ROOT / folder, stdin=subprocess.DEVNULL, stdout=log, stderr=log)
        say(f" {'well' if ran.returncode == 0 else 'NOT WELL'}, {time.monotonic() - start:.0f} s")
        if ran.returncode:
            say(f"why: {log.name}")
            return False
    return True


def main():
    words = [word for word in sys.argv[1:] if word != "--plan"]
    if len(words) != 1 or words[0] not in libraries():
        say(__doc__.split("\n\n")[1] + ", where CRATE is one of crates.txt")
        return 2
    works = plan(words[0])
    tell_plan(works)
    if "--plan" in sys.argv:
        return 0
    path = ROOT / "crates" / words[0] / "out" / "check.log"
    path.parent.mkdir(exist_ok=True)
    with path.open("w") as log:
        return 0 if judge(works, log) else 1


sys.exit(main())
