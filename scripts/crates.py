"""The crates of crates.txt, in the order in which they are proved; what run.py and check.py share."""
import pathlib
import re
import sys

ROOT = pathlib.Path(__file__).resolve().parent.parent
ROW = re.compile(r"\| `(\w+)` \| ([\d.]+) \| ([\d.]+) \| ([\d.]+) \| [\d.]+ \|")


def libraries():
    """The libraries of each crate that crates.txt lists, by the crate's name."""
    lines = [line.split("#")[0] for line in (ROOT / "crates.txt").read_text().splitlines()]
    parts = [line.split(":") for line in lines if line.strip()]
    return {head.split()[0]: below.split() for head, below in parts}


def add_lowest_first(name, below, found):
    """Adds to a list the crates of this repository that a crate stands on, lowest first, and then the crate."""
    for library in below[name]:
        if library in below and library not in found:
            add_lowest_first(library, below, found)
    if name not in found:
        found.append(name)


def minutes_by_crate():
    """Processor minutes of each crate's proof, tests and wrong bodies, by the last table."""
    found = ROW.finditer((ROOT / "docs" / "generated" / "MINUTES.md").read_text())
    return {row[1]: [float(number) for number in row.groups()[1:]] for row in found}


def say(text, end="\n"):
    print(text, end=end, file=sys.stderr, flush=True)
