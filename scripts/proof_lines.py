#!/usr/bin/env python3
"""Prints how many lines of code, of definitions and of proofs the crates have, by storey, as docs/generated/LINES.md has them.

usage: proof_lines.py [--crates | --write]

Counted are all lines of the crates' src/**/*.rt, specs/**/*.antt and proofs/**/*.antt, blank lines and comments too. The last column is
the lines of proofs over those of code and definitions. With --crates each crate has a row of its own; --write puts the table into the
document. tests/documents.py fails where that tells a number of lines that is more than a twentieth and 100 lines away from today's.
"""
import pathlib
import re
import sys

ROOT = pathlib.Path(__file__).resolve().parent.parent
DOCUMENT = ROOT / "docs/generated/LINES.md"
KINDS = {"src": ".rt", "specs": ".antt", "proofs": ".antt"}
HEAD = ["", "Code (src)", "Definitions (specs)", "Proofs (proofs)", "Proofs over code and definitions"]
UNPROMISED = ["Tests", "Benches"]  # storeys of which the program has nothing


def storeys():
    """The storeys with their crates, as crates.txt lists them, lowest first."""
    found = {}
    for line in filter(None, (ROOT / "crates.txt").read_text().splitlines()):
        if line.startswith("# "):
            name = line[2:].partition(":")[0]
            found[name] = []
        else:
            found[name].append(re.split("[ :]", line)[0])
    return found


def lines_of(crate):
    """The lines of a crate, of each kind."""
    folders = [(ROOT / "crates" / crate / kind).rglob("*" + ending) for kind, ending in KINDS.items()]
    return [sum(file.read_text(encoding="utf-8").count("\n") for file in files) for files in folders]


def added(counts):
    """The sums of several crates' lines, of each kind."""
    return [sum(kind) for kind in zip(*counts)]


def row(name, counts):
    """The row of a table: the lines of each kind, and the proofs over the others."""
    code, definitions, proofs = counts
    cells = [name, *(f"{count:,}" for count in counts), f"{proofs / max(1, code + definitions):.2f}"]
    return "| " + " | ".join(cells) + " |"


def rows(by_crate):
    """The rows of all storeys, or of all crates, and then those of the whole."""
    counts = {crate: lines_of(crate) for crates in storeys().values() for crate in crates}
    found = [row(f"`{crate}`", lines) for crate, lines in counts.items()] if by_crate else [
        row(name, added([counts[crate] for crate in crates])) for name, crates in storeys().items()
    ]
    kept = [counts[crate] for name, crates in storeys().items() if name not in UNPROMISED for crate in crates]
    return [*found, row("all", added(list(counts.values()))), row("all but tests and benches", added(kept))]


def table(by_crate=False):
    """The table, as it stands in the document."""
    return "\n".join(["| " + " | ".join(HEAD) + " |", "|---" * len(HEAD) + "|", *rows(by_crate)])


def counts_by_name(text):
    """The lines of each kind that the rows of a text tell, by the row's name."""
    found = re.findall(r"^\| (.+?) \| ([\d,]+) \| ([\d,]+) \| ([\d,]+) \| [\d.]+ \|$", text, re.MULTILINE)
    return {name: [int(count.replace(",", "")) for count in counts] for name, *counts in found}


def stale_rows():
    """A line for each row that the document lacks, or that is more than a twentieth and 100 lines away from today's."""
    told = counts_by_name(DOCUMENT.read_text())
    return [
        f"docs/generated/LINES.md, {name}: not as scripts/proof_lines.py --write has it"
        for name, counts in counts_by_name(table()).items()
        if name not in told or any(abs(old - new) > new / 20 + 100 for old, new in zip(told[name], counts))
    ]


def write():
    """Puts the table into the document."""
    DOCUMENT.write_text(DOCUMENT.read_text().partition("|")[0] + table() + "\n")


def main(words):
    if words not in ([], ["--crates"], ["--write"]):
        print(__doc__, file=sys.stderr)
        return 2
    if words == ["--write"]:
        write()
    else:
        print(table(bool(words)))
    return 0


if __name__ == "__main__":
    sys.exit(main(sys.argv[1:]))
