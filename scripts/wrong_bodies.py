#!/usr/bin/env python3
"""Writes the table of docs/generated/WRONG_BODIES.md from the edits, crates/*/must-fail/*.edit.

usage: wrong_bodies.py

A row has the name of the edit in words, the files that it changes, and the sentence of its line `why:`. The table stands between two
comments of the document. tests/documents.py fails where it differs from what this script would write, or an edit has no sentence.
"""
import pathlib
import re
import sys

ROOT = pathlib.Path(__file__).resolve().parent.parent
DOCUMENT = ROOT / "docs/generated/WRONG_BODIES.md"
BEGIN = "<!-- wrong bodies, written by scripts/wrong_bodies.py from the edits -->\n"
END = "<!-- end of the wrong bodies -->\n"


def crates():
    """The crates' names, as crates.txt lists them."""
    lines = (ROOT / "crates.txt").read_text().splitlines()
    return [line.split(":")[0].split()[0] for line in lines if line.strip() and not line.startswith("#")]


def edits():
    """Each edit, with its crate, in the order of crates.txt and then of the names."""
    return [(crate, edit) for crate in crates() for edit in sorted((ROOT / "crates" / crate / "must-fail").glob("*.edit"))]


def why_of(edit):
    """The sentence of an edit's line `why:`, or None."""
    found = re.findall(r"^why: *(\S.*)$", edit.read_text(), re.MULTILINE)
    return found[0].strip() if len(found) == 1 else None


def row(crate, edit):
    files = dict.fromkeys(re.findall(r"^file: *(\S+)", edit.read_text(), re.MULTILINE))
    cells = [f"`{crate}`", edit.stem.replace("_", " "), ", ".join(files), why_of(edit) or ""]
    return "| " + " | ".join(re.sub(r"(?<!\\)\|", r"\\|", cell) for cell in cells) + " |\n"


def table():
    """The table, as it is to stand between the two comments."""
    head = "| Crate | Wrong body | Changes | Why it is wrong |\n|---|---|---|---|\n"
    return head + "".join(row(crate, edit) for crate, edit in edits())


def without_why():
    """The edits that have no sentence, or more than one."""
    return [edit.relative_to(ROOT) for _, edit in edits() if why_of(edit) is None]


def written(text):
    """The document's text with the table as it is to be."""
    front, _, rest = text.partition(BEGIN)
    _, end, back = rest.partition(END)
    if not end:
        sys.exit(f"{DOCUMENT} lacks the comments around the table")
    return front + BEGIN + table() + END + back


if __name__ == "__main__":
    DOCUMENT.write_text(written(DOCUMENT.read_text()))
