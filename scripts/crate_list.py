#!/usr/bin/env python3
"""Writes docs/generated/CRATES.md: the crates of crates.txt by storey, lowest first, each with what its root file says that it is.

usage: crate_list.py

What a crate is, is the first sentence of the comment `//!` at its root file. tests/documents.py fails where the document differs from
what this script would write, or a crate has no such sentence.
"""
import pathlib
import re
import sys

ROOT = pathlib.Path(__file__).resolve().parent.parent
DOCUMENT = ROOT / "docs/generated/CRATES.md"
BEGIN = "<!-- crates, written by scripts/crate_list.py -->\n"
END = "<!-- end of the crates -->\n"


def root_file(crate):
    """The root file of a crate: a library's, or a program's."""
    files = [ROOT / "crates" / crate / "src" / name for name in ("lib.rt", "main.rt")]
    return next(file for file in files if file.exists())


def sentence_of(crate):
    """What the crate is: the first sentence of its comment, or None."""
    comment = re.search(r"((?:^//!.*\n)+)", root_file(crate).read_text(), re.MULTILINE)
    paragraph = re.sub(r"^//! ?", "", comment[1], flags=re.MULTILINE).partition("\n\n")[0] if comment else ""
    found = re.match(r"(.+?\.)(?:\s|$)", " ".join(paragraph.split()))
    return found[1] if found else None


def rows():
    """The rows of the table: one for each storey, and one for each crate."""
    for line in filter(None, (ROOT / "crates.txt").read_text().splitlines()):
        if line.startswith("# "):
            yield f"| **{line[2:]}** | |\n"
        else:
            name = re.split("[ :]", line)[0]
            sentence = re.sub(r"(?<!\\)\|", r"\\|", sentence_of(name) or "")
            yield f"| `{name}` | {sentence} |\n"


def without_sentence():
    """The crates whose root file doesn't say what they are."""
    lines = filter(None, (ROOT / "crates.txt").read_text().splitlines())
    names = [re.split("[ :]", line)[0] for line in lines if not line.startswith("# ")]
    return [name for name in names if sentence_of(name) is None]


def written(text):
    """The document's text with the table as it is to be."""
    front, _, rest = text.partition(BEGIN)
    _, end, back = rest.partition(END)
    if not end:
        sys.exit(f"{DOCUMENT} lacks the comments around the table")
    return front + BEGIN + "| Crate | What it is |\n|---|---|\n" + "".join(rows()) + END + back


if __name__ == "__main__":
    DOCUMENT.write_text(written(DOCUMENT.read_text()))
