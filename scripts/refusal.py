#!/usr/bin/env python3
"""Lists each line that names a refusal or has its number: all places to look at when it changes.

usage: refusal.py NAME

NAME is one of the table of docs/PROTOCOL.md, as in `refusal.py Occupied`. A line with the number alone may mean another thing.
"""
import pathlib
import re
import subprocess
import sys

ROOT = pathlib.Path(__file__).resolve().parent.parent

# the groups of files, in the order in which a change goes through them
GROUPS = [
    ("definitions, code and proofs", ["crates/*/specs/*", "crates/*/src/*", "crates/*/proofs/*"]),
    ("wrong bodies", ["crates/*/must-fail/*", "tests/MISTAKES.md"]),
    ("documents", ["*.md", ":!docs/generated", ":!tests/MISTAKES.md"]),
    ("client and gateway", ["clients", "gateway", ":!*.stdout", ":!*.printed", ":!*.md"]),
    ("stored answers", ["*.stdout", "*.printed"]),
    ("tests in Python", ["tests/*.py", "tests/*/*.py"]),
]


def number_of(name):
    """The number of a refusal in the table of docs/PROTOCOL.md, or None."""
    found = re.search(rf"^\| (\d+) \| {re.escape(name)} \|", (ROOT / "docs/PROTOCOL.md").read_text(), re.MULTILINE)
    return found.group(1) if found else None


def patterns(name, number):
    """What to search for: the name anywhere, and the number as each kind of file writes it."""
    return {
        "definitions, code and proofs": rf"\b{name}\b|tells {number} ",
        "wrong bodies": rf"\b{name}\b",
        "documents": rf"\b{name}\b|\b{number}\b",
        "client and gateway": rf"\b{name}\b|\b{number}\b",
        "stored answers": rf'\b{name}\b|code\\?": ?{number}\b|refused [0-9]+ [0-9]+ {number}\b',
        "tests in Python": rf"\b{name}\b|\b{number}\b",
    }


def lines_with(pattern, paths):
    """The lines of tracked files that match, each with its file and number."""
    command = ["git", "grep", "-nP", "-e", pattern, "--", *paths]
    return subprocess.run(command, cwd=ROOT, text=True, capture_output=True, check=False).stdout.splitlines()


def main():
    if len(sys.argv) != 2:
        sys.exit(__doc__)
    name = sys.argv[1]
    number = number_of(name)
    if number is None:
        sys.exit(f"docs/PROTOCOL.md has no refusal {name}")
    wanted = patterns(name, number)
    for group, paths in GROUPS:
        found = lines_with(wanted[group], paths)
        print(f"{group}: {len(found)}")
        for line in found:
            print("  " + line[:160])


if __name__ == "__main__":
    main()
