#!/usr/bin/env python3
"""Writes the version of the file VERSION wherever else it stands.

usage: version.py

It stands in the program, in the client, in gateway/pyproject.toml and on the pages of the manual. tests/documents.py fails where one of them differs from VERSION,
where CHANGELOG.md doesn't begin with it, or where the program's help and docs/PROTOCOL.md name different versions of the protocol.
`git tag` is made by hand.
"""
import pathlib
import re

ROOT = pathlib.Path(__file__).resolve().parent.parent
PROGRAM = "crates/program_words/src/words.rt"
LAB = "crates/lab_run/src/invocation.rt"
PROTOCOLS = [(PROGRAM, r"protocol version (\d+)"), ("docs/PROTOCOL.md", r"This is version (\d+) of the protocol")]


def version():
    """The version of the repository."""
    return (ROOT / "VERSION").read_text().strip()


def places():
    """The files in which the version stands, each with what stands before it on its line."""
    pages = {page.relative_to(ROOT).as_posix(): rf'\.TH \S+ 1 "" "{page.stem} ' for page in sorted(ROOT.glob("*/man/*.1"))}
    constant = 'const VERSION: &str = "'
    packages = {"clients/estserve_client/__init__.py": '__version__ = "', "gateway/pyproject.toml": 'version = "'}
    return {PROGRAM: constant, LAB: constant, **packages, **pages}


def with_version(text, before):
    """The text with the version after what stands before it."""
    return re.sub(rf"(?m)^({before})[^\"]*", rf"\g<1>{version()}", text, count=1)


def stale_places():
    """A line for each place whose version is not that of VERSION, and one if two versions of the protocol are named."""
    texts = {file: (ROOT / file).read_text() for file in places()}
    faults = [
        f"{file} has another version than VERSION: run scripts/version.py"
        for file, before in places().items()
        if not re.search(rf"(?m)^{before}{re.escape(version())}\"", texts[file])
    ]
    if newest_change() != version():
        faults.append(f"CHANGELOG.md begins with {newest_change()}, and VERSION is {version()}")
    told = {re.findall(pattern, (ROOT / file).read_text())[0] for file, pattern in PROTOCOLS}
    return faults + ([f"two versions of the protocol: {', '.join(sorted(told))}"] if len(told) > 1 else [])


def newest_change():
    """The version that CHANGELOG.md begins with."""
    return (ROOT / "CHANGELOG.md").read_text().partition("\n## ")[2].partition("\n")[0]


if __name__ == "__main__":
    for file, before in places().items():
        path = ROOT / file
        path.write_text(with_version(path.read_text(), before))
