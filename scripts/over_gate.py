#!/usr/bin/env python3
"""Proves and builds a program, or the library for C, over the libraries that a whole `rt ci` has left in a clone: so one crate is proved
once more, and nothing below it. `rt run` and `rt lib` take nothing of what `rt ci` leaves.

usage: over_gate.py CRATE

Prints where the built file lies. Ends with status 2 where `rt ci` has left nothing to build over.
"""
import pathlib
import shutil
import subprocess
import sys

from crates import ROOT, add_lowest_first, libraries, say

TARGET = "x86_64-unknown-linux-gnu"
SOURCES = ("src", "specs", "proofs")
SHOWN = 2000  # characters of what the prover says at last


class NotBuilt(Exception):
    """The file could not be built, for this reason."""


class NothingLeft(NotBuilt):
    """`rt ci` has left no libraries here."""


def kit():
    """The folder of the kit."""
    return pathlib.Path(shutil.which("rt")).resolve().parents[1]


def library_of(crate, tree):
    """Where the library of a crate lies that other crates stand on."""
    return tree / "crates" / crate / "out" / "rlib" / f"{crate}.rlib"


def below(crate):
    """The crates of this repository that a crate stands on, lowest first."""
    order = []
    add_lowest_first(crate, libraries(), order)
    return order[:-1]


def is_left_by_gate(crate, tree):
    """Whether the library of a crate is one that `rt ci` has put there, of the crate's files as they are. One of `rt lib` has a stamp. The
    folder is as old as the run: the files in it may be older ones that were kept.
    """
    library, folder = library_of(crate, tree), tree / "crates" / crate
    if not (library / "format").exists() or library.with_name("stamp").exists():
        return False
    sources = [path for part in SOURCES for path in (folder / part).rglob("*")]
    return all(path.stat().st_mtime <= library.stat().st_mtime for path in [tree / "crates.txt", *sources])


def is_over_gate(crate, tree=ROOT):
    """Whether `rt ci` has left all libraries that a crate stands on."""
    return all(is_left_by_gate(each, tree) for each in below(crate))


def run(words, folder):
    """Runs a command of the kit. Raises NotBuilt."""
    ran = subprocess.run(words, cwd=folder, stdin=subprocess.DEVNULL, stdout=subprocess.PIPE, stderr=subprocess.STDOUT, text=True)
    if ran.returncode:
        raise NotBuilt(f"{pathlib.Path(words[0]).name} ends with status {ran.returncode}:\n{ran.stdout[-SHOWN:]}")


def externs(crate, tree):
    """The words that name the libraries which a crate stands on."""
    shared, own = kit() / "rlibs", libraries()
    words = ["--extern", f"std={shared}/std.rlib"]
    for name in own[crate]:
        words += ["--extern", f"{name}={library_of(name, tree) if name in own else shared / f'{name}.rlib'}"]
    for folder in [shared, *(library_of(each, tree).parent for each in below(crate))]:
        words += ["-L", f"dependency={folder}"]
    return words


def build(crate, tree=ROOT):
    """Proves and builds the crate. Answers where the file lies. Raises NotBuilt."""
    if not is_over_gate(crate, tree):
        raise NothingLeft(f"rt ci has left no libraries in {tree} that {crate} stands on")
    folder, tools = tree / "crates" / crate, kit()
    is_program = (folder / "src" / "main.rt").exists()
    made = folder / "out" / (f"{crate}.o" if is_program else f"lib{crate}.a")
    made.parent.mkdir(exist_ok=True)
    words = [tools / "bin" / "rattle", "build", "--crate-name", crate, "src/main.rt" if is_program else "src/lib.rt", *externs(crate, tree)]
    words += ["--antt-project", tools / "rattle" / "logic" / "antt-project.json", "--logic-built", tools / "logic_built", "--jobs", "1"]
    words += ["--links", f"{crate}=", *([] if is_program else ["--crate-type", "staticlib"])]
    run([*words, "--toolchain", tools / "toolchain", "--backend", "llvm", "-o", made], folder)
    if not is_program:
        return made
    words = [tools / "bin" / "rattle-link", "--target", TARGET, "--toolchain", tools / "toolchain", "-o", made.with_suffix(""), made]
    run([*words, tools / "c" / "libos_c.a", tools / "c" / "liblibc_c.a"], folder)
    return made.with_suffix("")


def main():
    try:
        print(build(sys.argv[1]))
    except NothingLeft as fault:
        say(f"over_gate.py: {fault}")
        return 2
    except NotBuilt as fault:
        say(f"over_gate.py: {fault}")
        return 1
    return 0


if __name__ == "__main__":
    sys.exit(main())
