"""The command `compile`: a module in C, as a table of all its runs or by its cells."""
from __future__ import annotations

import argparse
import hashlib
import json
import os
import re
import sys
from typing import Optional, Union

from ..programs import unproved_program
from ..texts import Failed
from .asking import Lab, Subject, lab_of, read_subject
from .c_cells import DEEPEST, CellsCode
from .c_check import compare, compare_walks
from .c_code import TableCode
from .kernel import checked_kernel
from .table import Table

NAME = re.compile(r"[A-Za-z_][A-Za-z0-9_]*")
KEYWORDS = frozenset(
    "alignas alignof and and_eq asm auto bitand bitor bool break case catch char class compl concept const"
    " constexpr continue decltype default delete do double else enum explicit export extern false float for"
    " friend goto if inline int linux long mutable namespace new noexcept not not_eq nullptr operator or"
    " or_eq private protected public register requires restrict return short signed sizeof static struct"
    " switch template this throw true try typedef typeid typename typeof union unix unsigned using virtual"
    " void volatile wchar_t while xor xor_eq".split()
)  # of C and C++, and macros of gcc
HEADERS = frozenset(
    "assert complex ctype errno fcntl features fenv float inttypes iso646 limits locale math poll pthread"
    " sched semaphore setjmp signal stdalign stdarg stdatomic stdbool stddef stdint stdio stdlib stdnoreturn"
    " string tgmath threads time uchar unistd wchar wctype".split()
)  # a compiler that finds NAME.h in place of one of these doesn't get what is in it
MADE, MADE_WITHIN = "Made by `estserve-client compile", 500  # characters from a file's beginning
AnyCode = Union[TableCode, CellsCode]


def check_name(name: str) -> None:
    """Raises Failed where C, or C++, can't have a struct or a header of this name."""
    if not NAME.fullmatch(name) or name in KEYWORDS:
        raise Failed(f"{name} is no name in C: -o NAME gives one")
    if name in HEADERS:
        raise Failed(f"{name}.h is a header of C: -o NAME gives another")


def digest_of_kernel(lab: Lab) -> str:
    """The SHA-256 of the kernel's statements."""
    told = json.dumps(lab.client.ask("kernel"), sort_keys=True, separators=(",", ":"))
    return hashlib.sha256(told.encode()).hexdigest()


def check_size(told: str, pairs: int, most: int) -> None:
    """Raises Failed where there are more pairs of a state and a set of inputs than these."""
    if pairs > most:
        raise Failed(f"{told}: --pairs allows more, and --cells needs no table")


def small_table(arguments: argparse.Namespace, subject: Subject, lab: Lab) -> Table:
    """The closed table of a module. Raises Failed where it is too large, which the inputs alone may
    show.
    """
    inputs = subject.module.inputs()
    sets, most = 1 << len(inputs), arguments.pairs
    check_size(f"each state has {sets:,} sets of inputs", sets, most)
    try:
        table = lab.table(inputs, arguments.most)
    except Failed as fault:
        raise Failed(f"{fault}, and --cells needs no table") from fault
    states = len(table.states)
    told = f"{states:,} states and {sets:,} sets of inputs are {states * sets:,} pairs"
    check_size(told, states * sets, most)
    return table


def code_of(arguments: argparse.Namespace, subject: Subject, lab: Lab, name: str) -> AnyCode:
    """The C of a module, under this name. Raises Failed."""
    digest = digest_of_kernel(lab)
    if arguments.cells:
        return CellsCode(subject, name, digest, checked_kernel(lab, subject))
    return TableCode(subject, name, digest, small_table(arguments, subject, lab))


def check_free(path: str) -> None:
    """Raises Failed where a file is there that this command didn't write."""
    try:
        with open(path, encoding="utf-8", errors="replace") as file:
            is_made = MADE in file.read(MADE_WITHIN)
    except OSError:
        return  # what hinders the writing too is told then
    if not is_made:
        raise Failed(f"{path} is there, and not made by compile: -o NAME gives another name")


def write_files(code: AnyCode, folder: str) -> None:
    """Writes the header and the code. Raises Failed."""
    texts = {".h": code.header(), ".c": code.code()}
    paths = {end: os.path.join(folder, code.name + end) for end in texts}
    for path in paths.values():
        check_free(path)
    for end, path in paths.items():
        try:
            with open(path, "w", encoding="ascii") as file:
                file.write(texts[end])
        except OSError as fault:
            raise Failed(f"{path} cannot be written: {fault.strerror}") from fault


def compared(arguments: argparse.Namespace, code: AnyCode, folder: str) -> str:
    """Compares the C with what it was made from, and says how much was compared. Raises Failed, and
    OSError where compiler or C can't be started.
    """
    if isinstance(code, TableCode):
        pairs = compare(code, folder)
        return f"compared in full: {pairs:,} pairs of a state and a set of inputs"
    program: Optional[str] = unproved_program() if arguments.unproved else None
    instants = compare_walks(code, folder, program)
    return f"compared with estserve on random walks: {instants:,} instants"


def checked(arguments: argparse.Namespace, code: AnyCode, folder: str) -> str:
    """What came of comparing the C. Raises Failed."""
    try:
        return compared(arguments, code, folder)
    except OSError as fault:
        raise Failed(f"{fault.filename} cannot be started: {fault.strerror}") from fault


def compile_module(arguments: argparse.Namespace) -> None:
    """Writes a module as C, and compares it where that is asked for. Raises Failed."""
    subject = read_subject(arguments.file, arguments.main)
    folder, name = os.path.split(arguments.out or "")
    name = name or subject.module.name.lower()
    check_name(name)
    sys.setrecursionlimit(max(sys.getrecursionlimit(), DEEPEST))
    with lab_of(arguments) as lab:
        lab.load(subject)
        code = code_of(arguments, subject, lab, name)
    write_files(code, folder or ".")
    told = f"{name}.h, {name}.c: {code.size()}"
    if arguments.check:
        told += "; " + checked(arguments, code, folder or ".")
    print(told)
