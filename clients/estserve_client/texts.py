"""Files and standard input, as texts; and the ends of a command that is given up."""
from __future__ import annotations

import codecs
import sys

from .library_text import LibraryText, join_texts

TYPE_CHECKING = False
if TYPE_CHECKING:
    from typing import Iterable, List

    from .connection import Path


class Failed(Exception):
    """The command ends, with this text as its one message."""

    status = 1


class Placed(Failed):
    """The command ends with a text that begins with its place, `FILE:LINE:COL:`, as editors read
    it.
    """


class Interrupted(Failed):
    """The command ends since it was interrupted, with what there is."""

    status = 130


def read_stdin(what: str) -> bytes:
    """All bytes of standard input. Where a person types them, it is said what is waited for."""
    if sys.stdin.isatty():
        print(f"{what} is read from the keyboard, up to Ctrl-D:", file=sys.stderr, flush=True)
    return sys.stdin.buffer.read()


def read_file(path: Path) -> bytes:
    """All bytes of a file. Raises OSError, ValueError."""
    with open(path, "rb") as file:
        return file.read()


def read_text(path: Path, what: str) -> str:
    """The text of a file, or of standard input where the path is `-`. Raises Failed."""
    try:
        data = read_stdin(what) if str(path) == "-" else read_file(path)
    except (OSError, ValueError) as fault:
        told = getattr(fault, "strerror", None) or fault
        raise Failed(f"{what} {path} cannot be read: {told}") from fault
    if data.startswith(codecs.BOM_UTF8):
        raise Failed(f"{what} {path} begins with a byte order mark: save it as UTF-8 without one")
    try:
        return data.decode()
    except UnicodeDecodeError as fault:
        raise Failed(f"{what} {path} is not UTF-8: byte {fault.start + 1}") from fault


def read_library(paths: Iterable[Path]) -> LibraryText:
    """The modules of one file or more, as one text. Raises Failed."""
    return join_texts([(str(path), read_text(path, "the module text")) for path in paths])


def write_lines(path: Path, lines: List[str], encoding: str = "utf-8") -> None:
    """Writes lines into a file. Raises Failed."""
    try:
        with open(path, "w", encoding=encoding) as file:
            file.write("".join(line + "\n" for line in lines))
    except (OSError, ValueError) as fault:
        told = getattr(fault, "strerror", None) or fault
        raise Failed(f"{path} cannot be written: {told}") from fault
