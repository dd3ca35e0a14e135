"""The texts that an editor has open, the files beside them, and places in them as an editor counts.

An editor counts lines and UTF-16 units from 0; estserve counts lines and bytes from 1.
"""
from __future__ import annotations

import os
import pathlib
import urllib.parse
from typing import Any, Dict, List, Optional, Tuple

from ..library_text import LibraryText, join_texts
from ..module_text import modules_of
from ..syntax_tree import Token

Range = Dict[str, Any]


def path_of(uri: str) -> str:
    """The path of a document."""
    parts = urllib.parse.urlsplit(uri)
    return urllib.parse.unquote(parts.path) if parts.scheme == "file" else uri


def units(text: str) -> int:
    """How many UTF-16 units a text has."""
    return len(text.encode("utf-16-le", "surrogatepass")) // 2


def lines_of(text: str) -> List[str]:
    return [line.rstrip("\r") for line in text.split("\n")]


def position_of(lines: List[str], line: int, column: int) -> Dict[str, int]:
    """A place as an editor counts it."""
    shown = lines[line - 1] if 0 < line <= len(lines) else ""
    before = shown.encode("utf-8", "surrogatepass")[: column - 1]
    return {"line": max(0, line - 1), "character": units(before.decode("utf-8", "ignore"))}


def place_of(lines: List[str], position: Dict[str, int]) -> Tuple[int, int]:
    """The line and column, from 1 and in bytes, of a place as an editor counts it."""
    number, character = position["line"], position["character"]
    shown = lines[number] if 0 <= number < len(lines) else ""
    before = shown.encode("utf-16-le", "surrogatepass")[: 2 * character]
    return (
        number + 1,
        len(before.decode("utf-16-le", "ignore").encode("utf-8", "surrogatepass")) + 1,
    )


def range_at(lines: List[str], line: int, column: int, width: int) -> Range:
    """So many bytes from a place on, as an editor counts."""
    return {
        "start": position_of(lines, line, column),
        "end": position_of(lines, line, column + width),
    }


def whole_of(text: str) -> Range:
    """All of a text."""
    lines = text.split("\n")
    end = {"line": len(lines) - 1, "character": units(lines[-1])}
    return {"start": {"line": 0, "character": 0}, "end": end}


class Documents:
    """The texts that are open, by their paths, and those of the files beside them."""

    def __init__(self) -> None:
        self.open: Dict[str, str] = {}
        self.uris: Dict[str, str] = {}  # what the editor calls those that were opened

    def uri_of(self, path: str) -> str:
        """What the editor calls a file."""
        return self.uris.get(path) or pathlib.Path(os.path.abspath(path)).as_uri()

    def text_of(self, path: str) -> Optional[str]:
        """The text of a file, as it is typed where it is open; None where it can't be read."""
        if path in self.open:
            return self.open[path]
        try:
            return pathlib.Path(path).read_text(encoding="utf-8")
        except (OSError, ValueError):
            return None

    def beside(self, path: str) -> List[str]:
        """The other module texts of a file's folder."""
        folder = os.path.dirname(path)
        try:
            names = sorted(name for name in os.listdir(folder) if name.endswith(".strl"))
        except OSError:
            return []
        return [os.path.join(folder, name) for name in names if os.path.join(folder, name) != path]

    def library_of(self, path: str) -> LibraryText:
        """The text of a file, and of the files beside it that have modules which are run there."""
        pieces = [(path, self.open[path])]
        known = {module.name for module in modules_of(self.open[path])}
        waiting = self.beside(path)
        while True:
            run = {
                name for _, text in pieces for module in modules_of(text) for name in module.runs
            }
            more = self.needed(waiting, run - known, known)
            if more is None:
                return join_texts(pieces)
            waiting.remove(more[0])
            pieces.append(more)
            known |= {module.name for module in modules_of(more[1])}

    def needed(
        self, paths: List[str], wanted: "set[str]", known: "set[str]"
    ) -> Optional[Tuple[str, str]]:
        """The first of the files that has a wanted module, and none that is known; None where none
        has.
        """
        for path in paths if wanted else ():
            text = self.text_of(path)
            names = {module.name for module in modules_of(text)} if text else set()
            if text and names & wanted and not names & known:
                return path, text
        return None


def is_in(token: Token, line: int, column: int) -> bool:
    """Whether a place lies in a token, or just after it."""
    end = token.column + len(token.text.encode("utf-8", "surrogatepass"))
    return token.line == line and token.column <= column <= end
