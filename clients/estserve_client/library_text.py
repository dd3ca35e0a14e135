"""A library of modules from one file or more: one text for estserve, and the file and line of each
of its lines.
"""
from __future__ import annotations

TYPE_CHECKING = False
if TYPE_CHECKING:
    from typing import List, Sequence, Tuple


class LibraryText:
    """The joined text, and of each file its path and the line of the text that is its first."""

    def __init__(self, text: str, begins: List[Tuple[str, int]]) -> None:
        self.text, self.begins = text, begins

    def place(self, line: int) -> Tuple[str, int]:
        """The file, and the line in it, of a line of the text."""
        path, first = [begin for begin in self.begins if begin[1] <= max(line, 1)][-1]
        return path, line - first + 1

    def line_of(self, path: str, line: int) -> int:
        """The line of the text that this line of a file is."""
        return dict(self.begins)[path] + line - 1

    def name_line(self, line: int, path: str) -> str:
        """What a line of the text is called by who reads this file."""
        other, inner = self.place(line)
        return f"line {inner}" if other == path else f"line {inner} of {other}"

    def show(self, line: int, column: int) -> str:
        """A place as editors read it, `FILE:LINE:COL`."""
        path, inner = self.place(line)
        return f"{path}:{inner}:{column}"

    def draw(self, line: int, column: int) -> str:
        """The line of the text with a caret under the place; columns count bytes, from 1."""
        return show_place(self.text, line, column)

    @property
    def paths(self) -> List[str]:
        """The files, in their order."""
        return [path for path, _ in self.begins]


def join_texts(pieces: Sequence[Tuple[str, str]]) -> LibraryText:
    """One text of several files, each a path and its text. A text that goes on ends its last line
    first.
    """
    begins, texts, line = [], [], 1
    for at, (path, text) in enumerate(pieces):
        begins.append((str(path), line))
        if at < len(pieces) - 1 and not text.endswith("\n"):
            text += "\n"
        texts.append(text)
        line += text.count("\n")
    return LibraryText("".join(texts), begins)


def show_place(text: str, line: int, column: int) -> str:
    """The line of the text with a caret under the place; columns count bytes, from 1."""
    lines = text.split("\n")
    shown = lines[line - 1] if line <= len(lines) else ""
    before = shown.encode()[: column - 1].decode(errors="ignore")
    blanks = "".join("\t" if letter == "\t" else " " for letter in before)
    return f"{shown.rstrip()}\n{blanks}^"
