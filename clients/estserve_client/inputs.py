"""Lists of inputs: one instant a line, names apart by blanks.

A `;` ends an instant too, so `A; B` is two instants, and a line that ends by `;` has no instant
after it. `%` begins a comment up to the line's end. A blank line is an instant without inputs,
unless no instant with names or `;` comes after it; a line with nothing but a comment is no instant.
"""
from __future__ import annotations

from itertools import chain

TYPE_CHECKING = False
if TYPE_CHECKING:
    from typing import Dict, Iterator, List, Tuple

    Names = Tuple[str, ...]


class Offers:
    """The inputs of one instant, each once, and the line of the list that they stand in, from 1."""

    __slots__ = ("names", "line")

    def __init__(self, names: Names, line: int) -> None:
        self.names, self.line = names, line


class Inputs:
    """The instants of a list of inputs, in their order. Lines that are alike are read once."""

    def __init__(self, lines: List[str]) -> None:
        self.lines = lines
        self.read: Dict[str, List[Names]] = {text: names_of_line(text) for text in set(lines)}
        self.names = list(chain.from_iterable(map(self.read.__getitem__, lines)))  # of each instant

    def __len__(self) -> int:
        return len(self.names)

    def __iter__(self) -> Iterator[Offers]:
        for line, text in enumerate(self.lines, 1):
            for names in self.read[text]:
                yield Offers(names, line)

    def different(self) -> List[Names]:
        """The names of each instant, those of lines that are alike once, in no order."""
        return [names for instants in self.read.values() for names in instants]


def names_of_line(text: str) -> List[Names]:
    """The inputs of each instant of one line."""
    written, comment, _ = text.partition("%")
    if comment and not written.strip():
        return []
    pieces = written.split(";")
    if len(pieces) > 1 and not pieces[-1].strip():
        pieces.pop()
    return [tuple(dict.fromkeys(piece.split())) for piece in pieces]


def is_blank(text: str) -> bool:
    """Whether a line has neither a name nor a `;`."""
    return not text.partition("%")[0].strip()


def read_inputs(text: str) -> Inputs:
    """The instants of a list of inputs."""
    lines = text.split("\n")
    while lines and is_blank(lines[-1]):
        lines.pop()
    return Inputs(lines)
