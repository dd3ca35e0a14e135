"""What a run is expected to give: a table in a file, and the first difference from it."""
from __future__ import annotations

import itertools
import pathlib
from typing import List, Optional, Tuple

from .pictures import Seen, table_lines
from .texts import read_text, write_lines

Row = Tuple[str, ...]
AS_IT_WAS, WRITTEN, ANEW = "as it was", "written", "written anew"  # what comes of a file


def outcome_lines(seen: Seen, refusal: Optional[str]) -> List[str]:
    """What a run gave: its table, and after it the instant that was refused, where one was."""
    return table_lines(seen) + ([refusal] if refusal else [])


def starts_of(head: str) -> List[int]:
    """Where the columns of a table begin, by the line of its heads."""
    return [head.index(word) for word in head.split()]


def row_of(line: str, starts: List[int]) -> Row:
    """The cells of a line, however wide the columns are; of a line that is no instant's its
    words.
    """
    if len(starts) < 2 or not line[: starts[1]].strip().isdigit():
        return tuple(line.split())
    ends: List[Optional[int]] = [*starts[1:], None]
    return tuple(" ".join(line[start:end].split()) for start, end in zip(starts, ends))


def rows_of(lines: List[str]) -> List[Row]:
    starts = starts_of(lines[0]) if lines and lines[0].startswith("instant") else []
    return [row_of(line, starts) for line in lines]


def place_of(row: Row) -> str:
    """What a line of an outcome is about."""
    if row and row[0].isdigit():
        return f"instant {row[0]}"
    return (
        f"instant {row[1].rstrip(':')}"
        if len(row) > 1 and row[1].rstrip(":").isdigit()
        else "the heads"
    )


def first_difference(
    expected: List[str], came: List[str], path: str
) -> Optional[Tuple[str, List[str]]]:
    """Where two outcomes differ first, and the lines of a diff; None where they don't."""
    pairs = itertools.zip_longest(rows_of(expected), rows_of(came))
    at = next((number for number, (one, other) in enumerate(pairs) if one != other), None)
    if at is None:
        return None
    place = place_of(rows_of(came)[at] if at < len(came) else rows_of(expected)[at])
    lines = [f"--- {path}", "+++ this run", f"@@ {place} @@"]
    lines += [" " + line for line in came[max(1, at - 2) : at]]
    lines += ["-" + line for line in expected[at : at + 1]] + [
        "+" + line for line in came[at : at + 1]
    ]
    return place, lines


def read_expected(path: str) -> List[str]:
    """The lines of an expected outcome. Raises Failed."""
    return [line.rstrip() for line in read_text(path, "the expected table").rstrip().split("\n")]


def update(path: str, lines: List[str]) -> str:
    """Writes an outcome into its file where it isn't there already. Answers what came of the file.
    Raises Failed.
    """
    was_there = pathlib.Path(path).exists()
    if was_there and read_expected(path) == lines:
        return AS_IT_WAS
    write_lines(path, lines)
    return ANEW if was_there else WRITTEN
