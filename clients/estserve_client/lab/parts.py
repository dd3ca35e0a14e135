"""Parts of the inputs: what is asked of them, and what of that is present. Rows of one state that do
the same are told by few parts.
"""
from __future__ import annotations

from typing import FrozenSet, List, Tuple

from .table import Row

Part = Tuple[FrozenSet[str], FrozenSet[str]]  # what is asked, and what of it is present


def is_in(row: Row, part: Part) -> bool:
    """Whether all inputs of a row are of this part."""
    asked, present = part
    return row.asked >= asked and row.inputs & asked == present


def meets(row: Row, part: Part) -> bool:
    """Whether some inputs of a row may be of this part."""
    both = row.asked & part[0]
    return row.inputs & both == part[1] & both


def widened(row: Row, others: List[Row]) -> Part:
    """A part with the row in it that meets none of the others, and asks for as little as can be."""
    asked = row.asked
    for name in sorted(row.asked):
        fewer = asked - {name}
        if not any(meets(other, (fewer, row.inputs & fewer)) for other in others):
            asked = fewer
    return asked, row.inputs & asked


def parts_of(rows: List[Row], others: List[Row]) -> List[Part]:
    """Parts that have all the rows in them, and meet none of the others. What is not lawful may be
    in any.
    """
    found: List[Part] = []
    for row in rows:
        if not any(is_in(row, part) for part in found):
            found.append(widened(row, others))
    for part in list(found):
        rest = [other for other in found if other != part]
        if all(any(is_in(row, other) for other in rest) for row in rows):
            found = rest
    return found
