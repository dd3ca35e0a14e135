"""Words that try all rows of a table."""
from __future__ import annotations

from typing import Dict, List, Optional, Set

from .table import Row, Table

LONGEST = 100  # instants of a word, if a row can be had in fewer


def way_by(came: Dict[int, Optional[Row]], last: Row) -> List[Row]:
    """The rows that led to the state before a last one, and that one."""
    way, before = [last], came[last.before]
    while before:
        way.append(before)
        before = came[before.before]
    return way[::-1]


def nearest(table: Table, state: int, left: Set[int]) -> Optional[List[Row]]:
    """The rows of a shortest way from a state that ends with one of these; None where there is
    none.
    """
    came: Dict[int, Optional[Row]] = {state: None}  # by which row each state was found
    line = [state]
    for at in line:
        for row in table.rows_at(at):
            if row.number in left:
                return way_by(came, row)
            if row.next is not None and row.next not in came:
                came[row.next] = row
                line.append(row.next)
    return None


def tour_of(table: Table, left: Set[int]) -> List[Row]:
    """A word from the start by rows that are left, as long as there is a way; they are left no
    more.
    """
    tour: List[Row] = []
    state: Optional[int] = 0
    while state is not None and len(tour) < LONGEST:
        way = nearest(table, state, left)
        if way is None:
            return tour
        tour += way
        left.difference_update(row.number for row in way)
        state = way[-1].next
    return tour


def tours_of(table: Table, tried: Set[int]) -> List[List[Row]]:
    """Words that try all rows but those that are tried already."""
    left = {row.number for row in table.rows} - tried
    tours = []
    while left:
        tours.append(tour_of(table, left))
    return tours
