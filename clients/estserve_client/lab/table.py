"""The closed table of a module: its states in the order found, and what it does at each."""
from __future__ import annotations

import dataclasses
from typing import Any, Dict, FrozenSet, Iterable, Iterator, List, Optional, Sequence, Tuple


@dataclasses.dataclass(frozen=True)
class Row:
    """What a module does at a state with inputs: what it emits and where it goes on, or what stays
    undecided. It stands for each lawful set that agrees with `inputs` on what was asked.
    """

    number: int
    before: int
    asked: FrozenSet[str]
    inputs: FrozenSet[str]
    outputs: Tuple[str, ...]
    next: Optional[int]
    undecided: Tuple[str, ...]

    def result(self) -> Tuple[object, ...]:
        """What comes of it."""
        return self.outputs, self.next, self.undecided

    @property
    def is_stuck(self) -> bool:
        """Whether there is no reaction."""
        return self.next is None


def row_of(number: int, told: Dict[str, Any]) -> Row:
    """A row as the program writes it."""
    return Row(
        number,
        told["from"],
        frozenset(told["asked"]),
        frozenset(told["inputs"]),
        tuple(told.get("outputs", ())),
        told.get("next"),
        tuple(told.get("undecided", ())),
    )


def keeps(inputs: FrozenSet[str], relation: str) -> bool:
    """Whether inputs keep a relation, by its text: `A # B # C` or `A => B`."""
    names = relation.split()[::2]
    if "=>" in relation:
        return names[0] not in inputs or names[1] in inputs
    return len(inputs.intersection(names)) < 2


class Table:
    """The states, each a list of pauses or `start` or `end`, the rows, and the relations of the
    inputs by their texts.
    """

    def __init__(
        self, states: Sequence[Any], rows: Iterable[Dict[str, Any]], relations: Sequence[str] = ()
    ) -> None:
        self.states, self.relations = list(states), relations
        self.rows = [row_of(number, told) for number, told in enumerate(rows)]
        self.by_inputs: List[Dict[Tuple[FrozenSet[str], FrozenSet[str]], Row]]
        self.by_inputs = [{} for _ in self.states]
        self.asked: List[Dict[FrozenSet[str], None]] = [{} for _ in self.states]
        self.first: Dict[int, Row] = {}  # the row by which a state was found
        for row in self.rows:
            self.by_inputs[row.before][row.asked, row.inputs] = row
            self.asked[row.before][row.asked] = None
            if row.next:
                self.first.setdefault(row.next, row)

    def row_for(self, state: int, inputs: FrozenSet[str]) -> Optional[Row]:
        """The row of a state that agrees with these inputs; None where they are not lawful."""
        if not all(keeps(inputs, relation) for relation in self.relations):
            return None
        for asked in self.asked[state]:
            row = self.by_inputs[state].get((asked, inputs & asked))
            if row:
                return row
        return None

    def rows_at(self, state: int) -> Iterable[Row]:
        """The rows of a state."""
        return self.by_inputs[state].values()

    def word_to(self, row: Row) -> List[Row]:
        """The rows of a shortest word that ends with this one."""
        found = [row]
        while found[-1].before:
            found.append(self.first[found[-1].before])
        return found[::-1]

    def walk(self, word: Iterable[FrozenSet[str]]) -> Iterator[Row]:
        """The rows of a word from the start, up to what is not lawful or Stuck."""
        state: Optional[int] = 0
        for inputs in word:
            row = self.row_for(state, inputs) if state is not None else None
            if row is None:
                return
            yield row
            state = row.next

    def first_row(self, output: str) -> Optional[Row]:
        """The first row that emits this output, which ends a shortest such word."""
        return next((row for row in self.rows if output in row.outputs), None)
