"""The command `graph`: the states of a module, as Graphviz dot."""
from __future__ import annotations

import argparse
from typing import Dict, Iterator, List, Optional, Tuple

from ..texts import Failed
from .asking import Subject, lab_of, read_subject
from .claims import names_listed
from .judging import check_inputs
from .parts import Part, parts_of
from .table import Row, Table

STATES = 60  # a drawing has fewer
LINES = 8  # of one arrow


def condition(part: Part, subject: Subject) -> str:
    """A part in the words of a test."""
    asked, present = part
    names = [name for name in subject.module.inputs() if name in asked]
    words = [name if name in present else f"not {name}" for name in names]
    return " and ".join(words) or "always"


def result_of(row: Row, subject: Subject) -> str:
    """What a row emits, or what stays undecided."""
    if row.is_stuck:
        return "undecided: " + " ".join(row.undecided)
    return " ".join(name for name in subject.module.outputs() if name in row.outputs)


def ways_from(
    table: Table, state: int, subject: Subject
) -> Iterator[Tuple[Optional[int], List[str]]]:
    """Each state that rows of this one lead to, and a line for each condition and result."""
    rows: Dict[Tuple[Optional[int], str], List[Row]] = {}
    for row in table.rows_at(state):
        rows.setdefault((row.next, result_of(row, subject)), []).append(row)
    lines: Dict[Optional[int], List[str]] = {}
    for (after, told), alike in rows.items():
        others = [row for key, some in rows.items() if key != (after, told) for row in some]
        ways = sorted((condition(part, subject) for part in parts_of(alike, others)), key=len)
        lines.setdefault(after, []).extend(way + (f" / {told}" if told else "") for way in ways)
    yield from lines.items()


def label_of(lines: List[str]) -> str:
    """The lines of an arrow, or the first ones of many."""
    more = [f"and {len(lines) - LINES} more"] if len(lines) > LINES else []
    return "\\n".join([*lines[:LINES], *more])


def state_line(number: int, state: object) -> str:
    """A state, of which the first and the ended one are named."""
    told = f"{number}\\n{state}" if isinstance(state, str) else str(number)
    return f'  {number} [label="{told}"];'


def dot_lines(table: Table, subject: Subject) -> List[str]:
    """The drawing, as a graph of dot."""
    lines = [f"digraph {subject.module.name} {{", "  rankdir=LR;", "  node [shape=circle];"]
    lines += [state_line(number, state) for number, state in enumerate(table.states)]
    if any(row.is_stuck for row in table.rows):
        lines.append('  stuck [label="Stuck", shape=octagon];')
    for before in range(len(table.states)):
        for after, told in ways_from(table, before, subject):
            to = "stuck" if after is None else after
            lines.append(f'  {before} -> {to} [label="{label_of(told)}"];')
    return [*lines, "}"]


def graph(arguments: argparse.Namespace) -> None:
    """Prints the states of a module as a drawing. Raises Failed."""
    subject = read_subject(arguments.file, arguments.main)
    inputs = check_inputs(subject, names_listed(arguments.inputs))
    with lab_of(arguments) as lab:
        lab.load(subject)
        table = lab.table(inputs, arguments.most)
    if len(table.states) >= STATES:
        told = f"{subject.module.name} has {len(table.states)} states: a drawing has under {STATES}"
        raise Failed(told)
    print("\n".join(dot_lines(table, subject)))
