#!/usr/bin/env python3
"""Mistakes that are made in each example on purpose, and how many of them its claims find.

usage: mutants.py [NAME ..]

Prints the table of docs/PROVING.md, with a row for each example. A mistake is one change of the
text: a signal for another one, or one that counts too, a `not` more or less, `abort` for `weak
abort` or the other way, `immediate` more or less, an emission or a pause that is left out, an
emission an instant late. Of each example MUTANTS are drawn by a fixed sequence, of those that load
and do something else than the example does, or all where there are fewer. The claims find one where
a claim fails or the module gets Stuck; its inputs where the example's own lists show it.
"""
from __future__ import annotations

import dataclasses
import pathlib
import random
import re
import sys
from typing import Dict, FrozenSet, Iterator, List, Optional, Tuple

from support import ROOT

from behaviour import letters_of

from estserve_client.command_table import OF_TEXTS
from estserve_client.connection import Refusal
from estserve_client.inputs import read_inputs
from estserve_client.lab.asking import MOST, Lab, Subject, read_subject, start_lab
from estserve_client.lab.claims import Claims, read_claims
from estserve_client.lab.judging import Question, judge
from estserve_client.lab.marks import reached
from estserve_client.lab.observing import alarm_claims, observed
from estserve_client.lab.proving import HOW
from estserve_client.lab.table import Table
from estserve_client.library_text import LibraryText
from estserve_client.syntax_tree import ModuleTree, Node, Test, Token
from estserve_client.texts_beside import texts_beside

EXAMPLES = ROOT / "examples"
MUTANTS = 20  # of each example
HEAD = [
    "| Example | Mistakes | Found by claims | Found by its inputs |",
    "|---|---|---|---|",
]

A_WORD = r"\s+\w+"
# a token, what stands in its place, and the pattern of what goes with it
Change = Tuple[Token, str, str]


@dataclasses.dataclass(frozen=True)
class Example:
    """An example with its claims, what is to do the same, and its lists of inputs."""

    name: str
    paths: List[str]
    claims: Claims
    subject: Subject
    same: List[Subject]
    words: List[List[frozenset]]


def read_example(path: pathlib.Path) -> Example:
    """The example whose claims stand in this file."""
    claims = read_claims(path.read_text(), str(path))
    texts = [str(text) for text in texts_beside(path, claims.main, HOW)]
    paths = list(dict.fromkeys(texts + [str(path.parent / other) for other in claims.texts]))
    lists = [read_inputs(one.read_text()).names for one in sorted(path.parent.glob("*.inputs"))]
    words = [[frozenset(names) for names in listed] for listed in lists]
    same = [read_subject([path.parent / other], claims.main) for other in claims.same]
    return Example(path.stem, texts, claims, read_subject(paths, claims.main), same, words)


def changes_of_test(test: Test, names: List[str]) -> Iterator[Change]:
    """Signals for others, or others that count too, and a `not` more or less."""
    if test.kind == "name":
        others = [name for name in names if name != test.at.text]
        yield test.at, f"not {test.at.text}", ""
        yield from ((test.at, name, "") for name in others)
        yield from ((test.at, f"({test.at.text} or {name})", "") for name in others)
    if test.kind == "not":
        yield test.at, "", ""
    for part in test.parts:
        yield from changes_of_test(part, names)


def changes_of_emission(node: Node, module: ModuleTree) -> Iterator[Change]:
    """Another signal, an emission that is left out, and one that comes an instant late."""
    emitted = [token.text for token in (*module.outputs, *module.inputoutputs)]
    own = node.names[0]
    yield from ((own, name, "") for name in emitted if name != own.text)
    yield node.at, "nothing", A_WORD
    yield node.at, f"pause; {node.kind}", ""


def changes_of_node(node: Node, module: ModuleTree) -> Iterator[Change]:
    """The mistakes that are made in a statement."""
    if node.test:
        yield from changes_of_test(node.test, module.names())
    if node.kind in ("emit", "sustain"):
        yield from changes_of_emission(node, module)
    if node.kind == "pause":
        yield node.at, "nothing", ""
    if node.kind == "abort":
        yield node.at, "weak abort", ""
    if node.kind == "weak":
        yield node.at, "", ""
    if node.kind == "await":
        yield (node.at, "await", A_WORD) if node.immediate else (node.at, "await immediate", "")


def put(text: str, change: Change) -> str:
    """The text with one change."""
    token, new, cut = change
    lines = text.split("\n")
    line, at = lines[token.line - 1], token.column - 1
    rest = line[at + len(token.text) :]
    lines[token.line - 1] = line[:at] + new + re.sub(cut, "", rest, count=1)
    return "\n".join(lines)


def texts_with_mistakes(example: Example) -> List[str]:
    """The texts of the example with each mistake, in an order that is drawn."""
    own = pathlib.Path(example.paths[0]).read_text()
    subject = read_subject(example.paths, example.claims.main)
    nodes = [(node, module) for module in reached(subject) for node in module.body.walk()]
    changes = [change for node, module in nodes for change in changes_of_node(node, module)]
    random.Random(example.name).shuffle(changes)
    return [put(own, change) for change in dict.fromkeys(changes)]


def with_text(example: Example, text: str) -> Subject:
    """The example's module with this text in place of its own."""
    own = pathlib.Path(example.paths[0]).read_text()
    library = example.subject.library
    changed = LibraryText(library.text.replace(own, text, 1), library.begins)
    return Subject(changed, example.subject.module)


def table_of(lab: Lab, subject: Subject) -> Optional[Table]:
    """The table of a module; None where its text is refused."""
    try:
        lab.client.ask("load", main=subject.module.name, text=subject.library.text)
    except Refusal as refusal:
        assert refusal.code in OF_TEXTS, refusal
        return None
    lab.relations = subject.module.relations
    return lab.table(subject.module.inputs(), MOST)


def is_same(first: Table, second: Table, letters: List[FrozenSet[str]]) -> bool:
    """Whether two modules of one interface do the same, by their tables and the lawful sets of
    inputs. A row stands for many sets, and not for the same ones in both.
    """
    pairs = {(0, 0): None}
    for here, there in (line := list(pairs)):
        for letter in letters:
            row, other = first.row_for(here, letter), second.row_for(there, letter)
            assert row and other
            if (row.outputs, row.undecided) != (other.outputs, other.undecided):
                return False
            after = row.next, other.next
            if not row.is_stuck and after not in pairs:
                pairs[after] = None
                line.append(after)
    return True


def found_by_claims(lab: Lab, example: Example, changed: Subject) -> bool:
    """Whether a claim fails, or the module gets Stuck."""
    wanted = example.claims
    claims = [*wanted.claims, *alarm_claims(changed, wanted.observers)]
    inputs = changed.module.inputs() if wanted.inputs is None else wanted.inputs
    subject = observed(changed, wanted.observers)
    question = Question(changed, subject, claims, inputs, example.same, MOST)
    return judge(lab, question).status == 1


def found_by_inputs(example: Example, tables: List[Table]) -> bool:
    """Whether the example's own lists of inputs show the mistake."""
    first, second = (
        [(row.outputs, row.undecided) for word in example.words for row in table.walk(word)]
        for table in tables
    )
    return first != second


def row_of(lab: Lab, example: Example) -> str:
    """The example's row of the table."""
    own, count, by_claims, by_inputs = table_of(lab, example.subject), 0, 0, 0
    assert own
    letters = letters_of(example.subject.module)
    for text in texts_with_mistakes(example):
        changed = with_text(example, text)
        table = table_of(lab, changed) if count < MUTANTS else None
        if table and not is_same(own, table, letters):
            count += 1
            by_claims += found_by_claims(lab, example, changed)
            by_inputs += found_by_inputs(example, [own, table])
    return f"| {example.name} | {count} | {by_claims} | {by_inputs} |"


def rows_of(names: List[str]) -> Dict[str, str]:
    """The rows of these examples, or of all, by their names."""
    found = {}
    with start_lab() as lab:
        for path in sorted(EXAMPLES.glob("*/*.claims")):
            if not names or path.stem in names:
                found[path.stem] = row_of(lab, read_example(path))
    return found


if __name__ == "__main__":
    print("\n".join([*HEAD, *rows_of(sys.argv[1:]).values()]))
