"""The command `lint`: what is of no use in a module, and how it gets Stuck, by all its runs."""
from __future__ import annotations

import argparse
from typing import Dict, List, Set, Tuple

from ..connection import Refusal
from ..sentences import sentence
from ..syntax_tree import ModuleTree, Node, Token
from .asking import Lab, Subject, lab_of, read_subject
from .marks import marked_groups, parts_to_mark, reached
from .table import Table
from .words import in_one_line, word_of

Told = Tuple[Token, str]  # a place, and what is said of it


def matters(table: Table, name: str) -> bool:
    """Whether some reaction is another one with this input than without it, or no two lawful sets
    differ in it alone. A row that did not ask for it stands for both.
    """
    are_alike = []
    for row in table.rows:
        if name not in row.inputs:
            other = table.row_for(row.before, row.inputs | {name})
            are_alike += [other.result() == row.result()] if other else []
    return not (are_alike and all(are_alike))


def idle_inputs(table: Table, subject: Subject) -> List[str]:
    """The inputs that no reaction looks at."""
    return [name for name in subject.module.inputs() if not matters(table, name)]


def absent_outputs(table: Table, subject: Subject) -> List[str]:
    """The outputs that no run makes present: an inputoutput that no run emits."""
    shown: Set[str] = {name for row in table.rows for name in row.outputs}
    return [name for name in subject.module.outputs() if name not in shown]


def places_of(module: ModuleTree) -> Dict[str, Token]:
    """Where each signal of an interface is declared."""
    return {token.text: token for token in reversed(module.interface)}


def told_of_signals(table: Table, subject: Subject, module: ModuleTree) -> List[Told]:
    """What is said of signals of the interface."""
    places = places_of(module)
    told = [(name, f"no reaction looks at {name}") for name in idle_inputs(table, subject)]
    told += [(name, f"no run emits {name}") for name in absent_outputs(table, subject)]
    return [(places[name], text) for name, text in told]


def told_of_stuck(table: Table, subject: Subject, module: ModuleTree) -> List[Told]:
    """How the module gets Stuck: for each set of what stays undecided a shortest word."""
    found: Dict[Tuple[str, ...], str] = {}
    for row in table.rows:
        if row.is_stuck and row.undecided not in found:
            refusal = Refusal({"code": 50, "fault": "Stuck", "undecided": list(row.undecided)})
            word = in_one_line(word_of(table.word_to(row), subject))
            found[row.undecided] = f"with the inputs `{word}`: {sentence(refusal)}"
    return [(module.name, told) for told in found.values()]


def never_begun(lab: Lab, subject: Subject, most: int) -> List[Node]:
    """The statements that no run begins, though it begins the one around them."""
    statements = [node for module in reached(subject) for node in parts_to_mark(module.body)]
    unique = list({node.at: node for node in reversed(statements)}.values())[::-1]
    found = []
    for marked in marked_groups(subject, unique):
        lab.load(marked.subject)
        claims = [f"never {name}" for name in marked.statements]
        answer = lab.explore(claims, subject.module.inputs(), most)
        verdicts = zip(marked.statements.values(), answer.verdicts)
        found += [node for node, verdict in verdicts if verdict.name == "holds"]
    return found


def inside(nodes: List[Node]) -> Set[Token]:
    """The tokens of all statements in these, but their own."""
    return {part.at for node in nodes for part in node.walk() if part.at != node.at}


def told_of_statements(nodes: List[Node]) -> List[Told]:
    """What is said of statements that no run begins; of one inside another nothing."""
    hidden = inside(nodes)
    return [(node.at, "no run begins this statement") for node in nodes if node.at not in hidden]


def lint(arguments: argparse.Namespace) -> int:
    """Names what is of no use in a module, a line with its place for each. Answers 1 where there is
    something. Raises Failed.
    """
    subject = read_subject(arguments.file, arguments.main)
    with lab_of(arguments) as lab:
        lab.load(subject)
        table = lab.table(subject.module.inputs(), arguments.most)
        module = next(one for one in reached(subject) if one.name.text == subject.module.name)
        told = told_of_signals(table, subject, module) + told_of_stuck(table, subject, module)
        told += told_of_statements(never_begun(lab, subject, arguments.most))
    for token, text in sorted(told, key=lambda one: (one[0].line, one[0].column)):
        print(f"{subject.library.show(token.line, token.column)}: {text}")
    size = f"{len(table.states)} states, {len(table.rows)} reactions"
    print(f"{len(told) or 'nothing'} found: {size}")
    return int(bool(told))
