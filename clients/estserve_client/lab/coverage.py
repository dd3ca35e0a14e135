"""The command `coverage`: what the scenarios of folders try of all that a module does."""
from __future__ import annotations

import argparse
import dataclasses
import pathlib
import sys
from typing import Dict, FrozenSet, Iterator, List, Sequence, Set, Tuple

from ..colours import Colours
from ..scenarios import Scenario, check_inputs
from ..syntax_tree import Node
from ..testing import scenarios_of, texts_for
from ..texts import Failed, Placed, read_text, write_lines
from .asking import Lab, Subject, lab_of, read_subject
from .marks import marked_groups, reached
from .table import Row, Table
from .tours import tours_of
from .words import in_one_line, inputs_line, ordered, word_of

SHOWN = 5  # of each kind of what is not tried

InputSet = FrozenSet[str]


@dataclasses.dataclass
class Group:
    """A module, and the scenarios of it: their lists of inputs."""

    subject: Subject
    scenarios: Dict[pathlib.Path, List[InputSet]]


@dataclasses.dataclass(frozen=True)
class Untried:
    """What no scenario tries: what it is called, and the inputs that would try it first, or none
    where no run does.
    """

    told: str
    word: List[List[str]]


def read_word(path: pathlib.Path, subject: Subject) -> List[InputSet]:
    """The inputs of each instant of a scenario. Raises Failed."""
    listed = read_text(path, "the list of inputs")
    scenario = Scenario(subject.library, subject.module, listed, str(path))
    check_inputs(scenario)
    return [frozenset(names) for names in scenario.inputs.names]


Groups = Dict[Tuple[str, ...], Group]


def named(fault: Failed, name: str) -> Failed:
    """A fault with the name of what has it; one that has a place begins with that."""
    return fault if isinstance(fault, Placed) else Failed(f"{name}: {fault}")


def add_scenario(groups: Groups, inputs: pathlib.Path, arguments: argparse.Namespace) -> None:
    """Adds a scenario to those of its module. Raises Failed."""
    texts = tuple(str(path) for path in texts_for(inputs, arguments))
    group = groups.get(texts) or Group(read_subject(texts, arguments.main), {})
    group.scenarios[inputs] = read_word(inputs, group.subject)
    groups[texts] = group


def groups_of(arguments: argparse.Namespace) -> Tuple[List[Group], List[Failed]]:
    """The modules of the folders with their scenarios, and the faults of scenarios that can't be read.
    Raises Failed, where a folder has none, or none can be read.
    """
    groups: Groups = {}
    faults: List[Failed] = []
    for expected in scenarios_of(arguments.folder, []):
        inputs = expected.with_suffix(".inputs")
        try:
            if inputs.exists():
                add_scenario(groups, inputs, arguments)
        except Failed as fault:
            faults.append(named(fault, str(inputs)))
    if not groups:
        raise type(faults[0])("\n".join(map(str, faults)))
    return list(groups.values()), faults


def tried_rows(table: Table, words: Sequence[List[InputSet]]) -> Set[int]:
    """The numbers of the rows that words try."""
    return {row.number for word in words for row in table.walk(word)}


def tried_states(table: Table, words: Sequence[List[InputSet]]) -> Set[int]:
    """The states in which words begin an instant, or end."""
    found = {0}
    for word in words:
        found.update(row.next for row in table.walk(word) if row.next is not None)
    return found


def emissions_of(subject: Subject) -> List[Node]:
    """The statements that emit, in the module and in all that it runs. Raises Failed."""
    return [
        node
        for module in reached(subject)
        for node in module.body.walk()
        if node.kind in ("emit", "sustain")
    ]


def untried_emissions(lab: Lab, group: Group, most: int) -> Iterator[Untried]:
    """The emissions that no scenario tries. Raises Failed."""
    subject, words = group.subject, list(group.scenarios.values())
    for marked in marked_groups(subject, emissions_of(subject)):
        lab.load(marked.subject)
        table = lab.table(subject.module.inputs(), most)
        shown = {name for word in words for row in table.walk(word) for name in row.outputs}
        for name, node in marked.statements.items():
            if name not in shown:
                row = table.first_row(name)
                place = subject.library.show(node.at.line, node.at.column)
                word = word_of(table.word_to(row), subject) if row else []
                yield Untried(f"of {node.names[0].text} at {place}", word)


def untried_states(table: Table, tried: Set[int], subject: Subject) -> Iterator[Untried]:
    """The states that no scenario comes to."""
    for state in range(len(table.states)):
        if state not in tried:
            word = word_of(table.word_to(table.first[state]), subject)
            yield Untried(f"{state}", word)


def untried_rows(table: Table, tried: Set[int], subject: Subject) -> Iterator[Untried]:
    """The rows that no scenario tries."""
    for row in table.rows:
        if row.number not in tried:
            told = f"in state {row.before} with {inputs_line(ordered(row.inputs, subject))}"
            yield Untried(told, word_of(table.word_to(row), subject))


def tell_untried(kind: str, untried: List[Untried]) -> None:
    """Tells what of a kind is not tried, each with its inputs; of many the first ones."""
    for one in untried[:SHOWN]:
        how = f"tried by `{in_one_line(one.word)}`" if one.word else "no run comes to it"
        print(f"  {kind} {one.told}: {how}")
    more = len(untried) - SHOWN
    if more > 0:
        print(f"  and {more} more {kind}{'s' if more > 1 else ''}")


def write_tours(tours: List[List[Row]], group: Group) -> None:
    """Writes scenarios beside the module's first one, each in a file of its own. Raises Failed."""
    first = next(iter(group.scenarios))
    for number, tour in enumerate(tours, 1):
        path = first.with_name(f"{first.name.split('.')[0]}.coverage{number}.inputs")
        write_lines(path, [inputs_line(names) for names in word_of(tour, group.subject)])
        print(f"  {path} is written")


def cover(lab: Lab, group: Group, arguments: argparse.Namespace) -> bool:
    """Tells what a module's scenarios try. Answers whether that is all. Raises Failed."""
    subject, words = group.subject, list(group.scenarios.values())
    lab.load(subject)
    table = lab.table(subject.module.inputs(), arguments.most)
    states, rows = tried_states(table, words), tried_rows(table, words)
    emissions = emissions_of(subject)
    silent = list(untried_emissions(lab, group, arguments.most))
    print(
        f"{subject.module.name}, {len(words)} scenario{'' if len(words) == 1 else 's'}:"
        f" {len(states)} of {len(table.states)} states,"
        f" {len(rows)} of {len(table.rows)} reactions,"
        f" {len(emissions) - len(silent)} of {len(emissions)} emissions"
    )
    tell_untried("emission", silent)
    tell_untried("state", list(untried_states(table, states, subject)))
    tell_untried("reaction", list(untried_rows(table, rows, subject)))
    if arguments.write:
        write_tours(tours_of(table, rows), group)
    return len(rows) == len(table.rows) and not any(one.word for one in silent)


def covered(lab: Lab, group: Group, arguments: argparse.Namespace) -> bool:
    """Tells what a module's scenarios try, or why that can't be said. Answers whether that is all."""
    try:
        return cover(lab, group, arguments)
    except Failed as fault:
        tell_fault(named(fault, group.subject.module.name))
        return False


def tell_fault(fault: Failed) -> None:
    """Tells why a module, or a scenario, can't be looked at."""
    print(Colours(sys.stdout).word("FAILED ", False), fault, flush=True)


def coverage(arguments: argparse.Namespace) -> int:
    """Tells what the scenarios of folders try of each module. Answers 1 where something is not tried,
    or can't be looked at. Raises Failed.
    """
    groups, faults = groups_of(arguments)
    for fault in faults:
        tell_fault(fault)
    with lab_of(arguments) as lab:
        whole = [covered(lab, group, arguments) for group in groups]
    return int(bool(faults) or not all(whole))
