"""The command `test`: each list of inputs of a folder, or of several, held against the table that is
expected of it.
"""
from __future__ import annotations

import argparse
import fnmatch
import pathlib
import re
import sys
import time
from typing import List, Union

from .colours import Colours
from .connection import start
from .drawing import Progress
from .expecting import AS_IT_WAS, first_difference, outcome_lines, read_expected, update
from .outcomes import FAILED, PASSED, Json, Outcome, Plain, Tap, told_in_xml
from .pictures import Seen
from .programs import program_of
from .running import blessed, counted, play
from .scenarios import Scenario, Stage, check_inputs
from .texts import Failed, read_library, read_text
from .texts_beside import chosen_of, texts_beside

Report = Union[Plain, Tap, Json]
HOW = "name the texts by --module, or the module by --main"
COUNTEREXAMPLE = re.compile(r"\.counterexample\d*$")  # at the end of the names that `prove` gives


def texts_for(inputs: pathlib.Path, arguments: argparse.Namespace) -> List[pathlib.Path]:
    """The module texts of a list of inputs: those that are named, or those beside it. Raises
    Failed.
    """
    if arguments.module:
        return [pathlib.Path(path) for path in arguments.module]
    return texts_beside(inputs, arguments.main, HOW)


def scenario_of(inputs: pathlib.Path, arguments: argparse.Namespace) -> Scenario:
    """A list of inputs with its module. Raises Failed."""
    library = read_library(texts_for(inputs, arguments))
    module = chosen_of(library.text, arguments.main)
    return Scenario(library, module, read_text(inputs, "the list of inputs"), str(inputs))


def judge(stage: Stage, scenario: Scenario, expected: str, found: Outcome, updates: bool) -> None:
    """Runs a scenario, and notes what came of it. Raises Failed."""
    stage.load(scenario)
    check_inputs(scenario)
    seen, total = Seen(scenario.module.name, scenario.module.signals, []), len(scenario.inputs)
    refusal = play(stage, scenario, seen.instants.extend, Progress(total, True))
    lines = outcome_lines(seen, refusal.told if refusal else "")
    found.told = counted(seen, refusal, total)
    if updates:
        how = update(expected, lines)
        found.word = PASSED if how == AS_IT_WAS else how
        found.told += blessed(refusal, how)
    elif not pathlib.Path(expected).exists():
        found.told = f"there is no {pathlib.Path(expected).name}: --update writes it"
    elif difference := first_difference(read_expected(expected), lines, expected):
        found.told = f"the first difference is at {difference[0]}"
        found.lines = difference[1] + (refusal.more if refusal else [])
    else:
        found.word = PASSED


def held(stage: Stage, path: pathlib.Path, arguments: argparse.Namespace) -> Outcome:
    """What comes of the scenario of this expected table. Raises Interrupted."""
    inputs, begun = path.with_suffix(".inputs"), time.monotonic()
    folder = str(path.parent) if len(arguments.folder) > 1 else ""
    found = Outcome(path.stem, FAILED, "", [], str(inputs), folder=folder)
    try:
        if not inputs.exists():
            raise Failed(f"there is no {inputs.name}: {path.name} is held against nothing")
        scenario = scenario_of(inputs, arguments)
        found.module = scenario.module.name
        judge(stage, scenario, str(path), found, arguments.update)
    except Failed as fault:
        if fault.status != 1:
            raise
        found.told, *found.lines = str(fault).split("\n")
    found.seconds = time.monotonic() - begun
    return found


def scenarios_in(folder: pathlib.Path) -> List[pathlib.Path]:
    """The expected tables of a folder's scenarios, also of those that have none yet. What `prove`
    writes is none, unless it has a table. Raises Failed.
    """
    if not folder.is_dir():
        told = f"name its folder, and -k {folder.stem}" if folder.exists() else "it is not there"
        raise Failed(f"{folder} is no folder: {told}")
    listed = [path for path in folder.glob("*.inputs") if not COUNTEREXAMPLE.search(path.stem)]
    found = {path.with_suffix(".expected") for path in listed} | set(folder.glob("*.expected"))
    if not found:
        raise Failed(f"there is no NAME.inputs in {folder}")
    return sorted(found)


def scenarios_of(folders: List[str], names: List[str]) -> List[pathlib.Path]:
    """The expected tables of the scenarios of all folders that are asked for by these names. Raises
    Failed.
    """
    found = [path for folder in folders for path in scenarios_in(pathlib.Path(folder))]
    wanted = [path for path in dict.fromkeys(found) if is_chosen(path.stem, names)]
    if not wanted:
        raise Failed(f"no scenario in {' '.join(folders)} is called {' or '.join(names)}")
    return wanted


def is_chosen(name: str, patterns: List[str]) -> bool:
    """Whether a scenario is run, where these are asked for: a part of its name, or a pattern with
    `*`.
    """
    return not patterns or any(
        fnmatch.fnmatchcase(name, pattern if "*" in pattern else f"*{pattern}*")
        for pattern in patterns
    )


def report_of(arguments: argparse.Namespace) -> Report:
    """How the outcomes are told."""
    if arguments.tap:
        return Tap()
    return Json() if arguments.json else Plain(Colours(sys.stdout), arguments.update)


def told_once(found: Outcome, before: List[Outcome]) -> Outcome:
    """An outcome without the lines of a fault that another one has told, as one of a text."""
    fault = found.told, found.lines
    first = next((one for one in before if (one.told, one.lines) == fault), None)
    if found.word == FAILED and found.lines and first:
        found.told, found.lines = f"{found.told} (as for {first.name})", []
    return found


def run_scenarios(arguments: argparse.Namespace, report: Report, outcomes: List[Outcome]) -> None:
    """Runs each scenario on one program, tells its outcome as it comes, and adds it. Raises Failed,
    Disconnected.
    """
    paths = scenarios_of(arguments.folder, arguments.k)
    report.begin(len(paths))
    program = program_of(arguments)
    with Stage(lambda: start(program)) as stage:
        for number, path in enumerate(paths, 1):
            outcomes.append(told_once(held(stage, path, arguments), outcomes))
            report.tell(number, outcomes[-1])
    report.end(outcomes)


def test(arguments: argparse.Namespace) -> int:
    """Runs each list of inputs of the folders on one program, with a line for each. Answers 1 where
    one failed. A file of JUnit is written in any case, and tells why the run ended early. Raises
    Failed, Disconnected.
    """
    folders = " ".join(folder.rstrip("/") or "/" for folder in arguments.folder)
    with told_in_xml(arguments.junit, folders, "the run") as outcomes:
        run_scenarios(arguments, report_of(arguments), outcomes)
    sys.stdout.flush()
    return int(any(outcome.word == FAILED for outcome in outcomes))
