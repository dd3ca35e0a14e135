"""What came of scenarios, and how it is written for people and for machines: lines, TAP, JSON, and
the XML of JUnit that CI servers read.
"""
from __future__ import annotations

import contextlib
import dataclasses
import json
from typing import Any, Dict, Iterator, List, Optional

from .colours import Colours
from .connection import Disconnected
from .expecting import ANEW, WRITTEN
from .texts import Failed, write_lines

PASSED, FAILED = "ok", "FAILED"
ERROR = "ERROR"  # of what could not be tried, since the run of all ended before
FAULTS = {FAILED: "failure", ERROR: "error"}  # the elements of JUnit
NOT_IN_XML = {number: "?" for number in range(32) if chr(number) not in "\t\n"}


@dataclasses.dataclass
class Outcome:
    """What came of one scenario: its name, the word for it, what is said, the lines of a difference,
    its file, how many seconds it took, its module, where that was found, and its folder, where there
    are several.
    """

    name: str
    word: str
    told: str
    lines: List[str]
    path: str
    seconds: float = 0.0
    module: str = ""
    folder: str = ""

    @property
    def line(self) -> str:
        """It in one line, without its word."""
        name = f"{self.folder}/{self.name}" if self.folder else self.name
        return f"{name}{f' ({self.module})' if self.module else ''}: {self.told}"

    def as_json(self) -> Dict[str, Any]:
        """It as an object of JSON."""
        told = {"name": self.name, "module": self.module, "outcome": self.word.lower()}
        told.update(told=self.told)
        return {**told, "lines": self.lines, "file": self.path, "seconds": round(self.seconds, 6)}


def counts_of(outcomes: List[Outcome]) -> Dict[str, int]:
    """How many there are of each word; what is written anew is written."""
    words = [WRITTEN if outcome.word == ANEW else outcome.word for outcome in outcomes]
    return {word: words.count(word) for word in (PASSED, FAILED, WRITTEN, ERROR)}


class Plain:
    """Lines for people: one for each scenario as it comes, and the counts at the end."""

    def __init__(self, colours: Colours, updates: bool) -> None:
        self.colours, self.updates = colours, updates

    def begin(self, count: int) -> None:
        """Tells nothing: there is a count at the end."""

    def tell(self, number: int, outcome: Outcome) -> None:
        word = self.colours.word(f"{outcome.word:<7}", outcome.word != FAILED)
        lines = map(self.colours.of_diff, outcome.lines)
        print("\n".join([f"{word} {outcome.line}", *lines]), flush=True)

    def end(self, outcomes: List[Outcome]) -> None:
        counts = counts_of(outcomes)
        written = f", {counts[WRITTEN]} written" if self.updates else ""
        print(f"{counts[PASSED]} passed, {counts[FAILED]} failed{written}", flush=True)


class Tap:
    """Lines of the Test Anything Protocol, version 13."""

    def begin(self, count: int) -> None:
        print(f"TAP version 13\n1..{count}", flush=True)

    def tell(self, number: int, outcome: Outcome) -> None:
        is_ok = "not ok" if outcome.word == FAILED else "ok"
        print(f"{is_ok} {number} - {outcome.line}".replace("#", "\\#"))
        print("".join(f"# {line}\n" for line in outcome.lines), end="", flush=True)

    def end(self, outcomes: List[Outcome]) -> None:
        """Tells nothing: the plan stands at the beginning."""


class Json:
    """One object of JSON at the end."""

    def begin(self, count: int) -> None:
        """Tells nothing yet."""

    def tell(self, number: int, outcome: Outcome) -> None:
        """Tells nothing yet."""

    def end(self, outcomes: List[Outcome]) -> None:
        counts = counts_of(outcomes)
        told = {"passed": counts[PASSED], "failed": counts[FAILED], "written": counts[WRITTEN]}
        scenarios = [outcome.as_json() for outcome in outcomes]
        print(json.dumps({**told, "scenarios": scenarios}, indent=1), flush=True)


def case_lines(suite: str, outcome: Outcome) -> List[str]:
    """The lines of one scenario in a file of JUnit."""
    told = {"classname": outcome.folder or suite, "name": outcome.name, "file": outcome.path}
    attributes = " ".join(f'{key}="{escaped(text)}"' for key, text in told.items())
    attributes += f' time="{outcome.seconds:.6f}"'
    lines = []
    if outcome.module:
        one = f'<property name="module" value="{escaped(outcome.module)}"/>'
        lines.append(f"    <properties>{one}</properties>")
    if outcome.word in FAULTS:
        tag, detail = FAULTS[outcome.word], escaped("\n".join([outcome.told, *outcome.lines]))
        lines.append(f'    <{tag} message="{escaped(outcome.told)}">{detail}</{tag}>')
    return [f"  <testcase {attributes}>", *lines, "  </testcase>"]


def escaped(text: str) -> str:
    """A text as it stands in a file of XML, between tags or quotes."""
    for letter, name in (("&", "amp"), ("<", "lt"), (">", "gt"), ('"', "quot")):
        text = text.replace(letter, f"&{name};")
    return text.translate(NOT_IN_XML).encode("utf-8", "replace").decode()


@contextlib.contextmanager
def told_in_xml(path: Optional[str], suite: str, name: str) -> Iterator[List[Outcome]]:
    """A list of outcomes, which ends as a file of JUnit where one is named, in any case: where all of it
    ends early, that is an outcome of this name.
    """
    outcomes: List[Outcome] = []
    try:
        yield outcomes
    except (Failed, Disconnected) as fault:
        outcomes.append(Outcome(name, ERROR, str(fault), [], suite))
        raise
    finally:
        if path:
            write_junit(path, suite, outcomes)


def write_junit(path: str, suite: str, outcomes: List[Outcome]) -> None:
    """Writes a file of JUnit's XML. Raises Failed."""
    counts, seconds = counts_of(outcomes), sum(outcome.seconds for outcome in outcomes)
    counted = f'tests="{len(outcomes)}" failures="{counts[FAILED]}" errors="{counts[ERROR]}"'
    counted += f' time="{seconds:.6f}"'
    cases = [line for outcome in outcomes for line in case_lines(suite, outcome)]
    head = [
        '<?xml version="1.0" encoding="UTF-8"?>',
        f'<testsuite name="{escaped(suite)}" {counted}>',
    ]
    write_lines(path, [*head, *cases, "</testsuite>"])
