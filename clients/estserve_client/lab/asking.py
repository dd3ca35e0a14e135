"""Questions to the program `estlab`, which is started for one command of the client."""
from __future__ import annotations

import dataclasses
import io
import os
import signal
import subprocess
import sys
import threading
import time
from typing import TYPE_CHECKING, Any, Dict, List, Optional, Sequence

from ..colours import has_colours
from ..command_table import OF_TEXTS
from ..connection import Client, Disconnected, Refusal, close_all, find_program
from ..load_faults import load_fault
from ..module_text import Module, main_of, no_module
from ..programs import unproved_program
from ..texts import Failed, read_library
from .table import Table

if TYPE_CHECKING:
    import argparse

    from ..connection import Path
    from ..library_text import LibraryText

    Word = List[Dict[str, Any]]  # instants as the program writes them: inputs, outputs or undecided

MOST = 1_000_000  # states, and reactions, unless another number is asked for
RENEWED = 2.0  # seconds between two lines on a long search
FIRST, GROWTH = 20_000, 10  # where a search is first told of, and by how much it goes on then
SOON = 2_000  # where that for a table is, which is told of at a terminal alone


@dataclasses.dataclass(frozen=True)
class Subject:
    """A module of which something is asked, and the library that it stands in."""

    library: LibraryText
    module: Module


@dataclasses.dataclass(frozen=True)
class Verdict:
    """What is answered to a claim: `holds`, `fails` with a shortest word, or `toomany`."""

    name: str
    word: Word


@dataclasses.dataclass(frozen=True)
class Explored:
    """What a search answers: on `never Stuck`, on each claim, and how much it found."""

    stuck: Verdict
    verdicts: List[Verdict]
    states: int
    reactions: int


def verdict_of(told: Dict[str, Any]) -> Verdict:
    """A verdict as the program writes it."""
    return Verdict(told["verdict"], told.get("word", []))


def read_subject(paths: Sequence[Path], main: Optional[str]) -> Subject:
    """The module that is asked for by files and a name. Raises Failed."""
    library = read_library(paths)
    wrong = no_module(library, main) if main else ""
    if wrong:
        raise Failed(wrong)
    return Subject(library, main_of(library.text, main))


def read_other(path: Path, main: Optional[str]) -> Subject:
    """The module to compare with: that of the same name, or the main one of its text. Raises Failed."""
    library = read_library([path])
    is_there = main is not None and not no_module(library, main)
    return Subject(library, main_of(library.text, main if is_there else None))


def end_search(child: subprocess.Popen[bytes]) -> None:
    """Ends the program at once, also in the midst of a search: nothing is kept in it."""
    child.kill()
    close_all((child.stdin, child.stdout))
    child.wait()


def end_command(number: int, _: Any) -> None:
    """Ends the command as the signal asks, by which its search is ended too."""
    raise SystemExit(128 + number)


def start_lab(
    named: Optional[Path] = None, timeout: Optional[float] = None, searches: bool = True
) -> Lab:
    """The program that is named, or the one that is found, started; with a `timeout` answers are waited
    for so many seconds. One that `searches` is ended by a signal too. Raises Disconnected.
    """
    program = find_program(named, "estlab")
    if searches and threading.current_thread() is threading.main_thread():
        for number in (signal.SIGTERM, signal.SIGHUP):  # before there is something to end
            signal.signal(number, end_command)
    try:
        child = subprocess.Popen(
            [program], stdin=subprocess.PIPE, stdout=subprocess.PIPE, start_new_session=True
        )
    except (OSError, ValueError) as fault:
        told = getattr(fault, "strerror", None) or fault
        raise Disconnected(f"{program} cannot be started: {told}") from fault
    assert isinstance(child.stdout, io.BufferedReader) and child.stdin
    client = Client(child.stdout, child.stdin, lambda: end_search(child), timeout)
    client.program = program
    return Lab(client)


def lab_of(arguments: argparse.Namespace) -> Lab:
    """The program that the arguments name, or one that is built without proof. Raises
    Disconnected.
    """
    return start_lab(unproved_program("estlab") if arguments.unproved else arguments.estlab)


def lab_beside(arguments: argparse.Namespace) -> Lab:
    """The program beside a run or a shell: the one that is named, or one that is built without proof
    where that is asked for, unless the variable ESTLAB names one. Raises Disconnected.
    """
    builds = arguments.unproved and not arguments.estlab and not os.environ.get("ESTLAB")
    program = unproved_program("estlab") if builds else arguments.estlab
    return start_lab(program, searches=False)


def tell_search(states: int, reactions: int) -> None:
    """Tells a person at a terminal how far a long search has come."""
    if sys.stderr.isatty() and has_colours(sys.stderr):
        told = f"{states:,} states and {reactions:,} reactions are found; searching on"
        print(f"\r{told}", end="", file=sys.stderr, flush=True)


def clear_line() -> None:
    """Takes away what was told of a search."""
    if sys.stderr.isatty() and has_colours(sys.stderr):
        print("\r\033[K", end="", file=sys.stderr, flush=True)


class Searching:
    """Tells a person at a terminal, every few seconds, how far a long search has come."""

    def __init__(self) -> None:
        self.is_told = sys.stderr.isatty() and has_colours(sys.stderr)
        self.found, self.begun, self.ended = "", time.monotonic(), threading.Event()
        self.teller = threading.Thread(target=self.tell, daemon=True)

    def __enter__(self) -> Searching:
        if self.is_told:
            self.teller.start()
        return self

    def __exit__(self, *_: object) -> None:
        if self.is_told:
            self.ended.set()
            self.teller.join()
            clear_line()

    def note(self, states: int, reactions: int) -> None:
        """Notes what was found, with which the next lines begin."""
        self.found = f"{states:,} states and {reactions:,} reactions are found; "

    def tell(self) -> None:
        """Tells it again and again, until the search has ended."""
        while not self.ended.wait(RENEWED):
            told = f"{self.found}searching for {time.monotonic() - self.begun:.0f} s"
            print(f"\r{told}", end="", file=sys.stderr, flush=True)


class Lab:
    """The program estlab, which has one module loaded. Used with `with`, it doesn't outlive the
    command, also where that is ended by a signal in the midst of a search.
    """

    def __init__(self, client: Client) -> None:
        self.client = client
        self.relations: List[str] = []  # of what is loaded

    def __enter__(self) -> Lab:
        return self

    def __exit__(self, *_: object) -> None:
        self.client.close()

    def load(self, subject: Subject) -> None:
        """Loads a module. Raises Failed where its text is refused, and TooLong."""
        main, text = subject.module.name, subject.library.text
        try:
            self.client.ask("load", main=main, text=text)
            self.relations = subject.module.relations
        except Refusal as refusal:
            if refusal.code in OF_TEXTS:
                raise load_fault(refusal, subject.library, main) from refusal
            raise

    def explore(self, claims: Sequence[str], inputs: Sequence[str], most: int) -> Explored:
        """Judges claims in every run in which these inputs may be offered. Raises Refusal."""
        limit = min(FIRST, most)
        while True:
            told = self.client.ask("explore", claims=list(claims), inputs=list(inputs), most=limit)
            verdicts = [verdict_of(one) for one in (told["stuck"], *told["verdicts"])]
            if limit == most or all(one.name != "toomany" for one in verdicts):
                clear_line()
                return Explored(verdicts[0], verdicts[1:], told["states"], told["reactions"])
            tell_search(told["states"], told["reactions"])
            limit = min(limit * GROWTH, most)

    def same(self, other: Subject, inputs: Sequence[str], most: int) -> Dict[str, Any]:
        """Whether the module that is loaded does the same as another one. Raises Failed where that
        one's text is refused, and Refusal.
        """
        words = {"main": other.module.name, "text": other.library.text}
        try:
            return self.client.ask("same", inputs=list(inputs), most=most, **words)
        except Refusal as refusal:
            if refusal.code in OF_TEXTS:
                raise load_fault(refusal, other.library, other.module.name) from refusal
            raise

    def table(self, inputs: Sequence[str], most: int) -> Table:
        """The closed table of what is loaded. Raises Failed where it is too large, and Refusal."""
        with Searching() as searching:
            limit = min(SOON, most) if searching.is_told else most
            while True:
                try:
                    told = self.client.ask("table", inputs=list(inputs), most=limit)
                    return Table(told["states"], told["rows"], self.relations)
                except Refusal as refusal:
                    if refusal.fault != "TooMany":
                        raise
                    if limit == most:
                        found = f"{most:,} states or reactions: --most allows more"
                        raise Failed(f"there are more than {found}") from refusal
                    searching.note(refusal.fields["states"], refusal.fields["reactions"])
                limit = min(limit * GROWTH, most)
