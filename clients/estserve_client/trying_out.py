"""A text that is tried on a program of its own: its faults, or what its instants show. Nothing of a
team is read or changed.
"""
from __future__ import annotations

import time
from typing import TYPE_CHECKING, Any, Dict, List, Optional, Sequence

from .ahead import Ahead
from .command_table import IDENTIFIER, OF_TEXTS
from .connection import NotText, Refusal, TooLong, start
from .diagnosis import diagnose_load
from .library_text import join_texts
from .module_text import Module, main_of
from .scenarios import LOGIN, grants_of
from .sentences import sentence

if TYPE_CHECKING:
    from .connection import Path

SECONDS = 5.0  # a trial takes at most so long
INSTANTS = 20_000  # and has at most so many
NAME = "text"  # of the text, in places
LETTERS = {True: "1", False: "0"}
Told = Dict[str, Any]
Names = Sequence[Sequence[str]]


def fault(told: str) -> Told:
    """What is told of a text that can't be tried."""
    return {"fault": told}


def diagnosis_of(refusal: Refusal) -> Told:
    """What the refusal of a load means: the fault, its sentence, places of the text, remedies."""
    library = join_texts([(NAME, refusal.command["text"])])
    return diagnose_load(refusal, library, refusal.command["main"]).as_json()


def refused(refusal: Refusal) -> Told:
    """What is told of a text that is not loaded."""
    if refusal.code in OF_TEXTS:
        return {"diagnosis": diagnosis_of(refusal)}
    return fault(sentence(refusal))


def words_fault(text: Any, main: Any, inputs: Any) -> Optional[str]:
    """What is out of form in what is to be tried; None where nothing is."""
    if not isinstance(text, str):
        return "there is no text"
    if main is not None and not (isinstance(main, str) and IDENTIFIER.fullmatch(main)):
        return "the main module is no identifier"
    if not isinstance(inputs, list) or not all(isinstance(names, list) for names in inputs):
        return "the inputs are a list with a list of names for each instant"
    names = {name if isinstance(name, str) else "" for names in inputs for name in names}
    if not all(map(IDENTIFIER.fullmatch, names)):
        return "an input is no identifier"
    return f"at most {INSTANTS:,} instants are tried" if len(inputs) > INSTANTS else None


class Trial:
    """One text on one program."""

    def __init__(self, program: Optional[Path], text: str, module: Module) -> None:
        self.text, self.module = text, module
        self.until = time.monotonic() + SECONDS
        self.client = start(program, SECONDS, is_quiet=True)

    def is_over(self) -> bool:
        """Whether the time of the trial is over."""
        return time.monotonic() > self.until

    def load(self) -> None:
        """Loads the text, and then lets all of it be driven and seen: a text may name thousands of
        signals, and one that is loaded has few. Raises Refusal, TooLong, NotText.
        """
        to_load, *others = grants_of(self.module)
        load = {"cmd": "load", "slot": 0, "main": self.module.name, "text": self.text}
        *_, answer = self.client.ask_all([LOGIN, to_load, load])
        if "code" in answer:
            raise Refusal(answer, load)
        self.client.ask_all(others)

    def run(self, inputs: Names) -> Told:
        """The rows of the instants, and what is said of the one that was refused."""
        names = [name for name, _ in self.module.signals]
        word = [tuple(names) for names in inputs]
        ahead, rows, ended = Ahead(self.client, word), [], None
        try:
            for instants in ahead.instants(self.is_over):
                rows += ["".join(LETTERS[shown[name]] for name in names) for shown in instants]
        except Refusal as refusal:
            ended = self.told_of(refusal, word[: ahead.number])
        return {"rows": rows, "ended": ended}

    def told_of(self, refusal: Refusal, word: Names) -> str:
        """What is said of the last instant of a word, which was refused."""
        more = self.stuck_lines(word) if refusal.fault == "Stuck" else []
        return "\n".join([sentence(refusal, self.module.relations), *more])

    def stuck_lines(self, word: Names) -> List[str]:
        """What waits for what in the last instant of a word, which is stuck."""
        from .lab.asking import Subject, start_lab
        from .lab.stuck import stuck_lines

        subject = Subject(join_texts([(NAME, self.text)]), self.module)
        return stuck_lines(lambda: start_lab(None, SECONDS, searches=False), subject, word)


def unknown_inputs(module: Module, inputs: Names) -> List[str]:
    """The names that the module can't be offered, each once."""
    known = set(module.inputs())
    return sorted({name for names in inputs for name in names if name not in known})


def try_text(
    program: Optional[Path], text: Any, main: Any = None, inputs: Any = None
) -> Dict[str, Any]:
    """What becomes of a text on a program of its own. A `fault` where it can't be tried; a
    `diagnosis` where it is refused; else its main module, its signals, the rows of its instants as
    letters 0 and 1, the refusal that `ended` them, and the inputs that were `left` out, which it has
    not. Where its time was over there are fewer rows than inputs.

    Raises Disconnected, TimedOut.
    """
    inputs = [] if inputs is None else inputs
    told = words_fault(text, main, inputs)
    if told:
        return fault(told)
    module = main_of(text, main)
    trial = Trial(program, text, module)
    try:
        trial.load()
        left = unknown_inputs(module, inputs)
        offered = [[name for name in names if name not in left] for names in inputs]
        shown = {"main": module.name, "signals": [list(one) for one in module.signals]}
        return {**shown, **trial.run(offered), "left": left}
    except Refusal as refusal:
        return refused(refusal)
    except (TooLong, NotText) as error:
        return fault(str(error))
    finally:
        trial.client.close()
