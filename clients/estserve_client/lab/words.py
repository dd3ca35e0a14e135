"""Words of inputs: as a list that `run` takes, in one line, and as a picture."""
from __future__ import annotations

import contextlib
import sys
from typing import TYPE_CHECKING, Any, Dict, Iterable, List, Sequence

from ..connection import Refusal
from ..drawing import waves_for
from ..module_text import OFFERED
from ..pictures import Seen
from ..sentences import sentence
from .stuck import stuck_lines

if TYPE_CHECKING:
    from ..pictures import Instant, Signals
    from .asking import Lab, Subject, Word
    from .table import Row


def inputs_line(names: Iterable[str]) -> str:
    """The inputs of an instant, as a line of a list."""
    return " ".join(names) or ";"


def in_one_line(word: Sequence[Iterable[str]]) -> str:
    """The inputs of a word as one line of a list, `;` between its instants."""
    pieces = [" ".join(names) for names in word]
    return "; ".join(pieces) + ("" if pieces and pieces[-1] else ";")


def ordered(names: Iterable[str], subject: Subject) -> List[str]:
    """Names of inputs in the order of their declaration."""
    wanted = set(names)
    return [name for name in subject.module.inputs() if name in wanted]


def word_of(rows: Iterable[Row], subject: Subject) -> List[List[str]]:
    """The inputs of rows of a table, in the order of their declaration."""
    return [ordered(row.inputs, subject) for row in rows]


def instant_of(told: Dict[str, Any], inputs: Iterable[str], signals: Signals) -> Instant:
    """An instant as it is drawn. Of what stays undecided nothing is drawn."""
    present = {*inputs, *told.get("outputs", ())}
    is_stuck = "undecided" in told
    return {
        name: name in present
        for name, kind in signals
        if not is_stuck or kind in OFFERED and (kind == "input" or name in present)
    }


def seen_of(word: Word, subject: Subject) -> Seen:
    """A counterexample as it is drawn."""
    signals = subject.module.signals
    instants = [instant_of(told, told["inputs"], signals) for told in word]
    return Seen(subject.module.name, signals, instants)


def wave_of(seen: Seen) -> List[str]:
    """The lines of a wave, as standard output can show them."""
    return waves_for(sys.stdout, seen)


def lines_of_stuck(lab: Lab, word: Word, subject: Subject) -> List[str]:
    """What is said of a word whose last instant is Stuck. The program has another module loaded
    then.
    """
    refusal = Refusal({"code": 50, "fault": "Stuck", "undecided": list(word[-1]["undecided"])})
    told = f"instant {len(word)}: {sentence(refusal)}"
    inputs = [instant["inputs"] for instant in word]
    return [told, *stuck_lines(lambda: contextlib.nullcontext(lab), subject, inputs)]
