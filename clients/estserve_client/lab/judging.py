"""What is asked of a module, and what is found: a verdict on each claim."""
from __future__ import annotations

import dataclasses
import itertools
import time
from typing import TYPE_CHECKING, Any, Dict, List, Optional, Tuple

from ..connection import Refusal
from ..sentences import sentence
from ..texts import Failed, Placed
from .asking import Subject
from .claims import Claim
from .observing import WORDS

if TYPE_CHECKING:
    from ..module_text import Module
    from .asking import Explored, Lab, Word

STUCK = "it is never Stuck"


@dataclasses.dataclass(frozen=True)
class Question:
    """What is asked: claims of a module, alone and with its observers beside it; the inputs that
    may be offered; what else is to do the same; how many states and reactions may be found.
    """

    module: Subject
    subject: Subject
    claims: List[Claim]
    inputs: List[str]
    same: List[Subject]
    most: int


@dataclasses.dataclass(frozen=True)
class Finding:
    """What is found of one claim: `holds`, `fails` with a shortest word, or `toomany`. `other` is
    the module that does otherwise, where that was asked.
    """

    claim: str
    name: str
    word: Word
    other: Optional[Subject] = None


@dataclasses.dataclass(frozen=True)
class Found:
    """All that is found, and how many states and reactions the search for the claims found, and
    how many seconds all took: claims are judged together.
    """

    findings: List[Finding]
    states: int
    reactions: int
    seconds: float = 0.0

    def of(self, name: str) -> List[Finding]:
        """The findings of a verdict."""
        return [finding for finding in self.findings if finding.name == name]

    @property
    def status(self) -> int:
        """0 where all holds, 1 where something fails, else 3."""
        return 1 if self.of("fails") else 3 if self.of("toomany") else 0


def place_told(claim: Claim, why: Dict[str, Any]) -> str:
    """The claim with a caret under the place of a fault; what ends too early has it at its end."""
    column = why["column"] if why["line"] == 1 else len(claim.text) + 1
    return f"{claim.text}\n{' ' * (column - 1)}^"


def no_signal(name: str, question: Question) -> str:
    """What is said of a name in a claim that is none of the interface."""
    from ..close_words import meant
    from ..scopes import local_signals

    subject = question.subject
    told = f"{question.module.module.name} has no input or output {name}"
    if name in local_signals(subject.library.text):
        return f"{told}: it is a local signal, of which nothing can be claimed"
    other = meant(name, subject.module.kinds())
    return told + (f"; {other}" if other else "")


def why_wrong(claim: Claim, why: Dict[str, Any], question: Question) -> str:
    """What is said of the fault of a claim, and what other languages write there."""
    from ..other_habits import SYMBOLS

    if why["fault"] == "UnknownName":
        return no_signal(why["name"], question)
    if "column" in why:
        is_lexical, at = why["fault"] == "Lexical", why["column"] - 1
        told = "no token stands here" if is_lexical else "a test can't go on so"
        habit = SYMBOLS.get(claim.text[at : at + 1]) if is_lexical else None
        return "\n".join([told, place_told(claim, why), *([habit] if habit else [])])
    return sentence(Refusal(why)).partition(": ")[2]


def wrong_claim(refusal: Refusal, question: Question) -> Failed:
    """What a command ends with whose claim can't be read."""
    claim = question.claims[refusal.fields["claim"] - 1]
    told = why_wrong(claim, refusal.fields["why"], question)
    text = f"the claim `{claim.text}` cannot be read: {told}"
    return Placed(f"{claim.place}: {text}") if claim.place else Failed(text)


def explored(lab: Lab, question: Question) -> Explored:
    """The verdicts on the claims of what is loaded. Raises Failed."""
    texts = [claim.text for claim in question.claims]
    try:
        return lab.explore(texts, question.inputs, question.most)
    except Refusal as refusal:
        if refusal.fault != "Claim":
            raise
        raise wrong_claim(refusal, question) from refusal


def unlike(first: Module, second: Module) -> str:
    """Where the interfaces of two modules begin to differ."""
    for one, another in itertools.zip_longest(first.signals, second.signals, fillvalue=("", "")):
        if one != another:
            has, other_has = (
                f"{WORDS[kind]} {name}" if name else "nothing more" for name, kind in (one, another)
            )
            return f": {first.name} has {has} where {second.name} has {other_has}"
    return ""


def compared(lab: Lab, question: Question, other: Subject) -> Finding:
    """What is found of a module that is to do the same. Raises Failed."""
    told = f"the same as {' '.join(other.library.paths)}"
    try:
        answer = lab.same(other, question.inputs, question.most)
    except Refusal as refusal:
        if refusal.fault != "Interface":
            raise
        why = "they don't declare the same signals in the same order"
        where = unlike(question.module.module, other.module)
        raise Failed(f"{told}: {why}{where}") from refusal
    name = {"same": "holds", "differ": "fails"}.get(answer["verdict"], answer["verdict"])
    return Finding(told, name, answer.get("word", []), other)


def judge(lab: Lab, question: Question) -> Found:
    """What is found of each claim. Raises Failed, Refusal."""
    begun = time.monotonic()
    lab.load(question.module)
    findings = [compared(lab, question, other) for other in question.same]
    if question.subject is not question.module:
        lab.load(question.subject)
    answer = explored(lab, question)
    verdicts = [(STUCK, answer.stuck)]
    verdicts += [(claim.text, one) for claim, one in zip(question.claims, answer.verdicts)]
    own = [Finding(told, one.name, one.word) for told, one in verdicts]
    seconds = time.monotonic() - begun
    return Found(own + findings, answer.states, answer.reactions, seconds)


def check_inputs(subject: Subject, named: Optional[List[str]]) -> List[str]:
    """What may be offered: the inputs that are named, or all. Raises Failed."""
    inputs = subject.module.inputs()
    wrong = [name for name in named or () if name not in inputs]
    if wrong:
        from ..close_words import meant

        question = meant(wrong[0], inputs)
        told = f"{subject.module.name} has no input {wrong[0]}"
        raise Failed(told + (f"; {question}" if question else ""))
    return inputs if named is None else [name for name in inputs if name in named]


def sides_of(word: Word) -> Tuple[Word, Word]:
    """What each of two modules does with a word by which they differ."""
    first, second = (
        [{"inputs": told["inputs"], **told[side]} for told in word] for side in ("first", "second")
    )
    return first, second
