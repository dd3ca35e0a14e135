"""Observers: modules that run beside a module, and emit an alarm where it does what it must not."""
from __future__ import annotations

from typing import List, Sequence

from ..library_text import LibraryText
from ..module_text import OFFERED, Module, modules_of, no_module
from ..texts import Failed
from .asking import Subject
from .claims import Claim

WORDS = {"input": "input", "output": "output", "inout": "inputoutput"}


def observer_of(subject: Subject, name: str) -> Module:
    """The module of this name, as an observer: all that it takes is there, and what it emits is its
    own. Raises Failed.
    """
    wrong = no_module(subject.library, name)
    if wrong:
        raise Failed(wrong)
    found = [module for module in modules_of(subject.library.text) if module.name == name]
    own = subject.module.kinds()
    missing = [signal for signal, kind in found[0].signals if kind in OFFERED and signal not in own]
    if missing:
        raise Failed(f"{subject.module.name} has no signal {missing[0]}, which {name} takes")
    emitted = [signal for signal in found[0].outputs() if signal in own]
    if emitted:
        told = f"{name} emits {emitted[0]}, a signal of {subject.module.name}"
        raise Failed(f"{told}: an observer emits signals of its own")
    return found[0]


def fresh_name(text: str, wanted: str) -> str:
    """A name that stands nowhere in the text."""
    while wanted in text:
        wanted += "_"
    return wanted


def beside(subject: Subject, observers: Sequence[Module], name: str) -> str:
    """The text of a module of this name that runs the module with its observers beside it."""
    lines = [f"module {name}:"]
    signals = subject.module.signals
    alarms = dict.fromkeys(alarm for module in observers for alarm in module.outputs())
    lines += [f"{WORDS[kind]} {signal};" for signal, kind in signals]
    lines += [f"output {alarm};" for alarm in alarms]
    lines += [f"relation {relation};" for relation in subject.module.relations]
    runs = [f"run {module.name}" for module in (subject.module, *observers)]
    return "\n".join([*lines, " || ".join(runs), "end module\n"])


def observed(subject: Subject, names: Sequence[str]) -> Subject:
    """The module with these observers beside it, as one module. Raises Failed."""
    if not names:
        return subject
    observers = [observer_of(subject, name) for name in names]
    library = subject.library
    text = library.text if library.text.endswith("\n") else library.text + "\n"
    name = fresh_name(text, f"{subject.module.name[:32]}_OBSERVED")  # a name has at most 48 bytes
    alarms = [(alarm, "output") for module in observers for alarm in module.outputs()]
    signals = list(dict.fromkeys([*subject.module.signals, *alarms]))
    runs = [subject.module.name, *names]
    module = Module(name, signals, subject.module.relations, runs)
    return Subject(LibraryText(text + beside(subject, observers, name), library.begins), module)


def alarm_claims(subject: Subject, names: Sequence[str]) -> List[Claim]:
    """That no observer ever emits: a claim for each alarm. Raises Failed."""
    observers = [observer_of(subject, name) for name in names]
    alarms = dict.fromkeys(alarm for module in observers for alarm in module.outputs())
    return [Claim("never", alarm) for alarm in alarms]
