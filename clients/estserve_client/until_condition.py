"""A test that a run goes on until: over signals of the interface, and local ones as `MOTOR.OVER`."""
from __future__ import annotations

import re
from typing import Dict, Iterable, List

from .close_words import meant
from .syntax_tree import KEYWORDS, NoTree, Reader, Test, Token
from .texts import Failed

PIECE = re.compile(r"[A-Za-z]\w*(?:\.[A-Za-z]\w*)*|\S", re.ASCII)
TICK = "tick"


class TestReader(Reader):
    """Reads a test in which names may have those of modules before them."""

    def name(self) -> Token:
        text = self.peek()
        if not text[:1].isalpha() or text in KEYWORDS:
            raise NoTree()
        return self.advance()


def read_test(text: str) -> Test:
    """The test that a text is. Raises Failed."""
    pieces = PIECE.finditer(text)
    reader = TestReader([Token(piece.group(), 1, piece.start() + 1) for piece in pieces])
    try:
        test = reader.test()
    except (NoTree, RecursionError):
        test = None
    if test is None or reader.peek():
        raise Failed(f"--until {text}: this is no test, as `A and not B`")
    return test


def holds(test: Test, instant: Dict[str, bool]) -> bool:
    """Whether a test holds in an instant, which has all its signals."""
    if test.kind == "name":
        return test.at.text == TICK or bool(instant[test.at.text])
    if test.kind == "not":
        return not holds(test.parts[0], instant)
    return (any if test.kind == "or" else all)(holds(part, instant) for part in test.parts)


class Until:
    """A test that ends a run: its text, and whether it has come to hold."""

    def __init__(self, text: str, shown: Iterable[str], hidden: Iterable[str]) -> None:
        """`shown` are the signals that an instant has, `hidden` those that may not be observed. Raises
        Failed.
        """
        self.text, self.test, self.is_met = text, read_test(text), False
        known = [*shown, TICK]
        for name in (token.text for token in self.test.names()):
            if name in set(hidden):
                raise Failed(f"--until {text}: {name} may not be observed")
            if name not in known:
                question = meant(name, known)
                told = f"--until {text}: there is no signal {name}"
                raise Failed(told + (f": {question}" if question else ""))

    def cut(self, instants: List[Dict[str, bool]]) -> List[Dict[str, bool]]:
        """The instants up to the first one in which the test holds."""
        for at, instant in enumerate(instants, 1):
            if holds(self.test, instant):
                self.is_met = True
                return instants[:at]
        return instants
