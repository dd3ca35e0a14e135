"""Tests of signals, and the statements that ask them, written as they could stand in a text."""
from __future__ import annotations

from .syntax_tree import Node, Test

BINDS = {"or": 0, "and": 1, "not": 2, "name": 3}  # how tight
WORDS = {
    "weak": "weak abort when",
    "abort": "abort when",
    "suspend": "suspend when",
    "each": "loop each",
}


def written(test: Test, least: int = 0) -> str:
    """A test as it could stand in a text, in parentheses where it binds less tight than `least`."""
    binds = BINDS[test.kind]
    if test.kind == "name":
        return test.at.text
    if test.kind == "not":
        told = f"not {written(test.parts[0], binds)}"
    else:
        told = f" {test.kind} ".join(written(part, binds + 1) for part in test.parts)
    return f"({told})" if binds < least else told


def headed(node: Node) -> str:
    """A statement's words, without the statements in it."""
    word = WORDS.get(node.kind, node.kind) + (" immediate" if node.immediate else "")
    if node.test:
        return f"{word} {written(node.test)}"
    return " ".join([word, *(name.text for name in node.names)])
