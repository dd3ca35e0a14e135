"""The words that can go on at a place of a text: those that the grammar takes there, and the names
that are known there.
"""
from __future__ import annotations

from typing import List, Tuple

from ..module_text import modules_of
from ..syntax_faults import is_name, spot_at
from ..syntax_tree import A_NAME, Token, tokens_of

KEYWORD, NAME, MODULE = 14, 6, 9  # kinds of what is offered, by the protocol
Word = Tuple[str, int]


def before(tokens: List[Token], line: int, column: int) -> List[Token]:
    """The tokens before the word in which, or at whose end, a place lies."""
    found = [token for token in tokens if (token.line, token.column) < (line, column)]
    if found and found[-1].text[0].isalpha():
        last = found[-1]
        if (last.line, last.column + len(last.text)) >= (line, column):
            found.pop()
    return found


def names_after(tokens: List[Token], words: Tuple[str, ...]) -> List[str]:
    """The names that stand after these words, with commas between them."""
    found, declares = [], False
    for token in tokens:
        if token.text in words:
            declares = True
        elif declares and is_name(token.text):
            found.append(token.text)
        elif token.text != ",":
            declares = False
    return found


def of_module(tokens: List[Token], count: int) -> List[Token]:
    """The tokens of the module in which the token after so many stands."""
    begins = [
        at
        for at, token in enumerate(tokens)
        if token.text == "module" and (at == 0 or tokens[at - 1].text != "end")
    ]
    first = max([at for at in begins if at <= count], default=0)
    return tokens[first : min([at for at in begins if at > count], default=len(tokens))]


def names_at(text: str, tokens: List[Token], kept: List[Token]) -> List[Word]:
    """The names that can stand after these tokens of a text."""
    word = kept[-1].text if kept else ""
    if word == "run":
        return [(module.name, MODULE) for module in modules_of(text)]
    module = of_module(tokens, len(kept))
    if word in ("exit", "trap"):
        return [(name, NAME) for name in names_after(module, ("trap",))] if word == "exit" else []
    if word in ("module", "signal", "input", "output", "inputoutput", ""):
        return []
    declared = names_after(module, ("input", "output", "inputoutput", "signal"))
    return [(name, NAME) for name in [*declared, "tick"]]


def words_at(text: str, line: int, column: int) -> List[Word]:
    """The words that can stand at a place."""
    tokens = tokens_of(text)
    kept = before(tokens, line, column)
    spot = spot_at([*kept, Token("?", line, column)], line, column)
    words = [(word, KEYWORD) for word in spot.words() if word.isalpha()]
    names = names_at(text, tokens, kept) if A_NAME in spot.wanted else []
    return list(dict.fromkeys([*names, *words]))
