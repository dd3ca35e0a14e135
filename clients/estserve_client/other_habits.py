"""What people write who know other languages: named where a text stops at it, with what stands here
in its place.
"""
from __future__ import annotations

import re
from typing import List, Optional

from .syntax_tree import KEYWORDS, Token

LONGEST = 48  # bytes of a name
A_COMMENT = "comments begin with `%`, or stand between `%{` and `}%`"
BEGINS = "a name begins with a letter"
SYMBOLS = {
    "&": "`and` stands between two signals of a test: `A and B`",
    "|": "`or` stands between two signals of a test, and `||` between what runs side by side",
    "!": "`not` stands before a signal of a test: `not A`",
    "~": "`not` stands before a signal of a test: `not A`",
    "=": "signals aren't set and compared: `emit A`, `present A then ..`; a relation is `A => B`",
    "<": "signals carry no values to compare",
    ">": "signals carry no values to compare",
    "{": "statements are kept together by `[` and `]`, or by a word and its `end`",
    "}": "statements are kept together by `[` and `]`, or by a word and its `end`",
    "_": BEGINS,
}
OF_OTHERS = {
    "while": "a loop is `loop p end`, and `abort` ends it: `abort loop p end when S`",
    "for": "a loop is `loop p end`, and `abort` ends it: `abort loop p end when S`",
    "begin": "statements are kept together by `[` and `]`",
    "endif": "a `present` ends by `end`",
    "elsif": "a further test stands in the `else`: `else present B then .. end end`",
    "elseif": "a further test stands in the `else`: `else present B then .. end end`",
    "elif": "a further test stands in the `else`: `else present B then .. end end`",
    "wait": "to wait for a signal is `await S`",
    "break": "`exit T` leaves the `trap T in .. end` around it",
}


def line_of(text: str, line: int) -> str:
    """The line of this number; empty where there is none."""
    lines = text.split("\n")
    return lines[line - 1] if line <= len(lines) else ""


def comment_at(text: str, line: int, column: int, tokens: List[Token]) -> str:
    """What is said of a place in what another language takes for a comment; else empty."""
    if re.search(r"//|/\*|--", line_of(text, line).partition("%")[0]):
        return A_COMMENT
    marks = [token for token in tokens if token.line == line and token.text == "#"]
    if not marks or marks[0].column > column:
        return ""
    before = [token for token in tokens if (token.line, token.column) < (line, marks[0].column)]
    begun = [token.text for token in before if token.text in (";", ":", "relation", "end")]
    return "" if begun[-1:] == ["relation"] else A_COMMENT


def of_word(word: str) -> Optional[str]:
    """What is said of a word that is too long, or of other languages; None of any other."""
    length = len(word.encode())
    if length > LONGEST:
        return f"a name has at most {LONGEST} bytes, and this one has {length}"
    if word.lower().startswith("end") and word[3:].lower() in KEYWORDS:
        return f"`end` and what it ends are two words: `end {word[3:].lower()}`"
    return OF_OTHERS.get(word.lower()) if word not in KEYWORDS else None


def number_in_name(line: int, column: int, tokens: List[Token]) -> str:
    """What is said of a name that begins with a digit; else empty."""
    for here, after in zip(tokens, tokens[1:]):
        if (here.line, here.column) == (line, column) and here.text.isdigit():
            is_joined = (after.line, after.column) == (line, column + len(here.text))
            return BEGINS if is_joined and after.text[0].isalpha() else ""
    return ""


def habit_at(text: str, line: int, column: int, tokens: List[Token]) -> Optional[str]:
    """What is said of what stands at a place of a text, of these tokens, that stands here otherwise;
    None where that isn't known.
    """
    if line_of(text, line).encode(errors="replace")[column - 1 :].startswith(b"%{"):
        return "this comment has no end: `}%`"
    here = next((token for token in tokens if (token.line, token.column) == (line, column)), None)
    if here is None:
        return None
    if re.match(r"[A-Za-z]", here.text):
        return of_word(here.text)
    if not here.text.isascii():
        return "names have the letters A to Z and a to z, digits and `_`"
    return SYMBOLS.get(here.text)
