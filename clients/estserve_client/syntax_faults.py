"""What is said of a place at which a text cannot go on: what could stand there, and what is open.

estserve tells the first token that cannot stand where it stands. The tokens before it are read once
more here, by the same grammar, to see what could have come next.
"""
from __future__ import annotations

import dataclasses
import re
from typing import Callable, List, Optional, Tuple

from .close_words import meant
from .syntax_tree import (
    A_DECLARATION,
    A_NAME,
    A_STATEMENT,
    DECLARATIONS,
    KEYWORDS,
    STATEMENTS,
    NoTree,
    Reader,
    Token,
)

KINDS = {A_NAME: (), A_STATEMENT: STATEMENTS, A_DECLARATION: DECLARATIONS}
JOINING = ("and", "or", ";", "||", ",", "#")  # what nearly any place can go on with
CLOSING = ("then", "else", "end", "when", "each", "do", "in", "]", ")", "signal")
WITH_END = ("present", "suspend", "abort", "weak", "loop", "every", "trap", "signal", "module")

BEFORE = "declarations stand before the body"
NO_STATEMENTS = {
    **{word: BEFORE for word in DECLARATIONS},
    "(": "statements are kept together by `[` and `]`",
    "end": "a part that does nothing is written `nothing`",
    "else": "a part that does nothing is written `nothing`",
}  # what is said of what stands in the place of a statement


# what stands in a text without a lexical fault: comments, blanks, words, symbols
FITS = re.compile(
    r"%\{.*?\}%|%(?!\{)[^\n]*|[ \t\r\n\f]+|[A-Za-z][A-Za-z0-9_]{0,47}(?![A-Za-z0-9_])"
    r"|\|\||=>|[;:,\[\]()#/]",
    re.DOTALL,
)


def lexical_at(text: str) -> Optional[Tuple[int, int]]:
    """The line and the column of the first place at which no token stands; None where there is
    none.
    """
    at = 0
    while at < len(text):
        match = FITS.match(text, at)
        if match is None:
            before = text[text.rfind("\n", 0, at) + 1 : at]
            return text.count("\n", 0, at) + 1, len(before.encode(errors="replace")) + 1
        at = match.end()
    return None


@dataclasses.dataclass
class Spot:
    """A place at which a text cannot go on: the tokens before it, its own, where there is one, what
    could stand there, and the first tokens of the parts that are open, and of the statement that was
    closed last.
    """

    before: List[Token]
    here: Optional[Token]
    wanted: List[str]
    open: List[Token]
    closed: Optional[Token]
    after: str  # the text of the token after its own
    name_line: Callable[[int], str] = "line {}".format  # what a line is called

    def last(self) -> str:
        """The text of the token before it; empty at the beginning of the text."""
        return self.before[-1].text if self.before else ""

    def word(self) -> str:
        """The text of its token; empty at the end of the text."""
        return self.here.text if self.here else ""

    def words(self) -> List[str]:
        """The words and symbols that could stand there."""
        return [word for wanted in self.wanted for word in KINDS.get(wanted, (wanted,))]


def spot_at(tokens: List[Token], line: int, column: int) -> Spot:
    """The place in a text of these tokens."""
    before = [token for token in tokens if (token.line, token.column) < (line, column)]
    reader = Reader(before)
    try:
        reader.library()
        reader.wanted = ["module"]
    except (NoTree, RecursionError):
        pass
    wanted = reader.wanted_last + (reader.wanted if reader.at == len(before) else [])
    here, after = [*tokens, None, None][len(before) : len(before) + 2]
    text = after.text if after else ""
    return Spot(before, here, list(dict.fromkeys(wanted)), reader.open, reader.closed, text)


def listed(words: List[str]) -> str:
    """Words in a row, each as it is written, the last after `or`."""
    quoted = [word if word in KINDS else f"`{word}`" for word in words]
    *first, last = quoted
    return f"{', '.join(first)} or {last}" if first else last


def told_of_open(spot: Spot, words: List[str]) -> str:
    """What is said of the part that is open, where one of these words goes on with it."""
    if not spot.open or not set(words) & set(CLOSING):
        return ""
    first = spot.open[-1]
    return f"; the `{first.text}` of {spot.name_line(first.line)} is open"


def expected_at(spot: Spot) -> str:
    """What could stand there, and what is open."""
    words = [word for word in spot.wanted if word not in JOINING]
    closed = wrong_end(spot)
    if closed:
        return closed
    is_next = spot.word() in STATEMENTS or spot.word() == "not" or is_name(spot.word())
    if ";" in spot.wanted and spot.word() in STATEMENTS:
        return f"a `;` is missing before `{spot.word()}`"
    if "and" in spot.wanted and is_next and not set(words) - {"end"}:
        words = ["and", "or", ";"] if ";" in spot.wanted else ["and", "or"]
    words = words or spot.wanted
    return f"{listed(words)} expected{told_of_open(spot, words)}" if words else ""


def wrong_end(spot: Spot) -> str:
    """What is said of an `end` with the word of another part than it closes; empty of any other."""
    is_end = spot.last() == "end" and spot.word() in WITH_END
    is_begun = spot.after in (*STATEMENTS, "not", "immediate") or is_name(spot.after)
    own = [word for word in spot.wanted if word in WITH_END]
    if not is_end or not own or not spot.closed or (is_begun and spot.word() != "module"):
        return ""
    closed = f"this `end` closes the `{spot.closed.text}` of {spot.name_line(spot.closed.line)}"
    if spot.word() == "module":
        return f"{closed}, so that one more is missing"
    return f"{closed}, and may stand alone or before `{own[0]}`"


def is_name(word: str) -> bool:
    return re.fullmatch(r"[A-Za-z]\w*", word, re.ASCII) is not None and word not in KEYWORDS


def advice_at(spot: Spot) -> str:
    """What is said besides, of a mistake that is often made; empty where it is none of these."""
    here, last = spot.word(), spot.last()
    if here == ";" and last == ";":
        return "one `;` is enough: take the other one away"
    if here == "||" and "or" in spot.wanted and ("then" in spot.wanted or ")" in spot.wanted):
        return "in a test write `or`"
    if here in ("and", "or") and last == "]":
        return "the brackets of a test stand around the whole of it"
    if A_NAME in spot.wanted and here in KEYWORDS and here != "end":
        return f"`{here}` is a word of the language, and no name"
    if spot.wanted == ["signal"] and last == "[":
        return "renamings begin with the word `signal`: `[signal I/IN]`"
    if spot.wanted == ["module"] and last == "end" and len(spot.open) == 1:
        return "a module ends by `end module`"
    if here == ";" and spot.wanted == ["module"] and last == "module":
        return "no `;` stands after a module"
    if A_STATEMENT in spot.wanted and here in NO_STATEMENTS:
        return NO_STATEMENTS[here]
    if not here and spot.open:
        return "the text ends before it is closed"
    return perhaps_meant(spot)


def perhaps_meant(spot: Spot) -> str:
    """A keyword that was perhaps meant by this word, or by the one before it; else empty."""
    words = [word for word in spot.words() if word.isalpha()]
    found = meant(spot.word(), words) if is_name(spot.word()) else ""
    if not found and is_name(spot.last()) and is_name(spot.word()):
        found = meant(spot.last(), sorted(KEYWORDS))
    return found
