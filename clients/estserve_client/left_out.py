"""What of the full Esterel language is left out here: named where a text stops at it.

estserve tells the first token that cannot go on. Where that token, with those before it, is the
beginning of a construct of the full language, the construct is named, and what can be written in
its place.
"""
from __future__ import annotations

import dataclasses
import re
from typing import List, Optional

from .syntax_tree import KEYWORDS, Token, tokens_of

DELAYS = ("await", "when", "every", "each", "immediate", "watching", "upto")
IN_TESTS = ("and", "or", "not", "immediate", "(", ")", "[", "]")  # besides names


@dataclasses.dataclass
class Spot:
    """The tokens around a place: its own, those before it, the nearest first, and those after it.
    Before the first one stand three empty ones.
    """

    here: str
    before: List[str]
    after: List[str]

    def near(self) -> List[str]:
        """The three tokens before it, the nearest first."""
        return self.before[:3]

    def tested_by(self) -> str:
        """The word whose test ends before it, as the `when` of `when A and not B`."""
        return next((word for word in self.before if not in_a_test(word)), "")

    def comes(self, *words: str) -> str:
        """The first of these words that comes after; empty where none does."""
        return next((word for word in self.after if word in words), "")


@dataclasses.dataclass(frozen=True)
class LeftOut:
    """A construct of the full language, and what can be written in its place."""

    what: str
    instead: str

    def told(self) -> str:
        return f"{self.what} is left out of this language: {self.instead}"


COUNT = LeftOut("a count (`await 3 S`)", "write `await S; await S; await S`")
CASE = LeftOut(
    "a list of cases (`case S do`)", "wait for each in a branch of its own, inside a `trap`"
)
PRE = LeftOut(
    "`pre`, the status of the instant before,",
    "keep it by a signal: `loop present S then pause; emit PRE_S else pause end end`",
)
VALUE = LeftOut("a signal's value (`?S`)", "signals are pure: present or absent")
VALUED = LeftOut(
    "a signal with a value (`S : integer`, `emit S(3)`)", "signals are pure: present or absent"
)
HANDLE = LeftOut(
    "`handle`", "write what handles it after the `trap`, with a local signal for which exit it was"
)
REPEAT = LeftOut("`repeat`", "write its body as often as it is to run")
TRAPS = LeftOut("a list of traps (`trap A, B in`)", "nest them: `trap A in trap B in .. end end`")
UPTO = LeftOut("`do p upto S`", "write `abort p; halt when S`")
WATCHING = LeftOut("`do p watching S`", "write `abort p when S`")
AFTER_AWAIT = LeftOut("a `do` part of `await`", "write `await S; p` for `await S do p end`")
AFTER_ABORT = LeftOut(
    "a `do` part of `abort`",
    "write `trap T in abort p; exit T when S; q end` for `abort p when S do q end`, and so for"
    " `weak abort`: q is done only where S ends p",
)
TIMEOUT = LeftOut(
    "`do p watching S timeout q end`",
    "write `trap T in abort p; exit T when S; q end`: q is done only where S ends p",
)
RENAMED = LeftOut("a new name for a module that is run (`run M/N`)", "write `run N`")
VARIABLE = LeftOut(
    "a variable (`var`, `:=`)", "keep states by signals and by where the program stands"
)
IF = LeftOut(
    "`if`, which asks for a variable,", "a signal is asked for by `present S then p else q end`"
)
HOST = LeftOut(
    "a host declaration or call (`type`, `constant`, `function`, `procedure`, `call`, `exec`)",
    "only pure signals come in and go out",
)
SENSOR = LeftOut("`sensor`", "declare an `input`")
STOP = LeftOut("a full stop after a module", "leave it off")
COPY = LeftOut("`copymodule`", "write `run`")
EMITS = LeftOut("a list of emissions (`emit A, B`)", "write `emit A; emit B`")
NUMBER = LeftOut("a number", "signals carry no values")
WORDS = {
    "repeat": REPEAT,
    "positive": REPEAT,
    "handle": HANDLE,
    "case": CASE,
    "var": VARIABLE,
    "if": IF,
    "type": HOST,
    "constant": HOST,
    "function": HOST,
    "procedure": HOST,
    "task": HOST,
    "call": HOST,
    "exec": HOST,
    "return": HOST,
    "sensor": SENSOR,
    "copymodule": COPY,
    "upto": UPTO,
    "watching": WATCHING,
    "pre": PRE,
}
SYMBOLS = {"?": VALUE, ".": STOP, ":=": VARIABLE}
# The words before a name that a value in `(` or a type after `:` can belong to
VALUED_WORDS = ("emit", "sustain", "exit", "input", "output", "inputoutput", "signal", "trap", ",")


def in_a_test(word: str) -> bool:
    """Whether a token can stand in a test."""
    is_name = re.match("[A-Za-z]", word) is not None and word not in KEYWORDS
    return is_name or word in IN_TESTS


def spot_at(text: str, line: int, column: int) -> Optional[Spot]:
    """The tokens around a place of a text; None after the last one."""
    tokens = tokens_of(text)
    at = next((n for n, token in enumerate(tokens) if place_of(token) >= (line, column)), None)
    if at is None:
        return None
    texts = [token.text for token in tokens]
    return Spot(texts[at], texts[:at][::-1] + [""] * 3, texts[at + 1 :])


def place_of(token: Token) -> "tuple[int, int]":
    """The place of a token's last byte: a place inside of a token is the
    token's.
    """
    return token.line, token.column + len(token.text.encode(errors="surrogatepass")) - 1


def of_number(spot: Spot) -> LeftOut:
    """What a number is the beginning of, where one stands."""
    if spot.before[0] in DELAYS:
        return COUNT
    if spot.before[0] in WORDS:
        return WORDS[spot.before[0]]
    return VALUED if spot.before[0] == "(" else declared(spot) or NUMBER


def declared(spot: Spot) -> Optional[LeftOut]:
    """What a word shortly before is the beginning of."""
    return next((WORDS[word] for word in spot.near() if word in WORDS), None)


def of_symbol(spot: Spot) -> Optional[LeftOut]:
    """What a symbol is the beginning of, where it cannot stand."""
    here, first, second = spot.here, *spot.before[:2]
    if first == "pre":
        return PRE
    if here == "," and second in ("trap", "emit"):
        return TRAPS if second == "trap" else EMITS
    if here == "/" and second == "run":
        return RENAMED
    if here in (":", "(") and second in VALUED_WORDS:
        return VALUED
    if here == "=" and first == ":":
        return VARIABLE
    return SYMBOLS.get(here) or declared(spot)


def of_word(spot: Spot) -> Optional[LeftOut]:
    """What a word is the beginning of, where it cannot stand."""
    here, first = spot.here, spot.before[0]
    if here == "do":
        return CASE if first == "case" else of_do(spot)
    if first in (
        "case",
        "pre",
        "handle",
        "repeat",
        "if",
        "var",
        "call",
        "exec",
        "sensor",
        "copymodule",
    ):
        return WORDS[first]
    return WORDS.get(here)


def of_do(spot: Spot) -> Optional[LeftOut]:
    """What a `do` is the beginning of: what follows an `await` or `abort`, or a statement with
    `upto` or `watching`.
    """
    asked = spot.tested_by()
    if asked == "await":
        return AFTER_AWAIT
    if asked == "when":
        return AFTER_ABORT
    until = {"upto": UPTO, "watching": WATCHING}.get(spot.comes("upto", "watching"))
    return TIMEOUT if until is WATCHING and spot.comes("timeout") else until


def left_out(text: str, line: int, column: int) -> Optional[str]:
    """What is said of the construct of the full language that a text stops at; None where it is
    none that is known.
    """
    spot = spot_at(text, line, column)
    if spot is None:
        return None
    if re.match("[0-9]", spot.here):
        found: Optional[LeftOut] = of_number(spot)
    elif re.match("[A-Za-z]", spot.here):
        found = of_word(spot)
    else:
        found = of_symbol(spot)
    return found.told() if found else None
