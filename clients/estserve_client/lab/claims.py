"""Claims of all runs of a module: on the command line, and in files NAME.claims.

Such a file has a claim a line, `never TEST` or `always TEST`; `%` begins a comment. Five words say
of what the claims are: `main MODULE`, `observer MODULE`, `text FILE` (one that has more modules),
`inputs A, B` (what may be offered: nothing where no name follows) and `same FILE`.
"""
from __future__ import annotations

import dataclasses
import re
from typing import Iterable, List, Optional

from ..close_words import meant
from ..texts import Placed

CLAIM = re.compile(r"(never|always)\s+(\S.*)")
NAMED = {"observer": "observers", "same": "same", "text": "texts"}  # words that may be given again
WORDS = ("never", "always", "main", "inputs", *NAMED)
FORMS = "`never TEST`, `always TEST`, or begins with main, observer, text, inputs or same"


@dataclasses.dataclass(frozen=True)
class Claim:
    """A claim: `never` or `always`, its test, and where it stands, as `FILE:LINE`."""

    word: str
    test: str
    place: str = ""

    @property
    def text(self) -> str:
        """The claim as the program reads it."""
        return f"{self.word} {self.test}"


@dataclasses.dataclass
class Claims:
    """What is claimed, and of what: the module's name, observers beside it, what may be offered
    (None: all inputs), files of modules that do the same, and further module texts.
    """

    claims: List[Claim] = dataclasses.field(default_factory=list)
    main: Optional[str] = None
    observers: List[str] = dataclasses.field(default_factory=list)
    inputs: Optional[List[str]] = None
    same: List[str] = dataclasses.field(default_factory=list)
    texts: List[str] = dataclasses.field(default_factory=list)


def names_in(text: str) -> List[str]:
    """Names with blanks or commas between them, each once."""
    return list(dict.fromkeys(text.replace(",", " ").split()))


def names_listed(texts: Optional[Iterable[str]]) -> Optional[List[str]]:
    """The names of an option that may be given again; None where it is not given."""
    return None if texts is None else names_in(" ".join(texts))


def read_line(text: str, place: str, found: Claims) -> None:
    """Adds what a line says, which is not blank. Raises Placed."""
    claim = CLAIM.fullmatch(text)
    word, _, rest = text.partition(" ")
    rest = rest.strip()
    if claim:
        found.claims.append(Claim(claim[1], claim[2], place))
    elif word == "inputs":
        found.inputs = names_in(rest)
    elif word == "main" and len(rest.split()) == 1:
        found.main = rest
    elif word in NAMED and len(rest.split()) == 1:
        getattr(found, NAMED[word]).append(rest)
    else:
        question = meant(word, WORDS)
        told = f"{place}: this is no claim: a line is {FORMS}"
        raise Placed(told + (f"; {question}" if question else ""))


def read_claims(text: str, path: str) -> Claims:
    """The claims of a file. Raises Placed."""
    found = Claims()
    for number, line in enumerate(text.split("\n"), 1):
        written = line.partition("%")[0].strip()
        if written:
            read_line(written, f"{path}:{number}", found)
    return found
