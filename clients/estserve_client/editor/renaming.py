"""A name in place of another one, such that the text means what it meant.

Where a run binds a signal by its name alone, and one of the two names changes, a renaming is added
to it.
"""
from __future__ import annotations

import dataclasses
from typing import List, Tuple

from ..command_table import IDENTIFIER
from ..syntax_tree import KEYWORDS, Token
from .names import Bound, Declared, Names
from .wire import FAILED, WRONG_WORDS, Refused


@dataclasses.dataclass(frozen=True)
class Edit:
    """A text in place of so many bytes at a place of the library."""

    line: int
    column: int
    width: int
    text: str


def check_name(new: str, declared: Declared) -> None:
    """Raises Refused where this can't be the new name of what is declared."""
    if not IDENTIFIER.fullmatch(new):
        raise Refused(
            WRONG_WORDS, f"{new} is no name: a letter, then letters, digits and _, at most 48"
        )
    if new in KEYWORDS:
        raise Refused(WRONG_WORDS, f"{new} is a word of the language, and no name")
    if declared.kind == "tick":
        raise Refused(FAILED, "tick is the signal that is always present")
    if new == "tick" and declared.kind not in ("module", "trap"):
        raise Refused(WRONG_WORDS, "tick is the signal that is always present")


def names_beside(names: Names, declared: Declared) -> List[str]:
    """The names that could be taken for the new one."""
    if declared.kind == "module":
        return list(names.known)
    is_trap = declared.kind == "trap"
    found = [
        use.declared.name
        for use in names.uses
        if declared.module in (use.module, use.declared.module)
        and (use.declared.kind == "trap") == is_trap
        and use.declared.kind != "module"
    ]
    return found + [bound.name for bound in names.bound if bound.module == declared.module]


def replaced(token: Token, new: str) -> Edit:
    return Edit(token.line, token.column, len(token.text), new)


def end_of_run(bound: Bound) -> Tuple[int, int, bool]:
    """The place in a run where a renaming is added, and whether others stand before it."""
    last = bound.run.renamings[-1].right if bound.run.renamings else bound.run.names[0]
    return last.line, last.column + len(last.text), bool(bound.run.renamings)


def added(bounds: List[Tuple[Bound, str]]) -> List[Edit]:
    """Renamings that are added to runs."""
    places: "dict[Tuple[int, int, bool], List[str]]" = {}
    for bound, text in bounds:
        places.setdefault(end_of_run(bound), []).append(text)
    return [
        Edit(
            line,
            column,
            0,
            f", {', '.join(texts)}" if has_others else f" [signal {', '.join(texts)}]",
        )
        for (line, column, has_others), texts in places.items()
    ]


def edits_of(names: Names, declared: Declared, new: str) -> List[Edit]:
    """The edits by which what is declared gets a new name. Raises Refused."""
    check_name(new, declared)
    if new == declared.name:
        return []
    if new in names_beside(names, declared):
        raise Refused(FAILED, f"there is a {new} already, which it could be taken for")
    edits = [replaced(use.at, new) for use in names.uses_of(declared)]
    own = [(bound, f"{new}/{bound.name}") for bound in names.bound if bound.declared == declared]
    of_runs = [
        (bound, f"{bound.name}/{new}")
        for bound in names.bound
        if bound.target == declared.module
        and bound.name == declared.name
        and declared.kind in ("input", "output", "inputoutput")
    ]
    return sorted(edits + added(own + of_runs), key=lambda edit: (edit.line, edit.column))
