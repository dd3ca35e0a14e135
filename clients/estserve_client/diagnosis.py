"""What a load that is refused means: its sentence, the places of the text, and what could be written
in their place. Made once, for whatever shows it: the command line, an editor, a page.
"""
from __future__ import annotations

import dataclasses
import os
from typing import Any, Dict, List, Tuple

from .close_words import meant
from .connection import Refusal
from .fault_places import Place, StartCodes, places_of
from .instant_paths import path_through
from .left_out import left_out
from .library_text import LibraryText
from .module_text import modules_of
from .other_habits import comment_at, habit_at, number_in_name
from .sentences import sentence
from .syntax_faults import advice_at, expected_at, spot_at
from .syntax_tree import Token, by_name, parse, tokens_of

STEPS = 12  # of a path that are told
A_PATH = "a path through it that takes no time:"


@dataclasses.dataclass(frozen=True)
class Mark:
    """A place of a file: its line and column, from 1, where columns count bytes; how many bytes are
    meant; and what is so there.
    """

    file: str
    line: int
    column: int
    width: int
    told: str


@dataclasses.dataclass
class Diagnosis:
    """What a refusal means. `marks` are the places that it can mean, the most likely one first, or
    where `is_chain` those that it means together. `path` has steps that lead to it, after
    `path_told`.
    """

    fault: str
    told: str
    marks: List[Mark] = dataclasses.field(default_factory=list)
    is_chain: bool = False
    path_told: str = ""
    path: List[Mark] = dataclasses.field(default_factory=list)
    remedies: List[str] = dataclasses.field(default_factory=list)

    def as_json(self) -> Dict[str, Any]:
        """It as an object of JSON."""
        return dataclasses.asdict(self)


def mark_of(library: LibraryText, at: Token, told: str) -> Mark:
    """The place of a token."""
    file, line = library.place(at.line)
    return Mark(file, line, at.column, len(at.text.encode(errors="replace")), told)


def diagnose_place(refusal: Refusal, library: LibraryText) -> Diagnosis:
    """What a fault means whose place estserve names."""
    line, column = refusal.fields["line"], refusal.fields["column"]
    tokens = tokens_of(library.text)
    spot, told = spot_at(tokens, line, column), "no token stands here"
    spot.name_line = lambda other: library.name_line(other, library.place(line)[0])
    advice = ""
    if refusal.fault == "Syntax":
        told, advice = expected_at(spot) or "the text cannot go on so", advice_at(spot)
    remedy = (
        comment_at(library.text, line, column, tokens)
        or number_in_name(line, column, tokens)
        or left_out(library.text, line, column)
        or habit_at(library.text, line, column, tokens)
        or advice
    )
    at = Token(
        spot.word() if spot.here and starts_at(spot.here, line, column) else " ", line, column
    )
    mark = mark_of(library, at, "")
    return Diagnosis(
        refusal.fault, f"{refusal.fault}: {told}", [mark], remedies=[remedy] if remedy else []
    )


def starts_at(token: Token, line: int, column: int) -> bool:
    return (token.line, token.column) == (line, column)


def modules_at(path: str) -> List[str]:
    """The modules of a file; none where it can't be read."""
    try:
        with open(path, encoding="utf-8", errors="replace") as file:
            return [module.name for module in modules_of(file.read())]
    except OSError:
        return []


def file_beside(library: LibraryText, name: str) -> List[str]:
    """What is said of a module that none of the files has, where one beside the first has it."""
    folder = os.path.dirname(library.paths[0])
    is_file = os.path.isfile(library.paths[0])
    files = sorted(os.listdir(folder or ".")) if is_file else []
    paths = [os.path.join(folder, file) for file in files if file.endswith(".strl")]
    found = [path for path in paths if path not in library.paths and name in modules_at(path)]
    return [f"{path} has a module {name}: name that file too" for path in found[:1]]


def path_of(library: LibraryText, main: str) -> List[Mark]:
    """A path that takes no time through the first loop that has one."""
    modules = parse(library.text) or []
    codes, module = StartCodes(modules), by_name(modules).get(main)
    if module is not None:
        codes.of(module.body, (), main)
    loops = sorted(codes.loops, key=lambda loop: (loop[0].at.line, loop[0].at.column))
    steps = path_through(modules, loops[0][0]) if loops else []
    return [mark_of(library, step.at, step.told) for step in steps]


def diagnose_load(refusal: Refusal, library: LibraryText, main: str) -> Diagnosis:
    """What the refusal of a load of this main module means."""
    if "line" in refusal.fields:
        return diagnose_place(refusal, library)
    name = refusal.fields.get("name", refusal.fields.get("relation", ""))
    try:
        return diagnose_name(refusal, library, main, name)
    except RecursionError:  # runs in runs, deeper than Python's calls go
        return Diagnosis(refusal.fault, sentence(refusal))


def diagnose_name(refusal: Refusal, library: LibraryText, main: str, name: object) -> Diagnosis:
    """What a fault means that has a name, or nothing. Raises RecursionError."""
    places: List[Place] = places_of(refusal.fault, name, library.text, main)
    marks = [mark_of(library, place.at, place.told) for place in places]
    remedies = list(dict.fromkeys(place.remedy for place in places if place.remedy))
    if refusal.fault == "UnknownModule" and not remedies:
        question = meant(str(name), [module.name for module in modules_of(library.text)])
        remedies = file_beside(library, str(name)) or [question] * bool(question)
    found = Diagnosis(refusal.fault, sentence(refusal), marks, remedies=remedies)
    found.is_chain = refusal.fault == "RecursiveRun"
    if refusal.fault == "InstantLoop":
        found.path = path_of(library, main)
        found.path_told = A_PATH if found.path else ""
    return found


def shortened(steps: List[Mark]) -> Tuple[List[Mark], int]:
    """The steps that are told of a path, and how many there are besides."""
    return steps[:STEPS], max(0, len(steps) - STEPS)
