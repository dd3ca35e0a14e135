"""What is printed of a load that is refused: its diagnosis, with each place drawn."""
from __future__ import annotations

from typing import List

from .connection import Refusal
from .diagnosis import Diagnosis, Mark, diagnose_load, shortened
from .library_text import LibraryText
from .texts import Failed, Placed

MOST = 6  # places that are drawn


def drawn(library: LibraryText, mark: Mark, told: str) -> str:
    """A place, what is said of it, and its line with a caret."""
    line = library.line_of(mark.file, mark.line)
    place = f"{mark.file}:{mark.line}:{mark.column}"
    return f"{place}: {told}\n{library.draw(line, mark.column)}"


def lines_of(found: Diagnosis, library: LibraryText) -> List[str]:
    """What is printed of places."""
    first, *others = found.marks
    likely = "; here, most likely" if others and not found.is_chain else ""
    told = f"{found.told}: {first.told}" if first.told else found.told
    lines = [drawn(library, first, told + likely)]
    word = "and" if found.is_chain else "or here:"
    lines += [drawn(library, mark, f"{word} {mark.told}") for mark in others[: MOST - 1]]
    if len(found.marks) > MOST:
        lines.append(f"or at {len(found.marks) - MOST} further places")
    return lines


def path_lines(found: Diagnosis) -> List[str]:
    """What is printed of the path that leads to a fault."""
    steps, more = shortened(found.path)
    lines = [found.path_told] if found.path_told else []
    lines += [f"  {step.file}:{step.line}:{step.column}: {step.told}" for step in steps]
    return lines + ([f"  and {more} more steps"] if more else [])


def load_fault(refusal: Refusal, library: LibraryText, main: str) -> Failed:
    """What a command ends with whose load of this main module was refused."""
    found = diagnose_load(refusal, library, main)
    more = path_lines(found) + found.remedies
    if not found.marks:
        return Failed("\n".join([f"{library.paths[0]}: {found.told}", *more]))
    return Placed("\n".join(lines_of(found, library) + more))
