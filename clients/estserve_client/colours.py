"""Colours of what is printed, for a terminal that has them, unless the variable NO_COLOR says no."""
from __future__ import annotations

import os

TYPE_CHECKING = False
if TYPE_CHECKING:
    from typing import TextIO

RED, GREEN, BOLD, PLAIN = "\033[31m", "\033[32m", "\033[1m", "\033[0m"


def has_colours(stream: TextIO) -> bool:
    """Whether what is written there may have colours."""
    is_asked = not os.environ.get("NO_COLOR") and os.environ.get("TERM", "dumb") != "dumb"
    return is_asked and stream.isatty()


class Colours:
    """Colours for one stream; none where it has none."""

    def __init__(self, stream: TextIO) -> None:
        self.is_on = has_colours(stream)

    def put(self, colour: str, text: str) -> str:
        return f"{colour}{text}{PLAIN}" if self.is_on and text and colour else text

    def word(self, text: str, is_good: bool) -> str:
        """A word for what came out well or not."""
        return self.put(GREEN if is_good else RED, text)

    def of_diff(self, line: str) -> str:
        """A line of a diff."""
        colour = {"-": RED, "+": GREEN, "@": BOLD}.get(line[:1], "")
        return self.put(colour, line) if colour else line

    def of_fault(self, text: str) -> str:
        """A fault with its place: the lines of carets in red, and what begins with a place in bold
        up to its colon.
        """
        if not self.is_on:
            return text
        return "\n".join(map(self.of_fault_line, text.split("\n")))

    def of_fault_line(self, line: str) -> str:
        if line.strip() == "^":
            return self.put(RED, line)
        place, colon, told = line.partition(": ")
        is_place = place.rpartition(":")[2].isdigit()
        return self.put(BOLD, place + ":") + " " + told if colon and is_place else line
