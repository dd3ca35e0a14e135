"""How a run is drawn while its instants come, and at its end."""
from __future__ import annotations

import sys
import time

from .pictures import Table, vcd_lines, wave_lines
from .texts import write_lines

TYPE_CHECKING = False
if TYPE_CHECKING:
    from typing import FrozenSet, Iterable, List, Optional, TextIO

    from .pictures import Instant, Seen
    from .scenarios import Scenario

PATIENCE, RENEWED = 1.0, 0.2  # seconds until progress is shown, and between two of its lines
WIDE = 40  # characters of its bar


def is_plain(stream: TextIO) -> bool:
    """Whether the stream can't write the line over a pulse."""
    try:
        "‾".encode(stream.encoding or "ascii")
    except (UnicodeEncodeError, LookupError):
        return True
    return False


def waves_for(stream: TextIO, seen: Seen) -> List[str]:
    """The lines of waves, as the stream can show them: within its columns, where it is a
    terminal.
    """
    import shutil

    columns = shutil.get_terminal_size().columns if stream.isatty() else None
    return wave_lines(seen, is_plain(stream), columns)


def write_vcd(path: str, seen: Seen) -> None:
    """Writes a VCD file of what was seen. Raises Failed."""
    write_lines(path, vcd_lines(seen), "ascii")


def table_for(seen: Seen, scenario: Scenario, hidden: FrozenSet[str] = frozenset()) -> Table:
    """A table that has room for the inputs of all instants, of which some signals may not be
    observed.
    """
    shown = [name for name in scenario.module.kinds() if name not in hidden]
    table = Table(seen)
    table.widen(instant_of(shown, names) for names in scenario.inputs.different())
    return table


def instant_of(shown: List[str], present: Iterable[str]) -> Instant:
    """What would be observed of the inputs of an instant."""
    return {name: name in present for name in shown}


class Drawing:
    """Draws the instants as they come into what is `seen`: rows of a table whenever `show` is
    called, waves and a VCD file at the end.
    """

    def __init__(self, seen: Seen, wave: bool = False, vcd: Optional[str] = None) -> None:
        self.seen, self.wave, self.vcd = seen, wave, vcd
        self.table: Optional[Table] = None
        self.rows: List[str] = []  # that are still to be shown

    def begin(self, scenario: Scenario, hidden: FrozenSet[str] = frozenset()) -> None:
        """Draws what stands before the first instant."""
        if not (self.wave or self.vcd):
            self.table = table_for(self.seen, scenario, hidden)
            print(self.table.head(), flush=True)

    def add(self, instants: List[Instant]) -> None:
        """Adds instants that came."""
        first = len(self.seen.instants) + 1
        self.seen.instants += instants
        if self.table:
            self.rows += self.table.rows(first, instants)

    def show(self) -> None:
        """Shows the rows that came since it was called last."""
        if self.rows:
            rows, self.rows = self.rows, []
            sys.stdout.write("\n".join(rows) + "\n")
            sys.stdout.flush()

    def end(self) -> None:
        """Draws what stands at the end. Raises Failed."""
        self.show()
        if self.vcd:
            write_vcd(self.vcd, self.seen)
        elif self.wave:
            print("\n".join(waves_for(sys.stdout, self.seen)), flush=True)


def bar(number: int, total: int, columns: int) -> str:
    """A line of a number of columns at most, which shows how much of the whole there is."""
    told = f" {number:,} of {total:,} instants"
    wide = max(0, min(WIDE, columns - len(told) - 2))
    done = wide * number // max(1, total)
    return f"[{'#' * done}{' ' * (wide - done)}]{told}"[:columns]


class Progress:
    """Tells a person at a terminal how far a run is that takes over a second, where no table shows
    it.
    """

    def __init__(self, total: int, is_shown: bool) -> None:
        self.total, self.is_shown = total, is_shown and sys.stderr.isatty()
        self.next = time.monotonic() + PATIENCE
        self.shown = 0  # columns that are filled

    def at(self, number: int) -> None:
        """Tells that this many instants have come, from time to time."""
        if self.is_shown and time.monotonic() >= self.next:
            import shutil

            self.next = time.monotonic() + RENEWED
            told = bar(number, self.total, shutil.get_terminal_size().columns - 1)
            print("\r" + told.ljust(self.shown), end="", file=sys.stderr, flush=True)
            self.shown = len(told)

    def end(self) -> None:
        """Takes the line away."""
        if self.shown:
            print("\r" + " " * self.shown + "\r", end="", file=sys.stderr, flush=True)
