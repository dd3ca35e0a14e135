"""Pictures of a run: a table of its instants, waves drawn with characters, and VCD files (IEEE
1364).

A picture is drawn of `Seen`: the signals, each a name and its kind, and the instants, each a
dictionary from the name of a signal to its presence. A signal that an instant doesn't have could
not be observed: it shows as `.`, and a VCD file leaves it out where no instant has it.
"""
from __future__ import annotations

from .cache import MOST

TYPE_CHECKING = False
if TYPE_CHECKING:
    from typing import Dict, Iterable, List, Optional, Tuple

    from .scopes import Scope

    Instant = Dict[str, bool]
    Signals = List[Tuple[str, str]]
    Presences = Dict[str, bool]
else:
    Presences = dict

HIGH, LOW, HIDDEN = "_/‾\\", "____", "...."
PLAIN_HIGH = "_/^\\"
STEP = 10  # an instant of a VCD file takes this many units of time: instant n begins at n * STEP
# of signals, in the order of a table's columns; some modules have none of those in RARE
KINDS = ("input", "inout", "output", "local")
RARE = ("inout", "local")
TICK = "tick"  # the wire that goes up with each instant, and down in its middle


class Within(Presences):
    """An instant with what happens inside it: its local signals too, what stands after the name of one
    in a table, and the lines that ran.
    """

    def __init__(self, present: Instant, marks: Dict[str, str], lines: str) -> None:
        super().__init__(present)
        self.marks, self.lines = marks, lines


class Seen:
    """What was seen of a module: its name, its signals, its instants, and the number of the first
    of these.

    The signals stand in declaration order, pairs of a name and `input`, `output` or `inout` (an
    inputoutput), or `signal` where it isn't known which of these it is; `local` ones stand last.
    `scopes` has the modules that it runs, where they are known. Where it is `traced`, its instants
    are `Within`, and a table has their lines.
    """

    def __init__(
        self,
        module: str,
        signals: Signals,
        instants: List[Instant],
        first: int = 1,
        scopes: Optional[List[Scope]] = None,
        traced: bool = False,
    ) -> None:
        self.module, self.signals, self.instants = module, signals, instants
        self.first, self.scopes, self.traced = first, scopes, traced

    def kinds(self) -> Tuple[str, ...]:
        """The kinds of signals that are told apart: `inout` and `local` where there is one."""
        kinds = {kind for _, kind in self.signals}
        if not kinds <= set(KINDS):
            return ("signal",)
        return tuple(kind for kind in KINDS if kind not in RARE or kind in kinds)

    def of_kind(self, kind: str) -> List[str]:
        """The names of the signals of a kind."""
        return [name for name, other in self.signals if kind in ("signal", other)]


def present_of(names: List[str], instant: Instant) -> str:
    """The names that were present in an instant, and `.` for each that could not be observed."""
    marks = instant.marks if isinstance(instant, Within) else {}
    return " ".join(
        "." if name not in instant else name + marks.get(name, "")
        for name in names
        if instant.get(name, True)
    )


class Table:
    """A table that is written as its instants come: the width of the column after the numbers is
    known before. Those of inouts and outputs have room for all of them where others follow; that of
    local signals, which may be many, has none.
    """

    def __init__(self, seen: Seen, wide: int = 0) -> None:
        self.kinds = [seen.of_kind(kind) for kind in seen.kinds()]
        self.heads = [kind + "s" for kind in seen.kinds()] + ["lines"] * seen.traced
        self.wide = max(wide, len(self.heads[0]))
        self.others = [
            max(len(head), len(" ".join(names)) * (head != "locals"))
            for head, names in zip(self.heads[1:-1], self.kinds[1:])
        ]
        self.drawn: Dict[int, Tuple[Instant, str]] = {}  # cells of instants, by their identity

    def widen(self, instants: Iterable[Instant]) -> None:
        """Makes room for what these instants show."""
        widths = [len(present_of(self.kinds[0], instant)) for instant in instants]
        self.wide = max([self.wide, *widths])
        self.drawn.clear()

    def line(self, number: str, cells: List[str]) -> str:
        wides = [self.wide, *self.others, 0]
        padded = [f"{cell:<{wide}}" for cell, wide in zip(cells, wides)]
        return "  ".join([f"{number:>7}", *padded]).rstrip()

    def head(self) -> str:
        """The line over the instants."""
        return self.line("instant", self.heads)

    def rows(self, first: int, instants: List[Instant]) -> List[str]:
        """The lines of instants, which are not changed afterwards, from this number on."""
        # Instants that are alike are mostly one object, and it takes long to hash a dictionary.
        # While an object is kept here, no other one has its identity.
        drawn, draw = self.drawn.get, self.draw
        return [
            f"{number:>7}{(drawn(id(instant)) or draw(instant))[1]}"
            for number, instant in enumerate(instants, first)
        ]

    def draw(self, instant: Instant) -> Tuple[Instant, str]:
        """An instant with its cells, as they stand after its number."""
        cells = [present_of(names, instant) for names in self.kinds]
        cells += [instant.lines] if isinstance(instant, Within) else []
        line = self.line("", cells[: len(self.heads)])
        if len(self.drawn) >= MOST:
            self.drawn.clear()
        self.drawn[id(instant)] = drawn = (instant, line[7:])
        return drawn


def table_lines(seen: Seen) -> List[str]:
    """The lines of a table: a row an instant, with the inputs, the inouts where there are any, and
    the outputs that were present.
    """
    table = Table(seen)
    table.widen(seen.instants)
    return [table.head(), *table.rows(seen.first, seen.instants)]


def ruler_of(first: int, last: int) -> str:
    """The numbers of instants over their waves: each, or each fifth where they have over three
    digits.
    """
    if last < 1000:
        return "".join(f"{number:>3} " for number in range(first, last + 1))
    ruler = ""
    for place, number in enumerate(range(first, last + 1)):
        ruler = ruler.ljust(4 * place) + (f" {number}" if number % 5 == 0 else "")
    return ruler


def wave_lines(seen: Seen, plain: bool = False, columns: Optional[int] = None) -> List[str]:
    """The lines of waves: a line a signal, a pulse in each instant in which it was present.

    `plain` keeps to ASCII; with a number of `columns` the waves go on in a further block after an
    empty line where they would be wider."""
    wide = max([len("instant")] + [len(name) for name, _ in seen.signals])
    block = max(1, (columns - wide - 9) // 4) if columns else max(1, len(seen.instants))
    lines: List[str] = []
    for at in range(0, max(1, len(seen.instants)), block):
        part = Seen(seen.module, seen.signals, seen.instants[at : at + block], seen.first + at)
        lines += [""] * (at > 0) + block_lines(part, wide, PLAIN_HIGH if plain else HIGH)
    return lines


def block_lines(seen: Seen, wide: int, high: str) -> List[str]:
    """The lines of one block of waves, after names in a column of this width."""
    ruler = ruler_of(seen.first, seen.first + len(seen.instants) - 1)
    lines = [f"{'instant':<{wide}}         {ruler}"]
    for name, kind in seen.signals:
        drawn = "".join(
            HIDDEN if name not in i else high if i[name] else LOW for i in seen.instants
        )
        lines.append(f"{name:<{wide}}  {kind:<6} {drawn}")
    return [line.rstrip() for line in lines]


def code_of(number: int) -> str:
    """The short name of a wire in a VCD file: printable characters from `!` to `~`."""
    code = chr(33 + number % 94)
    while number >= 94:
        number = number // 94 - 1
        code += chr(33 + number % 94)
    return code


def vcd_value(instant: Instant, name: str) -> str:
    return "x" if name not in instant else "1" if instant[name] else "0"


def scope_lines(scopes: List[Scope], codes: Dict[str, str]) -> List[str]:
    """The scopes of the modules that are run: their names for the wires of the one that runs
    them.
    """
    lines: List[str] = []
    for scope in scopes:
        wires = [(name, codes[signal]) for name, signal in scope.signals if signal in codes]
        lines.append(f"$scope module {scope.name} $end")
        lines += [f"$var wire 1 {code} {name} $end" for name, code in wires]
        lines += [*scope_lines(scope.inner, codes), "$upscope $end"]
    return lines


def wires_of(seen: Seen) -> List[str]:
    """The signals that a VCD file has: those that could be observed, or all where there was no
    instant.
    """
    shown = {name for instant in seen.instants for name in instant}
    return [name for name, _ in seen.signals if name in shown or not seen.instants]


def vcd_lines(seen: Seen) -> List[str]:
    """The lines of a VCD file: a wire for each signal that could be observed, and the wire `tick`.

    Instant n lasts from time 10 n to 10 n + 10, and `tick` is 1 in its first half, so that instants
    can be counted. A wire is `x` in an instant in which its signal, which could be observed in
    others, could not be. A local signal of a module that is run stands in that one's scope alone.
    """
    wires = wires_of(seen)
    codes = {name: code_of(number) for number, name in enumerate(wires, 1)}
    outer = {TICK: code_of(0), **{name: codes[name] for name in wires if "." not in name}}
    lines = ["$version estserve $end", "$timescale 1 ns $end", f"$scope module {seen.module} $end"]
    lines += [f"$var wire 1 {code} {name} $end" for name, code in outer.items()]
    lines += [*scope_lines(seen.scopes or [], codes), "$upscope $end", "$enddefinitions $end"]
    before: Dict[str, str] = {}
    for number, instant in enumerate(seen.instants, seen.first):
        values = {name: vcd_value(instant, name) for name in wires}
        changed = [values[name] + codes[name] for name in wires if values[name] != before.get(name)]
        changed.insert(0, "1" + code_of(0))
        lines.append(f"#{STEP * number}")
        lines += changed if before or number > seen.first else ["$dumpvars", *changed, "$end"]
        lines += [f"#{STEP * number + STEP // 2}", "0" + code_of(0)]
        before = values
    return lines + [f"#{STEP * (seen.first + len(seen.instants))}"]
