"""A module as C99: what each form has in common, and the closed table of its runs."""
from __future__ import annotations

import dataclasses
import re
from typing import Any, Dict, Iterable, Iterator, List, Sequence, Set, Tuple

from ..module_text import ARROW
from .asking import Subject
from .parts import Part, parts_of
from .table import Row, Table

OK, STUCK, BROKEN, NOT_INPUTS = range(4)  # what a reaction answers
FEW = 128  # rows of one state, of which those that do the same are put together
WIDTHS = (8, 16, 32, 64)
TAKEN = {
    "H",
    "INPUTS",
    "OUTPUTS",
    "STATES",
    "NETS",
    "PAUSES",
    "OK",
    "STUCK",
    "BROKEN",
    "NOT_INPUTS",
}
FUNCTIONS = {"react", "reset"}
INTEGERS = re.compile(r"U?INT\w*|U?CHAR|SCHAR|U?SHRT|U?L?LONG|SIZE|PTRDIFF|SIG_ATOMIC|WCHAR|WINT")
BOUNDS = {"BIT", "C", "MAX", "MIN", "WIDTH"}  # INTEGERS_BOUNDS are C's own macros
HEADER = """\
/* The module {module}, as C99: {what}, without a heap or a library.
 *
 * Made by `estserve-client compile`; don't change it. {from_where}
 * Kernel: SHA-256 {digest}
 *
 * Signal n of the interface is bit n of a set of signals.
 */
#ifndef {prefix}_H
#define {prefix}_H

#include <stdint.h>

#ifdef __cplusplus
extern "C" {{
#endif

{signals}

/* What may be offered, and what may be emitted. An inputoutput is in both. */
#define {prefix}_INPUTS UINT64_C({inputs:#x})
#define {prefix}_OUTPUTS UINT64_C({outputs:#x})
{sizes}
/* What {name}_react answers, and what `given` has then. At each but OK the state stays. */
enum {{
  {prefix}_OK = 0,        /* the outputs */
  {prefix}_STUCK = 1,     /* the outputs and inputoutputs that are undecided */
  {prefix}_BROKEN = 2,    /* the number of the first relation that the inputs break, from 1 */
  {prefix}_NOT_INPUTS = 3 /* the signals that can't be offered */
}};

{state}

/* To before the first instant. It has to be called before the first {name}_react. */
void {name}_reset(struct {name} *machine);

/* One instant with these inputs. */
int {name}_react(struct {name} *machine, uint64_t inputs, uint64_t *given);

#ifdef __cplusplus
}}
#endif
#endif
"""
STATE = """\
/* Where the module stands. 0 is before the first instant. */
struct {name} {{
  uint32_t state;
}};"""
CODE = """\
/* The module {module}. Made by `estserve-client compile`; don't change it. */
#include "{name}.h"

/* With inputs that are `present` of those that are `asked`, `given` is emitted, and `next` is the state
 * after; where `next` is no state, `given` stays undecided. */
static const struct {{
  uint{width}_t asked, present, given;
  uint{places}_t next;
}} rows[] = {{
{rows}
}};

/* The first row of each state, and the end. */
static const uint{counts}_t first[] = {{{first}}};

void {name}_reset(struct {name} *machine) {{ machine->state = 0; }}

int {name}_react(struct {name} *machine, uint64_t inputs, uint64_t *given) {{
  uint32_t row = first[machine->state];
{checks}  while ((inputs & rows[row].asked) != rows[row].present) row++;
  *given = rows[row].given;
  if (rows[row].next == {prefix}_STATES) return {prefix}_STUCK;
  machine->state = rows[row].next;
  return {prefix}_OK;
}}
"""
OF_TABLE = "The rows are the closed table of all runs that\n * estlab found."
EXCLUSION = "if ((inputs & {one}) & ((inputs & {one}) - 1))"
IMPLICATION = "if ((inputs & {one}) && !(inputs & {other}))"


@dataclasses.dataclass(frozen=True)
class Relation:
    """A relation: an exclusion of these signals, or an implication of the second by the first."""

    is_exclusion: bool
    members: Tuple[str, ...]


def relation_of(text: str) -> Relation:
    """A relation as it is written."""
    if ARROW in text:
        return Relation(False, tuple(name.strip() for name in text.split(ARROW)))
    return Relation(True, tuple(dict.fromkeys(name.strip() for name in text.split("#"))))


def keeps(relation: Relation, inputs: Iterable[str]) -> bool:
    """Whether inputs keep a relation."""
    there = [name in inputs for name in relation.members]
    return sum(there) < 2 if relation.is_exclusion else there[1] or not there[0]


def taken_by(name: str) -> Set[str]:
    """What no signal's constant may be, after the prefix, where C has this name in its names."""
    prefix = name.upper()
    others = BOUNDS if INTEGERS.fullmatch(prefix) else set()
    return TAKEN | others | (FUNCTIONS if name == prefix else set())


def constants_of(signals: Iterable[str], others: Set[str]) -> Iterator[str]:
    """The name of each signal's constant, after the prefix, which is none of these others."""
    taken = others | set(signals)
    for name in signals:
        constant = name
        while constant in others or (constant != name and constant in taken):
            constant += "_"
        taken.add(constant)
        yield constant


class Code:
    """The texts of a module's header and code, under this name."""

    def __init__(self, subject: Subject, name: str, digest: str) -> None:
        self.subject, self.name, self.digest = subject, name, digest
        self.prefix = name.upper()
        module = subject.module
        self.places = {signal: place for place, (signal, _) in enumerate(module.signals)}
        self.relations = [relation_of(text) for text in module.relations]

    def mask(self, names: Iterable[str]) -> int:
        """A set of signals as a number."""
        return sum(1 << self.places[name] for name in names)

    def words(self) -> Dict[str, Any]:
        """What stands in all texts."""
        return {"module": self.subject.module.name, "name": self.name, "prefix": self.prefix}

    def header_of(self, what: str, from_where: str, sizes: str, state: str) -> str:
        """The text of a header."""
        module = self.subject.module
        signals = [
            f"#define {self.prefix}_{constant} UINT64_C({1 << place:#x})"
            for place, constant in enumerate(constants_of(self.places, taken_by(self.name)))
        ]
        return HEADER.format(
            **self.words(),
            what=what,
            from_where=from_where,
            sizes=sizes,
            state=state.format(**self.words()),
            digest=self.digest,
            signals="\n".join(signals),
            inputs=self.mask(module.inputs()),
            outputs=self.mask(module.outputs()),
        )

    def checks(self) -> str:
        """The lines that refuse what is no input, and what breaks a relation."""
        lines = [
            f"  *given = inputs & ~{self.prefix}_INPUTS;",
            f"  if (*given) return {self.prefix}_NOT_INPUTS;",
        ]
        for number, relation in enumerate(self.relations, 1):
            members = relation.members
            form = EXCLUSION if relation.is_exclusion else IMPLICATION
            one = self.mask(members if relation.is_exclusion else members[:1])
            other = self.mask(members[-1:])
            test = form.format(one=f"UINT64_C({one:#x})", other=f"UINT64_C({other:#x})")
            broken = f"    return {self.prefix}_BROKEN;"
            lines += [f"  {test} {{", f"    *given = {number};", broken, "  }"]
        return "".join(line + "\n" for line in lines)

    def broken(self, inputs: Sequence[str]) -> int:
        """The number of the first relation that these inputs break, or 0."""
        numbered = enumerate(self.relations, 1)
        return next((number for number, one in numbered if not keeps(one, inputs)), 0)


class TableCode(Code):
    """A module as its closed table."""

    def __init__(self, subject: Subject, name: str, digest: str, table: Table) -> None:
        super().__init__(subject, name, digest)
        self.table = table
        self.lines = [list(self.lines_at(state)) for state in range(len(table.states))]

    def line(self, part: Part, row: Row) -> str:
        """What a row does, for a part of the inputs."""
        given = row.undecided if row.next is None else row.outputs
        after = len(self.table.states) if row.next is None else row.next
        masks = [self.mask(names) for names in (*part, given)]
        return "{" + ", ".join([*map(hex, masks), str(after)]) + "},"

    def lines_at(self, state: int) -> Iterator[str]:
        """The rows of a state. Of few rows, those that do the same are put together."""
        rows = list(self.table.rows_at(state))
        if len(rows) > FEW:
            yield from (self.line((row.asked, row.inputs), row) for row in rows)
            return
        alike: Dict[Tuple[object, ...], List[Row]] = {}
        for row in rows:
            alike.setdefault(row.result(), []).append(row)
        for result, some in alike.items():
            others = [row for row in rows if row.result() != result]
            yield from (self.line(part, some[0]) for part in parts_of(some, others))

    def size(self) -> str:
        """How large it is, in words."""
        return f"{len(self.table.states)} states, {sum(map(len, self.lines))} rows"

    def header(self) -> str:
        """The text of the header."""
        sizes = f"#define {self.prefix}_STATES {len(self.table.states)}\n"
        return self.header_of(self.size(), OF_TABLE, sizes, STATE)

    def code(self) -> str:
        """The text of the code."""
        starts, rows = [0], []
        for state, lines in enumerate(self.lines):
            rows += [f"    /* {state} */", *("    " + line for line in lines)]
            starts.append(starts[-1] + len(lines))
        return CODE.format(
            **self.words(),
            width=width_of(len(self.places)),
            places=width_of(len(self.table.states).bit_length()),
            counts=width_of(starts[-1].bit_length()),
            rows="\n".join(rows),
            first=", ".join(map(str, starts)),
            checks=self.checks(),
        )

    def answer(self, state: int, inputs: Sequence[str]) -> Tuple[int, int, int]:
        """What the table has for inputs: the status, what is given, and the state after."""
        broken = self.broken(inputs)
        if broken:
            return BROKEN, broken, state
        row = self.table.row_for(state, frozenset(inputs))
        assert row, "a closed table has a row for all that is lawful"
        if row.next is None:
            return STUCK, self.mask(row.undecided), state
        return OK, self.mask(row.outputs), row.next


def width_of(bits: int) -> int:
    """The bits of the least type of C that has so many."""
    return next(width for width in WIDTHS if bits <= width)
