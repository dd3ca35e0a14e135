"""A module as C99 by its cells: gates that an instant decides one after another, for modules whose
closed table is too large.
"""
from __future__ import annotations

from typing import Iterable, List, Sequence, Tuple

from .asking import Subject
from .c_code import Code, width_of
from .kernel import Signal, Statement
from .nets import Literal, Nets

DEEPEST = 20_000  # frames, for a kernel of 2,048 statements in one another
OF_CELLS = "It decides each gate once an instant."
STATE = """\
/* Where the module stands, and room for an instant. */
struct {name} {{
  uint8_t began, pauses[{prefix}_PAUSES + 1];
  uint8_t value[{prefix}_NETS];
  uint%d_t left[{prefix}_NETS], line[{prefix}_NETS];
  uint32_t decided;
}};"""
CODE = """\
/* The module {module}. Made by `estserve-client compile --cells`; don't change it. */
#include "{name}.h"

enum {{ OPEN, NO, YES, NEVER = -1, ALWAYS = -2 }};

/* Whether a net is `and`, or else `or`, and how many operands it has. */
static const uint8_t is_and[] = {{{is_and}}};
static const uint{counts}_t operands[] = {{{operands}}};

/* The readers of each net: twice the net, and 1 where it is negated there. */
static const uint{readers_width}_t first[] = {{{first}}};
static const uint{nets_width}_t readers[] = {{{readers}}};

/* Nets that are true where a pause of a range is set: the net, the first pause and the end. */
static const uint{nets_width}_t lives[][3] = {{{lives}}};

/* Nets of the signals: of each input its net, of each output that of its emission and that of its
 * status. A literal is twice a net, and 1 where it is negated; or NEVER, or ALWAYS. */
static const struct {{ uint8_t bit; int32_t net; }} inputs_at[] = {{{inputs}}};
static const struct {{ uint8_t bit; int32_t emitted, status; }} outputs_at[] = {{{outputs}}};

/* Where pauses are kept: a pause or NEVER, whether the statement pauses, whether it keeps the pauses
 * from `start` to `end` as they were, and the node after those inside it. */
static const struct {{ int32_t pause, pauses, keeps, start, end, past; }} nodes[] = {{
{nodes}
}};

void {name}_reset(struct {name} *machine) {{
  machine->began = 0;
  for (int32_t pause = 0; pause < {prefix}_PAUSES; pause++) machine->pauses[pause] = 0;
}}

static void decide(struct {name} *machine, uint32_t net, int value) {{
  machine->value[net] = (uint8_t)value;
  machine->line[machine->decided++] = (uint{counts_of_line}_t)net;
}}

static int value_of(const struct {name} *machine, int32_t literal) {{
  if (literal < 0) return literal == ALWAYS ? YES : NO;
  int value = machine->value[literal / 2];
  return value == OPEN || literal % 2 == 0 ? value : NO + YES - value;
}}

static void start(struct {name} *machine, uint64_t inputs) {{
  machine->decided = 0;
  for (uint32_t net = 0; net < {prefix}_NETS; net++) {{
    machine->value[net] = OPEN;
    machine->left[net] = operands[net];
  }}
  decide(machine, 0, machine->began ? NO : YES);
  for (int32_t at = 0; at < {input_count}; at++)
    decide(machine, (uint32_t)inputs_at[at].net, inputs >> inputs_at[at].bit & 1 ? YES : NO);
  for (int32_t at = 0; at < {live_count}; at++) {{
    int value = NO;
    for (uint32_t pause = lives[at][1]; pause < lives[at][2]; pause++)
      if (machine->pauses[pause]) value = YES;
    decide(machine, lives[at][0], value);
  }}
  for (uint32_t net = 0; net < {prefix}_NETS; net++)
    if (machine->value[net] == OPEN && operands[net] == 0)
      decide(machine, net, is_and[net] ? YES : NO);
}}

static void run(struct {name} *machine) {{
  for (uint32_t at = 0; at < machine->decided; at++) {{
    uint32_t net = machine->line[at];
    for (uint32_t reader = first[net]; reader < first[net + 1]; reader++) {{
      uint32_t gate = readers[reader] / 2u;
      int is_true = (machine->value[net] == YES) != (readers[reader] % 2u == 1u);
      if (machine->value[gate] != OPEN) continue;
      if (is_true != is_and[gate])
        decide(machine, gate, is_true ? YES : NO);
      else if (--machine->left[gate] == 0)
        decide(machine, gate, is_and[gate] ? YES : NO);
    }}
  }}
}}

static void keep_pauses(struct {name} *machine) {{
  uint8_t old[{prefix}_PAUSES + 1];
  for (int32_t pause = 0; pause < {prefix}_PAUSES; pause++) {{
    old[pause] = machine->pauses[pause];
    machine->pauses[pause] = 0;
  }}
  for (int32_t at = 0; at < {node_count};) {{
    if (value_of(machine, nodes[at].pauses) != YES) {{
      at = nodes[at].past;
    }} else if (value_of(machine, nodes[at].keeps) == YES) {{
      for (int32_t pause = nodes[at].start; pause < nodes[at].end; pause++)
        if (old[pause]) machine->pauses[pause] = 1;
      at = nodes[at].past;
    }} else {{
      if (nodes[at].pause >= 0) machine->pauses[nodes[at].pause] = 1;
      at++;
    }}
  }}
  machine->began = 1;
}}

int {name}_react(struct {name} *machine, uint64_t inputs, uint64_t *given) {{
{checks}  start(machine, inputs);
  run(machine);
  *given = 0;
  int is_stuck = machine->decided != {prefix}_NETS;
  for (int32_t at = 0; at < {output_count}; at++) {{
    int32_t literal = is_stuck ? outputs_at[at].status : outputs_at[at].emitted;
    int value = value_of(machine, literal);
    if (value == (is_stuck ? OPEN : YES)) *given |= UINT64_C(1) << outputs_at[at].bit;
  }}
  if (is_stuck) return {prefix}_STUCK;
  keep_pauses(machine);
  return {prefix}_OK;
}}
"""


def number_of(literal: Literal) -> int:
    """A literal as a number of C."""
    if isinstance(literal, bool):
        return -2 if literal else -1
    return 2 * literal[0] + literal[1]


def listed(numbers: Iterable[object]) -> str:
    """The elements of an array; of none one that nobody reads."""
    return ", ".join(map(str, numbers)) or "0"


def rows_of(rows: Iterable[Sequence[object]]) -> str:
    """The elements of an array of structs or arrays; of none one that nobody reads."""
    return ", ".join("{" + listed(row) + "}" for row in rows) or "{0}"


class CellsCode(Code):
    """A module by its cells."""

    def __init__(self, subject: Subject, name: str, digest: str, kernel: List[Statement]) -> None:
        super().__init__(subject, name, digest)
        module = subject.module
        self.nets = Nets(kernel[0], module.inputs(), module.outputs())

    def size(self) -> str:
        """How large it is, in words."""
        return f"{len(self.nets.gates)} gates, {self.nets.pause_count} pauses"

    def net_width(self) -> int:
        """The bits of a net."""
        return max(16, width_of((2 * len(self.nets.gates) + 1).bit_length()))

    def header(self) -> str:
        """The text of the header."""
        nets, pauses = len(self.nets.gates), self.nets.pause_count
        sizes = f"#define {self.prefix}_NETS {nets}\n#define {self.prefix}_PAUSES {pauses}\n"
        return self.header_of(self.size(), OF_CELLS, sizes, STATE % self.net_width())

    def readers(self) -> List[List[int]]:
        """The readers of each net."""
        found: List[List[int]] = [[] for _ in self.nets.gates]
        for number, gate in enumerate(self.nets.gates):
            for net, is_negated in gate.operands:
                found[net].append(2 * number + is_negated)
        return found

    def output_rows(self) -> List[Tuple[int, int, int]]:
        """The bit of each output, and its literals."""
        nets = self.nets
        return [
            (self.places[name], 2 * net, number_of(nets.status[Signal(name)]))
            for name, net in nets.emitted.items()
        ]

    def code(self) -> str:
        """The text of the code."""
        nets, readers = self.nets, self.readers()
        starts = [0]
        for some in readers:
            starts.append(starts[-1] + len(some))
        nodes = [
            (
                node.pause,
                number_of(node.pauses),
                number_of(node.keeps),
                node.first,
                node.end,
                node.past,
            )
            for node in nets.nodes
        ]
        return CODE.format(
            **self.words(),
            is_and=listed(int(gate.is_and) for gate in nets.gates),
            operands=listed(len(gate.operands) for gate in nets.gates),
            counts=self.net_width(),
            counts_of_line=self.net_width(),
            readers_width=max(16, width_of(starts[-1].bit_length())),
            nets_width=self.net_width(),
            first=listed(starts),
            readers=listed(one for some in readers for one in some),
            lives=rows_of(nets.lives),
            inputs=rows_of((self.places[name], net) for name, net in nets.inputs.items()),
            outputs=rows_of(self.output_rows()),
            nodes="\n".join("    {" + listed(node) + "}," for node in nodes) or "    {0}",
            input_count=len(nets.inputs),
            live_count=len(nets.lives),
            output_count=len(nets.emitted),
            node_count=len(nodes),
            checks=self.checks(),
        )
