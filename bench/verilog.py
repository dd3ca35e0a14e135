#!/usr/bin/env python3
"""A module as Verilog by its gates, with what drives it as bench/targets.py drives it in C.

usage: verilog.py FILE [MAIN]

The gates are those of `estserve-client compile --cells`, and the pauses are registers. The program that is printed takes `+instants=N`, and
prints the sum of what was emitted, in hexadecimal digits.
"""
import pathlib
import sys

ROOT = pathlib.Path(__file__).resolve().parent.parent
sys.path.insert(0, str(ROOT / "clients"))
from estserve_client.lab.asking import read_subject  # noqa: E402
from estserve_client.lab.kernel import kernel_of  # noqa: E402
from estserve_client.lab.nets import Nets  # noqa: E402

MODULE = """\
module machine(input clock, input [63:0] offered, output [63:0] emitted);
  reg began = 0{pauses};
  wire {wires};
{gates}
{outputs}
  always @(posedge clock) begin
    began <= 1;
{next}
  end
endmodule
"""
BENCH = """\
module bench;
  reg clock = 0;
  reg [63:0] dice = 64'd88172645463325252, offered = 0, sum = 0;
  wire [63:0] emitted;
  integer at, count;
  machine one(clock, offered, emitted);
  initial begin
    if (!$value$plusargs("instants=%d", count)) count = 1;
    for (at = 0; at < count; at = at + 1) begin
OFFERS
      #1 sum = sum * 31 + emitted;
      clock = 1;
      #1 clock = 0;
    end
    $display("%h", sum);
    $finish;
  end
endmodule
"""
DICE = """\
      dice = dice ^ (dice << 13);
      dice = dice ^ (dice >> 7);
      dice = dice ^ (dice << 17);
      offered = dice % 4 != 0 ? (64'd1 << ((dice >> 8) % 64)) & 64'dINPUTS : 64'd0;"""


def literal(one):
    """A constant, or a net that may be negated."""
    if isinstance(one, bool):
        return f"1'b{one:d}"
    return ("~" if one[1] else "") + f"n{one[0]}"


def joined(is_and, operands):
    """`and` or `or` over some."""
    return (" & " if is_and else " | ").join(operands) or f"1'b{is_and:d}"


def any_pause(first, end):
    return joined(False, [f"p{pause}" for pause in range(first, end)])


def gates(nets, places):
    """The value of each net."""
    told = {number: joined(gate.is_and, map(literal, gate.operands)) for number, gate in enumerate(nets.gates)}
    told[nets.begun] = "~began"
    told.update({net: f"offered[{places[name]}]" for name, net in nets.inputs.items()})
    told.update({net: any_pause(first, end) for net, first, end in nets.lives})
    return [f"assign n{net} = {value};" for net, value in told.items()]


def pauses_after(nets):
    """What keeps each pause: wires that say whether a node is reached and keeps its own or those inside it, and the next pauses."""
    wires, own, kept, around = [], {}, {}, []
    for number, node in enumerate(nets.nodes):
        around = [past for past in around if past[0] > number]
        above = f"own{around[-1][1]}" if around else "1'b1"
        pauses, keeps = literal(node.pauses), literal(node.keeps)
        wires += [f"assign own{number} = {above} & {pauses} & ~({keeps});", f"assign kept{number} = {above} & {pauses} & {keeps};"]
        around.append((node.past, number))
        if node.pause >= 0:
            own.setdefault(node.pause, []).append(f"own{number}")
        for pause in range(node.first, node.end):
            if node.keeps is not False:
                kept.setdefault(pause, []).append(f"kept{number}")
    after = []
    for pause in range(nets.pause_count):
        stays = f"p{pause} & ({joined(False, kept.get(pause, []))})"
        after.append(f"p{pause} <= {joined(False, [*own.get(pause, []), stays])};")
    return wires, after


def verilog(path, main=None, offers=None):
    """The text of a module, and of what drives it: by `offers`, what is offered in an instant, or else by dice."""
    subject = read_subject([str(path)], main)
    module = subject.module
    places = {signal: place for place, (signal, _) in enumerate(module.signals)}
    nets = Nets(kernel_of(subject)[0], module.inputs(), module.outputs())
    wires, after = pauses_after(nets)
    names = [f"n{net}" for net in range(len(nets.gates))] + [wire.split()[1] for wire in wires]
    outputs = {places[name]: f"n{net}" for name, net in nets.emitted.items()}
    text = MODULE.format(
        pauses="".join(f", p{pause} = 0" for pause in range(nets.pause_count)),
        wires=", ".join(names),
        gates="\n".join(f"  {line}" for line in [*gates(nets, places), *wires]),
        outputs="\n".join(f"  assign emitted[{place}] = {outputs.get(place, literal(False))};" for place in range(64)),
        next="\n".join(f"    {line}" for line in after),
    )
    dice = DICE.replace("INPUTS", str(sum(1 << places[name] for name in module.inputs())))
    return text + BENCH.replace("OFFERS", offers or dice)


if __name__ == "__main__":
    if len(sys.argv) not in (2, 3):
        sys.exit(__doc__.strip())
    sys.setrecursionlimit(20000)
    print(verilog(*sys.argv[1:]), end="")
