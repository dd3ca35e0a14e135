#!/usr/bin/env python3
"""The microstep engine beside Icarus Verilog, which simulates the gates of the same programs.

usage: icarus.py PROGRAM [PAIRS] [NAME ..]

PROGRAM is the built `crates/benches/out/benches`. The programs are those of bench/worklist.py, all but the largest one, or those that are
named. Each is printed as a module, its gates as Verilog (bench/verilog.py). Both run the same instants. The engine has to decide all cells,
and the outputs of both have to have one sum; else the script ends with 1. A time is processor time, that of a run less that of a run of one
instant; that of Icarus has in it the clock, what offers inputs and what adds up outputs.

Each row has the cells that the engine decides in an instant, the gates of Icarus, and how many of them have another value in an instant than in the
one before, on average over instants 2 to 201. Icarus looks again only at a gate whose operands have changed. Then come the medians of PAIRS
pairs (5 if left out), the two in turn: microseconds an instant of both, and their ratio. Icarus is Debian's package iverilog; without it nothing
is timed.
"""
import pathlib
import re
import shutil
import statistics
import subprocess
import sys
import tempfile

import verilog
import worklist

LARGEST = "deep60x12"
CHECKED = 200  # instants whose sums are compared
DUMP = """\
    if ($test$plusargs("changes")) begin
      $dumpfile("FOLDER/changes.vcd");
      $dumpvars(0, one);
    end
"""


def offers(masks):
    """What is offered in the instants: these masks, again and again."""
    if len(masks) == 1:
        return f"      offered = 64'd{masks[0]};"
    cases = [f"        {n}: offered = 64'd{mask};" for n, mask in enumerate(masks)]
    return "\n".join([f"      case (at % {len(masks)})", *cases, "      endcase"])


def simulated(name, folder):
    """The words that simulate a program, and how many gates there are."""
    inputs, outputs, statement, masks = {**worklist.programs(), **worklist.further()}[name][1:]
    (folder / f"{name}.strl").write_text(worklist.module_of(inputs, outputs, statement), encoding="utf-8")
    text = verilog.verilog(folder / f"{name}.strl", offers=offers(masks))
    begin = "  initial begin\n"
    bench = text.replace(begin, begin + DUMP.replace("FOLDER", str(folder)))
    (folder / f"{name}.v").write_text(bench, encoding="utf-8")
    subprocess.run(["iverilog", "-g2005", "-o", folder / f"{name}.vvp", folder / f"{name}.v"], check=True)
    return (lambda count: ["vvp", "-n", folder / f"{name}.vvp", f"+instants={count}"]), text.count("assign n")


def changes(icarus, folder):
    """How many gates change in an instant."""
    def changed(count):
        subprocess.run([*icarus(count), "+changes"], capture_output=True, check=True)
        told = (folder / "changes.vcd").read_text(encoding="utf-8")
        gates = set(re.findall(r"^\$var wire 1 (\S+) n\d+ \$end$", told, flags=re.M))
        return sum(line[1:] in gates for line in told.splitlines() if line[0] in "01xz")
    return (changed(1 + CHECKED) - changed(1)) / CHECKED


def compare(words_of, program):
    """All cells have to be decided, and the sums of both to be one."""
    engine, icarus = (worklist.run(words(CHECKED), program.case)[1].split() for words in words_of.values())
    if engine[:2] != [str(program.cells)] * 2 or int(engine[2], 16) != int(icarus[0], 16):
        sys.exit(f"icarus.py: {program.name}: {program.cells} cells, and {engine} and {icarus}")


def main(words):
    if not words:
        sys.exit(__doc__.strip())
    if not shutil.which("iverilog"):
        return print("icarus.py: iverilog is not there")
    engine, others = str(pathlib.Path(words[0]).resolve()), words[1:]
    pairs = int(others.pop(0)) if others and others[0].isdigit() else 5
    sys.setrecursionlimit(20000)
    print("| Program | Cells | Gates of Icarus | That change | Engine, microseconds | Icarus, microseconds | Engine over Icarus |\n|---|---|---|---|---|---|---|")
    with tempfile.TemporaryDirectory() as made:
        folder = pathlib.Path(made)
        for name in others or [each for each in worklist.programs() if each != LARGEST]:
            program = worklist.Program(name, folder)
            icarus, gates = simulated(name, folder)
            words_of = {"engine": lambda count: [engine, "micro", str(count)], "icarus": icarus}
            compare(words_of, program)
            taken = worklist.timed(words_of, program, pairs)
            times = {each: statistics.median(values) * 1e6 for each, values in taken.items()}
            ratio = statistics.median(e / i for e, i in zip(taken["engine"], taken["icarus"]))
            print(f"| `{name}` | {program.cells:,} | {gates:,} | {changes(icarus, folder):.0f} | {times['engine']:.2f} | {times['icarus']:.2f} | {ratio:.2f} |", flush=True)


if __name__ == "__main__":
    main(sys.argv[1:])
