#!/usr/bin/env python3
"""What a reaction costs in a C program, by the library, by a table in C, and by a module's gates in C; in `estserve script`; and in Icarus.

usage: targets.py LIBRARY [INSTANTS]

LIBRARY is crates/est_embed/out/libestserve_react.a, which `make library` proves and builds, or - to leave its columns empty; the variables
ESTLAB and ESTSERVE name estlab and estserve. Each module below gets the same inputs, one signal or none at a time, in INSTANTS instants (300,000 if left out) of each form in C, and
in SCRIPTED of the script and SIMULATED of Icarus; the outputs have to be the same. Icarus is Debian's package iverilog, and simulates the gates
as bench/verilog.py prints them; without it its column is empty. A time is processor time; of script and Icarus it is that of a run, less that of
a run of one instant. The script offers and steps. Bytes are those of code and tables, by `size`, and of the library all that a program links.
"""
import json
import os
import pathlib
import resource
import shlex
import shutil
import subprocess
import sys
import tempfile

import verilog

ROOT = pathlib.Path(__file__).resolve().parent.parent
MODULES = ("abro", "stopwatch", "mouse", "arbiter", "shared_bus")
SCRIPTED, SIMULATED, LOOKED = 20_000, 50_000, 400  # instants; LOOKED are those after which the script looks too
STRICT = ["gcc", "-O2", "-Wall", "-Wextra", "-Werror"]
LOOP = """
int main(int words, char **word) {
  uint64_t given, sum = 0, shown = 0, dice = 88172645463325252u;
  long count = atol(word[1]);
  if (words != 2 || begin()) return 1;
  clock_t start = clock();
  for (long at = 0; at < count; at++) {
    dice ^= dice << 13, dice ^= dice >> 7, dice ^= dice << 17;
    uint64_t inputs = dice % 4 ? (UINT64_C(1) << (dice >> 8) % 64) & OFFERED : 0;
    uint64_t status = (uint64_t)react(inputs, &given);
    sum = sum * 31 + status + given;
    shown = shown * 31 + status + (given | (inputs & EMITTED));
  }
  double time = (double)(clock() - start) / CLOCKS_PER_SEC * 1e6 / (double)count;
  printf("%f %llx %llx\\n", time, (unsigned long long)sum, (unsigned long long)shown);
  return 0;
}
"""
HEAD = "#include <stdio.h>\n#include <stdlib.h>\n#include <string.h>\n#include <time.h>\n"
OWN = """#include "{name}.h"
#define OFFERED {prefix}_INPUTS
#define EMITTED {prefix}_OUTPUTS
static struct {name} machine;
static int begin(void) {{ {name}_reset(&machine); return 0; }}
static int react(uint64_t inputs, uint64_t *given) {{
  int status = {name}_react(&machine, inputs, given);
  if (status) *given = 0;
  return status;
}}
"""
LINKED = """#include "estserve_react.h"
static est_machine *machine;
static uint64_t offered, emitted;
#define OFFERED offered
#define EMITTED emitted
static const char text[] = {{ {text} }};
static int begin(void) {{
  struct est_fault fault;
  if (est_load(text, sizeof text, "{main}", {length}, &machine, &fault)) return 1;
  offered = est_inputs(machine), emitted = est_outputs(machine);
  return 0;
}}
static int react(uint64_t inputs, uint64_t *given) {{ return est_react(machine, inputs, given); }}
"""


def compiled(name, folder, *words):
    """Has the client write a module as C. Answers the main module's name."""
    client = [sys.executable, "-B", ROOT / "clients" / "estserve.py", "compile", ROOT / "examples" / name / f"{name}.strl"]
    subprocess.run([*client, "-o", folder / "m", *words], check=True, stdout=subprocess.DEVNULL)
    return (folder / "m.h").read_text().split("The module ", 1)[1].split(",")[0]


def run(source, folder, instants, *files):
    """Microseconds an instant of a program, and the sum of what it was given."""
    (folder / "main.c").write_text(HEAD + source + LOOP)
    subprocess.run([*STRICT, f"-I{folder}", f"-I{ROOT / 'targets'}", "-o", folder / "main", folder / "main.c", *files], check=True)
    told = subprocess.run([folder / "main", str(instants)], check=True, stdout=subprocess.PIPE, text=True).stdout
    time, total, _ = told.split()
    return float(time), total


def size(path, folder):
    """The bytes of code and data of a file of C, compiled; or of a program."""
    if path.suffix == ".c":
        subprocess.run([*STRICT, f"-I{folder}", "-c", "-o", folder / "m.o", path], check=True)
        path = folder / "m.o"
    told = subprocess.run(["size", path], check=True, stdout=subprocess.PIPE, text=True).stdout
    return sum(map(int, told.splitlines()[1].split()[:2]))


def draws():
    """The numbers that inputs are drawn by, as LOOP makes them."""
    dice = 88172645463325252
    while True:
        dice ^= dice << 13 & (1 << 64) - 1
        dice ^= dice >> 7
        dice ^= dice << 17 & (1 << 64) - 1
        yield dice


def commands(module, text, instants, looks):
    """The commands of a script. It looks after the first instants."""
    yield {"cmd": "login", "roles": ["root"], "user": "root"}
    offered = [(signal, "offer") for signal in module.inputs()]
    for name, operation in [("", "load"), ("", "step"), *offered, *[(signal, "observe") for signal in module.outputs()]]:
        yield {"cmd": "grant", "object": f"0.{name}".rstrip("."), "op": operation, "role": "root"}
    yield {"cmd": "load", "main": module.name, "slot": 0, "text": text}
    names = [signal for signal, _ in module.signals]
    for instant, dice in zip(range(1, instants + 1), draws()):
        place = (dice >> 8) % 64
        if dice % 4 and place < len(names) and names[place] in module.inputs():
            yield {"cmd": "offer", "signal": names[place], "slot": 0}
        yield {"cmd": "step", "slot": 0}
        if instant <= looks:
            yield {"cmd": "look", "instant": instant, "slot": 0}


def seconds_of(words, given=""):
    """The processor seconds of a command, and what it writes."""
    before = resource.getrusage(resource.RUSAGE_CHILDREN)
    told = subprocess.run(words, input=given, check=True, stdout=subprocess.PIPE, text=True).stdout
    after = resource.getrusage(resource.RUSAGE_CHILDREN)
    return after.ru_utime + after.ru_stime - before.ru_utime - before.ru_stime, told


def by_script(subject, text, wanted):
    """Microseconds an instant of estserve script. Its first outputs have to have this sum."""
    module = subject.module
    places = {signal: 1 << place for place, (signal, _) in enumerate(module.signals)}

    def run(instants, looks):
        lines = [json.dumps(each, separators=(",", ":"), sort_keys=True) for each in commands(module, text, instants, looks)]
        return seconds_of([*shlex.split(os.environ["ESTSERVE"]), "script"], "\n".join(lines) + "\n")

    total = 0
    for line in run(LOOKED, LOOKED)[1].splitlines():
        shown = json.loads(line)
        if "fault" in shown:
            sys.exit(f"{module.name}: refused: {line}")
        if shown["ok"] == "look":
            total = (total * 31 + sum(places[name] for name, is_present in shown["signals"] if is_present)) % (1 << 64)
    if total != wanted:
        sys.exit(f"{module.name}: the outputs of estserve script differ")
    return (run(SCRIPTED, 0)[0] - run(1, 0)[0]) / (SCRIPTED - 1) * 1e6


def by_icarus(path, folder, main):
    """Microseconds an instant of Icarus, whose outputs have to have the sum of the C program's; or nothing."""
    if not shutil.which("iverilog"):
        return None
    (folder / "m.v").write_text(verilog.verilog(path))
    subprocess.run(["iverilog", "-g2005", "-o", folder / "m.vvp", folder / "m.v"], check=True)
    first, _ = seconds_of(["vvp", "-n", folder / "m.vvp", "+instants=1"])
    whole, told = seconds_of(["vvp", "-n", folder / "m.vvp", f"+instants={SIMULATED}"])
    if int(told.split()[0], 16) != sum_of(main, SIMULATED):
        sys.exit(f"{path}: the outputs of Icarus differ")
    return (whole - first) / (SIMULATED - 1) * 1e6


def sum_of(main, instants, is_shown=False):
    """The sum of what the C program is given in so many instants; or of what a look shows, where an inputoutput that is offered is present."""
    return int(seconds_of([main, str(instants)])[1].split()[2 if is_shown else 1], 16)


def by_library(path, main, library, instants, folder):
    """What a module takes over the library: microseconds, the sum of what it was given, and bytes."""
    text = ", ".join(str(byte) for byte in path.read_bytes())
    source = LINKED.format(text=text, main=main, length=len(main))
    return *run(source, folder, instants, library), size(folder / "main", folder)


def row(name, library, instants, folder):
    """Prints the row of a module."""
    path, cells = ROOT / "examples" / name / f"{name}.strl", []
    for words in ((), ("--cells",)):
        main = compiled(name, folder, *words)
        own = OWN.format(name="m", prefix="M")
        cells.append((*run(own, folder, instants, folder / "m.c"), size(folder / "m.c", folder)))
    if library:
        cells.insert(0, by_library(path, main, library, instants, folder))
    if len({total for _, total, _ in cells}) != 1:
        sys.exit(f"{name}: the outputs differ")
    script = by_script(verilog.read_subject([str(path)], None), path.read_text(), sum_of(folder / "main", LOOKED, True))
    icarus = by_icarus(path, folder, folder / "main")
    others = f"{script:.2f} | " + (f"{icarus:.2f}" if icarus is not None else "")
    columns = ([] if library else [" | "]) + [f"{time:.3f} | {count:,}" for time, _, count in cells]
    print(f"| {name} | " + " | ".join(columns) + f" | {others} |", flush=True)


def main(words):
    if not words or len(words) > 2 or not os.environ.get("ESTLAB") or not os.environ.get("ESTSERVE"):
        sys.exit(__doc__.strip())
    instants = int(words[1]) if len(words) > 1 else 300_000
    print("| Module | Library, microseconds | Bytes | Table in C, microseconds | Bytes | Gates in C, microseconds | Bytes | Script, microseconds "
          "| Icarus, microseconds |")
    print("|---|---|---|---|---|---|---|---|---|")
    library = None if words[0] == "-" else pathlib.Path(words[0]).resolve()
    with tempfile.TemporaryDirectory() as made:
        for name in MODULES:
            row(name, library, instants, pathlib.Path(made))


if __name__ == "__main__":
    main(sys.argv[1:])
