#!/usr/bin/env python3
"""How fast all runs of a module are explored: beside the engine alone, and beside a loop in C over the closed table.

usage: explore.py ESTLAB BENCHES [NAME ..]
       explore.py --million ESTLAB

ESTLAB and BENCHES are the built `crates/estlab/out/estlab` and `crates/benches/out/benches`. A time is the processor time of a run, user and
system, less that of a run that does nothing else than load the module. Each is the least of RUNS. A module that is searched in less than SECONDS
is searched several times in a run.

- Sets are all reactions there are: of each state with each lawful set of inputs.
- Rows are what `estlab` finds. A row is a reaction, and stands for all sets that are the same where it was asked.
- Calls are how often the engine was asked for that: for each row, and where a part of the inputs was split, since it told nothing.
- The engine alone is BENCHES: a reaction of the microstep engine, with sets of these inputs in turn.
- In C, `bench/explore.c` finds the same states again from the table that `estlab` writes, breadth first: a row of it.

After the table it tells how much of the rate of the engine alone is reached at least, by rows and by calls, and compares twenty inputs, of which
a state looks at three, with those three alone. --million finds a million states, and tells the most memory that ESTLAB took.
"""
import json
import os
import pathlib
import subprocess
import sys
import tempfile

HERE = pathlib.Path(__file__).resolve().parent
RUNS = 3
SECONDS = 0.5  # how long a run is to take, about
MOST = 40_000_000  # states, and rows


def toggle_chain(names):
    """Toggles side by side: each of the names but the last turns one over, which emits the next name once it is turned back."""
    return " || ".join(f"loop await {one}; await {one}; emit {after} end" for one, after in zip(names, names[1:]))


def counter(bits):
    """A counter of this many bits, each a toggle that is turned over by the one before."""
    names = ["T", *(f"C{n}" for n in range(1, bits)), "FULL"]
    return f"module M: input T; output FULL; signal {', '.join(names[1:-1])} in {toggle_chain(names)} end end module", ["T"]


def toggles(count):
    """Toggles of an input each, one at a time."""
    inputs = [f"I{n}" for n in range(count)]
    parts = " || ".join(f"loop await {name}; emit O; await {name} end" for name in inputs)
    return f"module M: input {', '.join(inputs)}; relation {' # '.join(inputs)}; output O; {parts} end module", inputs


def arbiter(cells):
    """Cells in a ring: the right to be granted goes around from the one that has the token, which moves on each instant."""
    inputs = [f"R{n}" for n in range(cells)]
    signals = [f"{letter}{n}" for letter in "PT" for n in range(cells)]

    def cell(n):
        after = (n + 1) % cells
        granted = f"present [P{n} or T{n}] then present R{n} then emit G{n} else emit P{after} end end"
        moving = f"loop present T{n} then pause; emit T{after} else pause end end"
        return f"[ loop {granted}; pause end || {moving} ]"

    body = " || ".join(["emit T0", *map(cell, range(cells))])
    outputs = ", ".join(f"G{n}" for n in range(cells))
    return f"module M: input {', '.join(inputs)}; output {outputs}; signal {', '.join(signals)} in {body} end end module", inputs


def looks_at_three(inputs):
    """Three of so many inputs are looked at in each instant. The last one turns a counter over, so that there are 513 states."""
    names = [f"I{n}" for n in range(inputs)]
    a, b, c = names[0], names[inputs // 2], names[-1]
    bits = [c, *(f"C{n}" for n in range(1, 9)), "FULL"]
    body = f"loop present {a} then emit X end; present {b} then emit Y end; pause end || {toggle_chain(bits)}"
    text = f"module M: input {', '.join(names)}; output X, Y, FULL; signal {', '.join(bits[1:-1])} in {body} end end module"
    return text, names


def wheels(lengths):
    """Loops of pauses side by side: as many states as the least number that all these divide, and one for the start."""
    loops = " || ".join(f"loop {'; '.join(['pause'] * length)} end" for length in lengths)
    return f"module M: output O; {loops} end module", []


PROGRAMS = {
    "counter12": counter(12),
    "toggles12": toggles(12),
    "arbiter8": arbiter(8),
    "three3": looks_at_three(3),
    "three20": looks_at_three(20),
}


class Ran:
    """A run of a program: its seconds of processor time, the most memory that it took, and its lines."""

    def __init__(self, words, given):
        with tempfile.TemporaryFile() as file:
            file.write(given.encode())
            file.seek(0)
            process = subprocess.Popen(words, stdin=file, stdout=subprocess.PIPE)
            self.lines = process.stdout.read().decode().splitlines()
            _, status, usage = os.wait4(process.pid, 0)
        process.returncode = os.waitstatus_to_exitcode(status)
        if process.returncode != 0:
            sys.exit(f"explore.py: {' '.join(map(str, words))} ended with {process.returncode}")
        self.seconds, self.kibibytes = usage.ru_utime + usage.ru_stime, usage.ru_maxrss


def asked(text, inputs, command, times=1, most=MOST):
    """The lines that load a module and ask for something so many times."""
    load = {"cmd": "load", "main": "M", "text": text}
    more = {"cmd": command, "inputs": inputs, "most": most, **({"claims": []} if command == "explore" else {})}
    return "".join(json.dumps(line) + "\n" for line in [load, *[more] * times])


def least(words, given):
    """The least seconds of some runs, and the last of them."""
    runs = [Ran(words, given) for _ in range(RUNS)]
    return min(run.seconds for run in runs), runs[-1]


def explored(lab, text, inputs):
    """The seconds, states and rows of an exploration."""
    start, _ = least([lab], asked(text, inputs, "explore", times=0))
    once = Ran([lab], asked(text, inputs, "explore")).seconds - start
    times = 1 + int(SECONDS / max(once, 1e-3))
    seconds, run = least([lab], asked(text, inputs, "explore", times=times))
    told = json.loads(run.lines[-1])
    if told.get("ok") != "explore":
        sys.exit(f"explore.py: {run.lines[-1]}")
    return (seconds - start) / times, told["states"], told["reactions"]


def lawful_sets(text, inputs):
    """How many sets of these inputs are lawful: with a relation at most one is offered."""
    return 1 + len(inputs) if "relation" in text else 1 << len(inputs)


def alone(benches, text, inputs):
    """The seconds of a reaction of the engine alone, with sets of these inputs in turn."""
    masks = [n * 2654435761 % (1 << len(inputs)) for n in range(64)]
    case = f"{','.join(f'{mask:x}' for mask in masks)} {text}\n"
    if "relation" in text:
        case = f"{','.join(f'{mask:x}' for mask in [0, *(1 << n for n in range(len(inputs)))])} {text}\n"
    count, start = 64, Ran([benches, "micro", "1"], case).seconds
    while Ran([benches, "micro", str(count)], case).seconds - start < SECONDS / 4:
        count *= 4
    return (least([benches, "micro", str(count)], case)[0] - start) / (count - 1)


def floor(program, lab, text, inputs):
    """The seconds of a row of the loop in C."""
    told = json.loads(Ran([lab], asked(text, inputs, "table")).lines[-1])
    rows = told["rows"]
    table = [f"{len(told['states'])} {len(rows)}", *(f"{row['from']} {row.get('next', -1)}" for row in rows)]
    times = 1 + 20_000_000 // len(rows)
    start, _ = least([program, "1"], "\n".join(table))
    seconds, run = least([program, str(times)], "\n".join(table))
    if run.lines[-1] != str(len(told["states"])):
        sys.exit(f"explore.py: the loop in C found {run.lines[-1]} states")
    return (seconds - start) / (times - 1) / len(rows)


def million(lab):
    """A million states, and the memory that they take."""
    text, inputs = wheels((5, 7, 9, 13, 16, 17))
    run = Ran([lab], asked(text, inputs, "explore", most=1_000_000))
    told = json.loads(run.lines[-1])
    if told.get("states", 0) <= 1_000_000:
        sys.exit(f"explore.py: {run.lines[-1]}")
    print(f"{told['states']:,} states, {told['reactions']:,} rows: {run.seconds:.1f} s, {run.kibibytes / 1024:,.0f} MiB")
    if run.kibibytes > 1 << 20:
        sys.exit("explore.py: more than 1 GiB")


def main(words):
    if words[:1] == ["--million"]:
        return million(str(pathlib.Path(words[1]).resolve()))
    if len(words) < 2:
        sys.exit(__doc__.strip())
    lab, benches = (str(pathlib.Path(word).resolve()) for word in words[:2])
    spent, by_rows, by_calls = {}, {}, {}
    with tempfile.TemporaryDirectory() as folder:
        program = pathlib.Path(folder) / "explore"
        subprocess.run(["cc", "-O2", "-o", program, HERE / "explore.c"], check=True)
        print("| Module | States | Sets | Rows | Calls | Rows a second | us a row | Engine alone, us | Engine over row | Engine over call | In C, us |")
        print("|---|---|---|---|---|---|---|---|---|---|---|")
        for name in words[2:] or PROGRAMS:
            text, inputs = PROGRAMS[name]
            seconds, states, rows = explored(lab, text, inputs)
            calls = 2 * rows - states  # of a state with so many rows one less is split
            engine, loop = alone(benches, text, inputs), floor(program, lab, text, inputs)
            spent[name], by_rows[name], by_calls[name] = seconds, engine * rows / seconds, engine * calls / seconds
            print(f"| `{name}` | {states:,} | {states * lawful_sets(text, inputs):,} | {rows:,} | {calls:,} | {rows / seconds:,.0f} "
                  f"| {seconds / rows * 1e6:.2f} | {engine * 1e6:.2f} | {by_rows[name]:.2f} | {by_calls[name]:.2f} | {loop * 1e6:.4f} |", flush=True)
    for what, parts in (("rows", by_rows), ("calls", by_calls)):
        name = min(parts, key=lambda each: parts[each])
        print(f"by {what} at least {parts[name]:.2f} of the rate of the engine alone ({name})")
    if "three3" in spent and "three20" in spent:
        ratio = spent["three20"] / spent["three3"]
        print(f"twenty inputs of which three matter take {ratio:.1f} times as long as three")
        if ratio > 10:
            sys.exit("explore.py: more than 10 times as long")


if __name__ == "__main__":
    main(sys.argv[1:])
