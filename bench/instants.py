#!/usr/bin/env python3
"""Instants a second of the plain engine, for modules of several shapes.

usage: instants.py PROGRAM [SECONDS]
       instants.py --lines

PROGRAM is the built `crates/benches/out/benches`, which loads a module and reacts for as many instants as it is told, without inputs, a
kernel that has ended being begun again. Nothing else of the server runs: no lines, no JSON, no policy, no journal. First each module runs for
twelve instants; the sum of their outputs has to be the one that stands here. --lines prints the lines by which PROGRAM does that.

The time is the processor time of the program, user and system, taken from outside. For each workload the instants are doubled
until a run takes SECONDS (1 if left out); of three such runs the fastest counts, less the fastest of three runs of one instant,
which is the start of the program and the loading of the module.

The run fails where an instant takes a second or more, or where 64 outputs that are decided in the first round take twice
the time of one or more.
"""
import os
import subprocess
import sys
import tempfile

from two_engines import chain, outputs, relay

FIRST = 12  # instants whose sum stands here
MODULE_PARTS = 100  # of a statement that is nested to the left: the reader lets at most 128 brackets be open


def to_the_left(head, parts, between):
    """The parts, nested to the left, and the modules that have all but the last of them."""
    modules, text = "", parts[0]
    for n, part in enumerate(parts[1:], 1):
        if n % MODULE_PARTS == 0:
            modules += f"module N{n}: {head} {text} end module "
            text = f"run N{n}"
        text = f"[{text}]{between}{part}"
    return text, modules


def blinkers(count, signals):
    """Loops of two states side by side, nested to the left, over these outputs."""
    loops = [f"loop emit O{2 * n % signals}; pause; emit O{(2 * n + 1) % signals}; pause end" for n in range(count)]
    text, modules = to_the_left(outputs(signals), loops, " || ")
    return f"{outputs(signals)} {text}", modules


def under_locals(text):
    """A loop of six local signals around a text and a pause, each emitted first."""
    opened = "".join(f"signal S{depth} in emit S{depth}; " for depth in range(6))
    return f"{outputs(64)} loop {opened}[{text}]; pause{' end' * 7}"


def parts():
    return [f"present S{n % 6} then emit O{n % 64} end" for n in range(500)]


def sequence_left():
    """The parts nested to the left. The modules that have them get the local signals as inputs."""
    text, modules = to_the_left(f"input S0, S1, S2, S3, S4, S5; {outputs(64)}", parts(), "; ")
    return under_locals(text), modules


def emissions(signals):
    """64 emissions, of each of the outputs in turn."""
    return f"{outputs(signals)} loop {'; '.join(f'emit O{n % signals}' for n in range(63, -1, -1))}; pause end"


# For each what it is, the sum of its first outputs, and the text of its module, with the modules that it runs.
WORKLOADS = {
    "opening": ("the opening module: `emit O; pause; emit P`", "0060316521cc8106", "output O, P; emit O; pause; emit P"),
    "parallel": ("16 loops of two states, side by side", "0b241a8af4bbd4fe", *blinkers(16, 32)),
    "locals": ("6 local signals in one another, each making the next present", "005d472bc3af08c0", f"output O; loop {chain(6)}; pause end"),
    "large": ("227 loops of two states, side by side: 2,042 statements", "ffdfef88f4bbd4fe", *blinkers(227, 64)),
    "sequence": ("a sequence of 500 parts under 6 local signals: 2,020 statements", "ffa2b8d43c50f740", under_locals("; ".join(reversed(parts())))),
    "sequence-left": ("the same, nested to the left", "ffa2b8d43c50f740", *sequence_left()),
    "one-output": ("64 emissions of 1 output", "005d472bc3af08c0", emissions(1)),
    "many-outputs": ("64 emissions of 64 outputs", "ffa2b8d43c50f740", emissions(64)),
    "relay": ("64 outputs, each making the next present: a round finds one of them", "ffa2b8d43c50f740", relay(64, True)),
}


def case(workload):
    """The inputs of its instants, which are none, and its text."""
    text, *modules = WORKLOADS[workload][2:]
    return f"0 module M: {text} end module {''.join(modules)}"


def processor_seconds(program, workload, instants, wanted=""):
    """The processor time of one run, whose sum has to be the wanted one."""
    with tempfile.TemporaryFile() as given:
        given.write(case(workload).encode())
        given.seek(0)
        process = subprocess.Popen([program, "plain", str(instants)], stdin=given, stdout=subprocess.PIPE)
        line = process.stdout.read().decode()
        _, status, usage = os.wait4(process.pid, 0)
    process.returncode = os.waitstatus_to_exitcode(status)
    if process.returncode != 0 or not line.startswith(f"0 0 {wanted}"):
        sys.exit(f"{workload}: status {process.returncode}, {line!r}")
    return usage.ru_utime + usage.ru_stime


def fastest(program, workload, instants):
    return min(processor_seconds(program, workload, instants) for _ in range(3))


def seconds_an_instant(program, workload, seconds):
    instants = 2
    while processor_seconds(program, workload, instants) < seconds:
        instants *= 2
    start = fastest(program, workload, 1)
    return (fastest(program, workload, instants) - start) / (instants - 1), instants


def main():
    if sys.argv[1] == "--lines":
        print("\n".join(f"plain {FIRST} {case(workload)}" for workload in WORKLOADS))
        return
    program = sys.argv[1]
    seconds = float(sys.argv[2]) if len(sys.argv) > 2 else 1.0
    for workload, (_, wanted, *_) in WORKLOADS.items():
        processor_seconds(program, workload, FIRST, wanted)
    print("| Workload | What it is | Instants a second | Milliseconds an instant |")
    print("|---|---|---|---|")
    taken = {}
    for workload, (what, *_) in WORKLOADS.items():
        each, _ = seconds_an_instant(program, workload, seconds)
        taken[workload] = each
        print(f"| `{workload}` | {what} | {1 / each:,.0f} | {1000 * each:.4f} |", flush=True)
    ratio = taken["many-outputs"] / taken["one-output"]
    print(f"64 outputs take {ratio:.2f} times the time of 1")
    slow = [workload for workload, each in taken.items() if each >= 1]
    if slow or ratio >= 2:
        sys.exit(f"too slow: {slow or 'many-outputs'}")


if __name__ == "__main__":
    main()
