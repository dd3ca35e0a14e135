#!/usr/bin/env python3
"""How many instructions both engines take for an instant of the same module.

usage: two_engines.py PROGRAM [INSTANTS]

PROGRAM is the built `crates/benches/out/benches`, which runs each module on the plain engine and on the microstep engine. Each
module is run under `valgrind --tool=callgrind` for INSTANTS instants (100 if it is left out; a tenth of them for the large modules). The
instructions of `est_micro` and `est_net` are the microstep engine's, without those that make its table; those of `est_rounds` are the
plain engine's. A line for each module: its cells, the instructions of an instant of both, and how many times as many the microstep
engine takes. It exits with 1 where the engines differ.
"""
import pathlib
import re
import subprocess
import sys
import tempfile

from engines import ANSWER

LARGE = ("200 loops", "large", "sequence", "relay", "relay backwards")
COUNTED = re.compile(r"^\s*([\d,]+) \(\s*[\d.]+%\)\s+\S*?:(\S.*?)(?: \[.*)?$")
MAKING = ("est_net::extents::", "Net::build", "open_cells", "with_room", "emissions_of", "add_emission", "Reach::of", "add_pauses", "reach::begun")
BLINKER = "loop emit O; pause; emit P; pause end"
ABRO = "loop abort [ await A || await B ]; emit O; halt when R end"


def outputs(count):
    """That many outputs, declared."""
    return f"output {', '.join(f'O{n}' for n in range(count))};"


def blinkers(count, signals):
    """Loops of two states side by side, over these outputs."""
    loops = (f"loop emit O{2 * n % signals}; pause; emit O{(2 * n + 1) % signals}; pause end" for n in range(count))
    return f"{outputs(signals)} {' || '.join(loops)}"


def chain(count, depth=0):
    """Local signals in one another, each of which makes the next present."""
    if depth == count:
        return f"present S{count - 1} then emit O end"
    told = f"present S{depth - 1} then emit S{depth} end" if depth else "emit S0"
    return f"signal S{depth} in [ {told} || {chain(count, depth + 1)} ] end"


def relay(count, backwards):
    """Outputs, each of which makes the next present, in the order of the text or against it."""
    links = [f"present O{n} then emit O{n + 1} end" for n in range(count - 1)]
    parts = [*reversed(links), "emit O0"] if backwards else ["emit O0", *links]
    return f"{outputs(count)} loop [ {' || '.join(parts)} ]; pause end"


def sequence():
    """A sequence of 500 parts under six local signals, each emitted first."""
    parts = "; ".join(f"present S{n % 6} then emit O{n % 64} end" for n in range(499, -1, -1))
    body = f"{parts}; pause"
    for depth in range(5, -1, -1):
        body = f"signal S{depth} in emit S{depth}; {body} end"
    return f"{outputs(64)} loop {body} end"


def abro_inside(count):
    """ABRO inside local signals, each of which one part emits and another asks for."""
    body = ABRO
    for n in range(count - 1, -1, -1):
        beside = f"loop present S{n} then emit O end; pause end"
        body = f"signal S{n} in [ loop emit S{n}; pause end || [ {body} ] || {beside} ] end"
    return f"input A, B, R; output O; {body}"


def modules():
    """The modules: name, inputs of the instants, and text."""
    offers = "1,2,4,3,0,1,4,7"
    yield "two states", "0", f"output O, P; {BLINKER}"
    yield "three pauses", "0", "output O; loop emit O; pause; pause; pause end"
    yield "abro", offers, f"input A, B, R; output O; {ABRO}"
    yield "240 pauses", "0", f"output O; loop {'; '.join(['pause'] * 240)}; emit O end"
    yield "50 aborts", "0,1,0,0,1", f"input I; output O; {' || '.join(['loop abort [ emit O; halt ] when I end'] * 50)}"
    yield "16 loops", "0", f"output O, P; {' || '.join([BLINKER] * 16)}"
    yield "200 loops", "0", f"output O, P; {' || '.join([BLINKER] * 200)}"
    yield "large", "0", blinkers(227, 64)
    yield "many outputs", "0", f"{outputs(64)} loop {'; '.join(f'emit O{n}' for n in range(64))}; pause end"
    yield "relay", "0", relay(64, False)
    yield "relay backwards", "0", relay(64, True)
    yield "sequence", "0", sequence()
    for count in (1, 2, 3, 4, 6):
        yield f"{count} locals", "0", f"output O; loop {chain(count)}; pause end"
    for count in (1, 2, 3):
        yield f"abro inside {count}", offers, abro_inside(count)


def counted(program, instants, case, folder):
    """What the program prints for a case, and the instructions of the microstep engine and of the plain one."""
    (folder / "case").write_text(case, encoding="utf-8")
    words = ["valgrind", "--tool=callgrind", f"--callgrind-out-file={folder / 'counts'}", program, "pairs", str(instants)]
    with (folder / "case").open(encoding="utf-8") as given:
        ran = subprocess.run(words, stdin=given, capture_output=True, text=True, check=True)
    told = subprocess.run(["callgrind_annotate", "--threshold=100", str(folder / "counts")], capture_output=True, text=True, check=True)
    microsteps = plain = 0
    for line in told.stdout.splitlines():
        found = COUNTED.match(line)
        if not found or any(word in found[2] for word in MAKING):
            continue
        count = int(found[1].replace(",", ""))
        if "est_micro" in found[2] or "est_net" in found[2]:
            microsteps += count
        elif "est_rounds" in found[2]:
            plain += count
    return ran.stdout, microsteps, plain


def main(words):
    if not words or len(words) > 2:
        sys.exit(__doc__.strip())
    most = int(words[1]) if len(words) > 1 else 100
    with tempfile.TemporaryDirectory() as name:
        for module, inputs, text in modules():
            instants = max(1, most // 10) if module in LARGE else most
            answers, microsteps, plain = counted(words[0], instants, f"{inputs} module M: {text} end module\n", pathlib.Path(name))
            cells, *each = answers.split()
            if any((found := ANSWER.match(answer)) is None or found[2] != "=" for answer in each):
                sys.exit(f"{module}: the engines differ: {answers}")
            print(f"{module}: {cells} cells, {microsteps // instants} and {plain // instants}, {microsteps / plain:.2f} times")


if __name__ == "__main__":
    main(sys.argv[1:])
