#!/usr/bin/env python3
"""The microstep engine beside a worklist in plain C, over as many cells.

usage: worklist.py PROGRAM [PAIRS] [NAME ..]
       worklist.py --check PROGRAM [NAME ..]
       worklist.py --plain PROGRAM [PAIRS] [NAME ..]
       worklist.py --exponents PROGRAM [FAMILY ..]
       worklist.py --orders PROGRAM [PAIRS]
       worklist.py --loads PROGRAM [PAIRS] [NAME ..]

PROGRAM is the built `crates/benches/out/benches`. Each program below is written as kernel statements. This script prints it as a
module, which PROGRAM loads, and lays out its cells and their gates itself, for `bench/worklist.c`, which it builds with the system's `cc -O2`.
Both then run the same instants, each from the kernel's beginning, and once the kernel has ended from its beginning again. Their cells have to
be as many, all of them decided in the last instant, and the sums of their outputs equal; else the script ends with 1.

A time is the processor time of a run, user and system, less that of a run of one instant, over instants and cells. Each row has the medians
of PAIRS pairs (10 if left out), the two programs in turn, and the median of their ratios. The instructions are callgrind's, one run each. The
plain engine is timed too where local signals nest at most six deep. --check compares sums alone, over few instants.

--plain times the engine beside the plain engine alone, in all programs where local signals nest at most six deep, and in further ones:
microseconds an instant of both, and the median of their ratios. The engine has to decide all cells, and the outputs of both have to have one
sum.

--exponents counts the engine's instructions an instant in programs of one kind and of growing size, and prints for each such family the
exponent: the slope of the line that fits the logarithms of instructions over those of cells best. 1 is linear.

--orders times the engine alone: 32 and 64 outputs, each told by another one, in the order of the text and at random, and rings of 8, 16 and 32
cells. --loads times what a load with one instant takes on the engine, with its table, beside the plain engine, which has none: each less what
the start of a process takes. Programs that take less than half of that are left out. Both print the medians of PAIRS rounds.
"""
import math
import os
import pathlib
import random
import re
import statistics
import subprocess
import sys
import tempfile

HERE = pathlib.Path(__file__).resolve().parent
KINDS = "CONSTANT BEGUN COPY BOTH BUT ANY EITHER ENDS AGAIN OUT HELD RUNS MOST INPUT".split()
SECONDS = 0.25  # how long a timed run takes, about
MOST_LOCALS = 6  # in one another, for the plain engine
ORDERS = {"relay-on": (32, 64), "relay-mixed": (32, 64), "ring": (8, 16, 32)}  # families and sizes that are timed by --orders
CHECKED = 40  # instants of --check
COUNTED = 20  # instants whose instructions are counted
TOO_LONG = 60  # seconds

NOTHING, PAUSE = ("nothing",), ("pause",)


# Statements. A test is the name of a signal; a trap and a local signal have names of their own.

def emit(name):
    return ("emit", name)


def seq(*parts):
    """`p; q; ..`, nested to the right, as the reader nests it."""
    return parts[0] if len(parts) == 1 else ("seq", parts[0], seq(*parts[1:]))


def par(*parts):
    """`p || q || ..`, nested to the right."""
    return parts[0] if len(parts) == 1 else ("par", parts[0], par(*parts[1:]))


def loop(*parts):
    return ("loop", seq(*parts))


def present(test, p, q=NOTHING):
    return ("present", test, p, q)


def halt():
    return loop(PAUSE)


def sustain(name):
    return loop(emit(name), PAUSE)


def exit_where(test):
    return loop(PAUSE, present(test, ("exit", "W")))


def wait(test):
    """`await S`"""
    return ("trap", "W", exit_where(test))


def abort(p, test):
    """`abort p when S`"""
    return ("trap", "W", par(seq(("suspend", test, p), ("exit", "W")), exit_where(test)))


def loop_each(p, test):
    """`loop p each S`"""
    return loop(abort(seq(p, halt()), test))


def every(p, test):
    """`every S do p end`"""
    return seq(wait(test), loop_each(p, test))


def local(names, p):
    """`signal A in signal B in .. p`"""
    return ("local", names[0], local(names[1:], p)) if names else p


# Programs: what each is, its inputs, its outputs, its statement, and the inputs of its instants, which come again and again.

def names(letter, count):
    return [f"{letter}{n}" for n in range(count)]


def blinker(first, second):
    """A loop of two states."""
    return loop(emit(first), PAUSE, emit(second), PAUSE)


def blinkers(count, outputs):
    return par(*(blinker(f"O{2 * n % outputs}", f"O{(2 * n + 1) % outputs}") for n in range(count)))


def told(chain, output):
    """Local signals in one another, each told by the one around it."""
    body = present(chain[-1], emit(output))
    for n in reversed(range(len(chain))):
        teller = present(chain[n - 1], emit(chain[n])) if n else emit(chain[0])
        body = ("local", chain[n], par(teller, body))
    return body


def abro(count):
    waits = par(*(wait(f"A{n}") for n in range(count)))
    return loop_each(seq(waits, emit("O0")), "R")


def emissions(count):
    return loop(*(emit(f"O{n}") for n in range(count)), PAUSE)


def tellers(count):
    return [emit("O0")] + [present(f"O{n}", emit(f"O{n + 1}")) for n in range(count - 1)]


def relay(order, count=64):
    return loop(par(*tellers(count)[::order]), PAUSE)


def mixed(count=64):
    """The parts of the relay in an order of which no sweep makes much."""
    parts = tellers(count)
    random.Random(1).shuffle(parts)
    return loop(par(*parts), PAUSE)


def ended(count):
    """Parts side by side that have all ended but the last."""
    return par(*(PAUSE for _ in range(count)), loop(emit("O0"), PAUSE))


def sequence(parts=500, depth=6):
    """This many parts, one after another, under this many local signals."""
    signals = names("S", depth)
    body = seq(*(present(f"S{n % depth}", emit(f"O{n % 64}")) for n in reversed(range(parts))), PAUSE)
    for name in reversed(signals):
        body = ("local", name, seq(emit(name), body))
    return loop(body)


def nested_loops(depth, body):
    """Loops in one another. Each but the innermost has a statement of its own before the next."""
    return loop(emit("O0"), nested_loops(depth - 1, body)) if depth else body


def chain(count):
    """Waits for 8 inputs in turn, and then for them again, with another output."""
    return loop(*(part for n in range(count) for part in (*(wait(f"I{k}") for k in range(8)), emit(f"O{n}"))))


def ring(count):
    """An arbiter without requests: the right goes around the ring, from the cell that has the token; that goes on by a cell an instant."""
    def cell(n):
        passed = present(f"P{(n - 1) % count}", emit(f"P{n}"))
        moving = present(f"T{n}", seq(PAUSE, emit(f"T{(n + 1) % count}")), PAUSE)
        return par(loop(present(f"T{n}", emit(f"P{n}"), passed), PAUSE), loop(moving))
    return par(emit("T0"), *(cell(n) for n in range(count)))


def block(n):
    """Waits for an input beside an output that is sustained meanwhile, and ends with another one."""
    waiting = seq(wait(f"I{n % 8}"), emit(f"O{28 + n % 28}"), ("exit", "B"))
    return loop(("trap", "B", par(waiting, sustain(f"O{n % 28}"))))


def busy_loops(depth):
    """Loops in one another round two states of 24 emissions."""
    states = (*(emit(f"O{n}") for n in range(1, 25)), PAUSE, *(emit(f"O{n}") for n in range(25, 49)), PAUSE)
    return nested_loops(depth, seq(*states))


def deep(parts, depth):
    """Parallel parts under sixteen traps, each a statement under loops in one another."""
    def part(n):
        body = seq(*(emit(f"O{(n + k) % 20}") for k in range(6)), PAUSE, emit(f"O{20 + n % 12}"), PAUSE)
        for _ in range(depth):
            body = loop(body)
        return body
    body = par(*(part(n) for n in range(parts)))
    for n in reversed(range(16)):
        body = ("trap", f"T{n}", body)
    return body


EIGHT = [1 << n % 8 | (0x55 if n % 5 == 0 else 0) for n in range(40)]


def families():
    """For each its name, its sizes, and what makes the program of a size: as those below are, without what it is."""
    def outputs(make, letters="O"):
        return lambda n: ([], [name for letter in letters for name in names(letter, min(64 // len(letters), 2 * n))], make(n), [0])

    def eight(make):
        return lambda n: (names("I", 8), names("O", 56), make(n), EIGHT)
    return {
        "parallel": ((16, 32, 64, 128, 227), outputs(lambda n: blinkers(n, min(64, 2 * n)))),
        "sequence": ((60, 120, 250, 500), outputs(sequence)),
        "many-outputs": ((8, 16, 32, 64), outputs(emissions)),
        "relay": ((8, 16, 32, 64), outputs(lambda n: relay(-1, n))),
        "relay-on": ((8, 16, 32, 64), outputs(lambda n: relay(1, n))),
        "relay-mixed": ((16, 32, 64), outputs(mixed)),
        "abro": ((2, 4, 8, 16), lambda n: (names("A", n) + ["R"], names("O", 1), abro(n), [0, 1, 2, (1 << n) - 1, 1 << n])),
        "chain": ((4, 8, 15, 30), eight(chain)),
        "every": ((6, 12, 25, 50), eight(lambda n: par(*(every(emit(f"O{k}"), f"I{k % 8}") for k in range(n))))),
        "local": ((4, 8, 16, 32), outputs(lambda n: loop(told(names("S", n), "O0"), PAUSE))),
        "ring": ((4, 8, 16, 32), outputs(ring, "PT")),
        "blocks": ((12, 24, 47, 94), eight(lambda n: par(*(block(k) for k in range(n))))),
        "loops": ((2, 4, 8, 16), lambda n: ([], names("O", 49), busy_loops(n), [0])),
        "ended": ((30, 60, 120, 240), outputs(ended)),
    }


def programs():
    """For each its name and what it is; its inputs; its outputs; its statement; and the masks of the inputs of its instants."""
    eight, none = EIGHT, [0]
    return {
        "opening": ("a loop of `emit O; pause; emit P; pause`", [], names("O", 2), blinker("O0", "O1"), none),
        "parallel": ("16 loops of two states, side by side", [], names("O", 32), blinkers(16, 32), none),
        "locals": ("6 local signals in one another, each told by the one around it", [], names("O", 1),
                   loop(told(names("S", 6), "O0"), PAUSE), none),
        "large": ("227 loops of two states, side by side", [], names("O", 64), blinkers(227, 64), none),
        "sequence": ("a sequence of 500 parts under 6 local signals", [], names("O", 64), sequence(), none),
        "many-outputs": ("64 emissions of 64 outputs", [], names("O", 64),
                         emissions(64), none),
        "relay": ("64 outputs, each told by one later in the text", [], names("O", 64), relay(-1), none),
        "relay-on": ("64 outputs, each told by one earlier in the text", [], names("O", 64), relay(1), none),
        "relay-mixed": ("64 outputs, each told by one somewhere in the text", [], names("O", 64), mixed(), none),
        "abro2": ("ABRO", ["A0", "A1", "R"], names("O", 1), abro(2), [1, 2, 0, 4, 3, 1, 5, 2]),
        "abro16": ("ABRO with 16 inputs to wait for", names("A", 16) + ["R"], names("O", 1), abro(16),
                   [0x11, 0x1022, 0x2044, 0xCF88, 0, 0x10000, 0xFFFF, 1]),
        "chain240": ("240 waits, one after another, for 8 inputs; every eighth ends with an output", names("I", 8), names("O", 30),
                     chain(30), eight),
        "every50": ("50 times `every`, side by side, over 8 inputs", names("I", 8), names("O", 50),
                    par(*(every(emit(f"O{n}"), f"I{n % 8}") for n in range(50))), eight),
        "local20": ("20 local signals in one another, each told by the one around it, beside a loop of two states", [],
                    names("O", 2), par(loop(told(names("S", 20), "O0"), PAUSE), blinker("O0", "O1")), none),
        "ring32": ("32 cells of an arbiter, in a ring", [], names("P", 32) + names("T", 32), ring(32), none),
        "blocks94": ("94 waits, each beside an output that is sustained meanwhile", names("I", 8), names("O", 56),
                     par(*(block(n) for n in range(94))), eight),
        "loops16": ("16 loops in one another around two states of 24 emissions", [], names("O", 49),
                    busy_loops(16),
                    none),
        "deep60x12": ("60 parts side by side under 16 traps, each 12 loops deep", [], names("O", 32), deep(60, 12), none),
    }


def idle():
    """A pause that is held for ever under 15 loops and 15 traps, before a large statement that is never reached."""
    body = seq(wait("I0"), *[emit("O0")] * 950, PAUSE)
    for _ in range(15):
        body = loop(body)
    for n in reversed(range(15)):
        body = ("trap", f"T{n}", body)
    return par(body, sustain("O1"))


def further():
    """Programs that are run beside the plain engine alone, as `programs` has them."""
    none, one = [0], ["I0"]
    links = [present(f"O{n}", emit(f"O{n + 1}")) for n in range(62)]
    first = present("I0", emit("O0"))
    return {
        "one": ("a test of an input", one, names("O", 1), loop(first, PAUSE), [0, 1]),
        "local1": ("a local signal", [], names("O", 1), loop(told(names("S", 1), "O0"), PAUSE), none),
        "pauses3": ("an emission and three pauses", [], names("O", 1), loop(emit("O0"), PAUSE, PAUSE, PAUSE), none),
        "pauses240": ("240 pauses and an emission", [], names("O", 1), loop(*[PAUSE] * 240, emit("O0")), none),
        "aborts50": ("50 aborts side by side, for one input", one, names("O", 1),
                     par(*[loop(abort(seq(emit("O0"), halt()), "I0"))] * 50), [0, 1, 0, 0, 1]),
        "absent13": ("14 outputs, each told by the one before, of which the first is mostly absent", one, names("O", 14),
                     par(*(loop(link, PAUSE) for link in [first, *links[:13]])), [0, 0, 0, 0, 1]),
        "absent63": ("63 outputs, each told by the one before, of which none is present", one, names("O", 63),
                     loop(par(first, *links), PAUSE), none),
        "ended240": ("240 parts side by side that have ended", [], names("O", 1), ended(240), none),
        "idle": ("a large statement that is never reached", one, names("O", 2), idle(), none),
    }


# The text of a module.

def text_of(p):
    word = p[0]
    if word in ("nothing", "pause"):
        return word
    if word in ("emit", "exit"):
        return f"{word} {p[1]}"
    if word == "present":
        return f"present {p[1]} then {text_of(p[2])} else {text_of(p[3])} end"
    if word == "suspend":
        return f"suspend {text_of(p[2])} when {p[1]}"
    if word == "loop":
        return f"loop {text_of(p[1])} end"
    if word in ("trap", "local"):
        return f"{'trap' if word == 'trap' else 'signal'} {p[1]} in {text_of(p[2])} end"
    left, right = (text_of(side) for side in p[1:])
    if word == "seq":
        return f"{f'[{left}]' if p[1][0] in ('par', 'seq') else left}; {f'[{right}]' if p[2][0] == 'par' else right}"
    return f"{f'[{left}]' if p[1][0] == 'par' else left} || {right}"


def module_of(inputs, outputs, statement):
    heads = [f"{word} {', '.join(signals)}; " for word, signals in (("input", inputs), ("output", outputs)) if signals]
    return f"module M: {''.join(heads)}{text_of(statement)} end module"


def locals_of(p):
    """How deep local signals nest."""
    inside = max((locals_of(part) for part in p[1:] if isinstance(part, tuple)), default=0)
    return inside + (p[0] == "local")


# Cells and gates. A net is a cell, by its number, or one of the others, which follow the cells: an `Other`.

class Other(int):
    """A net that is no cell: an input, or whether a `suspend` lets its body go on."""


class Place:
    """Where a statement stands: the traps around it, the nets of the signals, the net of the `suspend` around it (-1: none), the statement
    around it (-1: none), and whether this is incarnation 0."""

    def __init__(self, main, traps, signals, runs, around):
        self.main, self.traps, self.signals, self.runs, self.around = main, traps, signals, runs, around

    def inside(self, around, **changed):
        fields = {"main": self.main, "traps": self.traps, "signals": self.signals, "runs": self.runs}
        return Place(around=around, **{**fields, **changed})


class Layout:
    """The nets of a kernel. A statement's cells stand before those of its parts: whether it is begun, its codes, the status of its signal."""

    def __init__(self, inputs, outputs, statement):
        self.gates = [None] * len(outputs)
        self.others = [("INPUT",)] * len(inputs)
        self.emitters = {}
        self.statements = []  # the one around it, the number of its pause, its first pause, the pause after its last
        self.nodes = []  # the number of its pause, the suspend that it is, the net of that, its code 1, the node after it
        self.pauses, self.again = 0, 0
        signals = {name: n for n, name in enumerate(outputs)}
        signals.update({name: Other(n) for n, name in enumerate(inputs)})
        self.lay(statement, ("BEGUN",), Place(True, (), signals, -1, -1))
        for n in range(len(outputs)):
            self.gates[n] = ("ANY", *self.emitters.get(n, ()))

    def lay(self, p, go, place):
        """Lays out a statement that is begun by this gate. Answers its first cell."""
        cell, node, statement = len(self.gates), len(self.nodes), -1
        self.gates += [go] + [("CONSTANT",)] * (len(place.traps) + 2)
        self.nodes.append([-1, -1, -1, cell + 2, 0])
        if place.main:
            statement = len(self.statements)
            self.statements.append([place.around, -1, self.pauses, 0])
        for code, gate in getattr(self, f"lay_{p[0]}")(p, cell, place, statement).items():
            self.gates[cell + 1 + code] = gate
        if place.main:
            self.statements[statement][3] = self.pauses
        self.nodes[node][4] = len(self.nodes)
        return cell

    def copies(self, part, place):
        """Each code is that of this part."""
        return {code: ("COPY", part + 1 + code) for code in range(len(place.traps) + 2)}

    def eithers(self, first, second, place):
        """Code 0 is the second part's; each other is one of either part."""
        codes = {code: ("EITHER", first + 1 + code, second + 1 + code) for code in range(len(place.traps) + 2)}
        return {**codes, 0: ("COPY", second + 1)}

    def lay_nothing(self, p, cell, place, statement):
        return {0: ("COPY", cell)}

    def lay_emit(self, p, cell, place, statement):
        self.emitters.setdefault(place.signals[p[1]], []).append(cell)
        return {0: ("COPY", cell)}

    def lay_exit(self, p, cell, place, statement):
        return {place.traps.index(p[1]) + 2: ("COPY", cell)}

    def lay_pause(self, p, cell, place, statement):
        if not place.main:
            self.nodes[-1][0] = self.again
            self.again += 1
            return {1: ("COPY", cell)}
        self.nodes[-1][0] = self.statements[statement][1] = self.pauses
        self.pauses += 1
        return {0: ("ENDS", statement, place.runs), 1: ("COPY", cell)}

    def lay_present(self, p, cell, place, statement):
        test = place.signals[p[1]]
        first = self.lay(p[2], ("BOTH", cell, test), place.inside(statement))
        second = self.lay(p[3], ("BUT", cell, test), place.inside(statement))
        return {code: ("EITHER", first + 1 + code, second + 1 + code) for code in range(len(place.traps) + 2)}

    def lay_suspend(self, p, cell, place, statement):
        if not place.main:
            return self.copies(self.lay(p[2], ("COPY", cell), place.inside(statement)), place)
        node, test, runs = self.nodes[-1], place.signals[p[1]], Other(len(self.others))
        self.others.append(("RUNS", statement, place.runs, test))
        node[1:3] = statement, runs
        body = self.lay(p[2], ("COPY", cell), place.inside(statement, runs=runs))
        return {**self.copies(body, place), 1: ("HELD", statement, body + 2, place.runs, test)}

    def lay_seq(self, p, cell, place, statement):
        first = self.lay(p[1], ("COPY", cell), place.inside(statement))
        second = self.lay(p[2], ("COPY", first + 1), place.inside(statement))
        return self.eithers(first, second, place)

    def lay_loop(self, p, cell, place, statement):
        pauses = self.pauses
        body = self.lay(p[1], ("COPY", cell), place.inside(statement))
        if not place.main:
            return self.copies(body, place)
        self.again = pauses
        again = self.lay(p[1], ("AGAIN", statement, body + 1), place.inside(statement, main=False))
        return {**self.eithers(body, again, place), 0: ("OUT", statement, body + 1, again + 1)}

    def lay_par(self, p, cell, place, statement):
        sides, starts = [], []
        for part in p[1:]:
            starts.append(len(self.statements) if place.main else -1)
            sides.append(self.lay(part, ("COPY", cell), place.inside(statement)) + 1)
        return {code: ("MOST", statement, place.runs, *starts, *sides, code) for code in range(len(place.traps) + 2)}

    def lay_trap(self, p, cell, place, statement):
        body = self.lay(p[2], ("COPY", cell), place.inside(statement, traps=(p[1], *place.traps)))
        codes = {code: ("COPY", body + 2 + code) for code in range(2, len(place.traps) + 2)}
        return {**codes, 0: ("EITHER", body + 1, body + 3), 1: ("COPY", body + 2)}

    def lay_local(self, p, cell, place, statement):
        status = len(self.gates)
        self.gates.append(None)
        body = self.lay(p[2], ("COPY", cell), place.inside(statement, signals={**place.signals, p[1]: status}))
        self.gates[status] = ("ANY", *self.emitters.get(status, ()))
        return self.copies(body, place)

    def written(self, outputs, inputs, masks):
        """What `worklist.c` reads."""
        cells = len(self.gates)
        sizes = (cells, cells + len(self.others), outputs, inputs, len(self.statements), len(self.nodes), self.pauses, len(masks))

        def line(numbers):
            return " ".join(str(cells + n if isinstance(n, Other) else n) for n in numbers)
        gates = (f"{KINDS.index(gate[0])} {len(gate) - 1} {line(gate[1:])}" for gate in self.gates + self.others)
        rows = [line(sizes), *gates, *map(line, self.statements), *map(line, self.nodes), " ".join(f"{mask:x}" for mask in masks)]
        return "\n".join(rows) + "\n"


# Runs.

class Program:
    """A kernel, as a module for the engines and as nets for the worklist."""

    def __init__(self, name, folder, made=None):
        self.name = name
        inputs, outputs, statement, masks = made or {**programs(), **further()}[name][1:]
        self.locals = locals_of(statement)
        self.case = f"{','.join(f'{mask:x}' for mask in masks)} {module_of(inputs, outputs, statement)}\n"
        layout = Layout(inputs, outputs, statement)
        self.cells = len(layout.gates)
        self.net = folder / f"{name}.net"
        self.net.write_text(layout.written(len(outputs), len(inputs), masks))


def run(words, case):
    """The processor seconds of a run, and its line."""
    with tempfile.TemporaryFile() as given:
        given.write(case.encode())
        given.seek(0)
        process = subprocess.Popen(words, stdin=given, stdout=subprocess.PIPE)
        line = process.stdout.read().decode().strip()
        _, status, usage = os.wait4(process.pid, 0)
    process.returncode = os.waitstatus_to_exitcode(status)
    if process.returncode != 0:
        sys.exit(f"worklist.py: {' '.join(map(str, words))} ended with {process.returncode}")
    return usage.ru_utime + usage.ru_stime, line


def instructions(words, case):
    """The instructions of a run, by callgrind."""
    with tempfile.TemporaryDirectory() as folder:
        tool = ["valgrind", "--tool=callgrind", f"--callgrind-out-file={folder}/out"]
        done = subprocess.run([*tool, *words], input=case, capture_output=True, text=True, check=False)
    found = re.search(r"Collected : (\d+)", done.stderr)
    return int(found.group(1)) if found else math.nan


def compare(words_of, program):
    """Runs both for a few instants. Their lines have to be one: as many cells, all decided, and one sum."""
    lines = {each: run(words(CHECKED), program.case)[1] for each, words in words_of.items() if each != "plain"}
    cells = str(program.cells)
    if len(set(lines.values())) != 1 or lines["micro"].split()[:2] != [cells, cells]:
        sys.exit(f"worklist.py: {program.name}: {program.cells} cells, and {lines}")


def instants_for(words, case):
    """How many instants a run of about SECONDS takes."""
    count, start = 16, run(words(1), case)[0]
    while (taken := run(words(count), case)[0] - start) < SECONDS / 8:
        count *= 4
    return max(2, min(2**31, int(count * SECONDS / taken)))


def timed(words_of, program, pairs):
    """For each the seconds an instant, pair by pair: the two in turn, over as many instants each as fill a run."""
    counts = {each: instants_for(words, program.case) for each, words in words_of.items()}
    taken = {each: [] for each in words_of}
    for _ in range(pairs):
        for each, words in words_of.items():
            start, whole = (run(words(count), program.case)[0] for count in (1, counts[each]))
            taken[each].append((whole - start) / (counts[each] - 1))
    return taken


def counted(words_of, program):
    """The instructions an instant, of the engine and of the worklist."""
    spent = {}
    for each in ("micro", "worklist"):
        words = words_of[each]
        start, whole = (instructions(words(count), program.case) for count in (1, 1 + COUNTED))
        spent[each] = (whole - start) / COUNTED
    return spent


def row(words_of, program, pairs):
    """Prints the row of a program, and answers the median of the engine's time over the worklist's."""
    if program.locals > MOST_LOCALS:
        words_of = {each: words for each, words in words_of.items() if each != "plain"}
    taken, spent = timed(words_of, program, pairs), counted(words_of, program)
    times = {each: statistics.median(values) * 1e9 / program.cells for each, values in taken.items()}
    ratio = statistics.median(engine / other for engine, other in zip(taken["micro"], taken["worklist"]))
    plain = "" if "plain" not in taken else f"{statistics.median(e / p for e, p in zip(taken['micro'], taken['plain'])):.2f}"
    counts = [f"{spent[each] / program.cells:.1f}" for each in ("micro", "worklist")]
    print(f"| `{program.name}` | {program.cells:,} | {times['micro']:.2f} | {times['worklist']:.2f} | {ratio:.2f} | {counts[0]} | {counts[1]} "
          f"| {spent['micro'] / spent['worklist']:.2f} | {plain} |", flush=True)
    return ratio


def beside_plain(engine, names_of, pairs):
    """Prints a row for each program beside the plain engine."""
    print("| Program | Cells | Engine, microseconds | Plain engine, microseconds | Engine over plain engine |\n|---|---|---|---|---|")
    ratios = []
    with tempfile.TemporaryDirectory() as folder:
        for name in names_of or (*programs(), *further()):
            program = Program(name, pathlib.Path(folder))
            if program.locals > MOST_LOCALS:
                continue
            words_of = {each: (lambda count, each=each: [engine, each, str(count)]) for each in ("micro", "plain")}
            told, wanted = (run(words(CHECKED), program.case)[1].split() for words in words_of.values())
            if told[:2] != [str(program.cells)] * 2 or told[2] != wanted[2]:
                sys.exit(f"worklist.py: {name}: {program.cells} cells, and {told} and {wanted}")
            taken = timed(words_of, program, pairs)
            micro, plain = (statistics.median(taken[each]) * 1e6 for each in ("micro", "plain"))
            ratios.append(statistics.median(e / p for e, p in zip(taken["micro"], taken["plain"])))
            print(f"| `{name}` | {program.cells:,} | {micro:.2f} | {plain:.2f} | {ratios[-1]:.2f} |", flush=True)
    if ratios:
        print(f"geometric mean of engine over plain engine: {statistics.geometric_mean(ratios):.2f}")


def print_orders(engine, pairs):
    """Prints how long an instant takes of outputs in order and at random, and of rings."""
    made = {f"{name}-{size}": families()[name][1](size) for name, sizes in ORDERS.items() for size in sizes}
    taken = {name: [] for name in made}
    with tempfile.TemporaryDirectory() as folder:
        programs_of = {name: Program(name, pathlib.Path(folder), parts) for name, parts in made.items()}
        for _ in range(pairs):
            for name, program in programs_of.items():
                taken[name] += timed({"micro": lambda count: [engine, "micro", str(count)]}, program, 1)["micro"]
    print("| Program | Cells | Microseconds | Nanoseconds a cell |\n|---|---|---|---|")
    median = {name: statistics.median(seconds) for name, seconds in taken.items()}
    for name, program in programs_of.items():
        print(f"| `{name}` | {program.cells:,} | {median[name] * 1e6:.2f} | {median[name] * 1e9 / program.cells:.1f} |")
    print(f"64 outputs at random over those in order: {median['relay-mixed-64'] / median['relay-on-64']:.2f}; "
          f"64 over 32 at random: {median['relay-mixed-64'] / median['relay-mixed-32']:.2f}")


def print_loads(engine, names_of, pairs):
    """Prints how long a load and an instant take on both engines."""
    print("| Program | Cells | Load and instant with a table, microseconds | Without one | Times |\n|---|---|---|---|---|")
    with tempfile.TemporaryDirectory() as folder:
        start = statistics.median(run([engine, "plain", "1"], Program("opening", pathlib.Path(folder)).case)[0] for _ in range(pairs))
        for name in names_of or (*programs(), *further()):
            program = Program(name, pathlib.Path(folder))
            if program.locals > MOST_LOCALS:
                continue
            rounds = [[run([engine, each, "1"], program.case)[0] - start for each in ("micro", "plain")] for _ in range(pairs)]
            micro, plain = (statistics.median(each) for each in zip(*rounds))
            if plain > start / 2:
                print(f"| `{name}` | {program.cells:,} | {micro * 1e6:,.0f} | {plain * 1e6:,.0f} | {micro / plain:.2f} |", flush=True)


def exponent(points):
    """The slope of the line that fits the logarithms of these pairs best."""
    logs = [(math.log(x), math.log(y)) for x, y in points]
    return statistics.linear_regression(*zip(*logs)).slope


def print_exponents(names_of, spent_by):
    """Prints the exponent of each family; `spent_by` answers cells and instructions of a program by its name and what makes it up."""
    for name in names_of or families():
        sizes, make = families()[name]
        points = [spent_by(f"{name}-{size}", make(size)) for size in sizes]
        rows = ", ".join(f"{cells:,} cells {spent:,.0f}" for cells, spent in points)
        print(f"{name}: {exponent(points):.2f} ({rows})", flush=True)


def exponents(engine, names_of):
    """Prints the exponents of the engine's instructions an instant over cells."""
    sys.setrecursionlimit(20000)

    def spent_by(name, made):
        with tempfile.TemporaryDirectory() as folder:
            program = Program(name, pathlib.Path(folder), made)
        start, whole = (instructions([engine, "micro", str(count)], program.case) for count in (1, 1 + COUNTED))
        return program.cells, (whole - start) / COUNTED
    print_exponents(names_of, spent_by)


def main(words):
    if words[:1] == ["--exponents"] and len(words) > 1:
        return exponents(str(pathlib.Path(words[1]).resolve()), words[2:])
    mode = words[0] if words[:1] and words[0] in ("--check", "--plain", "--orders", "--loads") else ""
    words = words[bool(mode):]
    if not words:
        sys.exit(__doc__.strip())
    engine, others = str(pathlib.Path(words[0]).resolve()), words[1:]
    pairs = int(others.pop(0)) if others and others[0].isdigit() else 10
    sys.setrecursionlimit(20000)
    if mode == "--plain":
        return beside_plain(engine, others, pairs)
    if mode == "--orders":
        return print_orders(engine, pairs)
    if mode == "--loads":
        return print_loads(engine, others, pairs)
    with tempfile.TemporaryDirectory() as made:
        folder = pathlib.Path(made)
        subprocess.run(["cc", "-O2", "-o", folder / "worklist", HERE / "worklist.c"], check=True)
        if mode != "--check":
            print("| Program | Cells | Engine, ns a cell | Worklist, ns a cell | Engine over worklist | Engine, instructions a cell "
                  "| Worklist, instructions a cell | Engine over worklist | Engine over plain engine |")
            print("|---|---|---|---|---|---|---|---|---|")
        ratios = []
        for name in others or programs():
            program = Program(name, folder)
            words_of = {
                "micro": lambda count: [engine, "micro", str(count)],
                "worklist": lambda count, net=program.net: [folder / "worklist", net, str(count)],
                "plain": lambda count: [engine, "plain", str(count)],
            }
            compare(words_of, program)
            if mode != "--check":
                ratios.append(row(words_of, program, pairs))
        if ratios:
            print(f"geometric mean of engine over worklist: {statistics.geometric_mean(ratios):.2f}")


if __name__ == "__main__":
    main(sys.argv[1:])
