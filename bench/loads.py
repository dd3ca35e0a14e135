#!/usr/bin/env python3
"""Milliseconds that a load takes, of texts that a stranger may send in one line, and its answer.

usage: loads.py PROGRAM [NAME..]
       loads.py PROGRAM --fit [NAME..]
       loads.py PROGRAM --count [NAME..]
       loads.py PROGRAM --search COUNT [SEED]
       loads.py --text SEED

PROGRAM is the built `crates/benches/out/benches`, which makes the kernel of the module M of a text: tokens, tree, linking,
reduction. Each text has 64 KiB at most, as a line does. The time is processor time, user and system, of one load in a process of its own,
the fastest of three. Each answer has to be the one that stands here; where a load takes longer than 50 ms, that is said.

With --fit, each text is also made a half, a quarter and an eighth as long, with as many of its names, modules and statements fewer. What is
printed is the exponent e of the family: the one with which c times bytes to the power of e comes nearest to its four times (least squares
over logarithms). A time is that of one load among as many in one process as take a tenth of a second, so that the start of a process does
not count. More than 1.15 is said. Texts made at random have no shorter ones.

With --count, the same is done with the instructions of a load, as valgrind's callgrind counts them, in place of its time, less those of
a load of a module that only halts. They are the same whatever else the machine does.

With --search, COUNT texts are made at random, from SEED on (0 if it is left out), which mix long interfaces, many runs, renamings, `signal`s,
relations and depth; those of seeds from 100000 to 199999 have up to thousands of small modules that run one another. The ten that took longest are run twice more and printed, each with its seed: --text prints the text of a seed.
"""
import math
import random
import re
import resource
import subprocess
import sys
import tempfile

MOST_BYTES = 65536
MOST_SECONDS = 0.05
MOST_EXPONENT = 1.15
SHARES = (1, 0.5, 0.25, 0.125)
TIMED_SECONDS = 0.1
SLOWEST = 10
# the first seed of libraries of many small modules
CHAINS = 100000

# of the search from seed 0, what took longest on 25 November
KEPT = (
    (119, "TooLarge(Signals)"),
    (78, "TooLarge(Signals)"),
    (194, "UnknownName Zr"),
    (111, "TooLarge(Signals)"),
    (93, "TooLarge(Signals)"),
    (228, "EmitInput RK"),
    (152, "EmitInput nab"),
    (125, "EmitInput Be"),
    (230, "EmitInput da"),
    (38, "UnknownName ya"),
)
TIMEOUT = 100

KEYWORDS = frozenset(
    "module end input output inputoutput relation nothing pause halt emit sustain present then else suspend when immediate loop each "
    "every do await abort weak trap in exit signal run and or not".split()
)

LETTERS = "abcdefghijklmnopqrstuvwxyzABCDEFGHIJKLMNOPQRSTUVWXYZ"
OTHERS = LETTERS + "0123456789_"


def short_names(most, room):
    """The shortest names, without keywords and single letters, as many as have room with commas between them."""
    names = []
    used = 0
    for tails in ([a for a in OTHERS], [a + b for a in OTHERS for b in OTHERS]):
        for tail in tails:
            for first in LETTERS:
                name = first + tail
                used += len(name) + 1
                if len(names) == most or used > room:
                    return names
                if name not in KEYWORDS:
                    names.append(name)
    return names


def name(number):
    return "M" if number == 0 else f"M{number}"


def chain(count, before, after, last):
    """Modules that each run the next one, between two parts; what the last one does."""
    parts = []
    for number in range(count):
        act = f"run {name(number + 1)}" if number + 1 < count else last
        parts.append(f"module {name(number)}:{before}{act}{after} end module ")
    return "".join(parts)


def passing_on(levels, statements):
    """A chain of modules of short names, each of which only runs the next; the last is a sequence of as many statements."""
    names = ["M", *(name for name in LETTERS if name != "M"), *short_names(levels, MOST_BYTES)][: levels + 1]
    parts = [f"module {runner}:run {run} end module " for runner, run in zip(names, names[1:])]
    return "".join(parts) + f"module {names[-1]}:{';'.join(['halt'] * statements)} end module"


def suspending(levels):
    """A chain of modules of short names, each of which runs the next inside a `suspend`."""
    names = ["M", *(name for name in LETTERS if name != "M"), *short_names(levels, MOST_BYTES)][: levels + 1]
    parts = [f"module {runner}:input i;suspend run {run} when i end module " for runner, run in zip(names, names[1:])]
    return "".join(parts) + f"module {names[-1]}:pause end module"


def doubling(count):
    parts = [f"module {name(n)}:run {name(n + 1)};run {name(n + 1)} end module " for n in range(count - 1)]
    return "".join(parts) + f"module {name(count - 1)}:pause end module"


def deepest(levels):
    """Statements one in another, as deep as modules within modules can nest them."""
    parts = []
    number = 0
    left = levels - 1
    while left > 0:
        here = min(127, left)
        left -= here
        act = f"run {name(number + 1)}" if left > 0 else "pause"
        parts.append(f"module {name(number)}:input I;" + "suspend " * here + act + " when I" * here + " end module ")
        number += 1
    return "".join(parts)


class Line:
    """A line, or a share of one: how long its text may be, and of how many names, modules or statements a text of a whole line has how many."""

    def __init__(self, share=1):
        self.share = share
        self.room = int(MOST_BYTES * share)

    def of(self, count):
        return max(1, int(count * self.share))

    def filled(self, head, part, end):
        """A text with a part as often as the line holds."""
        return head + part * max(1, (self.room - len(head) - len(end)) // len(part)) + end


def renamings(line):
    """A module of 65 inputs, run with 64 renamings each time."""
    inputs = ",".join(f"A{n}" for n in range(65))
    mine = ",".join(f"B{n}" for n in range(63))
    run = "run N[signal " + ",".join(f"B{n % 63}/A{n}" for n in range(64)) + "];"
    return line.filled(f"module N:input {inputs};nothing end module module M:input A64,{mine};", run, "nothing end module")


def emitter(names):
    """A module of outputs that it emits."""
    return f"module N:output {','.join(names)};{';'.join('emit ' + name for name in names)} end module"


def emitting(line, names):
    """A module that has the same outputs as another, which emits them, and runs it."""
    return line.filled(f"module M:output {','.join(names)};", "run N;", f"halt end module {emitter(names)}")


def emitting_renamed(line, names):
    """The same, with a renaming of one name in each run."""
    part = f"run N[signal Z/{names[len(names) // 2]}];"
    return line.filled(f"module M:output {','.join(names)},Z;", part, f"halt end module {emitter(names)}")


def emitting_below_signals(line, names):
    """The same, with a `signal` of one name around each run."""
    part = f"signal {names[len(names) // 2]} in run N end;"
    return line.filled(f"module M:output {','.join(names)};", part, f"halt end module {emitter(names)}")


def emitting_inside(line, names, local, head):
    """A module that runs another, which emits all its outputs, inside a `signal` that declares some of them."""
    return line.filled(f"module M:{head}signal {','.join(local)} in ", "run N;", f"halt end end module {emitter(names)}")


def emitting_input(line, names):
    """The same, where the `signal` declares an input of the module that runs the other."""
    middle = names[len(names) // 2]
    others = ",".join(name for name in names if name != middle)
    return emitting_inside(line, names, [middle], f"input {middle};output {others};")


def emitting_half(line, names):
    """The same, where the `signal` declares half of them."""
    middle = len(names) // 2
    return emitting_inside(line, names, names[:middle], f"output {','.join(names[middle:])};")


def emitting_shuffled(line, names):
    """The same, where the `signal` declares half of them in another order."""
    middle = len(names) // 2
    return emitting_inside(line, names, random.Random(1).sample(names[:middle], middle), f"output {','.join(names[middle:])};")


def emitting_nested(names, depth):
    """A module that runs another, which emits all its outputs, in each of many `signal`s in one another, which together declare them all."""
    return f"module M:output {','.join(names)};{nested_signals(names, depth)}{'run N end;' * depth}halt end module {emitter(names)}"


def signals_before_a_run(line, names):
    """Many `signal`s of one name, and then one of all the names of a module that is run inside it."""
    listed = ",".join(names)
    end = f"signal {listed} in run N end end module module N:output {listed};halt end module"
    return line.filled("module M:", f"signal {names[0]} in nothing end;", end)


def test_inside_signal(line, words):
    """A test of as many names, which all are one input, inside a `signal` of as many names as the line has room for."""
    test = " or ".join(["z"] * words)
    head, end = "module M:input z;signal ", f" in await {test} end end module"
    return head + ",".join(short_names(MOST_BYTES, line.room - len(head) - len(end))) + end


def runs_inside_signal(line, runs):
    """Runs of a module of two inputs, inside a `signal` of as many names as the line has room for."""
    head = "module N:input a,b;await b end module module M:input a,b;signal "
    end = " in " + ";".join(["run N"] * runs) + " end end module"
    return head + ",".join(short_names(MOST_BYTES, line.room - len(head) - len(end))) + end


def nested_signals(names, depth):
    """As many `signal`s in one another, which together declare these names."""
    return "".join(f"signal {','.join(names[n::depth])} in " for n in range(depth))


def test_inside_signals(line, words, depth):
    """A test of as many names, which all are one input, inside `signal`s in one another of as many names as the line has room for."""
    head, end = "module M:input z;", f"await {' or '.join(['z'] * words)}{' end' * depth} end module"
    room = line.room - len(head) - len(end) - depth * len("signal  in ")
    return head + nested_signals(short_names(MOST_BYTES, room), depth) + end


def runs_inside_signals(line, runs, depth):
    """Runs of a module of two inputs, inside `signal`s in one another of as many names as the line has room for."""
    head = "module N:input a,b;await b end module module M:input a,b;"
    end = ";".join(["run N"] * runs) + " end" * depth + " end module"
    room = line.room - len(head) - len(end) - depth * len("signal  in ")
    return head + nested_signals(short_names(MOST_BYTES, room), depth) + end


def inside_signal(line, names):
    """A module that runs another inside a `signal` that declares all its outputs."""
    listed = ",".join(names)
    return line.filled(f"module M:signal {listed} in ", "run N;", f"halt end end module module N:output {listed};halt end module")


def one_test(words):
    """A module that asks for one signal this many times and once more, in one test."""
    return f"module M:input S;present S{' and S' * words} then nothing end end module"


def relations(line):
    last = short_names(line.of(2000), line.room)
    head = "module M:input " + ",".join(last) + ";relation A=>A"
    return line.filled(head.replace("A=>A", f"{last[-1]}=>{last[-1]}"), f",{last[-1]}#{last[-1]}", ";nothing end module")


def texts(line):
    """The texts that a line holds, or one of which it is a share, each with its title and its answer where it is a whole line."""
    every = ",".join(short_names(20000, line.room - 60))
    half = short_names(line.of(7000), line.room)
    names = {count: half[: line.of(count)] for count in (500, 1000, 2000, 2900, 5000, 5461)}
    some = ",".join(names[2000])
    few = ",".join(names[500])
    return (
        ("a test of 2,047 names inside a `signal` of 14,600", test_inside_signal(line, line.of(2047)), "TooLarge(Statements)"),
        ("1,023 runs inside a `signal` of 15,000 names", runs_inside_signal(line, line.of(1023)), "TooLarge(Statements)"),
        ("a test of 2,047 names inside 120 `signal`s of 14,000 names together", test_inside_signals(line, line.of(2047), line.of(120)), "TooLarge(Statements)"),
        ("1,023 runs inside 120 `signal`s of 14,000 names together", runs_inside_signals(line, line.of(1023), line.of(120)), "TooLarge(Statements)"),
        ("2,000 modules in a chain, run 650 times", passing_on(line.of(2000), 1).replace("module M:run", f"module M:{'run a;' * line.of(649)}run", 1), "a kernel of 0 signals"),
        ("1,280 modules in a chain, each of which suspends the next", suspending(line.of(1280)), "a kernel of 1 signals"),
        ("228 modules of 128 nested brackets that run one another", chain(line.of(228), "[" * 128, "]" * 128, "pause"), "a kernel of 0 signals"),
        ("1,600 modules in a chain", chain(line.of(1600), "", "", "pause"), "a kernel of 0 signals"),
        ("2,100 modules in a chain, the last of 650 statements", passing_on(line.of(2100), line.of(650)), "a kernel of 0 signals"),
        ("modules that each run the next twice, a thousand deep", doubling(line.of(1000)), "TooLarge(Statements)"),
        ("2,047 statements as deep as modules nest them", deepest(line.of(2047)), "a kernel of 1 signals"),
        ("a module of 65 inputs, run with 64 renamings each time", renamings(line), "a kernel of 64 signals"),
        ("a ring of 1,600 modules", chain(line.of(1600), "", "", "run M"), "RecursiveRun M"),
        ("a chain of 1,600 modules, the last runs itself", chain(line.of(1600), "", "", f"run {name(line.of(1600) - 1)}"), "RecursiveRun M1599"),
        (
            "1,500 runs of one module, and one that is missing",
            "module M:" + "run N;" * line.of(1500) + "run Z end module module N:halt end module",
            "UnknownModule Z",
        ),
        ("17,185 declared names", f"module M:input {every};nothing end module", "TooLarge(Signals)"),
        ("17,185 local names", f"module M:signal {every} in nothing end end module", "TooLarge(Statements)"),
        ("7,000 outputs, and emissions of the last", line.filled("module M:output " + ",".join(half) + ";", f"emit {half[-1]};", "halt end module"), "TooLarge(Signals)"),
        ("9,900 relations over 2,000 inputs", relations(line), "TooLarge(Signals)"),
        ("a test of 10,913 words", line.filled("module M:input S;present S", " and S", " then nothing end end module"), "TooLarge(Statements)"),
        ("a test of 2,045 words", one_test(line.of(2045)), "a kernel of 1 signals"),
        ("as many tests of 20 words as a line holds", line.filled("module M:input S;", f"present S{' and S' * 20} then nothing end;", "halt end module"), "TooLarge(Statements)"),
        (
            "500 outputs of two modules, of which one runs the other as often as a line holds",
            line.filled(f"module M:output {few};", "run N;", f"halt end module module N:output {few};halt end module"),
            "TooLarge(Signals)",
        ),
        (
            "2,000 outputs of two modules, of which one runs the other as often as a line holds",
            line.filled(f"module M:output {some};", "run N;", f"halt end module module N:output {some};halt end module"),
            "TooLarge(Signals)",
        ),
        ("500 names of a `signal`, and runs inside it of a module that has them as outputs", inside_signal(line, names[500]), "TooLarge(Statements)"),
        ("2,000 names of a `signal`, and runs inside it of a module that has them as outputs", inside_signal(line, names[2000]), "TooLarge(Statements)"),
        ("5,461 names of a `signal`, and runs inside it of a module that has them as outputs", inside_signal(line, names[5461]), "TooLarge(Statements)"),
        ("1,000 outputs that a module emits, run by another as often as a line holds", emitting(line, names[1000]), "TooLarge(Signals)"),
        ("1,000 names of a `signal`, and runs inside it of a module that emits them", emitting_inside(line, names[1000], names[1000], ""), "TooLarge(Statements)"),
        ("1,000 outputs that a module emits, run by another with a renaming each time", emitting_renamed(line, names[1000]), "TooLarge(Signals)"),
        ("1,000 outputs that a module emits, run inside a `signal` that hides an input", emitting_input(line, names[1000]), "TooLarge(Signals)"),
        ("1,000 outputs that a module emits, run with a `signal` of one name around each run", emitting_below_signals(line, names[1000]), "TooLarge(Signals)"),
        ("1,000 outputs that a module emits, run inside a `signal` of half of them", emitting_half(line, names[1000]), "TooLarge(Signals)"),
        ("1,000 outputs that a module emits, run inside a `signal` of half of them in another order", emitting_shuffled(line, names[1000]), "TooLarge(Signals)"),
        ("2,900 outputs that a module emits, run in each of 120 `signal`s in one another", emitting_nested(names[2900], line.of(120)), "TooLarge(Signals)"),
        ("1,300 `signal`s of one name, and one of 5,000 names around a run", signals_before_a_run(line, names[5000]), "TooLarge(Statements)"),
    )


def kept_texts():
    """The texts made at random that are kept."""
    return tuple((f"a text made at random, of seed {seed}", random_text(seed), answer) for seed, answer in KEPT)


def told(answer):
    """The answer, with the name that is told in it: a name's bytes come before zeros, which are cut off where the answer is long."""
    match = re.match(r"(\w+)\((?:Some\()?Identifier \{ bytes: \[([0-9, ]+)", answer)
    if not match:
        return answer
    letters = [chr(int(byte)) for byte in match.group(2).strip(", ").split(", ") if int(byte)]
    return match.group(1) + " " + "".join(letters)


def some_of(chance, names, share):
    """Some of the names, in their order or in another."""
    chosen = [name for name in names if chance.random() < share] or names[:1]
    if chance.random() < 0.5:
        chance.shuffle(chosen)
    return chosen


def some_renamings(chance, inner, outer):
    """A few renamings of a run, or many, or none."""
    most = min(len(inner), chance.choice((0, 0, 0, 1, 1, 2, 8, 64)))
    chosen = chance.sample(inner, chance.randint(min(1, most), most))
    return f"[signal {','.join(f'{chance.choice(outer)}/{name}' for name in chosen)}]" if chosen else ""


def random_relations(chance, inputs):
    if len(inputs) < 2 or chance.random() < 0.7:
        return ""
    pairs = (chance.sample(inputs, 2) for _ in range(int(2 ** chance.uniform(0, 10))))
    return "relation " + ",".join(chance.choice(("{}=>{}", "{}#{}")).format(*pair) for pair in pairs) + ";"


def random_act(chance, names, modules):
    """One thing that a body does: it runs a module, with renamings or without, as it is or inside a `signal`, or emits."""
    if not modules or chance.random() < 0.1:
        return f"emit {chance.choice(names)}"
    called, interface = chance.choice(modules)
    return f"run {called}{some_renamings(chance, interface, names)}"


def random_wrapped(chance, act, names, wrapping):
    """The same inside a `signal` of some names, a `trap` or a test, as often as the module does so."""
    if chance.random() >= wrapping:
        return act
    local = some_of(chance, chance.sample(names, min(len(names), chance.choice((1, 1, 2, 10)))), 1)
    return chance.choice((f"signal {','.join(local)} in {act} end", f"signal {','.join(local)} in nothing end;{act}", f"trap T in {act} end", f"present {local[0]} then {act} end"))


def random_body(chance, names, modules, room):
    """Acts in a nest of `signal`s and brackets that declares some of the names, some of them after an inner part."""
    depth = chance.choice((0, 0, 1, 1, 2, 10, 60, 120))
    local = some_of(chance, names, chance.choice((0.1, 0.5, 1))) if depth else []
    opening = []
    for level in range(depth):
        part = local[level::depth]
        opening.append(f"signal {','.join(part)} in " if part else "trap T in ")
    wrapping = chance.choice((0, 0, 0.5, 1))
    acts = [random_wrapped(chance, random_act(chance, names, modules), names, wrapping) for _ in range(chance.choice((1, 2, 5, 20)))]
    after = [";" + chance.choice(acts) if chance.random() < 0.8 else "" for _ in range(depth)]
    ending = "".join(f" end{act}" for act in after)
    whole = ";".join(acts)
    left = room - sum(map(len, opening)) - len(ending) - len(whole)
    times = max(0, left // (len(whole) + 1)) if chance.random() < 0.8 else chance.randint(0, 5)
    return "".join(opening) + ";".join([whole] * (1 + times)) + ending


def random_module(chance, called, names, modules, room):
    """A module of some of the names, which emits some of its outputs and runs some of the modules that stand before it."""
    interface = some_of(chance, names, chance.choice((0.5, 1, 1)))
    runs = modules if chance.random() < 0.5 else []
    interface += sorted(set().union(*(inner for _, inner in runs)) - set(interface))
    cut = chance.choice((0, 0, 1, len(interface) // 2))
    inputs, outputs = interface[:cut], interface[cut:]
    head = f"module {called}:" + (f"input {','.join(inputs)};" if inputs else "") + (f"output {','.join(outputs)};" if outputs else "")
    head += random_relations(chance, inputs)
    emitted = some_of(chance, outputs, chance.choice((0.1, 1, 1))) if outputs and chance.random() < 0.8 else []
    body = ";".join(f"emit {name}" for name in emitted) or "halt"
    if runs:
        body += ";" + random_body(chance, interface, runs, room - len(head) - len(body))
    return interface, f"{head}{body} end module "


def random_runs(chance, names, called, wrapping):
    """The runs of a module of many: one of the module before it, and in some libraries acts beside it, or one run more."""
    run = f"run {called[-1]}"
    kind = chance.random() if chance.random() < wrapping else 1
    if kind < 0.4:
        return f"emit {chance.choice(names)};{run}"
    if kind < 0.6:
        return f"suspend {run} when {chance.choice(names)}"
    if kind < 0.8:
        return f"{run}[signal {chance.choice(names)}/{chance.choice(names)}]"
    if kind < 0.9:
        return f"run {chance.choice(called[-20:])};{run}"
    return run


def random_chain(seed):
    """A library of many small modules, each of which runs one before it, from one of many statements to the main module, the last."""
    chance = random.Random(seed)
    names = short_names(int(2 ** chance.uniform(0, 6)), MOST_BYTES)
    interface = f"output {','.join(names)};" if chance.random() < 0.7 else f"inputoutput {','.join(names)};"
    act = chance.choice(("halt", "pause", f"emit {names[-1]}", ";".join(f"emit {name}" for name in names)))
    body = ";".join([act] * min(int(2 ** chance.uniform(0, 10)), MOST_BYTES // 2 // (len(act) + 1)))
    called = ["ZA"]
    parts = [f"module ZA:{interface}{body} end module "]
    wrapping = chance.choice((0, 0, 0.1, 1))
    most = MOST_BYTES * chance.choice((1, 1, 0.5))
    for number in range(int(2 ** chance.uniform(4, 12))):
        parts.append(f"module Z{number}:{interface}{random_runs(chance, names, called, wrapping)} end module ")
        called.append(f"Z{number}")
        if sum(map(len, parts)) > most - 200 - len(interface):
            parts.pop()
            called.pop()
            break
    head = f"module M:{interface}"
    left = MOST_BYTES - sum(map(len, parts)) - len(head) - 20
    runs = f"run {called[-1]};" * (chance.choice((1, 1, 2, 50, MOST_BYTES)))
    return "".join(parts) + head + runs[: left // 10 * (len(called[-1]) + 5)] + "halt end module"


def random_text(seed):
    """A library of up to 64 KiB, the main module last. A module for which there is no room any more is left out."""
    if CHAINS <= seed < 2 * CHAINS:
        return random_chain(seed)
    chance = random.Random(seed)
    names = short_names(int(2 ** chance.uniform(2, 12)), MOST_BYTES)
    count = int(2 ** chance.uniform(0, 7))
    modules = []
    text = ""
    for number in range(1, count + 1):
        room = chance.choice((0, 0, 2000, 10000))
        interface, part = random_module(chance, name(number), some_of(chance, names, 1 if count < 8 else 8 / count), modules[-20:], room)
        if len(text) + len(part) <= MOST_BYTES * 3 // 4:
            modules.append((name(number), interface))
            text += part
    outer = some_of(chance, names, chance.choice((0.1, 0.5, 1, 1, 1, 1)))
    head = f"module M:{chance.choice(('output', 'output', 'output', 'input'))} {','.join(outer)};" + random_relations(chance, outer)
    end = " end module"
    body = random_body(chance, names, modules, MOST_BYTES - len(text) - len(head) - len(end))
    whole = text + head + body + end
    return whole if len(whole) <= MOST_BYTES else random_text(seed + 1000000000)


def timed_text(program, text):
    with tempfile.NamedTemporaryFile("w", suffix=".txt") as file:
        file.write(text)
        file.flush()
        return seconds_of(program, file.name)


def search(program, count, first):
    """Times texts made at random: whether the slowest of them keep within the limit."""
    runs = []
    answers = {}
    for seed in range(first, first + count):
        text = random_text(seed)
        used, answer = timed_text(program, text)
        runs.append((used, seed))
        kind = answer.split(" ")[0]
        answers[kind] = answers.get(kind, 0) + 1
    slowest = []
    for used, seed in sorted(runs, reverse=True)[: 2 * SLOWEST]:
        text = random_text(seed)
        again = [timed_text(program, text) for _ in range(2)]
        slowest.append((min(used, *(run[0] for run in again)), seed, len(text), again[0][1]))
    print(f"{count} texts made at random from seed {first}: " + ", ".join(f"{number} {kind}" for kind, number in sorted(answers.items())))
    slowest.sort(reverse=True)
    for used, seed, size, answer in slowest[:SLOWEST]:
        note = "" if used <= MOST_SECONDS else "  OVER 50 ms"
        print(f"{1000 * used:7.0f} ms  {size:6} bytes  seed {seed}: {answer}{note}", flush=True)
    return all(not kind.startswith(("no", "status")) for kind in answers)


def exponent_of(points):
    """The exponent of seconds over bytes that comes nearest to these points, by least squares over logarithms."""
    logs = [(math.log(size), math.log(used)) for size, used in points]
    middle = [sum(values) / len(logs) for values in zip(*logs)]
    over = sum((x - middle[0]) * (y - middle[1]) for x, y in logs)
    return over / sum((x - middle[0]) ** 2 for x, _ in logs)


def seconds_each(program, text):
    """Seconds of one load of a text, among as many in one process as take long enough to be timed; the fewer of two."""
    with tempfile.NamedTemporaryFile("w", suffix=".txt") as file:
        file.write(text)
        file.flush()
        once = min(seconds_of(program, file.name)[0] for _ in range(2))
        more = 1
        while True:
            used = min(seconds_of(program, file.name, 1 + more)[0] for _ in range(2)) - once
            if used >= TIMED_SECONDS:
                return used / more
            more = more * 2 if used * 4 < TIMED_SECONDS else int(more * TIMED_SECONDS / used) + more


def instructions_of(program, text):
    """The instructions of a process that makes one load of a text."""
    with tempfile.NamedTemporaryFile("w", suffix=".txt") as file:
        file.write(text)
        file.flush()
        words = ["valgrind", "--tool=callgrind", "--callgrind-out-file=/dev/null", program, "load", "1"]
        done = subprocess.run(words, stdin=open(file.name), capture_output=True, text=True, check=True)
    return int(re.search(r"Collected : (\d+)", done.stderr)[1])


def instructions_each(program, text):
    """The instructions of one load of a text."""
    return instructions_of(program, text) - instructions_of(program, "module M:halt end module")


def fit(program, wanted, measure, per, unit):
    """Prints the exponent of each family, by what `measure` answers for each text (one `unit` is `per`): whether none is too large."""
    lines = [texts(Line(share)) for share in SHARES]
    good = True
    for rows in zip(*lines):
        title = rows[0][0]
        if wanted and not any(word in title for word in wanted):
            continue
        points = [(len(text), measure(program, text)) for _, text, _ in rows]
        exponent = exponent_of(points)
        good = good and exponent <= MOST_EXPONENT
        measured = ", ".join(f"{used / per:.2f}" for _, used in points)
        note = "" if exponent <= MOST_EXPONENT else f"  OVER {MOST_EXPONENT}"
        print(f"{exponent:7.2f}  {title}: {measured} {unit}{note}", flush=True)
    return good


def seconds_of(program, path, repetitions=1):
    before = resource.getrusage(resource.RUSAGE_CHILDREN)
    try:
        done = subprocess.run([program, "load", str(repetitions)], stdin=open(path), capture_output=True, text=True, timeout=TIMEOUT, check=False)
    except subprocess.TimeoutExpired:
        return TIMEOUT, "no answer"
    after = resource.getrusage(resource.RUSAGE_CHILDREN)
    used = after.ru_utime - before.ru_utime + after.ru_stime - before.ru_stime
    return used, told((done.stdout + done.stderr).strip()) if done.returncode == 0 else f"status {done.returncode}"


def main():
    if len(sys.argv) < 2:
        sys.exit(__doc__)
    if sys.argv[1] == "--text":
        print(random_text(int(sys.argv[2])))
        sys.exit(0)
    if sys.argv[2:3] == ["--search"]:
        words = [int(word) for word in sys.argv[3:5]]
        sys.exit(0 if search(sys.argv[1], *words, *[0] * (2 - len(words))) else 1)
    if sys.argv[2:3] == ["--fit"]:
        sys.exit(0 if fit(sys.argv[1], sys.argv[3:], seconds_each, 0.001, "ms") else 1)
    if sys.argv[2:3] == ["--count"]:
        sys.exit(0 if fit(sys.argv[1], sys.argv[3:], instructions_each, 1_000_000, "million instructions") else 1)
    wanted = sys.argv[2:]
    wrong = 0
    for title, text, answer in texts(Line()) + kept_texts():
        if wanted and not any(word in title for word in wanted):
            continue
        assert len(text.encode()) <= MOST_BYTES, title
        with tempfile.NamedTemporaryFile("w", suffix=".txt") as file:
            file.write(text)
            file.flush()
            runs = [seconds_of(sys.argv[1], file.name) for _ in range(3)]
        used = min(run[0] for run in runs)
        note = "" if used <= MOST_SECONDS else "  OVER 50 ms"
        if any(run[1] != answer for run in runs):
            wrong += 1
            note += f"  WRONG: {runs[0][1]} in place of {answer}"
        print(f"{1000 * used:7.0f} ms  {len(text):6} bytes  {title}: {answer}{note}", flush=True)
    sys.exit(1 if wrong else 0)


if __name__ == "__main__":
    main()
