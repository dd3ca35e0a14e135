#!/usr/bin/env python3
"""How many instructions a cell the microstep engine takes, by a port to Rust, before anything is proved.

usage: port.py [NAME ..]
       port.py --exponents [FAMILY ..]
       port.py --plain [NAME ..]
       port.py --looks [NAME ..]

The files of `est_micro` and what it calls are nearly Rust. This script takes out of them what Rust doesn't know (clauses, ghost lines and a
few attributes), and builds them by `rustc -O` with bench/port.rs, which holds what else is needed. The programs are those of
bench/worklist.py, all but the largest one, or those that are named. Each runs on the port and on `bench/worklist.c` under
`valgrind --tool=callgrind`. Both have to decide as many cells and to give one sum of outputs; else the script ends with 1. A line for each
program: its cells, the instructions a cell of both, and their ratio. The counts of the proved program are within some 20 of a hundred.
--exponents prints the exponents of its families, as bench/worklist.py does, by the port.
--plain runs each program on a port of the plain engine in place of the worklist, and counts by the instant. The sums of outputs have to be one.
Both are then built as the kit builds them: with no check of an index, no `noalias`, and for x86-64-v2.
--looks counts at how many statements an instant looks, each as often as it is looked at or passed on the way to another, over its cells: the
most of all instants, and the mean. More than 3 ends it with 1. What is skipped whole isn't counted, nor are cells that are read or filled as
a range.
"""
import os
import pathlib
import re
import statistics
import subprocess
import sys
import tempfile

import worklist

HERE = pathlib.Path(__file__).resolve().parent
CRATES = {
    "est_kernel": ("code_set", "completion", "mask", "pause_set", "statement"),
    "est_meaning": ("signal_set", "status"),
    "est_rounds": ("acts", "answer", "engine", "judged", "resume", "resume_step", "rounds", "start", "step"),
    "est_net": ("cell_set", "emissions", "extents", "net", "pause_run", "reach", "reading", "side_order", "table"),
    "est_micro": ("cells", "closing", "decided", "direction", "extents", "idle", "lead", "learning", "micro", "must_can", "next_pauses", "outputs", "part", "pass_begin",
                  "pass_resume", "passes", "question", "settling",
                  "sides", "sweep_begin", "sweep_kind", "sweep_resume", "walk"),
}
BY_HAND = {"est_kernel": ("interface", "kernel", "state")}  # modules of bench/port.rs
INSTANTS = 20
LOOKED = 40  # instants whose looks are counted
MOST_LOOKS = 3  # over the cells of an instant
LARGEST = "deep60x12"
LONG = {"chain240": 480}  # instants, where a round takes many
NOT_PLAIN = ("local20",)  # 2^20 times each statement


def after_braces(text, at):
    """The place after the brace that closes the one before this place."""
    depth = 1
    while depth:
        depth += (text[at] == "{") - (text[at] == "}")
        at += 1
    return at


def without_clauses(text):
    """A file's text without what a proof alone needs."""
    for line in (r"(?:[ \t]*///[^\n]*\n)?[ \t]*ghost [^\n]*\n(?:[ \t]+[^{}\n]*\},\n)?", r"//![^\n]*\n", r"[ \t]*#\[(?:derive\(Drop\)|cycle\(\w+\))\]\n",
                 r"[ \t]*#!?\[tactic\([^\n]*\n", r"use std::alloc::[^\n]*\n"):
        text = re.sub(f"^{line}", "", text, flags=re.M)
    while clause := re.search(r"^[ \t]*(?:requires|ensures)\b[^{]*\{", text, flags=re.M):
        text = text[:clause.start()] + text[after_braces(text, clause.end()):].lstrip(" \t").removeprefix("\n")
    return text


def ported(crate, module):
    """A module in Rust."""
    text = without_clauses((HERE.parent / "crates" / crate / "src" / f"{module}.rt").read_text(encoding="utf-8"))
    if module == "statement":  # its makers take an allocator
        text = re.sub(r"\nimpl (?:Test|Statement) \{.*?\n\}\n", "\n", text, flags=re.S)
    if crate == "est_net":  # memory is never refused here
        text = re.sub(r"alloc: Global,\s+", "", text)
        for ours, theirs in (("(alloc, ", "("), ("(alloc)", "()"), ("AllocError", "()"), ("vec![in alloc; ", "vec![")):
            text = text.replace(ours, theirs)
        text = re.sub(r"(\.(?:push|resize)\(.*\))\?;", r"\1;", text)
        text = re.sub(r"=> (vec!\[.*\]),", r"=> Ok(\1),", text)
    if module == "micro":
        text = text[:text.index("impl Engine for")].replace("use est_rounds::engine::Engine;\n", "")
    text = text.replace("use crate::", f"use crate::{crate}::")
    return re.sub(rf"\buse ({'|'.join(CRATES)})::", r"use crate::\1::", text)


def unchecked(text):
    """The text without checks of indices, which a proof makes needless."""
    for ours, theirs in ((r"(?<![.\w])cells\[cell\] = ", "*unsafe { cells.get_unchecked_mut(cell) } = "),
                         (r"((?<![.\w])cells|self\.cells)\[cell\]", r"(unsafe { *\1.get_unchecked(cell) })"),
                         (r"&self\.extents\[number\]", "(unsafe { self.extents.get_unchecked(number) })"),
                         (r"self\.words\[([^\[\]]*)\] =", r"*unsafe { self.words.get_unchecked_mut(\1) } ="),
                         (r"self\.words\[([^\[\]]*)\]", r"(unsafe { *self.words.get_unchecked(\1) })")):
        text = re.sub(ours, theirs, text)
    return text


def counting(text):
    """A module of the engine that counts at which statements it looks."""
    return re.sub(r"(match|\) =) (s|part\.statement) \{", r"\1 crate::looks::look(\2) {", text)


def unguessing(text):
    """A module of the engine without the order of sides, and without passes by the signals that were just decided."""
    return text.replace("net.orders().are_some()", "false").replace("newly_decided(env_before, env)", "0")


def built(folder, as_kit=False, looks=False, guesses=True):
    """The port, built in this folder. `as_kit`: as the kit builds it; `looks`: it counts at which statements it looks; without `guesses` it
    goes by sweeps alone.
    """
    folder.mkdir(exist_ok=True)
    by_hand = (HERE / "port.rs").read_text(encoding="utf-8")
    parts = [by_hand.replace("COUNTS: bool = false", "COUNTS: bool = true") if looks else by_hand]
    for crate, modules in CRATES.items():
        texts = {module: ported(crate, module) for module in modules}
        if crate == "est_micro" and looks:
            texts = {module: counting(text) for module, text in texts.items()}
        if crate == "est_micro" and not guesses:
            texts = {module: unguessing(text) for module, text in texts.items()}
        inside = [f"pub mod {module} {{\n{unchecked(text) if as_kit else text}}}" for module, text in texts.items()]
        inside += [f"pub use crate::by_hand::{module};" for module in BY_HAND.get(crate, ())]
        parts.append(f"pub mod {crate} {{\n" + "\n".join(inside) + "\n}")
    (folder / "port.rs").write_text("\n".join(parts), encoding="utf-8")
    words = ["rustc", "--edition", "2021", "-A", "warnings", "-O", "-C", "codegen-units=1", "-o", folder / "port", folder / "port.rs"]
    if as_kit:  # the flag -Z is of compilers that try things out
        words += ["-Z", "mutable-noalias=no", "-C", "target-cpu=x86-64-v2"]
    subprocess.run(words, check=True, env={**os.environ, "RUSTC_BOOTSTRAP": "1"} if as_kit else None)
    return folder / "port"


def flat(statement):
    """A statement, each before its parts."""
    return " ".join(part if isinstance(part, str) else flat(part) for part in statement)


def case(name, folder, made=None):
    """The file that the port reads of a program."""
    inputs, outputs, statement, masks = made or worklist.programs()[name][1:]
    path = folder / f"{name}.case"
    lines = (" ".join(f"{mask:x}" for mask in masks), " ".join(inputs), " ".join(outputs), flat(statement))
    path.write_text("\n".join(lines) + "\n", encoding="utf-8")
    return path


def counted(words_of, instants=INSTANTS):
    """The instructions of an instant, and the line of a run."""
    spent = [worklist.instructions(words_of(count), "") for count in (1, 1 + instants)]
    return (spent[1] - spent[0]) / instants, worklist.run(words_of(1 + instants), "")[1]


def exponents(names):
    """Prints the exponents of the port's instructions an instant over cells."""
    with tempfile.TemporaryDirectory() as made:
        folder = pathlib.Path(made)
        port = built(folder)

        def spent_by(name, parts):
            given = case(name, folder, parts)
            spent, line = counted(lambda count: [port, given, str(count)])
            return int(line.split()[0]), spent
        worklist.print_exponents(names, spent_by)


def looked(program, given, instants):
    """At how many statements each instant of a run looks, over its cells, by a port that counts."""
    ran = subprocess.run([program, given, str(instants)], capture_output=True, text=True, check=True)
    return [int(looks) / int(cells) for cells, looks in map(str.split, ran.stderr.splitlines())]


def print_looks(names):
    """Prints at how many statements an instant of each program looks. Answers a status."""
    most = 0
    with tempfile.TemporaryDirectory() as made:
        folder = pathlib.Path(made)
        port = built(folder, looks=True)
        for name in names or worklist.programs():
            found = looked(port, case(name, folder), LOOKED)
            most = max(most, *found)
            print(f"{name}: at most {max(found):.2f} statements looked at over cells, {statistics.mean(found):.2f} in the mean", flush=True)
    return int(most > MOST_LOOKS)


def beside_plain(names):
    """Prints the instructions an instant of the microstep engine and of the plain one, both by the port."""
    ratios = []
    with tempfile.TemporaryDirectory() as made:
        folder = pathlib.Path(made)
        port = built(folder, as_kit=True)
        for name in names or [each for each in worklist.programs() if each not in NOT_PLAIN]:
            given = case(name, folder)
            instants = LONG.get(name, INSTANTS)
            engine, told = counted(lambda count, given=given: [port, given, str(count)], instants)
            plain, wanted = counted(lambda count, given=given: [port, given, str(count), "plain"], instants)
            cells, _, outputs = told.split()
            if outputs != wanted:
                sys.exit(f"port.py: {name}: {told}, and {wanted}")
            ratios.append(engine / plain)
            print(f"{name}: {cells} cells, {engine:,.0f} and {plain:,.0f}, {ratios[-1]:.2f} times", flush=True)
    print(f"geometric mean: {statistics.geometric_mean(ratios):.2f}")


def main(names):
    sys.setrecursionlimit(20000)
    if names[:1] == ["--plain"]:
        return beside_plain(names[1:])
    if names[:1] == ["--looks"]:
        return print_looks(names[1:])
    if names[:1] == ["--exponents"]:
        return exponents(names[1:])
    ratios = []
    with tempfile.TemporaryDirectory() as made:
        folder = pathlib.Path(made)
        subprocess.run(["cc", "-O2", "-o", folder / "worklist", HERE / "worklist.c"], check=True)
        port = built(folder)
        for name in names or [each for each in worklist.programs() if each != LARGEST]:
            program, given = worklist.Program(name, folder), case(name, folder)
            engine, told = counted(lambda count, given=given: [port, given, str(count)])
            other, wanted = counted(lambda count, net=program.net: [folder / "worklist", net, str(count)])
            if told != wanted:
                sys.exit(f"port.py: {name}: {told}, and {wanted}")
            ratios.append(engine / other)
            print(f"{name}: {program.cells} cells, {engine / program.cells:.1f} and {other / program.cells:.1f}, "
                  f"{ratios[-1]:.2f} times", flush=True)
    print(f"geometric mean: {statistics.geometric_mean(ratios):.2f}")


if __name__ == "__main__":
    sys.exit(main(sys.argv[1:]))
