#!/usr/bin/env python3
"""Megabytes a second of the tokens of a module text, and of the tokens and the tree both, beside Python's `re` tokenizer over the same text.

usage: texts.py PROGRAM [SECONDS]

PROGRAM is the built `crates/benches/out/benches`, which reads a text and as often as it is told cuts it into its tokens, or
cuts it and reads the tree of the tokens. The text is a library of 2,000 statements, the same one at each run of this script.

The time is processor time, user and system: of the program taken from outside, of Python's tokenizer from inside. The repetitions are
doubled until a run takes SECONDS (1 if left out); of three such runs the fastest counts, less the fastest of three runs of one
repetition. Both tokenizers have to find the same number of tokens, and the same sum of the places where they end. The program's tree
has to have one module. Python's tokenizer makes no tree.
"""
import os
import random
import re
import subprocess
import sys
import tempfile
import time

STATEMENTS = 2000

TOKEN = re.compile(
    r"[ \t\r\n\f]+|%\{.*?\}%|%(?!\{)[^\n]*|(?P<word>[A-Za-z][A-Za-z0-9_]*)|(?P<symbol>\|\||=>|[:;,/\[\]()#])",
    re.DOTALL,
)

KEYWORDS = frozenset(
    "module end input output inputoutput relation nothing pause halt emit sustain present then else suspend when immediate loop "
    "each every do await abort weak trap in exit signal run and or not".split()
)

SHAPES = (
    "  emit {0};\n",
    "  present {0} then pause else emit {1} end present;\n",
    "  await immediate Go; % waits for the input\n",
    "  abort sustain {0} when Stop;\n",
    "  trap Done in [ pause; exit Done || loop pause end loop ] end trap;\n",
    "  %{{ two lines\n     of comment }}%\n  run Other [ signal {0} / First, {1} / Second ];\n",
)


def library():
    """A module of this many statements of six shapes, and a `halt`."""
    choice = random.Random(1)
    names = [f"Out_signal_{number}" for number in range(40)]
    parts = ["module Bench:\n  input Go, Stop;\n  output ", ", ".join(names), ";\n"]
    for _ in range(STATEMENTS):
        shape = choice.choice(SHAPES)
        parts.append(shape.format(choice.choice(names), choice.choice(names)))
    parts.append("  halt\nend module\n")
    return "".join(parts)


def tokens_of(text):
    """The tokens of a text, as a list of kind, word or symbol, and end; None where it has none."""
    tokens = []
    at = 0
    for match in TOKEN.finditer(text):
        if match.start() != at:
            return None
        at = match.end()
        kind = match.lastgroup
        if kind == "word":
            word = match.group()
            tokens.append(("keyword" if word in KEYWORDS else "identifier", word, at))
        elif kind == "symbol":
            tokens.append((kind, match.group(), at))
    return tokens if at == len(text) else None


def found_in(tokens):
    """What the program has to find of these tokens."""
    return f"{len(tokens)} tokens, ends {sum(end for _, _, end in tokens) % 2**64}"


def program_seconds(program, path, words, wanted):
    """The processor time of one run with these words, which has to write what is wanted."""
    with open(path, "rb") as text:
        process = subprocess.Popen([program, *words], stdin=text, stdout=subprocess.PIPE)
        written = process.stdout.read().decode()
        _, status, usage = os.wait4(process.pid, 0)
    process.returncode = os.waitstatus_to_exitcode(status)
    if process.returncode != 0 or written != wanted:
        sys.exit(f"status {process.returncode}, {written!r} in place of {wanted!r}")
    return usage.ru_utime + usage.ru_stime


def python_seconds(text, repetitions):
    start = time.process_time()
    for _ in range(repetitions):
        tokens_of(text)
    return time.process_time() - start


def seconds_a_text(run, seconds):
    """The time of one text, from runs of this many repetitions each."""
    repetitions = 2
    while run(repetitions) < seconds:
        repetitions *= 2
    many = min(run(repetitions) for _ in range(3))
    one = min(run(1) for _ in range(3))
    return (many - one) / (repetitions - 1)


def megabytes_a_second(program, text, seconds):
    """The speeds of the program's tokens, of its tokens and tree both, and of Python's tokens."""
    found = found_in(tokens_of(text))
    with tempfile.NamedTemporaryFile("w", suffix=".strl") as file:
        file.write(text)
        file.flush()
        runs = (
            lambda count: program_seconds(program, file.name, ["lex", str(count)], f"{found}\n"),
            lambda count: program_seconds(program, file.name, ["parse", str(count)], f"{found}; 1 modules\n"),
            lambda count: python_seconds(text, count),
        )
        return [len(text) / seconds_a_text(run, seconds) / 1e6 for run in runs]


def main():
    program = sys.argv[1]
    seconds = float(sys.argv[2]) if len(sys.argv) > 2 else 1.0
    text = library()
    lexed, parsed, python = megabytes_a_second(program, text, seconds)
    print(f"A library of {STATEMENTS} statements: {len(text)} bytes, {found_in(tokens_of(text))}")
    print("| What is done | Megabytes a second |")
    print("|---|---|")
    print(f"| `est_text` `lex` | {lexed:.1f} |")
    print(f"| `lex` and `est_syntax` `parse` | {parsed:.1f} |")
    print(f"| Python's `re`, tokens alone | {python:.1f} |")
    print(f"`lex` is {lexed / python:.0f} times as fast as Python's `re`, `lex` and `parse` both {parsed / python:.0f} times")


if __name__ == "__main__":
    main()
