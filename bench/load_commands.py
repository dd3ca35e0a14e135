#!/usr/bin/env python3
"""Loads and unloads a second of the built program.

usage: load_commands.py PROGRAM

PROGRAM is the built `crates/estserve/out/estserve`. Each module is loaded and unloaded again and again in one slot, as lines of a script; no
line is refused: the run stops if one is. The time is processor time, user and system, the fastest of three runs, less that of a script
without loads.
"""
import json
import pathlib
import resource
import subprocess
import sys

EXAMPLES = pathlib.Path(__file__).resolve().parent.parent / "examples"


def example(name, module):
    """The text of an example, its main module named M."""
    text = (EXAMPLES / name / f"{name}.strl").read_text()
    assert text.count(f"module {module}:") == 1
    return text.replace(f"module {module}:", "module M:")


# each with a number of pairs that takes about a second
MODULES = (
    ("ABRO", example("abro", "ABRO"), 10_000),
    ("the arbiter of six cells", example("arbiter", "ARBITER"), 2_000),
    ("1,999 statements, one after another", "module M: output O; " + "emit O; pause; " * 499 + "emit O; halt end module", 500),
)


def script(text, pairs):
    """The lines of a script that loads and unloads the text so often."""
    commands = [
        {"cmd": "login", "roles": ["root"], "user": "root"},
        {"cmd": "grant", "object": "0", "op": "load", "role": "root"},
    ]
    pair = [{"cmd": "load", "main": "M", "slot": 0, "text": text}, {"cmd": "unload", "slot": 0}]
    return "".join(json.dumps(command) + "\n" for command in commands + pair * pairs)


def processor_time(words, text):
    """The seconds that a process takes over an input, the fewest of three runs, and what it writes."""
    fewest = None
    for _ in range(3):
        before = resource.getrusage(resource.RUSAGE_CHILDREN)
        done = subprocess.run(words, input=text.encode(), stdout=subprocess.PIPE, check=True)
        after = resource.getrusage(resource.RUSAGE_CHILDREN)
        used = after.ru_utime - before.ru_utime + after.ru_stime - before.ru_stime
        fewest = used if fewest is None else min(fewest, used)
    return fewest, done.stdout.decode()


def main():
    if len(sys.argv) != 2:
        sys.exit(__doc__)
    words = [sys.argv[1], "script"]
    for title, text, pairs in MODULES:
        nothing, _ = processor_time(words, script(text, 0))
        whole, answers = processor_time(words, script(text, pairs))
        if '"fault"' in answers or answers.count("\n") != 2 * pairs + 2:
            sys.exit(f"{title}: a line was refused")
        pair = (whole - nothing) / pairs
        print(f"{title}, {len(text):,} bytes: {2 / pair:,.0f} commands a second, {1e6 * pair:,.1f} microseconds a load and an unload", flush=True)


if __name__ == "__main__":
    main()
