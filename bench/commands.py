#!/usr/bin/env python3
"""Commands a second of the built program, beside a loop of json.loads and json.dumps over the same lines.

usage: commands.py PROGRAM [LINES]

Makes a script of LINES lines (100,000 if left out): a small module is loaded into several slots, and then offers,
steps and looks go around them. No line is refused: the run stops if one is. The same lines are then asked through a
pipe, 100 at once and one at a time, each time waiting for the answers to those before the next are sent. At last
there are three scripts of one kind of command each: steps, checks and changes of the policy.
"""
import itertools
import json
import subprocess
import sys
import time

SLOTS = 8
RUNS = 5
MODULE = (
    "module B: input I; output O, P; "
    "emit P; pause; present I then emit O end; pause; "
    "present I then emit O else emit P end end module"
)


def opening():
    yield {"cmd": "login", "roles": ["root"], "user": "root"}
    for slot in range(SLOTS):
        for operation in ("load", "step"):
            yield {"cmd": "grant", "object": str(slot), "op": operation, "role": "root"}
        yield {"cmd": "grant", "object": f"{slot}.I", "op": "offer", "role": "root"}
        for name in ("I", "O", "P"):
            yield {"cmd": "grant", "object": f"{slot}.{name}", "op": "observe", "role": "root"}
        yield {"cmd": "load", "main": "B", "slot": slot, "text": MODULE}


def commands():
    yield from opening()
    instant = 0
    while True:
        instant += 1
        for slot in range(SLOTS):
            yield {"cmd": "offer", "signal": "I", "slot": slot}
            yield {"cmd": "step", "slot": slot}
            yield {"cmd": "look", "instant": instant, "slot": slot}


def steps():
    yield from opening()
    while True:
        for slot in range(SLOTS):
            yield {"cmd": "step", "slot": slot}


def checks():
    yield from opening()
    while True:
        yield {"cmd": "check", "object": "0", "op": "step"}
        yield {"cmd": "check", "object": "0.I", "op": "step"}


def changes():
    """Each of these changes the policy; after six of them it is as before."""
    yield from opening()
    ann = {"role": "root", "user": "ann"}
    stops = {"object": "1.P", "op": "offer", "role": "root"}
    while True:
        yield {"cmd": "adduser", "user": "ann"}
        yield {"cmd": "assign", **ann}
        yield {"cmd": "grant", **stops}
        yield {"cmd": "revoke", **stops}
        yield {"cmd": "deassign", **ann}
        yield {"cmd": "deluser", "user": "ann"}


def script(count, kind=commands):
    chosen = itertools.islice(kind(), count)
    return "".join(json.dumps(command, separators=(",", ":"), sort_keys=True) + "\n" for command in chosen)


def run_program(program, text):
    start = time.perf_counter()
    done = subprocess.run([program, "script"], input=text.encode(), stdout=subprocess.PIPE, check=True)
    return time.perf_counter() - start, done.stdout.decode().splitlines()


def run_python(text):
    start = time.perf_counter()
    out = [json.dumps(json.loads(line), separators=(",", ":")) for line in text.splitlines()]
    return time.perf_counter() - start, out


def run_ahead(program, text, ahead):
    """The seconds that the lines take where this many are sent at once, and their answers awaited before the next."""
    lines = text.encode().splitlines(keepends=True)
    with subprocess.Popen([program, "script"], stdin=subprocess.PIPE, stdout=subprocess.PIPE) as asked:
        start = time.perf_counter()
        for first in range(0, len(lines), ahead):
            some = lines[first : first + ahead]
            asked.stdin.write(b"".join(some))
            asked.stdin.flush()
            for _ in some:
                asked.stdout.readline()
        seconds = time.perf_counter() - start
        asked.stdin.close()
    return seconds


def run_accepted(program, text):
    """The seconds that the lines take, where each is accepted."""
    seconds, answers = run_program(program, text)
    count = text.count("\n")
    refused = [answer for answer in answers if '"fault"' in answer]
    if len(answers) != count or refused:
        sys.exit(f"{len(answers)} answers to {count} lines, {len(refused)} refused: {refused[:1]}")
    return seconds


def main():
    program = sys.argv[1]
    count = int(sys.argv[2]) if len(sys.argv) > 2 else 100_000
    text = script(count)
    seconds = run_accepted(program, text)
    python_seconds, _ = run_python(text)
    rate, python_rate = count / seconds, count / python_seconds
    print(f"estserve: {rate:,.0f} commands a second ({seconds:.3f} s for {count:,} lines)")
    print(f"python json loop: {python_rate:,.0f} lines a second ({python_seconds:.3f} s)")
    print(f"ratio: {rate / python_rate:.2f}")
    few = script(max(count // 5, 1))
    lines = few.count("\n")
    many, one = (lines / run_ahead(program, few, ahead) for ahead in (100, 1))
    print(f"100 lines ahead: {many:,.0f} commands a second; one at a time: {one:,.0f}; ratio: {many / one:.2f}")
    for name, kind in [("step", steps), ("check", checks), ("change of the policy", changes)]:
        text = script(count, kind)
        least = min(run_accepted(program, text) for _ in range(RUNS))
        print(f"a {name}: {least / count * 1e6:.2f} microseconds, the least of {RUNS} runs")


if __name__ == "__main__":
    main()
