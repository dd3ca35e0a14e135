#!/usr/bin/env python3
"""Checks and decisions a second, on a policy with 60 users, 31 roles, 250 granted pairs, 60 sessions and 16 separation sets.

usage: policies.py PROGRAM [SECONDS]

PROGRAM is the built `crates/benches/out/benches`, which makes the policy and asks it as often as it is told. Nothing else of
the server runs: no lines, no JSON, no slots, no list of entries.

The time is the processor time of the program, user and system, taken from outside. For each workload the repetitions are doubled until a
run takes SECONDS (1 if left out); of three such runs the fastest counts, less the fastest of three runs of one repetition, which is the
start of the program and the making of the policy.
"""
import os
import subprocess
import sys

# Each with what it is, and how many decisions a repetition makes.
WORKLOADS = {
    "held": ("`may`: a permission that is held through the order, four levels down", 1),
    "not-held": ("`may`: a permission that the session doesn't have", 1),
    "no-session": ("`may`: a session that doesn't live", 1),
    "grant": ("`decide` and `absorb`: a grant, and its revocation", 2),
    "assign": ("`decide` and `absorb`: a role assigned, and taken back", 2),
    "edge-decided": ("`decide` alone: an edge, asked of 16 sets and 60 sessions", 1),
    "edge": ("`decide` and `absorb`: such an edge, and its removal", 2),
}


def processor_seconds(program, workload, repetitions):
    """The processor time of one run."""
    process = subprocess.Popen([program, workload, str(repetitions)], stdout=subprocess.PIPE)
    line = process.stdout.read().decode()
    _, status, usage = os.wait4(process.pid, 0)
    process.returncode = os.waitstatus_to_exitcode(status)
    if process.returncode != 0 or not line.startswith(f"{workload}: {repetitions} repetitions, "):
        sys.exit(f"{workload}: status {process.returncode}, {line!r}")
    return usage.ru_utime + usage.ru_stime


def fastest(program, workload, repetitions):
    return min(processor_seconds(program, workload, repetitions) for _ in range(3))


def seconds_a_repetition(program, workload, seconds):
    repetitions = 2
    while processor_seconds(program, workload, repetitions) < seconds:
        repetitions *= 2
    start = fastest(program, workload, 1)
    return (fastest(program, workload, repetitions) - start) / (repetitions - 1)


def main():
    program = sys.argv[1]
    seconds = float(sys.argv[2]) if len(sys.argv) > 2 else 1.0
    print("| Workload | What it is | A second | Microseconds each |")
    print("|---|---|---|---|")
    for workload, (what, many) in WORKLOADS.items():
        each = seconds_a_repetition(program, workload, seconds) / many
        print(f"| `{workload}` | {what} | {1 / each:,.0f} | {1e6 * each:.2f} |", flush=True)


if __name__ == "__main__":
    main()
