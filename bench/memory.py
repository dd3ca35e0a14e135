#!/usr/bin/env python3
"""The memory of the built program while a slot is loaded and unloaded ten thousand times.

usage: memory.py PROGRAM

Each pair of a load and an unload leaves two entries in the slot's journal, and the load's entry keeps a copy of the text. What a module
was read into is let go. So from the hundredth pair to the last, the program's own memory (RssAnon of Linux) is to grow by no more than
the text and ENTRIES bytes a pair; it does so for a text of 99 bytes and for one of 1,001 statements. Ends with status 1 where it grows by
more, or where a command is refused.
"""
import json
import subprocess
import sys

PAIRS = 10_000
FIRST = 100

# two entries of a journal, with what the allocator adds to the text, and room for a journal that is about to be copied
ENTRIES = 400

TEXTS = {
    "small": "module M: input A; output B; present A then emit B end; pause; present A then emit B end end module",
    "large": "module M: " + "pause; " * 1000 + "pause end module",
}


def own_memory(process):
    """The bytes of memory that the process has for itself."""
    with open(f"/proc/{process.pid}/status") as status:
        for line in status:
            if line.startswith("RssAnon:"):
                return 1024 * int(line.split()[1])
    sys.exit("no RssAnon")


def ask(process, command):
    """Sends a command, and reads its answer."""
    process.stdin.write((json.dumps(command) + "\n").encode())
    process.stdin.flush()
    answer = json.loads(process.stdout.readline())
    if answer.get("ok") != command["cmd"]:
        sys.exit(f"{command['cmd']} was answered {answer}")
    return answer


def growth(program, text):
    """By how many bytes a pair the program grows."""
    with subprocess.Popen([program, "script"], stdin=subprocess.PIPE, stdout=subprocess.PIPE) as process:
        ask(process, {"cmd": "login", "roles": ["root"], "user": "root"})
        ask(process, {"cmd": "grant", "object": "0", "op": "load", "role": "root"})
        before = 0
        for pair in range(1, PAIRS + 1):
            ask(process, {"cmd": "load", "main": "M", "slot": 0, "text": text})
            place = ask(process, {"cmd": "unload", "slot": 0})["place"]
            if place != 2 * pair:
                sys.exit(f"pair {pair} ends at place {place}")
            if pair == FIRST:
                before = own_memory(process)
        after = own_memory(process)
        process.stdin.close()
        return (after - before) / (PAIRS - FIRST)


def main():
    if len(sys.argv) != 2:
        sys.exit(__doc__)
    too_much = False
    for name, text in TEXTS.items():
        bytes_a_pair = growth(sys.argv[1], text)
        print(f"{name} text of {len(text):,} bytes: {bytes_a_pair:,.0f} bytes a load and an unload")
        too_much = too_much or bytes_a_pair > len(text) + ENTRIES
    return 1 if too_much else 0


sys.exit(main())
