#!/usr/bin/env python3
"""Makes libestserve_react.a: the proved static library, and the kit's few lines of C between it and malloc.

usage: library.py [CRATE_LIBRARY]

CRATE_LIBRARY is crates/est_embed/out/libest_embed.a. If it is left out, it is proved and built first: over what `rt ci` has left here, or
else with all that it stands on. The library that is made lies beside it.
"""
import pathlib
import subprocess
import sys

import over_gate
from crates import ROOT, say

CRATE = "est_embed"
BUILT = ROOT / "crates" / CRATE / "out" / f"lib{CRATE}.a"
NAME = "libestserve_react.a"


def prove():
    """Proves and builds the crate's library. Answers a status."""
    if over_gate.is_over_gate(CRATE):
        try:
            over_gate.build(CRATE)
            return 0
        except over_gate.NotBuilt as fault:
            say(f"{CRATE} is not built over what rt ci left, so all is proved anew: {fault}")
    return subprocess.run([sys.executable, ROOT / "scripts" / "run.py", "--library", CRATE]).returncode


def join(built):
    """Puts the proved library, and the kit's of what it takes from C, a heap by malloc, realloc and free, into one archive. Answers where
    it lies.
    """
    made = built.with_name(NAME)
    made.unlink(missing_ok=True)
    words = f"create {made}\naddlib {built}\naddlib {over_gate.kit() / 'c' / 'liblibc_c.a'}\nsave\nend\n"
    subprocess.run(["ar", "-M"], input=words.encode(), check=True)
    return made


def main(words):
    if not words:
        status = prove()
        if status:
            return status
    built = pathlib.Path(words[0]).resolve() if words else BUILT
    if not built.exists():
        sys.exit(f"{built} isn't there: make library proves and builds it")
    made = join(built)
    print(made.relative_to(ROOT) if made.is_relative_to(ROOT) else made)
    return 0


if __name__ == "__main__":
    sys.exit(main(sys.argv[1:]))
