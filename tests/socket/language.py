"""Whether a program reads the whole language: tests over several signals, and `inputoutput`. It is asked once.

Tests that need such a program run exactly where the one that they are given is one, and it is said where they don't.
"""
import functools
import sys

from estserve_client.connection import Refusal, start

TEXT = "module M: inputoutput B; present not B then pause end end module"
LACKS = "the program reads no inputoutput and no expressions over signals: the tests that need one are skipped"


@functools.lru_cache(None)
def reads_expressions(program):
    """Whether the program in this file reads them."""
    with start(program) as client:
        client.login("root", ["root"])
        client.grant("root", "load", "0")
        try:
            client.load(0, "M", TEXT)
        except Refusal as refusal:
            if refusal.fault != "Syntax":
                raise
            print(LACKS, file=sys.stderr, flush=True)
            return False
    return True
