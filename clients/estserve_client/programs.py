"""Which program a command starts: the one that is named, or one that is built without proof."""
from __future__ import annotations

import os
import sys

from . import connection
from .connection import Disconnected

TYPE_CHECKING = False
if TYPE_CHECKING:
    import argparse
    from typing import Optional

OUTSIDE = (
    "--unproved builds the program from the sources of the repository, and this client lies outside"
    " of it: name a program by {}, or by the variable {}"
)
NAMED_BY = {"estserve": ("--program", "ESTSERVE"), "estlab": ("--estlab", "ESTLAB")}


def unproved_program(name: str = "estserve") -> str:
    """The program of this name, built without proof by scripts/trial.py, which keeps it. Raises
    Disconnected.
    """
    import subprocess

    script = os.path.join(connection.ROOT, "scripts", "trial.py")
    if not os.path.exists(script):
        raise Disconnected(OUTSIDE.format(*NAMED_BY[name]))
    try:
        words = [sys.executable, script, "--path", name]
        ran = subprocess.run(words, stdout=subprocess.PIPE, text=True)
    except OSError as fault:
        raise Disconnected(f"scripts/trial.py cannot be run: {fault.strerror or fault}") from fault
    if ran.returncode != 0:
        raise Disconnected("the program could not be built: try `make try`")
    return ran.stdout.strip()


def program_of(arguments: argparse.Namespace) -> Optional[str]:
    """The program to start, where it is named, or built without proof. Raises Disconnected."""
    return unproved_program() if arguments.unproved else arguments.program
