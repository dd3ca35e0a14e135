"""The command line: what becomes of a command, and what is told at its end."""
from __future__ import annotations

import contextlib
import os
import sys

from .connection import CannotBeSent, Disconnected, Refusal, TimedOut
from .commands import make_parser
from .messages import TELLER
from .texts import Failed

TYPE_CHECKING = False
if TYPE_CHECKING:
    from typing import List, NoReturn, Optional

STREAMS = (
    ("stdin", "r", "surrogateescape"),
    ("stdout", "w", "backslashreplace"),
    ("stderr", "w", ""),
)


def prepare_streams() -> None:
    """Opens what was closed, and lets no stream fail at a text for its letters: what is no UTF-8 is
    told where it is used.
    """
    for name, mode, errors in STREAMS:
        if getattr(sys, name) is None:
            setattr(sys, name, open(os.devnull, mode))
        if errors and hasattr(getattr(sys, name), "reconfigure"):
            getattr(sys, name).reconfigure(errors=errors)


def tell_of_output(fault: OSError) -> int:
    """Ends since standard output cannot be written. What is still to be written is given up, or
    Python would try it again.
    """
    try:
        with open(os.devnull, "w") as nowhere:
            os.dup2(nowhere.fileno(), sys.stdout.fileno())
    except (OSError, ValueError):
        pass
    return TELLER.tell(f"standard output cannot be written: {fault.strerror or fault}")


def main(words: Optional[List[str]] = None) -> int:
    """Does what the words say. Answers the status: 0, or another one with one message on standard
    error.
    """
    words = sys.argv[1:] if words is None else words
    arguments = make_parser(*words[:1]).parse_args(words)
    prepare_streams()
    try:
        status = arguments.act(arguments)
        sys.stdout.flush()
    except Failed as fault:
        return TELLER.tell(fault, fault.status)
    except (Disconnected, CannotBeSent, TimedOut, Refusal) as fault:
        return TELLER.tell(fault)
    except OSError as fault:
        return tell_of_output(fault)
    except KeyboardInterrupt:
        return TELLER.tell("interrupted", 130)
    return int(status or 0)


def end(status: int) -> NoReturn:
    """Ends with this status at once: the system takes all back that Python would clear up piece by
    piece, which takes as long as hundreds of instants.
    """
    for stream in (sys.stdout, sys.stderr):
        with contextlib.suppress(OSError, ValueError):
            stream.flush()
    os._exit(status)


def installed() -> NoReturn:
    """The command `estserve-client`, as pip and `make install` put it in place."""
    TELLER.name = "estserve-client"
    end(main())
