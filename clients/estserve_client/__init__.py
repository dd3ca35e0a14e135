"""The parts of the client of estserve, and what a program of yours needs of them.

    import estserve_client
    with estserve_client.connect(path, timeout=5) as client:
        client.login("ann", ["driver"])
        print(client.instant(0, ["A", "B"]).present)
"""
from __future__ import annotations

from .connection import (
    CannotBeSent,
    Client,
    Disconnected,
    NotText,
    Refusal,
    TimedOut,
    TooLong,
    connect,
    start,
)

# What `run` imports does without typing, dataclasses, pathlib and shutil, whose imports take longer
# than all others of a run together. Readers of types take this name for that of typing.
TYPE_CHECKING = False
if TYPE_CHECKING:
    from .applying import Applied
    from .instants import Instant
    from .policy_file import BadPolicy
    from .sentences import sentence

__version__ = "0.3.0"
__all__ = [
    "Applied",
    "BadPolicy",
    "CannotBeSent",
    "Client",
    "Disconnected",
    "Instant",
    "NotText",
    "Refusal",
    "TimedOut",
    "TooLong",
    "connect",
    "sentence",
    "start",
]
# Names of modules that most commands do without, which are imported when they are first asked for.
LATE = {
    "Applied": "applying",
    "BadPolicy": "policy_file",
    "Instant": "instants",
    "sentence": "sentences",
}


def __getattr__(name: str) -> object:
    """A name of LATE. Raises AttributeError where it is none."""
    if name not in LATE:
        raise AttributeError(f"module {__name__!r} has no attribute {name!r}")
    import importlib

    return getattr(importlib.import_module(f".{LATE[name]}", __name__), name)
