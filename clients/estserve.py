#!/usr/bin/env python3
"""The client of estserve: run a module through inputs, test a folder, lay texts out, tell an editor
of them, judge claims in every run, speak with a server, apply a policy.

    estserve.py run abro.strl --inputs abro.inputs --wave
    estserve.py test scenarios
    estserve.py format abro.strl
    estserve.py prove crossing.strl --never 'CARS_GO and WALK'
    estserve.py shell --socket PATH --user ann --role driver
    estserve.py apply team.toml --socket PATH

As a library:

    import estserve
    with estserve.connect(path) as client:
        client.login("ann", ["driver"])
        client.instant(0, ["A", "B"])

Each command of docs/PROTOCOL.md is a method of `estserve.Client`; a refusal is raised as
`estserve.Refusal`. Python 3.9 or later, nothing else.
"""
from __future__ import annotations

import estserve_client
from estserve_client import (
    CannotBeSent,
    Client,
    Disconnected,
    NotText,
    Refusal,
    TimedOut,
    TooLong,
    __version__,
    connect,
    start,
)
from estserve_client.command_line import end, installed, main

TYPE_CHECKING = False
if TYPE_CHECKING:
    from estserve_client import Applied, BadPolicy, Instant, sentence

__all__ = [
    "Applied",
    "BadPolicy",
    "CannotBeSent",
    "Client",
    "Disconnected",
    "Instant",
    "NotText",
    "Refusal",
    "TimedOut",
    "TooLong",
    "__version__",
    "connect",
    "installed",
    "main",
    "sentence",
    "start",
]


def __getattr__(name: str) -> object:
    """A name of the package that it imports when it is first asked for. Raises AttributeError."""
    if name not in __all__:
        raise AttributeError(f"module {__name__!r} has no attribute {name!r}")
    return getattr(estserve_client, name)


if __name__ == "__main__":
    end(main())
