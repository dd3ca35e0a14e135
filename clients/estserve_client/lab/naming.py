"""Names of local signals: by the runs around them, `MOTOR.OVER`, and by a number where several have
one name.
"""
from __future__ import annotations

import collections
from typing import Dict, List, Sequence

from .kernel import Statement


def free_name(name: str, number: int, taken: Sequence[str]) -> str:
    """The name with a number, which none of these has."""
    found = f"{name}_{number}"
    while found in taken:
        found += "_"
    return found


def names_of_locals(statements: Sequence[Statement], interface: List[str]) -> Dict[int, str]:
    """The name of each local signal, by the number of the statement that declares it. One that has
    the name of another, or of a signal of the interface, has a number after it.
    """
    called = {
        one.number: one.signal.called() for one in statements if one.kind == "signal" and one.signal
    }
    counts = collections.Counter([*called.values(), *interface])
    numbers: Dict[str, int] = collections.Counter()
    taken, found = [*called.values(), *interface], {}
    for number, name in called.items():
        numbers[name] += 1
        several = counts[name] > 1
        found[number] = free_name(name, numbers[name], taken) if several else name
    return found
