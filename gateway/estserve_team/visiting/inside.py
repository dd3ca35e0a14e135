"""What the inside of a slot's instants is worked out from: its text, and the inputs of its instants.

The inside of a program tells more than its outputs. So it is for those who may load here, and know
the text; and for those who may observe every signal of the interface, and step or audit. All others
get one refusal, before anything is looked at.
"""
from typing import Any, Dict, List, Optional, Tuple

from ..reads.rights import Rights
from ..refusals import Refused, failed, not_allowed
from .page_slots import TRIES, rights_of
from .seats import Seat

AT_ONCE = 4_096  # instants whose inputs are told at once
AUDIT = ("audit", "policy")


def refusal_of(number: int) -> Refused:
    """The refusal of all who may not know what happens inside, whatever does."""
    own = f"load on {number}, or observe on each signal of {number} with step or audit"
    return not_allowed(f"what happens inside instants needs {own}")


async def may_look_inside(rights: Rights, number: int, signals: List[Tuple[str, str]]) -> bool:
    """Whether a session may know what happens inside the instants of a slot."""
    if await rights.may("load", str(number)):
        return True
    for name, _ in signals:
        if not await rights.may("observe", f"{number}.{name}"):
            return False
    return bool(signals) and await rights.may_any([("step", str(number)), AUDIT])


async def inside_of(seat: Seat, number: int, load: str, known: int) -> Dict[str, Any]:
    """The load, its main module and text, how many instants there are, the inputs of those after the
    first `known` ones of this load, and what is pending. What the page has of this load it isn't told
    again. Raises Refused.
    """
    gateway = seat.context.gateway
    state = gateway.reads
    for _ in range(TRIES):
        changes, slot = seat.changes.count, state.slots[number]
        signals = slot.signals
        may = await may_look_inside(rights_of(seat), number, signals)
        if (changes, slot, signals) == (seat.changes.count, state.slots[number], slot.signals):
            if not may:
                raise refusal_of(number)
            name = f"{gateway.visiting.restarts}.{slot.loaded}" if slot.is_loaded else ""
            return told_of(slot, name, known if load == name else None)
    raise failed("permissions change too fast to be shown")


def told_of(slot: Any, name: str, known: Optional[int]) -> Dict[str, Any]:
    """What is told of a slot, whose load has a name of its own, after so many instants; None where
    nothing of this load is known."""
    first = max(0, known or 0)
    told = {
        "name": name,
        "load": slot.loaded if slot.is_loaded else None,
        "instants": len(slot.instants),
        "inputs": [list(names) for names in slot.instants[first : first + AT_ONCE]],
        "pending": list(slot.pending),
    }
    return told if known is not None else {**told, "main": slot.main, "text": slot.text}
