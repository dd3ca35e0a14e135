"""What a session may see of the instants of a slot."""
from __future__ import annotations

from typing import TYPE_CHECKING, List, Optional

from .connection import Client, Refusal
from .module_text import Module
from .pictures import Seen

if TYPE_CHECKING:
    from .pictures import Instant


def instants_from(client: Client, slot: int, first: int) -> List[Instant]:
    """The instants from this one on, each a dictionary from a name to its presence."""
    instants: List[Instant] = []
    while True:
        try:
            answer = client.look(slot, first + len(instants))
        except Refusal as refusal:
            if refusal.fault == "NoInstant":
                return instants
            raise
        instants.append(dict(answer["signals"]))


def module_for(module: Optional[Module], slot: int, names: List[str]) -> Module:
    """The module of which these signals were shown. Where it isn't known, or another one, its
    signals are those.
    """
    if module is None or not set(names) <= set(module.kinds()):
        return Module(f"slot{slot}", [(name, "signal") for name in names], [], [])
    return module


def see_slot(client: Client, slot: int, module: Optional[Module], first: int = 1) -> Seen:
    """What may be seen of a slot's instants from this one on."""
    instants = instants_from(client, slot, first)
    names = list(dict.fromkeys(name for instant in instants for name in instant))
    found = module_for(module, slot, names)
    return Seen(found.name, found.signals, instants, first)
