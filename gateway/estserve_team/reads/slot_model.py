"""The slots as a model, built from the accepted commands on slots and their replies in order.

It knows which module is loaded, its interface, its pending inputs and the inputs of each instant
since the load. What an instant's outputs are it doesn't know: a `look` tells that.
"""
from typing import Any, Dict, List, Optional, Tuple

from estserve_client.module_text import main_of

from .policy_model import Filling, OutOfOrder

SLOTS = 16
JOURNAL = 65_536  # entries of a slot's journal
SLOT_COMMANDS = frozenset("load unload offer discard step".split())

Names = Tuple[str, ...]


class Slot:
    """One slot: `entries` counts its journal, `version` is that of its last entry.

    Of the present load: `main` and `text` (None where the slot is empty), `pending` (names in the
    order of their offers), `instants` (the inputs of each), `loaded` (the place of the load)."""

    def __init__(self, number: int) -> None:
        self.number = number
        self.entries = 0
        self.version = 0
        self._empty(None, None)

    def _empty(self, main: Optional[str], text: Optional[str]) -> None:
        self.main, self.text, self.loaded = main, text, self.entries
        self.pending: Dict[str, None] = {}
        self.instants: List[Names] = []
        self._signals: Optional[List[Tuple[str, str]]] = None

    @property
    def is_loaded(self) -> bool:
        """Whether a module is loaded."""
        return self.main is not None

    @property
    def signals(self) -> List[Tuple[str, str]]:
        """The interface of the module in order, each a name and `input`, `output` or `inout`."""
        if self._signals is None:
            module = None if self.text is None else main_of(self.text, self.main)
            self._signals = module.signals if module else []
        return self._signals

    def filling(self) -> Filling:
        """How full the slot's journal is."""
        return Filling(f"journal of slot {self.number}", self.entries, JOURNAL)


class SlotsModel:
    """The sixteen slots; an entry is added by `add`."""

    def __init__(self) -> None:
        self.slots = [Slot(number) for number in range(SLOTS)]
        self._known: Dict[Names, Names] = {}  # equal inputs of instants are kept once

    def __getitem__(self, number: int) -> Slot:
        return self.slots[number]

    def add(self, request: Dict[str, Any], reply: Dict[str, Any]) -> None:
        """Adds the entry of an accepted command on a slot.

        Raises OutOfOrder where the reply's place or instant is not the next one."""
        slot = self.slots[request["slot"]]
        if reply["place"] != slot.entries + 1 or reply["version"] < slot.version:
            told = f"place {reply['place']} at version {reply['version']}"
            raise OutOfOrder(f"slot {slot.number}: {told} after {slot.entries}, {slot.version}")
        slot.entries, slot.version = reply["place"], reply["version"]
        cmd = request["cmd"]
        if cmd == "offer":
            slot.pending[request["signal"]] = None
        elif cmd == "step":
            self._step(slot, reply["instant"])
        elif cmd == "discard":
            slot.pending = {}
        else:
            slot._empty(request.get("main"), request.get("text"))

    def _step(self, slot: Slot, instant: int) -> None:
        if instant != len(slot.instants) + 1:
            raise OutOfOrder(f"slot {slot.number}: instant {instant} after {len(slot.instants)}")
        inputs = tuple(slot.pending)
        slot.instants.append(self._known.setdefault(inputs, inputs))
        slot.pending = {}

    def fillings(self) -> List[Filling]:
        """How full each journal that has entries is."""
        return [slot.filling() for slot in self.slots if slot.entries]
