"""The models of a record: policy and slots, as its entries say, followed as new ones come."""
import json
import pathlib
from typing import Any, Dict, Iterable, Iterator, List, Optional, Set

from ..record import POLICY, Entry, in_order, open_reader
from ..refusals import failed
from .filling import FillingWatch
from .policy_model import PolicyModel
from .slot_model import SlotsModel

FREQUENT = frozenset(("step", "offer", "discard"))
MOST_WAITING = 64  # of these entries are not added yet
WITHOUT_KEYS = {command: {"cmd": command} for command in ("step", "discard", "unload")}


class Models:
    """The policy and the slots after the entries that were added."""

    def __init__(self) -> None:
        self.policy = PolicyModel()
        self.slots = SlotsModel()
        self.waiting: List[Entry] = []  # entries that are to be added

    def add(self, entry: Entry) -> None:
        """Adds one entry. Raises OutOfOrder where it doesn't follow those before it."""
        if entry.slot == POLICY:
            reply = {"version": entry.version, "session": entry.session}
            self.policy.add(entry.session, json.loads(entry.request), reply)
            return
        known = WITHOUT_KEYS.get(entry.command)
        request: Dict[str, Any] = (
            {"slot": entry.slot, **known} if known else json.loads(entry.request)
        )
        made = {"place": entry.place, "version": entry.version, "instant": entry.instant}
        self.slots.add(request, made)

    def add_all(self, entries: Iterable[Entry]) -> "Models":
        """Adds entries in their order."""
        for entry in entries:
            self.add(entry)
        return self


def entries_of(path: pathlib.Path) -> Iterator[Entry]:
    """The entries of a record, in an order in which each follows all that it may have seen."""
    with open_reader(path) as database:
        yield from in_order(database)


def models_of(path: pathlib.Path) -> Models:
    """The models of a whole record."""
    return Models().add_all(entries_of(path))


class ReadState:
    """What a gateway's reads are made from: the models of its record, kept up to date.

    A gateway that began anew from its record calls `begin` again."""

    def __init__(self, gateway: Any) -> None:
        self._gateway = gateway
        self._watch = FillingWatch(gateway.log)
        self._models = Models()
        self._fault: Optional[Exception] = None
        gateway.listen(self.follow)

    @property
    def models(self) -> Models:
        """The models of the record. Raises Refused, where they could not follow an entry."""
        self.catch_up()
        if self._fault is not None:
            raise failed(f"the record can't be read: {self._fault}")
        return self._models

    @property
    def policy(self) -> PolicyModel:
        """The policy as it stands."""
        return self.models.policy

    @property
    def slots(self) -> SlotsModel:
        """The slots as they stand."""
        return self.models.slots

    def begin(self) -> None:
        """Builds the models from the whole record, and tells what is nearly full."""
        self._models, self._fault = models_of(self._gateway.record_path), None
        self._watch = FillingWatch(self._gateway.log)
        self._watch.tell(self.policy.fillings() + self.slots.fillings())

    def follow(self, entries: List[Entry]) -> None:
        """Adds new entries: steps and offers when the models are asked for, or are many."""
        waiting = self._models.waiting
        waiting += entries
        is_frequent = all(entry.command in FREQUENT for entry in entries)
        if len(waiting) >= MOST_WAITING or not is_frequent:
            self.catch_up()

    def catch_up(self) -> None:
        """Adds new entries, and tells what is nearly full by them. It never raises."""
        models = self._models  # which `begin` may exchange meanwhile, in a thread of its own
        entries, models.waiting = models.waiting, []
        if self._fault is not None or not entries:
            return
        try:
            models.add_all(entries)
            self._tell({entry.slot for entry in entries})
        except Exception as fault:
            self._fault = fault
            self._gateway.log(f"reads are refused until the next start: {fault!r}")

    def _tell(self, touched: Set[int]) -> None:
        """Tells what is nearly full of these slots, or of the policy."""
        for slot in touched:
            is_policy = slot == POLICY
            self._watch.tell(self.policy.fillings() if is_policy else [self.slots[slot].filling()])
