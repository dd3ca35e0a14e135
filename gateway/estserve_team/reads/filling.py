"""How full the journals and tables are, told in sentences from 90 percent on."""
from typing import Any, Callable, Dict, Iterable, List

from .policy_model import Filling

REMEDIES = {
    "policy journal": "`archive` begins a new record",
    "session numbers": "`archive` begins a new record",
    "permission pairs": "revoke what no role needs",
}


def sentence_of(filling: Filling) -> str:
    """The sentence that tells how full something is, and what helps."""
    slot = filling.what.rpartition(" ")[2]
    of_slot = f"`archive` keeps the present load alone, `archive --slot {slot}` nothing of it"
    remedy = REMEDIES.get(filling.what, of_slot)
    percent = filling.used * 100 // filling.limit
    return f"{filling.what}: {percent} % full, {filling.used} of {filling.limit}; {remedy}"


class FillingWatch:
    """Tells what is nearly full by `log`, once at each percent."""

    def __init__(self, log: Callable[[str], None]) -> None:
        self._log = log
        self._told: Dict[str, int] = {}

    def tell(self, fillings: Iterable[Filling]) -> None:
        """Tells of each that is nearly full and fuller than it was told before."""
        for filling in fillings:
            percent = filling.used * 100 // filling.limit
            if filling.is_near and percent > self._told.get(filling.what, 0):
                self._told[filling.what] = percent
                self._log(sentence_of(filling))


def warnings(gateway: Any) -> List[str]:
    """A sentence for each journal or table of the gateway's server that is nearly full."""
    state = gateway.reads
    fillings = state.policy.fillings() + state.slots.fillings()
    return [sentence_of(filling) for filling in fillings if filling.is_near]
