"""What comes of an instant, as the library gives it."""
from __future__ import annotations

import dataclasses
from typing import Dict, List


@dataclasses.dataclass(frozen=True)
class Instant:
    """What came of an instant: its number from 1, and the signals that the session may observe, by
    their names.
    """

    number: int
    signals: Dict[str, bool]

    @property
    def present(self) -> List[str]:
        """The names of the signals that were present, in declaration order."""
        return [name for name, is_present in self.signals.items() if is_present]
