"""What was made before and is likely to be asked for again."""
from __future__ import annotations

TYPE_CHECKING = False
if TYPE_CHECKING:
    from typing import Any, Callable, Dict

    Values = Dict[Any, Any]
else:
    Values = dict

MOST = 4_096


class Known(Values):
    """Values by their keys, at most MOST at a time: all are given up where one more comes."""

    def __init__(self, make: Callable[[Any], Any]) -> None:
        """`make` gives the value of a key that is asked for, as `known[key]`, and isn't there."""
        super().__init__()
        self.make = make

    def __missing__(self, key: Any) -> Any:
        value = self.make(key)
        if len(self) >= MOST:
            self.clear()
        self[key] = value
        return value
