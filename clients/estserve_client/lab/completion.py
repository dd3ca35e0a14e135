"""How the completion codes of a statement are made of those of its parts: 0 where it ends, 1 where it
pauses, k + 2 where it leaves the k-th trap around it.

What says whether a code is given may be a status or a gate. The rules are the same, by an `and` and an
`or` over them.
"""
from __future__ import annotations

import dataclasses
from typing import Callable, Dict, Generic, Optional, Sequence, TypeVar

from .kernel import Trap

Given = TypeVar("Given")  # what says whether a code is given


def code_of_exit(left: Optional[Trap], traps: Sequence[Trap]) -> int:
    """The code of an exit that leaves one of the traps around it, the innermost first."""
    return next(depth for depth, trap in enumerate(traps) if trap is left) + 2


@dataclasses.dataclass(frozen=True)
class Completion(Generic[Given]):
    """The rules over what has these `all` and `any`; `never` is that of a code that is not given."""

    all: Callable[..., Given]
    any: Callable[..., Given]
    never: Given

    def merged(self, *several: Dict[int, Given]) -> Dict[int, Given]:
        """Each code that one of these gives."""
        codes = sorted({code for some in several for code in some})
        return {code: self.any(*(some[code] for some in several if code in some)) for code in codes}

    def greatest(self, one: Dict[int, Given], other: Dict[int, Given]) -> Dict[int, Given]:
        """The greater code of two sides: one of them gives it, and the other no higher one."""
        found = {}
        for code in sorted({*one, *other}):
            below = [
                self.any(*(side[low] for low in sorted(side) if low <= code))
                for side in (one, other)
            ]
            found[code] = self.any(
                self.all(one.get(code, self.never), below[1]),
                self.all(other.get(code, self.never), below[0]),
            )
        return found

    def trapped(self, codes: Dict[int, Given]) -> Dict[int, Given]:
        """What a trap makes of the codes in it: it ends where it is left, and those of outer traps go
        on to them."""
        ends = self.any(codes.get(0, self.never), codes.get(2, self.never))
        pauses = {1: codes[1]} if 1 in codes else {}
        outer = {code - 1: given for code, given in codes.items() if code > 2}
        return {0: ends, **pauses, **outer}
