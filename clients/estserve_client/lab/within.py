"""What happens inside the instants of a run: its local signals and the lines that ran, as estlab tells
them beside it.
"""
from __future__ import annotations

from typing import TYPE_CHECKING, Dict, Iterable, List, Sequence, Tuple

from ..connection import Refusal
from ..pictures import Within
from ..scopes import Locals, Scope
from ..texts import Failed
from .inside import Inside, Look, presences

if TYPE_CHECKING:
    from ..pictures import Instant, Signals

OTHERS = (
    "instant {}: the slot shows another instant than the text alone comes to: perhaps others have"
    " offered inputs, or another text runs there"
)


def ranges(numbers: Sequence[int]) -> str:
    """Numbers in a line, those that follow one another together: `4-6,9`."""
    parts: List[List[int]] = []
    for number in numbers:
        if parts and parts[-1][-1] == number - 1:
            parts[-1][1:] = [number]
        else:
            parts.append([number])
    return ",".join("-".join(map(str, part)) for part in parts)


def lines_told(inside: Inside, look: Look) -> str:
    """The lines that ran: of several files each with its own."""
    library, by_file = inside.subject.library, {}  # type: ignore[var-annotated]
    for line in sorted(inside.ran(look)):
        path, inner = library.place(line)
        by_file.setdefault(path, []).append(inner)
    if len(library.paths) == 1:
        return " ".join(map(ranges, by_file.values()))
    return " ".join(f"{path}:{ranges(numbers)}" for path, numbers in by_file.items())


def mark_of(present: int, count: int) -> str:
    """What stands after a local signal that is present, where several incarnations of it ran."""
    return f"({present}/{count})" if present and count > 1 else ""


def instant_within(inside: Inside, look: Look, shown: Instant) -> Within:
    """An instant with its local signals and its lines."""
    found = presences(inside, look)
    marks = {name: mark_of(*counts) for name, counts in found.items()}
    present = {name: counts[0] > 0 for name, counts in found.items()}
    return Within({**shown, **present}, marks, lines_told(inside, look))


class Beside:
    """A run of the same module in estlab, beside the one that is drawn."""

    def __init__(self, inside: Inside) -> None:
        self.inside = inside
        self.signals: Signals = [(name, "local") for name in inside.names.values()]

    def within(self, word: Iterable[Sequence[str]], instants: List[Instant]) -> List[Instant]:
        """The next instants, with what happens inside them. Raises Failed where estlab comes to
        others.
        """
        found: List[Instant] = []
        outputs = self.inside.subject.module.outputs()
        for look, shown in zip(self.looks(word), instants):
            told = look.outputs | look.inputs
            if look.is_stuck or any(
                shown.get(one, one in told) != (one in told) for one in outputs
            ):
                raise Failed(OTHERS.format(self.inside.at))
            found.append(instant_within(self.inside, look, shown))
        return found

    def looks(self, word: Iterable[Sequence[str]]) -> List[Look]:
        """The next instants from inside. Raises Failed."""
        try:
            return list(self.inside.looks(word))
        except Refusal as refusal:
            raise Failed(OTHERS.format(self.inside.at + 1)) from refusal

    def locals(self) -> Locals:
        """The names of the local signals, by the runs around them and their declarations."""
        signals = {
            self.inside.statements[at].signal: name for at, name in self.inside.names.items()
        }
        return {(one.path, one.at): name for one, name in signals.items() if one and one.at}

    def add_scopes(self, scopes: List[Scope]) -> None:
        """Puts the local signals of what is run into the scopes of a VCD file."""
        for number, name in self.inside.names.items():
            signal = self.inside.statements[number].signal
            assert signal
            if signal.path:
                scope = scope_at(scopes, signal.path)
                scope.signals.append((name[len(".".join(signal.path)) + 1 :], name))


def scope_at(scopes: List[Scope], path: Tuple[str, ...]) -> Scope:
    """The scope of these runs, which is made where it isn't there."""
    by_name: Dict[str, Scope] = {scope.name: scope for scope in scopes}
    if path[0] not in by_name:
        scopes.append(Scope(path[0], [], []))
    scope = by_name.get(path[0], scopes[-1])
    return scope_at(scope.inner, path[1:]) if path[1:] else scope
