"""The rules of an instant, walked one by one: what must and what can be emitted, and which statements
run. It is what `estlab` is held against, and asks it nothing.

Must and Can are walked as their rules are written, over and over until nothing more is decided: a
local signal is first unknown, then present where it must be emitted, absent where it can't be. So
each statement is walked once for each thing that is tried, and small programs alone are walked soon.
"""
from __future__ import annotations

import dataclasses
from typing import Dict, FrozenSet, Iterable, List, Optional, Set, Tuple

from estserve_client.lab.kernel import TICK, Asked, Signal, Statement

Status = Optional[bool]  # None: unknown
Place = Tuple[int, int]  # a statement's number, and its incarnation
NONE: FrozenSet = frozenset()


@dataclasses.dataclass(frozen=True)
class Flow:
    """What a statement must and can do: the signals that it emits, and its codes. `rests` are the
    pauses that control rests in, where the code must be 1.
    """

    must: FrozenSet[Signal]
    must_codes: FrozenSet[int]
    can: FrozenSet[Signal]
    can_codes: FrozenSet[int]
    rests: FrozenSet[int] = NONE

    def doubted(self) -> Flow:
        """The same of what may not run at all."""
        return Flow(NONE, NONE, self.can, self.can_codes)


def ended(code: int, signals: Iterable[Signal] = (), rests: Iterable[int] = ()) -> Flow:
    """What ends with this code, and emits these."""
    codes, emitted = frozenset([code]), frozenset(signals)
    return Flow(emitted, codes, emitted, codes, frozenset(rests))


@dataclasses.dataclass
class Walked:
    """What was walked: the statements that surely began, those that surely went on, the local
    signals, and what is tied to signals that are unknown.
    """

    began: Set[Place] = dataclasses.field(default_factory=set)
    went: Set[Place] = dataclasses.field(default_factory=set)
    locals: Dict[Place, Status] = dataclasses.field(default_factory=dict)
    waits: List[Tuple[Place, Signal]] = dataclasses.field(default_factory=list)
    may_emit: List[Tuple[Place, Signal]] = dataclasses.field(default_factory=list)
    declared: Dict[Signal, Place] = dataclasses.field(default_factory=dict)

    def add(self, other: Walked) -> None:
        """Adds what was walked elsewhere."""
        self.began |= other.began
        self.went |= other.went
        self.locals.update(other.locals)
        self.waits += other.waits
        self.may_emit += other.may_emit


def mirrored(status: Status) -> Status:
    """The status of a `not`."""
    return None if status is None else not status


class Walk:
    """One walk through a kernel: in this state, by these statuses of its signals."""

    def __init__(self, live: FrozenSet[int], statuses: Dict[Signal, Status]) -> None:
        self.live, self.statuses, self.seen = live, statuses, Walked()
        self.declared: Dict[Signal, Place] = {}

    def lives(self, s: Statement) -> bool:
        """Whether control rests in a statement."""
        return s.pause in self.live if s.kind == "pause" else any(map(self.lives, s.parts))

    def test(self, asked: Optional[Asked]) -> Status:
        """Whether a test holds."""
        assert asked
        if asked.signal:
            return self.statuses[asked.signal]
        parts = [self.test(part) for part in asked.parts]
        if asked.kind == "not":
            return mirrored(parts[0])
        least = asked.kind == "or"  # which one decides
        if least in parts:
            return least
        return None if None in parts else not least

    def signals(self, asked: Optional[Asked]) -> List[Signal]:
        """The signals of a test that are unknown, each once."""
        assert asked
        if asked.signal:
            return [asked.signal] if self.statuses[asked.signal] is None else []
        return list(dict.fromkeys(one for part in asked.parts for one in self.signals(part)))

    # A statement that begins. `i` is its incarnation, `once` that no loop around begins it anew,
    # `sure` that it surely begins.

    def begin(self, s: Statement, i: int, once: bool, sure: bool) -> Flow:
        if sure:
            self.seen.began.add((s.number, i))
        flow: Flow = getattr(self, "begin_" + s.kind)(s, i, once, sure)
        return flow if sure else flow.doubted()

    def begin_nothing(self, *_: object) -> Flow:
        return ended(0)

    def begin_pause(self, s: Statement, *_: object) -> Flow:
        return ended(1, (), [s.pause])

    def begin_emit(self, s: Statement, i: int, _: bool, sure: bool) -> Flow:
        assert s.signal
        if not sure and self.statuses[s.signal] is None:
            self.seen.may_emit.append(((s.number, i), s.signal))
        return ended(0, [s.signal])

    def begin_exit(self, s: Statement, *_: object) -> Flow:
        return ended(2 + s.depth)  # type: ignore[attr-defined]

    def begin_present(self, s: Statement, i: int, once: bool, sure: bool) -> Flow:
        status = self.test(s.test)
        if status is not None:
            return self.begin(s.parts[not status], i, once, sure)
        first, second = (self.begin(part, i, once, False) for part in s.parts)
        self.seen.waits += [((s.number, i), signal) for signal in self.signals(s.test)]
        return Flow(NONE, NONE, first.can | second.can, first.can_codes | second.can_codes)

    def begin_suspend(self, s: Statement, i: int, once: bool, sure: bool) -> Flow:
        return self.begin(s.parts[0], i, once, sure)

    def begin_seq(self, s: Statement, i: int, once: bool, sure: bool) -> Flow:
        return self.then(self.begin(s.parts[0], i, once, sure), s.parts[1], i, once, sure)

    def then(self, first: Flow, second: Statement, i: int, once: bool, sure: bool) -> Flow:
        """The first, and then the second where the first can end."""
        if 0 not in first.can_codes:
            return first
        then = self.begin(second, i, once, sure and 0 in first.must_codes)
        codes = first.can_codes - {0} | then.can_codes
        must = then.must_codes if 0 in first.must_codes else first.must_codes
        rests = then.rests if 0 in first.must_codes else first.rests
        return Flow(first.must | then.must, must, first.can | then.can, codes, rests)

    def begin_par(self, s: Statement, i: int, once: bool, sure: bool) -> Flow:
        return self.both(*(self.begin(part, i, once, sure) for part in s.parts))

    def both(self, one: Flow, other: Flow) -> Flow:
        """Two sides."""
        must, can = (
            frozenset(max(first, second) for first in firsts for second in seconds)
            for firsts, seconds in (
                (one.must_codes, other.must_codes),
                (one.can_codes, other.can_codes),
            )
        )
        rests = one.rests | other.rests if must == {1} else NONE
        return Flow(one.must | other.must, must, one.can | other.can, can, rests)

    def begin_trap(self, s: Statement, i: int, once: bool, sure: bool) -> Flow:
        return self.caught(self.begin(s.parts[0], i, once, sure))

    def caught(self, flow: Flow) -> Flow:
        """What leaves a trap."""
        must, can = (
            frozenset(0 if code in (0, 2) else code - (code > 2) for code in codes)
            for codes in (flow.must_codes, flow.can_codes)
        )
        return Flow(flow.must, must, flow.can, can, flow.rests if must == {1} else NONE)

    def begin_loop(self, s: Statement, i: int, once: bool, sure: bool) -> Flow:
        return self.begin(s.parts[0], i if once else i + 1, once, sure)

    def begin_signal(self, s: Statement, i: int, once: bool, sure: bool) -> Flow:
        return self.local(s, i, sure, lambda: self.begin(s.parts[0], i, once, sure))

    def local(self, s: Statement, i: int, sure: bool, walk) -> Flow:
        """A body with a signal of its own: by the status that it must have."""
        assert s.signal
        before = self.seen
        status: Status = None
        self.declared[s.signal] = (s.number, i)
        while True:
            self.statuses[s.signal], self.seen = status, Walked()
            flow: Flow = walk()
            found = self.decided(flow, s.signal, sure) if status is None else status
            if found is status:
                break
            status = found
        before.add(self.seen)
        self.seen = before
        self.seen.locals[s.number, i] = status
        for ties in (self.seen.waits, self.seen.may_emit):
            ties[:] = [(at, self.told(signal, s)) for at, signal in ties]
        return dataclasses.replace(
            flow, must=flow.must - {s.signal}, can=flow.can - {s.signal}
        )

    def told(self, signal, s: Statement):
        """A signal as ties name it: that of the statement by where it is declared."""
        return self.declared[signal] if signal == s.signal else signal

    def decided(self, flow: Flow, signal: Signal, sure: bool) -> Status:
        """What is decided of a signal that was unknown."""
        if sure and signal in flow.must:
            return True
        return None if signal in flow.can else False

    # A statement in which control rests.

    def resume(self, s: Statement, sure: bool) -> Flow:
        flow: Flow = getattr(self, "resume_" + s.kind)(s, sure)
        if not sure:
            return flow.doubted()
        if flow.must_codes:
            self.seen.went.add((s.number, 0))
        return flow

    def resume_pause(self, *_: object) -> Flow:
        return ended(0)

    def resume_present(self, s: Statement, sure: bool) -> Flow:
        return self.resume(next(part for part in s.parts if self.lives(part)), sure)

    def resume_suspend(self, s: Statement, sure: bool) -> Flow:
        status = self.test(s.test)
        if status:
            return ended(1, (), [one for one in self.live if one in pauses_of(s)])
        if status is False:
            return self.resume(s.parts[0], sure)
        flow = self.resume(s.parts[0], False)
        self.seen.waits += [((s.number, 0), signal) for signal in self.signals(s.test)]
        return Flow(NONE, NONE, flow.can, flow.can_codes | {1})

    def resume_seq(self, s: Statement, sure: bool) -> Flow:
        if not self.lives(s.parts[0]):
            return self.resume(s.parts[1], sure)
        return self.then(self.resume(s.parts[0], sure), s.parts[1], 0, True, sure)

    def resume_par(self, s: Statement, sure: bool) -> Flow:
        sides = [self.resume(part, sure) for part in s.parts if self.lives(part)]
        return self.both(*sides) if len(sides) == 2 else sides[0]

    def resume_trap(self, s: Statement, sure: bool) -> Flow:
        return self.caught(self.resume(s.parts[0], sure))

    def resume_loop(self, s: Statement, sure: bool) -> Flow:
        first = self.resume(s.parts[0], sure)
        return self.then(first, s.parts[0], 1, False, sure)

    def resume_signal(self, s: Statement, sure: bool) -> Flow:
        return self.local(s, 0, sure, lambda: self.resume(s.parts[0], sure))


def pauses_of(s: Statement) -> Set[int]:
    """The pauses in a statement."""
    found = {s.pause} if s.kind == "pause" else set()
    return found.union(*map(pauses_of, s.parts))


def deepen(s: Statement, traps: Tuple[object, ...] = ()) -> None:
    """Notes of each exit how many traps it leaves besides its own."""
    if s.kind == "exit":
        s.depth = next(  # type: ignore[attr-defined]
            at for at, trap in enumerate(traps) if trap is s.trap
        )
    inner = (s.trap, *traps) if s.kind == "trap" else traps
    for part in s.parts:
        deepen(part, inner)


@dataclasses.dataclass
class Reaction:
    """What an instant comes to: what was walked, the outputs or what stays undecided, and the state
    after it.
    """

    seen: Walked
    outputs: FrozenSet[str]
    undecided: FrozenSet[str]
    next: object  # "end", or the pauses
    is_stuck: bool


class Program:
    """A kernel, and where it stands: "start", "end" or the pauses that control rests in."""

    def __init__(self, statements: List[Statement], outputs: Iterable[str]) -> None:
        self.root, self.outputs = statements[0], list(outputs)
        self.statements = statements
        self.state: object = "start"
        deepen(self.root)

    def react(self, inputs: Iterable[str], state: object = None) -> Reaction:
        """The instant with these inputs, in the state where the program stands, or in this one."""
        state = self.state if state is None else state
        names = set(inputs)
        statuses: Dict[Signal, Status] = {Signal(TICK): True}
        interface = {s.signal for s in self.statements if s.signal and not s.signal.is_local}
        asked = {one for s in self.statements for one in signals_in(s.test)}
        for signal in {*interface, *asked, *map(Signal, self.outputs)} - {Signal(TICK)}:
            statuses[signal] = True if signal.name in names else False
            if signal.name in self.outputs and signal.name not in names:
                statuses[signal] = None
        while True:
            walk, flow = self.walked(statuses, state)
            found = {
                name: walk.decided(flow, Signal(name), True)
                for name in self.outputs
                if statuses[Signal(name)] is None
            }
            if all(status is None for status in found.values()):
                break
            statuses.update({Signal(name): status for name, status in found.items()})
        return self.reaction(walk, flow, names, state)

    def walked(self, statuses: Dict[Signal, Status], state: object) -> Tuple[Walk, Flow]:
        """One walk by these statuses."""
        live = state if isinstance(state, frozenset) else NONE
        walk = Walk(live, dict(statuses))
        if state == "start":
            return walk, walk.begin(self.root, 0, True, True)
        if state == "end":
            return walk, ended(0)
        return walk, walk.resume(self.root, True)

    def reaction(self, walk: Walk, flow: Flow, names: Set[str], state: object) -> Reaction:
        """What the last walk comes to."""
        undecided = frozenset(
            name for name in self.outputs if walk.statuses[Signal(name)] is None
        )
        outputs = frozenset(signal.name for signal in flow.must if not signal.is_local)
        after: object = flow.rests if flow.must_codes == {1} else "end"
        is_stuck = not flow.must_codes or bool(undecided) or None in walk.seen.locals.values()
        return Reaction(walk.seen, outputs, undecided, after, is_stuck)


def signals_in(asked: Optional[Asked]) -> Set[Signal]:
    """The signals of the interface in a test."""
    if asked is None:
        return set()
    if asked.signal:
        return set() if asked.signal.is_local else {asked.signal}
    return set().union(*map(signals_in, asked.parts))
