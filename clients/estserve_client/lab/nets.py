"""The cells of a kernel as nets: gates with `and` and `or` over others, which an instant decides one
after another. A module that can't be constructive with its inputs leaves some open.

A statement has a cell that says whether it is begun, and one for each completion code; a signal has
its status. What begins a `loop` anew in an instant has cells of its own. Gates over what is constant
are left out.
"""
from __future__ import annotations

import dataclasses
from typing import Callable, Dict, Iterable, List, Optional, Tuple, Union

from .completion import Completion, code_of_exit
from .kernel import TICK, Asked, Signal, Statement, Trap

Literal = Union[bool, Tuple[int, bool]]  # a constant, or a net and whether it is negated
Codes = Dict[int, Literal]  # of a statement: whether it gives each completion code that it can give


def negated(literal: Literal) -> Literal:
    """The opposite."""
    return not literal if isinstance(literal, bool) else (literal[0], not literal[1])


@dataclasses.dataclass
class Gate:
    """A net: `and` or `or` over others, or one that is set at the start of an instant."""

    is_and: bool
    operands: List[Tuple[int, bool]]
    is_set: bool = False


@dataclasses.dataclass
class Node:
    """Where a statement keeps pauses: the number of its own, whether it pauses, whether it keeps
    those inside it as they were, which these are, and the node after those inside it.
    """

    pause: int
    pauses: Literal
    keeps: Literal
    first: int
    end: int
    past: int


@dataclasses.dataclass(frozen=True)
class Place:
    """Where a statement stands: whether it is begun, whether what lives in it goes on, the traps
    around it, the signals, and whether it is a second one in the instant.
    """

    go: Literal
    runs: Literal
    traps: Tuple[Trap, ...]
    signals: Dict[Signal, Literal]
    again: bool


class Nets:
    """The nets of a kernel, its root first, with these inputs and outputs."""

    def __init__(self, root: Statement, inputs: Iterable[str], outputs: Iterable[str]) -> None:
        self.completion: Completion[Literal] = Completion(self.all, self.any, False)
        self.gates: List[Gate] = []
        self.nodes: List[Node] = []
        self.emitters: Dict[int, List[Literal]] = {}  # of an open list of emissions, by its net
        self.lives: List[Tuple[int, int, int]] = []  # a net, and the pauses one of which it has
        self.live_nets: Dict[int, Literal] = {}
        self.ranges: Dict[int, Tuple[int, int]] = {}  # the pauses in each statement
        self.pause_count = self.number_pauses(root, 0)
        self.begun = self.set_net()
        self.inputs = {name: self.set_net() for name in inputs}
        self.emitted = {name: self.open_any() for name in outputs}
        self.status: Dict[Signal, Literal] = {Signal(TICK): True}
        for name in dict.fromkeys([*self.inputs, *self.emitted]):
            known = [(nets[name], False) for nets in (self.inputs, self.emitted) if name in nets]
            self.status[Signal(name)] = self.gate(False, known)
        self.lay(root, Place((self.begun, False), True, (), self.status, False))
        for net, operands in self.emitters.items():
            self.gates[net].operands = [one for one in operands if not isinstance(one, bool)]
            if any(one is True for one in operands):
                self.gates[net] = Gate(True, [])

    def number_pauses(self, statement: Statement, before: int) -> int:
        """Notes which pauses lie in each statement. Answers how many there are then."""
        after = before + (statement.kind == "pause")
        for part in statement.parts:
            after = self.number_pauses(part, after)
        self.ranges[id(statement)] = before, after
        return after

    def add(self, gate: Gate) -> int:
        """Adds a net."""
        self.gates.append(gate)
        return len(self.gates) - 1

    def set_net(self) -> int:
        """A net that is set at the start of an instant."""
        return self.add(Gate(False, [], True))

    def open_any(self) -> int:
        """A net that is true where one of its emissions is, which come later."""
        net = self.add(Gate(False, []))
        self.emitters[net] = []
        return net

    def gate(self, is_and: bool, literals: Iterable[Literal]) -> Literal:
        """All of these, or one of them."""
        operands = [one for one in literals if one is not is_and]
        if any(isinstance(one, bool) for one in operands):
            return not is_and
        if not operands:
            return is_and
        nets = [one for one in operands if not isinstance(one, bool)]
        return nets[0] if len(nets) == 1 else (self.add(Gate(is_and, nets)), False)

    def all(self, *literals: Literal) -> Literal:
        """All of these."""
        return self.gate(True, literals)

    def any(self, *literals: Literal) -> Literal:
        """One of these."""
        return self.gate(False, literals)

    def live(self, statement: Statement, place: Place) -> Literal:
        """Whether the instant began with a pause in this statement."""
        first, end = self.ranges[id(statement)]
        if place.again or first == end:
            return False
        if id(statement) not in self.live_nets:
            net = self.set_net()
            self.live_nets[id(statement)] = (net, False)
            self.lives.append((net, first, end))
        return self.live_nets[id(statement)]

    def test(self, asked: Optional[Asked], place: Place) -> Literal:
        """Whether a test holds."""
        assert asked
        if asked.signal:
            return place.signals[asked.signal]
        parts = [self.test(part, place) for part in asked.parts]
        return negated(parts[0]) if asked.kind == "not" else self.gate(asked.kind == "and", parts)

    def lay(self, statement: Statement, place: Place) -> Codes:
        """Lays out a statement. Answers its codes."""
        at = len(self.nodes)
        first, end = self.ranges[id(statement)]
        node = Node(statement.pause, False, False, first, end, 0)
        self.nodes.append(node)
        codes = LAYS[statement.kind](self, statement, place, node)
        node.pauses, node.past = codes.get(1, False), len(self.nodes)
        if node.pauses is False:
            del self.nodes[at:]
        return codes

    def lay_nothing(self, statement: Statement, place: Place, node: Node) -> Codes:
        return {0: place.go}

    def lay_emit(self, statement: Statement, place: Place, node: Node) -> Codes:
        assert statement.signal
        name, is_local = statement.signal.name, statement.signal.is_local
        net = place.signals[statement.signal] if is_local else (self.emitted[name], False)
        assert not isinstance(net, bool)
        self.emitters[net[0]].append(place.go)
        return {0: place.go}

    def lay_exit(self, statement: Statement, place: Place, node: Node) -> Codes:
        return {code_of_exit(statement.trap, place.traps): place.go}

    def lay_pause(self, statement: Statement, place: Place, node: Node) -> Codes:
        return {0: self.all(self.live(statement, place), place.runs), 1: place.go}

    def lay_present(self, statement: Statement, place: Place, node: Node) -> Codes:
        test = self.test(statement.test, place)
        goes = (self.all(place.go, test), self.all(place.go, negated(test)))
        parts = zip(statement.parts, goes)
        return self.completion.merged(
            *[self.lay(part, dataclasses.replace(place, go=go)) for part, go in parts]
        )

    def lay_suspend(self, statement: Statement, place: Place, node: Node) -> Codes:
        live = self.live(statement, place)
        test = self.test(statement.test, place) if live is not False else False
        runs = self.all(place.runs, negated(test))
        codes = dict(self.lay(statement.parts[0], dataclasses.replace(place, runs=runs)))
        node.keeps = self.all(live, place.runs, test)
        codes[1] = self.any(codes.get(1, False), node.keeps)
        return codes

    def lay_seq(self, statement: Statement, place: Place, node: Node) -> Codes:
        first = dict(self.lay(statement.parts[0], place))
        go = first.pop(0, False)
        second = self.lay(statement.parts[1], dataclasses.replace(place, go=go))
        return self.completion.merged(first, second)

    def lay_loop(self, statement: Statement, place: Place, node: Node) -> Codes:
        body = dict(self.lay(statement.parts[0], place))
        live = self.live(statement, place)
        if live is False:
            return body
        go = self.all(live, body.pop(0, False))
        anew = self.lay(statement.parts[0], dataclasses.replace(place, go=go, again=True))
        return self.completion.merged(body, anew)

    def lay_par(self, statement: Statement, place: Place, node: Node) -> Codes:
        live, sides = self.live(statement, place), []
        for part in statement.parts:
            codes = dict(self.lay(part, place))
            ended = self.all(live, negated(self.live(part, place)))
            codes[0] = self.any(codes.get(0, False), self.all(ended, place.runs))
            sides.append(codes)
        return self.completion.greatest(*sides)

    def lay_trap(self, statement: Statement, place: Place, node: Node) -> Codes:
        assert statement.trap
        traps = (statement.trap, *place.traps)
        codes = self.lay(statement.parts[0], dataclasses.replace(place, traps=traps))
        return self.completion.trapped(codes)

    def lay_signal(self, statement: Statement, place: Place, node: Node) -> Codes:
        assert statement.signal
        status: Literal = (self.open_any(), False)
        signals = {**place.signals, statement.signal: status}
        return self.lay(statement.parts[0], dataclasses.replace(place, signals=signals))


LAYS: Dict[str, Callable[[Nets, Statement, Place, Node], Codes]] = {
    kind: getattr(Nets, f"lay_{kind}")
    for kind in (
        "nothing", "emit", "exit", "pause", "present", "suspend", "seq", "loop", "par", "trap",
        "signal",
    )
}  # fmt: skip
