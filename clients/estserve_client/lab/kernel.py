"""The kernel that a module stands for, by the client's own reading: its statements as the program
numbers them, each with its place in the text, and its signals by their modules.

What the program tells of its kernel is compared with this before anything is drawn by it.
"""
from __future__ import annotations

import dataclasses
from typing import Any, Callable, Dict, Iterator, List, Optional, Tuple

from ..scopes import names_of_runs
from ..syntax_tree import ModuleTree, Node, Test, Token, by_name, parse
from ..texts import Failed
from .asking import Lab, Subject

PARSED = "the client's grammar can't read the text"
DEEP = "the text is nested too deep for the client"
TICK = "tick"  # is present in each instant
DIFFERS = "the client reads another kernel than the program: statement {} is {} and not {}"


@dataclasses.dataclass(frozen=True)
class Signal:
    """A signal: its name, where it is declared, and for a local one the runs around it.

    Two of one declaration in two runs of its module are two: a run is called by its module, with a
    number where that is run several times there.
    """

    name: str
    at: Optional[Token] = None
    path: Tuple[str, ...] = ()

    @property
    def is_local(self) -> bool:
        """Whether it is none of the interface."""
        return self.at is not None

    def called(self) -> str:
        """Its name with those of the modules around it."""
        return ".".join([*self.path, self.name])


@dataclasses.dataclass(frozen=True)
class Asked:
    """A test over signals: `signal`, or `not`, `and`, `or` over others."""

    kind: str
    signal: Optional[Signal] = None
    parts: Tuple["Asked", ...] = ()


@dataclasses.dataclass
class Trap:
    """A trap, which an `exit` leaves."""


@dataclasses.dataclass
class Statement:
    """A statement of the kernel, which comes from this statement of the text in these runs: what they
    are called, and the statements `run`.
    """

    kind: str
    node: Node
    path: Tuple[str, ...]
    around: Tuple[Node, ...]
    parts: List["Statement"]
    signal: Optional[Signal] = None
    test: Optional[Asked] = None
    trap: Optional[Trap] = None
    number: int = -1
    pause: int = -1

    def told(self) -> Dict[str, Any]:
        """The statement as the program tells it."""
        found: Dict[str, Any] = {"kind": self.kind}
        if self.parts:
            found["parts"] = [part.number for part in self.parts]
        if self.kind == "pause":
            found["pause"] = self.pause
        if self.kind == "emit" and self.signal and not self.signal.is_local:
            found["signal"] = self.signal.name
        return found


@dataclasses.dataclass(frozen=True)
class Scope:
    """What names mean where a statement stands: signals, traps, the runs around it by what they are
    called and as statements, and what those of its module are called, by the identity of their nodes.
    """

    signals: Dict[str, Signal]
    traps: Dict[str, Trap]
    path: Tuple[str, ...]
    around: Tuple[Node, ...]
    runs: Dict[int, str]

    def with_signal(self, name: str, signal: Signal) -> Scope:
        """This scope, and a local signal in it."""
        return dataclasses.replace(self, signals={**self.signals, name: signal})

    def with_trap(self, name: str, trap: Trap) -> Scope:
        """This scope, and a trap in it."""
        return dataclasses.replace(self, traps={**self.traps, name: trap})

    def test(self, test: Test) -> Asked:
        """A test of the text."""
        if test.kind == "name":
            return Asked("signal", self.signals[test.at.text])
        return Asked(test.kind, None, tuple(map(self.test, test.parts)))


class Expansion:
    """Expands statements of the text of which a source statement is made: one for each."""

    def __init__(self, known: Dict[str, ModuleTree], node: Node, scope: Scope) -> None:
        self.known, self.node, self.scope = known, node, scope

    def make(self, kind: str, *parts: Statement, **more: Any) -> Statement:
        """A statement of the kernel in the place of this one."""
        scope = self.scope
        return Statement(kind, self.node, scope.path, scope.around, list(parts), **more)

    def inside(self, node: Optional[Node], scope: Optional[Scope] = None) -> Statement:
        """The kernel of a statement in this one; of one that is left out, `nothing`."""
        if node is None:
            return self.make("nothing")
        return expand(self.known, node, scope or self.scope)

    def body(self, at: int = 0) -> Statement:
        """The kernel of the part at this place."""
        return self.inside(self.node.parts[at])

    def asked(self) -> Asked:
        """The statement's test."""
        assert self.node.test
        return self.scope.test(self.node.test)

    def seq(self, *parts: Statement) -> Statement:
        """Parts one after another."""
        return self.nested("seq", parts)

    def nested(self, kind: str, parts: Any) -> Statement:
        """Parts with `;` or `||` between them, nested to the right."""
        found: Statement = parts[-1]
        for part in reversed(parts[:-1]):
            found = self.make(kind, part, found)
        return found

    def exit(self, trap: Trap) -> Statement:
        """An exit of a trap."""
        return self.make("exit", trap=trap)

    def present(self, test: Asked, then: Statement, otherwise: Statement) -> Statement:
        """A `present`."""
        return self.make("present", then, otherwise, test=test)

    def waiting(self, trap: Trap, immediate: bool) -> Statement:
        """A loop that leaves a trap at the test, from the next instant on or at once."""
        leaves = self.present(self.asked(), self.exit(trap), self.make("nothing"))
        parts = (leaves, self.make("pause")) if immediate else (self.make("pause"), leaves)
        return self.make("loop", self.seq(*parts))

    def halt(self) -> Statement:
        """`halt`."""
        return self.make("loop", self.make("pause"))

    def awaiting(self, immediate: bool) -> Statement:
        """`await` the test."""
        trap = Trap()
        return self.make("trap", self.waiting(trap, immediate), trap=trap)

    def aborting(self, body: Statement) -> Statement:
        """`abort` a body when the test holds."""
        trap = Trap()
        held = self.make("suspend", body, test=self.asked())
        sides = self.make("par", self.seq(held, self.exit(trap)), self.waiting(trap, False))
        return self.make("trap", sides, trap=trap)

    def again(self) -> Statement:
        """`loop` the body `each` test."""
        return self.make("loop", self.aborting(self.seq(self.body(), self.halt())))


def plain(at: Expansion) -> Statement:
    """A statement that is one of the kernel as it stands."""
    return at.make(at.node.kind)


def emit(at: Expansion) -> Statement:
    """`emit`"""
    return at.make("emit", signal=at.scope.signals[at.node.names[0].text])


def sustain(at: Expansion) -> Statement:
    """`sustain`"""
    emission = at.make("emit", signal=at.scope.signals[at.node.names[0].text])
    return at.make("loop", at.seq(emission, at.make("pause")))


def exits(at: Expansion) -> Statement:
    """`exit`"""
    return at.exit(at.scope.traps[at.node.names[0].text])


def listed(at: Expansion) -> Statement:
    """Statements with `;` or `||` between them."""
    return at.nested(at.node.kind, [at.inside(part) for part in at.node.parts])


def present(at: Expansion) -> Statement:
    """`present`"""
    return at.present(at.asked(), at.body(0), at.body(1))


def suspend(at: Expansion) -> Statement:
    """`suspend`"""
    body = at.body()
    if at.node.immediate:
        body = at.seq(at.present(at.asked(), at.make("pause"), at.make("nothing")), body)
    return at.make("suspend", body, test=at.asked())


def abort(at: Expansion) -> Statement:
    """`abort`"""
    found = at.aborting(at.body())
    if at.node.immediate:
        found = at.present(at.asked(), at.make("nothing"), found)
    return found


def weak(at: Expansion) -> Statement:
    """`weak abort`"""
    trap = Trap()
    left = at.seq(at.body(), at.exit(trap))
    sides = at.make("par", left, at.waiting(trap, at.node.immediate))
    return at.make("trap", sides, trap=trap)


def every(at: Expansion) -> Statement:
    """`every`"""
    return at.seq(at.awaiting(at.node.immediate), at.again())


def trap(at: Expansion) -> Statement:
    """`trap`"""
    made = Trap()
    scope = at.scope.with_trap(at.node.names[0].text, made)
    return at.make("trap", at.inside(at.node.parts[0], scope), trap=made)


def local(at: Expansion) -> Statement:
    """`signal`, of one name after another."""
    scope, made = at.scope, []
    for name in at.node.names:
        made.append(Signal(name.text, name, scope.path))
        scope = scope.with_signal(name.text, made[-1])
    found = at.inside(at.node.parts[0], scope)
    for signal in reversed(made):
        found = at.make("signal", found, signal=signal)
    return found


def run(at: Expansion) -> Statement:
    """`run`: the module's body, its names those of the caller."""
    module = at.known[at.node.names[0].text]
    left = {renaming.right.text: renaming.left.text for renaming in at.node.renamings}
    signals = {name: at.scope.signals[left.get(name, name)] for name in module.names()}
    path = (*at.scope.path, at.scope.runs[id(at.node)])
    around = (*at.scope.around, at.node)
    return at.inside(module.body, Scope(signals, {}, path, around, names_of_runs(module)))


RULES: Dict[str, Callable[[Expansion], Statement]] = {
    "nothing": plain,
    "pause": plain,
    "halt": Expansion.halt,
    "emit": emit,
    "sustain": sustain,
    "exit": exits,
    "await": lambda at: at.awaiting(at.node.immediate),
    "seq": listed,
    "par": listed,
    "present": present,
    "suspend": suspend,
    "abort": abort,
    "weak": weak,
    "loop": lambda at: at.make("loop", at.body()),
    "each": Expansion.again,
    "every": every,
    "trap": trap,
    "signal": local,
    "run": run,
}


def expand(known: Dict[str, ModuleTree], node: Node, scope: Scope) -> Statement:
    """The kernel of a statement."""
    return RULES[node.kind](Expansion(known, node, scope))


def in_order(root: Statement) -> Iterator[Statement]:
    """A statement and those in it, in the order of the text."""
    line = [root]
    while line:
        statement = line.pop()
        yield statement
        line += reversed(statement.parts)


def kernel_of(subject: Subject) -> List[Statement]:
    """The kernel of a module, its statements by their numbers. Raises Failed."""
    modules = parse(subject.library.text)
    if modules is None:
        raise Failed(f"{subject.library.paths[0]}: {PARSED}")
    known = by_name(modules)
    module = known[subject.module.name]
    signals = {name: Signal(name) for name in (TICK, *module.names())}
    try:
        scope = Scope(signals, {}, (), (), names_of_runs(module))
        found = list(in_order(expand(known, module.body, scope)))
    except RecursionError as fault:
        raise Failed(f"{subject.library.paths[0]}: {DEEP}") from fault
    pauses = 0
    for number, statement in enumerate(found):
        statement.number = number
        if statement.kind == "pause":
            statement.pause = pauses
            pauses += 1
    return found


def checked_kernel(lab: Lab, subject: Subject) -> List[Statement]:
    """The kernel of the module that is loaded. Raises Failed where the client reads another one."""
    found = kernel_of(subject)
    told = lab.client.ask("kernel")["statements"]
    own = [statement.told() for statement in found]
    for number in range(max(len(own), len(told))):
        mine, theirs = own[number : number + 1], told[number : number + 1]
        if mine != theirs:
            raise Failed(DIFFERS.format(number, mine or "none", theirs or "none"))
    return found
