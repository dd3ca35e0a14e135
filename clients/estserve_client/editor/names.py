"""What each name of a library means: where it is declared, and where it is used."""
from __future__ import annotations

import dataclasses
from typing import Dict, Iterator, List, Optional

from ..fault_places import EMITS, emitted_names
from ..syntax_tree import ModuleTree, Node, Token, by_name
from .documents import is_in


@dataclasses.dataclass(frozen=True)
class Declared:
    """What a name means: `module`, `input`, `output`, `inputoutput`, `signal`, `trap` or `tick`, its
    name, where it is declared, and the module in which that is.
    """

    kind: str
    name: str
    at: Token
    module: str


@dataclasses.dataclass(frozen=True)
class Use:
    """A place where a name stands: its token, what is done with it there, what it means, and the
    module in which that is.
    """

    at: Token
    how: str
    declared: Declared
    module: str


@dataclasses.dataclass(frozen=True)
class Bound:
    """A run that binds a signal by its name alone: the run, the name, the module that is run, what the
    name means where the run stands, and the module in which that is.
    """

    run: Node
    name: str
    target: str
    declared: Declared
    module: str


NOWHERE = Token("tick", 0, 0)
TICK = Declared("tick", "tick", NOWHERE, "")
Scope = Dict[str, Declared]


class Names:
    """The uses of all names of a library."""

    def __init__(self, modules: List[ModuleTree]) -> None:
        self.known = by_name(modules)
        self.modules = modules
        self.emitted = emitted_names(modules)
        self.uses: List[Use] = []
        self.bound: List[Bound] = []
        self.interfaces = {module.name.text: interface_of(module) for module in modules}
        for module in modules:
            self.read(module)

    def add(self, at: Token, how: str, declared: Optional[Declared], module: str) -> None:
        if declared:
            self.uses.append(Use(at, how, declared, module))

    def read(self, module: ModuleTree) -> None:
        """Gathers the uses in a module."""
        inside, scope = module.name.text, self.interfaces[module.name.text]
        self.add(module.name, "declared", Declared("module", inside, module.name, inside), inside)
        for token in module.interface:
            declared = scope.get(token.text)
            self.add(
                token, "declared", declared if declared and declared.at == token else None, inside
            )
        for relation in module.relations:
            for token in relation:
                self.add(token, "related", scope.get(token.text), inside)
        self.walk(module.body, {"tick": TICK, **scope}, {}, inside)

    def walk(self, node: Node, signals: Scope, traps: Scope, inside: str) -> None:
        """Gathers the uses in a statement, which sees these signals and traps."""
        if node.kind in ("signal", "trap"):
            inner = {name.text: Declared(node.kind, name.text, name, inside) for name in node.names}
            for declared in inner.values():
                self.add(declared.at, "declared", declared, inside)
            signals = {**signals, **inner} if node.kind == "signal" else signals
            traps = {**traps, **inner} if node.kind == "trap" else traps
        elif node.kind == "run":
            self.run(node, signals, inside)
        elif node.kind == "exit":
            self.add(node.names[0], "left", traps.get(node.names[0].text), inside)
        else:
            how = "emitted" if node.kind in EMITS else "tested"
            for name in node.names:
                self.add(name, how, signals.get(name.text), inside)
        for part in filter(None, node.parts):
            self.walk(part, signals, traps, inside)

    def run(self, node: Node, signals: Scope, inside: str) -> None:
        """Gathers the uses in a run."""
        target = self.known.get(node.names[0].text)
        if target is None:
            return
        name = target.name.text
        interface, emits = self.interfaces[name], self.emitted[name]
        self.add(node.names[0], "run", Declared("module", name, target.name, name), inside)
        for renaming in node.renamings:
            how = "emitted" if renaming.right.text in emits else "bound"
            self.add(renaming.left, how, signals.get(renaming.left.text), inside)
            self.add(renaming.right, "bound", interface.get(renaming.right.text), inside)
        renamed = {renaming.right.text for renaming in node.renamings}
        for own in interface:
            if own not in renamed and own in signals:
                self.bound.append(Bound(node, own, name, signals[own], inside))

    def at(self, line: int, column: int) -> Optional[Use]:
        """The use at a place."""
        return next((use for use in self.uses if is_in(use.at, line, column)), None)

    def uses_of(self, declared: Declared) -> Iterator[Use]:
        """Where a name with this meaning stands, in the order of the text."""
        found = [use for use in self.uses if use.declared == declared]
        yield from sorted(found, key=lambda use: (use.at.line, use.at.column))


def interface_of(module: ModuleTree) -> Scope:
    """The interface signals of a module, by their names."""
    kinds = [
        ("input", module.inputs),
        ("output", module.outputs),
        ("inputoutput", module.inputoutputs),
    ]
    found: Scope = {}
    for kind, tokens in kinds:
        for token in tokens:
            found.setdefault(token.text, Declared(kind, token.text, token, module.name.text))
    return found
