"""Where the faults of a load lie that name no place: the client's own reading of the text.

estserve answers such a fault by a name, or by the number of a relation, and keeps to the first
place of the text. Here each place that the name can mean is found by the same rules, in the order
of the text.
"""
from __future__ import annotations

import dataclasses
from typing import Callable, Dict, Iterator, List, Optional, Set, Tuple

from .circles import shortest_circle
from .close_words import meant
from .syntax_tree import ModuleTree, Node, Token, by_name, parse

TESTS = ("await", "present", "suspend", "abort", "weak", "each", "every")
EMITS = ("emit", "sustain")


@dataclasses.dataclass(frozen=True)
class Place:
    """A place that a fault can mean: its token, the module that it stands in, what is so there, and
    what could be written in its place, where that is known.
    """

    at: Token
    module: str
    told: str
    remedy: str = ""


@dataclasses.dataclass
class Scope:
    """The names that a statement sees: local signals and traps, the innermost last."""

    signals: Tuple[str, ...] = ()
    traps: Tuple[str, ...] = ()

    def inside(self, node: Node) -> "Scope":
        """The scope in a statement."""
        names = tuple(token.text for token in node.names)
        if node.kind == "signal":
            return Scope(self.signals + names, self.traps)
        if node.kind == "trap":
            return Scope(self.signals, self.traps + names)
        return self


def scoped(module: ModuleTree) -> Iterator[Tuple[Node, Scope]]:
    """Each statement of a module with the names that it sees besides the interface, in the order of
    the text.
    """
    line: List[Tuple[Node, Scope]] = [(module.body, Scope())]
    while line:
        node, scope = line.pop()
        yield node, scope
        inner = scope.inside(node)
        line += [(part, inner) for part in reversed(node.parts) if part]


def statements(modules: List[ModuleTree]) -> Iterator[Tuple[ModuleTree, Node, Scope]]:
    """Each statement of the modules, with its module and the names that it sees."""
    for module in modules:
        yield from ((module, node, scope) for node, scope in scoped(module))


def in_order(places: List[Place]) -> List[Place]:
    """The places in the order of the text, each once."""
    return sorted(dict.fromkeys(places), key=lambda place: (place.at.line, place.at.column))


def repeated(tokens: List[Token]) -> List[Token]:
    """The tokens whose text stands before in the list, and each `tick`."""
    seen: Set[str] = {"tick"}
    found = []
    for token in tokens:
        if token.text in seen:
            found.append(token)
        seen.add(token.text)
    return found


def duplicates(modules: List[ModuleTree], name: str, _: str) -> List[Place]:
    """Where the name is declared a second time, or `tick` is declared."""
    names: List[Token] = []
    found = []
    for module in modules:
        names.append(module.name)
        if module.name in [token for token in repeated(names) if token.text != "tick"]:
            found.append(
                Place(module.name, module.name.text, "a module of this name stands before")
            )
        lists = [node.names for node in module.body.walk() if node.kind == "signal"]
        tokens = [token for list_ in [module.interface, *lists] for token in repeated(list_)]
        found += [Place(token, module.name.text, declared_again(token)) for token in tokens]
    return in_order([place for place in found if place.at.text == name])


def declared_again(token: Token) -> str:
    return "tick is declared" if token.text == "tick" else f"{token.text} is declared again"


def unknown_modules(modules: List[ModuleTree], name: str, _: str) -> List[Place]:
    """Where a module of this name is run, which isn't there."""
    remedy = meant(name, [module.name.text for module in modules])
    return in_order(
        [
            Place(node.names[0], module.name.text, f"{name} is run", remedy)
            for module in modules
            for node in module.body.walk()
            if node.kind == "run" and node.names[0].text == name
        ]
    )


def runs_of(module: ModuleTree) -> List[Node]:
    return [node for node in module.body.walk() if node.kind == "run"]


def recursive_runs(modules: List[ModuleTree], name: str, _: str) -> List[Place]:
    """A shortest chain of runs that leads from a module back to it, a place a link."""
    known = by_name(modules)

    def links_from(module: str) -> List[Tuple[Place, str]]:
        runs = [node.names[0] for node in runs_of(known[module])] if module in known else []
        return [(Place(at, module, f"{module} runs {at.text}"), at.text) for at in runs]

    return shortest_circle(name, links_from)


def bad_renamings(modules: List[ModuleTree], name: str, _: str) -> List[Place]:
    """Where the name is the right one of a renaming and no signal of the module that is run, or
    stands there again.
    """
    known, found = by_name(modules), []
    for module, node, _scope in statements(modules):
        target = node.names[0].text if node.kind == "run" else ""
        interface = known[target].names() if target in known else []
        rights = [renaming.right for renaming in node.renamings]
        wrong = [token for token in rights if token.text not in interface]
        again = [
            token
            for at, token in enumerate(rights)
            if token.text in [before.text for before in rights[:at]]
        ]
        inside = module.name.text
        found += [
            Place(at, inside, f"{target} has no signal {at.text}", right_name(at, node, interface))
            for at in wrong
        ]
        found += [Place(at, inside, f"{at.text} is renamed again") for at in again]
    return in_order([place for place in found if place.at.text == name])


def right_name(at: Token, run: Node, interface: List[str]) -> str:
    """What could be written for the right name of a renaming, which is none of the module that is
    run.
    """
    left = next(renaming.left.text for renaming in run.renamings if renaming.right == at)
    if left in interface:
        return f"the name here stands first: write `{at.text}/{left}`"
    return meant(at.text, interface)


def visible(module: ModuleTree, scope: Scope, name: str) -> bool:
    return name in scope.signals or name in module.names() or name == "tick"


def unknown_names(modules: List[ModuleTree], name: str, _: str) -> List[Place]:
    """Where the name is emitted, tested, renamed, left as a trap or needed by a run, and isn't
    visible.
    """
    known = by_name(modules)
    hidden = [
        found
        for module, node, scope in statements(modules)
        for found in unknown_in(module, node, scope, known)
    ]
    return in_order([place for at, place in hidden if at == name])


def unknown_in(
    module: ModuleTree, node: Node, scope: Scope, known: Dict[str, ModuleTree]
) -> List[Tuple[str, Place]]:
    """The names of one statement that aren't visible there, each with its place."""
    inside = module.name.text
    if node.kind == "exit":
        token = node.names[0]
        told = f"no trap {token.text} stands around this exit in {inside}"
        place = Place(token, inside, told, meant(token.text, scope.traps))
        return [] if token.text in scope.traps else [(token.text, place)]
    used = [renaming.left for renaming in node.renamings]
    used += node.names if node.kind in TESTS + EMITS else []
    hidden = [token for token in used if not visible(module, scope, token.text)]
    seen = [*scope.signals, *module.names()]
    found = [
        (
            token.text,
            Place(
                token,
                inside,
                f"{inside} sees no signal {token.text} here",
                meant(token.text, seen),
            ),
        )
        for token in hidden
    ]
    target = known.get(node.names[0].text) if node.kind == "run" else None
    renamed = {renaming.right.text for renaming in node.renamings}
    for needed in target.names() if target else ():
        if needed not in renamed and not visible(module, scope, needed):
            run = node.names[0].text
            told = f"{inside} sees no signal {needed} for that of {run}, and renames none to it"
            found.append((needed, Place(node.names[0], inside, told)))
    return found


def emitted_names(modules: List[ModuleTree]) -> Dict[str, Set[str]]:
    """The interface names that each module emits, by itself or by what it runs."""
    known = by_name(modules)
    emitted: Dict[str, Set[str]] = {name: set() for name in known}
    for _ in modules:  # a chain of runs has no more links
        before, emitted = emitted, {
            name: {token for token, _, _ in emissions(module, known, emitted)}
            for name, module in known.items()
        }
        if before == emitted:
            break
    return emitted


def emissions(
    module: ModuleTree, known: Dict[str, ModuleTree], emitted: Dict[str, Set[str]]
) -> List[Tuple[str, Token, str]]:
    """Each emission of an interface name or of `tick` in a module: the name, its token, and what is
    so there.
    """
    found = []
    for node, scope in scoped(module):
        if node.kind in EMITS:
            found += [
                (node.names[0].text, node.names[0], scope, f"{node.kind} {node.names[0].text}")
            ]
        elif node.kind == "run":
            target = known.get(node.names[0].text)
            left = {renaming.right.text: renaming.left.text for renaming in node.renamings}
            names = (
                [name for name in target.names() if name in emitted[target.name.text]]
                if target
                else []
            )
            found += [
                (
                    left.get(name, name),
                    node.names[0],
                    scope,
                    f"{node.names[0].text} emits its {name}",
                )
                for name in names
            ]
    return [(name, at, told) for name, at, scope, told in found if name not in scope.signals]


def emitted_inputs(modules: List[ModuleTree], name: str, _: str) -> List[Place]:
    """Where the name, which is an input or `tick`, is emitted, by a statement or by what is run."""
    known, emitted, found = by_name(modules), emitted_names(modules), []
    for module in modules:
        inside, inputs = module.name.text, {token.text for token in module.inputs} | {"tick"}
        what = "tick" if name == "tick" else f"the input {name}"
        found += [
            Place(at, inside, f"{told}, which is {what} of {inside}")
            for emitting, at, told in emissions(module, known, emitted)
            if emitting == name and emitting in inputs
        ]
    return in_order(found)


def wrong_members(modules: List[ModuleTree], number: str, main: str) -> List[Place]:
    """The members of the relation of this number that are neither inputs nor inputoutputs of the
    main module.
    """
    module = by_name(modules).get(main)
    if module is None or not 0 < int(number) <= len(module.relations):
        return []
    offered = [token.text for token in module.inputs + module.inputoutputs]
    return [
        Place(
            token,
            main,
            f"{token.text} is neither an input nor an inputoutput of {main}",
            meant(token.text, offered),
        )
        for token in module.relations[int(number) - 1]
        if token.text not in offered
    ]


# Start codes: 0 ends at once, 1 pauses, and k + 2 leaves the trap that lies k traps further out.
Codes = Set[int]
FAR = 1_000  # the code of an exit whose trap lies outside of what is looked at


def joined(first: Codes, second: Codes) -> Codes:
    return {max(one, other) for one in first for other in second}


def shifted(codes: Codes) -> Codes:
    """The codes inside one trap more."""
    return {code + (code >= 2) for code in codes}


def trapped(codes: Codes) -> Codes:
    """The codes of a trap around what has these."""
    return {0 if code == 2 else code - (code > 2) for code in codes}


class StartCodes:
    """The start codes of statements, and the loops whose bodies may end in the instant in which
    they begin.
    """

    def __init__(self, modules: List[ModuleTree]) -> None:
        self.known = by_name(modules)
        self.loops: List[Tuple[Node, str]] = []

    def of(self, node: Optional[Node], traps: Tuple[str, ...], module: str) -> Codes:
        """The codes of a statement inside these traps, the innermost last."""
        if node is None or node.kind in EMITS + ("nothing",):
            return {0} if node is None or node.kind != "sustain" else {1}
        inner = traps + ((node.names[0].text,) if node.kind == "trap" else ())
        parts = [self.of(part, inner, module) for part in node.parts]
        return getattr(self, "of_" + node.kind, self.of_waiting)(node, parts, traps, module)

    def of_waiting(self, node: Node, *_: object) -> Codes:
        return {0, 1} if node.immediate else {1}

    def of_exit(self, node: Node, _: object, traps: Tuple[str, ...], __: str) -> Codes:
        names = list(reversed(traps))
        return {names.index(node.names[0].text) + 2 if node.names[0].text in names else FAR}

    def of_present(self, _: Node, parts: List[Codes], *__: object) -> Codes:
        return parts[0] | parts[1]

    def of_suspend(self, node: Node, parts: List[Codes], *_: object) -> Codes:
        return parts[0] | ({1} if node.immediate else set())

    def of_abort(self, node: Node, parts: List[Codes], *_: object) -> Codes:
        return parts[0] | ({0} if node.immediate else set())

    def of_weak(self, node: Node, parts: List[Codes], *_: object) -> Codes:
        body = {2 if code == 0 else code for code in shifted(parts[0])}
        return trapped(joined(body, {1, 2} if node.immediate else {1}))

    def of_each(self, _: Node, parts: List[Codes], *__: object) -> Codes:
        return {1 if code == 0 else code for code in parts[0]}

    def of_every(self, node: Node, parts: List[Codes], *_: object) -> Codes:
        return {1} | (self.of_each(node, parts) if node.immediate else set())

    def of_loop(self, node: Node, parts: List[Codes], _: object, module: str) -> Codes:
        if 0 in parts[0]:
            self.loops.append((node, module))
        return parts[0] - {0} or {1}

    def of_trap(self, _: Node, parts: List[Codes], *__: object) -> Codes:
        return trapped(parts[0])

    def of_signal(self, _: Node, parts: List[Codes], *__: object) -> Codes:
        return parts[0]

    def of_seq(self, _: Node, parts: List[Codes], *__: object) -> Codes:
        codes: Codes = {0}
        for part in parts:
            codes = codes - {0} | part if 0 in codes else codes
        return codes

    def of_par(self, _: Node, parts: List[Codes], *__: object) -> Codes:
        codes = parts[0]
        for part in parts[1:]:
            codes = joined(codes, part)
        return codes

    def of_run(self, node: Node, *_: object) -> Codes:
        name = node.names[0].text
        return self.of(self.known[name].body, (), name) if name in self.known else {0, 1}


def instant_loops(modules: List[ModuleTree], _: str, main: str) -> List[Place]:
    """The loops of the main module, and of what it runs, whose bodies may end in the instant in
    which they begin.
    """
    codes, module = StartCodes(modules), by_name(modules).get(main)
    if module is not None:
        codes.of(module.body, (), main)
    return in_order(
        [Place(node.at, name, f"the loop stands in {name}") for node, name in codes.loops]
    )


FINDERS: Dict[str, Callable[[List[ModuleTree], str, str], List[Place]]] = {
    "DuplicateName": duplicates,
    "UnknownModule": unknown_modules,
    "RecursiveRun": recursive_runs,
    "BadRename": bad_renamings,
    "UnknownName": unknown_names,
    "EmitInput": emitted_inputs,
    "Semantics": wrong_members,
    "InstantLoop": instant_loops,
}


def places_of(fault: str, name: object, text: str, main: str) -> List[Place]:
    """The places of the text that a fault of a load can mean, the most likely one first. None are
    known of other faults.
    """
    modules = parse(text)
    finder = FINDERS.get(fault)
    return finder(modules, str(name), main) if modules and finder else []
