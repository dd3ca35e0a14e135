"""The modules that a module runs, as scopes of a VCD file: their names for the signals that can be
observed.
"""
from __future__ import annotations

import collections
import dataclasses
from typing import Dict, List, Optional, Set, Tuple

from .syntax_tree import ModuleTree, Node, Token, by_name, parse

# what a local signal is called in a picture, by the runs around it and its declaration
Locals = Dict[Tuple[Tuple[str, ...], Token], str]
MOST = 64  # a library has no more scopes drawn than this


@dataclasses.dataclass
class Scope:
    """One run of a module: a name of its own, pairs of a name of its and the signal of the picture,
    and the runs in it.
    """

    name: str
    signals: List[Tuple[str, str]]
    inner: List["Scope"]


def numbered(names: List[str]) -> List[str]:
    """Names of modules that are run, with a number where one stands several times."""
    counts = collections.Counter(names)
    numbers: Dict[str, int] = collections.Counter()
    found = []
    for name in names:
        numbers[name] += 1
        found.append(f"{name}_{numbers[name]}" if counts[name] > 1 else name)
    return found


def names_of_runs(module: ModuleTree) -> Dict[int, str]:
    """What the runs of a module are called, by the identity of their nodes."""
    runs = [node for node in module.body.walk() if node.kind == "run"]
    return dict(zip(map(id, runs), numbered([node.names[0].text for node in runs])))


def runs_in(module: ModuleTree) -> List[Tuple[str, str, Dict[str, str], Dict[str, Token]]]:
    """The runs of a module: what each is called, the name of what is run, the caller's names by its
    own, and the local signals there, each with its declaration.
    """
    found, called = [], names_of_runs(module)
    line: List[Tuple[Node, Dict[str, Token]]] = [(module.body, {})]
    while line:
        node, hidden = line.pop()
        if node.kind == "run":
            left = {renaming.right.text: renaming.left.text for renaming in node.renamings}
            found.append((called[id(node)], node.names[0].text, left, hidden))
        if node.kind == "signal":
            hidden = {**hidden, **{name.text: name for name in node.names}}
        line += [(part, hidden) for part in reversed(node.parts) if part]
    return found


@dataclasses.dataclass
class Library:
    """The modules of a text by their names, and what its local signals are called in a picture."""

    modules: Dict[str, ModuleTree]
    locals: Locals

    def scopes_in(
        self, module: ModuleTree, seen: Dict[str, str], path: Tuple[str, ...], left: int
    ) -> List[Scope]:
        """The scopes of what a module runs, in which these of its names mean signals of the picture;
        `path` has the runs around it.
        """
        runs = runs_in(module)[:left]
        room = (left - 1) // max(1, len(runs))
        found = []
        for called, name, renamed, hidden in runs:
            target = self.modules.get(name)
            meant: Dict[str, Optional[str]] = dict(seen.items())
            meant.update((own, self.locals.get((path, token))) for own, token in hidden.items())
            names = target.names() if target else []
            pairs = [(own, meant.get(renamed.get(own, own))) for own in names]
            signals = [(own, outer) for own, outer in pairs if outer]
            scope = Scope(called, signals, [])
            if target:
                scope.inner = self.scopes_in(target, dict(signals), (*path, called), room)
            found.append(scope)
        return found


def scopes_of(text: str, main: str, locals: Optional[Locals] = None) -> List[Scope]:
    """The scopes of what the main module of a text runs; none where the text is none that the
    grammar reads. Local signals are those that are given.
    """
    library = Library(by_name(parse(text) or []), locals or {})
    if main not in library.modules:
        return []
    module = library.modules[main]
    return library.scopes_in(module, {name: name for name in module.names()}, (), MOST)


def local_signals(text: str) -> Set[str]:
    """The names of all local signals of a text; none where the text is none that the grammar reads."""
    nodes = [node for module in parse(text) or [] for node in module.body.walk()]
    return {name.text for node in nodes if node.kind == "signal" for name in node.names}
