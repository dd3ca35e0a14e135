"""A path through the body of a loop that takes no time: what InstantLoop means.

Each statement is asked for one path to each code that it can have in the instant in which it
begins. The path to code 0 through the body of a loop is the one that is drawn.
"""
from __future__ import annotations

import dataclasses
from typing import Dict, List, Optional, Tuple

from .fault_places import FAR, trapped
from .signal_test_writing import written
from .syntax_tree import ModuleTree, Node, Token, by_name

MOST = 12  # steps of a path that are drawn


@dataclasses.dataclass(frozen=True)
class Step:
    """A statement that a path goes through: its first token, and how it goes through it."""

    at: Token
    told: str


Path = List[Step]
Paths = Dict[int, Path]  # a path to each code


def joined(first: Paths, second: Paths) -> Paths:
    """The paths of two sides that run side by side."""
    found: Paths = {}
    for one, path in first.items():
        for other, more in second.items():
            found.setdefault(max(one, other), path + more)
    return found


def after(paths: Paths, more: Paths) -> Paths:
    """The paths of what begins where the first ends."""
    if 0 not in paths:
        return paths
    ended = {code: paths[0] + path for code, path in more.items()}
    return {**ended, **{code: path for code, path in paths.items() if code}}


def coded(paths: Paths, old: int, new: int) -> Paths:
    """The paths with another code in place of this one."""
    return {new if code == old else code: path for code, path in paths.items()}


def asked(node: Node) -> str:
    """The test of a statement, as it could stand in a text."""
    return written(node.test) if node.test else ""


class InstantPaths:
    """The paths through statements in the instant in which they begin."""

    def __init__(self, modules: List[ModuleTree]) -> None:
        self.known = by_name(modules)

    def of(self, node: Optional[Node], traps: Tuple[str, ...]) -> Paths:
        """The paths of a statement inside these traps, the innermost last."""
        if node is None:
            return {0: []}
        return getattr(self, "of_" + node.kind, self.of_waiting)(node, traps)

    def of_nothing(self, node: Node, _: Tuple[str, ...]) -> Paths:
        return {0: [Step(node.at, "nothing")]}

    def of_emit(self, node: Node, _: Tuple[str, ...]) -> Paths:
        return {0: [Step(node.at, f"emit {node.names[0].text}")]}

    def of_exit(self, node: Node, traps: Tuple[str, ...]) -> Paths:
        name, outward = node.names[0].text, list(reversed(traps))
        code = outward.index(name) + 2 if name in outward else FAR
        return {code: [Step(node.at, f"exit {name}")]}

    def of_waiting(self, node: Node, _: Tuple[str, ...]) -> Paths:
        """Those of `pause`, `halt`, `sustain` and `await`."""
        return {1: [], **self.of_immediate(node)}

    def of_immediate(self, node: Node) -> Paths:
        """That of a statement whose test counts at once, where the test holds."""
        if not node.immediate:
            return {}
        words = {"weak": "weak abort .. when", "abort": "abort .. when"}.get(node.kind, node.kind)
        return {0: [Step(node.at, f"{words} immediate {asked(node)}, which holds")]}

    def of_present(self, node: Node, traps: Tuple[str, ...]) -> Paths:
        ways = [("holds", node.parts[0]), ("doesn't hold", node.parts[1])]
        found: Paths = {}
        for how, part in ways:
            step = Step(node.at, f"present {asked(node)}, which {how}")
            for code, path in self.of(part, traps).items():
                found.setdefault(code, [step, *path])
        return found

    def of_suspend(self, node: Node, traps: Tuple[str, ...]) -> Paths:
        return {**self.of(node.parts[0], traps), **({1: []} if node.immediate else {})}

    def of_abort(self, node: Node, traps: Tuple[str, ...]) -> Paths:
        return {**self.of_immediate(node), **self.of(node.parts[0], traps)}

    def of_weak(self, node: Node, traps: Tuple[str, ...]) -> Paths:
        body = self.of(node.parts[0], traps)
        left = {code: path for code, path in body.items() if code != 1}
        if node.immediate and 1 in body:
            left.setdefault(0, self.of_immediate(node)[0] + body[1])
        return {**left, 1: []}

    def of_each(self, node: Node, traps: Tuple[str, ...]) -> Paths:
        return coded(self.of(node.parts[0], traps), 0, 1)

    def of_every(self, node: Node, traps: Tuple[str, ...]) -> Paths:
        return {1: [], **(self.of_each(node, traps) if node.immediate else {})}

    def of_loop(self, node: Node, traps: Tuple[str, ...]) -> Paths:
        return {c: path for c, path in self.of(node.parts[0], traps).items() if c} or {1: []}

    def of_trap(self, node: Node, traps: Tuple[str, ...]) -> Paths:
        found: Paths = {}
        for code, path in self.of(node.parts[0], (*traps, node.names[0].text)).items():
            (outer,) = trapped({code})
            found.setdefault(outer, path)
        return found

    def of_signal(self, node: Node, traps: Tuple[str, ...]) -> Paths:
        return self.of(node.parts[0], traps)

    def of_seq(self, node: Node, traps: Tuple[str, ...]) -> Paths:
        paths: Paths = {0: []}
        for part in node.parts:
            paths = after(paths, self.of(part, traps))
        return paths

    def of_par(self, node: Node, traps: Tuple[str, ...]) -> Paths:
        paths = self.of(node.parts[0], traps)
        for part in node.parts[1:]:
            paths = joined(paths, self.of(part, traps))
        return paths

    def of_run(self, node: Node, _: Tuple[str, ...]) -> Paths:
        name = node.names[0].text
        if name not in self.known:
            return {0: [], 1: []}
        step = Step(node.at, f"run {name}")
        return {code: [step, *path] for code, path in self.of(self.known[name].body, ()).items()}


def path_through(modules: List[ModuleTree], loop: Node) -> Path:
    """The path through a loop's body that takes no time; empty where none is found."""
    return InstantPaths(modules).of(loop.parts[0], ()).get(0, [])
