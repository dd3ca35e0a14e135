"""Marks in a text: outputs of their own that say whether a statement is begun.

Before each marked statement an emission of its mark is put. It ends at once and nothing waits for
it, so the module does what it did, and a claim on the mark is a claim on the statement.
"""
from __future__ import annotations

import dataclasses
from typing import Dict, Iterator, List, Sequence

from ..library_text import LibraryText
from ..module_text import Module
from ..syntax_tree import ModuleTree, Node, Token, by_name, parse, tokens_of
from ..texts import Failed
from .asking import Subject

SIGNALS = 64  # an interface has at most this many
GROUP = 24  # as many statements are marked at a time
AT_ONCE = ("loop", "each", "trap", "signal")  # statements whose body begins with them
GUARDED = ("abort", "weak", "suspend")  # and so does that of these, unless they are immediate


@dataclasses.dataclass(frozen=True)
class Marked:
    """A module with marks, and each mark's statement."""

    subject: Subject
    statements: Dict[str, Node]


def reached(subject: Subject) -> List[ModuleTree]:
    """The trees of the module and of all that it runs, in the order of the text. Raises Failed."""
    modules = parse(subject.library.text)
    if modules is None:
        raise Failed(f"{subject.library.paths[0]}: the client's grammar can't read the text")
    known = by_name(modules)
    names, line = {subject.module.name}, [subject.module.name]
    for name in line:
        body = known[name].body if name in known else None
        run = [node.names[0].text for node in body.walk() if node.kind == "run"] if body else []
        fresh = [one for one in dict.fromkeys(run) if one not in names]
        names.update(fresh)
        line += fresh
    return [module for module in modules if module.name.text in names]


def begins_with(node: Node, at: int) -> bool:
    """Whether the part at this place begins whenever the statement does."""
    if node.kind == "seq":
        return at == 0
    if node.kind == "par":
        return True
    return node.kind in AT_ONCE or (node.kind in GUARDED and not node.immediate)


def parts_to_mark(node: Node) -> Iterator[Node]:
    """The statements in another one that may never begin though it does, in the text's order."""
    for at, part in enumerate(node.parts):
        if part is None:
            continue
        if not begins_with(node, at):
            yield from units_of(part)
        yield from parts_to_mark(part)


def units_of(node: Node) -> Iterator[Node]:
    """The statement, or of a sequence and of sides the first ones, which begin with it."""
    if node.kind == "seq" and node.parts[0]:
        yield from units_of(node.parts[0])
    elif node.kind == "par" and node.parts[0]:
        yield from units_of(node.parts[0])
    else:
        yield node


def name_of(tokens: Sequence[Token]) -> str:
    """A beginning of names that no name of the text has."""
    wanted = "BEGUN"
    while any(token.text.startswith(wanted) for token in tokens):
        wanted += "_"
    return wanted


def put_in(text: str, pieces: Dict[Token, str]) -> str:
    """The text with a piece before each of these tokens."""
    lines = [line.encode() for line in text.split("\n")]
    for token in sorted(pieces, key=lambda token: (token.line, token.column), reverse=True):
        line, at = lines[token.line - 1], token.column - 1
        lines[token.line - 1] = line[:at] + pieces[token].encode() + line[at:]
    return b"\n".join(lines).decode()


def first_tokens(tokens: Sequence[Token]) -> List[Token]:
    """Of each module the token after its name's colon."""
    return [
        tokens[at + 3]
        for at, token in enumerate(tokens[:-3])
        if token.text == "module" and (at == 0 or tokens[at - 1].text != "end")
    ]


def mark(subject: Subject, statements: Sequence[Node]) -> Marked:
    """The module with these statements marked."""
    text = subject.library.text
    tokens = tokens_of(text)
    begin = name_of(tokens)
    marks = {f"{begin}{number}": node for number, node in enumerate(statements)}
    pieces: Dict[Token, str] = {}
    for name, node in marks.items():
        pieces[node.at] = pieces.get(node.at, "") + f"emit {name}; "
    for token in first_tokens(tokens):
        pieces[token] = f"output {', '.join(marks)}; " + pieces.get(token, "")
    module = subject.module
    signals = [*((name, "output") for name in marks), *module.signals]
    library = LibraryText(put_in(text, pieces), subject.library.begins)
    return Marked(
        Subject(library, Module(module.name, signals, module.relations, module.runs)), marks
    )


def marked_groups(subject: Subject, statements: Sequence[Node]) -> Iterator[Marked]:
    """The module with marks, as many statements at a time as its interface has room for. Raises
    Failed.
    """
    room = min(GROUP, SIGNALS - len(subject.module.signals))
    if statements and room < 1:
        raise Failed(f"{subject.module.name} has {SIGNALS} signals: there is no room for a mark")
    for at in range(0, len(statements), max(room, 1)):
        yield mark(subject, statements[at : at + room])
