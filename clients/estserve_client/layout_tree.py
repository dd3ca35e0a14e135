"""A module text for its layout: its tokens with the comments around them, and which of them belong
to which statement.
"""
from __future__ import annotations

import dataclasses
from typing import List, Optional, Set, Tuple

from .syntax_tree import TOKEN, Node, NoTree, Reader, Token

Range = Tuple[int, int]  # the place of a first token, and the place after the last


@dataclasses.dataclass
class Comment:
    """A comment, and whether an empty line stands before it."""

    text: str
    after_empty: bool

    def ends_line(self) -> bool:
        """Whether nothing can follow on its line, or it has several lines."""
        return not self.text.startswith("%{") or "\n" in self.text


@dataclasses.dataclass
class Word:
    """A token: the lines that it and its comments stand on, the comments before it, on lines of
    their own, and those after it on its line.
    """

    token: Token
    before: List[Comment]
    after: List[Comment]
    after_empty: bool
    starts_line: bool


class Words:
    """The tokens of a text with their comments; those after the last token are `rest`."""

    def __init__(self, text: str) -> None:
        self.words: List[Word] = []
        self.rest: List[Comment] = []
        self.lines, self.line = 0, 1  # line feeds since the last piece, and the line it begins on
        for match in TOKEN.finditer(text):
            piece = match.group()
            if piece.isspace():
                self.lines += piece.count("\n")
            elif piece.startswith("%"):
                self.add_comment(piece)
            else:
                self.add_token(piece)
            self.line += piece.count("\n")

    def add_comment(self, piece: str) -> None:
        text = "\n".join(line.rstrip() for line in piece.split("\n"))
        comment = Comment(text, self.lines > 1)
        if self.words and not self.lines and not self.rest:
            self.words[-1].after.append(comment)
        else:
            self.rest.append(comment)
        self.lines = 0

    def add_token(self, piece: str) -> None:
        token = Token(piece, self.line, len(self.words))
        starts = bool(self.lines or self.rest or not self.words)
        self.words.append(Word(token, self.rest, [], self.lines > 1, starts))
        self.rest, self.lines = [], 0


@dataclasses.dataclass
class ModuleParts:
    """A module: all of it, each of its declarations, and its body."""

    whole: Range
    declarations: List[Range]
    body: Node


class LayoutReader(Reader):
    """Reads the tokens of a text by the grammar, and keeps where each statement begins and ends."""

    def __init__(self, tokens: List[Token]) -> None:
        super().__init__(tokens)
        self.ranges: "dict[int, Range]" = {}  # by the statement's identity
        self.kept: List[Node] = []  # so that no other has that identity
        self.brackets: Set[int] = set()  # places of `[` and `]` around statements

    def keep(self, node: Node, first: int) -> Node:
        self.ranges[id(node)] = (first, self.at)
        self.kept.append(node)
        return node

    def statement(self) -> Node:
        first = self.at
        parts = [self.sequence()]
        while self.takes("||"):
            parts.append(self.sequence())
        if len(parts) == 1:
            return parts[0]
        return self.keep(Node("par", parts[0].at, [], list(parts)), first)

    def sequence(self) -> Node:
        first = self.at
        parts = [self.unit()]
        while self.takes(";") and not self.ends_sequence():
            parts.append(self.unit())
        return self.keep(Node("seq", parts[0].at, [], list(parts)), first)

    def unit(self) -> Node:
        first = self.at
        return self.keep(super().unit(), first)

    def unit_group(self, at: Token) -> Node:
        self.brackets.add(self.at - 1)
        body = self.statement()
        self.take("]")
        self.brackets.add(self.at - 1)
        return Node("group", at, [], [body])

    def modules(self) -> List[ModuleParts]:
        """The modules of the text. Raises NoTree."""
        found = [self.module_parts()]
        while self.at < len(self.tokens):
            found.append(self.module_parts())
        return found

    def module_parts(self) -> ModuleParts:
        first, declarations = self.at, []
        self.take("module")
        self.name()
        self.take(":")
        while self.declares():
            begin = self.at
            self.declaration()
            declarations.append((begin, self.at))
        body = self.statement()
        self.take("end")
        self.take("module")
        return ModuleParts((first, self.at), declarations, body)


def read_layout(text: str) -> Optional[Tuple[Words, LayoutReader, List[ModuleParts]]]:
    """A text with its comments and its parts; None where the grammar doesn't read it."""
    words = Words(text)
    reader = LayoutReader([word.token for word in words.words])
    try:
        return words, reader, reader.modules()
    except (NoTree, RecursionError):
        return None
