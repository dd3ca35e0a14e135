"""The command `format`, and the layout of a module text: a statement on one line stays there where
it fits, and any other has its parts on lines of their own.

The tokens and comments stay as they are and in their order: blanks and line ends alone change. So
what the text means stays, and what is laid out already doesn't change.
"""
from __future__ import annotations

import argparse
import difflib
import pathlib
import sys
from typing import Iterator, List, Optional

from .colours import Colours
from .layout_tree import Comment, LayoutReader, ModuleParts, Range, Word, Words, read_layout
from .syntax_tree import Node
from .texts import Failed, read_text, write_lines

WIDTH = 100  # characters of a line, where it can be broken
INDENT, FURTHER = 2, 4  # of what stands in a statement, and of lines that go on
CLOSING = (
    "end",
    "]",
    "when",
    "each",
)  # a comment before one of these belongs to what stands before
NO_BLANK_BEFORE = (";", ",", ")", ":", "/")
NO_BLANK_AFTER = ("(", "/")


class Page:
    """Lines that are written word by word."""

    def __init__(self) -> None:
        self.lines: List[str] = []
        self.line = ""

    def end_line(self) -> None:
        if self.line:
            self.lines.append(self.line.rstrip())
            self.line = ""

    def add_empty(self) -> None:
        """An empty line, but neither a first nor a second one."""
        self.end_line()
        if self.lines and self.lines[-1]:
            self.lines.append("")

    def comment(self, comment: Comment, indent: int) -> None:
        """A comment on a line of its own."""
        self.end_line()
        if comment.after_empty:
            self.add_empty()
        self.line = " " * indent + comment.text
        self.end_line()

    def word(self, word: Word, indent: int, has_blank: bool) -> None:
        """A word with its comments; where it begins a line, at this indent."""
        deeper = INDENT if word.token.text in CLOSING and word.before else 0
        for comment in word.before:
            self.comment(comment, indent + deeper)
        if not self.line:
            if word.after_empty:
                self.add_empty()
            self.line = " " * indent + word.token.text
        else:
            self.line += " " * has_blank + word.token.text
        for comment in word.after:
            self.line += ("  " if comment.text[:2] != "%{" else " ") + comment.text
            if comment.ends_line():
                self.end_line()


class Layout:
    """Lays out the modules of a text."""

    def __init__(self, words: Words, reader: LayoutReader) -> None:
        self.words, self.rest, self.reader = words.words, words.rest, reader
        self.page = Page()

    def text_of(self, place: int) -> str:
        return self.words[place].token.text

    def has_blank(self, place: int) -> bool:
        """Whether a blank stands between a word and the one before it, on one line."""
        here, before = self.text_of(place), self.text_of(place - 1)
        if here in NO_BLANK_BEFORE or before in NO_BLANK_AFTER:
            return False
        is_inner = here == "]" and place not in self.reader.brackets
        return not is_inner and (before != "[" or place - 1 in self.reader.brackets)

    def width(self, places: Range) -> int:
        """The characters of these words on one line."""
        first, end = places
        blanks = sum(map(self.has_blank, range(first + 1, end)))
        return blanks + sum(len(self.text_of(place)) for place in range(first, end))

    def is_on_one_line(self, places: Range) -> bool:
        """Whether these words stand on one line, with no comment between them that ends it."""
        first, end = places
        inner = self.words[first + 1 : end]
        ends = any(c.ends_line() for word in self.words[first : end - 1] for c in word.after)
        return not ends and not any(word.starts_line for word in inner)

    def fits(self, places: Range, indent: int) -> bool:
        """Whether these words stay on one line, where they begin at this indent."""
        column = len(self.page.line) or indent
        return self.is_on_one_line(places) and column + self.width(places) + 1 <= WIDTH

    def pieces(self, places: Range) -> Iterator[Range]:
        """Words, cut where a line may be broken: after a comma, and before `and` and `or`."""
        first, end = places
        for place in range(first + 1, end):
            if self.text_of(place - 1) == "," or self.text_of(place) in ("and", "or"):
                yield first, place
                first = place
        yield first, end

    def put(self, places: Range, indent: int) -> None:
        """Words in a row, which go on on further lines where they are too wide."""
        goes_on = indent + FURTHER * bool(self.page.line)
        for number, (first, end) in enumerate(self.pieces(places)):
            if number and len(self.page.line) + 2 + self.width((first, end)) > WIDTH:
                self.page.end_line()
            for place in range(first, end):
                at = goes_on if place > places[0] or goes_on > indent else indent
                self.page.word(self.words[place], at, place > 0 and self.has_blank(place))
            goes_on = indent + FURTHER

    def node(self, node: Node, indent: int) -> None:
        """A statement at this indent."""
        places = self.reader.ranges[id(node)]
        if self.fits(places, indent):
            self.put(places, indent)
        elif node.kind in ("seq", "par"):
            self.row(node, places, indent)
        elif node.kind in ("emit", "sustain", "exit", "await", "run") or not any(node.parts):
            self.put(places, indent)
        else:
            self.compound(node, places, indent)

    def row(self, node: Node, places: Range, indent: int) -> None:
        """A sequence, or sides of a `||`, each on lines of its own."""
        at = places[0]
        outer = max(0, indent - INDENT)
        for part in node.parts:
            assert part
            first, end = self.reader.ranges[id(part)]
            if node.kind == "par" and first > at:
                self.page.end_line()
                self.put((at, first), outer if self.is_inside(places) else indent)
            self.page.end_line()
            self.node(part, indent)
            at = end
            if node.kind == "seq" and at < places[1]:
                self.put((at, at + 1), indent)
                at += 1

    def is_inside(self, places: Range) -> bool:
        """Whether words stand in a statement, and are not a module's body."""
        before = self.text_of(places[0] - 1)
        return before not in (":", ";")

    def compound(self, node: Node, places: Range, indent: int) -> None:
        """A statement with others in it: they stand on lines of their own, further in."""
        at = places[0]
        for part in filter(None, node.parts):
            first, end = self.reader.ranges[id(part)]
            self.words_between((at, first), indent)
            self.page.end_line()
            self.node(part, indent + INDENT)
            self.page.end_line()
            at = end
        self.words_between((at, places[1]), indent)

    def words_between(self, places: Range, indent: int) -> None:
        """The words around the parts of a statement; an `end` after a test begins a line."""
        first, end = places
        for place in range(first + 1, end):
            if self.text_of(place) == "end":
                self.put((first, place), indent)
                self.page.end_line()
                first = place
        self.put((first, end), indent)

    def module(self, module: ModuleParts) -> None:
        if self.fits(module.whole, 0):
            self.put(module.whole, 0)
            self.page.end_line()
            return
        first, end = module.whole
        body, stop = self.reader.ranges[id(module.body)]
        cuts = module.declarations
        self.put((first, cuts[0][0] if cuts else body), 0)
        for declaration in cuts:
            self.page.end_line()
            self.put(declaration, 0)
        self.page.end_line()
        self.node(module.body, 0)
        self.page.end_line()
        self.put((stop, end), 0)
        self.page.end_line()

    def lay_out(self, modules: List[ModuleParts]) -> str:
        """The text, laid out."""
        is_wide = False
        for module in modules:
            lines = len(self.page.lines)
            begins_apart = is_wide or not self.fits(module.whole, 0)
            if begins_apart and self.page.lines and not self.words[module.whole[0]].before:
                self.page.add_empty()
            self.module(module)
            is_wide = len(self.page.lines) - lines > 2
        for comment in self.rest:
            self.page.comment(comment, 0)
        return "".join(line + "\n" for line in self.page.lines)


def format_text(text: str) -> Optional[str]:
    """A module text, laid out; None where it is none that the grammar reads."""
    read = read_layout(text)
    if read is None:
        return None
    words, reader, modules = read
    return Layout(words, reader).lay_out(modules)


def fault_of(text: str) -> str:
    """The first place at which no token stands, as `LINE:COL`; else that at which the client's own
    reader stops, and what it expected there.
    """
    from .syntax_faults import expected_at, lexical_at, spot_at
    from .syntax_tree import NoTree, Reader, tokens_of

    lexical = lexical_at(text)
    if lexical:
        return f"{lexical[0]}:{lexical[1]}: Lexical: no token stands here"
    tokens = tokens_of(text)
    reader = Reader(tokens)
    try:
        reader.library()
    except (NoTree, RecursionError):
        pass
    lines = text.split("\n")
    end = (len(lines), len(lines[-1].encode(errors="replace")) + 1)
    here = tokens[reader.at : reader.at + 1]
    line, column = (here[0].line, here[0].column) if here else end
    told = expected_at(spot_at(tokens, line, column)) or "the text cannot go on so"
    return f"{line}:{column}: Syntax: {told}"


def texts_of(paths: List[str]) -> Iterator[str]:
    """The files that are named, and the module texts of each folder that is. Raises Failed."""
    for path in paths:
        if path != "-" and pathlib.Path(path).is_dir():
            found = sorted(pathlib.Path(path).rglob("*.strl"))
            if not found:
                raise Failed(f"there is no module text in {path}")
            yield from map(str, found)
        else:
            yield path


def lines_of(text: str) -> List[str]:
    """The lines of a text, whatever ends them."""
    lines = text.replace("\r\n", "\n").split("\n")
    return lines if lines[-1] else lines[:-1]


def ends_told(path: str, text: str) -> List[str]:
    """What is said of the ends of lines, which a difference of lines doesn't show."""
    told = ["line ends are CRLF"] if "\r\n" in text else []
    told += [] if text.endswith("\n") else ["no newline at the end"]
    return [f"{path}: {one}" for one in told]


def show_difference(path: str, text: str, laid_out: str) -> None:
    """Prints how a text would change."""
    lines = difflib.unified_diff(
        lines_of(text), lines_of(laid_out), path, f"{path}, laid out", lineterm=""
    )
    colours = Colours(sys.stdout)
    shown = [*map(colours.of_diff, lines), *ends_told(path, text)]
    print("".join(line + "\n" for line in shown), end="", flush=True)


def format_one(path: str, arguments: argparse.Namespace) -> bool:
    """Lays one file out, or tells how. Answers whether it was laid out before. Raises Failed."""
    text = read_text(path, "the module text")
    laid_out = format_text(text)
    if laid_out is None:
        raise Failed(f"{path}:{fault_of(text)}")
    if path == "-" and not (arguments.check or arguments.diff):
        print(laid_out, end="")
    elif laid_out != text and arguments.diff:
        show_difference(path, text, laid_out)
    elif laid_out != text and arguments.check:
        print(f"{path} would be laid out anew")
    elif laid_out != text:
        write_lines(path, laid_out.split("\n")[:-1])
        print(f"{path} is laid out anew")
    return laid_out == text


def format_files(arguments: argparse.Namespace) -> int:
    """Lays module texts out. Answers 1 where one is to change that isn't written, or can't be
    read.
    """
    from .messages import TELLER
    from .texts import Placed

    is_same, is_read = True, True
    for path in texts_of(arguments.file):
        try:
            is_same &= format_one(path, arguments)
        except Failed as fault:
            is_read = False
            placed = str(fault).startswith(f"{path}:")
            TELLER.tell(Placed(str(fault)) if placed else fault)
    sys.stdout.flush()
    return int(not is_read or (not is_same and (arguments.check or arguments.diff)))
