"""The small part of TOML that policies need, read with the line of each value.

Tables, keys without quotes, strings in double quotes without `\\`, whole numbers, and lists of
strings, which may go over lines. Whatever is read here, a reader of the whole of TOML reads alike.
(Python has one from 3.11 on, which doesn't say on which line a value stands.)
"""
from __future__ import annotations

import dataclasses
import re
from typing import Any, Dict, List, Optional, Set, Tuple

CONTROL = r"\x00-\x08\x0a-\x1f\x7f"  # what neither a string nor a comment may hold
KEY = r"[A-Za-z0-9_-]+"
BLANKS = re.compile(r"[ \t]*")
COMMENT = re.compile(rf"#[^{CONTROL}]*")
HEAD = re.compile(rf"\[[ \t]*({KEY}(?:[ \t]*\.[ \t]*{KEY})*)[ \t]*\]")
PAIR = re.compile(rf"({KEY})[ \t]*=[ \t]*")
STRING = re.compile(rf'"([^"\\{CONTROL}]*)"')
NUMBER = re.compile(r"0|[1-9][0-9]{0,18}(?![0-9])")
LEADING = re.compile(r"0[0-9]")
MOST_PARTS = 8  # of a table's name: what each stands in is kept
OF_A_LIST = "a list has strings in double quotes, with commas between them"
Path = Tuple[str, ...]


class BadPolicy(Exception):
    """The file is no policy: the line, from 1, and what is wrong there."""

    def __init__(self, line: int, what: str) -> None:
        self.line, self.what = line, what
        super().__init__(f"line {line}: {what}")


@dataclasses.dataclass
class Table:
    """A table of the file: the line of its head, and its keys, each with its line and value."""

    line: int
    keys: Dict[str, Tuple[int, Any]]


class Reader:
    """Reads a text, statement by statement."""

    def __init__(self, text: str) -> None:
        self.text = text.replace("\r\n", "\n")
        self.at, self.line = 0, 1
        self.tables: Dict[str, Table] = {"": Table(1, {})}
        self.table: Path = ()
        self.known: Set[Path] = set()  # each table, and what it stands in
        self.values: Set[Path] = set()

    def take(self, form: "re.Pattern[str]") -> Optional["re.Match[str]"]:
        """Takes what has this form, where it comes next."""
        found = form.match(self.text, self.at)
        if found:
            self.at = found.end()
        return found

    def takes(self, letter: str) -> bool:
        """Takes this letter if it comes next."""
        is_next = self.text.startswith(letter, self.at)
        self.at += is_next
        return is_next

    def end_line(self) -> bool:
        """Takes blanks, a comment, and the end of a line. Answers whether the line ends here."""
        self.take(BLANKS)
        self.take(COMMENT)
        if self.takes("\n"):
            self.line += 1
            return True
        return self.at == len(self.text)

    def read(self) -> Dict[str, Table]:
        """The tables of the text, by their names. Raises BadPolicy."""
        while self.at < len(self.text):
            if not self.end_line():
                self.statement()
        return self.tables

    def statement(self) -> None:
        """Reads a table's head, or a key with its value, up to the end of the line."""
        head, line = self.take(HEAD), self.line
        pair = None if head else self.take(PAIR)
        if head:
            self.begin(tuple(re.split(r"[ \t]*\.[ \t]*", head[1])), line)
        elif pair:
            self.keep(pair[1], line)
        else:
            raise BadPolicy(line, "this is neither a table's head nor `key = value`")
        if not self.end_line():
            wanted = "after a table's head" if head else "after a value"
            raise BadPolicy(self.line, f"{wanted} the line ends, but for a comment")

    def begin(self, path: Path, line: int) -> None:
        """Begins the table of this name."""
        if len(path) > MOST_PARTS:
            raise BadPolicy(line, f"the name of a table has at most {MOST_PARTS} parts here")
        name = ".".join(path)
        if name in self.tables:
            raise BadPolicy(line, f"the table {name} stands twice")
        around = {path[:length] for length in range(1, len(path) + 1)}
        if around & self.values:
            raise BadPolicy(line, f"the table {name} has the name of a key")
        self.known |= around
        self.table, self.tables[name] = path, Table(line, {})

    def keep(self, key: str, line: int) -> None:
        """Reads the value of a key of the table."""
        path, keys = (*self.table, key), self.tables[".".join(self.table)].keys
        if path in self.values:
            raise BadPolicy(line, f"the key {key} stands twice")
        if path in self.known:
            raise BadPolicy(line, f"the key {key} has the name of a table")
        self.values.add(path)
        keys[key] = line, self.value()

    def value(self) -> Any:
        """A value: a list of strings with their lines, a string, or a whole number."""
        if self.takes("["):
            return self.strings()
        string = self.take(STRING)
        if string:
            return string[1]
        if LEADING.match(self.text, self.at):
            raise BadPolicy(self.line, "a whole number doesn't begin with 0")
        number = self.take(NUMBER)
        if number:
            return int(number[0])
        raise BadPolicy(self.line, "a value is a list of strings, a string, or a whole number")

    def strings(self) -> List[Tuple[str, int]]:
        """The strings of a list, each with its line, up to its end."""
        first, found = self.line, []
        self.pass_lines(first)
        while not self.takes("]"):
            string = self.take(STRING)
            if string is None:
                raise self.bad_list(first)
            found.append((string[1], self.line))
            self.pass_lines(first)
            if not self.takes(",") and not self.text.startswith("]", self.at):
                raise self.bad_list(first)
            self.pass_lines(first)
        return found

    def bad_list(self, first: int) -> BadPolicy:
        """The fault of a list, which began at this line."""
        begun = f"; this one begins on line {first}" if first != self.line else ""
        return BadPolicy(self.line, OF_A_LIST + begun)

    def pass_lines(self, first: int) -> None:
        """Passes over ends of lines in a list, which began at this line."""
        while self.at < len(self.text) and self.end_line():
            pass
        if self.at == len(self.text):
            raise BadPolicy(first, "this list is not closed")


def tables_of(text: str) -> Dict[str, Table]:
    """The tables of the file, by their names; that before the first head is ``. Raises
    BadPolicy.
    """
    return Reader(text).read()
