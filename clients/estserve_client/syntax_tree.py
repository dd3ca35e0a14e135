"""The tree of a module text, with the place of each word: what the client draws faults and chains
from.

The text is one that estserve reads without a lexical or syntax fault; of any other `parse` gives
None, and a `Reader` that has stopped knows what could have stood there.
"""
from __future__ import annotations

import dataclasses
import re
from typing import Callable, Dict, Iterator, List, Optional, Tuple

TOKEN = re.compile(
    r"%\{.*?(?:\}%|\Z)|%[^\n]*|\s+|[A-Za-z][A-Za-z0-9_]*|[0-9]+|\|\||=>|:=|<=|.", re.DOTALL
)
KEYWORDS = frozenset(
    "module end input output inputoutput relation nothing pause halt emit sustain present then else"
    " suspend when immediate loop each every do await abort weak trap in exit signal run"
    " and or not".split()
)
DECLARATIONS = ("input", "output", "inputoutput", "relation")
STATEMENTS = (
    "nothing", "pause", "halt", "emit", "sustain", "exit", "await", "present", "suspend", "abort",
    "weak", "loop", "every", "trap", "signal", "run", "[",
)  # fmt: skip
A_NAME, A_STATEMENT, A_DECLARATION = "a name", "a statement", "a declaration"  # what may be wanted


@dataclasses.dataclass(frozen=True)
class Token:
    """A word or a symbol of a text, and the place of its first byte, from 1; columns count
    bytes.
    """

    text: str
    line: int
    column: int


def tokens_of(text: str) -> List[Token]:
    """The tokens of a text, without blanks and comments. What is no token stands among them as it
    is.
    """
    tokens, line, begin, at, width = [], 1, 0, 0, 0
    for match in TOKEN.finditer(text):
        word, at = match.group(), match.start()
        if not (word[0].isspace() or word[0] == "%"):
            width = len(text[begin:at].encode(errors="surrogatepass"))
            tokens.append(Token(word, line, width + 1))
        if "\n" in word:
            line, begin = line + word.count("\n"), at + word.rindex("\n") + 1
    return tokens


@dataclasses.dataclass
class Test:
    """What a statement asks of signals: a name, or `not`, `and`, `or` over other tests.

    `kind` is `name`, `not`, `and` or `or`; `at` is the name, or else the first token. `parts` has
    the one operand of a `not`, or all that stand between the words of an `and` or `or`.
    """

    kind: str
    at: Token
    parts: List["Test"] = dataclasses.field(default_factory=list)

    def names(self) -> List[Token]:
        """The names in it, in the order of the text, each as often as it stands there."""
        if self.kind == "name":
            return [self.at]
        return [name for part in self.parts for name in part.names()]


@dataclasses.dataclass
class Node:
    """A statement.

    `kind` is its keyword, `seq` or `par`; `loop` with `each` is `each`, and `weak abort` is `weak`.
    `at` is its first token, `names` the names that it has (of a run the module's first, of a
    statement with a `test` those in it), `parts` the statements in it. A branch of a `present` that
    is left out is None.
    """

    kind: str
    at: Token
    names: List[Token] = dataclasses.field(default_factory=list)
    parts: List[Optional["Node"]] = dataclasses.field(default_factory=list)
    immediate: bool = False
    renamings: List["Renaming"] = dataclasses.field(default_factory=list)
    test: Optional[Test] = None

    def walk(self) -> Iterator["Node"]:
        """The statement and those in it, in the order of the text."""
        line = [self]
        while line:
            node = line.pop()
            yield node
            line += [part for part in reversed(node.parts) if part]


@dataclasses.dataclass(frozen=True)
class Renaming:
    """A renaming of a run: the caller's name on the left, that of the module that is run on the
    right.
    """

    left: Token
    right: Token


@dataclasses.dataclass
class ModuleTree:
    """A module: its name, its interface in declaration order, its relations each as a list of
    members, its body.
    """

    name: Token
    inputs: List[Token]
    outputs: List[Token]
    inputoutputs: List[Token]
    interface: List[Token]
    relations: List[List[Token]]
    body: Node

    def names(self) -> List[str]:
        """The names of the interface signals, in declaration order."""
        return list(dict.fromkeys(token.text for token in self.interface))


class NoTree(Exception):
    """The text is none that the grammar reads."""


class Reader:
    """Reads the tokens of a text by the grammar, one after the other."""

    def __init__(self, tokens: List[Token]) -> None:
        self.tokens = tokens
        self.at = 0
        self.wanted: List[str] = []  # what else could stand where it is now
        self.wanted_last: List[str] = []  # and after an `end` that is the last token
        self.open: List[Token] = []  # the first token of each part that is not closed yet
        self.closed: Optional[Token] = None  # that of the statement that was read last

    def peek(self, ahead: int = 0) -> str:
        """The text of a token that comes; empty after the last one."""
        return self.tokens[self.at + ahead].text if self.at + ahead < len(self.tokens) else ""

    def advance(self) -> Token:
        """Takes the next token."""
        self.at += 1
        self.wanted = []
        return self.tokens[self.at - 1]

    def take(self, wanted: str) -> Token:
        """The next token, which is this one. Raises NoTree."""
        if not self.takes(wanted):
            raise NoTree()
        return self.tokens[self.at - 1]

    def takes(self, word: str) -> bool:
        """Takes the next token if it is this one."""
        if self.peek() != word:
            self.wanted.append(word)
            return False
        self.advance()
        return True

    def name(self) -> Token:
        text = self.peek()
        if not re.fullmatch(r"[A-Za-z]\w*", text) or text in KEYWORDS:
            self.wanted.append(A_NAME)
            raise NoTree()
        return self.advance()

    def names(self) -> List[Token]:
        found = [self.name()]
        while self.takes(","):
            found.append(self.name())
        return found

    def library(self) -> List[ModuleTree]:
        found = [self.module()] if self.tokens else []
        while self.at < len(self.tokens):
            found.append(self.module())
        return found

    def module(self) -> ModuleTree:
        self.open.append(self.take("module"))
        module = ModuleTree(self.name(), [], [], [], [], [], Node("nothing", self.take(":")))
        while self.declares():
            word, lists = self.declaration()
            declared: Dict[str, List[Token]] = {"relation": []}
            declared.update({"input": module.inputs, "output": module.outputs})
            declared.get(word, module.inputoutputs).extend(
                name for list_ in lists for name in list_
            )
            if word == "relation":
                module.relations += lists
            else:
                module.interface += lists[0]
        module.body = self.statement()
        self.take("end")
        self.take("module")
        self.open.pop()
        return module

    def declares(self) -> bool:
        """Whether a declaration comes."""
        self.wanted += [A_DECLARATION] * (self.peek() not in DECLARATIONS)
        return self.peek() in DECLARATIONS

    def declaration(self) -> Tuple[str, List[List[Token]]]:
        """A declaration: its word, and its names, or those of each relation."""
        word = self.advance().text
        lists = [self.relation() if word == "relation" else self.names()]
        while word == "relation" and self.takes(","):
            lists.append(self.relation())
        self.take(";")
        return word, lists

    def relation(self) -> List[Token]:
        members = [self.name()]
        if self.takes("=>"):
            return members + [self.name()]
        self.take("#")
        members.append(self.name())
        while self.takes("#"):
            members.append(self.name())
        return members

    def statement(self) -> Node:
        parts = [self.sequence()]
        while self.takes("||"):
            parts.append(self.sequence())
        return parts[0] if len(parts) == 1 else Node("par", parts[0].at, [], list(parts))

    def sequence(self) -> Node:
        parts = [self.unit()]
        while self.takes(";") and not self.ends_sequence():
            parts.append(self.unit())
        return parts[0] if len(parts) == 1 else Node("seq", parts[0].at, [], list(parts))

    def ends_sequence(self) -> bool:
        """Whether what comes can't be a further statement of a sequence."""
        return self.peek() in ("end", "]", "||", "then", "else", "when", "each")

    def unit(self) -> Node:
        word = self.peek()
        if word not in STATEMENTS:
            self.wanted.append(A_STATEMENT)
            raise NoTree()
        self.open.append(self.tokens[self.at])
        read = getattr(self, "unit_" + ("group" if word == "[" else word))
        unit: Node = read(self.advance())
        self.closed = self.open.pop()
        return unit

    def unit_nothing(self, at: Token) -> Node:
        return Node(at.text, at)

    unit_pause = unit_halt = unit_nothing

    def unit_emit(self, at: Token) -> Node:
        return Node(at.text, at, [self.name()])

    unit_sustain = unit_exit = unit_emit

    def test(self) -> Test:
        """What is asked of signals, in brackets or not."""
        return self.bracketed("[", "]") or self.disjunction()

    def bracketed(self, first: str, last: str) -> Optional[Test]:
        """A test between these two, where the first of them comes."""
        if not self.takes(first):
            return None
        self.open.append(self.tokens[self.at - 1])
        test = self.disjunction()
        self.take(last)
        self.open.pop()
        return test

    def disjunction(self) -> Test:
        """Tests with `or` between them."""
        return self.operands("or", self.conjunction)

    def conjunction(self) -> Test:
        """Tests with `and` between them."""
        return self.operands("and", self.literal)

    def operands(self, word: str, read: Callable[[], Test]) -> Test:
        """The tests that stand around a word, as one; where it doesn't come, the one test."""
        parts = [read()]
        while self.takes(word):
            parts.append(read())
        return parts[0] if len(parts) == 1 else Test(word, parts[0].at, parts)

    def literal(self) -> Test:
        """A name, the `not` of a test, or a test in parentheses."""
        if self.takes("not"):
            return Test("not", self.tokens[self.at - 1], [self.literal()])
        return self.bracketed("(", ")") or Test("name", self.name())

    def tested(
        self, kind: str, at: Token, parts: List[Optional[Node]], immediate: bool, test: Test
    ) -> Node:
        """A statement with a test."""
        return Node(kind, at, test.names(), parts, immediate, [], test)

    def unit_await(self, at: Token) -> Node:
        immediate = self.takes("immediate")
        return self.tested("await", at, [], immediate, self.test())

    def unit_group(self, at: Token) -> Node:
        body = self.statement()
        self.take("]")
        return body

    def unit_present(self, at: Token) -> Node:
        test = self.test()
        then = self.statement() if self.takes("then") else None
        otherwise = self.statement() if self.takes("else") else None
        if then is None and otherwise is None:
            raise NoTree()
        self.take("end")
        self.takes("present")
        return self.tested("present", at, [then, otherwise], False, test)

    def when(self, kind: str, at: Token) -> Node:
        body = self.statement()
        self.take("when")
        immediate = self.takes("immediate")
        return self.tested(kind, at, [body], immediate, self.test())

    def unit_suspend(self, at: Token) -> Node:
        node = self.when("suspend", at)
        self.close("suspend")
        return node

    def unit_abort(self, at: Token) -> Node:
        node = self.when("abort", at)
        self.close("abort")
        return node

    def unit_weak(self, at: Token) -> Node:
        self.take("abort")
        node = self.when("weak", at)
        if self.peek() == "end" and self.peek(1) == "weak":
            self.advance()
            self.advance()
            self.take("abort")
        else:
            self.close("abort", "weak")
        return node

    def close(self, word: str, *others: str) -> None:
        """Takes an `end` that has its keyword; others could stand there too."""
        if self.peek() == "end" and self.peek(1) == word:
            self.advance()
            self.advance()
        elif self.peek() == "end" and self.at + 1 == len(self.tokens):
            self.wanted_last += [word, *others]
        elif not self.peek():
            self.wanted.append("end")

    def unit_loop(self, at: Token) -> Node:
        body = self.statement()
        if self.takes("each"):
            return self.tested("each", at, [body], False, self.test())
        self.take("end")
        self.takes("loop")
        return Node("loop", at, [], [body])

    def unit_every(self, at: Token) -> Node:
        immediate = self.takes("immediate")
        test = self.test()
        self.take("do")
        body = self.statement()
        self.take("end")
        self.takes("every")
        return self.tested("every", at, [body], immediate, test)

    def unit_trap(self, at: Token) -> Node:
        name = self.name()
        self.take("in")
        body = self.statement()
        self.take("end")
        self.takes("trap")
        return Node("trap", at, [name], [body])

    def unit_signal(self, at: Token) -> Node:
        names = self.names()
        self.take("in")
        body = self.statement()
        self.take("end")
        self.takes("signal")
        return Node("signal", at, names, [body])

    def unit_run(self, at: Token) -> Node:
        node = Node("run", at, [self.name()])
        if self.takes("["):
            self.open.append(self.tokens[self.at - 1])
            self.take("signal")
            node.renamings.append(self.renaming())
            while self.takes(","):
                node.renamings.append(self.renaming())
            self.take("]")
            self.open.pop()
        return node

    def renaming(self) -> Renaming:
        left = self.name()
        self.take("/")
        return Renaming(left, self.name())


def parse(text: str) -> Optional[List[ModuleTree]]:
    """The modules of a text, in its order; None where the text is none that the grammar reads."""
    try:
        return Reader(tokens_of(text)).library()
    except (NoTree, RecursionError):
        return None


def by_name(modules: List[ModuleTree]) -> Dict[str, ModuleTree]:
    """The modules by their names; of two of one name the first."""
    return {module.name.text: module for module in reversed(modules)}
