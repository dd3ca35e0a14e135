"""The modules of a text, as far as a client needs them: names, interface signals, relations by
their text.

The text is not checked: estserve does that. Of a text that it accepts, what is read here is what it
declares.
"""
from __future__ import annotations

from .close_words import meant

TYPE_CHECKING = False
if TYPE_CHECKING:
    from typing import Dict, List, Optional, Tuple

    from .library_text import LibraryText

BEGIN, CLOSE, ARROW = "%", "}%", "=>"
IN_PLACE = "\N{RIGHTWARDS DOUBLE ARROW}"  # of an arrow, while the text is cut
MARKS = "!\"#$%&'()*+,-./:;<=>?@[\\]^`{|}~"  # each is a token
APART = {**{ord(mark): f" {mark} " for mark in MARKS}, ord(IN_PLACE): f" {IN_PLACE} "}
NO_LETTERS = "0123456789_"  # with which no word begins
KINDS = {"input": "input", "output": "output", "inputoutput": "inout"}  # of what each word declares
LONGEST = 48  # bytes of a name
OFFERED = ("input", "inout")  # the kinds of signals that can be offered
APART_BY = "names stand apart by blanks, without commas"


class Module:
    """A module: its name, its signals in declaration order as pairs of a name and `input`, `output`
    or `inout` (an inputoutput), its relations by their text, and what it runs.
    """

    def __init__(
        self, name: str, signals: List[Tuple[str, str]], relations: List[str], runs: List[str]
    ) -> None:
        self.name, self.signals, self.relations, self.runs = name, signals, relations, runs

    def kinds(self) -> Dict[str, str]:
        """The kind of each signal, by its name."""
        return dict(self.signals)

    def inputs(self) -> List[str]:
        """The signals that can be offered."""
        return [name for name, kind in self.signals if kind in OFFERED]

    def outputs(self) -> List[str]:
        """The signals that can be emitted."""
        return [name for name, kind in self.signals if kind != "input"]

    def of_kind(self, kind: str) -> List[str]:
        """The signals of one kind."""
        return [name for name, other in self.signals if other == kind]


def without_comments(text: str) -> str:
    """A text with a blank in the place of each comment."""
    last, kept, at = text.rfind(CLOSE), [], 0
    while (begin := text.find(BEGIN, at)) >= 0:
        kept.append(text[at:begin])
        end = -1
        if text.startswith("{", begin + 1) and begin + 2 <= last:
            end = text.find(CLOSE, begin + 2) + len(CLOSE)
        at = end if end >= 0 else text.find("\n", begin)
        if at < 0:
            return " ".join(kept)
    return " ".join([*kept, text[at:]])


def tokens_of(text: str) -> List[str]:
    """The words and marks of a text, without blanks, comments and numbers."""
    cut = without_comments(text).replace(ARROW, IN_PLACE).translate(APART)
    words = (word.lstrip(NO_LETTERS) for word in cut.split())
    return [ARROW if word == IN_PLACE else word for word in words if word]


def parts_of(tokens: List[str], at: int, end: int) -> Tuple[List[List[str]], int]:
    """The comma parts of a declaration that begins here, each a list of tokens, and the place after
    its semicolon; the module ends before `end`.
    """
    parts: List[List[str]] = [[]]
    while at < end and tokens[at] != ";":
        if tokens[at] == ",":
            parts.append([])
        else:
            parts[-1].append(tokens[at])
        at += 1
    return parts, at + 1


def read_module(tokens: List[str], at: int, end: int) -> Module:
    """The module whose name stands at this place, and whose tokens end before another."""
    runs = [name for word, name in zip(tokens[at:end], tokens[at + 1 : end]) if word == "run"]
    module = Module(tokens[at], [], [], runs)
    at += 2
    while at < end and tokens[at] in (*KINDS, "relation"):
        word = tokens[at]
        parts, at = parts_of(tokens, at + 1, end)
        if word == "relation":
            module.relations += [" ".join(part) for part in parts]
        else:
            module.signals += [(part[0], KINDS[word]) for part in parts if part]
    return module


def modules_of(text: str) -> List[Module]:
    """The modules of a text, in its order."""
    tokens = tokens_of(text)
    begins = [
        at + 1
        for at, token in enumerate(tokens[:-1])
        if token == "module" and tokens[at - 1 : at] != ["end"]
    ]
    return [read_module(tokens, at, end) for at, end in zip(begins, begins[1:] + [len(tokens)])]


def main_of(text: str, named: Optional[str] = None) -> Module:
    """The module of this name, or the first one of the text that no module runs; where each is run,
    the first.

    Of a name that no module has, one without signals. A name of the text that is none by its letters
    or its length is not asked for: the text's fault stands there."""
    modules = modules_of(text)
    run = {name for module in modules for name in module.runs}
    wanted = [
        module
        for module in modules
        if module.name == named or (named is None and module.name not in run)
    ]
    if named is None:
        wanted += modules[:1]
    if (
        wanted
        and named is None
        and not (wanted[0].name.isascii() and len(wanted[0].name) <= LONGEST)
    ):
        wanted[0].name = "main"
    return wanted[0] if wanted else Module(named or "main", [], [], [])


def no_module(library: LibraryText, name: str) -> str:
    """What is said of the name of a module where a library has none of it; empty where it has."""
    names = [module.name for module in modules_of(library.text)]
    if name in names:
        return ""
    told, question = f"there is no module {name} in {' '.join(library.paths)}", meant(name, names)
    return told + (f"; {question}" if question else "")


def no_input(module: Module, name: str) -> str:
    """What is said of a name that a module can't be offered; empty where it can."""
    if name in module.inputs():
        return ""
    if name in module.kinds():
        return f"{name} is an output of {module.name}, which nobody can offer"
    told = f"{module.name} has no input {name}"
    advice = APART_BY if "," in name else meant(name, module.inputs())
    return told + (f"; {advice}" if advice else "")
