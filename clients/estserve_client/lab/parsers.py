"""The words of the commands `prove`, `coverage`, `lint`, `whocan`, `graph` and `compile`."""
from __future__ import annotations

from typing import TYPE_CHECKING, Any

if TYPE_CHECKING:
    from ..commands import Parser

MOST = 1_000_000  # states, and reactions
PROGRAM = "the program to start (default: that of the variable ESTLAB, or estlab on PATH)"
UNPROVED = "in the repository: build estlab without proof, and keep it while no source changes"
MAIN = "the module that is asked of (default: the first that none runs)"
TEXTS = "the module text; of several files all modules make one library"
PAIRS = 4_000_000  # of a state and a set of inputs
LIMIT = "end the search after this many states, or reactions (default: 1,000,000)"
TAKEN = (
    "It is taken for granted that the policy stays as it is, that the module stays loaded, and that"
    " nothing is pending at first. A user may log in again with other roles."
)


def number(text: str) -> int:
    """A number from 0 on. Raises ValueError."""
    found = int(text)
    if found < 0:
        raise ValueError(text)
    return found


def add_lab(parser: Parser) -> None:
    """Adds the words by which the program is found, and how far it searches."""
    programs = parser.add_mutually_exclusive_group()
    programs.add_argument("--estlab", metavar="PATH", help=PROGRAM)
    programs.add_argument("--unproved", action="store_true", help=UNPROVED)
    parser.add_argument("--most", type=number, default=MOST, metavar="N", help=LIMIT)


def add_prove(commands: Any, act: Any) -> None:
    """Adds the words of `prove`."""
    help = "judge claims in every run of a module, and draw a shortest counterexample"
    parser = commands.add_parser("prove", help=help)
    add = parser.add_argument
    help = "the module text, of several files one library; or folders with files NAME.claims"
    add("file", nargs="+", metavar="FILE", help=help)
    add("--main", metavar="MODULE", help=MAIN)
    help = "claim that this never holds, as `A and not B`; may be given more than once"
    add("--never", action="append", default=[], metavar="TEST", help=help)
    help = "claim that this holds in each instant; may be given more than once"
    add("--always", action="append", default=[], metavar="TEST", help=help)
    help = "run this module beside, and claim that it never emits anything"
    add("--observer", action="append", default=[], metavar="MODULE", help=help)
    add("--inputs", action="append", metavar="A,B", help="only these inputs may be offered")
    help = "claim that the module of this file does the same"
    add("--same", action="append", default=[], metavar="FILE", help=help)
    help = "the list of inputs of a counterexample (default: NAME.counterexample.inputs)"
    add("--write", metavar="FILE", help=help)
    help = "write what came of each claim as a file of JUnit's XML too"
    add("--junit", metavar="OUT", help=help)
    add_lab(parser)
    parser.set_defaults(act=act)


def add_coverage(commands: Any, act: Any) -> None:
    """Adds the words of `coverage`."""
    help = "say which states, reactions and emissions of a module the scenarios of folders try"
    parser = commands.add_parser("coverage", help=help)
    add = parser.add_argument
    add("folder", nargs="+", metavar="DIR", help="a folder with files NAME.inputs")
    help = "the module texts for all of them (default: NAME.strl, or all .strl files of the folder)"
    add("--module", action="extend", nargs="+", metavar="FILE", help=help)
    add("--main", metavar="MODULE", help=MAIN)
    help = "write scenarios that try the rest, as NAME.coverage1.inputs and so on"
    add("--write", action="store_true", help=help)
    add_lab(parser)
    parser.set_defaults(act=act)


def add_lint(commands: Any, act: Any) -> None:
    """Adds the words of `lint`."""
    help = "name inputs, outputs and statements of no use, and how a module gets Stuck"
    parser = commands.add_parser("lint", help=help)
    parser.add_argument("file", nargs="+", metavar="FILE", help=TEXTS)
    parser.add_argument("--main", metavar="MODULE", help=MAIN)
    add_lab(parser)
    parser.set_defaults(act=act)


def add_whocan(commands: Any, act: Any) -> None:
    """Adds the words of `whocan`."""
    help = "say who, by which roles of a policy, can bring a signal about while nobody else acts"
    parser = commands.add_parser("whocan", help=help, description=f"Says w{help[5:]}. {TAKEN}")
    add = parser.add_argument
    help = "the policy, in TOML; its table `modules` names the texts"
    add("policy", metavar="POLICY", help=help)
    help = "a signal of a slot, as 0.O; of a policy with one module the signal's name will do"
    add("signal", nargs="+", metavar="SIGNAL", help=help)
    help = "ask of these roles together, whoever has them"
    add("--roles", action="append", metavar="R,S", help=help)
    add("--main", metavar="MODULE", help=MAIN)
    add_lab(parser)
    parser.set_defaults(act=act)


def add_graph(commands: Any, act: Any) -> None:
    """Adds the words of `graph`."""
    help = "draw the states of a module, under 60 of them, as Graphviz dot"
    parser = commands.add_parser("graph", help=help)
    parser.add_argument("file", nargs="+", metavar="FILE", help=TEXTS)
    parser.add_argument("--main", metavar="MODULE", help=MAIN)
    help = "draw with these inputs alone"
    parser.add_argument("--inputs", action="append", metavar="A,B", help=help)
    add_lab(parser)
    parser.set_defaults(act=act)


def add_compile(commands: Any, act: Any) -> None:
    """Adds the words of `compile`."""
    help = "write a module in C, as a table made from all its runs"
    parser = commands.add_parser("compile", help=help)
    add = parser.add_argument
    add("file", nargs="+", metavar="FILE", help=TEXTS)
    add("--main", metavar="MODULE", help=MAIN)
    help = "write NAME.h and NAME.c, with NAME in each name of C (default: the module's, in lower case)"
    add("-o", dest="out", metavar="NAME", help=help)
    help = "write the module's cells and a loop over them, where its table is too large"
    add("--cells", action="store_true", help=help)
    help = "compile the C, and compare it with all runs: every state and every set of inputs; with"
    help += " --cells, compare it with estserve on random walks"
    add("--check", action="store_true", help=help)
    help = "refuse more pairs of a state and a set of inputs than these (default: 4,000,000)"
    add("--pairs", type=number, default=PAIRS, metavar="N", help=help)
    add_lab(parser)
    parser.set_defaults(act=act)
