"""The words of the command line: each command with its options.

A further command is a function `add_NAME` here, a line in ADDERS, and a function that does it, in a
module of its own that is imported when it is asked for; then a section of man/estserve-client.1, and
`make_completions.py` run anew. A further package brings its commands by NEIGHBOURS.
"""
from __future__ import annotations

import argparse
import os
import sys

from . import __version__
from .connection import READS
from .messages import TELLER

TYPE_CHECKING = False
if TYPE_CHECKING:
    from typing import Any, Callable

VARIABLES = (
    "The variable ESTSERVE names the program estserve, and ESTLAB the program estlab; without them"
    " they are looked for on PATH. They come with the Debian package, or from `make build`."
)
BESIDE = (
    "Lists NAME.CASE.inputs are of NAME.strl too, with the .strl files beside that have what it runs."
    " Where that is not there, all .strl files beside are taken, if only one module is run by none."
    " What `prove` writes, NAME.counterexample.inputs, is no scenario."
)

# subcommands of further packages, which may be there
NEIGHBOURS = (("team", "estserve_team"),)
NEXT_FOLDER = "gateway"  # where they lie in the repository, beside `clients`


def terminal_columns() -> int:
    """The columns of the terminal that standard output is, or of the variable COLUMNS; else 80."""
    try:
        return int(os.environ.get("COLUMNS", 0)) or os.get_terminal_size(1).columns or 80
    except (ValueError, OSError):
        return 80


class Layout(argparse.HelpFormatter):
    """Lays help out as the library does. Each option that is added makes a layout; the library's
    own imports shutil for the columns, which takes a run longer than all options.
    """

    def __init__(self, prog: str, **more: Any) -> None:
        super().__init__(prog, width=terminal_columns() - 2, **more)


class Parser(argparse.ArgumentParser):
    """A parser, and those of its subcommands, whose help is laid out so."""

    def __init__(self, **words: Any) -> None:
        super().__init__(formatter_class=Layout, **words)


def doing(module: str, name: str) -> Callable[[argparse.Namespace], Any]:
    """What does a command: a function of a module, which is imported when it is asked for."""

    def act(arguments: argparse.Namespace) -> Any:
        import importlib

        return getattr(importlib.import_module("." + module, __package__), name)(arguments)

    return act


def add_program(parser: Parser) -> None:
    programs = parser.add_mutually_exclusive_group()
    help = "the program to start (default: that of the variable ESTSERVE, or estserve on PATH)"
    programs.add_argument("--program", metavar="PATH", help=help)
    help = "in the repository: build the program without proof, and keep it while no source changes"
    programs.add_argument("--unproved", action="store_true", help=help)


def add_lab(parser: Parser) -> None:
    help = "what tells the inside of instants (default: that of the variable ESTLAB, or estlab on PATH)"
    parser.add_argument("--estlab", metavar="PATH", help=help)


def add_server(parser: Parser, roles: Any) -> None:
    help = "the server's Unix socket; without it the program is started for you alone"
    parser.add_argument("--socket", metavar="PATH", help=help)
    help = "the user to log in as (default: root; at a gateway whom you may be, if it is one)"
    parser.add_argument("--user", help=help)
    help = "a role to activate; may be given more than once (default: root for root, else none)"
    parser.add_argument("--role", action="extend", nargs=roles, metavar="ROLE", help=help)
    help = "connect again after this many reads (the server ends a connection after 1,000,000)"
    parser.add_argument("--reads", type=int, default=READS, metavar="N", help=help)


def add_pictures(parser: Parser) -> None:
    pictures = parser.add_mutually_exclusive_group()
    pictures.add_argument(
        "--table", action="store_true", help="draw a table, a row for each instant (the default)"
    )
    pictures.add_argument("--wave", action="store_true", help="draw waves with characters")
    pictures.add_argument("--vcd", metavar="OUT", help="write a VCD file, for a viewer of waves")


def add_run(commands: Any) -> None:
    parser = commands.add_parser(
        "run", help="run a module through a list of inputs, and draw its instants"
    )
    add = parser.add_argument
    add(
        "file",
        nargs="+",
        metavar="FILE",
        help="the module text; of several files all modules make one library",
    )
    add("--main", metavar="MODULE", help="the module to run (default: the first that none runs)")
    add(
        "--inputs",
        default="-",
        metavar="FILE",
        help="the list of inputs, one instant a line (default: standard input)",
    )
    add("--signals", action="append", metavar="A,B", help="draw these signals, and no others")
    add(
        "--locals",
        action="store_true",
        help="draw local signals too; of a module that is run as MODULE.S",
    )
    add("--trace", action="store_true", help="say of each instant which lines of the text ran")
    help = "stop at the first instant in which this holds, as `A and not B`"
    add("--until", metavar="TEST", help=help)
    add_pictures(parser)
    add(
        "--expect",
        metavar="FILE",
        help="compare the table with that of the file, and show the first difference",
    )
    add("--update", action="store_true", help="write the file of --expect anew")
    add("--watch", action="store_true", help="run again whenever a file is saved, until Ctrl-C")
    add_program(parser)
    add_lab(parser)
    add_server(parser, 1)
    add("--slot", type=int, default=0, metavar="N", help="the server's slot to run in (default: 0)")
    add(
        "--loaded",
        action="store_true",
        help="run what is loaded in that slot; nothing is loaded or unloaded",
    )
    parser.set_defaults(act=doing("running", "run"))


def add_test(commands: Any) -> None:
    help = "run each NAME.inputs of folders, and compare it with NAME.expected"
    parser = commands.add_parser("test", help=help, epilog=BESIDE)
    add = parser.add_argument
    add("folder", nargs="+", metavar="DIR", help="a folder; of several each has its texts beside")
    help = "the module texts for all of them (default: NAME.strl, or all .strl files of the folder)"
    add("--module", action="extend", nargs="+", metavar="FILE", help=help)
    add("--main", metavar="MODULE", help="the module to run (default: the first that none runs)")
    help = "run the scenarios with this in their name, or of this pattern with `*`"
    add("-k", action="append", default=[], metavar="NAME", help=help)
    help = "write each NAME.expected anew, and say where that has a refusal"
    add("--update", action="store_true", help=help)
    add("--junit", metavar="OUT", help="write the outcomes as a file of JUnit's XML too")
    reports = parser.add_mutually_exclusive_group()
    reports.add_argument("--tap", action="store_true", help="print lines of TAP, version 13")
    help = "print one object of JSON, with each outcome"
    reports.add_argument("--json", action="store_true", help=help)
    add_program(parser)
    parser.set_defaults(act=doing("testing", "test"))


def add_shell(commands: Any) -> None:
    parser = commands.add_parser(
        "shell", help="a dialogue, or a script: one command a line, `help` lists them"
    )
    add_server(parser, "+")
    add_program(parser)
    add_lab(parser)
    parser.add_argument(
        "--stop", action="store_true", help="end a script at the first line that is refused"
    )
    help = "a policy file whose names of slots may stand for their numbers"
    parser.add_argument("--names", metavar="POLICY", help=help)
    parser.set_defaults(act=doing("shell", "shell"))


def add_apply(commands: Any) -> None:
    parser = commands.add_parser(
        "apply", help="make users, roles, permissions and sets from a file"
    )
    add = parser.add_argument
    add("file", metavar="POLICY", help="the policy, in TOML")
    add(
        "--dry-run",
        action="store_true",
        help="try it on a program of its own, list its commands, and send nothing",
    )
    add(
        "--prune",
        action="store_true",
        help="ask first, and take away what the file doesn't ask for",
    )
    add(
        "--before",
        metavar="OLD",
        help="an earlier policy file: --prune takes away its users, roles and sets too",
    )
    add("--yes", action="store_true", help="let --prune not ask")
    add_server(parser, 1)
    add_program(parser)
    parser.set_defaults(act=doing("applying", "apply"))


def add_format(commands: Any) -> None:
    help = "lay module texts out; tokens and comments stay as they are"
    parser = commands.add_parser("format", help=help)
    help = "a module text, or a folder with files NAME.strl; `-` is standard input"
    parser.add_argument("file", nargs="+", metavar="FILE", help=help)
    only = parser.add_mutually_exclusive_group()
    help = "write nothing: name what would change, with status 1"
    only.add_argument("--check", action="store_true", help=help)
    help = "write nothing: show what would change, with status 1"
    only.add_argument("--diff", action="store_true", help=help)
    parser.set_defaults(act=doing("formatting", "format_files"))


def add_lsp(commands: Any) -> None:
    help = "a language server for editors, over standard input and output"
    parser = commands.add_parser("lsp", help=help)
    add_program(parser)
    parser.set_defaults(act=doing("editor.server", "serve_editor"))


def add_proof(commands: Any) -> None:
    help = "compare the installed programs with the package's PROOF.json, and say what it shows"
    parser = commands.add_parser("proof", help=help)
    help = "the file, in place of the installed one"
    parser.add_argument("--record", metavar="FILE", help=help)
    parser.set_defaults(act=doing("proof", "proof"))


def adding(name: str, module: str, function: str = "") -> Callable[[Any], None]:
    """Adds a command of estlab: its words are imported when it is asked for, and so is what does
    it, which has the command's name unless another one is given.
    """

    def add(commands: Any) -> None:
        from .lab import parsers

        getattr(parsers, "add_" + name)(commands, doing("lab." + module, function or name))

    return add


class TellVersion(argparse.Action):
    """Prints the version, and of a package whether it is unproved."""

    def __call__(self, parser: argparse.ArgumentParser, *words: Any, **more: Any) -> None:
        from .proof import version_suffix

        print(f"estserve-client {__version__}{version_suffix()}")
        parser.exit()


def add_neighbour(commands: Any, name: str, package: str, asked: str) -> None:
    """Adds the subcommand of a further package. The package has its HELP, and a module
    `command` with a function `add_parser(subparsers)`, which is imported where it is asked for.
    """
    import importlib

    if asked == name:
        importlib.import_module(package + ".command").add_parser(commands)
    else:
        commands.add_parser(name, help=importlib.import_module(package).HELP)


def find_neighbour(package: str) -> bool:
    """Answers whether a further package is there: beside this one, as where both are installed, or
    in the repository's folder for it, in which Python then looks too.
    """
    here = os.path.dirname(os.path.dirname(os.path.realpath(__file__)))
    if os.path.isdir(os.path.join(here, package)):
        return True
    folder = os.path.join(os.path.dirname(here), NEXT_FOLDER)
    if not os.path.isdir(os.path.join(folder, package)):
        return False
    if folder not in sys.path:
        sys.path.insert(0, folder)
    return True


def add_neighbours(commands: Any, asked: str) -> None:
    """Adds the subcommands of packages whose folders are there, unless one that is there already is
    asked for.
    """
    for name, package in NEIGHBOURS:
        if asked not in commands.choices and find_neighbour(package):
            add_neighbour(commands, name, package, asked)


ADDERS = {
    "run": add_run,
    "test": add_test,
    "format": add_format,
    "lsp": add_lsp,
    "shell": add_shell,
    "apply": add_apply,
    "proof": add_proof,
    "prove": adding("prove", "proving"),
    "coverage": adding("coverage", "coverage"),
    "lint": adding("lint", "linting"),
    "whocan": adding("whocan", "whocan"),
    "graph": adding("graph", "graph"),
    "compile": adding("compile", "compiling", "compile_module"),
}


def make_parser(asked: str = "") -> Parser:
    """The words of the command line, with the one command that is asked for, or else with all."""
    parser = Parser(prog=TELLER.name, description="The client of estserve.", epilog=VARIABLES)
    help = "print the version, and end"
    parser.add_argument("--version", action=TellVersion, nargs=0, help=help)
    # Without `prog` the library words the usage anew, for which it imports more than all the rest.
    commands = parser.add_subparsers(
        dest="command", required=True, metavar="COMMAND", prog=parser.prog
    )
    for add in [ADDERS[asked]] if asked in ADDERS else ADDERS.values():
        add(commands)
    add_neighbours(commands, asked)
    return parser
