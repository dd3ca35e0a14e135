#!/usr/bin/env python3
"""Writes the completions for bash, zsh and fish from the words of the command line.

usage: make_completions.py

`make client` fails while a file of clients/completions isn't what this writes. (Debian's shtab knows
no fish.)
"""
from __future__ import annotations

import argparse
import dataclasses
import pathlib
import sys
from typing import Dict, Iterator, List

HERE = pathlib.Path(__file__).resolve().parent
FOLDER = HERE / "completions"
NAME = "estserve-client"
OF_FILES = ("FILE", "PATH", "OUT", "OLD", "POLICY", "DIR")  # what stands for a file or folder
HEAD = "Completion of estserve-client for {}, written by clients/make_completions.py."
sys.path.insert(0, str(HERE))
sys.dont_write_bytecode = True
from estserve_client import commands  # noqa: E402


@dataclasses.dataclass
class Option:
    """An option: its words, what it does, whether a word follows, whether that is a file, and
    whether it may be given again.
    """

    words: List[str]
    help: str
    takes: str
    is_file: bool
    repeats: bool


@dataclasses.dataclass
class Command:
    """A command: what it does, its options, its further words, and whether it takes files."""

    help: str
    options: List[Option]
    words: "Dict[str, Command]"
    takes_files: bool


def option_of(action: argparse.Action) -> Option:
    """An option as it is completed."""
    takes = "" if action.nargs == 0 else str(action.metavar or action.dest).upper()
    told = (action.help or "").replace("%%", "%")
    repeats = type(action).__name__ in ("_AppendAction", "_ExtendAction")
    return Option(list(action.option_strings), told, takes, takes in OF_FILES, repeats)


def command_of(parser: argparse.ArgumentParser, help: str) -> Command:
    """A command with its options and its further words."""
    options, words, takes_files = [], {}, False
    for action in parser._actions:
        if isinstance(action, argparse._SubParsersAction):
            helps = {choice.dest: choice.help or "" for choice in action._choices_actions}
            words = {
                name: command_of(inner, helps.get(name, ""))
                for name, inner in action.choices.items()
            }
        elif not action.option_strings:
            takes_files |= action.metavar in OF_FILES
        elif action.help is not argparse.SUPPRESS:
            options.append(option_of(action))
    return Command(help, options, words, takes_files)


def client() -> Command:
    """The whole command line, with the commands of packages beside the client."""
    whole = command_of(commands.make_parser(), "")
    for name, _ in commands.NEIGHBOURS:
        if name in whole.words:
            help = whole.words[name].help
            asked = command_of(commands.make_parser(name), "").words[name]
            whole.words[name] = dataclasses.replace(asked, help=help)
    return whole


def paths_of(whole: Command) -> "Iterator[tuple[str, Command]]":
    """Each command with its words, a further word after its command."""
    for name, command in whole.words.items():
        yield name, command
        for word, inner in command.words.items():
            yield f"{name} {word}", inner


BASH = """_estserve_client() {
    local word=${COMP_WORDS[COMP_CWORD]} before=${COMP_WORDS[COMP_CWORD-1]} words='' files=''
    local path=${COMP_WORDS[1]}
    COMPREPLY=()
    if ((COMP_CWORD == 1)); then path=; fi
    case "$path ${COMP_WORDS[2]}" in
    %s)
        if ((COMP_CWORD > 2)); then path="$path ${COMP_WORDS[2]}"; fi
        ;;
    esac
    case "$path" in
%s
    esac
    if [[ -n $files && $word != -* ]]; then
        mapfile -t COMPREPLY < <(compgen -f -- "$word")
    else
        mapfile -t COMPREPLY < <(compgen -W "$words" -- "$word")
    fi
}
complete -o filenames -F _estserve_client estserve-client"""


def in_two_words(whole: Command) -> str:
    """The commands of two words, as a pattern of a shell."""
    return " | ".join(f"'{path}'" for path, _ in paths_of(whole) if " " in path) or "' '"


def bash_case(path: str, command: Command) -> Iterator[str]:
    """The lines for one command."""
    words = [option.words[-1] for option in command.options]
    yield f"    '{path}')"
    yield f"        words='{' '.join([*command.words, *words])}'"
    if command.takes_files:
        yield "        files=1"
    with_words = [option for option in command.options if option.takes]
    named = [word for option in with_words if option.is_file for word in option.words]
    others = [word for option in with_words if not option.is_file for word in option.words]
    if with_words:
        yield '        case "$before" in'
        if named:
            yield f"        {' | '.join(named)}) words='' files=1 ;;"
        if others:
            yield f"        {' | '.join(others)}) return ;;"
        yield "        esac"
    yield "        ;;"


def bash(whole: Command) -> Iterator[str]:
    yield "# " + HEAD.format("bash")
    cases = [line for path, one in [("", whole), *paths_of(whole)] for line in bash_case(path, one)]
    yield from (BASH % (in_two_words(whole), "\n".join(cases))).split("\n")


def zsh_text(text: str) -> str:
    """A text inside single quotes, between brackets or before a colon."""
    for letter in "\\[]:":
        text = text.replace(letter, "\\" + letter)
    return text.replace("'", "'\\''")


def plain(help: str) -> str:
    """A help text without what a shell would run."""
    return help.replace("`", "").replace("$", "").replace('"', "")


def zsh_words(command: Command) -> Iterator[str]:
    """The words of `_arguments` for a command."""
    for option in command.options:
        for word in option.words:
            after = (
                f":{option.takes.lower()}:{'_files' if option.is_file else ''}"
                if option.takes
                else ""
            )
            yield f"'{'*' * option.repeats}{word}[{zsh_text(option.help)}]{after}'"
    if command.words:
        listed = " ".join(
            f'{name}\\:"{zsh_text(plain(inner.help))}"' for name, inner in command.words.items()
        )
        yield f"'1:command:(({listed}))'"
    elif command.takes_files:
        yield "'*:file:_files'"


def zsh(whole: Command) -> Iterator[str]:
    yield "#compdef estserve-client"
    yield "# " + HEAD.format("zsh")
    yield "local path=$words[2]"
    yield "if ((CURRENT == 2)); then path=; fi"
    yield "if ((CURRENT > 3)); then"
    yield '    case "$path $words[3]" in'
    yield f"    {in_two_words(whole)})"
    yield '        path="$path $words[3]"'
    yield "        shift words"
    yield "        ((CURRENT--))"
    yield "        ;;"
    yield "    esac"
    yield "fi"
    yield "if [[ -n $path ]]; then shift words; ((CURRENT--)); fi"
    yield 'case "$path" in'
    for path, command in [("", whole), *paths_of(whole)]:
        yield f"'{path}')"
        yield "    _arguments \\"
        words = list(zsh_words(command))
        yield from (f"        {word} \\" for word in words[:-1])
        yield f"        {words[-1]}"
        yield "    ;;"
    yield "esac"


def fish_text(text: str) -> str:
    return text.replace("\\", "\\\\").replace("'", "\\'")


def fish(whole: Command) -> Iterator[str]:
    yield "# " + HEAD.format("fish")
    yield f"complete -c {NAME} -f"
    for path, command in [("", whole), *paths_of(whole)]:
        names = path.split()
        when = " ; and ".join(f"__fish_seen_subcommand_from {name}" for name in names)
        if len(names) == 1 and command.words:
            when += f" ; and not __fish_seen_subcommand_from {' '.join(command.words)}"
        condition = f" -n '{when or '__fish_use_subcommand'}'"
        for name, inner in command.words.items():
            yield f"complete -c {NAME}{condition} -a {name} -d '{fish_text(inner.help)}'"
        if command.takes_files:
            yield f"complete -c {NAME}{condition} -F"
        for option in command.options:
            words = " ".join(
                f"-l {word[2:]}" if word.startswith("--") else f"-s {word[1:]}"
                for word in option.words
            )
            takes = "" if not option.takes else " -r -F" if option.is_file else " -x"
            yield f"complete -c {NAME}{condition} {words}{takes} -d '{fish_text(option.help)}'"


def files() -> Dict[str, str]:
    """The files of the folder, by their names."""
    whole = client()
    makers = {"estserve-client.bash": bash, "_estserve-client": zsh, "estserve-client.fish": fish}
    return {name: "".join(line + "\n" for line in make(whole)) for name, make in makers.items()}


if __name__ == "__main__":
    for name, text in files().items():
        (FOLDER / name).write_text(text)
