"""The command `apply`: makes what a policy file asks for, and counts what was there already.

At the first command that is refused the rest is not sent, and what was made is taken back.
"""
from __future__ import annotations

import argparse
import dataclasses
import os
import pathlib
import sys
from typing import Any, Dict, Iterator, List, Optional, Union

from .access import Access
from .close_words import meant
from .command_table import KEYS, back_of
from .connection import Client, Refusal, start
from .gateway_words import policy_at
from .module_text import OFFERED, Module, main_of
from .planning import changes_of, needed
from .policy_file import NOT_NAMED, BadPolicy, Interfaces, Policy, Wish, read_file
from .pruning import candidates, check_terminal, exact, is_agreed, names_of, prune
from .programs import program_of
from .sentences import Set, sentence
from .session import roles_of, session_of, user_of
from .texts import Failed, Placed, read_text

THERE_ALREADY = {
    "UserExists", "RoleExists", "AlreadyAssigned", "AlreadyGranted", "EdgeExists", "DsdExists",
}  # fmt: skip
ASKED_ON = {
    "offer": "a signal", "observe": "a signal", "step": "a slot", "load": "a slot",
    "administer": "policy", "audit": "policy",
}  # fmt: skip
ALONE = ", on a program of its own, which has ended: name a server by --socket"
Command = Dict[str, Any]


def text_of(command: Command) -> str:
    """A command in words, as `grant driver offer 0.A`."""
    words = [command[key] for key in KEYS[command["cmd"]]]
    flat = [part for word in words for part in (word if isinstance(word, list) else [word])]
    return " ".join([command["cmd"], *map(str, flat)])


@dataclasses.dataclass
class Applied:
    """What became of a policy: what was made, what was there already, the wish that was refused,
    what is left of it.
    """

    made: List[Wish] = dataclasses.field(default_factory=list)
    there: List[Wish] = dataclasses.field(default_factory=list)
    refused: Optional[Wish] = None
    refusal: Optional[Refusal] = None
    unsent: List[Wish] = dataclasses.field(default_factory=list)
    left: List[Wish] = dataclasses.field(default_factory=list)  # made, and not taken back


def take_back(client: Client, made: List[Wish]) -> List[Wish]:
    """Takes back what was made, the last first. Answers what could not be."""
    left = []
    for wish in reversed(made):
        try:
            client.ask(**(wish.back or back_of(wish.command)))
        except Refusal:
            left.append(wish)
    return left


def apply_wishes(client: Client, wishes: List[Wish]) -> Applied:
    """Asks for each command in turn. At one that is refused it stops, and takes back what was
    made.
    """
    applied = Applied()
    for at, wish in enumerate(wishes):
        try:
            client.ask(**wish.command)
            applied.made.append(wish)
        except Refusal as refusal:
            if refusal.fault not in THERE_ALREADY:
                applied.refused, applied.refusal = wish, refusal
                applied.unsent = wishes[at + 1 :]
                applied.left = take_back(client, applied.made)
                return applied
            applied.there.append(wish)
    return applied


def module_beside(path: Union[str, "os.PathLike[str]"], name: str) -> Module:
    """The main module of a text that a policy file names. Raises Failed."""
    return main_of(read_text(pathlib.Path(path).parent / name, "the module text"))


def module_named(path: str, line: int, name: str) -> Module:
    """The main module of a text that this line of a policy file names. Raises Failed."""
    try:
        return module_beside(path, name)
    except Placed:
        raise
    except Failed as fault:
        raise Placed(f"{path}:{line}: {fault}") from fault


def texts_beside(path: Union[str, "os.PathLike[str]"]) -> Interfaces:
    """The interfaces of the texts that a policy file names."""
    return Interfaces(
        lambda _, name: module_beside(path, name).kinds() if name else None,
        NOT_NAMED,
    )


def read_policy_file(path: Union[str, "os.PathLike[str]"]) -> Policy:
    """What a policy file asks for. Raises Failed where it is none, or can't be read."""
    text = read_text(pathlib.Path(path) if str(path) != "-" else "-", "the policy")
    try:
        return read_file(text, texts_beside(path))
    except BadPolicy as fault:
        raise Placed(f"{path}:{fault.line}: {fault.what}") from fault


def apply_file(client: Client, path: Union[str, "os.PathLike[str]"]) -> Applied:
    """Makes what a policy file asks for. Raises BadPolicy, OSError, and Failed where it has patterns
    over a text that can't be read.
    """
    policy = read_file(pathlib.Path(path).read_text(encoding="utf-8"), texts_beside(path))
    return apply_wishes(client, policy.wishes)


def warnings_of(policy: Policy, path: str) -> Iterator[str]:
    """What is said of each permission that does nothing, or is on a signal that the slot's module
    doesn't have, or nobody can offer; and of each separation set that keeps a role from all sessions.
    """
    modules = {
        slot: (name, module_named(path, line, name))
        for slot, (line, name) in policy.modules.items()
    }
    access = Access(policy)
    for wish in policy.wishes:
        slot, _, signal = wish.command.get("object", "").partition(".")
        place = f"{path}:{wish.line}: warning: {text_of(wish.command)}"
        if wish.command["cmd"] == "grant" and (told := of_no_use(wish.command)):
            yield f"{place}: {told}"
        elif signal and slot.isdigit() and int(slot) in modules:
            name, module = modules[int(slot)]
            wrong = wrong_permission(wish.command["op"], signal, module.kinds())
            if wrong:
                yield f"{place}: {module.name} of {name} {wrong}"
        elif wish.command["cmd"] == "dsd":
            yield from (f"{place}: {told}" for told in kept_from_all(wish.command, access))


def kept_from_all(command: Command, access: Access) -> Iterator[str]:
    """What is said of each role that no session may have by a separation set, since it stands above
    too many of the set's roles.
    """
    for role in access.roles:
        below = [name for name in command["roles"] if name in access.below([role])]
        if command["name"] in access.keeping_apart([role]):
            yield f"no session may have {role}, which stands above {' and '.join(below)}"


def wrong_permission(op: str, signal: str, kinds: Dict[str, str]) -> Optional[str]:
    """What is wrong with a permission on a signal of a module; None where nothing is."""
    if signal not in kinds:
        question = meant(signal, kinds)
        return f"has no signal {signal}" + (f"; {question}" if question else "")
    if op == "offer" and kinds[signal] not in OFFERED:
        return f"gives {signal} as an output, which nobody can offer"
    return None


def of_no_use(grant: Command) -> Optional[str]:
    """What is said of a permission that no command asks for; None of any other."""
    object, wanted = grant["object"], ASKED_ON.get(grant["op"])
    kind = object if object == "policy" else "a signal" if "." in object else "a slot"
    if wanted in (None, kind):
        return None
    return f"this does nothing: {grant['op']} is asked for on {wanted}"


def sets_of(policy: Policy) -> Dict[str, Set]:
    """The separation sets of a policy, by their names."""
    commands = [wish.command for wish in policy.wishes if wish.command["cmd"] == "dsd"]
    return {command["name"]: (command["count"], command["roles"]) for command in commands}


def tell_refusal(applied: Applied, path: str, policy: Policy) -> None:
    """Tells the command that was refused, and what could not be taken back."""
    wish, refusal = applied.refused, applied.refusal
    assert wish and refusal
    told = sentence(refusal, (), sets_of(policy))
    keys = {"UnknownRole": "role", "UnknownUser": "user"}.get(refusal.fault)
    question = meant(refusal.fields[keys], names_of([policy], keys)) if keys else ""
    told += f"; {question}" if question else ""
    print(f"{path}:{wish.line}: {text_of(wish.command)}: {told}", file=sys.stderr)
    for left in applied.left:
        print(
            f"{path}:{left.line}: {text_of(left.command)}: could not be taken back", file=sys.stderr
        )


def end_of(applied: Applied) -> str:
    """What a policy that was refused ends with."""
    back = len(applied.made) - len(applied.left)
    told = f"a command was refused; {len(applied.unsent)} after it were not sent"
    kept = f", {len(applied.left)} could not be" if applied.left else ""
    return f"{told}; {back} of {len(applied.made)} that were made are taken back{kept}"


def dry_run(arguments: argparse.Namespace, policy: Policy) -> None:
    """Makes the policy on a program of its own, and lists its commands. Raises Failed where one is
    refused there.
    """
    path = arguments.file
    with start(program_of(arguments)) as client:
        client.login("root", ["root"])
        applied = apply_wishes(client, policy.wishes)
    told = [(wish, "") for wish in applied.made]
    told += [(wish, ": there already") for wish in applied.there]
    for wish, more in told:
        print(f"{path}:{wish.line}: {text_of(wish.command)}{more}")
    if applied.refused:
        tell_refusal(applied, path, policy)
        raise Failed("a command would be refused on a new server; nothing was sent to yours")
    print(f"{len(policy.wishes)} commands, on a program of its own; nothing was sent to a server")


def to_prune(
    policy: Policy, before: Optional[Policy], known: Optional[Dict[str, Any]]
) -> List[Command]:
    """The commands of --prune: what is there and not asked for, where that is known; else what may
    be there.
    """
    return candidates(policy, before) if known is None else exact(policy, known)


def known_policy(arguments: argparse.Namespace) -> Optional[Dict[str, Any]]:
    """The whole policy as a gateway tells it; None where none does."""
    if not arguments.socket:
        return None
    arguments.user = user_of(arguments)
    return policy_at(arguments.socket, arguments.user, roles_of(arguments))


def tell_plan(policy: Policy, taken: List[Command], known: Optional[Dict[str, Any]]) -> None:
    """Tells what would be made and taken away, before a person is asked."""
    wishes = changes_of(policy.wishes, known)[0] if known else policy.wishes
    for wish in wishes:
        print(f"{'to make' if known else 'asked for'}: {text_of(wish.command)}")
    for command in taken if known else []:
        print(f"not asked for: {text_of(command)}")


def tell_sets(applied: Applied, known: Optional[Dict[str, Any]], path: str) -> None:
    """Tells which separation sets were made anew, and of those that may be other ones than the file
    asks for.
    """
    for wish in applied.made:
        if wish.back:
            told = f"{text_of(wish.back)} was there: it is made anew"
            print(f"{path}:{wish.line}: {told}", file=sys.stderr, flush=True)
    for wish in applied.there if known is None else []:
        if wish.command["cmd"] == "dsd":
            name = wish.command["name"]
            told = f"a set {name} is there already, and the server doesn't tell its roles"
            told += f": if they have changed, `undsd {name}` first"
            print(f"{path}:{wish.line}: warning: {told}", file=sys.stderr, flush=True)


def check_words(arguments: argparse.Namespace) -> None:
    """Raises Failed where the arguments don't go together."""
    if (arguments.before or arguments.yes) and not arguments.prune:
        raise Failed("--before and --yes are for --prune")
    if arguments.dry_run and (arguments.socket or arguments.prune):
        told = "--dry-run tries the file on a program of its own"
        raise Failed(f"{told}: leave --socket and --prune away")
    if arguments.prune and not arguments.yes:
        check_terminal()


def send(
    arguments: argparse.Namespace,
    policy: Policy,
    known: Optional[Dict[str, Any]],
    taken: List[Command],
) -> None:
    """Makes what the file asks for, and takes away the rest. Raises Failed where a command was
    refused.
    """
    path = arguments.file
    with session_of(arguments) as (client, _):
        wishes, there = needed(policy.wishes, known) if known else (policy.wishes, [])
        applied = apply_wishes(client, wishes)
        applied.there += there
        if applied.refused:
            sys.stdout.flush()
            tell_refusal(applied, path, policy)
            raise Failed(end_of(applied))
        tell_sets(applied, known, path)
        added = sum(wish.back is None for wish in applied.made)
        print(
            f"{len(applied.there)} there already, {added} added{'' if arguments.socket else ALONE}"
        )
        if arguments.prune:
            prune(client, taken, text_of)


def apply(arguments: argparse.Namespace) -> None:
    """Applies the policy of a file as the user that the arguments name. Raises Failed where the
    file is no policy, or a command was refused.
    """
    path = arguments.file
    check_words(arguments)
    policy = read_policy_file(path)
    for warning in warnings_of(policy, path):
        print(warning, file=sys.stderr, flush=True)
    if arguments.dry_run:
        return dry_run(arguments, policy)
    before = read_policy_file(arguments.before) if arguments.before else None
    known = known_policy(arguments)
    taken = to_prune(policy, before, known) if arguments.prune else []
    if arguments.prune and not arguments.yes:
        tell_plan(policy, taken, known)
        if not is_agreed():
            return print("nothing is changed")
    send(arguments, policy, known, taken)
