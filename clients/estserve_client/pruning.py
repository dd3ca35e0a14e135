"""What `apply --prune` takes away: what a policy file doesn't ask for.

A gateway tells the whole policy. A server has no command that lists it, so there what may be there is
tried: each assignment, edge and permission over the names that the file has, or an earlier file. One
that isn't there is refused, and changes nothing.
"""
from __future__ import annotations

import itertools
import sys
from typing import Any, Callable, Dict, List, Optional, Set, Tuple

from .command_table import KEYS, OPERATIONS, SLOTS
from .connection import Client, Refusal
from .policy_file import Policy
from .texts import Failed

NOT_THERE = {
    "UnknownUser", "UnknownRole", "NotAssigned", "NotGranted", "NoEdge", "NoDsd",
}  # fmt: skip
Command = Dict[str, Any]


def names_of(policies: List[Policy], *keys: str) -> List[str]:
    """The names that stand in commands of the policies by these keys, each once, in their order."""
    commands = [wish.command for policy in policies for wish in policy.wishes]
    found = [command[key] for command in commands for key in keys if key in command]
    found += [role for command in commands for role in command.get("roles", ()) if "role" in keys]
    return list(dict.fromkeys(found))


def wanted_of(policy: Policy) -> Set[Tuple[str, ...]]:
    """What the file asks for, as what would be tried."""
    wanted: Set[Tuple[str, ...]] = {("root", "root"), ("root", "administer", "policy")}
    for command in (wish.command for wish in policy.wishes):
        if command["cmd"] in ("assign", "inherit", "grant"):
            wanted.add(tuple(command[key] for key in KEYS[command["cmd"]]))
    return wanted


def objects_of(policies: List[Policy]) -> List[str]:
    """The objects on which permissions are tried: the policy, each slot, and each signal that is
    named.
    """
    return [
        "policy",
        *map(str, range(SLOTS)),
        *[name for name in names_of(policies, "object") if "." in name],
    ]


def candidates(policy: Policy, before: Optional[Policy] = None) -> List[Command]:
    """The commands by which all is taken away that the file doesn't ask for, as far as its names
    and those of an earlier file tell. Root's own role and its right to administer stay.
    """
    policies = [policy, *([before] if before else [])]
    users, roles = names_of(policies, "user"), names_of(policies, "role", "senior", "junior")
    kept_users, kept_roles = names_of([policy], "user"), names_of(
        [policy], "role", "senior", "junior"
    )
    wanted = wanted_of(policy)
    found: List[Command] = [
        {"cmd": "revoke", "role": role, "op": op, "object": object}
        for role, op, object in itertools.product(roles, OPERATIONS, objects_of(policies))
        if (role, op, object) not in wanted
    ]
    found += [
        {"cmd": "deassign", "user": user, "role": role}
        for user, role in itertools.product(users, roles)
        if (user, role) not in wanted
    ]
    found += [
        {"cmd": "disinherit", "senior": senior, "junior": junior}
        for senior, junior in itertools.permutations(roles, 2)
        if (senior, junior) not in wanted
    ]
    sets = [name for name in names_of(policies, "name") if name not in names_of([policy], "name")]
    found += [{"cmd": "undsd", "name": name} for name in sets]
    found += [
        {"cmd": "deluser", "user": user} for user in users if user not in kept_users + ["root"]
    ]
    return found + [
        {"cmd": "delrole", "role": role} for role in roles if role not in kept_roles + ["root"]
    ]


def exact(policy: Policy, known: Dict[str, Any]) -> List[Command]:
    """The commands by which all is taken away that the file doesn't ask for, of what is known to be
    there.
    """
    wanted = wanted_of(policy)
    sets, users = set(names_of([policy], "name")), {"root", *names_of([policy], "user")}
    roles = {"root", *names_of([policy], "role", "senior", "junior")}
    there = {
        "revoke": [entry for entry in known["granted"] if tuple(entry) not in wanted],
        "deassign": [entry for entry in known["assigned"] if tuple(entry) not in wanted],
        "disinherit": [entry for entry in known["edges"] if tuple(entry) not in wanted],
        "undsd": [[one["name"]] for one in known["sets"] if one["name"] not in sets],
        "deluser": [[user] for user in known["users"] if user not in users],
        "delrole": [[role] for role in known["roles"] if role not in roles],
    }
    return [
        {"cmd": cmd, **dict(zip(KEYS[cmd], words))}
        for cmd, found in there.items()
        for words in found
    ]


def check_terminal() -> None:
    """Raises Failed where nobody can be asked."""
    if not sys.stdin.isatty():
        raise Failed("--prune asks, and standard input is no terminal: say --yes")


def is_agreed() -> bool:
    """Whether a person agrees to apply the file, and to take away what it doesn't ask for."""
    print(
        "apply the file, and take away what the file doesn't ask for? sessions that need it end [y/N] ",
        end="",
        flush=True,
    )
    return sys.stdin.readline().strip().lower() in ("y", "yes")


def prune(client: Client, commands: List[Command], text_of: Callable[[Command], str]) -> None:
    """Takes away what is there, and lists it. Raises Failed where a command is refused that was not
    for nothing.
    """
    answers = client.ask_all(commands)
    taken = [command for command, answer in zip(commands, answers) if "ok" in answer]
    for command in taken:
        print(text_of(command))
    print(f"{len(taken)} taken away")
    pairs = zip(commands, answers)
    refusals = [Refusal(answer, command) for command, answer in pairs if "code" in answer]
    left = [refusal for refusal in refusals if refusal.fault not in NOT_THERE]
    if left:
        first = f"{text_of(left[0].command)}: {left[0].fault}"
        raise Failed(f"{len(left)} could not be taken away; the first: {first}")
