"""What users and roles may do by a policy file: the roles below a role, permissions, sessions."""
from __future__ import annotations

import dataclasses
from typing import Any, Dict, FrozenSet, Iterable, List, Set, Tuple

from .policy_file import Policy

Roles = FrozenSet[str]


@dataclasses.dataclass(frozen=True)
class Separation:
    """A separation set: its name, its roles, and how many of them no session may have."""

    name: str
    roles: Roles
    count: int


class Access:
    """The users and roles of a policy, with what is there from the start: the user and the role
    root.
    """

    def __init__(self, policy: Policy) -> None:
        commands = [wish.command for wish in policy.wishes]
        of = {cmd: [one for one in commands if one["cmd"] == cmd] for cmd in COMMANDS}
        self.users = list(dict.fromkeys(["root", *(one["user"] for one in of["adduser"])]))
        self.roles = list(dict.fromkeys(["root", *(one["role"] for one in of["addrole"])]))
        self.juniors = pairs(of["inherit"], "senior", "junior")
        self.assigned = pairs(of["assign"], "user", "role")
        self.assigned.setdefault("root", set()).add("root")
        self.granted: Dict[str, Set[Tuple[str, str]]] = {}
        for one in of["grant"]:
            self.granted.setdefault(one["role"], set()).add((one["op"], one["object"]))
        self.sets = [
            Separation(one["name"], frozenset(one["roles"]), one["count"]) for one in of["dsd"]
        ]

    def below(self, roles: Iterable[str]) -> Roles:
        """The roles, and all below them."""
        found, line = set(roles), list(roles)
        for role in line:
            fresh = self.juniors.get(role, set()) - found
            found |= fresh
            line += fresh
        return frozenset(found)

    def authorized(self, user: str) -> Roles:
        """The roles that a user may activate."""
        return self.below(self.assigned.get(user, ()))

    def permissions(self, roles: Iterable[str]) -> Set[Tuple[str, str]]:
        """What sessions with these roles active may do: operations with their objects."""
        return {pair for role in self.below(roles) for pair in self.granted.get(role, ())}

    def keeping_apart(self, roles: Iterable[str]) -> List[str]:
        """The separation sets by which no session may have these roles active together."""
        found = self.below(roles)
        return [one.name for one in self.sets if len(one.roles & found) >= one.count]

    def usable(self, user: str) -> List[str]:
        """The roles by which a user may act, in one session or several: no separation set keeps one
        of them from every session.
        """
        allowed = self.authorized(user)
        return [role for role in self.roles if role in allowed and not self.keeping_apart([role])]


COMMANDS = ("adduser", "addrole", "inherit", "assign", "grant", "dsd")


def pairs(commands: List[Dict[str, Any]], key: str, value: str) -> Dict[str, Set[str]]:
    """The values of commands by their keys."""
    found: Dict[str, Set[str]] = {}
    for one in commands:
        found.setdefault(one[key], set()).add(one[value])
    return found
