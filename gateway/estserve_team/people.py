"""Who speaks: the Unix user of a peer, and the policy users that a login of it may name."""
import os
import pwd
import socket
import struct
from typing import Dict, List, NamedTuple, Optional, Tuple

from .refusals import unknown_person

CREDENTIALS = struct.Struct("iII")  # of a peer: process, user, group


class Person(NamedTuple):
    """A Unix user of this machine, and the policy users that its logins may name, sorted."""

    name: str
    users: Tuple[str, ...]

    def may_be(self, user: str) -> bool:
        """Whether a login of this person may name the policy user."""
        return user in self.users


def read_people(text: str) -> Dict[str, List[str]]:
    """The table `[people]` of a TOML file: from each policy user to its Unix users. Raises
    BadPolicy."""
    from estserve_client.policy_file import BadPolicy, lists_of, tables_of

    tables = tables_of(text)
    for name, table in tables.items():
        if name not in ("", "people") or (name == "" and table.keys):
            raise BadPolicy(table.line, "a file of people has the table [people] and nothing else")
    if "people" not in tables:
        raise BadPolicy(1, "there is no table [people]")
    found: Dict[str, List[str]] = {user: [] for user in tables["people"].keys}
    for user, unix_user, _ in lists_of(tables["people"]):
        found[user].append(unix_user)
    return found


def peer_uid(connection: socket.socket) -> int:
    """The Unix user of the process that made this connection."""
    told = connection.getsockopt(socket.SOL_SOCKET, socket.SO_PEERCRED, CREDENTIALS.size)
    return int(CREDENTIALS.unpack(told)[1])


def is_user(name: str) -> bool:
    """Whether this machine has a Unix user of this name."""
    try:
        pwd.getpwnam(name)
    except (KeyError, ValueError):
        return False
    return True


class People:
    """All persons: by the table of a file, or each as the policy user of its own name."""

    def __init__(
        self, table: Optional[Dict[str, List[str]]] = None, owner: Optional[int] = None
    ) -> None:
        """`owner` is the user who may be root where there is no table: who started the gateway,
        unless it is said."""
        self._table = table
        self._owner = os.geteuid() if owner is None else owner

    def doubts(self) -> List[str]:
        """What of the file is probably a mistake, as sentences; what it says counts all the same."""
        table = self._table or {}
        names = {name for listed in table.values() for name in listed if not name.isdigit()}
        found = [
            f"no Unix user here is named {name}" for name in sorted(names) if not is_user(name)
        ]
        if self._table is not None and not table.get("root"):
            found.append("nobody may be root, who alone may do something in a new record")
        return found

    def of_uid(self, uid: int) -> Person:
        """The person of a Unix user's number. Raises Refused, where no user has it, and the file
        doesn't list it."""
        try:
            name = pwd.getpwuid(uid).pw_name
        except KeyError:
            return self._listed(str(uid), uid)
        return Person(name, self._users_of(name, uid))

    def named(self, name: str) -> Person:
        """The person of a Unix user's name. Raises Refused, where there is no such user, and the
        file doesn't list it."""
        try:
            uid = pwd.getpwnam(name).pw_uid
        except (KeyError, ValueError):
            return self._listed(name, -1)
        return Person(name, self._users_of(name, uid))

    def _listed(self, name: str, uid: int) -> Person:
        """A person who is no user of this machine, as in a container. Raises Refused, unless the
        file lists this name or number."""
        users = () if self._table is None else self._users_of(name, uid)
        if not users:
            raise unknown_person(uid)
        return Person(name, users)

    def _users_of(self, name: str, uid: int) -> Tuple[str, ...]:
        if self._table is None:
            return tuple(sorted({name} | ({"root"} if uid == self._owner else set())))
        # an entry of digits is a number, whatever users are called
        keys = {str(uid)} if name.isdigit() else {str(uid), name}
        return tuple(sorted(user for user, names in self._table.items() if keys & set(names)))
