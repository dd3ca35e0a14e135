"""Making a record anew: the policy in order of creation, and each slot from its load on.

It is made in a server that has nothing yet. Each command that is given here is recorded as any
other: what the new record holds is what this server has answered.
"""
import json
import pathlib
import time
from typing import Any, Dict, Iterable, Iterator, List, Optional, Sequence

from estserve_client.connection import line_of

from ..record import POLICY, Connection, Entry, RecordWriter
from ..replay import Talker
from .policy_model import POLICY_COMMANDS, PolicyModel
from .slot_model import SLOT_COMMANDS, Slot

TOGETHER = 2_000  # commands whose entries are written in one transaction
OPENING_FACTS = (
    {"cmd": "adduser", "user": "root"},
    {"cmd": "addrole", "role": "root"},
    {"cmd": "assign", "role": "root", "user": "root"},
    {"cmd": "grant", "object": "policy", "op": "administer", "role": "root"},
)

Command = Dict[str, Any]


class ArchiveFailed(Exception):
    """The new record could not be made, or is not what the old one says. The old one goes on."""


class NewRecord:
    """A record that is being made, by the server that answers at a socket."""

    def __init__(self, writer: RecordWriter, socket: pathlib.Path, person: str) -> None:
        self._writer, self._socket, self._person = writer, socket, person
        self._entries = self._connections = 0

    def login(self, user: str, roles: Sequence[str]) -> "RecordedLogin":
        """A login on a connection of its own. Raises ArchiveFailed, where it is refused."""
        self._connections += 1
        return RecordedLogin(self, self._connections, Talker(self._socket), user, list(roles))

    def write(
        self, login: "RecordedLogin", commands: Sequence[Command], replies: List[Dict[str, Any]]
    ) -> None:
        """Writes the entries of accepted commands, those of a login's connection."""
        entries = [
            self._entry_of(login, command, reply)
            for command, reply in zip(commands, replies)
            if command["cmd"] in POLICY_COMMANDS or command["cmd"] in SLOT_COMMANDS
        ]
        connections = []
        if commands and commands[0]["cmd"] == "login":
            roles = json.dumps(login.roles)
            row = Connection(login.number, login.session, login.user, self._person, roles)
            connections.append(row)
        self._writer.append(entries, connections)

    def _entry_of(self, login: "RecordedLogin", command: Command, reply: Dict[str, Any]) -> Entry:
        self._entries += 1
        of_policy = command["cmd"] in POLICY_COMMANDS
        slot, place = (POLICY, reply["version"]) if of_policy else (command["slot"], reply["place"])
        request = line_of(command)[:-1]
        answer = json.dumps(reply, separators=(",", ":"), sort_keys=True).encode()
        return Entry(
            self._entries,
            slot,
            place,
            reply["version"],
            login.number,
            login.session,
            login.user,
            self._person,
            time.time(),
            reply.get("instant"),
            command["cmd"],
            request,
            answer,
            None,
            self._writer.program,
        )


class RecordedLogin:
    """One login at the new server. Used with `with`, it is logged out at the end."""

    def __init__(
        self, record: NewRecord, number: int, talker: Talker, user: str, roles: List[str]
    ) -> None:
        self._record, self._talker = record, talker
        self.number, self.user, self.roles, self.session = number, user, roles, 0

    def __enter__(self) -> "RecordedLogin":
        try:
            self.ask([{"cmd": "login", "roles": self.roles, "user": self.user}])
        except BaseException:
            self._talker.close()
            raise
        return self

    def __exit__(self, kind: Optional[type], *_: object) -> None:
        try:
            if kind is None:
                self.ask([{"cmd": "logout"}])
        finally:
            self._talker.close()

    def ask(self, commands: Iterable[Command]) -> List[Dict[str, Any]]:
        """The answers to commands, each of which has to be accepted. Raises ArchiveFailed."""
        commands = list(commands)
        lines = [line_of(command)[:-1] for command in commands]
        replies = [json.loads(reply) for reply in self._talker.ask_all(lines)]
        for line, reply in zip(lines, replies):
            if "ok" not in reply:
                told = f"{line[:200].decode(errors='replace')} is refused: {reply.get('fault')}"
                raise ArchiveFailed(f"in the new server {told}")
        if commands and commands[0]["cmd"] == "login":
            self.session = replies[0]["session"]
        self._record.write(self, commands, replies)
        return replies

    def ask_in_parts(self, commands: Iterable[Command]) -> None:
        """Gives commands, some at a time. Raises ArchiveFailed."""
        part: List[Command] = []
        for command in commands:
            part.append(command)
            if len(part) == TOGETHER:
                self.ask(part)
                part = []
        self.ask(part)


def make_slot(login: RecordedLogin, slot: Slot) -> None:
    """Loads and steps a slot again, and offers what is pending.

    The permissions for this are granted before, and revoked afterwards."""
    names = {name for inputs in slot.instants for name in inputs} | set(slot.pending)
    pairs = [("load", f"{slot.number}"), ("step", f"{slot.number}")]
    pairs += [("offer", f"{slot.number}.{name}") for name in sorted(names)]
    keys = [{"object": object, "op": operation, "role": "root"} for operation, object in pairs]
    login.ask([{"cmd": "grant", **permission} for permission in keys])
    login.ask_in_parts(slot_commands(slot))
    login.ask([{"cmd": "revoke", **permission} for permission in keys])


def slot_commands(slot: Slot) -> Iterator[Command]:
    """The commands that make what a slot holds: its load, its instants, its pending inputs."""
    yield {"cmd": "load", "main": slot.main, "slot": slot.number, "text": slot.text}
    for inputs in slot.instants:
        yield from offers_of(slot, inputs)
        yield {"cmd": "step", "slot": slot.number}
    yield from offers_of(slot, slot.pending)


def offers_of(slot: Slot, names: Iterable[str]) -> List[Command]:
    """The offers of inputs."""
    return [{"cmd": "offer", "signal": name, "slot": slot.number} for name in names]


def needs_helper(policy: PolicyModel) -> bool:
    """Whether a session in which the role root is active would violate a separation set."""
    held = policy.below(["root"])
    return any(len(held.intersection(one.roles)) >= one.count for one in policy.sets.values())


def helper_name(policy: PolicyModel) -> str:
    """A name that no role has."""
    names = (f"archive-{number}" for number in range(1, 40))
    return next(name for name in names if name not in policy.roles)


def make_policy(login: RecordedLogin, policy: PolicyModel) -> Optional[str]:
    """Makes the facts of a policy in order of creation. Answers the role that helped, if one did.

    A set that the role root would violate is made in a session that holds a helping role alone."""
    helper = helper_name(policy) if needs_helper(policy) else None
    if helper is not None:
        grant = {"object": "policy", "op": "administer", "role": helper}
        login.ask([{"cmd": "addrole", "role": helper}, {"cmd": "grant", **grant}])
        login.ask([{"cmd": "assign", "role": helper, "user": "root"}])
        login.ask([{"cmd": "activate", "role": helper}, {"cmd": "drop", "role": "root"}])
    made = [fact.command for fact in policy.facts() if fact.command not in OPENING_FACTS]
    login.ask_in_parts(made)
    return helper


def undo_commands(policy: PolicyModel, helper: Optional[str]) -> List[Command]:
    """The commands that take away the helping role, and the opening facts that the policy lacks."""
    undone: List[Command] = []
    if helper is not None:
        undone.append({"cmd": "delrole", "role": helper})
    if "root" not in policy.roles:
        undone.append({"cmd": "delrole", "role": "root"})
    elif ("root", "administer", "policy") not in policy.granted:
        undone.append({**OPENING_FACTS[3], "cmd": "revoke"})
    if "root" not in policy.users:
        undone.append({"cmd": "deluser", "user": "root"})
    elif "root" in policy.roles and ("root", "root") not in policy.assigned:
        undone.append({**OPENING_FACTS[2], "cmd": "deassign"})
    return undone
