"""The policy as a model, built from the accepted policy commands and their replies in order.

It tells docs/ACCESS.md a second time, beside the program that decides. The reads of the gateway are
made from it, and an archive is; what a session may do is asked of the program, never of this model.
"""
import dataclasses
from typing import Any, Dict, Iterable, List, Optional, Set, Tuple

JOURNAL = 262_080  # entries of the policy's journal; 64 further places are for logouts
SESSIONS = 65_535  # session numbers
PAIRS = 256  # distinct pairs of an operation and an object that are granted
OPENING = 4  # entries with which each policy opens
NEAR = 90  # percent at which it is told that a limit comes near

POLICY_COMMANDS = frozenset(
    "login logout adduser deluser addrole delrole assign deassign grant revoke inherit disinherit"
    " dsd undsd activate drop".split()
)
OPERATIONS = ("offer", "observe", "step", "load", "administer", "audit")


class OutOfOrder(Exception):
    """An entry that doesn't follow the entries before it: its number is not the next one."""


@dataclasses.dataclass(frozen=True)
class Origin:
    """How a fact came: the version of the entry that made it, and the session that gave it.

    The opening facts have no session."""

    version: int
    session: Optional[int] = None


@dataclasses.dataclass(frozen=True)
class Fact:
    """One fact: the command that makes it, and its origin."""

    command: Dict[str, Any]
    origin: Origin


@dataclasses.dataclass
class Separation:
    """A separation set: no session may have `count` of the roles active or below an active one."""

    count: int
    roles: Tuple[str, ...]
    origin: Origin


@dataclasses.dataclass
class Session:
    """A session that lives: its number, user and active roles, and the version of its login."""

    number: int
    user: str
    active: List[str]
    version: int


@dataclasses.dataclass(frozen=True)
class Way:
    """One way by which a user has a permission: `roles` is a chain from a role that is assigned to
    the user down to the one that the permission is granted to; each is the senior of the next."""

    roles: Tuple[str, ...]
    assigned: Origin
    edges: Tuple[Origin, ...]
    granted: Origin


@dataclasses.dataclass(frozen=True)
class Filling:
    """How full a table or a journal with a limit is."""

    what: str
    used: int
    limit: int

    @property
    def is_near(self) -> bool:
        """Whether so much is used that it has to be told."""
        return self.used * 100 >= self.limit * NEAR

    def as_dict(self) -> Dict[str, Any]:
        """The filling as it is told on the wire."""
        percent = self.used * 100 // self.limit
        return {"limit": self.limit, "percent": percent, "used": self.used, "what": self.what}


def session_of(origin: Origin) -> int:
    """The session that made an entry which only sessions make."""
    assert origin.session is not None
    return origin.session


def reach(roles: Iterable[str], steps: Dict[str, List[str]]) -> Dict[str, Tuple[str, ...]]:
    """Each role that steps lead to from these, with the shortest chain of roles to it."""
    chains: Dict[str, Tuple[str, ...]] = {role: (role,) for role in roles}
    waiting = list(chains)
    for role in waiting:
        new = [after for after in steps.get(role, ()) if after not in chains]
        chains.update((after, chains[role] + (after,)) for after in new)
        waiting += new
    return chains


class PolicyModel:
    """Users, roles and what was given to them, each with its origin, in order of creation.

    `version` counts the entries, the four opening ones included; `revision` those that may change
    what a session may do: all but logins and logouts. `logins` counts the sessions that were made;
    `sessions` has those that live, by number."""

    def __init__(self) -> None:
        self.version = self.revision = OPENING
        self.logins = 0
        self.users: Dict[str, Origin] = {"root": Origin(1)}
        self.roles: Dict[str, Origin] = {"root": Origin(2)}
        self.assigned: Dict[Tuple[str, str], Origin] = {("root", "root"): Origin(3)}
        self.granted: Dict[Tuple[str, str, str], Origin] = {
            ("root", "administer", "policy"): Origin(4)
        }
        self.edges: Dict[Tuple[str, str], Origin] = {}
        self.sets: Dict[str, Separation] = {}
        self.sessions: Dict[int, Session] = {}
        self._owners: List[str] = []
        self._pairs: Optional[List[Tuple[str, str]]] = None

    # ---- entries

    def add(self, session: Optional[int], request: Dict[str, Any], reply: Dict[str, Any]) -> None:
        """Adds the entry of an accepted policy command, with the session that gave it.

        Raises OutOfOrder where the reply's version is not the next one."""
        if reply["version"] != self.version + 1:
            told = f"version {reply['version']} after version {self.version}"
            raise OutOfOrder(told)
        self.version += 1
        origin = Origin(self.version, session)
        cmd = request["cmd"]
        self.revision += cmd not in ("login", "logout")
        if cmd == "login":
            self._login(request, reply["session"])
        else:
            keys = {key: value for key, value in request.items() if key != "cmd"}
            getattr(self, f"_{cmd}")(origin, **keys)

    def _login(self, request: Dict[str, Any], number: int) -> None:
        if number != self.logins + 1:
            raise OutOfOrder(f"session {number} after {self.logins} sessions")
        self.logins = number
        self._owners.append(request["user"])
        active = list(request["roles"])
        self.sessions[number] = Session(number, request["user"], active, self.version)

    def _logout(self, origin: Origin) -> None:
        self.sessions.pop(session_of(origin), None)

    def _adduser(self, origin: Origin, user: str) -> None:
        self.users[user] = origin

    def _deluser(self, origin: Origin, user: str) -> None:
        del self.users[user]
        self.assigned = {pair: by for pair, by in self.assigned.items() if pair[0] != user}
        self._end_sessions()

    def _addrole(self, origin: Origin, role: str) -> None:
        self.roles[role] = origin

    def _delrole(self, origin: Origin, role: str) -> None:
        del self.roles[role]
        self.assigned = {pair: by for pair, by in self.assigned.items() if pair[1] != role}
        self.granted = {grant: by for grant, by in self.granted.items() if grant[0] != role}
        self._pairs = None
        self.edges = {edge: by for edge, by in self.edges.items() if role not in edge}
        self._end_sessions()

    def _assign(self, origin: Origin, role: str, user: str) -> None:
        self.assigned[user, role] = origin

    def _deassign(self, origin: Origin, role: str, user: str) -> None:
        del self.assigned[user, role]
        self._end_sessions()

    def _grant(self, origin: Origin, role: str, op: str, object: str) -> None:
        self.granted[role, op, object] = origin
        self._pairs = None

    def _revoke(self, origin: Origin, role: str, op: str, object: str) -> None:
        del self.granted[role, op, object]
        self._pairs = None

    def _inherit(self, origin: Origin, senior: str, junior: str) -> None:
        self.edges[senior, junior] = origin

    def _disinherit(self, origin: Origin, senior: str, junior: str) -> None:
        del self.edges[senior, junior]
        self._end_sessions()

    def _dsd(self, origin: Origin, name: str, roles: List[str], count: int) -> None:
        self.sets[name] = Separation(count, tuple(roles), origin)

    def _undsd(self, origin: Origin, name: str) -> None:
        del self.sets[name]

    def _activate(self, origin: Origin, role: str) -> None:
        self.sessions[session_of(origin)].active.append(role)

    def _drop(self, origin: Origin, role: str) -> None:
        self.sessions[session_of(origin)].active.remove(role)

    def _end_sessions(self) -> None:
        """Ends each session whose user is gone, or lacks the authorization for an active role."""
        for session in list(self.sessions.values()):
            authorized = self.authorized(session.user)
            if session.user not in self.users or not authorized.issuperset(session.active):
                del self.sessions[session.number]

    # ---- what the facts say

    def juniors(self) -> Dict[str, List[str]]:
        """The roles just below each role that has some, by the edges that were given."""
        steps: Dict[str, List[str]] = {}
        for senior, junior in self.edges:
            steps.setdefault(senior, []).append(junior)
        return steps

    def below(self, roles: Iterable[str]) -> Set[str]:
        """These roles, and all below them."""
        return set(reach(roles, self.juniors()))

    def assigned_to(self, user: str) -> List[str]:
        """The roles that are assigned to the user, in order of creation."""
        return [role for held, role in self.assigned if held == user]

    def authorized(self, user: str) -> Set[str]:
        """The roles that the user is authorized for."""
        return self.below(self.assigned_to(user))

    def may(self, session: Optional[int], operation: str, object: str) -> bool:
        """Whether the session lives, and a role at or below an active one has the permission."""
        if session not in self.sessions:
            return False
        roles = self.below(self.sessions[session].active)
        return any((role, operation, object) in self.granted for role in roles)

    def user_of(self, session: Optional[int]) -> Optional[str]:
        """The user of a session, also of one that has ended; None where there was none."""
        if session is None or not 1 <= session <= len(self._owners):
            return None
        return self._owners[session - 1]

    def why(self, user: str, operation: str, object: str) -> List[Way]:
        """The ways by which the user has the permission.

        There is one for each role that is assigned to the user and each role at or below it that
        the permission is granted to, by the shortest chain."""
        ways = []
        for role in self.assigned_to(user):
            chains = reach([role], self.juniors())
            ways += [
                self._way(user, chain, operation, object)
                for last, chain in chains.items()
                if (last, operation, object) in self.granted
            ]
        return ways

    def _way(self, user: str, chain: Tuple[str, ...], operation: str, object: str) -> Way:
        edges = tuple(self.edges[edge] for edge in zip(chain, chain[1:]))
        granted = self.granted[chain[-1], operation, object]
        return Way(chain, self.assigned[user, chain[0]], edges, granted)

    def pairs(self) -> List[Tuple[str, str]]:
        """The distinct pairs of an operation and an object that are granted, by first creation."""
        if self._pairs is None:
            self._pairs = list(dict.fromkeys((op, object) for _, op, object in self.granted))
        return self._pairs

    def facts(self) -> List[Fact]:
        """All facts in order of creation, the opening ones included."""
        made: List[Tuple[Dict[str, Any], Origin]] = []
        made += [({"cmd": "adduser", "user": user}, by) for user, by in self.users.items()]
        made += [({"cmd": "addrole", "role": role}, by) for role, by in self.roles.items()]
        for (user, role), by in self.assigned.items():
            made.append(({"cmd": "assign", "role": role, "user": user}, by))
        for (role, op, object), by in self.granted.items():
            made.append(({"cmd": "grant", "object": object, "op": op, "role": role}, by))
        for (senior, junior), by in self.edges.items():
            made.append(({"cmd": "inherit", "junior": junior, "senior": senior}, by))
        for name, one in self.sets.items():
            keys: Dict[str, Any] = {"count": one.count, "name": name, "roles": list(one.roles)}
            made.append(({"cmd": "dsd", **keys}, one.origin))
        facts = [Fact(command, by) for command, by in made]
        return sorted(facts, key=lambda fact: fact.origin.version)

    def fillings(self) -> List[Filling]:
        """How full the policy's journal, the session numbers and the table of permissions are."""
        return [
            Filling("policy journal", self.version, JOURNAL),
            Filling("session numbers", self.logins, SESSIONS),
            Filling("permission pairs", len(self.pairs()), PAIRS),
        ]
