"""The policy as docs/PROTOCOL.md and docs/ACCESS.md say it, in plain sets: which policy command is refused, and what it changes."""

import copy

MOST = {"users": 64, "roles": 64, "permissions": 256, "sessions": 64, "sets": 16}
SESSIONS = 65_535
MOST_ENTRIES = 262_080


class Refused(Exception):
    """A refusal: its number, and its further keys."""

    def __init__(self, code, **keys):
        super().__init__(code, keys)
        self.code = code
        self.keys = keys


class Session:
    """A session that lives: its user and its active roles."""

    def __init__(self, user, active):
        self.user = user
        self.active = set(active)


class Policy:
    """Users, roles and what was given to them; sessions by number. `entries` counts what was accepted."""

    def __init__(self):
        self.entries = 4
        self.logins = 0
        self.users = {"root"}
        self.roles = {"root"}
        self.assigned = {("root", "root")}
        self.granted = {("root", "administer", "policy")}
        self.edges = set()
        self.sets = {}
        self.sessions = {}

    def copied(self):
        """A policy of its own with the same facts."""
        after = copy.copy(self)
        for facts in ("users", "roles", "assigned", "granted", "edges", "sets"):
            setattr(after, facts, getattr(self, facts).copy())
        after.sessions = {number: Session(session.user, session.active) for number, session in self.sessions.items()}
        return after

    def below(self, roles, edges=None):
        """The roles, and all to which chains of edges lead from them."""
        edges = self.edges if edges is None else edges
        found, waiting = set(), list(roles)
        while waiting:
            role = waiting.pop()
            if role not in found:
                found.add(role)
                waiting += [junior for senior, junior in edges if senior == role]
        return found

    def authorized(self, user, role):
        """Whether a role at or above this one is assigned to the user."""
        return role in self.below(held for held in self.roles if (user, held) in self.assigned)

    def may(self, session, operation, target):
        """Whether the session lives, and a role at or below an active one of it has the permission."""
        if session not in self.sessions:
            return False
        return any((role, operation, target) in self.granted for role in self.below(self.sessions[session].active))

    def violated(self, sessions, edges=None, sets=None):
        """Raises the refusal of the first set, by creation, that a session violates, and of the least such session."""
        for name, (count, roles) in (self.sets if sets is None else sets).items():
            for number in sorted(sessions):
                if len(self.below(sessions[number], edges) & set(roles)) >= count:
                    raise Refused(20, session=number, set=name)

    def active(self):
        """The active roles of each session."""
        return {number: session.active for number, session in self.sessions.items()}

    def end_sessions(self):
        """Ends each session whose user is gone or lacks the authorization for an active role."""
        for number, session in list(self.sessions.items()):
            if session.user not in self.users or not all(self.authorized(session.user, role) for role in session.active):
                del self.sessions[number]

    # ---- the commands: each raises its refusal, or changes the policy

    def need(self, holds, code, **keys):
        if not holds:
            raise Refused(code, **keys)

    def known_role(self, role):
        self.need(role in self.roles, 26, role=role)

    def known_user(self, user):
        self.need(user in self.users, 25, user=user)

    def adduser(self, session, user):
        self.need(user not in self.users, 27, user=user)
        self.need(len(self.users) < MOST["users"], 39, table="users")
        self.users.add(user)

    def deluser(self, session, user):
        self.known_user(user)
        self.users.remove(user)
        self.assigned = {pair for pair in self.assigned if pair[0] != user}

    def addrole(self, session, role):
        self.need(role not in self.roles, 28, role=role)
        self.need(len(self.roles) < MOST["roles"], 39, table="roles")
        self.roles.add(role)

    def delrole(self, session, role):
        self.known_role(role)
        for name, (_, roles) in self.sets.items():
            self.need(role not in roles, 38, set=name)
        for number in [n for n, s in self.sessions.items() if role in s.active]:
            del self.sessions[number]
        self.roles.remove(role)
        self.assigned = {pair for pair in self.assigned if pair[1] != role}
        self.granted = {grant for grant in self.granted if grant[0] != role}
        self.edges = {edge for edge in self.edges if role not in edge}

    def assign(self, session, role, user):
        self.known_user(user)
        self.known_role(role)
        self.need((user, role) not in self.assigned, 29)
        self.assigned.add((user, role))

    def deassign(self, session, role, user):
        self.known_user(user)
        self.known_role(role)
        self.need((user, role) in self.assigned, 30)
        self.assigned.remove((user, role))

    def grant(self, session, object, op, role):
        self.known_role(role)
        self.need((role, op, object) not in self.granted, 31)
        pairs = {grant[1:] for grant in self.granted}
        self.need((op, object) in pairs or len(pairs) < MOST["permissions"], 39, table="permissions")
        self.granted.add((role, op, object))

    def revoke(self, session, object, op, role):
        self.known_role(role)
        self.need((role, op, object) in self.granted, 32)
        self.granted.remove((role, op, object))

    def inherit(self, session, junior, senior):
        self.known_role(senior)
        self.known_role(junior)
        self.need(senior not in self.below([junior]), 24)
        self.need((senior, junior) not in self.edges, 33)
        self.violated(self.active(), self.edges | {(senior, junior)})
        self.edges.add((senior, junior))

    def disinherit(self, session, junior, senior):
        self.known_role(senior)
        self.known_role(junior)
        self.need((senior, junior) in self.edges, 34)
        self.edges.remove((senior, junior))

    def dsd(self, session, count, name, roles):
        self.need(name not in self.sets, 35, set=name)
        for role in roles:
            self.known_role(role)
        self.need(len(set(roles)) == len(roles) and 2 <= count <= len(roles), 37)
        self.violated(self.active(), sets={name: (count, roles)})
        self.need(len(self.sets) < MOST["sets"], 39, table="sets")
        self.sets[name] = (count, roles)

    def undsd(self, session, name):
        self.need(name in self.sets, 36, set=name)
        del self.sets[name]

    def login(self, session, roles, user):
        self.need(self.logins < SESSIONS, 6)
        self.known_user(user)
        for role in roles:
            self.known_role(role)
        for role in roles:
            self.need(self.authorized(user, role), 21, role=role)
        for at, role in enumerate(roles):
            self.need(role not in roles[:at], 22, role=role)
        self.violated({self.logins + 1: set(roles)})
        self.need(len(self.sessions) < MOST["sessions"], 39, table="sessions")
        self.logins += 1
        self.sessions[self.logins] = Session(user, roles)

    def logout(self, session):
        del self.sessions[session]

    def activate(self, session, role):
        own = self.sessions[session]
        self.known_role(role)
        self.need(self.authorized(own.user, role), 21, role=role)
        self.need(role not in own.active, 22, role=role)
        self.violated({session: own.active | {role}})
        own.active.add(role)

    def drop(self, session, role):
        self.known_role(role)
        self.need(role in self.sessions[session].active, 23, role=role)
        self.sessions[session].active.remove(role)

    def decide(self, session, command, keys):
        """The policy after the command of this session, or raises its refusal."""
        if command != "login":
            self.need(session in self.sessions, 4)
        if command not in ("login", "logout", "activate", "drop"):
            self.need(self.may(session, "administer", "policy"), 10, object="policy", op="administer")
        after = self.copied()
        getattr(after, command)(session, **keys)
        self.need(command == "logout" or self.entries < MOST_ENTRIES, 67)
        after.end_sessions()
        after.entries += 1
        return after
