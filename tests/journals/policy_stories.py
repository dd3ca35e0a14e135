"""Stories of a policy, whose answers were worked out by hand. Each begins with the opening policy.

A part of a story is the number of the session that gives a command, or 0 where there is none; the command; and after a
colon its refusal: its name, and the values of its keys in the order of their names. A login has the next number if it is accepted, and
each session a connection of its own. `1 may load 0` and `1 may not load 0` say what a session may do; `1 3 live` says
which of all sessions live; `2 reaches 0 1`, which of the slots 0 to 5 a session may load, and no others.
"""

import re

from wire import FAULTS

WRITTEN = """
# A login is asked from no session.
0 login root root; 1 addrole driver; 0 login nobody root: UnknownUser nobody;
0 login root driver nobody: UnknownRole nobody; 0 login root root root driver: NotAuthorized driver;
0 login root root root: AlreadyActive root; 0 login root root

# Who is granted what, and by whom.
0 grant root audit policy: NoSession; 0 login root root; 0 login root;
2 grant root audit policy: Permission policy administer; 1 grant root audit policy;
1 grant root audit policy: AlreadyGranted; 1 grant driver audit policy: UnknownRole driver;
0 logout: NoSession; 1 logout; 1 logout: NoSession

# A third role lies below the first of two that a session of root has.
0 login root root; 1 addrole driver; 1 assign root driver; 1 addrole watcher; 1 assign root watcher;
1 addrole helper; 1 assign root helper; 1 inherit driver helper; 0 login root driver watcher;
1 dsd apart 2 driver helper: DsdViolated 2 apart; 1 dsd apart 3 driver helper: DsdShape;
1 inherit helper driver: Cycle; 1 undsd apart: NoDsd apart; 1 dsd roots 2 root helper;
0 login root root driver: DsdViolated 3 roots; 0 login root helper root: DsdViolated 3 roots;
1 inherit root helper: DsdViolated 1 roots; 1 delrole helper: RoleInDsd roots

# Roles that are made active beside a set.
0 login root root; 1 addrole driver; 1 assign root driver; 1 addrole watcher; 1 assign root watcher;
1 addrole helper; 1 assign root helper; 1 inherit driver helper; 0 login root driver watcher;
1 dsd roots 2 root helper; 1 addrole guest; 0 activate watcher: NoSession;
1 activate nobody: UnknownRole nobody; 1 activate guest: NotAuthorized guest;
1 activate root: AlreadyActive root; 1 activate helper: DsdViolated 1 roots;
1 activate driver: DsdViolated 1 roots; 1 activate watcher; 1 activate watcher: AlreadyActive watcher

# A set counts what lies below a role: a user with the senior of both roles may act in one of the two at a
# time.
0 login root root; 1 addrole driver; 1 addrole judge; 1 addrole chief; 1 inherit chief driver;
1 inherit chief judge; 1 dsd d1 2 driver judge; 1 adduser ann; 1 assign ann chief; 1 logout;
0 login ann chief: DsdViolated 2 d1; 0 login ann; 2 activate chief: DsdViolated 2 d1; 2 activate driver;
2 activate judge: DsdViolated 2 d1

# An edge can make a living session violate a set.
0 login root root; 1 addrole driver; 1 addrole judge; 1 addrole chief; 1 inherit chief driver;
1 dsd d1 2 driver judge; 1 adduser ann; 1 assign ann chief; 0 login ann chief;
1 inherit chief judge: DsdViolated 2 d1; 1 disinherit chief judge: NoEdge; 2 logout; 1 inherit chief judge

# Cycle is asked before EdgeExists. An edge that the order has already, but that was not given, is
# accepted.
0 login root root; 1 addrole a; 1 addrole b; 1 addrole c; 1 inherit a b; 1 inherit b c;
1 inherit c a: Cycle; 1 inherit a a: Cycle; 1 inherit a b: EdgeExists; 1 inherit a c;
1 inherit a c: EdgeExists; 1 inherit d a: UnknownRole d; 1 inherit a d: UnknownRole d

# Three ways to violate a set: a set that a living session violates, a role that is taken up, and a login.
# The number of a login is the next one.
0 login root root; 1 addrole driver; 1 addrole judge; 1 assign root driver; 1 assign root judge;
0 login root driver judge; 1 dsd d1 2 driver judge: DsdViolated 2 d1; 2 drop judge; 1 dsd d1 2 driver judge;
2 activate judge: DsdViolated 2 d1; 0 login root judge driver: DsdViolated 3 d1;
1 dsd d1 2 driver judge: DsdExists d1; 1 undsd d1; 2 activate judge

# Each role counts once, also where the set lists a junior and its senior: with the senior alone both are
# held, and no more.
0 login root root; 1 addrole upper; 1 addrole lower; 1 addrole other; 1 inherit upper lower;
1 assign root upper; 1 assign root other; 0 login root upper; 1 dsd d1 3 upper lower other;
2 activate lower; 2 activate other: DsdViolated 2 d1; 2 drop upper; 2 activate other

# The first set is the first that was made, also where a later one stands before it in the table.
0 login root root; 1 addrole driver; 1 addrole judge; 1 assign root driver; 1 assign root judge;
1 dsd gone 2 driver judge; 1 dsd older 2 judge driver; 1 undsd gone; 1 dsd newer 2 driver judge;
0 login root driver judge: DsdViolated 2 older; 1 delrole driver: RoleInDsd older; 1 undsd gone: NoDsd gone;
1 undsd older; 0 login root driver judge: DsdViolated 2 newer; 1 delrole driver: RoleInDsd newer

# The session that is named is the least, also where a later one stands before it in the table.
0 login root root; 1 addrole driver; 1 addrole judge; 1 assign root driver; 1 assign root judge;
0 login root; 0 login root driver judge; 2 logout; 0 login root judge driver;
1 dsd d1 2 driver judge: DsdViolated 3 d1; 3 logout; 1 dsd d1 2 driver judge: DsdViolated 4 d1;
4 drop judge; 1 dsd d1 2 driver judge

# The first set counts before the least session. Where one edge would let two sets be violated, the older
# set is named, though the session that violates it is the later one.
0 login root root; 1 addrole upper; 1 addrole lower; 1 addrole b; 1 addrole c; 1 assign root upper;
1 assign root b; 1 assign root c; 0 login root upper b; 0 login root upper c; 1 dsd older 2 c lower;
1 dsd newer 2 b lower; 1 inherit upper lower: DsdViolated 3 older; 1 undsd older;
1 inherit upper lower: DsdViolated 2 newer; 2 logout

# The shape of a set, what is asked before it, and its members, which can't be deleted.
0 login root root; 1 dsd d 1 root: DsdShape; 1 addrole a; 1 dsd d 3 root a: DsdShape;
1 dsd d 2 a a: DsdShape; 1 dsd d 2 a b a: UnknownRole b; 1 dsd d 2 root a; 1 dsd d 9 b b: DsdExists d;
1 delrole a: RoleInDsd d; 1 delrole b: UnknownRole b; 1 undsd e: NoDsd e; 1 undsd d; 1 delrole a

# A session ends where its user loses a role that is active in it. Its number is not used again.
0 login root root; 1 addrole chief; 1 adduser ann; 1 assign ann chief; 0 login ann chief;
1 deassign ann chief; 2 activate chief: NoSession; 2 logout: NoSession; 0 login ann; 3 logout

# Who goes on after a role is taken: ann has the lower role by itself too, and bob has all that he had. An
# edge that is deleted ends the session of another user. The session that gives the command may be one of
# those that end.
0 login root root; 1 addrole upper; 1 addrole middle; 1 addrole lower; 1 inherit upper middle;
1 inherit middle lower; 1 adduser ann; 1 adduser bob; 1 assign ann upper; 1 assign ann lower;
1 assign bob upper; 0 login ann upper; 0 login ann lower; 0 login ann middle; 0 login bob lower;
1 2 3 4 5 live; 1 deassign ann upper; 1 3 5 live; 1 disinherit middle lower; 1 3 live; 1 deassign root root;
1 addrole a: NoSession; 3 live

# Root may delete itself, and is then gone.
0 login root root; 1 deluser root; 1 addrole a: NoSession; 1 logout: NoSession;
0 login root root: UnknownUser root

# A session without roles lives, and may do nothing that wants a permission.
0 login root root root: AlreadyActive root; 0 login root root; 0 login root root; 2 drop root;
2 drop root: NotActive root; 2 drop a: UnknownRole a; 2 adduser ann: Permission policy administer;
2 activate root; 2 adduser ann; 1 2 live

# A deleted role's assignments, permissions, edges and sessions go with it. A role that is added again
# starts with none.
0 login root root; 1 addrole a; 1 addrole b; 1 addrole c; 1 adduser ann; 1 assign ann a; 1 grant a load 0;
1 inherit b a; 1 inherit a c; 0 login ann a; 1 delrole a; 2 logout: NoSession; 1 addrole a;
1 deassign ann a: NotAssigned; 1 revoke a load 0: NotGranted; 1 disinherit b a: NoEdge;
1 disinherit a c: NoEdge; 1 assign ann a; 0 login ann a; 1 3 live; 3 may not load 0;
1 may administer policy

# Users, sets and sessions whose places are used again have nothing of those before.
0 login root root; 1 adduser ann; 1 addrole a; 1 addrole b; 1 grant a load 0; 1 assign ann a; 0 login ann a;
1 deluser ann; 2 logout: NoSession; 1 adduser ann; 1 deassign ann a: NotAssigned;
0 login ann a: NotAuthorized a; 0 login ann; 3 activate a: NotAuthorized a; 1 dsd d 2 a b; 1 undsd d;
1 dsd d 2 root b; 1 delrole a; 1 delrole b: RoleInDsd d; 1 3 live; 3 may not load 0;
1 may administer policy

# Why each command that needs a permission, a user, a role or a pair is refused, in the order of its
# refusals.
0 login root root; 0 adduser ann: NoSession; 9 adduser ann: NoSession; 0 login root;
2 adduser root: Permission policy administer; 1 adduser root: UserExists root;
1 addrole root: RoleExists root; 1 deluser ann: UnknownUser ann; 1 delrole a: UnknownRole a;
1 assign ann a: UnknownUser ann; 1 assign root a: UnknownRole a; 1 assign root root: AlreadyAssigned;
1 deassign ann a: UnknownUser ann; 1 deassign root a: UnknownRole a; 1 grant a load 0: UnknownRole a;
1 grant root administer policy: AlreadyGranted; 1 revoke a load 0: UnknownRole a;
1 revoke root load 0: NotGranted; 1 inherit a b: UnknownRole a; 1 inherit root b: UnknownRole b;
1 disinherit a b: UnknownRole a; 1 disinherit root b: UnknownRole b; 1 disinherit root root: NoEdge;
2 activate a: UnknownRole a; 0 drop a: NoSession; 2 undsd d: Permission policy administer

# What root may do from its login to its logout.
0 login root root; 1 may administer policy; 1 may not audit policy;
1 may not load 0; 1 grant root load 0; 1 may load 0; 1 may not load 1; 1 may not step 0; 1 logout;
1 logout: NoSession
"""

# the keys of a command, as a story writes them; of the last one with a star there may be several
FORMS = {
    "login": "user roles*", "logout": "", "adduser": "user", "deluser": "user", "addrole": "role", "delrole": "role",
    "assign": "user role", "deassign": "user role", "grant": "role op object", "revoke": "role op object",
    "inherit": "senior junior", "disinherit": "senior junior", "dsd": "name count roles*", "undsd": "name",
    "activate": "role", "drop": "role",
}
SLOTS = range(6)


def written_stories():
    """The stories above, without their titles."""
    return [re.sub("^#.*", "", story, flags=re.M) for story in WRITTEN.split("\n\n")]


TAKEN = ["delrole driver; 1 2 live", "delrole chief; 1 live", "deluser ann; 1 live", "deassign ann chief; 1 live"]
TAKEN += ["disinherit chief driver; 1 2 live", "revoke driver load 0; 1 2 live"]
GIVEN = """0 login root root; 1 adduser ann; 1 addrole driver; 1 addrole chief; 1 grant driver load 0;
1 inherit chief driver; 1 assign ann chief; 0 login ann chief; 2 may load 0"""


def stories_of_what_is_taken():
    """What takes from ann's session what it may do, and whether the session lives on."""
    return [f"{GIVEN}; 1 {taken}; 2 may not load 0" for taken in TAKEN]


# sessions 2 to 7 are root's, in the roles p0 to p5; role pN may load slot N
ORDERS = [
    # what lies below a new junior comes along, and every role above the senior takes it in
    """1 inherit p1 p2; 1 inherit p0 p1; 2 reaches 0 1 2; 3 reaches 1 2; 4 reaches 2; 7 reaches 5; 1 inherit p3 p4;
    1 inherit p2 p3; 2 reaches 0 1 2 3 4; 3 reaches 1 2 3 4; 4 reaches 2 3 4; 5 reaches 3 4; 6 reaches 4;
    1 disinherit p2 p4: NoEdge; 1 disinherit p3 p2: NoEdge""",
    # p0 stands above p3 by p1 and by p2, and above p4 by p2 alone
    """1 inherit p0 p1; 1 inherit p0 p2; 1 inherit p1 p3; 1 inherit p2 p3; 1 inherit p2 p4; 2 reaches 0 1 2 3 4;
    1 disinherit p0 p2; 2 reaches 0 1 3; 3 reaches 1 3; 4 reaches 2 3 4; 5 reaches 3; 6 reaches 4""",
    # an edge that is there, and one that is not
    """1 inherit p0 p1; 1 inherit p1 p2; 1 inherit p0 p1: EdgeExists; 1 disinherit p0 p2: NoEdge; 2 reaches 0 1 2;
    1 disinherit p0 p1; 2 reaches 0; 3 reaches 1 2""",
    # a role that is added again has none of the edges before
    """1 inherit p0 p1; 1 inherit p1 p2; 1 inherit p3 p1; 1 inherit p0 p2; 1 delrole p1; 1 addrole p1;
    1 grant p1 load 1; 2 reaches 0 2; 5 reaches 3; 1 inherit p2 p1; 2 reaches 0 1 2; 4 reaches 1 2; 5 reaches 3""",
    # the order is that of the edges that are left
    """1 inherit p0 p1; 1 inherit p1 p2; 1 inherit p0 p2; 1 disinherit p1 p2; 2 reaches 0 1 2; 3 reaches 1;
    1 disinherit p0 p1; 2 reaches 0 2; 1 delrole p2; 1 addrole p2; 1 grant p2 load 2; 2 reaches 0; 3 reaches 1""",
]


def stories_of_orders():
    """Edges between six roles, and what then lies below each."""
    roles = "; ".join(f"1 addrole p{n}; 1 assign root p{n}; 1 grant p{n} load {n}; 0 login root p{n}" for n in SLOTS)
    return [f"0 login root root; {roles}; {order}" for order in ORDERS]


USERS_AND_ROLES = """1 adduser ann: Full users; 1 addrole a: Full roles; 1 adduser u63: UserExists u63;
1 addrole r63: RoleExists r63; 1 deluser u7; 1 adduser ann; 1 delrole r7; 1 addrole a"""
TWO_DUTIES = """0 login root root; 1 addrole a; 1 addrole b; 1 addrole c; 1 assign root a; 1 assign root b; 1 assign root c;
0 login root a c"""
# a set that a living session would violate is refused for that, also where there is no room for it
SETS = """1 dsd more 2 a c: DsdViolated 2 more; 1 dsd more 2 b c: Full sets; 1 dsd more 4 b c: DsdShape; 1 undsd s3;
1 dsd more 2 b c; 2 activate b: DsdViolated 2 s0"""
# With 256 pairs granted, a pair that a role has may be granted to another role. A pair whose last role goes, by a
# revocation or because the role is deleted, frees its place; a pair that another role has does not.
PAIRS = """1 grant root audit 15: Full permissions; 1 grant driver audit 0.O: Full permissions; 1 grant driver offer 0;
1 revoke root offer 0; 1 grant driver audit 0.O: Full permissions; 1 delrole driver; 1 grant root audit 0.O;
1 grant root audit 1.O: Full permissions; 1 revoke root audit 0.O; 1 grant root audit 1.O;
1 grant root audit 0.O: Full permissions; 1 revoke root audit 0.O: NotGranted"""


def stories_of_full_tables():
    """Full tables of users, roles, sets and granted pairs, and what is asked before their fullness."""
    added = [f"1 {word}{number}" for word in ("adduser u", "addrole r") for number in range(1, 64)]
    sets = [f"1 dsd s{number} 2 a b" for number in range(16)]
    objects = [f"{slot}{signal}" for slot in range(16) for signal in ("", ".O", ".P")]
    pairs = [f"{op} {what}" for op in ("offer", "observe", "step", "load", "administer") for what in objects]
    granted = [f"1 grant root {pair}" for pair in [*pairs, *(f"audit {slot}" for slot in range(15))]]
    yield "; ".join(["0 login root root", *added, USERS_AND_ROLES])
    yield "; ".join([TWO_DUTIES, *sets, SETS])
    yield "; ".join(["0 login root root", "1 addrole driver", *granted, PAIRS])


def stories():
    """All stories."""
    return [*written_stories(), *stories_of_what_is_taken(), *stories_of_orders(), *stories_of_full_tables()]


def command(words):
    """The word and the keys of a command."""
    word, *values = words
    keys = {}
    for key in FORMS[word].split():
        keys[key.strip("*")], values = (values, []) if key.endswith("*") else (values[0], values[1:])
    assert not values, f"{word}: too many words"
    if "count" in keys:
        keys["count"] = int(keys["count"])
    return word, keys


def asked(session, target):
    """A permission, as a session asks for it."""
    op, what = target
    return session, "check", {"object": what, "op": op}


class Story:
    """The steps of a story: for each the connection, the command, its keys, and what is told."""

    def __init__(self, text):
        self.made = 0
        self.steps = []
        for part in text.split(";"):
            words, _, refusal = part.strip().partition(": ")
            self.add(words.split(), refusal)

    def add(self, words, refusal):
        """Adds a part. Connection 0 holds no session: from there comes what no session gives, or one
        that was never made, and a login that is refused."""
        if words[-1] == "live":
            living = [int(word) for word in words[:-1]]
            for session in range(1, self.made + 1):
                told = "UnknownRole nobody" if session in living else "NoSession"
                self.steps.append((session, "drop", {"role": "nobody"}, told))
            return
        session, word, *rest = int(words[0]), *words[1:]
        connection = session if session <= self.made else 0
        if word == "reaches":
            for slot in SLOTS:
                told = "may" if str(slot) in rest else "may not"
                self.steps.append((*asked(connection, ("load", str(slot))), told))
        elif word == "may":
            is_denied = rest[0] == "not"
            told = "may not" if is_denied else "may"
            self.steps.append((*asked(connection, rest[is_denied:]), told))
        else:
            if word == "login" and not refusal:
                self.made += 1
                connection = self.made
            self.steps.append((connection, *command(words[1:]), refusal))


def told(answer):
    """An answer as a story tells it."""
    if "allowed" in answer:
        return "may" if answer["allowed"] else "may not"
    if "ok" in answer:
        return ""
    return " ".join([FAULTS[answer["code"]], *(str(answer[key]) for key in sorted(answer) if key not in ("code", "fault"))])
