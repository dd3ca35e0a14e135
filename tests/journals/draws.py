"""Policy commands drawn over few names by a fixed sequence, so that most orders of adding, deleting
and adding again come up."""

from wire import KEYS

OTHERS = 7  # connections beside the first, which is root's
ON_ROLES = [
    *["deluser", "delrole", "deassign", "disinherit"],
    *["adduser", "assign"] * 2,
    *["addrole", "inherit"] * 4,
]
OF_SESSIONS = {"activate", "drop"}
# where roles are named, a command on them is drawn
COMMANDS = [
    *["grant", "revoke", "undsd"],
    *["dsd", "activate", "drop"] * 2,
    *["login"] * 3,
    *["on roles"] * 8,
]


class Dice:
    """A linear congruential sequence, which is the same everywhere."""

    def __init__(self, seed):
        self.state = seed

    def roll(self, sides):
        """A number from 0 on, less than the sides."""
        self.state = (self.state * 1_664_525 + 1_013_904_223) % 2**32
        return (self.state >> 16) % sides

    def one_of(self, those):
        """One of a list."""
        return those[self.roll(len(those))]


def draw_permission(dice):
    """The keys of a permission: to administer, or to load."""
    if dice.roll(3) == 0:
        return {"object": "policy", "op": "administer"}
    return {"object": "0", "op": "load"}


def draw_values(dice):
    """A value for each key. There are up to two roles in a list, perhaps one twice."""
    return {
        "user": dice.one_of(["ann", "bob"]),
        "role": dice.one_of("abcd"),
        "senior": dice.one_of("abcd"),
        "junior": dice.one_of("abcd"),
        "name": dice.one_of("rst"),
        "count": 2,
        "roles": [dice.one_of("abcd") for _ in range(dice.one_of([0, 1, 2, 2]))],
        **draw_permission(dice),
    }


def draw_other(dice, sessions):
    """A connection that isn't the first: mostly one that holds a session, if there is one."""
    held = [place for place, session in enumerate(sessions) if place and session]
    return dice.one_of(held) if held and dice.roll(6) else 1 + dice.roll(OTHERS)


def draw_giver(dice, sessions, command):
    """The connection that gives a command: mostly the first, or another one, where the command
    changes what is active in a session; a login mostly one that holds none, if there is one."""
    if command == "login" and None in sessions and dice.roll(8):
        return sessions.index(None)
    own = command in OF_SESSIONS or dice.roll(4) == 0
    return draw_other(dice, sessions) if own else 0


def draw_command(dice, sessions):
    """A connection, a command and its keys, where the connections hold these sessions. The first
    connection, which is root's, never logs out."""
    if dice.roll(12) == 0:
        return draw_other(dice, sessions), "logout", {}
    command = dice.one_of(COMMANDS)
    if command == "on roles":
        command = dice.one_of(ON_ROLES)
    values = draw_values(dice)
    keys = {key: values[key] for key in KEYS[command].split()}
    return draw_giver(dice, sessions, command), command, keys


def draw_check(dice, sessions):
    """A connection, and what it asks."""
    return draw_giver(dice, sessions, "check"), "check", draw_permission(dice)
