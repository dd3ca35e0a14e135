"""Sessions that others end between two commands of their connection, and a slot's journal that is full."""
import unittest

from peers import LOGIN, Peer, Server, accepted, command, refused, report
import full

AUDIT_SECONDS = 1_800  # a full journal is audited in this time, also by the program built without proof


def ordered(*commands, first):
    """Commands that are accepted at versions that follow each other, with their answers."""
    return [(command(**keys), accepted(keys["cmd"], version=first + at)) for at, keys in enumerate(commands)]


def login(user, roles, /, **keys):
    """A login and its answer: the keys of the accepted one, or those of a refusal with its code."""
    line = command("login", roles=roles, user=user)
    return line, refused(**keys) if "code" in keys else accepted("login", **keys)


ROOT = (LOGIN, accepted("login", session=1, version=5))
ADDED = ordered(
    {"cmd": "addrole", "role": "chief"},
    {"cmd": "adduser", "user": "ann"},
    {"cmd": "assign", "role": "chief", "user": "ann"},
    first=6,
)
# by what a session is ended, and what ann's login as a chief is answered afterwards
ENDED_BY = {
    "deluser": ([{"cmd": "deluser", "user": "ann"}, {"cmd": "adduser", "user": "ann"}], {"code": 21, "role": "chief"}),
    "deassign": ([{"cmd": "deassign", "role": "chief", "user": "ann"}], {"code": 21, "role": "chief"}),
    "delrole": ([{"cmd": "delrole", "role": "chief"}], {"code": 26, "role": "chief"}),
    "disinherit": ([{"cmd": "disinherit", "junior": "chief", "senior": "head"}], {"code": 21, "role": "chief"}),
}
THROUGH_HEAD = ordered(
    {"cmd": "addrole", "role": "chief"},
    {"cmd": "addrole", "role": "head"},
    {"cmd": "inherit", "junior": "chief", "senior": "head"},
    {"cmd": "adduser", "user": "ann"},
    {"cmd": "assign", "role": "head", "user": "ann"},
    first=6,
)


class EndedSessions(unittest.TestCase):
    """Ann is logged in, and root's command on another connection ends her session between two of hers."""

    def end_session(self, first, ending, again):
        """Lets root end ann's session, with what all are answered before and after it."""
        logged_in = 6 + len(first)
        ended = logged_in + len(ending)
        with Server("--workers", "2", "--connections", "1") as server, Peer(server.path) as root, Peer(server.path) as ann:
            root.converse([ROOT, *first])
            ann.converse([login("ann", ["chief"], session=2, version=logged_in)])
            root.converse(ordered(*ending, first=logged_in + 1))
            ann.converse(
                [
                    (command("activate", role="chief"), refused(4)),
                    (command("step", slot=0), refused(4)),
                    (command("check", object="0", op="step"), accepted("check", allowed=False)),
                    login("ann", [], code=5),
                    (command("logout"), refused(4)),
                    login("ann", ["chief"], **again),
                    login("ann", [], session=3, version=ended + 1),
                ]
            )
            self.assertEqual((ann.rest(), root.rest()), (b"", b""))
            self.assertEqual(server.end(), (0, report(ended + 3), b""))

    def test_by_each_command_that_ends_it(self):
        for name, (ending, again) in ENDED_BY.items():
            with self.subTest(name):
                self.end_session(THROUGH_HEAD if name == "disinherit" else ADDED, ending, again)
        print(f"ended: a session by {', '.join(ENDED_BY)}, each with its answers")


class FullJournals(unittest.TestCase):
    def test_of_a_slot_whose_last_entry_is_an_offer(self):
        with Server("--workers", "1", "--connections", "1") as server, Peer(server.path) as peer:
            count = peer.converse(full.lines_of_waiting())
            self.assertEqual(peer.rest(), b"")
            self.assertEqual(server.end(AUDIT_SECONDS), (0, full.WAITING_REPORT.encode(), b""))
        print(f"full: a slot's journal, by {count} lines")


if __name__ == "__main__":
    unittest.main()
