"""A full policy journal, and session numbers that are used up, over a server's connections. On the program built without proof this
takes minutes, so only `run --long` does it; the crate `server_tests` has both on a desk."""
import itertools
import unittest

from peers import Peer, Server, accepted, command, refused, report
from policy import MOST_ENTRIES as MOST_POLICY_ENTRIES, SESSIONS
from test_ended import AUDIT_SECONDS, ROOT, login, ordered

WORKERS = 16  # at most
HELD = 14  # further sessions live while the policy journal is filled: an even number, so that an activation is last


class FullJournals(unittest.TestCase):
    def fill_policy(self, first):
        """Activates a role and drops it, from this version on up to the last one, which is an activation."""
        for version in range(first, MOST_POLICY_ENTRIES + 1):
            cmd = "drop" if version % 2 else "activate"
            yield command(cmd, role="x"), accepted(cmd, version=version)

    def test_of_the_policy_which_has_room_for_logouts(self):
        first = ordered({"cmd": "addrole", "role": "x"}, {"cmd": "assign", "role": "x", "user": "root"}, first=6)
        with Server("--workers", str(WORKERS), "--connections", "1") as server:
            root, late, *held = (Peer(server.path) for _ in range(2 + HELD))
            root.converse([ROOT, *first])
            for at, peer in enumerate(held):
                peer.converse([login("root", [], session=2 + at, version=8 + at)])
            count = root.converse(self.fill_policy(8 + HELD))
            full_now = MOST_POLICY_ENTRIES
            root.converse([(command("drop", role="x"), refused(67)), (command("activate", role="x"), refused(22, role="x"))])
            root.converse([(command("logout"), accepted("logout", version=full_now + 1)), login("root", [], code=67)])
            late.converse([login("root", [], code=67), login("nobody", [], code=25, user="nobody")])
            for at, peer in enumerate(held):
                peer.converse([(command("logout"), accepted("logout", version=full_now + 2 + at)), login("root", [], code=67)])
            for peer in (root, late, *held):
                self.assertEqual(peer.rest(), b"")
            self.assertEqual(server.end(AUDIT_SECONDS), (0, report(full_now + 1 + HELD), b""))
        print(f"full: the policy journal, by {count} activations and drops, and {1 + HELD} logouts after its end")

    def test_session_numbers_are_used_up(self):
        pairs = (
            pair
            for number in range(1, SESSIONS + 1)
            for pair in (
                login("root", [], session=number, version=2 * number + 3),
                (command("logout"), accepted("logout", version=2 * number + 4)),
            )
        )
        last = [login("nobody", [], code=6), login("root", ["root"], code=6)]
        with Server("--workers", "1", "--connections", "1") as server, Peer(server.path) as peer:
            count = peer.converse(itertools.chain(pairs, last))
            self.assertEqual(peer.rest(), b"")
            self.assertEqual(server.end(AUDIT_SECONDS), (0, report(2 * SESSIONS + 4), b""))
        print(f"full: {SESSIONS} session numbers, by {count} lines")


if __name__ == "__main__":
    unittest.main()
