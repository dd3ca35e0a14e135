"""An archive: the new record begins with what the old one came to, and what differs stops it."""
import json
import pathlib
import sqlite3
import tempfile
import unittest

from reads_support import ABRO, Desk, program_file

from estserve_team.reads import witness
from estserve_team.reads.archive import ArchiveFailed, Caller, build
from estserve_team.reads.rebuilding import OPENING_FACTS, needs_helper
from estserve_team.reads.state import models_of
from estserve_team.record import open_reader
from estserve_team.refusals import Refused
from estserve_team.replay import Replay
from estserve_team.server import Server

RELATED = (
    "module M: input I, J; output O, P; relation I # J; emit P; every I do emit O end end module"
)
CALLER = Caller("kim", "root", ["root"])


def facts_of(models):
    """The facts of a policy that are not opening ones, in order of creation."""
    return [fact.command for fact in models.policy.facts() if fact.command not in OPENING_FACTS]


def allow(root, slot, *names):
    """Root may load and step the slot, and offer these inputs."""
    pairs = [
        ("load", f"{slot}"),
        ("step", f"{slot}"),
        *(("offer", f"{slot}.{name}") for name in names),
    ]
    for op, object in pairs:
        root.give("grant", role="root", op=op, object=object)


def fill(desk):
    """A policy with a past, and three slots: one in use, one loaded twice, one empty again."""
    root = desk.root()
    for role in ("driver", "judge", "chief", "gone"):
        root.need("addrole", role=role)
    root.need("adduser", user="ann")
    root.need("inherit", senior="chief", junior="driver")
    root.need("dsd", name="s2", roles=["driver", "judge"], count=2)
    root.need("dsd", name="s1", roles=["chief", "judge"], count=2)
    root.need("assign", user="ann", role="chief")
    root.need("grant", role="driver", op="observe", object="0.O")
    root.need("grant", role="gone", op="step", object="5")
    root.need("delrole", role="gone")
    allow(root, 0, "A", "B", "R")
    root.need("load", slot=0, main="ABRO", text=ABRO)
    for inputs in ("", "A", "B", "AB", "R", "AB", "ABR"):
        for name in inputs:
            root.need("offer", slot=0, signal=name)
        root.need("step", slot=0)
    root.need("offer", slot=0, signal="B")
    root.need("discard", slot=0)
    root.need("offer", slot=0, signal="R")
    root.need("offer", slot=0, signal="A")
    allow(root, 1, "I", "J")
    root.need("load", slot=1, main="ABRO", text=ABRO)
    root.need("unload", slot=1)
    root.need("load", slot=1, main="M", text=RELATED)
    root.need("offer", slot=1, signal="J")
    root.need("step", slot=1)
    root.need("offer", slot=1, signal="I")
    root.need("step", slot=1)
    allow(root, 2)
    root.need("load", slot=2, main="ABRO", text=ABRO)
    root.need("step", slot=2)
    root.need("unload", slot=2)
    return root


class Case(unittest.TestCase):
    """Each test makes a record by the real program, and a new one of it."""

    def setUp(self):
        held = tempfile.TemporaryDirectory(prefix="estserve-archive-")
        self.addCleanup(held.cleanup)
        self.folder = pathlib.Path(held.name)
        self.new = self.folder / "new.sqlite"

    def desk(self, **words):
        """A desk that ends with the test."""
        desk = Desk(**words)
        desk.__enter__()
        self.addCleanup(desk.__exit__)
        return desk

    def build(self, desk, emptied=None, caller=CALLER):
        """Makes the new record; its models, and those of the old one."""
        build(caller, emptied, desk.record_path, self.new, program_file(), self.folder)
        return models_of(self.new), models_of(desk.record_path)

    def build_filled(self, emptied=None):
        """The models of the new and the old record of a desk that was filled."""
        desk = self.desk()
        fill(desk).need("logout")
        return self.build(desk, emptied)


class Archives(Case):
    """What stays, what does not, and what stops it."""

    def test_facts_instants_and_pending_inputs_stay(self):
        new, old = self.build_filled()
        self.assertEqual(facts_of(new), facts_of(old))
        self.assertEqual(list(new.policy.sets), ["s2", "s1"])
        self.assertEqual(
            new.slots[0].instants,
            [(), ("A",), ("B",), ("A", "B"), ("R",), ("A", "B"), ("A", "B", "R")],
        )
        self.assertEqual(list(new.slots[0].pending), ["R", "A"])
        self.assertEqual((new.slots[1].main, new.slots[1].instants), ("M", [("J",), ("I",)]))
        self.assertEqual((new.slots[2].entries, old.slots[2].entries), (0, 3))
        self.assertEqual((new.slots[1].entries, old.slots[1].entries), (5, 7))
        self.assertLess(new.policy.version, old.policy.version + 60)
        self.assertEqual((new.policy.sessions, new.policy.logins), ({}, 2))

    def test_the_slot_that_is_named_is_empty_and_its_journal_is(self):
        new, old = self.build_filled(emptied=0)
        self.assertEqual((new.slots[0].entries, new.slots[0].is_loaded), (0, False))
        self.assertEqual(new.slots[1].instants, old.slots[1].instants)
        self.assertEqual(facts_of(new), facts_of(old))

    def test_the_new_record_is_replayed_byte_for_byte(self):
        self.build_filled()
        with Server(program_file(), self.folder / "again") as server, Replay(
            self.new, server.path
        ) as replay:
            replay.run()
            self.assertGreater(replay.count, 50)
        with open_reader(self.new) as database:
            rows = database.execute("SELECT DISTINCT person, user FROM connections").fetchall()
        self.assertEqual(rows, [("kim", "root")])

    def test_opening_facts_that_are_gone_are_taken_away_again(self):
        desk = self.desk()
        root = desk.root()
        root.need("addrole", role="admin")
        root.need("grant", role="admin", op="administer", object="policy")
        root.need("grant", role="admin", op="load", object="3")
        root.need("adduser", user="ann")
        root.need("assign", user="ann", role="admin")
        desk.seats[1].need("login", user="ann", roles=["admin"])
        desk.seats[1].need("deluser", user="root")
        desk.seats[1].need("delrole", role="root")
        desk.seats[1].need("logout")
        new, old = self.build(desk, caller=Caller("ann", "ann", ["admin"]))
        self.assertEqual(facts_of(new), facts_of(old))
        self.assertEqual((list(new.policy.users), list(new.policy.roles)), (["ann"], ["admin"]))

    def test_an_assignment_and_a_grant_of_root_that_are_gone(self):
        desk = self.desk()
        root = desk.root()
        root.need("addrole", role="admin")
        root.need("grant", role="admin", op="administer", object="policy")
        root.need("grant", role="admin", op="load", object="3")
        root.need("assign", user="root", role="admin")
        root.need("activate", role="admin")
        root.need("revoke", role="root", op="administer", object="policy")
        root.need("deassign", user="root", role="root")
        new, old = self.build(desk, caller=Caller("root", "root", ["admin"]))
        self.assertEqual(
            (new.policy.assigned.keys(), new.policy.granted.keys()),
            (old.policy.assigned.keys(), old.policy.granted.keys()),
        )

    def test_a_set_that_the_role_root_would_violate(self):
        desk = self.desk()
        root = desk.root()
        for role in ("admin", "x", "y"):
            root.need("addrole", role=role)
        root.need("grant", role="admin", op="administer", object="policy")
        root.need("grant", role="admin", op="load", object="3")
        root.need("assign", user="root", role="admin")
        root.need("activate", role="admin")
        root.need("drop", role="root")
        root.need("inherit", senior="root", junior="x")
        root.need("inherit", senior="root", junior="y")
        root.need("dsd", name="s", roles=["x", "y"], count=2)
        new, old = self.build(desk, caller=Caller("root", "root", ["admin"]))
        self.assertTrue(needs_helper(old.policy))
        self.assertEqual(facts_of(new), facts_of(old))

    def test_a_caller_who_may_no_more_makes_none(self):
        desk = self.desk()
        fill(desk)
        with self.assertRaisesRegex(ArchiveFailed, "taken away"):
            self.build(desk, caller=Caller("ann", "ann", ["chief"]))
        with self.assertRaisesRegex(ArchiveFailed, "taken away"):
            self.build(desk, emptied=7)
        self.assertFalse(self.new.exists())

    def test_a_full_table_stops_it(self):
        desk = self.desk()
        root = desk.root()
        root.need("addrole", role="admin")
        root.need("grant", role="admin", op="administer", object="policy")
        root.need("grant", role="admin", op="load", object="3")
        for number in range(62):
            root.need("adduser", user=f"u{number}")
        root.need("adduser", user="ann")
        root.need("assign", user="ann", role="admin")
        desk.seats[1].need("login", user="ann", roles=["admin"])
        desk.seats[1].need("deluser", user="root")
        desk.seats[1].need("adduser", user="one_more")
        with self.assertRaisesRegex(ArchiveFailed, "adduser.*Full"):
            self.build(desk, caller=Caller("ann", "ann", ["admin"]))


class Differences(Case):
    """What is changed in the new record, or in the old one, is found."""

    def compared(self, change, emptied=None, of_old=False):
        """Compares the records after a change of one of them."""
        desk = self.desk()
        fill(desk).need("logout")
        build(CALLER, emptied, desk.record_path, self.new, program_file(), self.folder)
        models = models_of(desk.record_path), models_of(self.new)
        change(models)
        witness.compare_facts(models[0].policy, models[1].policy)
        witness.compare_slots(models[0], models[1], emptied)
        return witness.compare_shown(
            (desk.record_path, self.new), models, emptied, program_file(), self.folder
        )

    def differs(self, pattern, change):
        """A change that has to be found."""
        with self.assertRaisesRegex(ArchiveFailed, pattern):
            self.compared(change)

    def test_without_a_change_all_instants_are_compared(self):
        self.assertEqual(self.compared(lambda models: None), 9)

    def test_changed_models(self):
        def drop_a_grant(models):
            models[1].policy.granted.popitem()

        def exchange_sets(models):
            models[1].policy.sets["s2"], models[1].policy.sets["s1"] = (
                models[1].policy.sets["s1"],
                models[1].policy.sets["s2"],
            )

        def another_instant(models):
            models[1].slots[0].instants[1] = ("B",)

        def nothing_pending(models):
            models[1].slots[0].pending.popitem()

        for pattern, change in (
            ("policies differ", drop_a_grant),
            ("fact", exchange_sets),
            ("instants", another_instant),
            ("pending", nothing_pending),
        ):
            with self.subTest(pattern):
                self.new.unlink(missing_ok=True)
                self.differs(pattern, change)

    def test_another_line_in_a_record(self):
        def exchange_inputs(models):
            database = sqlite3.connect(self.new)
            at = database.execute(
                "SELECT number, request FROM entries WHERE command = 'offer' AND slot = 0"
            ).fetchall()
            database.execute(
                "UPDATE entries SET request = ? WHERE number = ?", (at[1][1], at[0][0])
            )
            database.execute(
                "UPDATE entries SET request = ? WHERE number = ?", (at[0][1], at[1][0])
            )
            database.commit()
            database.close()
            self.assertNotEqual(json.loads(at[0][1]), json.loads(at[1][1]))

        self.differs("slot 0 shows", exchange_inputs)


class TheWord(unittest.TestCase):
    """Who may ask for an archive."""

    def test_it_needs_administer_and_load(self):
        asked = []
        with Desk() as desk:
            desk.archive = self.keeping(asked)
            root = fill(desk)
            root.need("assign", user="ann", role="driver")
            desk.seats[1].need("login", user="ann", roles=["chief"])
            for slot in (None, 0):
                keys = {} if slot is None else {"slot": slot}
                with self.assertRaises(Refused) as refused:
                    desk.read(desk.seats[1], "archive", **keys)
                self.assertEqual(refused.exception.code, 1011)
                self.assertEqual(desk.read(root, "archive", **keys)["ok"], "archive")
            for keys, code in (({"slot": 7}, 1011), ({"slot": 16}, 1010)):
                with self.assertRaises(Refused) as refused:
                    desk.read(root, "archive", **keys)
                self.assertEqual(refused.exception.code, code)
        self.assertEqual(
            [(build.args[0].user, build.args[1]) for build in asked], [("root", None), ("root", 0)]
        )

    @staticmethod
    def keeping(asked):
        """An `archive` of a gateway that keeps what it is asked to build."""

        async def archive(build):
            asked.append(build)

        return archive


if __name__ == "__main__":
    unittest.main()
