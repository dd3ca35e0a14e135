"""What happens inside instants, as the gateway tells it over HTTP: to whom, and what."""
import json
import os
import unittest

import teams
import visitors
from estserve_client.texts import Failed
from estserve_team.web.insides import Held
from test_two_processes import page_of
from visitors import OwnTeam, visitor_of

ACROSS = (teams.ROOT / "tests" / "lab" / "across.strl").read_text()
CIRCLE = "GRANT (line 28) waits for BUSY, which line 38 may emit once GRANT is present"
NO_LAB = "the variable ESTLAB names no program"
HAS_LAB = bool(os.environ.get("ESTLAB"))


@unittest.skipUnless(visitors.HAS_AIOHTTP, visitors.NO_AIOHTTP)
class InsideTest(OwnTeam):
    """What happens inside instants is for those who may load, or observe all and step or audit."""

    REFUSED = (
        "NotAllowed: what happens inside instants needs load on 0, or observe on each signal of 0"
        " with step or audit"
    )

    def setUp(self):
        self.team = self.serving()
        self.root = visitor_of(self.team, "root", "root")
        self.ann = visitor_of(self.team, "ann", "lead")
        self.cho = visitor_of(self.team, "cho", "stepper")

    def step(self, *names):
        """An instant with these inputs."""
        for name in names:
            self.ann.ask(f"offer {name} {os.urandom(4).hex()}", "offer", slot=0, signal=name)
        self.cho.ask(f"step {os.urandom(4).hex()}", "step", slot=0)

    def inside(self, visitor, instant, slot=0):
        """What one is told of the inside of an instant."""
        return visitor.get("inside", slot=slot, instant=instant)

    def all_of(self, visitor):
        """The bytes of all that one may ask about the inside."""
        asked = [self.inside(visitor, instant) for instant in (0, 1, 2, 7)]
        asked += [
            visitor.get("stuck", slot=0),
            visitor.get("locals", slot=0, **{"from": 1, "to": 9}),
        ]
        return {answer.body for answer in asked}

    def load(self, text, main=None):
        """Another module in the slot."""
        self.root.ask(os.urandom(4).hex(), "unload", slot=0)
        more = {"main": main} if main else {}
        self.root.ask(os.urandom(4).hex(), "load", slot=0, text=text, **more)

    def grant(self, role, *pairs):
        for operation, thing in pairs:
            self.root.ask(os.urandom(4).hex(), "grant", role=role, op=operation, object=thing)

    def test_a_watcher_of_some_signals_gets_the_same_bytes_whatever_the_instant_is(self):
        bob = visitor_of(self.team, "bob", "watcher")
        bodies = self.all_of(bob)
        self.step("A")
        bodies |= self.all_of(bob)
        self.step("B")
        bodies |= self.all_of(bob)
        self.load(ACROSS)
        self.grant("root", ("offer", "0.ASK"))
        self.root.ask("o", "offer", slot=0, signal="ASK")
        self.assertEqual(self.cho.ask("s", "step", slot=0)["refusal"]["fault"], "Stuck")
        bodies |= self.all_of(bob)
        self.root.ask("u", "unload", slot=0)
        bodies |= self.all_of(bob)
        self.assertEqual(teams.children_of(page_of(self.team)), [], "nothing is worked out for bob")
        self.assertEqual(len(bodies), 1)
        self.assertEqual(json.loads(bodies.pop())["sentence"], self.REFUSED)

    def test_who_observes_all_may_not_look_inside_without_step_or_audit(self):
        bob = visitor_of(self.team, "bob", "watcher")
        self.step("A")
        self.grant("watcher", ("observe", "0.B"), ("observe", "0.R"))
        self.assertEqual(self.inside(bob, 1).told["sentence"], self.REFUSED)
        self.grant("watcher", ("step", "0"))
        self.assertNotIn("NotAllowed", json.dumps(self.inside(bob, 1).told))
        self.root.ask("q", "revoke", role="watcher", op="step", object="0")
        self.assertEqual(self.inside(bob, 1).told["sentence"], self.REFUSED)
        self.grant("watcher", ("audit", "policy"))
        self.assertNotIn("NotAllowed", json.dumps(self.inside(bob, 1).told))
        self.root.ask("r", "revoke", role="watcher", op="observe", object="0.B")
        self.assertEqual(self.inside(bob, 1).told["sentence"], self.REFUSED)

    def test_who_steps_and_observes_little_is_refused(self):
        self.step("A")
        self.assertEqual(self.inside(self.cho, 1).told["sentence"], self.REFUSED)

    @unittest.skipUnless(HAS_LAB, NO_LAB)
    def test_the_lines_that_ran_are_told_of_any_instant(self):
        for names in ((), ("A",), ("B",)):
            self.step(*names)
        first, third = self.inside(self.root, 1).told, self.inside(self.root, 3).told
        text = self.root.get("text", slot=0).told["text"].split("\n")
        lines = {
            word: at
            for at, line in enumerate(text, 1)
            for word in ("await", "emit O")
            if word in line
        }
        self.assertIn(lines["await"], first["ran"])
        self.assertIn(lines["await"], first["rests"])
        self.assertNotIn(lines["emit O"], first["ran"])
        self.assertIn(lines["emit O"], third["ran"])
        self.assertEqual(self.inside(self.root, 1).told, first)
        self.assertEqual(self.inside(self.root, 4).told["instant"], None)
        self.assertEqual(self.root.get("inside", slot=0, instant="x").status, 400)

    @unittest.skipUnless(HAS_LAB, NO_LAB)
    def test_another_load_is_another_text(self):
        self.step("A")
        self.inside(self.root, 1)
        self.root.ask("u", "unload", slot=0)
        text = (
            "module M: output O;\nsignal S in\n emit S; present S then emit O end\nend end module"
        )
        self.root.ask("l", "load", slot=0, text=text)
        self.assertEqual(self.inside(self.root, 1).told["instant"], None)
        self.step()
        told = self.inside(self.root, 1).told
        self.assertEqual((told["ran"], told["rests"]), ([2, 3], []))
        self.assertEqual(told["locals"], [["S", 1, 1]])

    @unittest.skipUnless(HAS_LAB, NO_LAB)
    def test_local_signals_are_told_by_their_modules_in_many_instants(self):
        text = (
            "module M: input A; output O; signal S in run N [signal S/X] || present S then emit O"
            " end end end module module N: input A; output X; signal L in loop await A; emit L;"
            " present L then emit X end end end end module"
        )
        self.load(text)
        names = self.root.get("locals", slot=0, **{"from": 1, "to": 0}).told
        self.assertEqual((names["signals"], names["rows"]), ([["S", ""], ["N.L", "N"]], []))
        for names in ((), ("A",), ()):
            self.step(*names)
        told = self.root.get("locals", slot=0, **{"from": 1, "to": 9}).told
        self.assertEqual(told["rows"], ["00", "11", "00"])

    @unittest.skipUnless(HAS_LAB, NO_LAB)
    def test_a_stuck_instant_is_told_with_its_circle(self):
        self.load(ACROSS)
        self.grant("root", ("offer", "0.ASK"), ("step", "0"))
        before = self.root.get("stuck", slot=0).told
        self.assertEqual((before["instant"], before["stuck"]), (1, None), "nothing is pending")
        self.root.ask("o", "offer", slot=0, signal="ASK")
        self.assertEqual(self.root.ask("s", "step", slot=0)["refusal"]["fault"], "Stuck")
        told = self.root.get("stuck", slot=0).told
        self.assertEqual((told["instant"], told["stuck"]["told"]), (1, CIRCLE))
        self.assertEqual([one["test"] for one in told["stuck"]["circle"]], [27, 37])
        self.assertIn(17, told["ran"])
        self.root.ask("d", "discard", slot=0)
        self.root.ask("t", "step", slot=0)
        after = self.root.get("stuck", slot=0).told
        self.assertEqual((after["instant"], after["stuck"]), (2, None))
        self.assertEqual(self.inside(self.root, 1).told["instant"], 1)

    @unittest.skipUnless(HAS_LAB, NO_LAB)
    def test_inputs_that_a_relation_refuses_are_not_stuck(self):
        self.load(
            "module M: input A, B; output O; relation A => B; present O else emit O end end module"
        )
        self.grant("root", ("offer", "0.A"))
        self.root.ask("o", "offer", slot=0, signal="A")
        self.assertIsNone(self.root.get("stuck", slot=0).told["stuck"])


@unittest.skipUnless(HAS_LAB, NO_LAB)
class StuckTest(unittest.TestCase):
    def test_a_made_instant_that_estlab_finds_stuck_is_told_as_a_fault(self):
        """With I there is no reaction: O would be emitted only where it isn't."""
        text = (
            "module M: input I; output O; loop present I then present O else emit O end end; pause"
            " end end module"
        )
        held = Held("1.1", 1, "M", text)
        self.addCleanup(held.lab.client.close)
        held.word = [[], ["I"], []]
        self.assertEqual(held.told(1)["instant"], 1)
        for look in (
            lambda: held.told(2),
            lambda: held.told(3),
            lambda: held.rows(1, 3),
            lambda: held.stuck([]),
        ):
            with self.assertRaisesRegex(Failed, "^instant 2 was made, and estlab finds it stuck$"):
                look()


if __name__ == "__main__":
    unittest.main()
