"""The inside of instants: what estlab says of random modules, beside the rules walked one by one."""
import os
import random
import unittest

from support import ROOT  # noqa: F401
from drawing_modules import Drawer, Names
from rules import Program

from estserve_client.connection import Refusal
from estserve_client.lab.asking import Subject, start_lab
from estserve_client.lab.cells import Cells
from estserve_client.lab.inside import Inside
from estserve_client.lab.stuck import Stuck
from estserve_client.library_text import join_texts
from estserve_client.module_text import main_of
from estserve_client.texts import Failed

MODULES = int(os.environ.get("LAB_INSIDE", 200))
SEED = int(os.environ.get("LAB_SEED", 11))
INSTANTS = 6
ANEW = "module M:\ninput A, B;\noutput O, P;\nloop signal S in [ {} ]; pause; [ {} ] end end\nend module\n"


class RandomInstants(unittest.TestCase):
    """Each instant of a random walk through a random module."""

    def setUp(self):
        self.lab = start_lab()
        self.addCleanup(self.lab.client.close)
        self.dice, self.kinds = random.Random(SEED), {"stuck": 0, "several": 0, "instants": 0}

    def inside_of(self, text):
        """A module in estlab; None where it can't be loaded."""
        try:
            return Inside(self.lab, Subject(join_texts([("text", text)]), main_of(text)))
        except (Failed, Refusal):
            return None

    def same(self, inside, look, reaction):
        """Holds a look against what the rules come to."""
        seen = reaction.seen
        self.assertEqual(look.is_stuck, reaction.is_stuck)
        self.assertEqual(look.began, seen.began)
        self.assertEqual(look.went, seen.went)
        self.assertEqual(look.locals, {**dict.fromkeys(look.locals, False), **seen.locals})
        if look.is_stuck:
            self.assertEqual(set(look.undecided), reaction.undecided)
            self.same_ties(inside, look, seen)
        else:
            self.assertEqual(look.outputs, reaction.outputs)
            self.assertEqual(look.after, reaction.next)

    def same_ties(self, inside, look, seen):
        """Holds the ties of a look against those of the rules. A `suspend` over several signals may
        be named though the others answer its test.
        """
        for waits, ties in ((True, seen.waits), (False, seen.may_emit)):
            told = {(tie.at, tie.signal) for tie in look.ties if tie.waits is waits}
            walked = {(at, getattr(signal, "name", signal)) for at, signal in ties}
            more = [inside.statements[at[0]] for at, _ in told - walked]
            self.assertEqual(walked - told, set())
            self.assertTrue(all(one.kind == "suspend" and one.test.parts for one in more), more)

    def walk(self, inside):
        """One walk from the start."""
        program = Program(inside.statements, inside.subject.module.outputs())
        names = inside.subject.module.inputs()
        for _ in range(INSTANTS):
            inputs = [name for name in names if self.dice.random() < 0.5]
            try:
                look = inside.look(inputs)
            except Refusal as refusal:
                self.assertIn(refusal.fault, ("Excluded", "Implied"))
                continue
            reaction = program.react(inputs)
            self.same(inside, look, reaction)
            Cells(inside, look)  # which are checked as they are made
            self.kinds["instants"] += 1
            ran = {at for at in look.locals if look.ran(at)}
            self.kinds["several"] += len(ran) > len({number for number, _ in ran})
            if look.is_stuck:
                self.kinds["stuck"] += 1
                self.assertTrue(Stuck(inside, look).lines())
                continue
            program.state = reaction.next

    def texts(self):
        """Random modules; in every other one a loop begins a signal anew."""
        drawer = Drawer(SEED)
        names = Names(["A", "B", "O", "P", "S"], ["O", "P", "S", "S"], [])
        while True:
            yield drawer.module()
            yield ANEW.format(drawer.statement(names, 2), drawer.statement(names, 2))

    def test_what_ran_is_what_the_rules_say(self):
        count, texts = 0, self.texts()
        while count < MODULES:
            text = next(texts)
            inside = self.inside_of(text)
            if inside is None:
                continue
            count += 1
            with self.subTest(text):
                self.walk(inside)
        self.assertGreater(self.kinds["stuck"], MODULES // 20)
        self.assertGreater(self.kinds["several"], MODULES // 50)


if __name__ == "__main__":
    unittest.main()
