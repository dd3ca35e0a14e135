"""Random modules of at most four inputs: what `estlab` says of each, beside a search that asks
`estserve script`.
"""
import os
import sys
import unittest

from drawing_modules import BOTH, INPUTS, OUTPUTS, Drawer
from support import ROOT

sys.path.insert(0, str(ROOT / "clients"))
from behaviour import Learner, Server, letters_of  # noqa: E402

from estserve_client.connection import Refusal  # noqa: E402
from estserve_client.lab.asking import start_lab  # noqa: E402
from estserve_client.module_text import main_of  # noqa: E402
from estserve_client.texts import Failed  # noqa: E402

MODULES = int(os.environ.get("LAB_MODULES", 300))
SEED = int(os.environ.get("LAB_SEED", 53))
MOST = 120  # states times lawful sets of inputs: larger modules are passed over


class Guessed:
    """The table of estlab, as a guess of what estserve answers."""

    def __init__(self, table):
        self.table = table

    def step(self, state, letter):
        row = self.table.row_for(state, letter)
        if row.is_stuck:
            return ("stuck", frozenset(row.undecided)), None
        return ("emits", frozenset(row.outputs) | (letter & {BOTH})), row.next


def answer_of(told):
    """What estserve would answer to an instant of a word."""
    if "undecided" in told:
        return "stuck", frozenset(told["undecided"])
    return "emits", frozenset(told["outputs"]) | ({BOTH} & set(told["inputs"]))


def fails(claim):
    """Whether a reaction is one in which the claim does not hold."""
    word, _, test = claim.partition(" ")

    def is_so(letter, answer):
        names = (*INPUTS, *OUTPUTS, BOTH)
        present = {name: name in letter or name in answer[1] for name in names}
        return answer[0] == "emits" and eval(test, {}, present) == (word == "never")

    return is_so


class RandomModules(unittest.TestCase):
    def setUp(self):
        self.lab = start_lab()
        self.addCleanup(self.lab.client.close)

    def table_of(self, text, module):
        """The table of a module; None where its text is refused, or it does nothing or too much."""
        letters = len(letters_of(module))
        try:
            self.lab.client.ask("load", main="M", text=text)
        except Refusal as refusal:
            self.assertIn(refusal.fault, ("InstantLoop", "TooLarge"), text)
            return None
        try:
            table = self.lab.table(module.inputs(), MOST)
        except Failed:
            return None
        return table if 2 < len(table.states) <= MOST // letters else None

    def check_rows(self, table, letters):
        """Each lawful set of inputs agrees with one row of each state, and each row is one."""
        for state in range(len(table.states)):
            rows = list(table.rows_at(state))
            self.assertLessEqual({row.inputs for row in rows}, set(letters))
            for letter in letters:
                agree = [row for row in rows if letter & row.asked == row.inputs]
                self.assertEqual(agree, [table.row_for(state, letter)])

    def check(self, learner, module, claims):
        """Holds the verdicts of estlab against the search's: what they are, how short a word is,
        and what estserve answers to it.
        """
        found = self.lab.explore(claims, module.inputs(), MOST)
        wrong = [lambda letter, answer: answer[0] == "stuck", *map(fails, claims)]
        for verdict, is_wrong in zip([found.stuck, *found.verdicts], wrong):
            word = tuple(frozenset(told["inputs"]) for told in verdict.word)
            told = len(word) if verdict.name == "fails" else None
            self.assertEqual(told, learner.shortest(is_wrong), claims)
            answers = [learner.answer(word[: at + 1]) for at in range(len(word))]
            self.assertEqual(answers, list(map(answer_of, verdict.word)))
            if word:
                self.assertTrue(is_wrong(word[-1], answers[-1]))

    def test_each_agrees_with_a_search_that_asks_estserve(self):
        drawer, count, kinds = Drawer(SEED), 0, set()
        with Server([*INPUTS, *OUTPUTS, BOTH]) as server:
            while count < MODULES:
                text = drawer.module()
                module = main_of(text, "M")
                table = self.table_of(text, module)
                if table is None:
                    continue
                count += 1
                server.load(text, module)
                learner = Learner(server.ask, letters_of(module))
                with self.subTest(text):
                    learner.agree(Guessed(table))
                    answers = {answer for answer, _ in learner.steps.values()}
                    guessed = Guessed(table)
                    rows = {guessed.step(row.before, row.inputs)[0] for row in table.rows}
                    self.assertEqual(rows, answers)
                    self.check_rows(table, learner.letters)
                    self.check(learner, module, drawer.claims([name for name, _ in module.signals]))
                kinds.add(len(learner.states))
        self.assertGreater(len(kinds), 3 * (MODULES > 99))  # modules of many sizes were drawn


if __name__ == "__main__":
    unittest.main()
