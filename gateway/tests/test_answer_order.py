"""Which entry is written when, and which answer goes out when: a server is simulated, whose answers
overtake each other."""
import unittest

import teams
from estserve_team.answer_order import Asked, Inconsistent, Order
from estserve_team.lines import request_of

RUNS = 300
STEPS = 250
SESSIONS = 4
STEP = {slot: request_of({"cmd": "step", "slot": slot}) for slot in range(17)}
LOOK = {slot: request_of({"cmd": "look", "slot": slot, "instant": 1}) for slot in range(17)}
AUDIT = {slot: request_of({"cmd": "audit", "slot": slot}) for slot in range(17)}
CHECK = request_of({"cmd": "check", "object": "0", "op": "step"})
ADD = request_of({"cmd": "addrole", "role": "r"})


class Noted(Asked):
    """A request of which is noted when it was done."""


class Server:
    """A server of which is known only how many entries its policy and its slots have. `seen` is
    what each answer was made of."""

    def __init__(self):
        self.version = 4
        self.places = [0] * 16

    def answer(self, asked, is_refused):
        """The answer to a request, and what it may have seen: a version, and a slot's place."""
        request, slot = asked.request, asked.request.slot
        known = slot is not None and slot < 16
        asked.fields = {"ok": request.cmd}
        if is_refused or slot == 16:
            asked.fields = {"code": 10}
        elif slot is None and request.adds_entry:
            self.version += 1
            asked.fields["version"] = self.version
        elif known and request.adds_entry:
            self.places[slot] += 1
            asked.fields.update(version=self.version, place=self.places[slot])
        elif known:
            asked.fields["version"] = self.version
        return self.version, (slot, self.places[slot]) if known else None


class Run:
    """One run: requests that are sent, done by the server, read and written, in any order that can
    be."""

    def __init__(self, numbers):
        self.numbers = numbers
        self.order, self.server = Order(4, [0] * 16), Server()
        self.sent = [[] for _ in range(SESSIONS)]
        self.told = [[] for _ in range(SESSIONS)]
        self.waiting = []
        self.version, self.places = 4, [0] * 16  # that are written
        self.gone = self.done = 0
        self.last = [0] * SESSIONS  # of each session's entries that are written

    def send(self):
        slot = self.numbers.choice([0, 0, 0, 1, 1, 16])
        request = self.numbers.choice([STEP[slot], STEP[slot], LOOK[slot], AUDIT[slot], CHECK, ADD])
        asked = Noted(request, self.numbers.randrange(SESSIONS), None)
        self.order.sent(asked)
        self.sent[asked.session].append(asked)

    def do(self):
        queue = self.numbers.choice(self.sent)
        if queue:
            asked = queue.pop(0)
            self.done += 1
            asked.number_done = self.done
            asked.context = self.server.answer(asked, self.numbers.random() < 0.2)
            self.told[asked.session].append(asked)

    def read(self):
        queue = self.numbers.choice(self.told)
        if queue:
            asked = queue.pop(0)
            self.order.answered(asked)
            self.waiting.append(asked)

    def write(self):
        ready = self.order.take_ready()
        for asked in ready:
            slot = asked.request.slot
            assert (
                asked.number_done > self.last[asked.session]
            ), "entries of one connection are not in its order"
            self.last[asked.session] = asked.number_done
            if slot is None:
                assert asked.place == self.version + 1
                self.version += 1
            else:
                assert asked.place == self.places[slot] + 1 and asked.version <= self.version
                self.places[slot] += 1
        self.order.written(ready)

    def release(self):
        for asked in [asked for asked in self.waiting if self.order.may_go(asked)]:
            version, seen = asked.context
            assert version <= self.version, "a policy entry that was seen is not written"
            assert (
                seen is None or seen[1] <= self.places[seen[0]]
            ), "a slot's entry that was seen is not written"
            self.waiting.remove(asked)
            self.gone += 1

    def all(self, steps=STEPS):
        kinds = [
            self.send,
            self.send,
            self.do,
            self.do,
            self.read,
            self.read,
            self.write,
            self.release,
        ]
        for _ in range(steps):
            self.numbers.choice(kinds)()
        while any(self.sent) or any(self.told):
            self.do()
            self.read()
        self.write()
        self.release()


class Simulated(unittest.TestCase):
    def test_what_an_answer_has_seen_is_written_before_it_goes_out_and_each_goes_out(self):
        numbers = teams.random_of("order")
        gone = 0
        for _ in range(RUNS):
            run = Run(numbers)
            run.all()
            self.assertEqual(run.waiting, [])
            self.assertEqual((run.version, run.places), (run.server.version, run.server.places))
            gone += run.gone
        self.assertGreater(gone, RUNS * STEPS // 10)


class ByHand(unittest.TestCase):
    def answered(self, order, request, **fields):
        asked = Asked(request, object(), None)
        order.sent(asked)
        asked.fields = fields
        return asked

    def test_a_policy_entry_waits_for_the_one_before(self):
        order = Order(4, [0] * 16)
        first, second = (
            self.answered(order, ADD, ok="addrole", version=version) for version in (5, 6)
        )
        order.answered(second)
        self.assertEqual(order.take_ready(), [])
        order.answered(first)
        self.assertEqual(order.take_ready(), [first, second])
        self.assertFalse(order.may_go(second))
        order.written([first, second])
        self.assertTrue(order.may_go(second))

    def test_a_slots_entry_waits_for_its_place_and_its_version(self):
        order = Order(4, [0] * 16)
        policy = self.answered(order, ADD, ok="addrole", version=5)
        first = self.answered(order, STEP[3], ok="step", version=4, place=1)
        second = self.answered(order, STEP[3], ok="step", version=5, place=2)
        order.answered(second)
        order.answered(first)
        self.assertEqual(order.take_ready(), [first])
        order.answered(policy)
        self.assertEqual(order.take_ready(), [policy, second])

    def test_a_refusal_waits_for_what_is_under_way_and_only_for_that(self):
        order = Order(4, [0] * 16)
        add, step = Asked(ADD, 1, None), Asked(STEP[3], 2, None)
        order.sent(add)
        order.sent(step)
        refused, elsewhere = (self.answered(order, STEP[slot], code=10) for slot in (3, 4))
        order.answered(refused)
        order.answered(elsewhere)
        step.fields = {"code": 62}
        order.answered(step)
        self.assertFalse(order.may_go(refused) or order.may_go(elsewhere) or order.may_go(step))
        add.fields = {"ok": "addrole", "version": 5}
        order.answered(add)
        self.assertFalse(order.may_go(elsewhere))
        order.written(order.take_ready())
        self.assertTrue(order.may_go(refused) and order.may_go(elsewhere) and order.may_go(step))

    def test_a_place_that_is_given_twice_is_told(self):
        order = Order(4, [0] * 16)
        first, second = (
            self.answered(order, STEP[3], ok="step", version=4, place=1) for _ in range(2)
        )
        order.answered(first)
        with self.assertRaises(Inconsistent):
            order.answered(second)


if __name__ == "__main__":
    unittest.main()
