"""Whose lines are read next: users in turn, each client at most once in a queue."""
import asyncio
import time
import unittest

import teams  # noqa: F401
from estserve_team.turns import SPAN, WORDS, Turns


class Client:
    """A client whose lines take long to read."""

    def __init__(self, turns, uid, lines, read, seconds=2 * SPAN):
        self.turns, self.uid, self.lines, self.read = turns, uid, lines, read
        self.seconds, self.is_parked = seconds, False

    def take_turn(self, until):
        end = time.monotonic() + self.seconds
        while time.monotonic() < end:
            pass
        self.lines -= 1
        self.read.append(self.uid)
        return self.lines > 0

    def pump(self):
        self.read.append(self)


class InTurn(unittest.TestCase):
    def test_a_user_with_many_connections_has_no_more_turns_than_one_with_one(self):
        async def act():
            turns, read = Turns(), []
            for _ in range(20):
                turns.ask(Client(turns, 1, 3, read))
            turns.ask(Client(turns, 2, 10, read))
            while len(read) < 70:
                await asyncio.sleep(0)
            last = max(at for at, user in enumerate(read) if user == 2)
            self.assertLess(last, 25)
            self.assertEqual((read.count(1), read.count(2)), (60, 10))

        asyncio.run(act())

    def test_where_little_is_read_it_is_read_at_once(self):
        async def act():
            turns, read = Turns(), []
            turns.ask(Client(turns, 1, 1, read, 0))
            turns.ask(Client(turns, 2, 1, read, 0))
            self.assertEqual(read, [1, 2])

        asyncio.run(act())

    def test_a_few_words_of_a_user_are_carried_out_at_a_time(self):
        turns, told = Turns(), []
        clients = [Client(turns, 1, 1, told) for _ in range(WORDS + 2)]
        self.assertEqual([turns.begin_word(one) for one in clients], [True] * WORDS + [False] * 2)
        self.assertTrue(turns.begin_word(Client(turns, 2, 1, told)))
        self.assertEqual([one.is_parked for one in clients[-2:]], [True, True])
        turns.end_word(1)
        self.assertEqual(told, clients[-2:])
        self.assertFalse(any(one.is_parked for one in clients))
        self.assertTrue(turns.begin_word(clients[-1]))
        self.assertFalse(turns.begin_word(clients[-2]))


if __name__ == "__main__":
    unittest.main()
