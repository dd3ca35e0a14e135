"""Instants that are asked for ahead of their answers: answers in any pieces and forms, what is
refused, how much is sent at once, and when rows are shown.
"""
import contextlib
import io
import itertools
import json
import unittest
import unittest.mock

import support  # noqa: F401  (lets the package be found)

from estserve_client import cache
from estserve_client.ahead import Ahead
from estserve_client.connection import ROOM, Client, Disconnected, Refusal
from estserve_client.drawing import Drawing
from estserve_client.pictures import Seen, Table

PIPE = 65_536
STEP = '{"cmd":"step","slot":0}'
SIGNALS = ["A", "B", "O"]
INPUTS = [("A",), ("A", "B"), (), ("B",), ("A",)] * 8


class Program:
    """Stands for a program whose module has the inputs A and B, and an output O that is present
    with both of them. Its answers come in pieces of at most this many bytes.
    """

    def __init__(self, piece=PIPE, separators=(",", ":")):
        self.piece, self.separators = piece, separators
        self.sent, self.waiting = [], b""
        self.offered, self.instants, self.refused = [], [], {}

    def write(self, lines):
        self.sent.append(lines)
        for line in lines.splitlines():
            answer = json.dumps(self.answer(json.loads(line)), separators=self.separators)
            self.waiting += answer.encode() + b"\n"

    def flush(self):
        """Nothing is held."""

    def read1(self, _):
        if not self.waiting:
            raise AssertionError("the client waits for what never comes")
        given, self.waiting = self.waiting[: self.piece], self.waiting[self.piece :]
        return given

    def answer(self, command):
        """The answer to a command, with its keys in the program's order."""
        if command["cmd"] == "offer":
            self.offered.append(command["signal"])
            return {"ok": "offer", "place": 7, "version": 3}
        if command["cmd"] == "step":
            number = len(self.instants) + 1
            if number in self.refused:
                return self.refused[number]
            self.instants.append(self.react(number, self.offered))
            self.offered = []
            return {"instant": number, "ok": "step", "place": 8, "version": 3}
        number = command["instant"]
        if number > len(self.instants):
            return {"code": 66, "fault": "NoInstant"}
        shown = list(self.instants[number - 1].items())
        return {"instant": number, "ok": "look", "signals": shown, "version": 3}

    def react(self, number, offered):
        """What comes of an instant."""
        present = {*offered, *(["O"] if {"A", "B"} <= set(offered) else [])}
        return {name: name in present for name in SIGNALS}


def never():
    return False


def client_of(program):
    return Client(program, program, lambda: None)


def instants_of(program, inputs=INPUTS, stopped=never):
    came = Ahead(client_of(program), inputs).instants(stopped)
    return list(itertools.chain.from_iterable(came))


class Answers(unittest.TestCase):
    def setUp(self):
        self.wanted = instants_of(Program())
        self.assertEqual(
            self.wanted[:2],
            [{"A": True, "B": False, "O": False}, {"A": True, "B": True, "O": True}],
        )

    def test_they_may_come_in_any_pieces(self):
        for piece in (1, 2, 40, 41, 333):
            with self.subTest(piece):
                self.assertEqual(instants_of(Program(piece)), self.wanted)

    def test_they_may_have_another_form(self):
        self.assertEqual(instants_of(Program(50, (", ", ": "))), self.wanted)

    def test_instants_that_are_alike_are_one_object(self):
        self.assertEqual(len({id(instant) for instant in self.wanted}), 4)

    def test_more_instants_differ_than_are_known_at_a_time(self):
        class Counter(Program):
            def react(self, number, offered):
                return {f"S{bit}": bool(number >> bit & 1) for bit in range(13)}

        program = Counter()
        seen = instants_of(program, [()] * (cache.MOST + 100))
        self.assertEqual(seen, program.instants)
        self.assertEqual(len({id(instant) for instant in seen}), len(seen))

    def test_a_refusal_ends_the_run_at_its_instant(self):
        for piece in (1, PIPE):
            program = Program(piece)
            program.refused[7] = {"code": 50, "fault": "Stuck", "undecided": ["O"]}
            ahead, seen = Ahead(client_of(program), INPUTS), []
            with self.assertRaises(Refusal) as raised:
                for instants in ahead.instants(never):
                    seen += instants
            self.assertEqual((seen, ahead.number), (self.wanted[:6], 7))
            self.assertEqual(raised.exception.fault, "Stuck")
            self.assertEqual(raised.exception.command, json.loads(STEP))

    def test_what_is_no_answer_ends_the_run(self):
        for wrong in ('{"ok":"step"', '{"ok":"offer","place":1,"version":1}', "[]", "x" * 500):

            class Wrong(Program):
                def write(self, lines, wrong=wrong):
                    super().write(lines)
                    step = b'{"instant":6,"ok":"step","place":8,"version":3}'
                    self.waiting = self.waiting.replace(step, wrong.encode())

            seen = []
            with self.subTest(wrong), self.assertRaisesRegex(Disconnected, "no answer of estserve"):
                for instants in Ahead(client_of(Wrong()), INPUTS).instants(never):
                    seen += instants
            self.assertEqual(seen, self.wanted[:5])


class Batches(unittest.TestCase):
    def steps(self, program):
        """How many instants were sent at once."""
        return [lines.decode().count(STEP) for lines in program.sent]

    def test_they_grow_while_they_are_answered_soon(self):
        for names in ((), ("A", "B"), tuple(f"S{number:047}" for number in range(64))):
            program = Program()
            with unittest.mock.patch("time.monotonic", lambda: 0):
                instants_of(program, [names] * 3_000)
            steps = self.steps(program)
            self.assertEqual((steps[:2], sum(steps)), ([1, 1], 3_000))
            longest = len(max(program.sent, key=len))
            self.assertTrue(ROOM - 7_000 < longest <= ROOM, longest)
            pairs = zip(program.sent, program.sent[1:])
            self.assertLess(max(len(one) + len(other) for one, other in pairs), PIPE * 7 // 8)

    def test_they_are_short_where_instants_take_long(self):
        program = Program()
        with unittest.mock.patch("time.monotonic", itertools.count().__next__):
            instants_of(program)
        self.assertEqual(set(self.steps(program)), {1})

    def test_when_it_is_stopped_what_was_sent_is_answered(self):
        program, answers = Program(), iter([False] * 6)
        seen = instants_of(program, INPUTS, lambda: next(answers, True))
        self.assertEqual(len(program.sent), 6)
        self.assertEqual(len(seen), sum(self.steps(program)))
        self.assertLess(len(seen), len(INPUTS))


class Rows(unittest.TestCase):
    def test_they_are_shown_before_the_client_waits(self):
        drawing = Drawing(Seen("M", [(name, "signal") for name in SIGNALS], []))
        drawing.table = Table(drawing.seen)
        client, counts = client_of(Program(500)), []

        def show():
            drawing.show()
            counts.append((len(printed.getvalue().splitlines()), len(drawing.seen.instants)))

        client.when_waiting = show
        with contextlib.redirect_stdout(io.StringIO()) as printed:
            for instants in Ahead(client, INPUTS).instants(never):
                drawing.add(instants)
            drawing.end()
        self.assertEqual([rows for rows, _ in counts], [instants for _, instants in counts])
        self.assertGreater(len(counts), 5)
        rows = printed.getvalue().splitlines()
        self.assertEqual(rows[:3], ["      1  A", "      2  A B O", "      3"])
        self.assertEqual([int(row.split()[0]) for row in rows], list(range(1, len(INPUTS) + 1)))


if __name__ == "__main__":
    unittest.main()
