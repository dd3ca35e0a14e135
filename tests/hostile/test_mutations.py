"""Lines of real dialogues with a mistake in each, beside an independent reading of what is answered."""
import collections
import json
import random
import unittest

import peers
from peers import Peer, Server
import examples
import mutating
from replay import Histories, Replay
from wire import LONGEST

SEED = 30
LEAST = 20_000  # lines with a mistake
PASSES = 4
TOGETHER = 4  # dialogues are a server's
PADDED = 4  # one of this many dialogues has a line of the greatest length
AHEAD = 50  # lines are sent before their answers are read


def mistaken(line, other, numbers):
    """The line with a mistake of each kind, the last of them drawn as for the gateway's tests."""
    yield mutating.flipped(line, numbers)
    yield mutating.dropped(line, numbers)
    yield mutating.doubled(line, numbers)
    yield line + other
    yield mutating.changed(line, numbers)


def lines_with_mistakes(lines, numbers):
    """Each line of a dialogue, and before it itself with mistakes, which may have cut it in two. In some dialogues one is as long
    as a line may be, and one a byte longer."""
    longest, longer = (numbers.randrange(PADDED * len(lines)) for _ in range(2))
    for at, line in enumerate(lines):
        if line:
            for mistake in mistaken(line, lines[(at + 1) % len(lines)], numbers):
                yield from ((part, True) for part in mistake.split(b"\n"))
        if at == longest:
            yield mutating.padded(line, LONGEST), True
        yield line, False
        if at == longer:
            yield mutating.padded(line, LONGEST + 1), True


def connections(dialogues, numbers):
    """The lines of each connection: of these dialogues, one after another. A connection ends after a line that is too long."""
    for lines, _ in dialogues:
        own = []
        for line, is_mistaken in lines_with_mistakes(lines.read_bytes().split(b"\n")[:-1], numbers):
            own.append((line, is_mistaken))
            if len(line) > LONGEST:
                yield own
                own = []
        yield own


def servers(numbers):
    """The connections of each server: in each pass all dialogues, in another order, some to a server, since some of them take all
    permissions away."""
    for _ in range(PASSES):
        dialogues = list(examples.dialogues().values())
        numbers.shuffle(dialogues)
        for first in range(0, len(dialogues), TOGETHER):
            yield list(connections(dialogues[first : first + TOGETHER], numbers))


class MutatedDialogues(unittest.TestCase):
    def judge(self, replay, peer, lines):
        """Sends lines, and judges the one answer to each. Gives for each the code of a refusal, or 0."""
        peer.send(b"".join(line + b"\n" for line in lines))
        for line in lines:
            told = peer.line()
            replay.take(line, told)
            self.assertEqual(replay.histories.faults, [], line[:500])
            yield json.loads(told).get("code", 0)

    def one_connection(self, replay, peer, lines, codes):
        """Sends the lines of a connection, some at a time, after which it ends."""
        for first in range(0, len(lines), AHEAD):
            codes.update(self.judge(replay, peer, lines[first : first + AHEAD]))
        self.assertEqual(peer.rest(), b"", "more than one answer to a line")
        replay.end()

    def one_server(self, planned, codes):
        """Makes these connections to a server, and compares its report with the one that the reading gives. How many lines had a
        mistake."""
        histories = Histories()
        with Server("--workers", "1", "--connections", str(len(planned))) as server:
            for lines in planned:
                with Peer(server.path) as peer:
                    self.one_connection(Replay(histories), peer, [line for line, _ in lines], codes)
            self.assertEqual(server.end(), (0, histories.report().encode(), b""))
        return sum(is_mistaken for lines in planned for _, is_mistaken in lines)

    def test_each_line_has_the_one_answer_that_the_reading_gives(self):
        codes, numbers = collections.Counter(), random.Random(SEED)
        count = sum(self.one_server(planned, codes) for planned in servers(numbers))
        kinds = f"{codes[0]} accepted, and {len(codes) - 1} kinds of refusals"
        print(f"mutations: {count} lines with a mistake and {sum(codes.values()) - count} without, seed {SEED}: {kinds}")
        self.assertGreaterEqual(count, LEAST)
        self.assertLessEqual({1, 2, 3, 4, 5, 10, 25, 26, 60, 61, 62, 63, 70, 71, 72}, set(codes))


if __name__ == "__main__":
    unittest.main()
