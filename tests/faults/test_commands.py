"""Each growth of memory that a command takes, refused in turn, at a server which goes on."""
import collections
import contextlib
import json
import unittest

from refusing import Growths
from peers import LOGIN, Peer, Server, command, refused
from running import program
from replay import Histories, Replay
from stories import STORIES
from wire import KEYS, request_of

MEMORY = refused(90)
# what tells how the policy and slot 0 are, and changes nothing; what is pending is asked for besides
PROBES = [
    command("audit", slot=0),
    *(command("look", instant=instant, slot=0) for instant in (0, 1, 2)),
    command("check", object="0", op="load"),
]
# commands that take memory themselves, beside their request and the text of their answer, in one of the stories
TAKE_MEMORY = {"load", "offer", "discard", "step", "look", "unload", "login", "grant", "activate", "logout"}
# commands whose requests take memory: they have a text, or a list of roles
HAVE_LISTS = {"load", "login", "dsd"}
# how many growths were refused before a request was read, by a call, and for the text of an answer; and how many did no harm
Count = collections.namedtuple("Count", "request call text passed")


def command_of(line):
    return request_of(line.rstrip(b"\n"))[0]


class Serving:
    """A server in a story: the clients that are there, and a reading of what they were answered."""

    def __init__(self, stack, growths, story):
        names = dict.fromkeys(who for who, _, _ in story)
        self.growths, self.histories = growths, Histories()
        growths.refuse(0)
        words = "--workers", str(len(names)), "--connections", "1"
        self.server = stack.enter_context(Server(*words, environment=growths.environment))
        self.peers = {who: stack.enter_context(Peer(self.server.path)) for who in names}
        self.replays = {who: Replay(self.histories) for who in names}
        self.state()  # so all workers have begun

    def take(self, who, line, answer):
        """Has the reading take in a line with its answer."""
        self.replays[who].take(line.rstrip(b"\n"), answer)
        if self.histories.faults:
            raise AssertionError(self.histories.faults)

    def say(self, who, line):
        """The answer to a line that has memory."""
        answer = self.peers[who].ask(line)
        self.take(who, line, answer)
        return answer

    def pending(self):
        """An offer of each signal that is pending in the slot, by the reading: it is refused, whoever asks."""
        slot = self.histories.slots.get(0)
        return [command("offer", signal=name, slot=0) for name in sorted(slot.pending)] if slot else []

    def state(self):
        """What each client is told of the policy and of the slot."""
        return [self.say(who, line) for who in self.peers for line in PROBES + self.pending()]

    def end(self):
        """Ends all connections. The server's end has to be that of the reading."""
        for who, peer in self.peers.items():
            if peer.rest() != b"":
                raise AssertionError("more than one answer to a line")
            self.replays[who].end()
        ended, read = self.server.end(), (0, self.histories.report().encode(), b"")
        if ended != read:
            raise AssertionError(f"the server ended with {ended}, and not with {read}")


class Requests:
    """How many growths it takes to read a line: as many as are answered Memory where the command is refused for its session."""

    def __init__(self, stack):
        self.growths, self.found = stack.enter_context(Growths(program()[-1])), {}
        self.server = stack.enter_context(Server("--workers", "1", environment=self.growths.environment))

    def of(self, line):
        if line not in self.found:
            with Peer(self.server.path) as peer:
                if command_of(line) == "login":
                    peer.ask(LOGIN)
                refusal, number = peer.ask(line), 0
                if json.loads(refusal)["code"] not in (4, 5):
                    raise AssertionError(f"{line} answered {refusal}")
                answer = MEMORY
                while answer == MEMORY:
                    number += 1
                    self.growths.refuse(number)
                    answer = peer.ask(line)
                self.growths.refuse(0)
            self.found[line] = number - 1
        return self.found[line]


class Sweep:
    """A story in which each growth of each line is refused in turn."""

    def __init__(self, growths, requests, story, texts):
        self.growths, self.requests, self.story, self.texts = growths, requests, story, texts
        self.counts = []

    def begun(self, stack, at):
        """A server to which the lines before this one were said."""
        serving = Serving(stack, self.growths, self.story)
        for who, line, wanted in self.story[:at]:
            self.expect(line, serving.say(who, line), wanted)
        return serving

    def expect(self, line, answer, wanted):
        if answer != wanted:
            raise AssertionError(f"{line} answered {answer}, and not {wanted}")

    def refused_once(self, peer, line, number):
        """The answer to a line of which a growth is refused, and whether it took as many growths as that."""
        self.growths.refuse(number)
        answer = peer.ask(line)
        was_refused = self.growths.refused > 0
        self.growths.refuse(0)
        return answer, was_refused

    def refuse_each(self, serving, at, stack):
        """Says a line until none of its growths is refused. Gives the server that stands afterwards.

        A growth that is refused of a request or a call is answered Memory, and all is as before. Where it is one of the
        answer's text the line is done, its answer is not written, and its connection ends; some are passed over, and it is
        answered as always. In either case a new server begins, so for a kind of answers all growths of the text are refused once,
        and then only the first.
        """
        who, line, wanted = self.story[at]
        kind = command_of(line), json.loads(wanted).get("code")
        answered = passed = text = 0
        before = serving.state()
        while True:
            answer, was_refused = self.refused_once(serving.peers[who], line, answered + passed + text + 1)
            if not was_refused:
                break
            if answer == MEMORY:
                answered += 1
                self.expect(f"after {line} without memory", serving.state(), before)
                continue
            self.expect(line, answer, wanted if answer else b"")
            passed, text = passed + bool(answer), text + (not answer)
            serving.take(who, line, wanted)
            serving.end()
            serving = self.begun(stack, at)
            if not answer and kind in self.texts:
                answer = serving.peers[who].ask(line)
                break
        self.expect(line, answer, wanted)
        serving.take(who, line, answer)
        if text:
            self.texts.add(kind)
        if kind[0] is not None:
            request = min(answered, self.requests.of(line))
            self.counts.append((kind[0], Count(request, answered - request, text, passed)))
        return serving

    def run(self):
        with contextlib.ExitStack() as stack:
            serving = self.begun(stack, 0)
            for at in range(len(self.story)):
                serving = self.refuse_each(serving, at, stack)
            serving.end()
        return self.counts


class EachGrowth(unittest.TestCase):
    def test_of_each_command_in_turn(self):
        counts, texts = collections.defaultdict(list), set()
        with Growths(program()[-1]) as growths, contextlib.ExitStack() as stack:
            requests = Requests(stack)
            for name, story in STORIES.items():
                with self.subTest(name):
                    for cmd, count in Sweep(growths, requests, story(), texts).run():
                        counts[cmd].append(count)
        self.assertLessEqual(TAKE_MEMORY | {"audit", "check"}, counts.keys())
        for cmd in filter(counts.get, KEYS):
            request, call, text, passed = (sum(column) for column in zip(*counts[cmd]))
            growths = f"growths of the request {request}, of the call {call}, of the answer's text {text}"
            print(f"faults: {cmd}: {len(counts[cmd])} lines, refused {growths}" + (f", passed over {passed}" if passed else ""))
            self.assertGreater(text, 0, f"no growth of the answer to {cmd} was refused")
            if cmd in TAKE_MEMORY:
                self.assertGreater(call, 0, f"no growth of {cmd} was refused")
            if cmd in HAVE_LISTS:
                self.assertGreater(request, 0, f"no growth of a request {cmd} was refused")


if __name__ == "__main__":
    unittest.main()
