"""Inputs that are cut, and bytes that are no commands, over the socket of a server."""
import contextlib
import os
import re
import socket
import threading
import unittest

from peers import LOGIN, NOT_JSON, STORED, TOO_LONG, Peer, Server, accepted, command, refused, report, told
from replay import Histories, Replay
from wire import LONGEST

LINES = (STORED / "stdin").read_bytes().splitlines(keepends=True)
ANSWERS = (STORED / "stdout").read_bytes().splitlines(keepends=True)
WHOLE = b"".join(LINES)
NUMBERS = re.compile(rb'"(session|version|place)":(\d+)')
TEXT = "module M: output O, P; emit O; pause; emit P end module"
KEYWORDS = re.compile("module|output|emit|pause|end")
READS = 1_000_000  # of a connection
LONG = 60_000  # bytes of a line that comes in single bytes; tests/faults has short lines


def renumbered(answers, histories):
    """Answers to the opening script, where other commands were given to the server before."""
    places = len(histories.slots[0].entries) if 0 in histories.slots else 0
    before = {b"session": histories.policy.logins, b"version": histories.policy.entries - 4, b"place": places}
    renumber = lambda found: b'"%b":%d' % (found[1], int(found[2]) + before[found[1]])
    return [NUMBERS.sub(renumber, answer) for answer in answers]


def undoing(done):
    """The lines that take back what this many first lines of the opening script did, in a session of their own."""
    grants = [line for line in LINES[:done] if b'"grant"' in line]
    unload = [command("unload", slot=0)] if any(b'"load","main"' in line for line in LINES[:done]) else []
    undo = [*unload, *(line.replace(b'"grant"', b'"revoke"') for line in grants)]
    return [LOGIN, *undo, command("logout")] if undo else []


class CutInputs(unittest.TestCase):
    """The opening script, cut, on one connection after another. The next one first takes back what was done, and is told by its
    versions that the session before was logged out."""

    def take(self, replay, lines, answers):
        """Judges the answers to these lines."""
        self.assertEqual(len(lines), len(answers))
        for line, answer in zip(lines, answers):
            replay.take(line.rstrip(b"\n"), answer)
        self.assertEqual(replay.histories.faults, [])

    def serve(self, histories, connections, work):
        """Does its work with a server for this many connections. Then the report is what the replay gives: nothing was done besides,
        and no session is left."""
        with Server("--workers", "1", "--connections", str(connections)) as server:
            work(server)
            self.assertEqual(server.end(), (0, histories.report().encode(), b""))
        self.assertEqual(histories.policy.sessions, {})

    def say(self, server, histories, before, lines):
        """On one connection, takes back what the first `before` lines did, and sends these lines and nothing more. A last one
        without its LF is answered, by NotJson where it lacks more than that. Gives how many lines were done."""
        done = sum(line.rstrip(b"\n") == stored.rstrip(b"\n") for line, stored in zip(lines, LINES))
        undo = undoing(before)
        answers = told(server.path, b"".join(undo + lines)).splitlines(keepends=True)
        replay = Replay(histories)
        self.take(replay, undo, answers[: len(undo)])
        self.assertTrue(all(b'"ok"' in answer for answer in answers[: len(undo)]))
        wanted = renumbered(ANSWERS[:done], histories) + [NOT_JSON] * (len(lines) - done)
        self.assertEqual(answers[len(undo) :], wanted)
        self.take(replay, lines, wanted)
        replay.end()
        return done

    def test_ended_after_each_byte(self):
        histories, cuts = Histories(), range(len(WHOLE) + 1)

        def work(server):
            done = 0
            for cut in cuts:
                done = self.say(server, histories, done, WHOLE[:cut].splitlines(keepends=True))

        self.serve(histories, len(cuts), work)
        print(f"cuts: {len(cuts)} inputs that end, each with its answers and without a session left")

    def say_and_go(self, server, histories, lines):
        """Sends these lines, where no answer can be written. Those that were whole are done, since their answers are written
        after them; one without its LF is looked at only where no answer had to be written before."""
        done = sum(line == stored for line, stored in zip(lines, LINES))
        if lines and done == 0:
            done = int(lines[0].rstrip(b"\n") == LOGIN.rstrip(b"\n"))
        with Peer(server.path) as peer:
            peer.socket.shutdown(socket.SHUT_RD)
            peer.send(b"".join(lines))
        replay = Replay(histories)
        self.take(replay, LINES[:done], renumbered(ANSWERS[:done], histories))
        replay.end()
        return done

    def test_by_a_peer_that_takes_no_answer(self):
        histories, cuts = Histories(), [*range(0, len(WHOLE), 19), len(LOGIN) - 1, len(LOGIN), len(WHOLE)]

        def work(server):
            for cut in cuts:
                done = self.say_and_go(server, histories, WHOLE[:cut].splitlines(keepends=True))
                self.say(server, histories, done, [])

        self.serve(histories, 2 * len(cuts), work)
        print(f"cuts: {len(cuts)} inputs of peers that take no answer, each without a session left")


def load(text, main="M"):
    """The line of a load into slot 0."""
    return command("load", main=main, slot=0, text=text)


def end_of(text, cut):
    """Where a text that is cut has its fault: at the word that is no more a keyword, or else just after its last byte."""
    cut_word = next((word for word in KEYWORDS.finditer(text) if word.start() < cut < word.end()), None)
    return (cut_word.start() if cut_word else cut) + 1


class CutTexts(unittest.TestCase):
    def answers_to(self, pairs):
        """Sends lines, after a login that may load, and compares their answers with those that are wanted."""
        first = [LOGIN, command("grant", object="0", op="load", role="root")]
        with Server("--workers", "1", "--connections", "1") as server, Peer(server.path) as peer:
            for line in first:
                self.assertIn(b'"ok"', peer.ask(line))
            for line, answer in pairs:
                self.assertEqual(peer.ask(line), answer, line)
            self.assertEqual(peer.rest(), b"")
            self.assertEqual(server.end()[0], 0)

    def test_the_module_ended_after_each_byte(self):
        pairs = [(load(TEXT[:cut]), refused(71, column=end_of(TEXT, cut), line=1)) for cut in range(len(TEXT))]
        self.answers_to([*pairs, (load(TEXT), accepted("load", place=1, version=6))])
        print(f"cuts: {len(pairs)} texts that end too early")

    def test_the_byte_0_and_a_comment_that_is_not_closed(self):
        places = range(len(TEXT) + 1)
        pairs = [(load(TEXT[:at] + "\0" + TEXT[at:]), refused(70, column=at + 1, line=1)) for at in places]
        pairs += [(load(TEXT[:at] + "%{"), refused(70, column=at + 1, line=1)) for at in places]
        pairs += [(load(TEXT).replace(b"module", b"\0module", 1), NOT_JSON)]
        fine = []
        for number, text in enumerate(["%\0\n" + TEXT, "%{\0}%" + TEXT, TEXT + "%\0", TEXT + "%{\0}%"]):
            fine.append((load(text), accepted("load", place=2 * number + 1, version=6)))
            fine.append((command("unload", slot=0), accepted("unload", place=2 * number + 2, version=6)))
        self.answers_to(pairs + fine)
        print(f"cuts: {len(pairs)} texts with the byte 0 or an open comment")


class BadBytes(unittest.TestCase):
    def test_lines_that_are_no_json_and_the_connection_goes_on(self):
        bad = [b"[" * LONGEST, b"\xff", b"\xff" * LONGEST, b"\0", b'{"cmd":"\xff"}', LOGIN[:-1] + b"\xff", b"", b"{" * 1_000]
        with Server("--workers", "1", "--connections", "1") as server, Peer(server.path) as peer:
            for number, line in enumerate(bad):
                self.assertEqual(peer.ask(line + b"\n"), NOT_JSON, line[:40])
            self.assertEqual(peer.ask(LOGIN), accepted("login", session=1, version=5))
            peer.send(b"[" * (LONGEST + 1))
            self.assertEqual((peer.line(), peer.rest()), (TOO_LONG, b""))
            self.assertEqual(server.end(), (0, report(6), b""))

    def send_single(self, peer, data):
        """Sends each byte so that a read takes it alone: a descriptor comes with it, past which no read goes on."""
        nothing = os.open(os.devnull, os.O_RDONLY)
        try:
            with contextlib.suppress(BrokenPipeError, ConnectionResetError):
                for at in range(len(data)):
                    socket.send_fds(peer.socket, [data[at : at + 1]], [nothing])
        finally:
            os.close(nothing)

    def test_a_connection_has_a_million_reads(self):
        line = b"x" * LONG + b"\n"
        data = (LOGIN + line * (READS // len(line) + 1))[: READS + 1]
        wanted = accepted("login", session=1, version=5) + NOT_JSON * (data[:READS].count(b"\n") - 1)
        with Server("--workers", "1", "--connections", "1") as server, Peer(server.path) as peer:
            sending = threading.Thread(target=self.send_single, args=(peer, data))
            sending.start()
            answers = b"".join(iter(peer.line, b""))
            sending.join()
            self.assertTrue(answers == wanted, f"{len(answers)} bytes of answers, and not {len(wanted)}")
            self.assertEqual(server.end(), (0, report(6), b""))
        print(f"cuts: {len(data)} bytes, one a read, in lines of {LONG}: {wanted.count(NOT_JSON)} answers, and the end")


if __name__ == "__main__":
    unittest.main()
