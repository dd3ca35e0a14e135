"""A run over a standard input and output that take few bytes at once, or fail at a call, and what its words come to."""
import os
import subprocess
import unittest

from refusing import loaded
from mutating import padded
from peers import LOGIN, NOT_JSON, STORED, TOO_LONG, accepted, command, refused, report
from running import WAIT_SECONDS, program
from wire import LONGEST

LINES = (STORED / "stdin").read_bytes()
ANSWERS = (STORED / "stdout").read_bytes()
REPORT = report(10, "slot 0: 4 entries, 1 loads, 3 instants")
REPORT_OF_NOTHING = report(4)
READ_FAULT = b"estserve: read fault\n"
WRITE_FAULT = b"estserve: write fault\n"
CLOSED = b"connection ended: Closed\n"
READS = 1_000_000  # of a connection
AMPLE = 2 * READS  # bytes of a call, or calls, more than any run here needs
# words, their status, what is written on standard output, and whether nothing is on standard error
WORDS = [
    (["script"], 0, b"", True),
    (["script", "--report"], 0, REPORT_OF_NOTHING, True),
    ([], 2, b"", False),
    (["serve"], 2, b"", False),
    (["script", "more"], 2, b"", False),
    (["--help"], 2, b"", False),
    (["--report", "script"], 2, b"", False),
    (["--log", "script"], 2, b"", False),
    (["script", "--log"], 0, b"", False),
    (["script", "--log", "--report"], 0, REPORT_OF_NOTHING, False),
    (["script", "--report", "--log"], 0, REPORT_OF_NOTHING, False),
]
LOGOUT = command("logout")
NO_SESSION = refused(4)
# what is sent, of which a read may end anywhere, and what is answered
LINES_AND_ENDS = [
    (b"", b""),
    (LOGOUT + b"[\n", NO_SESSION + NOT_JSON),
    (b"[\n" + LOGOUT[:-1], NOT_JSON + NO_SESSION),
    (b"\n\r\n\n" + LOGOUT[:-1] + b"\r", NOT_JSON * 3 + NO_SESSION),
]
# a login, a line that is no JSON, and a grant by a last line without its LF: no logout
HELD_LOGIN = LOGIN + b"fly\n" + command("grant", object="0", op="load", role="root")[:-1]
HELD_ANSWERS = accepted("login", session=1, version=5) + NOT_JSON + accepted("grant", version=6)
# what is sent, and what is answered before the report
LONG_LINES = [
    (b"x" * LONGEST + b"\n[", NOT_JSON * 2),
    (b"x" * LONGEST, NOT_JSON),
    (b"[" * LONGEST + b"\n[", NOT_JSON * 2),
    (b"\xff\n[", NOT_JSON * 2),
    (b"x" * (LONGEST + 1) + b"\n[", TOO_LONG),
    (b"x" * (LONGEST + 1), TOO_LONG),
    (padded(LOGOUT[:-1], 50_000) + b"\n" + padded(LOGOUT[:-1], 49_000) + b"\n" + padded(LOGOUT[:-1], LONGEST), NO_SESSION * 3),
]


def run(words, lines, reads=(AMPLE, AMPLE), writes=(AMPLE, AMPLE)):
    """How a run of the program ended: its status, and what it wrote. Of reads and of writes: how many bytes each takes at most, and
    how many work."""
    devices = " ".join(map(str, [*reads, *writes]))
    environment = {**os.environ, "LD_PRELOAD": str(loaded("devices")), "FAULTS_DEVICES": devices}
    command = [*program(), *words]
    ended = subprocess.run(command, input=lines, capture_output=True, env=environment, timeout=WAIT_SECONDS)
    return ended.returncode, ended.stdout, ended.stderr


class Words(unittest.TestCase):
    def test_what_they_come_to(self):
        for words, status, output, is_silent in WORDS:
            with self.subTest(words):
                ended = run(words, b"")
                self.assertEqual((*ended[:2], ended[2] == b""), (status, output, is_silent))

    def test_an_end_is_told(self):
        status, output, errors = run(["script", "--log"], LINES)
        self.assertEqual((status, output), (0, ANSWERS))
        self.assertTrue(errors.endswith(CLOSED))


class Streams(unittest.TestCase):
    def test_a_report_follows_the_last_answer(self):
        self.assertEqual(run(["script", "--report"], LINES), (0, ANSWERS + REPORT, b""))

    def test_few_bytes_at_once(self):
        for count in range(1, 65):
            with self.subTest(count):
                self.assertEqual(run(["script"], LINES, (count, AMPLE), (count, AMPLE)), (0, ANSWERS, b""))

    def test_a_read_may_end_anywhere_in_a_line(self):
        for lines, answers in LINES_AND_ENDS:
            for count in range(1, len(lines) + 1):
                with self.subTest(lines, count=count):
                    self.assertEqual(run(["script"], lines, (count, AMPLE)), (0, answers, b""))

    def test_answers_wait_until_a_read_is_needed(self):
        self.assertEqual(run(["script"], LINES, writes=(AMPLE, 1)), (0, ANSWERS, b""))

    def test_a_held_login_is_logged_out_at_the_end(self):
        for count in (1, 7, AMPLE):
            with self.subTest(count):
                ended = run(["script", "--report"], HELD_LOGIN, (count, AMPLE), (11, AMPLE))
                self.assertEqual(ended, (0, HELD_ANSWERS + report(7), b""))

    def test_long_lines_and_bytes_that_are_no_text(self):
        for lines, answers in LONG_LINES:
            for count in (5, 1_000, LONGEST, AMPLE):
                with self.subTest(lines[:8], count=count):
                    ended = run(["script", "--report"], lines, (count, AMPLE))
                    self.assertEqual(ended, (0, answers + REPORT_OF_NOTHING, b""))

    def test_a_connection_has_a_million_reads(self):
        """Each whole line before the last byte is answered, and that byte is not read any more."""
        line = b"a line of 19 bytes." + b"\n"
        status, output, errors = run(["script"], line * (READS // len(line)) + b"x", (1, AMPLE))
        self.assertEqual((status, errors), (1, READ_FAULT))
        self.assertTrue(output == NOT_JSON * (READS // len(line)), f"{len(output)} bytes of answers")


class DevicesThatFail(unittest.TestCase):
    def test_the_reader_at_each_call(self):
        most = 64
        calls = range(-(-len(LINES) // most) + 1)
        for reads in calls:
            with self.subTest(reads):
                whole = LINES[: reads * most].count(b"\n")
                answers = b"".join(ANSWERS.splitlines(keepends=True)[:whole])
                self.assertEqual(run(["script", "--report"], LINES, (most, reads)), (1, answers, READ_FAULT))
        print(f"devices: a reader that fails at each of {len(calls)} calls")

    def test_the_writer_at_each_call(self):
        most, whole = 50, ANSWERS + REPORT
        calls = range(-(-len(ANSWERS) // most) + -(-len(REPORT) // most))
        for writes in calls:
            with self.subTest(writes):
                told = ANSWERS[: writes * most]
                if len(told) == len(ANSWERS):
                    told += REPORT[: (writes - -(-len(ANSWERS) // most)) * most]
                ended = run(["script", "--report"], LINES, writes=(most, writes))
                self.assertEqual(ended, (1, told, WRITE_FAULT))
        self.assertEqual(run(["script", "--report"], LINES, writes=(most, calls.stop)), (0, whole, b""))
        print(f"devices: a writer that fails at each of {len(calls)} calls")


if __name__ == "__main__":
    unittest.main()
