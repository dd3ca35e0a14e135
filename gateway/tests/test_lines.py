"""What the gateway understands of a line, and that no line is answered otherwise than by the
program alone."""
import concurrent.futures
import json
import sys
import unittest

import teams
from teams import ROOT, Team, line_of, login_line, program_alone
from estserve_team.lines import LINE_BYTES, Reader

sys.path.insert(0, str(ROOT / "tests" / "hostile"))
from mutating import changed  # noqa: E402

LINES = 20_000
AT_ONCE = 100
MODULE = (
    "module M: input A, B; output O; relation A # B; every immediate A do emit O end end module"
)
SAID = [
    line_of(cmd="adduser", user="ann"),
    line_of(cmd="deluser", user="ann"),
    line_of(cmd="addrole", role="r1"),
    line_of(cmd="delrole", role="r1"),
    line_of(cmd="assign", role="r1", user="ann"),
    line_of(cmd="deassign", role="r1", user="ann"),
    line_of(cmd="grant", object="0.A", op="offer", role="r1"),
    line_of(cmd="revoke", object="0.A", op="offer", role="r1"),
    line_of(cmd="inherit", junior="r1", senior="root"),
    line_of(cmd="disinherit", junior="r1", senior="root"),
    line_of(cmd="dsd", count=2, name="d1", roles=["r1", "root"]),
    line_of(cmd="undsd", name="d1"),
    line_of(cmd="activate", role="r1"),
    line_of(cmd="drop", role="r1"),
    line_of(cmd="load", main="M", slot=0, text=MODULE),
    line_of(cmd="offer", signal="A", slot=0),
    line_of(cmd="offer", signal="B", slot=0),
    line_of(cmd="discard", slot=0),
    line_of(cmd="step", slot=0),
    line_of(cmd="unload", slot=0),
    line_of(cmd="look", instant=1, slot=0),
    line_of(cmd="audit", slot=0),
    line_of(cmd="check", object="0.A", op="offer"),
    line_of(cmd="logout"),
    login_line(),
    login_line("ann", []),
    login_line("root", ["root", "r1"]),
]
FIRST = [
    login_line(),
    *(
        line_of(cmd="grant", object=name, op=op, role="root")
        for name, op in [
            ("0", "load"),
            ("0", "step"),
            ("0.A", "offer"),
            ("0.B", "offer"),
            ("0.A", "observe"),
            ("0.O", "observe"),
            ("policy", "audit"),
        ]
    ),
]


class MutatedLines(unittest.TestCase):
    def lines(self):
        """The lines: a login now and then, so that most are judged in a session."""
        numbers = teams.random_of("lines")
        for at in range(LINES):
            yield login_line() if at % 50 == 49 else changed(numbers.choice(SAID), numbers)

    def test_each_is_answered_as_by_the_program_alone(self):
        people = "[people]\n" + "".join(f'{user} = ["{teams.ME}"]\n' for user in ("root", "ann"))
        refused = 0
        with Team(people=people) as team, team.talker() as ours, program_alone() as alone:
            self.assertEqual(ours.ask_all(FIRST), alone.ask_all(FIRST))
            lines = list(self.lines())
            beside = concurrent.futures.ThreadPoolExecutor(1)
            for first in range(0, LINES, AT_ONCE):
                part = lines[first : first + AT_ONCE]
                answers = beside.submit(alone.ask_all, part)
                for line, told, said in zip(part, ours.ask_all(part), answers.result()):
                    if told.startswith(b'{"code":1001,'):
                        self.assertNotIn(json.loads(told)["user"], ("root", "ann"))
                        self.assertIn(json.loads(said)["code"], (5, 25))
                        refused += 1
                    else:
                        self.assertEqual(told, said, line)
            entries = team.entries()
        self.assertLess(refused, LINES // 100)
        self.assertGreater(len(entries), LINES // 20)
        self.assertTrue(all(json.loads(entry.request)["cmd"] == entry.command for entry in entries))


class Reading(unittest.TestCase):
    def reading(self, line):
        request = Reader().understand(line)
        return request and request.line

    def test_what_is_understood_is_written_anew(self):
        step = b'{"cmd":"step","slot":0}'
        for line in (
            step,
            b' {"slot": 0 ,\t"cmd":"st\\u0065p"}\r',
            b'{"slot":1,"cmd":"step","slot":0}',
            b'{"slot":1.5,"cmd":"step","slot":0}',
        ):
            self.assertEqual(self.reading(line), step, line)
        self.assertEqual(
            self.reading(b'{"text":"\\u00e9\\n\\/","slot":15,"main":"M","cmd":"load"}'),
            '{"cmd":"load","main":"M","slot":15,"text":"é\\n/"}'.encode(),
        )

    def test_what_two_readers_may_read_otherwise_is_not_understood(self):
        for line in (
            b"NaN",
            b'{"cmd":"step","slot":-0}',
            b'{"cmd":"step","slot":0.0}',
            b'{"cmd":"step","slot":1e999,"slot":0}',
            b'{"cmd":"step","slot":"\\ud800","slot":0}',
            b'{"cmd":"step","slot":0,"x":1}',
            b'\xff{"cmd":"step","slot":0}',
            b'{"cmd":"step","slot":%s,"slot":0}' % (b"[" * 127 + b"]" * 127),
            b'{"cmd":"login","roles":[],"user":"\xff"}',
            b'{"cmd":"step","slot":18446744073709551616}',
            b"",
            b"[]",
            b'{"cmd":["step"],"slot":0}',
        ):
            self.assertIsNone(self.reading(line), line)

    def test_the_longest_line_stays_in_its_bound(self):
        line = line_of(cmd="load", main="M", slot=0, text="")
        line = line[:-2] + b"\x7f" * (LINE_BYTES - len(line)) + line[-2:]
        self.assertEqual(self.reading(line), line)


class LineTooLong(unittest.TestCase):
    def test_it_is_told_and_the_connection_ends_with_a_recorded_logout(self):
        with Team() as team, team.talker() as talker:
            talker.ask(login_line())
            lines = talker.ask_part([b"x" * LINE_BYTES, b"y" * (LINE_BYTES + 1)])
            self.assertEqual(
                lines, [b'{"code":2,"fault":"NotJson"}', b'{"code":1,"fault":"TooLong"}']
            )
            self.assertEqual(talker._socket.recv(1), b"")
            teams.wait_for(
                lambda: [entry.command for entry in team.entries()] == ["login", "logout"]
            )


if __name__ == "__main__":
    unittest.main()
