"""Properties of orders and lines, on examples that hypothesis makes, and makes small where one
fails.

The variable GATEWAY_EXAMPLES says how many; without it they are the same ones each time.
"""
import importlib.util
import json
import os
import pathlib
import tempfile
import unittest

import teams
from teams import Server, Team, line_of, login_line, program_file
from test_answer_order import Run
from estserve_client.command_table import IDENTIFIERS, KEYS, NAMES, NUMBERS, OPERATIONS
from estserve_team.lines import LONGEST_NUMBER, Reader, read_plain

HAS_HYPOTHESIS = importlib.util.find_spec("hypothesis") is not None
NO_HYPOTHESIS = "hypothesis is not there for this Python: scripts/install_debian.sh installs it"
EXAMPLES = int(os.environ.get("GATEWAY_EXAMPLES", "0"))
ORDERS, LINES = EXAMPLES or 150, EXAMPLES or 80
STEPS = 60  # of one order
MODULE = "module M: input A; output O; loop present A then emit O end; pause end end module"
LOGOUT = line_of(cmd="logout")
PEOPLE = f'[people]\nroot = ["{teams.ME}"]\nann = ["{teams.ME}"]\n'


def object_of(pairs):
    """The text of an object with these pairs, in this order."""
    return "{" + ",".join(f"{key}:{value}" for key, value in pairs) + "}"


if HAS_HYPOTHESIS:
    from hypothesis import HealthCheck, given, settings
    from hypothesis import strategies as some

    def so_many(examples):
        """How many examples are tried, of which none is kept for another run."""
        return settings(
            max_examples=examples,
            deadline=None,
            database=None,
            derandomize=not EXAMPLES,
            suppress_health_check=list(HealthCheck),
        )

    texts = some.text(max_size=12)
    whole = some.integers() | some.sampled_from([0, 15, 16, 2**63, 2**64 - 1, 2**64, -1])
    numbers = whole.map(str) | some.floats().map(json.dumps) | some.sampled_from(["-0", "1e400"])
    long_numbers = some.integers(LONGEST_NUMBER - 1, LONGEST_NUMBER + 1).map(lambda n: "9" * n)
    known = some.sampled_from(["root", "ann", "r1", "M", "A", "0", "0.A", "policy", *OPERATIONS])
    plain = (known | texts).map(json.dumps) | texts.map(lambda t: json.dumps(t, ensure_ascii=False))
    scalars = some.sampled_from(["null", "true", "NaN", '"\\ud800"']) | numbers | plain
    values = some.recursive(
        scalars | long_numbers,
        lambda inner: some.lists(inner, max_size=3).map(lambda them: f"[{','.join(them)}]")
        | some.lists(some.tuples(plain, inner), max_size=3).map(object_of),
        max_leaves=5,
    )
    a_name = some.sampled_from(["root", "ann", "r1", "d1", "x" * 24, "x" * 25, "_-"])
    in_form = {
        **dict.fromkeys(NAMES, a_name.map(json.dumps)),
        **dict.fromkeys(
            IDENTIFIERS, some.sampled_from(["M", "A", "O", "A_1", "1A"]).map(json.dumps)
        ),
        **dict.fromkeys(
            NUMBERS,
            some.integers(0, 17).map(str) | some.sampled_from(["-0", "0.0", "1e0", "-1", "00"]),
        ),
        "roles": some.lists(a_name, max_size=3).map(json.dumps),
        "op": some.sampled_from(OPERATIONS).map(json.dumps),
        "object": some.sampled_from(["policy", "0", "15", "0.A", "16", "0.", "00"]).map(json.dumps),
        "text": some.sampled_from([MODULE, "module"]).map(json.dumps) | plain,
    }
    names = sorted({key for keys in KEYS.values() for key in keys} | {"cmd", "more"})

    @some.composite
    def commands(draw):
        """Mostly a command, with its keys in some order, and some of them changed."""
        cmd = draw(some.sampled_from(sorted(KEYS)))
        pairs = [("cmd", json.dumps(cmd)), *((key, draw(in_form[key])) for key in KEYS[cmd])]
        if draw(some.integers(0, 3)) == 0:
            at = draw(some.integers(0, len(pairs) - 1))
            pairs[at] = (pairs[at][0], draw(values))
        if draw(some.integers(0, 3)) == 0:
            pairs.append((draw(some.sampled_from(names)), draw(values)))
        blank = draw(some.sampled_from(["", " ", "\t", "\r"]))
        told = draw(some.permutations([(f'{blank}"{key}"', value) for key, value in pairs]))
        return object_of(told).encode("utf-8", "replace")

    lines = (commands() | values.map(lambda text: text.encode("utf-8", "replace"))).map(
        lambda line: line.replace(b"\n", b" ")
    )


@unittest.skipUnless(HAS_HYPOTHESIS, NO_HYPOTHESIS)
class Properties(unittest.TestCase):
    def test_what_an_answer_has_seen_is_written_before_it_goes_out(self):
        @so_many(ORDERS)
        @given(some.randoms(use_true_random=False))
        def check(choices):
            run = Run(choices)
            run.all(STEPS)
            self.assertEqual(run.waiting, [])
            self.assertEqual((run.version, run.places), (run.server.version, run.server.places))

        check()

    def test_what_is_understood_is_read_so_by_every_reader(self):
        @so_many(ORDERS)
        @given(lines)
        def check(line):
            request = Reader().understand(line)
            if request is not None:
                self.assertEqual(json.loads(request.line), {**request.keys})
                self.assertEqual(Reader().understand(request.line).line, request.line)
            found = read_plain(line)
            self.assertTrue(found is None or isinstance(found, dict))

        check()

    def test_each_line_is_answered_as_by_the_program_alone(self):
        limits = ["--limit", "hour_entries=1000000"]
        with tempfile.TemporaryDirectory(prefix="gateway-") as folder, Team(
            *limits, people=PEOPLE
        ) as team, Server(program_file(), pathlib.Path(folder) / "alone") as alone:

            @so_many(LINES)
            @given(some.lists(lines, min_size=1, max_size=12))
            def check(said):
                said = [login_line(), *said, LOGOUT, login_line("ann", []), LOGOUT]
                with team.talker() as ours, teams.Talker(alone.path) as theirs:
                    for line, told, wanted in zip(said, ours.ask_all(said), theirs.ask_all(said)):
                        if not told.startswith(b'{"code":1001,'):
                            self.assertEqual(told, wanted, line)

            check()


if __name__ == "__main__":
    unittest.main()
