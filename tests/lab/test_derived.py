"""Each derived statement beside its kernel form, as two modules that estlab compares over all runs with two inputs."""
import json
import os
import subprocess
import unittest

# Bodies that mean the same: a derived statement, and the kernel statement that it stands for.
PAIRS = (
    ("emit O; halt; emit P", "emit O; loop pause end; emit P"),
    ("suspend sustain O when A", "suspend loop emit O; pause end when A"),
    ("await A; emit O", "trap T in loop pause; present A then exit T end end end; emit O"),
    ("await immediate A; emit O", "trap T in loop present A then exit T end; pause end end; emit O"),
    ("await tick; emit O; await immediate tick; emit P", "pause; emit O; emit P"),
    (
        "abort loop emit O; pause; emit P; pause end when A; emit P; pause; emit O",
        "trap T in [suspend loop emit O; pause; emit P; pause end when A; exit T || loop pause; present A then "
        "exit T end end] end; emit P; pause; emit O",
    ),
    (
        "abort emit O; pause; emit P when A; emit O",
        "trap T in [suspend emit O; pause; emit P when A; exit T || loop pause; present A then exit T end end] "
        "end; emit O",
    ),
    (
        "abort sustain O when immediate A; emit P",
        "present A else trap T in [suspend loop emit O; pause end when A; exit T || loop pause; present A then "
        "exit T end end] end end; emit P",
    ),
    (
        "weak abort loop emit O; pause; emit P; pause end when A; emit P; pause; emit O",
        "trap T in [loop emit O; pause; emit P; pause end; exit T || loop pause; present A then exit T end end] "
        "end; emit P; pause; emit O",
    ),
    (
        "weak abort emit O; pause; emit P when B; emit O",
        "trap T in [emit O; pause; emit P; exit T || loop pause; present B then exit T end end] end; emit O",
    ),
    (
        "weak abort sustain O when immediate A; emit P",
        "trap T in [loop emit O; pause end; exit T || loop present A then exit T end; pause end] end; emit P",
    ),
    (
        "loop emit O; pause; emit P each A",
        "loop trap T in [suspend emit O; pause; emit P; loop pause end when A; exit T || loop pause; present A "
        "then exit T end end] end end",
    ),
    (
        "every A do emit O; pause; emit P end",
        "trap T in loop pause; present A then exit T end end end; loop trap T in [suspend emit O; pause; emit P; "
        "loop pause end when A; exit T || loop pause; present A then exit T end end] end end",
    ),
    (
        "every immediate A do emit O; pause; emit P end",
        "trap T in loop present A then exit T end; pause end end; loop trap T in [suspend emit O; pause; emit P; "
        "loop pause end when A; exit T || loop pause; present A then exit T end end] end end",
    ),
    ("every immediate tick do emit O end", "loop emit O; pause end"),
    (
        "suspend loop emit O; pause; emit P; pause end when immediate A; emit O",
        "suspend [present A then pause end; loop emit O; pause; emit P; pause end] when A; emit O",
    ),
    (
        "suspend emit O; pause; emit P when immediate A; emit O",
        "suspend present A then pause end; emit O; pause; emit P when A; emit O",
    ),
    (
        "loop present A then emit O end; present B else emit P end; pause end",
        "loop present A then emit O else nothing end; present B then nothing else emit P end; pause end",
    ),
    (
        "signal S, T in loop present A then emit S end; pause end || loop present S then emit T end; pause end || "
        "loop present T then emit O else emit P end; pause end end",
        "signal S in signal T in loop present A then emit S end; pause end || loop present S then emit T end; "
        "pause end || loop present T then emit O else emit P end; pause end end end",
    ),
    # exits that leave an abort, a weak abort and a loop, past the traps that these stand for
    (
        "trap T in abort pause; exit T when A; emit O end; emit P",
        "trap T in trap U in [suspend pause; exit T when A; exit U || loop pause; present A then exit U end end] "
        "end; emit O end; emit P",
    ),
    (
        "trap T in weak abort trap V in pause; present B then exit T else exit V end end when A; emit O end; emit P",
        "trap T in trap U in [trap V in pause; present B then exit T else exit V end end; exit U || loop pause; "
        "present A then exit U end end] end; emit O end; emit P",
    ),
    (
        "trap T in loop emit O; pause; present B then exit T end each A end; emit P",
        "trap T in loop trap U in [suspend emit O; pause; present B then exit T end; loop pause end when A; exit U "
        "|| loop pause; present A then exit U end end] end end end; emit P",
    ),
    # modules that are run
    ("run N [signal A/S, O/T]; emit P", "await A; emit O; emit P"),
    (
        "loop run N [signal B/S, P/T] || run N [signal A/S, O/T] each B",
        "loop await B; emit P || await A; emit O each B",
    ),
    ("signal T in run R || await T; emit O end; run N [signal B/S, P/T]", "pause; emit O; await B; emit P"),
    # instants that are undecided
    (
        "await A; present O else emit O end",
        "trap T in loop pause; present A then exit T end end end; present O else emit O end",
    ),
    (
        "abort present P then emit O end; pause; present O then emit P end when B; emit P",
        "trap T in [suspend present P then emit O end; pause; present O then emit P end when B; exit T || loop "
        "pause; present B then exit T end end] end; emit P",
    ),
)
# The same with tests of two signals, and tests that say the same.
TESTS = (
    ("await [A and not B]; emit O", "trap T in loop pause; present [A and not B] then exit T end end end; emit O"),
    ("await immediate [A or B]; emit O", "trap T in loop present [A or B] then exit T end; pause end end; emit O"),
    (
        "abort loop emit O; pause; emit P; pause end when not A or B; emit P; pause; emit O",
        "trap T in [suspend loop emit O; pause; emit P; pause end when not A or B; exit T || loop pause; present "
        "not A or B then exit T end end] end; emit P; pause; emit O",
    ),
    (
        "abort sustain O when immediate A and B; emit P",
        "present A and B else trap T in [suspend loop emit O; pause end when A and B; exit T || loop pause; "
        "present A and B then exit T end end] end end; emit P",
    ),
    (
        "weak abort loop emit O; pause; emit P; pause end when A and not B; emit P; pause; emit O",
        "trap T in [loop emit O; pause; emit P; pause end; exit T || loop pause; present A and not B then exit T "
        "end end] end; emit P; pause; emit O",
    ),
    (
        "weak abort sustain O when immediate not A; emit P",
        "trap T in [loop emit O; pause end; exit T || loop present not A then exit T end; pause end] end; emit P",
    ),
    (
        "loop emit O; pause; emit P each A or not B",
        "loop trap T in [suspend emit O; pause; emit P; loop pause end when A or not B; exit T || loop pause; "
        "present A or not B then exit T end end] end end",
    ),
    (
        "every A and B do emit O; pause; emit P end",
        "trap T in loop pause; present A and B then exit T end end end; loop trap T in [suspend emit O; pause; "
        "emit P; loop pause end when A and B; exit T || loop pause; present A and B then exit T end end] end end",
    ),
    (
        "every immediate not (A or B) do emit O; pause; emit P end",
        "trap T in loop present not (A or B) then exit T end; pause end end; loop trap T in [suspend emit O; "
        "pause; emit P; loop pause end when not (A or B); exit T || loop pause; present not (A or B) then exit T "
        "end end] end end",
    ),
    (
        "suspend loop emit O; pause; emit P; pause end when immediate A and not B; emit O",
        "suspend [present A and not B then pause end; loop emit O; pause; emit P; pause end] when A and not B; "
        "emit O",
    ),
    # De Morgan's laws, of inputs, and of a signal that is asked before it is known
    (
        "loop present not (A and B) then emit O end; pause end",
        "loop present not A or not B then emit O end; pause end",
    ),
    (
        "loop present not (A or B) then emit O else emit P end; pause end",
        "loop present not A and not B then emit O else emit P end; pause end",
    ),
    ("present not (O and A) then emit P else emit O end", "present not O or not A then emit P else emit O end"),
    ("present not (O or A) then emit O else emit P end", "present not O and not A then emit O else emit P end"),
    ("present [O or not O] then emit P end", "present not (not O and O) then emit P end"),
    ("await not not A; emit O", "await A; emit O"),
    ("await [(A)]; emit O; await A or B or A; emit P", "await A; emit O; await [(A or B) or A]; emit P"),
    ("await tick and A; emit O; await not tick or B; emit P", "await A; emit O; await B; emit P"),
)
INPUTS = ["A", "B"]
# what stands around each body: the modules that it may run come after it
MODULE = """module M: input A, B; output O, P; {} end module
module N: input S; output T; await S; emit T end module
module R: output T; signal S in run N || pause; emit S end end module"""
MOST = 1_000  # states, more than any of these has


def lines_of(derived, kernel):
    """A load of the one module, and the question whether the other does the same."""
    yield {"cmd": "load", "main": "M", "text": MODULE.format(derived)}
    yield {"cmd": "same", "inputs": INPUTS, "main": "M", "most": MOST, "text": MODULE.format(kernel)}


def verdicts_on(pairs):
    """What `estlab` says of two bodies each."""
    lines = "".join(json.dumps(line) + "\n" for pair in pairs for line in lines_of(*pair))
    ran = subprocess.run([os.environ["ESTLAB"]], input=lines, stdout=subprocess.PIPE, text=True, check=True)
    return [json.loads(line)["verdict"] for line in ran.stdout.splitlines()[1::2]]


class DerivedStatements(unittest.TestCase):
    def expect_alike(self, pairs):
        """Fails where two bodies that mean the same differ."""
        for (derived, _), verdict in zip(pairs, verdicts_on(pairs), strict=True):
            with self.subTest(derived):
                self.assertEqual(verdict, "same")

    def test_they_are_their_kernel_forms(self):
        self.expect_alike(PAIRS)

    def test_tests_are_kept_in_kernel_forms(self):
        self.expect_alike(TESTS)

    def test_a_delayed_wait_is_not_an_immediate_one(self):
        self.assertEqual(verdicts_on([("await A; emit O", "await immediate A; emit O")]), ["differ"])


if __name__ == "__main__":
    unittest.main()
