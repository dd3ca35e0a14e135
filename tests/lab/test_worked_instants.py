"""Instants of modules, worked out by hand: what is seen inside them, and what is tied to the signals that are not decided."""
import json
import os
import subprocess
import unittest

# Modules, and what is seen inside their first two instants without inputs: the outputs, the statements that began and those that went
# on, each with its incarnation, and the local signals, present `+`, absent `-` or not decided `?`. Where an instant is stuck, `!` stands
# before the signals of the interface that are not decided. Numbers of statements are as in the text.
SEEN = (
    # the signal of the body that goes on is present, and that of the restart absent
    (
        "output O, P; loop signal S in present S then emit O else emit P end; pause; emit S end end",
        "[P 0.0 1.0 2.0 3.0 5.0 6.0 7.0 / / 1.0- 1.1-][P 8.0 1.1 2.1 3.1 5.1 6.1 7.1 / 0.0 1.0 2.0 6.0 7.0 / 1.0+ "
        "1.1-]",
    ),
    # the restart emits its own signal, and that of the body is absent
    (
        "output O, P; loop signal S in pause; present S then emit O else emit P end || emit S end end",
        "[ 0.0 1.0 2.0 3.0 4.0 8.0 / / 1.0+ 1.1-][P 5.0 7.0 1.1 2.1 3.1 4.1 8.1 / 0.0 1.0 2.0 3.0 4.0 / 1.0- 1.1+]",
    ),
    # a side that is left with its trap, and what follows
    (
        "output O, P, Q; trap T in [emit O; exit T || pause; emit P] end; emit Q",
        "[O Q 0.0 1.0 2.0 3.0 4.0 5.0 6.0 7.0 9.0 / /][ / /]",
    ),
    # a body that stands still takes no part
    (
        "output O, P; suspend sustain P when O || pause; emit O",
        "[P 0.0 1.0 2.0 3.0 4.0 5.0 6.0 7.0 / /][O 8.0 / 0.0 1.0 6.0 7.0 /]",
    ),
    # a signal that neither must nor can't be emitted, and one that is decided
    (
        "output O; signal S, T in emit T; present S then emit O else emit S end end",
        "[!O 0.0 1.0 2.0 3.0 4.0 / / 0.0? 1.0+][!O 0.0 1.0 2.0 3.0 4.0 / / 0.0? 1.0+]",
    ),
    # two signals that wait for each other
    (
        "output O; signal R, G in [present R then emit G end || present G then emit R end] end",
        "[! 0.0 1.0 2.0 3.0 6.0 / / 0.0? 1.0?][! 0.0 1.0 2.0 3.0 6.0 / / 0.0? 1.0?]",
    ),
    # the pause went on, and what follows it is stuck
    ("output O; pause; present O then emit O end", "[ 0.0 1.0 / /][!O 2.0 / 1.0 /]"),
)
# Modules whose first or second instant without inputs is stuck, and what is tied to its open signals: `O?1.0` says that the test of
# statement 1 in incarnation 0 waits for O, and `5.1!9.1` that statement 9 may emit the local signal that statement 5 declares. A
# signal is open if it neither must be emitted nor can't be.
TIED = (
    # it is there because it is there
    ("output O; present O then emit O end", " O!1.0 O?0.0"),
    # it is there because it is not
    ("output O; present O else emit O end", " O!2.0 O?0.0"),
    # it is there either way, but nothing is guessed
    ("output O; present O then emit O else emit O end", " O!1.0 O!2.0 O?0.0"),
    ("output O; present O or not O then emit O end", " O!1.0 O?0.0"),
    # an open output that no test waits for
    ("input A; output O, P; present A or O then emit P else emit O end", " O!2.0 O?0.0 P!1.0"),
    # two that wait for each other
    ("output O, P; [present O then emit P end || present P then emit O end]", " O?1.0 O!5.0 P!2.0 P?4.0"),
    # the emission follows the test
    ("output O; signal S in [present S then emit O end; emit S] end", " O!3.0 0.0?2.0 0.0!5.0"),
    # a local signal that is decided is not tied
    ("output O; signal S, T in emit T; present S then emit O else emit S end end", " O!5.0 0.0!6.0 0.0?4.0"),
    # a suspension by what its body emits
    ("output O; suspend [pause; emit O] when O", " O!3.0 O?0.0"),
    # the test of `O or P` is known by P, so it doesn't wait
    ("output O, P; [emit P || present O then present O or P then emit O end end]", " O!4.0 O?2.0"),
    # what stands after a test that fails can't come
    ("output O; signal S in [present S then emit O end || present O then emit O end] end", " O!6.0 O?5.0"),
    # what a restart begins
    ("output O, P; [pause; emit P || loop present P then present O then emit O end end; pause end]", " O!8.1 O?7.1"),
    # the signal of a restart, while that of the body is absent
    (
        "output O; [pause; emit O || loop signal S in present O then present S then emit S end end; pause end end]",
        " 5.1!9.1 5.1?8.1",
    ),
    # that of the restart of the second loop around it
    (
        "output O; [pause; emit O || loop trap T in loop signal S in present O then present S then emit S end end; "
        "pause; exit T end end end end]",
        " 7.2!11.2 7.2?10.2",
    ),
    # a request, a grant and a busy signal, in three modules
    (
        "signal REQ, GRANT, BUSY in run Asks || run Grants || run Works end end module module Asks: input BUSY; "
        "output REQ; present BUSY else emit REQ end end module module Grants: input REQ; output GRANT; present REQ "
        "then emit GRANT end end module module Works: input GRANT; output BUSY; present GRANT then emit BUSY end",
        " 0.0!6.0 0.0?8.0 1.0!9.0 1.0?11.0 2.0?4.0 2.0!12.0",
    ),
    # the same after a pause
    (
        "signal REQ, GRANT, BUSY in run Asks || run Grants || run Works end end module module Asks: input BUSY; "
        "output REQ; pause; present BUSY else emit REQ end end module module Grants: input REQ; output GRANT; "
        "pause; present REQ then emit GRANT end end module module Works: input GRANT; output BUSY; pause; present "
        "GRANT then emit BUSY end",
        " 0.0!8.0 0.0?12.0 1.0!13.0 1.0?17.0 2.0?6.0 2.0!18.0",
    ),
    # a third module reads the grant, and is no part of the circle
    (
        "output O; signal GRANT, BUSY in run Works || run Grants || run Reads end end module module Works: input "
        "GRANT; output BUSY; present GRANT then emit BUSY end end module module Grants: input BUSY; output GRANT; "
        "present BUSY else emit GRANT end end module module Reads: input GRANT; output O; present GRANT then emit "
        "O end",
        " O!11.0 0.0?3.0 0.0!9.0 0.0?10.0 1.0!4.0 1.0?7.0",
    ),
)
MARKS = {True: "+", False: "-", None: "?"}
SIGNS = {"waits": "?", "emits": "!"}


def word_of(at):
    """A statement and its incarnation. In incarnation 0 it is told by its number alone."""
    statement, incarnation = (at, 0) if isinstance(at, int) else at
    return f"{statement}.{incarnation}"


def words_of(ats):
    """Statements, each after a blank."""
    return "".join(f" {word_of(at)}" for at in ats)


def seen_in(answer):
    """What is seen inside an instant, as the table has it."""
    shown = "!" + " ".join(answer["undecided"]) if "undecided" in answer else " ".join(answer["outputs"])
    signals = "".join(f" {word_of(one['at'])}{MARKS[one['present']]}" for one in answer["locals"])
    return f"[{shown}{words_of(answer['began'])} /{words_of(answer['went'])} /{signals}]"


def tied_in(answer):
    """What is tied to the open signals of an instant, as the table has it."""
    names = [(tie["signal"] if isinstance(tie["signal"], str) else word_of(tie["signal"]), tie) for tie in answer["ties"]]
    return "".join(f" {name}{SIGNS[tie['kind']]}{word_of(tie['at'])}" for name, tie in names)


def instants_of(body):
    """What `estlab` answers to two instants of a module without inputs. Where the first is stuck, the second is the same."""
    load = {"cmd": "load", "main": "M", "text": f"module M: {body} end module"}
    instant = {"cmd": "instant", "inputs": []}
    lines = "".join(json.dumps(line) + "\n" for line in (load, instant, instant))
    ran = subprocess.run([os.environ["ESTLAB"]], input=lines, stdout=subprocess.PIPE, text=True, check=True)
    return [json.loads(line) for line in ran.stdout.splitlines()[1:]]


class WorkedInstants(unittest.TestCase):
    def test_what_is_seen_inside(self):
        for body, wanted in SEEN:
            with self.subTest(body):
                self.assertEqual("".join(map(seen_in, instants_of(body))), wanted)

    def test_what_is_tied_to_open_signals(self):
        for body, wanted in TIED:
            with self.subTest(body):
                self.assertEqual(tied_in(instants_of(body)[1]), wanted)


if __name__ == "__main__":
    unittest.main()
