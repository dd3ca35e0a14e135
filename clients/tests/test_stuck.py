"""What waits for what where an instant is stuck. Each circle was worked out by hand from what must and
what can be emitted, as is said beside it: a test of a signal that is open must do nothing, and can do
what either branch can.
"""
import sys
import unittest
import unittest.mock

from support import EXAMPLES, ROOT, InAFolder, needs_program, run_client
from test_lab import WithLab, needs_lab

from estserve_client.lab.stuck import Stuck
from estserve_client.texts import Failed

sys.path.append(str(ROOT / "tests" / "lab"))
import rules  # noqa: E402

ANYWAY = (
    "{} neither must nor can't be emitted: it waits for itself, and {} may emit it whether it is"
)
ANYWAY += " present or not"
ITSELF = "{} waits for itself: line {} may emit it once {}"


def emissions(signal, places):
    """The places of what may emit a signal, each with what has to hold there."""
    return [f"{place}: emit {signal}, once {test}" for place, test in places]


def itself(signal, place, test):
    """What is said of a signal that waits for itself by one emission."""
    line = place.partition(":")[0]
    return ITSELF.format(signal, line, test), emissions(signal, [(place, test)])


def anyway(signal, *places):
    """What is said of a signal that is emitted whichever way its own test goes, in these places."""
    lines = dict.fromkeys(f"line {place.partition(':')[0]}" for place, _ in places)
    return ANYWAY.format(signal, " and ".join(lines)), emissions(signal, places)


# Each a text, the inputs of its instants up to one that is stuck, and what is said of that one.
LITERATURE = {
    # O can be emitted, in a branch, and must not: the test waits for O. If O is, it has to be.
    "it is there because it is there": (
        "module M: output O;\npresent O then\n emit O end end module",
        [()],
        *itself("O", "3:2", "O is present"),
    ),
    # The same with the other branch: no status of O is right.
    "it is there because it is not": (
        "module M: output O;\npresent O else\n emit O end end module",
        [()],
        *itself("O", "3:2", "O is absent"),
    ),
    # Both branches emit O, so each way it would be. But Must walks no branch of a test that has no
    # answer, and so finds neither; Can walks both. O neither must nor can't be.
    "emitted in both branches": (
        "module M: output O;\npresent O then\n emit O\nelse\n emit O end end module",
        [()],
        *anyway("O", ("3:2", "O is present"), ("5:2", "O is absent")),
    ),
    # The same for a local signal, of which the step itself names nothing.
    "a local signal is there because it is there": (
        "module M: signal S in\npresent S then\n emit S end end end module",
        [()],
        *itself("S", "3:2", "S is present"),
    ),
    # `emit S` comes after the test of S, whichever branch that takes. Must doesn't get past the test.
    # O can be too, and nothing waits for it.
    "emitted after its own test": (
        "module M: output O; signal S in\n[present S then emit O end;\nemit S] end end module",
        [()],
        *anyway("S", ("3:1", "S is present"), ("3:1", "S is absent")),
    ),
    # O can be emitted where the first test took its `else`, which ends: so once O is absent. With O
    # present control rests before. S can be emitted then too, and so it is open; but what waits for S
    # begins after the test of O.
    "behind a test that may pause": (
        "module M: output O; present O then pause end;\nsignal S in [emit S;\npresent S else\n"
        " emit O end] end end module",
        [()],
        *itself("O", "4:2", "O is absent"),
    ),
    # Before I nothing can be emitted. With I the test of O begins; P comes after it either way.
    "after an input": (
        "module M: input I; output O, P; await I;\npresent O else\n emit O end;\nemit P end module",
        [(), (), ("I",)],
        *itself("O", "3:2", "O is absent"),
    ),
    # Without I both tests have no answer: O can be if P is, P can be if O is, and neither must.
    "each of two waits for the other": (
        "module M: input I; output O, P; loop present I then emit P\n else present P then\n"
        "  emit O end end; pause end\n|| loop present I then present P then emit O end\n"
        " else present O then\n  emit P end end; pause end end module",
        [("I",), ()],
        "O (line 3) waits for P, which line 6 may emit once O is present",
        ["3:3: emit O, once P is present", "6:3: emit P, once O is present"],
    ),
    # A is absent, so `A or O` is what O is. Where it fails O is emitted, where it holds P: both can be.
    "`or` waits for its open side": (
        "module M: input A; output O, P; present A or O then emit P\nelse emit O end end module",
        [()],
        *itself("O", "2:6", "`A or O` fails"),
    ),
    # `O or not O` holds whatever O is. But Must answers no test before what it asks for is known.
    "excluded middle": (
        "module M: output O;\npresent O or not O then\n emit O end end module",
        [()],
        *anyway("O", ("3:2", "`O or not O` holds")),
    ),
    # A is absent, so that `not A` holds, and the whole is what O is.
    "`and` waits for its open side": (
        "module M: input A; output O;\npresent not A and O then\n emit O end end module",
        [()],
        *itself("O", "3:2", "`not A and O` holds"),
    ),
    # B wasn't offered. It is emitted after the test of B, whatever that says: O comes only once B is
    # absent, which it never is, but that isn't known.
    "an inputoutput that is emitted after its test": (
        "module M: inputoutput B; output O;\npresent B else emit O end;\nemit B end module",
        [()],
        *anyway("B", ("3:1", "B is present"), ("3:1", "B is absent")),
    ),
    # B wasn't offered: with B absent it would be emitted. O can be, once B is present.
    "an inputoutput that is emitted where it is absent": (
        "module M: inputoutput B; output O;\nloop present B then emit O else\n emit B end;\n"
        "pause end end module",
        [("B",), ()],
        *itself("B", "3:2", "B is absent"),
    ),
}
OTHERS = {
    # `abort` asks for O in the second instant, before its body goes on: O is emitted only if O isn't.
    "an abort of what it waits for": (
        "module M: output O;\nabort\n pause; emit O\nwhen O end module",
        [(), ()],
        *itself("O", "3:9", "O is absent"),
    ),
    # So does `suspend`.
    "a suspension by what is in it": (
        "module M: output O;\nsuspend\n pause; emit O\nwhen O end module",
        [(), ()],
        *itself("O", "3:9", "O is absent"),
    ),
    # What comes after an abort comes if O is there. If O isn't, `halt` goes on: nothing else ends it.
    "after an abort": (
        "module M: output O;\nabort\n halt\nwhen O;\nemit O end module",
        [(), ()],
        *itself("O", "5:1", "O is present"),
    ),
    # The second test begins whatever the first one says; but it emits O only if O is there.
    "asked for twice": (
        "module M: output O;\npresent O then\n emit O end;\npresent O then\n emit O end end module",
        [()],
        *itself("O", "3:2", "O is present"),
    ),
    # With A the body ends whatever O is, and so does the whole; without A and B alone if O is there.
    "after an abort that ends by itself too": (
        "module M: input A, B; output O;\nabort\n await A\nwhen [O or B];\nemit O end module",
        [(), ("A",)],
        *anyway("O", ("5:1", "`O or B` holds"), ("5:1", "`O or B` fails")),
    ),
    # O is asked for twice: no O brings its emission about. But each test alone is still open.
    "behind two tests that exclude each other": (
        "module M: output O;\npresent O then present O else\n emit O end end end module",
        [()],
        *itself("O", "3:2", "O is absent"),
    ),
    # `immediate` asks at once.
    "an immediate abort": (
        "module M: output O; pause;\nabort\n emit O\nwhen immediate O end module",
        [(), ()],
        *itself("O", "3:2", "O is absent"),
    ),
    # P is emitted if O is, O if P isn't. Neither must be, both can.
    "two outputs": (
        "module M: output O, P;\npresent O then\n emit P end\n||\npresent P else\n emit O end end module",
        [()],
        "O (line 6) waits for P, which line 3 may emit once O is present",
        ["6:2: emit O, once P is absent", "3:2: emit P, once O is present"],
    ),
    # O is emitted if L is, L if O isn't.
    "an output and a local signal": (
        "module M: output O; signal L in\npresent L then\n emit O end\n||\npresent O else\n emit L end end"
        " end module",
        [()],
        "O (line 3) waits for L, which line 6 may emit once O is absent",
        ["3:2: emit O, once L is present", "6:2: emit L, once O is absent"],
    ),
    # What comes after an `await` of O comes only if O is there.
    "after an await": (
        "module M: output O; pause;\nawait immediate O;\nemit O end module",
        [(), ()],
        *itself("O", "3:1", "O is present"),
    ),
    # An exit leaves the trap before the emission, if O is there.
    "before an exit": (
        "module M: output O; pause;\ntrap T in present O then exit T end;\nemit O end end module",
        [(), ()],
        *itself("O", "3:1", "O is absent"),
    ),
    # One module runs twice: B of one run is O, of the other P. Each is emitted if the other is.
    "a module that is run twice": (
        "module N: input A; output B;\npresent A then\n emit B end end module\n"
        "module M: output O, P;\n[run N [signal O/A, P/B] || run N [signal P/A, O/B]] end module",
        [()],
        "O (line 3) waits for P, which line 3 may emit once O is present",
        ["3:2: emit B (O), once P is present", "3:2: emit B (P), once O is present"],
    ),
    # O, P and Q can all be emitted, each by what the one before is, and none must.
    "three outputs": (
        "module M: output O, P, Q;\npresent O then\n emit P end\n||\npresent P then\n emit Q end\n||\n"
        "present Q else\n emit O end end module",
        [()],
        "O (line 9) waits for Q, which line 6 may emit once P is present, which line 3 may emit once"
        " O is present",
        [
            "9:2: emit O, once Q is absent",
            "6:2: emit Q, once P is present",
            "3:2: emit P, once O is present",
        ],
    ),
    # `O or P` holds if either is there. P is an input that isn't, and only O stays open.
    "either of two": (
        "module M: input P; output O;\npresent O or P or not O then\n emit O end end module",
        [()],
        *anyway("O", ("3:2", "`O or P or not O` holds")),
    ),
    # In the second instant the loop begins S anew, after the pause: it is emitted only if it isn't.
    "a local signal in a loop": (
        "module M:\nloop\n signal S in\n  pause;\n  present S else\n   emit S end\n end\nend end module",
        [(), ()],
        *itself("S", "6:4", "S is absent"),
    ),
}
# A client asks, a master grants unless the line is busy, and a grant makes it busy. With ASK present
# REQUEST must be emitted, so it is decided. GRANT can be emitted, by line 28 if BUSY is absent; BUSY
# can be by line 38 if GRANT is present. Neither must be. READ is emitted by line 18 only if GRANT is
# present: it is open too, but nothing waits for it.
ACROSS = (ROOT / "tests" / "lab" / "across.strl").read_text()
LATER = ACROSS.replace("nothing;", "pause;")  # the client asks from the second instant on
# A fourth module reads GRANT: what it emits is open too, and nothing in the circle waits for it.
READER = ACROSS.replace("run CLIENT", "run CLIENT || run READER").replace(
    "BUSY in", "BUSY, HEARD in"
)
READER += """module READER:
input GRANT; output HEARD;
loop
  present GRANT then emit HEARD end;
  pause
end
end module
"""
CIRCLE = "GRANT (line 28) waits for BUSY, which line 38 may emit once GRANT is present"
PLACES = ["28:7: emit GRANT, once BUSY is absent", "38:5: emit BUSY, once GRANT is present"]


@needs_lab
class Circles(WithLab):
    def stuck(self, text, word, main=None):
        """A module, and the last instant of a word, the first that is stuck."""
        inside = self.inside_of(text, main)
        *before, last = inside.looks(word)
        self.assertEqual(len(before) + 1, len(word))
        self.assertTrue(last.is_stuck)
        return inside, last

    def lines(self, text, word, main=None):
        """What is said of that instant: the first line, and the places."""
        first, *places = Stuck(*self.stuck(text, word, main)).lines()
        return first, [place.replace("  m.strl:", "", 1) for place in places]

    def test_each_stuck_program_has_its_circle(self):
        for name, (text, word, sentence, places) in {**LITERATURE, **OTHERS}.items():
            with self.subTest(name):
                self.assertEqual(self.lines(text, word, "M"), (sentence, places))

    def test_the_ties_are_those_of_the_rules(self):
        for name, (text, word, *_) in {**LITERATURE, **OTHERS}.items():
            with self.subTest(name):
                inside, look = self.stuck(text, word, "M")
                program = rules.Program(inside.statements, inside.subject.module.outputs())
                seen = program.react(look.inputs, look.before).seen
                for waits, walked in ((True, seen.waits), (False, seen.may_emit)):
                    told = {(tie.at, tie.signal) for tie in look.ties if tie.waits is waits}
                    named = {(at, getattr(signal, "name", signal)) for at, signal in walked}
                    self.assertEqual(told, named)

    def test_across_modules(self):
        for text, word in ((ACROSS, 1), (LATER, 2), (READER, 1)):
            with self.subTest(text):
                self.assertEqual(self.lines(text, [("ASK",)] * word), (CIRCLE, PLACES))

    def test_readers_in_other_modules_are_in_no_circle(self):
        inside, look = self.stuck(READER, [("ASK",)])
        self.assertEqual(look.undecided, ("READ",))
        opened = {inside.called(at) for at, present in look.locals.items() if present is None}
        self.assertEqual(opened, {"GRANT", "BUSY", "HEARD"})
        told = "\n".join(Stuck(inside, look).lines())
        for name in ("READ", "REQUEST", "HEARD"):
            self.assertNotIn(name, told)

    def test_a_program_that_tells_no_ties_is_too_old(self):
        inside = self.inside_of(LITERATURE["excluded middle"][0], "M")
        told = {
            "code": 50,
            "fault": "Stuck",
            "began": [],
            "went": [],
            "locals": [],
            "undecided": ["O"],
        }
        with unittest.mock.patch.object(self.lab.client, "ask_all", lambda _: [told]):
            with self.assertRaisesRegex(Failed, "it is older than this client"):
                inside.look(())

    def test_a_page_draws_it_by_lines(self):
        drawn = Stuck(*self.stuck(ACROSS, [("ASK",)])).drawn()
        self.assertEqual(drawn["told"], CIRCLE)
        self.assertEqual(drawn["open"], [18, 27, 28, 37, 38])
        self.assertEqual(
            drawn["circle"],
            [
                {"signal": "GRANT", "emission": 28, "test": 27, "target": "BUSY", "to": 38},
                {"signal": "BUSY", "emission": 38, "test": 37, "target": "GRANT", "to": 28},
            ],
        )
        text, word, *_ = LITERATURE["emitted in both branches"]
        told = Stuck(*self.stuck(text, word, "M")).drawn()
        ways = [(one["emission"], one["test"], one["to"]) for one in told["circle"]]
        self.assertEqual(ways, [(3, 2, 3), (5, 2, 5)])


@needs_lab
@needs_program
class Told(InAFolder):
    """What the commands say."""

    def test_by_run(self):
        path, listed = self.file("m.strl", LATER), self.file("m.inputs", ";\nASK\nASK\n")
        ran = run_client(["run", path, "--inputs", listed])
        self.assertEqual(
            ran.told.splitlines()[1:], [CIRCLE, *(f"  {path}:{place}" for place in PLACES)]
        )
        self.assertIn("instant 2: Stuck: ", ran.told)

    def test_by_the_shell(self):
        path = self.file("m.strl", ACROSS)
        grants = "".join(f"grant root {one}\n" for one in ("load 0", "step 0", "offer 0.ASK"))
        grants += "grant root observe 0.ASK\ngrant root observe 0.READ\n"
        lines = "ASK;\ntry ASK;\nwhere\nwhy READ\ntry ;\n"
        ran = run_client(["shell"], f"{grants}load 0 {path}\n{lines}")
        printed = ran.printed.replace(f"{path}:", "").splitlines()
        self.assertEqual(printed.count(CIRCLE), 3, ran.printed)
        for line in (
            ">   5    run CLIENT",
            "?  27      present BUSY else",
            "?  28        emit GRANT",
        ):
            self.assertIn(line, printed)
        self.assertEqual(
            printed[-8:],
            [
                "READ is undecided",
                "  may be emitted at 18:24: emit READ, once GRANT is present",
                "GRANT is undecided",
                f"  may be emitted at {PLACES[0]}",
                "BUSY is undecided",
                f"  may be emitted at {PLACES[1]}",
                CIRCLE,
                "instant 1 would be: no output",
            ],
        )

    def test_an_offer_that_was_refused_is_not_taken_for_pending(self):
        # With HOLD there would be a reaction; but nobody may offer HOLD, nor the output O.
        text = "module M: input ASK, HOLD; output O;\npresent ASK and not HOLD then\n"
        path = self.file("m.strl", text + " present O else emit O end end end module")
        grants = "".join(f"grant root {one}\n" for one in ("load 0", "step 0", "offer 0.ASK"))
        lines = "grant root observe 0.*\ngrant root offer 0.O\nHOLD;\nO;\nASK;\nwhy HOLD\n"
        printed = run_client(["shell"], f"{grants}load 0 {path}\n{lines}").printed
        self.assertIn("\nO waits for itself: line 3 may emit it once O is absent\n", printed)
        self.assertTrue(printed.endswith("\nHOLD is not offered\n"), printed)

    def test_of_the_example(self):
        path = EXAMPLES / "paradox" / "paradox.strl"
        ran = run_client(["run", path], ";\nI\n")
        self.assertIn("O waits for itself: line 6 may emit it once O is absent", ran.told)

    def test_without_estlab_it_is_said_that_nothing_can_be(self):
        missing = self.folder / "none"
        path, listed = self.file("m.strl", ACROSS), self.file("m.inputs", "ASK\n")
        ran = run_client(["run", path, "--inputs", listed, "--estlab", missing])
        told = f"which signals are open inside can't be said: {missing} cannot be started"
        self.assertTrue(ran.told.splitlines()[1].startswith(told), ran.told)


if __name__ == "__main__":
    unittest.main()
