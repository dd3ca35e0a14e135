"""Texts of modules, over the socket of a server: one that ends after each of its bytes, sizes at each limit and past it, and texts
that a stranger may send in one line of 64 KiB, made so that a load would cost much. (How long each of those takes is said by
bench/loads.py.)
"""
import json
import re
import string
import unittest

from peers import LOGIN, Peer, Server, command, refused
from wire import LONGEST

# A module with each declaration and each statement, with and without the words that may be left out: what stands before a comment over
# lines, the comment, and what stands after it. Neither has another comment with two ends, and `module` is the first word and the last,
# and no other.
HEAD = """\
module Whole: % }% | = the rest of a line\r
\tinput I, J2, order; % %{\r
\toutput O, inner; input tick;
\trelation I # J2 # order, I=>order; relation O => I;
  nothing; pause; halt; emit O; sustain endless; exit T_2;
  await I; await immediate J2;
  present I then emit O end; present I then pause; end present;
  present I else emit O end; present I else pause; end present;
  present I then halt else emit O end; present I then nothing; else pause || halt end present;
  suspend pause when I; suspend pause when immediate I end suspend;
  abort pause when immediate I; abort pause when I end abort
||
  weak abort pause when I;
  weak abort pause when immediate I end abort;
  weak abort pause when I end weak abort;
"""
COMMENT = """\
%{ over three lines: emit |
   %{ and = module
}%"""
TAIL = """\
  loop pause end; loop pause; end loop; loop pause each I;
  every I do pause end; every immediate I do pause end every;
  trap T_1 in exit T_1 end;
  trap Aa0_Aa0_Aa0_Aa0_Aa0_Aa0_Aa0_Aa0_Aa0_Aa0_Aa0_Aa0_ in pause end trap;
  signal A in emit A end; signal A, B2, iffy in emit A||emit B2 end signal;
  run P; run notice[signal A/B]; run P3 [ signal A/B, order/input_2 ];
  [pause]; [ [ pause; ] || pause || [pause] ];
  loop suspend pause when I end; loop abort pause when I end loop;
  trap T_1 in weak abort pause when I end; signal A in abort pause when I end abort end;
  present I then suspend pause when I else weak abort pause when I end;
  every I do [abort pause when I] end every;
\x0cend% \r
module"""
WHOLE = HEAD + COMMENT + TAIL
KEYWORDS = frozenset(
    "module end input output inputoutput relation nothing pause halt emit sustain present then else suspend when immediate loop each every "
    "do await abort weak trap in exit signal run and or not".split()
)
# a comment or blanks, or else a token
PIECES = re.compile(r"(%\{.*?\}%|%[^\n]*|[ \t\r\n\f]+)|\|\||=>|[:;,/\[\]()#]|\w+", re.DOTALL)
TOKENS = [piece for piece in PIECES.finditer(WHOLE) if piece[1] is None]

STATEMENTS, SIGNALS, RELATIONS, LOOPS = (refused(79, limit=limit) for limit in ("statements", "signals", "relations", "loops"))


def load(text, main="M"):
    """The line of a load into slot 0."""
    return command("load", main=main, slot=0, text=text)


def just_after(code, front):
    """A fault just after a front of a text."""
    lines = front.split("\n")
    return refused(code, column=len(lines[-1]) + 1, line=len(lines))


def end_of(count):
    """The fault of the whole text where it ends after so many bytes. Since the whole is a library and no other ends within it, only what
    the cut leaves can be wrong:
    - in the comment with two ends, the comment is the fault; with its first byte alone it is one to the end of the line;
    - in `||` or `=>`, the first byte is;
    - in a word, another word is left. Where the whole word is a name, or the `immediate` before one, a name may stand: the text ends too
      early, unless the word that is left is a keyword. Else that word is the fault;
    - after a token, and in a blank or a comment to the end of its line, the text ends too early.
    """
    front = WHOLE[:count]
    if len(HEAD) + 1 < count < len(HEAD + COMMENT):
        return just_after(70, HEAD)
    cut = next((token for token in TOKENS if token.start() < count < token.end()), None)
    if cut is None:
        return just_after(71, front)
    before, left = front[: cut.start()], front[cut.start():]
    if not cut[0][0].isalpha():
        return just_after(70, before)
    is_name = cut[0] == "immediate" or cut[0] not in KEYWORDS
    return just_after(71, front if is_name and left not in KEYWORDS else before)


def names(letter, count):
    """Numbered names with commas between them."""
    return ",".join(f"{letter}{number}" for number in range(count))


def sized(inputs, relation, relations, pauses):
    """A module M of the input S and so many more, of so many relations, each written so, and of so many statements `pause`."""
    declared = "".join(f", S{number}" for number in range(inputs))
    return f"module M: input S{declared}; relation {', '.join([relation] * relations)}; {'; '.join(['pause'] * pauses)} end module"


def doubling(length):
    """A chain of modules, each of which runs the next twice; the last has one statement."""
    runs = "".join(f"module R{number}: run R{number + 1}; run R{number + 1} end module " for number in range(length))
    return f"module M: run R0 end module {runs}module R{length}: pause end module"


def asking(before, words):
    """A module with a test of so many words more than one."""
    return f"module M: input S; output O; {before}{' and S' * words} end module"


def chain(modules, before, after, last):
    """A chain of modules, each of which runs the next between two parts, and what the last one does."""
    runs = [f"run M{number}" for number in range(1, modules)] + [last]
    return "".join(f"module {f'M{number}' if number else 'M'}:{before}{run}{after} end module " for number, run in enumerate(runs))


def renamings(runs):
    """A module of 65 inputs, and one that runs it so often with 64 renamings: a name of the caller stands twice, and one input keeps its
    name."""
    pairs = ",".join(f"B{number % 63}/A{number}" for number in range(64))
    return (
        f"module N:input {names('A', 65)};nothing end module "
        f"module M:input A64,{names('B', 63)};{f'run N[signal {pairs}];' * runs}nothing end module"
    )


def inside(count, runs):
    """A `signal` of so many names, and inside it runs of a module that has them as outputs."""
    return (
        f"module M:signal {names('A', count)} in {'run N;' * runs}halt end end module "
        f"module N:output {names('A', count)};halt end module"
    )


class Texts(unittest.TestCase):
    def setUp(self):
        """A connection to a server, whose login may load and step. (Such a server is not asked to end: its report would read deep
        modules again, on a stack that is too small for the program as it is built without proof.)"""
        server = self.enterContext(Server("--workers", "1"))
        self.peer = self.enterContext(Peer(server.path))
        self.done(LOGIN)
        self.grant("load", "step")

    def done(self, line):
        """The answer to a line that is accepted."""
        answer = json.loads(self.peer.ask(line))
        self.assertIn("ok", answer, line[:200])
        return answer

    def grant(self, *operations, on="0"):
        for operation in operations:
            self.done(command("grant", object=on, op=operation, role="root"))

    def refuse(self, text, answer):
        """Loads a text that is refused."""
        line = load(text)
        self.assertLessEqual(len(line), LONGEST + 1, line[:200])
        self.assertEqual(self.peer.ask(line), answer, line[:200])

    def accept(self, text, signals=()):
        """Loads a text that is accepted, and looks at its first instant, in which these are all signals. Then it is taken out."""
        line = load(text)
        self.assertLessEqual(len(line), LONGEST + 1, line[:200])
        for signal in signals:
            self.grant("observe", on=f"0.{signal}")
        self.done(line)
        self.done(command("step", slot=0))
        shown = self.done(command("look", instant=1, slot=0))["signals"]
        self.assertEqual([name for name, _ in shown], list(signals), line[:200])
        self.done(command("unload", slot=0))

    def test_a_module_of_all_forms_ends_after_each_byte(self):
        self.peer.converse((load(WHOLE[:count], "Whole"), end_of(count)) for count in range(len(WHOLE)))
        self.assertEqual(self.peer.ask(load(WHOLE, "Whole")), refused(75, name="tick"))
        print(f"texts: {len(WHOLE)} that end too early")

    def test_each_limit_of_a_linked_module(self):
        """Each limit is kept by the most that it lets pass, and passed by one more; of two that are passed the first is told, and a
        lawless relation before all."""
        self.accept(sized(63, "S => S", 32, 1024))
        for text, answer in [
            (sized(64, "S => S", 1, 1), SIGNALS),
            (sized(0, "S # S", 33, 1), RELATIONS),
            (sized(0, "S # S", 1, 1025), STATEMENTS),
            (sized(64, "S # S", 33, 1025), SIGNALS),
            (sized(64, "S # S", 1, 1025), SIGNALS),
            (sized(63, "S # S", 33, 1025), RELATIONS),
            (sized(64, "S # X", 33, 1025), refused(80, relation=1)),
            (sized(0, "X => S", 33, 1), refused(80, relation=1)),
        ]:
            self.refuse(text, answer)

    def test_runs_are_counted(self):
        """Statements are counted before a run is replaced, so runs that double a thousand times are never written out."""
        self.accept(doubling(10))
        for length in (11, 100, 1000):
            self.refuse(doubling(length), STATEMENTS)

    def test_tests_count_as_often_as_they_stand(self):
        for before, words in [
            ("await S", 2041),
            ("suspend pause when immediate S", 1021),
            ("abort pause when S", 1018),
            ("abort pause when immediate S", 678),
        ]:
            self.accept(asking(before, words))
            self.refuse(asking(before, words + 1), STATEMENTS)

    def test_long_expressions(self):
        """A line that is one expression, and one whose expression is as long as a kernel may be."""
        self.refuse(f"module M:input S;await S{' and S' * 10_900} end module", STATEMENTS)
        self.accept(f"module M:input S;await S{' or not S' * 1020} end module", ["S"])

    def test_deep_texts(self):
        """As many brackets as a line can hold, in one another within each module and through the runs of all of them; and suspensions,
        one statement more than a kernel may have."""
        self.accept(chain(227, "[" * 128, "]" * 128, "pause"))
        self.refuse(chain(16, "input I;" + "suspend " * 128, " when I" * 128, "pause"), STATEMENTS)

    def test_long_chains(self):
        """As many modules as a line can hold that run one another: chains, with a loop around each run too, a ring, and a chain whose end runs itself."""
        self.accept(chain(1600, "", "", "pause"))
        self.refuse(chain(1600, "", "", "run M"), refused(73, name="M"))
        self.refuse(chain(1600, "", "", "run M1599"), refused(73, name="M1599"))
        self.refuse(chain(1450, "loop ", " end", "pause"), LOOPS)

    def test_many_names(self):
        """As many names, renamings and runs of one module as a line can hold."""
        self.accept(renamings(120), ["A64", *names("B", 63).split(",")])
        self.refuse(f"module M:{'run N;' * 10_850}run Z end module module N:halt end module", refused(72, name="Z"))
        triples = (f"{first}{second}{third}" for first in string.ascii_uppercase for second in string.ascii_uppercase for third in string.ascii_uppercase)
        declared = ",".join(name for name, _ in zip(triples, range(16_350)))
        self.refuse(f"module M:input S,{declared};nothing end module", SIGNALS)
        self.refuse(inside(500, 9_900), STATEMENTS)


if __name__ == "__main__":
    unittest.main()
