"""Modules at the limits of their sizes, on a worker's stack: the deepest ones that are accepted, each of which comes to 2,048 statements
of the kernel and is audited too; and each limit of a text, met exactly and passed by one."""
import resource
import subprocess
import sys
import unittest

from running import ROOT, WAIT_SECONDS, Server, program, report

sys.path.insert(0, str(ROOT / "tests" / "journals"))
from wire import written  # noqa: E402
from estserve_client.connection import Refusal  # noqa: E402

STACK_BYTES = 32 * 1024 * 1024  # of a worker

# what stands around `sustain O`, before and after it; how often in each module; and how many modules run one another
NESTS = [
    ("suspend ", " when I", 73, 28),
    ("present I else ", " end", 73, 14),
    ("[", "; pause]", 73, 14),
    ("[pause || ", "]", 73, 14),
]


def text_of(before, after, times, modules):
    """The modules of a nest: the first is M, and each runs the next one."""
    text = "module M:"
    for number in range(1, modules):
        text += f"input I;output O;{before * times}run M{number}{after * times} end module module M{number}:"
    return text + f"input I;output O;{before * times}sustain O{after * times} end module"


class Deepest(unittest.TestCase):
    def has_two_instants(self, root, text):
        """Loads the module, makes two instants in which O is there, and takes the module out."""
        root.load(0, "M", text)
        for instant in (1, 2):
            root.step(0)
            self.assertEqual(root.look(0, instant)["signals"], [["O", True]])
        root.unload(0)

    def test_they_are_loaded_and_step_on_a_workers_stack(self):
        with Server("--workers", "1") as server, server.root() as root:
            for operation, place in [("load", "0"), ("step", "0"), ("observe", "0.O")]:
                root.grant("root", operation, place)
            for nest in NESTS:
                for _ in range(2):
                    self.has_two_instants(root, text_of(*nest))

    def test_one_is_audited_on_as_much_stack(self):
        granted = [("load", "0"), ("step", "0"), ("observe", "0.O")]
        lines = [{"cmd": "login", "roles": ["root"], "user": "root"}]
        lines += [{"cmd": "grant", "object": name, "op": op, "role": "root"} for op, name in granted]
        lines += [{"cmd": "load", "main": "M", "slot": 0, "text": text_of(*NESTS[0])}, *[{"cmd": "step", "slot": 0}] * 2]
        ran = subprocess.run(
            [*program(), "script", "--report"], input=b"".join(map(written, lines)), capture_output=True, timeout=WAIT_SECONDS,
            preexec_fn=lambda: resource.setrlimit(resource.RLIMIT_STACK, (STACK_BYTES, STACK_BYTES)),
        )
        self.assertEqual((ran.returncode, ran.stderr), (0, b""))
        self.assertTrue(ran.stdout.endswith(report(9, "slot 0: 3 entries, 1 loads, 2 instants")), ran.stdout[-200:])


RELATIONS = "module M: input A; relation A # A"
# texts, each with its refusal, or none
LIMITS = [
    ("module M: " + 129 * "[", ("TooLarge", {"limit": "nesting"})),
    ("module M: " + 128 * "[" + "pause", ("Syntax", {"line": 1, "column": 144})),
    ("module M: " + 128 * "[" + "pause" + 128 * "]" + " end module", None),
    ("module M: " + 1_024 * "pause;" + "end module", None),
    ("module M: " + 1_025 * "pause;" + "end module", ("TooLarge", {"limit": "statements"})),
    (RELATIONS + 31 * ", A # A" + "; pause end module", None),
    (RELATIONS + 32 * ", A # A" + "; pause end module", ("TooLarge", {"limit": "relations"})),
    ("module M" + 47 * "m" + ": pause end module", ("UnknownModule", {"name": "M"})),
    ("module M" + 48 * "m" + ": pause end module", ("Lexical", {"line": 1, "column": 8})),
]


class Limits(unittest.TestCase):
    def refusal_of(self, root, text):
        """How a load of the text is refused. A module that is accepted is taken out again."""
        try:
            root.load(0, "M", text)
        except Refusal as refusal:
            return refusal.fault, refusal.fields
        root.unload(0)
        return None

    def test_sizes_are_limited(self):
        with Server("--workers", "1") as server, server.root() as root:
            root.grant("root", "load", "0")
            for text, wanted in LIMITS:
                with self.subTest(text[:20], length=len(text)):
                    self.assertEqual(self.refusal_of(root, text), wanted)


if __name__ == "__main__":
    unittest.main()
