"""The kernel of a module, as the client reads it: it has to be the one that `estlab` tells."""
import json
import os
import sys
import unittest

from drawing_modules import Drawer
from support import ROOT

sys.path.insert(0, str(ROOT / "clients"))
from estserve_client.connection import Refusal  # noqa: E402
from estserve_client.lab.asking import Subject, start_lab  # noqa: E402
from estserve_client.lab.kernel import checked_kernel  # noqa: E402
from estserve_client.library_text import join_texts  # noqa: E402
from estserve_client.module_text import main_of  # noqa: E402
from estserve_client.texts import Failed  # noqa: E402

MODULES = int(os.environ.get("LAB_MODULES", 300))
SCOPES = """module M:
input A; inputoutput B; output O, P;
signal A, S in
  run N [signal A/X, O/Y];
  [emit S || run N [signal S/X, B/Y]]
end;
run N [signal tick/X, P/Y]
end module
module N:
input X; output Y;
signal S in
  trap T in
    weak abort present [X and not S or X] then emit Y else exit T end; sustain S when immediate X
  end
end;
every immediate X do run R end every
end module
module R: output Y; emit Y end module
"""


def loads_of(path):
    """The main modules and texts of the loads of a script."""
    for line in path.read_text(errors="surrogateescape").splitlines():
        try:
            asked = json.loads(line)
        except ValueError:
            continue
        if isinstance(asked, dict) and asked.get("cmd") == "load":
            yield asked.get("main"), asked.get("text")


def scripts():
    """The stored scripts and dialogues."""
    return [*ROOT.glob("examples/scripts/**/*"), *ROOT.glob("tests/dialogues/**/*")]


class Kernels(unittest.TestCase):
    def setUp(self):
        self.lab = start_lab()
        self.addCleanup(self.lab.client.close)

    def compare(self, text, main):
        """Compares the kernel of a module; answers whether there is one."""
        subject = Subject(join_texts([("text", text)]), main_of(text, main))
        try:
            self.lab.load(subject)
        except (Failed, Refusal):
            return False
        self.assertGreater(len(checked_kernel(self.lab, subject)), 0)
        return True

    def test_examples(self):
        paths = sorted(ROOT.glob("examples/*/*.strl"))
        self.assertGreater(sum(self.compare(path.read_text(), None) for path in paths), 9)

    def test_texts_of_scripts_and_dialogues(self):
        loads = [load for path in scripts() if path.is_file() for load in loads_of(path)]
        texts = {load for load in loads if all(isinstance(part, str) for part in load)}
        self.assertGreater(sum(self.compare(text, main) for main, text in sorted(texts)), 60)

    def test_runs_and_renamings(self):
        self.assertTrue(self.compare(SCOPES, "M"))
        subject = Subject(join_texts([("text", SCOPES)]), main_of(SCOPES, "M"))
        kernel = checked_kernel(self.lab, subject)
        emitted = [one.signal.called() for one in kernel if one.kind == "emit"]
        self.assertEqual(emitted, ["O", "N_1.S", "O", "S", "B", "N_2.S", "B", "P", "N_3.S", "P"])
        places = {one.signal.at for one in kernel if one.kind == "signal"}
        self.assertEqual(
            sorted((place.line, place.text) for place in places), [(3, "A"), (3, "S"), (11, "S")]
        )

    def test_random_modules(self):
        drawer = Drawer(7)
        texts = [drawer.module() for _ in range(MODULES)]
        self.assertGreater(sum(self.compare(text, None) for text in texts), MODULES // 2)


if __name__ == "__main__":
    unittest.main()
