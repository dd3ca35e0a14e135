"""The page's files without a browser: its modules' own rules, what it saves, its colours."""
import contextlib
import json
import pathlib
import re
import shutil
import subprocess
import tempfile
import unittest

import teams
from estserve_client.command_table import BACK, KEYS
from estserve_client.expecting import outcome_lines
from estserve_client.inputs import read_inputs
from estserve_client.lab.within import scope_at
from estserve_client.pictures import Seen, vcd_lines
from estserve_client.policy_file import read_policy
from estserve_client.syntax_tree import KEYWORDS

PAGE = teams.ROOT / "gateway" / "estserve_team" / "page"
HERE = pathlib.Path(__file__).resolve().parent
NODE = shutil.which("node")
LINES, COLUMNS = 300, 105  # that a module may have at most
TEXT, PART = 4.5, 3.0  # contrasts that WCAG's AA asks of text, and of what bounds a control
POLICY = {
    "users": [{"user": "root", "roles": ["root"]}, {"user": "ann", "roles": ["lead", "watcher"]}],
    "roles": [
        {"role": "root", "juniors": [], "permissions": [["administer", "policy"], ["load", "0"]]},
        {"role": "lead", "juniors": ["watcher"], "permissions": []},
        {
            "role": "watcher",
            "juniors": [],
            "permissions": [["observe", f"0.S{n}"] for n in range(40)],
        },
    ],
    "sets": [{"name": "apart", "count": 2, "roles": ["lead", "root"]}],
}
# What `node --check` does, for many modules at once.
READ = """
const [fs, vm] = [require("fs"), require("vm")];
for (const path of process.argv.slice(1)) {
  new vm.SourceTextModule(fs.readFileSync(path, "utf8"), { identifier: path });
}
"""
# Colours that stand on others, as the style sheets have them.
ON = {
    "ground": "ink quiet accent declare act control logic input",
    "card": "ink quiet accent input output inout grave declare act control logic",
    "soft": "ink accent", "cursor": "ink input output inout", "pending": "ink input",
    "grave-soft": "grave", "warn-soft": "warn ink", "accent": "on-accent",
}  # fmt: skip


def waves():
    """Waves with few and many signals, absent, present and hidden ones, local ones of which the last
    rows are missing, and a refusal at the end."""
    random = teams.random_of("exports")
    for count in (0, 1, 4, 130):
        kinds = [random.choice(("input", "inout", "output")) for _ in range(count)]
        signals = [[f"{kind[:2].upper()}{at}", kind] for at, kind in enumerate(kinds)]
        paths = random.choices(("", "RUN_1", "RUN_2", "RUN_2.IN", "DEEP.RUN_1"), k=count // 2)
        locals = [[f"{path}.L{at}".strip("."), path] for at, path in enumerate(paths)]
        for instants, letters in ((0, "01"), (1, "01."), (12, "01."), (12, "01"), (3, ".")):
            rows = ["".join(random.choices(letters, k=count)) for _ in range(instants)]
            inner = [
                "".join(random.choices("01", k=len(locals))) for _ in rows[: random.randint(1, 12)]
            ]
            ended = random.choice((None, "Stuck: no reaction\na circle"))
            wave = {"module": "M", "signals": signals, "rows": rows, "ended": ended}
            yield {**wave, "locals": locals, "inner": inner}


def seen_of(wave):
    """A wave as the client has it, without local signals."""
    names = [name for name, _ in wave["signals"]]
    rows = [dict(zip(names, row)) for row in wave["rows"]]
    shown = [{name: has == "1" for name, has in row.items() if has != "."} for row in rows]
    return Seen(wave["module"], [tuple(one) for one in wave["signals"]], shown)


def seen_inside(wave):
    """A wave as the client has it, with local signals in the scopes of their modules."""
    seen, names, scopes = seen_of(wave), [name for name, _ in wave["locals"]], []
    seen.signals += [(name, "local") for name in names]
    for instant, row in zip(seen.instants, wave["inner"]):
        instant.update((name, has == "1") for name, has in zip(names, row))
    for name, path in wave["locals"]:
        if path:
            scope_at(scopes, tuple(path.split("."))).signals.append((name[len(path) + 1 :], name))
    seen.scopes = scopes
    return seen


def linear(part):
    """A part of a colour, as light."""
    value = part / 255
    return value / 12.92 if value <= 0.04045 else ((value + 0.055) / 1.055) ** 2.4


def contrast(one, other):
    """The contrast of two colours, as WCAG 2 reckons it."""
    lights = []
    for colour in (one, other):
        parts = [linear(int(colour[at : at + 2], 16)) for at in (1, 3, 5)]
        lights.append(0.2126 * parts[0] + 0.7152 * parts[1] + 0.0722 * parts[2])
    return (max(lights) + 0.05) / (min(lights) + 0.05)


def themes():
    """The colours of each block of the style sheet, by their names: light, dark, dark."""
    blocks = re.findall(r":root[^{]*\{([^}]*)\}", (PAGE / "colours.css").read_text())
    return [dict(re.findall(r"--([a-z-]+): (#[0-9a-f]{6})", block)) for block in blocks]


@contextlib.contextmanager
def modules():
    """A folder with the page's modules, as node takes them."""
    with tempfile.TemporaryDirectory() as name:
        folder = pathlib.Path(name)
        (folder / "package.json").write_text('{"type": "module"}')
        for path in PAGE.glob("*.js"):
            shutil.copy(path, folder)
        yield folder


def run_node(*words, typed=None):
    """What node prints. Fails where it ends with another status than 0."""
    ran = subprocess.run([NODE, *words], input=typed, capture_output=True, text=True, timeout=60)
    if ran.returncode:
        raise AssertionError(ran.stderr[-3000:])
    return ran.stdout


@unittest.skipUnless(NODE, "node is not there")
class ModulesTest(unittest.TestCase):
    def test_each_module_is_read_without_a_fault(self):
        with modules() as folder:
            run_node("--experimental-vm-modules", "-e", READ, *map(str, folder.glob("*.js")))

    def test_the_rules_of_the_page(self):
        with modules() as folder:
            told = run_node(str(HERE / "page_parts.mjs"), str(folder))
        self.assertRegex(told, r"^\d+ tests of the page's rules\n$")

    def test_what_is_saved_is_what_the_client_writes_and_reads(self):
        asked = {"waves": list(waves()), "policy": POLICY, "commands": []}
        with modules() as folder:
            told = json.loads(
                run_node(str(HERE / "page_exports.mjs"), str(folder), typed=json.dumps(asked))
            )
        for wave, saved in zip(asked["waves"], told["waves"]):
            seen, ended = seen_of(wave), wave["ended"]
            number = len(wave["rows"]) + 1
            refusal = f"instant {number}: {ended.splitlines()[0]}" if ended else None
            self.assertEqual(saved["vcd"].splitlines(), vcd_lines(seen_inside(wave)))
            self.assertEqual(saved["expected"].splitlines(), outcome_lines(seen, refusal))
            kinds = dict(seen.signals)
            offered = [
                tuple(name for name in shown if shown[name] and kinds[name] != "output")
                for shown in seen.instants
            ]
            self.assertEqual(read_inputs(saved["inputs"]).names, offered)
        self.assertEqual(set(told["keywords"]), KEYWORDS | {"tick"})
        commands = [wish.command for wish in read_policy(told["policy"])]
        grants = [one for one in commands if one["cmd"] == "grant"]
        self.assertEqual(len(grants), 41, "all but root's own right")
        self.assertIn({"cmd": "inherit", "senior": "lead", "junior": "watcher"}, commands)
        self.assertIn(
            {"cmd": "dsd", "name": "apart", "count": 2, "roles": ["lead", "root"]}, commands
        )
        self.assertEqual(
            [one["role"] for one in commands if one["cmd"] == "assign"], ["lead", "watcher"]
        )
        self.assertEqual([one["user"] for one in commands if one["cmd"] == "adduser"], ["ann"])

    def test_commands_have_the_keys_and_the_order_of_the_one_table(self):
        changing = [name for name in KEYS if name in (*BACK, *BACK.values())]
        commands = []
        for name in [*changing, "offer", "discard", "step", "unload"]:
            keys = {key: f"{key}_word" for key in KEYS[name]}
            commands.append({"cmd": name, **dict(reversed(keys.items()))})
        asked = {"waves": [], "policy": POLICY, "commands": commands}
        with modules() as folder:
            told = json.loads(
                run_node(str(HERE / "page_exports.mjs"), str(folder), typed=json.dumps(asked))
            )
        for command, words in zip(commands, told["words"]):
            keys = [command[key] for key in KEYS[command["cmd"]]]
            joined = ".".join(keys) if "slot" in command else " ".join(keys)
            self.assertEqual(words, f"{command['cmd']} {joined}")
        for name in changing:
            permission = {"op", "object"} if name in ("grant", "revoke") else set()
            self.assertEqual({*told["fields"][name], *permission}, set(KEYS[name]), name)
        self.assertEqual(set(told["fields"]), set(changing))


class FilesTest(unittest.TestCase):
    def test_modules_are_small(self):
        for path in PAGE.glob("*.js"):
            lines = path.read_text().split("\n")
            self.assertLessEqual(len(lines), LINES, path.name)
            self.assertLessEqual(max(map(len, lines)), COLUMNS, path.name)

    def test_colours_can_be_told_apart_as_wcag_asks(self):
        light, *dark = themes()
        self.assertEqual(len(dark), 2)
        self.assertEqual(*dark, "dark by choice is dark by the system")
        for theme in (light, dark[0]):
            for ground, names in ON.items():
                for name in names.split():
                    with self.subTest(f"{name} on {ground}", dark=theme is not light):
                        self.assertGreaterEqual(contrast(theme[name], theme[ground]), TEXT)
            for ground in ("card", "ground"):
                self.assertGreaterEqual(contrast(theme["edge"], theme[ground]), PART)
                self.assertGreaterEqual(contrast(theme["accent"], theme[ground]), PART)

    def test_colours_stand_in_one_style_sheet(self):
        for path in PAGE.glob("*.css"):
            if path.name != "colours.css":
                self.assertIsNone(
                    re.search(r"#[0-9a-f]{3,6}\b(?=[^{]*;)", path.read_text()), path.name
                )


if __name__ == "__main__":
    unittest.main()
