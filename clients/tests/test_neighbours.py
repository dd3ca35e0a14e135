"""Further packages give the client subcommands of their own, where their folder is there."""
import shutil
import subprocess
import sys
import unittest

from support import CLIENTS, InAFolder

# runs a command of the client, and tells what it has imported
IMPORTED = """import sys, estserve
try:
    estserve.main(sys.argv[1:])
finally:
    print(*sys.modules, file=sys.stderr)
"""
COMMAND = '''"""A command that tells its name."""


def add_parser(commands):
    commands.add_parser("team").set_defaults(act=lambda arguments: print("the team's", arguments.command))
'''


class Neighbours(InAFolder):
    def setUp(self):
        super().setUp()
        self.clients = self.folder / "clients"
        shutil.copytree(CLIENTS / "estserve_client", self.clients / "estserve_client")
        shutil.copy(CLIENTS / "estserve.py", self.clients)

    def run_team(self):
        words = [sys.executable, "-B", str(self.clients / "estserve.py"), "team"]
        ran = subprocess.run(words, capture_output=True, text=True, timeout=60)
        return ran.returncode, ran.stdout, ran.stderr.splitlines()[-1:]

    def test_a_package_that_is_there_adds_its_command(self):
        for place in ("clients", "gateway"):  # as where both are installed, as in the repository
            package = self.file(f"{place}/estserve_team/__init__.py", "").parent
            (package / "command.py").write_text(COMMAND)
            self.assertEqual(self.run_team(), (0, "the team's team\n", []), place)
            shutil.rmtree(package)

    def test_one_that_is_not_there_adds_none(self):
        status, printed, told = self.run_team()
        self.assertEqual((status, printed), (2, ""))
        self.assertIn("invalid choice: 'team'", told[0])


class Imports(unittest.TestCase):
    """A command imports what it needs, and the help imports no command."""

    def imported(self, *words):
        """The modules that a command has imported, in a Python that imports none for its site."""
        ran = subprocess.run(
            [sys.executable, "-S", "-B", "-c", IMPORTED, *words],
            capture_output=True,
            text=True,
            cwd=CLIENTS,
            timeout=60,
        )
        return set(ran.stderr.split())

    def test_the_help_imports_no_command(self):
        names = self.imported("--help")
        self.assertIn("estserve_team", names)
        self.assertFalse([name for name in names if name.startswith("estserve_team.")])
        self.assertFalse(names & {f"estserve_client.{name}" for name in ("running", "shell")})

    def test_a_run_imports_no_more_than_it_needs(self):
        names = self.imported("run", "none")
        self.assertIn("estserve_client.running", names)
        others = ("shell", "applying", "session", "scopes", "syntax_tree", "sentences", "expecting")
        self.assertFalse(names & {"estserve_team", *(f"estserve_client.{name}" for name in others)})
        self.assertFalse(names & {"dataclasses", "pathlib", "shutil", "typing"})


if __name__ == "__main__":
    unittest.main()
