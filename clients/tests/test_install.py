"""What is put in place: the page of the manual, completions, `clients/install`; and the program
that scripts/trial.py keeps.
"""
import argparse
import json
import os
import re
import resource
import shutil
import signal
import subprocess
import sys
import time
import unittest
import unittest.mock

from support import CLIENTS, EXAMPLES, ROOT, InAFolder, needs_program

from estserve_client import commands

MANUALS = CLIENTS / "man"
MANUAL = MANUALS / "estserve-client.1"
COMPLETIONS = CLIENTS / "completions"
OF_MAKE = (
    "MAKEFLAGS",
    "MAKELEVEL",
    "MFLAGS",
    "ESTSERVE",
)  # variables that a make of a test must not see
# Stands for the kit: it tells its calls, and `try` starts a program that makes the socket it is
# asked to serve at.
KIT = """#!/bin/sh
echo "$1" >> "$CALLS"
case $1 in
version) echo kit; exit ;;
esac
[ -z "$SLOW" ] || sleep 30
"$PROGRAM" serve --socket "$5" &
wait
"""
PROGRAM = """#!/bin/sh
if [ "$1" = serve ]; then : > "$3"; sleep 1; fi
echo "the program: $*"
"""


def options():
    """The long options of each of the client's own commands."""
    with unittest.mock.patch.object(commands, "NEIGHBOURS", ()):
        parser = commands.make_parser()
    subparsers = next(
        action for action in parser._actions if isinstance(action, argparse._SubParsersAction)
    )
    return {
        name: {
            word
            for action in command._actions
            for word in action.option_strings
            if word.startswith("--")
        }
        for name, command in subparsers.choices.items()
    }


class Pages(unittest.TestCase):
    def test_the_manual_has_each_command_and_option(self):
        text = MANUAL.read_text().replace("\\-", "-")
        for name, words in options().items():
            self.assertIn(f".SS {name}\n", text)
            for word in words:
                self.assertRegex(text, rf"(?m)^\.B[IR]? .*{word}\b", f"{name} {word}")
        for name, _ in commands.NEIGHBOURS:
            self.assertIn(f".SS {name}\n", text)

    @needs_program
    def test_the_programs_manual_has_each_option(self):
        text = (MANUALS / "estserve.1").read_text().replace("\\-", "-")
        told = b"".join(
            subprocess.run([os.environ["ESTSERVE"], *words, "--help"], capture_output=True).stderr
            for words in ([], ["script"], ["serve"])
        ).decode()
        options = set(re.findall(r"--[a-z]+", told))
        self.assertLess({"--log", "--report", "--socket", "--workers", "--version"}, options)
        for word in options:
            self.assertRegex(text, rf"(?m)^\.B[IR]* (-h \", \" )?{word}\b", word)

    @unittest.skipUnless(
        shutil.which("man") and shutil.which("groff"), "man or groff is not installed"
    )
    def test_the_manual_is_without_warnings(self):
        for page in sorted(MANUALS.iterdir()):
            words = ["man", "--warnings", "-E", "UTF-8", "-l", "-Tutf8", "-Z", str(page)]
            ran = subprocess.run(
                words,
                capture_output=True,
                text=True,
                env={**os.environ, "MANROFFSEQ": "", "LC_ALL": "C.UTF-8"},
            )
            self.assertEqual((ran.returncode, ran.stderr), (0, ""), page.name)

    def test_completions_are_those_that_the_words_give(self):
        told = "run clients/make_completions.py"
        ran = subprocess.run(
            [
                sys.executable,
                "-B",
                "-c",
                "import json, make_completions; print(json.dumps(make_completions.files()))",
            ],
            capture_output=True,
            text=True,
            cwd=CLIENTS,
        )
        self.assertEqual(ran.stderr, "")
        written = {path.name: path.read_text() for path in COMPLETIONS.iterdir()}
        self.assertEqual(json.loads(ran.stdout), written, told)

    def test_completions_have_each_command_and_option(self):
        for path in sorted(COMPLETIONS.iterdir()):
            text = path.read_text()
            for name, words in options().items():
                self.assertRegex(text, rf"\b{name}\b", path.name)
                for word in words:
                    told = f"-l {word[2:]}" if path.suffix == ".fish" else word
                    self.assertRegex(text, re.escape(told) + r"\b", f"{path.name}: {name} {word}")

    def test_shells_read_their_completions(self):
        checks = [
            ("bash", ["-n"], "estserve-client.bash"),
            ("zsh", ["-n"], "_estserve-client"),
            ("fish", ["-n"], "estserve-client.fish"),
        ]
        for shell, words, name in checks:
            with self.subTest(shell):
                if not shutil.which(shell):
                    self.skipTest(f"{shell} is not installed")
                ran = subprocess.run(
                    [shell, *words, str(COMPLETIONS / name)], capture_output=True, text=True
                )
                self.assertEqual((ran.returncode, ran.stderr), (0, ""))

    @unittest.skipUnless(shutil.which("bash"), "bash is not installed")
    def test_bash_completes(self):
        def completed(*words):
            script = f'. "{COMPLETIONS}/estserve-client.bash"; COMP_WORDS=("$@");'
            script += " COMP_CWORD=$(($# - 1)); _estserve_client;"
            ran = subprocess.run(
                ["bash", "-c", script + ' printf "%s\\n" "${COMPREPLY[@]}"', "bash", *words],
                capture_output=True,
                text=True,
            )
            return ran.stdout.split()

        self.assertEqual(completed("estserve-client", "sh"), ["shell"])
        self.assertEqual(completed("estserve-client", "team", "wh"), ["who", "why"])
        self.assertIn("--json", completed("estserve-client", "test", "--j"))
        self.assertEqual(completed("estserve-client", "apply", "--d"), ["--dry-run"])
        self.assertEqual(set(completed("estserve-client", "run", "--")), options()["run"])
        self.assertEqual(
            completed("estserve-client", "run", str(CLIENTS / "inst")), [str(CLIENTS / "install")]
        )


class Installed(InAFolder):
    def install(self, program, lab="", library="", **variables):
        words = ["make", "-s", "install", f"PREFIX={self.folder}/p", f"PROGRAM={program}"]
        words += [f"LAB={lab}", f"LIBRARY={library}"]
        environment = {key: value for key, value in os.environ.items() if key not in OF_MAKE}
        return subprocess.run(
            words, cwd=ROOT, capture_output=True, text=True, env={**environment, **variables}
        )

    def test_program_client_manual_and_completions_are_put_in_place(self):
        program = self.script(
            "program", '#!/bin/sh\nread line\necho "the program: $*"\ncat > /dev/null\n'
        )
        ran = self.install(program)
        self.assertEqual((ran.returncode, ran.stderr), (0, ""))
        prefix = self.folder / "p"
        self.assertEqual(
            subprocess.run(
                [prefix / "bin" / "estserve", "script"], input="\n", capture_output=True, text=True
            ).stdout,
            "the program: script\n",
        )
        variables = {key: value for key, value in os.environ.items() if key != "ESTSERVE"}
        words = [prefix / "bin" / "estserve-client", "shell"]
        ran = subprocess.run(
            words,
            capture_output=True,
            text=True,
            cwd=self.folder,
            stdin=subprocess.DEVNULL,
            env=variables,
        )
        self.assertEqual(
            ran.stderr, "estserve-client: this is no answer of estserve: 'the program: script'\n"
        )
        for name in [
            "man/man1/estserve-client.1",
            "bash-completion/completions/estserve-client",
            "zsh/site-functions/_estserve-client",
            "fish/vendor_completions.d/estserve-client.fish",
        ]:
            self.assertTrue((prefix / "share" / name).exists(), name)
        self.assertFalse(list(prefix.glob("**/__pycache__/*")) and not sys.dont_write_bytecode)

    def test_estlab_is_put_beside_it_and_found(self):
        program = self.script("program", "#!/bin/sh\n")
        for lab in ("", self.script("lab", '#!/bin/sh\nread line\necho "the lab: $line"\n')):
            ran = self.install(program, lab)
            self.assertEqual((ran.returncode, ran.stderr), (0, ""))
            self.assertEqual((self.folder / "p" / "bin" / "estlab").exists(), bool(lab))
        variables = {key: value for key, value in os.environ.items() if key != "ESTLAB"}
        words = [
            self.folder / "p" / "bin" / "estserve-client",
            "prove",
            EXAMPLES / "abro/abro.strl",
        ]
        ran = subprocess.run(words, capture_output=True, text=True, env=variables)
        self.assertIn("""'the lab: {"cmd":"load","main":"ABRO",""", ran.stderr)

    @unittest.skipUnless(shutil.which("gcc") and shutil.which("pkg-config"), "no compiler of C")
    def test_the_library_for_c_is_found_by_pkg_config(self):
        program, prefix = self.script("program", "#!/bin/sh\n"), self.folder / "p"
        source, made = self.folder / "stand_in.c", self.folder / "stand_in.o"
        source.write_text(
            '#include "estserve_react.h"\n'
            "uint64_t est_ask(est_machine *a, uint64_t b, uint64_t c) { return a ? b : c; }\n"
            "uint64_t est_load_module(const uint8_t *a, size_t b, const uint8_t *c, size_t d,\n"
            "    est_machine **e, struct est_fault *f) {\n"
            "  f->code = f->line = f->column = 70;\n"
            "  return a && b && c && d && e ? 70 : 0;\n}\n"
        )
        subprocess.run(["gcc", "-c", f"-I{ROOT}/targets", "-o", made, source], check=True)
        subprocess.run(["ar", "rcs", self.folder / "library.a", made], check=True)
        for library in ("", str(self.folder / "library.a")):
            ran = self.install(program, library=library)
            self.assertEqual((ran.returncode, ran.stderr), (0, ""))
            self.assertEqual((prefix / "include" / "estserve_react.h").exists(), bool(library))
        words = ["pkg-config", "--cflags", "--libs", "estserve_react"]
        path = {**os.environ, "PKG_CONFIG_PATH": str(prefix / "lib" / "pkgconfig")}
        flags = subprocess.run(
            words, capture_output=True, text=True, check=True, env=path
        ).stdout.split()
        abro, targets = self.folder / "abro", prefix / "share" / "estserve" / "targets"
        self.assertTrue((targets / "machine.hpp").exists())
        subprocess.run(["gcc", "-o", abro, targets / "abro.c", *flags], check=True)
        ran = subprocess.run([abro, EXAMPLES / "abro/abro.strl"], capture_output=True, text=True)
        self.assertEqual((ran.returncode, ran.stderr), (1, "Lexical at line 70, column 70\n"))

    def test_the_client_starts_without_the_site_and_the_gateway_with_it(self):
        ran = self.install(self.script("program", "#!/bin/sh\n"))
        self.assertEqual((ran.returncode, ran.stderr), (0, ""))
        start = self.folder / "p" / "lib" / "estserve" / "start.py"
        start.write_text("import sys\nprint('site' in sys.modules, *sys.argv[1:])\n")
        for words, has_site in ((["run", "a b"], False), ([], False), (["team", "who"], True)):
            words_run = [self.folder / "p" / "bin" / "estserve-client", *words]
            told = subprocess.run(words_run, capture_output=True, text=True).stdout
            self.assertEqual(told.split(), [str(has_site), *" ".join(words).split()])

    def test_a_staged_place_is_named_nowhere_and_the_units_name_the_programs(self):
        program = self.script("program", "#!/bin/sh\n")
        ran = self.install(program, DESTDIR=f"{self.folder}/stage")
        self.assertEqual((ran.returncode, ran.stderr), (0, ""))
        stage = self.folder / "stage" / f"{self.folder}/p".lstrip("/")
        for path in (path for path in stage.rglob("*") if path.is_file()):
            self.assertNotIn(f"{self.folder}/stage".encode(), path.read_bytes(), path)
        units = stage / "lib" / "systemd" / "system"
        for unit, words in (
            ("estserve-team@", "estserve-client team"),
            ("estserve-page@", "estserve-client team page"),
            ("estserve@", "estserve serve"),
        ):
            text = (units / f"{unit}.service").read_text()
            self.assertIn(f"\nExecStart={self.folder}/p/bin/{words} --", text)

    def test_it_runs_where_it_was_moved_to_and_through_a_link(self):
        program = self.script(
            "program", '#!/bin/sh\nread line\necho "the program: $*"\ncat > /dev/null\n'
        )
        ran = self.install(program)
        self.assertEqual((ran.returncode, ran.stderr), (0, ""))
        moved = (self.folder / "p").rename(self.folder / "elsewhere")
        (self.folder / "link").symlink_to(moved / "bin" / "estserve-client")
        variables = {key: value for key, value in os.environ.items() if key != "ESTSERVE"}
        for command in (moved / "bin" / "estserve-client", self.folder / "link"):
            ran = subprocess.run(
                [command, "shell"],
                capture_output=True,
                text=True,
                stdin=subprocess.DEVNULL,
                env=variables,
            )
            self.assertIn("this is no answer of estserve: 'the program: script'", ran.stderr)

    def test_without_a_program(self):
        ran = self.install(self.folder / "none")
        self.assertNotEqual(ran.returncode, 0)
        self.assertIn(
            f"there is no program at {self.folder}/none: make build proves and builds it",
            ran.stderr,
        )


class Abro(unittest.TestCase):
    """`make abro` on the program that scripts/trial.py keeps."""

    def kept(self):
        """Whether the program of these sources is kept."""
        sys.path.append(str(ROOT / "scripts"))
        import trial

        try:
            return (trial.KEPT / trial.key()).exists()
        except trial.CannotBuild:
            return False

    def test_the_second_time_it_is_there_at_once(self):
        if not self.kept():
            self.skipTest("the program is not kept: scripts/trial.py builds it")
        variables = {name: value for name, value in os.environ.items() if name not in OF_MAKE}
        before = sum(resource.getrusage(resource.RUSAGE_CHILDREN)[:2])
        words = ["make", "-s", "abro"]
        ran = subprocess.run(words, cwd=ROOT, capture_output=True, text=True, env=variables)
        seconds = sum(resource.getrusage(resource.RUSAGE_CHILDREN)[:2]) - before
        self.assertEqual(ran.stdout, (ROOT / "examples" / "abro" / "abro.wave").read_text())
        self.assertNotIn("which takes a minute", ran.stderr)
        self.assertLess(seconds, 3)  # of the processor: a busy machine may take longer


class Kept(InAFolder):
    """scripts/trial.py in a small repository, with a stand-in for the kit."""

    def setUp(self):
        super().setUp()
        self.repository = self.folder / "repository"
        for name in ("scripts/trial.py", "tests/socket/running.py", "crates.txt"):
            (self.repository / name).parent.mkdir(parents=True, exist_ok=True)
            shutil.copy(ROOT / name, self.repository / name)
        shutil.copytree(
            CLIENTS / "estserve_client", self.repository / "clients" / "estserve_client"
        )
        (self.repository / "crates" / "estserve" / "src").mkdir(parents=True)
        self.source = self.repository / "crates" / "estserve" / "src" / "main.rt"
        self.source.write_text("fn main() {}\n")
        self.script("bin/rt", KIT)
        self.calls = self.folder / "calls"
        self.variables = {
            **os.environ,
            "PATH": f"{self.folder}/bin:{os.environ['PATH']}",
            "CALLS": str(self.calls),
            "ESTSERVE": "",
            "PROGRAM": str(self.script("built/program", PROGRAM)),
            "SLOW": "",
        }

    def trial(self, *words, **more):
        words = [sys.executable, "-B", str(self.repository / "scripts" / "trial.py"), *words]
        return subprocess.Popen(
            words,
            stdout=subprocess.PIPE,
            stderr=subprocess.PIPE,
            text=True,
            env={**self.variables, **more},
        )

    def built(self):
        """How often the program was built since this was asked last."""
        calls = self.calls.read_text().split() if self.calls.exists() else []
        self.calls.unlink(missing_ok=True)
        return calls.count("try")

    def test_it_is_built_once_while_no_source_changes(self):
        for change, builds in [(None, 1), (None, 0), ("fn main() { }\n", 1), ("fn main() {}\n", 0)]:
            if change:
                self.source.write_text(change)
            trial = self.trial("sh", "-c", '"$ESTSERVE" script; exit 3')
            printed, told = trial.communicate(timeout=60)
            self.assertEqual((trial.returncode, printed), (3, "the program: script\n"), told)
            self.assertEqual(self.built(), builds)
            self.assertEqual("WITHOUT proof" in told, builds > 0)
        path = self.trial("--path").communicate(timeout=60)[0].strip()
        self.assertTrue(path.startswith(str(self.repository / "out" / "trial")))
        shutil.copy(ROOT / "README.md", self.repository / "crates.txt")
        self.trial("--path").communicate(timeout=60)
        self.assertEqual(self.built(), 1)

    def test_one_that_is_named_is_taken(self):
        printed, told = self.trial("--path", ESTSERVE="/bin/true").communicate(timeout=60)
        self.assertEqual((printed, told, self.built()), ("/bin/true\n", "", 0))
        named = {"ESTSERVE": "/bin/true", "ESTLAB": "/bin/false"}
        printed, told = self.trial("--path", "estlab", **named).communicate(timeout=60)
        self.assertEqual((printed, told), ("/bin/false\n", ""))
        words = ["--lab", "sh", "-c", "echo $ESTSERVE $ESTLAB"]
        printed, told = self.trial(*words, **named).communicate(timeout=60)
        self.assertEqual((printed, told, self.built()), ("/bin/true /bin/false\n", "", 0))

    def test_an_interrupt_prints_no_traceback(self):
        trial = self.trial("--path", SLOW="1")
        self.assertIn("WITHOUT proof", trial.stderr.readline())
        end = time.monotonic() + 60
        while (
            "try" not in (self.calls.read_text() if self.calls.exists() else "")
            and time.monotonic() < end
        ):
            time.sleep(0.02)
        trial.send_signal(signal.SIGINT)
        printed, told = trial.communicate(timeout=60)
        self.assertEqual((trial.returncode, printed, told), (130, "", ""))
        self.assertEqual(list((self.repository / "out" / "trial").iterdir()), [])


if __name__ == "__main__":
    unittest.main()
