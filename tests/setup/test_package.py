"""The package: the same tree and log give the same bytes, what it says of proofs, and what lies in it."""
import json
import os
import pathlib
import shutil
import subprocess
import sys
import tempfile
import unittest

ROOT = pathlib.Path(__file__).resolve().parents[2]
sys.path.insert(0, str(ROOT / "scripts"))
import crates  # noqa: E402
import evidence  # noqa: E402

VERSION = (ROOT / "VERSION").read_text().strip()
LOGIC = "0123456789abcdef"
KIT = f"#!/bin/sh\necho kit-of-tests logic {LOGIC}\n"
PROGRAM = "#!/bin/sh\necho the program\n"
PROGRAMS = ("estserve", "estlab")
LIBRARY = "libestserve_react.a"
IDENTITY = {
    f"GIT_{who}_{what}": value
    for who in ("AUTHOR", "COMMITTER")
    for what, value in (("NAME", "tests"), ("EMAIL", "tests"), ("DATE", "1700000000 +0000"))
}
FILES = ["PROOF.json", f"estserve_{VERSION}_amd64.deb", f"estserve_{VERSION}_amd64.tar.xz"]


def log_of_all(last=None, logic=LOGIC):
    """A log of a run of `rt ci` in which all passed; of one crate and one wrong body it says nothing, as if they were kept."""
    names, edits = sorted(crates.libraries()), sorted(evidence.edits())
    lines = [f"rt: {name} proved\nlogic=proved sum={logic}" for name in names[1:]]
    lines += [f"rt: must-fail {edit}: refused, as it must be: src/lib.rt:1:1: error" for edit in edits[1:]]
    return "\n".join([*lines, last or f"{len(names) + len(edits)} passed, 0 failed"]) + "\n"


@unittest.skipUnless(shutil.which("dpkg-deb"), "dpkg-deb is not here: the package is Debian's")
class Packages(unittest.TestCase):
    @classmethod
    def setUpClass(cls):
        held = tempfile.TemporaryDirectory(prefix="estserve-")
        cls.addClassCleanup(held.cleanup)
        cls.folder = pathlib.Path(held.name)
        cls.write("bin/rt", KIT).chmod(0o755)
        cls.library = cls.made_library()
        cls.tree, cls.other = cls.copied("a"), cls.copied("in/another/place/with/a/longer/name")
        cls.log = cls.write("log", log_of_all())
        cls.ends = [cls.make("one", "--log", cls.log), cls.make("two", "--log", cls.log, tree=cls.other, umask=0o077)]
        cls.package = cls.unpacked("one")

    @classmethod
    def write(cls, name, text):
        path = cls.folder / name
        path.parent.mkdir(parents=True, exist_ok=True)
        path.write_text(text)
        return path

    @classmethod
    def copied(cls, name):
        """A copy of the files of this repository, in a commit of its own, with a program that was built after it."""
        tree = cls.folder / name
        listed = subprocess.run([*evidence.GIT, "ls-files", "-co", "--exclude-standard", "-z"], cwd=ROOT, capture_output=True, check=True)
        for file in filter(None, listed.stdout.decode().split("\0")):
            if (ROOT / file).exists():
                (tree / file).parent.mkdir(parents=True, exist_ok=True)
                shutil.copy(ROOT / file, tree / file)
        for words in (["init", "-q"], ["add", "-A"], ["commit", "-qm", "all"]):
            subprocess.run(["git", *words], cwd=tree, check=True, env={**os.environ, **IDENTITY})
        for program in PROGRAMS:
            cls.write(f"{name}/crates/{program}/out/{program}", PROGRAM).chmod(0o755)
        shutil.copy(cls.library, cls.write(f"{name}/crates/est_embed/out/{LIBRARY}", ""))
        return tree

    @classmethod
    def made_library(cls):
        """A library for C with one function, or one without any where no compiler is installed."""
        path = cls.write(LIBRARY, "!<arch>\n")
        if shutil.which("gcc"):
            source, built = cls.write("one.c", "int one(void) { return 1; }\n"), cls.folder / "one.o"
            subprocess.run(["gcc", "-c", source, "-o", built], check=True)
            path.unlink()
            subprocess.run(["ar", "rcD", path, built], check=True)
        return path

    @classmethod
    def make(cls, to, *words, tree=None, umask=0o022):
        """Makes a package. The status, and what was told."""
        path = f"{cls.folder / 'bin'}:{os.environ['PATH']}"
        words = [sys.executable, "-B", (tree or cls.tree) / "scripts" / "package.py", "--to", cls.folder / to, *words]
        ran = subprocess.run(words, capture_output=True, text=True, umask=umask, env={**os.environ, "PATH": path, "ESTSERVE": ""})
        return ran.returncode, ran.stderr

    @classmethod
    def unpacked(cls, name):
        """The files of a package that was made, and its own words for dpkg."""
        folder = cls.folder / f"{name}-unpacked"
        (made,) = (cls.folder / name).glob("*.deb")
        subprocess.run(["dpkg-deb", "-R", made, folder], check=True)
        return folder

    def run_client(self, folder, *words):
        ran = subprocess.run([folder / "usr/bin/estserve-client", *words], capture_output=True, text=True, env={"PATH": os.environ["PATH"]})
        return ran.returncode, ran.stdout

    def test_two_folders_give_the_same_bytes(self):
        self.assertEqual(self.ends, [(0, "")] * 2)
        self.assertEqual(sorted(path.name for path in (self.folder / "one").iterdir()), FILES)
        for name in FILES:
            self.assertEqual((self.folder / "one" / name).read_bytes(), (self.folder / "two" / name).read_bytes(), name)

    def test_what_the_record_says(self):
        record = json.loads((self.folder / "one" / "PROOF.json").read_text())
        commit = subprocess.run(["git", "rev-parse", "HEAD"], cwd=self.tree, capture_output=True, text=True).stdout.strip()
        self.assertEqual([record[key] for key in ("version", "commit", "proved", "kit", "logic")], [VERSION, commit, True, "kit-of-tests", LOGIC])
        built = {program: evidence.digest_of(self.tree / f"crates/{program}/out/{program}") for program in PROGRAMS}
        self.assertEqual(record["programs"], built)
        self.assertEqual(record["libraries"], {LIBRARY: evidence.digest_of(self.tree / "crates/est_embed/out" / LIBRARY)})
        files = [str(path.relative_to(ROOT)) for path in evidence.inputs()]
        self.assertEqual(record["inputs"], {file: evidence.digest_of(ROOT / file) for file in files})
        self.assertLess({"HANDLES", "crates.txt", "crates/estserve/src/main.rt"}, set(files))
        self.assertFalse([file for file in files if "/out/" in file])
        count, edits = len(crates.libraries()), len(evidence.edits())
        run = {"proofs_done": count - 1, "proofs_kept": 1, "edits_done": edits - 1, "edits_kept": 1}
        run.update(last_line=f"{count + edits} passed, 0 failed", log_sha256=evidence.digest_of(self.log))
        self.assertEqual(record["rt_ci"], run)

    def test_the_client_compares_the_programs_with_the_record(self):
        folder = self.unpacked("two")
        self.assertEqual(self.run_client(folder, "--version"), (0, f"estserve-client {VERSION}\n"))
        status, told = self.run_client(folder, "proof")
        self.assertEqual(status, 0)
        for file in (*PROGRAMS, LIBRARY):
            self.assertIn(f"\n{file}: the same (SHA-256 ", told)
        self.assertIn("\nProved by kit-of-tests, of the logic 0123456789abcdef", told)
        self.assertIn("What it doesn't show: ", told)
        (folder / "usr/bin/estserve").write_text("#!/bin/sh\n")
        status, told = self.run_client(folder, "proof")
        self.assertEqual(status, 1)
        self.assertIn("\nestserve: ANOTHER FILE (", told)
        (folder / "usr/lib" / LIBRARY).unlink()
        self.assertIn(f"\n{LIBRARY}: not there (", self.run_client(folder, "proof")[1])

    def test_without_a_log_it_is_named_unproved_and_says_so(self):
        self.assertEqual(self.make("unproved"), (0, ""))
        self.assertTrue((self.folder / "unproved" / f"estserve-unproved_{VERSION}_amd64.deb").exists())
        folder = self.unpacked("unproved")
        self.assertEqual(self.run_client(folder, "--version"), (0, f"estserve-client {VERSION}-unproved\n"))
        status, told = self.run_client(folder, "proof")
        self.assertEqual(status, 1)
        self.assertIn("\nNOT PROVED: ", told)
        self.assertNotIn("Its behaviour is proved.", (folder / "DEBIAN/control").read_text())

    def test_what_debian_reads_of_it(self):
        folder = self.package
        control = (folder / "DEBIAN" / "control").read_text()
        for line in ("Package: estserve", f"Version: {VERSION}", "Depends: libc6 (>= 2.34), python3", "Recommends: python3-aiohttp"):
            self.assertIn(f"\n{line}\n", f"\n{control}")
        times = {path.lstat().st_mtime for path in folder.rglob("*") if path.is_file() and path.parent.name != "DEBIAN"}
        self.assertEqual(times, {1_700_000_000.0})
        for name in (
            "usr/bin/estserve-client", "usr/bin/estlab", "usr/lib/python3/dist-packages/estserve_team/page/index.html",
            "usr/lib/systemd/system/estserve-team@.service", "usr/lib/systemd/system/estserve-page@.service", "usr/lib/sysusers.d/estserve.conf", "usr/lib/tmpfiles.d/estserve.conf",
            "usr/share/man/man1/estserve.1.gz", "usr/share/man/man1/estlab.1.gz", "usr/share/man/man1/estserve-client.1.gz", "usr/share/man/man1/estserve-team.1.gz",
            "usr/share/bash-completion/completions/estserve-client", "usr/share/estserve/examples/abro/abro.strl",
            "usr/share/estserve/editors/vscode/package.json", "usr/share/estserve/editors/estserve.vsix",
            *(f"usr/share/vim/vimfiles/{path.relative_to(ROOT / 'editors' / 'vim')}" for path in (ROOT / "editors" / "vim").glob("*/*.vim")),
            f"usr/lib/{LIBRARY}", "usr/include/estserve_react.h", "usr/lib/pkgconfig/estserve_react.pc",
        ):  # fmt: skip
            self.assertTrue((folder / name).exists(), name)

    @unittest.skipUnless(shutil.which("lintian") and shutil.which("gcc"), "lintian or gcc is not installed: scripts/install_debian.sh installs lintian")
    def test_lintian_finds_no_error(self):
        words = ["lintian", "--allow-root", "--fail-on", "error", *(self.folder / "one").glob("*.deb")]
        ran = subprocess.run(words, capture_output=True, text=True)
        self.assertEqual(ran.returncode, 0, ran.stdout + ran.stderr)

    def refused(self, log, tree=None):
        status, told = self.make("refused", "--log", self.write("other-log", log), tree=tree)
        self.assertEqual((status, (self.folder / "refused").exists()), (1, False))
        return told

    def test_a_log_that_says_something_else_is_refused(self):
        for last in ("200 passed, 1 failed", "killed"):
            self.assertIn("and not as `rt ci` does where all has passed", self.refused(log_of_all(last)))
        self.assertIn("is of another tree: ", self.refused(log_of_all("3 passed, 0 failed")))
        self.assertIn("it names ffffffffffffffff", self.refused(log_of_all(logic="f" * 16)))
        self.assertIn("it names nowhere", self.refused("rt: nowhere proved\n" + log_of_all()))

    def test_a_wrong_body_that_the_kit_kept_is_not_told_as_done(self):
        *lines, last = log_of_all().splitlines()
        count = len(evidence.edits())
        done = f"done in this run: 2 of the 60 proofs (of crates and of their tests) and 3 of the {count} must-fail edits"
        lines.append(f"rt: ok; handles allowed: Net; must-fail edits: {count} refused; {done}; the others are kept from earlier runs")
        said = evidence.read_log(self.write("kept-log", "\n".join([*lines, last]) + "\n"), LOGIC)
        self.assertEqual((said["edits_done"], said["edits_kept"]), (3, count - 3))

    def test_a_program_that_is_not_of_the_commit_is_refused(self):
        tree = self.other
        program = tree / "crates/estserve/out/estserve"
        os.utime(program, (1_700_000_000, 1_700_000_000))
        self.assertIn("make build builds it anew", self.refused(log_of_all(), tree))
        os.utime(program)
        with (tree / "README.md").open("a") as file:
            file.write("changed\n")
        self.assertIn("there are changes that no commit has", self.refused(log_of_all(), tree))
        program.unlink()
        self.assertIn("make build proves and builds it", self.refused(log_of_all(), tree))
        self.write("in/another/place/with/a/longer/name/crates/estserve/out/estserve", PROGRAM)
        (tree / "crates/est_embed/out" / LIBRARY).unlink()
        self.assertIn("make library proves and builds it", self.refused(log_of_all(), tree))


if __name__ == "__main__":
    unittest.main()
