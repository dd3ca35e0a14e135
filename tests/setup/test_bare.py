"""The package on a bare Debian, which mmdebstrap makes: it is installed by apt, used and removed."""
import os
import pathlib
import re
import shutil
import subprocess
import sys
import tempfile
import unittest

ROOT = pathlib.Path(__file__).resolve().parents[2]
HERE = pathlib.Path(__file__).resolve().parent
VERSION = (ROOT / "VERSION").read_text().strip()
SUITE = "bookworm"
INCLUDED = "python3,python3-aiohttp,systemd"  # so that what is left after the removal is of the package alone
MAKE_SECONDS = 600
NETWORK = ["--aptopt=Acquire::http::Timeout \"20\"", "--aptopt=Acquire::Retries \"1\""]  # so that without one the test is skipped soon
PASSED_ON = ("PATH", "http_proxy", "https_proxy", "no_proxy")
STATE = re.compile(r"/var/lib/estserve(/.*)?")
# what apt, dpkg and the tools for users keep, whatever is installed
KEPT = re.compile(r"/var/(log|cache|lib/(apt|dpkg|systemd))/.*|/etc/(passwd|group|shadow|gshadow|subuid|subgid)-|/etc/\.pwd\.lock")


def package_file(folder):
    """The package: the one that the variable PACKAGE names, or one that is made in this folder."""
    if os.environ.get("PACKAGE"):
        return pathlib.Path(os.environ["PACKAGE"])
    words = [sys.executable, "-B", ROOT / "scripts" / "package.py", "--to", folder]
    if os.environ.get("ESTSERVE"):
        sys.path.insert(0, str(ROOT / "tests" / "socket"))
        import running

        words += ["--program", running.words_of(os.environ["ESTSERVE"])[-1]]
        if os.environ.get("ESTLAB"):
            words += ["--lab", running.words_of(os.environ["ESTLAB"])[-1]]
    made = subprocess.run(words, stdout=subprocess.PIPE, text=True, check=True)
    return pathlib.Path(made.stdout.strip())


@unittest.skipUnless(shutil.which("mmdebstrap"), "mmdebstrap is not installed: scripts/install_debian.sh installs it")
class Bare(unittest.TestCase):
    @classmethod
    def setUpClass(cls):
        held = tempfile.TemporaryDirectory(prefix="estserve-")
        cls.addClassCleanup(held.cleanup)
        cls.folder = pathlib.Path(held.name)
        package = package_file(cls.folder)
        cls.is_proved = package.name.startswith("estserve_")
        hooks = [
            f"upload {package} /root/package.deb",
            f"upload {HERE / 'bare.sh'} /root/bare.sh",
            'chroot "$1" sh /root/bare.sh',
            f"copy-out /root/told {cls.folder}",
        ]
        words = ["mmdebstrap", "--quiet", "--variant=minbase", f"--include={INCLUDED}", "--format=null"]
        words += [f"--customize-hook={hook}" for hook in hooks]
        variables = {name: os.environ[name] for name in PASSED_ON if name in os.environ}  # those of the tests aren't there
        made = subprocess.run([*words, *NETWORK, SUITE, "/dev/null"], capture_output=True, text=True, env={**variables, "HOME": str(cls.folder)}, timeout=MAKE_SECONDS)
        if not (cls.folder / "told" / "before").exists():
            raise unittest.SkipTest(f"mmdebstrap made no Debian here: {made.stderr.strip()[-300:]}")

    def told(self, step, status=0):
        """What a step told. Fails where it ended otherwise than with this status."""
        text = (self.folder / "told" / step).read_text()
        self.assertEqual((self.folder / "told" / f"{step}.status").read_text(), f"{status}\n", text)
        return text

    def test_apt_installs_it_and_the_versions_are_told(self):
        self.assertNotIn("rror", self.told("install"))
        self.assertEqual(self.told("program_version", 2), f"estserve {VERSION}\n")
        suffix = "" if self.is_proved else "-unproved"
        self.assertEqual(self.told("client_version"), f"estserve-client {VERSION}{suffix}\n")
        self.assertEqual(self.told("import"), f"{VERSION}\n")

    def test_the_installed_program_is_the_one_of_the_record(self):
        told = self.told("proof", 0 if self.is_proved else 1)
        self.assertIn("\nestserve: the same (SHA-256 ", told)
        self.assertIn("\nProved by " if self.is_proved else "\nNOT PROVED", told)

    def test_the_client_draws_abro(self):
        self.assertEqual(self.told("abro"), (ROOT / "examples" / "abro" / "abro.wave").read_text())

    def test_estlab_proves_claims(self):
        if self.told("lab") == "none\n":
            self.skipTest("estlab is not in the package")
        self.assertRegex(self.told("prove"), r"holds in every run: \d+ states, \d+ reactions")

    def test_the_gateway_serves_a_login_and_the_page(self):
        told = self.told("login")
        self.assertIn("session 1 of root", told)
        self.assertIn("\npage 200\n", told)
        self.assertIn("\npage's process 0\n", told)
        self.assertIn("\ngateway 0\n", told)

    def test_systemd_finds_nothing_wrong_with_the_units(self):
        self.assertEqual(self.told("units"), "")

    def test_removal_leaves_nothing_but_state(self):
        self.told("remove")
        before, after = (set(self.told(step).splitlines()) for step in ("before", "after"))
        left = {path for path in after - before if not KEPT.fullmatch(path)}
        self.assertIn("/var/lib/estserve/main/private/record.sqlite", left)
        self.assertEqual({path for path in left if not STATE.fullmatch(path)}, set())


if __name__ == "__main__":
    unittest.main()
