"""The image of the gateway: buildah builds it and starts its words, podman runs it with a volume. Run by `make container` alone."""
import contextlib
import json
import os
import pathlib
import shutil
import signal
import subprocess
import tempfile
import time
import unittest

from test_bare import ROOT, package_file

IMAGE = "localhost/estserve-test"
STATE = "/var/lib/estserve/main"
BUILD_SECONDS = 900
WAIT_SECONDS = 60


def run(*words, **more):
    return subprocess.run(words, capture_output=True, text=True, stdin=subprocess.DEVNULL, timeout=BUILD_SECONDS, **more)


def wait_for(what):
    """Waits until `what` holds. Answers whether it does."""
    end = time.monotonic() + WAIT_SECONDS
    while time.monotonic() < end:
        if what():
            return True
        time.sleep(0.2)
    return False


def end_below(process, word):
    """Tells those processes to end that this one has started, at whatever depth, and that have this word. (buildah hands no signal on.)"""
    parents = {}
    for folder in pathlib.Path("/proc").glob("[0-9]*"):
        with contextlib.suppress(OSError):
            parents[int(folder.name)] = int((folder / "stat").read_text().rpartition(")")[2].split()[1])
    below = [process]
    for above in below:
        below += [child for child, parent in parents.items() if parent == above]
    for child in below[1:]:
        with contextlib.suppress(OSError):
            words = pathlib.Path(f"/proc/{child}/cmdline").read_bytes().split(b"\0")
            if word in words and b"buildah" not in words[0]:
                os.kill(child, signal.SIGTERM)


def runs_containers():
    """Whether podman can run a container of the image here."""
    return run("podman", "run", "--rm", "--entrypoint", "/bin/true", IMAGE).returncode == 0


@unittest.skipUnless(shutil.which("buildah") and shutil.which("mmdebstrap"), "buildah or mmdebstrap is not installed")
class Images(unittest.TestCase):
    @classmethod
    def setUpClass(cls):
        with tempfile.TemporaryDirectory(prefix="estserve-") as folder:
            package = package_file(pathlib.Path(folder))
            built = run(ROOT / "packaging" / "container", package, IMAGE)
        if built.returncode:
            raise AssertionError(built.stderr)
        cls.addClassCleanup(run, "buildah", "rmi", "--force", IMAGE)
        told = json.loads(run("buildah", "inspect", "--type", "image", IMAGE).stdout)
        cls.words = told["Docker"]["config"]["Entrypoint"]
        cls.health = told["Docker"]["config"]["Healthcheck"]["Test"][1:]
        cls.told = told["Docker"]["config"]

    def test_what_the_image_says(self):
        self.assertEqual(self.words[-2:], ["--state", STATE])
        self.assertEqual(list(self.told["Volumes"]), [STATE])
        self.assertEqual(self.told["User"], "estserve-main")

    def test_the_gateway_starts_is_healthy_and_serves_a_login(self):
        working = run("buildah", "from", IMAGE).stdout.strip()
        inside = ["buildah", "run", "--isolation", "chroot", "--user", "estserve-main", working, "--"]
        try:
            self.assertNotEqual(run(*inside, *self.health).returncode, 0)
            gateway = subprocess.Popen([*inside, *self.words], stdout=subprocess.PIPE, stderr=subprocess.STDOUT, text=True)
            try:
                self.assertEqual(gateway.stdout.readline(), f"ready: {STATE}/team.sock\n")
                healthy = run(*inside, *self.health)
                self.assertEqual(healthy.returncode, 0, healthy.stderr)
                shell = run(*inside, "estserve-client", "shell", "--socket", f"{STATE}/team.sock")
                self.assertIn("session 1 of root", shell.stdout, shell.stderr)
            finally:
                end_below(gateway.pid, b"team")
                gateway.communicate(timeout=WAIT_SECONDS)
        finally:
            run("buildah", "rm", working)

    def test_podman_runs_it_and_a_volume_keeps_the_record(self):
        if not (shutil.which("podman") and runs_containers()):
            self.skipTest("podman runs no container here")
        name, volume = f"estserve-{os.getpid()}", f"estserve-{os.getpid()}"
        try:
            for session in (1, 2):
                started = run("podman", "run", "--detach", "--name", name, "--volume", f"{volume}:{STATE}", IMAGE)
                self.assertEqual(started.returncode, 0, started.stderr)
                self.assertTrue(wait_for(lambda: run("podman", "healthcheck", "run", name).returncode == 0))
                shell = run("podman", "exec", name, "estserve-client", "shell", "--socket", f"{STATE}/team.sock")
                self.assertIn(f"session {session} of root", shell.stdout, shell.stderr)
                self.assertEqual(run("podman", "stop", "--time", str(WAIT_SECONDS), name).returncode, 0)
                self.assertEqual(run("podman", "rm", name).returncode, 0)
        finally:
            run("podman", "rm", "--force", name)
            run("podman", "volume", "rm", "--force", volume)


if __name__ == "__main__":
    unittest.main()
