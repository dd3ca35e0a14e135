"""The disk is full, no descriptor is left, nobody reads standard error, the record is locked, the
system refuses to fork: each at each moment of a command.

What was answered is in the record afterwards, the numbers have no hole, nothing was carried out
twice, and the gateway serves again or has ended with a fault.
"""
import concurrent.futures
import contextlib
import ctypes
import json
import os
import pathlib
import signal
import subprocess
import sys
import tempfile
import time
import unittest

import faulty
import teams
from teams import Team, line_of, login_line
from estserve_client.connection import Disconnected
from estserve_team.fault_points import MOMENTS
from estserve_team.log import Log
from estserve_team.replay import Talker
from estserve_team.server import Lost

FAULTS = ("full_disk", "no_descriptors", "closed_stderr", "locked_record", "no_forks")
BYTES = 16 << 20  # of the file system that is filled
STEPS = 12
NEW_MOUNTS, PRIVATE = 0x00020000, 0x44000  # of Linux, the second with all that lies below
BESIDE = 3  # gateways that run beside each other
END_SECONDS = 30  # several times what the watchdog leaves; loaded machines are slow
STEP = line_of(cmd="step", slot=0)
MODULE = "module M: output O; loop emit O; pause end end module"
SETUP = [
    login_line(),
    line_of(cmd="grant", object="0", op="load", role="root"),
    line_of(cmd="grant", object="0", op="step", role="root"),
    line_of(cmd="load", main="M", slot=0, text=MODULE),
]


def setUpModule():
    """Has what is mounted here go away with this process, however it ends."""
    library = ctypes.CDLL(None)
    if os.geteuid() == 0 and library.unshare(NEW_MOUNTS) == 0:
        library.mount(None, b"/", None, PRIVATE, None)


def mount(folder):
    """Mounts a small file system in memory at a folder. Answers whether that can be done."""
    options = f"size={BYTES}".encode()
    library = ctypes.CDLL(None, use_errno=True)
    return library.mount(b"tmpfs", os.fsencode(folder), b"tmpfs", 0, options) == 0


def unmount(folder):
    ctypes.CDLL(None).umount2(os.fsencode(folder), 2)


@contextlib.contextmanager
def small_disk():
    """A folder on a file system of its own, which can be filled. None where it can't be mounted."""
    with tempfile.TemporaryDirectory(prefix="gateway-") as folder:
        if not mount(folder):
            yield None
            return
        try:
            yield pathlib.Path(folder)
        finally:
            unmount(folder)


class FaultyTeam(Team):
    """A gateway that has something fail, with its log on the disk of its folder."""

    def __init__(self, fault, moment, folder):
        super().__init__(state=folder / "team")
        self.words, self.folder = [fault, moment], folder

    def command(self):
        words = super().command()
        script = pathlib.Path(__file__).with_name("faulty.py")
        return [*words[:2], str(script), *self.words, *words[3:]]

    def start(self):
        with open(self.folder / "told", "ab") as told:
            self.process = subprocess.Popen(
                self.command(),
                stdin=subprocess.DEVNULL,
                stdout=subprocess.PIPE,
                stderr=told,
                text=True,
            )
        self._told = self.process.stdout
        for line in self.process.stdout:
            if line.startswith("ready: "):
                return
        raise AssertionError(f"{self.process.wait()}: {(self.folder / 'told').read_text()}")


class Seen:
    """What one client has sent and was answered, while something failed."""

    def __init__(self):
        self.sent = 0
        self.told = []

    def step(self, talker, times):
        """Steps, one at a time. Raises Failed where an answer is missing."""
        for _ in range(times):
            self.sent += 1
            answer = talker.ask(STEP)
            if b'"ok":"step"' not in answer:
                self.sent -= 1
                return
            self.told.append(answer)


def is_back(team, seconds):
    """Whether the gateway serves again within this time; None where it has ended."""
    end = time.monotonic() + seconds
    while time.monotonic() < end:
        if team.process.poll() is not None:
            return None
        try:
            with Talker(team.path) as talker:
                talker._socket.settimeout(2)
                if b'"ok":"login"' in talker.ask(login_line()):
                    return True
        except Exception:  # it takes no connection, or doesn't answer yet
            time.sleep(0.05)
    return False


class Failures(unittest.TestCase):
    """Every fault at every moment."""

    def one(self, fault, moment):
        """One gateway with one fault at one moment. Answers how it went on."""
        with small_disk() as folder:
            if folder is None:
                return "skipped"
            seen, team = Seen(), FaultyTeam(fault, moment, folder)
            with team:
                self.go_on(team, seen)
                how = self.after(team, folder)
                team.process.kill()
                team.wait()
            self.judge(folder / "team", seen, (fault, moment))
            return how

    def go_on(self, team, seen):
        """Steps before the fault and in it, as far as that goes."""
        with contextlib.suppress(Lost), team.talker() as talker:
            talker.ask_all(SETUP)
            seen.step(talker, STEPS)
            team.process.send_signal(signal.SIGUSR1)
            talker._socket.settimeout(END_SECONDS)
            seen.step(talker, STEPS)

    def after(self, team, folder):
        """Sees that the gateway serves on, or has ended with a fault, once the cause is gone."""
        try:
            status = team.process.wait(0.8)
        except subprocess.TimeoutExpired:
            status = None
        (folder / faulty.FILLER).unlink(missing_ok=True)
        if status is None:
            team.process.send_signal(signal.SIGUSR2)
        if status is None and is_back(team, END_SECONDS):
            return "on"
        status = team.process.wait(END_SECONDS)
        self.assertIn(status, (1, -signal.SIGALRM))
        return "ended"

    def judge(self, state, seen, what):
        """Starts a gateway on the record without a fault, and holds it against what was seen."""
        with Team(state=state) as team:
            entries = team.entries()
            steps = [entry.reply for entry in entries if entry.command == "step"]
            self.assertEqual(steps[: len(seen.told)], seen.told, what)
            self.assertLessEqual(len(steps), seen.sent, what)
            numbers = [entry.number for entry in entries]
            self.assertEqual(numbers, list(range(1, len(entries) + 1)), what)
            with team.talker() as talker:
                talker.ask(login_line())
                instant = json.loads(talker.ask(STEP))["instant"]
                self.assertEqual(instant, len(steps) + 1, what)

    @unittest.skipUnless(os.geteuid() == 0, "only root can mount a file system that is then filled")
    def test_each_fault_at_each_moment(self):
        with concurrent.futures.ThreadPoolExecutor(BESIDE) as pool:
            asked = {
                pool.submit(self.one, fault, moment): (fault, moment)
                for fault in FAULTS
                for moment in MOMENTS
            }
            told = {}
            for done in concurrent.futures.as_completed(asked):
                told[asked[done]] = done.result()
        if "skipped" in told.values():
            self.skipTest("no file system can be mounted here")
        print(
            ", ".join(
                f"{fault}: {sum(told[fault, at] == 'on' for at in MOMENTS)} went on, "
                f"{sum(told[fault, at] == 'ended' for at in MOMENTS)} ended"
                for fault in FAULTS
            )
        )


class Archived(unittest.TestCase):
    """An archive on a disk that has little or no room: the old record goes on, or the new one."""

    @unittest.skipUnless(os.geteuid() == 0, "only root can mount a file system that is then filled")
    def test_an_archive_without_room_leaves_a_record_that_is_proven(self):
        for pages in (0, 30):
            with self.subTest(pages), small_disk() as folder:
                if folder is None:
                    self.skipTest("no file system can be mounted here")
                with Team(state=folder / "team") as team:
                    self.archive_with(team, folder, pages)
                with Team(state=folder / "team") as again, again.root() as client:
                    self.assertEqual(client.addrole("again")["ok"], "addrole")
                    self.assertEqual(again.end(), 0)

    def archive_with(self, team, folder, pages):
        """Asks for an archive while the disk has so many pages left."""
        with team.root() as client:
            client.grant("root", "load", "0")
            for at in range(20):
                client.addrole(f"role{at}")
        with team.words() as words:
            words.word("login", user="root", roles=["root"])
            fill(folder / faulty.FILLER, pages)
            with contextlib.suppress(Lost):
                self.assertTrue({"ok", "code"}.intersection(words.word("archive")))
        (folder / faulty.FILLER).unlink()
        if is_back(team, END_SECONDS):
            self.assertEqual(team.end(), 0)
        else:
            self.assertEqual(team.wait(), 1)


def fill(path, pages):
    """Fills the disk on which a file lies, up to so many pages."""
    with open(path, "ab", buffering=0) as file:
        with contextlib.suppress(OSError):
            while file.write(b"x" * 4_096) == 4_096:
                pass
        file.truncate(max(0, file.tell() - pages * 4_096))


class Told(unittest.TestCase):
    """The log never raises and never waits."""

    def test_a_pipe_that_nobody_reads_holds_up_nobody_and_what_is_dropped_is_told(self):
        reader, writer = os.pipe()
        log = Log(writer)
        for at in range(90):
            log("x" * 1_000, str(at))
        self.assertGreater(log.dropped, 0)
        dropped = log.dropped
        lines = os.read(reader, 1 << 20).splitlines()
        log("one more", "last")
        self.assertEqual(json.loads(os.read(reader, 1 << 16))["dropped"], dropped)
        self.assertEqual(len(lines) + dropped, 90)
        os.close(reader)
        log("nobody reads", "last")
        self.assertEqual(log.dropped, 1)
        log.close()
        os.close(writer)
        log("closed", "last")

    def test_of_one_kind_a_hundred_lines_in_ten_seconds(self):
        reader, writer = os.pipe()
        now = [0.0]
        log = Log(writer, lambda: now[0])
        for _ in range(150):
            log("the same", "one")
        log("another", "two")
        lines = [json.loads(line) for line in os.read(reader, 1 << 20).splitlines()]
        self.assertEqual([line["kind"] for line in lines], ["one"] * 100 + ["two"])
        self.assertEqual(lines[-1]["dropped"], 50)
        now[0] = 10.0
        log("the same", "one")
        self.assertEqual(json.loads(os.read(reader, 1 << 16))["text"], "the same")
        for descriptor in (reader, writer):
            os.close(descriptor)
        log.close()

    def test_a_start_without_standard_error_serves(self):
        with tempfile.TemporaryDirectory(prefix="gateway-") as folder:
            team = Team(state=pathlib.Path(folder) / "team")
            command = ["sh", "-c", 'exec "$@" 2>&-', "sh", *team.command()]
            process = team.process = subprocess.Popen(
                command, stdin=subprocess.DEVNULL, stdout=subprocess.PIPE, text=True
            )
            self.assertTrue(process.stdout.readline().startswith("ready: "))
            with team.root() as client:
                server = team.server()
                os.kill(server, signal.SIGKILL)
                with self.assertRaises(Disconnected):
                    for _ in range(2):
                        client.check("step", "0")
            with team.root() as client:
                self.assertEqual(client.addrole("one")["ok"], "addrole")
            process.terminate()
            self.assertEqual(process.wait(teams.WAIT_SECONDS), 0)
            process.stdout.close()
            team._held.cleanup()


class Watched(unittest.TestCase):
    def test_a_loop_that_stands_still_after_a_fault_is_ended_with_status_1(self):
        """The process holds Python's lock, so that no thread of Python can do it."""
        text = (
            "import sys; sys.path.insert(0, sys.argv[1])\n"
            "from estserve_team.watchdog import Watchdog\n"
            "dog = Watchdog(); dog.beat(); dog.hurry()\n"
            "import re; re.match(r'(a+)+b', 'a' * 60)\n"
        )
        began = time.monotonic()
        words = [sys.executable, "-c", text, str(teams.ROOT / "gateway")]
        self.assertEqual(subprocess.run(words, timeout=END_SECONDS).returncode, 1)
        self.assertGreater(time.monotonic() - began, 4)


if __name__ == "__main__":
    unittest.main()
