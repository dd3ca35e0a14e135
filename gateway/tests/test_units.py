"""The systemd units. Many teams on one machine: the command line of the gateway's unit is started
for each, and what an idle one takes is measured. The words of the server's unit are run too, and
systemd-analyze reads both units, where it is installed.

The variable GATEWAY_TEAMS says how many teams. This tests the units' words, and not systemd.
"""
import os
import pathlib
import re
import shlex
import shutil
import signal
import socket
import stat
import statistics
import subprocess
import sys
import tempfile
import time
import unittest

import teams
import visitors

TEAMS = int(os.environ.get("GATEWAY_TEAMS", "8"))
AT_ONCE = 4  # are started beside each other
PACKAGING = teams.ROOT / "packaging"
UNIT = PACKAGING / "estserve-team@.service"
PAGE_UNIT = PACKAGING / "estserve-page@.service"
SERVER_UNIT = PACKAGING / "estserve@.service"
CLIENT = f"{sys.executable} {teams.ROOT / 'clients' / 'estserve.py'}"


def setting(name, unit=UNIT):
    """A setting of a unit."""
    return re.search(rf"^{name}=(.*)$", unit.read_text(), re.MULTILINE).group(1)


def installed_here(text):
    """A text of a unit, with the paths of this machine."""
    text = text.replace("/usr/bin/estserve-client", CLIENT).replace("estserve-page-%i", teams.ME)
    return text.replace("/usr/bin/estserve ", f"{teams.program_file()} ")


def words_of(state):
    """The gateway's command line for one team, and no further words."""
    line = setting("ExecStart").replace("${STATE_DIRECTORY}", str(state)).replace("$TEAM_WORDS", "")
    return shlex.split(installed_here(line))


def memory_of(process):
    """The kilobytes that a process has for itself, where it shares a page its part of it."""
    rollup = pathlib.Path(f"/proc/{process}/smaps_rollup").read_text()
    return int(re.search(r"^Pss:\s+(\d+)", rollup, re.MULTILINE).group(1))


class Started:
    """One team's gateway, as the unit starts it."""

    def __init__(self, folder, number):
        self.state = folder / f"team{number}"
        self.began = time.monotonic()
        self.process = subprocess.Popen(
            words_of(self.state), stdout=subprocess.PIPE, stderr=subprocess.PIPE, text=True
        )

    def wait(self):
        """Waits until clients may come, and notes the seconds that it took."""
        line = self.process.stdout.readline()
        if not line.startswith("ready: "):
            raise AssertionError(f"{line}{self.process.communicate()[1]}")
        self.seconds = time.monotonic() - self.began

    def kilobytes(self):
        """The memory of the gateway, the server and the second child."""
        return [
            memory_of(process) for process in [self.process.pid, *teams.processes_of(self.state)]
        ]

    def ping(self):
        """What the gateway answers to `ping`."""
        with teams.WordTalker(self.state / "gateway.sock") as words:
            return words.word("ping")

    def end(self):
        """Ends it, as the unit does. Its status, and what it told."""
        self.process.send_signal(signal.SIGTERM)
        told = self.process.communicate(timeout=teams.WAIT_SECONDS)[1]
        return self.process.returncode, told


class ManyTeams(unittest.TestCase):
    def test_the_units_command_line_serves_each_team(self):
        started = []
        with tempfile.TemporaryDirectory(prefix="gateway-") as folder:
            try:
                for first in range(0, TEAMS, AT_ONCE):
                    part = [
                        Started(pathlib.Path(folder), at)
                        for at in range(first, min(first + AT_ONCE, TEAMS))
                    ]
                    started += part
                    for one in part:
                        one.wait()
                pings = [one.ping() for one in started]
                self.assertEqual(
                    [ping["team"] for ping in pings], [f"team{at}" for at in range(TEAMS)]
                )
                memory = [one.kilobytes() for one in started]
                self.assertEqual({len(one) for one in memory}, {3})
                self.tell(started, memory)
            finally:
                ended = [one.end() for one in started]
            self.assertEqual(ended, [(0, "")] * TEAMS)

    def tell(self, started, memory):
        """Prints what an idle team takes."""
        parts = [statistics.mean(part) / 1024 for part in zip(*memory)]
        seconds = statistics.median(one.seconds for one in started)
        print(
            f"{TEAMS} idle teams: {sum(parts):.1f} MiB each "
            f"({parts[0]:.1f} the gateway, {parts[1]:.1f} and {parts[2]:.1f} its "
            f"children); ready after {seconds:.2f} s, {AT_ONCE} at a time"
        )

    @unittest.skipUnless(visitors.HAS_AIOHTTP, visitors.NO_AIOHTTP)
    def test_the_pages_command_line_serves_a_team(self):
        with tempfile.TemporaryDirectory(prefix="gateway-") as folder:
            team = Started(pathlib.Path(folder), 1)
            line = setting("ExecStart", PAGE_UNIT).replace("$PAGE_WORDS", "--http 127.0.0.1:0")
            line = line.replace("/var/lib/estserve/%i", str(team.state))
            page = subprocess.Popen(
                shlex.split(installed_here(line)), stderr=subprocess.PIPE, text=True
            )
            try:
                team.wait()
                place = re.search(r"http://([^/]+)/", page.stderr.readline()).group(1)
                visitor = visitors.Visitor(place)
                teams.wait_for(lambda: visitor.send("GET", "/health").status == 200)
            finally:
                page.terminate()
                status, ended = page.wait(teams.WAIT_SECONDS), team.end()
                page.stderr.close()
            self.assertEqual((status, ended), (0, (0, "")))

    def test_the_page_has_no_rights_and_the_gateway_no_network(self):
        self.assertEqual(setting("RestrictAddressFamilies"), "AF_UNIX")
        self.assertEqual(setting("PrivateNetwork"), "yes")
        self.assertNotEqual(setting("User"), setting("User", PAGE_UNIT))
        self.assertIn(setting("User", PAGE_UNIT), setting("ExecStart"))
        self.assertEqual(setting("CapabilityBoundingSet", PAGE_UNIT), "")
        for name in ("NoNewPrivileges", "PrivateTmp", "PrivateDevices", "ProtectHome"):
            self.assertEqual((setting(name), setting(name, PAGE_UNIT)), ("yes", "yes"), name)

    def test_the_unit_ends_it_by_sigterm_and_waits_long_enough(self):
        self.assertEqual(setting("KillMode"), "mixed")
        self.assertGreater(int(setting("TimeoutStopSec")), 60)
        self.assertEqual(setting("StateDirectoryMode"), "0750")

    def test_it_is_told_that_the_gateway_is_ready(self):
        with tempfile.TemporaryDirectory(prefix="gateway-") as folder:
            path = pathlib.Path(folder) / "notify"
            with socket.socket(socket.AF_UNIX, socket.SOCK_DGRAM) as told:
                told.bind(str(path))
                os.environ["NOTIFY_SOCKET"] = str(path)
                try:
                    with teams.Team():
                        self.assertEqual(told.recv(100), b"READY=1")
                finally:
                    del os.environ["NOTIFY_SOCKET"]


class ServerAlone(unittest.TestCase):
    """The words of the server's unit."""

    def words(self, name, folder):
        """The words of a command of the unit, where this is its runtime folder."""
        line = setting(name, SERVER_UNIT).replace("${RUNTIME_DIRECTORY}", folder)
        return shlex.split(installed_here(line))

    def test_a_stale_socket_goes_and_the_team_alone_may_connect(self):
        with tempfile.TemporaryDirectory(prefix="gateway-") as folder:
            path = pathlib.Path(folder) / "estserve.sock"
            with socket.socket(socket.AF_UNIX) as stale:
                stale.bind(str(path))
            subprocess.run(self.words("ExecStartPre", folder), check=True)
            self.assertFalse(path.exists())
            umask = int(setting("UMask", SERVER_UNIT), 8)
            server = subprocess.Popen(self.words("ExecStart", folder), umask=umask)
            try:
                teams.wait_for(lambda: teams.programs.is_listening(path, server.pid))
                self.assertEqual(stat.S_IMODE(path.stat().st_mode), 0o770)
                with teams.connect(path) as client:
                    self.assertEqual(client.login("root", ["root"])["version"], 5)
            finally:
                server.terminate()
                self.assertEqual(server.wait(teams.WAIT_SECONDS), -signal.SIGTERM)

    def test_want_of_memory_is_answered_before_the_server_is_killed(self):
        limits = [setting(name, SERVER_UNIT) for name in ("LimitAS", "MemoryMax")]
        self.assertTrue(all(limit.endswith("G") for limit in limits))
        self.assertLess(*(int(limit[:-1]) for limit in limits))


@unittest.skipUnless(shutil.which("systemd-analyze"), "systemd-analyze is not installed")
class Verified(unittest.TestCase):
    def test_systemd_finds_nothing_wrong(self):
        for unit in (UNIT, PAGE_UNIT, SERVER_UNIT):
            with self.subTest(unit.name), tempfile.TemporaryDirectory(prefix="gateway-") as folder:
                copy = pathlib.Path(folder) / unit.name.replace("@", "@blue")
                copy.write_text(installed_here(unit.read_text()))
                words = ["systemd-analyze", "verify", "--man=no", str(copy)]
                ran = subprocess.run(words, capture_output=True, text=True)
                self.assertEqual((ran.returncode, ran.stderr), (0, ""))


if __name__ == "__main__":
    unittest.main()
