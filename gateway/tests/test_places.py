"""Places, persons, children: the modes of folder and sockets, the lock, orphans, and what a login
may name."""
import contextlib
import json
import os
import pathlib
import shutil
import signal
import socket
import stat
import subprocess
import sys
import tempfile
import unittest

import teams
from teams import Team, line_of, login_line
from estserve_client.connection import Disconnected
from estserve_client.policy_file import BadPolicy
from estserve_team.people import People, read_people, peer_uid
from estserve_team.places import Failed, Places, bind_socket, start_child, start_time_of
from estserve_team.reads.client import GatewayTalk
from estserve_team.refusals import Refused

NOBODY = 65_534
AS_USER = """
import os, socket, sys
os.setgid(int(sys.argv[1])), os.setuid(int(sys.argv[2]))
connection = socket.socket(socket.AF_UNIX)
connection.connect(sys.argv[3])
try:
    connection.sendall(sys.stdin.buffer.read())
    connection.shutdown(socket.SHUT_WR)
except BrokenPipeError:
    pass  # a stranger's connection is ended at once
while True:
    more = connection.recv(65536)
    if not more:
        break
    sys.stdout.buffer.write(more)
"""


def mode_of(path):
    return stat.S_IMODE(path.stat().st_mode)


def asked_by(user, path, lines):
    """The answers that another Unix user's process gets at a socket, which its group has to be able
    to reach."""
    ran = subprocess.run(
        [sys.executable, "-c", AS_USER, str(os.getegid()), str(user), str(path)],
        input=b"".join(line + b"\n" for line in lines),
        capture_output=True,
        timeout=teams.WAIT_SECONDS,
    )
    if ran.returncode:
        raise AssertionError(ran.stderr.decode())
    return ran.stdout.splitlines()


@contextlib.contextmanager
def as_no_root():
    """Has this process be nobody for a moment, where it is root, who may open everything."""
    user = os.geteuid()
    if user == 0:
        os.seteuid(NOBODY)
    try:
        yield
    finally:
        os.seteuid(user)


class TheFolder(unittest.TestCase):
    def test_modes_and_what_is_gone_at_the_end(self):
        with Team() as team:
            for path, mode in [
                (".", 0o750),
                ("private", 0o700),
                ("team.sock", 0o660),
                ("gateway.sock", 0o660),
            ]:
                self.assertEqual(mode_of(team.state / path), mode, path)
            server = team.server()
            self.assertEqual(team.end(), 0)
            self.assertFalse(teams.is_running(server))
            self.assertEqual({path.name for path in team.state.iterdir()}, {"private"})
            self.assertFalse((team.state / "private" / "inner.sock").exists())

    def test_a_folder_that_was_wider_is_narrowed(self):
        with tempfile.TemporaryDirectory() as folder:
            state = pathlib.Path(folder) / "team"
            state.mkdir()
            state.chmod(0o777)
            with Places(state):
                self.assertEqual(mode_of(state), 0o750)

    def test_a_path_that_is_too_long_for_a_socket_is_told(self):
        with tempfile.TemporaryDirectory() as folder:
            with self.assertRaisesRegex(Failed, "too long"):
                with Places(pathlib.Path(folder) / ("x" * 100)):
                    pass

    def test_a_link_is_not_followed(self):
        with tempfile.TemporaryDirectory() as folder:
            for name in ("team", "team/private", "team/private/records"):
                with self.subTest(name):
                    root = pathlib.Path(folder) / name.replace("/", "-")
                    victim, link = root / "victim", root / name
                    victim.mkdir(parents=True)
                    victim.chmod(0o755)
                    link.parent.mkdir(mode=0o750, parents=True, exist_ok=True)
                    link.symlink_to(victim)
                    with self.assertRaises(Failed):
                        with Places(root / "team"):
                            pass
                    self.assertEqual((mode_of(victim), list(victim.iterdir())), (0o755, []))

    def test_what_stands_in_the_place_of_a_socket_and_is_none_stays(self):
        for name, make in [
            ("team.sock", lambda path: path.write_text("mine")),
            ("gateway.sock", lambda path: path.symlink_to("none")),
            ("metrics.sock", lambda path: path.mkdir()),
        ]:
            with tempfile.TemporaryDirectory() as folder, self.subTest(name):
                state = pathlib.Path(folder) / "team"
                state.mkdir()
                path = state / name
                make(path)
                before = path.lstat()
                team = Team(state=state)
                self.addCleanup(team.__exit__)
                words = team.command()
                ran = subprocess.run(words, capture_output=True, text=True, timeout=60)
                self.assertEqual(ran.returncode, 1)
                self.assertIn(f"{path} is no socket, and is kept: move it away", ran.stderr)
                self.assertNotIn("Traceback", ran.stderr)
                after = path.lstat()
                self.assertEqual((after.st_ino, after.st_mode), (before.st_ino, before.st_mode))
                if path.is_file():
                    self.assertEqual(path.read_text(), "mine")

    def test_a_socket_that_was_left_is_taken_away(self):
        with tempfile.TemporaryDirectory() as folder:
            path = pathlib.Path(folder) / "team.sock"
            for _ in range(2):  # the second finds what the first has left
                bind_socket(path).close()
                self.assertTrue(path.is_socket())

    def test_one_who_is_not_in_its_group_is_told_so(self):
        with tempfile.TemporaryDirectory() as folder, socket.socket(socket.AF_UNIX) as listening:
            os.chmod(folder, 0o711)
            state = pathlib.Path(folder) / "team"
            state.mkdir(mode=0o755)
            listening.bind(str(state / "gateway.sock"))
            listening.listen()
            for path in (state / "gateway.sock", state):
                path.chmod(0)
                with as_no_root(), self.assertRaises(Disconnected) as held:
                    GatewayTalk(state)
                told = f"{state}/gateway.sock may not be opened: .* for the folder's group"
                self.assertRegex(str(held.exception), told)


class TheLock(unittest.TestCase):
    @unittest.skipUnless(os.geteuid() == 0, "only root is in every group")
    def test_a_second_start_that_is_refused_changes_nothing(self):
        with Team() as team:
            before = [(path.stat().st_gid, mode_of(path)) for path in team.state.rglob("*")]
            team.state.chmod(0o700)
            words = [*team.command(), "--group", "nogroup"]
            ran = subprocess.run(words, capture_output=True, text=True, timeout=60)
            self.assertIn("another gateway runs", ran.stderr)
            self.assertEqual((team.state.stat().st_gid, mode_of(team.state)), (os.getegid(), 0o700))
            after = [(path.stat().st_gid, mode_of(path)) for path in team.state.rglob("*")]
            self.assertEqual(after, before)

    def test_no_file_can_be_deleted_to_start_a_team_twice(self):
        with tempfile.TemporaryDirectory() as folder:
            state = pathlib.Path(folder) / "team"
            with Places(state) as places:
                for path in [path for path in places.private.rglob("*") if path.is_file()]:
                    path.unlink()
                with self.assertRaisesRegex(Failed, "^another gateway runs on "):
                    with Places(state):
                        pass
            with Places(state):
                self.assertFalse((state / "private" / "lock").exists())

    def test_a_second_gateway_is_refused_and_the_first_goes_on(self):
        with Team() as team:
            ran = subprocess.run(
                team.command(), capture_output=True, text=True, timeout=teams.WAIT_SECONDS
            )
            self.assertEqual(ran.returncode, 1)
            self.assertIn("another gateway runs", ran.stderr)
            with team.root() as client:
                self.assertEqual(client.addrole("driver")["version"], 6)


class Children(unittest.TestCase):
    def test_they_die_with_the_gateway(self):
        with Team() as team:
            children = teams.processes_of(team.state)
            self.assertEqual(len(children), 2)
            team.end(signal.SIGKILL)
            teams.wait_for(lambda: not any(map(teams.is_running, children)))

    def test_a_copy_of_the_folder_leaves_the_children_of_the_first_alone(self):
        with Team() as team, team.root() as client:
            server = team.server()
            copy = team.state.with_name("copy")
            shutil.copytree(team.state, copy, ignore=shutil.ignore_patterns("*.sock", "*-shm"))
            with Team(state=copy) as other:
                self.assertTrue(teams.is_running(server))
                self.assertEqual(client.addrole("one")["ok"], "addrole")
                self.assertEqual(other.end(), 0)

    def test_a_list_that_cannot_be_read_stops_nobody(self):
        for text in ("", "{", "[]", '{"of": 1, "processes": 2}', '{"1": "2"}'):
            with tempfile.TemporaryDirectory() as folder:
                state = pathlib.Path(folder) / "team"
                with Places(state):
                    (state / "private" / "children").write_text(text)
                with Places(state) as places:
                    self.assertEqual(places.orphans, [], text)

    def test_a_list_that_is_no_plain_file_or_nested_too_deep_is_made_anew(self):
        def nested(path):
            path.write_text("[" * 200_000)

        def linked(path):
            path.symlink_to("/dev/zero")

        for plant in (os.mkfifo, nested, linked):
            with self.subTest(plant), tempfile.TemporaryDirectory() as folder:
                state = pathlib.Path(folder) / "team"
                children = state / "private" / "children"
                with Places(state) as places:
                    self.assertEqual(places.children.fault, "")
                plant(children)
                os.mkfifo(children.with_suffix(".new"))
                with Places(state) as places:
                    self.assertEqual(places.orphans, [])
                    self.assertIn("can't be read, and is made anew", places.children.fault)
                    child = places.children.start(["sleep", "600"])
                    self.assertEqual(teams.processes_of(state), [child.pid])
                    places.children.end(child)

    def test_an_orphan_is_ended_and_a_stranger_of_the_same_id_is_not(self):
        with tempfile.TemporaryDirectory() as folder:
            state = pathlib.Path(folder) / "team"
            with Places(state):
                pass
            orphan, stranger = (start_child(["sleep", "600"]) for _ in range(2))
            listed = {orphan.pid: start_time_of(orphan.pid), stranger.pid: "1"}
            children = state / "private" / "children"
            of = Places(state).children._of()
            children.write_text(json.dumps({"of": of, "processes": listed}))
            with Places(state) as places:
                self.assertEqual(places.orphans, [orphan.pid])
            self.assertEqual(orphan.wait(teams.WAIT_SECONDS), -signal.SIGKILL)
            self.assertIsNone(stranger.poll())
            stranger.kill()
            stranger.wait()


class Persons(unittest.TestCase):
    def test_without_a_file_each_has_its_name_and_who_started_it_is_root_too(self):
        mine, other = People().of_uid(os.geteuid()), People(owner=-1).of_uid(NOBODY)
        self.assertEqual(set(mine.users), {teams.ME, "root"})
        self.assertEqual((other.name, other.users), ("nobody", ("nobody",)))

    def test_a_file_says_who_may_be_whom(self):
        people = People(read_people('[people]\nann = ["nobody"]\nroot = ["nobody", "daemon"]\n'))
        self.assertEqual(people.named("nobody").users, ("ann", "root"))
        self.assertTrue(people.named("daemon").may_be("root"))
        self.assertFalse(people.named("daemon").may_be("ann"))
        self.assertEqual(people.named("bin").users, ())

    def test_an_unknown_user_is_refused(self):
        for ask in (lambda: People().of_uid(3_999_999), lambda: People().named("no-such-user")):
            with self.assertRaises(Refused) as held:
                ask()
            self.assertEqual(held.exception.code, 1003)

    def test_the_file_may_list_numbers_and_names_that_no_user_here_has(self):
        people = People(read_people('[people]\nann = ["3999999", "far"]\nroot = ["65534"]\n'))
        self.assertEqual(people.of_uid(3_999_999), ("3999999", ("ann",)))
        self.assertEqual(people.named("far"), ("far", ("ann",)))
        self.assertEqual(people.of_uid(NOBODY), ("nobody", ("root",)))
        for ask in (lambda: people.of_uid(3_999_998), lambda: people.named("3999999")):
            with self.assertRaises(Refused) as held:
                ask()
            self.assertEqual(held.exception.fault, "UnknownPerson")

    def test_what_is_probably_a_mistake_is_told(self):
        nobody_is_root = "nobody may be root, who alone may do something in a new record"
        for text, told in [
            ('ann = ["far", "1234567"]\nroot = ["daemon"]', ["no Unix user here is named far"]),
            ('ann = ["nobody"]', [nobody_is_root]),
            ("root = []", [nobody_is_root]),
        ]:
            self.assertEqual(People(read_people(f"[people]\n{text}\n")).doubts(), told)
        self.assertEqual(People().doubts(), [])

    def test_what_is_no_file_of_people_is_told_with_its_line(self):
        for text, line in [
            ("", 1),
            ("users = []", 1),
            ("[people]\nann = 3", 2),
            ("[people]\n[assign]", 2),
            ("[people]\nann = [", 2),
        ]:
            with self.assertRaises(BadPolicy) as held:
                read_people(text)
            self.assertEqual(held.exception.line, line, text)

    def test_a_socket_tells_its_peer(self):
        ours, theirs = socket.socketpair(socket.AF_UNIX)
        with ours, theirs:
            self.assertEqual(peer_uid(ours), os.geteuid())


class Logins(unittest.TestCase):
    def test_one_as_somebody_else_never_reaches_the_program(self):
        with Team(
            people=f'[people]\nann = ["nobody"]\nroot = ["{teams.ME}"]\n'
        ) as team, team.talker() as talker:
            refused = b'{"code":1001,"fault":"NotYou","user":"ann"}'
            self.assertEqual(talker.ask(login_line("ann", [])), refused)
            self.assertEqual(talker.ask(login_line()), b'{"ok":"login","session":1,"version":5}')
            self.assertEqual(talker.ask(login_line("ann", [])), refused)
            self.assertEqual(talker.ask(login_line()), b'{"code":5,"fault":"AlreadyLoggedIn"}')
            with team.words() as words:
                self.assertEqual(
                    words.word("ping"),
                    {"ok": "ping", "person": teams.ME, "team": "team", "users": ["root"]},
                )
                self.assertEqual(words.word("login", user="ann")["code"], 1001)

    @unittest.skipUnless(os.geteuid() == 0, "only root can be another Unix user")
    def test_another_unix_user_is_known_at_both_sockets(self):
        with Team(people='[people]\nann = ["nobody"]\nroot = ["root"]\n') as team:
            pathlib.Path(team.state).parent.chmod(0o711)
            with team.root() as client:
                client.adduser("ann")
            logins = [login_line(), login_line("ann", [])]
            told = asked_by(NOBODY, team.path, logins)
            self.assertEqual(told[0], b'{"code":1001,"fault":"NotYou","user":"root"}')
            self.assertEqual(json.loads(told[1])["ok"], "login")
            ping = json.loads(
                asked_by(NOBODY, team.state / "gateway.sock", [b'{"word":"ping"}'])[0]
            )
            self.assertEqual((ping["person"], ping["users"]), ("nobody", ["ann"]))
            refused = b'{"code":1003,"fault":"UnknownPerson","uid":3999999}'
            self.assertEqual(asked_by(3_999_999, team.path, [])[0], refused)
            teams.wait_for(lambda: [entry.person for entry in team.entries()][-1] == "nobody")
            self.assertEqual(
                {(entry.user, entry.person) for entry in team.entries()},
                {("root", "root"), ("ann", "nobody")},
            )


if __name__ == "__main__":
    unittest.main()
