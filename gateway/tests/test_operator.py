"""What an operator sees and may do: health, counts, the log, ending what somebody holds, another
file of people; and one offer that is taken back."""
import contextlib
import json
import os
import pathlib
import re
import signal
import socket
import subprocess
import sys
import threading
import unittest

import teams
import visitors
from teams import Team, line_of, login_line
from test_places import AS_USER, NOBODY
from visitors import Visitor, visitor_of
from estserve_client.connection import Disconnected
from estserve_team.administrator_words import need_room
from estserve_team.command import PEOPLE_BYTES
from estserve_team.reads.slot_model import JOURNAL, Slot
from estserve_team.refusals import Refused

SAMPLE = re.compile(r'estserve_team_[a-z_]+(?:\{[a-z]+="[^"]*"\})? [0-9.e+-]+')
TOLD = re.compile(r"# (?:HELP|TYPE) estserve_team_[a-z_]+ .+")


def counts_of(team):
    """The samples that metrics.sock tells, by name and labels."""
    with socket.socket(socket.AF_UNIX) as connection:
        connection.settimeout(teams.WAIT_SECONDS)
        connection.connect(str(team.state / "metrics.sock"))
        text = b"".join(iter(lambda: connection.recv(65_536), b"")).decode()
    lines = text.splitlines()
    wrong = [line for line in lines if not (SAMPLE.fullmatch(line) or TOLD.fullmatch(line))]
    if wrong:
        raise AssertionError(wrong)
    samples = [line.rpartition(" ") for line in lines if not line.startswith("#")]
    return {name: float(value) for name, _, value in samples}


def log_of(team):
    """The lines of a team's log."""
    return [json.loads(line) for line in team.told().splitlines()]


class Seen(unittest.TestCase):
    def test_health_and_counts(self):
        with Team() as team, team.words() as words, team.root() as client:
            before = counts_of(team)
            client.addrole("one")
            with contextlib.suppress(Exception):
                client.step(3)
            after = counts_of(team)
            moved = {name: after[name] - before.get(name, 0) for name in after}
            self.assertEqual(moved["estserve_team_entries"], 1)
            self.assertEqual(moved["estserve_team_commit_seconds_count"], 1)
            self.assertEqual(moved['estserve_team_refusals_total{fault="Permission"}'], 1)
            self.assertEqual((after["estserve_team_up"], after["estserve_team_logins"]), (1, 1))
            told = words.word("health")
            self.assertEqual((told["phase"], told["ready"], told["restarts"]), ("serving", True, 0))
            self.assertEqual(told["entries"], 2)
            os.kill(team.server(), signal.SIGKILL)
            teams.wait_for(lambda: words.word("health")["restarts"] == 1)
            teams.wait_for(lambda: words.word("health")["ready"])

    def test_the_log_is_json_and_says_who_was_refused(self):
        with Team("--limit", "refusals_logged=5") as team, team.root() as client:
            for _ in range(20):
                with contextlib.suppress(Exception):
                    client.step(3)
            with team.talker() as talker:
                talker.ask(login_line("nobody-else", []))
            client.addrole("one")
            self.assertEqual(team.end(), 0)
            refused = [line for line in log_of(team) if line["kind"] == "refused"]
            faults = [line["fault"] for line in refused]
            self.assertEqual(faults, ["Permission"] * 5 + ["NotYou"])  # of each fault so many
            self.assertEqual(
                {(one["person"], one["user"], one["command"], one["fault"]) for one in refused},
                {
                    (teams.ME, "root", "step", "Permission"),
                    (teams.ME, "nobody-else", "login", "NotYou"),
                },
            )

    def test_a_policy_that_is_applied_again_is_no_refusal(self):
        command = [sys.executable, "-B", str(teams.ROOT / "clients" / "estserve.py"), "apply"]
        with Team() as team:
            command += [str(teams.ROOT / "examples/team/team.toml"), "--socket", str(team.path)]
            for told in ("0 there already, 22 added\n", "22 there already, 0 added\n"):
                done = subprocess.run(command, capture_output=True, text=True)
                self.assertEqual((done.stdout, done.stderr), (told, ""))
            self.assertNotIn("refused", team.told())

    @unittest.skipUnless(visitors.HAS_AIOHTTP, visitors.NO_AIOHTTP)
    def test_health_over_http_needs_no_login(self):
        with visitors.Team("--http", "127.0.0.1:0") as team:
            answer = Visitor(visitors.address_of(team)).send("GET", "/health")
            self.assertEqual((answer.status, answer.told["phase"]), (200, "serving"))


class Ended(unittest.TestCase):
    @unittest.skipUnless(os.geteuid() == 0, "only root can be another Unix user")
    def test_a_person_is_kicked_by_an_administrator_alone(self):
        people = '[people]\nann = ["nobody"]\nroot = ["root"]\n'
        with Team(people=people) as team:
            pathlib.Path(team.state).parent.chmod(0o711)
            with team.root() as client:
                client.adduser("ann")
            words = [sys.executable, "-c", AS_USER, str(os.getegid()), str(NOBODY), str(team.path)]
            other = subprocess.Popen(words, stdin=subprocess.PIPE, stdout=subprocess.PIPE)
            reader = threading.Thread(target=other.stdin.write, args=(login_line("ann", []),))
            reader.start()
            reader.join()
            other.stdin.write(b"\n")
            other.stdin.close()  # its login ends with its lines
            other.wait(teams.WAIT_SECONDS)
            other.stdout.close()
            with team.words() as words:
                self.assertEqual(words.word("kick", person="nobody")["code"], 1012)
                words.word("login", user="root", roles=[])
                self.assertEqual(words.word("kick", person="nobody")["code"], 1011)
                words.word("login", user="root", roles=["root"])
                self.assertEqual(words.word("kick", person="nobody")["connections"], 0)

    def test_who_is_kicked_is_logged_out(self):
        with Team() as team, team.words() as words, team.root() as client:
            client.addrole("one")
            words.word("login", user="root", roles=["root"])
            words._send(b'{"word":"kick","person":"%s"}\n' % teams.ME.encode())
            teams.wait_for(lambda: [one.command for one in team.entries()].count("logout") == 2)
            with team.root() as again:
                self.assertEqual(again.addrole("two")["ok"], "addrole")

    def test_one_session_is_kicked_and_the_others_stay(self):
        with Team() as team, team.words() as words, team.root() as client, team.root() as other:
            words.word("login", user="root", roles=["root"])
            numbers = [one["session"] for one in words.word("who")["holders"]]
            told = words.word("kick", session=numbers[0])
            self.assertEqual((told["connections"], told["sessions"]), (1, 1))
            with self.assertRaises(Disconnected):
                for _ in range(2):
                    client.check("step", "0")
            self.assertEqual(other.addrole("one")["ok"], "addrole")
            self.assertEqual(words.word("kick", session=numbers[0])["sessions"], 0)
            for keys in ({}, {"session": 1, "person": "ann"}, {"session": 0}):
                self.assertEqual(words.word("kick", **keys)["code"], 1010)

    def test_a_login_that_is_shared_is_kicked_too(self):
        with Team() as team, team.words() as words, team.words() as other:
            words.word("login", user="root", roles=["root"])
            other.word("login", user="root", roles=[])
            number = max(one["session"] for one in words.word("who")["holders"])
            self.assertEqual(words.word("kick", session=number)["sessions"], 1)
            self.assertEqual(other.word("slots")["code"], 1012)
            other.word("login", user="root", roles=[])
            self.assertIn("slots", other.word("slots"))

    def test_a_kick_stands_in_the_record(self):
        with Team() as team, team.words() as words:
            words.word("login", user="root", roles=["root"])
            words.word("kick", person="nobody")
            words.word("kick", session=999)
            rows = team.rows("SELECT value FROM facts WHERE name LIKE 'kick %' ORDER BY name")
            told = [json.loads(value) for (value,) in rows]
            self.assertEqual(
                told, [{"by": teams.ME, "person": "nobody"}, {"by": teams.ME, "session": 999}]
            )
            self.assertEqual(team.end(), 0)
            team.start()
            self.assertEqual(
                team.rows("SELECT count(*) FROM facts WHERE name LIKE 'kick %'"), [(2,)]
            )

    @unittest.skipUnless(visitors.HAS_AIOHTTP, visitors.NO_AIOHTTP)
    def test_a_visit_is_closed(self):
        with visitors.Team("--http", "127.0.0.1:0") as team, team.words() as words:
            visitor, other = visitor_of(team, "root", "root"), visitor_of(team)
            told = words.word("visits")["visits"]
            self.assertEqual([one["person"] for one in told], [teams.ME] * 2)
            self.assertEqual(words.word("close", visit=told[0]["visit"])["visits"], 1)
            self.assertEqual(visitor.get("me").status, 401)
            self.assertEqual(other.get("me").status, 200)

    def test_other_people_are_read_on_sighup(self):
        mine = f'ann = ["{teams.ME}"]\n'
        with Team(people=f'[people]\nroot = ["{teams.ME}"]\n{mine}') as team:
            path = pathlib.Path(team.command()[-1])
            with team.root() as client, team.talker() as talker:
                client.adduser("ann")
                self.assertIn(b'"ok"', talker.ask(login_line("ann", [])))
                path.write_text("nothing")
                team.process.send_signal(signal.SIGHUP)
                teams.wait_for(lambda: "stay as they were" in team.told())
                self.assertIn(b"allowed", talker.ask(line_of(cmd="check", op="step", object="0")))
                path.write_text(f'[people]\nroot = ["{teams.ME}"]\n')
                team.process.send_signal(signal.SIGHUP)
                teams.wait_for(lambda: "read anew" in team.told())
                self.assertEqual(talker._socket.recv(1), b"")
                self.assertEqual(client.addrole("one")["ok"], "addrole")
            with team.talker() as talker:
                self.assertIn(b"NotYou", talker.ask(login_line("ann", [])))

    def test_a_file_of_people_that_is_none_stops_nobody(self):
        with Team(people=f'[people]\nroot = ["{teams.ME}"]\n') as team:
            path = pathlib.Path(team.command()[-1])
            plants = (os.mkfifo, os.mkdir, lambda path: os.symlink("/dev/zero", path))
            for seen, plant in enumerate(plants, 1):
                path.rmdir() if path.is_dir() else path.unlink()
                plant(path)
                team.process.send_signal(signal.SIGHUP)
                teams.wait_for(lambda: team.told().count("stay as they were") == seen)
                with team.root() as client:
                    self.assertFalse(client.check("step", "0")["allowed"])
            path.unlink()
            path.write_bytes(b"#" * (PEOPLE_BYTES + 1))
            team.process.send_signal(signal.SIGHUP)
            teams.wait_for(lambda: "it has more than 1,048,576 bytes" in team.told())
            path.unlink()


MODULE = "module M: input A, B, C; output O; loop present A then emit O end; pause end end module"


class Retracted(unittest.TestCase):
    @contextlib.contextmanager
    def offered(self):
        """A team in whose slot 0 A, B and C are pending, and words that are logged in as root."""
        with Team() as team, team.root() as client, team.words() as words:
            for op, name in (("load", "0"), ("step", "0"), *(("offer", f"0.{n}") for n in "ABC")):
                client.grant("root", op, name)
            client.load(0, "M", MODULE)
            for name in "ABC":
                client.offer(0, name)
            words.word("login", user="root", roles=["root"])
            yield team, client, words

    def test_one_offer_is_taken_back_and_the_others_stay(self):
        with self.offered() as (team, client, words):
            answer = words.word("retract", slot=0, signal="B")
            self.assertEqual(answer, {"ok": "retract", "pending": ["A", "C"], "slot": 0})
            commands = [(e.command, json.loads(e.request).get("signal")) for e in team.entries()]
            self.assertEqual(commands[-3:], [("discard", None), ("offer", "A"), ("offer", "C")])
            self.assertEqual(words.word("retract", slot=0, signal="B")["code"], 1013)
            self.assertEqual(words.word("retract", slot=16, signal="B")["code"], 1010)
            self.assertEqual(client.offer(0, "B")["ok"], "offer")
            client.revoke("root", "offer", "0.C")
            self.assertEqual(words.word("retract", slot=0, signal="A")["code"], 1011)
            self.assertEqual(team.end(), 0)
            with Team(state=team.state) as again:
                self.assertEqual(again.end(), 0)

    def test_where_the_journal_has_no_room_for_the_others_none_is_taken_back(self):
        slot = Slot(3)
        slot.entries = JOURNAL - 3
        need_room(slot, ["A", "B"])  # the last places of the journal
        slot.entries += 1
        with self.assertRaisesRegex(Refused, "1013"):
            need_room(slot, ["A", "B"])

    def test_who_may_not_see_what_is_pending_is_not_told_by_it(self):
        with self.offered() as (team, client, words):
            client.addrole("one")
            client.assign("root", "one")
            words.word("login", user="root", roles=["one"])

            def told(name):
                answer = words.word("retract", slot=0, signal=name)
                return answer["code"], answer["why"]

            needs = "retract needs step on 0"
            self.assertEqual([told("A"), told("X")], [(1011, needs)] * 2)
            client.grant("one", "step", "0")
            needs = "retract needs offer or observe on 0."
            self.assertEqual([told("A"), told("X")], [(1011, needs + "A"), (1011, needs + "X")])
            client.grant("one", "offer", "0.A")
            self.assertEqual(told("A"), (1011, "retract needs offer on each of the others"))
            client.grant("one", "observe", "0.B")
            self.assertEqual(told("A"), (1011, "retract needs offer on 0.B"))

    def test_nothing_of_others_comes_between(self):
        with self.offered() as (team, client, words):
            is_over = threading.Event()

            def step():
                with team.root() as other:
                    while not is_over.is_set():
                        with contextlib.suppress(Exception):
                            other.step(0)
                            other.offer(0, "A")
                            other.offer(0, "B")

            threads = [threading.Thread(target=step) for _ in range(2)]
            for thread in threads:
                thread.start()
            done = [words.word("retract", slot=0, signal="A").get("ok") for _ in range(60)]
            is_over.set()
            for thread in threads:
                thread.join()
            self.assertGreater(done.count("retract"), 0)
            entries = [entry for entry in team.entries() if entry.slot == 0]
            pending, seen = [], 0
            for at, entry in enumerate(entries):
                signal_of = json.loads(entry.request).get("signal")
                if entry.command == "discard":
                    others = [name for name in pending if name != "A"]
                    block = entries[at + 1 : at + 1 + len(others)]
                    made = [json.loads(one.request).get("signal") for one in block]
                    self.assertEqual(made, others)
                    self.assertEqual({one.session for one in block} - {entry.session}, set())
                    seen += 1
                pending = [*pending, signal_of] if entry.command == "offer" else []
            self.assertEqual(seen, done.count("retract"))


if __name__ == "__main__":
    unittest.main()
