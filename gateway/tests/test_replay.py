"""The next start: the record is replayed, byte for byte; what differs stops it; another program is
tried first."""
import json
import os
import pathlib
import re
import resource
import shutil
import signal
import sqlite3
import subprocess
import tempfile
import time
import unittest

import teams
from teams import ROOT, Server, Talker, Team, line_of, login_line, program_file, random_of
from estserve_team.chain import Head
from estserve_team.record import POLICY, Connection, Entry, RecordWriter
from estserve_team.replay import Replay
from estserve_team.verifying import take_over

ABRO = (ROOT / "examples" / "abro" / "abro.strl").read_text()
SIGNALS = ["A", "B", "R"]
OPENING = [
    login_line(),
    *(
        line_of(cmd="grant", object=f"0{name}", op=op, role="root")
        for name, op in [
            ("", "load"),
            ("", "step"),
            (".A", "offer"),
            (".B", "offer"),
            (".R", "offer"),
            (".O", "observe"),
            (".A", "observe"),
        ]
    ),
    line_of(cmd="load", main="ABRO", slot=0, text=ABRO),
]
LONG = int(os.environ.get("GATEWAY_LONG", "10000"))  # entries of a long record
PYTHON_SECONDS = 30e-6  # of this process for an entry; several times what was seen


def shown(talker, count):
    """What looks show of the first instants of slot 0, or their faults."""
    answers = talker.ask_all(
        [line_of(cmd="look", instant=at, slot=0) for at in range(1, count + 1)]
    )
    return [json.loads(answer).get("signals") or json.loads(answer)["fault"] for answer in answers]


def filled(team, steps=30):
    """Fills a record: ABRO with some inputs. The looks at its instants; inputs are pending at the
    end."""
    numbers = random_of("replay")
    with team.talker() as talker:
        talker.ask_all(OPENING)
        for _ in range(steps):
            talker.ask_all(
                [
                    line_of(cmd="offer", signal=name, slot=0)
                    for name in SIGNALS
                    if numbers.random() < 0.4
                ]
            )
            talker.ask(line_of(cmd="step", slot=0))
        looks = shown(talker, steps)
        talker.ask(line_of(cmd="discard", slot=0))
        talker.ask(line_of(cmd="offer", signal="B", slot=0))
    teams.wait_for(lambda: team.entries()[-1].command == "logout")
    return looks


def failed_start(team):
    """What a gateway tells that doesn't start."""
    ran = subprocess.run(team.command(), capture_output=True, text=True, timeout=teams.WAIT_SECONDS)
    team.__exit__()
    if ran.returncode != 1:
        raise AssertionError(ran)
    return ran.stderr


def change(team, sql, *values):
    """Changes the record while no gateway runs, as one does who may write all of it: hashes and
    head are made anew."""
    database = sqlite3.connect(team.record)
    with database:
        count = database.execute(sql, values).rowcount
        record = dict(database.execute("SELECT name, value FROM facts"))["id"]
    database.close()
    head = Head(team.record.with_name("head"))
    take_over(team.record, head, record, True)
    head.close()
    return count


class Restarted(unittest.TestCase):
    def test_state_numbers_and_pending_inputs_are_as_before(self):
        with Team() as team:
            looks = filled(team)
            before = team.entries()
            self.assertEqual(team.end(), 0)
            with Team(state=team.state) as again, again.talker() as talker:
                self.assertEqual(again.entries(), before)
                login = json.loads(talker.ask(login_line()))
                self.assertEqual((login["session"], login["version"]), (2, before[-1].version + 1))
                self.assertEqual(shown(talker, 30), looks)
                self.assertEqual(json.loads(talker.ask(line_of(cmd="step", slot=0)))["instant"], 31)
                self.assertEqual(
                    talker.ask(line_of(cmd="offer", signal="B", slot=0))[:7], b'{"ok":"'
                )
                talker.ask(line_of(cmd="grant", object="0.B", op="observe", role="root"))
                self.assertEqual(shown(talker, 31)[-1][:2], [["A", False], ["B", True]])

    def test_who_was_logged_in_at_a_kill_is_logged_out_and_it_is_recorded(self):
        with Team() as team:
            talkers = [team.talker() for _ in range(5)]
            for talker in talkers:
                talker.ask(login_line())
            team.end(signal.SIGKILL)
            with Team(state=team.state) as again:
                entries = again.entries()
                self.assertEqual(
                    [entry.command for entry in entries], ["login"] * 5 + ["logout"] * 5
                )
                self.assertEqual([entry.version for entry in entries], list(range(5, 15)))
                self.assertEqual([entry.session for entry in entries], [1, 2, 3, 4, 5] * 2)
            for talker in talkers:
                talker.close()

    def test_more_than_sixteen_connections_of_the_past_are_sixteen_at_a_time(self):
        numbers = random_of("many")
        with Team() as team:
            held = []
            for _ in range(60):
                if len(held) == 16 or (held and numbers.random() < 0.4):
                    held.pop(numbers.randrange(len(held))).close()
                    teams.wait_for(lambda: len(self.open_of(team)) == len(held))
                talker = team.talker()
                held.append(talker)
                self.assertIn(b'"ok":"login"', talker.ask(login_line()))
            team.end(signal.SIGKILL)
            with Team(state=team.state) as again:
                self.assertEqual(self.open_of(again), set())
            for talker in held:
                talker.close()

    @staticmethod
    def open_of(team):
        entries = team.entries()
        return {e.session for e in entries if e.command == "login"} - {
            e.session for e in entries if e.command == "logout"
        }

    def test_a_long_record(self):
        with tempfile.TemporaryDirectory(prefix="gateway-") as folder:
            path = pathlib.Path(folder) / "record.sqlite"
            entries = long_record(path)
            with Server(program_file(), pathlib.Path(folder) / "socket") as server, Replay(
                path, server.path
            ) as replay:
                before, began = resource.getrusage(resource.RUSAGE_SELF), time.monotonic()
                replay.run()
                seconds = time.monotonic() - began
                spent = resource.getrusage(resource.RUSAGE_SELF).ru_utime - before.ru_utime
                server_spent = cpu_of(server.process)
            self.assertEqual(replay.count, entries)
            print(
                f"{entries} entries of ABRO replayed in {seconds:.1f} s "
                f"({spent:.1f} s of this process, {server_spent:.1f} s of the server)"
            )
            self.assertLess(spent, entries * PYTHON_SECONDS)


def cpu_of(process):
    """The processor time of a process, in seconds."""
    fields = pathlib.Path(f"/proc/{process}/stat").read_text().rpartition(")")[2].split()
    return (int(fields[11]) + int(fields[12])) / os.sysconf("SC_CLK_TCK")


def long_record(path):
    """Makes a long record: ABRO in two slots, stepped on two connections. Answers how many
    entries."""
    lines = [(POLICY, line) for line in OPENING[:-1]] + [
        (POLICY, line_of(cmd="grant", object=f"1{name}", op=op, role="root"))
        for name, op in [
            ("", "load"),
            ("", "step"),
            (".A", "offer"),
            (".B", "offer"),
            (".R", "offer"),
        ]
    ]
    entries, version = [], 4
    for _, line in lines:
        version += 1
        command = json.loads(line)["cmd"]
        reply = {
            "ok": command,
            "version": version,
            **({"session": 1} if command == "login" else {}),
        }
        entries.append((POLICY, version, version, None, command, line, line_of(**reply)))
    for slot in (0, 1):
        entries += slot_entries(slot, version, (LONG - len(lines)) // 2)
    with RecordWriter.make(path, program_file()) as writer:
        rows = [
            Entry(
                at,
                slot,
                place,
                told,
                1,
                1,
                "root",
                "root",
                0.0,
                instant,
                command,
                line,
                reply,
                None,
                1,
            )
            for at, (slot, place, told, instant, command, line, reply) in enumerate(entries, 1)
        ]
        writer.append(rows, [Connection(1, 1, "root", "root", '["root"]')])
    return len(entries)


def slot_entries(slot, version, count):
    """A load of ABRO, and offers and steps in turn."""
    text = line_of(cmd="load", main="ABRO", slot=slot, text=ABRO)
    found = [(slot, 1, version, None, "load", text, line_of(ok="load", place=1, version=version))]
    for place in range(2, count + 1):
        if place % 2:
            instant = place // 2
            reply = line_of(instant=instant, ok="step", place=place, version=version)
            found.append(
                (slot, place, version, instant, "step", line_of(cmd="step", slot=slot), reply)
            )
        else:
            line = line_of(cmd="offer", signal=SIGNALS[place // 2 % 3], slot=slot)
            found.append(
                (
                    slot,
                    place,
                    version,
                    None,
                    "offer",
                    line,
                    line_of(ok="offer", place=place, version=version),
                )
            )
    return found


class Different(unittest.TestCase):
    def test_it_stops_the_start_and_until_starts_before_it(self):
        with Team() as team:
            looks = filled(team)
            entries = team.entries()
            self.assertEqual(team.end(), 0)
            step = next(entry for entry in entries if entry.instant == 20)
            change(
                team,
                "UPDATE entries SET reply = CAST(replace(reply, '20', '21') AS BLOB) "
                "WHERE number = ?",
                step.number,
            )
            told = failed_start(Team(state=team.state))
            self.assertRegex(
                told,
                rf"entry 0:{step.place} was answered .*\"instant\":21.* "
                rf"and is answered .*\"instant\":20.*--until 0:{step.place}",
            )
            self.assertEqual(len(team.entries()), len(entries))
            with Team(
                "--until", f"0:{step.place}", state=team.state
            ) as again, again.talker() as talker:
                left = [
                    entry
                    for entry in entries
                    if entry.version < step.version
                    or entry.version == step.version
                    and (entry.slot < 0 or entry.place < step.place)
                ]
                self.assertEqual(again.entries()[: len(left)], left)
                self.assertEqual(
                    [entry.command for entry in again.entries()[len(left) :]], ["logout"]
                )
                self.assertEqual(len(again.rows("SELECT * FROM aside")), len(entries) - len(left))
                self.assertEqual(
                    again.printed,
                    [
                        f"{len(entries) - len(left)} entries are kept aside, "
                        f"from 0:{step.place} on\n"
                    ],
                )
                talker.ask(login_line())
                self.assertEqual(shown(talker, 19), looks[:19])
                self.assertEqual(shown(talker, 20)[19], "NoInstant")

    def test_until_a_policy_entry(self):
        with Team() as team:
            filled(team, 3)
            entries = team.entries()
            self.assertEqual(team.end(), 0)
            with Team("--until", "policy:8", state=team.state) as again:
                self.assertEqual(
                    [(entry.command, entry.version) for entry in again.entries()],
                    [("login", 5), ("grant", 6), ("grant", 7), ("logout", 8)],
                )
                self.assertEqual(len(again.rows("SELECT * FROM aside")), len(entries) - 3)
                self.assertEqual(
                    min(entry.number for entry in again.entries()[3:]), len(entries) + 1
                )

    def test_a_place_that_is_none_is_told(self):
        with Team() as team:
            filled(team, 1)
            self.assertEqual(team.end(), 0)
            for place, told in [
                ("0:999", "no entry 0:999"),
                ("policy:4", "no place"),
                ("16:1", "no place"),
                ("x", "no place"),
            ]:
                self.assertIn(told, failed_start(Team("--until", place, state=team.state)))

    def test_what_is_no_record_is_told(self):
        with Team() as team:
            self.assertEqual(team.end(), 0)
            team.record.write_bytes(b"no record" * 1000)
            self.assertIn("cannot be opened", failed_start(Team(state=team.state)))


class OtherProgram(unittest.TestCase):
    def wrapped(self, folder, name, body):
        """A program that is another file, and calls the program with its standard streams
        changed."""
        path = pathlib.Path(folder) / name
        path.write_text(f"#!/bin/sh\n# {name}\n{body}\n")
        path.chmod(0o755)
        return str(path)

    def test_it_replays_the_record_in_a_trial_first_and_is_named_afterwards(self):
        with Team() as team, tempfile.TemporaryDirectory() as folder:
            filled(team, 5)
            before = len(team.entries())
            self.assertEqual(team.end(), 0)
            seen = pathlib.Path(folder) / "seen"
            other = self.wrapped(
                folder, "other", f'echo "$@" >> {seen}; exec {program_file()} "$@"'
            )
            with Team(state=team.state, program=other) as again, again.root() as client:
                client.addrole("driver")
                self.assertEqual([entry.program for entry in again.entries()[before:]], [2, 2])
                self.assertEqual(
                    [row[0] for row in again.rows("SELECT number FROM programs")], [1, 2]
                )
            sockets = re.findall(r"serve --socket \S*/(\S+)", seen.read_text())
            self.assertEqual(sockets, ["trial.sock", "inner.sock"])

    def test_one_that_answers_otherwise_does_not_start(self):
        with Team() as team, tempfile.TemporaryDirectory() as folder:
            filled(team, 5)
            rows = team.rows("SELECT * FROM entries")
            self.assertEqual(team.end(), 0)
            change(
                team,
                "UPDATE entries SET reply = CAST(replace(reply, ':3,', ':7,') AS BLOB) "
                "WHERE instant = 3",
            )
            other = self.wrapped(folder, "other", f'exec {program_file()} "$@"')
            told = failed_start(Team(state=team.state, program=other))
            self.assertRegex(
                told,
                "another one than made the record, and in a trial "
                "the record's entry 0:[0-9]+ was answered",
            )
            self.assertEqual(len(team.rows("SELECT * FROM entries")), len(rows))
            self.assertEqual(team.rows("SELECT count(*) FROM programs"), [(1,)])


if __name__ == "__main__":
    unittest.main()
