"""The sixteen logins, what becomes of one that ends, and logins that are shared."""
import asyncio
import contextlib
import json
import os
import pathlib
import signal
import sqlite3
import tempfile
import time
import unittest
import unittest.mock

import teams
from teams import Team, line_of, login_line
from estserve_client.connection import Disconnected, Refusal
from estserve_team import sessions
from estserve_team.gateway import MOST_STARTS, WATCH_SECONDS, Gateway
from estserve_team.lines import request_of
from estserve_team.people import People, Person
from estserve_team.places import Places
from estserve_team.refusals import Refused
from estserve_team.sessions import ask_later
from estserve_team.unix_clients import TeamClient

ROOT = Person("admin", ("root",))
LOGOUT = line_of(cmd="logout")
GRANT = {"cmd": "grant", "object": "0", "op": "step", "role": "root"}


class Sixteen(unittest.TestCase):
    def test_the_seventeenth_is_told_who_holds_them_and_a_logout_frees_one(self):
        with Team() as team, contextlib.ExitStack() as held:
            talkers = [held.enter_context(team.talker()) for _ in range(17)]
            idle = [held.enter_context(team.talker()) for _ in range(40)]
            for at, talker in enumerate(talkers[:16], 1):
                self.assertEqual(json.loads(talker.ask(login_line()))["session"], at)
            for talker in idle:
                self.assertEqual(
                    talker.ask(line_of(cmd="step", slot=0)), b'{"code":4,"fault":"NoSession"}'
                )
            refused = json.loads(talkers[16].ask(login_line()))
            self.assertEqual(
                refused, {"code": 1002, "fault": "AllTaken", "holders": [["root", teams.ME]] * 16}
            )
            self.assertEqual(json.loads(talkers[3].ask(LOGOUT))["version"], 21)
            self.assertEqual(json.loads(talkers[16].ask(login_line()))["session"], 17)
            talkers[5].close()
            teams.wait_for(lambda: json.loads(talkers[3].ask(login_line())).get("session") == 18)

    def test_many_logins_one_after_the_other(self):
        with Team() as team:
            for at in range(40):
                with team.root() as client:
                    client.check("administer", "policy")
            teams.wait_for(lambda: len(team.entries()) == 80)

    def test_a_refused_login_holds_none(self):
        with Team() as team, team.talker() as talker:
            for _ in range(40):
                self.assertEqual(json.loads(talker.ask(login_line("root", ["no"])))["code"], 26)
            self.assertEqual(team.entries(), [])


class Ended(unittest.TestCase):
    def test_a_session_that_another_has_ended_frees_its_seat_by_its_logout(self):
        people = f'[people]\nroot = ["{teams.ME}"]\nann = ["{teams.ME}"]\n'
        with Team(people=people) as team, team.root() as root, team.talker() as talker:
            root.adduser("ann")
            for time in range(3):
                talker.ask(login_line("ann", []))
                root.deluser("ann")
                self.assertEqual(
                    talker.ask(line_of(cmd="step", slot=0)), b'{"code":4,"fault":"NoSession"}'
                )
                self.assertEqual(
                    talker.ask(line_of(cmd="check", object="0", op="step")),
                    b'{"allowed":false,"ok":"check"}',
                )
                self.assertEqual(talker.ask(LOGOUT), b'{"code":4,"fault":"NoSession"}')
                self.assertEqual(talker.ask(LOGOUT), b'{"code":4,"fault":"NoSession"}')
                root.adduser("ann")
            self.assertEqual(team.rows("SELECT connection FROM givenup"), [(2,), (3,), (4,)])
            talker.ask(login_line("ann", []))
            root.deluser("ann")
            talker.close()
            teams.wait_for(lambda: len(team.rows("SELECT connection FROM givenup")) == 4)
            before = team.entries()
            self.assertEqual(team.end(), 0)
            with Team(state=team.state, people=people) as again:
                self.assertEqual(again.entries()[: len(before)], before)

    def test_the_gateway_logs_out_whoever_goes_away(self):
        with Team() as team:
            with team.root() as client:
                client.addrole("driver")
            teams.wait_for(
                lambda: [entry.command for entry in team.entries()]
                == ["login", "addrole", "logout"]
            )


class Changed(unittest.TestCase):
    def test_a_connection_is_changed_before_its_reads_are_used_up(self):
        with Team("--most-sends", "20") as team, team.root() as client:
            client.grant("root", "step", "0")
            client.addrole("driver")
            client.assign("root", "driver")
            client.activate("driver")
            client.drop("root")
            for _ in range(60):
                self.assertTrue(client.check("step", "0")["allowed"] is False)
            client.activate("root")
            self.assertTrue(client.check("step", "0")["allowed"])
            logins = [
                json.loads(entry.request)["roles"]
                for entry in team.entries()
                if entry.command == "login"
            ]
            self.assertGreaterEqual(len(logins), 3)
            self.assertEqual(logins[:3], [["root"], ["driver"], ["driver"]])
            kinds = [
                entry.command for entry in team.entries() if entry.command in ("login", "logout")
            ]
            self.assertEqual(kinds, ["login", "logout"] * (len(logins) - 1) + ["login"])

    def test_where_its_session_has_ended_the_clients_connection_ends(self):
        with Team("--most-sends", "10") as team, team.root() as root, team.root() as client:
            root.addrole("driver")
            root.assign("root", "driver")
            client.activate("driver")
            root.deassign("root", "driver")
            with self.assertRaises(Disconnected):
                for _ in range(20):
                    self.assertFalse(client.check("step", "0")["allowed"])


@contextlib.asynccontextmanager
async def gateway_of(folder, most_sends=900_000):
    """A gateway in this process."""
    with Places(pathlib.Path(folder) / "team") as places:
        people = People({"root": ["admin", teams.ME]})
        gateway = Gateway(places, people, teams.program_file(), most_sends)
        gateway.log = lambda *told, **fields: None
        await gateway.start()
        try:
            yield gateway
        finally:
            await gateway.stop()


class InProcess(unittest.TestCase):
    """Tests with a gateway in this process."""

    def run_with(self, work, **words):
        """Runs a coroutine with a gateway of its own."""

        async def whole():
            with tempfile.TemporaryDirectory(prefix="gateway-") as folder:
                async with gateway_of(folder, **words) as gateway:
                    await work(gateway)

        asyncio.run(whole())

    def entries_of(self, gateway):
        gateway._flush_record()
        with teams.open_reader(gateway.record_path) as database:
            return [
                teams.Entry._make(row)
                for row in database.execute(f"SELECT {teams.COLUMNS} FROM entries ORDER BY number")
            ]


class ServerLost(InProcess):
    @staticmethod
    def hold_server_of(gateway):
        """Has the server stand still."""
        teams.hold(gateway._server.process)

    async def lose_server_of(self, gateway, count):
        """Kills the server, which stands still, once this many logins wait for its answer. Waits
        until that is noticed."""
        server = gateway._server.process
        while self.logins_of(gateway) < count:
            await asyncio.sleep(0.001)
        os.kill(server, signal.SIGKILL)
        while gateway._server.process == server:
            await asyncio.sleep(0.001)

    @staticmethod
    def logins_of(gateway):
        """How many logins are sent and not answered."""
        return sum(
            asked.request.cmd == "login"
            for session in gateway.sessions.values()
            for asked in session.flight
        )

    def test_a_login_that_is_shared_and_not_answered_goes_on_for_all_who_wait(self):
        async def work(gateway):
            self.hold_server_of(gateway)
            waiting = [asyncio.ensure_future(gateway.share(ROOT, "root", [])) for _ in range(3)]
            await self.lose_server_of(gateway, 1)
            shared = await asyncio.gather(*waiting, gateway.share(ROOT, "root", []))
            self.assertEqual([one.number for one in shared], [1] * 4)
            self.assertEqual([holder.session for holder in gateway.holders()], [1])
            self.assertEqual([one.command for one in self.entries_of(gateway)], ["login"])

        self.run_with(work)

    def test_a_login_that_each_server_loses_is_given_up(self):
        async def work(gateway):
            waiting = asyncio.ensure_future(gateway.open_session(ROOT, "root", []))
            for _ in range(MOST_STARTS):
                await gateway.until_serving()
                self.hold_server_of(gateway)
                await self.lose_server_of(gateway, 1)
            with self.assertRaises(Refused) as held:
                await waiting
            self.assertEqual(held.exception.code, 1004)
            await gateway.until_serving()
            self.assertEqual(self.entries_of(gateway), [])

        self.run_with(work)

    def test_a_login_that_could_not_be_recorded_is_not_asked_again(self):
        async def work(gateway):
            def fail(*_):
                raise sqlite3.OperationalError("disk I/O error")

            gateway._writer.append = fail
            with self.assertRaises(Refused) as held:
                await gateway.open_session(ROOT, "root", [])
            self.assertEqual(held.exception.code, 1004)
            await gateway.until_serving()
            self.assertEqual((self.entries_of(gateway), gateway.holders()), ([], []))

        self.run_with(work)

    def test_what_the_head_can_not_take_is_not_answered(self):
        def fail(*_):
            raise OSError(28, "no space left")

        async def work(gateway):
            shared = await gateway.share(ROOT, "root", ["root"])
            await shared.ask(GRANT)
            with unittest.mock.patch.object(gateway._writer.head, "_put", fail):
                with self.assertRaises(Refused) as held:
                    await shared.ask({**GRANT, "cmd": "revoke"})
            self.assertEqual(held.exception.code, 1004)
            await gateway.until_serving()
            commands = [one.command for one in self.entries_of(gateway)]
            self.assertEqual(commands, ["login", "grant", "logout"])

        self.run_with(work)

    def test_after_a_login_that_was_recorded_just_before_the_connection_ends(self):
        async def work(gateway):
            path, loop = gateway.state / "lines.sock", asyncio.get_running_loop()
            server = await loop.create_unix_server(lambda: TeamClient(gateway, set()), str(path))
            gateway.listen(lambda _: loop.call_soon(gateway.fail, "the test has it so"))
            reader, writer = await asyncio.open_unix_connection(str(path))
            writer.write(login_line() + b"\n" + line_of(cmd="step", slot=0) + b"\n")
            told = await asyncio.wait_for(reader.read(), teams.WAIT_SECONDS)
            self.assertEqual(told, b'{"ok":"login","session":1,"version":5}\n')
            writer.close()
            server.close()
            await gateway.until_serving()
            self.assertEqual([one.command for one in self.entries_of(gateway)], ["login", "logout"])

        self.run_with(work)

    def test_a_renewal_goes_on_with_the_next_one(self):
        async def work(gateway):
            session = await gateway.open_session(ROOT, "root", ["root"])
            unlisten = gateway.listen(lambda _: self.hold_server_of(gateway))  # at the logout
            renewing = asyncio.ensure_future(gateway.renew(session))
            await self.lose_server_of(gateway, 1)
            unlisten()
            renewed = await renewing
            self.assertEqual((renewed.session, renewed.roles), (2, ["root"]))
            self.assertEqual(list(gateway.sessions.values()), [renewed])
            self.assertEqual(
                [one.command for one in self.entries_of(gateway)], ["login", "logout", "login"]
            )

        self.run_with(work)

    def test_a_renewal_that_is_shared_goes_on_for_all_who_share_it(self):
        async def work(gateway):
            shared = await gateway.share(ROOT, "root", ["root"])
            shared._session.sends = gateway.most_sends
            unlisten = gateway.listen(lambda _: self.hold_server_of(gateway))  # at the logout
            asking = asyncio.ensure_future(shared.ask_answer(GRANT))
            await self.lose_server_of(gateway, 1)
            unlisten()
            other = await gateway.share(ROOT, "root", ["root"])
            self.assertEqual((await asking)["ok"], "grant")
            self.assertIs(other, shared)
            self.assertEqual([holder.session for holder in gateway.holders()], [2])

        self.run_with(work)

    def test_a_renewal_whose_seat_was_lost_takes_no_seventeenth(self):
        async def work(gateway):
            session = await gateway.open_session(ROOT, "root", [])
            gateway.fail("the test has it so")
            await asyncio.gather(*(gateway.open_session(ROOT, "root", ["root"]) for _ in range(16)))
            with self.assertRaises(Refused) as held:
                await gateway.open_session(ROOT, "root", [], session)
            self.assertEqual(held.exception.code, 1002)
            self.assertEqual(len(gateway.sessions), 16)

        self.run_with(work)


class Late(InProcess):
    def test_a_server_that_stands_still_is_replaced_and_a_clock_that_is_set_harms_nobody(self):
        async def work(gateway):
            session = await gateway.open_session(ROOT, "root", ["root"])
            server, clock = gateway._server.process, time.time
            ServerLost.hold_server_of(gateway)
            check = request_of({"cmd": "check", "object": "0", "op": "step"})
            waiting = ask_later(session, check)
            with unittest.mock.patch("time.time", lambda: clock() + 3_600):
                await asyncio.sleep(2.5 * WATCH_SECONDS)
            self.assertEqual((gateway.phase, gateway._server.process), ("serving", server))
            with unittest.mock.patch.object(sessions, "WAIT_SECONDS", 1):
                with self.assertRaises(Refused) as held:
                    await waiting
            self.assertEqual(held.exception.code, 1004)
            await gateway.until_serving()
            self.assertNotEqual(gateway._server.process, server)

        self.run_with(work)


class RecordClosed(InProcess):
    def test_an_id_that_is_asked_meanwhile_is_to_be_asked_again(self):
        async def work(gateway):
            self.assertIsNone(gateway.answer_to("admin", "one"))
            gateway._writer.close()
            with self.assertRaises(Refused) as held:
                gateway.answer_to("admin", "one")
            self.assertEqual(held.exception.code, 1004)

        self.run_with(work)


class Shared(InProcess):
    def test_all_with_the_same_roles_share_one_login_until_the_last_leaves(self):
        async def work(gateway):
            shared = await asyncio.gather(
                *(gateway.share(ROOT, "root", ["root"]) for _ in range(20))
            )
            other = await gateway.share(ROOT, "root", [])
            self.assertEqual({one.number for one in shared}, {shared[0].number})
            self.assertEqual(len(gateway.holders()), 2)
            self.assertTrue(
                (await other.ask_answer({"cmd": "check", "object": "policy", "op": "administer"}))[
                    "allowed"
                ]
                is False
            )
            for one in shared[1:]:
                await one.leave()
            self.assertEqual((await shared[0].ask_answer(GRANT))["ok"], "grant")
            await shared[0].leave()
            await other.leave()
            self.assertEqual(
                [entry.command for entry in self.entries_of(gateway)],
                ["login", "login", "grant", "logout", "logout"],
            )
            self.assertNotEqual(
                (await gateway.share(ROOT, "root", ["root"])).number, shared[0].number
            )

        self.run_with(work)

    def test_what_is_refused(self):
        async def work(gateway):
            for person, user, roles, code in [
                (ROOT, "ann", [], 1001),
                (ROOT, "root", ["no"], 26),
                (ROOT, "root", ["a b"], 3),
            ]:
                with self.assertRaises(Refused) as held:
                    await gateway.share(person, user, roles)
                self.assertEqual(held.exception.code, code)
            shared = await gateway.share(ROOT, "root", ["root"])
            for cmd in (
                {"cmd": "logout"},
                {"cmd": "activate", "role": "root"},
                {"cmd": "login", "user": "root", "roles": []},
            ):
                with self.assertRaises(Refused) as held:
                    await shared.ask(cmd)
                self.assertEqual(held.exception.code, 1014)
            for command in (
                {},
                {"cmd": []},
                {"cmd": "step", "slot": True},
                {"cmd": "step", "slot": 1.0},
                {"cmd": "adduser", "user": "\ud800"},
            ):
                self.assertEqual(await shared.ask(command), b'{"code":3,"fault":"NotARequest"}')

        self.run_with(work)

    def test_an_id_is_carried_out_once(self):
        async def work(gateway):
            shared = await gateway.share(ROOT, "root", ["root"])
            answers = await asyncio.gather(*(shared.ask(GRANT, "one") for _ in range(10)))
            self.assertEqual(set(answers), {b'{"ok":"grant","version":6}'})
            self.assertEqual(await shared.ask(GRANT, "one"), answers[0])
            self.assertEqual(
                await shared.ask(GRANT, "two"), b'{"code":31,"fault":"AlreadyGranted"}'
            )
            revoke = {**GRANT, "cmd": "revoke"}
            for request_id in ("one", "", "x" * 65, "ä"):
                with self.assertRaises(Refused) as held:
                    await shared.ask(revoke, request_id)
                self.assertEqual(held.exception.code, 1015)
            self.assertEqual(await shared.ask(revoke, "two"), b'{"ok":"revoke","version":7}')
            self.assertEqual(len(self.entries_of(gateway)), 3)

        self.run_with(work)

    def test_an_id_is_carried_out_once_however_often_the_server_is_killed(self):
        numbers = teams.random_of("ids")

        async def ask_until_answered(gateway, request_id, command):
            while True:
                try:
                    shared = await gateway.share(ROOT, "root", ["root"])
                    return await shared.ask(command, request_id)
                except Refused as refused:
                    self.assertEqual(refused.code, 1004)

        async def work(gateway):
            asked = []
            for at in range(60):
                command = {
                    "cmd": "grant",
                    "object": f"{at % 16}.S{at}",
                    "op": "offer",
                    "role": "root",
                }
                asked.append(
                    asyncio.ensure_future(ask_until_answered(gateway, f"id {at}", command))
                )
                await asyncio.sleep(numbers.uniform(0, 0.01))
                if at % 10 == 5:
                    await gateway.until_serving()  # else there is no process to be killed
                    os.kill(gateway._server.process, signal.SIGKILL)
            answers = await asyncio.gather(*asked)
            entries = [entry for entry in self.entries_of(gateway) if entry.command == "grant"]
            self.assertEqual(len(entries), 60)
            self.assertEqual(
                {entry.request_id: entry.reply for entry in entries},
                {f"id {at}": answer for at, answer in enumerate(answers)},
            )

        self.run_with(work)

    def test_a_shared_login_changes_its_connection(self):
        async def work(gateway):
            shared = await gateway.share(ROOT, "root", ["root"])
            checks = await asyncio.gather(
                *(
                    shared.ask_answer({"cmd": "check", "object": "0", "op": "step"})
                    for _ in range(50)
                )
            )
            self.assertEqual(len(checks), 50)
            self.assertGreater(shared.number, 1)
            self.assertEqual(len(gateway.holders()), 1)

        self.run_with(work, most_sends=10)

    def test_listeners_hear_of_each_entry_once_and_of_a_restart(self):
        async def work(gateway):
            heard, restarts = [], []
            unlisten = gateway.listen(
                lambda entries: heard.extend(entry.number for entry in entries)
            )
            gateway.on_restart(lambda: restarts.append(len(gateway.holders())))
            shared = await gateway.share(ROOT, "root", ["root"])
            await shared.ask(GRANT)
            os.kill(gateway._server.process, signal.SIGKILL)
            while not restarts:
                await asyncio.sleep(0.01)
            self.assertTrue(shared.is_over)
            self.assertEqual((heard, restarts), ([1, 2], [0]))
            unlisten()
            await gateway.share(ROOT, "root", ["root"])
            self.assertEqual((heard, gateway.entries_written), ([1, 2], 4))

        self.run_with(work)


if __name__ == "__main__":
    unittest.main()
