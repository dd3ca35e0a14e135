"""Parts of the page's server that need neither a gateway nor aiohttp: options, links, visits,
sentences."""
import argparse
import asyncio
import os
import pathlib
import sys
import tempfile
import threading
import unittest
import unittest.mock

ROOT = pathlib.Path(__file__).resolve().parents[2]
sys.path[:0] = [str(ROOT / "clients"), str(ROOT / "gateway")]
from estserve_client.trying_out import try_text  # noqa: E402
from estserve_team.people import Person  # noqa: E402
from estserve_team.places import Failed  # noqa: E402
from estserve_team.reads import who  # noqa: E402
from estserve_team.reads.policy_model import PolicyModel  # noqa: E402
from estserve_team.reads.printing import slots_lines  # noqa: E402
from estserve_team.reads.slot_model import SlotsModel  # noqa: E402
from estserve_team.reads.witness import Witness  # noqa: E402
from estserve_team.refusals import Refused  # noqa: E402
from estserve_team.visiting import page_slots  # noqa: E402
from estserve_team.visiting.news import HARMLESS  # noqa: E402
from estserve_team.visiting.seats import SILENT_SECONDS, Changes, Seat, Seats  # noqa: E402
from estserve_team.visiting.visits import (  # noqa: E402
    LINK_SECONDS,
    VISIT_SECONDS,
    Links,
    Visits,
    digest_of,
)
from estserve_team.web import insides  # noqa: E402
from estserve_team.web.binding import bind_unix  # noqa: E402
from estserve_team.web.options import Bad, Options, add_options, read_options  # noqa: E402
from estserve_team.web.refusing import refusal_of, sentence_of  # noqa: E402
from estserve_team.web.trials import Trials  # noqa: E402
from estserve_team.words import Context  # noqa: E402


WAIT_SECONDS = 60  # more than what is waited for takes on any machine


class Clock:
    """A clock that is set by hand."""

    def __init__(self):
        self.now = 1_000_000.0

    def __call__(self):
        return self.now


def options_of(*words):
    parser = argparse.ArgumentParser()
    add_options(parser)
    return read_options(parser.parse_args(words))


class OptionsTest(unittest.TestCase):
    def test_no_http_unless_it_is_asked_for(self):
        self.assertIsNone(options_of())

    def test_loopback_is_the_place_where_none_is_named(self):
        self.assertEqual(
            options_of("--http"), Options(("127.0.0.1", 8710), None, None, "", None, None)
        )

    def test_loopback_has_several_names(self):
        for place, host in [
            ("localhost:80", "localhost"),
            ("127.9.9.9:1", "127.9.9.9"),
            ("[::1]:65535", "::1"),
        ]:
            self.assertEqual(options_of("--http", place).place[0], host)

    def test_another_host_needs_an_origin(self):
        for place in ("0.0.0.0:80", "192.168.1.4:80", "team.example.org:80", "[::]:80"):
            with self.assertRaises(Bad, msg=place):
                options_of("--http", place)
        read = options_of("--http", "0.0.0.0:80", "--origin", "https://Team.example.org/blue/")
        self.assertEqual((read.origin, read.prefix), ("https://team.example.org", "/blue"))

    def test_words_out_of_form_are_refused(self):
        for words in (
            ["--http", "127.0.0.1"],
            ["--http", "127.0.0.1:70000"],
            ["--http", ":80"],
            ["--origin", "https://a.example"],
            ["--http", "--origin", "team.example.org"],
            ["--http", "--origin", "https://u@a.example"],
            ["--http", "--origin", "ftp://a.example"],
            ["--http", "--origin", "https://a.example/?x"],
            ["--http-socket", "/tmp/s"],
        ):
            with self.assertRaises(Bad, msg=words):
                options_of(*words)

    def test_the_header_needs_the_proxys_socket_and_user(self):
        header, socket, origin = (
            ["--user-header", "X-Remote-User"],
            ["--http-socket", "/tmp/s"],
            ["--origin", "https://a.example"],
        )
        for words in (
            [*header, "--http"],
            [*header, *socket, *origin],
            [*header, "--proxy-user", "root", "--http"],
        ):
            with self.assertRaises(Bad, msg=words):
                options_of(*words)
        with self.assertRaises(Bad):
            options_of(*header, *socket, *origin, "--proxy-user", "no-such-user-here")
        read = options_of(*header, *socket, *origin, "--proxy-user", "root")
        self.assertEqual((read.header, read.proxy, read.socket), ("X-Remote-User", 0, "/tmp/s"))


class BindingTest(unittest.TestCase):
    """The Unix socket of a user who may not give it to its folder's group."""

    def bound(self, proxy):
        """The permissions of the socket."""
        held = tempfile.TemporaryDirectory()
        self.addCleanup(held.cleanup)
        path = os.path.join(held.name, "web.sock")
        with unittest.mock.patch("os.chown", side_effect=PermissionError(1, "no")):
            bind_unix(path, proxy).close()
        return os.stat(path).st_mode & 0o777

    def test_the_proxy_reaches_it(self):
        self.assertEqual(self.bound(os.geteuid()), 0o666)

    def test_a_socket_that_was_left_is_taken_away_and_a_file_stays(self):
        with tempfile.TemporaryDirectory() as folder:
            path = pathlib.Path(folder) / "web.sock"
            for _ in range(2):  # the second finds what the first has left
                bind_unix(str(path), None).close()
            path.unlink()
            path.write_text("mine")
            with self.assertRaisesRegex(Failed, f"{path} is no socket, and is kept"):
                bind_unix(str(path), None)
            self.assertEqual(path.read_text(), "mine")

    def test_where_everyone_may_speak_it_is_not_opened(self):
        with self.assertRaises(PermissionError):
            self.bound(None)


class LinksTest(unittest.TestCase):
    def setUp(self):
        self.clock = Clock()
        self.links = Links(self.clock)

    def test_a_link_is_spent_by_its_use(self):
        secret = self.links.make("ann")
        self.assertEqual(self.links.use(secret), "ann")
        self.assertIsNone(self.links.use(secret))

    def test_a_link_ends_by_time(self):
        early, late = self.links.make("ann"), self.links.make("ann")
        self.clock.now += LINK_SECONDS - 1
        self.assertEqual(self.links.use(early), "ann")
        self.clock.now += 1
        self.assertIsNone(self.links.use(late))

    def test_what_is_no_link_is_none(self):
        self.links.make("ann")
        for secret in ("", "x", "\ud800", "a" * 10_000):
            self.assertIsNone(self.links.use(secret))

    def test_too_many_links_push_the_oldest_out(self):
        secrets = [self.links.make("ann") for _ in range(300)]
        self.assertIsNone(self.links.use(secrets[0]))
        self.assertEqual(self.links.use(secrets[-1]), "ann")

    def test_nobody_pushes_out_anothers_link(self):
        links = Links(self.clock)
        secret = links.make("bob")
        for _ in range(3_000):
            links.make("ann")
        for at in range(1_000):
            links.make(f"{at}")
        self.assertEqual(links.use(secret), "bob")


class VisitsTest(unittest.TestCase):
    def setUp(self):
        held = tempfile.TemporaryDirectory()
        self.addCleanup(held.cleanup)
        self.path = pathlib.Path(held.name) / "visits.json"
        self.clock = Clock()
        self.visits = Visits(self.path, self.clock)

    def test_both_secrets_are_needed(self):
        cookie, token = self.visits.begin("ann")
        other_cookie, other_token = self.visits.begin("bob")
        self.assertEqual(self.visits.find(cookie, token).person, "ann")
        for pair in [
            (cookie, None),
            (None, token),
            (cookie, ""),
            (token, cookie),
            (cookie, other_token),
            (other_cookie, token),
        ]:
            self.assertIsNone(self.visits.find(*pair), pair)

    def test_a_visit_outlives_the_gateway(self):
        cookie, token = self.visits.begin("ann")
        self.assertEqual(Visits(self.path, self.clock).find(cookie, token).person, "ann")

    def test_the_file_is_private_and_has_no_secret(self):
        cookie, token = self.visits.begin("ann")
        self.assertEqual(os.stat(self.path).st_mode & 0o777, 0o600)
        text = self.path.read_text()
        self.assertNotIn(cookie, text)
        self.assertNotIn(token, text)
        self.assertIn(digest_of(cookie), text)

    def test_a_visit_ends_when_it_is_not_used(self):
        cookie, token = self.visits.begin("ann")
        self.clock.now += VISIT_SECONDS - 1
        self.assertIsNotNone(self.visits.find(cookie, token))
        self.clock.now += VISIT_SECONDS - 1
        self.assertIsNotNone(self.visits.find(cookie, token))
        self.assertIsNotNone(Visits(self.path, self.clock).find(cookie, token))
        self.clock.now += VISIT_SECONDS + 1
        self.assertIsNone(self.visits.find(cookie, token))
        self.assertIsNone(Visits(self.path, self.clock).find(cookie, token))

    def test_nobody_pushes_out_anothers_visit(self):
        mine = self.visits.begin("bob")
        own = [self.visits.begin("ann") for _ in range(40)]
        self.assertEqual(self.visits.find(*mine).person, "bob")
        self.assertIsNone(self.visits.find(*own[0]))
        self.assertIsNotNone(self.visits.find(*own[-1]))

    def test_a_visit_that_was_ended_is_over(self):
        cookie, token = self.visits.begin("ann")
        self.visits.end(self.visits.find(cookie, token))
        self.assertIsNone(self.visits.find(cookie, token))
        self.assertIsNone(Visits(self.path, self.clock).find(cookie, token))

    def test_a_file_that_is_broken_holds_no_visits(self):
        for text in ("", "[", "{}", '[["a"]]', '[[1,2,3,"x"]]'):
            self.path.write_text(text)
            self.assertIsNone(Visits(self.path, self.clock).find("a", "b"))

    def test_a_file_that_is_no_plain_one_or_nested_too_deep_is_made_anew(self):
        def nested(path):
            path.write_text("[" * 200_000)

        for plant in (
            os.mkfifo,
            nested,
            lambda path: path.write_text(f'[["a","b","c",{10**400}]]'),
        ):
            self.path.unlink(missing_ok=True)
            plant(self.path)
            os.mkfifo(self.path.with_suffix(".new"))
            told = []
            cookie, token = Visits(self.path, self.clock, tell=told.append).begin("ann")
            self.assertEqual(len(told), 1)
            self.assertIn("can't be read, and is made anew", told[0])
            self.assertIsNotNone(Visits(self.path, self.clock).find(cookie, token))


class Share:
    """A share of a login, for seats."""

    def __init__(self):
        self.is_over = False
        self.left = 0

    async def leave(self):
        self.left += 1
        raise Refused(1004, "Interrupted")


class SeatsTest(unittest.TestCase):
    def seat(self, seats):
        seat = Seat("cookie", Context(None, Person("ann", ("ann",)), Share()), Changes())
        seats.add(seat)
        return seat

    def test_a_seat_whose_page_is_gone_is_given_up_once(self):
        async def act():
            seats = Seats()
            gone, streaming, fresh = (self.seat(seats) for _ in range(3))
            for seat in (gone, streaming):
                seat.used -= SILENT_SECONDS + 1
            streaming.streams = 1
            seats.drop_silent()
            await asyncio.sleep(0.01)
            self.assertEqual([seat.share.left for seat in (gone, streaming, fresh)], [1, 0, 0])
            self.assertIsNone(seats.find(gone.name, "cookie"))
            self.assertIs(seats.find(fresh.name, "cookie"), fresh)
            self.assertIsNone(seats.find(fresh.name, "another cookie"))
            await seats.drop_all()
            await gone.leave()
            self.assertEqual([seat.share.left for seat in (gone, streaming, fresh)], [1, 1, 1])

        asyncio.run(act())

    def test_a_seat_of_a_login_that_is_over_is_not_found(self):
        async def act():
            seats = Seats()
            seat = self.seat(seats)
            seat.share.is_over = True
            self.assertIsNone(seats.find(seat.name, "cookie"))

        asyncio.run(act())


class TriedSeat:
    """A seat of a person who tries texts."""

    def __init__(self, person):
        self.person = person

    async def ask(self, request):
        return {"person": self.person, "session": 1}


class TrialsTest(unittest.TestCase):
    def test_one_who_tries_much_leaves_others_their_turns(self):
        """Ann's first trial lasts until Bob's has begun: if her others took his turn, it would not
        begin."""
        begun, bobs = [], threading.Event()

        def try_it(program, text, *_):
            begun.append(text)
            if text == "bob":
                bobs.set()
            return {"came": bobs.wait(WAIT_SECONDS)}

        async def work():
            tried = Trials(None)
            asked = [tried.try_out(TriedSeat("ann"), {"text": "ann"}) for _ in range(8)]
            return await asyncio.gather(*asked, tried.try_out(TriedSeat("bob"), {"text": "bob"}))

        stand_in = unittest.mock.create_autospec(try_text, side_effect=try_it)
        with unittest.mock.patch("estserve_team.web.trials.try_text", stand_in):
            told = asyncio.run(work())
        self.assertTrue(all(one["came"] for one in told))
        self.assertEqual(sorted(begun), ["ann"] * 8 + ["bob"])
        self.assertLess(begun.index("bob"), 2)


class InsideSeat(TriedSeat):
    """A seat of a person who looks into slots, each with the module of ten instants."""

    async def ask(self, request, **keys):
        if request == "here":
            return await super().ask(request)
        asked = {"name": "1.1", "load": 1, "main": "M", "text": "", "instants": 10}
        return {**asked, "inputs": [[]] * (10 - keys["known"]), "pending": []}


class StandingHeld:
    """A module in whose slot 5 nothing comes until another has looked."""

    def __init__(self, name, *_):
        self.name, self.word, self.lab = name, [], unittest.mock.Mock()

    def told(self, instant):
        if instant == 5:
            return {"came": InsidesTest.bobs.wait(WAIT_SECONDS)}
        InsidesTest.bobs.set()
        return {"came": True}


class StuckHeld(insides.Held):
    """A module of which a program says that instant 3 is stuck."""

    labs = []

    def __init__(self, name, load, *_):
        self.name, self.load, self.word, self.kept = name, load, [], {}
        self.lab = unittest.mock.Mock()
        self.inside = unittest.mock.Mock(at=0, names={}, looks=self.looks)
        self.labs.append(self.lab)

    def looks(self, word):
        """Stops at what is stuck, as the client's own does."""
        for _ in word:
            is_stuck = self.inside.at == 2
            self.inside.at += not is_stuck
            yield unittest.mock.Mock(is_stuck=is_stuck)
            if is_stuck:
                return

    def shown(self, look):
        return {"ran": [], "rests": [], "locals": []}


class InsidesTest(unittest.TestCase):
    bobs = threading.Event()

    def test_one_who_looks_into_much_leaves_others_their_turns(self):
        """Ann's first look lasts until Bob's has come."""

        async def work():
            looked = insides.Insides()
            asked = [
                looked.look(InsideSeat("ann"), {"slot": str(at % 8), "instant": "5"})
                for at in range(8)
            ]
            bobs = looked.look(InsideSeat("bob"), {"slot": "9", "instant": "1"})
            return await asyncio.gather(*asked, bobs)

        with unittest.mock.patch.object(insides, "Held", StandingHeld):
            self.assertTrue(all(one["came"] for one in asyncio.run(work())))

    def test_a_look_that_takes_long_goes_on_when_it_is_asked_again(self):
        held, now = insides.Held.__new__(insides.Held), [0.0]
        held.load, held.word, held.kept = 3, [[]] * 20, {}
        held.inside, held.shown = unittest.mock.Mock(at=0), lambda look: {}

        def looks(word):
            for _ in word:
                now[0] += insides.LOOK_SECONDS / 4
                held.inside.at += 1
                yield unittest.mock.Mock(is_stuck=False)

        held.inside.looks = looks
        with unittest.mock.patch.object(insides.time, "monotonic", lambda: now[0]):
            told = [held.told(20) for _ in range(4)]
        self.assertEqual([one["instant"] for one in told], [None, None, None, 20])
        self.assertEqual([one.get("later") for one in told], [True, True, True, None])

    def test_a_made_instant_that_estlab_finds_stuck_is_a_fault_and_not_asked_for_again(self):
        """The gateway has ten instants, estlab two: another kernel runs in it. Whoever asks for what
        comes after these two gets that as a refusal, and no answer that is to be asked again."""
        looked, ann, sentences = insides.Insides(), InsideSeat("ann"), []
        asked = (
            (looked.look, {"instant": "3"}),
            (looked.look, {"instant": "9"}),
            (looked.rows, {"from": "1", "to": "9"}),
            (looked.stuck, {}),
        )

        async def work():
            for ask, query in asked:
                second = await looked.look(ann, {"slot": "0", "instant": "2"})
                self.assertEqual(second["instant"], 2, "what came before is told")
                with self.assertRaises(Refused) as raised:
                    await ask(ann, {"slot": "0", **query})
                sentences.append(sentence_of(raised.exception.answer, {}))
                StuckHeld.labs.pop().client.close.assert_called_once_with()

        with unittest.mock.patch.object(insides, "Held", StuckHeld):
            asyncio.run(work())
        told = "Failed: instant 3 was made, and estlab finds it stuck"
        self.assertEqual(sentences, [told] * len(asked))
        self.assertEqual(StuckHeld.labs, [], "each fault has ended its program")


class NewsTest(unittest.TestCase):
    def test_what_is_passed_over_leaves_each_session_what_it_might_do(self):
        model = PolicyModel()

        def give(session, cmd, **keys):
            number = {"session": model.logins + 1} if cmd == "login" else {}
            model.add(session, {"cmd": cmd, **keys}, {"version": model.version + 1, **number})

        def rights():
            return {
                (number, pair): model.may(number, *pair)
                for number in (1, 2)
                for pair in model.pairs()
            }

        for role in ("driver", "lead"):
            give(1, "addrole", role=role)
            give(1, "grant", role=role, op="offer", object=f"0.{role}")
        give(1, "adduser", user="ann")
        give(1, "assign", user="ann", role="driver")
        give(None, "login", user="root", roles=["root"])
        give(None, "login", user="ann", roles=["driver"])
        before = rights()
        self.assertEqual(set(before.values()), {True, False})
        given = {
            "login": (None, {"user": "ann", "roles": ["driver"]}),
            "logout": (3, {}),
            "adduser": (1, {"user": "bob"}),
            "addrole": (1, {"role": "watcher"}),
            "assign": (1, {"user": "ann", "role": "lead"}),
            "dsd": (1, {"name": "apart", "roles": ["driver", "lead"], "count": 2}),
            "undsd": (1, {"name": "apart"}),
        }
        self.assertEqual(set(given), set(HARMLESS))
        for cmd, (session, keys) in given.items():
            give(session, cmd, **keys)
            self.assertEqual(rights(), before, cmd)


class SentencesTest(unittest.TestCase):
    def test_the_sentences_are_the_clients(self):
        command = {"cmd": "offer", "slot": 0, "signal": "R"}
        answer = {"code": 40, "fault": "Excluded", "relation": 1, "signal": "A"}
        told = refusal_of(answer, command, ["A # R"])
        self.assertEqual(
            told,
            {
                "refusal": answer,
                "sentence": "Excluded: relation 1 (A # R) excludes R, since A is pending",
            },
        )
        self.assertEqual(
            sentence_of({"code": 10, "fault": "Permission", "op": "step", "object": "0"}, {}),
            "Permission: needs step on 0",
        )

    def test_the_gateways_own_refusals_have_sentences_too(self):
        self.assertEqual(
            sentence_of({"code": 1001, "fault": "NotYou", "user": "root"}, {}),
            "NotYou: you may not log in as root",
        )
        taken = sentence_of(
            {"code": 1002, "fault": "AllTaken", "holders": [["ann", "ann"], ["bob", "eve"]]}, {}
        )
        self.assertEqual(
            taken, "AllTaken: each of the sixteen logins is held: ann of ann, bob of eve"
        )
        told = sentence_of({"code": 1015, "fault": "IdTaken", "id": "a1"}, {})
        self.assertTrue(told.startswith("IdTaken: another request has this id"), told)


class Granted:
    """Rights that have what was granted."""

    def __init__(self, *pairs):
        self.pairs = set(pairs)

    async def may(self, operation, object):
        return (operation, object) in self.pairs

    async def may_any(self, pairs):
        return bool(self.pairs.intersection(pairs))


class InoutsTest(unittest.TestCase):
    """A module with an inputoutput: it can be offered as an input can, and an output can not."""

    TEXT = "module M: input A; inputoutput B, C; output O; relation A # B; emit B end module"

    def setUp(self):
        self.slots = SlotsModel()
        load = {"cmd": "load", "slot": 0, "main": "M", "text": self.TEXT}
        self.slots.add(load, {"ok": "load", "place": 1, "version": 5})
        for place, name in enumerate("CB", 2):
            offer = {"cmd": "offer", "slot": 0, "signal": name}
            self.slots.add(offer, {"ok": "offer", "place": place, "version": 5})
        self.slot = self.slots[0]
        self.pairs = [("offer", "0.B"), ("observe", "0.C"), ("offer", "0.O"), ("observe", "0.O")]

    def test_kinds(self):
        wanted = [("A", "input"), ("B", "inout"), ("C", "inout"), ("O", "output")]
        self.assertEqual(self.slot.signals, wanted)

    def test_the_page_is_told_which_can_be_offered(self):
        asked = page_slots.may_of(Granted(*self.pairs), set(self.pairs), 0, self.slot.signals)
        may = asyncio.run(asked)
        self.assertEqual(may["offer"], {"A": False, "B": True, "C": False})
        self.assertEqual(may["observe"], {"A": False, "B": False, "C": True, "O": True})
        told = page_slots.shown(self.slot, may)
        self.assertEqual(told["pending"], ["C", "B"])
        self.assertEqual(told["signals"][1:], [["B", "inout"], ["C", "inout"], ["O", "output"]])

    def test_what_is_pending_is_told_to_who_may_offer_or_observe_it(self):
        class State:
            slots = self.slots

            class policy:
                pairs = staticmethod(lambda: self.pairs)

        for granted, names in ((self.pairs[:1], {"B"}), (self.pairs[1:2], {"C"}), ([], set())):
            seen = asyncio.run(who.seen_pending(Granted(*granted), State, {0}))
            self.assertEqual(seen, {0: names})
        lines = list(slots_lines({"slots": [who.slot_dict(self.slot, {"B"}, {})]}))
        wanted = ["   input   A", "   inout   B  pending", "   inout   C", "   output  O"]
        self.assertEqual(lines[1:], wanted)

    def test_a_second_run_may_offer_them(self):
        keys = [(one["op"], one["object"]) for one in Witness._permissions(self.slot)]
        offered = [object for operation, object in keys if operation == "offer"]
        self.assertEqual(offered, ["0.A", "0.B", "0.C"])


if __name__ == "__main__":
    unittest.main()
