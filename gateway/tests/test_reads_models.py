"""After 2,000 random commands the reads say what the program answers to `check` and `look`."""
import json
import random
import unittest

from reads_support import ABRO, ROOT, Desk, load_module

from estserve_team.reads.policy_model import OPERATIONS
from estserve_team.reads.state import models_of
from estserve_team.refusals import Refused

COMMANDS = 2_000
RANDOM = 6  # connections that give random commands; each of the others logs in afterwards
NARROW = [("audit", "policy"), ("offer", "0.A"), ("observe", "1.O"), ("step", "2"), None]
SEED = 31
USERS = ["root", "ann", "bob", "cho"]
ROLES = ["root", "driver", "watcher", "stepper", "chief", "auditor"]
PLACES = ["0", "1", "2"]
NAMES = ["A", "B", "R", "O", "P", "I"]
TEXTS = {
    "ABRO": ABRO,
    "M": "module M: input I, A; output P, O; relation I # A;"
    " emit P; every I do emit O end end module",
    "TWO": "module TWO: output O; input A, B; relation A => B; every A do emit O end end module"
    " module ONE: input X; nothing end module",
}
OBJECTS = ["policy", *PLACES, *(f"{place}.{name}" for place in PLACES for name in NAMES)]
ADMINISTRATION = {
    "adduser": 2,
    "deluser": 1,
    "addrole": 3,
    "delrole": 1,
    "assign": 10,
    "deassign": 3,
    "grant": 40,
    "revoke": 9,
    "inherit": 8,
    "disinherit": 3,
    "dsd": 5,
    "undsd": 5,
}
DRIVING = {
    "load": 6,
    "unload": 1,
    "offer": 30,
    "discard": 3,
    "step": 20,
    "activate": 8,
    "drop": 4,
    "logout": 3,
}


def keys_of(chance, command):
    """The keys of a random command."""
    if command == "dsd":
        roles = chance.sample(ROLES[1:], chance.choice([2, 2, 3]))
        return {"name": chance.choice(["s1", "s2", "s3"]), "roles": roles, "count": 2}
    if command == "load":
        main = chance.choice(list(TEXTS))
        return {"slot": chance.randrange(3), "main": main, "text": TEXTS[main]}
    words = {
        "user": USERS[1:],
        "role": ROLES[1:] if command != "grant" else ROLES,
        "senior": ROLES,
        "junior": ROLES[1:],
        "op": OPERATIONS,
        "object": OBJECTS,
        "slot": range(3),
        "signal": NAMES,
        "name": ["s1", "s2", "s3"],
    }
    wanted = {
        "adduser": "user",
        "deluser": "user",
        "addrole": "role",
        "delrole": "role",
        "assign": "user role",
        "deassign": "user role",
        "grant": "role op object",
        "revoke": "role op object",
        "inherit": "senior junior",
        "disinherit": "senior junior",
        "undsd": "name",
        "offer": "slot signal",
        "activate": "role",
        "drop": "role",
        "logout": "",
    }
    return {key: chance.choice(words[key]) for key in wanted.get(command, "slot").split()}


def give_random(chance, desk):
    """Gives one random command on a random connection, or logs one in.

    A command is answered NoSession exactly where the model says that the session has ended."""
    seat = chance.choice(desk.seats[1:RANDOM]) if chance.random() < 0.4 else desk.seats[0]
    if seat is desk.seats[0] and seat.session is None:
        return seat.need("login", user="root", roles=["root"])
    if seat.session is None:
        roles = chance.sample(ROLES[1:], chance.choice([0, 1, 1, 2]))
        return seat.give("login", user=chance.choice(USERS[1:]), roles=roles)
    table = ADMINISTRATION if seat is desk.seats[0] and chance.random() < 0.5 else DRIVING
    command = chance.choices(list(table), list(table.values()))[0]
    number, lives = seat.session, seat.session in desk.reads.policy.sessions
    answer = seat.give(command, **keys_of(chance, command))
    assert lives == (answer.get("code") != 4), (number, command, answer)
    if answer.get("code") == 4 and command != "logout" and chance.random() < 0.5:
        seat.give("logout")
    return answer


def prepare(desk):
    """Root makes the users and roles, and may do all on the slots, so that much is accepted."""
    root = desk.root()
    for user in USERS[1:]:
        root.need("adduser", user=user)
    for role in ROLES[1:]:
        root.need("addrole", role=role)
    for place in PLACES:
        root.need("grant", role="root", op="load", object=place)
        root.need("grant", role="root", op="step", object=place)
        for name in NAMES:
            root.need("grant", role="root", op="offer", object=f"{place}.{name}")


def log_in_narrow(desk, seat, pair):
    """Root makes a user that has one permission alone, or none, which logs in."""
    root, name = desk.seats[0], f"only{seat.number}"
    root.need("adduser", user=name)
    root.need("addrole", role=name)
    root.need("assign", user=name, role=name)
    if pair is not None:
        root.give("grant", role=name, op=pair[0], object=pair[1])
    seat.need("login", user=name, roles=[name])


class RandomCommands(unittest.TestCase):
    """One run of random commands; each test compares another read with the program."""

    @classmethod
    def setUpClass(cls):
        cls.desk = Desk(seats=RANDOM + len(NARROW))
        cls.enterClassContext(cls.desk) if hasattr(cls, "enterClassContext") else cls.enter()
        chance = random.Random(SEED)
        prepare(cls.desk)
        cls.answers = [give_random(chance, cls.desk) for _ in range(COMMANDS)]
        if not cls.desk.seats[0].allowed("administer", "policy"):
            cls.desk.seats[0].give("logout")
            cls.desk.root()
        for seat, pair in zip(cls.desk.seats[RANDOM:], NARROW):
            log_in_narrow(cls.desk, seat, pair)

    @classmethod
    def enter(cls):
        """Begins and ends the desk with the class, for a unittest without a call for that."""
        cls.desk.__enter__()
        cls.addClassCleanup(cls.desk.__exit__)

    def live(self):
        """The connections with a login, its session ended or not."""
        seats = [seat for seat in self.desk.seats if seat.session]
        self.assertGreater(len(seats), RANDOM)
        return seats

    def allowed(self, seat):
        """The pairs that `check` allows a connection, of all that random commands name."""
        pairs = [(op, object) for op in OPERATIONS for object in OBJECTS]
        checks = [{"cmd": "check", "object": object, "op": op} for op, object in pairs]
        answers = seat.client.ask_all(checks)
        return {pair for pair, answer in zip(pairs, answers) if answer["allowed"]}

    def test_random_commands_are_of_every_kind(self):
        accepted = [answer["ok"] for answer in self.answers if "ok" in answer]
        wanted = {*ADMINISTRATION, *DRIVING, "login"}
        self.assertEqual(wanted - set(accepted), set())
        self.assertGreater(len(accepted), COMMANDS // 3)
        self.assertGreater(len({answer.get("code") for answer in self.answers}), 10)

    def test_may_is_check(self):
        policy, some = self.desk.reads.policy, 0
        for seat in self.live():
            said = {
                (op, object)
                for op in OPERATIONS
                for object in OBJECTS
                if policy.may(seat.session, op, object)
            }
            self.assertEqual(said, self.allowed(seat))
            some += len(said)
        self.assertGreater(some, 50)

    def test_the_record_makes_the_same_models_again(self):
        again, state = models_of(self.desk.record_path), self.desk.reads
        self.assertEqual(again.policy.facts(), state.policy.facts())
        self.assertEqual(again.policy.sessions, state.policy.sessions)
        for slot, other in zip(again.slots.slots, state.slots.slots):
            for name in ("main", "text", "entries", "version", "instants", "pending", "signals"):
                self.assertEqual(getattr(slot, name), getattr(other, name))

    def test_a_second_reading_of_the_documents_makes_the_same_facts(self):
        other = load_module(ROOT / "tests" / "journals" / "policy.py", "journals_policy").Policy()
        with_keys = "SELECT session, request FROM entries WHERE slot = -1 ORDER BY place"
        for session, request in self.desk._database.execute(with_keys):
            keys = json.loads(request)
            command = keys.pop("cmd")
            getattr(other, command)(session, **keys)
            other.end_sessions()
            other.entries += 1
        mine = self.desk.reads.policy
        self.assertEqual(other.entries, mine.version)
        self.assertEqual(other.users, set(mine.users))
        self.assertEqual(other.roles, set(mine.roles))
        self.assertEqual(other.assigned, set(mine.assigned))
        self.assertEqual(other.granted, set(mine.granted))
        self.assertEqual(other.edges, set(mine.edges))
        sets = {name: (one.count, list(one.roles)) for name, one in mine.sets.items()}
        self.assertEqual((list(other.sets), other.sets), (list(sets), sets))
        self.assertEqual(
            {number: (session.user, session.active) for number, session in other.sessions.items()},
            {
                number: (session.user, set(session.active))
                for number, session in mine.sessions.items()
            },
        )

    def test_slots_are_as_looks_and_audits_show_them(self):
        root, instants = self.desk.seats[0], 0
        self.assertTrue(root.allowed("administer", "policy"))
        root.give("grant", role="root", op="audit", object="policy")
        for slot in self.desk.reads.slots.slots[:3]:
            for name in NAMES:
                root.give("grant", role="root", op="observe", object=f"{slot.number}.{name}")
            audit = root.client.audit(slot.number)
            self.assertEqual(
                (audit["entries"], audit["instants"]), (slot.entries, len(slot.instants))
            )
            numbers = range(1, len(slot.instants) + 1)
            looks = [{"cmd": "look", "instant": number, "slot": slot.number} for number in numbers]
            for inputs, look in zip(slot.instants, root.client.ask_all(looks)):
                shown = look["signals"]
                self.assertEqual([name for name, _ in shown], [name for name, _ in slot.signals])
                kinds = dict(slot.signals)
                present = {name for name, status in shown if status and kinds[name] == "input"}
                self.assertEqual(present, set(inputs))
                instants += 1
        self.assertGreater(instants, 5)

    def test_slots_tells_what_check_allows_and_no_more(self):
        told_some = hidden_some = 0
        for seat in self.live():
            allowed = self.allowed(seat)
            told = {one["slot"]: one for one in self.desk.read(seat, "slots", text=True)["slots"]}
            seen = {int(object.split(".")[0]) for _, object in allowed if object != "policy"}
            self.assertEqual(set(told), seen)
            hidden_some += 3 - len(seen)
            for number, one in told.items():
                slot = self.desk.reads.slots[number]
                self.assertEqual((one["main"], one["text"]), (slot.main, slot.text))
                pairs = {
                    name: {("offer", f"{number}.{name}"), ("observe", f"{number}.{name}")}
                    for name in slot.pending
                }
                self.assertEqual(
                    one["pending"], [name for name in slot.pending if pairs[name] & allowed]
                )
                told_some += 1
                if slot.instants:
                    self.assertEqual(
                        one["last"], seat.client.look(number, len(slot.instants))["signals"]
                    )
        self.assertGreater(min(told_some, hidden_some), 2)

    def test_policy_and_log_of_others_are_for_who_may_administer_or_audit(self):
        seen = set()
        for seat in self.live():
            whole = seat.allowed("administer", "policy") or seat.allowed("audit", "policy")
            policy = self.desk.read(seat, "policy")
            self.assertEqual(policy["whole"], whole)
            if not whole:
                self.assertEqual(set(policy["users"]) - {seat.user}, set())
            entries = self.desk.read(seat, "log", last=1_000)["entries"]
            self.assertEqual({entry["person"] for entry in entries} == {seat.person}, not whole)
            for other in USERS:
                self.read_of_another(seat, other, whole)
            seen.add(whole)
        self.assertEqual(seen, {True, False})

    def read_of_another(self, seat, other, whole):
        """What names another user is refused without oversight, and only then."""
        for word, keys in (
            ("log", {"user": other}),
            ("why", {"user": other, "op": "step", "object": "0"}),
        ):
            if whole or other == seat.user:
                self.assertEqual(self.desk.read(seat, word, **keys)["ok"], word)
            else:
                with self.assertRaises(Refused) as refused:
                    self.desk.read(seat, word, **keys)
                self.assertEqual(refused.exception.code, 1011)

    def test_why_has_a_way_exactly_where_some_session_could_be_allowed(self):
        root, ways = self.desk.seats[0], 0
        for seat in self.live():
            for operation, object in sorted(self.allowed(seat)):
                told = self.desk.read(root, "why", user=seat.user, op=operation, object=object)
                self.assertIn(seat.session, told["sessions"])
                active = set(self.desk.reads.policy.sessions[seat.session].active)
                self.assertTrue(any(self.passes(way["roles"], active) for way in told["ways"]))
                ways += len(told["ways"])
            own = self.desk.read(seat, "why", user=seat.user, op="step", object="1")
            self.assertEqual(own["allowed"], seat.allowed("step", "1"))
            self.assertEqual(own["sessions"].count(seat.session), int(own["allowed"]))
        self.assertGreater(ways, 50)

    def passes(self, chain, active):
        """Whether the last role of a chain lies at or below one of the active roles."""
        return bool(self.desk.reads.policy.below(active) & {chain[-1]})


if __name__ == "__main__":
    unittest.main()
