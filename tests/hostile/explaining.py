"""Whether the calls of many clients have an explanation: one order of all entries, beside which each call has the answer that
docs/PROTOCOL.md says.

Each call was made between two moments, and each answer that tells a place or a version says where its entry stands. Entries that
nobody was told of (the logout at a connection's end, what was asked by a peer that went) fill the places that are left, one way
or another. Then the journals are replayed, by the reading of tests/journals. An entry has to be accepted where it stands; any
other call has to have its answer at one of the states that there were between its two moments.
"""
import bisect
import collections
import functools
import json

from policy import Policy, Refused
from slots import Module, Slot
from soaking import END, FAULTY, TEXTS
from wire import FAULTS, LONGEST, ON_SLOTS, request_of

NEVER = float("inf")
MOST_TRIES = 200_000  # ways to fill the places that are left, at most
FACTS = ("users", "roles", "assigned", "granted", "edges", "sets")

# An entry that is asked for: in which session, what, between which moments. `answer` is None where nobody was told of it.
Asked = collections.namedtuple("Asked", "session command keys begun ended answer")


class Unexplained(Exception):
    """There is no explanation."""


class Bounds:
    """The places of a journal that was there between two moments, by the entries that are known."""

    def __init__(self, known):
        ends = sorted((asked.ended, place) for place, asked in known.items())
        begins = sorted((asked.begun, place) for place, asked in known.items())
        self.ended, self.begun = [end for end, _ in ends], [begin for begin, _ in begins]
        self.most, self.least = [0], [NEVER]
        for _, place in ends:
            self.most.append(max(self.most[-1], place))
        for _, place in reversed(begins):
            self.least.append(min(self.least[-1], place))
        self.least.reverse()

    def between(self, begun, ended, first, last):
        """The first and the last length that the journal can have had between these moments."""
        least = self.most[bisect.bisect_left(self.ended, begun)]
        after = self.least[bisect.bisect_right(self.begun, ended)]
        return max(first, least), min(last, after - 1)


def explained(known, chains, start, first, last, accepts):
    """The states of a journal from its start on, each after one entry more, up to its last place. What stands at places that are
    not known is drawn from the chains, each in its order; `accepts` gives the state after an entry, or None. With the states
    come the entries, and what is left of the chains. Raises Unexplained."""
    latest = [NEVER] * (last + 2)  # an entry begins before each one after it has ended
    for place in range(last, first - 1, -1):
        ended = known[place].ended if place in known else NEVER
        latest[place] = min(latest[place + 1], ended)
    states, entries, tries = [start], [], []
    place, options = first, None
    for _ in range(MOST_TRIES + 2 * last):
        if place > last:
            return states, entries, chains
        if options is None and place in known:
            options = iter([(known[place], chains)] if known[place].begun <= latest[place + 1] else [])
        elif options is None:
            heads = sorted((begun_of(chain), name) for name, chain in chains.items() if chain)
            options = iter([(one, rest) for begun, name in heads if begun <= latest[place] for one, rest in taken(chains, name)])
        after = None
        for one, rest in options:
            after = accepts(states[-1], one, place)
            if after is not None:
                break
        if after is not None:
            tries.append((options, chains))
            states.append(after)
            entries.append(one)
            chains, options, place = rest, None, place + 1
        elif tries:
            options, chains = tries.pop()
            states.pop()
            entries.pop()
            place -= 1
        else:
            break
    raise Unexplained(f"no way to place {place} of {last}: {known.get(place)}")


def begun_of(chain):
    return chain[0].begun


def taken(chains, name):
    """The ways to take an entry of a chain, with the chains that are left: its first, or its second, if the first was never made."""
    chain = chains[name]
    for at, one in enumerate(chain):
        yield one, {**chains, name: chain[at + 1 :]}


def decided(policy, asked, place):
    """The policy after a command, or None where it is refused or answered otherwise."""
    try:
        after = policy.decide(asked.session, asked.command, asked.keys)
    except Refused:
        return None
    if asked.command == "login" and asked.answer and asked.answer["session"] != after.logins:
        return None
    for facts in FACTS:  # what is the same is kept once
        if getattr(after, facts) == getattr(policy, facts):
            setattr(after, facts, getattr(policy, facts))
    return after


@functools.lru_cache(maxsize=None)
def module_of(main, text):
    return Module(main, text)


class State(Slot):
    """A slot at a moment: its journal's length, the load that runs, and how many instants this has had."""

    def __init__(self, number):
        super().__init__(number)
        self.entries, self.instants, self.pending, self.text, self.load = range(0), range(0), frozenset(), None, 0

    def after(self, command, keys):
        """The slot after an entry."""
        after = State(self.number)
        after.__dict__.update(self.__dict__)
        after.entries = range(len(self.entries) + 1)
        if command in ("load", "unload"):
            after.pending, after.instants, after.load = frozenset(), range(0), len(after.entries)
            after.text = keys.get("text")
            after.module = module_of(keys["main"], keys["text"]) if command == "load" else None
        elif command == "step":
            after.pending, after.instants = frozenset(), range(len(self.instants) + 1)
        else:
            after.pending = self.pending | {keys["signal"]} if command == "offer" else frozenset()
        return after

    def is_stuck(self):
        """Whether a step has no reaction."""
        return self.text == TEXTS["paradox"] and "A" in self.pending

    def judge_all(self, policy, session, command, keys):
        """Raises the refusal of a command, with those that the language decides."""
        self.judge(policy, session, command, keys)
        if command == "load" and keys["text"] in FAULTY:
            answer = dict(FAULTY[keys["text"]])
            raise Refused(answer.pop("code"), **answer)
        if command == "step" and self.is_stuck():
            undecided = ["O"] if policy.may(session, "observe", f"{self.number}.O") else []
            raise Refused(50, undecided=undecided)
        self.judge_room(command)


class Explanation:
    """The calls of all clients, and the journals that the server's report tells of. Raises Unexplained."""

    def __init__(self, calls, lengths):
        self.sessions, self.policies, self.slots, self.inputs, self.versions = {}, [], {}, {}, {}
        self.judged = collections.Counter()
        asked = [self.asked_of(call) for call in calls]
        self.order_policy(asked, lengths["policy"])
        for number in range(16):
            self.order_slot(asked, number, lengths.get(number, 0))
        for one in filter(None, asked):
            self.judge(one)

    def asked_of(self, call):
        """What a call asks, in the session that its connection holds then. The end of a connection asks for a logout."""
        session = self.sessions.get(call.connection)
        command, keys = ("logout", {}) if call.line == END else request_of(call.line.rstrip(b"\n"))
        answer, ended = call.answer, NEVER if call.ended is None else call.ended
        if call.line == END:
            answer = None
        if command == "login" and session is None and answer and "ok" in answer:
            self.sessions[call.connection] = answer["session"]
        if command == "logout" and answer:
            self.sessions[call.connection] = None
        if call.line == END and session is None:
            return None
        return call.connection, call.line, Asked(session, command, keys, call.begun, ended, answer)

    def order_policy(self, asked, last):
        """Finds an order of the policy list."""
        known, chains = {}, {}
        for connection, _, one in filter(None, asked):
            if one.command is None or one.command in ON_SLOTS or one.command == "check":
                continue
            if one.answer is None:
                chains[connection] = (*chains.get(connection, ()), one)
            elif "ok" in one.answer:
                if one.answer["version"] in known:
                    raise Unexplained(f"two entries at version {one.answer['version']}")
                known[one.answer["version"]] = one
        self.policies, _, chains = explained(known, chains, Policy(), 5, last, decided)
        self.bounds = Bounds(known)
        if self.policies[-1].sessions:
            raise Unexplained(f"sessions are left: {sorted(self.policies[-1].sessions)}")

    def policy(self, version):
        return self.policies[version - 4]

    def order_slot(self, asked, number, last):
        """Finds an order of a slot's journal, with the version of each entry."""
        known, chains, at = {}, {}, {}
        for connection, _, one in filter(None, asked):
            if one.command not in ON_SLOTS or one.keys["slot"] != number or one.command in ("look", "audit"):
                continue
            if one.answer is None:
                chains[connection] = (one,)
            elif "ok" in one.answer:
                known[one.answer["place"]] = one

        def accepts(state, one, place):
            if one.answer:
                versions = [one.answer["version"]]
            else:
                least, most = self.bounds.between(one.begun, NEVER, max(at.get(place - 1, 4), 4), len(self.policies) + 3)
                following = next((known[later].answer["version"] for later in range(place + 1, last + 1) if later in known), most)
                versions = range(least, min(most, following) + 1)
            for version in versions:
                try:
                    state.judge_all(self.policy(version), one.session, one.command, one.keys)
                except (Refused, IndexError):
                    continue
                at[place] = version
                after = state.after(one.command, one.keys)
                return after if one.command != "step" or not one.answer or one.answer["instant"] == len(after.instants) else None
            return None

        states, entries, _ = explained(known, chains, State(number), 1, last, accepts)
        versions = [4, *(at[place] for place in range(1, last + 1))]
        if versions != sorted(versions):
            raise Unexplained(f"versions of slot {number} fall")
        self.slots[number] = states, versions, Bounds(known)
        for place, (before, after, one) in enumerate(zip(states, states[1:], entries), 1):
            if one.command == "step":
                self.inputs[number, after.load, len(after.instants)] = before.pending

    def judge(self, asked):
        """Judges the answer to a call."""
        _, line, one = asked
        if one.answer is None:
            return
        if not any(one.answer == wanted for wanted in self.wanted(line, one)):
            raise Unexplained(f"session {one.session}: {line[:100]} answered {one.answer}")
        self.judged[one.answer.get("code", one.command)] += 1

    def wanted(self, line, one):
        """The answers that a call may have."""
        is_long = len(line.rstrip(b"\n")) > LONGEST
        if is_long or one.command is None:
            yield told(Refused(1 if is_long else one.keys))
        elif one.command != "login" and one.session is None:
            yield told(Refused(4))
        elif one.command == "login" and one.session is not None:
            yield told(Refused(5))
        elif one.command in ON_SLOTS:
            yield from self.wanted_of_slot(one)
        else:
            yield from self.wanted_of_policy(one)

    def versions_of(self, one):
        """The versions at which a call may have been judged; if its answer tells one, that one."""
        least, most = self.bounds.between(one.begun, one.ended, 4, len(self.policies) + 3)
        if "version" in one.answer:
            own = one.answer["version"] - (one.command not in ON_SLOTS)
            return [own] if least <= own <= most else []
        return range(least, most + 1)

    def wanted_of_policy(self, one):
        for version in self.versions_of(one):
            policy = self.policy(version)
            if one.command == "check":
                yield {"ok": "check", "allowed": policy.may(one.session, one.keys["op"], one.keys["object"])}
                continue
            try:
                after = policy.decide(one.session, one.command, one.keys)
            except Refused as refused:
                yield told(refused)
                continue
            answer = {"ok": one.command, "version": version + 1}
            yield {**answer, "session": after.logins} if one.command == "login" else answer

    def wanted_of_slot(self, one):
        number = one.keys["slot"]
        if number > 15:
            for version in self.versions_of(one):
                yield told(Refused(60 if one.session in self.policy(version).sessions else 4))
            return
        states, versions, bounds = self.slots[number]
        last = len(states) - 1
        first, most = bounds.between(one.begun, one.ended, 0, last)
        if "place" in one.answer:
            first = most = one.answer["place"] - 1
        for place in range(first, most + 1):
            following = versions[place + 1] if place < last else NEVER
            for version in self.versions_of(one):
                if versions[place] <= version <= following:
                    yield self.answer_at(states[place], version, one)

    def answer_at(self, state, version, one):
        """The answer to a command on a slot in this state, at this version."""
        policy = self.policy(version)
        try:
            state.judge_all(policy, one.session, one.command, one.keys)
        except Refused as refused:
            return told(refused)
        answer = {"ok": one.command, "version": version}
        if one.command == "audit":
            return {**answer, "entries": len(state.entries), "instants": len(state.instants)}
        if one.command == "look":
            return {**answer, "instant": one.keys["instant"], "signals": self.shown(state, policy, one)}
        after = state.after(one.command, one.keys)
        answer["place"] = len(after.entries)
        return {**answer, "instant": len(after.instants)} if one.command == "step" else answer

    def shown(self, state, policy, one):
        """What a look shows: the inputs of the instant, and the outputs that these make in all the modules."""
        inputs = self.inputs[state.number, state.load, one.keys["instant"]]
        present = {*inputs, *(output for signal, output in (("A", "O"), ("B", "P")) if signal in inputs)}
        return [
            [name, name in present]
            for name in state.module.signals
            if policy.may(one.session, "observe", f"{state.number}.{name}")
        ]


def told(refused):
    """The answer that is this refusal."""
    return {"code": refused.code, "fault": FAULTS[refused.code], **refused.keys}


def lengths_of(report):
    """How many entries the journals of a report have."""
    lines = [line.replace(":", "").split() for line in report.splitlines()[:-1]]
    return {"policy": int(lines[0][1]), **{int(words[1]): int(words[2]) for words in lines[1:]}}
