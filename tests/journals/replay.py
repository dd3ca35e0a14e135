"""Connections' commands over the answers that they got: the journals that these make, judged anew, and the report on them."""

import json

from policy import Policy, Refused
from wire import FAULTS, LONGEST, ON_SLOTS, request_of, written
from slots import OF_STEPS, OF_TEXTS, Slot, is_fault_of


class Histories:
    """The journals of a server. `finding` tells the first entry that should not stand in them, in the report's words; `faults`
    tell the lines that were answered otherwise than docs/PROTOCOL.md says, in words of our own."""

    def __init__(self):
        self.policy = Policy()
        self.slots = {}
        self.findings = {}
        self.faults = []

    def finding(self):
        """The first finding, in the report's words: of the policy list, and then of the slots by number."""
        for journal in ["policy", *range(16)]:
            if journal in self.findings:
                return self.findings[journal]
        return "ok"

    def report(self):
        """The report on the journals."""
        lines = [f"policy: {self.policy.entries} entries"]
        for number, slot in sorted(self.slots.items()):
            commands = [command for _, _, command, _ in slot.entries]
            if commands:
                counts = f"{len(commands)} entries, {commands.count('load')} loads, {commands.count('step')} instants"
                lines.append(f"slot {number}: {counts}")
        return "".join(f"{line}\n" for line in [*lines, f"check: {self.finding()}"])


class Replay:
    """A connection to a server with these journals: its lines are taken in with their answers, in turn."""

    def __init__(self, histories):
        self.histories = histories
        self.session = None

    def fault(self, line, answer, wanted):
        self.histories.faults.append(f"{line[:80]}: answered {answer}, and not {wanted}")

    def expect(self, line, answer, **wanted):
        if answer != wanted:
            self.fault(line, answer, wanted)

    def refuse(self, line, answer, refused):
        """The answer has to be this refusal; else it is a finding in the journal that the command was accepted in, or a fault."""
        if answer != {"code": refused.code, "fault": FAULTS[refused.code], **refused.keys}:
            self.fault(line, answer, refused)

    def take(self, line, told):
        """Takes one line with its answer in, both in bytes, the line without its LF."""
        try:
            answer = json.loads(told)
        except ValueError:
            answer = None
        if not isinstance(answer, dict) or written(answer) != told:
            return self.fault(line, told, "an answer as it is written")
        return self.answer(line, answer)

    def answer(self, line, answer):
        """Takes one line with what its answer says in."""
        if len(line) > LONGEST:
            return self.refuse(line, answer, Refused(1))
        command, keys = request_of(line)
        if command is None:
            return self.refuse(line, answer, Refused(keys))
        if command == "login" and self.session is not None:
            return self.refuse(line, answer, Refused(5))
        if command != "login" and self.session is None:
            return self.refuse(line, answer, Refused(4))
        if command == "check":
            allowed = self.histories.policy.may(self.session, keys["op"], keys["object"])
            return self.expect(line, answer, ok="check", allowed=allowed)
        if command in ON_SLOTS:
            return self.on_slot(line, answer, command, keys)
        return self.on_policy(line, answer, command, keys)

    def on_policy(self, line, answer, command, keys):
        session = None if command == "login" else self.session
        try:
            after = self.histories.policy.decide(session, command, keys)
        except Refused as refused:
            if "ok" in answer:
                self.histories.findings.setdefault("policy", f"policy {self.histories.policy.entries + 1}")
            if command == "logout":
                self.session = None
            return self.refuse(line, answer, refused)
        self.histories.policy = after
        wanted = {"ok": command, "version": after.entries}
        if command == "login":
            wanted["session"] = self.session = after.logins
        if command == "logout":
            self.session = None
        return self.expect(line, answer, **wanted)

    def on_slot(self, line, answer, command, keys):
        number = keys["slot"]
        if number > 15:
            return self.refuse(line, answer, Refused(60 if self.session in self.histories.policy.sessions else 4))
        slot = self.histories.slots.setdefault(number, Slot(number))
        of_language = answer.get("code") in {"load": OF_TEXTS, "step": OF_STEPS}.get(command, ())
        try:
            slot.judge(self.histories.policy, self.session, command, keys)
            if not of_language:
                slot.judge_room(command)
        except Refused as refused:
            if "place" in answer:
                self.histories.findings.setdefault(number, f"refused {number} {len(slot.entries) + 1} {refused.code}")
            return self.refuse(line, answer, refused)
        if of_language:
            return self.by_language(line, answer, slot, keys)
        if command == "look":
            return self.look(line, answer, slot, keys["instant"])
        version = self.histories.policy.entries
        if command == "audit":
            return self.expect(line, answer, ok=command, entries=len(slot.entries), instants=len(slot.instants), version=version)
        slot.add(version, self.session, command, keys)
        wanted = {"ok": command, "place": len(slot.entries), "version": version}
        if command == "step":
            wanted["instant"] = len(slot.instants)
        return self.expect(line, answer, **wanted)

    def look(self, line, answer, slot, instant):
        """The signals that may be observed are shown in their order. An input is present where it was offered, and nowhere
        else; an inputoutput where it was offered, and maybe elsewhere."""
        module, inputs = slot.module, slot.instants[instant - 1]
        seen = self.seen(slot)
        shown = answer.get("signals", [])
        told = {**answer, "signals": [name for name, _ in shown]}
        self.expect(line, told, ok="look", instant=instant, signals=seen, version=self.histories.policy.entries)
        for name, present in shown:
            if name in module.inputs and present != (name in inputs):
                self.fault(line, answer, f"{name} {name in inputs}")
            if name in module.both & inputs and not present:
                self.fault(line, answer, f"{name} True")

    def by_language(self, line, answer, slot, keys):
        """A refusal that only the language decides has its name, and keys that can be."""
        if answer["fault"] != FAULTS[answer["code"]]:
            self.fault(line, answer, "the name of its number")
        if "text" in keys:
            if not is_fault_of(answer, keys["text"]):
                self.fault(line, answer, "a fault of this text")
            return
        seen = [name for name in self.seen(slot) if name not in slot.module.inputs | slot.pending]
        undecided = answer["undecided"]
        if set(answer) != {"code", "fault", "undecided"} or [name for name in seen if name in undecided] != undecided:
            self.fault(line, answer, f"some of {seen}")

    def seen(self, slot):
        """The signals of a slot that the session may observe."""
        policy = self.histories.policy
        return [name for name in slot.module.signals if policy.may(self.session, "observe", f"{slot.number}.{name}")]

    def end(self):
        """The end of the connection: a held login is logged out."""
        if self.session in self.histories.policy.sessions:
            self.histories.policy = self.histories.policy.decide(self.session, "logout", {})
        self.session = None


def replayed(lines, answers):
    """The journals of one connection with these lines and these answers."""
    histories = Histories()
    replay = Replay(histories)
    for line, answer in zip(lines, answers):
        replay.answer(line.encode(), json.loads(answer))
    if len(answers) != len(lines):
        histories.faults.append(f"{len(lines)} lines have {len(answers)} answers")
    replay.end()
    return histories


def lines_of(text):
    """The lines of a text, of which the last counts if it is not empty."""
    lines = text.split("\n")
    return lines if lines[-1] else lines[:-1]
