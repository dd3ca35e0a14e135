"""A slot as docs/PROTOCOL.md says it: which commands are refused, as far as that can be told without the language's semantics."""

import re

from policy import Refused
from wire import IDENTIFIER

MOST_ENTRIES = 65_536
LIMITS = {"nesting", "signals", "relations", "statements", "loops", "traps", "locals"}
# refusals that only the language decides, each after those that are judged here: faults of a text, and a step without a reaction
OF_TEXTS = set(range(70, 81))
OF_STEPS = {50}


def is_place(keys, text):
    """Whether these keys name a place of the text, or the one just after its last byte."""
    lines = text.encode(errors="surrogatepass").split(b"\n")
    line, column = keys["line"], keys["column"]
    return 1 <= line <= len(lines) and 1 <= column <= len(lines[line - 1]) + 1


def is_fault_of(answer, text):
    """Whether a refusal of this text has the keys of its number, with values that can be."""
    keys = {key: value for key, value in answer.items() if key not in ("code", "fault")}
    code = answer["code"]
    if code in (70, 71):
        return set(keys) == {"line", "column"} and is_place(keys, text)
    if 72 <= code <= 77:
        return set(keys) == {"name"} and bool(IDENTIFIER.match(keys["name"]))
    if code == 79:
        return set(keys) == {"limit"} and keys["limit"] in LIMITS
    return set(keys) == {"relation"} and keys["relation"] >= 1 if code == 80 else not keys


class Module:
    """The interface and the relations of the main module of a text that was accepted: `both` has its inputoutputs."""

    def __init__(self, main, text):
        text = re.sub(r"%\{(?:.|\n)*?\}%|%[^\n]*", " ", text)
        body = re.search(rf"\bmodule\s+{main}\s*:(.*)", text, re.DOTALL)[1]
        self.signals, self.inputs, self.both, self.relations = [], set(), set(), []
        while found := re.match(r"\s*(inputoutput|input|output|relation)\b([^;]*);", body):
            parts = [part.strip() for part in found[2].split(",")]
            if found[1] == "relation":
                self.relations += parts
            else:
                self.signals += parts
                self.inputs |= set(parts) if found[1] == "input" else set()
                self.both |= set(parts) if found[1] == "inputoutput" else set()
            body = body[found.end():]

    def excluded(self, pending, signal):
        """The first exclusion, by its number, that the offered signal and a pending one break, with that one; or None."""
        for number, relation in enumerate(self.relations, 1):
            members = list(dict.fromkeys(name.strip() for name in relation.split("#")))
            if "#" in relation and signal in members:
                for member in members:
                    if member in pending and member != signal:
                        return number, member
        return None

    def lacking(self, pending):
        """The first implication, by its number, that the pending signals lack one of, with that one; or None."""
        for number, relation in enumerate(self.relations, 1):
            if "=>" in relation:
                condition, implied = [name.strip() for name in relation.split("=>")]
                if condition in pending and implied not in pending:
                    return number, implied
        return None


class Slot:
    """The journal of a slot, and what it says: the module that runs, the pending inputs, and the inputs of each instant."""

    def __init__(self, number):
        self.number = number
        self.entries = []
        self.module = None
        self.pending = set()
        self.instants = []

    def needs(self, command, keys):
        """The permission that the command needs, if any."""
        number = str(self.number)
        return {
            "load": ("load", number), "unload": ("load", number), "step": ("step", number), "discard": ("step", number),
            "offer": ("offer", f"{number}.{keys.get('signal')}"), "audit": ("audit", "policy"), "look": None,
        }[command]

    def judge(self, policy, session, command, keys):
        """Raises the first refusal that holds, of those that can be told here."""
        if session not in policy.sessions:
            raise Refused(4)
        needed = self.needs(command, keys)
        if needed and not policy.may(session, *needed):
            raise Refused(10, op=needed[0], object=needed[1])
        if command == "load":
            if self.module:
                raise Refused(61)
            return
        if command == "audit":
            return
        if not self.module:
            raise Refused(62)
        getattr(self, f"judge_{command}", lambda **_: None)(**keys)

    def judge_look(self, instant, **_):
        if not 1 <= instant <= len(self.instants):
            raise Refused(66)

    def judge_offer(self, signal, **_):
        module = self.module
        if signal not in module.signals:
            raise Refused(63)
        if signal not in module.inputs | module.both:
            raise Refused(64)
        if signal in self.pending:
            raise Refused(65)
        if found := module.excluded(self.pending, signal):
            raise Refused(40, relation=found[0], signal=found[1])

    def judge_step(self, **_):
        if found := self.module.lacking(self.pending):
            raise Refused(41, relation=found[0], missing=found[1])

    def judge_room(self, command):
        """Raises the refusal of a full journal, which comes after all others."""
        if command not in ("look", "audit") and len(self.entries) >= MOST_ENTRIES:
            raise Refused(67)

    def add(self, version, session, command, keys):
        """Adds the entry of a command that was accepted."""
        self.entries.append((version, session, command, keys))
        if command == "load":
            self.module, self.pending, self.instants = Module(keys["main"], keys["text"]), set(), []
        elif command == "unload":
            self.module, self.pending, self.instants = None, set(), []
        elif command == "offer":
            self.pending.add(keys["signal"])
        elif command == "discard":
            self.pending = set()
        elif command == "step":
            self.instants.append(self.pending)
            self.pending = set()
