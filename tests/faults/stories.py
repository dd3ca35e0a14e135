"""Dialogues, of one client or two, with the answer to each line."""
from peers import ROOT, STORED, accepted, command, refused

SCRIPTS = ROOT / "examples" / "scripts"


def stored(lines, answers):
    """The story of one client, of stored lines with their answers."""
    pairs = zip(lines.read_bytes().splitlines(keepends=True), answers.read_bytes().splitlines(keepends=True))
    return [("root", line, answer) for line, answer in pairs]


def script(name):
    return stored(SCRIPTS / name, SCRIPTS / f"{name}.stdout")


def turn(who, cmd, answer=None, **keys):
    """A command with its answer: the code and keys of a refusal, or the further keys of an answer that accepts it."""
    return who, command(cmd, **keys), refused(**answer) if "code" in answer else accepted(cmd, **answer)


def changes(first, *commands):
    """Commands of root that change the policy, at versions from this one on."""
    return [turn("root", keys.pop("cmd"), {"version": first + at}, **keys) for at, keys in enumerate(map(dict, commands))]


def grants(role, *pairs):
    return [{"cmd": "grant", "object": name, "op": op, "role": role} for op, name in pairs]


def revocation():
    """Root takes a permission away, while what was offered by it is pending; what was offered is in the next instant, or discarded."""
    text = "module M: input A; output B; loop present A then emit B end; pause end end module"
    offered = {"signal": "A", "slot": 0}
    denied = {"code": 10, "object": "0.A", "op": "offer"}
    shared = grants("root", ("load", "0"), ("step", "0"), ("observe", "0.A"), ("audit", "policy"), ("observe", "0.B"))
    return [
        turn("root", "login", {"session": 1, "version": 5}, roles=["root"], user="root"),
        *changes(6, *shared, {"cmd": "addrole", "role": "drv"}, {"cmd": "adduser", "user": "eng"}),
        *changes(13, {"cmd": "assign", "role": "drv", "user": "eng"}, *grants("drv", ("offer", "0.A"))),
        turn("eng", "login", {"session": 2, "version": 15}, roles=["drv"], user="eng"),
        turn("root", "load", {"place": 1, "version": 15}, main="M", slot=0, text=text),
        turn("eng", "check", {"allowed": True}, object="0.A", op="offer"),
        turn("eng", "offer", {"place": 2, "version": 15}, **offered),
        turn("root", "revoke", {"version": 16}, object="0.A", op="offer", role="drv"),
        turn("eng", "offer", denied, **offered),
        turn("eng", "check", {"allowed": False}, object="0.A", op="offer"),
        turn("root", "step", {"instant": 1, "place": 3, "version": 16}, slot=0),
        turn("root", "look", {"instant": 1, "signals": [["A", True], ["B", True]], "version": 16}, instant=1, slot=0),
        *changes(17, *grants("drv", ("offer", "0.A"))),
        turn("eng", "offer", {"place": 4, "version": 17}, **offered),
        turn("root", "revoke", {"version": 18}, object="0.A", op="offer", role="drv"),
        turn("root", "discard", {"place": 5, "version": 18}, slot=0),
        turn("root", "step", {"instant": 2, "place": 6, "version": 18}, slot=0),
        turn("root", "look", {"instant": 2, "signals": [["A", False], ["B", False]], "version": 18}, instant=2, slot=0),
        turn("root", "audit", {"entries": 6, "instants": 2, "version": 18}, slot=0),
        turn("eng", "logout", {"version": 19}),
        turn("root", "logout", {"version": 20}),
    ]


def nested():
    """A module whose local signals nest four deep, so that its load builds a table of cells."""
    passing = " || ".join(f"present {left} then emit {right} end" for left, right in zip("ASTUV", "STUVB"))
    text = f"module M: input A; output B; loop signal S, T, U, V in [{passing}]; pause end end end module"
    shared = [("load", "0"), ("step", "0"), ("audit", "policy")]
    signals = [("offer", "0.A"), ("observe", "0.A"), ("observe", "0.B")]
    present = [["A", True], ["B", True]]
    absent = [["A", False], ["B", False]]
    return [
        turn("root", "login", {"session": 1, "version": 5}, roles=["root"], user="root"),
        *changes(6, *grants("root", *shared, *signals)),
        turn("root", "load", {"place": 1, "version": 11}, main="M", slot=0, text=text),
        turn("root", "offer", {"place": 2, "version": 11}, signal="A", slot=0),
        turn("root", "step", {"instant": 1, "place": 3, "version": 11}, slot=0),
        turn("root", "look", {"instant": 1, "signals": present, "version": 11}, instant=1, slot=0),
        turn("root", "step", {"instant": 2, "place": 4, "version": 11}, slot=0),
        turn("root", "look", {"instant": 2, "signals": absent, "version": 11}, instant=2, slot=0),
        turn("root", "unload", {"place": 5, "version": 11}, slot=0),
        turn("root", "load", {"place": 6, "version": 11}, main="M", slot=0, text=text),
        turn("root", "step", {"instant": 1, "place": 7, "version": 11}, slot=0),
        turn("root", "logout", {"version": 12}),
    ]


def growing():
    """Each command that adds an entry, so often that it meets a list which has to grow."""
    text = "module M: input A; halt end module"
    shared = grants("root", ("load", "0"), ("step", "0"), ("offer", "0.A"), ("audit", "policy"))
    first = [
        turn("root", "login", {"session": 1, "version": 5}, roles=["root"], user="root"),
        *changes(6, *shared, {"cmd": "addrole", "role": "x"}, {"cmd": "assign", "role": "x", "user": "root"}),
    ]
    version, place, instant, body = 11, 0, 0, []

    def slot(cmd, **keys):
        nonlocal place, instant
        place, instant = place + 1, instant + 1 if cmd == "step" else 0 if cmd == "load" else instant
        told = {"instant": instant} if cmd == "step" else {}
        return turn("root", cmd, {**told, "place": place, "version": version}, slot=0, **keys)

    for _ in range(7):  # five entries of the slot, so that each of them comes where the list is full at some time
        body.append(slot("load", main="M", text=text))
        body += [slot("offer", signal="A"), slot("discard"), slot("step"), slot("unload")]
    for session in range(2, 12):  # three entries of the policy; its list and the receipts grow at versions 17, 21, 33 and 37
        body.append(turn("root", "activate", {"version": version + 1}, role="x"))
        body.append(turn("root", "logout", {"version": version + 2}))
        version += 3
        body.append(turn("root", "login", {"session": session, "version": version}, roles=["root"], user="root"))
    return first + body


def instants(text):
    """Three instants of a module, with I in each; O is there in the first and in the last."""
    shared = [("load", "0"), ("step", "0"), ("audit", "policy"), ("offer", "0.I"), ("observe", "0.I"), ("observe", "0.O")]
    told = [
        turn("root", "login", {"session": 1, "version": 5}, roles=["root"], user="root"),
        *changes(6, *grants("root", *shared)),
        turn("root", "load", {"place": 1, "version": 11}, main="M", slot=0, text=text),
    ]
    for instant, is_there in enumerate((True, False, True), 1):
        signals = [["I", True], ["O", is_there]]
        told += [
            turn("root", "offer", {"place": 2 * instant, "version": 11}, signal="I", slot=0),
            turn("root", "step", {"instant": instant, "place": 2 * instant + 1, "version": 11}, slot=0),
            turn("root", "look", {"instant": instant, "signals": signals, "version": 11}, instant=instant, slot=0),
        ]
    return told


def taken_back():
    """What is offered is taken back, and at last goes with the module. The slot's list grows at its entries 5, an offer, 9, a discard,
    and 17, the unload; at the last two I is pending."""
    told = [
        turn("root", "login", {"session": 1, "version": 5}, roles=["root"], user="root"),
        *changes(6, *grants("root", ("load", "0"), ("step", "0"), ("audit", "policy"), ("offer", "0.I"))),
        turn("root", "load", {"place": 1, "version": 9}, main="M", slot=0, text="module M: input I; pause end module"),
    ]
    words = ["offer", "discard", "discard"] * 2 + ["offer", "discard"] * 4 + ["offer", "unload"]
    for place, cmd in enumerate(words, 2):
        keys = {"signal": "I"} if cmd == "offer" else {}
        told.append(turn("root", cmd, {"place": place, "version": 9}, slot=0, **keys))
    return told


THREE = "module M: input I; output O; emit O; pause; pause; present I then emit O end end module"
# shows the same; its local signals nest four deep, so that its load builds a table of cells
THREE_NESTED = (
    "module M: input I; output O; emit O; pause; pause; "
    "signal A, B, C, D in [present I then emit A end || present A then emit B end "
    "|| present B then emit C end || present C then emit D end || present D then emit O end] end end module"
)

STORIES = {
    "opening script": lambda: stored(STORED / "stdin", STORED / "stdout"),
    "one duty at a time": lambda: script("one_duty_at_a_time"),
    "revocation": revocation,
    "relations between inputs": lambda: script("relations_between_inputs"),
    "a slot is emptied": lambda: script("a_slot_is_emptied"),
    "nested local signals": nested,
    "growing lists": growing,
    "three instants": lambda: instants(THREE),
    "three instants with nested local signals": lambda: instants(THREE_NESTED),
    "offers that are taken back": taken_back,
}
