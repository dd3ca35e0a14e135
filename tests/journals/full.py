"""Two dialogues that fill the journal of a slot, and what is answered then: a load, and offers, steps and discards up to the limit;
and a load, and offers and discards, of which the last is an offer."""

from slots import MOST_ENTRIES
from wire import written

TEXT = "module M: input I; output O; every I do emit O end end module"
GRANTED = {"load": "0", "step": "0", "offer": "0.I", "observe": "0.O", "audit": "policy"}
VERSION = 5 + len(GRANTED)
INSTANTS = (MOST_ENTRIES - 1) // 3
FULL = {"code": 67, "fault": "JournalFull"}


def opening():
    """Root logs in and is given what the dialogue needs."""
    yield {"cmd": "login", "roles": ["root"], "user": "root"}, {"ok": "login", "session": 1, "version": 5}
    for version, (operation, target) in enumerate(GRANTED.items(), 6):
        yield {"cmd": "grant", "object": target, "op": operation, "role": "root"}, {"ok": "grant", "version": version}


def filling():
    """A load, and after it as many instants as there is room for: each is offered I, and discards nothing after its step."""
    yield {"cmd": "load", "main": "M", "slot": 0, "text": TEXT}, {"ok": "load", "place": 1, "version": VERSION}
    for instant in range(1, INSTANTS + 1):
        yield {"cmd": "offer", "signal": "I", "slot": 0}, {"ok": "offer", "place": 3 * instant - 1, "version": VERSION}
        yield {"cmd": "step", "slot": 0}, {"instant": instant, "ok": "step", "place": 3 * instant, "version": VERSION}
        yield {"cmd": "discard", "slot": 0}, {"ok": "discard", "place": 3 * instant + 1, "version": VERSION}


def closing():
    """What adds an entry is refused, in its order; looks and audits are answered as before."""
    yield {"cmd": "offer", "signal": "I", "slot": 0}, FULL
    yield {"cmd": "step", "slot": 0}, FULL
    yield {"cmd": "discard", "slot": 0}, FULL
    yield {"cmd": "unload", "slot": 0}, FULL
    yield {"cmd": "load", "main": "M", "slot": 0, "text": TEXT}, {"code": 61, "fault": "Occupied"}
    yield (
        {"cmd": "look", "instant": INSTANTS, "slot": 0},
        {"instant": INSTANTS, "ok": "look", "signals": [["O", True]], "version": VERSION},
    )
    yield {"cmd": "look", "instant": INSTANTS + 1, "slot": 0}, {"code": 66, "fault": "NoInstant"}
    yield (
        {"cmd": "audit", "slot": 0},
        {"entries": MOST_ENTRIES, "instants": INSTANTS, "ok": "audit", "version": VERSION},
    )
    yield {"cmd": "logout"}, {"ok": "logout", "version": VERSION + 1}


REPORT = f"policy: {VERSION + 1} entries\nslot 0: {MOST_ENTRIES} entries, 1 loads, {INSTANTS} instants\ncheck: ok\n"


def waiting():
    """A load, and after it an offer and a discard in turn. The last place is an offer's, which waits for a step for ever."""
    yield {"cmd": "load", "main": "M", "slot": 0, "text": TEXT}, {"ok": "load", "place": 1, "version": VERSION}
    for place in range(2, MOST_ENTRIES + 1):
        line = {"cmd": "discard", "slot": 0} if place % 2 else {"cmd": "offer", "signal": "I", "slot": 0}
        yield line, {"ok": line["cmd"], "place": place, "version": VERSION}
    yield {"cmd": "discard", "slot": 0}, FULL
    yield {"cmd": "offer", "signal": "I", "slot": 0}, {"code": 65, "fault": "AlreadyOffered"}
    yield {"cmd": "step", "slot": 0}, FULL
    yield {"cmd": "unload", "slot": 0}, FULL
    yield {"cmd": "look", "instant": 1, "slot": 0}, {"code": 66, "fault": "NoInstant"}
    yield {"cmd": "audit", "slot": 0}, {"entries": MOST_ENTRIES, "instants": 0, "ok": "audit", "version": VERSION}
    yield {"cmd": "logout"}, {"ok": "logout", "version": VERSION + 1}


WAITING_REPORT = f"policy: {VERSION + 1} entries\nslot 0: {MOST_ENTRIES} entries, 1 loads, 0 instants\ncheck: ok\n"


def lines_of_waiting():
    """The second dialogue: each line with its answer, in bytes."""
    return ((written(line), written(answer)) for part in (opening(), waiting()) for line, answer in part)


def dialogue():
    """The first dialogue: its lines, and their answers."""
    pairs = [*opening(), *filling(), *closing()]
    return tuple(b"".join(written(pair[side]) for pair in pairs).decode() for side in (0, 1))
