"""The words for whoever oversees a team, and the one that takes a single offer back."""
import asyncio
from typing import Any, Dict, List

from .answer_order import Asked
from .lines import Request, request_of
from .metrics import health
from .reads.rights import Rights
from .reads.slot_model import JOURNAL, SLOTS, Slot
from .refusals import failed, interrupted, not_a_word, not_allowed
from .sessions import set_result
from .words import Context, Word

SETTLE_SECONDS = 10  # so long the commands of others on the slot may take


async def tell_health(context: Context, keys: Dict[str, Any]) -> Dict[str, Any]:
    """Whether the gateway is well."""
    return health(context.gateway)


async def need_administrator(context: Context, what: str) -> None:
    """Raises Refused, where the session may not administer the policy."""
    if not await Rights(context.session).may("administer", "policy"):
        raise not_allowed(f"{what} needs administer on policy")


async def kick(context: Context, keys: Dict[str, Any]) -> Dict[str, Any]:
    """Ends all connections, logins and visits of a Unix user, or one session. The record has it
    first. Raises Refused."""
    if len(keys) != 1 or keys.get("session", 1) < 1:
        raise not_a_word("kick takes a person, or the number of a session")
    await need_administrator(context, "kick")
    gateway, by = context.gateway, context.person.name
    gateway.note_act("kick", {"by": by, **keys})
    gateway.log(f"{by} kicks {keys}", "kicked", by=by, **keys)
    if "session" in keys:
        return await kick_session(gateway, keys["session"])
    name = keys["person"]
    clients = [one for one in gateway.clients if one.person and one.person.name == name]
    for client in clients:
        client.close()
    visits = gateway.visiting.end_visits(name, None)
    return {"connections": len(clients), "sessions": 0, "visits": visits}


async def kick_session(gateway: Any, number: int) -> Dict[str, Any]:
    """Ends one session: the connection at team.sock whose login it is, or the login that others
    share."""
    found = [one for one in gateway.sessions.values() if one.session == number]
    clients = [one for one in gateway.clients if getattr(one, "session", None) in found]
    for client in clients:
        client.close()  # which logs out
    for session in found if not clients else ():
        await gateway.close_session(session)
    gateway.forget_shared()
    return {"connections": len(clients), "sessions": len(found), "visits": 0}


async def visits(context: Context, keys: Dict[str, Any]) -> Dict[str, Any]:
    """The visits of browsers: one's own, or for an administrator all."""
    is_all = await Rights(context.session).may("administer", "policy")
    told = context.gateway.visiting.visits_of(None if is_all else context.person.name)
    return {"visits": told}


async def close(context: Context, keys: Dict[str, Any]) -> Dict[str, Any]:
    """Ends a visit: one of one's own, or for an administrator any. Raises Refused."""
    is_all = await Rights(context.session).may("administer", "policy")
    person = None if is_all else context.person.name
    return {"visits": context.gateway.visiting.end_visits(person, keys["visit"])}


# ---- one offer back


def block_of(slot: int, others: List[str]) -> List[Request]:
    """The commands that take one offer back: all are discarded, and the others made again."""
    made = [request_of({"cmd": "discard", "slot": slot})]
    made += [request_of({"cmd": "offer", "signal": name, "slot": slot}) for name in others]
    return [one for one in made if one is not None]


async def retract(context: Context, keys: Dict[str, Any]) -> Dict[str, Any]:
    """Takes one offer back: the slot's offers are discarded and the others made again, and nobody
    else's command on the slot comes between. Raises Refused."""
    slot, name, gateway = keys["slot"], keys["signal"], context.gateway
    if not 0 <= slot < SLOTS:
        raise not_a_word("slots are 0 to 15")
    await need_retract(context, slot, name)
    if slot in gateway.slot_gate.closed:
        raise failed("another offer is just being taken back there; ask again")
    gateway.slot_gate.closed.add(slot)
    try:
        await asyncio.wait_for(settled(gateway, slot), SETTLE_SECONDS)
        pending = list(gateway.reads.slots[slot].pending)
        others = [other for other in pending if other != name]
        if name not in pending:
            raise failed(f"{name} is not pending in slot {slot}")
        await need_offers(context, slot, name, others)
        need_room(gateway.reads.slots[slot], others)
        return await carry_out(context, slot, others)
    except asyncio.TimeoutError:
        raise failed("others use the slot too much; ask again") from None
    finally:
        gateway.slot_gate.open(slot)


async def settled(gateway: Any, slot: int) -> None:
    """Waits until no command on the slot is under way."""
    while not gateway.order.is_slot_settled(slot):
        await asyncio.sleep(0.001)


async def need_retract(context: Context, slot: int, name: str) -> Rights:
    """What the session may, where it may discard, and see whether this is pending. Raises
    Refused."""
    rights, object = Rights(context.session), f"{slot}.{name}"
    if not await rights.may("step", str(slot)):
        raise not_allowed(f"retract needs step on {slot}")
    if not await rights.may_any([("offer", object), ("observe", object)]):
        raise not_allowed(f"retract needs offer or observe on {object}")
    return rights


async def need_offers(context: Context, slot: int, name: str, others: List[str]) -> None:
    """Raises Refused, where the session may not discard, or not make the others again. One that
    it may not see is not named."""
    rights = await need_retract(context, slot, name)
    for other in others:
        if not await rights.may("offer", f"{slot}.{other}"):
            is_seen = await rights.may("observe", f"{slot}.{other}")
            which = f"{slot}.{other}" if is_seen else "each of the others"
            raise not_allowed(f"retract needs offer on {which}")


def need_room(slot: Slot, others: List[str]) -> None:
    """Raises Refused, where the slot's journal has no room for all of the block: then others would
    lose their offers."""
    if slot.entries + 1 + len(others) > JOURNAL:
        raise failed(f"the journal of slot {slot.number} has no room for making the others again")


async def carry_out(context: Context, slot: int, others: List[str]) -> Dict[str, Any]:
    """Gives the commands at once, whose entries are recorded in one transaction. Raises Refused."""
    assert context.session is not None  # the word needs one
    session, gateway = context.session.own_session(), context.gateway
    futures = []
    gateway.hold_commits()
    try:
        for request in block_of(slot, others):
            future = asyncio.get_running_loop().create_future()
            session.ask(Asked(request, session, set_result, future))
            futures.append(future)
        session.flush()
        await asyncio.wait_for(gateway.until_answered(session), SETTLE_SECONDS)
    except asyncio.TimeoutError:
        gateway.fail("an answer is missing")
        raise interrupted() from None
    finally:
        gateway.let_commit()
    answers = await asyncio.gather(*futures)
    refused = [answer for answer in answers if b'"ok"' not in answer]
    if refused:  # permissions were taken away in between: what is pending is told
        raise failed(f"not each offer could be made again: {refused[0].decode()}")
    return {"pending": others, "slot": slot}


WORDS = {
    "health": Word(tell_health, needs_session=False),
    "kick": Word(kick, optional={"person": str, "session": int}),
    "visits": Word(visits, needs_session=False),
    "close": Word(close, required={"visit": str}, needs_session=False),
    "retract": Word(retract, required={"slot": int, "signal": str}),
}
