"""The words `who`, `slots`, `policy` and `why`."""
import datetime
from typing import Any, Dict, List, Optional, Set, Tuple

from estserve_client.module_text import OFFERED
from estserve_client.sentences import out_of_form

from ..refusals import not_a_word
from ..words import Context
from .policy_model import Origin, PolicyModel, Way
from .rights import Rights, own_users, read_by_one_policy, refuse_others
from .slot_model import SLOTS, Slot

SEATS = 16  # logins that are held at a time


def time_text(seconds: float) -> str:
    """A time in seconds since 1970 as ISO 8601 has it, in UTC, with milliseconds."""
    time = datetime.datetime.fromtimestamp(seconds, datetime.timezone.utc)
    return time.isoformat(timespec="milliseconds").replace("+00:00", "Z")


# ---- who


async def tell_who(context: Context, keys: Dict[str, Any]) -> Dict[str, Any]:
    """Who holds the sixteen logins; roles and sessions of others for `administer` or `audit`."""

    async def compose(rights: Rights) -> Dict[str, Any]:
        oversees = await rights.oversees()
        state, me = context.gateway.reads, context.person.name
        holders = [
            holder_dict(holder, state.policy, oversees or holder.person == me)
            for holder in context.gateway.holders()
        ]
        return {"holders": holders, "most": SEATS, "whole": oversees}

    return await read_by_one_policy(context, compose)


def holder_dict(holder: Any, policy: PolicyModel, is_whole: bool) -> Dict[str, Any]:
    """What is told of one who holds a login; `ended` where its session has ended.

    A login that is not yet answered has the session 0."""
    told = {"person": holder.person, "since": time_text(holder.since), "user": holder.user}
    if is_whole:
        session = policy.sessions.get(holder.session)
        told["session"] = holder.session
        told["roles"] = session.active if session else []
        told["ended"] = holder.session != 0 and session is None
    return told


# ---- slots


async def tell_slots(context: Context, keys: Dict[str, Any]) -> Dict[str, Any]:
    """The slots on which, or on a signal of which, the session has any permission."""
    asked = keys.get("slot")
    if asked is not None and not 0 <= asked < SLOTS:
        raise not_a_word("slots are 0 to 15")
    numbers = range(SLOTS) if asked is None else [asked]

    async def compose(rights: Rights) -> Dict[str, Any]:
        state = context.gateway.reads
        seen = {number for number in numbers if await sees_slot(rights, state.policy, number)}
        signals = await seen_pending(rights, state, seen)
        told = [slot_dict(state.slots[number], signals[number], keys) for number in sorted(seen)]
        return {"slots": told, "version": state.policy.version}

    answer = await read_by_one_policy(context, compose)
    for told in answer["slots"]:
        if told["instants"]:
            told["last"] = await look_of(context.session, told["slot"], told["instants"])
    return answer


async def sees_slot(rights: Rights, policy: PolicyModel, number: int) -> bool:
    """Whether the session has any permission on the slot or on a signal of it."""
    of_slot = str(number)
    pairs = [pair for pair in policy.pairs() if pair[1].partition(".")[0] == of_slot]
    return await rights.may_any(pairs)


async def seen_pending(rights: Rights, state: Any, numbers: Set[int]) -> Dict[int, Set[str]]:
    """Of each slot the inputs and inputoutputs that the session may offer or observe."""
    granted: Set[Tuple[str, str]] = set(state.policy.pairs())
    seen: Dict[int, Set[str]] = {}
    for number in numbers:
        seen[number] = set()
        for name in [name for name, kind in state.slots[number].signals if kind in OFFERED]:
            pairs = [("offer", f"{number}.{name}"), ("observe", f"{number}.{name}")]
            if await rights.may_any(pair for pair in pairs if pair in granted):
                seen[number].add(name)
    return seen


def slot_dict(slot: Slot, seen: Set[str], keys: Dict[str, Any]) -> Dict[str, Any]:
    """What is told of a slot to one who may see it; of its pending inputs those that are seen."""
    told: Dict[str, Any] = {"instants": len(slot.instants), "main": slot.main, "slot": slot.number}
    told["signals"] = [list(signal) for signal in slot.signals]
    told["pending"] = [name for name in slot.pending if name in seen]
    if keys.get("text"):
        told["text"] = slot.text
    if slot.filling().is_near:
        told["filling"] = slot.filling().as_dict()
    return told


async def look_of(session: Any, slot: int, instant: int) -> Optional[List[List[Any]]]:
    """What the session itself may observe of an instant; None where it is gone by now."""
    asked = {"cmd": "look", "instant": instant, "slot": slot}
    signals: Optional[List[List[Any]]] = (await session.ask_answer(asked)).get("signals")
    return signals


# ---- policy


async def tell_policy(context: Context, keys: Dict[str, Any]) -> Dict[str, Any]:
    """The whole policy for whoever may `administer` or `audit`, and else the own part of it."""

    async def compose(rights: Rights) -> Dict[str, Any]:
        oversees = await rights.oversees()
        model = context.gateway.reads.policy
        if not oversees:
            return policy_dict(model, *own_part(model, own_users(context)), False)
        told = policy_dict(model, set(model.users), set(model.roles), is_whole=True)
        return {**told, "filling": [filling.as_dict() for filling in model.fillings()]}

    return await read_by_one_policy(context, compose)


def own_part(model: PolicyModel, users: List[str]) -> Tuple[Set[str], Set[str]]:
    """Those of the users that are there, and the roles that one of them is authorized for."""
    there = {user for user in users if user in model.users}
    return there, {role for user in there for role in model.authorized(user)}


def policy_dict(
    model: PolicyModel, users: Set[str], roles: Set[str], is_whole: bool
) -> Dict[str, Any]:
    """What the policy says of these users and roles, each list in order of creation."""
    edges = [list(edge) for edge in model.edges if roles.issuperset(edge)]
    sessions = [session for session in model.sessions.values() if session.user in users]
    return {
        "assigned": [[user, role] for user, role in model.assigned if user in users],
        "edges": edges,
        "granted": [list(grant) for grant in model.granted if grant[0] in roles],
        "roles": [role for role in model.roles if role in roles],
        "sessions": [session_dict(session) for session in sessions],
        "sets": sets_of(model, roles, is_whole),
        "users": [user for user in model.users if user in users],
        "version": model.version,
        "whole": is_whole,
    }


def session_dict(session: Any) -> Dict[str, Any]:
    """What is told of a session that lives."""
    return {"roles": session.active, "session": session.number, "user": session.user}


def sets_of(model: PolicyModel, roles: Set[str], is_whole: bool) -> List[Dict[str, Any]]:
    """The separation sets. Of a part, those that can bind it: of each the members that it has."""
    told = []
    for name, one in model.sets.items():
        members = [role for role in one.roles if role in roles]
        if is_whole or len(members) >= one.count:
            told.append({"count": one.count, "name": name, "roles": members})
    return told


# ---- why


async def tell_why(context: Context, keys: Dict[str, Any]) -> Dict[str, Any]:
    """Through which roles and edges a user has a permission."""
    user, operation, object = keys["user"], keys["op"], keys["object"]
    wrong = out_of_form({"user": user, "op": operation, "object": object})
    if wrong:
        raise not_a_word(wrong)

    async def compose(rights: Rights) -> Dict[str, Any]:
        oversees = await rights.oversees()
        if not oversees and user not in own_users(context):
            raise refuse_others(f"why {user}")
        told = await own_answer(context, rights, user, operation, object)
        return {**why_dict(context.gateway.reads.policy, keys, oversees), **told}

    return await read_by_one_policy(context, compose)


async def own_answer(
    context: Context, rights: Rights, user: str, operation: str, object: str
) -> Dict[str, Any]:
    """What the program answers to the caller's own `check`, where the caller is this user."""
    if context.session is None or context.session.user != user:
        return {}
    return {"allowed": await rights.may(operation, object)}


def why_dict(model: PolicyModel, keys: Dict[str, Any], oversees: bool) -> Dict[str, Any]:
    """The ways by which a user has a permission, and the living sessions of it that use one."""
    user, operation, object = keys["user"], keys["op"], keys["object"]
    ways = model.why(user, operation, object)
    own = [session.number for session in model.sessions.values() if session.user == user]
    return {
        "known": user in model.users,
        "object": object,
        "op": operation,
        "sessions": [number for number in own if model.may(number, operation, object)],
        "user": user,
        "version": model.version,
        "ways": [way_dict(model, way, oversees) for way in ways],
    }


def way_dict(model: PolicyModel, way: Way, oversees: bool) -> Dict[str, Any]:
    """One way: its chain of roles, and at which versions, and by whom, each part of it was made."""

    def told(origin: Origin) -> Dict[str, Any]:
        by = {"by": model.user_of(origin.session), "session": origin.session} if oversees else {}
        return {"version": origin.version, **by}

    return {
        "assigned": told(way.assigned),
        "edges": [told(origin) for origin in way.edges],
        "granted": told(way.granted),
        "roles": list(way.roles),
    }
