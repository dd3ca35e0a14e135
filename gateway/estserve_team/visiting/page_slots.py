"""A slot as the page shows it: what its session may see and do there, each asked of the program
by `check`."""
import asyncio
from typing import Any, Dict, List, Set

from estserve_client.module_text import OFFERED

from ..reads.rights import Rights
from ..reads.who import sees_slot
from ..refusals import failed, not_allowed
from .seats import Seat

TRIES = 50  # a slot is read anew where permissions changed meanwhile, so often at most


def rights_of(seat: Seat) -> Rights:
    """The answers to `check` that the session got since permissions changed last."""
    board = seat.board
    if board.rights is None or board.rights_at != seat.changes.count:
        board.rights, board.rights_at = Rights(seat.share), seat.changes.count
    rights: Rights = board.rights
    return rights


async def may_of(
    rights: Rights, granted: Set[Any], number: int, signals: List[Any]
) -> Dict[str, Any]:
    """What the session may do on a slot and on its signals. What nobody was granted needs no
    question."""

    async def may(operation: str, object: str) -> bool:
        return (operation, object) in granted and await rights.may(operation, object)

    own = str(number)
    return {
        "load": await may("load", own),
        "step": await may("step", own),
        "offer": {
            name: await may("offer", f"{own}.{name}") for name, kind in signals if kind in OFFERED
        },
        "observe": {name: await may("observe", f"{own}.{name}") for name, _ in signals},
    }


def shown(slot: Any, may: Dict[str, Any]) -> Dict[str, Any]:
    """What is told of a slot that the session may see."""
    seen = {name for name in may["observe"] if may["observe"][name] or may["offer"].get(name)}
    return {
        "slot": slot.number,
        "visible": True,
        "loaded": slot.is_loaded,
        "load": slot.loaded if slot.is_loaded else None,
        "main": slot.main,
        "signals": [list(signal) for signal in slot.signals],
        "instants": len(slot.instants),
        "entries": slot.entries,
        "pending": [name for name in slot.pending if name in seen],
        "may": may,
    }


async def look_at(seat: Seat, number: int) -> Dict[str, Any]:
    """The slot by what the session may do now; asked again where permissions or the module
    change meanwhile."""
    state = seat.context.gateway.reads
    for _ in range(TRIES):
        changes, slot = seat.changes.count, state.slots[number]
        rights, signals, granted = rights_of(seat), slot.signals, set(state.policy.pairs())
        may = await may_of(rights, granted, number, signals)
        is_seen = await sees_slot(rights, state.policy, number)
        if (
            changes == seat.changes.count
            and slot is state.slots[number]
            and signals == slot.signals
        ):
            return shown(slot, may) if is_seen else {"slot": number, "visible": False, "may": may}
    raise failed("permissions change too fast to be shown")


def made_of(seat: Seat, number: int) -> Any:
    """What a slot's news are made of: while it is the same, so are they."""
    models = seat.context.gateway.reads.models
    return seat.changes.count, models, models.slots[number].entries


async def page_slot(seat: Seat, number: int) -> Dict[str, Any]:
    """What the page is told of a slot, reckoned once for all who share a login. Raises Refused."""
    slots, made = seat.board.slots, made_of(seat, number)
    held = slots.get(number)
    if held is None or held[0] != made:
        held = slots[number] = made, asyncio.ensure_future(new_page_slot(seat, number))
    try:
        return await asyncio.shield(held[1])
    except Exception:
        if slots.get(number) is held:
            del slots[number]
        raise


async def new_page_slot(seat: Seat, number: int) -> Dict[str, Any]:
    """What the page is told of a slot. Of one that may not be seen, that it is so. Raises
    Refused."""
    told = await look_at(seat, number)
    if not told["visible"]:
        may = {"load": told["may"]["load"], "step": told["may"]["step"], "offer": {}, "observe": {}}
        told = {
            "slot": number,
            "visible": False,
            "loaded": False,
            "load": None,
            "pending": [],
            "may": may,
        }
    return told


async def seen_slot(seat: Seat, number: int) -> Dict[str, Any]:
    """What runs in a slot, for a session that may see it. Raises Refused."""
    told = await look_at(seat, number)
    if not told["visible"]:
        raise not_allowed(f"slot {number} needs some permission on it")
    return told


async def text_of(seat: Seat, number: int) -> Dict[str, Any]:
    """The text that was loaded, its main module, and the load. Raises Refused."""
    told = await seen_slot(seat, number)
    slot = seat.context.gateway.reads.slots[number]
    is_same = slot.loaded == told["load"] and slot.is_loaded
    return {
        "load": told["load"],
        "main": slot.main if is_same else None,
        "text": slot.text if is_same else "",
    }
