"""Instants for the wave: each one is a `look` on the watcher's own session."""
import asyncio
from typing import Any, Dict, List, Optional

from .page_slots import seen_slot
from .seats import Seat

AT_ONCE = 256  # instants that one request may ask for
LETTERS = {True: "1", False: "0"}
HIDDEN = "."


def row_of(names: List[str], answer: Dict[str, Any]) -> Optional[str]:
    """The letters of an instant, one a signal in order of declaration; None where the look was
    refused."""
    if "signals" not in answer:
        return None
    present = dict(answer["signals"])
    return "".join(LETTERS[present[name]] if name in present else HIDDEN for name in names)


async def rows_of(seat: Seat, slot: int, first: int, last: int) -> Dict[str, Any]:
    """The rows of these instants, up to the first that can't be looked at, and the load that they
    are of.

    `load` is None where the module was changed meanwhile: then the rows may be of two loads. Raises
    Refused."""
    before = await seen_slot(seat, slot)
    names = [name for name, _ in before["signals"]]
    last = min(last, before["instants"], first + AT_ONCE - 1)
    asked = (
        {"cmd": "look", "slot": slot, "instant": instant} for instant in range(first, last + 1)
    )
    async with seat.board.looking:
        answers = await asyncio.gather(*(seat.share.ask_answer(one) for one in asked))
    rows = []
    for answer in answers:
        row = row_of(names, answer)
        if row is None:
            break
        rows.append(row)
    after = seat.context.gateway.reads.slots[slot]
    same = after.is_loaded and after.loaded == before["load"]
    return {"load": before["load"] if same else None, "first": first, "rows": rows}
