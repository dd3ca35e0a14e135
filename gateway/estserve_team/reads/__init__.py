"""What may be read of the team's record and server, each as the caller's own session allows."""
from typing import Any, Dict

from ..words import Word
from .archive import make_archive
from .filling import warnings
from .record_log import tell_log
from .state import ReadState
from .who import tell_policy, tell_slots, tell_who, tell_why

__all__ = ["WORDS", "on_start", "warnings"]

WORDS: Dict[str, Word] = {
    "who": Word(tell_who, needs_session=False),
    "slots": Word(tell_slots, optional={"slot": int, "text": bool}),
    "policy": Word(tell_policy, needs_session=False),
    "why": Word(tell_why, required={"user": str, "op": str, "object": str}, needs_session=False),
    "log": Word(
        tell_log,
        optional={"slot": int, "user": str, "instant": int, "last": int, "before": int},
        needs_session=False,
    ),
    "archive": Word(make_archive, optional={"slot": int}),
}


def on_start(gateway: Any) -> None:
    """Builds the models of the record. Called after each start and restart, before clients come."""
    if getattr(gateway, "reads", None) is None:
        gateway.reads = ReadState(gateway)
    gateway.reads.begin()
