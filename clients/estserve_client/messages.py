"""Messages of the client: on standard error, after the name that it was started by."""
from __future__ import annotations

import sys

from .connection import Refusal
from .texts import Placed


def text_of(told: object) -> str:
    """A message as text: of a refusal its sentence."""
    if not isinstance(told, Refusal):
        return str(told)
    from .sentences import sentence

    return sentence(told)


def of_place(text: str) -> str:
    """A message that begins with a place, in colours where standard error has them."""
    if not sys.stderr.isatty():
        return text
    from .colours import Colours

    return Colours(sys.stderr).of_fault(text)


class Teller:
    """Tells messages after a name."""

    def __init__(self, name: str) -> None:
        self.name = name

    def tell(self, told: object, status: int = 1) -> int:
        """Tells one message, and gives this status. One that begins with a place stands as it is,
        for editors.
        """
        text = text_of(told)
        print(
            of_place(text) if isinstance(told, Placed) else f"{self.name}: {text}",
            file=sys.stderr,
            flush=True,
        )
        return status


TELLER = Teller("estserve.py")
