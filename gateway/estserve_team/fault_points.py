"""The moments of a command, in their order. Tests have something fail at each; otherwise nothing
happens at them."""
from typing import Callable

TAKEN, ASKED, ANSWERED, HASHED, SYNCED, RELEASED, INSERTED, COMMITTED = MOMENTS = (
    "taken",  # its line was understood
    "asked",  # it was sent to the server
    "answered",  # the server's answer was read
    "hashed",  # its entry has its hash
    "synced",  # its entry is on the disk, in the head
    "released",  # its answer was sent
    "inserted",  # its entry is in a transaction of the file
    "committed",  # that transaction is in the file
)


def nothing(moment: str) -> None:
    """What happens at a moment."""


reach: Callable[[str], None] = nothing
