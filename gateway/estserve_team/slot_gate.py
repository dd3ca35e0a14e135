"""Slots that are closed for a moment: one session alone has commands under way there."""
import asyncio
from typing import Any, List, Optional, Set


class SlotGate:
    """Which slots are closed, and who waits for them."""

    def __init__(self) -> None:
        self.closed: Set[int] = set()
        self._waiting: List[Any] = []  # clients whose next line is for such a slot
        self._opened = asyncio.Event()

    def wait_for(self, client: Any) -> None:
        """Has a client go on when slots are open again."""
        self._waiting.append(client)

    async def until_open(self, slot: Optional[int]) -> None:
        """Waits until a slot is open."""
        while slot in self.closed:
            self._opened.clear()
            await self._opened.wait()

    def open(self, slot: int) -> None:
        """Lets others have commands on a slot again."""
        self.closed.discard(slot)
        self._opened.set()
        waiting, self._waiting = self._waiting, []
        for client in waiting:
            client.go_on()
