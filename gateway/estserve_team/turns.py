"""Whose lines are read next. Where reading takes long, each Unix user has a turn after the other, by
whatever number of connections; a user's connections share its turns."""
import asyncio
import collections
import time
from typing import Any, Deque, Dict

SPAN = 0.002  # seconds that may be read at once, before others have their turn
WORDS = 4  # of one Unix user, that are carried out at once


class Turns:
    """The clients of one gateway whose lines wait to be read."""

    def __init__(self) -> None:
        self._waiting: Dict[Any, Deque[Any]] = {}  # by user, the next one first
        self._spent = self._since = 0.0
        self._is_due = False
        self._words: Dict[Any, int] = {}
        self._parked: Dict[Any, Deque[Any]] = {}  # for another word

    def ask(self, client: Any) -> None:
        """Has a client `take_turn`: at once where little was read just now, and else after others;
        and again, where it answers that it has more."""
        now = time.monotonic()
        self._spent = max(0.0, self._spent - (now - self._since))
        self._since = now
        if not self._waiting and self._spent < SPAN:
            has_more = client.take_turn(now + SPAN)
            self._note(now)
            if not has_more:
                return
        self._wait(client.uid, client)
        self._run_soon()

    def _wait(self, user: Any, client: Any) -> None:
        self._waiting.setdefault(user, collections.deque()).append(client)

    def _note(self, began: float) -> None:
        """Notes what was spent since some time."""
        now = time.monotonic()
        self._spent += now - began
        self._since = now

    def _run_soon(self) -> None:
        if not self._is_due:
            self._is_due = True
            asyncio.get_running_loop().call_soon(self._run)

    def _run(self) -> None:
        """Gives turns, as long as that takes little time."""
        self._is_due = False
        began = time.monotonic()
        while self._waiting and time.monotonic() < began + SPAN:
            user = next(iter(self._waiting))
            clients = self._waiting.pop(user)
            client = clients.popleft()
            if clients:
                self._waiting[user] = clients  # after the others
            if client.take_turn(time.monotonic() + SPAN):
                self._wait(user, client)
        self._note(began)
        if self._waiting:
            self._run_soon()

    # ---- words, which take their time after they were read

    def begin_word(self, client: Any) -> bool:
        """Whether the user of a client may have another word carried out; otherwise the client
        goes on when one is done."""
        under_way = self._words.get(client.uid, 0)
        if under_way >= WORDS:
            client.is_parked = True
            self._parked.setdefault(client.uid, collections.deque()).append(client)
            return False
        self._words[client.uid] = under_way + 1
        return True

    def end_word(self, user: Any) -> None:
        """A word of this user is done."""
        left = self._words.pop(user, 1) - 1
        if left:
            self._words[user] = left
        for client in self._parked.pop(user, ()):
            client.is_parked = False
            client.pump()
