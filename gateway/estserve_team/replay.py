"""The start: a server is given the record, and has to answer each line as it did before.

Each recorded connection is one of its own, opened at its login and closed where it was closed,
so that at most sixteen are open. The order is that of `record.in_order`. One connection is sent
ahead; before another is used, all its answers have come.
"""
import pathlib
import socket
from typing import Dict, Iterator, List, NamedTuple, Optional, Tuple

from .places import Failed
from .record import POLICY, Aside, Entry, in_order, open_reader
from .server import Lost

AHEAD_LINES = 300  # are sent before their answers are read
AHEAD_BYTES = 40_000
WAIT_SECONDS = 120  # without an answer in this time the server is given up
RECEIVED = 1 << 18


class Difference(Failed):
    """The server answers an entry of the record otherwise than it did: the place, and both
    answers."""

    def __init__(self, place: Aside, recorded: bytes, now: bytes) -> None:
        self.place = place
        was, told = (text[:300].decode(errors="replace") for text in (recorded, now))
        super().__init__(
            f"the record's entry {place} was answered {was}, and is answered {told} now; "
            f"`--until {place}` starts before it"
        )


class Talker:
    """One connection to a server, which is asked and waited for. Used with `with`, it is closed at
    the end."""

    def __init__(self, path: pathlib.Path) -> None:
        """Raises Failed, where no server answers there."""
        self._socket = socket.socket(socket.AF_UNIX, socket.SOCK_STREAM)
        self._socket.settimeout(WAIT_SECONDS)
        self._held = b""
        try:
            self._socket.connect(str(path))
        except OSError as fault:
            self._socket.close()
            raise Lost(f"the server does not take a connection: {fault}") from fault

    def ask(self, line: bytes) -> bytes:
        """The answer to a line, both without LF. Raises Failed, where none comes."""
        self._send(line + b"\n")
        while b"\n" not in self._held:
            self._held += self._receive()
        answer, _, self._held = self._held.partition(b"\n")
        return answer

    def ask_all(self, lines: List[bytes]) -> List[bytes]:
        """The answers to lines, which are sent ahead. Raises Failed, where not all come."""
        answers: List[bytes] = []
        for part in parts_of(lines):
            answers += self.ask_part(part)
        return answers

    def ask_part(self, lines: List[bytes]) -> List[bytes]:
        """As `ask_all`, of lines that may all be sent ahead."""
        self._send(b"\n".join(lines) + b"\n")
        held, left = [self._held], len(lines) - self._held.count(b"\n")
        while left > 0:
            more = self._receive()
            held.append(more)
            left -= more.count(b"\n")
        *answers, self._held = b"".join(held).split(b"\n")
        return answers

    def _send(self, text: bytes) -> None:
        try:
            self._socket.sendall(text)
        except OSError as fault:
            raise Lost(f"the server takes no line: {fault}") from fault

    def _receive(self) -> bytes:
        try:
            more = self._socket.recv(RECEIVED)
        except OSError as fault:
            raise Lost(f"the server does not answer: {fault}") from fault
        if not more:
            raise Lost("the server ends a connection before its answer")
        return more

    def close(self) -> None:
        """Ends the connection."""
        self._socket.close()

    def __enter__(self) -> "Talker":
        return self

    def __exit__(self, *_: object) -> None:
        self.close()


def parts_of(lines: List[bytes]) -> Iterator[List[bytes]]:
    """Lines in parts that may be sent before an answer is read."""
    part: List[bytes] = []
    size = 0
    for line in lines:
        if part and (len(part) >= AHEAD_LINES or size + len(line) > AHEAD_BYTES):
            yield part
            part, size = [], 0
        part.append(line)
        size += len(line)
    if part:
        yield part


class Live(NamedTuple):
    """A connection that is open still when all is replayed: its talker, and its login's entry."""

    talker: Talker
    login: Entry


class Replay:
    """One replay of a record on a server. Used with `with`, its connections are closed at the
    end."""

    def __init__(self, record: pathlib.Path, server: pathlib.Path) -> None:
        self._record, self._server = record, server
        self.live: Dict[int, Live] = {}
        self.count = 0

    def __enter__(self) -> "Replay":
        return self

    def __exit__(self, *_: object) -> None:
        for live in self.live.values():
            live.talker.close()

    def run(self) -> None:
        """Asks for each entry of the record. Raises Difference, and Failed."""
        with open_reader(self._record) as database:
            closings = database.execute(
                "SELECT connection, version FROM givenup WHERE aside_time IS NULL "
                "ORDER BY version"
            ).fetchall()
            waiting: List[Entry] = []
            size = 0
            for entry in in_order(database):
                is_over = entry.slot == POLICY and closings and closings[0][1] < entry.version
                if waiting and (is_over or not self._joins(entry, waiting, size)):
                    self._ask(waiting)
                    waiting, size = [], 0
                if is_over:
                    closings = self._close_before(entry.version, closings)
                waiting.append(entry)
                size += len(entry.request)
            if waiting:
                self._ask(waiting)
            self._close_before(None, closings)

    @staticmethod
    def _joins(entry: Entry, waiting: List[Entry], size: int) -> bool:
        """Whether an entry may be sent ahead with those that wait."""
        return (
            entry.connection == waiting[0].connection
            and len(waiting) < AHEAD_LINES
            and size + len(entry.request) <= AHEAD_BYTES
            and waiting[-1].command != "logout"
        )

    def _close_before(
        self, version: Optional[int], closings: List[Tuple[int, int]]
    ) -> List[Tuple[int, int]]:
        """Closes the connections that were given up before this version, and answers the later
        ones."""
        for connection, at in closings:
            if version is None or at < version:
                self.live.pop(connection).talker.close()
        return [closing for closing in closings if version is not None and closing[1] >= version]

    def _ask(self, entries: List[Entry]) -> None:
        """Asks for entries of one connection, and compares the answers. Raises Difference."""
        first, last = entries[0], entries[-1]
        if first.command == "login":
            self.live[first.connection] = Live(Talker(self._server), first)
        if first.connection not in self.live:
            raise Failed(
                f"the record's entry {Aside(first.slot, first.place)} "
                "is on a connection that is not open"
            )
        answers = self.live[first.connection].talker.ask_part([entry.request for entry in entries])
        for entry, answer in zip(entries, answers):
            if answer != entry.reply:
                raise Difference(Aside(entry.slot, entry.place), entry.reply, answer)
        self.count += len(entries)
        if last.command == "logout":
            self.live.pop(last.connection).talker.close()
