"""What the tests of the gateway's reads share: the real program, and a desk in the gateway's place.

`Desk` sends commands, one after the other, and writes each accepted one into a record of the
gateway's schema. It decides nothing, so what the reads say can be compared with what the program
answers.
"""
from __future__ import annotations

import asyncio
import importlib.util
import json
import pathlib
import sqlite3
import tempfile
import time
from types import ModuleType
from typing import Any, Callable, Dict, List, Optional, Sequence, Tuple

from teams import ROOT, program_file

import running as programs
from estserve_client.connection import line_of
from estserve_team import reads
from estserve_team.people import Person
from estserve_team.reads.policy_model import POLICY_COMMANDS
from estserve_team.reads.slot_model import SLOT_COMMANDS
from estserve_team.record import COLUMNS, SCHEMA, Entry
from estserve_team.sessions import Holder
from estserve_team.words import Context, act_on

__all__ = ["ABRO", "Desk", "ROOT", "load_module", "program_file"]
INSERT = f"INSERT INTO entries VALUES ({', '.join('?' * len(Entry._fields))}, x'')"
ABRO = (ROOT / "examples" / "abro" / "abro.strl").read_text()


def load_module(path: pathlib.Path, name: str) -> ModuleType:
    """A module by its path, under a name of its own."""
    spec = importlib.util.spec_from_file_location(name, path)
    assert spec is not None and spec.loader is not None
    module = importlib.util.module_from_spec(spec)
    spec.loader.exec_module(module)
    return module


def written(answer: Dict[str, Any]) -> bytes:
    """An answer as the program writes it, without its LF."""
    return json.dumps(answer, separators=(",", ":"), sort_keys=True, ensure_ascii=False).encode()


def entry_of(
    number: int,
    connection: Seat,
    person: Any,
    command: Dict[str, Any],
    answer: Dict[str, Any],
) -> Optional[Entry]:
    """The entry of an accepted command, or None where it has none."""
    cmd = command["cmd"]
    if "ok" not in answer or cmd not in POLICY_COMMANDS | SLOT_COMMANDS:
        return None
    of_policy = cmd in POLICY_COMMANDS
    slot, place = (-1, answer["version"]) if of_policy else (command["slot"], answer["place"])
    session, user = connection.session, connection.user
    return Entry(
        number,
        slot,
        place,
        answer["version"],
        connection.number,
        session,
        user,
        person,
        time.time(),
        answer.get("instant"),
        cmd,
        line_of(command)[:-1],
        written(answer),
        None,
        1,
    )


class Seat:
    """One connection of a desk, the user and the number of its session, and its person's name."""

    def __init__(self, desk: Desk, number: int, client: Any) -> None:
        self.desk, self.number, self.client = desk, number, client
        self.user: Any = None  # a login's user, as the two below; None without a login
        self.session: Any = None
        self.person: Any = None
        self.roles: Tuple[str, ...] = ()

    def give(self, cmd: str, **keys: Any) -> Dict[str, Any]:
        """The answer to a command, be it a refusal. Its entry is written where it is accepted."""
        command = {"cmd": cmd, **keys}
        answer: Dict[str, Any] = self.client.ask_all([command])[0]
        if cmd == "login" and "ok" in answer:
            self.user, self.session = keys["user"], answer["session"]
            self.roles = tuple(keys["roles"])
            self.person = self.desk.person_of(keys["user"])
        self.desk.write(self, command, answer)
        if cmd == "logout":
            self.user, self.session, self.roles = None, None, ()
        return answer

    def need(self, cmd: str, **keys: Any) -> Dict[str, Any]:
        """As `give`, of a command that has to be accepted."""
        answer = self.give(cmd, **keys)
        assert "ok" in answer, (cmd, keys, answer)
        return answer

    def allowed(self, operation: str, object: str) -> bool:
        """What the program answers to `check`."""
        return bool(self.client.check(operation, object)["allowed"])

    @property
    def name(self) -> Optional[str]:
        """The name of the connection's person."""
        return self.person


class Session:
    """The login of a seat as the reads see a shared session."""

    def __init__(self, seat: Seat) -> None:
        self.user, self.number, self.roles = seat.user, seat.session, seat.roles
        self._seat = seat
        self.asked: List[Dict[str, Any]] = []

    async def ask_answer(self, command: Dict[str, Any], request_id: Optional[str] = None) -> Any:
        """The program's answer on the seat's own connection."""
        self.asked.append(command)
        return self._seat.client.ask_all([command])[0]


class Desk:
    """A server of the real program, with connections and a record of what they did.

    It has the calls of a gateway that reads use."""

    def __init__(self, seats: int = 4, people: Optional[Dict[str, str]] = None) -> None:
        self._people = people or {}
        self._held = tempfile.TemporaryDirectory(prefix="estserve-reads-")
        self.folder = pathlib.Path(self._held.name)
        self.record_path = self.folder / "record.sqlite"
        self._server = programs.Server("--workers", "16")
        self._count = seats
        self.told: List[str] = []
        self._listeners: List[Callable[[List[Entry]], Any]] = []
        self._old: List[Any] = []
        self.entries_written = 0

    def __enter__(self) -> Desk:
        self._server.__enter__()
        self.seats = [
            Seat(self, number, self._server.client()) for number in range(1, self._count + 1)
        ]
        self._database = sqlite3.connect(self.record_path, isolation_level=None)
        self._database.executescript("PRAGMA synchronous = OFF;" + SCHEMA)
        reads.on_start(self)
        return self

    def __exit__(self, *_: Any) -> None:
        for seat in self.seats:
            seat.client.close()
        self._database.close()
        self._server.__exit__()
        self._held.cleanup()

    def person_of(self, user: str) -> str:
        """The person that logs in as this user: of the same name, where no other is said."""
        return self._people.get(user, user)

    def write(self, seat: Seat, command: Dict[str, Any], answer: Dict[str, Any]) -> None:
        """Writes the entry of an accepted command, and tells who listens."""
        entry = entry_of(self.entries_written + 1, seat, seat.person, command, answer)
        if entry is not None:
            self._database.execute(INSERT, entry)
            self.entries_written += 1
            for listener in self._listeners:
                listener([entry])

    def reads_entry(self) -> Entry:
        """The newest entry of the record once more, which follows nothing."""
        row = self._database.execute(
            f"SELECT {COLUMNS} FROM entries ORDER BY number DESC LIMIT 1"
        ).fetchone()
        return Entry._make(row)

    def root(self) -> Seat:
        """The first connection, logged in as root."""
        self.seats[0].need("login", user="root", roles=["root"])
        return self.seats[0]

    def read(
        self, seat: Seat, word: str, users: Optional[Sequence[str]] = None, **keys: Any
    ) -> Any:
        """What a word answers to a seat's person on its session; raises Refused."""
        person = Person(seat.person, tuple(users or [seat.user]))
        gateway: Any = self
        session: Any = Session(seat) if seat.session else None
        return asyncio.run(act_on(Context(gateway, person, session), {"word": word, **keys}))

    # ---- the gateway's calls

    words = reads.WORDS

    async def settle_record(self) -> None:
        """Does nothing: each entry is written at once."""

    def log(self, text: str, kind: str = "gateway") -> None:
        """Keeps a line of the log."""
        self.told.append(text)

    def listen(self, callback: Callable[[List[Entry]], Any]) -> Callable[[], None]:
        """Calls back with each new entry."""
        self._listeners.append(callback)
        return lambda: self._listeners.remove(callback)

    def old_records(self) -> List[Any]:
        """The kept records."""
        return self._old

    def holders(self) -> List[Holder]:
        """The seats that hold a login."""
        return [
            Holder(seat.user, seat.person, seat.roles, seat.session, 0.0, seat.number)
            for seat in self.seats
            if seat.session
        ]
