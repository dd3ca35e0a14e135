"""A connection to estserve: one JSON command a line, one JSON answer a line.

`connect` speaks to a server over its Unix socket, `start` runs the program itself and speaks to its
standard input and output. Both give a `Client`, with a method for each command of docs/PROTOCOL.md.
A refusal is raised as `Refusal`; a connection that cannot be made, or that ends before an answer,
as `Disconnected`; an answer that doesn't come in time as `TimedOut`; a command that fills no line
as `TooLong`, one that is no text as `NotText`.
"""
from __future__ import annotations

import collections
import contextlib
import io
import json
import os
import sys
import time

TYPE_CHECKING = False  # stands for typing's, which takes its time to import
if TYPE_CHECKING:
    import subprocess
    from re import Pattern
    from typing import (
        Any,
        IO,
        Callable,
        Deque,
        Dict,
        Iterable,
        Iterator,
        List,
        Optional,
        Tuple,
        TypeVar,
        Union,
    )

    from .applying import Applied
    from .instants import Instant

    Answer = Dict[str, Any]
    Batch = Tuple[Any, bytes, int]  # what was asked, the lines that ask it, and how many they are
    # answers, commands, and what ends both
    Channel = Tuple[io.BufferedIOBase, IO[bytes], Callable[[], None]]
    Path = Union[str, "os.PathLike[str]"]
    Came = TypeVar("Came")

# of the repository
ROOT = os.path.dirname(os.path.dirname(os.path.dirname(os.path.realpath(__file__))))
LINE_BYTES = 65_536  # a command's line may have this many bytes before its LF
AHEAD_BYTES = 24_000  # commands are sent ahead in batches whose answers have about this many bytes
DROP_SECONDS = 0.5  # what a program still writes at its end is taken for at most this many
END_SECONDS = (
    10  # a program that was started ends in this many when its input has ended, or is stopped
)
READS = 1_000_000  # a connection ends after this many reads of the server
PIPE_BYTES = 1_048_576  # the pipes of a program have room for this many, where the system allows it
# Commands that may be sent ahead at once, in bytes. Two such batches, each with a further instant,
# fit into a pipe, of the usual size and of the one above: so no write waits for a program that
# itself waits until its answers are read.
ROOM, WIDE_ROOM = 20_000, 300_000
READ_BYTES = 4_096  # what is sent at once may take the server a read for each of these


class Refusal(Exception):
    """A command was refused, and nothing was changed.

    `code` (int) and `fault` (str) are those of the table of refusals in docs/PROTOCOL.md, `name` is
    `fault` too, and `fields` (dict) has the further keys of the answer, as `{"op": .., "object":
    ..}`. `command` (dict) is the command, where it is known.
    """

    def __init__(self, answer: Answer, command: Optional[Answer] = None) -> None:
        self.code: int = answer["code"]
        self.fault: str = answer["fault"]
        self.name = self.fault
        self.fields = {key: told for key, told in answer.items() if key not in ("code", "fault")}
        self.command = command or {}
        told = ", ".join(f"{key} {value}" for key, value in self.fields.items())
        super().__init__(f"{self.fault}: {told}" if told else self.fault)


class Disconnected(Exception):
    """There is no connection: none could be made, or it ended before an answer came."""


class TimedOut(Exception):
    """No answer came in time. The command may have been carried out; its answer is passed over."""

    def __init__(self, seconds: float) -> None:
        self.seconds = seconds
        super().__init__(
            f"no answer came in {seconds:g} seconds; the command may have been carried out"
        )


class CannotBeSent(Exception):
    """A command is one that no line can hold. Nothing was sent, and the connection goes on."""


# the commands by which a connection's user or roles change
LOGINS = ("login", "logout", "activate", "drop")


class TooLong(CannotBeSent):
    """A command's line would have `length` bytes, which is more than a line may have."""

    def __init__(self, length: int) -> None:
        self.length = length
        super().__init__(f"the command takes {length} bytes, and a line holds {LINE_BYTES}")


class NotText(CannotBeSent):
    """A word of a command is no UTF-8."""

    def __init__(self) -> None:
        super().__init__("a word of the command is not UTF-8")


# One encoder and one decoder for all lines: making an encoder costs more than a line does.
ENCODER = json.JSONEncoder(separators=(",", ":"), sort_keys=True, ensure_ascii=False)
DECODER = json.JSONDecoder()


def line_of(command: Answer) -> bytes:
    """The line of a command, a dictionary with its keys, with the LF. Raises TooLong, NotText."""
    try:
        line = ENCODER.encode(command).encode()
    except UnicodeEncodeError as fault:
        raise NotText() from fault
    if len(line) > LINE_BYTES:
        raise TooLong(len(line))
    return line + b"\n"


def answer_of(line: bytes, cmd: Optional[str] = None) -> Answer:
    """The answer that a line holds, to this command where it is named, be it a refusal or not.
    Raises Disconnected.
    """
    try:
        answer = DECODER.decode(line.decode())
    except (ValueError, RecursionError):
        answer = None
    if isinstance(answer, dict):
        done = answer.get("ok")
        if (done is not None and done == (cmd or done)) or {"code", "fault"} <= answer.keys():
            return answer
    raise Disconnected(f"this is no answer of estserve: {line[:60].decode(errors='replace')!r}")


def names_of(names: Iterable[str]) -> List[str]:
    """A list of names. Raises TypeError where one name stands for the list."""
    if isinstance(names, str):
        raise TypeError(f"a list of names is expected, not the one name {names!r}")
    return list(names)


def batches_of(commands: Iterable[Answer]) -> Iterator[Batch]:
    """Commands, gathered into batches that are sent at once.

    Two batches and their answers fill no pipe: the answer to a look, which has each signal, is the
    longest.
    """
    batch: List[Answer] = []
    size = 0
    for command in commands:
        weight = 4_000 if command["cmd"] == "look" else 300
        if batch and size + weight > AHEAD_BYTES:
            yield batch, b"".join(map(line_of, batch)), len(batch)
            batch, size = [], 0
        batch.append(command)
        size += weight
    if batch:
        yield batch, b"".join(map(line_of, batch)), len(batch)


class Client:
    """One connection, with a method for each command of docs/PROTOCOL.md, by its name there.

    Used with `with`, it is closed at the end, by which its session is logged out. A command gives
    the answer, a dictionary: each docstring names its keys besides `ok`. Each command raises

    - Refusal, as each docstring says; besides as NotARequest, where a word is out of form, as
      Memory, and all but `login` as NoSession;
    - Disconnected, where the connection has ended;
    - TooLong or NotText, before anything is sent.

    A command that is interrupted, by Ctrl-C, may have been carried out; its answer is passed over.
    """

    def __init__(
        self,
        reader: io.BufferedIOBase,
        writer: IO[bytes],
        close: Callable[[], None],
        timeout: Optional[float] = None,
        again: Optional[Callable[[], Channel]] = None,
        reads: int = READS,
    ) -> None:
        """A client that reads answers from one binary file and writes commands to another;
        `close()` ends both.

        An answer is waited for `timeout` seconds, or for as long as it takes. The server ends a
        connection after `reads` reads: shortly before, `again()` makes a new one, where it is
        given, on which the same user logs in with the same roles. Then `when_renewed` is called
        with the answer to that login. `when_waiting` is called before each read.
        """
        self._reader, self._writer, self._close = reader, writer, close
        self.timeout, self._again, self.reads = timeout, again, reads
        self.when_renewed: Callable[[Answer], None] = lambda answer: None
        self.when_waiting: Callable[[], None] = lambda: None
        self.program: Optional[Path] = None  # that was started for it
        self._is_heard = False  # whether anything has come from it
        self.room = ROOM  # this many bytes of commands may be sent ahead at once
        self._login: Optional[Tuple[str, List[str]]] = None  # the user and the active roles
        self._begin()

    def _begin(self) -> None:
        """The counts of a connection on which nothing was sent yet."""
        self._held, self._at = b"", 0  # what was read, and up to where it was given away
        self._owed = 0  # this many answers come still
        self._cut = False  # whether a command may have been sent in part
        self._used = 0  # this many reads, about, the server has made

    def __enter__(self) -> Client:
        return self

    def __exit__(self, *_: object) -> None:
        self.close()

    def close(self) -> None:
        """Ends the connection. The server logs its session out."""
        self._close()

    def _send(self, lines: List[bytes]) -> None:
        """Sends lines of commands at once. Raises Disconnected."""
        self._write(b"".join(lines), len(lines))

    def _write(self, lines: bytes, count: int) -> None:
        """Sends this many lines of commands. Raises Disconnected."""
        self._cut = True
        self._owed += count
        self._used += 1 + len(lines) // READ_BYTES
        try:
            self._writer.write(lines)
            self._writer.flush()
        except (OSError, ValueError) as fault:
            raise Disconnected(self._gone()) from fault
        self._cut = False

    def _receive(self, cmd: Optional[str] = None) -> Answer:
        """The next answer, to this command where it is named, be it a refusal or not. Raises
        Disconnected.
        """
        return answer_of(self._read_line(), cmd)

    def _read_line(self) -> bytes:
        """The next answer's line. Raises Disconnected, TimedOut."""
        while (end := self._held.find(b"\n", self._at)) < 0:
            self._hold_more()
        line = self._held[self._at : end]
        self._at = end + 1
        self._owed -= 1
        return line

    def _hold_more(self) -> None:
        """Reads once, and holds what comes. Raises Disconnected, TimedOut."""
        more = self._read_more()
        self._held, self._at = self._held[self._at :] + more, 0

    def take_answers(self, form: Pattern[bytes], counts: List[int]) -> Optional[List[bytes]]:
        """Takes answers of this form, as many as were read already, but one at least, for which it
        waits: gives what the form's one group matched in each. `counts` has how many lines the
        next ones have.

        None where there are answers of another form, which are still to be received. Raises
        Disconnected, TimedOut.
        """
        while True:
            *parts, rest = form.split(self._held[self._at :], len(counts))
            taken = parts[1::2]
            if any(parts[::2]) or (not taken and rest.count(b"\n") >= counts[0]):
                return None
            if taken:
                self._held, self._at = rest, 0
                self._owed -= sum(counts[: len(taken)])
                return taken
            self._hold_more()

    def _read_more(self) -> bytes:
        """The next bytes that come. Raises Disconnected, TimedOut."""
        self.when_waiting()
        try:
            if self.timeout is not None and not self._comes_within(self.timeout):
                raise TimedOut(self.timeout)
            more = self._reader.read1(LINE_BYTES)
        except (OSError, ValueError) as fault:
            raise Disconnected(self._gone()) from fault
        if not more:
            raise Disconnected(self._ended())
        self._is_heard = True
        return more

    def _comes_within(self, seconds: float) -> bool:
        """Whether bytes come in this time."""
        import select

        return bool(select.select([self._reader], [], [], seconds)[0])

    def _ended(self) -> str:
        """What is said of a connection that the server has ended."""
        if 2 * self._used >= self.reads:
            return f"the server has ended the connection, as it does after {self.reads:,} reads"
        return self._gone()

    def _gone(self) -> str:
        """What is said of a server that has ended, or of a program that never answered."""
        if self._is_heard or self.program is None:
            return "the server has gone away"
        return f"{self.program} ended before it answered anything"

    def _renew(self) -> None:
        """Makes a new connection, on which the same user has the same roles. Raises Refusal,
        Disconnected.
        """
        assert self._again is not None
        self._close()
        self._reader, self._writer, self._close = self._again()
        self._begin()
        if self._login:
            user, roles = self._login
            answer = self._ask_once({"cmd": "login", "user": user, "roles": roles})
            self.when_renewed(answer)

    def _renew_in_time(self) -> None:
        """Makes a new connection where this one is soon at its end. Raises Refusal,
        Disconnected.
        """
        margin = max(1, self.reads // 100)
        if self._again and not self._owed and self._used >= self.reads - margin:
            self._renew()

    def _keep_login(self, command: Answer) -> None:
        """Keeps who is logged in with which roles, by a command that was accepted."""
        name = command["cmd"]
        if name == "login":
            self._login = command["user"], list(command["roles"])
        elif name == "logout":
            self._login = None
        elif self._login and name == "activate":
            self._login[1].append(command["role"])
        elif self._login and name == "drop" and command["role"] in self._login[1]:
            self._login[1].remove(command["role"])

    def _pass_over(self) -> None:
        """Reads the answers that came to nobody, since their commands were interrupted. Raises
        Disconnected.
        """
        if self._cut:
            raise Disconnected("an earlier command was broken off while it was sent")
        while self._owed > 0:
            self._read_line()

    @property
    def roles(self) -> List[str]:
        """The roles that are active, by what was asked for on this connection."""
        return list(self._login[1]) if self._login else []

    @property
    def is_owed(self) -> bool:
        """Whether a command was interrupted before its answer came."""
        return self._owed > 0

    def ask(self, cmd: str, **keys: Any) -> Answer:
        """Sends a command, and gives its answer, a dictionary with the keys that docs/PROTOCOL.md
        lists.

        Raises Refusal, Disconnected, TimedOut, TooLong, NotText.
        """
        command = {"cmd": cmd, **keys}
        line_of(command)
        self._pass_over()
        self._renew_in_time()
        try:
            answer = self._ask_once(command)
        except Disconnected:
            if self._again is None or 2 * self._used < self.reads:
                raise
            self._renew()
            answer = self._ask_once(command)
        self._keep_login(command)
        return answer

    def _ask_once(self, command: Answer) -> Answer:
        """Sends a command on this very connection, and gives its answer. Raises Refusal,
        Disconnected, TimedOut.
        """
        self._send([line_of(command)])
        answer = self._receive(command["cmd"])
        if "code" in answer:
            raise Refusal(answer, command)
        return answer

    def ask_all(self, commands: Iterable[Answer]) -> List[Answer]:
        """Sends commands ahead of their answers, and gives the list of the answers, refusals among
        them.

        Each command is a dictionary, with its name as `cmd`. Raises Disconnected, TimedOut,
        TooLong, NotText.
        """
        return list(self.ask_ahead(batches_of(commands), self.answers_to))

    def ask_ahead(
        self,
        batches: Iterable[Batch],
        answers_to: Callable[[Any], Iterator[Came]],
        stopped: Callable[[], bool] = lambda: False,
    ) -> Iterator[Came]:
        """Sends batches of commands, each before the answers to the one before are received, and
        gives what `answers_to` makes of the answers to each.

        No more is sent once `stopped()`; what was sent is still answered. Raises as `ask_all`.
        """
        self._pass_over()
        self._renew_in_time()
        waiting: Deque[Any] = collections.deque()
        for asked, lines, count in batches:
            if stopped():
                break
            self._write(lines, count)
            waiting.append(asked)
            if len(waiting) > 1:
                yield from answers_to(waiting.popleft())
        for asked in waiting:
            yield from answers_to(asked)

    def answers_to(self, commands: List[Answer]) -> Iterator[Answer]:
        """The answers to commands that were sent."""
        for command in commands:
            answer = self._receive(command["cmd"])
            if command["cmd"] in LOGINS and "ok" in answer:
                self._keep_login(command)
            yield answer

    def instant(self, slot: int, names: Iterable[str] = ()) -> Instant:
        """Offers these inputs, steps, and gives the `Instant` that came of it.

        An input that is pending already is left so. Where an offer or the step is refused, as each
        of them can be, the inputs that were offered before stay pending.
        """
        from .instants import Instant

        for name in names_of(names):
            try:
                self.offer(slot, name)
            except Refusal as refusal:
                if refusal.fault != "AlreadyOffered":
                    raise
        number = self.step(slot)["instant"]
        try:
            return Instant(number, dict(self.look(slot, number)["signals"]))
        except Refusal as refusal:
            if refusal.fault in ("NoInstant", "Empty"):  # another client has unloaded the module
                return Instant(number, {})
            raise

    def apply(self, policy: Path) -> Applied:
        """Makes what a policy file asks for, and gives what became of it, as `estserve.py apply`
        does.

        Raises BadPolicy where the file is none, OSError where it can't be read.
        """
        from .applying import apply_file

        return apply_file(self, policy)

    def waves(
        self, slot: int, text: str = "", main: Optional[str] = None, plain: bool = False
    ) -> str:
        """The instants of the slot so far as waves, of what the session may observe; `plain` keeps
        to ASCII.

        With the module's text, and the name of its main module where it isn't the first that no
        other runs, inputs and outputs are told apart, and what may not be observed shows as dots.
        Refused as look is.
        """
        from .module_text import main_of
        from .pictures import wave_lines
        from .seeing import see_slot

        seen = see_slot(self, slot, main_of(text, main) if text else None)
        return "\n".join(wave_lines(seen, plain)) + "\n"

    # The session of this connection.

    def login(self, user: str, roles: Iterable[str]) -> Answer:
        """Begins a session of the user in which the roles are active. Gives `session`, `version`.

        Refused as AlreadyLoggedIn, SessionsExhausted, UnknownUser, UnknownRole, NotAuthorized,
        AlreadyActive, DsdViolated, Full, JournalFull."""
        return self.ask("login", user=user, roles=names_of(roles))

    def logout(self) -> Answer:
        """Ends the session. Gives `version`."""
        return self.ask("logout")

    def activate(self, role: str) -> Answer:
        """Makes a role active in the session too. Gives `version`.

        Refused as UnknownRole, NotAuthorized, AlreadyActive, DsdViolated, JournalFull."""
        return self.ask("activate", role=role)

    def drop(self, role: str) -> Answer:
        """The role is no longer active in the session. Gives `version`.

        Refused as UnknownRole, NotActive, JournalFull."""
        return self.ask("drop", role=role)

    # The policy.

    def adduser(self, user: str) -> Answer:
        """Adds a user, to whom nothing is assigned. Gives `version`.

        Refused as Permission, UserExists, Full, JournalFull."""
        return self.ask("adduser", user=user)

    def deluser(self, user: str) -> Answer:
        """Deletes a user, with its assignments, and ends its sessions. Gives `version`.

        Refused as Permission, UnknownUser, JournalFull."""
        return self.ask("deluser", user=user)

    def addrole(self, role: str) -> Answer:
        """Adds a role, to which nothing is granted. Gives `version`.

        Refused as Permission, RoleExists, Full, JournalFull."""
        return self.ask("addrole", role=role)

    def delrole(self, role: str) -> Answer:
        """Deletes a role; the sessions in which it is active end. Gives `version`.

        Refused as Permission, UnknownRole, RoleInDsd, JournalFull."""
        return self.ask("delrole", role=role)

    def assign(self, user: str, role: str) -> Answer:
        """Assigns the role to the user. Gives `version`.

        Refused as Permission, UnknownUser, UnknownRole, AlreadyAssigned, JournalFull."""
        return self.ask("assign", user=user, role=role)

    def deassign(self, user: str, role: str) -> Answer:
        """Takes the role from the user; sessions that are no more authorized end. Gives `version`.

        Refused as Permission, UnknownUser, UnknownRole, NotAssigned, JournalFull."""
        return self.ask("deassign", user=user, role=role)

    def grant(self, role: str, op: str, object: str) -> Answer:
        """Grants the operation, as `offer`, on the object, as `0.A`, to the role. Gives `version`.

        Refused as Permission, UnknownRole, AlreadyGranted, Full, JournalFull."""
        return self.ask("grant", role=role, op=op, object=object)

    def revoke(self, role: str, op: str, object: str) -> Answer:
        """Takes that permission from the role. Gives `version`.

        Refused as Permission, UnknownRole, NotGranted, JournalFull."""
        return self.ask("revoke", role=role, op=op, object=object)

    def inherit(self, senior: str, junior: str) -> Answer:
        """Puts the senior above the junior: it has what the junior has. Gives `version`.

        Refused as Permission, UnknownRole, Cycle, EdgeExists, DsdViolated, JournalFull."""
        return self.ask("inherit", senior=senior, junior=junior)

    def disinherit(self, senior: str, junior: str) -> Answer:
        """Takes that edge away; sessions that are no more authorized end. Gives `version`.

        Refused as Permission, UnknownRole, NoEdge, JournalFull."""
        return self.ask("disinherit", senior=senior, junior=junior)

    def dsd(self, name: str, roles: Iterable[str], count: int) -> Answer:
        """No session may have `count` of the roles active, or below an active one. Gives `version`.

        Refused as Permission, DsdExists, UnknownRole, DsdShape, DsdViolated, Full, JournalFull."""
        return self.ask("dsd", name=name, roles=names_of(roles), count=count)

    def undsd(self, name: str) -> Answer:
        """Deletes the separation set. Gives `version`.

        Refused as Permission, NoDsd, JournalFull."""
        return self.ask("undsd", name=name)

    def check(self, op: str, object: str) -> Answer:
        """Whether the session may do the operation on the object. Gives `allowed`, a bool."""
        return self.ask("check", op=op, object=object)

    # The slots.

    def load(self, slot: int, main: str, text: str) -> Answer:
        """Loads the module `main` of a text into the empty slot. Gives `place`, `version`.

        Refused as NoSlot, Permission, Occupied, JournalFull; and for the text as Lexical, Syntax
        (both with `line` and `column`), DuplicateName, UnknownModule, RecursiveRun, BadRename,
        UnknownName, EmitInput, Semantics, TooLarge, InstantLoop."""
        return self.ask("load", slot=slot, main=main, text=text)

    def unload(self, slot: int) -> Answer:
        """Takes the module out of the slot, with its instants. Gives `place`, `version`.

        Refused as NoSlot, Permission, Empty, JournalFull."""
        return self.ask("unload", slot=slot)

    def offer(self, slot: int, signal: str) -> Answer:
        """Puts an input or inputoutput into the slot's pending set. Gives `place`, `version`.

        Refused as NoSlot, Permission, Empty, UnknownSignal, NotInput, AlreadyOffered, Excluded,
        JournalFull."""
        return self.ask("offer", slot=slot, signal=signal)

    def discard(self, slot: int) -> Answer:
        """Empties the slot's pending set. Gives `place`, `version`.

        Refused as NoSlot, Permission, Empty, JournalFull."""
        return self.ask("discard", slot=slot)

    def step(self, slot: int) -> Answer:
        """Makes the pending set the inputs of the next instant, and reacts.

        Gives `instant`, an int from 1 after each load, `place`, `version`.
        Refused as NoSlot, Permission, Empty, Implied, Stuck, JournalFull."""
        return self.ask("step", slot=slot)

    def look(self, slot: int, instant: int) -> Answer:
        """What the session may observe of an instant.

        Gives `signals`, a list of pairs `[name, present]`, `instant`, `version`.
        Refused as NoSlot, Empty, NoInstant."""
        return self.ask("look", slot=slot, instant=instant)

    def audit(self, slot: int) -> Answer:
        """How many entries the slot's journal has, and how many instants there were since the load.

        Gives `entries`, `instants`, `version`. Refused as NoSlot, Permission."""
        return self.ask("audit", slot=slot)


def close_all(files: Iterable[Any]) -> None:
    """Closes files, whatever becomes of what was still to be written."""
    for file in files:
        try:
            file.close()
        except OSError:
            pass


def open_socket(path: Path) -> Channel:
    """What a connection to the server at this path is. Raises Disconnected."""
    import socket

    connection = socket.socket(socket.AF_UNIX, socket.SOCK_STREAM)
    try:
        connection.connect(os.fspath(path))
    except PermissionError as fault:
        connection.close()
        why = "folder and socket are for their owner and group"
        raise Disconnected(f"{path} may not be opened: {why}") from fault
    except (OSError, ValueError) as fault:
        connection.close()
        told = getattr(fault, "strerror", None) or fault
        raise Disconnected(f"no server answers at {path}: {told}") from fault
    reader, writer = connection.makefile("rb"), connection.makefile("wb")
    return reader, writer, lambda: close_all((writer, reader, connection))


def connect(path: Path, timeout: Optional[float] = None, reads: int = READS) -> Client:
    """A client of the server whose Unix socket lies at the path. Raises Disconnected.

    An answer is waited for `timeout` seconds, or for as long as it takes. The server ends a
    connection after 1,000,000 reads: the client connects again shortly before, and logs in as it
    was. `reads` is another such limit.
    """
    return Client(*open_socket(path), timeout, lambda: open_socket(path), reads)


def find_program(named: Optional[Path] = None, name: str = "estserve") -> Path:
    """The program of this name: the one that is named, or of the variable ESTSERVE (or ESTLAB), or
    the one that `make run` builds, or one beside the command that was started, or one on the path.

    Raises Disconnected, if there is none.
    """
    if named or os.environ.get(name.upper()):
        return named or os.environ[name.upper()]
    program = os.path.join(ROOT, "crates", name, "out", name)
    if os.path.exists(program):
        return program
    import shutil

    beside = os.path.join(os.path.dirname(os.path.realpath(sys.argv[0])), name)
    found = shutil.which(beside) or shutil.which(name)
    if found is None:
        word = "--program" if name == "estserve" else f"--{name}"
        raise Disconnected(
            f"there is no program {name} on PATH: it comes with the Debian package, or `make build`"
            f" builds it; name it by {word}, or by the variable {name.upper()};"
            " in the repository --unproved builds one without proof, in a minute"
        )
    return found


def widen(pipe: Any) -> bool:
    """Lets a pipe hold more, so that a program seldom waits for the client. Answers whether it
    does.
    """
    try:
        import fcntl

        return fcntl.fcntl(pipe, fcntl.F_SETPIPE_SZ, PIPE_BYTES) >= PIPE_BYTES
    except (ImportError, AttributeError, OSError):  # known to Linux, and Python 3.10 and later
        return False


def wait_for_end(child: subprocess.Popen[bytes], seconds: float) -> None:
    """Waits for the end of a program that was started, for at most this many seconds. Where the
    system doesn't tell it, `wait` looks from time to time, and sees it up to 0.05 seconds late.
    """
    import select
    import subprocess

    try:
        ended = os.pidfd_open(child.pid)
    except (AttributeError, OSError):
        with contextlib.suppress(subprocess.TimeoutExpired):
            child.wait(seconds)
        return
    try:
        poll = select.poll()
        poll.register(ended, select.POLLIN)
        poll.poll(seconds * 1000)
    finally:
        os.close(ended)


def drop_output(child: subprocess.Popen[bytes], seconds: float) -> None:
    """Reads what a program still writes, for at most this many seconds: it would call a pipe that
    nobody reads a fault.
    """
    import select

    assert child.stdout
    until = time.monotonic() + seconds
    with contextlib.suppress(OSError, ValueError):
        while (left := until - time.monotonic()) > 0:
            comes = select.select([child.stdout], [], [], left)[0]
            if not comes or not os.read(child.stdout.fileno(), LINE_BYTES):
                return


def end_program(child: subprocess.Popen[bytes]) -> None:
    """Ends the input of a program that was started, takes what it still writes, and waits for its
    end. One that goes on for too long is stopped.
    """
    close_all((child.stdin,))
    drop_output(child, DROP_SECONDS)
    close_all((child.stdout,))
    try:
        wait_for_end(child, END_SECONDS)
    finally:
        child.kill()
        child.wait()


def start(
    program: Optional[Path] = None, timeout: Optional[float] = None, is_quiet: bool = False
) -> Client:
    """A client of a program that is started for it alone, as `estserve script`. Raises
    Disconnected.

    An answer is waited for `timeout` seconds, or for as long as it takes. The program is in a
    process group of its own, so that Ctrl-C interrupts the client and not the program. Where it
    `is_quiet`, what it writes on standard error is dropped.
    """
    import subprocess

    command = [find_program(program), "script"]
    try:
        child = subprocess.Popen(
            command,
            stdin=subprocess.PIPE,
            stdout=subprocess.PIPE,
            stderr=subprocess.DEVNULL if is_quiet else None,
            start_new_session=True,
        )
    except (OSError, ValueError) as fault:
        told = getattr(fault, "strerror", None) or fault
        raise Disconnected(f"{command[0]} cannot be started: {told}") from fault

    assert isinstance(child.stdout, io.BufferedReader) and child.stdin
    client = Client(child.stdout, child.stdin, lambda: end_program(child), timeout)
    client.program = command[0]
    if widen(child.stdin) and widen(child.stdout):
        client.room = WIDE_ROOM
    return client
