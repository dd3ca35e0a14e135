"""Where a team's files lie, the lock that one gateway holds, and the processes that die with it.

    DIR                 0750, of the team's group
    DIR/team.sock       0660: the program's lines
    DIR/gateway.sock    0660: the gateway's own words
    DIR/metrics.sock    0660: counts for an operator
    DIR/page.sock       0660: the page's process
    DIR/private         0700: what follows; locked while a gateway runs
    .../inner.sock      the server's socket
    .../children        the processes that were started, by id and start time
    .../record.sqlite   the record
    .../head            how far the record has come
    .../records         older records
"""
import contextlib
import ctypes
import fcntl
import hashlib
import json
import os
import pathlib
import shutil
import signal
import socket
import stat
import subprocess
import time
from typing import Any, Callable, Dict, List, Optional, Sequence

from estserve_client.texts import Failed as Failed  # also for the other modules

PATH_BYTES = 107  # the longest path of a Unix socket
LIST_NAME = "children"
PAGE_SOCKET = "page.sock"
JSON_BYTES = 1 << 26  # of a file of the gateway's own
END_SECONDS = 10  # in this time a process that was killed is gone
LEAVE_SECONDS = 2  # after this time it is left to the system
SET_PARENT_DEATH_SIGNAL = 1
C_LIBRARY = ctypes.CDLL(None, use_errno=True)


def add_state(parser: Any, default: Any = None) -> None:
    """Adds the team's folder to the options of a command."""
    parser.add_argument(
        "--state", default=default, metavar="DIR", type=pathlib.Path, help="the team's folder"
    )


def digest_of(program: str) -> str:
    """The SHA-256 of the program's file, which names its version. Raises Failed."""
    found = hashlib.sha256()
    try:
        with open(program, "rb") as file:
            for part in iter(lambda: file.read(1 << 20), b""):
                found.update(part)
    except OSError as fault:
        raise Failed(f"the program {program} cannot be read: {fault.strerror}") from fault
    return found.hexdigest()


def make_folder(path: pathlib.Path, mode: int) -> None:
    """Makes a folder with this mode, or sees that what is there is a folder of ours, and no link.
    Raises Failed."""
    try:
        with contextlib.suppress(FileExistsError):
            path.mkdir(mode=mode, parents=False)
        found = path.lstat()
    except OSError as fault:
        raise Failed(f"{path} cannot be made a folder: {fault.strerror or fault}") from fault
    if stat.S_ISLNK(found.st_mode):
        raise Failed(f"{path} is a link: name the folder itself")
    if not stat.S_ISDIR(found.st_mode) or found.st_uid != os.geteuid():
        raise Failed(f"{path} is not a folder of the user who starts the gateway")


def narrow_folder(path: pathlib.Path, mode: int, group: Optional[str] = None) -> None:
    """Gives a folder its mode and its group. Raises Failed."""
    try:
        if group is not None:
            shutil.chown(path, group=group)
        path.chmod(mode)
    except (OSError, LookupError) as fault:
        raise Failed(f"{path} cannot be made a folder of mode {mode:o}: {fault}") from fault


def take_lock(folder: pathlib.Path, state: pathlib.Path) -> int:
    """The descriptor of a folder's lock, which one process at a time holds: no file in it can be
    deleted to have it twice. Raises Failed."""
    try:
        found = os.open(folder, os.O_RDONLY | os.O_DIRECTORY | os.O_NOFOLLOW | os.O_CLOEXEC)
    except OSError as fault:
        raise Failed(f"{folder} cannot be opened: {fault.strerror}") from fault
    try:
        fcntl.flock(found, fcntl.LOCK_EX | fcntl.LOCK_NB)
    except BlockingIOError:
        os.close(found)
        raise Failed(f"another gateway runs on {state}") from None
    except OSError as fault:
        os.close(found)
        raise Failed(f"{folder} cannot be locked: {fault.strerror}") from fault
    return found


def check_socket_path(path: pathlib.Path) -> None:
    """Raises Failed, where the path is too long for a Unix socket."""
    if len(os.fsencode(path)) > PATH_BYTES:
        raise Failed(f"{path} is over {PATH_BYTES} bytes, which is too long for a socket")


def remove_socket(path: pathlib.Path) -> None:
    """Takes away a socket that was left at a path. Raises Failed, also where a file of another
    kind stands there, or a link: it stays."""
    try:
        if not stat.S_ISSOCK(path.lstat().st_mode):
            raise Failed(f"{path} is no socket, and is kept: move it away")
        path.unlink()
    except FileNotFoundError:
        pass
    except OSError as fault:
        raise Failed(f"{path} cannot be taken away: {fault.strerror or fault}") from fault


def bind_socket(path: pathlib.Path) -> socket.socket:
    """A socket that listens at the path, for the owner and the group of its folder. A socket that
    stood there is taken away. Raises Failed."""
    check_socket_path(path)
    remove_socket(path)
    listening = socket.socket(socket.AF_UNIX, socket.SOCK_STREAM)
    before = os.umask(0o117)
    try:
        listening.bind(os.fspath(path))
        os.chown(path, -1, path.parent.stat().st_gid)
    except OSError as fault:
        listening.close()
        raise Failed(f"{path} cannot be bound: {fault}") from fault
    finally:
        os.umask(before)
    listening.listen(128)
    listening.setblocking(False)
    return listening


def start_time_of(process: int) -> Optional[str]:
    """When a process was started, in the system's ticks. None where there is none, or it has
    ended."""
    try:
        fields = (
            pathlib.Path(f"/proc/{process}/stat")
            .read_text(errors="replace")
            .rpartition(")")[2]
            .split()
        )
    except OSError:
        return None
    return None if fields[0] in "ZX" else fields[19]


def end_process(process: int, start: str) -> None:
    """Kills the process that has this id and start time, and waits until it is gone. Raises
    Failed."""
    end = time.monotonic() + END_SECONDS
    while start_time_of(process) == start:
        try:
            os.kill(process, signal.SIGKILL)
        except ProcessLookupError:
            return
        except OSError as fault:
            raise Failed(
                f"the process {process} of an earlier gateway cannot be ended: {fault.strerror}"
            ) from fault
        if time.monotonic() > end:
            raise Failed(f"the process {process} of an earlier gateway does not end")
        time.sleep(0.005)


def die_with(parent: int) -> Callable[[], None]:
    """What a child does before it becomes the program: it asks to be killed when the parent ends,
    and ends if it has already."""

    def prepare() -> None:
        C_LIBRARY.prctl(SET_PARENT_DEATH_SIGNAL, int(signal.SIGKILL), 0, 0, 0)
        if os.getppid() != parent:
            os._exit(1)

    return prepare


def start_child(
    command: Sequence[str], give_up: Optional[Callable[[], None]] = None, **options: Any
) -> subprocess.Popen[Any]:
    """Starts a process that dies with the thread that calls this; `give_up` is what it does
    first. Raises Failed."""
    die = die_with(os.getpid())

    def prepare() -> None:
        if give_up is not None:
            give_up()
        die()  # last, since a change of the user would undo it

    try:
        return subprocess.Popen(command, start_new_session=True, preexec_fn=prepare, **options)
    except (OSError, ValueError, subprocess.SubprocessError) as fault:
        raise Failed(f"{command[0]} cannot be started: {fault}") from fault


def end_child(child: subprocess.Popen[Any]) -> None:
    """Ends a process that was started here. This takes no file and no descriptor, and never
    raises."""
    with contextlib.suppress(OSError, subprocess.TimeoutExpired):
        if child.poll() is None:
            child.kill()
        child.wait(LEAVE_SECONDS)


def read_plain_file(path: pathlib.Path, most: int, more_flags: int = 0) -> str:
    """The text of a plain file of at most so many bytes: a pipe or a device could hold up the
    gateway. Raises OSError, where there is none, and ValueError."""
    descriptor = os.open(path, os.O_RDONLY | os.O_NONBLOCK | os.O_CLOEXEC | more_flags)
    try:
        if not stat.S_ISREG(os.fstat(descriptor).st_mode):
            raise OSError("it is no plain file")
        with open(descriptor, "rb", closefd=False) as file:
            data = file.read(most + 1)
    finally:
        os.close(descriptor)
    if len(data) > most:
        raise OSError(f"it has more than {most:,} bytes")
    return data.decode()


def read_json(path: pathlib.Path) -> Any:
    """What a file of the gateway's own holds. Raises OSError, where there is no plain file, and
    ValueError."""
    try:
        return json.loads(read_plain_file(path, JSON_BYTES, os.O_NOFOLLOW))
    except RecursionError:
        raise ValueError("it is nested too deep") from None


def write_json(path: pathlib.Path, value: Any) -> None:
    """Writes such a file anew, in one piece. Raises OSError."""
    beside = path.with_suffix(".new")
    beside.unlink(missing_ok=True)
    flags = os.O_WRONLY | os.O_CREAT | os.O_EXCL | os.O_CLOEXEC
    with open(os.open(beside, flags, 0o600), "w", encoding="utf-8") as file:
        json.dump(value, file)
    os.replace(beside, path)


class Children:
    """The processes that this gateway has started, kept in a file so that the next one ends what
    was left over."""

    def __init__(self, folder: pathlib.Path) -> None:
        self._path = folder / LIST_NAME
        self._running: Dict[int, str] = {}
        self.fault = ""  # why the list that was there can't be read

    def end_orphans(self) -> List[int]:
        """Ends what an earlier gateway on this folder has left over. Answers their ids. Raises
        Failed.

        A list that can't be read, or of another folder, or of another run of the system, names
        none: the children of a gateway die with it."""
        try:
            listed = read_json(self._path)
            if listed["of"] != self._of():
                return []
            started = {int(process): str(start) for process, start in listed["processes"].items()}
        except FileNotFoundError:
            return []
        except (OSError, ValueError, AttributeError, KeyError, TypeError) as fault:
            self.fault = f"{self._path} can't be read, and is made anew: {fault!r}"
            return []
        left = [process for process, start in started.items() if start_time_of(process) == start]
        for process in left:
            end_process(process, started[process])
        self._write()
        return left

    def _of(self) -> List[object]:
        """What tells this folder from a copy of it, and this run of the system from others."""
        found = self._path.parent.stat()
        try:
            boot = pathlib.Path("/proc/sys/kernel/random/boot_id").read_text().strip()
        except OSError:
            boot = ""
        return [found.st_dev, found.st_ino, boot]

    def start(self, command: Sequence[str], **options: Any) -> subprocess.Popen[Any]:
        """Starts a process, and lists it. Raises Failed."""
        child = start_child(command, **options)
        self._running[child.pid] = start_time_of(child.pid) or ""
        self._write()
        return child

    def end(self, child: subprocess.Popen[Any]) -> None:
        """Ends a process, and takes it from the list. Never raises."""
        end_child(child)
        self._running.pop(child.pid, None)
        self._write()

    def _write(self) -> None:
        """Writes the list, where that can be done: it is for the case that a child outlives its
        gateway, which the system doesn't let happen."""
        with contextlib.suppress(OSError):
            write_json(self._path, {"of": self._of(), "processes": self._running})


class Places:
    """The files of one team, under the lock. Used with `with`, the lock is given back at the
    end."""

    def __init__(self, state: pathlib.Path, group: Optional[str] = None) -> None:
        self.state = state.absolute()
        self.group = group
        self.private = self.state / "private"
        self.team_socket = self.state / "team.sock"
        self.gateway_socket = self.state / "gateway.sock"
        self.metrics_socket = self.state / "metrics.sock"
        self.page_socket = self.state / PAGE_SOCKET
        self.inner_socket = self.private / "inner.sock"
        self.record = self.private / "record.sqlite"
        self.head = self.private / "head"
        self.next_record = self.private / "record-next.sqlite"
        self.old_records = self.private / "records"
        self.children = Children(self.private)

    def __enter__(self) -> "Places":
        """Makes what is missing, takes the lock, and ends what an earlier gateway left over. Raises
        Failed."""
        check_socket_path(self.inner_socket)
        make_folder(self.state, 0o750)
        make_folder(self.private, 0o700)
        self._lock = take_lock(self.private, self.state)
        try:  # a second gateway has changed nothing up to here
            make_folder(self.old_records, 0o700)
            narrow_folder(self.state, 0o750, self.group)
            narrow_folder(self.private, 0o700)
            narrow_folder(self.old_records, 0o700)
            self.orphans = self.children.end_orphans()
            self.inner_socket.unlink(missing_ok=True)
        except BaseException:
            os.close(self._lock)
            raise
        return self

    def __exit__(self, *_: object) -> None:
        os.close(self._lock)
