"""The page's process, as a child of the gateway: it is started, seen to, and started again.

It is one more client, at page.sock. It gets no right of the gateway's: where it can be, it is
another Unix user, and nothing that it starts gets rights back."""
import asyncio
import contextlib
import os
import pathlib
import pwd
import resource
import subprocess
import sys
from typing import Any, Callable, List, NamedTuple, Optional, Sequence, TYPE_CHECKING

from .places import C_LIBRARY, Failed
from .web.options import Options

if TYPE_CHECKING:
    from .gateway import Gateway

PROGRAM = pathlib.Path(__file__).resolve().parent / "page_program.py"
START_SECONDS = 30  # in which a page says where it serves
END_SECONDS = 3  # in which it ends when it is told to
LOOK_SECONDS = 0.5
WAITS = (0.2, 1.0, 5.0, 10.0, 20.0, 30.0)  # seconds before each new start, then always the last
WELL_SECONDS = 60  # one that ran so long was well
SET_NO_NEW_PRIVILEGES = 38
OF_SYSTEMD = ("NOTIFY_SOCKET", "WATCHDOG_USEC", "WATCHDOG_PID", "LISTEN_FDS", "LISTEN_PID")


class PageUser(NamedTuple):
    """The Unix user of the page's process, and the group by which it reaches page.sock."""

    uid: int
    gid: int
    group: int


def uid_of(name: str) -> int:
    """The number of a Unix user. Raises Failed."""
    try:
        return pwd.getpwnam(name).pw_uid
    except KeyError:
        raise Failed(f"--page-user {name}: there is no such user") from None


def user_of(name: Optional[str], state: pathlib.Path) -> Optional[PageUser]:
    """The user as whom a page is to be started; None for the gateway's own. Raises Failed."""
    if name is None or uid_of(name) == os.geteuid():
        return None
    if os.geteuid() != 0:
        raise Failed("only root can start the page as another user: start `team page` as that user")
    return PageUser(uid_of(name), pwd.getpwnam(name).pw_gid, state.stat().st_gid)


def give_up_rights(user: Optional[PageUser]) -> Callable[[], None]:
    """What the child does before it becomes the page: it becomes its user, and gives up what it
    could get back."""

    def give_up() -> None:
        resource.setrlimit(resource.RLIMIT_CORE, (0, 0))
        if user is not None:
            os.setgroups([user.group])
            os.setresgid(user.gid, user.gid, user.gid)
            os.setresuid(user.uid, user.uid, user.uid)
        if C_LIBRARY.prctl(SET_NO_NEW_PRIVILEGES, 1, 0, 0, 0) != 0:
            os._exit(1)

    return give_up


def words_of(options: Options, state: pathlib.Path, limits: Sequence[str]) -> List[str]:
    """The words of the command line of `team page`."""
    words = ["--state", str(state)]
    if options.place:
        host, port = options.place
        words += ["--http", f"{f'[{host}]' if ':' in host else host}:{port}"]
    pairs = [
        ("--http-socket", options.socket),
        ("--origin", options.origin and f"{options.origin}{options.prefix}"),
        ("--user-header", options.header),
        ("--proxy-user", None if options.proxy is None else pwd.getpwuid(options.proxy).pw_name),
    ]
    words += [word for name, value in pairs if value for word in (name, value)]
    return words + [word for one in limits for word in ("--limit", one)]


class PageProcess:
    """The page of one gateway, from `start` to `stop`."""

    def __init__(
        self,
        gateway: "Gateway",
        options: Options,
        limits: Sequence[str],
        user: Optional[PageUser],
    ) -> None:
        self._gateway, self._options, self._limits = gateway, options, limits
        self._user = user
        self._child: Optional[subprocess.Popen[Any]] = None
        self._watching: "Optional[asyncio.Future[None]]" = None
        self._faults = 0
        self._began = 0.0

    def _spawn(self) -> None:
        """Starts the process. Raises Failed."""
        flags = ["-B"] if sys.dont_write_bytecode else []
        words = words_of(self._options, self._gateway.state, self._limits)
        words += ["--program", str(pathlib.Path(self._gateway.program).absolute())]
        self._gateway.visiting.has_page.clear()
        self._began = asyncio.get_running_loop().time()
        self._child = self._gateway.places.children.start(
            [sys.executable, *flags, str(PROGRAM), *words],
            give_up=give_up_rights(self._user),
            stdin=subprocess.DEVNULL,
            stdout=subprocess.DEVNULL,
            env={name: value for name, value in os.environ.items() if name not in OF_SYSTEMD},
            cwd="/",
        )

    async def start(self) -> None:
        """Starts it, and waits until it serves, or is not well. The gateway goes on without it, and
        starts it again."""
        self._try()
        self._watching = asyncio.ensure_future(self._watch())
        has_page = self._gateway.visiting.has_page
        while not has_page.is_set() and self._is_well():
            await asyncio.sleep(0.01)
        self._keep_port()

    def _try(self) -> None:
        """Starts the process, or tells why it can't be started."""
        try:
            self._spawn()
        except Failed as fault:
            self._gateway.log(f"the page cannot be started: {fault}", "page")

    def _keep_port(self) -> None:
        """Has the next process serve at the port that this one took."""
        place, address = self._options.place, self._gateway.visiting.address or ""
        port = address.rstrip("/").rpartition(":")[2]
        if place and place[1] == 0 and self._options.origin is None and port.isdecimal():
            self._options = self._options._replace(place=(place[0], int(port)))

    async def _watch(self) -> None:
        """Starts it again where it has ended, or stands still."""
        while True:
            await asyncio.sleep(LOOK_SECONDS)
            has_served = self._gateway.visiting.has_page.is_set()
            if self._is_well():
                self._keep_port()
                continue
            why = "has ended" if has_served else "has not begun to serve"
            self._gateway.log(f"the page {why}, and is started again", "page")
            if await self._end():
                await self._start_again()

    async def _start_again(self) -> None:
        """Starts it after a while, which is longer where it ends soon."""
        now = asyncio.get_running_loop().time()
        self._faults = 0 if now - self._began > WELL_SECONDS else self._faults + 1
        await asyncio.sleep(WAITS[min(self._faults, len(WAITS) - 1)])
        self._try()

    def _is_well(self) -> bool:
        """Whether the process runs, and is connected, or has not been yet and has time for it."""
        visiting = self._gateway.visiting
        if self._child is None or self._child.poll() is not None:
            return False
        if visiting.has_page.is_set():
            return bool(visiting.pages)
        return asyncio.get_running_loop().time() < self._began + START_SECONDS

    async def _end(self) -> bool:
        """Kills it, and sees it go; the gateway goes on meanwhile. Answers whether it is gone."""
        child = self._child
        if child is None:
            return True
        with contextlib.suppress(OSError):
            child.kill()
        if not await self._is_gone(child):
            return False
        self._child = None
        self._gateway.places.children.end(child)
        return True

    @staticmethod
    async def _is_gone(child: subprocess.Popen[Any]) -> bool:
        """Whether it ends in time."""
        loop = asyncio.get_running_loop()
        end = loop.time() + END_SECONDS
        while child.poll() is None and loop.time() < end:
            await asyncio.sleep(0.01)
        return child.poll() is not None

    async def stop(self) -> None:
        """Tells it to end, and ends it where it doesn't."""
        if self._watching is not None:
            self._watching.cancel()
        if self._child is not None and self._child.poll() is None:
            self._child.terminate()
            await self._is_gone(self._child)
        await self._end()


def add_options(parser: Any) -> None:
    """Adds the options of a page that is a process of its own."""
    group = parser.add_argument_group("the page's process")
    group.add_argument(
        "--page-user",
        metavar="USER",
        help="the Unix user of the page's process: of the one that is started here, "
        "or of `team page`, which is started apart",
    )
    group.add_argument(
        "--page-names",
        action="store_true",
        help="believe `team page` whom a proxy has named to it by --user-header",
    )
