"""A visitor of the page without a browser: HTTP by the standard library, for the tests."""
from __future__ import annotations

import contextlib
import http.client
import importlib.util
import json
import os
import pathlib
import re
import socket
import tempfile
import unittest
from typing import Any, Callable, Dict, Iterable, Iterator, List, Optional, Tuple

import teams

HAS_AIOHTTP = importlib.util.find_spec("aiohttp") is not None
NO_AIOHTTP = (
    "aiohttp is not there for this Python: scripts/install_debian.sh installs it for Debian's"
)
USERS = ("root", "ann", "bob", "cho")
PEOPLE = "[people]\n" + "".join(f'{user} = ["{teams.ME}"]\n' for user in USERS)
SECONDS = 30
Headers = Iterable[Tuple[str, Any]]  # or a dictionary of them
MEMORY = "/dev/shm" if os.access("/dev/shm", os.W_OK) else None  # a folder that is no disk's


def address_of(team: teams.Team) -> str:
    """The host and the port at which a team's gateway serves HTTP."""
    found: List[str] = re.findall(r"the page is at http://(127\.0\.0\.1:\d+)/", team.told())
    return found[-1]


def address_of_link(team: teams.Team) -> str:
    """A new link, asked over gateway.sock."""
    talker = team.words()
    try:
        return str(talker.word("link")["link"])
    finally:
        talker.close()


def link_of(team: teams.Team) -> str:
    """The secret of a new link."""
    return address_of_link(team).partition("#link=")[2]


class Team(teams.Team):
    """A gateway whose people may all be the one who runs the tests. Its folder is in memory where
    that can be: these tests are about answers, not about disks."""

    def __init__(self, *words: str) -> None:
        self._memory = tempfile.TemporaryDirectory(prefix="gateway-", dir=MEMORY)
        super().__init__(*words, people=PEOPLE, state=pathlib.Path(self._memory.name) / "team")

    def __exit__(self, *fault: object) -> None:
        super().__exit__(*fault)
        if self.process is not None:
            self.process.stdout.close()
            self._told.close()
        self._memory.cleanup()


class UnixConnection(http.client.HTTPConnection):
    """HTTP over a Unix socket."""

    def __init__(self, path: pathlib.Path) -> None:
        super().__init__("localhost", timeout=SECONDS)
        self._path = path

    def connect(self) -> None:
        self.sock = socket.socket(socket.AF_UNIX)
        self.sock.settimeout(SECONDS)
        self.sock.connect(str(self._path))


def plain_connection(host: str) -> http.client.HTTPConnection:
    """HTTP over TCP."""
    return http.client.HTTPConnection(host, timeout=SECONDS)


def as_json(value: Any) -> bytes:
    """The bytes of a value."""
    return json.dumps(value).encode()


class Answer:
    """A status, headers, and what the body tells."""

    def __init__(self, response: http.client.HTTPResponse) -> None:
        self.status, self.headers = response.status, response.headers
        self.body = response.read()

    @property
    def told(self) -> Any:
        """The JSON of the body."""
        return json.loads(self.body)


class Visitor:
    """One browser: a cookie, a token, and the seat of one page."""

    def __init__(self, host: str, path: Optional[pathlib.Path] = None) -> None:
        self.host, self.path = host, path
        self.origin = f"http://{host}"
        self.cookie: Optional[str] = None
        self.token: Optional[str] = None
        self.seat: Any = None

    def open(
        self, method: str, path: str, body: Any = None, headers: Headers = ()
    ) -> Tuple[http.client.HTTPConnection, http.client.HTTPResponse]:
        """A connection and the answer to one request on it, which has the visitor's own headers;
        `headers` replace them, None takes one away."""
        all_of: Dict[str, Any] = {"Host": self.host}
        if method == "POST":
            all_of.update({"Origin": self.origin, "Content-Type": "application/json"})
        if self.cookie:
            all_of.update({"Cookie": self.cookie, "X-Estserve-Token": self.token})
        all_of.update(dict(headers))
        connection = UnixConnection(self.path) if self.path else plain_connection(self.host)
        connection.putrequest(method, path, skip_host=True, skip_accept_encoding=True)
        lists = [(name, one if isinstance(one, list) else [one]) for name, one in all_of.items()]
        for name, value in [(name, value) for name, values in lists for value in values]:
            if value is not None:
                connection.putheader(name, value)
        payload = body if isinstance(body, bytes) else b"" if body is None else as_json(body)
        connection.putheader("Content-Length", str(len(payload)))
        connection.endheaders(payload)
        return connection, connection.getresponse()

    def send(self, method: str, path: str, body: Any = None, headers: Headers = ()) -> Answer:
        """The answer to one request."""
        connection, response = self.open(method, path, body, headers)
        with contextlib.closing(connection):
            return Answer(response)

    def get(self, name: str, **query: Any) -> Answer:
        """Reads something of the page's API."""
        words = "&".join(f"{key}={value}" for key, value in {"seat": self.seat, **query}.items())
        return self.send("GET", f"/api/{name}?{words}")

    def post(self, name: str, body: Any, **options: Any) -> Answer:
        """Asks for something that may change things."""
        return self.send("POST", f"/api/{name}", body, **options)

    def enter(self, link: Optional[str], **options: Any) -> Answer:
        """Comes in by a link."""
        answer = self.post("enter", {"link": link} if link else {}, **options)
        if answer.status == 200:
            self.cookie = answer.headers["Set-Cookie"].partition(";")[0]
            self.token = answer.told["token"]
        return answer

    def login(self, user: str, *roles: str) -> Any:
        """Takes a seat."""
        answer = self.post("login", {"user": user, "roles": list(roles)})
        self.seat = answer.told.get("seat")
        return answer.told

    def ask(self, request_id: str, cmd: str, **keys: Any) -> Any:
        """Asks for a command, under an id."""
        return self.post(
            "ask", {"seat": self.seat, "id": request_id, "command": {"cmd": cmd, **keys}}
        ).told

    def page(self) -> Visitor:
        """Another page of the same browser."""
        other = Visitor(self.host, self.path)
        other.cookie, other.token = self.cookie, self.token
        return other

    def events(self) -> Iterator[Tuple[str, Any]]:
        """The live events, as pairs of a name and a value."""
        connection, response = self.open("GET", f"/api/events?seat={self.seat}")
        with contextlib.closing(connection), contextlib.closing(response):
            name = ""
            for line in iter(response.readline, b""):
                word, _, value = line.decode().rstrip("\n").partition(": ")
                if word == "event":
                    name = value
                elif word == "data":
                    yield name, json.loads(value)


def visitor_of(team: teams.Team, user: Optional[str] = None, *roles: str) -> Visitor:
    """A visitor who has come in, and has a seat where a user is named."""
    visitor = Visitor(address_of(team))
    answer = visitor.enter(link_of(team))
    if answer.status != 200:
        raise AssertionError(answer.body)
    if user:
        visitor.login(user, *roles)
    return visitor


def set_up(team: teams.Team) -> None:
    """The policy and the controller of examples/team, in slot 0."""
    from estserve_client.applying import read_policy_file

    folder = teams.ROOT / "examples" / "team"
    with team.root() as client:
        for wish in read_policy_file(folder / "team.toml").wishes:
            client.ask(**wish.command)
        client.load(0, "TEAM", (folder / "team.strl").read_text())
        client.logout()


def serving(
    add_cleanup: Callable[..., Any],
    *words: str,
    people: Optional[str] = PEOPLE,
    has_example: bool = True,
) -> Team:
    """A team with a page, with the team of the examples, that ends with a test or a class."""
    team = Team("--http", "127.0.0.1:0", *words)
    team._people = people
    team.__enter__()
    add_cleanup(team.__exit__)
    if has_example:
        set_up(team)
    return team


@unittest.skipUnless(HAS_AIOHTTP, NO_AIOHTTP)
class SharedTeam(unittest.TestCase):
    """One gateway for the tests of a class."""

    team: Team

    @classmethod
    def setUpClass(cls) -> None:
        cls.team = serving(cls.addClassCleanup)


@unittest.skipUnless(HAS_AIOHTTP, NO_AIOHTTP)
class OwnTeam(unittest.TestCase):
    """A gateway for each test, or as many as it begins."""

    def serving(self, *words: str, **how: Any) -> Team:
        return serving(self.addCleanup, *words, **how)
