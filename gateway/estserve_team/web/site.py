"""The site: the page's files, and what the page asks."""
import asyncio
import contextlib
import json
import math
import pathlib
from typing import Any, AsyncIterator, Awaitable, Callable, Dict, List, Optional

from aiohttp import web

from ..limits import Limits
from ..lines import read_int, refuse_constant
from ..listening import Listener
from ..log import Log
from ..places import Failed, remove_socket
from ..refusals import Refused
from ..watchdog import Reserve
from . import asking
from .binding import bind
from .core import Core, Denied
from .gates import KEPT_SECONDS, Gates
from .guard import HEADERS, TOKEN, Guard, told
from .insides import Insides
from .options import Options
from .refusing import refusal_of
from .stream import Stream
from .trials import Trials

PAGE = pathlib.Path(__file__).resolve().parents[1] / "page"
KINDS = {
    ".html": "text/html",
    ".css": "text/css",
    ".js": "text/javascript",
    ".svg": "image/svg+xml",
}
BACKLOG = 128
LINK_BYTES = 4_096  # of a request with a link
LINGER_SECONDS = 2.0  # for the rest of a body that was refused
LOOK_SECONDS = 1.0  # after which it is seen again which connections take too long
BODY_BYTES = 512 * 1024  # a line of 65,536 bytes may take six times as many in a page's JSON
DENIALS = {  # by what there isn't: the status, and the sentence
    "visit": (401, "It is not known who you are: a link is needed."),
    "person": (401, "This person is not known on the machine."),
    "seat": (410, "The page's login is over."),
    "link": (401, "This link was used, or its five minutes are over: ask for another."),
    # to those alone whom the proxy names; and no 401, since no link helps
    "proxy": (403, "The gateway does not believe the proxy: start it with --page-names."),
}
Handler = Callable[[web.Request], Awaitable[web.StreamResponse]]
Told = Dict[str, Any]


def files() -> Dict[str, "tuple[str, bytes]"]:
    """The page's files, each with its kind, by the path under which it is asked for."""
    found = {}
    for path in sorted(PAGE.iterdir()):
        if path.suffix in KINDS:
            name = "/" if path.name == "index.html" else f"/page/{path.name}"
            found[name] = KINDS[path.suffix], path.read_bytes()
    return found


def read_float(text: str) -> float:
    """A number with fraction or exponent. Raises ValueError, where it is out of range."""
    found = float(text)
    if not math.isfinite(found):
        raise ValueError(text)
    return found


class Site:
    """The team over HTTP, from `start` to `stop`."""

    def __init__(
        self,
        options: Options,
        state: pathlib.Path,
        core_socket: pathlib.Path,
        limits: Limits,
        log: Log,
        program: Optional[str] = None,
    ) -> None:
        """`core_socket` is where the gateway listens; on `program` texts are tried."""
        self._options, self._state, self._limits, self._log = options, state, limits, log
        self._core = Core(core_socket, limits.page_seconds, lambda: {"address": self.address})
        self._acts: Dict[str, Callable[[Any, Dict[str, Any]], Awaitable[Dict[str, Any]]]] = {
            **asking.ACTS,
            "try": Trials(program).try_out,
        }
        self._insides = Insides()
        self._reads: Dict[str, Callable[[Any, Any], Awaitable[Dict[str, Any]]]] = {
            **asking.READS,
            "inside": self._insides.look,
            "locals": self._insides.rows,
            "stuck": self._insides.stuck,
        }
        self._streams: "set[Stream]" = set()
        self._files = files()
        self._runner: Optional[web.AppRunner] = None
        self._tasks: "List[asyncio.Future[Any]]" = []
        self._listeners: List[Listener] = []

    # From start to stop.

    async def start(self) -> None:
        """Begins to serve. Raises OSError, Failed."""
        sockets = bind(self._options)
        for one in sockets:
            one.listen(BACKLOG)
        self.port = sockets[0].getsockname()[1] if self._options.place else None
        self._guard = Guard(self._options, self.port)
        self._cookie = self._guard.cookie_name(str(self._state))
        app = web.Application(middlewares=[self._watch_over], client_max_size=BODY_BYTES)
        app.router.add_get("/{path:.*}", self._get)
        app.router.add_post("/api/{name}", self._post)
        self._runner = web.AppRunner(
            app,
            access_log=None,
            handle_signals=False,
            auto_decompress=False,
            keepalive_timeout=KEPT_SECONDS,
            lingering_time=LINGER_SECONDS,
        )
        await self._runner.setup()
        assert self._runner.server is not None
        self._gates = Gates(self._limits, self._runner.server, self._options.proxy)
        reserve = Reserve()
        reserve.fill()
        self._listeners = [
            Listener(one, self._gates.admit, self._log, reserve, Gates.told) for one in sockets
        ]
        works = (self._core.keep(), self._look_after())
        self._tasks = [asyncio.ensure_future(one) for one in works]
        places = [f"{self._options.place[0]}:{self.port}"] if self._options.place else []
        places += [self._options.socket] if self._options.socket else []
        self._log(f"the page is at {self.address}, served on {' and '.join(places)}")

    async def _look_after(self) -> None:
        """Ends connections that take too long, again and again."""
        while True:
            await asyncio.sleep(LOOK_SECONDS)
            self._gates.look_after()

    async def stop(self) -> None:
        """Ends all streams, and serves no more."""
        for listener in self._listeners:
            listener.close()
        for stream in self._streams:
            stream.stop()
        if self._runner:
            await self._runner.shutdown()
            if self._runner.server:
                await self._runner.server.shutdown(1.0)
            await self._runner.cleanup()
        for task in self._tasks:
            task.cancel()
        self._insides.close()
        if self._options.socket:
            with contextlib.suppress(Failed):
                remove_socket(pathlib.Path(self._options.socket))

    @property
    def address(self) -> str:
        """Where browsers find the page."""
        return self._guard.address(self.port)

    # Each request.

    @web.middleware
    async def _watch_over(self, request: web.Request, handler: Handler) -> web.StreamResponse:
        """Refuses what may not be looked at, and adds the headers that each answer has."""
        answer: web.StreamResponse
        gate = self._gates.by_transport.get(request.transport)
        if gate is not None:
            gate.begin()
        try:
            fault = self._guard.fault_of(request)
            answer = await handler(request) if fault is None else fault
        except web.HTTPException as raised:
            answer = told(raised.status, raised.text or raised.reason)
        except Denied as denied:
            answer = told(*DENIALS[str(denied)])
        except Refused as refused:
            answer = self._refused(refused)
        except ConnectionError:
            answer = told(400, "The connection has ended.")
        except Exception as fault:  # a fault of the page's own: it is told, and others go on
            self._log(f"the page's request {request.path} failed: {fault!r}", "fault")
            answer = told(500, "The gateway failed at this request.")
        finally:
            if gate is not None:
                gate.end()
        if not answer.prepared:
            answer.headers.update(HEADERS)
            answer.headers.setdefault("Cache-Control", "no-store")
        return answer

    def _refused(self, refused: Refused) -> web.Response:
        told_of = refusal_of(refused.answer, {})
        return web.json_response(told_of, status=503 if refused.code in asking.AWAY else 200)

    @contextlib.asynccontextmanager
    async def _turn(self, request: web.Request) -> AsyncIterator[None]:
        """A turn of the one who asks. Raises ConnectionError, where nobody waits any more."""
        async with self._gates.turn_of(request.transport):
            if request.transport is None or request.transport.is_closing():
                raise ConnectionResetError
            yield

    async def _get(self, request: web.Request) -> web.StreamResponse:
        """A file of the page, or what the page reads, or whether the gateway is well."""
        if request.path == "/health":
            async with self._turn(request):
                told_of = await self._core.ask("health")
            return web.json_response(told_of, status=200 if told_of["ready"] else 503)
        if request.path.startswith("/api/"):
            return await self._read(request, request.path[len("/api/") :])
        if request.path not in self._files:
            raise web.HTTPNotFound(text="There is no such page.")
        kind, content = self._files[request.path]
        return web.Response(
            body=content, content_type=kind, charset="utf-8", headers={"Cache-Control": "no-cache"}
        )

    async def _read(self, request: web.Request, name: str) -> web.StreamResponse:
        secrets = await self._visit_of(request)
        seat = asking.Seat(self._core, secrets, request.query.get("seat"))
        if name == "events":
            return await self._stream(request, seat)
        async with self._turn(request):
            return web.json_response(await self._told_of(name, seat, request, secrets))

    async def _told_of(
        self, name: str, seat: asking.Seat, request: web.Request, secrets: Told
    ) -> Told:
        """What the page reads under a name. Raises HTTPException, Denied, Refused."""
        if name == "me":
            return await self._core.ask("me", **secrets)
        if name not in self._reads:
            raise web.HTTPNotFound(text="There is nothing of this name to read.")
        try:
            return await self._reads[name](seat, request.query)
        except asking.NoSlot:
            raise web.HTTPBadRequest(text=f"Slots are 0 to {asking.SLOTS - 1}.") from None
        except ValueError:
            raise web.HTTPBadRequest(text="A number is expected.") from None

    async def _post(self, request: web.Request) -> web.StreamResponse:
        """What may change something. Of one who is not known no body is read but a link's."""
        name = request.match_info["name"]
        if name == "enter":
            return await self._enter(request, await self._body_of(request, LINK_BYTES))
        secrets = await self._visit_of(request)
        body = await self._body_of(request, BODY_BYTES)
        async with self._turn(request):
            return await self._act(name, secrets, body)

    async def _act(self, name: str, secrets: Told, body: Told) -> web.Response:
        """Does what may change something. Raises HTTPException, Denied, Refused."""
        if name == "login":
            return await self._login(secrets, body)
        if name == "out":
            return web.json_response(await self._core.ask("out", **secrets))
        if name not in ("leave", *self._acts):
            raise web.HTTPNotFound(text="There is nothing of this name to do.")
        seat = asking.Seat(self._core, secrets, body.get("seat"))
        if name == "leave":
            return web.json_response(await seat.ask("leave"))
        return web.json_response(await self._acts[name](seat, body))

    async def _body_of(self, request: web.Request, most: int) -> Told:
        """The object that a request has, of at most so many bytes of UTF-8. Raises
        HTTPException."""
        charset = request.headers.get("Content-Type", "").lower().partition("charset=")[2]
        if request.content_type != "application/json" or charset.strip('" ') not in ("", "utf-8"):
            raise web.HTTPUnsupportedMediaType(text="JSON in UTF-8 is expected.")
        if request.headers.get("Content-Encoding", "identity").lower() != "identity":
            raise web.HTTPUnsupportedMediaType(text="A body that is not compressed is expected.")
        if request.content_length is None:
            raise web.HTTPLengthRequired(text="A request tells how long its body is.")
        if request.content_length > most:
            raise web.HTTPRequestEntityTooLarge(most, request.content_length)
        try:
            raw = await asyncio.wait_for(request.read(), self._limits.body_seconds)
        except asyncio.TimeoutError:
            raise web.HTTPRequestTimeout(text="The body takes too long.") from None
        try:
            body = json.loads(
                raw.decode(),
                parse_constant=refuse_constant,
                parse_int=read_int,
                parse_float=read_float,
            )
        except (ValueError, RecursionError):
            body = None
        if not isinstance(body, dict):
            raise web.HTTPBadRequest(text="An object is expected.")
        return body

    # Who it is.

    async def _enter(self, request: web.Request, body: Told) -> web.Response:
        """Begins a visit: of the person whom the proxy names, or of the one whose link it is."""
        name, link = self._guard.named_person(request), body.get("link")
        if name is None and not isinstance(link, str):
            return told(401, "A link is needed.")
        async with self._turn(request):
            keys = {"link": link} if name is None else {"named": name}
            found = await self._core.ask("enter", **keys)
        cookie = found.pop("cookie")
        answer = web.json_response(found)
        answer.set_cookie(
            self._cookie,
            cookie,
            path=f"{self._options.prefix}/",
            httponly=True,
            samesite="Strict",
            secure=self._guard.is_secure,
        )
        return answer

    async def _visit_of(self, request: web.Request) -> Told:
        """The secrets that a request shows, which are those of a visit. Raises Denied,
        Refused."""
        cookie, token = request.cookies.get(self._cookie), request.headers.get(TOKEN)
        if cookie is None or token is None:
            raise Denied("visit")
        secrets = {"cookie": cookie, "token": token}
        name = self._guard.named_person(request)
        if name is not None:
            secrets["named"] = name
        if not self._gates.is_known(request.transport, secrets):
            async with self._turn(request):
                person = (await self._core.ask("visit", **secrets))["person"]
            self._gates.know(request.transport, person, secrets)
        return secrets

    async def _login(self, secrets: Told, body: Told) -> web.Response:
        """Takes a seat. Raises Denied, Refused."""
        user, roles = body.get("user"), body.get("roles")
        if (
            not isinstance(user, str)
            or not isinstance(roles, list)
            or not all(isinstance(role, str) for role in roles)
        ):
            raise web.HTTPBadRequest(text="A user and a list of roles are expected.")
        return web.json_response(await self._core.ask("login", user=user, roles=roles, **secrets))

    # Live events.

    async def _stream(self, request: web.Request, seat: asking.Seat) -> web.StreamResponse:
        await seat.ask("here")
        answer = web.StreamResponse(
            headers={**HEADERS, "Cache-Control": "no-store", "X-Accel-Buffering": "no"}
        )
        answer.content_type = "text/event-stream"
        await answer.prepare(request)
        stream = Stream(self._core, seat)
        self._streams.add(stream)
        try:
            async for event in stream.events():
                if request.transport is None or request.transport.is_closing():
                    break
                if event:
                    await answer.write(event)
        except (ConnectionError, asyncio.CancelledError):
            pass
        except Exception as fault:  # the page asks for another stream
            self._log(f"a page's live events failed: {fault!r}", "fault")
        finally:
            self._streams.discard(stream)
            stream.close()
        return answer
