"""What each request has to bear before anything is done for it."""
import hashlib
from typing import Any, FrozenSet, List, Optional

from aiohttp import web

from ..people import peer_uid
from .options import Options

TOKEN = "X-Estserve-Token"
HEADERS = {
    "Content-Security-Policy": (
        "default-src 'self'; base-uri 'none'; form-action 'self'; "
        "frame-ancestors 'none'; object-src 'none'"
    ),
    "X-Content-Type-Options": "nosniff",
    "X-Frame-Options": "DENY",
    "Referrer-Policy": "no-referrer",
    "Cross-Origin-Opener-Policy": "same-origin",
    "Cross-Origin-Resource-Policy": "same-origin",
}


def told(status: int, sentence: str) -> web.Response:
    """An answer that is a sentence."""
    return web.json_response({"sentence": sentence}, status=status)


def extra_info(request: web.Request, name: str) -> Any:
    """What the connection of a request tells of itself."""
    assert request.transport is not None
    return request.transport.get_extra_info(name)


class Guard:
    """The rules of who may ask: by the host, the origin, the peer of the Unix socket, and the
    proxy's header."""

    def __init__(self, options: Options, port: Optional[int]) -> None:
        self._options = options
        self.origins = self._origins(port)
        self.hosts = frozenset(origin.partition("://")[2] for origin in self.origins)
        self.is_secure = bool(options.origin and options.origin.startswith("https://"))

    def _origins(self, port: Optional[int]) -> FrozenSet[str]:
        """The origins that browsers may name."""
        found = {self._options.origin} if self._options.origin else set()
        if port is not None:
            found |= {f"http://{host}:{port}" for host in ("127.0.0.1", "localhost", "[::1]")}
        return frozenset(found)

    def address(self, port: Optional[int]) -> str:
        """Where browsers find the page."""
        if self._options.origin:
            return f"{self._options.origin}{self._options.prefix}/"
        host = self._options.place[0] if self._options.place else "127.0.0.1"
        return f"http://{f'[{host}]' if ':' in host else host}:{port}/"

    def cookie_name(self, state: str) -> str:
        """The name of the cookie: cookies don't tell ports apart, so each gateway has its own."""
        return f"estserve_{hashlib.sha256(state.encode()).hexdigest()[:12]}"

    def fault_of(self, request: web.Request) -> Optional[web.Response]:
        """The answer to a request that may not be looked at; None where it may. Where its body has no
        length, what follows on the connection might be a part of it, and is not read."""
        if "Transfer-Encoding" in request.headers:
            fault = told(411, "A request tells how long its body is.")
            fault.force_close()
            return fault
        if request.headers.getall("Host", []) and request.headers["Host"].lower() not in self.hosts:
            return told(403, "This host's name is not one of this page.")
        if not request.headers.getall("Host", []):
            return told(400, "A request names its host.")
        if self.is_of_proxy(request) and self._options.proxy is not None:
            if peer_uid(extra_info(request, "socket")) != self._options.proxy:
                return told(403, "Only the proxy may speak on this socket.")
        return self._fault_of_origin(request) if "/api/" in request.path else None

    def _fault_of_origin(self, request: web.Request) -> Optional[web.Response]:
        """A request of a page of another origin, and one that changes something without an
        origin."""
        origins: List[str] = request.headers.getall("Origin", [])
        if len(origins) > 1 or any(origin.lower() not in self.origins for origin in origins):
            return told(403, "This origin is not the page's.")
        if not origins and request.method != "GET":
            return told(403, "A request that changes something names its origin.")
        if request.headers.get("Sec-Fetch-Site", "same-origin") != "same-origin":
            return told(403, "This request comes from another site.")
        return None

    @staticmethod
    def is_of_proxy(request: web.Request) -> bool:
        """Whether a request came over the Unix socket."""
        return isinstance(extra_info(request, "sockname"), str)

    def named_person(self, request: web.Request) -> Optional[str]:
        """The person whom the proxy names; None where the proxy is not asked. Raises
        HTTPForbidden where none or two are named."""
        if not self._options.header or not self.is_of_proxy(request):
            return None
        names: List[str] = request.headers.getall(self._options.header, [])
        if len(names) != 1 or not names[0].strip() or "," in names[0]:
            raise web.HTTPForbidden(text="the proxy names not exactly one person")
        return names[0].strip()
