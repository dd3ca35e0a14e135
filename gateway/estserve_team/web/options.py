"""What the command line asks of HTTP."""
import argparse
import ipaddress
import pwd
from typing import NamedTuple, Optional, Tuple
from urllib.parse import urlsplit

from estserve_client.command_table import DIGITS, LETTERS, Form

HERE = "127.0.0.1:8710"  # where `--http` serves that names no other place
HEADER = Form(LETTERS, LETTERS + DIGITS + "-", 64)
PORT = Form(DIGITS, DIGITS, 5)


class Bad(Exception):
    """The options ask for what can't be served; the message says why."""


class Options(NamedTuple):
    """What is served: `place` is the host and the port, `socket` the path of a Unix socket, each or
    both.

    `origin` is where browsers find the page (None: at the place), `prefix` its path, without a
    slash at the end. `header` names the person on the Unix socket, whose peers then have to be the
    Unix user `proxy`."""

    place: Optional[Tuple[str, int]]
    socket: Optional[str]
    origin: Optional[str]
    prefix: str
    header: Optional[str]
    proxy: Optional[int]


def read_place(text: Optional[str], has_origin: bool) -> Optional[Tuple[str, int]]:
    """The host and the port of `--http`. Raises Bad."""
    if text is None:
        return None
    name, _, port = text.rpartition(":")
    host = name[1:-1] if name.startswith("[") and name.endswith("]") else name
    is_plain = bool(host) and not set("[]") & set(host) and (host != name or ":" not in host)
    if not is_plain or not PORT.fullmatch(port) or int(port) > 65_535:
        raise Bad(f"--http {text}: a host and a port are expected, as {HERE}")
    try:
        is_loopback = host == "localhost" or ipaddress.ip_address(host).is_loopback
    except ValueError:
        is_loopback = False
    if not is_loopback and not has_origin:
        raise Bad(
            f"--http {text}: others than this machine could reach it there; "
            "--origin has to say where browsers find it"
        )
    return host, int(port)


def read_origin(text: Optional[str]) -> Tuple[Optional[str], str]:
    """The origin of `--origin`, and the path on it. Raises Bad."""
    if text is None:
        return None, ""
    parts = urlsplit(text)
    if (
        parts.scheme not in ("http", "https")
        or not parts.netloc
        or parts.query
        or parts.fragment
        or "@" in parts.netloc
    ):
        raise Bad(
            f"--origin {text}: an address is expected, "
            "as https://team.example.org or https://example.org/team"
        )
    return f"{parts.scheme}://{parts.netloc}".lower(), parts.path.rstrip("/")


def read_proxy(options: argparse.Namespace) -> Optional[int]:
    """The number of the proxy's user. Raises Bad."""
    if options.user_header and not HEADER.fullmatch(options.user_header):
        raise Bad(f"--user-header {options.user_header}: this is no header's name")
    if options.user_header and not (options.http_socket and options.proxy_user):
        raise Bad(
            "--user-header counts on a Unix socket of the proxy's alone: "
            "--http-socket and --proxy-user are needed"
        )
    if not options.proxy_user:
        return None
    if not options.http_socket:
        raise Bad("--proxy-user is the user at the Unix socket: --http-socket is needed")
    try:
        return pwd.getpwnam(options.proxy_user).pw_uid
    except KeyError:
        raise Bad(f"--proxy-user {options.proxy_user}: there is no such user") from None


def read_options(options: argparse.Namespace) -> Optional[Options]:
    """What the options ask for; None where they ask for no HTTP. Raises Bad."""
    proxy = read_proxy(options)
    if options.http is None and not options.http_socket:
        if options.origin:
            raise Bad(
                "--origin says where browsers find the page: --http or --http-socket is needed"
            )
        return None
    origin, prefix = read_origin(options.origin)
    if options.http_socket and origin is None:
        raise Bad("--http-socket is for a proxy: --origin has to say where browsers find it")
    place = read_place(options.http, origin is not None)
    return Options(place, options.http_socket, origin, prefix, options.user_header, proxy)


def add_options(parser: argparse.ArgumentParser) -> None:
    """Adds the options of HTTP to the command line."""
    group = parser.add_argument_group("the page, over HTTP")
    group.add_argument(
        "--http",
        nargs="?",
        const=HERE,
        metavar="HOST:PORT",
        help=f"serve the page there ({HERE}); loopback only, unless --origin is given",
    )
    group.add_argument(
        "--http-socket", metavar="PATH", help="serve the page on a Unix socket, for a reverse proxy"
    )
    group.add_argument(
        "--origin", metavar="URL", help="where browsers find the page, as https://team.example.org"
    )
    group.add_argument(
        "--user-header",
        metavar="NAME",
        help="the header by which the proxy names the person, as X-Remote-User; "
        "on the Unix socket alone",
    )
    group.add_argument(
        "--proxy-user",
        metavar="USER",
        help="the Unix user of the proxy, who alone may use the Unix socket then",
    )
