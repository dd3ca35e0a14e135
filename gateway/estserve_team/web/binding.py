"""The sockets at which the page is served."""
import os
import pathlib
import socket
from typing import List, Optional, Tuple

from ..places import remove_socket
from .options import Options


def bind_tcp(place: Tuple[str, int]) -> socket.socket:
    """A socket at a host and a port. Raises OSError."""
    one = socket.socket(socket.AF_INET6 if ":" in place[0] else socket.AF_INET, socket.SOCK_STREAM)
    one.setsockopt(socket.SOL_SOCKET, socket.SO_REUSEADDR, 1)
    try:
        one.bind(place)
    except OSError as fault:
        one.close()
        told = f"{fault.strerror or fault}: {place[0]}:{place[1]}"
        raise OSError(fault.errno, told) from fault
    return one


def bind_unix(path: str, proxy: Optional[int]) -> socket.socket:
    """A socket at a path, for its user and its folder's group. Where this user may not give it to
    that group, whoever may enter the folder reaches it, if one proxy alone may then speak there.
    Raises OSError, Failed."""
    remove_socket(pathlib.Path(path))
    one = socket.socket(socket.AF_UNIX, socket.SOCK_STREAM)
    before = os.umask(0o117)
    try:
        one.bind(path)
        os.chown(path, -1, pathlib.Path(path).absolute().parent.stat().st_gid)
    except PermissionError:
        if proxy is None or not os.path.exists(path):
            one.close()
            raise
        os.chmod(path, 0o666)
    finally:
        os.umask(before)
    return one


def bind(options: Options) -> List[socket.socket]:
    """The sockets that are asked for, that over TCP first. Raises OSError, Failed."""
    found = [bind_tcp(options.place)] if options.place else []
    if options.socket:
        found.append(bind_unix(options.socket, options.proxy))
    return found
