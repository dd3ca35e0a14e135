"""Connections to the program as bytes, for the tests of this folder."""
import contextlib
import itertools
import pathlib
import socket
import sys

ROOT = pathlib.Path(__file__).resolve().parents[2]
sys.dont_write_bytecode = True
sys.path[:0] = [str(ROOT / "tests" / "socket"), str(ROOT / "tests" / "journals"), str(ROOT / "scripts")]
from running import Server, connect, report, wait_for  # noqa: E402,F401
from wire import FAULTS, written  # noqa: E402,F401

STORED = ROOT / "crates" / "estserve"
LOGIN = b'{"cmd":"login","roles":["root"],"user":"root"}\n'
NOT_JSON = b'{"code":2,"fault":"NotJson"}\n'
AHEAD = 400  # lines are sent before their answers are read: these and their answers fill no buffer of the system
TOO_LONG = b'{"code":1,"fault":"TooLong"}\n'


def command(cmd, **keys):
    """The line of a command."""
    return written({"cmd": cmd, **keys})


def accepted(cmd, **keys):
    """The line that answers a command that was accepted."""
    return written({"ok": cmd, **keys})


def refused(code, **keys):
    """The line that answers a command that was refused."""
    return written({"code": code, "fault": FAULTS[code], **keys})


class Peer:
    """A connection to the server at a path. Used with `with`, it is closed at the end."""

    def __init__(self, path):
        self.socket = socket.socket(socket.AF_UNIX, socket.SOCK_STREAM)
        try:
            self.socket.connect(str(path))
        except OSError:
            self.socket.close()
            raise
        self.reader = self.socket.makefile("rb")

    def __enter__(self):
        return self

    def __exit__(self, *_):
        self.reader.close()
        self.socket.close()

    def send(self, data):
        """Sends these bytes."""
        self.socket.sendall(data)

    def line(self):
        """The next line, or no bytes where the connection has ended."""
        with contextlib.suppress(ConnectionResetError):  # something that was sent is not read any more
            return self.reader.readline()
        return b""

    def ask(self, line):
        """The answer to a line, which has its LF."""
        self.send(line)
        return self.line()

    def converse(self, pairs):
        """Sends lines, some ahead of their answers, and compares these, each a line too. Gives how many they were."""
        pairs, count = iter(pairs), 0
        while part := list(itertools.islice(pairs, AHEAD)):
            self.send(b"".join(line for line, _ in part))
            for line, wanted in part:
                answer = self.line()
                if answer != wanted:
                    raise AssertionError(f"{line[:200]} answered {answer}, and not {wanted}")
            count += len(part)
        return count

    def rest(self):
        """All that comes before the end, after which nothing more is sent."""
        with contextlib.suppress(OSError):
            self.socket.shutdown(socket.SHUT_WR)
        return b"".join(iter(self.line, b""))


def told(path, sent):
    """All that is answered to these bytes, after which nothing more is sent."""
    with Peer(path) as peer:
        peer.send(sent)
        return peer.rest()
