"""What a line asks for, as the gateway understands it, and the line that it sends in its place.

Two readers of JSON may differ, so no byte of a client goes on to the server: a line that is
understood here is written anew, and each other one goes to a child that shares nothing. What is
understood is no more than docs/PROTOCOL.md's commands, as `serde_json` reads them: of a key that
stands twice the last counts; a float, `-0` or a number over 18446744073709551615 is no number;
NaN, a surrogate that stands alone, bytes that aren't UTF-8 and values nested over 127 deep are
no JSON.
"""
import json
import sys
from typing import Any, Callable, Dict, List, Optional, Tuple

from estserve_client.command_table import (
    IDENTIFIER,
    IDENTIFIERS,
    KEYS,
    MOST,
    MOST_ROLES,
    NAME,
    NAMES,
    NUMBERS,
    OBJECT,
    OPERATIONS,
    WITHOUT_ENTRY,
)

LINE_BYTES = 65_536
MOST_DEPTH = 127
LONGEST_NUMBER = 300  # digits; longer ones are left to the program
LARGEST_FLOAT = 1e300  # larger ones too
QUICK_BYTES = 2_048  # a longer line is first seen to be a command at all
CACHED_BYTES = 128  # lines of at most this many bytes are kept with what they ask for
CACHED_LINES = 4_096


class Request:
    """A command that was understood: its `cmd`, its keys, its slot if it has one, and its line
    written anew, without LF."""

    __slots__ = ("cmd", "keys", "slot", "line", "adds_entry")

    def __init__(self, cmd: str, keys: Dict[str, Any], line: bytes) -> None:
        self.cmd, self.keys, self.line = cmd, keys, line
        self.slot: Optional[int] = keys.get("slot")
        self.adds_entry = cmd not in WITHOUT_ENTRY


class NotUnderstood(ValueError):
    """The line is no request, or not surely one."""


class NoNumber:
    """What stands where a number is none of the protocol's."""


class Pairs(List[Any]):
    """An object as it stands: its pairs of key and value."""


def read_whole(text: str) -> Any:
    """A number without fraction and exponent. `-0` is a float, as `serde_json` reads it."""
    if len(text) > LONGEST_NUMBER:
        raise NotUnderstood(text)
    if text.startswith("-") or len(text) > 20 or int(text) > MOST:
        return NoNumber
    return int(text)


def read_float(text: str) -> Any:
    """A number with fraction or exponent. Where it could be out of a float's range, the program is
    to say so."""
    if len(text) > LONGEST_NUMBER or abs(float(text)) > LARGEST_FLOAT:
        raise NotUnderstood(text)
    return NoNumber


def refuse_constant(text: str) -> Any:
    """NaN and the infinities are no JSON."""
    raise NotUnderstood(text)


def read_int(text: str) -> int:
    """A whole number of the gateway's own; long ones take long to read. Raises ValueError."""
    if len(text) > LONGEST_NUMBER:
        raise NotUnderstood(text)
    return int(text)


READ_INT: Any = (
    int if hasattr(sys, "set_int_max_str_digits") else read_int
)  # which has a bound itself
PLAIN = json.JSONDecoder(parse_int=READ_INT, parse_constant=refuse_constant)
QUICK = json.JSONDecoder(parse_int=len, parse_float=len, parse_constant=refuse_constant)
DECODER = json.JSONDecoder(
    object_pairs_hook=Pairs,
    parse_int=read_whole,
    parse_float=read_float,
    parse_constant=refuse_constant,
)


def is_text(value: Any) -> bool:
    """Whether each text in a value, keys among them, is one without lone surrogates."""
    if isinstance(value, str):
        return not any("\ud800" <= letter <= "\udfff" for letter in value)
    return all(map(is_text, value)) if isinstance(value, (list, tuple)) else True


def depth_of(value: Any) -> int:
    """How deep arrays and objects are nested in a value."""
    if isinstance(value, Pairs):
        return 1 + max((depth_of(inner) for _, inner in value), default=0)
    return 1 + max(map(depth_of, value), default=0) if isinstance(value, list) else 0


def is_name(value: Any) -> bool:
    return isinstance(value, str) and NAME.fullmatch(value)


def is_identifier(value: Any) -> bool:
    return isinstance(value, str) and IDENTIFIER.fullmatch(value)


def is_number(value: Any) -> bool:
    return type(value) is int


def are_roles(value: Any) -> bool:
    return type(value) is list and len(value) <= MOST_ROLES and all(map(is_name, value))


KINDS: Dict[str, Callable[[Any], Any]] = {
    **dict.fromkeys(NAMES, is_name),
    **dict.fromkeys(IDENTIFIERS, is_identifier),
    **dict.fromkeys(NUMBERS, is_number),
    "roles": are_roles,
    "op": lambda value: isinstance(value, str) and value in OPERATIONS,
    "object": lambda value: isinstance(value, str) and OBJECT.fullmatch(value),
    "text": lambda value: isinstance(value, str),
}


def request_of(keys: Dict[str, Any]) -> Optional[Request]:
    """The request that an object is, with its line written anew; None where it is no command of the
    protocol."""
    cmd = keys.get("cmd")
    form = KEYS.get(cmd) if isinstance(cmd, str) else None
    if not isinstance(cmd, str) or form is None or len(keys) != len(form) + 1:
        return None
    if not all(key in keys and KINDS[key](keys[key]) for key in form):
        return None
    text = json.dumps(keys, separators=(",", ":"), sort_keys=True, ensure_ascii=False)
    try:
        line = text.encode()
    except UnicodeEncodeError:
        return None
    return Request(cmd, keys, line) if len(line) <= LINE_BYTES else None


def read_object(line: bytes) -> Optional[Dict[str, Any]]:
    """The object that a line is, of each key the last value; None where it is none, or not surely
    one for `serde_json`."""
    try:
        pairs = DECODER.decode(line.decode())
        if type(pairs) is not Pairs or (b"\\u" in line and not is_text(pairs)):
            return None
        keys = dict(pairs)
        is_flat = len(keys) == len(pairs) or depth_of(pairs) <= MOST_DEPTH
    except (ValueError, RecursionError):
        return None
    return keys if is_flat else None


def read_plain(line: bytes) -> Optional[Dict[str, Any]]:
    """The object that a line of the gateway's own is, of each key the last value; None where it
    is none."""
    try:
        found = PLAIN.decode(line.decode())
    except (ValueError, RecursionError):
        return None
    return found if isinstance(found, dict) else None


def may_be_command(line: bytes) -> bool:
    """Whether a line has the keys of a command. It takes a small part of the time that reading a
    long line takes."""
    try:
        found = QUICK.decode(line.decode())
    except (ValueError, RecursionError):
        return False
    cmd = found.get("cmd") if isinstance(found, dict) else None
    form = KEYS.get(cmd) if isinstance(cmd, str) else None
    return form is not None and found.keys() == {"cmd", *form}


class Reader:
    """Reads lines, and keeps what short ones ask for, since teams ask the same over and over."""

    def __init__(self) -> None:
        self._kept: Dict[bytes, Optional[Request]] = {}

    def understand(self, line: bytes) -> Optional[Request]:
        """The request that a line, without LF, is. None where it is not understood."""
        found = self._kept.get(line)
        if found is not None:
            return found
        if len(line) > QUICK_BYTES and not may_be_command(line):
            return None
        keys = read_object(line)
        request = request_of(keys) if keys is not None else None
        if request is not None and len(line) <= CACHED_BYTES:
            if len(self._kept) >= CACHED_LINES:
                self._kept.clear()
            self._kept[line] = request
        return request


def cut_lines(held: bytes, more: bytes) -> Tuple[List[bytes], bytes]:
    """The lines that end in what is held and what comes, without LF, and what is held then."""
    *lines, rest = (held + more).split(b"\n") if held else more.split(b"\n")
    return lines, rest
