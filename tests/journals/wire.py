"""The lines that are requests, and how answers are written, as docs/PROTOCOL.md says it."""

import json
import math
import pathlib
import re

PROTOCOL = (pathlib.Path(__file__).resolve().parents[2] / "docs" / "PROTOCOL.md").read_text()
# the name of each refusal, by its number
FAULTS = {int(code): name for code, name in re.findall(r"^\| (\d+) \| (\w+) \|", PROTOCOL, re.M)}
LONGEST = 65_536  # bytes of a line, without its LF
NESTING = 128  # a value that is nested so deep is none

NAME = re.compile(r"[A-Za-z0-9_-]{1,24}\Z")
IDENTIFIER = re.compile(r"[A-Za-z][A-Za-z0-9_]{0,47}\Z")
SLOT = re.compile(r"([0-9]|1[0-5])(?:\.(.*))?\Z", re.DOTALL)
OPERATIONS = {"offer", "observe", "step", "load", "administer", "audit"}
GREATEST = 18_446_744_073_709_551_615
LEAST = -9_223_372_036_854_775_808
STRINGS = re.compile(r'"(?:[^"\\]|\\.)*"?', re.DOTALL)
# an escape: two that are one character together, or one of the two alone, which is the group, or any other
ESCAPES = re.compile(r"\\u[dD][89abAB]\w\w\\u[dD][c-fC-F]\w\w|(\\u[dD][89a-fA-F]\w\w)|\\.", re.DOTALL)

KEYS = {
    "login": "roles user", "logout": "", "adduser": "user", "deluser": "user", "addrole": "role", "delrole": "role",
    "assign": "role user", "deassign": "role user", "grant": "object op role", "revoke": "object op role",
    "inherit": "junior senior", "disinherit": "junior senior", "dsd": "count name roles", "undsd": "name",
    "activate": "role", "drop": "role", "load": "main slot text", "offer": "signal slot", "discard": "slot",
    "step": "slot", "unload": "slot", "look": "instant slot", "audit": "slot", "check": "object op",
}
ON_SLOTS = {"load", "offer", "discard", "step", "unload", "look", "audit"}


def is_object(text):
    """Whether the text names an object of a permission."""
    if text == "policy":
        return True
    found = SLOT.match(text)
    return bool(found) and (found[2] is None or bool(IDENTIFIER.match(found[2])))


def is_right(key, value):
    """Whether the value is of the form of its key."""
    if key in ("slot", "instant", "count"):
        return type(value) is int and 0 <= value <= GREATEST
    if key == "roles":
        return isinstance(value, list) and len(value) <= 32 and all(is_right("role", role) for role in value)
    if not isinstance(value, str):
        return False
    if key in ("user", "role", "senior", "junior", "name"):
        return bool(NAME.match(value))
    if key in ("main", "signal"):
        return bool(IDENTIFIER.match(value))
    return key == "text" or (value in OPERATIONS if key == "op" else is_object(value))


def depth_of(text):
    """How many lists and objects are open at most at once."""
    deepest = depth = 0
    for mark in re.findall(r"[\[\]{}]", STRINGS.sub("", text)):
        depth += 1 if mark in "[{" else -1
        deepest = max(deepest, depth)
    return deepest


def fraction(digits):
    """A number that isn't whole, or too large for one. Raises ValueError where it is too large for this too."""
    number = float(digits)
    if math.isinf(number):
        raise ValueError(digits)
    return number


def whole(digits):
    """A whole number, where it is one of the protocol."""
    short = len(digits) <= 20 and digits != "-0"
    return int(digits) if short and LEAST <= int(digits) <= GREATEST else fraction(digits)


def no_number(word):
    """Python's own words for numbers that are none."""
    raise ValueError(word)


def value_of(line):
    """The JSON value that a line, in bytes, is. Raises ValueError where it is none."""
    text = line.decode()
    if depth_of(text) >= NESTING or any(ESCAPES.findall(text)):
        raise ValueError("nested too deep, or half a character")
    return json.loads(text, parse_int=whole, parse_float=fraction, parse_constant=no_number)


def request_of(line):
    """The command of a line, in bytes, and its further keys; or None and the number of the refusal."""
    try:
        value = value_of(line)
    except ValueError:
        return None, 2
    if not isinstance(value, dict) or not isinstance(value.get("cmd"), str) or value["cmd"] not in KEYS:
        return None, 3
    command = value.pop("cmd")
    if set(value) != set(KEYS[command].split()) or not all(is_right(key, value[key]) for key in value):
        return None, 3
    return command, value


def written(value):
    """A line of JSON, as the program writes it."""
    return (json.dumps(value, separators=(",", ":"), sort_keys=True) + "\n").encode()
