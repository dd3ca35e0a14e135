"""The refusals of the gateway itself. Their codes are over 1000; the program's are under 100."""
import json
from typing import Any, List


class Refused(Exception):
    """A refusal of the gateway's own. `answer` is its object, `line` its bytes without LF."""

    def __init__(self, code: int, fault: str, **keys: Any) -> None:
        self.code, self.fault = code, fault
        self.answer = {"code": code, "fault": fault, **keys}
        self.line = json.dumps(self.answer, separators=(",", ":"), sort_keys=True).encode()
        super().__init__(self.line.decode())


def not_you(user: str) -> Refused:
    """A login names a user that this person may not be."""
    return Refused(1001, "NotYou", user=user)


def all_taken(holders: List[Any]) -> Refused:
    """Each of the sixteen logins is held; `holders` lists the user and the person of each."""
    return Refused(1002, "AllTaken", holders=holders)


def unknown_person(uid: int) -> Refused:
    """The peer's Unix user has no name on this machine."""
    return Refused(1003, "UnknownPerson", uid=uid)


def interrupted() -> Refused:
    """The server had to be begun anew, or a login changed its connection: this session is over."""
    return Refused(1004, "Interrupted")


def stopping() -> Refused:
    """The gateway is stopping, or archives, and takes nothing on."""
    return Refused(1005, "Stopping")


def not_understood() -> Refused:
    """The program read the line otherwise than the gateway. Nothing was done."""
    return Refused(1006, "NotUnderstood")


def not_a_word(why: str) -> Refused:
    """A line on gateway.sock is no word of the gateway, or its keys are wrong."""
    return Refused(1010, "NotAWord", why=why)


def not_allowed(why: str) -> Refused:
    """The caller's session may not ask this word."""
    return Refused(1011, "NotAllowed", why=why)


def needs_login() -> Refused:
    """The word needs a session, and this connection has none."""
    return Refused(1012, "NeedsLogin")


def failed(why: str) -> Refused:
    """The word was understood and allowed, and could not be carried out."""
    return Refused(1013, "Failed", why=why)


def on_shared(cmd: str) -> Refused:
    """A shared session's login is the same for all who share it: these commands would change it."""
    return Refused(1014, "OnShared", cmd=cmd)


def id_taken(request_id: str) -> Refused:
    """Another request has this id, or it is out of form."""
    return Refused(1015, "IdTaken", id=request_id)


def too_many(what: str, most: int) -> Refused:
    """There are so many of these already, or they were used up just now."""
    return Refused(1016, "TooMany", what=what, most=most)


class ProgramRefused(Refused):
    """A refusal of the program's: its own line, as it came."""

    def __init__(self, line: bytes) -> None:
        answer = json.loads(line)
        super().__init__(**answer)
        self.answer, self.line = answer, line
