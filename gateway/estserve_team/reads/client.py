"""The client's words for a team: `estserve.py team who --state DIR`, and so on.

Each asks the gateway over DIR/gateway.sock, and prints the answer for people, or as it came with
`--json`.
"""
import argparse
import contextlib
import json
import pathlib
import socket
from typing import Any, Dict, Iterator

from estserve_client.connection import Disconnected, Refusal
from estserve_client.texts import Failed
from estserve_client.sentences import sentence

from ..places import add_state
from .printing import PRINTERS

SENTENCES = {
    "NotYou": "you may not log in as {user}",
    "AllTaken": "all sixteen logins are held: {holders}",
    "UnknownPerson": "the gateway does not know who you are",
    "Interrupted": "the server was begun anew before the answer came: ask again",
    "Stopping": "the gateway is stopping, or makes an archive: ask again",
    "NotAWord": "{why}",
    "NotAllowed": "{why}",
    "NeedsLogin": "this needs a login: --as USER, and --role ROLE for each role",
    "Failed": "{why}",
    "TooMany": "{what}: at most {most} may be had here now",
    "NoHttp": "no page serves now: the log of the gateway, or of `team page`, tells why; "
    "if none was started, start one by --http, under systemd by estserve-page@TEAM",
}
NOT_IN_GROUP = (
    "folder and socket are for the folder's group; have yourself added to it, "
    "and log in to the machine anew"
)

NEED_LOGIN = ("archive", "kick", "retract", "slots")  # words that are refused without --as


class GatewayTalk:
    """A connection to a gateway's own socket, which is asked one word after the other."""

    def __init__(self, state: pathlib.Path) -> None:
        """Raises Disconnected, where no gateway answers, or this user may not ask it."""
        path = state / "gateway.sock"
        self._socket = socket.socket(socket.AF_UNIX, socket.SOCK_STREAM)
        try:
            self._socket.connect(str(path))
        except PermissionError as fault:
            self._socket.close()
            raise Disconnected(f"{path} may not be opened: {NOT_IN_GROUP}") from fault
        except (OSError, ValueError) as fault:
            self._socket.close()
            told = getattr(fault, "strerror", None) or fault
            raise Disconnected(f"no gateway answers at {path}: {told}") from fault
        self._lines = self._socket.makefile("rb")

    def close(self) -> None:
        """Ends the connection, and its share of a login."""
        self._lines.close()
        self._socket.close()

    def ask(self, word: str, **keys: Any) -> Dict[str, Any]:
        """The answer to a word. Raises Failed where it is refused, Disconnected."""
        try:
            self._socket.sendall(json.dumps({"word": word, **keys}).encode() + b"\n")
            line = self._lines.readline()
        except OSError as fault:
            raise Disconnected("the gateway has gone away") from fault
        if not line.endswith(b"\n"):
            raise Disconnected("the gateway has gone away")
        answer: Dict[str, Any] = json.loads(line)
        if "code" in answer:
            raise Failed(refusal_text(answer))
        return answer


def refusal_text(answer: Dict[str, Any]) -> str:
    """The sentence of a refusal, be it the gateway's or the program's."""
    fault = answer["fault"]
    if fault not in SENTENCES:
        return sentence(Refusal(answer))
    holders = ", ".join(f"{user} ({person})" for user, person in answer.get("holders", ()))
    told = {"user": "", "why": "", **answer, "holders": holders}
    return f"{fault}: {SENTENCES[fault].format(**told)}"


@contextlib.contextmanager
def talk_of(arguments: argparse.Namespace) -> Iterator[GatewayTalk]:
    """A connection to the gateway, logged in where the arguments name a user.

    Raises Failed, Disconnected."""
    if arguments.state is None:
        raise Failed("the team's folder is missing: --state DIR")
    talk = GatewayTalk(arguments.state)
    try:
        if arguments.login_user is not None:
            talk.ask("login", user=arguments.login_user, roles=arguments.role or [])
        elif arguments.role:
            raise Failed("--role needs --as USER")
        yield talk
        if arguments.login_user is not None:
            talk.ask("logout")  # it is recorded when the answer comes
    finally:
        talk.close()


def keys_of(arguments: argparse.Namespace) -> Dict[str, Any]:
    """The keys of a word, of the options that were given."""
    given = {key: getattr(arguments, key) for key in arguments.keys}
    return {key: value for key, value in given.items() if value is not None and value is not False}


def ask_word(arguments: argparse.Namespace) -> None:
    """Asks one word, and prints its answer. Raises Failed, Disconnected."""
    with talk_of(arguments) as talk:
        answer = talk.ask(arguments.word, **keys_of(arguments))
    if arguments.json:
        print(json.dumps(answer, separators=(",", ":"), sort_keys=True, ensure_ascii=False))
        return
    for line in PRINTERS[arguments.word]({**answer, "active": arguments.role or []}):
        print(line)


def add_word(subparsers: Any, word: str, help: str) -> Any:
    """Adds one word to the command line, with what each has."""
    told = f"{help}; this needs --as USER" if word in NEED_LOGIN else help
    parser = subparsers.add_parser(word, help=help, description=told)
    add_state(parser, argparse.SUPPRESS)
    parser.add_argument(
        "--as",
        dest="login_user",
        metavar="USER",
        help="log in as this policy user for the question",
    )
    parser.add_argument(
        "--role",
        action="append",
        metavar="ROLE",
        help="a role to activate; may be given more than once",
    )
    parser.add_argument("--json", action="store_true", help="print the answer as it came")
    parser.set_defaults(act=ask_word, word=word, keys=())
    return parser


def add_words(subparsers: Any) -> None:
    """Adds the words to the command `team`."""
    add_word(subparsers, "who", "who holds the sixteen logins")
    slots = add_word(subparsers, "slots", "what runs in the slots, and what is pending")
    slots.add_argument("--slot", type=int, metavar="K", help="this slot alone")
    slots.add_argument("--text", action="store_true", help="the modules' texts too")
    slots.set_defaults(keys=("slot", "text"))
    add_word(subparsers, "policy", "the policy, in the form that `apply` reads")
    why = add_word(subparsers, "why", "through which roles and edges a user has a permission")
    why.add_argument("user", metavar="USER")
    why.add_argument("op", metavar="OPERATION")
    why.add_argument("object", metavar="OBJECT")
    why.set_defaults(keys=("user", "op", "object"))
    log = add_word(subparsers, "log", "who gave which command when")
    log.add_argument("--slot", type=int, metavar="K", help="the entries of this slot")
    log.add_argument("--user", metavar="USER", help="the entries of this policy user")
    log.add_argument("--instant", type=int, metavar="N", help="the steps that made this instant")
    log.add_argument("--last", type=int, metavar="N", help="the newest N entries (50)")
    log.add_argument("--before", type=int, metavar="NUMBER", help="those before this number")
    log.set_defaults(keys=("slot", "user", "instant", "last", "before"))
    archive = add_word(subparsers, "archive", "begin a new record; everyone is logged out")
    archive.add_argument("--slot", type=int, metavar="K", help="leave this slot empty")
    archive.set_defaults(keys=("slot",))
    add_word(subparsers, "link", "a link to the team's page, for you alone")
    add_word(subparsers, "health", "whether the gateway is well")
    add_word(subparsers, "visits", "the browsers that have come in by a link")
    kick = add_word(subparsers, "kick", "end all that a Unix user has here, or one session")
    kick.add_argument("person", metavar="PERSON", nargs="?")
    kick.add_argument("--session", type=int, metavar="N", help="this session alone")
    kick.set_defaults(keys=("person", "session"))
    close = add_word(subparsers, "close", "end a visit")
    close.add_argument("visit", metavar="VISIT")
    close.set_defaults(keys=("visit",))
    retract = add_word(subparsers, "retract", "take one offer back, and leave the others")
    retract.add_argument("slot", type=int, metavar="SLOT")
    retract.add_argument("signal", metavar="SIGNAL")
    retract.set_defaults(keys=("slot", "signal"))
