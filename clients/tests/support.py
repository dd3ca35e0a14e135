"""What the client's tests share."""
from __future__ import annotations

import contextlib
import io
import os
import pathlib
import signal
import socket
import sys
import tempfile
import unittest
import unittest.mock
from typing import (
    TYPE_CHECKING,
    Any,
    Callable,
    Dict,
    Iterable,
    List,
    Optional,
    Tuple,
    TypeVar,
    Union,
)

if TYPE_CHECKING:
    import estserve

    Word = Union[str, pathlib.Path]
    Test = TypeVar("Test", bound=Callable[..., Any])

# What runs in the background may have been started with interrupts ignored, and programs inherit that.
signal.signal(signal.SIGINT, signal.default_int_handler)

CLIENTS = pathlib.Path(__file__).resolve().parents[1]
ROOT = CLIENTS.parent
EXAMPLES = ROOT / "examples"
DIALOGUE = CLIENTS / "tests" / "dialogue.py"
DIALOGUES = CLIENTS / "tests" / "dialogues"
EXPRESSIONS = {"coin_machine", "shared_bus", "inouts"}  # dialogues that load modules with them
sys.path.insert(0, str(CLIENTS))


def read_vcd(lines: Iterable[str], scope: int = 1) -> Dict[str, Dict[Optional[float], str]]:
    """The changes in a VCD file: from the name of each wire of the outer scope to its values, by
    their instants.

    With a deeper `scope` the wires of that depth are given, by the scope's name and their own.
    """
    names: Dict[str, List[str]] = {}
    changes: Dict[str, Dict[Optional[float], str]] = {}
    instant: Optional[float] = None
    scopes: List[str] = []
    for words in map(str.split, lines):
        if words[0] == "$scope":
            scopes.append(words[2])
        elif words[0] == "$upscope":
            scopes.pop()
        elif words[0] == "$var" and len(scopes) == scope:
            names.setdefault(words[3], []).append(".".join([*scopes[1:], words[4]]))
        elif words[0].startswith("#"):
            instant = int(words[0][1:]) / 10
        elif words[0][0] in "01x":
            for name in names.get(words[0][1:], ()):
                changes.setdefault(name, {})[instant] = words[0][0]
    return changes


class InAFolder(unittest.TestCase):
    """Tests each of which has a folder of its own."""

    folder: pathlib.Path

    def setUp(self) -> None:
        held = tempfile.TemporaryDirectory()
        self.addCleanup(held.cleanup)
        self.folder = pathlib.Path(held.name).resolve()

    def file(self, name: str, data: Union[str, bytes]) -> pathlib.Path:
        """A file of the folder, of these bytes or of this text."""
        path = self.folder / name
        path.parent.mkdir(parents=True, exist_ok=True)
        path.write_bytes(data if isinstance(data, bytes) else data.encode())
        return path

    def script(self, name: str, text: str) -> pathlib.Path:
        """A program of the folder that is this script."""
        path = self.file(name, text)
        path.chmod(0o755)
        return path


class WithProgram(unittest.TestCase):
    """Tests with a client of the real program, which the variable ESTSERVE names, as root."""

    client: estserve.Client

    def setUp(self) -> None:
        import estserve

        self.client = estserve.start(os.environ["ESTSERVE"], timeout=60)
        self.addCleanup(self.client.close)
        self.client.login("root", ["root"])

    def grant(self, *rights: Tuple[str, str]) -> None:
        """Grants root these pairs of an operation and an object."""
        for op, object in rights:
            self.client.grant("root", op, object)


class Ran:
    """What a command of the client gave: its status, what it printed, what it told on standard
    error.
    """

    def __init__(self, status: int, printed: str, told: str) -> None:
        self.status, self.printed, self.told = status, printed, told


def run_client(
    words: Iterable[Word], typed: str = "", variables: Optional[Dict[str, str]] = None
) -> Ran:
    """Runs the client with these words, `typed` on its standard input, and these variables
    besides.
    """
    import estserve

    printed, told = (io.TextIOWrapper(io.BytesIO(), encoding="utf-8") for _ in range(2))
    stdin = io.TextIOWrapper(io.BytesIO(typed.encode()))
    with contextlib.ExitStack() as held:
        held.enter_context(contextlib.redirect_stdout(printed))
        held.enter_context(contextlib.redirect_stderr(told))
        held.enter_context(unittest.mock.patch("sys.stdin", stdin))
        held.enter_context(unittest.mock.patch.dict(os.environ, variables or {}))
        status = estserve.main([str(word) for word in words])
    for stream in (printed, told):
        stream.seek(0)
    return Ran(status, printed.read(), told.read())


def run_words(name: str, inputs: Optional[str] = None, *more: Word) -> List[Word]:
    """The words by which the client runs a controller of the examples."""
    folder = EXAMPLES / name
    return ["run", folder / f"{name}.strl", "--inputs", folder / f"{inputs or name}.inputs", *more]


def dialogue_variables(path: pathlib.Path, faults: pathlib.Path) -> Dict[str, str]:
    """The variables by which `dialogue.py` plays a stored dialogue, beside the real program that
    ESTSERVE names, if it does, and if it reads what is loaded there.
    """
    variables = {"ESTSERVE": str(DIALOGUE), "DIALOGUE": str(path), "FAULTS": str(faults)}
    for name, real in (("RECORD", "RECORDER"), ("BESIDE", "ESTSERVE")):
        if os.environ.get(real):
            variables[name] = os.environ[real]
    if path.stem in EXPRESSIONS and not reads_expressions():
        variables.pop("BESIDE", None)
    return variables


def play_dialogue(path: pathlib.Path, words: Iterable[Word], typed: str = "") -> Ran:
    """Runs the client over a stored dialogue, and fails where it doesn't ask for what is stored."""
    with tempfile.TemporaryDirectory() as folder:
        faults = pathlib.Path(folder) / "faults"
        ran = run_client(words, typed, dialogue_variables(path, faults))
        if faults.exists():
            raise AssertionError(f"{path.name}: {faults.read_text()}")
    return ran


def reads_expressions() -> bool:
    """Whether ESTSERVE names a program that reads expressions over signals, and `inputoutput`."""
    if not os.environ.get("ESTSERVE"):
        return False
    sys.path.append(str(ROOT / "tests" / "socket"))
    import language  # type: ignore[import]

    return bool(language.reads_expressions(os.environ["ESTSERVE"]))


def needs_expressions(test: Test) -> Test:
    """Marks a test of a real program that reads expressions over signals, and `inputoutput`."""
    return unittest.skipUnless(
        reads_expressions(), "the variable ESTSERVE names no program that reads `inputoutput`"
    )(test)


def needs_program(test: Test) -> Test:
    """Marks a test that runs the real program, which the variable ESTSERVE names."""
    return unittest.skipUnless(
        os.environ.get("ESTSERVE"), "the variable ESTSERVE names no program"
    )(test)


def refusal_of(client: estserve.Client, text: str) -> Optional[estserve.Refusal]:
    """The refusal of a load of M into slot 0; None where it is loaded, and taken out again."""
    import estserve

    try:
        client.load(0, "M", text)
    except estserve.Refusal as refusal:
        return refusal
    client.unload(0)
    return None


def serve(*words: str) -> Any:
    """A server of the real program, as the tests of the socket start it. Used with `with`."""
    sys.path.append(str(ROOT / "tests" / "socket"))
    import running  # type: ignore[import]

    socket.setdefaulttimeout(None)  # which running sets, and stand-ins for servers can't have
    return running.Server(*words)
