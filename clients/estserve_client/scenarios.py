"""Modules that run through lists of inputs: on a program of their own, or in a slot of a server."""
from __future__ import annotations

import contextlib
import functools
import itertools
import re
import signal
import threading

from .ahead import Ahead
from .connection import Refusal, TooLong
from .inputs import read_inputs
from .texts import Failed, Placed

TYPE_CHECKING = False
if TYPE_CHECKING:
    import types
    from typing import Any, Callable, Dict, Iterator, List, Optional, Sequence, Set, Tuple

    from .connection import Answer, Client
    from .inputs import Inputs
    from .lab.asking import Lab
    from .library_text import LibraryText
    from .module_text import Module
    from .pictures import Instant

GRANTS = 250  # about this many permissions are granted on one program
ENTRIES = 65_000  # about this many entries a slot's journal has
LOGIN = {"cmd": "login", "user": "root", "roles": ["root"]}


def found_lab() -> Lab:
    """The program estlab that is found. Raises Disconnected."""
    from .lab.asking import start_lab

    return start_lab(searches=False)


class Scenario:
    """A module, the text that it stands in, and the text of a list of inputs with its path. `lab`
    starts an estlab, which is asked about an instant that is stuck.
    """

    def __init__(
        self,
        library: LibraryText,
        module: Module,
        listed: str,
        path: str = "-",
        lab: Callable[[], Lab] = found_lab,
    ) -> None:
        self.library, self.module, self.listed, self.lab = library, module, listed, lab
        self.path = "standard input" if path == "-" else path

    @functools.cached_property
    def inputs(self) -> Inputs:
        """The inputs of its instants, which are read when they are first asked for."""
        return read_inputs(self.listed)

    def prepare(self) -> None:
        """Has the inputs read."""
        len(self.inputs)

    def place_of(self, number: int, names: Sequence[str]) -> str:
        """Where an instant stands in the list: the first of these names that it offers, or else its
        line.
        """
        *before, offers = itertools.islice(self.inputs, number)
        on_line = sum(one.line == offers.line for one in before)
        pieces = self.listed.split("\n")[offers.line - 1].split(";")
        begin = sum(len(piece) + 1 for piece in pieces[:on_line])
        found = next((name for name in names if name in offers.names), "")
        column = self.column_of(offers.line, found, begin) if found else 1
        return f"{self.path}:{offers.line}:{column}"

    def column_of(self, line: int, name: str, begin: int = 0) -> int:
        """The column of a name in a line of the list, in bytes from 1; what stands before `begin`
        is passed over.
        """
        written = self.listed.split("\n")[line - 1]
        name_alone = re.compile(rf"(?<![^\s;]){re.escape(name)}(?![^\s;%])")
        found = name_alone.search(written, begin)
        before = written[: found.start()] if found else ""
        return len(before.encode(errors="replace")) + 1

    def stuck_lines(self, number: int) -> List[str]:
        """What waits for what in the instant of this number, which is stuck."""
        from .lab.asking import Subject
        from .lab.stuck import stuck_lines

        subject = Subject(self.library, self.module)
        return stuck_lines(self.lab, subject, self.inputs.names[:number])

    def entries(self) -> int:
        """How many entries of a journal it takes."""
        return 2 + len(self.inputs) + sum(map(len, self.inputs.names))


class Refused(Failed):
    """An instant was refused: its number, the fault, and what is said of it in one line. More lines
    may follow, which are found where they are asked for.
    """

    def __init__(
        self, number: int, fault: str, sentence: str, find: Callable[[], List[str]] = list
    ) -> None:
        self.number, self.fault, self.sentence, self.find = number, fault, sentence, find
        self.told = f"instant {number}: {sentence}"
        super().__init__(self.told)

    @functools.cached_property
    def more(self) -> List[str]:
        """The lines that follow."""
        return self.find()

    def __str__(self) -> str:
        return "\n".join([self.told, *self.more])


class RefusedInputs(Refused, Placed):
    """An instant was refused for its inputs, which stand at a place of the list."""

    def __init__(self, refused: Refused, place: str) -> None:
        told = f"{place}: {refused.sentence}"
        super().__init__(refused.number, refused.fault, refused.sentence, lambda: [told])
        self.place = place

    def __str__(self) -> str:
        return f"{self.place}: {self.told}"


def refused(refusal: Refusal, number: int, scenario: Scenario, from_start: bool = True) -> Refused:
    """What a run ends with at an instant that was refused; `from_start` says that the module ran from
    its start through the list's inputs alone.
    """
    from .sentences import sentence

    told = sentence(refusal, scenario.module.relations)
    if refusal.fault in ("Excluded", "Implied"):
        found = Refused(number, refusal.fault, told)
        offered = refusal.command.get("signal")
        names = [offered] if offered else re.findall(r"\w+", found.sentence)
        return RefusedInputs(found, scenario.place_of(number, names))
    if refusal.fault != "Stuck" or not from_start:
        return Refused(number, refusal.fault, told)
    return Refused(number, refusal.fault, told, lambda: scenario.stuck_lines(number))


def not_loaded(refusal: Refusal, scenario: Scenario) -> Failed:
    """What a run ends with whose load was refused for its text."""
    from .load_faults import load_fault

    return load_fault(refusal, scenario.library, scenario.module.name)


def grants_of(module: Module, slot: int = 0) -> List[Answer]:
    """What root needs to load the module, to offer its inputs, to step it and to see all of it:
    commands of grants.
    """
    wanted = [("load", f"{slot}"), ("step", f"{slot}")]
    wanted += [("offer", f"{slot}.{name}") for name in module.inputs()]
    wanted += [("observe", f"{slot}.{name}") for name, _ in module.signals]
    return [
        {"cmd": "grant", "op": op, "object": object, "role": "root"}
        for op, object in dict.fromkeys(wanted)
    ]


def check_inputs(scenario: Scenario) -> None:
    """Raises Placed at the first name of the list that the module can't be offered."""
    from .module_text import no_input

    inputs = set(scenario.module.inputs())
    if all(map(inputs.issuperset, scenario.inputs.different())):
        return
    line, wrong = next(
        (offers.line, name)
        for offers in scenario.inputs
        for name in offers.names
        if name not in inputs
    )
    place = f"{scenario.path}:{line}:{scenario.column_of(line, wrong)}"
    raise Placed(f"{place}: {no_input(scenario.module, wrong)}")


def never() -> bool:
    return False


class Stage:
    """A program of its own, as root, on which one module after the other runs in slot 0. Used with
    `with`.
    """

    def __init__(self, begin: Callable[[], Client]) -> None:
        """`begin` starts a program: it is called again where the one that runs has no room left."""
        self.begin = begin
        self.client: Optional[Client] = None
        self.granted: Set[Tuple[str, str]] = set()
        self.entries, self.is_loaded = 0, False

    def __enter__(self) -> Stage:
        return self

    def __exit__(self, *_: object) -> None:
        if self.client:
            self.client.close()

    def has_room(self, scenario: Scenario) -> bool:
        if self.client is None:
            return False
        wanted = {(grant["op"], grant["object"]) for grant in grants_of(scenario.module)}
        return len(self.granted | wanted) <= GRANTS and self.entries + scenario.entries() <= ENTRIES

    def load(self, scenario: Scenario) -> None:
        """Loads the module in place of the one that ran before. Raises Failed where it is
        refused.
        """
        begins = not self.has_room(scenario)
        if begins:
            self.__exit__()
            self.client, self.granted, self.entries, self.is_loaded = self.begin(), set(), 0, False
        grants = [
            grant
            for grant in grants_of(scenario.module)
            if (grant["op"], grant["object"]) not in self.granted
        ]
        self.granted |= {(grant["op"], grant["object"]) for grant in grants}
        unload = [{"cmd": "unload", "slot": 0}] * self.is_loaded
        load = {
            "cmd": "load",
            "slot": 0,
            "main": scenario.module.name,
            "text": scenario.library.text,
        }
        self.is_loaded = False
        self.check([LOGIN] * begins + grants + unload + [load], scenario)
        self.entries += scenario.entries()
        self.is_loaded = True

    def check(self, commands: List[Answer], scenario: Scenario) -> None:
        """Asks for the commands up to the load. Raises Failed where the module was not loaded.

        Of what is refused the load is told first, unless it was refused for want of what was asked
        for before.
        """
        assert self.client is not None
        self.client.when_waiting = scenario.prepare  # a long list, while the module is loaded
        try:
            answers = self.client.ask_all(commands)
        except TooLong as fault:
            raise Failed(f"{scenario.library.paths[0]}: the text is too long: {fault}") from fault
        finally:
            self.client.when_waiting = lambda: None
        refusals = [
            Refusal(told, asked) for asked, told in zip(commands, answers) if "code" in told
        ]
        loads = [refusal for refusal in refusals if refusal.command["cmd"] == "load"]
        if loads and loads[0].fault not in ("NoSession", "Permission"):
            raise not_loaded(loads[0], scenario)
        if refusals:
            from .sentences import sentence

            raise Failed(f"root cannot load the module: {sentence(refusals[0])}")

    def play(
        self, scenario: Scenario, stopped: Callable[[], bool] = never
    ) -> Iterator[List[Instant]]:
        """The instants of the module that is loaded, as they come, until it is stopped: lists of
        those that came at once. Raises Failed.
        """
        assert self.client is not None
        ahead = Ahead(self.client, scenario.inputs.names)
        try:
            yield from ahead.instants(stopped)
        except Refusal as refusal:
            raise refused(refusal, ahead.number, scenario) from refusal


class SharedSlot:
    """A slot of a server, as the user who is logged in, in which a module runs. Used with `with`.

    Nothing is granted, and each command is answered before the next one is sent, since others may
    use the slot.
    """

    def __init__(self, client: Client, slot: int, loads: bool) -> None:
        """`loads` says whether the module is loaded, and unloaded at the end; else it is there
        already.
        """
        self.client, self.slot, self.loads = client, slot, loads
        self.is_loaded = False

    def __enter__(self) -> SharedSlot:
        return self

    def __exit__(self, *_: object) -> None:
        if self.is_loaded:
            self.is_loaded = False
            self.client.unload(self.slot)

    def load(self, scenario: Scenario) -> None:
        """Loads the module where that is asked for. Raises Failed where its text is refused, and
        Refusal.
        """
        try:
            if self.loads:
                self.client.load(self.slot, scenario.module.name, scenario.library.text)
                self.is_loaded = True
        except TooLong as fault:
            raise Failed(f"{scenario.library.paths[0]}: the text is too long: {fault}") from fault
        except Refusal as refusal:
            from .command_table import OF_TEXTS

            if refusal.code in OF_TEXTS:
                raise not_loaded(refusal, scenario) from refusal
            raise

    def hidden(self, module: Module) -> Set[str]:
        """The signals of the module that the user may not observe."""
        objects = {name: f"{self.slot}.{name}" for name in module.kinds()}
        asked = [{"cmd": "check", "op": "observe", "object": object} for object in objects.values()]
        answers = self.client.ask_all(asked)
        return {name for name, answer in zip(objects, answers) if not answer.get("allowed")}

    def play(
        self, scenario: Scenario, stopped: Callable[[], bool] = never
    ) -> Iterator[List[Instant]]:
        """The instants as they come, each a list of its own, until it is stopped. Raises Failed
        where one is refused.
        """
        for number, names in enumerate(scenario.inputs.names, 1):
            if stopped():
                return
            try:
                signals = self.client.instant(self.slot, names).signals
            except Refusal as refusal:
                raise refused(refusal, number, scenario, self.loads) from refusal
            yield [signals]


@contextlib.contextmanager
def stopping() -> Iterator[Callable[[], bool]]:
    """Lets the first Ctrl-C be seen by the function that it gives, and a second one interrupt.

    Where interrupts are ignored, as for what runs in the background, they stay so.
    """
    seen: Dict[str, Any] = {}

    def stop(_: int, __: Optional[types.FrameType]) -> None:
        if seen:
            raise KeyboardInterrupt
        seen["stopped"] = True

    before = signal.getsignal(signal.SIGINT)
    if before == signal.SIG_IGN or threading.current_thread() is not threading.main_thread():
        yield never
        return
    signal.signal(signal.SIGINT, stop)
    try:
        yield lambda: bool(seen)
    finally:
        signal.signal(signal.SIGINT, before)
