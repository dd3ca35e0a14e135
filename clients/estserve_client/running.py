"""The command `run`: a module, a list of inputs, a picture."""
from __future__ import annotations

import contextlib
import os
import re
import sys

from .connection import Refusal, start
from .drawing import Drawing, Progress
from .messages import TELLER
from .pictures import Seen
from .programs import program_of
from .scenarios import Refused, Scenario, SharedSlot, Stage, check_inputs, stopping
from .texts import Failed, Interrupted, read_library, read_text
from .texts_beside import chosen_of

TYPE_CHECKING = False
if TYPE_CHECKING:
    import argparse
    from typing import Callable, Iterable, Iterator, List, Optional, Union

    from .lab.asking import Lab
    from .lab.within import Beside
    from .module_text import Module
    from .pictures import Instant, Signals
    from .scopes import Scope
    from .until_condition import Until


def read_scenario(arguments: argparse.Namespace) -> Scenario:
    """The module and the inputs that the arguments name. Raises Failed."""
    if "-" in arguments.file and arguments.inputs == "-":
        raise Failed(
            "the module text is read from standard input: name the inputs by --inputs FILE"
        )
    library = read_library(arguments.file)
    module = chosen_of(library.text, arguments.main)
    listed = read_text(arguments.inputs, "the list of inputs")
    return Scenario(library, module, listed, arguments.inputs, lambda: lab_for(arguments))


def lab_for(arguments: argparse.Namespace) -> Lab:
    """The program estlab that the arguments name. Raises Disconnected."""
    from .lab.asking import lab_beside

    return lab_beside(arguments)


def chosen(module: Module, named: Optional[List[str]], inner: Signals = []) -> Signals:
    """The signals that are drawn: those that are named, in that order, or all, with the local ones
    inside. Raises Failed.
    """
    names = [name for names in named or () for name in names.replace(",", " ").split()]
    kinds = {**module.kinds(), **dict(inner)}
    unknown = [name for name in names if name not in kinds]
    if unknown:
        raise Failed(f"{module.name} has no signal {unknown[0]}")
    listed = dict.fromkeys(names)
    return [(name, kinds[name]) for name in listed] if names else [*module.signals, *inner]


def check_outside(arguments: argparse.Namespace, scenario: Scenario) -> None:
    """Raises Failed where a local signal is asked for, and --locals is not given."""
    from .scopes import local_signals

    asked = " ".join([arguments.until or "", *(arguments.signals or ())])
    names = re.findall(r"[A-Za-z][\w.]*", asked, re.ASCII)
    if arguments.locals or not names:
        return
    inside = local_signals(scenario.library.text) - set(scenario.module.kinds())
    wrong = [name for name in names if name.rpartition(".")[2] in inside]
    if wrong:
        raise Failed(f"there is no signal {wrong[0]} outside of the module: --locals shows it")


@contextlib.contextmanager
def place_to_run(arguments: argparse.Namespace) -> Iterator[Union[Stage, SharedSlot]]:
    """Where the module runs: a slot of the server that is named, or a program of its own."""
    if arguments.socket:
        from .session import session_of

        with session_of(arguments) as (client, _), SharedSlot(
            client, arguments.slot, not arguments.loaded
        ) as slot:
            yield slot
    else:
        program = program_of(arguments)
        with Stage(lambda: start(program)) as stage:
            yield stage


def play(
    place: Union[Stage, SharedSlot],
    scenario: Scenario,
    add: Callable[[List[Instant]], object],
    progress: Progress,
) -> Optional[Refused]:
    """Runs the module that is loaded, and gives the instants to `add` as they come, until that answers
    True. Answers the refusal that ended it, if one did.

    Raises Interrupted after the first Ctrl-C, when what was sent is answered.
    """
    number, total = 0, len(scenario.inputs)
    with stopping() as stopped:
        try:
            for instants in place.play(scenario, stopped):
                if add(instants):
                    return None
                number += len(instants)
                progress.at(number)
        except Refused as refusal:
            return refusal
        finally:
            progress.end()
        if stopped():
            raise Interrupted(f"interrupted after {number:,} of {total:,} instants")
    return None


def scopes_in(scenario: Scenario, inner: Optional[Beside]) -> List[Scope]:
    """The scopes of what the main module runs, which take a reader of the whole language."""
    from .scopes import scopes_of

    locals = inner.locals() if inner else None
    scopes = scopes_of(scenario.library.text, scenario.module.name, locals)
    if inner:
        inner.add_scopes(scopes)
    return scopes


@contextlib.contextmanager
def beside(arguments: argparse.Namespace, scenario: Scenario) -> Iterator[Optional[Beside]]:
    """The same module in estlab, where the inside of its instants is asked for. Raises Failed,
    Disconnected.
    """
    if not (arguments.locals or arguments.trace):
        yield None
        return
    from .lab.asking import Subject
    from .lab.inside import Inside
    from .lab.within import Beside

    with lab_for(arguments) as lab:
        yield Beside(Inside(lab, Subject(scenario.library, scenario.module)))


def until_of(text: Optional[str], shown: Iterable[str], hidden: Iterable[str]) -> Optional[Until]:
    """What a run goes on until, where that is asked for. Raises Failed."""
    if text is None:
        return None
    from .until_condition import Until

    return Until(text, shown, hidden)


class Coming:
    """The instants of a run as they come: what happens inside them is added, and they are drawn up to
    the one that ends the run.
    """

    def __init__(
        self,
        scenario: Scenario,
        drawing: Drawing,
        inner: Optional[Beside],
        until: Optional[Until],
    ) -> None:
        self.scenario, self.drawing, self.inner, self.until = scenario, drawing, inner, until
        self.number = 0  # of them

    def add(self, instants: List[Instant]) -> bool:
        """Adds instants that came. Answers whether the run ends with them. Raises Failed."""
        if self.inner:
            word = self.scenario.inputs.names[self.number : self.number + len(instants)]
            instants = self.inner.within(word, instants)
        if self.until:
            instants = self.until.cut(instants)
        self.number += len(instants)
        self.drawing.add(instants)
        return bool(self.until and self.until.is_met)

    def tell_end(self) -> None:
        """Tells where the run ended that went on until something held. Raises Failed where it never
        did.
        """
        if self.until and not self.until.is_met:
            told = instants_told(self.number)
            raise Failed(f"{self.until.text} held in none of {told}")
        if self.until:
            TELLER.tell(f"instant {self.number:,}: {self.until.text} holds")


def draw_run(
    arguments: argparse.Namespace, place: Union[Stage, SharedSlot], scenario: Scenario
) -> None:
    """Runs the module that is loaded, and draws it as the arguments ask. Raises Failed, also where
    an instant is refused.
    """
    module = scenario.module
    check_outside(arguments, scenario)
    hidden = frozenset(place.hidden(module)) if isinstance(place, SharedSlot) else frozenset()
    with beside(arguments, scenario) as inner:
        locals = inner.signals if inner and arguments.locals else []
        signals = chosen(module, arguments.signals, locals)
        scopes = scopes_in(scenario, inner) if arguments.vcd else None
        seen = Seen(module.name, signals, [], 1, scopes, arguments.trace)
        drawing = Drawing(seen, arguments.wave, arguments.vcd)
        shown = [name for name, _ in (*module.signals, *locals) if name not in hidden]
        coming = Coming(scenario, drawing, inner, until_of(arguments.until, shown, hidden))
        drawing.begin(scenario, hidden)
        assert place.client
        place.client.when_waiting = drawing.show
        is_silent = bool(arguments.wave or arguments.vcd) or not sys.stdout.isatty()
        try:
            refusal = play(place, scenario, coming.add, Progress(len(scenario.inputs), is_silent))
        finally:
            drawing.end()
    if refusal:
        raise refusal
    coming.tell_end()


def hold_run(
    arguments: argparse.Namespace, place: Union[Stage, SharedSlot], scenario: Scenario
) -> None:
    """Runs the module that is loaded, and holds it against what is expected. Raises Failed where it
    differs.
    """
    from .colours import Colours
    from .expecting import first_difference, outcome_lines, read_expected, update

    seen = Seen(scenario.module.name, chosen(scenario.module, arguments.signals), [])
    refusal = play(place, scenario, seen.instants.extend, Progress(len(scenario.inputs), True))
    lines = outcome_lines(seen, refusal.told if refusal else None)
    if not arguments.update and not os.path.exists(arguments.expect):
        raise Failed(f"there is no {arguments.expect}: --update writes it")
    told = counted(seen, refusal, len(scenario.inputs))
    if arguments.update:
        how = update(arguments.expect, lines)
        print(f"{arguments.expect} is {how}: {told}{blessed(refusal, how)}")
        return
    found = first_difference(read_expected(arguments.expect), lines, arguments.expect)
    if found:
        print("\n".join(map(Colours(sys.stdout).of_diff, found[1])), flush=True)
        raise Failed(f"{arguments.expect}: the first difference is at {found[0]}")
    print(f"{told}, as expected")


def instants_told(count: int) -> str:
    """A number of instants, in words."""
    return f"{count:,} instant{'' if count == 1 else 's'}"


def counted(seen: Seen, refusal: Optional[Refused], total: int) -> str:
    """How many instants were seen, what refused the next one, and how many were not run."""
    told, left = instants_told(len(seen.instants)), total - len(seen.instants) - 1
    if not refusal:
        return told
    told += f", then {refusal.fault}"
    return f"{told}; {instants_told(left)} not run" if left else told


def blessed(refusal: Optional[Refused], how: str) -> str:
    """What is said of a table, where the run ended with a refusal, by what came of its file."""
    from .expecting import AS_IT_WAS

    if not refusal:
        return ""
    begin = "; " if how == AS_IT_WAS else "; WITH A REFUSAL as what is expected: "
    return begin + refusal.told


def run_once(arguments: argparse.Namespace) -> None:
    """Runs the module through the list of inputs, once. Raises Failed, Refusal, Disconnected,
    CannotBeSent.
    """
    scenario = read_scenario(arguments)
    try:
        with place_to_run(arguments) as place:
            place.load(scenario)
            check_inputs(scenario)
            (hold_run if arguments.expect else draw_run)(arguments, place, scenario)
    except Refusal as refusal:
        raise told_of_server(refusal, arguments) from refusal


def told_of_server(refusal: Refusal, arguments: argparse.Namespace) -> Exception:
    """What a refusal on a server is told as: a slot that is loaded can be run as it is."""
    if refusal.fault == "Occupied" and arguments.socket:
        return Failed(
            f"slot {arguments.slot} is loaded: name another by --slot,"
            " or run what is there by --loaded"
        )
    return refusal


def check_words(arguments: argparse.Namespace) -> None:
    """Raises Failed where the arguments don't go together."""
    files = [*arguments.file, arguments.inputs]
    if arguments.update and not arguments.expect:
        raise Failed("--update writes the file that --expect names: name it")
    if arguments.watch and "-" in files:
        raise Failed("--watch looks at files: name the inputs by --inputs FILE")
    if arguments.expect and (arguments.wave or arguments.vcd):
        raise Failed("--expect compares tables: leave --wave and --vcd away")
    inner = arguments.locals or arguments.trace
    if arguments.expect and (inner or arguments.until):
        raise Failed("--expect compares whole tables: leave --locals, --trace and --until away")
    if arguments.trace and (arguments.wave or arguments.vcd):
        raise Failed("--trace is a column of the table: leave --wave and --vcd away")
    if inner and arguments.loaded:
        raise Failed("--locals and --trace begin where the module does: leave --loaded away")
    if not arguments.socket and (arguments.loaded or arguments.slot):
        raise Failed("--slot and --loaded are for a server: name it by --socket")


def run(arguments: argparse.Namespace) -> None:
    """Runs a module through a list of inputs, and draws what was seen, also where an instant is
    refused. Raises Failed.
    """
    check_words(arguments)
    if arguments.watch:
        from .watching import watch_files

        files = [
            *arguments.file,
            arguments.inputs,
            *([arguments.expect] if arguments.expect else []),
        ]
        watch_files(files, lambda: run_once(arguments))
    else:
        run_once(arguments)
