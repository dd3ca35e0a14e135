"""The inside of instants, as estlab tells it: which statements ran, where control rests, what each
local signal is, and what is open in an instant that is stuck.

estlab speaks by the numbers of statements. They become places of the text by the client's own kernel,
which has to be the program's: where it isn't, nothing is told.
"""
from __future__ import annotations

import dataclasses
from typing import TYPE_CHECKING, Any, Dict, FrozenSet, Iterable, Iterator, List, Optional
from typing import Sequence, Set, Tuple, Union

from ..connection import Refusal, line_of
from ..syntax_tree import Token, by_name, parse
from ..texts import Failed
from .asking import Lab, Subject
from .kernel import TICK, Signal, Statement, checked_kernel
from .naming import names_of_locals

if TYPE_CHECKING:
    from ..connection import Answer

At = Tuple[int, int]  # a statement's number, and its incarnation: 0, or i where the restart of the
# i-th loop around it, from the innermost outwards, begins it
Meant = Union[str, At]  # a signal: of the interface by its name, a local one by its declaration
LISTS = ("seq", "par")  # statements that have no words of their own
TOO_OLD = "{} doesn't know what happens inside an instant: it is older than this client"


# where a module stands: "start", "end", or the pauses in which control rests
State = Union[str, FrozenSet[int]]


def state_of(told: Union[str, List[int]]) -> State:
    """A state as it is told."""
    return told if isinstance(told, str) else frozenset(told)


def pauses_of(state: State) -> FrozenSet[int]:
    """The pauses in which control rests in a state."""
    return frozenset() if isinstance(state, str) else state


@dataclasses.dataclass(frozen=True)
class Tie:
    """What a statement has to do with a signal that is open: its test `waits` for it, or it may still
    emit it.
    """

    at: At
    waits: bool
    signal: Meant


@dataclasses.dataclass(frozen=True)
class Look:
    """An instant from inside, from the state `before` to the one `after`. Of one that is stuck
    `outputs` has those that are surely emitted, `undecided` those that stay so, and `ties` what is
    tied to open signals; of others it is None.
    """

    before: State
    inputs: FrozenSet[str]
    began: FrozenSet[At]
    went: FrozenSet[At]
    locals: Dict[At, Optional[bool]]
    outputs: FrozenSet[str]
    after: State
    undecided: Optional[Tuple[str, ...]] = None
    ties: Tuple[Tie, ...] = ()

    @property
    def is_stuck(self) -> bool:
        """Whether there is no reaction."""
        return self.undecided is not None

    def ran(self, at: At) -> bool:
        """Whether a statement surely began or went on."""
        return at in self.began or at in self.went

    def status(self, meant: Meant) -> Optional[bool]:
        """A signal's status; None where it is open."""
        if not isinstance(meant, str):
            return self.locals[meant]
        if meant in (self.undecided or ()):
            return None
        return meant == TICK or meant in self.inputs or meant in self.outputs


def at_of(told: Union[int, Sequence[int]]) -> At:
    """A statement in an incarnation, as it is told: by its number alone in incarnation 0."""
    return (told, 0) if isinstance(told, int) else (told[0], told[1])


def tie_of(told: Dict[str, Any]) -> Tie:
    """A tie, as it is told."""
    signal = told["signal"]
    named: Meant = signal if isinstance(signal, str) else at_of(signal)
    return Tie(at_of(told["at"]), told["kind"] == "waits", named)


def look_of(before: State, inputs: Iterable[str], told: Answer) -> Look:
    """An instant with these inputs in this state, as it is told. Raises Refusal where the inputs are
    refused.
    """
    is_stuck = told.get("fault") == "Stuck"
    if "code" in told and not is_stuck:
        raise Refusal(told, {"cmd": "instant", "inputs": list(inputs)})
    return Look(
        before,
        frozenset(inputs),
        frozenset(map(at_of, told["began"])),
        frozenset(map(at_of, told["went"])),
        {at_of(local["at"]): local["present"] for local in told["locals"]},
        frozenset(told.get("outputs", ())),
        before if is_stuck else state_of(told["next"]),
        tuple(told["undecided"]) if is_stuck else None,
        tuple(map(tie_of, told["ties"])) if is_stuck else (),
    )


class Inside:
    """A module that is loaded in a program estlab of its own, which is asked instant by instant."""

    def __init__(self, lab: Lab, subject: Subject) -> None:
        """Loads the module. Raises Failed where its text is refused, and where the client reads
        another kernel than the program.
        """
        self.lab, self.subject = lab, subject
        lab.load(subject)
        self.statements = checked_kernel(lab, subject)
        self.parents: Dict[int, Statement] = {
            part.number: statement for statement in self.statements for part in statement.parts
        }
        self.names = names_of_locals(self.statements, list(subject.module.kinds()))
        self.pauses = [one for one in self.statements if one.kind == "pause"]
        self.places = [
            {node.at.line for node in (one.node, *one.around) if node.kind not in LISTS}
            for one in self.statements
        ]
        self.at = 0  # it stands after this many instants
        self.state: State = "start"

    def look(self, inputs: Iterable[str]) -> Look:
        """The next instant. Where there is a reaction, the module then stands after it. Raises
        Refusal.
        """
        return next(self.looks([tuple(inputs)]))

    def looks(self, word: Iterable[Sequence[str]]) -> Iterator[Look]:
        """The next instants, up to one that is stuck. Raises Refusal."""
        listed = list(word)
        asked = [{"cmd": "instant", "inputs": list(names)} for names in listed]
        for names, told in zip(listed, self.lab.client.ask_all(asked)):
            look = self.told(names, told)
            self.at, self.state = self.at + (not look.is_stuck), look.after
            yield look
            if look.is_stuck:
                return

    def tried(self, inputs: Sequence[str]) -> Look:
        """What the next instant would be. The module stays where it stands. Raises Refusal."""
        client, asked = self.lab.client, {"cmd": "try", "inputs": list(inputs)}
        batch = [{"cmd": "instant"}], line_of(asked), 1  # it is answered as `instant` is
        return self.told(inputs, next(client.ask_ahead([batch], client.answers_to)))

    def told(self, inputs: Iterable[str], told: Answer) -> Look:
        """An instant, as the program tells it. Raises Refusal, Failed."""
        is_older = told.get("fault") == "Stuck" and "ties" not in told
        if is_older or told.get("fault") == "NotARequest":
            raise Failed(TOO_OLD.format(self.lab.client.program))
        look = look_of(self.state, inputs, told)
        if not look.is_stuck:
            return look
        emits = (self.statements[number] for number, _ in look.began)
        outer = (one.signal for one in emits if one.kind == "emit")
        surely = frozenset(one.name for one in outer if one and not one.is_local)
        return dataclasses.replace(look, outputs=surely)

    def back(self, to: int) -> None:
        """Stands again where it stood after this many instants."""
        self.state = state_of(self.lab.client.ask("back", to=to)["next"])
        self.at = to

    def local(self, at: At) -> str:
        """What the local signal is called that a statement declares."""
        return self.names[at[0]]

    def called(self, meant: Meant) -> str:
        """A signal's name, with the incarnation of one that a loop begins anew."""
        if isinstance(meant, str):
            return meant
        return self.local(meant) + (" (as it begins anew)" if meant[1] else "")

    def meant(self, signal: Signal, at: At) -> Meant:
        """The signal that a statement means by one."""
        if not signal.is_local:
            return signal.name
        return next(
            outer
            for outer in self.around(at)
            if self.statements[outer[0]].signal == signal
            and self.statements[outer[0]].kind == "signal"
        )

    def parent(self, at: At) -> Optional[At]:
        """The statement around one, in its incarnation."""
        around = self.parents.get(at[0])
        if around is None:
            return None
        return around.number, max(0, at[1] - (around.kind == "loop"))

    def around(self, at: At) -> Iterator[At]:
        """The statements around one, the nearest first."""
        found = self.parent(at)
        while found:
            yield found
            found = self.parent(found)

    def line(self, number: int) -> int:
        """The line of the text that a statement comes from."""
        return self.statements[number].node.at.line

    def lines(self, numbers: Iterable[int]) -> Set[int]:
        """The lines of these statements that have words of their own, and of the runs around them."""
        places = self.places
        return set().union(*[places[number] for number in numbers])

    def ran(self, look: Look) -> Set[int]:
        """The lines of which a statement began or went on in an instant."""
        return self.lines({number for number, _ in look.began | look.went})

    def rests(self, look: Look) -> Set[int]:
        """The lines in which control rests after an instant; none of one that is stuck."""
        after = frozenset() if look.is_stuck else pauses_of(look.after)
        return self.lines(one.number for one in self.pauses if one.pause in after)


def presences(inside: Inside, look: Look) -> Dict[str, Tuple[int, int]]:
    """Of each local signal, by its name: how many of its incarnations that ran have it present, and how
    many ran.
    """
    found = {name: (0, 0) for name in inside.names.values()}
    for at, present in look.locals.items():
        if look.ran(at):
            name = inside.local(at)
            found[name] = found[name][0] + bool(present), found[name][1] + 1
    return found


def undecided_lines(inside: Inside, look: Look) -> List[str]:
    """The open signals of an instant that is stuck, each with the place of its declaration."""
    tokens = declarations(inside.subject)
    found = [(tokens[name], f"{name} is undecided") for name in look.undecided or ()]
    for at, present in look.locals.items():
        signal = inside.statements[at[0]].signal
        if present is None and signal and signal.at:
            found.append((signal.at, f"the local signal {inside.local(at)} is undecided"))
    show = inside.subject.library.show
    return [f"  {show(token.line, token.column)}: {told}" for token, told in dict.fromkeys(found)]


def declarations(subject: Subject) -> Dict[str, Token]:
    """Where each signal of the interface is declared."""
    module = by_name(parse(subject.library.text) or [])[subject.module.name]
    return {token.text: token for token in reversed(module.interface)}
