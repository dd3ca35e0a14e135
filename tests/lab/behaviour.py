"""A module's behaviour, found by asking `estserve script` instant by instant: what `estlab` is held
against.

Nothing is known here of states. Two words of inputs come to one state as long as no further word
that was tried is answered otherwise after the one than after the other; a guess of the whole says
what may be tried next.
"""
from __future__ import annotations

import itertools
from typing import Callable, Dict, FrozenSet, Iterator, List, Optional, Protocol, Tuple

from estserve_client.connection import Client, start
from estserve_client.module_text import Module

Letter = FrozenSet[str]
Word = Tuple[Letter, ...]
# `emits`, and the outputs that are present; or `stuck`, and what is undecided
Answer = Tuple[str, FrozenSet[str]]

RESET = "RESET"
ENTRIES = 60_000  # of a slot's journal, which are made on one program
KINDS = {"input": "input", "output": "output", "inout": "inputoutput"}


class Guess(Protocol):
    """What somebody says of a module: its states from 0, and what it does at each."""

    def step(self, state: int, letter: Letter) -> Tuple[Answer, Optional[int]]:
        """What is answered, and the next state."""


class Wrong(AssertionError):
    """The guess says otherwise than estserve does."""


def around(text: str, module: Module) -> str:
    """The text with a module AROUND, which begins the module anew with RESET."""
    lines = [f"module AROUND: input {RESET};"]
    lines += [f"{KINDS[kind]} {name};" for name, kind in module.signals]
    return text + "\n".join([*lines, f"loop run {module.name} each {RESET}", "end module\n"])


def is_lawful(letter: Letter, relations: List[str]) -> bool:
    """Whether inputs keep each relation, by its text."""
    for relation in relations:
        words = relation.split()
        if "=>" in words:
            if words[0] in letter and words[2] not in letter:
                return False
        elif len(letter.intersection(words[::2])) > 1:
            return False
    return True


def letters_of(module: Module) -> List[Letter]:
    """The lawful sets of inputs."""
    names = module.inputs()
    every = itertools.chain.from_iterable(
        itertools.combinations(names, count) for count in range(len(names) + 1)
    )
    return [letter for letter in map(frozenset, every) if is_lawful(letter, module.relations)]


class Server:
    """The program estserve, on which one module after the other is asked words. Used with `with`.
    """

    def __init__(self, names: List[str]) -> None:
        """`names` are all signals that a module may have."""
        self.names = [RESET, *names]
        self.client: Optional[Client] = None
        self.entries, self.is_loaded = 0, False

    def __enter__(self) -> Server:
        return self

    def __exit__(self, *_: object) -> None:
        if self.client:
            self.client.close()

    def begin(self) -> None:
        """Starts a program, on which root may do all that is needed."""
        self.__exit__()
        self.client, self.entries, self.is_loaded = start(), 0, False
        self.client.login("root", ["root"])
        pairs = [("load", "0"), ("step", "0")]
        pairs += [(op, f"0.{name}") for name in self.names for op in ("offer", "observe")]
        self.client.ask_all(
            {"cmd": "grant", "role": "root", "op": op, "object": on} for op, on in pairs
        )

    def load(self, text: str, module: Module) -> None:
        """Loads a module in place of the one before."""
        if self.client is None or self.entries >= ENTRIES:
            self.begin()
        if self.is_loaded:
            self.client.unload(0)
        self.client.load(0, "AROUND", around(text, module))
        self.module, self.is_loaded, self.begins, self.instants = module, True, True, 0

    def commands(self, word: Word) -> Iterator[Dict[str, object]]:
        """The commands of a word. RESET comes with its first instant, but not at the very start."""
        for at, letter in enumerate(word):
            reset = [] if at or self.begins else [RESET]
            for name in [*reset, *sorted(letter)]:
                yield {"cmd": "offer", "slot": 0, "signal": name}
            yield {"cmd": "step", "slot": 0}
            yield {"cmd": "look", "slot": 0, "instant": self.instants + at + 1}

    def ask(self, word: Word) -> List[Answer]:
        """What is answered to a word, up to the first instant that is Stuck."""
        commands = list(self.commands(word))
        self.entries += len(commands)
        answers = self.client.ask_all(commands)
        steps = [told for asked, told in zip(commands, answers) if asked["cmd"] == "step"]
        looks = [told for asked, told in zip(commands, answers) if asked["cmd"] == "look"]
        self.begins = self.begins and not any("ok" in step for step in steps)
        self.instants += sum("ok" in step for step in steps)
        return list(self.told(steps, looks))

    def told(self, steps: List[dict], looks: List[dict]) -> Iterator[Answer]:
        """The answers of a word's instants. What was asked after a Stuck one counts nothing."""
        outputs = set(self.module.outputs())
        for step, look in zip(steps, looks):
            if "fault" in step:
                assert step["fault"] == "Stuck", step
                self.client.discard(0)
                yield "stuck", frozenset(step["undecided"])
                return
            shown = {name for name, is_present in look["signals"] if is_present}
            yield "emits", frozenset(shown & outputs)


class Learner:
    """Finds the behaviour of a module by words that are asked."""

    def __init__(self, ask: Callable[[Word], List[Answer]], letters: List[Letter]) -> None:
        self.ask, self.letters = ask, letters
        self.known: Dict[Word, Optional[Answer]] = {}  # of words: what their last instant gives
        self.tried: List[Word] = []  # words that tell states apart
        self.states: List[Word] = []
        self.steps: Dict[Tuple[int, Letter], Tuple[Answer, Optional[int]]] = {}

    def answer(self, word: Word) -> Optional[Answer]:
        """What the last instant of a word gives; None where one before is Stuck."""
        if word not in self.known:
            told = self.ask(word)
            for at in range(len(word)):
                self.known[word[: at + 1]] = told[at] if at < len(told) else None
        return self.known[word]

    def shown(self, word: Word) -> Tuple[Optional[Answer], ...]:
        """What tells the state after a word from others."""
        return tuple(self.answer((*word, *more)) for more in self.tried)

    def learn(self) -> None:
        """Finds the states, and all steps of each, as far as the tried words tell them apart."""
        self.states, self.steps = [()], {}
        places = {self.shown(()): 0}
        for state, word in enumerate(self.states):
            for letter in self.letters:
                answer, after = self.answer((*word, letter)), None
                assert answer
                if answer[0] == "emits":
                    told = self.shown((*word, letter))
                    if told not in places:
                        places[told] = len(self.states)
                        self.states.append((*word, letter))
                    after = places[told]
                self.steps[state, letter] = answer, after

    def difference(self, guess: Guess) -> Optional[Word]:
        """A shortest word to which what was learnt and the guess answer otherwise."""
        ways: Dict[Tuple[int, int], Word] = {(0, 0): ()}
        line = [(0, 0)]
        for here, there in line:
            for letter in self.letters:
                answer, after = self.steps[here, letter]
                other, beyond = guess.step(there, letter)
                word = (*ways[here, there], letter)
                if answer != other:
                    return word
                if after is not None and beyond is not None and (after, beyond) not in ways:
                    ways[after, beyond] = word
                    line.append((after, beyond))
        return None

    def try_also(self, word: Word) -> None:
        """Finds the part of a word, which what was learnt answers wrong, that tells two states
        apart.
        """
        state, before = 0, self.answer(word)
        for at, letter in enumerate(word):
            state = self.steps[state, letter][1]
            assert state is not None
            now = self.answer((*self.states[state], *word[at + 1 :]))
            if now != before:
                self.tried.append(word[at + 1 :])
                return

    def agree(self, guess: Guess) -> None:
        """Learns until the guess is nowhere else. Raises Wrong where estserve says otherwise."""
        self.learn()
        while True:
            word = self.difference(guess)
            if word is None:
                return
            if self.answer(word) == self.steps[self.state_after(word[:-1]), word[-1]][0]:
                raise Wrong(f"after {word} estserve answers {self.answer(word)}")
            self.try_also(word)
            self.learn()

    def state_after(self, word: Word) -> int:
        """The state that a word comes to."""
        state = 0
        for letter in word:
            after = self.steps[state, letter][1]
            assert after is not None
            state = after
        return state

    def shortest(self, fails: Callable[[Letter, Answer], bool]) -> Optional[int]:
        """In how many instants something fails first; None where it never does."""
        lengths, line = {0: 1}, [0]
        for state in line:
            for letter in self.letters:
                answer, after = self.steps[state, letter]
                if fails(letter, answer):
                    return lengths[state]
                if after is not None and after not in lengths:
                    lengths[after] = lengths[state] + 1
                    line.append(after)
        return None
