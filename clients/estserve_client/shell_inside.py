"""What the shell says of the inside of instants: `back`, `try`, `where` and `why`, by an estlab of its
own that follows the slot. Nothing is changed in the slot.
"""
from __future__ import annotations

import sys
from typing import TYPE_CHECKING, Callable, Dict, List, Sequence

from .close_words import meant
from .colours import Colours
from .connection import Client, Disconnected, Refusal
from .inputs import names_of_line
from .lab.asking import Lab, Subject
from .sentences import sentence
from .shell_words import Usage, number_of
from .texts import Failed

if TYPE_CHECKING:
    from .lab.exploring import Explorer
    from .lab.inside import Look
    from .library_text import LibraryText
    from .module_text import Module

UNKNOWN = "the text of slot {} isn't known here: `module {} FILE` tells it"


class InsideCommands:
    """The commands of a shell over the slot of `use`."""

    client: Client
    slot: int
    modules: Dict[int, Module]
    texts: Dict[int, LibraryText]
    begin_lab: Callable[[], Lab]
    explorers: Dict[int, Explorer]

    def explorer(self) -> Explorer:
        """What follows the slot of `use`, up to its last instant. Raises Usage, Failed, Refusal."""
        slot = self.slot
        if slot not in self.modules or slot not in self.texts:
            raise Usage(UNKNOWN.format(slot, slot))
        if slot not in self.explorers:
            from .lab.exploring import Explorer

            subject = Subject(self.texts[slot], self.modules[slot])
            self.explorers[slot] = Explorer(self.begun_lab(), subject)
        found = self.explorers[slot]
        found.follow(self.client, slot)
        return found

    def begun_lab(self) -> Lab:
        """A program estlab. Raises Failed."""
        try:
            return self.begin_lab()
        except Disconnected as fault:
            raise Failed(str(fault)) from fault

    def forget(self, slot: int) -> None:
        """Ends what follows a slot, whose module or text is another one now."""
        if slot in self.explorers:
            self.explorers.pop(slot).lab.client.close()

    def forget_all(self) -> None:
        """Ends all that follows slots."""
        for slot in list(self.explorers):
            self.forget(slot)

    def do_back(self, line: str) -> None:
        """back [INSTANT]: looks at an instant again, or the one before; a tried or stuck one counts too"""
        explorer = self.explorer()
        last, words = len(explorer.word), line.split()
        number = number_of(words[0]) if words else explorer.number_before()
        if number < 0:
            raise Usage("this is before instant 1 already")
        if len(words) > 1 or not 0 <= number <= last:
            raise Usage(f"expected: [INSTANT], from 0 to {last}")
        explorer.stand(number)
        if explorer.look is None:
            print("before instant 1")
        else:
            print(f"instant {number}: {explorer.told(explorer.look)}")

    def do_try(self, line: str) -> None:
        """try A B;: tells what an instant with A and B would be, and makes none"""
        instants = names_of_line(line) or [()]
        if len(instants) > 1:
            raise Usage("expected: the names of one instant, as `try A B;`")
        explorer = self.explorer()
        number = explorer.inside.at + 1
        try:
            look = explorer.tried(instants[0])
        except Refusal as refusal:
            raise Failed(self.refused_try(explorer, refusal)) from refusal
        print(f"instant {number} would be: {self.told_look(explorer, look)}")

    def told_look(self, explorer: Explorer, look: Look) -> str:
        """What came of an instant, or why it is stuck."""
        if not look.is_stuck:
            return explorer.told(look)
        stuck = Refusal({"code": 50, "fault": "Stuck", "undecided": list(look.undecided or ())})
        return "\n".join([sentence(stuck), *explorer.stuck_lines()])

    def refused_try(self, explorer: Explorer, refusal: Refusal) -> str:
        """What is said of inputs that are refused."""
        module, told = explorer.subject.module, sentence(refusal, explorer.subject.module.relations)
        names = [str(name) for name in refusal.command.get("inputs", ())]
        unknown = [name for name in names if name not in module.kinds()]
        question = meant(unknown[0], module.inputs()) if unknown else ""
        return "; ".join(filter(None, [told, question]))

    def do_where(self, line: str) -> None:
        """where: shows the text, with the lines that ran, and where control rests"""
        if line:
            raise Usage("expected: nothing after the command")
        print("\n".join(self.explorer().where_lines(Colours(sys.stdout))))

    def do_why(self, line: str) -> None:
        """why SIGNAL: tells why a signal was present or absent in the instant, back to the inputs"""
        if len(line.split()) != 1:
            raise Usage("expected: SIGNAL")
        print("\n".join(self.explorer().why_lines(line.strip())))

    def stuck_lines(self, slot: int, pending: Sequence[str]) -> List[str]:
        """What waits for what in the next instant of a slot, with these inputs pending; or why that
        can't be said.
        """
        before, self.slot = self.slot, slot
        try:
            explorer = self.explorer()
            explorer.stand(len(explorer.word))
            look = explorer.tried(pending)
            return explorer.stuck_lines() if look.is_stuck else []
        except (Usage, Failed, Refusal, Disconnected) as fault:
            from .lab.stuck import CANT

            return [CANT.format(fault)]
        finally:
            self.slot = before

    # Completion.

    def complete_try(self, *words: object) -> List[str]:
        """The inputs of the module in the slot of `use`."""
        module = self.modules.get(self.slot)
        names = module.inputs() if module else []
        return sorted(name + " " for name in names if name.startswith(str(words[0])))

    def complete_why(self, *words: object) -> List[str]:
        """Its signals, and the local ones where they are known."""
        module, explorer = self.modules.get(self.slot), self.explorers.get(self.slot)
        names = [*(module.kinds() if module else ())]
        names += explorer.inside.names.values() if explorer else ()
        return sorted(name + " " for name in names if name.startswith(str(words[0])))
