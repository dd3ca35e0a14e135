"""The command `shell`: a dialogue for people. A line is a command, its answer a short sentence."""
from __future__ import annotations

import argparse
import cmd
import contextlib
import functools
import glob
import os
import re
import sys
import time
from typing import Any, Callable, Dict, Iterable, List, Set, Tuple

from .close_words import meant
from .colours import Colours
from .command_table import IDENTIFIER, KEYS, OF_TEXTS, OPERATIONS, SLOTS
from .connection import CannotBeSent, Client, Refusal, TimedOut
from .drawing import waves_for, write_vcd
from .history import keeping_history
from .inputs import names_of_line
from .instants import Instant
from .lab.asking import Lab, lab_beside
from .library_text import LibraryText
from .load_faults import load_fault
from .module_text import Module, main_of, no_input, no_module
from .pictures import KINDS, RARE, Seen, Table, present_of, table_lines
from .policy_file import fits
from .running import instants_told
from .scenarios import found_lab
from .scopes import scopes_of
from .seeing import module_for, see_slot
from .sentences import Set as SeparationSet
from .sentences import sentence
from .session import roles_of, session_of
from .shell_inside import UNKNOWN as UNKNOWN_TEXT
from .shell_inside import InsideCommands
from .shell_words import (
    LEGEND,
    PLAIN,
    ROLES,
    Usage,
    command_keys,
    keys_of,
    number_of,
    without_comment,
)
from .slot_names import names_of, numbered
from .texts import Failed, Placed, read_library

# of what isn't there: the field of a refusal that names it, and what was told here of its kind
UNKNOWN = {
    "UnknownUser": ("user", "user"),
    "UnknownRole": ("role", "role"),
    "NoDsd": ("set", "name"),
}
OF_NO_INPUT = (
    "Permission",
    "NotARequest",
)  # what an offer is refused as before its name is looked up
OF_A_SLOT = re.compile(r"[\w-]+\.\w+")  # a signal of a slot, as permissions write it
SPREAD = re.compile(r"[0-9]+\.\S*\*\S*")  # signals of a slot, as policy files write several
OF_SIGNALS = ("offer", "observe")  # the operations that are done on signals
UNDONE = {"grant": "AlreadyGranted", "revoke": "NotGranted"}  # where it is so already
WATCHED = 0.1  # seconds between two questions of `watch`


def nothing_of(seen: Seen) -> str:
    """What is said of instants in which nothing may be observed."""
    return f"{instants_told(len(seen.instants))}: nothing that you may observe"


class Shell(InsideCommands, cmd.Cmd):
    """The dialogue over one client."""

    def __init__(
        self,
        client: Client,
        user: str,
        is_typed: bool,
        stops: bool = False,
        begin_lab: Callable[[], Lab] = found_lab,
    ) -> None:
        """`is_typed` says that a person types; else the lines are a script, which a refusal ends
        where it `stops`. `begin_lab` starts an estlab.
        """
        super().__init__()
        self.client, self.is_typed, self.stops = client, is_typed, stops
        self.begin_lab, self.explorers = begin_lab, {}
        self.pending: Dict[int, List[str]] = {}  # what was offered here since a slot's last step
        self.slot = 0  # that of `use`
        self.names: Dict[str, int] = {}  # of slots, for their numbers
        self.modules: Dict[
            int, Module
        ] = {}  # the module that runs in a slot, as far as it is known here
        self.texts: Dict[int, LibraryText] = {}  # and its text
        self.sets: Dict[str, SeparationSet] = {}  # separation sets that were made here
        self.told: Dict[str, Set[str]] = {
            "user": {"root"},
            "role": {"root"},
            "name": set(),
        }  # to complete
        self.user, self.line, self.refused = user, 0, 0
        self.set_prompt(user)

    def set_prompt(self, user: str) -> None:
        self.user = user
        named = [name for name, slot in self.names.items() if slot == self.slot]
        slot = f" {(named or [str(self.slot)])[0]}" if named or self.slot else ""
        self.prompt = f"{user}{slot}> " if self.is_typed else ""

    # One line.

    def onecmd(self, line: str) -> bool:
        """Does what a line says, and tells what became of it. True ends the dialogue."""
        self.line += line != "EOF"
        written = without_comment(line)
        try:
            if ";" in written and not self.is_try(written):
                return self.make_instants(written)
            return bool(super().onecmd(numbered(written, self.help_of, self.names)))
        except Refusal as refusal:
            return self.tell_wrong("\n".join(self.refusal_lines(refusal)))
        except Placed as fault:
            return self.tell_wrong("the module text is refused", f"{fault}\n")
        except (Usage, Failed, CannotBeSent, TimedOut) as fault:
            return self.tell_wrong(str(fault))

    def is_try(self, written: str) -> bool:
        """Whether a line is a `try`, and no instant of a signal of that name."""
        return written.split()[0] == "try" and "try" not in self.inputs_here()

    def tell_wrong(self, text: str, placed: str = "") -> bool:
        """Tells what went wrong, in a script with the line's number: after what begins with a place
        of its own.

        Answers whether the dialogue ends with it.
        """
        self.refused += 1
        if self.is_typed:
            colours, place = Colours(sys.stdout), placed.rstrip("\n")
            print(colours.of_fault(place) or colours.word(text, False), flush=True)
        else:
            print(f"{placed}line {self.line}: {text}", flush=True)
        return self.stops and not self.is_typed

    def refusal_lines(self, refusal: Refusal) -> List[str]:
        """What is said of a refusal: by its module's text, as far as that is known here."""
        slot = refusal.command.get("slot", -1)
        module, chain = self.modules.get(slot), []
        if refusal.fault == "Stuck" and module and slot in self.texts:
            chain = self.stuck_lines(slot, self.pending.get(slot, ()))
        relations = module.relations if module else ()
        if refusal.fault == "UnknownSignal" and module:
            chain = [meant(str(refusal.command.get("signal")), module.inputs())]
        if refusal.fault == "NoSession" and self.user:
            chain = [f"the session of {self.user} has ended: `logout`, then `login`"]
        elif refusal.fault == "NoSession" and refusal.command.get("cmd") != "logout":
            chain = ["`login USER ROLE..` begins a session"]
        if refusal.fault in OF_NO_INPUT and module and "signal" in refusal.command:
            chain = [no_input(module, refusal.command["signal"])]
        if refusal.fault == "Permission" and not self.client.roles:
            chain = ["no role is active: `activate ROLE` makes one so"]
        if refusal.fault in UNKNOWN:
            field, kind = UNKNOWN[refusal.fault]
            chain = [meant(str(refusal.fields.get(field)), sorted(self.told[kind]))]
        if refusal.command.get("cmd") == "activate":
            asked = [*self.client.roles, refusal.command["role"]]
            refusal.command = {**refusal.command, "roles": asked}
        return [sentence(refusal, relations, self.sets), *filter(None, chain)]

    def wrong_grant(self, keys: Dict[str, Any]) -> str:
        """What is said of a permission that is of no use, as far as that is known here. Empty where it
        is of some.
        """
        from .applying import of_no_use, wrong_permission

        slot, _, signal = keys["object"].partition(".")
        useless = of_no_use(keys)
        if useless:
            return f"; {useless}"
        module = self.modules.get(int(slot)) if signal else None
        wrong = wrong_permission(keys["op"], signal, module.kinds()) if module else None
        return f"; {module.name} there {wrong}" if module and wrong else ""

    def no_command(self, name: str) -> str:
        """What is said of a word that is no command."""
        if name in self.inputs_here():
            return f"there is no command {name}: a line with `;` is an instant, as `{name};`"
        question = "did you mean `quit`?" if name == "exit" else meant(name, self.commands())
        return f"there is no command {name}: {question or 'help lists them'}"

    def emptyline(self) -> bool:
        return False

    def default(self, line: str) -> bool:  # type: ignore[override]
        name, words = (line.split(None, 1) + [""])[:2]
        if name == "EOF":
            print(end="\n" if self.prompt else "")
            return True
        if name not in PLAIN:
            raise Usage(self.no_command(name))
        if name == "offer" and OF_A_SLOT.fullmatch(words):
            apart = words.replace(".", " ")
            raise Usage(f"expected: [SLOT] SIGNAL, two words, as `offer {apart}`")
        keys = command_keys(name, words, self.slot)
        if name in UNDONE and SPREAD.fullmatch(keys["object"]):
            self.spread(name, keys)
            return False
        self.client.ask(name, **keys)
        if name == "offer":
            self.note_pending(keys["slot"], [keys["signal"]])
        if name == "discard":
            self.pending.pop(keys["slot"], None)
        for key, word in keys.items():
            self.told.get("role" if key in ROLES else key, set()).add(str(word))
        wrong = self.wrong_grant(keys) if name == "grant" else ""
        print(PLAIN[name].said.format(**keys) + wrong)
        return False

    def spread(self, name: str, keys: Dict[str, Any]) -> None:
        """Grants or revokes for each signal that a pattern as `0.*` means, as policy files have it.
        Raises Usage, Refusal.
        """
        slot, _, pattern = keys["object"].partition(".")
        module = self.modules.get(int(slot))
        if module is None:
            raise Usage(UNKNOWN_TEXT.format(slot, slot))
        names = module.inputs() if keys["op"] == "offer" else list(module.kinds())
        objects = [f"{slot}.{signal}" for signal in names if fits(signal, pattern)]
        if not objects:
            raise Usage(f"{module.name} has no signal that {keys['object']} fits")
        for object in objects:
            try:
                self.client.ask(name, **{**keys, "object": object})
            except Refusal as refusal:
                if refusal.fault != UNDONE[name]:
                    raise
        print(PLAIN[name].said.format(**{**keys, "object": " ".join(objects)}))

    # Instants.

    def make_instants(self, line: str) -> bool:
        """Offers the names of each instant of a line, steps, and shows what came out. A refusal
        ends the line.
        """
        for names in names_of_line(line):
            try:
                print(self.instant_line(self.slot, self.client.instant(self.slot, names)))
            except Refusal as refusal:
                name = refusal.command.get("signal")
                offered = names[: names.index(name)] if name in names else names
                self.note_pending(self.slot, offered)
                raise Failed(self.refused_instant(refusal, offered)) from refusal
            self.pending.pop(self.slot, None)
        return False

    def note_pending(self, slot: int, names: Iterable[str]) -> None:
        """Notes what was offered in a slot."""
        listed = self.pending.setdefault(slot, [])
        listed += [name for name in names if name not in listed]

    def refused_instant(self, refusal: Refusal, offered: Tuple[str, ...]) -> str:
        """What is said of an instant that was refused: what was offered for it stays pending."""
        name = refusal.command.get("signal")
        first, *more = self.refusal_lines(refusal)
        first = f"{name}: {first}" if name else first
        if name in self.commands() and name not in self.inputs_here():
            first, more = f"{first}; `{name}` is a command, which stands on a line without `;`", []
        if refusal.fault in ("Empty", "NoSlot"):
            first += f" (slot {self.slot}; `use` names another)"
        elif offered:
            stay = "stays" if len(offered) == 1 else "stay"
            first += f"; {' '.join(offered)} {stay} pending" + self.taken_away(refusal)
        return "\n".join([first, *more])

    def taken_away(self, refusal: Refusal) -> str:
        """What is said of how pending inputs are taken away: nothing to who may not step, and so not
        discard either.
        """
        is_denied = refusal.fault == "Permission" and refusal.command.get("cmd") == "step"
        return "" if is_denied else ": discard takes that away"

    def instant_line(self, slot: int, instant: Instant) -> str:
        """What is said of an instant: its outputs and inputoutputs, or all that was present where
        the module isn't known here.
        """
        told = f"instant {instant.number}"
        if not instant.signals:
            return told
        module = module_for(self.modules.get(slot), slot, list(instant.signals))
        names = module.outputs()
        shown = present_of(names, instant.signals)
        if slot not in self.modules or module is not self.modules[slot]:
            return f"{told}: present: {shown or 'nothing'}"
        return f"{told}: {shown or 'no output'}"

    # Help and completion.

    def commands(self) -> List[str]:
        """The names of all commands."""
        return sorted(
            [name[3:] for name in self.get_names() if name.startswith("do_")] + list(PLAIN)
        )

    def help_of(self, name: str) -> str:
        """The line of help for a command: its words, and what it does. Empty where there is no such
        command.
        """
        if name in PLAIN:
            words = " ".join(KEYS[name]).upper().replace("SLOT", "[SLOT]")
            return f"{name} {words}: {PLAIN[name].does}"
        written = getattr(self, f"do_{name}").__doc__ if name in self.commands() else ""
        return str(written).split("\n")[0]

    def completenames(self, text: str, *_: Any) -> List[str]:
        return [
            name + " " for name in self.commands() + self.inputs_here() if name.startswith(text)
        ]

    def complete_help(self, *words: Any) -> List[str]:
        return [name + " " for name in self.commands() if name.startswith(words[0])]

    def completedefault(self, *words: Any) -> List[str]:
        """What the word at this place of a line may be: `words` are it, the line, and its place."""
        text, line, begin = words[:3]
        if not self.help_of(line.split()[0]):
            return sorted(name + " " for name in self.inputs_here() if name.startswith(text))
        name, *before = line[:begin].split()
        before = [str(self.names.get(word, word)) for word in before]
        asked = self.help_of(name).partition(":")[0].split()[1:]
        if not asked:
            return []
        key = asked[min(len(before), len(asked) - 1)].strip("[].").lower()
        found = [word for word in self.words_for(key, before, text) if word.startswith(text)]
        return sorted(
            word + ("/" if key == "file" and os.path.isdir(word) else " ") for word in found
        )

    def inputs_here(self) -> List[str]:
        """What can be offered to the module in the slot of `use`, as far as it is known here."""
        module = self.modules.get(self.slot)
        return module.inputs() if module else []

    def words_for(self, key: str, before: List[str], text: str) -> Iterable[str]:
        """The words that may stand for a key of a command, after the words before it."""
        slots = [*self.names, *(str(slot) for slot in self.modules or range(SLOTS))]
        if key == "file":
            return glob.glob(glob.escape(text) + "*")
        if key == "op":
            return OPERATIONS
        if key == "slot":
            return slots
        if key == "object":
            return ["policy", *slots, *self.signals_for(before[-1] if before else "", slots)]
        if key == "signal":
            known = {str(slot): module for slot, module in self.modules.items()}
            return known[before[0]].inputs() if before[:1] and before[0] in known else []
        return self.told.get("role" if key in ROLES else key, ())

    def signals_for(self, op: str, slots: Iterable[str]) -> List[str]:
        """The signals of these slots on which an operation can be done, as objects."""
        known = {str(slot): module for slot, module in self.modules.items()}
        called = {slot: known.get(str(self.names.get(slot, slot))) for slot in slots}
        return [
            f"{slot}.{name}"
            for slot, module in called.items()
            if module and op in OF_SIGNALS
            for name in (module.inputs() if op == "offer" else module.kinds())
        ]

    def do_help(self, line: str) -> None:
        """help [COMMAND]: says what a command does, or lists them all"""
        for name in line.split() or self.commands():
            if not self.help_of(name):
                raise Usage(self.no_command(name))
            print(f"  {self.help_of(name)}")
        if not line:
            print(LEGEND)

    def do_quit(self, line: str) -> bool:
        """quit: logs out and ends, as Ctrl-D does"""
        keys_of((), line)
        return True

    # The session and the policy.

    def do_login(self, line: str) -> None:
        """login USER ROLE..: begins a session of the user with these roles, after a logout"""
        user, *roles = line.split() or [""]
        if not user:
            raise Usage("expected: USER ROLE..")
        print(f"session {self.client.login(user, roles)['session']} of {user}")
        self.set_prompt(user)

    def do_logout(self, line: str) -> None:
        """logout: ends the session"""
        keys_of((), line)
        try:
            self.client.logout()
        except Refusal as refusal:
            if refusal.fault == "NoSession":
                self.set_prompt("")
            raise
        print("logged out")
        self.set_prompt("")

    def do_dsd(self, line: str) -> None:
        """dsd NAME COUNT ROLE..: keeps roles apart: no session may have COUNT or more of them"""
        name, count, *roles = line.split() if len(line.split()) > 2 else ("", "0")
        if not roles:
            raise Usage("expected: NAME COUNT ROLE..")
        self.client.dsd(name, roles, number_of(count))
        self.told["name"].add(name)
        self.sets[name] = number_of(count), roles
        print(f"no session may have {count} of {' '.join(roles)}")

    def do_check(self, line: str) -> None:
        """check OP OBJECT: tells whether you may do the operation on the object"""
        keys = command_keys("check", line)
        print("yes" if self.client.check(**keys)["allowed"] else "no")

    # The slots.

    def do_use(self, line: str) -> None:
        """use SLOT: makes the slot the one that is meant where none is named"""
        slot = keys_of(("slot",), line)["slot"] if line else None
        if slot is None or slot >= SLOTS:
            raise Usage(f"expected: SLOT, from 0 to {SLOTS - 1}")
        self.slot = slot
        self.set_prompt(self.user)
        print(f"slot {slot}")

    def do_names(self, line: str) -> None:
        """names [FILE]: takes the names of slots that a policy file gives; they stand for numbers"""
        if line:
            self.take_names(names_of(keys_of(("file",), line)["file"]))
        told = [f"{name} is slot {slot}" for name, slot in self.names.items()]
        print("\n".join(told) or "no slot has a name")

    def take_names(self, names: Dict[str, int]) -> None:
        """Has these names stand for slots."""
        self.names = names
        self.set_prompt(self.user)

    def module_of(self, line: str) -> Tuple[int, LibraryText, Module]:
        """The slot, the text and the module that a line names. Raises Usage, Failed."""
        words = line.split()
        if words and not words[0].isdigit():
            words.insert(0, str(self.slot))
        if len(words) < 2:
            raise Usage("expected: [SLOT] FILE.. [MODULE]")
        main = words.pop() if len(words) > 2 and IDENTIFIER.fullmatch(words[-1]) else None
        slot, library = number_of(words[0]), read_library(words[1:])
        return slot, library, main_of(library.text, main)

    def keep(self, slot: int, library: LibraryText, module: Module) -> None:
        self.modules[slot], self.texts[slot] = module, library
        self.forget(slot)

    def do_load(self, line: str) -> None:
        """load [SLOT] FILE.. [MODULE]: loads a module of the files into the slot"""
        slot, library, module = self.module_of(line)
        try:
            self.client.load(slot, module.name, library.text)
        except Refusal as refusal:
            if refusal.code in OF_TEXTS:
                raise load_fault(refusal, library, module.name) from refusal
            raise
        self.keep(slot, library, module)
        print(f"{module.name} runs in slot {slot}")

    def do_module(self, line: str) -> None:
        """module [SLOT] FILE.. [MODULE]: tells the shell which text another client has loaded"""
        slot, library, module = self.module_of(line)
        wrong = no_module(library, module.name)
        if wrong:
            raise Failed(wrong)
        self.keep(slot, library, module)
        kinds = [kind for kind in KINDS if kind not in RARE or module.of_kind(kind)]
        told = [f"{kind}s {' '.join(module.of_kind(kind)) or 'none'}" for kind in kinds]
        print(f"{module.name}: {', '.join(told)}")

    def do_unload(self, line: str) -> None:
        """unload [SLOT]: takes the module out of the slot, with its instants"""
        slot = keys_of(("slot",), line, self.slot)["slot"]
        self.client.unload(slot)
        self.modules.pop(slot, None)
        self.texts.pop(slot, None)
        self.pending.pop(slot, None)
        self.forget(slot)
        print(f"slot {slot} is empty")

    def do_step(self, line: str) -> None:
        """step [SLOT]: makes the next instant of what is pending, and shows what came out"""
        slot = keys_of(("slot",), line, self.slot)["slot"]
        print(self.instant_line(slot, self.client.instant(slot)))
        self.pending.pop(slot, None)

    def do_audit(self, line: str) -> None:
        """audit [SLOT]: tells how many entries its journal has, and how many instants there were"""
        answer = self.client.audit(keys_of(("slot",), line, self.slot)["slot"])
        counted = instants_told(answer["instants"])
        print(f"{answer['entries']} entries, {counted} since the load")

    def do_look(self, line: str) -> None:
        """look [SLOT] INSTANT: shows the signals that you may observe; A=0: A was absent"""
        answer = self.client.look(**command_keys("look", line, self.slot))
        told = [name + ("" if present else "=0") for name, present in answer["signals"]]
        print(" ".join(told) or "nothing that you may observe")

    # Pictures.

    def seen_of(self, line: str) -> Seen:
        """What may be seen of the instants of the slot that a line names."""
        slot = keys_of(("slot",), line, self.slot)["slot"]
        return see_slot(self.client, slot, self.modules.get(slot))

    def do_show(self, line: str) -> None:
        """show [SLOT]: shows all instants so far as a table"""
        seen = self.seen_of(line)
        print("\n".join(table_lines(seen)) if seen.signals else nothing_of(seen))

    def do_wave(self, line: str) -> None:
        """wave [SLOT]: shows all instants so far as waves"""
        seen = self.seen_of(line)
        print("\n".join(waves_for(sys.stdout, seen)) if seen.signals else nothing_of(seen))

    def do_vcd(self, line: str) -> None:
        """vcd [SLOT] FILE: writes all instants so far into a VCD file, for a viewer of waves"""
        keys = keys_of(("slot", "file"), line, self.slot)
        seen = self.seen_of(str(keys["slot"]))
        module, library = self.modules.get(keys["slot"]), self.texts.get(keys["slot"])
        if library and module and module.name == seen.module:
            seen.scopes = scopes_of(library.text, module.name)
        write_vcd(keys["file"], seen)
        print(f"{instants_told(len(seen.instants))} in {keys['file']}")

    def do_watch(self, line: str) -> None:
        """watch [SLOT]: shows new instants as they come, until Ctrl-C"""
        slot = keys_of(("slot",), line, self.slot)["slot"]
        try:
            self.watch(slot)
        except KeyboardInterrupt:
            print()

    def watch(self, slot: int) -> None:
        """Shows the instants of a slot, and then asks for new ones again and again. An interrupt
        ends it.

        The last instant that was shown is asked for too: where it isn't there, the slot was loaded
        anew.
        """
        shown, wide, is_headed = 0, 0, False
        while True:
            seen = see_slot(self.client, slot, self.modules.get(slot), max(shown, 1))
            if shown and not seen.instants:
                print(f"slot {slot} was loaded anew", flush=True)
                shown, is_headed = 0, False
                continue
            new = Seen(
                seen.module, seen.signals, seen.instants[1:] if shown else seen.instants, shown + 1
            )
            table = Table(new, wide)
            table.widen(new.instants)
            wide = table.wide
            lines = [] if is_headed else [table.head()]
            lines += table.rows(shown + 1, new.instants)
            print("".join(told + "\n" for told in lines), end="", flush=True)
            shown, is_headed = shown + len(new.instants), True
            time.sleep(WATCHED)


def talk(dialogue: Shell, client: Client) -> None:
    """The dialogue up to its end. An interrupt of a script is raised; one of a person's line is
    not.
    """
    while True:
        try:
            dialogue.cmdloop()
            return
        except KeyboardInterrupt:
            if not dialogue.is_typed:
                raise
            print("\ninterrupted; the command may have been carried out" if client.is_owed else "")


def shell(arguments: argparse.Namespace) -> int:
    """A dialogue as the user that the arguments name, until the end of standard input. Answers the
    status: 1 where a line of a script was refused. Raises Failed, Refusal, Disconnected, NotText.
    """
    is_typed = sys.stdin.isatty()
    names = names_of(arguments.names) if arguments.names else {}
    lines = keeping_history() if is_typed else contextlib.nullcontext()
    with lines, session_of(arguments) as (client, answer):
        roles = " ".join(roles_of(arguments)) or "no role"
        told = f"session {answer['session']} of {arguments.user}, with {roles}"
        print(f"{told}; help lists the commands")
        begin = functools.partial(lab_beside, arguments)
        dialogue = Shell(client, arguments.user, is_typed, arguments.stop, begin)
        dialogue.take_names(names)
        try:
            talk(dialogue, client)
        finally:
            dialogue.forget_all()
    return int(bool(dialogue.refused and not is_typed))
