"""The faults of a text, as the proved program tells them: each module that no other runs is loaded
into a program of its own, and taken out again.
"""
from __future__ import annotations

from typing import Callable, Dict, List, Optional

from ..command_table import IDENTIFIER, OF_TEXTS
from ..connection import Client, Disconnected, NotText, Refusal, TimedOut, TooLong
from ..diagnosis import Diagnosis, Mark, diagnose_load
from ..library_text import LibraryText
from ..module_text import Module, main_of, modules_of
from ..scenarios import grants_of

OF_MAIN = ("Semantics", "TooLarge", "InstantLoop")  # faults that another main module needn't have
MOST = 16  # modules of a text are tried


class Checker:
    """Asks a program for the faults of texts."""

    def __init__(self, begin: Callable[[], Client]) -> None:
        """`begin` starts a program, and again when its journal is full."""
        self.begin = begin
        self.client: Optional[Client] = None

    def close(self) -> None:
        if self.client:
            self.client.close()
        self.client = None

    def ready(self) -> Client:
        """A program into whose slot 0 may be loaded. Raises Disconnected, Refusal."""
        if self.client is None:
            self.client = self.begin()
            self.client.login("root", ["root"])
            for grant in grants_of(Module("", [], [], [])):
                self.client.ask(**grant)
        return self.client

    def refusal_of(self, library: LibraryText, main: str) -> Optional[Refusal]:
        """The refusal of a load, for its text; None where it is loaded. Raises Disconnected,
        TooLong, NotText, Refusal.
        """
        for is_last in (False, True):
            client = self.ready()
            try:
                client.load(0, main, library.text)
                client.unload(0)
                return None
            except Refusal as refusal:
                if refusal.code in OF_TEXTS:
                    return refusal
                self.close()
                if is_last:
                    raise
        return None

    def faults_of(self, library: LibraryText) -> List[Diagnosis]:
        """What is wrong with a library. Raises Disconnected, TimedOut."""
        found: Dict[str, Diagnosis] = {}
        try:
            for main in mains_of(library):
                refusal = self.refusal_of(library, main)
                if refusal is None:
                    continue
                told = diagnose_load(refusal, library, main)
                found.setdefault(str(told.as_json()), told)
                if refusal.fault not in OF_MAIN:
                    break
        except (Disconnected, TimedOut):
            self.close()
            raise
        except (TooLong, NotText, Refusal) as fault:
            nowhere = Mark(library.paths[0], 1, 1, 0, "")
            return [Diagnosis("", f"the text can't be checked: {fault}", [nowhere])]
        return list(found.values())


def mains_of(library: LibraryText) -> List[str]:
    """The modules of the first file that no module of the library runs, or the one that is main."""
    modules = modules_of(library.text)
    run = {name for module in modules for name in module.runs}
    end = library.begins[1][1] if len(library.begins) > 1 else None
    own = "\n".join(library.text.split("\n")[: end - 1 if end else None])
    names = [module.name for module in modules_of(own) if module.name not in run]
    mains = list(dict.fromkeys(name for name in names if IDENTIFIER.fullmatch(name)))
    return mains[:MOST] or [main_of(library.text).name]
