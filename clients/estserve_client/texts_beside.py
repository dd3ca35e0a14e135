"""Which module is run, and the texts that belong to a file beside them: `NAME.CASE.inputs` and
`NAME.CASE.claims` are of `NAME.strl`, where NAME goes up to the first full stop, with what it runs of
the texts beside it.
"""
from __future__ import annotations

import functools
import sys

from .module_text import main_of, modules_of
from .texts import Failed, read_library, read_text

TYPE_CHECKING = False
if TYPE_CHECKING:
    import pathlib
    from typing import List, Optional, Tuple

    from .module_text import Module


def roots_of(text: str) -> List[str]:
    """The modules of a text that none of them runs."""
    modules = modules_of(text)
    run = {name for module in modules for name in module.runs}
    return [module.name for module in modules if module.name not in run]


@functools.lru_cache(maxsize=None)
def tell_choice(chosen: str, others: Tuple[str, ...]) -> None:
    """Tells once that a module runs where others could be meant."""
    are = "is" if len(others) == 1 else "are"
    told = f"running {chosen}; {', '.join(others)} too {are} run by none: choose by --main"
    print(told, file=sys.stderr, flush=True)


def chosen_of(text: str, named: Optional[str]) -> Module:
    """The module of a text that is named, or the first that none runs; of several it is told."""
    module, roots = main_of(text, named), roots_of(text)
    others = [name for name in roots if name != module.name]
    if others and named is None and module.name in roots:
        tell_choice(module.name, tuple(others))
    return module


def lacking(texts: List[pathlib.Path]) -> List[str]:
    """The modules that those of these texts run, and that none of them has. Raises Failed."""
    modules = modules_of(read_library(texts).text)
    known = {module.name for module in modules}
    return [name for module in modules for name in module.runs if name not in known]


def texts_with(name: str, folder: pathlib.Path) -> List[pathlib.Path]:
    """The texts of a folder that have a module of this name. Raises Failed."""
    texts = [(path, read_text(path, "the module text")) for path in sorted(folder.glob("*.strl"))]
    return [path for path, text in texts if name in [one.name for one in modules_of(text)]]


def with_what_it_runs(own: pathlib.Path, how: str) -> List[pathlib.Path]:
    """A text, and those beside it that have the modules that it runs, and so on. Raises Failed, where
    several have one of them.
    """
    texts, wanted = [own], lacking([own])
    while wanted:
        found = texts_with(wanted[0], own.parent)
        if len(found) > 1:
            told = f"{' and '.join(path.name for path in found)} have a module {wanted[0]} each"
            raise Failed(f"{told}, which {own.name} runs: {how}")
        texts += found
        wanted = lacking(texts) if found else wanted[1:]
    return texts


def texts_beside(path: pathlib.Path, main: Optional[str], how: str) -> List[pathlib.Path]:
    """The module texts of a list of inputs or of claims: that of its name with what it runs, or else
    all of the folder, if the main module is named or only one is run by none. Raises Failed, which
    tells `how` to name it.
    """
    own = path.with_name(path.name.partition(".")[0] + ".strl")
    if own.exists():
        return with_what_it_runs(own, how)
    found = sorted(path.parent.glob("*.strl"))
    if not found:
        raise Failed(f"there is no {own.name}, and no other module text in {path.parent}")
    roots = [] if main else roots_of(read_library(found).text)
    if len(roots) > 1:
        told = f"there is no {own.name}, and several modules beside it are run by none"
        raise Failed(f"{told} ({', '.join(roots)}): {how}")
    return found
