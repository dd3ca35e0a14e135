"""The lines that a person typed into the shell, kept from one shell to the next."""
from __future__ import annotations

import contextlib
import os
import pathlib
from typing import Iterator

MOST = 2_000  # lines are kept


def history_path() -> pathlib.Path:
    """The file of the lines, in the folder for what a program keeps of its user."""
    state = os.environ.get("XDG_STATE_HOME", "")
    folder = pathlib.Path(state) if os.path.isabs(state) else pathlib.Path("~/.local/state")
    return folder.expanduser() / "estserve" / "shell_history"


@contextlib.contextmanager
def keeping_history() -> Iterator[None]:
    """Lets a person's lines have history and completion, where this Python has readline, and keeps
    them, where they can be.
    """
    try:
        import readline
    except ImportError:
        yield
        return
    readline.set_completer_delims(" \t\n")
    path = history_path()
    with contextlib.suppress(OSError, RuntimeError):
        readline.read_history_file(str(path))
    before = readline.get_current_history_length()
    try:
        yield
    finally:
        with contextlib.suppress(OSError, RuntimeError):
            path.parent.mkdir(mode=0o700, parents=True, exist_ok=True)
            os.close(os.open(path, os.O_CREAT | os.O_WRONLY, 0o600))
            readline.set_history_length(MOST)
            new = readline.get_current_history_length() - before
            readline.append_history_file(max(0, new), str(path))
            if before + new > MOST:
                readline.write_history_file(str(path))
