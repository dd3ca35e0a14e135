"""Does something again when one of some files is saved."""
from __future__ import annotations

import os
import sys
import time
from typing import Callable, List, Optional, Sequence, Tuple

from .connection import CannotBeSent, Disconnected, Refusal, TimedOut
from .messages import TELLER
from .texts import Failed, Interrupted

LOOKED = 0.2  # seconds between two looks at the files
Stamp = Optional[Tuple[int, int, int]]


def stamp_of(path: str) -> Stamp:
    """What changes when a file is saved; None while it isn't there."""
    try:
        found = os.stat(path)
    except OSError:
        return None
    return found.st_mtime_ns, found.st_size, found.st_ino


def stamps_of(paths: Sequence[str]) -> List[Stamp]:
    return [stamp_of(path) for path in paths]


def do_once(act: Callable[[], None]) -> None:
    """Does it, and tells what went wrong. An interrupt in the middle ends the watch too."""
    try:
        act()
    except Interrupted:
        raise
    except (Failed, Refusal, Disconnected, CannotBeSent, TimedOut) as fault:
        TELLER.tell(fault)
    sys.stdout.flush()


def watch_files(paths: Sequence[str], act: Callable[[], None]) -> None:
    """Does it at once, and again whenever one of the files is saved, until Ctrl-C."""
    try:
        while True:
            before = stamps_of(paths)
            do_once(act)
            wait_for_change(paths, before)
            now = stamps_of(paths)
            saved = [path for path, old, new in zip(paths, before, now) if old != new]
            print(f"-- {' '.join(saved)} saved at {time.strftime('%H:%M:%S')} --", flush=True)
    except Interrupted as fault:
        TELLER.tell(fault)
    except KeyboardInterrupt:
        print(flush=True)


def wait_for_change(paths: Sequence[str], before: List[Stamp]) -> None:
    """Waits until a file is another one, and until two looks at all of them agree: a save may take
    two steps.
    """
    last = before
    while True:
        time.sleep(LOOKED)
        now = stamps_of(paths)
        if now != before and now == last and None not in now:
            return
        last = now
