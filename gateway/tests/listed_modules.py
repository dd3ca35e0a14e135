"""A gateway that lists its modules at SIGUSR1, in DIR/modules.json: all, and those of ours that
hold patterns.

usage: listed_modules.py team --state DIR ..
"""
from __future__ import annotations

import json
import pathlib
import re
import signal
import sys
import types

sys.path.insert(0, str(pathlib.Path(__file__).resolve().parents[2] / "clients"))
import estserve  # noqa: E402

OURS = ("estserve", "estserve_client", "estserve_team")


def has_patterns(module: types.ModuleType) -> bool:
    """Whether a module holds the library of patterns, or a pattern."""
    return any(value is re or isinstance(value, re.Pattern) for value in vars(module).values())


def tell(*_: object) -> None:
    """Lists the modules."""
    found = dict(sys.modules)
    ours = {name: one for name, one in found.items() if name.partition(".")[0] in OURS}
    told = {
        "all": sorted(found),
        "with_patterns": sorted(name for name, one in ours.items() if has_patterns(one)),
    }
    path = pathlib.Path(sys.argv[sys.argv.index("--state") + 1]) / "modules.json"
    path.with_suffix(".new").write_text(json.dumps(told))
    path.with_suffix(".new").rename(path)


if __name__ == "__main__":
    signal.signal(signal.SIGUSR1, tell)
    sys.exit(estserve.main())
