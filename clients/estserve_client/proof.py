"""The command `proof`: what the package says was proved of its programs and its library, and whether
those that are installed are the same.
"""
from __future__ import annotations

import argparse
import hashlib
import json
import os
import sys
from typing import Any, Dict, List, Optional

from .texts import Failed

NO_RECORD = "there is no PROOF.json here: it comes with the package"
SHOWS = """\
What this shows: whoever made the package says that these very programs were built from that
commit, all of whose proofs were judged by that kit. What it doesn't show: that they say the truth,
or that nobody changed programs and record together. To see for yourself: check out the commit, run
`rt ci` with that kit, make the package with the log, and compare; the same tree and the same log
give the same bytes."""
SAME = "the same"


def prefix() -> str:
    """The folder under which this command is installed."""
    return os.path.dirname(os.path.dirname(os.path.realpath(sys.argv[0])))


def read_record(path: Optional[str] = None) -> Optional[Dict[str, Any]]:
    """The record of the package, or None where there is none. Raises Failed."""
    path = path or os.path.join(prefix(), "share", "estserve", "PROOF.json")
    try:
        with open(path, encoding="utf-8") as file:
            return dict(json.load(file))
    except FileNotFoundError:
        return None
    except (OSError, ValueError) as fault:
        raise Failed(f"{path} cannot be read: {fault}") from fault


def version_suffix() -> str:
    """What the version says of a package whose programs were not proved."""
    record = read_record()
    return "" if record is None or record["proved"] else "-unproved"


def digest_of(path: str) -> Optional[str]:
    """The SHA-256 of a file, or None where it can't be read."""
    try:
        with open(path, "rb") as file:
            return hashlib.sha256(file.read()).hexdigest()
    except OSError:
        return None


def state_of(path: str, digest: str) -> str:
    """Whether the file that is installed there is the one with this SHA-256."""
    found = digest_of(path)
    if found is None:
        return "not there"
    return SAME if found == digest else "ANOTHER FILE"


def told_of_run(record: Dict[str, Any]) -> List[str]:
    """What the record says of the run that judged the proofs."""
    if not record["proved"]:
        return ["NOT PROVED: this package was made without a log of `rt ci`."]
    run = record["rt_ci"]
    return [
        f"Proved by {record['kit']}, of the logic {record['logic']}: "
        f"`rt ci` ended with '{run['last_line']}'.",
        f"Proofs: {run['proofs_done']} done in that run, {run['proofs_kept']} kept from earlier "
        f"ones. Wrong bodies: {run['edits_done']} refused in that run, {run['edits_kept']} kept.",
        f"SHA-256 of its log: {run['log_sha256']}",
    ]


def proof(arguments: argparse.Namespace) -> int:
    """Compares the programs with the record, and tells what that shows. Answers 1 where they are
    others, or not proved. Raises Failed.
    """
    record = read_record(arguments.record)
    if record is None:
        raise Failed(f"there is no {arguments.record}" if arguments.record else NO_RECORD)
    count = len(record["inputs"])
    print(f"estserve {record['version']}, commit {record['commit']}, of {count} files of proofs")
    print("\n".join(told_of_run(record)))
    states = []
    for folder, digests in (("bin", record["programs"]), ("lib", record.get("libraries", {}))):
        for name, digest in sorted(digests.items()):
            states.append(state_of(os.path.join(prefix(), folder, name), digest))
            print(f"{name}: {states[-1]} (SHA-256 {digest})")
    if record["proved"]:
        print(SHOWS)
    return 0 if record["proved"] and set(states) == {SAME} else 1
