#!/usr/bin/env python3
"""Runs a command with the program, built WITHOUT proof, in the variable ESTSERVE.

usage: trial.py [--lab] COMMAND [WORD ..]
       trial.py --path [estserve | estlab]

With --lab the program estlab is in the variable ESTLAB too. A program is built by `rt try`, and
kept in out/trial while no source changes: no file `crates/**/*.rt`, not crates.txt, not the kit.
Where its variable names a program already, that one is taken. Ends with the command's status; with
--path it builds the one program, which is estserve if none is named, where that is needed, and
prints where it lies.
"""
import hashlib
import os
import pathlib
import shlex
import shutil
import subprocess
import sys
import tempfile

ROOT = pathlib.Path(__file__).resolve().parent.parent
KEPT = ROOT / "out" / "trial"
MOST = 6  # programs are kept, the newest ones
NAMES = ("estserve", "estlab")
sys.path.insert(0, str(ROOT / "tests" / "socket"))
sys.dont_write_bytecode = True
import running  # noqa: E402


class CannotBuild(Exception):
    """There is no program, for this reason."""


def sources():
    """The files that the program is built of."""
    paths = sorted((ROOT / "crates").glob("**/*.rt"))
    return [
        ROOT / "crates.txt",
        *[path for path in paths if "out" not in path.relative_to(ROOT).parts],
    ]


def kit():
    """The version of the kit. Raises CannotBuild."""
    try:
        return subprocess.run(
            ["rt", "version"], stdin=subprocess.DEVNULL, capture_output=True
        ).stdout
    except OSError as fault:
        raise CannotBuild(f"rt cannot be started: {fault.strerror or fault}") from fault


def key():
    """What tells one program from another: a digest of its sources and of the kit's version. Raises
    CannotBuild.
    """
    digest = hashlib.sha256(kit())
    for path in sources():
        data = path.read_bytes()
        digest.update(f"{path.relative_to(ROOT)} {len(data)}\n".encode() + data)
    return digest.hexdigest()[:24]


def write_caller(words, path):
    """Writes a file that calls the program as these words do."""
    path.write_text(f'#!/bin/sh\nexec {shlex.join(words)} "$@"\n')
    path.chmod(0o755)


def built_lab(folder):
    """How to call the program estlab that `rt try` builds: it waits for a text, and its file is
    copied meanwhile. Raises CannotBuild.
    """
    text = folder / "text"
    os.mkfifo(text)
    trial = subprocess.Popen(
        ["rt", "try", "--", "prove", str(text), "--main", "M"],
        cwd=ROOT / "crates" / "estlab",
        start_new_session=True,
        stdin=subprocess.DEVNULL, stdout=subprocess.DEVNULL, stderr=subprocess.PIPE, text=True,
    )  # fmt: skip

    def caller():
        below = running.commands_below(trial.pid)
        fronts = [words[: words.index("prove")] for words in below if "prove" in words]
        return next((front for front in fronts if front and front[-1].endswith("/program")), None)

    found = running.wait_for(lambda: caller() or trial.poll() is not None, running.BUILD_SECONDS)
    if not isinstance(found, list):
        raise CannotBuild(f"the program could not be built: {trial.stderr.read()}")
    program = shutil.copy(found[-1], folder / "estlab")
    text.write_text("module M: nothing end module")
    trial.communicate()
    text.unlink()
    return [*found[:-1], str(program)]


def build(folder, name):
    """Builds a program, and puts it into this folder at once when it is whole. Raises
    CannotBuild.
    """
    print(
        f"The program {name} is built WITHOUT proof, which takes about a minute ..",
        file=sys.stderr,
        flush=True,
    )
    KEPT.mkdir(parents=True, exist_ok=True)
    with tempfile.TemporaryDirectory(dir=KEPT, prefix="building-") as path:
        made = pathlib.Path(path) / "made"
        made.mkdir()
        try:
            words = running.built_program(made) if name == "estserve" else built_lab(made)
        except (AssertionError, StopIteration) as fault:
            raise CannotBuild(str(fault) or "the program that was built was not found") from fault
        (made / "first").unlink(missing_ok=True)
        (made / name).rename(made / "program")
        write_caller([*words[:-1], str(folder / "program")], made / name)
        try:
            made.rename(folder)
        except OSError:  # another one has built it meanwhile
            if not folder.exists():
                raise


def drop_old():
    """Deletes all kept programs but the newest ones."""
    folders = [path for path in KEPT.iterdir() if not path.name.startswith("building-")]
    for path in sorted(folders, key=lambda path: path.stat().st_mtime, reverse=True)[MOST:]:
        shutil.rmtree(path, ignore_errors=True)


def program(name="estserve"):
    """The path of a program, which is built where it isn't kept. Raises CannotBuild."""
    if os.environ.get(name.upper()):
        return os.environ[name.upper()]
    folder = KEPT / (key() if name == "estserve" else f"{key()}-{name}")
    if not folder.exists():
        build(folder, name)
        drop_old()
    return str(folder / name)


def main():
    words = sys.argv[1:]
    if words[:1] == ["--path"] and set(words[1:]) <= set(NAMES):
        print(program(*words[1:]))
        return 0
    names = NAMES if words[:1] == ["--lab"] else NAMES[:1]
    command = words[len(names) - 1 :]
    if not command:
        print(__doc__, file=sys.stderr)
        return 2
    programs = {name.upper(): program(name) for name in names}
    return subprocess.run(command, env=dict(os.environ, **programs)).returncode


if __name__ == "__main__":
    try:
        sys.exit(main())
    except CannotBuild as fault:
        sys.exit(f"trial.py: {fault}")
    except KeyboardInterrupt:
        sys.exit(130)
