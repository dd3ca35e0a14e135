"""What PROOF.json says of a package: which commit, which proofs, which programs."""
import hashlib
import pathlib
import re
import subprocess

from crates import ROOT, libraries

PROVED = re.compile(r"^rt: (\w+) proved$", re.MULTILINE)
REFUSED = re.compile(r"^rt: must-fail (\w+/\w+\.edit): refused, as it must be", re.MULTILINE)
# a kit that keeps what it tried tells a kept edit as one that was tried, and its sum says how many were
TRIED = re.compile(r"^rt: ok; .*; done in this run: \d+ of the \d+ proofs \(of crates and of their tests\)( and (\d+) of the \d+ must-fail edits)?;", re.MULTILINE)
LAST = re.compile(r"^(\d+) passed, 0 failed$")
KIT = re.compile(r"(\S+) logic ([0-9a-f]{16})")
INPUTS = (".rt", ".antt", ".edit")
GIT = ("git", "-c", f"safe.directory={ROOT}")  # whoever owns the folder


class NoEvidence(Exception):
    """The package can't say that it is proved, for this reason."""


def digest_of(path):
    return hashlib.sha256(pathlib.Path(path).read_bytes()).hexdigest()


def said_by(*words):
    """What a command says on standard output. Raises NoEvidence where it can't be run or fails."""
    try:
        return subprocess.run(words, cwd=ROOT, capture_output=True, text=True, check=True).stdout.strip()
    except (OSError, subprocess.CalledProcessError) as fault:
        raise NoEvidence(f"{' '.join(words)} fails: {fault}") from fault


def inputs():
    """The files that the proofs are made of."""
    folders = [folder for folder in (ROOT / "crates").glob("*/*") if folder.name != "out"]
    files = [path for folder in folders for path in folder.rglob("*") if path.suffix in INPUTS]
    return sorted([ROOT / "crates.txt", ROOT / "HANDLES", *files])


def edits():
    """The wrong bodies, as `rt ci` names them."""
    return {f"{path.parent.parent.name}/{path.name}" for path in (ROOT / "crates").glob("*/must-fail/*.edit")}


def read_log(path, logic):
    """What a log of `rt ci` says. Raises NoEvidence where it isn't one of a run of this tree with this logic in which all passed."""
    text = pathlib.Path(path).read_text(errors="replace")
    last = text.rstrip("\n").rpartition("\n")[2]
    ended = LAST.match(last)
    if not ended:
        raise NoEvidence(f"{path} ends with '{last[:60]}', and not as `rt ci` does where all has passed")
    crates, wrong = set(libraries()), edits()
    if int(ended[1]) != len(crates) + len(wrong):
        raise NoEvidence(f"{path} is of another tree: here are {len(crates)} crates and {len(wrong)} wrong bodies, and it ends with '{last}'")
    proved, refused = set(PROVED.findall(text)), set(REFUSED.findall(text))
    strange = sorted((proved - crates) | (refused - wrong) | (set(re.findall(r"\bsum=([0-9a-f]{16})\b", text)) - {logic}))
    if strange:
        raise NoEvidence(f"{path} is of another tree or another kit: it names {strange[0]}")
    told = TRIED.search(text)
    tried = int(told[2] or 0) if told else len(refused)
    return {
        "last_line": last,
        "proofs_done": len(proved),
        "proofs_kept": len(crates) - len(proved),
        "edits_done": tried,
        "edits_kept": len(wrong) - tried,
        "log_sha256": digest_of(path),
    }


def check_freshness(program):
    """Raises NoEvidence where the program was built before the last change, or changes are not in a commit."""
    built = pathlib.Path(program).stat().st_mtime
    newer = [path for path in inputs() if path.suffix != ".edit" and path.stat().st_mtime > built]
    if newer:
        raise NoEvidence(f"{program} is older than {newer[0].relative_to(ROOT)}: make build builds it anew")
    changed = said_by(*GIT, "status", "--porcelain", "--untracked-files=no")
    if changed:
        raise NoEvidence(f"there are changes that no commit has, which PROOF.json is to name: {changed.splitlines()[0]}")


def record(version, programs, built_libraries, log):
    """What PROOF.json is to hold of the programs and libraries, which are files by their names. Without a log it says that nothing was
    proved. Raises NoEvidence.
    """
    name, logic = KIT.fullmatch(said_by("rt", "version")).groups()
    found = {
        "version": version,
        "commit": said_by(*GIT, "rev-parse", "HEAD"),
        "proved": log is not None,
        "kit": name,
        "logic": logic,
        "programs": {program: digest_of(path) for program, path in programs.items()},
        "libraries": {name: digest_of(path) for name, path in built_libraries.items()},
        "inputs": {str(path.relative_to(ROOT)): digest_of(path) for path in inputs()},
    }
    if log is not None:
        for path in [*programs.values(), *built_libraries.values()]:
            check_freshness(path)
        found["rt_ci"] = read_log(log, logic)
    return found
