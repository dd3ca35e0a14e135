#!/usr/bin/env python3
"""Makes the package: out/package/estserve_VERSION_amd64.deb, a .tar.xz of the same tree, and PROOF.json beside them.

usage: package.py [--log FILE] [--program PATH] [--lab PATH] [--library PATH] [--to FOLDER]

FILE is the log of a run of `rt ci` on this commit in which all passed; then the programs are crates/estserve/out/estserve and
crates/estlab/out/estlab, which that run or `make build` has built, and the library for C is the one that `make library` has built. Without a
log the package is named estserve-unproved, and its client says so at --version; its program is PATH, or the one of crates/estserve/out, or
one that is built without proof; estlab and the library are those of --lab and --library, or those that are built, or none. The files have
the commit's time, so the same tree and log give the same bytes.
"""
import argparse
import gzip
import hashlib
import io
import json
import os
import pathlib
import shutil
import subprocess
import sys
import tarfile
import tempfile
import time

import evidence
import library
import trial
from crates import ROOT, say
from version import version

PROGRAM = ROOT / "crates" / "estserve" / "out" / "estserve"
LAB = ROOT / "crates" / "estlab" / "out" / "estlab"
LIBRARY = library.BUILT.with_name(library.NAME)
PARTS = ROOT / "packaging" / "debian"
SCRIPTS = ("postinst", "prerm", "postrm")
MAINTAINER = "Kifowable maintainers <maintainers@users.noreply.kifowable.example>"
NEEDS = "libc6 (>= 2.34), python3"
UNPROVED_NEEDS = f"{NEEDS}, libgcc-s1"  # the sanitizers of a program that is built without proof take it
EFFORT = 2  # of xz: more takes long, for a program that is built without proof, and saves little
VIM, VIM_PARTS = "esterel.vim", ("ftdetect", "ftplugin", "syntax")


class Package:
    """What is to be packed, and under which names."""

    def __init__(self, record, seconds):
        self.record, self.seconds = record, seconds
        self.name = "estserve" if record["proved"] else "estserve-unproved"
        self.file = f"{self.name}_{version()}_amd64"

    def fields(self, tree):
        """The words of the files of control."""
        relations = "" if self.record["proved"] else "Provides: estserve\nConflicts: estserve\nReplaces: estserve\n"
        return {
            "package": self.name,
            "version": version(),
            "maintainer": MAINTAINER,
            "kilobytes": sum(-(-path.lstat().st_size // 1024) for path in tree.rglob("*")),
            "depends": NEEDS if self.record["proved"] else UNPROVED_NEEDS,
            "relations": relations,
            "claim": "Its behaviour is proved." if self.record["proved"] else "This build is not proved.",
            "note": "" if self.record["proved"] else " (built without proof)",
        }


def program_without_a_log():
    """The program for a package that says nothing of proofs. Raises trial.CannotBuild."""
    if PROGRAM.exists():
        return PROGRAM
    return pathlib.Path(trial.running.words_of(trial.program())[-1])


def write(path, data, mode=0o644):
    path.parent.mkdir(parents=True, exist_ok=True)
    path.write_bytes(data if isinstance(data, bytes) else data.encode())
    path.chmod(mode)


def squeeze(path):
    """Packs a file as gzip does, under its name with .gz."""
    write(path.with_name(path.name + ".gz"), gzip.compress(path.read_bytes(), 9, mtime=0))
    path.unlink()


def part_of(name, package):
    """A file of packaging/debian, with the package's name."""
    return (PARTS / name).read_text().replace("{package}", package.name)


def copyright_text():
    """The licences, in the form that Debian reads."""
    licence = (ROOT / "LICENSE-MIT").read_text().partition("Permission is")
    lines = (licence[1] + licence[2]).splitlines()
    return (PARTS / "copyright").read_text() + "".join(f" {line or '.'}\n" for line in lines)


def changelog_text(package):
    """The list of changes, in the form that Debian reads."""
    date = time.strftime("%a, %d %b %Y %H:%M:%S +0000", time.gmtime(package.seconds))
    change = "  * The changes stand in CHANGELOG.md.gz beside this file."
    return f"{package.name} ({version()}) stable; urgency=medium\n\n{change}\n\n -- {MAINTAINER}  {date}\n"


def programs_of(words):
    """The programs to be packed, by their names. Raises trial.CannotBuild, and NoEvidence where one is not there."""
    program = PROGRAM if words.log else words.program or program_without_a_log()
    programs = {"estserve": program}
    lab = LAB if words.log else words.lab or LAB
    if words.log or words.lab or LAB.exists():
        programs["estlab"] = lab
    for path in programs.values():
        if not path.exists():
            raise evidence.NoEvidence(f"there is no program at {path}: make build proves and builds it")
    return programs


def libraries_of(words):
    """The libraries to be packed, by their names. Raises NoEvidence where one is not there."""
    path = LIBRARY if words.log else words.library or LIBRARY
    if path.exists():
        return {library.NAME: path}
    if words.log or words.library:
        raise evidence.NoEvidence(f"there is no library at {path}: make library proves and builds it")
    return {}


def lay_out(package, programs, libraries, tree):
    """Puts all files where they lie on the system, below a folder."""
    words = [ROOT / "clients" / "install", "/usr", *programs.values()]
    variables = {"DESTDIR": str(tree), "PYTHON_FOLDER": "python3/dist-packages", "PYTHON": "/usr/bin/python3"}
    variables["LIBRARY"] = "".join(str(path) for path in libraries.values())
    subprocess.run(words, check=True, stdout=subprocess.DEVNULL, env={**os.environ, **variables})
    usr = tree / "usr"
    for page in sorted((usr / "share" / "man").rglob("*.1")):
        squeeze(page)
    write(usr / "share/estserve/PROOF.json", json.dumps(package.record, indent=1) + "\n")
    documents = usr / "share" / "doc" / package.name
    write(documents / "copyright", copyright_text())
    write(documents / "changelog", changelog_text(package))
    write(documents / "CHANGELOG.md", (ROOT / "CHANGELOG.md").read_text())
    for name in ("changelog", "CHANGELOG.md"):
        squeeze(documents / name)
    write(usr / "share/lintian/overrides" / package.name, part_of("overrides", package))
    (documents / "examples").symlink_to("../../estserve/examples")
    shutil.move(usr / "share/zsh/site-functions", usr / "share/zsh/vendor-completions")
    for part in VIM_PARTS:
        link = usr / "share/vim/vimfiles" / part / VIM
        link.parent.mkdir(parents=True)
        link.symlink_to(f"../../../estserve/editors/vim/{part}/{VIM}")


def add_control(package, tree):
    """Adds what dpkg reads of the package."""
    fields = package.fields(tree)
    files = sorted(path for path in tree.rglob("*") if path.is_file() and not path.is_symlink())
    sums = [f"{hashlib.md5(path.read_bytes()).hexdigest()}  {path.relative_to(tree)}\n" for path in files]
    write(tree / "DEBIAN/md5sums", "".join(sums))
    write(tree / "DEBIAN/control", (PARTS / "control").read_text().format(**fields))
    for name in SCRIPTS:
        write(tree / "DEBIAN" / name, part_of(name, package), 0o755)


def settle(tree, seconds):
    """Gives each file and folder the commit's time, and each folder one mode."""
    for path in [tree, *tree.rglob("*")]:
        if path.is_dir() and not path.is_symlink():
            path.chmod(0o755)
        os.utime(path, (seconds, seconds), follow_symlinks=False)


def write_archive(package, tree, to):
    """Writes the tree into to/NAME.tar.xz, with its files under estserve-VERSION."""
    with tarfile.open(to / f"{package.file}.tar.xz", "w:xz", format=tarfile.GNU_FORMAT, preset=EFFORT) as archive:
        for path in sorted(tree.rglob("*")):
            told = archive.gettarinfo(path, f"{package.name}-{version()}/{path.relative_to(tree)}")
            told.uid = told.gid = 0
            told.uname = told.gname = "root"
            archive.addfile(told, io.BytesIO(path.read_bytes()) if told.isreg() else None)


def make(package, programs, libraries, to):
    """Makes all files of the package in a folder."""
    to.mkdir(parents=True, exist_ok=True)
    with tempfile.TemporaryDirectory(prefix="estserve-package-") as folder:
        tree = pathlib.Path(folder)
        lay_out(package, programs, libraries, tree)
        settle(tree, package.seconds)
        write_archive(package, tree, to)
        add_control(package, tree)
        settle(tree, package.seconds)
        words = ["dpkg-deb", "--root-owner-group", "-Zxz", f"-z{EFFORT}", "--threads-max=1", "--build", tree, to / f"{package.file}.deb"]
        subprocess.run(words, check=True, stdout=subprocess.DEVNULL, env={**os.environ, "SOURCE_DATE_EPOCH": str(package.seconds)})
        shutil.copy(tree / "usr/share/estserve/PROOF.json", to / "PROOF.json")


def main():
    parser = argparse.ArgumentParser(usage=__doc__.split("\n\n")[1].removeprefix("usage: "))
    parser.add_argument("--log")
    parser.add_argument("--program", type=pathlib.Path)
    parser.add_argument("--lab", type=pathlib.Path)
    parser.add_argument("--library", type=pathlib.Path)
    parser.add_argument("--to", type=pathlib.Path, default=ROOT / "out" / "package")
    words = parser.parse_args()
    os.umask(0o022)
    try:
        programs, libraries = programs_of(words), libraries_of(words)
        record = evidence.record(version(), programs, libraries, words.log)
        package = Package(record, int(evidence.said_by(*evidence.GIT, "log", "-1", "--format=%ct")))
    except (evidence.NoEvidence, trial.CannotBuild) as fault:
        say(f"no package: {fault}")
        return 1
    make(package, programs, libraries, words.to)
    print(words.to / f"{package.file}.deb")
    return 0


if __name__ == "__main__":
    sys.exit(main())
