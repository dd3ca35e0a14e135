#!/usr/bin/env python3
"""Checks that the documents keep up with the repository.

The lists of docs/generated are those that scripts/reading_list.py, wrong_bodies.py, contracts.py, crate_list.py and
stated_twice.py write, the last of which never gets longer;
each wrong body says why it is wrong, and each crate what it is; README.md has at most 100 lines; each function of the
walk in docs/ARCHITECTURE.md stands in its file; each refusal of docs/PROTOCOL.md has the number, name and keys of the crates' tables;
each function of tests/MISTAKES.md stands in the crate of its wrong body, and each crate that a wrong body names in crates.txt; each script of
examples/scripts has its answers and its row in examples/README.md, and the opening one is the stored run; each test
that docs/EXAMPLES.md names is written; each link leads to a file and a heading, and each quoted block stands in its
file; each name in back-ticks of the documents that speak of code is one, and each of a crate's head one of that crate; no line of code, definition or proof is too wide; docs/generated/LINES.md tells nearly as many lines as there are;
docs/DECISIONS.md has at most 40 short entries, which say what was rejected; no sentence is too long, and the documents
have no more words than scripts/words.py allows; and the version is the same wherever it stands.
Ends with status 1 after naming what differs.
"""

import pathlib
import re
import sys

ROOT = pathlib.Path(__file__).resolve().parent.parent
sys.path.insert(0, str(ROOT / "scripts"))
sys.dont_write_bytecode = True
import contracts  # noqa: E402
import crate_list  # noqa: E402
import proof_lines  # noqa: E402
import reading_list  # noqa: E402
import stated_twice  # noqa: E402
import version  # noqa: E402
import words  # noqa: E402
import wrong_bodies  # noqa: E402


README_LINES = 100  # at most
ENTRIES = 40  # of docs/DECISIONS.md, at most
ENTRY_WORDS = 72  # of an entry, at most
CODE_DOCUMENTS = ("CONTRIBUTING.md", "docs/ARCHITECTURE.md", "docs/GLOSSARY.md", "docs/PROOFS.md", "docs/THEOREM.md")  # whose names are of code
PROGRAM_WORDS = {"script", "serve", "run", "Stdin", "Stdout"}  # words of the command line, a statement of the language, types of the kit
WIDTHS = {".rt": 100, ".antt": 120}  # characters of a line, at most


def differing_tables():
    """A line for each list of docs/generated that its script would write otherwise."""
    faults = []
    for script in [reading_list, wrong_bodies, contracts, crate_list, stated_twice]:
        text = script.DOCUMENT.read_text()
        if script.written(text) != text:
            faults.append(f"{script.DOCUMENT.relative_to(ROOT)} is out of step: run scripts/{script.__name__}.py")
    return faults


def long_readme():
    """A line if README.md is too long to be read at once."""
    lines = len((ROOT / "README.md").read_text().splitlines())
    return [f"README.md has {lines} lines: at most {README_LINES}"] if lines > README_LINES else []


def faulty_decisions():
    """A line if docs/DECISIONS.md has too many entries, and one for each that is too long or words a rejected way otherwise."""
    lines = (ROOT / "docs/DECISIONS.md").read_text().splitlines()
    entries = [line for line in lines if line.startswith("- **")]
    faults = [f"docs/DECISIONS.md has {len(entries)} entries: at most {ENTRIES}"] if len(entries) > ENTRIES else []
    faults += [f"docs/DECISIONS.md: more than {ENTRY_WORDS} words in {line[:60]} .." for line in entries if len(line.split()) > ENTRY_WORDS]
    return faults + [f"docs/DECISIONS.md: Rejected: in place of Instead of: in {line[:60]} .." for line in entries if "Instead of:" in line]


def missing_sentences():
    """A line for each wrong body that doesn't say why it is wrong."""
    return [f"{edit} lacks its one line why:" for edit in wrong_bodies.without_why()]


def missing_functions():
    """A line for each function of the walk in docs/ARCHITECTURE.md that doesn't stand in its file."""
    text = (ROOT / "docs/ARCHITECTURE.md").read_text()
    faults = []
    for functions, name in re.findall(r"^\| \d+ \| (.*?) \| (crates/\S+) \|", text, re.MULTILINE):
        file = ROOT / name
        code = file.read_text() if file.exists() else ""
        for function in re.findall(r"`(\w+)`", functions):
            if not re.search(rf"\bfn {function}\b", code):
                faults.append(f"docs/ARCHITECTURE.md: no function {function} in {name}")
    return faults


def told_refusals():
    """The refusals by their numbers, as the tables of the crates say them: each name, and the keys that a line may have."""
    rows = {}
    for file in sorted((ROOT / "crates").glob("*/specs/Refusals.antt")):
        for row in re.split(r"^row_of ", file.read_text(), flags=re.MULTILINE)[1:]:
            found = re.search(r'tells (\d+) \(codes "(\w+)"\)([^-]*)', row.split("\n\n")[0])
            if found:
                number, name, keys = found.groups()
                rows.setdefault((int(number), name), set()).update(re.findall(r'codes "(\w+)"', keys))
    return rows


def differing_refusals():
    """A line for each refusal that docs/PROTOCOL.md and the crates' tables tell differently."""
    text = (ROOT / "docs/PROTOCOL.md").read_text()
    told = {
        (int(number), name): set(re.findall(r"`(\w+)`", keys))
        for number, name, keys in re.findall(r"^\| (\d+) \| ([A-Z]\w+) \|([^|]*)\|", text, re.MULTILINE)
    }
    rows = told_refusals()
    return [f"docs/PROTOCOL.md and the crates differ on {row}" for row in sorted(told.keys() | rows.keys()) if told.get(row) != rows.get(row)]


def misnamed_mistakes():
    """A line for each wrong body of tests/MISTAKES.md that is not there, or whose function is not in its crate."""
    faults = []
    for edit, functions in re.findall(r"^\| (?:`\w+` )?`(\w+)` \| (.*?) \|", (ROOT / "tests/MISTAKES.md").read_text(), re.MULTILINE):
        files = list((ROOT / "crates").glob(f"*/must-fail/{edit}.edit"))
        code = "".join(source.read_text() for file in files for source in file.parent.parent.glob("src/**/*.rt"))
        names = re.findall(r"`(?:\w+::)?(\w+)`", functions)
        faults += [f"tests/MISTAKES.md: {edit} lacks fn {name}" for name in names if not re.search(rf"\bfn {name}\b", code)]
    return faults


def unnamed_libraries():
    """A line for each crate of the repository that a wrong body names and crates.txt doesn't: such an edit never reaches the prover."""
    lines = [line.partition(":") for line in (ROOT / "crates.txt").read_text().splitlines() if line and not line.startswith("#")]
    named = {head.split()[0]: set(tail.split()) for head, _, tail in lines}
    faults = []
    for edit in sorted((ROOT / "crates").glob("*/must-fail/*.edit")):
        crate = edit.parent.parent.name
        bodies = "\n".join(re.findall(r"^new: (.*)$", edit.read_text(), re.MULTILINE))
        used = set(re.findall(r"(?<![\w:])([a-z_0-9]+)::", bodies)) & named.keys()
        faults += [f"crates.txt: {crate} lacks {library}, which {edit.name} names" for library in sorted(used - named[crate] - {crate})]
    return faults


def nameless_crates():
    """A line for each crate whose root file doesn't say what it is."""
    return [f"{crate}: its root file doesn't begin with what it is" for crate in crate_list.without_sentence()]


def faulty_examples():
    """What there is to say of the scripts."""
    folder = ROOT / "examples/scripts"
    readme = (ROOT / "examples/README.md").read_text()
    scripts = {file.name for file in folder.iterdir() if file.suffix != ".stdout"}
    answers = {file.stem for file in folder.glob("*.stdout")}
    rows = set(re.findall(r"^\| \[[^\]]*\]\(scripts/([^)]*)\)", readme, re.MULTILINE))
    faults = [f"examples/scripts/{name} has no answers" for name in sorted(scripts - answers)]
    faults += [f"examples/scripts/{name}.stdout answers no script" for name in sorted(answers - scripts)]
    faults += [f"examples/README.md does not say what {name} shows" for name in sorted(scripts - rows)]
    for name, stored in [("opening", "stdin"), ("opening.stdout", "stdout")]:
        if (folder / name).read_text() != (ROOT / "crates/estserve" / stored).read_text():
            faults.append(f"examples/scripts/{name} is not crates/estserve/{stored}")
    return faults


def code_of_tests():
    """What may define a test: the crates' code, and all of tests, clients and gateway."""
    files = [*ROOT.glob("crates/*/src/**/*.rt"), *ROOT.glob("tests/**/*"), *ROOT.glob("clients/**/*.py"), *ROOT.glob("gateway/**/*.py")]
    return "\n".join(file.read_text() for file in files if file.suffix in {".rt", ".py", ""} and file.is_file())


def missing_tests():
    """A line for each test, table or file that docs/EXAMPLES.md names in a row, and that isn't there."""
    table = (ROOT / "docs/EXAMPLES.md").read_text().partition("\n## Which test shows what\n")[2]
    rows = re.findall(r"^\| .* \| ([^|]+) \|$", table, re.MULTILINE)
    if not rows:
        return ["docs/EXAMPLES.md has no table of tests"]
    named = {name for row in rows for name in re.findall(r"`(\w+)`", row)}
    code = code_of_tests()
    defined = set(re.findall(r"\b(?:fn|const|def|class) (\w+)", code))
    known = {file.name for folder in ["crates", "examples/scripts", "tests/dialogues"] for file in (ROOT / folder).iterdir()}
    known |= {"stdout", *(file.stem for pattern in ("tests/*/*.py", "gateway/tests/*.py") for file in ROOT.glob(pattern))}
    files = {name for row in rows for name in re.findall(r"\bsrc/\S+?\.rt|\btest_\w+\.py", row)}
    faults = [name for name in files if not any(ROOT.glob(f"*/*/{name}"))]
    return [f"docs/EXAMPLES.md: no {name}" for name in sorted([*(named - defined - known), *faults])]


def stale_quotes(document):
    """A line for each block that the document quotes from a file in which it doesn't stand."""
    faults = []
    for name, block in re.findall(r"<!-- quoted: (\S+) -->\n```\n(.*?)```", document.read_text(), re.DOTALL):
        file = ROOT / name
        if not file.exists() or block not in file.read_text():
            faults.append(f"{document.relative_to(ROOT)}: {name} has no lines {block.splitlines()[0].strip()} ..")
    return faults


def broken_links(document):
    """A line for each link of the document that leads to no file."""
    targets = re.findall(r"\]\(([^)#:]+)\)", document.read_text())
    return [
        f"{document.relative_to(ROOT)}: no file {target}"
        for target in targets
        if not (document.parent / target).exists()
    ]


def anchors(document):
    """The names by which links lead to the document's headings."""
    headings = re.findall(r"^#+ (.+)$", document.read_text(), re.MULTILINE)
    return {re.sub(r"[^\w\- ]", "", heading.lower()).replace(" ", "-") for heading in headings}


def broken_anchors(document):
    """A line for each link of the document that leads to no heading of a document."""
    targets = re.findall(r"\]\(([^)#:\s]*)#([^)\s]+)\)", document.read_text())
    files = [(document.parent / target if target else document, anchor) for target, anchor in targets]
    return [
        f"{document.relative_to(ROOT)}: no heading {anchor} in {file.name}"
        for file, anchor in files
        if file.suffix == ".md" and file.exists() and anchor not in anchors(file)
    ]


def is_attribute(line):
    """Whether the line is an attribute, which may be of any width: `rt fmt` puts each on one line."""
    return line.lstrip().startswith("#[") and line.endswith("]")


def wide_lines():
    """A line for each line of code, definition or proof that is wider than it may be."""
    files = [*ROOT.glob("crates/*/src/**/*.rt"), *ROOT.glob("crates/*/[sp]*/**/*.antt")]
    lines = [
        (file.relative_to(ROOT), number, line)
        for file in sorted(files)
        for number, line in enumerate(file.read_text().split("\n"), 1)
    ]
    return [
        f"{file}:{number}: {len(line)} characters, and at most {WIDTHS[file.suffix]} in {file.suffix}"
        for file, number, line in lines
        if len(line) > WIDTHS[file.suffix] and not is_attribute(line)
    ]


def words_of_code(folders, suffixes=(".rt", ".antt")):
    """The words of the files in these folders, without the lines that are comments."""
    lines = [line for folder in folders for file in sorted(folder.rglob("*")) if file.suffix in suffixes for line in file.read_text().splitlines()]
    return set(re.findall(r"\w+", "\n".join(line for line in lines if not line.lstrip().startswith(("//", "--")))))


def stale_names():
    """A line for each name in back-ticks that nothing has any more: in the documents of CODE_DOCUMENTS, and in the heads of crates."""
    crates = sorted(folder for folder in (ROOT / "crates").iterdir() if (folder / "src").is_dir())
    shared = set(re.findall(r"\w+", (ROOT / "crates.txt").read_text())) | {file.stem for file in ROOT.glob("crates/*/specs/**/*.antt")}
    everywhere = shared | words_of_code(crates) | words_of_code([ROOT / "clients", ROOT / "gateway", ROOT / "scripts"], (".py",))
    everywhere |= PROGRAM_WORDS | {part for file in ROOT.glob("tests/**/*") for part in (file.name, file.stem)} | {folder.name for folder in ROOT.iterdir()}
    faults = []
    for name in CODE_DOCUMENTS:
        text = re.sub(r"```.*?```", "", (ROOT / name).read_text(), flags=re.DOTALL)
        faults += [f"{name}: nothing is called {word}" for word in sorted(set(re.findall(r"`([A-Za-z_]\w*)`", text)) - everywhere)]
    for crate in crates:
        root = next(file for file in (crate / "src/lib.rt", crate / "src/main.rt") if file.exists())
        head = "\n".join(line for line in root.read_text().splitlines() if line.startswith("//!"))
        own = shared | words_of_code([crate]) | {file.stem for file in (crate / "src").rglob("*.rt")} | PROGRAM_WORDS
        faults += [f"{root.relative_to(ROOT)}: nothing there is called {word}" for word in sorted(set(re.findall(r"`([A-Za-z_]\w*)`", head)) - own)]
    return faults


def main():
    faults = differing_tables() + missing_sentences() + missing_functions() + faulty_examples()
    faults += differing_refusals() + misnamed_mistakes() + unnamed_libraries() + long_readme() + nameless_crates() + missing_tests() + wide_lines()
    faults += stale_names()
    faults += faulty_decisions() + proof_lines.stale_rows() + version.stale_places() + words.faults()
    for document in [*ROOT.glob("*.md"), *ROOT.glob("docs/**/*.md"), *ROOT.glob("examples/*.md"), *ROOT.glob("gateway/*.md")]:
        faults += broken_links(document) + broken_anchors(document) + stale_quotes(document)
    print("\n".join(faults) if faults else "documents: in step with the repository")
    return 1 if faults else 0


if __name__ == "__main__":
    sys.exit(main())
