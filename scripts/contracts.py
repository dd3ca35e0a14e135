#!/usr/bin/env python3
"""Writes the tables of docs/generated/CONTRACTS.md: the laws, and each file of definitions with the public calls whose contracts name it.

usage: contracts.py

Left out are definitions that only private clauses and proofs need, and crates of tests and benches. Calls of the definition's own crate
are listed, or those of other crates if it has none. A law tells the first paragraph of its comment. tests/documents.py fails where the
document differs from what this script would write.
"""
import pathlib
import re
import sys

sys.path.insert(0, str(pathlib.Path(__file__).resolve().parent))
from proof_lines import UNPROMISED, storeys  # noqa: E402
from reading_list import ROOT, text_of, uses  # noqa: E402

DOCUMENT = ROOT / "docs/generated/CONTRACTS.md"
BEGIN = "<!-- contracts, written by scripts/contracts.py -->\n"
END = "<!-- end of the contracts -->\n"
OWNER = r"^(?:pub trait|impl)(?:<[^{]*?>)? (?:[\w<>, ]+ for )?(\w+)"


def crates():
    """The crates that promise something, lowest first."""
    return [crate for storey, names in storeys().items() if storey not in UNPROMISED for crate in names]


def functions(file):
    """The name, the comment and the contract of each function of a file that has a contract and that callers may know."""
    owner, is_of_trait, comment, lines = "", False, [], text_of(file).split("\n")
    for at, line in enumerate(lines):
        if found := re.match(OWNER, line):
            owner, is_of_trait = found[1] + "::", line.startswith("pub trait") or " for " in line
        head = re.match(r"( *)(pub )?fn (\w+)", line)
        if head and (head[2] or head[1] and is_of_trait):
            contract = contract_at(lines, at, head[1])
            if "ensures" in contract:
                yield (owner if head[1] else "") + head[3], comment, contract
        if line.lstrip().startswith("///"):
            comment = [*comment, line.lstrip()[3:].strip()]
        elif not line.lstrip().startswith("#["):
            comment = []


def contract_at(lines, at, indent):
    """A function's head and contract: up to its body, or in a trait to the line that ends it."""
    found = []
    for line in lines[at:]:
        if line.startswith(indent + "{") or (not found and line.endswith("{")):
            break
        found.append(line)
        if line.endswith(";") and "ghost use" not in line:
            break
    return "\n".join(found)


def code_files(crate):
    """The files of code of a crate."""
    folder = ROOT / "crates"
    return [str(file.relative_to(folder)) for file in sorted((folder / crate / "src").rglob("*.rt"))]


def naming_calls():
    """For each file of definitions, the public calls whose contracts name one of them, with their files."""
    found = {}
    for file in (file for crate in crates() for file in code_files(crate)):
        for name, _, contract in functions(file):
            for target in dict.fromkeys(target for target, _ in uses(file, contract) if target.endswith(".antt")):
                found.setdefault(target, {}).setdefault(file, []).append(name)
    return found


def laws(crate):
    """A row for each law of a crate: a public function that takes nothing and gives nothing, so that it has only its contract."""
    rows = []
    for file in code_files(crate):
        for name, comment, contract in functions(file):
            if re.fullmatch(r"pub fn \w+(<[^()]*>)?\(\)", contract.partition("\n")[0]):
                words = comment[: comment.index("")] if "" in comment else comment
                place = "" if file.endswith("/src/laws.rt") else f" ({file.partition('/')[2]})"
                rows.append(row(f"`{crate}`", f"`{name}`{place}", " ".join(words)))
    return rows


def definitions(crate, calls):
    """A row for each file of a crate's definitions that is no private matter."""
    folder, rows = ROOT / "crates" / crate / "specs", []
    for file in sorted(folder.rglob("*.antt")):
        path = file.relative_to(folder)
        head = re.match(r"(?:--.*\n)+", file.read_text())
        if path.parts[0] != "Inner" and head and "for private clauses" not in head[0]:
            named = calls.get(f"{crate}/specs/{path}", {})
            named = {file: names for file, names in named.items() if file.startswith(crate + "/")} or named
            what = " ".join(head[0].replace("--", "").split())
            rows.append(
                row(f"`{crate}`", str(path.with_suffix("")), re.split(r"\. | \(|\.$", what)[0], by(crate, named))
            )
    return rows


def by(crate, named):
    """The calls, by the files in which they stand."""
    places = [
        (file.partition("/")[2] if file.startswith(crate + "/") else file, names) for file, names in named.items()
    ]
    return "; ".join(", ".join(f"`{name}`" for name in dict.fromkeys(names)) + f" ({place})" for place, names in places)


def row(*cells):
    return "| " + " | ".join(re.sub(r"(?<!\\)\|", r"\\|", cell) for cell in cells) + " |\n"


def tables():
    """Both tables, as they are to stand between the two comments."""
    calls = naming_calls()
    head = "## Laws\n\n| Crate | Law | Says |\n|---|---|---|\n"
    middle = "\n## Definitions\n\n| Crate | File of specs/ | What it defines | Named by the contracts of |\n|---|---|---|---|\n"
    return (
        head
        + "".join(line for crate in crates() for line in laws(crate))
        + middle
        + "".join(line for crate in crates() for line in definitions(crate, calls))
    )


def written(text):
    """The document's text with the tables as they are to be."""
    front, _, rest = text.partition(BEGIN)
    _, end, back = rest.partition(END)
    if not end:
        sys.exit(f"{DOCUMENT} lacks the comments around the tables")
    return front + BEGIN + tables() + END + back


if __name__ == "__main__":
    DOCUMENT.write_text(written(DOCUMENT.read_text()))
