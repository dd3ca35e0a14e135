#!/usr/bin/env python3
"""Finds the statements of lemmas that stand in several crates, and writes docs/generated/STATED_TWICE.md.

usage: stated_twice.py [--list]

A lemma is a fact with a name at the left edge of a file proofs/**/*.antt, but for answers to goals. Two statements are the same if they
differ in blanks and in the names of their variables alone. A copy too many is each crate but one that has a statement. The number of
copies may only fall: where it would rise, this script names what is new and writes nothing. tests/documents.py fails where the list
differs from what stands in the crates. With --list each statement is printed with its places.
"""
import collections
import pathlib
import re
import sys

ROOT = pathlib.Path(__file__).resolve().parent.parent
DOCUMENT = ROOT / "docs/generated/STATED_TWICE.md"
BEGIN = "<!-- statements, written by scripts/stated_twice.py -->\n"
END = "<!-- end of the statements -->\n"
HEAD = re.compile(r"^(?:abbrev |unfoldable )?(?:pub )?([^\s:(){}]+) : (.*(?:\n[ \t]+.*)*)", re.MULTILINE)
BINDER = re.compile(r"[({]((?:[^\s(){}:]+ )+): |λ ((?:[^\s.]+ ?)+)\.")
WORD = re.compile(r"[^\s(){}\[\],.:;]+")
IS_FACT = re.compile(r"≡|[({]\w[^():]* : ")  # in a statement; what has neither an equation nor a variable is a type


def same_form(statement):
    """The statement with single blanks, and its variables numbered in the order in which they are bound."""
    text = " ".join(re.sub(r"--.*", "", statement).split())
    bound = [name for names in BINDER.findall(text) for name in " ".join(names).split()]
    numbers = {name: f"#{number}" for number, name in enumerate(dict.fromkeys(bound))}
    return WORD.sub(lambda word: numbers.get(word[0], word[0]), text)


def lemmas(file):
    """The name and the statement of each lemma of a file."""
    for name, statement in HEAD.findall(file.read_text()):
        if "goal." not in statement and IS_FACT.search(statement):
            yield name, statement


def places():
    """Where each statement stands: the crate, the file and the lemma's name."""
    found = collections.defaultdict(list)
    for file in sorted(ROOT.glob("crates/*/proofs/**/*.antt")):
        crate, _, *rest = file.relative_to(ROOT / "crates").with_suffix("").parts
        for name, statement in lemmas(file):
            found[same_form(statement)].append((crate, "/".join(rest), name))
    return found


def too_many(where):
    """How many copies of a statement are too many."""
    return len({crate for crate, _, _ in where}) - 1


def twice():
    """The places of each statement that stands in more than one crate, in the order of the places."""
    return sorted(where for where in places().values() if too_many(where))


def row(where):
    return "| " + " · ".join(f"{crate} {file} `{name}`" for crate, file, name in where) + " |\n"


def copies(text):
    """How many copies too many the document tells, or None."""
    told = re.search(r"(\d+) copies are too many", text)
    return int(told[1]) if told else None


def written(text):
    """The document's text with the list as it is to be."""
    front, _, rest = text.partition(BEGIN)
    _, end, back = rest.partition(END)
    if not end:
        sys.exit(f"{DOCUMENT} lacks the comments around the list")
    found = twice()
    head = f"{len(found)} statements stand in several crates: {sum(map(too_many, found))} copies are too many."
    return f"{front}{BEGIN}{head}\n\n| Where |\n|---|\n{''.join(map(row, found))}{END}{back}"


def main(words):
    if words == ["--list"]:
        for statement, where in sorted(places().items(), key=lambda item: item[1]):
            if too_many(where):
                print(row(where) + "    " + statement)
        return 0
    text = DOCUMENT.read_text()
    told, found = copies(text), twice()
    if told is not None and sum(map(too_many, found)) > told:
        new = [row(where) for where in found if row(where) not in text]
        print("a lemma stands in a crate below already: import it from there", *new, sep="\n")
        return 1
    DOCUMENT.write_text(written(text))
    return 0


if __name__ == "__main__":
    sys.exit(main(sys.argv[1:]))
