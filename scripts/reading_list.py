#!/usr/bin/env python3
"""Writes the list of docs/generated/READING.md: each file with a definition or a type that the program's theorem speaks of.

usage: reading_list.py

It begins at the contracts of ROOTS, and follows each name of a contract, a definition or a type to the file where that name is
defined: by the `use` lines of definitions, and by the `use` and `ghost use` lines of the code. A file stands after those whose
names it uses; of a file of code only the types and constants that are listed beside it matter, with what contracts see of them.
Names that end in `-prop` are left out: they say of a fact only that it has one proof.
"""
import functools
import pathlib
import re
import sys

sys.path.insert(0, str(pathlib.Path(__file__).resolve().parent))
from wrong_bodies import ROOT, crates  # noqa: E402

DOCUMENT = ROOT / "docs/generated/READING.md"
BEGIN = "<!-- reading list, written by scripts/reading_list.py -->\n"
END = "<!-- end of the reading list -->\n"
ROOTS = [
    ("history_events/src/laws.rt", "fn headline"),
    ("client_loop/src/desk.rt", "impl Desk for Single"),
    ("client_loop/src/serving.rt", "fn serve"),
    ("program_run/src/run.rt", "fn run"),
]


@functools.lru_cache(None)
def text_of(file):
    return (ROOT / "crates" / file).read_text()


def module(crate, parts):
    """The file of code of the longest front of a path, and what follows that front."""
    for count in range(len(parts), 0, -1):
        file = f"{crate}/src/{'/'.join(parts[:count])}.rt"
        if (ROOT / "crates" / file).exists():
            return file, parts[count:]
    return None, parts


def imported(path, names, alias):
    """What an import of definitions brings in: each name here, with its file and its name there."""
    parts = path.split(".")
    if len(parts) < 4 or parts[0] != "Rattle" or parts[1] not in crates() or parts[2] != "specs":
        return {}
    crate, rest = parts[1], parts[3:]
    if rest[0] in ("declared", "contracts"):
        file, rest = module(crate, rest[1:])
        rest = [part for part in rest if part not in ("TheVariants", "TheConstants")]
        own = rest[0] if rest else None
        return {here: (file, own or there) for there, here in names} if file else {}
    file = f"{crate}/specs/{'/'.join(rest)}.antt"
    if not (ROOT / "crates" / file).exists():
        file, names = f"{crate}/specs/{'/'.join(rest[:-1])}.antt", [(rest[-1], alias or rest[-1])]
        alias = None
    found = {here: (file, there) for there, here in names}
    return {**found, alias: (file, None)} if alias else found


def listed(words):
    """The names of the braces of an import, each as it is called there and here."""
    found = []
    for word in filter(None, (part.strip() for part in words.split(","))):
        there, _, here = word.partition(" as ")
        found.append((there.strip(), (here or there).strip()))
    return found


def definition_imports(text, start):
    """What the import lines with this start bring in."""
    found = {}
    for path, words, alias in re.findall(start + r"(?:unfoldable )?(?:pub )?([\w.']+?)(?:\.\{([^}]*)\})?(?: as (\w+))?;?$", text, re.M):
        names = listed(words) or ([] if alias else [(path.rpartition(".")[2], path.rpartition(".")[2])])
        if not words and alias and ("declared" in path or "contracts" in path):
            names, alias = [(path.rpartition(".")[2], alias)], None
        found.update(imported(path, names, alias))
    return found


def code_imports(file):
    """What the `use` lines of a file of code bring in."""
    found, own = {}, file.split("/")[0]
    for path, words in re.findall(r"^use ([\w:]+?)(?:::\{([^}]*)\})?;", text_of(file), re.M):
        parts = path.split("::")
        crate = own if parts[0] == "crate" else parts[0]
        if crate not in crates():
            continue
        target, rest = module(crate, parts[1:])
        for there, here in listed(words or "") or [(parts[-1], parts[-1])]:
            if target:
                found[here] = target, there
    return found


@functools.lru_cache(None)
def pieces(file):
    """The text of each name that a file defines."""
    found, text = {}, text_of(file)
    if file.endswith(".antt"):
        for part in re.split(r"\n\s*\n", re.sub(r"--.*", "", text)):
            heads = re.findall(r"^\s*((?:(?:abbrev|unfoldable|opaque|pub|data|record) )+)([^\s:]+)(?=[\s:]|$)", part, re.M)
            is_record = heads and "record" in heads[0][0]
            names = [name for words, name in heads[:1] if name != "mutual"] if is_record else [name for _, name in heads if name != "mutual"]
            if heads and "data" in heads[0][0]:
                names += re.findall(r"^\s+(\w+) :", part, re.M)
            for name in names:
                found[name] = found.get(name, "") + part
        return found
    for name, block in re.findall(r"^(?:pub(?:\(crate\))? )?(?:struct|enum|trait|const) (\w+)(.*?\n?(?:;|^\}))$", text, re.M | re.S):
        found[name] = found.get(name, "") + block
    for name, model in re.findall(r"^impl(?:<[^>]*>)? Model for (\w+)(.*?)^\}", text, re.M | re.S):
        found[name] = seen_of(found.get(name, ""), model)
    return found


def seen_of(struct, model):
    """What contracts see of a struct with a view of its own: the view, and the fields that it names. Its invariant is no part of that."""
    view = "".join(re.findall(r"^ +ghost (?:Value|view) = .*?;$", model, re.M | re.S))
    fields = re.findall(r"\b\w\.(\w+)", view)
    lines = [line for line in struct.split("\n") if re.match(r"\s*(?:pub )?(\w+):", line) and re.match(r"\s*(?:pub )?(\w+):", line)[1] in fields]
    return "\n".join([*lines, *re.findall(r"^ +ghost use .*$", model, re.M), view])


def root_text(file, head):
    """The contract of a function, or a whole impl."""
    start = re.search(rf"^(?:pub )?{re.escape(head)}\b", text_of(file), re.M).start()
    end = "\n{" if head.startswith("fn ") else "\n}"
    return text_of(file)[start : text_of(file).index(end, start)]


def uses(file, text):
    """The file and the name of each definition or type that a piece of a file speaks of."""
    known = {name: (file, name) for name in pieces(file)}
    if file.endswith(".antt"):
        known.update(definition_imports(text_of(file), r"^use "))
    else:
        known.update(code_imports(file))
        known.update(definition_imports(text_of(file), r"^ghost use "))
        known.update(definition_imports(text, r"^ +ghost use "))
        text = re.sub(r"ghost use [^;]*;", "", re.sub(r"//.*", "", text))
    words = re.findall(r"[^\s(){}\[\]<>,;:&λ]+", text) + re.findall(r"\w+", text if file.endswith(".rt") else "")
    found = []
    for word in dict.fromkeys(words):
        front, _, back = word.partition(".")
        for name in (front, word, f"◌{word}◌"):
            if name in known:
                target, there = known[name]
                found.append((target, there or back.split(".")[0]))
    return found


def closure():
    """The names that the roots come to, by file, and the files that each file's names come from."""
    names, below, todo = {}, {}, []
    for file, head in ROOTS:
        names.setdefault(file, []).append(head)
        todo.append((file, root_text(file, head)))
    seen = set()
    while todo:
        file, text = todo.pop()
        for target, name in uses(file, text):
            if name not in pieces(target) or name.endswith("-prop"):
                continue
            if target != file:
                below.setdefault(file, set()).add(target)
            if (target, name) not in seen:
                seen.add((target, name))
                names.setdefault(target, []).append(name)
                todo.append((target, pieces(target)[name]))
    return names, below


def in_order(names, below):
    """The files, each after those that it uses; crates as crates.txt has them."""
    order, open_files = [], set()

    def visit(file):
        if file in order or file in open_files:
            return
        open_files.add(file)
        for other in sorted(below.get(file, ()), key=lambda it: (crates().index(it.split("/")[0]), it)):
            visit(other)
        order.append(file)

    for file in sorted(names, key=lambda it: (crates().index(it.split("/")[0]), it)):
        visit(file)
    return order


def row(number, file, names):
    crate, _, path = file.partition("/")
    if path.endswith(".antt"):
        head = " ".join(re.match(r"(?:--.*\n)+", text_of(file))[0].replace("--", "").split())
        what = re.split(r"\. | \(|\.$", head)[0]
    else:
        what = ", ".join(f"`{re.sub('^fn ', '', name)}`" for name in sorted(names))
    return f"| {number} | `{crate}` | {path} | {what} |\n"


def table():
    """The list, as it is to stand between the two comments."""
    names, below = closure()
    head = "| | Crate | File | What to read there |\n|---|---|---|---|\n"
    return head + "".join(row(number, file, names[file]) for number, file in enumerate(in_order(names, below), 1))


def written(text):
    """The document's text with the list as it is to be."""
    front, _, rest = text.partition(BEGIN)
    _, end, back = rest.partition(END)
    if not end:
        sys.exit(f"{DOCUMENT} lacks the comments around the reading list")
    return front + BEGIN + table() + END + back


if __name__ == "__main__":
    DOCUMENT.write_text(written(DOCUMENT.read_text()))
