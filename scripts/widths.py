#!/usr/bin/env python3
"""Breaks lines that are too wide: over 100 columns in .rt files, over 120 in .antt files.

usage: widths.py FILE..

Comments are flowed again, paragraph by paragraph. A line of code is broken at a blank outside texts, where the fewest brackets are open;
a text is continued with a backslash. Imports of a module that are too wide are split into several of it. Nothing but blanks, line ends,
those backslashes and the heads of imports changes: a file of which more would change is left as it is, and named.

Run `rt fmt` after it, and then both once more: `rt fmt` moves some of the breaks, and puts one field of a record on each line once the
record has several lines.
"""
import re
import sys
import textwrap

WIDTHS = {".rt": 100, ".antt": 120}
MARKS = {".rt": ("//!", "///", "//"), ".antt": ("--",)}
OPEN, CLOSE = "([{⟨", ")]}⟩"
IMPORT = re.compile(r"^( *(?:ghost )?use [^{}]*\.\{)([^{}]*)(\};?)$")

# words that may begin a line, and ends of a line after which it may not be broken
LEADING = ("→", "∙", "×", "⊎", "++", "▸", "↔", "&&", "||", "+", "≡", "∷")
HANGING = re.compile(r"(λ|→|let|case|\bof|=|≡|×|⊎|∙|\+\+|∷|&&|\|\||≤|<|\.|:|▸)$")


def marks(line, inside=False):
    """For each column how many brackets are open, and whether it lies in a text. `inside`: whether the line begins in one."""
    depth, found, i = 0, [], 0
    while i < len(line):
        c = line[i]
        if not inside and line.startswith("'\"'", i):
            found += [(depth, True)] * 3
            i += 3
            continue
        if not inside and line.startswith("//", i):
            return found + [(depth, True)] * (len(line) - i)
        if inside and c == "\\":
            found += [(depth, True)] * 2
            i += 2
            continue
        if c == '"':
            found.append((depth, True))
            inside = not inside
        else:
            depth -= not inside and c in CLOSE
            found.append((depth, inside))
            depth += not inside and c in OPEN
        i += 1
    return found


def ends_inside(line, inside):
    """Whether a text is open at the line's end."""
    quotes = re.sub(r"'\"'|\\.", "", line)
    if not inside:
        quotes = re.sub(r'^((?:[^"/]|/(?!/)|"[^"]*")*)//.*', r"\1", quotes)
    return inside ^ (quotes.count('"') % 2 == 1)


def cost_of(line, i, depth):
    """What a break of the line at this blank costs, or None where it would read badly."""
    before, word = line[:i].rstrip(), re.match(r"\S*", line[i + 1:])[0]
    if not word or word.startswith("--") or word in ("in", "of", "then", "else"):
        return None
    if word == "→":
        return depth * 5
    if before.endswith((";", ",", "↦", " in")):
        return depth * 5 + 1
    if before.endswith(" ="):
        return depth * 5 + (3 if depth else 1)
    if word in LEADING:
        return depth * 5 + 2
    if HANGING.search(before) or word[0] in "≡≢≤<=:.;,)" or re.search(r"λ[^.()]*$", before):
        return None
    return depth * 5 + (3 if word.startswith("(") else 4)


def code_break(line, indent, width, inside):
    """The blank at which a line of code is broken, or None: the cheapest, and of equals the last."""
    info = marks(line, inside)
    spots = [i for i in range(indent + 8, width + 1) if line[i] == " " and not info[i][1]]
    costs = {i: cost_of(line, i, info[i][0]) for i in spots}
    if all(it is None for it in costs.values()):
        costs = {i: info[i][0] * 5 for i in spots if not line[:i].rstrip().endswith(("λ", "|"))}
    # (a break far to the left wastes a line)
    least = indent + (width - indent) * 0.45
    ranked = [(it + (0 if i > least else 3), -i) for i, it in costs.items() if it is not None]
    return -min(ranked)[1] if ranked else None


def text_break(line, indent, width, inside):
    """The last column before a text is continued on the next line, or None: better after a `;`, or before `||` or a module."""
    info = marks(line, inside)
    within = [i for i in range(indent + 30, width - 1) if info[i][1] and info[i + 1][1] and line[i + 1] not in ' "\\']
    spots = [i for i in within if line[i] == " " and line[i - 1] != "\\"] or [i for i in within if line[i - 1:i + 1] == "\\n"]
    good = [i for i in spots if i > width * 0.6 and (line[i - 1] in ";," or line[i + 1:].startswith(("|| ", "module ")))]
    return (good or spots or [None])[-1]


def with_imports(lines, width):
    """The lines, with the imports of one module that stand side by side filled anew where one of them is too wide."""
    out, i = [], 0
    while i < len(lines):
        first, run = IMPORT.match(lines[i]), []
        while first and i < len(lines) and (it := IMPORT.match(lines[i])) and (it[1], it[3]) == (first[1], first[3]):
            run.append(it)
            i += 1
        if all(len(it[0]) <= width for it in run):
            out += [it[0] for it in run] or [lines[i]]
            i += not run
            continue
        names = []
        for name in (name.strip() for it in run for name in it[2].split(", ")):
            if names and len(f"{first[1]}{', '.join(names + [name])}{first[3]}") > width:
                out.append(f"{first[1]}{', '.join(names)}{first[3]}")
                names = []
            names.append(name)
        out.append(f"{first[1]}{', '.join(names)}{first[3]}")
    return out


def broken(line, width, inside):
    """The lines into which a line of code is broken."""
    out, indent = [], len(line) - len(line.lstrip(" "))
    inner = indent if line.split(maxsplit=1)[0] in LEADING else indent + 4
    while len(line) > width:
        first = indent if not out else inner
        at = code_break(line, first, width, inside)
        if at is not None:
            out.append(line[:at].rstrip())
            line, inside = " " * inner + line[at + 1:].lstrip(), False
            continue
        at = text_break(line, first, width, inside)
        if at is None:
            break
        inner = indent if not out else inner
        out.append(line[: at + 1] + "\\")
        line, inside = " " * inner + line[at + 1:], True
    return out + [line]


def paragraphs(block):
    """The paragraphs of a comment; what stands apart (a blank line, a row of a table, code) is one of its own."""
    found, fence = [[]], False
    for text in block:
        is_fence = text.strip().startswith("```")
        if is_fence or fence or not text.strip() or text.startswith("    ") or text.strip().startswith("|"):
            found += [[text], []]
        elif re.match(r"\s*([-*#]|\d+\.) ", text):
            found.append([text])
        else:
            found[-1].append(text)
        fence ^= is_fence
    return [it for it in found if it]


def flowed(block, prefix, width):
    """The lines of a comment, its paragraphs that are too wide flowed again."""
    out = []
    for part in paragraphs(block):
        if all(len(prefix) + 1 + len(it) <= width for it in part):
            out += [f"{prefix} {it}".rstrip() for it in part]
            continue
        lead = re.match(r"(\s*)((?:(?:[-*]|\d+\.) )?)", part[0])
        text = " ".join(it.strip() for it in part)
        lines = textwrap.wrap(text, width - len(prefix) - 1, initial_indent=lead[1], subsequent_indent=lead[1] + " " * len(lead[2]),
                              break_long_words=False, break_on_hyphens=False)
        out += [f"{prefix} {it}" for it in lines]
    return out


def with_comments(lines, mark, width):
    """The lines, with the comments of this mark flowed again."""
    out, i, rule = [], 0, re.compile(rf"^( *{re.escape(mark)})( |$)(.*)$")
    while i < len(lines):
        block, prefix = [], (rule.match(lines[i]) or [None] * 2)[1]
        while i < len(lines) and (it := rule.match(lines[i])) and it[1] == prefix:
            block.append(it[3])
            i += 1
        if block:
            out += flowed(block, prefix, width)
        else:
            out.append(lines[i])
            i += 1
    return out


def bare(text):
    """The names that are imported, and the other text without blanks, line ends, and what begins a comment's line."""
    without = re.sub(r"(?m)^ *(//!|///|//|--) ?", "", text.replace("\\\n", "\n"))
    lines, imports = without.split("\n"), []
    for it in filter(None, map(IMPORT.match, lines)):
        imports += [(it[1], name.strip()) for name in it[2].split(", ")]
    return imports, re.sub(r"\s+", "", "".join(it for it in lines if not IMPORT.match(it)))


def change(path):
    """Breaks the file's lines that are too wide."""
    kind = path[path.rindex("."):]
    with open(path, encoding="utf-8") as it:
        text = it.read()
    lines, width = text.split("\n"), WIDTHS[kind]
    for mark in MARKS[kind]:
        lines = with_comments(lines, mark, width)
    lines = with_imports(lines, width)
    out, inside, raw = [], False, False
    for line in lines:
        # (a raw text keeps its blanks and line ends, so its lines are left as they are)
        if kind == ".rt" and (raw or 'r#"' in line):
            raw = line.rfind('"#') < line.rfind('r#"') + 3 if 'r#"' in line else '"#' not in line
            out.append(line)
            continue
        is_comment = not inside and re.match(r" *(//|--)", line)
        out += [line] if is_comment or len(line) <= width else broken(line, width, inside)
        if kind == ".rt" and not is_comment:
            inside = ends_inside(line, inside)
    new = "\n".join(out)
    if bare(new) != bare(text):
        print(f"{path}: more than blanks would change", file=sys.stderr)
    elif new != text:
        with open(path, "w", encoding="utf-8") as it:
            it.write(new)


for name in sys.argv[1:]:
    change(name)
