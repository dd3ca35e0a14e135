#!/usr/bin/env python3
"""Prints how many words the documents have, and each sentence of them that is too long.

usage: words.py [DOCUMENT]

Counted are README.md, CONTRIBUTING.md, CHANGELOG.md and docs/*.md, by what stands between blanks, as wc does. A sentence ends at a full
stop, a question mark or a colon; tables, code and headings are left out, and what stands between backquotes is one word.
tests/documents.py fails where the documents have more than MOST_WORDS words, or a sentence has more than SENTENCE_WORDS.
"""
import pathlib
import re
import sys

ROOT = pathlib.Path(__file__).resolve().parent.parent
MOST_WORDS = 35_000  # of all documents
SENTENCE_WORDS = 25  # of a sentence
END = r"(?<=[.!?:])[)\"]?\s+"


def documents():
    """The documents that are counted."""
    return [
        *(ROOT / name for name in ("README.md", "CONTRIBUTING.md", "CHANGELOG.md")),
        *sorted(ROOT.glob("docs/*.md")),
    ]


def words():
    """How many words all documents have."""
    return sum(len(document.read_text().split()) for document in documents())


def sentences(text):
    """The sentences of a document, without its tables, code and headings."""
    text = re.sub(r"```.*?```|<!--.*?-->", "", text, flags=re.DOTALL)
    text = re.sub(r"`[^`\n]*`", "x", re.sub(r"!?\[([^\]]*)\]\([^)]*\)", r"\1", text))
    for line in text.splitlines():
        if not line.startswith(("|", "#")):
            yield from re.split(END, re.sub(r"^\s*(?:[-*]|\d+\.)\s|\*+", "", line))


def long_sentences(document):
    """A line for each sentence of the document that is too long."""
    name = document.relative_to(ROOT)
    found = [sentence for sentence in sentences(document.read_text()) if len(sentence.split()) > SENTENCE_WORDS]
    return [f"{name}: {len(sentence.split())} words in: {sentence[:60]} .." for sentence in found]


def faults():
    """A line for each sentence that is too long, and one if there are too many words."""
    told = [line for document in documents() for line in long_sentences(document)]
    return told + ([f"the documents have {words():,} words: at most {MOST_WORDS:,}"] if words() > MOST_WORDS else [])


def main(names):
    chosen = [ROOT / name for name in names] or documents()
    for document in chosen:
        print(f"{len(document.read_text().split()):7,}  {document.relative_to(ROOT)}")
    print(f"{words():7,}  in all, of {MOST_WORDS:,}")
    print("\n".join(line for document in chosen for line in long_sentences(document)))
    return 0


if __name__ == "__main__":
    sys.exit(main(sys.argv[1:]))
