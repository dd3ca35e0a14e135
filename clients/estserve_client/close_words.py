"""Words that were perhaps meant: those that are one edit away from what is written."""
from __future__ import annotations

TYPE_CHECKING = False
if TYPE_CHECKING:
    from typing import Iterable, Optional

SHORT = 3  # shorter words are one edit away from too many others


def is_one_edit(one: str, other: str) -> bool:
    """Whether a letter put in, left out or changed, or two letters in turn, make one word of the
    other.
    """
    if abs(len(one) - len(other)) > 1 or one == other:
        return False
    begin = 0
    while begin < min(len(one), len(other)) and one[begin] == other[begin]:
        begin += 1
    first, second = one[begin:], other[begin:]
    if len(first) == len(second):
        is_turned = first[:2] == second[1::-1] and first[2:] == second[2:]
        return first[1:] == second[1:] or is_turned
    return first[1:] == second if len(first) > len(second) else first == second[1:]


def closest(word: str, known: Iterable[str]) -> Optional[str]:
    """The first of the known words that differs in large and small letters alone, or else one that
    is one edit away; None where there is none.
    """
    others = [other for other in known if other != word]
    alike = [other for other in others if other.lower() == word.lower()]
    alike += [other for other in others if len(word) == len(other) == 2 and word[::-1] == other]
    if len(word) >= SHORT:
        alike += [other for other in others if len(other) >= SHORT and is_one_edit(word, other)]
    return alike[0] if alike else None


def meant(word: str, known: Iterable[str]) -> str:
    """The question whether the closest of the known words was meant; empty where there is none."""
    found = closest(word, known)
    return f"did you mean `{found}`?" if found else ""
