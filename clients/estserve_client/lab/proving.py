"""The command `prove`: claims of all runs of a module, or of each module of a folder."""
from __future__ import annotations

import argparse
import pathlib
import sys
from typing import TYPE_CHECKING, Iterator, List

from ..colours import Colours
from ..outcomes import FAILED, PASSED, Outcome, told_in_xml
from ..texts import Failed, read_text, write_lines
from ..texts_beside import texts_beside
from .asking import Lab, Subject, lab_of, read_other, read_subject
from .claims import Claim, Claims, names_listed, read_claims
from .judging import Finding, Found, Question, check_inputs, judge, sides_of
from .observing import alarm_claims, observed
from .words import inputs_line, lines_of_stuck, seen_of, wave_of

if TYPE_CHECKING:
    from .asking import Word

WORDS = {"holds": "ok", "fails": "FAILED", "toomany": "?"}
SUFFIX = ".counterexample"
HOW = "name the module by --main, or by a line `main MODULE`"


def question_of(paths: List[str], wanted: Claims, most: int) -> Question:
    """What is asked of the module of these files. Raises Failed."""
    module = read_subject(paths, wanted.main)
    subject = observed(module, wanted.observers)
    claims = [*wanted.claims, *alarm_claims(module, wanted.observers)]
    same = [read_other(path, wanted.main) for path in wanted.same]
    return Question(module, subject, claims, check_inputs(module, wanted.inputs), same, most)


def counted(found: Found) -> str:
    """How much the search has found, in words."""
    return f"{found.states:,} states, {found.reactions:,} reactions"


def summary(found: Found) -> str:
    """What is said of all findings."""
    fail, open_ = found.of("fails"), found.of("toomany")
    if fail:
        return f"{len(fail)} of {len(found.findings)} fail: {counted(found)}"
    if open_:
        ended = f"the search ended at {counted(found)}"
        return f"{len(open_)} of {len(found.findings)} undecided: {ended}"
    return f"holds in every run: {counted(found)}"


def told_of(finding: Finding) -> str:
    """A finding in a line, without its word."""
    if finding.name == "fails":
        return f"{finding.claim}: fails in instant {len(finding.word)}"
    if finding.name == "toomany":
        return f"{finding.claim}: undecided, since there are too many states or reactions"
    return finding.claim


def differing_lines(lab: Lab, finding: Finding, subject: Subject) -> List[str]:
    """The waves of a word by which two modules differ, the second one's below the first one's."""
    assert finding.other
    lines = []
    for side, of in zip(sides_of(finding.word), (subject, finding.other)):
        lines += [f"{' '.join(of.library.paths)}:", *drawn(lab, side, of)]
    return lines


def drawn(lab: Lab, word: Word, subject: Subject) -> List[str]:
    """The wave of a word, and what stays undecided at its end."""
    lines = wave_of(seen_of(word, subject))
    if "undecided" in word[-1]:
        lines += lines_of_stuck(lab, word, subject)
    return lines


def lines_of(lab: Lab, finding: Finding, question: Question) -> List[str]:
    """The wave of a finding that fails."""
    if finding.other:
        return differing_lines(lab, finding, question.module)
    return drawn(lab, finding.word, question.subject)


def write_word(finding: Finding, path: pathlib.Path) -> str:
    """Writes the inputs of a counterexample. Answers what is said of it. Raises Failed."""
    head = f"% {finding.claim}: fails in the last of these instants."
    write_lines(path, [head, *(inputs_line(told["inputs"]) for told in finding.word)])
    return f"its inputs are in {path}"


def paths_for(path: pathlib.Path) -> Iterator[pathlib.Path]:
    """Where counterexamples are written: the file, and further ones with a number."""
    yield path
    number = 1
    while True:
        number += 1
        yield path.with_name(f"{path.stem}{number}{path.suffix}")


def report(lab: Lab, found: Found, question: Question, where: pathlib.Path) -> List[Outcome]:
    """Tells each finding, and writes the words of those that fail. Answers what came of each. Raises
    Failed.
    """
    colours, paths, outcomes = Colours(sys.stdout), paths_for(where), []
    for finding in found.findings:
        word, lines = WORDS[finding.name], []
        print(colours.word(f"{word:<7}", word == "ok"), told_of(finding))
        if finding.name == "fails":
            lines = [*lines_of(lab, finding, question), write_word(finding, next(paths))]
            print("\n".join(lines))
        outcomes.append(outcome_of(finding, lines, question))
        outcomes[-1].seconds = found.seconds / len(found.findings)
    print(summary(found), flush=True)
    return outcomes


def outcome_of(finding: Finding, lines: List[str], question: Question) -> Outcome:
    """What came of a claim, as a file of JUnit has it: what is undecided fails there."""
    word, module = PASSED if finding.name == "holds" else FAILED, question.module
    told = told_of(finding).partition(f"{finding.claim}: ")[2]
    files = " ".join(module.library.paths)
    return Outcome(finding.claim, word, told, lines, files, module=module.module.name)


def where_of(arguments: argparse.Namespace, file: str) -> pathlib.Path:
    """The file of a first counterexample."""
    if arguments.write:
        return pathlib.Path(arguments.write)
    named = pathlib.Path("module" if file == "-" else file)
    return named.with_name(f"{named.stem}{SUFFIX}.inputs")


def given(arguments: argparse.Namespace) -> Claims:
    """What the words of the command claim."""
    pairs = [("never", test) for test in arguments.never]
    pairs += [("always", test) for test in arguments.always]
    claims = [Claim(word, " ".join(test.split())) for word, test in pairs]
    inputs = names_listed(arguments.inputs)
    return Claims(claims, arguments.main, arguments.observer, inputs, arguments.same)


def added(first: Claims, second: Claims) -> Claims:
    """The claims of a file, and those of the command, whose main module and inputs count more."""
    return Claims(
        first.claims + second.claims,
        second.main or first.main,
        first.observers + second.observers,
        first.inputs if second.inputs is None else second.inputs,
        first.same + second.same,
        first.texts,
    )


def files_of(path: pathlib.Path) -> List[pathlib.Path]:
    """The files of claims that a path names: those of a folder, or the one; none of a module text.
    Raises Failed.
    """
    if path.suffix == ".claims":
        return [path]
    if not path.is_dir():
        return []
    found = sorted(path.glob("*.claims"))
    if not found:
        raise Failed(f"there is no NAME.claims in {path}")
    return found


def lists_of(arguments: argparse.Namespace) -> List[pathlib.Path]:
    """The files of claims that the arguments name; none, where they name module texts. Raises
    Failed.
    """
    found = [files_of(pathlib.Path(path)) for path in arguments.file]
    if any(found) and not all(found):
        raise Failed("folders and lists of claims go with no module text: each list names its own")
    files = [path for paths in found for path in paths]
    if len(files) > 1 and arguments.write:
        raise Failed("--write names one file, and there are several lists of claims")
    return files


def prove_file(
    lab: Lab, path: pathlib.Path, arguments: argparse.Namespace, outcomes: List[Outcome]
) -> int:
    """Judges a file of claims, with a line for each, and adds what came of them. Answers its status.
    Raises Failed.
    """
    listed = read_claims(read_text(path, "the list of claims"), str(path))
    listed.same = [str(path.parent / other) for other in listed.same]
    wanted = added(listed, given(arguments))
    texts = [*texts_beside(path, wanted.main, HOW), *(path.parent / one for one in listed.texts)]
    question = question_of([str(text) for text in dict.fromkeys(texts)], wanted, arguments.most)
    found = judge(lab, question)
    print(f"{path.stem} ({question.module.module.name}):")
    for outcome in report(lab, found, question, where_of(arguments, str(path))):
        outcome.folder, outcome.path = path.stem, str(path)
        outcomes.append(outcome)
    return found.status


def prove_files(
    lab: Lab, files: List[pathlib.Path], arguments: argparse.Namespace, outcomes: List[Outcome]
) -> int:
    """Judges each file of claims. Answers 1 where a claim fails, else 3 where one is undecided."""
    statuses = []
    for path in files:
        try:
            statuses.append(prove_file(lab, path, arguments, outcomes))
        except Failed as fault:
            print(f"{path.stem}:\n{Colours(sys.stdout).word('FAILED ', False)} {fault}")
            told, *lines = str(fault).split("\n")
            outcomes.append(Outcome(path.stem, FAILED, told, lines, str(path), folder=path.stem))
            statuses.append(1)
    failed = sum(status != 0 for status in statuses)
    print(f"{len(statuses) - failed} passed, {failed} failed", flush=True)
    return 1 if 1 in statuses else max(statuses)


def prove_all(arguments: argparse.Namespace, outcomes: List[Outcome]) -> int:
    """Judges claims, and adds what came of each. Answers the status. Raises Failed, Disconnected."""
    files = lists_of(arguments)
    question = None if files else question_of(arguments.file, given(arguments), arguments.most)
    with lab_of(arguments) as lab:
        if question is None:
            return prove_files(lab, files, arguments, outcomes)
        found = judge(lab, question)
        outcomes += report(lab, found, question, where_of(arguments, arguments.file[0]))
    return found.status


def prove(arguments: argparse.Namespace) -> int:
    """Judges claims in every run. Answers 0 where all hold, 1 where one fails, 3 where one is
    undecided. A file of JUnit is written in any case, and tells why the command ended early. Raises
    Failed, Disconnected.
    """
    with told_in_xml(arguments.junit, " ".join(arguments.file), "the claims") as outcomes:
        return prove_all(arguments, outcomes)
