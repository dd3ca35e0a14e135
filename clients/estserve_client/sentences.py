"""What a refusal says, as a short sentence."""
from __future__ import annotations

from typing import TYPE_CHECKING, Any, Dict, Optional, Sequence, Tuple

from .close_words import meant
from .command_table import (
    IDENTIFIER,
    IDENTIFIERS,
    MOST,
    MOST_ROLES,
    NAME,
    NAMES,
    OBJECT,
    OPERATION,
    OPERATIONS,
)

if TYPE_CHECKING:
    from .connection import Refusal

Set = Tuple[int, Sequence[str]]  # a separation set: its number, and its roles

SENTENCES = {
    "TooLong": "the line is too long",
    "NotJson": "this is no JSON",
    "NotARequest": "this is no command of estserve, or a word of it is out of form",
    "NoSession": "there is no login, or its session has ended",
    "AlreadyLoggedIn": "this connection holds a login already",
    "SessionsExhausted": "there are no session numbers left",
    "Permission": "needs {op} on {object}",
    "DsdViolated": "session {session} would violate the separation set {set}",
    "NotAuthorized": "the user is not authorized for the role {role}",
    "AlreadyActive": "the role {role} is active already",
    "NotActive": "the role {role} is not active",
    "Cycle": "the senior is the junior, or lies below it",
    "UnknownUser": "there is no user {user}",
    "UnknownRole": "there is no role {role}",
    "UserExists": "the user {user} is there already",
    "RoleExists": "the role {role} is there already",
    "AlreadyAssigned": "the role is assigned already",
    "NotAssigned": "the role is not assigned",
    "AlreadyGranted": "the role has the permission already",
    "NotGranted": "the role itself does not have that permission",
    "EdgeExists": "the one was put right above the other already",
    "NoEdge": "there is no such edge",
    "DsdExists": "the separation set {set} is there already",
    "NoDsd": "there is no separation set {set}",
    "DsdShape": "a role is listed twice, or the number is under 2 or over the number of roles",
    "RoleInDsd": "the role is a member of the separation set {set}: `undsd {set}` comes first",
    "Full": "the table of {table} is full",
    "Excluded": "relation {relation} excludes {offered}, since {signal} is pending",
    "Implied": "relation {relation} asks for {missing} too",
    "Stuck": "the instant has no constructive reaction; undecided: {undecided}",
    "NoSlot": "there is no such slot: they are 0 to 15",
    "Occupied": "the slot is loaded: unload it first",
    "Empty": "the slot is empty: load a module first",
    "UnknownSignal": "the module has no such signal",
    "NotInput": "it is an output",
    "AlreadyOffered": "it is pending already",
    "NoInstant": "there was no such instant since the load",
    "JournalFull": "the journal is full",
    "Behind": "{found} policy entries were read, and {seen} were seen before; send it again",
    "Lexical": "no token stands at line {line}, column {column}",
    "Syntax": "the text cannot go on so at line {line}, column {column}",
    "UnknownModule": "there is no module {name}",
    "RecursiveRun": "the module {name} runs itself, directly or through others",
    "UnknownName": "the name {name} is not visible there",
    "DuplicateName": "the name {name} is declared twice, or is tick",
    "EmitInput": "the input {name} is emitted",
    "BadRename": "the module that is run has no signal {name}, or it is renamed twice",
    "InstantLoop": "a loop's body can end in the instant in which it begins",
    "TooLarge": "the module passes the limit of {limit}",
    "Semantics": "relation {relation} has a member that the module can't be offered",
    "Memory": "the server found no memory",
}

OF_GATEWAY = {  # which stands before the server, at team.sock
    "NotYou": "your Unix user may not log in as {user}",
    "AllTaken": "each of the sixteen logins is held: `team who` tells by whom",
    "UnknownPerson": "the gateway does not know the Unix user of the number {uid}",
    "Stopping": "the gateway is stopping, or makes an archive: try again",
    "NotUnderstood": "the program read the command otherwise: nothing was done",
    "TooMany": "{what}: at most {most} may be had here now",
}


A_NAME = (NAME, "a name: 1 to 24 letters, digits, _ and -")
AN_IDENTIFIER = (IDENTIFIER, "an identifier: a letter, then letters, digits and _, at most 48")
# What is said of a word that is out of its form, by the key: the server takes it for no command.
FORMS: Dict[str, Tuple[Any, str]] = {
    **dict.fromkeys(NAMES, A_NAME),
    **dict.fromkeys(IDENTIFIERS, AN_IDENTIFIER),
    "op": (OPERATION, "an operation: " + " ".join(OPERATIONS)),
    "object": (OBJECT, "an object: policy, a slot from 0 to 15, or a signal of one, as 0.A"),
}


def wrong_word(key: str, word: Any) -> Optional[str]:
    """What the word of a command is not, that stands for this key; None where it is in form."""
    form, wanted = FORMS.get(key, (None, ""))
    if isinstance(word, int) and word > MOST:
        return f"{word} is too large a number"
    if form and not (isinstance(word, str) and form.fullmatch(word)):
        question = meant(str(word), OPERATIONS) if key == "op" else ""
        return f"{word} is not {wanted}" + (f"; {question}" if question else "")
    return None


def out_of_form(keys: Dict[str, Any]) -> Optional[str]:
    """What the first word of a command is not, by its keys; None where each is in form, as the
    protocol has it.
    """
    lists = {key: value if isinstance(value, list) else [value] for key, value in keys.items()}
    pairs = [(key, word) for key, words in lists.items() for word in words]
    wrong = [told for told in (wrong_word(key, word) for key, word in pairs) if told]
    if any(len(words) > MOST_ROLES for words in lists.values()):
        wrong.append(f"a command has at most {MOST_ROLES} roles")
    return wrong[0] if wrong else None


def clash(refusal: Refusal, sets: Dict[str, Set]) -> str:
    """What is said of the roles that a separation set keeps apart: those of the set, where it is
    known, or else those that were asked for.
    """
    if refusal.fields.get("set") in sets:
        count, roles = sets[refusal.fields["set"]]
        return f": at most {count - 1} of {' '.join(roles)} may be active"
    asked = refusal.command.get("roles") or [refusal.command.get("role", "")]
    return f": it asks for {' and '.join(asked)}" if any(asked) else ""


def sentence(
    refusal: Refusal, relations: Sequence[str] = (), sets: Optional[Dict[str, Set]] = None
) -> str:
    """The sentence of a refusal. With the texts of the module's relations, a relation is told by
    its text; with separation sets, one that would be violated by its roles.
    """
    fields: Dict[str, Any] = {"offered": refusal.command.get("signal", "it"), **refusal.fields}
    number = fields.get("relation")
    if isinstance(number, int) and 0 < number <= len(relations):
        fields["relation"] = f"{number} ({relations[number - 1]})"
    if "undecided" in fields:
        fields["undecided"] = " ".join(fields["undecided"]) or "none that may be observed"
    if refusal.fault == "NoInstant" and refusal.command.get("instant") == 0:
        return "NoInstant: the first instant is 1: look [SLOT] INSTANT"
    if refusal.fault == "NotARequest" and out_of_form(refusal.command):
        return f"{refusal.fault}: {out_of_form(refusal.command)}"
    known = {**SENTENCES, **OF_GATEWAY}
    more = clash(refusal, sets or {}) if refusal.fault == "DsdViolated" else ""
    try:
        return f"{refusal.fault}: {known[refusal.fault].format(**fields)}{more}"
    except (KeyError, IndexError):
        return str(refusal)
