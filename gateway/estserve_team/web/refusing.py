"""Refusals for the page: the object, and its sentence, which is the client's own."""
from typing import Any, Dict, Sequence

from estserve_client.connection import Refusal
from estserve_client.sentences import sentence

# The sentences of the gateway's own refusals, by their fault.
SENTENCES = {
    "NotYou": "you may not log in as {user}",
    "AllTaken": "each of the sixteen logins is held: {holders}",
    "UnknownPerson": "this Unix user is not known on the machine",
    "Interrupted": "the server was begun anew",
    "Stopping": "the gateway is stopping, or is being archived",
    "NotUnderstood": "the program read the command otherwise: nothing was done",
    "NotAWord": "{why}",
    "NotAllowed": "{why}",
    "NeedsLogin": "this needs a login",
    "Failed": "{why}",
    "IdTaken": "another request has this id, or it is not 1 to 64 printable ASCII characters",
    "TooMany": "{what}: at most {most} may be had here now",
    "NotHere": "roles are changed by a new login: others may share this one",
    "NoHttp": "the gateway serves no page",
}


def sentence_of(
    answer: Dict[str, Any], command: Dict[str, Any], relations: Sequence[str] = ()
) -> str:
    """The sentence of a refusal, be it the program's or the gateway's own."""
    if answer.get("fault") not in SENTENCES:
        return sentence(Refusal(answer, command), relations)
    fields = dict(answer)
    if isinstance(fields.get("holders"), list):
        fields["holders"] = ", ".join(" of ".join(map(str, holder)) for holder in fields["holders"])
    try:
        return f"{answer['fault']}: {SENTENCES[answer['fault']].format(**fields)}"
    except (KeyError, IndexError):
        return str(answer["fault"])


def refusal_of(
    answer: Dict[str, Any], command: Dict[str, Any], relations: Sequence[str] = ()
) -> Dict[str, Any]:
    """What the page is told of a refusal."""
    return {"refusal": answer, "sentence": sentence_of(answer, command, relations)}
