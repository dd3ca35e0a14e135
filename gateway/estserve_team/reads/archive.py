"""The word `archive`: a new record that begins with what the old one has come to."""
import functools
import pathlib
from typing import Any, Dict, List, NamedTuple, Optional

from ..record import RecordWriter
from ..refusals import failed, needs_login, not_a_word, not_allowed
from ..server import Server
from ..words import Context
from .policy_model import PolicyModel
from .rebuilding import (
    ArchiveFailed,
    NewRecord,
    RecordedLogin,
    make_policy,
    make_slot,
    undo_commands,
)
from .rights import Rights, read_by_one_policy
from .slot_model import SLOTS
from .state import Models, models_of
from .witness import compare_facts, compare_shown, compare_slots

__all__ = ["ArchiveFailed", "Caller", "build", "make_archive"]


class Caller(NamedTuple):
    """Who asks for an archive: the person, the policy user, and the roles that are active."""

    person: str
    user: str
    roles: List[str]


def load_objects(emptied: Optional[int]) -> List[str]:
    """The slots on one of which `load` is needed: the one that is emptied, or any."""
    return [str(number) for number in ([emptied] if emptied is not None else range(SLOTS))]


async def make_archive(context: Context, keys: Dict[str, Any]) -> Dict[str, Any]:
    """Begins a new record, with everyone logged out, and slot `slot` empty where one is named."""
    emptied = keys.get("slot")
    if emptied is not None and not 0 <= emptied < SLOTS:
        raise not_a_word("slots are 0 to 15")
    gateway, session = context.gateway, context.session
    roles = await agreed_roles(context, emptied)
    assert session is not None  # or there had been no roles
    caller = Caller(context.person.name, session.user, roles)
    await gateway.archive(functools.partial(build, caller, emptied))
    kept = [path.name for path in gateway.old_records()]
    return {"kept": kept[-1] if kept else None, "version": gateway.reads.policy.version}


async def agreed_roles(context: Context, emptied: Optional[int]) -> List[str]:
    """The active roles of a caller who may archive, once model and server agree on its permissions.

    Raises Refused."""
    assert context.session is not None  # the word asks for a login
    number = context.session.number

    async def compose(rights: Rights) -> Dict[str, Any]:
        loads = [("load", object) for object in load_objects(emptied)]
        if not (await rights.may("administer", "policy") and await rights.may_any(loads)):
            what = "a slot" if emptied is None else f"slot {emptied}"
            raise not_allowed(f"archive needs administer on policy, and load on {what}")
        model = context.gateway.reads.policy
        answers = {pair: await rights.may(*pair) for pair in model.pairs()}
        if number not in model.sessions:
            raise needs_login()
        wrong = [pair for pair, answer in answers.items() if answer != model.may(number, *pair)]
        return {"roles": list(model.sessions[number].active), "wrong": wrong}

    found = await read_by_one_policy(context, compose)
    if found["wrong"]:
        raise failed(f"the record's policy is not the server's: {found['wrong'][0]}")
    roles: List[str] = found["roles"]
    return roles


def build(
    caller: Caller,
    emptied: Optional[int],
    old: pathlib.Path,
    new: pathlib.Path,
    program: str,
    folder: pathlib.Path,
) -> None:
    """Makes the new record of the old one in a new server, and compares both.

    Raises ArchiveFailed."""
    models = models_of(old)
    check_caller(models.policy, caller, emptied)
    with Server(program, folder / "new.sock") as _, RecordWriter.make(
        new, program, old.name
    ) as writer:
        make_record(NewRecord(writer, folder / "new.sock", caller.person), caller, models, emptied)
        writer.keep_answers(old)
    made = models_of(new)
    compare_facts(models.policy, made.policy)
    compare_slots(models, made, emptied)
    compare_shown((old, new), (models, made), emptied, program, folder)


def check_caller(policy: PolicyModel, caller: Caller, emptied: Optional[int]) -> None:
    """Raises ArchiveFailed where the caller may no more archive, by the end of the old record."""
    roles = policy.below(caller.roles)
    allowed = {(operation, object) for role, operation, object in policy.granted if role in roles}
    loads = any(("load", object) in allowed for object in load_objects(emptied))
    is_user = policy.authorized(caller.user).issuperset(caller.roles)
    if not (is_user and loads and ("administer", "policy") in allowed):
        raise ArchiveFailed("the caller's permissions were taken away meanwhile")


def make_record(record: NewRecord, caller: Caller, old: Models, emptied: Optional[int]) -> None:
    """Makes slots and policy as root, and undoes the rest as the caller. Raises ArchiveFailed."""
    with record.login("root", ["root"]) as root:
        for slot in old.slots.slots:
            if slot.is_loaded and slot.number != emptied:
                make_slot(root, slot)
        helper = make_policy(root, old.policy)
    with record.login(caller.user, caller.roles) as login:
        login.ask(undo_commands(old.policy, helper))
        check_allowed(login, old.policy, caller)


def check_allowed(login: RecordedLogin, policy: PolicyModel, caller: Caller) -> None:
    """Raises ArchiveFailed where the new server allows the caller other pairs than before."""
    roles, pairs = policy.below(caller.roles), policy.pairs()
    asked: List[Dict[str, Any]] = [
        {"cmd": "check", "object": object, "op": operation} for operation, object in pairs
    ]
    for pair, answer in zip(pairs, login.ask(asked)):
        if answer["allowed"] != any((role, *pair) in policy.granted for role in roles):
            raise ArchiveFailed(f"the new server answers {answer} to check {pair}")
