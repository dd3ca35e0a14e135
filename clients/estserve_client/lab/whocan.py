"""The command `whocan`: who, by which roles of a policy, can bring a signal about alone.

It is taken for granted that the policy stays as it is, that the module stays loaded, and that
nothing is pending at first. A user may log in again with other roles: sessions of one user after
another count as one who acts.
"""
from __future__ import annotations

import argparse
import pathlib
from itertools import combinations
from typing import Callable, Dict, FrozenSet, Iterable, Iterator, List, Optional, Tuple

from ..applying import read_policy_file
from ..close_words import meant
from ..policy_file import Policy, asking, slots_of, tables_of
from ..texts import Failed, read_text
from .asking import Lab, Subject, Verdict, lab_of, read_subject
from .claims import names_listed
from ..access import Access, Roles
from .words import in_one_line

Signal = Tuple[int, str]  # a slot and a name
Names = FrozenSet[str]

MOST_ROLES = 10  # of one user, of which all sets are tried


def signal_of(written: str, policy: Policy, slots: Dict[str, int]) -> Signal:
    """The signal of a slot that a word means. Raises Failed."""
    slot, dot, name = written.rpartition(".")
    if not dot:
        if len(policy.modules) != 1:
            count = len(policy.modules)
            raise Failed(f"the policy names {count} modules: say of which slot, as 0.{written}")
        return next(iter(policy.modules)), written
    number = int(slot) if slot.isdigit() else slots.get(slot)
    if number not in policy.modules:
        raise Failed(f"the policy's table `modules` names no text for the slot {slot}")
    return number, name


class Asker:
    """Asks whether signals of one slot's module can be present, of each set of inputs once."""

    def __init__(self, lab: Lab, slot: int, subject: Subject, most: int) -> None:
        self.lab, self.slot, self.subject, self.most = lab, slot, subject, most
        self.known: Dict[Tuple[str, Names], Verdict] = {}
        lab.load(subject)

    def offers(self, permissions: Iterable[Tuple[str, str]]) -> Optional[Names]:
        """The inputs that these permissions let one offer; None where they let no instant be."""
        allowed = set(permissions)
        if ("step", f"{self.slot}") not in allowed:
            return None
        inputs = self.subject.module.inputs()
        return frozenset(name for name in inputs if ("offer", f"{self.slot}.{name}") in allowed)

    def ask(self, signal: str, access: Access, roles: Roles) -> Optional[Verdict]:
        """Whether the signal is never present while those with these roles act alone; None where
        they can make no instant.
        """
        inputs = self.offers(access.permissions(roles))
        if inputs is None:
            return None
        if (signal, inputs) not in self.known:
            claims = [f"never {signal}"]
            found = self.lab.explore(claims, sorted(inputs), self.most).verdicts[0]
            self.known[signal, inputs] = found
        return self.known[signal, inputs]


def listed(roles: Iterable[str], access: Access) -> str:
    """Roles in the order of the policy."""
    wanted = set(roles)
    return " and ".join(role for role in access.roles if role in wanted)


def told_of(verdict: Verdict) -> str:
    """What is said of a way, after who can go it."""
    if verdict.name == "toomany":
        return "undecided, since there are too many states or reactions"
    return f"by `{in_one_line([told['inputs'] for told in verdict.word])}`"


def least_sets(roles: List[str], can: Callable[[Roles], bool]) -> Iterator[Roles]:
    """The least sets of roles that can; of more than MOST_ROLES roles only one of them."""
    if not can(frozenset(roles)):
        return
    if len(roles) > MOST_ROLES:
        found = frozenset(roles)
        for role in roles:
            found = found - {role} if can(found - {role}) else found
        yield found
        return
    least: List[Roles] = []
    for count in range(1, len(roles) + 1):
        for chosen in combinations(roles, count):
            some = frozenset(chosen)
            if not any(some >= fewer for fewer in least) and can(some):
                least.append(some)
                yield some


def ways_of(user: str, signal: str, access: Access, asker: Asker) -> Iterator[str]:
    """The least sets of roles by which a user brings the signal about, each with its inputs."""

    def can(roles: Roles) -> bool:
        verdict = asker.ask(signal, access, roles)
        return verdict is not None and verdict.name != "holds"

    for roles in least_sets(access.usable(user), can):
        verdict = asker.ask(signal, access, roles)
        assert verdict
        apart = access.keeping_apart(roles)
        more = f", in sessions one after another ({' and '.join(apart)})" if apart else ""
        yield f"{user} as {listed(roles, access)}{more}: {told_of(verdict)}"


def ways_of_roles(roles: Roles, signal: str, access: Access, asker: Asker) -> Iterator[str]:
    """How whoever has these roles brings the signal about together."""
    verdict = asker.ask(signal, access, roles)
    if verdict and verdict.name != "holds":
        yield f"{listed(roles, access)} together: {told_of(verdict)}"


def roles_named(texts: Optional[List[str]], access: Access) -> Optional[Roles]:
    """The roles that are asked of. Raises Failed."""
    names = names_listed(texts)
    unknown = [name for name in names or () if name not in access.roles]
    if unknown:
        question = meant(unknown[0], access.roles)
        raise Failed(asking(f"the policy has no role {unknown[0]}", question))
    return None if names is None else frozenset(names)


def tell(signal: str, roles: Optional[Roles], access: Access, asker: Asker) -> None:
    """Tells who can bring the signal about. Raises Failed."""
    kinds = asker.subject.module.kinds()
    if signal not in kinds:
        told = f"{asker.subject.module.name} has no signal {signal}"
        raise Failed(asking(told, meant(signal, kinds)))
    if roles is None:
        lines = [line for user in access.users for line in ways_of(user, signal, access, asker)]
    else:
        lines = list(ways_of_roles(roles, signal, access, asker))
    for line in lines or ["nobody"]:
        print(f"{asker.slot}.{signal}: {line}")


def whocan(arguments: argparse.Namespace) -> None:
    """Tells who can bring signals about. Raises Failed."""
    path = pathlib.Path(arguments.policy)
    policy = read_policy_file(path)
    slots = slots_of(tables_of(read_text(path, "the policy")).get("slots"))
    access = Access(policy)
    roles = roles_named(arguments.roles, access)
    signals = [signal_of(written, policy, slots) for written in arguments.signal]
    with lab_of(arguments) as lab:
        for slot in dict.fromkeys(slot for slot, _ in signals):
            subject = read_subject([path.parent / policy.modules[slot][1]], arguments.main)
            asker = Asker(lab, slot, subject, arguments.most)
            for name in (name for other, name in signals if other == slot):
                tell(name, roles, access, asker)
