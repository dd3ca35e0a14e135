"""What a policy file would change of a policy that is known whole, before anything is sent."""
from __future__ import annotations

from typing import Any, Dict, List, Set, Tuple

from .command_table import KEYS, back_of
from .policy_file import BadPolicy, Interfaces, Kinds, Wish, read_file
from .pruning import exact

Command = Dict[str, Any]
Fact = Tuple[Any, ...]
PLACES = {"assign": "assigned", "grant": "granted", "inherit": "edges"}
NOT_SEEN = "of which you may see nothing"
NAMES = {"addrole": "roles", "adduser": "users"}


def fact_of(command: Command) -> Fact:
    """What a command would make; of a separation set the name alone."""
    cmd = command["cmd"]
    return (cmd, command["name"]) if cmd == "dsd" else (cmd, *[command[key] for key in KEYS[cmd]])


def facts_of(known: Dict[str, Any]) -> Set[Fact]:
    """What a policy has, as what commands would make."""
    found: Set[Fact] = {(cmd, name) for cmd, place in NAMES.items() for name in known[place]}
    found |= {(cmd, *one) for cmd, place in PLACES.items() for one in known[place]}
    return found | {("dsd", one["name"]) for one in known["sets"]}


def is_other_set(command: Command, known: Dict[str, Any]) -> bool:
    """Whether a policy has a separation set of this command's name that is another one."""
    if command["cmd"] != "dsd":
        return False
    wanted = command["count"], sorted(command["roles"])
    sets = {one["name"]: (one["count"], sorted(one["roles"])) for one in known["sets"]}
    return sets.get(command["name"], wanted) != wanted


def needed(wishes: List[Wish], known: Dict[str, Any]) -> Tuple[List[Wish], List[Wish]]:
    """The wishes for what is not there, and those for what is. Before each separation set that is
    there as another one stands that it is taken away, which is taken back by making that one.
    """
    sets, facts = {one["name"]: one for one in known["sets"]}, facts_of(known)
    found: List[Wish] = []
    there: List[Wish] = []
    for wish in wishes:
        is_other = is_other_set(wish.command, known)
        if is_other:
            old = {key: sets[wish.command["name"]][key] for key in KEYS["dsd"]}
            found.append(Wish(wish.line, back_of(wish.command), {"cmd": "dsd", **old}))
        (there if fact_of(wish.command) in facts and not is_other else found).append(wish)
    return found, there


def changes_of(wishes: List[Wish], known: Dict[str, Any]) -> Tuple[List[Wish], int]:
    """The wishes that would make something, one before each separation set that is made anew, and
    how many would not.
    """
    made: List[Wish] = []
    facts, there = facts_of(known), 0
    for wish in wishes:
        if is_other_set(wish.command, known):
            made += [Wish(wish.line, back_of(wish.command)), wish]
        elif fact_of(wish.command) in facts:
            there += 1
        else:
            made.append(wish)
    return made, there


def plan(text: Any, known: Dict[str, Any], kinds: Dict[int, Kinds]) -> Dict[str, Any]:
    """The commands by which the policy that is known becomes what a file asks for: those that `add`,
    those that `take` away what the file doesn't ask for, and how many things are `there`. Patterns
    are spread over the interfaces that are known of slots; of each command that adds, `patterns` has
    the one that it is a part of, or an empty text.

    A file that is none has a `fault`, with its `line`.
    """
    if not isinstance(text, str):
        return {"fault": "there is no text", "line": 1}
    try:
        policy = read_file(text, Interfaces(lambda slot, _: kinds.get(slot), NOT_SEEN))
    except BadPolicy as bad:
        return {"fault": bad.what, "line": bad.line}
    made, there = changes_of(policy.wishes, known)
    told = {"add": [wish.command for wish in made], "patterns": [wish.pattern for wish in made]}
    return {**told, "take": exact(policy, known), "there": there}
