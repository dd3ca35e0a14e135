"""What a caller may see: each permission is asked of the program, by `check` on the own session."""
from typing import Any, Awaitable, Callable, Dict, Iterable, List, Tuple

from ..refusals import failed, not_allowed
from ..words import Context

Pair = Tuple[str, str]
OVERSIGHT: Tuple[Pair, ...] = (("administer", "policy"), ("audit", "policy"))
TRIES = 50  # a read is made anew where permissions changed meanwhile, 50 times at most


class Rights:
    """The answers to `check` on one session, within one read: each pair is asked once.

    Without a session nothing is allowed. The answers are dropped with the read."""

    def __init__(self, session: Any) -> None:
        self._session = session
        self._told: Dict[Pair, bool] = {}

    async def may(self, operation: str, object: str) -> bool:
        """Whether the session may do the operation on the object."""
        pair = operation, object
        if self._session is None:
            return False
        if pair not in self._told:
            asked = {"cmd": "check", "object": object, "op": operation}
            self._told[pair] = (await self._session.ask_answer(asked)).get("allowed") is True
        return self._told[pair]

    async def may_any(self, pairs: Iterable[Pair]) -> bool:
        """Whether the session may do one of these at least."""
        for operation, object in pairs:
            if await self.may(operation, object):
                return True
        return False

    async def oversees(self) -> bool:
        """Whether the session may see the policy and the entries of others."""
        return await self.may_any(OVERSIGHT)


async def read_by_one_policy(
    context: Context, compose: Callable[[Rights], Awaitable[Dict[str, Any]]]
) -> Dict[str, Any]:
    """What `compose` answers, asked and composed while nobody's permissions were changed.

    So nothing is shown by a permission that was gone by then. Raises Refused."""
    state = context.gateway.reads
    for _ in range(TRIES):
        models, revision = state.models, state.policy.revision
        answer = await compose(Rights(context.session))
        if models is state.models and state.policy.revision == revision:
            return answer
    raise failed("the policy changes too fast to be read; ask again")


def refuse_others(what: str) -> Exception:
    """The refusal of what only those may see who may `administer` or `audit`."""
    return not_allowed(f"{what} needs administer or audit on policy")


def own_users(context: Context) -> List[str]:
    """The policy users whose part of the policy is the caller's own: the one of its session.

    Without a session these are all that the person may be."""
    return list(context.person.users) if context.session is None else [context.session.user]
