"""Commands on a policy with as many roles as there is room for, which lie in a chain: root's on the
first connection, and those of ann, who has the role in the middle, on the second."""

ROLES = 64
ADDED = [f"r{number}" for number in range(1, ROLES)]
MIDDLE, BELOW, LAST = ADDED[31], ADDED[32], ADDED[-1]
CHECK = {"object": "0", "op": "load"}


def filling():
    """Each role, and one too many; each stands above the next, and the last above none of them."""
    yield from ((0, "addrole", {"role": role}) for role in ADDED)
    yield 0, "addrole", {"role": "more"}
    for senior, junior in zip(["root", *ADDED], ADDED):
        yield 0, "inherit", {"junior": junior, "senior": senior}
    yield from ((0, "inherit", {"junior": role, "senior": LAST}) for role in ["root", MIDDLE, LAST])


def in_chain():
    """What the last role may do is held by all above it, as long as the chain is whole."""
    yield 0, "grant", {"role": LAST, **CHECK}
    yield 0, "adduser", {"user": "ann"}
    yield 0, "assign", {"role": MIDDLE, "user": "ann"}
    yield 1, "login", {"roles": ADDED[31:], "user": "ann"}
    yield 1, "drop", {"role": LAST}
    yield from ((number, "check", CHECK) for number in (0, 1))
    yield 0, "disinherit", {"junior": BELOW, "senior": MIDDLE}
    yield from ((number, "check", CHECK) for number in (0, 1))
    yield 1, "logout", {}
    yield 1, "login", {"roles": [LAST], "user": "ann"}
    yield 0, "inherit", {"junior": BELOW, "senior": MIDDLE}
    yield 1, "login", {"roles": [LAST], "user": "ann"}
    yield from ((number, "check", CHECK) for number in (0, 1))


def in_its_place():
    """Another role in the last one's place has nothing of it."""
    yield 0, "delrole", {"role": LAST}
    yield 0, "addrole", {"role": "other"}
    yield 0, "addrole", {"role": LAST}
    yield 1, "logout", {}
    yield 1, "login", {"roles": ["other"], "user": "ann"}
    yield 1, "login", {"roles": [MIDDLE], "user": "ann"}
    yield from ((number, "check", CHECK) for number in (0, 1))
    yield 0, "inherit", {"junior": "other", "senior": ADDED[-2]}
    yield 0, "grant", {"role": "other", **CHECK}
    yield 1, "activate", {"role": "other"}
    yield 1, "drop", {"role": MIDDLE}
    yield from ((number, "check", CHECK) for number in (0, 1))


def steps():
    """The whole story."""
    yield 0, "login", {"roles": ["root"], "user": "root"}
    yield from filling()
    yield from in_chain()
    yield from in_its_place()
