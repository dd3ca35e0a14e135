"""What an operator sees: counts of what the gateway did, in Prometheus' text form, and whether it
is well."""
import asyncio
import bisect
import collections
from typing import TYPE_CHECKING, Any, Counter, Dict, Iterator, List, Tuple

if TYPE_CHECKING:
    from .gateway import Gateway

BUCKETS = (0.0005, 0.001, 0.002, 0.005, 0.01, 0.05, 0.2, 1.0)  # seconds of a commit
MOST_CAUSES = 200  # of refusals, that are told apart
NAME = "estserve_team"
Sample = Tuple[str, float]


class Counts:
    """What was counted since the gateway began."""

    def __init__(self) -> None:
        self.restarts = 0
        self.entries = 0
        self.commits: List[int] = [0] * (len(BUCKETS) + 1)
        self.commit_seconds = 0.0
        self.last_commit = 0.0  # by the clock
        self.refusals: Counter[str] = collections.Counter()

    def committed(self, entries: int, seconds: float, now: float) -> None:
        """A transaction is on the disk."""
        self.entries += entries
        self.commit_seconds += seconds
        self.last_commit = now
        self.commits[bisect.bisect_left(BUCKETS, seconds)] += 1

    def refused(self, fault: str) -> None:
        """A command was refused."""
        is_known = fault in self.refusals or len(self.refusals) < MOST_CAUSES
        self.refusals[fault if is_known else "other"] += 1


def fullest(gateway: "Gateway") -> Dict[str, float]:
    """How full each journal and table is, from 0 to 1. Empty, where the record could not be
    followed."""
    from .refusals import Refused

    try:
        fillings = gateway.reads.policy.fillings() + gateway.reads.slots.fillings()
    except Refused:
        return {}
    return {one.what: one.used / one.limit for one in fillings}


def health(gateway: "Gateway") -> Dict[str, Any]:
    """Whether the gateway is well, for whoever asks."""
    full = max(fullest(gateway).values(), default=0.0)
    return {
        "entries": gateway.entries_written,
        "full": int(full * 100),
        "last_commit": round(gateway.counts.last_commit, 3) or None,
        "phase": gateway.phase,
        "ready": gateway.is_serving,
        "restarts": gateway.counts.restarts,
    }


def families(gateway: "Gateway") -> Iterator[Tuple[str, str, str, List[Sample]]]:
    """Each family of samples: its name, its kind, what it is, and its samples by their labels."""
    counts, clients = gateway.counts, list(gateway.clients)
    waiting = sum(client.waiting + getattr(client, "under_way", 0) for client in clients)
    yield "up", "gauge", "Whether the gateway serves.", [("", float(gateway.is_serving))]
    yield "logins", "gauge", "Logins that are held, of sixteen.", [("", len(gateway.sessions))]
    yield "connections", "gauge", "Connections at the Unix sockets.", [("", len(clients))]
    yield "waiting_bytes", "gauge", "Bytes of lines that wait for answers.", [("", waiting)]
    yield "entries", "gauge", "Entries of the record.", [("", gateway.entries_written)]
    yield "restarts_total", "counter", "Times the server was begun anew.", [("", counts.restarts)]
    dropped = gateway.log.lost
    yield "log_lost_total", "counter", "Lines of the log that were dropped.", [("", dropped)]
    causes = sorted(counts.refusals.items())
    refusals = [(f'{{fault="{fault}"}}', float(count)) for fault, count in causes]
    yield "refusals_total", "counter", "Refused commands, by cause.", refusals
    full = [(f'{{what="{what}"}}', used) for what, used in sorted(fullest(gateway).items())]
    yield "full_ratio", "gauge", "How full journals and tables are.", full


def histogram(counts: Counts) -> Iterator[str]:
    """The seconds of commits, by buckets."""
    name, below = f"{NAME}_commit_seconds", 0
    yield f"# HELP {name} Seconds of a commit, its sync included."
    yield f"# TYPE {name} histogram"
    for most, count in zip([*map(str, BUCKETS), "+Inf"], counts.commits):
        below += count
        yield f'{name}_bucket{{le="{most}"}} {below}'
    yield f"{name}_sum {counts.commit_seconds:.6f}"
    yield f"{name}_count {below}"


def metrics(gateway: "Gateway") -> str:
    """All counts, as Prometheus reads them."""
    lines: List[str] = []
    for name, kind, what, samples in families(gateway):
        lines += [f"# HELP {NAME}_{name} {what}", f"# TYPE {NAME}_{name} {kind}"]
        lines += [f"{NAME}_{name}{labels} {value:g}" for labels, value in samples]
    return "\n".join([*lines, *histogram(gateway.counts)]) + "\n"


class CountsClient(asyncio.Protocol):
    """A connection to metrics.sock: it gets the counts, and is ended."""

    def __init__(self, gateway: "Gateway", clients: Any) -> None:
        self._gateway = gateway
        self.uid: Any = None

    def connection_made(self, transport: Any) -> None:
        transport.write(metrics(self._gateway).encode())
        transport.close()

    def connection_lost(self, fault: Any) -> None:
        uid, self.uid = self.uid, None
        if uid is not None:
            self._gateway.accounts.disconnect(uid)
