"""Shortest circles of links."""
from __future__ import annotations

from typing import Callable, Dict, Iterable, List, Tuple, TypeVar

Place = TypeVar("Place")
Link = TypeVar("Link")


def shortest_circle(
    start: Place, links_from: Callable[[Place], Iterable[Tuple[Link, Place]]]
) -> List[Link]:
    """A shortest chain of links that leads from a place back to it; empty where there is none.

    `links_from` gives the links from a place, each with the place that it leads to."""
    chains: Dict[Place, List[Link]] = {start: []}
    line = [start]
    for place in line:
        links = list(links_from(place))
        closing = [link for link, target in links if target == start]
        if closing:
            return chains[place] + closing[:1]
        new = {target: link for link, target in reversed(links) if target not in chains}
        chains.update({target: chains[place] + [link] for target, link in new.items()})
        line += reversed(list(new))
    return []
