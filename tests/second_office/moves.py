"""What a mistake that does not show would move, and what would be blamed for it, as docs/FORMATS.md defines it.

All sets of free points are tried, so a network of more than a dozen free points is too large: then nothing is said of it.
"""

from itertools import combinations
from typing import FrozenSet, Iterator, List, NamedTuple, Optional, Set

from network import Network

MOST_FREE_POINTS = 12


class Blame(NamedTuple):
    """How many points move, how many observations are blamed, and the number of the heaviest of these."""

    moves: int
    blames: int
    blamed: Optional[int]


class FreeSet(NamedTuple):
    """How many points a set of free points has, and the places of the observations with exactly one end in it."""

    points: int
    crossing: FrozenSet[int]


def subsets(points: List[bytes]) -> Iterator[Set[bytes]]:
    for count in range(1, len(points) + 1):
        for chosen in combinations(points, count):
            yield set(chosen)


def free_sets(network: Network) -> Optional[List[FreeSet]]:
    """The sets of free points that hold a point; nothing where there are too many."""
    free = [point for point in network.points if point not in network.benchmarks]
    if len(free) > MOST_FREE_POINTS:
        return None
    return [FreeSet(len(inside), frozenset(place for place, own in enumerate(network.observations)
                                           if (own.station in inside) != (own.target in inside))) for inside in subsets(free)]


def blame_of(network: Network, own: FreeSet, mistaken: Set[int]) -> Blame:
    blamed = sorted(own.crossing - mistaken)
    heaviest = max(blamed, key=lambda place: network.observations[place].weight, default=None)
    return Blame(own.points, len(blamed), None if heaviest is None else heaviest + 1)


def value_of(network: Network, own: FreeSet, mistaken: Set[int]) -> int:
    return sum(-network.observations[place].weight if place in mistaken else network.observations[place].weight for place in own.crossing)


def blames_of(network: Network, sets: List[FreeSet], mistaken: Set[int]) -> Set[Blame]:
    """What each set of the least value would move and have blamed. For one observation these are the sets of its control, unless it shows."""
    least = min(value_of(network, own, mistaken) for own in sets)
    return {blame_of(network, own, mistaken) for own in sets if value_of(network, own, mistaken) == least}
