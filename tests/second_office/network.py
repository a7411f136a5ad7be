"""The network of observations and tables, its best heights, and what shows that they are best: sections 4 and 5 of docs/FORMATS.md.

Heights, differences and costs are whole numbers of units of 10 nm. Nothing here is fast: a network of a few hundred
observations is large for it.
"""

from typing import Dict, List, NamedTuple, Optional, Tuple

from tables import Pair

MOST_OBSERVATIONS = 40_000
MOST_POINTS = 4_000

Heights = Dict[bytes, int]


class NetworkFault(Exception):
    """The fault of a network, in words."""

    def __init__(self, kind: str, words: str) -> None:
        super().__init__(kind, words)
        self.kind = kind
        self.words = words


class Observation(NamedTuple):
    """An observed height difference, with where it stands and what it weighs."""

    station: bytes
    target: bytes
    difference: int
    book: int
    line: int
    weight: int

    def residual(self, heights: Heights) -> int:
        return self.difference - (heights[self.target] - heights[self.station])


class Sight(NamedTuple):
    """A sight of a book: what it observed, and where it stands."""

    station: bytes
    target: bytes
    difference: int
    book: int
    line: int


class Network(NamedTuple):
    """Observations in order, points in point order, and the heights of the benchmarks."""

    observations: List[Observation]
    points: List[bytes]
    benchmarks: Heights


def points_of(sights: List[Sight], benchmarks: Heights) -> List[bytes]:
    """The names in order of first sight, the station before the target, then the benchmarks that no sight names."""
    named = [name for sight in sights for name in (sight.station, sight.target)]
    return list(dict.fromkeys(named + list(benchmarks)))


def anchored_points(sights: List[Sight], benchmarks: Heights) -> set:
    """The points from which a chain of observations, each taken in either direction, leads to a benchmark."""
    anchored = set(benchmarks)
    grows = True
    while grows:
        found = {name for sight in sights for name in (sight.station, sight.target)
                 if sight.station in anchored or sight.target in anchored}
        grows = not found <= anchored
        anchored |= found
    return anchored


def make_network(sights: List[Sight], benchmarks: Heights, weights: Dict[Pair, int]) -> Network:
    """The network, or its first fault: too many observations, too many points, a point without a benchmark."""
    if len(sights) > MOST_OBSERVATIONS:
        raise NetworkFault("N1", "too many observations")
    points = points_of(sights, benchmarks)
    if len(points) > MOST_POINTS:
        raise NetworkFault("N2", "too many points")
    anchored = anchored_points(sights, benchmarks)
    for point in points:
        if point not in anchored:
            raise NetworkFault("N3", "no benchmark for " + point.decode("ascii"))
    observations = [Observation(*sight, weight=weights.get((sight.station, sight.target), 1)) for sight in sights]
    return Network(observations, points, benchmarks)


def cost_of(network: Network, heights: Heights) -> int:
    return sum(observation.weight * abs(observation.residual(heights)) for observation in network.observations)


# Best heights. All benchmarks are one vertex, the ground. An observation from s to t bounds the height of t over s from above while its
# flow is more than minus its weight, and from below while its flow is less than its weight: where both bounds hold the residual is zero.


class Bound(NamedTuple):
    """The height of `upper` is at most that of `lower` plus `rise`; `observation` is its place, and `step` how a flow along the bound changes it."""

    lower: Optional[bytes]
    upper: Optional[bytes]
    rise: int
    observation: int
    step: int


def vertex_of(network: Network, name: bytes) -> Optional[bytes]:
    """The vertex of a point: None, the ground, for each benchmark."""
    return None if name in network.benchmarks else name


def rise_of(network: Network, observation: Observation) -> int:
    """The observed difference between the vertices, the ground having height zero."""
    benchmarks = network.benchmarks
    return observation.difference + benchmarks.get(observation.station, 0) - benchmarks.get(observation.target, 0)


def bounds_of(network: Network, flows: List[int]) -> List[Bound]:
    bounds = []
    for place, (observation, flow) in enumerate(zip(network.observations, flows)):
        station = vertex_of(network, observation.station)
        target = vertex_of(network, observation.target)
        rise = rise_of(network, observation)
        if flow > -observation.weight:
            bounds.append(Bound(station, target, rise, place, -1))
        if flow < observation.weight:
            bounds.append(Bound(target, station, -rise, place, 1))
    return bounds


def vertices_of(network: Network) -> List[Optional[bytes]]:
    return [None] + [point for point in network.points if point not in network.benchmarks]


def contradiction(network: Network, bounds: List[Bound]) -> Optional[List[Bound]]:
    """Bounds that lead round from a vertex to itself and end below it, if there are any (Bellman and Ford)."""
    vertices = vertices_of(network)
    labels: Dict[Optional[bytes], int] = {vertex: 0 for vertex in vertices}
    entries: Dict[Optional[bytes], Bound] = {}
    changed: Optional[Bound] = None
    for _ in vertices:
        changed = None
        for bound in bounds:
            label = labels[bound.lower] + bound.rise
            if label < labels[bound.upper]:
                labels[bound.upper], entries[bound.upper], changed = label, bound, bound
        if changed is None:
            return None
    assert changed is not None, "there is at least the ground"
    # A vertex that changed in the last round is led to by a round walk: go back until the walk has surely been entered.
    vertex = changed.upper
    for _ in vertices:
        vertex = entries[vertex].lower
    walk = [entries[vertex]]
    while walk[-1].lower != vertex:
        walk.append(entries[walk[-1].lower])
    return walk


def room_of(network: Network, flows: List[int], bound: Bound) -> int:
    """How far the flow can change along a bound."""
    return network.observations[bound.observation].weight - bound.step * flows[bound.observation]


def best_flows(network: Network) -> List[int]:
    """A circulation that shows the best heights: as long as bounds contradict each other, as much as can flows round along them."""
    flows = [0] * len(network.observations)
    while True:
        walk = contradiction(network, bounds_of(network, flows))
        if walk is None:
            return flows
        room = min(room_of(network, flows, bound) for bound in walk)
        for bound in walk:
            flows[bound.observation] += bound.step * room


def value_of(network: Network, flows: List[int]) -> int:
    """The cost of the best heights, from flows that show them. It needs no heights, and exists also where a point has no benchmark."""
    return sum(flow * rise_of(network, observation) for observation, flow in zip(network.observations, flows))


def least_labels(bounds: List[Tuple[Optional[bytes], Optional[bytes], int]], start: Optional[bytes] = None) -> Dict[Optional[bytes], int]:
    """The length of the shortest walk from a vertex, the ground, to each other, none of whose rounds is below zero."""
    labels: Dict[Optional[bytes], int] = {start: 0}
    changed = True
    while changed:
        changed = False
        for tail, head, length in bounds:
            if tail in labels and (head not in labels or labels[tail] + length < labels[head]):
                labels[head] = labels[tail] + length
                changed = True
    return labels


def heights_from(network: Network, labels: Dict[Optional[bytes], int], sign: int) -> Heights:
    return {point: network.benchmarks[point] if point in network.benchmarks else sign * labels[point] for point in network.points}


def highest_heights(network: Network, flows: List[int]) -> Heights:
    """The highest of the best heights: as high as the bounds allow over the ground."""
    bounds = [(bound.lower, bound.upper, bound.rise) for bound in bounds_of(network, flows)]
    return heights_from(network, least_labels(bounds), 1)


def lowest_heights(network: Network, flows: List[int]) -> Heights:
    """The lowest of the best heights: the ground is at most so much above each vertex."""
    bounds = [(bound.upper, bound.lower, bound.rise) for bound in bounds_of(network, flows)]
    return heights_from(network, least_labels(bounds), -1)


# What shows that heights are best


def first_too_large(network: Network, flows: List[int]) -> Optional[int]:
    """The number of the first observation whose flow is larger in size than its weight."""
    for number, (observation, flow) in enumerate(zip(network.observations, flows), start=1):
        if abs(flow) > observation.weight:
            return number
    return None


def first_unbalanced(network: Network, flows: List[int]) -> Optional[bytes]:
    """The first point that is no benchmark at which the flows that arrive and those that leave differ in sum."""
    for point in network.points:
        arriving = sum(flow for observation, flow in zip(network.observations, flows) if observation.target == point)
        leaving = sum(flow for observation, flow in zip(network.observations, flows) if observation.station == point)
        if point not in network.benchmarks and arriving != leaving:
            return point
    return None


def first_not_slack(network: Network, flows: List[int], heights: Heights) -> Optional[int]:
    """The number of the first observation whose flow times residual is not its weight times the residual's size."""
    for number, (observation, flow) in enumerate(zip(network.observations, flows), start=1):
        residual = observation.residual(heights)
        if flow * residual != observation.weight * abs(residual):
            return number
    return None
