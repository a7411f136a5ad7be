"""What a mistake would do in a network: strengths, controls, entries and benchmarks, as the review of docs/FORMATS.md defines them.

Each number is the least cut between two vertices, found by augmenting paths. The ground stands for all benchmarks.
Nothing here is fast: a network of some dozens of points is large for it.
"""

from collections import defaultdict, deque
from typing import Callable, Dict, Iterable, List, NamedTuple, Optional, Set, Tuple

from network import Network, Observation, vertex_of
from tables import reader

Vertex = Optional[bytes]
Edge = Tuple[Vertex, Vertex, int]
SOURCE = b"\x00source"  # no name has this byte
KINDS = ((reader.REFLECTOR_HEIGHT, "reflector"), (reader.INSTRUMENT_HEIGHT, "instrument"))


class Entry(NamedTuple):
    """A keyed-in height that at least one sight uses: where its first word is and in which unit, the lines of its sights, and the last
    line whose word repeats it in the setup, which is its own if none does."""

    book: int
    line: int
    word: bytes
    station: bytes
    length: int
    sights: List[int]
    unit: bytes
    repeated: int


class Benchmark(NamedTuple):
    """A row of the table of benchmarks: the places of the observations with an end there, and what a wrong height would do."""

    name: bytes
    height: int
    places: Set[int]
    weight: int
    strength: Optional[int]  # none where there is no other benchmark
    mistake: Optional[str]  # none where no observation has an end there


# Least cuts


def least_cut(edges: Iterable[Edge], source: Vertex, sink: Vertex) -> int:
    """The least weight of the edges with exactly one end in a set that holds the source and not the sink."""
    room: Dict[Vertex, Dict[Vertex, int]] = defaultdict(lambda: defaultdict(int))
    for one, other, weight in edges:
        if one != other:
            room[one][other] += weight
            room[other][one] += weight
    value = 0
    while True:
        before: Dict[Vertex, Vertex] = {source: source}
        queue = deque([source])
        while queue and sink not in before:
            vertex = queue.popleft()
            for following, left in room[vertex].items():
                if left > 0 and following not in before:
                    before[following] = vertex
                    queue.append(following)
        if sink not in before:
            return value
        way = [sink]
        while way[-1] != source:
            way.append(before[way[-1]])
        steps = list(zip(way[1:], way))
        most = min(room[tail][head] for tail, head in steps)
        for tail, head in steps:
            room[tail][head] -= most
            room[head][tail] += most
        value += most


def edges_of(network: Network, among: Callable[[Observation], bool] = lambda _: True) -> List[Edge]:
    return [(vertex_of(network, own.station), vertex_of(network, own.target), own.weight)
            for own in network.observations if among(own)]


# Points and observations


def strengths_of(network: Network) -> Dict[bytes, Optional[int]]:
    """For each point the least cut of the sets that hold it and no benchmark; none for a benchmark."""
    edges = edges_of(network)
    return {point: None if point in network.benchmarks else least_cut(edges, point, None) for point in network.points}


def controls_of(network: Network) -> List[Optional[int]]:
    """For each observation the weight of the others that check it; none between two benchmarks."""
    edges = edges_of(network)
    found: Dict[Tuple[Vertex, Vertex], int] = {}
    controls: List[Optional[int]] = []
    for own in network.observations:
        ends = (vertex_of(network, own.station), vertex_of(network, own.target))
        if ends == (None, None):
            controls.append(None)
            continue
        # A set without benchmarks holds exactly one of the ends: the other one, or the ground, is outside.
        if ends not in found:
            found[ends] = found[ends[::-1]] = least_free_cut(edges, *ends)
        controls.append(found[ends] - own.weight)
    return controls


def least_free_cut(edges: List[Edge], one: Vertex, other: Vertex) -> int:
    """The least cut of the sets that hold exactly one of two vertices, and not the ground."""
    return min(least_cut(merged(edges, without), within, None)
               for within, without in ((one, other), (other, one)) if within is not None)


def merged(edges: List[Edge], vertex: Vertex) -> List[Edge]:
    """The edges with a vertex made one with the ground."""
    def place(own: Vertex) -> Vertex:
        return None if own == vertex else own
    return [(place(one), place(other), weight) for one, other, weight in edges]


def mistake_of(control: Optional[int], weight: int) -> str:
    if control is None or control > weight:
        return "shows"
    if control == weight:
        return "ties"
    return "hides" if control > 0 else "unchecked"


# Entries


def entries_of(number: int, book: bytes) -> List[Entry]:
    """The entries of a book without a fault, in the order of lines, word 87 before word 88."""
    station: Optional[bytes] = None
    last: Dict[bytes, Entry] = {}
    entries: List[Entry] = []
    for line, text in enumerate(reader.split_into_lines(book), start=1):
        words = [] if reader.is_blank(text) else reader.read_block(text)
        if reader.is_setup(words):
            entries, station, last = entries + list(last.values()), reader.name_of(words[0].data), {}
        for word, _ in KINDS:
            if station is not None and reader.has_counting_word(words, word):
                first = reader.counting_words(words, word)[0]
                if word in last and last[word].length == reader.length_of(first):
                    last[word] = last[word]._replace(repeated=line)
                    continue
                entries += [last[word]] if word in last else []
                last[word] = Entry(number, line, word, station, reader.length_of(first), [], first.unit(), line)
        if reader.is_sight(words):
            for entry in last.values():
                entry.sights.append(line)
    entries += list(last.values())
    return sorted((entry for entry in entries if entry.sights), key=lambda entry: (entry.line, entry.word))


def crosses_alone(network: Network, entry: Entry, own: List[Observation], rest: List[Edge]) -> bool:
    """Whether all sights of an entry cross some free set and no other observation does. Then that set has whole parts of the network
    without the sights: the station's part alone, or all parts of the targets."""
    part: Dict[Vertex, Vertex] = {}

    def top(vertex: Vertex) -> Vertex:
        while vertex in part:
            vertex = part[vertex]
        return vertex
    for one, other, _ in rest:
        if top(one) != top(other):
            part[top(one)] = top(other)
    station = top(vertex_of(network, entry.station))
    targets = {top(vertex_of(network, observation.target)) for observation in own}
    return station not in targets and (station != top(None) or top(None) not in targets)


def shared_mistake_of(network: Network, entry: Entry) -> str:
    """What a mistake in an entry would do: for each free point, the best that the sets holding it can save."""
    def is_own(observation: Observation) -> bool:
        return observation.book == entry.book and observation.line in entry.sights
    own = [observation for observation in network.observations if is_own(observation)]
    rest = edges_of(network, lambda observation: not is_own(observation))
    station = vertex_of(network, entry.station)
    targets = [(vertex_of(network, observation.target), observation.weight) for observation in own]
    weight = sum(observation.weight for observation in own)
    free = [point for point in network.points if point not in network.benchmarks]
    most = sum(observation.weight for observation in network.observations) + 1
    worst = "shows"
    for point in free:
        forced = [(SOURCE, point, most)]
        ways = []
        if station is not None:
            ways.append(rest + forced + [(SOURCE, station, most)] + [(target, None, own_weight) for target, own_weight in targets])
        if point != entry.station:
            ways.append(merged(rest + forced, station) + [(SOURCE, target, own_weight) for target, own_weight in targets])
        for edges in ways:
            value = least_cut(edges, SOURCE, None)
            if value < weight:
                return "unchecked" if crosses_alone(network, entry, own, rest) else "drags"
            if value == weight:
                worst = "ties"
    return worst


# Benchmarks


def benchmarks_of(network: Network) -> List[Benchmark]:
    """The benchmarks in the order of their table."""
    found = []
    for name, height in network.benchmarks.items():
        places = {place for place, own in enumerate(network.observations) if name in (own.station, own.target)}
        weight = sum(network.observations[place].weight for place in places)
        strength = benchmark_strength(network, name) if len(network.benchmarks) > 1 else None
        found.append(Benchmark(name, height, places, weight, strength, wrong_height(network, name, places) if places else None))
    return found


def benchmark_strength(network: Network, name: bytes) -> int:
    """The least cut between a benchmark and all others, which the ground stands for."""
    def place(point: bytes) -> Vertex:
        return None if point != name and point in network.benchmarks else point
    return least_cut([(place(own.station), place(own.target), own.weight) for own in network.observations], name, None)


def wrong_height(network: Network, name: bytes, places: Set[int]) -> str:
    """What a wrong height of a benchmark would do: for each free point, the best that the sets holding it can save.

    An observation of the benchmark costs its weight where its other end stays behind, so it is an edge from the source to there."""
    own = [network.observations[place] for place in places]
    rest = edges_of(network, lambda observation: name not in (observation.station, observation.target))
    ends = [(vertex_of(network, observation.target if observation.station == name else observation.station), observation.weight)
            for observation in own]
    weight = sum(observation.weight for observation in own)
    most = sum(observation.weight for observation in network.observations) + 1
    worst = "shows"
    for point in network.points:
        if point in network.benchmarks:
            continue
        value = least_cut(rest + [(SOURCE, end, own_weight) for end, own_weight in ends] + [(SOURCE, point, most)], SOURCE, None)
        if value < weight:
            return "unchecked" if reaches_no_benchmark(rest, {end for end, _ in ends}) else "drags"
        if value == weight:
            worst = "ties"
    return worst


def reaches_no_benchmark(edges: List[Edge], ends: Set[Vertex]) -> bool:
    """Whether no way along the edges leads from one of the ends to the ground."""
    seen = set(ends)
    todo = list(ends)
    while todo:
        vertex = todo.pop()
        for one, other, _ in edges:
            for here, there in ((one, other), (other, one)):
                if here == vertex and there not in seen:
                    seen.add(there)
                    todo.append(there)
    return None not in seen
