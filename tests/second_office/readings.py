"""The names and signs that fit where rows of `explain` doubt them: docs/FORMATS.md, the section on `explain`."""

from typing import Dict, Iterator, List, NamedTuple, Set, Tuple

from freed import OWN, Freed, Survey, freed_network
from named import uses_of
from network import Network, best_flows, bounds_of, highest_heights, least_labels, lowest_heights, vertex_of
from reliability import Entry
from tables import reader

MOST_FIRST = 3  # rows with number 1 of which readings are looked for
MOST_READINGS = 2  # of a row


class Reading(NamedTuple):
    """A reading that fits: the place of its row, which one it is, the name of the other point, and how far it is off."""

    row: int
    kind: str
    name: bytes
    fit: int


def off(low: int, high: int) -> int:
    """How far 0 is from these lengths."""
    return max(0, low, -high)


def rises_from(network: Network, start: bytes) -> Dict[bytes, Tuple[int, int]]:
    """How high each point is above one of them, over all best heights: the least and the greatest."""
    bounds = bounds_of(network, best_flows(network))
    up = least_labels([(bound.lower, bound.upper, bound.rise) for bound in bounds], vertex_of(network, start))
    down = least_labels([(bound.upper, bound.lower, bound.rise) for bound in bounds], vertex_of(network, start))
    ground = network.benchmarks.get(start, 0)
    above = {point: network.benchmarks.get(point, 0) - ground for point in network.points}
    return {point: (above[point] - down[vertex_of(network, point)], above[point] + up[vertex_of(network, point)]) for point in network.points}


def with_own_end(network: Network, places: Set[int], end: str) -> Network:
    """The network in which some sights run to a point of their own, or are from one."""
    observations = [own._replace(**{end: OWN}) if place in places else own for place, own in enumerate(network.observations)]
    return Network(observations, network.points + [OWN], network.benchmarks)


def points_off(network: Network, places: Set[int], end: str) -> Iterator[Tuple[int, bytes]]:
    """How far each point is from where some sights end or begin, that is no end of them."""
    ends = {name for place in places for name in (network.observations[place].station, network.observations[place].target)}
    rises = rises_from(with_own_end(network, places, end), OWN)
    return ((off(*rises[point]), point) for point in network.points if point not in ends)


def heights_off(survey: Survey, row: Freed) -> Iterator[Tuple[int, bytes]]:
    """How far each point that is no benchmark is from the height of a benchmark."""
    network = freed_network(survey, row.number)
    flows, given = best_flows(network), row.number.given
    low, high = lowest_heights(network, flows), highest_heights(network, flows)
    return ((off(low[point] - given, high[point] - given), point) for point in network.points if point not in survey.network.benchmarks)


def signs_off(survey: Survey, row: Freed) -> Iterator[Tuple[int, bytes]]:
    """How far the other sign of word 33 is from what fits, if the word has a sign."""
    read = survey.read[row.number.places[0]]
    wanted = row.number.given - 2 * read
    return iter([(off(row.low - wanted, row.high - wanted), b"")] if read else [])


def looked_at(survey: Survey, row: Freed, uses: List[Tuple[Entry, Set[int]]]) -> Iterator[Tuple[str, int, bytes]]:
    """All readings of a row, each with how far it is off, in the order of those that are equally near."""
    own, places = row.number, set(row.number.places)
    if own.kind == "sight":
        yield from (("sign", fit, name) for fit, name in signs_off(survey, row))
        yield from (("target", fit, name) for fit, name in points_off(survey.network, places, "target"))
    is_lone = own.kind == "sight" and any(entry.word == reader.INSTRUMENT_HEIGHT and used == places for entry, used in uses)
    if own.kind == "instrument" or is_lone:
        yield from (("station", fit, name) for fit, name in points_off(survey.network, places, "station"))
    if own.kind == "benchmark":
        yield from (("point", fit, name) for fit, name in heights_off(survey, row))


def readings_of(survey: Survey, books: List[bytes], rows: List[Tuple[int, Freed]]) -> List[Reading]:
    """The readings that are named, in the order of rows."""
    first = [(place, row) for place, (number, row) in enumerate(rows) if number == 1]
    if len(first) > MOST_FIRST:
        return []
    uses, named = uses_of(survey.network, books), []
    for place, row in first:
        near = sorted((own for own in looked_at(survey, row, uses) if own[1] <= survey.limit), key=lambda own: own[1])
        named += [Reading(place, kind, name, fit) for kind, fit, name in near[:MOST_READINGS]]
    return named
