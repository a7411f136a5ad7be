"""The numbers of a survey that somebody read or typed, and what the survey costs with one of them set free: docs/FORMATS.md, the section
on `explain`.

Each number is set free by solving the network that is left without it, plainly and from nothing. Nothing here is fast: a network of some
dozens of observations is large for it.
"""

from fractions import Fraction
from typing import Dict, Iterator, List, NamedTuple, Optional, Tuple

from network import (Heights, Network, anchored_points, best_flows, bounds_of, highest_heights, least_labels, lowest_heights, value_of,
                     vertex_of)
from reliability import entries_of
from tables import reader

OWN = b"\x00own"  # the point from which the sights of a number are taken; no name has this byte
FIRST_RECORD = 2  # the header is record 1
LARGEST_DIFFERENCE = 3 * reader.LARGEST_LENGTH
# How a change of a word changes the differences of its sights.
SIGNS = {reader.INSTRUMENT_HEIGHT: 1, reader.REFLECTOR_HEIGHT: -1}
# The kinds of numbers, and the order of rows that explain equally.
KINDS = ("instrument", "reflector", "instrument since", "reflector since", "sight", "benchmark", "book")
RANKS = dict(zip(KINDS, (0, 1, 2, 2, 3, 4, 5)))
WORDS = {"instrument": b"88", "reflector": b"87", "instrument since": b"88", "reflector since": b"87", "sight": b"", "benchmark": b"",
         "book": b"33"}


class Number(NamedTuple):
    """A number of a survey: where it is, its sights as places of observations, and its value. A book has none."""

    kind: str
    book: Optional[int]
    line: Optional[int]
    station: bytes
    target: bytes
    places: Tuple[int, ...]
    given: Optional[int]

    def word(self) -> bytes:
        return WORDS[self.kind]

    def order(self) -> tuple:
        """Where the number stands among those that explain equally."""
        return RANKS[self.kind], self.book or 0, self.line or 0, -int(self.word() or b"0")


class Freed(NamedTuple):
    """What a number explains: the cost that is left, the lowest and the highest proposed value, and the marks that are left."""

    number: Number
    explains: int
    left: int
    low: Optional[int]
    high: Optional[int]
    blunders: int

    def is_beyond(self, limit: Fraction) -> bool:
        """Whether even the mildest proposed value is more than the limit away."""
        given = self.number.given
        return self.explains > 0 and (self.low > given + limit or self.high < given - limit)

    def is_within_reach(self, network: Network) -> bool:
        """Whether the differences that are changed stay such that a book could hold them."""
        largest = max(abs(network.observations[place].difference) for place in self.number.places)
        return max(abs(self.low - self.number.given), abs(self.high - self.number.given)) + largest < LARGEST_DIFFERENCE


# The numbers


def entry_numbers(network: Network, books: List[bytes]) -> Iterator[Tuple[Number, List[Number]]]:
    """The entries of two or more sights, each with its endings of two or more sights, but not all."""
    place_at = {(own.book, own.line): place for place, own in enumerate(network.observations)}
    for count, book in enumerate(books, start=1):
        for entry in entries_of(count, book):
            kind = "instrument" if entry.word == reader.INSTRUMENT_HEIGHT else "reflector"
            places = tuple(place_at[count, line] for line in entry.sights)
            whole = Number(kind, count, entry.line, entry.station, b"", places, entry.length)
            endings = [whole._replace(kind=f"{kind} since", line=entry.sights[first], places=places[first:])
                       for first in range(1, len(places) - 1)]
            if len(places) > 1:
                yield whole, endings


def sight_numbers(network: Network) -> List[Number]:
    return [Number("sight", own.book, own.line, own.station, own.target, (place,), own.difference)
            for place, own in enumerate(network.observations)]


def benchmark_numbers(network: Network) -> List[Number]:
    """The benchmarks whose part of the network has another one."""
    numbers = []
    for record, (name, height) in enumerate(network.benchmarks.items(), start=FIRST_RECORD):
        part = anchored_points(network.observations, {name: height})
        places = tuple(place for place, own in enumerate(network.observations) if name in (own.station, own.target))
        if any(other in part for other in network.benchmarks if other != name):
            numbers.append(Number("benchmark", None, record, name, b"", places, height))
    return numbers


def book_numbers(network: Network, count: int) -> List[Number]:
    """The books that have a sight."""
    numbers = []
    for book in range(1, count + 1):
        places = tuple(place for place, own in enumerate(network.observations) if own.book == book)
        if places:
            numbers.append(Number("book", book, None, b"", b"", places, None))
    return numbers


# One number set free


class Survey(NamedTuple):
    """A network with its cost, the limit of blunders, and word 33 of each observation."""

    network: Network
    cost: int
    limit: int
    read: List[int]


def differences_read(network: Network, books: List[bytes]) -> List[int]:
    """Word 33 of each observation."""
    lines = [reader.split_into_lines(book) for book in books]
    blocks = [reader.read_block(lines[own.book - 1][own.line - 1]) for own in network.observations]
    return [reader.length_of(reader.counting_words(block, reader.HEIGHT_DIFFERENCE)[0]) for block in blocks]


def freed_network(survey: Survey, number: Number) -> Network:
    """The network whose least cost is that of the survey with the number set free."""
    network = survey.network
    if number.kind == "benchmark":
        return network._replace(benchmarks={name: height for name, height in network.benchmarks.items() if name != number.station})
    observations = list(network.observations)
    for place in number.places:
        if number.kind == "book":
            observations[place] = observations[place]._replace(difference=survey.read[place])
        else:
            observations[place] = observations[place]._replace(station=OWN)
    points = network.points + ([] if number.kind == "book" else [OWN])
    return Network(observations, points, network.benchmarks)


def changes_of(network: Network, flows: List[int], station: bytes) -> Tuple[int, int]:
    """The lowest and the highest that the sights' own point is over their station in best heights."""
    bounds = bounds_of(network, flows)
    vertex, ground = vertex_of(network, station), network.benchmarks.get(station, 0)
    up = least_labels([(bound.lower, bound.upper, bound.rise) for bound in bounds], vertex)[OWN]
    down = least_labels([(bound.upper, bound.lower, bound.rise) for bound in bounds], vertex)[OWN]
    return -down - ground, up - ground


def proposed_of(network: Network, flows: List[int], number: Number) -> Tuple[Optional[int], Optional[int]]:
    """The lowest and the highest value that costs least."""
    if number.kind == "book":
        return None, None
    if number.kind == "benchmark":
        return lowest_heights(network, flows)[number.station], highest_heights(network, flows)[number.station]
    low, high = changes_of(network, flows, number.station)
    if number.kind.startswith("reflector"):
        low, high = -high, -low
    return number.given + low, number.given + high


def marks_of(network: Network, heights: Heights, limit: int) -> int:
    return sum(abs(own.residual(heights)) > limit for own in network.observations)


def lowest_marks(network: Network, limit: int) -> int:
    """How many blunders an adjustment marks."""
    return marks_of(network, lowest_heights(network, best_flows(network)), limit)


def changed_network(network: Network, number: Number, change: int) -> Network:
    """The network with a number changed."""
    if number.kind == "benchmark":
        return network._replace(benchmarks={**network.benchmarks, number.station: number.given + change})
    sign = -1 if number.kind.startswith("reflector") else 1
    observations = [own._replace(difference=own.difference + sign * change) if place in set(number.places) else own
                    for place, own in enumerate(network.observations)]
    return network._replace(observations=observations)


def freed(survey: Survey, number: Number) -> Freed:
    """A number that explains nothing has no proposed values here: the given one is among them."""
    network = freed_network(survey, number)
    flows = best_flows(network)
    left = value_of(network, flows)
    if left == survey.cost:
        return Freed(number, 0, left, None, None, 0)
    low, high = proposed_of(network, flows, number)
    if number.kind == "book":
        return Freed(number, survey.cost - left, left, low, high, lowest_marks(network, survey.limit))
    change = mildest_change(number, low, high)
    return Freed(number, survey.cost - left, left, low, high, lowest_marks(changed_network(survey.network, number, change), survey.limit))


def mildest_change(number: Number, low: int, high: int) -> int:
    """From the given value to the nearest one that is proposed."""
    return min(max(low, number.given), high) - number.given


def least_in_reach(survey: Survey, own: Freed) -> int:
    """What a number leaves where it changes so far that no difference with the change is above the largest."""
    if own.explains == 0:
        return own.left
    network, number = survey.network, own.number
    reach = LARGEST_DIFFERENCE - max(abs(network.observations[place].difference) for place in number.places)
    change = mildest_change(number, own.low, own.high)
    if abs(change) <= reach:
        return own.left
    network = changed_network(network, number, reach if change > 0 else -reach)
    return value_of(network, best_flows(network))


# The rows


def numbers_in_rows(survey: Survey, numbers: List[Freed]) -> List[Freed]:
    """Those beyond the limit; and if there are some, those beyond half of it that explain as much as the best of them."""
    reached = [own for own in numbers if own.explains > 0 and own.is_within_reach(survey.network)]
    beyond = [own for own in reached if own.is_beyond(Fraction(survey.limit))]
    best = max((own.explains for own in beyond), default=None)
    milder = [own for own in reached if best is not None and own.explains >= best and own.is_beyond(Fraction(survey.limit, 2))]
    return beyond + [own for own in milder if own not in beyond]


def freed_entries(survey: Survey, books: List[bytes]) -> Tuple[List[Freed], Dict[str, int]]:
    """The entries and their endings, and how many of each there are. An ending must leave no more than its whole entry."""
    numbers: List[Freed] = []
    counts = {"entries": 0, "changes": 0}
    for whole, endings in entry_numbers(survey.network, books):
        counts["entries"] += 1
        counts["changes"] += len(endings)
        explained = freed(survey, whole)
        least = least_in_reach(survey, explained)
        numbers += [explained] + [own for own in (freed(survey, ending) for ending in endings) if own.left <= least]
    return numbers, counts


def rows_of(survey: Survey, books: List[bytes]) -> Tuple[List[Freed], Dict[str, int]]:
    """All rows that pass the filter, in order, and how many numbers of each kind were set free."""
    network = survey.network
    numbers, counts = freed_entries(survey, books)
    sights, benchmarks, read = sight_numbers(network), benchmark_numbers(network), book_numbers(network, len(books))
    rows = numbers_in_rows(survey, numbers + [freed(survey, number) for number in sights + benchmarks])
    rows += [own for own in (freed(survey, number) for number in read) if 10 * own.left < survey.cost]
    rows.sort(key=lambda own: (-own.explains, own.number.order()))
    return rows, {"sights": len(sights), **counts, "benchmarks": len(benchmarks), "books": len(read)}
