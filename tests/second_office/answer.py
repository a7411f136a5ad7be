"""What explanations mean for sights, heights and benchmarks: docs/PAGE.md. Lengths are in units of 10 nm."""

from typing import List, NamedTuple, Optional

from explain import Explanation
from freed import Freed, Number, Survey, benchmark_numbers, changed_network, differences_read, freed, freed_network, mildest_change
from markings import Others, Span
from network import Heights, Network, best_flows, cost_of, lowest_heights
from notes import Outlier, far_beyond, outlier_of

MOST_OTHERS, MOST_ASKED = 100, 1_600_000_000
# The groups of sights: in question, stays marked, cleared, unlike the others, fits.
GROUPS = ("a", "s", "c", "v", "q")

class Answer(NamedTuple):
    """The group of each sight, the heights that each point has if one of the first numbers moves it, the heights that are drawn, what is
    said of the first benchmarks, and the outlier."""

    groups: List[str]
    moved: List[Optional[Span]]
    drawn: List[int]
    others: List[Others]
    outlier: Optional[Outlier]


class PutRight(NamedTuple):
    """A first number that has its mildest proposed value: the network, and its lowest best heights."""

    number: Number
    network: Network
    heights: Heights


# The first numbers


def put_right(survey: Survey, row: Freed) -> PutRight:
    """A book is put right by reading word 33 as it is."""
    own = row.number
    network = freed_network(survey, own) if own.kind == "book" else changed_network(survey.network, own, mildest_change(own, row.low, row.high))
    return PutRight(own, network, lowest_heights(network, best_flows(network)))


def is_marked(network: Network, heights: Heights, place: int, limit: int) -> bool:
    return abs(network.observations[place].residual(heights)) > limit


# Sights


def group_of(place: int, firsts: List[PutRight], marked: bool, stays: bool, unlike: bool) -> str:
    """The first group that applies."""
    if any(place in own.number.places for own in firsts):
        return "a"
    if marked:
        return "s" if stays else "c"
    return "v" if unlike else "q"


def groups_of(network: Network, heights: Heights, firsts: List[PutRight], limit: int) -> List[str]:
    places = range(len(network.observations))
    marked = [is_marked(network, heights, place, limit) for place in places]
    stays = [all(is_marked(own.network, own.heights, place, limit) for own in firsts) for place in places]
    unlike = [] if firsts or any(marked) else [own.observation for own in far_beyond(network, heights, limit)]
    return [group_of(place, firsts, marked[place], stays[place], network.observations[place] in unlike) for place in places]


# Heights


def moved_of(low: int, heights: List[int], limit: int) -> Optional[Span]:
    return (min(heights), max(heights)) if any(abs(own - low) > limit for own in heights) else None


# Benchmarks


def others_of(survey: Survey) -> List[Others]:
    """What the others say of the first benchmarks. One is not differed from within reach alone."""
    network = survey.network
    numbers = {own.station: own for own in benchmark_numbers(network)}
    most = min(MOST_OTHERS, MOST_ASKED // max(1, len(network.observations)) ** 2)
    found = []
    for name in list(network.benchmarks)[:most]:
        own = freed(survey, numbers[name]) if name in numbers else None
        differs = own is not None and own.explains > 0 and own.is_within_reach(network)
        found.append(Others(own is not None, (own.low, own.high) if differs else None))
    return found


# All of it


def answer_of(network: Network, low: Heights, explanation: Explanation, books: List[bytes]) -> Answer:
    """What the printed rows with number 1 mean for a network with these lowest best heights."""
    limit = explanation.limit
    survey = Survey(network, cost_of(network, low), limit, differences_read(network, books))
    firsts = [put_right(survey, row) for number, row in explanation.rows if number == 1]
    alone = firsts[0].heights if len(firsts) == 1 else low
    moved = [moved_of(low[name], [own.heights[name] for own in firsts], limit) for name in network.points]
    return Answer(groups_of(network, low, firsts, limit), moved, [alone[name] for name in network.points], others_of(survey),
                  outlier_of(network, low, limit))
