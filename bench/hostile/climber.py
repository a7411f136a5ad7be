"""Searches for networks on which a command is slow for their size.

It begins with random networks, of `../settle/make_networks.py` and of `../explain/surveys.py`. Again and again it changes one of the slowest
so far: sights are added, removed and moved, setups split, repeated and left out, weights, poles and benchmarks changed, and mistakes made.
Changes of a whole stripe, as each third setup, make patterns that a change of one setup at a time would never reach. What is slower for
each sight than the least slow of those that were kept takes its place.
"""

import sys
import time
from pathlib import Path
from random import Random
from typing import Callable, Dict, Iterator, List, NamedTuple, Optional, Tuple

BENCH = Path(__file__).resolve().parents[1]
sys.path[:0] = [str(BENCH), str(BENCH / "settle"), str(BENCH / "explain")]

import make_networks  # noqa: E402
import surveys  # noqa: E402
from common import Command, usage_of  # noqa: E402
from surveys import Setup, Sight, Survey, network_of, tied, write_survey  # noqa: E402

KEPT = 8
# Runs of a network, of which the fastest counts; and how many random networks it begins with.
REPEATS = 2
BEGINNINGS = 24
MOST_EDITS = 4
MOST_SECONDS = 60
WEIGHTS = (1, 2, 3, 10, 499, 500, 999, make_networks.MAX_WEIGHT)
# What a height may be off by, in steps of a hundredth of a millimetre: from below to far above the limit of blunders.
OFFS = (1, 50, 1_900, 2_100, 10_000, 50_000, 500_000, 5_000_000)
STRIPES = (1, 2, 3, 5, 10)

Weights = Dict[Tuple[int, int], int]


class State(NamedTuple):
    """A survey, the weights of its pairs where they are not 1, and from what it was made."""

    survey: Survey
    weights: Weights
    origin: str

    @property
    def sights(self) -> int:
        return sum(len(setup.sights) for setup in self.survey.setups)


class Found(NamedTuple):
    """A network and the processor time of a command on it."""

    seconds: float
    state: State

    @property
    def per_sight(self) -> float:
        return self.seconds / self.state.sights


class Climb(NamedTuple):
    """What is searched for: how a command line is made of a folder, the most points and sights, and the time."""

    command_on: Callable[[Path], Command]
    points: int
    sights: int
    minutes: float
    seed: int


# Beginnings


def survey_of(network: make_networks.Network, points: int) -> Survey:
    """A network of the benchmark of settling as a survey: a setup for each row of sights from one station."""
    setups: List[Setup] = []
    for (tail, head), rise in zip(network.pairs, network.rises):
        if not setups or setups[-1].station != tail:
            setups.append(Setup(tail, 0, []))
        setups[-1].sights.append(Sight(head, make_networks.in_word(rise), 0))
    heights = [network.benchmarks.get(point, 0) for point in range(points)]
    return Survey(setups, heights, network.benchmarks)


def beginning(climb: Climb, rng: Random) -> State:
    least, most = rng.choice(surveys.WEIGHTS)
    if rng.randrange(4):
        origin, survey = surveys.random_survey(climb.points, climb.sights, rng)
    else:
        origin = rng.choice(list(make_networks.KINDS))
        network = make_networks.connected(make_networks.KINDS[origin](climb.points, climb.sights, rng))
        survey = survey_of(network, climb.points)
    return State(survey, surveys.some_weights(survey, least, most, rng), origin)


# Changes of a setup


def off(rng: Random) -> int:
    return rng.choice((-1, 1)) * rng.choice(OFFS)


def another(station: int, points: int, rng: Random) -> int:
    """A point that is not the station: mostly one that is near in number."""
    hop = rng.choice((1, 2, 3, rng.randrange(1, points)))
    return (station + rng.choice((-1, 1)) * hop) % points if hop % points else (station + 1) % points


def with_sight(setup: Setup, place: int, sight: Optional[Sight]) -> Setup:
    """A setup with another sight in a place, or without it."""
    changed = list(setup.sights)
    changed[place : place + 1] = [] if sight is None else [sight]
    return setup._replace(sights=changed)


def add_sight(setup: Setup, points: int, rng: Random) -> Setup:
    own = rng.choice(setup.sights)
    target = own.target if rng.randrange(2) else another(setup.station, points, rng)
    return setup._replace(sights=setup.sights + [own._replace(target=target)])


def remove_sight(setup: Setup, points: int, rng: Random) -> Setup:
    return with_sight(setup, rng.randrange(len(setup.sights)), None)


def move_sight(setup: Setup, points: int, rng: Random) -> Setup:
    place = rng.randrange(len(setup.sights))
    return with_sight(setup, place, setup.sights[place]._replace(target=another(setup.station, points, rng)))


def miss_sight(setup: Setup, points: int, rng: Random) -> Setup:
    place = rng.randrange(len(setup.sights))
    return with_sight(setup, place, setup.sights[place]._replace(raised=setup.sights[place].raised + off(rng)))


def miss_entry(setup: Setup, points: int, rng: Random) -> Setup:
    return setup._replace(instrument=setup.instrument + off(rng))


def forget_change(setup: Setup, points: int, rng: Random) -> Setup:
    return surveys.raised_from(setup, rng.randrange(len(setup.sights)), len(setup.sights), off(rng))


def key_change(setup: Setup, points: int, rng: Random) -> Setup:
    return surveys.rekeyed(setup, rng)


SETUP_EDITS = (add_sight, remove_sight, move_sight, miss_sight, miss_entry, forget_change, key_change)


# Changes of a network


def of_stripe(state: State, rng: Random) -> State:
    """One kind of change of a setup, of each so manieth setup of a row, or of one alone."""
    edit, setups = rng.choice(SETUP_EDITS), list(state.survey.setups)
    step, first = rng.choice(STRIPES), rng.randrange(len(setups))
    last = min(len(setups), first + rng.choice((1, 10 * step, len(setups))))
    same = rng.randrange(1 << 30)
    for place in range(first, last, step):
        own = Random(same) if rng.randrange(2) else rng
        setups[place] = edit(setups[place], len(state.survey.heights), own)
    return state._replace(survey=state.survey._replace(setups=[setup for setup in setups if setup.sights]))


def of_row(state: State, rng: Random) -> State:
    """A row of setups is repeated, left out, or split into setups of half as many sights."""
    setups = list(state.survey.setups)
    first = rng.randrange(len(setups))
    last = min(len(setups), first + rng.choice((1, 5, 50)))
    row = setups[first:last]
    halves = [setup._replace(sights=half) for setup in row
              for half in (setup.sights[: len(setup.sights) // 2], setup.sights[len(setup.sights) // 2 :]) if half]
    setups[first:last] = rng.choice(([], row + row, halves))
    return state._replace(survey=state.survey._replace(setups=setups))


def of_weights(state: State, rng: Random) -> State:
    """All pairs of a stripe get another weight."""
    pairs = sorted(set(network_of(state.survey).pairs))
    step, first = rng.choice(STRIPES), rng.randrange(len(pairs))
    last = first + rng.choice((1, 10 * step, len(pairs)))
    weight = rng.choice(WEIGHTS)
    return state._replace(weights={**state.weights, **{pair: weight for pair in pairs[first:last:step]}})


def of_benchmarks(state: State, rng: Random) -> State:
    """A benchmark more or less, or a wrong one."""
    benchmarks, point = dict(state.survey.benchmarks), rng.randrange(len(state.survey.heights))
    if len(benchmarks) > 1 and rng.randrange(2):
        del benchmarks[rng.choice(list(benchmarks))]
    else:
        benchmarks[point] = benchmarks.get(point, state.survey.heights[point]) + (off(rng) if rng.randrange(2) else 0)
    return state._replace(survey=state.survey._replace(benchmarks=benchmarks))


EDITS = (of_stripe, of_stripe, of_stripe, of_row, of_weights, of_benchmarks)


def changed(state: State, rng: Random) -> State:
    for _ in range(rng.randint(1, MOST_EDITS)):
        if state.survey.setups:
            state = rng.choice(EDITS)(state, rng)
    return state._replace(survey=tied(state.survey))


# The search


def write_state(folder: Path, state: State) -> None:
    pairs = set(network_of(state.survey).pairs)
    write_survey(folder, state.survey, {pair: state.weights.get(pair, 1) for pair in sorted(pairs)})


def measured(climb: Climb, state: State, folder: Path) -> Optional[Found]:
    """What a command takes on a network: nothing if it has another size, or the command refuses it. With fewer than half of the sights, the
    start of the process would count for most of the time."""
    if not climb.sights // 2 <= state.sights <= climb.sights:
        return None
    write_state(folder, state)
    seconds = []
    for _ in range(REPEATS):
        with (folder / "printed").open("wb") as file:
            usage = usage_of(climb.command_on(folder), MOST_SECONDS, stdout=file, stderr=file)
        if usage.status > 0:
            return None
        seconds.append(usage.processor_seconds)
    return Found(min(seconds), state)


def candidates(climb: Climb, kept: List[Found], rng: Random) -> Iterator[State]:
    """Networks to be tried until the time is over. `kept` changes meanwhile."""
    end = time.monotonic() + 60 * climb.minutes
    tried = 0
    while time.monotonic() < end:
        yield beginning(climb, rng) if tried < BEGINNINGS or not kept else changed(rng.choice(kept).state, rng)
        tried += 1


def climbed(climb: Climb, folder: Path) -> Optional[Found]:
    """The slowest network that was found. Each that is slower than all before is printed."""
    kept: List[Found] = []
    worst = 0.0
    for count, state in enumerate(candidates(climb, kept, Random(climb.seed)), 1):
        found = measured(climb, state, folder)
        if found is None:
            continue
        kept.append(found)
        kept.sort(key=lambda one: -one.per_sight)
        del kept[KEPT:]
        if found.per_sight > worst:
            worst = found.per_sight
            print(f"{count:6} {found.seconds:8.3f} s  {state.sights:6} sights  {1e6 * worst:10.1f} us a sight  {state.origin}", flush=True)
    return kept[0] if kept else None
