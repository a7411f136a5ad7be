#!/usr/bin/env python3
"""Tries the laws of the review on small random networks, over all heights on a grid and all sets of points.

    try_laws.py [--networks N] [--seed S]

Nothing here is a proof: it shows that the definitions say what surveyors mean. For each network the strengths and the controls
of reliability.py are compared with the least cut over all sets of points. Then true heights are chosen, all observations but
one fit them, and the heights that cost least are found among all heights on a grid: a mistake shows, hides or ties just as
its control says; the same for the sights of one entry; and blunders move a point no further than its strength allows. What a
number explains, and its proposed values, are compared with the cost of the survey at each change of that number.
Prints the seed and what was tried. Status 0 only where no law failed.
"""

import argparse
import sys
from itertools import product
from random import Random
from typing import Callable, Dict, Iterator, List, Optional, Set

from freed import Number, Survey, benchmark_numbers, freed, sight_numbers
from network import Heights, Network, Observation, anchored_points, best_flows, cost_of, value_of
from reliability import Entry, controls_of, mistake_of, shared_mistake_of, strengths_of
from tables import reader

DEFAULT_NETWORKS = 1_000
DEFAULT_SEED = 20_240_607
FREE = (b"A", b"B", b"C")
FIXED = (b"BM1", b"BM2")
LARGEST_TRUE_HEIGHT = 1
LARGEST_ERROR = 2
GRID = range(-LARGEST_TRUE_HEIGHT - 2 * LARGEST_ERROR, LARGEST_TRUE_HEIGHT + 2 * LARGEST_ERROR + 1)


# Networks


def random_network(rng: Random) -> Optional[Network]:
    """Some points over one or two benchmarks, with observations that fit height zero; none where a point is not anchored."""
    points = list(FREE[: rng.randint(1, len(FREE))] + FIXED[: rng.randint(1, len(FIXED))])
    observations = []
    for line in range(1, rng.randint(2, 9)):
        station, target = rng.sample(points, 2)
        observations.append(Observation(station, target, 0, 1, line, rng.choice((1, 1, 1, 2, 3))))
    benchmarks = {point: 0 for point in points if point in FIXED}
    if set(points) - anchored_points(observations, benchmarks):
        return None
    return Network(observations, points, benchmarks)


def networks(rng: Random, count: int) -> Iterator[Network]:
    while count > 0:
        network = random_network(rng)
        if network is not None:
            count -= 1
            yield network


def fitting(network: Network, truth: Heights, errors: List[int]) -> Network:
    """The network with differences that are off the true ones by these errors."""
    observations = [own._replace(difference=truth[own.target] - truth[own.station] + error)
                    for own, error in zip(network.observations, errors)]
    return network._replace(observations=observations, benchmarks={point: truth[point] for point in network.benchmarks})


def free_points(network: Network) -> List[bytes]:
    return [point for point in network.points if point not in network.benchmarks]


def least_heights(network: Network) -> List[Heights]:
    """All heights on the grid that keep the benchmarks and cost least. The grid is wide enough: no height of a corner lies outside."""
    free = free_points(network)
    tried = [{**network.benchmarks, **dict(zip(free, heights))} for heights in product(GRID, repeat=len(free))]
    costs = [cost_of(network, heights) for heights in tried]
    return [heights for heights, cost in zip(tried, costs) if cost == min(costs)]


# Cuts over all sets of points


def free_sets(network: Network) -> Iterator[Set[bytes]]:
    free = free_points(network)
    for chosen in product((False, True), repeat=len(free)):
        yield {point for point, is_in in zip(free, chosen) if is_in}


def crosses(inside: Set[bytes], own: Observation) -> bool:
    return (own.station in inside) != (own.target in inside)


def cut(network: Network, inside: Set[bytes]) -> int:
    return sum(own.weight for own in network.observations if crosses(inside, own))


def least_over(network: Network, is_meant: Callable[[Set[bytes]], bool]) -> Optional[int]:
    return min((cut(network, inside) for inside in free_sets(network) if is_meant(inside)), default=None)


def shared_over_sets(network: Network, group: List[Observation]) -> str:
    """What a mistake that some observations share would do, over all free sets that hold a point."""
    words = {"shows"}
    for inside in filter(None, free_sets(network)):
        own = sum(observation.weight for observation in group if crosses(inside, observation))
        rest = cut(network, inside) - own
        if rest == 0 and all(crosses(inside, observation) for observation in group):
            words.add("unchecked")
        elif rest < own:
            words.add("drags")
        elif rest == own:
            words.add("ties")
    return next(word for word in ("unchecked", "drags", "ties", "shows") if word in words)


# Laws. Each gives what failed, in words, or nothing.


def numbers_are_cuts(network: Network, _: Random) -> List[str]:
    failures = []
    for point, strength in strengths_of(network).items():
        if strength != least_over(network, lambda inside: point in inside):
            failures.append(f"the strength of {point!r}")
    for own, control in zip(network.observations, controls_of(network)):
        wanted = least_over(network, lambda inside: crosses(inside, own))
        if control != (None if wanted is None else wanted - own.weight):
            failures.append(f"the control of line {own.line}")
    return failures


def true_heights(network: Network, rng: Random) -> Heights:
    return {point: rng.randint(-LARGEST_TRUE_HEIGHT, LARGEST_TRUE_HEIGHT) for point in network.points}


def one_mistake_is_as_its_control_says(network: Network, rng: Random) -> List[str]:
    truth = true_heights(network, rng)
    place = rng.randrange(len(network.observations))
    error = rng.choice((-LARGEST_ERROR, -1, 1, LARGEST_ERROR))
    control = controls_of(network)[place]
    meant = fitting(network, truth, [error if k == place else 0 for k in range(len(network.observations))])
    own = meant.observations[place]
    best = least_heights(meant)
    kind = mistake_of(control, own.weight)
    if kind == "shows":
        holds = best == [truth]
    elif kind == "ties":
        holds = truth in best and any(own.residual(heights) == 0 for heights in best)
    else:
        holds = all(own.residual(heights) == 0 for heights in best)
    return [] if holds else [f"a mistake in line {own.line}, which {kind}"]


def one_entry_is_as_its_cuts_say(network: Network, rng: Random) -> List[str]:
    station = rng.choice(network.observations).station
    lines = [own.line for own in network.observations if own.station == station]
    sights = rng.sample(lines, rng.randint(1, len(lines)))
    entry = Entry(1, min(sights), reader.INSTRUMENT_HEIGHT, station, 0, sights, b"0", min(sights))
    group = [own for own in network.observations if own.line in sights]
    kind = shared_mistake_of(network, entry)
    if kind != shared_over_sets(network, group):
        return [f"the cuts of the entry with sights {sights}"]
    truth = true_heights(network, rng)
    error = rng.choice((-LARGEST_ERROR, -1, 1, LARGEST_ERROR))
    meant = fitting(network, truth, [error if own.line in sights else 0 for own in network.observations])
    best = least_heights(meant)
    holds = {"shows": best == [truth], "ties": truth in best and len(best) > 1, "drags": truth not in best,
             "unchecked": truth not in best}
    return [] if holds[kind] else [f"a mistake in the entry with sights {sights}, which {kind}"]


def points_withstand_blunders(network: Network, rng: Random) -> List[str]:
    truth = true_heights(network, rng)
    # Errors of one unit: along a chain of all points they add up to no more than the grid holds.
    errors = [rng.choice((0, 0, -1, 1)) for _ in network.observations]
    meant = fitting(network, truth, errors)
    is_blunder = [rng.random() < 0.3 for _ in errors]
    blunders = sum(own.weight for own, is_own in zip(meant.observations, is_blunder) if is_own)
    others = sum(own.weight * abs(own.residual(truth)) for own, is_own in zip(meant.observations, is_blunder) if not is_own)
    failures = []
    strengths: Dict[bytes, Optional[int]] = strengths_of(network)
    for heights in least_heights(meant):
        for point in free_points(network):
            if abs(heights[point] - truth[point]) * (strengths[point] - 2 * blunders) > 2 * others:
                failures.append(f"the strength of {point!r} against blunders")
    return failures


def changed(network: Network, number: Number, change: int) -> Network:
    """The network with one number changed, as the page defines it."""
    if number.kind == "benchmark":
        return network._replace(benchmarks={**network.benchmarks, number.station: number.given + change})
    step = -change if number.kind == "reflector" else change
    observations = [own._replace(difference=own.difference + step) if place in number.places else own
                    for place, own in enumerate(network.observations)]
    return network._replace(observations=observations)


def some_numbers(network: Network, rng: Random) -> List[Number]:
    """The sights, the benchmarks, and some sights of one station as an entry of each kind."""
    station = rng.choice(network.observations).station
    places = [place for place, own in enumerate(network.observations) if own.station == station]
    chosen = tuple(rng.sample(places, rng.randint(1, len(places))))
    entries = [Number(kind, 1, 1, station, b"", chosen, rng.randint(-5, 5)) for kind in ("instrument", "reflector")]
    return sight_numbers(network) + benchmark_numbers(network) + entries


def freed_is_least_over_all_changes(network: Network, rng: Random) -> List[str]:
    errors = [rng.choice((0, 0, -1, 1, LARGEST_ERROR)) for _ in network.observations]
    meant = fitting(network, true_heights(network, rng), errors)
    cost = value_of(meant, best_flows(meant))
    most = 2 * sum(map(abs, errors)) + LARGEST_ERROR
    failures = []
    for number in some_numbers(meant, rng):
        own = freed(Survey(meant, cost, 0, []), number)
        costs = {change: value_of(*with_flows(changed(meant, number, change))) for change in range(-most, most + 1)}
        least = [number.given + change for change, value in costs.items() if value == min(costs.values())]
        wanted = (own.explains == 0) if number.given in least else (own.low, own.high) == (least[0], least[-1])
        if own.left != min(costs.values()) or not wanted:
            failures.append(f"{number} set free: {own}, and not {min(costs.values())} at {least}")
    return failures


def with_flows(network: Network) -> tuple:
    return network, best_flows(network)


LAWS = (numbers_are_cuts, one_mistake_is_as_its_control_says, one_entry_is_as_its_cuts_say, points_withstand_blunders,
        freed_is_least_over_all_changes)


def main() -> int:
    parser = argparse.ArgumentParser(description="Tries the laws of the review on small random networks.")
    parser.add_argument("--networks", type=int, default=DEFAULT_NETWORKS, help="how many networks")
    parser.add_argument("--seed", type=int, default=DEFAULT_SEED, help="where the random numbers begin")
    chosen = parser.parse_args()
    rng = Random(chosen.seed)
    failed = 0
    for network in networks(rng, chosen.networks):
        for law in LAWS:
            for failure in law(network, rng):
                failed += 1
                print(f"{law.__name__}: {failure} of {network}")
    print(f"seed {chosen.seed}: {chosen.networks} networks, {len(LAWS)} laws, {failed} failures")
    return 1 if failed else 0


if __name__ == "__main__":
    sys.exit(main())
