#!/usr/bin/env python3
"""Makes surveys in which one number is wrong: those that `explain` exists for.

    surveys.py FOLDER [--shapes SHAPE ...] [--sizes POINTS:SIGHTS ...] [--mistakes MISTAKE ...]

Writes a folder for each shape, size and range of weights into FOLDER, and in it a folder for each mistake with the files that
`../settle/make_networks.py` writes. Unlike its networks, these have setups of several sights, with an instrument height and a pole of some
height, and all sights but the wrong ones agree within millimetres.
"""

import argparse
import sys
from pathlib import Path
from random import Random
from typing import Callable, Dict, Iterator, List, NamedTuple, Sequence, Tuple

HERE = Path(__file__).resolve().parent
sys.path.insert(0, str(HERE.parent / "settle"))
from make_networks import MAX_WEIGHT, SPREAD_IN_STEPS, STEPS_PER_METRE, Network, name_of, terrain, tied_points, word, write  # noqa: E402

SEED = 7
# What is wrong, in steps of a hundredth of a millimetre: an instrument height by 5 m, a pole by 50 cm, a benchmark or a sight by 1 m.
INSTRUMENT_OFF = 5 * STEPS_PER_METRE
POLE_OFF = STEPS_PER_METRE // 2
METRE_OFF = STEPS_PER_METRE
PILLARS = 3
STATIONS_OF_DAM = 5
NEXT_OF_RAILWAY = 5
SIGHTS_OF_SITE = 20


class Plan(NamedTuple):
    """The setups of a survey, each a station and the targets of its sights, in the order of the book; and the benchmarks."""

    setups: List[Tuple[int, List[int]]]
    benchmarks: List[int]


class Sight(NamedTuple):
    """A sight as its book has it, in steps: the height difference of word 33, and the height of the pole as it was keyed in."""

    target: int
    raised: int
    pole: int


class Setup(NamedTuple):
    """A station, the height of its instrument as it was keyed in, in steps, and its sights."""

    station: int
    instrument: int
    sights: List[Sight]


class Survey(NamedTuple):
    """Setups in the order of the book, the true heights of all points, and those of the benchmarks as their table has them, in steps."""

    setups: List[Setup]
    heights: List[int]
    benchmarks: Dict[int, int]


# Shapes


def loop(points: int, sights: int, rng: Random) -> Plan:
    """Each point sights the next one as often as there are sights for it; the last one sights the first, which is the benchmark."""
    return Plan([(point, [(point + 1) % points] * max(1, sights // points)) for point in range(points)], [0])


def line(points: int, sights: int, rng: Random) -> Plan:
    """A loop that was not closed, with a benchmark at each end."""
    return Plan(loop(points, sights, rng).setups[:-1], [0, points - 1])


def rounds(stations: List[int], targets: List[int], sights: int) -> List[Tuple[int, List[int]]]:
    """Setups on these stations in turn, each of which sights all targets, until there are so many sights."""
    whole, rest = divmod(sights, len(targets))
    setups = [(stations[k % len(stations)], targets) for k in range(whole)]
    return setups + ([(stations[whole % len(stations)], targets[:rest])] if rest else [])


def pillars(points: int, sights: int, rng: Random) -> Plan:
    """Three pillars, two of which are benchmarks, from which all other points are sighted."""
    return Plan(rounds(list(range(PILLARS)), list(range(PILLARS, points)), sights), [0, 1])


def dam(points: int, sights: int, rng: Random) -> Plan:
    """Stations off the dam, which are benchmarks, sight all points on it, epoch after epoch."""
    stations = list(range(STATIONS_OF_DAM))
    return Plan(rounds(stations, list(range(STATIONS_OF_DAM, points)), sights), stations)


def railway(points: int, sights: int, rng: Random) -> Plan:
    """A line of points, each of which sights the next five, epoch after epoch; a benchmark at each end."""
    epoch = [(a, list(range(a + 1, min(a + 1 + NEXT_OF_RAILWAY, points)))) for a in range(points - 1)]
    return Plan([epoch[k % len(epoch)] for k in range(sights // NEXT_OF_RAILWAY)], [0, points - 1])


def site(points: int, sights: int, rng: Random) -> Plan:
    """Stations among the points, each of which sights some of those around it when it is set up."""
    stations = list(range(0, points, 8))
    around = [1 + k for k in range(min(24, points - 1))]
    setups = [(station, [(station + rng.choice(around)) % points for _ in range(SIGHTS_OF_SITE)])
              for station in (stations[k % len(stations)] for k in range(sights // SIGHTS_OF_SITE))]
    return Plan(setups, list(range(0, points, 40)) if points > 40 else [0, points // 2])


SHAPES: Dict[str, Callable[[int, int, Random], Plan]] = {
    "loop": loop,
    "line": line,
    "pillars": pillars,
    "dam": dam,
    "railway": railway,
    "site": site,
}
# Points and sights of each shape: a loop and a line have ten sights a leg, or four.
SIZES: Dict[str, Tuple[str, ...]] = {
    "loop": ("100:1000", "400:4000", "1000:10000", "4000:40000"),
    "line": ("400:1600", "400:4000", "1000:4000", "1000:10000", "4000:16000", "4000:40000"),
    "pillars": ("200:2000", "400:4000", "4000:40000"),
    "dam": ("400:4000", "4000:40000"),
    "railway": ("400:4000", "4000:40000"),
    "site": ("400:4000", "4000:40000"),
    "two sets": ("400:4000", "4000:40000"),
}


# The least and the greatest weight. Where all legs weigh much, none is weak, and a mistake can be spread over them in many ways.
WEIGHTS: Tuple[Tuple[int, int], ...] = ((1, 1), (1, MAX_WEIGHT), (MAX_WEIGHT // 2, MAX_WEIGHT))
# Those that stand for a shape where it does not matter what is wrong: a wrong entry, and two sets as they are.
PLAIN_MISTAKES = ("entry", "as they are")


# Sights of a plan


def network_of(survey: Survey) -> Network:
    sights = [(setup, sight) for setup in survey.setups for sight in setup.sights]
    pairs = [(setup.station, sight.target) for setup, sight in sights]
    return Network(pairs, [sight.raised + setup.instrument - sight.pole for setup, sight in sights], survey.benchmarks)


def tied(survey: Survey) -> Survey:
    """The survey without the setups that are not tied to a benchmark."""
    points = tied_points(network_of(survey))
    return survey._replace(setups=[setup for setup in survey.setups if setup.station in points])


def observed(plan: Plan, heights: List[int], rng: Random) -> List[Setup]:
    """The setups of a plan, observed with errors of a millimetre, by an instrument and a pole of ordinary heights."""
    setups = []
    for station, targets in plan.setups:
        instrument, pole = rng.randrange(140_000, 170_000), rng.choice((130_000, 155_000, 200_000))
        risen = [heights[target] - heights[station] + round(rng.gauss(0, SPREAD_IN_STEPS)) for target in targets]
        setups.append(Setup(station, instrument, [Sight(target, rise - instrument + pole, pole) for target, rise in zip(targets, risen)]))
    return setups


def surveyed(plan: Plan, points: int, rng: Random) -> Survey:
    heights = terrain(points, rng)
    return Survey(observed(plan, heights, rng), heights, {point: heights[point] for point in plan.benchmarks})


def two_sets(points: int, sights: int, rng: Random) -> Survey:
    """Two surveys of all points, each of setups with ten sights to any others, which contradict each other by metres. Both begin at the
    benchmark."""
    survey, setups = surveyed(Plan([], [0]), points, rng), []
    for heights in (survey.heights, terrain(points, rng)):
        stations = [0] + [rng.randrange(points) for _ in range(sights // 20 - 1)]
        plan = Plan([(a, [(a + rng.randrange(1, points)) % points for _ in range(10)]) for a in stations], [0])
        setups += observed(plan, heights, rng)
    return tied(survey._replace(setups=setups))


# Mistakes


MIDDLE = 0.5


def placed(where: float, count: int) -> int:
    """The place of so many that is at this part of them."""
    return min(int(where * count), count - 1)


def in_setup(survey: Survey, where: float, change: Callable[[Setup], Setup]) -> Survey:
    """A survey in which one setup is changed."""
    setups, place = list(survey.setups), placed(where, len(survey.setups))
    setups[place] = change(setups[place])
    return survey._replace(setups=setups)


def raised_from(setup: Setup, first: int, last: int, steps: int) -> Setup:
    """A setup some of whose sights read so much more."""
    changed = [sight._replace(raised=sight.raised + steps) if first <= k < last else sight for k, sight in enumerate(setup.sights)]
    return setup._replace(sights=changed)


def forgotten_in(setup: Setup) -> Setup:
    """The pole was changed for the second half of the sights, and not keyed in."""
    return raised_from(setup, len(setup.sights) // 2, len(setup.sights), POLE_OFF)


def wrong_entry(survey: Survey, where: float = MIDDLE) -> Survey:
    return in_setup(survey, where, lambda setup: setup._replace(instrument=setup.instrument + INSTRUMENT_OFF))


def forgotten_change(survey: Survey, where: float = MIDDLE) -> Survey:
    return in_setup(survey, where, forgotten_in)


def forgotten_changes(survey: Survey, where: float = MIDDLE) -> Survey:
    """A forgotten change in each setup."""
    return survey._replace(setups=[forgotten_in(setup) for setup in survey.setups])


def wrong_sight(survey: Survey, where: float = MIDDLE) -> Survey:
    return in_setup(survey, where, lambda setup: raised_from(setup, len(setup.sights) // 2, len(setup.sights) // 2 + 1, METRE_OFF))


def wrong_benchmark(survey: Survey, where: float = MIDDLE) -> Survey:
    """The last benchmark is wrong. Where there is one alone, another point is one too, since nothing shows that a single one is wrong."""
    point = list(survey.benchmarks)[-1] if len(survey.benchmarks) > 1 else placed(where, len(survey.heights))
    return survey._replace(benchmarks={**survey.benchmarks, point: survey.heights[point] + METRE_OFF})


Mistake = Callable[..., Survey]
MISTAKES: Dict[str, Mistake] = {
    "entry": wrong_entry,
    "change": forgotten_change,
    "benchmark": wrong_benchmark,
    "sight": wrong_sight,
}
# Mistakes of one shape alone.
MORE_MISTAKES: Dict[str, Dict[str, Mistake]] = {"pillars": {"changes": forgotten_changes}}


# Files


def book_of(survey: Survey) -> str:
    lines = []
    for station, instrument, sights in survey.setups:
        lines.append(f"*110001+{name_of(station):0>16} {word('84', 0)} {word('85', 0)} {word('86', 0)} {word('88', instrument)} ")
        lines += [f"*110002+{name_of(target):0>16} {word('33', raised)} {word('87', pole)} " for target, raised, pole in sights]
    return "\n".join(lines) + "\n"


def write_survey(folder: Path, survey: Survey, weights: Dict[Tuple[int, int], int]) -> None:
    write(folder, network_of(survey), weights, book_of(survey))


def some_weights(survey: Survey, least: int, most: int, rng: Random) -> Dict[Tuple[int, int], int]:
    return {pair: rng.randint(least, most) for pair in sorted(set(network_of(survey).pairs))}


def mistaken(shape: str, points: int, sights: int, rng: Random) -> Iterator[Tuple[str, Survey]]:
    """The surveys of a shape with each of its mistakes. Two sets contradict each other as they are."""
    if shape == "two sets":
        yield "as they are", two_sets(points, sights, rng)
        return
    survey = surveyed(SHAPES[shape](points, sights, rng), points, rng)
    for name, mistake in {**MISTAKES, **MORE_MISTAKES.get(shape, {})}.items():
        yield name, mistake(survey)


# Surveys at random


def rekeyed(setup: Setup, rng: Random) -> Setup:
    """A setup in which the pole was changed before some sight, and its new height keyed in."""
    first, higher = rng.randrange(len(setup.sights)), rng.choice((-20_000, 1, 50_000))
    changed = [sight._replace(raised=sight.raised + higher, pole=sight.pole + higher) if k >= first else sight
               for k, sight in enumerate(setup.sights)]
    return setup._replace(sights=changed)


def random_survey(points: int, sights: int, rng: Random) -> Tuple[str, Survey]:
    """A survey of any shape, some of whose poles were changed and keyed in, with up to three mistakes anywhere; and what it is."""
    shape = rng.choice(list(SIZES))
    survey = two_sets(points, sights, rng) if shape == "two sets" else surveyed(SHAPES[shape](points, sights, rng), points, rng)
    survey = survey._replace(setups=[rekeyed(setup, rng) if rng.randrange(4) == 0 else setup for setup in survey.setups])
    mistakes = [rng.choice(list(MISTAKES)) for _ in range(rng.randrange(4))]
    for name in mistakes:
        survey = MISTAKES[name](survey, rng.random())
    return " ".join([shape, *mistakes]), survey


# Folders


def make(folder: Path, shape: str, size: str, mistakes: Sequence[str] = ()) -> List[Path]:
    """The folders of the surveys of a shape, one for each range of weights and mistake, or those with these mistakes alone."""
    points, sights = map(int, size.split(":"))
    folders = []
    for name, survey in mistaken(shape, points, sights, Random(SEED)):
        if mistakes and name not in mistakes:
            continue
        for least, most in WEIGHTS:
            folders.append(folder / f"{shape}, {size}, weights {least} to {most}" / name)
            write_survey(folders[-1], survey, some_weights(survey, least, most, Random(SEED)))
    return folders


def main() -> int:
    parser = argparse.ArgumentParser(description="Makes surveys in which one number is wrong.")
    parser.add_argument("folder", type=Path)
    parser.add_argument("--shapes", nargs="+", choices=list(SIZES), default=list(SIZES))
    parser.add_argument("--sizes", nargs="+", help="points and sights, in place of the sizes of each shape")
    parser.add_argument("--mistakes", nargs="+", default=[], help="the mistakes to be made, in place of all")
    chosen = parser.parse_args()
    for shape in chosen.shapes:
        for size in chosen.sizes or SIZES[shape]:
            make(chosen.folder, shape, size, chosen.mistakes)
    return 0


if __name__ == "__main__":
    sys.exit(main())
