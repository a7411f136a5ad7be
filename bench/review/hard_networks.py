"""Networks on which cuts are hard to find: many flows are long, many ways lead to dead ends, or entries overlap.

Each is made as those of `../settle/make_networks.py` are, with weights of its own. Those of `SETUPS` have setups of two sights, as the
surveys of `../explain/surveys.py` have, so that each setup has an entry of two sights.
"""

import sys
from pathlib import Path
from random import Random
from typing import Callable, Dict, List, Tuple

HERE = Path(__file__).resolve().parent
sys.path[:0] = [str(HERE.parent / "settle"), str(HERE.parent / "explain")]
from make_networks import MAX_WEIGHT, Network, Pair, connected, sighted, some, terrain, write  # noqa: E402
from surveys import Plan, network_of, surveyed, write_survey  # noqa: E402

SEED = 5
FORWARD = 10

Sight = Tuple[int, int, int]


def forward_line(points: int, observations: int, rng: Random, least: int) -> List[Sight]:
    """A line in which each point sights the next ten, as on a railway with forward sights."""
    pairs = [(a, a + step) for a in range(points) for step in range(1, FORWARD + 1) if a + step < points]
    return [(a, b, rng.randint(least, MAX_WEIGHT)) for a, b in pairs[:observations]]


def line_by_distance(points: int, observations: int, rng: Random) -> List[Sight]:
    return [(a, b, MAX_WEIGHT // (b - a)) for a, b, _ in forward_line(points, observations, rng, 1)]


def heavy_line(points: int, observations: int, rng: Random) -> List[Sight]:
    return forward_line(points, observations, rng, MAX_WEIGHT // 2)


def wide_line(points: int, observations: int, rng: Random) -> List[Sight]:
    return forward_line(points, observations, rng, 1)


def ladder(points: int, observations: int, rng: Random) -> List[Sight]:
    """Two rows of points, each joined to both points before it."""
    sights = []
    while len(sights) < observations:
        rung = rng.randrange(points // 2 - 1) if len(sights) >= points // 2 - 1 else len(sights)
        sights += [(2 * rung + rng.randrange(2), 2 * rung + 2 + end, rng.randint(1, MAX_WEIGHT)) for end in (0, 1)]
    return sights[:observations]


def cliques(points: int, observations: int, rng: Random) -> List[Sight]:
    """Sets of ten points that all sight one another, in a line with light links."""
    sights = [(10 * c - 1 - 2 * link, 10 * c + 3 * link, rng.randint(1, 20)) for c in range(1, points // 10) for link in (0, 1)]
    while len(sights) < observations:
        first = 10 * rng.randrange(points // 10)
        a, b = rng.sample(range(10), 2)
        sights.append((first + a, first + b, rng.randint(MAX_WEIGHT // 2, MAX_WEIGHT)))
    return sights


def streets(points: int, observations: int, rng: Random) -> List[Sight]:
    """Rows and columns, some of which are light and some heavy all along."""
    side = max(2, int(points**0.5))
    rows, columns = ([rng.choice((1, MAX_WEIGHT)) for _ in range(side)] for _ in range(2))
    pairs = [(a, b, rows[a // side] if b == a + 1 else columns[a % side])
             for a in range(side * side) for b in (a + 1, a + side) if b < side * side and (b == a + side or b % side)]
    return [(a, b, max(1, most - rng.randrange(most))) for a, b, most in (pairs[i % len(pairs)] for i in range(observations))]


def hanging(points: int, observations: int, rng: Random) -> List[Sight]:
    """A site that hangs on its benchmark by two light sights."""
    sights = [(0, rng.randrange(1, points), weight) for weight in (1, 2)] + [(a, a + 1, rng.randint(1, MAX_WEIGHT)) for a in range(1, points - 1)]
    while len(sights) < observations:
        a = rng.randrange(1, points - 70)
        sights.append((a, a + rng.choice((1, 2, 62, 63, 64)), rng.randint(1, MAX_WEIGHT)))
    return sights


def vine(points: int, observations: int, rng: Random) -> List[Sight]:
    """A tree of sights that are observed twice, with others to points a little before."""
    sights = []
    for b in range(1, points):
        a = max(0, b - 1 - int(rng.expovariate(1 / 5)))
        sights += [(a, b, rng.randint(1, MAX_WEIGHT)) for _ in range(2)]
    while len(sights) < observations:
        b = rng.randrange(21, points)
        sights.append((b, b - 1 - rng.randrange(20), rng.randint(1, MAX_WEIGHT)))
    return sights


KINDS: Dict[str, Callable[[int, int, Random], List[Sight]]] = {
    "line by distance": line_by_distance,
    "heavy line": heavy_line,
    "wide line": wide_line,
    "ladder": ladder,
    "cliques": cliques,
    "streets": streets,
    "hanging": hanging,
    "vine": vine,
}


# Setups with entries of two sights


Setups = List[Tuple[int, List[int]]]


def rungs(points: int) -> Setups:
    """Two rows of points: each sights both points of the next rung, that of its own row and the other one."""
    return [(a, [(a | 1) + 1, (a | 1) + 2]) for a in range(points // 2 * 2 - 2)]


def overlapping(points: int) -> Setups:
    """A row of points: each sights the next two, so that its entry overlaps those of its neighbours."""
    return [(a, [a + 1, a + 2]) for a in range(points - 2)]


def heavy_across(pair: Pair) -> int:
    """A sight to the other row weighs as much as it may, and one along a row as little."""
    return 1 if pair[1] - pair[0] == 2 else MAX_WEIGHT


def heavy_hops(pair: Pair) -> int:
    """Every second sight, that of the point after the next, weighs as much as it may."""
    return MAX_WEIGHT if pair[1] - pair[0] == 2 else 1


SETUPS: Dict[str, Tuple[Callable[[int], Setups], Callable[[Pair], int]]] = {
    "two-row ladder": (rungs, heavy_across),
    "overlapping entries": (overlapping, heavy_hops),
}


# Folders


def make_sights(folder: Path, points: int, observations: int) -> List[Path]:
    folders = []
    for number, (kind, build) in enumerate(KINDS.items()):
        rng = Random(SEED + number)
        sights = sorted(build(points, observations, rng))
        heights = terrain(points, rng)
        pairs = [(a, b) for a, b, _ in sights]
        network = connected(Network(pairs, sighted(pairs, heights, rng), some(heights, [0])))
        folders.append(folder / kind)
        write(folders[-1], network, {(a, b): weight for a, b, weight in sights})
    return folders


def make_setups(folder: Path, points: int, observations: int) -> List[Path]:
    folders = []
    for number, (kind, (build, weight)) in enumerate(SETUPS.items()):
        rng, round_of = Random(SEED + number), build(points)
        survey = surveyed(Plan([round_of[k % len(round_of)] for k in range(observations // 2)], [0]), points, rng)
        folders.append(folder / kind)
        write_survey(folders[-1], survey, {pair: weight(pair) for pair in sorted(set(network_of(survey).pairs))})
    return folders


def make(folder: Path, points: int, observations: int) -> List[Path]:
    """The folders of the networks, one for each kind."""
    return make_sights(folder, points, observations) + make_setups(folder, points, observations)
