#!/usr/bin/env python3
"""Makes the networks of the benchmark.

    make_networks.py FOLDER [--points N] [--observations N] [--blunders N] [--one-wrong] [--towers]

Writes a folder for each network into FOLDER: `book.gsi`, `benchmarks.csv` and `weights.csv`, which `settle` is given, and `network.txt`,
the same network by vertices, for other solvers: the numbers of vertices and links, and then a line 'tail head difference weight' for each
link (vertex 0 stands for all benchmarks; lengths in units of 10 nm). Each kind is made with weights of 1 and with weights of 1 to 1,000.
One observation in twenty is a blunder; --blunders says in how many, and 0 that none is. With --one-wrong the middle one is wrong by a metre. With --towers it makes two networks that are hard for the guide.
"""

import argparse
import sys
from pathlib import Path
from random import Random
from typing import Callable, Dict, List, NamedTuple, Optional, Set, Tuple

SEED = 11
UNITS_PER_METRE = 100_000_000
# A word of a book with the unit digit 8 counts hundredths of a millimetre.
UNITS_PER_STEP = 1_000
STEPS_PER_METRE = UNITS_PER_METRE // UNITS_PER_STEP
# The greatest height of an instrument or reflector, and the greatest height difference of a word 33.
MOST_IN_WORD = 10_000 * STEPS_PER_METRE
SPREAD_IN_STEPS = 60
BLUNDERS_IN = 20
MAX_WEIGHT = 1_000
blunders_in = BLUNDERS_IN
# The sights of a tower.
TOWER = 100

Pair = Tuple[int, int]


class Network(NamedTuple):
    """Pairs of points that were sighted, the steps by which each sight rises, and the points that are benchmarks."""

    pairs: List[Pair]
    rises: List[int]
    benchmarks: Dict[int, int]


def sighted(pairs: List[Pair], heights: List[int], rng: Random) -> List[int]:
    """The rise of each pair by these heights, with a random error; one in twenty is a blunder."""
    rises = []
    for tail, head in pairs:
        rise = heights[head] - heights[tail] + round(rng.gauss(0, SPREAD_IN_STEPS))
        if blunders_in and rng.randrange(blunders_in) == 0:
            rise += rng.choice((-1, 1)) * rng.choice((100, 1_000, 10_000, rng.randrange(100, 100_000), rng.randrange(1_000_000)))
        rises.append(rise)
    return rises


def terrain(points: int, rng: Random, relief: int = 20) -> List[int]:
    return [rng.randrange(relief * STEPS_PER_METRE) for _ in range(points)]


def some(heights: List[int], points: List[int]) -> Dict[int, int]:
    return {point: heights[point] for point in points}


def building_site(points: int, observations: int, rng: Random) -> Network:
    """Stations among the points, each of which sights those around it."""
    heights = terrain(points, rng)
    stations = list(range(0, points, 8))
    pairs = []
    while len(pairs) < observations:
        station = rng.choice(stations)
        pairs.append((station, (station + rng.randrange(1, 25)) % points))
    return Network(pairs, sighted(pairs, heights, rng), some(heights, list(range(0, points, 40))))


def railway(points: int, observations: int, rng: Random) -> Network:
    """A line of points, each of which sights the next five; a benchmark at each end."""
    heights = [point * 300 for point in range(points)]
    pairs = [(i % points, min(i % points + 1 + i // points % 5, points - 1)) for i in range(observations)]
    pairs = [(a, b) if a != b else (b - 1, b) for a, b in pairs]
    return Network(pairs, sighted(pairs, heights, rng), some(heights, [0, points - 1]))


def dam(points: int, observations: int, rng: Random) -> Network:
    """A few stations off the dam sight all points on it, epoch after epoch."""
    heights = terrain(points, rng, 100)
    pairs = [(i % 5, 5 + i // 5 % (points - 5)) for i in range(observations)]
    return Network(pairs, sighted(pairs, heights, rng), some(heights, list(range(5))))


def chain(points: int, observations: int, rng: Random) -> Network:
    """Points in a row, each sighted from the one before it; a benchmark at each end."""
    heights = terrain(points, rng)
    pairs = [(i % (points - 1), i % (points - 1) + 1) for i in range(observations)]
    return Network(pairs, sighted(pairs, heights, rng), some(heights, [0, points - 1]))


def ring(points: int, observations: int, rng: Random) -> Network:
    heights = terrain(points, rng)
    pairs = [(i % points, (i + 1) % points) for i in range(observations)]
    return Network(pairs, sighted(pairs, heights, rng), some(heights, [0]))


def star(points: int, observations: int, rng: Random) -> Network:
    heights = terrain(points, rng)
    pairs = [(0, 1 + i % (points - 1)) for i in range(observations)]
    return Network(pairs, sighted(pairs, heights, rng), some(heights, [0]))


def one_pair(points: int, observations: int, rng: Random) -> Network:
    heights = [0, STEPS_PER_METRE]
    pairs = [(0, 1)] * observations
    return Network(pairs, sighted(pairs, heights, rng), some(heights, [0]))


def conflict(points: int, observations: int, rng: Random) -> Network:
    """Two sets of observations of the same pairs, which contradict each other by metres."""
    first, second = terrain(points, rng), terrain(points, rng)
    pairs = [(rng.randrange(points), rng.randrange(points - 1)) for _ in range(observations)]
    pairs = [(a, b if b < a else b + 1) for a, b in pairs]
    half = observations // 2
    rises = sighted(pairs[:half], first, rng) + sighted(pairs[half:], second, rng)
    return Network(pairs, rises, some(first, [0]))


def extreme(points: int, observations: int, rng: Random) -> Network:
    """Differences of up to 10 km in which there is no sense."""
    pairs = [(rng.randrange(points), rng.randrange(points - 1)) for _ in range(observations)]
    pairs = [(a, b if b < a else b + 1) for a, b in pairs]
    most = 10_000 * STEPS_PER_METRE
    return Network(pairs, [rng.randint(-most, most) for _ in pairs], {0: 0})


def grid(points: int, observations: int, rng: Random) -> Network:
    """A levelling net: points in rows and columns, each sighted from its neighbours."""
    side = max(2, int(points**0.5))
    heights = terrain(side * side, rng)
    pairs = []
    while len(pairs) < observations:
        a = rng.randrange(side * side)
        b = a + 1 if rng.randrange(2) else a + side
        if b < side * side and (b - a == side or b % side):
            pairs.append((a, b))
    return Network(pairs, sighted(pairs, heights, rng), some(heights, [0, side * side - 1]))


def anywhere(points: int, observations: int, rng: Random) -> Network:
    heights = terrain(points, rng)
    pairs = [(rng.randrange(points), rng.randrange(points - 1)) for _ in range(observations)]
    pairs = [(a, b if b < a else b + 1) for a, b in pairs]
    return Network(pairs, sighted(pairs, heights, rng), some(heights, [0]))


KINDS: Dict[str, Callable[[int, int, Random], Network]] = {
    "building site": building_site,
    "railway line": railway,
    "dam": dam,
    "chain": chain,
    "ring": ring,
    "star": star,
    "one pair": one_pair,
    "conflict": conflict,
    "extreme": extreme,
    "levelling net": grid,
    "anywhere": anywhere,
}


def tied_points(network: Network) -> Set[int]:
    """The points that observations join to a benchmark."""
    neighbours: Dict[int, List[int]] = {}
    for tail, head in network.pairs:
        neighbours.setdefault(tail, []).append(head)
        neighbours.setdefault(head, []).append(tail)
    tied = set(network.benchmarks)
    todo = list(tied)
    while todo:
        for point in neighbours.get(todo.pop(), []):
            if point not in tied:
                tied.add(point)
                todo.append(point)
    return tied


def connected(network: Network) -> Network:
    """The network without the observations that are not tied to a benchmark."""
    tied = tied_points(network)
    kept = [i for i, (tail, _) in enumerate(network.pairs) if tail in tied]
    return Network([network.pairs[i] for i in kept], [network.rises[i] for i in kept], network.benchmarks)


def name_of(point: int) -> str:
    return f"P{point:04}"


def word(index: str, steps: int) -> str:
    return f"{index}..08{'-' if steps < 0 else '+'}{abs(steps):016}"


def in_word(rise: int) -> int:
    """As much of a rise as a word takes."""
    return max(-MOST_IN_WORD, min(MOST_IN_WORD, rise))


def book_of(network: Network) -> str:
    """A GSI-16 book: each sight after a setup on its station, where that or the height of its instrument changes."""
    lines, setup = [], None
    for (tail, head), rise in zip(network.pairs, network.rises):
        sighted_rise = in_word(rise)
        reflector = -in_word(rise - sighted_rise)
        instrument = rise - sighted_rise + reflector
        if (tail, instrument) != setup:
            setup = (tail, instrument)
            lines.append(f"*110001+{name_of(tail):0>16} {word('84', 0)} {word('85', 0)} {word('86', 0)} {word('88', instrument)} ")
        lines.append(f"*110002+{name_of(head):0>16} {word('33', sighted_rise)} {word('87', reflector)} ")
    return "\n".join(lines) + "\n"


def write(folder: Path, network: Network, weights: Dict[Pair, int], book: Optional[str] = None) -> None:
    """Writes the files of a network, with a book that has its sights in order, or the plainest one."""
    folder.mkdir(parents=True, exist_ok=True)
    (folder / "book.gsi").write_text(book_of(network) if book is None else book)
    heights = [f"{name_of(point)},{height // STEPS_PER_METRE}.{height % STEPS_PER_METRE:05}\n" for point, height in network.benchmarks.items()]
    (folder / "benchmarks.csv").write_text("point,height\n" + "".join(heights))
    rows = [f"{name_of(a)},{name_of(b)},{weight}\n" for (a, b), weight in weights.items() if weight != 1]
    (folder / "weights.csv").write_text("from,to,weight\n" + "".join(rows))
    vertices: Dict[int, int] = {point: 0 for point in network.benchmarks}
    lines = []
    for (tail, head), rise in zip(network.pairs, network.rises):
        for point in (tail, head):
            if point not in vertices:
                vertices[point] = len(vertices) - len(network.benchmarks) + 1
        steps = rise + network.benchmarks.get(tail, 0) - network.benchmarks.get(head, 0)
        lines.append(f"{vertices[tail]} {vertices[head]} {steps * UNITS_PER_STEP} {weights[tail, head]}\n")
    count = len(vertices) - len(network.benchmarks) + 1
    (folder / "network.txt").write_text(f"{count} {len(lines)}\n" + "".join(lines))


def make(folder: Path, points: int, observations: int, one_wrong: bool = False) -> List[Path]:
    """The folders of the networks, one for each kind and greatest weight."""
    folders = []
    for number, (kind, build) in enumerate(KINDS.items()):
        rng = Random(SEED + number)
        network = connected(build(points, observations, rng))
        if one_wrong:
            network.rises[len(network.rises) // 2] += STEPS_PER_METRE
        for most in (1, MAX_WEIGHT):
            folders.append(folder / f"{kind}, weights to {most}")
            write(folders[-1], network, {pair: rng.randint(1, most) for pair in sorted(set(network.pairs))})
    return folders


def with_tower(network: Network, first: int) -> Network:
    """A network with a tower: 100 sights of 30 km, one upon another, over points from the first of these numbers on. Its benchmark has each of
    these points at its own height, those with even numbers first: so a first tree has no height above 30 km in the tower, and heights grow
    by the number of its sights."""
    points = range(first, first + TOWER + 1)
    flat = [(0, point) for odd in (0, 1) for point in points if point % 2 == odd]
    sights = [(point, point + 1) for point in points[:-1]]
    rises = [0] * len(flat) + [3 * MOST_IN_WORD] * len(sights)
    return Network(network.pairs + flat + sights, network.rises + rises, network.benchmarks)


def make_towers(folder: Path, points: int, observations: int) -> None:
    """Two networks with a tower, which made a guide give up for the whole network: in one all other observations agree but for blunders, in
    the other a second set of them contradicts the first. The sights of the tower have the greatest weight, and weight 1 holds it down."""
    first = points - TOWER - 1
    for kind in ("anywhere", "conflict"):
        rng = Random(SEED)
        ordinary = connected(KINDS[kind](first, observations - 2 * TOWER - 1, rng))
        network = with_tower(ordinary, first)
        weights = {pair: rng.randint(1, MAX_WEIGHT) for pair in sorted(set(ordinary.pairs))}
        weights.update({(tail, head): MAX_WEIGHT if tail else 1 for tail, head in network.pairs if head >= first})
        write(folder / f"{kind}, with a tower", network, weights)


def main() -> int:
    global blunders_in
    parser = argparse.ArgumentParser(description="Makes the networks of the benchmark.")
    parser.add_argument("folder", type=Path)
    parser.add_argument("--points", type=int, default=400)
    parser.add_argument("--observations", type=int, default=4_000)
    parser.add_argument("--blunders", type=int, default=BLUNDERS_IN, help="one observation in so many is a blunder; 0: none")
    parser.add_argument("--one-wrong", action="store_true", help="one observation is wrong by a metre")
    parser.add_argument("--towers", action="store_true", help="towers in place of the networks of all kinds")
    chosen = parser.parse_args()
    blunders_in = chosen.blunders
    if chosen.towers:
        make_towers(chosen.folder, chosen.points, chosen.observations)
    else:
        make(chosen.folder, chosen.points, chosen.observations, chosen.one_wrong)
    return 0


if __name__ == "__main__":
    sys.exit(main())
