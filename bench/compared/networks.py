"""The networks of docs/COMPARED.md: points, benchmarks, and observations with weights and small errors."""

import random
from typing import Dict, List, NamedTuple

SEED = 20240607
STEP = 100_000  # units of 1/100 mm in a metre
ERROR = 100  # the standard deviation of an observation of weight 1, in 1/100 mm, is ERROR * LARGEST


class Sight(NamedTuple):
    station: str
    target: str
    weight: int  # proportional to 1/sigma
    difference: int  # in 1/100 mm


class Network(NamedTuple):
    name: str
    title: str
    heights: Dict[str, int]  # the true heights, in 1/100 mm
    benchmarks: List[str]
    sights: List[Sight]

    @property
    def new_points(self) -> List[str]:
        return [name for name in self.heights if name not in self.benchmarks]

    def sigma(self, sight: Sight) -> float:
        """The standard deviation of a sight, in 1/100 mm: 1 mm for the largest weight of the network."""
        return ERROR * max(each.weight for each in self.sights) / sight.weight

    def observed(self, errors: random.Random) -> "Network":
        """The same network with its differences observed anew."""
        sights = [sight._replace(difference=true_difference(self.heights, sight) + round(errors.gauss(0, self.sigma(sight))))
                  for sight in self.sights]
        return self._replace(sights=sights)


def true_difference(heights: Dict[str, int], sight: Sight) -> int:
    return heights[sight.target] - heights[sight.station]


def made(name: str, title: str, benchmarks: List[str], ends: List[tuple]) -> Network:
    """A network of sights (station, target, weight), over heights that are drawn for its points."""
    draw = random.Random(f"{SEED} {name}")
    heights: Dict[str, int] = {}
    for station, target, _ in ends:
        for point in (station, target):
            heights.setdefault(point, 100 * STEP + draw.randrange(-3 * STEP, 3 * STEP))
    network = Network(name, title, heights, benchmarks, [Sight(*end, 0) for end in ends])
    return network.observed(draw)


def chain(points: List[str], weights: List[int]) -> List[tuple]:
    return list(zip(points, points[1:], weights))


def site() -> Network:
    stations = ["S1", "S2", "S3", "S4"]
    targets = ["B1", "B2", "P1", "P2", "P3", "P4", "P5", "P6"]
    hidden = {("S1", "P6"), ("S2", "P5"), ("S3", "P1"), ("S4", "P2"), ("S4", "B1")}
    ends = [(station, target, 1) for station in stations for target in targets if (station, target) not in hidden]
    ends += [(station, other, 1) for station in stations for other in stations if station < other]
    return made("site", "Well-knit site network", ["B1", "B2"], ends)


def thrice() -> Network:
    line = chain(["B1", "P1", "P2", "P3", "P4", "P5", "P6", "B2"], [1] * 7)
    ends = [end for station, target, weight in line for end in [(station, target, weight), (target, station, weight), (station, target, weight)]]
    return made("thrice", "Each sight observed three times", ["B1", "B2"], ends)


def line() -> Network:
    return made("line", "Levelling line", ["B1", "B2"],
                chain(["B1", "P1", "P2", "P3", "P4", "P5", "P6", "P7", "P8", "P9", "B2"], [20, 14, 16, 10, 18, 15, 12, 20, 13, 17]))


def loop() -> Network:
    return made("loop", "Loop", ["B1"], chain(["B1", "P1", "P2", "P3", "P4", "P5", "P6", "P7", "B1"], [20, 14, 16, 10, 18, 15, 12, 17]))


def spur() -> Network:
    core = ["B1", "B2", "P1", "P2", "P3", "P4"]
    ends = [(core[i], core[j], 1) for i in range(len(core)) for j in range(i + 1, len(core)) if (i, j) != (0, 1)]
    return made("spur", "Spur of three legs", ["B1", "B2"], ends + chain(["P4", "Q1", "Q2", "Q3"], [1, 1, 1]))


def all_networks() -> List[Network]:
    return [site(), thrice(), line(), loop(), spur()]
