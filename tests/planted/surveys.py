"""Surveys with known heights, as instruments write them, and their numbers: what somebody read or typed, and can be wrong.

A survey has setups with shared instrument heights and poles. All lengths are whole millimetres. The texts are written in two forms:
words 88 and 87 once, where they change, or again in each sight.
"""

from random import Random
from typing import Callable, Dict, List, NamedTuple, Optional, Tuple

# A length in another unit would do as well: `..10` is millimetres.
INSTRUMENTS = (1_452, 1_507, 1_545, 1_580, 1_602)
POLES = (1_300, 1_500, 2_350)
FORMS = ("once", "each")
LARGEST_RELIEF = 9_000


class Seen(NamedTuple):
    """A sight: its target, the pole that is keyed in, and word 33."""

    target: str
    pole: int
    read: int


class Setup(NamedTuple):
    station: str
    instrument: int
    sights: Tuple[Seen, ...]


class Survey(NamedTuple):
    """Books of setups, the table of benchmarks, weights, and the true heights."""

    title: str
    books: Tuple[Tuple[Setup, ...], ...]
    benchmarks: Dict[str, int]
    weights: Dict[Tuple[str, str], int]
    truth: Dict[str, int]


class Number(NamedTuple):
    """A number of a survey: as FORMATS names it by kind, book and line, and where it is among the setups."""

    kind: str
    book: Optional[int]
    line: int
    setup: int
    first: int  # of its sights in the setup, from 0
    last: int  # and the one behind the last
    name: str  # of a benchmark


class Written(NamedTuple):
    """The texts of a survey, and its numbers."""

    books: List[bytes]
    benchmarks: bytes
    weights: Optional[bytes]
    numbers: List[Number]
    sights: Dict[Tuple[int, int], Tuple[int, int]]  # the setup and the place of the sight of a book and a line


# Writing


def word(index: str, length: int) -> str:
    return f"{index}..10{'-' if length < 0 else '+'}{abs(length):08}"


class Writer:
    """Writes a book, and notes where its numbers are."""

    def __init__(self, book: int, form: str) -> None:
        self.book = book
        self.form = form
        self.lines: List[str] = []
        self.numbers: List[Number] = []
        self.sights: Dict[Tuple[int, int], Tuple[int, int]] = {}

    def add(self, name: str, words: List[str]) -> int:
        """The number of the line that was added."""
        self.lines.append(" ".join([f"11{(len(self.lines) + 1) % 10_000:04}+{name:0>8}"] + words) + " ")
        return len(self.lines)

    def note(self, kind: str, line: int, setup: int, lines: List[int], first: int) -> None:
        """An entry whose sights are at these lines, if it has two or more, and its endings."""
        last = first + len(lines)
        if len(lines) > 1:
            self.numbers.append(Number(kind, self.book, line, setup, first, last, ""))
        for skipped in range(1, len(lines) - 1):
            self.numbers.append(Number(f"{kind} since", self.book, lines[skipped], setup, first + skipped, last, ""))

    def take(self, place: int, setup: Setup) -> None:
        pole = None
        opened = self.add(setup.station, ["84..10+00000000", word("88", setup.instrument)])
        lines: List[int] = []
        runs: List[Tuple[int, int]] = []  # the place of the first sight of each pole, and the line at which it is keyed in
        for count, seen in enumerate(setup.sights):
            words = [word("33", seen.read)]
            if self.form == "each" or seen.pole != pole:
                words.append(word("87", seen.pole))
            if self.form == "each":
                words.append(word("88", setup.instrument))
            lines.append(self.add(seen.target, words))
            self.numbers.append(Number("sight", self.book, lines[-1], place, count, count + 1, ""))
            self.sights[self.book, lines[-1]] = (place, count)
            if seen.pole != pole:
                runs.append((count, lines[-1]))
            pole = seen.pole
        self.note("instrument", opened, place, lines, 0)
        for (first, line), (behind, _) in zip(runs, runs[1:] + [(len(lines), 0)]):
            self.note("reflector", line, place, lines[first:behind], first)


def metres(length: int) -> str:
    return f"{'-' if length < 0 else ''}{abs(length) // 1_000}.{abs(length) % 1_000:03}"


def written(survey: Survey, form: str) -> Written:
    writers = []
    for book, setups in enumerate(survey.books, start=1):
        writer = Writer(book, form)
        for place, setup in enumerate(setups):
            writer.take(place, setup)
        writers.append(writer)
    numbers = [number for writer in writers for number in writer.numbers]
    if len(survey.benchmarks) > 1:
        numbers += [Number("benchmark", None, record, -1, 0, 0, name) for record, name in enumerate(survey.benchmarks, start=2)]
    table = "".join(f"{name},{metres(height)}\n" for name, height in survey.benchmarks.items())
    weights = "".join(f"{station},{target},{weight}\n" for (station, target), weight in survey.weights.items())
    sights = {where: place for writer in writers for where, place in writer.sights.items()}
    return Written([("\n".join(writer.lines) + "\n").encode("ascii") for writer in writers], f"point,height\n{table}".encode("ascii"),
                   f"from,to,weight\n{weights}".encode("ascii") if weights else None, numbers, sights)


# Changing


def changed_sight(seen: Seen, kind: str, change: int) -> Seen:
    if kind == "reflector":
        return seen._replace(pole=seen.pole + change)
    # Word 33 stands for the length of the last sights, which is keyed in once for all sights of the entry.
    return seen._replace(read=seen.read + (-change if kind == "reflector since" else change))


def changed(survey: Survey, number: Number, change: int) -> Survey:
    """The survey with one number changed."""
    if number.kind == "benchmark":
        return survey._replace(benchmarks={**survey.benchmarks, number.name: survey.benchmarks[number.name] + change})
    setups = list(survey.books[number.book - 1])
    setup = setups[number.setup]
    if number.kind == "instrument":
        setups[number.setup] = setup._replace(instrument=setup.instrument + change)
    else:
        sights = tuple(changed_sight(seen, number.kind, change) if number.first <= place < number.last else seen
                       for place, seen in enumerate(setup.sights))
        setups[number.setup] = setup._replace(sights=sights)
    books = list(survey.books)
    books[number.book - 1] = tuple(setups)
    return survey._replace(books=tuple(books))


def without(survey: Survey, places: List[Tuple[int, int, int]]) -> Survey:
    """The survey without the sights at these books, setups and places."""
    gone = set(places)
    books = tuple(tuple(setup._replace(sights=tuple(seen for place, seen in enumerate(setup.sights) if (book, count, place) not in gone))
                        for count, setup in enumerate(setups)) for book, setups in enumerate(survey.books, start=1))
    return survey._replace(books=books)


# Shapes. Each gives books of stations with their targets, and the benchmarks.

Plan = Tuple[List[List[Tuple[str, List[str]]]], List[str]]


def points(count: int, letter: str = "P") -> List[str]:
    return [f"{letter}{number}" for number in range(1, count + 1)]


def building_site(rng: Random, size: int) -> Plan:
    """Setups that see some of the others, among them the marks."""
    names = points(size)
    return [[(name, rng.sample([other for other in names if other != name], min(5, size - 1))) for name in names]], names[:2]


def railway(_: Random, size: int) -> Plan:
    """Along a line there and back, in two books; each setup sees the next two points and the last one."""
    names = points(size)

    def along(order: List[str]) -> List[Tuple[str, List[str]]]:
        return [(name, order[max(0, place - 1) : place] + order[place + 1 : place + 3]) for place, name in enumerate(order)]

    return [along(names), along(names[::-1])], [names[0], names[-1]]


def dam(_: Random, size: int) -> Plan:
    """A crest whose ends see all of it, and a rock at each end."""
    names = points(size)
    ends = [(name, [other for other in names if other != name] + ["ROCK"]) for name in (names[0], names[-1])]
    return [ends + [(name, [names[0], names[-1], "ROCK2"]) for name in names[1:-1]]], ["ROCK", "ROCK2"]


def chain(_: Random, size: int) -> Plan:
    """Each setup sees two points before it and two behind."""
    names = points(size)
    return [[(name, names[max(0, place - 2) : place] + names[place + 1 : place + 3]) for place, name in enumerate(names)]], [names[0]]


def ring(_: Random, size: int) -> Plan:
    """A loop with a chord; each setup sees its two neighbours."""
    names = points(size)
    setups = [(name, [names[place - 1], names[(place + 1) % size]]) for place, name in enumerate(names)]
    setups[0][1].append(names[size // 2])
    return [setups], [names[0]]


def star(_: Random, size: int) -> Plan:
    """A hub that sees all, and points that see it and their neighbour."""
    names = points(size)
    return [[("HUB", names)] + [(name, ["HUB", names[(place + 1) % size]]) for place, name in enumerate(names)]], [names[0]]


def levelling_line(_: Random, size: int) -> Plan:
    """A line between two marks, there and back, of single legs."""
    names = points(min(size, 12))
    there = [(name, [following]) for name, following in zip(names, names[1:])]
    back = [(following, [name]) for name, following in zip(names, names[1:])]
    return [there, back[::-1]], [names[0], names[-1]]


def one_way(_: Random, size: int) -> Plan:
    """A line between two marks, measured once, and a spur from it that nothing checks."""
    names = points(min(size, 12))
    legs = [(name, [following]) for name, following in zip(names, names[1:])]
    legs[1][1].append("SPUR")
    return [legs + [("SPUR", ["END"])]], [names[0], names[-1]]


def grid(_: Random, size: int) -> Plan:
    """A grid four points wide; each setup sees its neighbours."""
    names = points(size)
    return [[(name, [names[other] for other in (place - 1, place + 1, place - 4, place + 4) if 0 <= other < size])
             for place, name in enumerate(names)]], [names[0], names[-1]]


def cellar(_: Random, size: int) -> Plan:
    """Two floors, each of which sees itself, and two sights between them."""
    upper, lower = points(max(3, size // 2), "U"), points(max(3, size // 2), "L")

    def floor(names: List[str]) -> List[Tuple[str, List[str]]]:
        return [(name, [other for other in names if other != name][:5]) for name in names]

    setups = floor(upper) + floor(lower)
    setups[0][1].append(lower[0])
    setups[1][1].append(lower[1])
    return [setups], [upper[0]]


def free_stations(rng: Random, size: int) -> Plan:
    """Stations that nobody sights, over three marks and some points."""
    marks, names = points(3, "M"), points(max(3, size // 3))
    return [[(station, rng.sample(marks, 2) + rng.sample(names, min(4, len(names)))) for station in points(size, "S")]], marks


SHAPES: Dict[str, Callable[[Random, int], Plan]] = {
    "building site": building_site, "railway": railway, "dam": dam, "chain": chain, "ring": ring, "star": star,
    "levelling line": levelling_line, "line one way": one_way, "grid": grid, "cellar": cellar, "free stations": free_stations}


def observed(rng: Random, setup: Tuple[str, List[str]], heights: Dict[str, int], noise: int) -> Setup:
    """A setup with one pole, or with another one from some sight on."""
    station, targets = setup
    instrument = rng.choice(INSTRUMENTS)
    poles = rng.sample(POLES, 2)
    change = rng.choice((len(targets), len(targets), rng.randint(1, len(targets))))
    sights = []
    for place, target in enumerate(targets):
        pole = poles[place >= change]
        error = rng.randint(-noise, noise)
        sights.append(Seen(target, pole, heights[target] - heights[station] - instrument + pole + error))
    return Setup(station, instrument, tuple(sights))


def survey_of(seed: int, shape: str, size: int, noise: int, heaviest: int = 1) -> Survey:
    """A survey of a shape with errors of at most `noise` millimetres. Weights go up to the heaviest; at 1 there is no table of them."""
    rng = Random(f"{seed} {shape} {size} {heaviest}")
    books, benchmarks = SHAPES[shape](rng, size)
    names = list(dict.fromkeys(name for setups in books for station, targets in setups for name in [station] + targets))
    heights = {name: 200_000 + rng.randint(-LARGEST_RELIEF, LARGEST_RELIEF) for name in names}
    pairs = [(station, target) for setups in books for station, targets in setups for target in targets]
    weights = {pair: rng.randint(1, heaviest) for pair in pairs} if heaviest > 1 else {}
    seen = tuple(tuple(observed(rng, setup, heights, noise) for setup in setups) for setups in books)
    return Survey(f"{shape} {size}{' weighted' if weights else ''}", seen, {name: heights[name] for name in benchmarks if name in heights}, weights, heights)
