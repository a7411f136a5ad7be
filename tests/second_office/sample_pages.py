"""Pages to look at: those of the examples, of random networks, and of what is hard to draw."""

from pathlib import Path
from random import Random
from typing import Dict, List, Optional, Tuple

import office
from answer import answer_of
from explain import csv_text
from inputs import Input
from markings import Benchmark, Entry, Explanation, Others, Page, Point, Sight
from pages import HOSTILE, page_of

EXAMPLES = Path(__file__).resolve().parents[2] / "examples"
METRE = 10**8
LIMIT = 2_000_000


def page_of_example(folder: Path) -> Page:
    """The page of an example, whose inputs its file of commands names."""
    words = next(line for line in (folder / "commands").read_text().splitlines() if line.startswith("review")).split()

    def value(option: str, other: str) -> str:
        return words[words.index(option) + 1] if option in words else other

    books = [word for word in words if word.endswith(".gsi")]
    weights = value("--weights", "")
    inputs = office.Inputs([(folder / book).read_bytes() for book in books], (folder / value("--benchmarks", "")).read_bytes(),
                           (folder / weights).read_bytes() if weights else None,
                           [name.encode() for name in books + [value("--benchmarks", "")] + [weights]])
    limit = int(value("--blunder", "20000")) * 100
    found, explained = office.review(inputs, limit).review, office.explain(inputs, limit, csv_text)[0].explanation
    return page_of(found, explained, answer_of(found.network, found.low, explained, inputs.books), found.inputs, folder.name.encode())


def point(name: bytes, low: int, strength: Optional[int] = 4, high: Optional[int] = None, moved: Optional[Tuple[int, int]] = None) -> Point:
    return Point(name, low, low if high is None else high, strength, low if moved is None else moved[0], moved)


def profile(count: int, rng: Random) -> List[Point]:
    """Points along a way, from a benchmark on."""
    points, low = [], 100 * METRE
    for number in range(1, count + 1):
        low += rng.randrange(-METRE, METRE)
        high = low + (rng.randrange(10**6) if rng.random() < 0.2 else 0)
        points.append(point(b"P%d" % number, low, None if number == 1 or rng.random() < 2 / count else rng.randrange(1, 12), high))
    return points


def sight(number: int, points: List[Point], station: int, target: int, residual: int = 0, mistake: str = "shows", group: str = "") -> Sight:
    """A sight, which is in question if it is marked, and nothing else is said."""
    difference = points[target].low - points[station].low + residual
    return Sight(number, 1 + number // 20_000, 3 + number % 20_000, station, target, difference, 1, residual, 3, mistake,
                 group or ("a" if abs(residual) > LIMIT else "q"))


def sights(points: List[Point], *rows: tuple) -> List[Sight]:
    """Rows of station, target, and what is not as usual."""
    return [sight(number, points, *row) for number, row in enumerate(rows, start=1)]


def named(name: bytes) -> Input:
    """A book whose bytes are its name."""
    return Input("book 1", name, name)


def benchmarks_of(points: List[Point]) -> List[Benchmark]:
    return [Benchmark(own.name, own.low, 3, 3, "shows", Others(True, None)) for own in points if own.strength is None]


def page(points: List[Point], rows: List[Sight], **others) -> Page:
    usual = Page(b"Page to look at", [named(b"monday.gsi")], points, rows, [], benchmarks_of(points), [], [], [], sum(abs(own.residual) for own in rows),
                 LIMIT, None)
    return usual._replace(**others)


def instrument(own: Point, change: int, blunders: int) -> Explanation:
    """The instrument height at a point, which is wrong by this."""
    given = 154_500_000
    return Explanation(1, "instrument", 1, 17, own.name, None, given, given + change, given + change, METRE // 100, blunders)


def random_page(count: int, many: int) -> Page:
    """So many points, and sights between neighbours. An instrument height in the middle is wrong by a metre: it moves its station, and marks
    right sights of that."""
    rng = Random(count)
    points, wrong = profile(count, rng), count // 2
    points[wrong] = point(points[wrong].name, points[wrong].low, 3, None, (points[wrong].low + METRE, points[wrong].low + METRE))
    rows = []
    for number in range(1, many + 1):
        station = rng.randrange(count)
        target = (station + rng.choice([-3, -2, -1, 1, 2, 3])) % count
        residual = rng.choice([0, 0, rng.randrange(-300_000, 300_000)])
        group = "a" if station == wrong else "c" if target == wrong else "q"
        rows.append(sight(number, points, station, target, residual + (METRE if group == "c" else 0),
                          rng.choice(["shows"] * 12 + ["ties", "hides", "unchecked"]), group))
    says = [b"One wrong number explains this: word 88 of line 17.", b"Word 88 of line 17: given 1.54500000, fits 2.54500000.",
            b"Word 88 of line 17: typed 1.54500000, meant 2.54500000?"]
    return page(points, rows, inputs=[named(name) for name in (b"monday.gsi", b"tuesday.gsi", b"wednesday.gsi")],
                explanations=[instrument(points[wrong], METRE, 0)], says=says)


# What is hard to draw


def repeated() -> Page:
    """Six sights with the same ends and direction, one after the other and not, and one back."""
    points = [point(b"A", 100 * METRE, None), point(b"B", 101 * METRE, 5), point(b"C", 100 * METRE, 2, 101 * METRE)]
    return page(points, sights(points, (0, 1), (0, 1, METRE // 2), (0, 1), (0, 2), (1, 2), (0, 1, METRE // 2), (1, 0, -METRE // 2), (0, 1), (0, 1)))


def to_one_point() -> Page:
    """All sights of a benchmark with a wrong height are marked."""
    points = [point(b"BM%d" % k, (100 + k) * METRE, None if k == 4 else 6) for k in range(8)]
    others = [k for k in range(8) if k != 4]
    rows = [(k, 4, METRE // 3) for k in others] + [(4, k, -METRE // 3) for k in others] + [(k, k + 1, 0) for k in range(7)]
    return page(points, sights(points, *rows))


def outlier() -> Page:
    """A benchmark whose point is in the wrong place."""
    points = [point(b"KO%d" % k, METRE * 250 + k * METRE // 7) for k in range(1, 12)]
    points.append(point(b"BM12", METRE * 25, None))
    rows = [(k, k + 1, 0) for k in range(10)] + [(10, 11, 226 * METRE), (0, 11, 225 * METRE)]
    return page(points, sights(points, *rows))


def level() -> Page:
    """Points of one height, all at the foot of the picture."""
    points = [point(b"F%d" % k, 100 * METRE, 4 if k else None) for k in range(10)]
    return page(points, sights(points, (7, 1), (8, 1), (9, 0, -3 * LIMIT), (8, 2), (6, 1, -2 * LIMIT)))


def longest() -> Page:
    """Names of 16 characters, long names of books, hostile ones in UTF-8, and every table with its largest numbers."""
    hostile = [name for name in HOSTILE if b"\xff" not in name]
    far = 8_999 * METRE
    points = [point(b"W%015d" % k, far - k * METRE, None if k == 0 else 40_000_000, far) for k in range(12)]
    points = [own._replace(moved=(-far, far)) if k % 3 == 1 else own for k, own in enumerate(points)]
    rows = [own._replace(book=16, line=99_999, weight=1_000, control=40_000_000) for own in sights(
        points, *((k, (k + 1) % 12, (-1) ** k * 999 * METRE, ("shows", "ties", "hides", "unchecked")[k % 4], "ascvq"[k % 5]) for k in range(12)))]
    entries = [Entry(16, 99_999, kind, points[3].name, -9_999 * METRE, 40_000, 40_000_000, "drags") for kind in ("reflector", "instrument")]
    kinds = ("instrument since", "reflector since", "sight", "benchmark", "book")
    found = [Explanation(1, kind, None if kind == "benchmark" else 16, 99_999, points[1].name, points[2].name if kind == "sight" else None,
                         -far, -far, far, 10**17, 40_000) for kind in kinds]
    return page(points, rows, entries=entries, explanations=found, inputs=[named(name) for name in (b"book_without_a_blank_" * 12, *hostile)], cost=10**19,
                benchmarks=[Benchmark(points[0].name, far, 40_000, 40_000_000, "drags", Others(True, (-far, -far + 1_000_000)))],
                title=b"W" * 100, says=[b"a_sentence_without_a_blank" * 8, *hostile],
                notes=[b"book 16 line 99999: " + b"a_note_without_a_blank" * 12, *hostile])


def long_names() -> Page:
    """Fifty points with names of 16 characters."""
    own = random_page(50, 200)
    names = [b"SO %02d/KM 112.%03d" % (k, 340 + k) for k in range(50)]
    points = [each._replace(name=name) for each, name in zip(own.points, names)]
    return own._replace(points=points, benchmarks=benchmarks_of(points), explanations=[instrument(points[25], METRE, 0)])


def fullest(width: int) -> Page:
    """A page of 4,000 points with names of so many letters, all of which move, and of 40,000 sights; the groups that are in red or dashed have as
    many sights as are drawn."""
    rng = Random(width)
    points = [point(b"%0*d" % (width, k), rng.randrange(90 * METRE, 110 * METRE), 3 if k else None, None, (200 * METRE, 201 * METRE)) for k in range(4_000)]
    rows = []
    for number in range(1, 40_001):
        station = rng.randrange(4_000)
        group = "ascq"[min(3, (number - 1) // 2_000)]
        residual = rng.randrange(-300_000, 300_000) if group == "q" else rng.randrange(3 * LIMIT, 900 * METRE)
        rows.append(sight(number, points, station, (station + rng.randrange(1, 9)) % 4_000, residual, "ties", group))
    return page(points, rows)


def sample_pages() -> Dict[str, Page]:
    pages = {folder.parent.name: page_of_example(folder.parent) for folder in sorted(EXAMPLES.glob("*/commands"))}
    pages.update({made.__name__: made() for made in (repeated, to_one_point, outlier, level, longest, long_names)})
    pages.update({f"points_{count}": random_page(count, many) for count, many in ((5, 14), (50, 200), (300, 1_200), (4_000, 40_000))})
    return pages
