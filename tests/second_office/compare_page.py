#!/usr/bin/env python3
"""Compares the pages of `th_page` with the second office's, byte by byte, on random projects.

    compare_page.py [--projects N] [--seed S] [--keep FOLDER]

It writes the rows of each project for the program `tests_page`, and those of a few large pages with made-up residuals and answers, whose
groups are too large to be drawn. Pages of rows have no sight that is far beyond the usual residual. Then it runs `rt try` on all of them:
that builds once, and proves nothing. Names of books are hostile, and so are titles, some notes and names. Prints the seed and what `rt`
says; status 0 only without a difference.
"""

import argparse
import subprocess
import sys
import tempfile
from pathlib import Path
from random import Random
from typing import List, Optional, Tuple

from answer import MOST_OTHERS, answer_of
from inputs import Input
from markings import Benchmark, Entry, Explanation, Others, Page, Point, Sight, Span
from page import page_text
from pages import HOSTILE, page_of
from projects import MILLIMETRE, BookWriter, some_project
from runs import ROOT, second_explanations, second_review

DEFAULT_PROJECTS = 200
DEFAULT_SEED = 20_240_607
# How many points and sights large pages have: none, groups of up to 60 and of more, and groups of more than are drawn.
LARGE = ((0, 0), (2, 1), (61, 300), (70, 2_600), (400, 12_000))
UNITS = ((100_000, "0"), (30_480, "1"), (10_000, "6"), (3_048, "7"), (1_000, "8"))

# The rows for the program


def optional(value) -> str:
    return "-" if value is None or value == b"" else value.hex() if isinstance(value, bytes) else str(value)


def keyed_in(length: int) -> str:
    step, code = next(unit for unit in UNITS if length % unit[0] == 0)
    return f"{'-' if length < 0 else '+'} {abs(length) // step} {code}"


def named(names: List[bytes]) -> List[Input]:
    """Books of these names, whose bytes are their names. What prints the page gets last parts."""
    parts = [name.rsplit(b"/", 1)[-1] for name in names]
    return [Input(f"book {number}", name, name) for number, name in enumerate(parts, start=1)]


def spanned(own: Optional[Span]) -> str:
    return "- -" if own is None else f"{own[0]} {own[1]}"


def others_said(own: Optional[Others]) -> str:
    if own is None:
        return "- - -"
    return f"differs {spanned(own.differ)}" if own.differ else "fits - -" if own.speak else "nothing - -"


def rows_text(page: Page, books: List[bytes]) -> str:
    lines = [f"limit {page.limit}", f"cost {page.cost}", f"title {page.title.hex()}"] + [f"book {own.name.hex()}" for own in page.inputs]
    lines += [f"note {note.hex()}" for note in page.notes] + [f"observations {book.hex()}" for book in books if book]
    lines += [f"point {own.name.hex()} {own.low} {own.high} {optional(own.strength)} {own.drawn} {spanned(own.moved)}" for own in page.points]
    lines += [f"sight {own.weight} {own.residual} {optional(own.control)} {own.mistake} {own.station} {page.points[own.station].low} {own.target} "
              f"{page.points[own.target].low} {own.group}" for own in page.sights]
    lines += [f"entry {own.book} {own.line} {'87' if own.kind == 'reflector' else '88'} {own.station.hex()} {keyed_in(own.length)} "
              f"{own.sights} {own.weight} {own.mistake}" for own in page.entries]
    lines += [f"benchmark {own.name.hex()} {own.height} {own.sights} {own.weight} {optional(own.mistake)} {others_said(own.others)}"
              for own in page.benchmarks]
    lines += [f"explanation {own.number} {own.kind.replace(' ', '_')} {optional(own.book)} {optional(own.line)} {optional(own.station)} "
              f"{optional(own.target)} {optional(own.given)} {optional(own.low)} {optional(own.high)} {own.left} {own.blunders}"
              for own in page.explanations]
    lines += [f"says {sentence.hex()}" for sentence in page.says]
    return "\n".join(lines) + "\n"


def write_case(folder: Path, seed: int, number: int) -> bool:
    """Writes the rows and the page of a project, if that has one."""
    rng = Random(f"{seed} {number}")
    project = some_project(rng, number)
    reviewed, explained = second_review(project).review, second_explanations(project, "table")[0].explanation
    if reviewed is None or explained is None or not all(project.inputs.books):
        return False
    answer = answer_of(reviewed.network, reviewed.low, explained, project.inputs.books)._replace(outlier=None)
    page = page_of(reviewed, explained, answer, named([rng.choice(HOSTILE) for _ in project.inputs.books]), rng.choice(HOSTILE))
    page.says.extend(rng.sample(HOSTILE, rng.randrange(3)))
    page.notes.extend(rng.sample(HOSTILE, rng.randrange(3)))
    (folder / f"project_{number}").write_text(rows_text(page, project.inputs.books))
    (folder / f"project_{number}.stdout").write_bytes(page_text(page))
    return True


# Large pages


def large_points(rng: Random, count: int) -> List[Point]:
    points, low = [], 10**10
    for number in range(count):
        name = b"%s%d" % (rng.choice((b"P", b"P", b"A&", b"<b>", b'"', b"'")), number)
        low += rng.randrange(-400, 400) * MILLIMETRE
        mended = low + rng.randrange(-(10**9), 10**9)
        moved = rng.choice((None, None, (mended, mended + rng.choice((0, 1, 5_000, 10**7)))))
        points.append(Point(name, low, low + rng.choice((0, 0, rng.randrange(10**8))), rng.choice((None, 1, 7, 30, 4_000)),
                            rng.choice((low, low, low + rng.randrange(-(10**10), 10**10))), moved))
    return points


def large_sights(rng: Random, points: List[Point], count: int, writer: BookWriter) -> List[Sight]:
    """So many sights in any group, of which the book is written."""
    rows, station = [], 0
    for number in range(1, count + 1):
        if number % 3 == 1:
            station = rng.randrange(len(points))
            writer.setup(points[station].name)
        target = (station + rng.choice((1, 1, 2, 3) if len(points) > 3 else (1,))) % len(points)
        difference = rng.randrange(-3_000, 3_000) * MILLIMETRE
        writer.sight(points[target].name, difference)
        residual = rng.choice((0, 0, 0, 1, rng.randrange(-(10**5), 10**5), rng.randrange(-(10**rng.randrange(1, 13)), 10**9)))
        rows.append(Sight(number, 1, len(writer.lines), station, target, difference, rng.randrange(1, 1_001), residual, rng.choice((None, 3, 1_000)),
                          rng.choice(["shows"] * 8 + ["ties", "hides", "unchecked"]), rng.choice("aascvqqqqqqq")))
    return rows


def large_benchmarks(rng: Random, points: List[Point]) -> List[Benchmark]:
    def others(place: int, height: int) -> Optional[Others]:
        low = height + rng.randrange(-(10**8), 10**8)
        said = rng.choice((Others(False, None), Others(True, None), Others(True, (low, low + rng.choice((0, 1, 10**8))))))
        return said if place < MOST_OTHERS else None

    fixed = [own for own in points if own.strength is None]
    return [Benchmark(own.name, own.low, 2, 9, rng.choice(("shows", "drags", None)), others(place, own.low)) for place, own in enumerate(fixed)]


def large_page(rng: Random, count: int, many: int) -> Tuple[Page, List[bytes]]:
    """A page with so many points and sights, and its book."""
    points, writer = large_points(rng, count), BookWriter(rng)
    writer.width, writer.from_mark_to_mark = 16, False
    rows = large_sights(rng, points, many, writer)
    entries = [Entry(1, line, rng.choice(("reflector", "instrument")), points[0].name, rng.randrange(-2_000, 2_000) * MILLIMETRE, 3, line,
                     rng.choice(("shows", "drags", "ties", "unchecked"))) for line in range(1, count + 1)]
    firsts = [Explanation(1, "sight", 1, line, own.name, own.name, 1, 2, 2 + line % 2, 10**12, 5) for line, own in enumerate(points[:rng.randrange(3)], 1)]
    return Page(rng.choice(HOSTILE), named(HOSTILE[:2]), points, rows, entries, large_benchmarks(rng, points), firsts, HOSTILE[:3], HOSTILE, 10**12 + 1,
                rng.choice((0, 10**6, 10**9)), None), [writer.text()]


def write_large(folder: Path, seed: int) -> int:
    """Writes the rows and the pages of the large ones."""
    for number, (count, sights) in enumerate(LARGE):
        page, books = large_page(Random(f"{seed} large {number}"), count, sights)
        (folder / f"large_{number}").write_text(rows_text(page, books))
        (folder / f"large_{number}.stdout").write_bytes(page_text(page))
    return len(LARGE)


def main() -> int:
    parser = argparse.ArgumentParser(description="Compares pages with the second office.")
    parser.add_argument("--projects", type=int, default=DEFAULT_PROJECTS, help="how many random projects")
    parser.add_argument("--seed", type=int, default=DEFAULT_SEED, help="where the random numbers begin")
    parser.add_argument("--keep", type=Path, help="a folder for rows and pages, which stay there")
    chosen = parser.parse_args()
    with tempfile.TemporaryDirectory() as scratch:
        folder = chosen.keep or Path(scratch)
        folder.mkdir(parents=True, exist_ok=True)
        cases = sum(write_case(folder, chosen.seed, number) for number in range(chosen.projects))
        large = write_large(folder, chosen.seed)
        print(f"seed {chosen.seed}: {cases} of {chosen.projects} projects have a page; {large} large pages", flush=True)
        return subprocess.call(["rt", "try", "--cases", str(folder)], cwd=ROOT / "crates" / "tests_page")


if __name__ == "__main__":
    sys.exit(main())
