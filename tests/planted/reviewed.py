#!/usr/bin/env python3
"""Plants one wrong number at a time in some twenty small surveys, and compares what `adjust` gives with the row of `review`.

    reviewed.py [--program PATH | --second-office] [--share N] [--seed S] [--workers W]

The numbers are sights, entries of two or more sights and, where the review has a table of them, benchmarks. Each is made wrong by 0.05,
0.2 and 1 m, up and down; --share N tries every Nth number. First all other numbers are exact, and the heights, the cost and the residuals
have to be what the word of the row says. Where the rows have the columns `moves`, `blames` and `blamed`, and the best heights are unique,
these have to be the points that move and the other sights with a residual. Then the others have errors of at most 1 mm, and the marks on
mistakes of 0.2 m and more have to be what the word says. Prints how many rows had which word, and each difference. Status 0 only without
a difference.
"""

import argparse
import os
import shutil
import sys
from collections import Counter
from multiprocessing import Pool
from pathlib import Path
from typing import Dict, Iterator, List, NamedTuple, Optional, Tuple

from answers import DEFAULT_PROGRAM, UNITS, Adjusted, Program, Row, SecondOffice
from surveys import SHAPES, Number, Survey, Written, changed, survey_of, written

LIMIT_IN_MICROMETRES = 20_000
CHANGES = (50, -50, 200, -200, 1_000, -1_000)
SMALLEST_BESIDE_ERRORS = 200
SIZES = ((4, 1), (7, 3))
FORM = "once"
DEFAULT_SEED = 20_240_607
ENTRY_WORDS = {"instrument": "88", "reflector": "87"}
COUNTED = ("moves", "blames", "blamed")


class Task(NamedTuple):
    """A survey to be tried by one process."""

    seed: int
    shape: str
    size: int
    heaviest: int
    share: int
    program: Optional[Path]


class Tried(NamedTuple):
    """What came of a survey: how many mistakes there were of each kind and word, and what differs, in words."""

    counts: Dict[Tuple[str, str], int]
    differences: List[str]


class Leg(NamedTuple):
    """An observation of a survey, in millimetres, with its number from 1."""

    number: int
    where: Tuple[int, int]
    station: str
    target: str
    difference: int
    weight: int

    def residual(self, heights: Dict[str, int]) -> int:
        """In units."""
        return UNITS * self.difference - (heights[self.target] - heights[self.station])


def legs_of(survey: Survey, text: Written) -> List[Leg]:
    legs = []
    for count, ((book, line), (place, sight)) in enumerate(text.sights.items(), start=1):
        setup = survey.books[book - 1][place]
        seen = setup.sights[sight]
        weight = survey.weights.get((setup.station, seen.target), 1)
        legs.append(Leg(count, (book, line), setup.station, seen.target, seen.read + setup.instrument - seen.pole, weight))
    return legs


# Rows of the review


def has_row(number: Number, reviewed: Dict[str, List[Row]]) -> bool:
    return number.kind in ("sight",) + tuple(ENTRY_WORDS) or (number.kind == "benchmark" and ".benchmarks.csv" in reviewed)


def row_of(number: Number, reviewed: Dict[str, List[Row]]) -> Row:
    """The row of a number, which the review has to have."""
    if number.kind == "benchmark":
        return next(row for row in reviewed[".benchmarks.csv"] if row["point"] == number.name)
    where = (str(number.book), str(number.line))
    if number.kind == "sight":
        return next(row for row in reviewed[".observations.csv"] if (row["book"], row["line"]) == where)
    return next(row for row in reviewed[".entries.csv"]
                if (row["book"], row["line"], row["word"]) == where + (ENTRY_WORDS[number.kind],))


def own_legs(number: Number, survey: Survey, text: Written) -> List[Leg]:
    legs = legs_of(survey, text)
    if number.kind == "benchmark":
        return [leg for leg in legs if number.name in (leg.station, leg.target)]
    return [leg for leg in legs if leg.where[0] == number.book and text.sights[leg.where][0] == number.setup
            and number.first <= text.sights[leg.where][1] < number.last]


# What the words say


class Case(NamedTuple):
    """A wrong number, the row that says what it does, and the heights that came of it."""

    number: Number
    change: int
    row: Row
    truth: Dict[str, int]
    own: List[Leg]
    others: List[Leg]
    adjusted: Adjusted

    def whole_cost(self) -> int:
        """What the true heights cost, where all other numbers are exact."""
        return sum(leg.weight for leg in self.own) * abs(self.change) * UNITS

    def moved(self, heights: Dict[str, int]) -> List[str]:
        return [name for name, height in self.truth.items() if name != self.number.name and heights[name] != UNITS * height]


def holds_among_exact(case: Case) -> bool:
    """Whether heights and cost are what the word of the row says of a mistake beside exact numbers."""
    low, high, cost = case.adjusted.low, case.adjusted.high, case.adjusted.cost
    word = case.row["mistake"]
    if word == "shows":
        return not case.moved(low) and not case.moved(high) and cost == case.whole_cost()
    if word == "ties":
        return cost == case.whole_cost() and low != high
    if word == "unchecked":
        return cost == 0
    if word == "hides":
        return 0 < cost < case.whole_cost() and all(leg.residual(heights) == 0 for leg in case.own for heights in (low, high))
    # An older review says `drags` also where nothing checks an entry.
    return word == "drags" and cost < case.whole_cost() and (cost > 0 or "moves" not in case.row)


def counted(case: Case) -> Dict[str, str]:
    """The points that moved, and the other sights that have a residual, as the row counts them."""
    blamed = [leg for leg in case.others if leg.residual(case.adjusted.low)]
    heaviest = max(blamed, key=lambda leg: leg.weight, default=None)
    return {"moves": str(len(case.moved(case.adjusted.low))), "blames": str(len(blamed)),
            "blamed": "" if heaviest is None else str(heaviest.number)}


def differences_in_counts(case: Case) -> Iterator[str]:
    if not all(field in case.row for field in COUNTED):
        return
    if case.row["mistake"] == "shows":
        wanted = {field: "" for field in COUNTED}
    elif case.adjusted.low == case.adjusted.high:
        wanted = counted(case)
    else:
        return
    for field in COUNTED:
        if case.row[field] != wanted[field]:
            yield f"{field} {case.row[field]}, and {wanted[field]} came"


def holds_beside_errors(case: Case) -> bool:
    """Whether the marks are what the word of the row says of a mistake beside small errors."""
    marks = set(case.adjusted.marks)
    own = {leg.where for leg in case.own}
    word = case.row["mistake"]
    if word == "shows":
        return marks == own
    if word == "hides":
        return bool(marks) and not marks & own
    if word == "unchecked":
        return not marks
    return (bool(marks) or "moves" not in case.row) if word == "ties" else word == "drags" and marks != own


# A survey


def cases(implementation, survey: Survey, share: int) -> Iterator[Case]:
    text = written(survey, FORM)
    reviewed = implementation.review(text)
    for number in [own for own in text.numbers if has_row(own, reviewed)][::share]:
        for change in CHANGES:
            wrong = changed(survey, number, change)
            legs = legs_of(wrong, text)
            own = own_legs(number, wrong, text)
            yield Case(number, change, row_of(number, reviewed), survey.truth, own, [leg for leg in legs if leg not in own],
                       implementation.adjust(written(wrong, FORM)))


def tried(task: Task) -> Tried:
    implementation = (SecondOffice(LIMIT_IN_MICROMETRES) if task.program is None else Program(task.program, LIMIT_IN_MICROMETRES))
    counts: Dict[Tuple[str, str], int] = Counter()
    differences: List[str] = []
    exact = survey_of(task.seed, task.shape, task.size, 0, task.heaviest)
    for case in cases(implementation, exact, task.share):
        counts[case.number.kind, case.row["mistake"]] += 1
        found = list(differences_in_counts(case)) + ([] if holds_among_exact(case) else [f"says {case.row['mistake']}"])
        differences += [f"{exact.title}: {case.number} wrong by {case.change} mm: {words}" for words in found]
    for case in cases(implementation, survey_of(task.seed, task.shape, task.size, 1, task.heaviest), task.share):
        if abs(case.change) >= SMALLEST_BESIDE_ERRORS and not holds_beside_errors(case):
            differences.append(f"{exact.title} with errors: {case.number} wrong by {case.change} mm: says {case.row['mistake']}, "
                               f"and the marks are at {case.adjusted.marks}")
    if task.program is not None:
        shutil.rmtree(implementation.folder)
    return Tried(counts, differences)


# The report


def arguments() -> argparse.Namespace:
    parser = argparse.ArgumentParser(description="Plants wrong numbers, and compares what comes of them with the review.")
    parser.add_argument("--program", type=Path, default=DEFAULT_PROGRAM, help="the built program")
    parser.add_argument("--second-office", action="store_true", help="let the second office answer")
    parser.add_argument("--share", type=int, default=1, help="try every Nth number")
    parser.add_argument("--seed", type=int, default=DEFAULT_SEED, help="where the random numbers begin")
    parser.add_argument("--workers", type=int, default=os.cpu_count() or 2, help="how many surveys at a time")
    return parser.parse_args()


def main() -> int:
    chosen = arguments()
    if not chosen.second_office and not os.access(chosen.program, os.X_OK):
        sys.exit(f"there is no program at {chosen.program}: build it, or name it with --program, or try --second-office")
    program = None if chosen.second_office else chosen.program
    tasks = [Task(chosen.seed, shape, size, heaviest, chosen.share, program) for size, heaviest in SIZES for shape in SHAPES]
    with Pool(chosen.workers) as pool:
        results = pool.map(tried, tasks, chunksize=1)
    counts: Dict[Tuple[str, str], int] = Counter()
    for own in results:
        counts.update(own.counts)
    differences = [difference for own in results for difference in own.differences]
    print(f"seed {chosen.seed}: {len(tasks)} surveys, mistakes by kind and by what the review says of them:")
    for (kind, word), count in sorted(counts.items()):
        print(f"{count:8}  {kind}: {word}")
    print("\n".join(differences[:20] + [f"{len(differences)} differences"]))
    return 1 if differences else 0


if __name__ == "__main__":
    sys.exit(main())
