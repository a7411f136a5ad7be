#!/usr/bin/env python3
"""Plants one wrong number at a time in some thirty surveys, and compares what `adjust` marks with what `explain` answers.

    explained.py [--program PATH | --second-office] [--share N] [--noise MILLIMETRES] [--changes MM,MM..] [--seed S] [--workers W]

The surveys have eleven shapes, three sizes, shared setups and poles, some of them weights, and are written in two forms: words 87 and 88
once, and in each sight. Each number that others check is made wrong in turn: sights, entries, changes that were forgotten, benchmarks.
--share N tries every Nth of them. For each change and kind it prints how many numbers were tried, and of how many

- marked   there are marks, and all of them are on sights of the wrong number;
- removed  the heights are right once the marked sights are left out;
- leads    the wrong number has number 1 among the explanations;
- alone    it alone has it;
- mended   the heights are right once explanation 1 has its mildest value;
- settled  the heights are right where a second measurement decides between those with number 1.

Heights are right within 20 mm, the limit. The last kind, 'hides or drags', counts the sights and entries of which `review` says so a second
time. Status 1 if a wrong number does not lead, if its mildest value does not make the heights right, or if a survey without a mistake has
an explanation, and errors are of at most 1 mm. The second office answers on surveys of at most 40 sights.
"""

import argparse
import os
import shutil
import sys
from collections import Counter
from multiprocessing import Pool
from pathlib import Path
from typing import Dict, Iterator, List, NamedTuple, Optional, Tuple

from answers import DEFAULT_PROGRAM, UNITS, Adjusted, Program, Row, SecondOffice, units
from surveys import FORMS, SHAPES, Number, Survey, Written, changed, survey_of, without, written

LIMIT_IN_MICROMETRES = 20_000
RIGHT_WITHIN = 20 * UNITS
MOST_ROWS = 20
DEFAULT_SEED = 20_240_607
DEFAULT_CHANGES = "100,-1000"
# Points, and the largest weight, of the three sizes.
SIZES = ((4, 1), (10, 1), (40, 5))
# What has to hold of each number, where errors are small.
WANTED = ("leads", "settled")
HIDING = "hides or drags"
KINDS = ("sight", "instrument", "reflector", "instrument since", "reflector since", "benchmark", HIDING)
COLUMNS = ("numbers", "marked", "removed", "leads", "alone", "mended", "settled")


class Task(NamedTuple):
    """A survey in a form, to be tried by one process."""

    seed: int
    shape: str
    size: int
    heaviest: int
    noise: int
    form: str
    changes: Tuple[int, ...]
    share: int
    program: Optional[Path]


class Tried(NamedTuple):
    """What came of a task: how often each column held, by change and kind; and what failed, in words."""

    sights: int
    counts: Dict[Tuple[int, str, str], int]
    failures: List[str]


# One wrong number


def is_right(survey: Survey, own: Optional[Adjusted]) -> bool:
    return own is not None and all(abs(own.low[name] - UNITS * height) <= RIGHT_WITHIN for name, height in survey.truth.items() if name in own.low)


def sights_of(text: Written, number: Number) -> List[Tuple[int, int]]:
    """The books and lines of the sights of a number."""
    return [where for where, (setup, place) in text.sights.items()
            if where[0] == number.book and setup == number.setup and number.first <= place < number.last]


def sights_at(text: Written, survey: Survey, name: str) -> List[Tuple[int, int]]:
    """The books and lines of the sights with an end at a point."""
    found = []
    for (book, line), (setup, place) in text.sights.items():
        own = survey.books[book - 1][setup]
        if name in (own.station, own.sights[place].target):
            found.append((book, line))
    return found


def is_row_of(row: Row, number: Number) -> bool:
    return (row["kind"], row["book"], row["line"]) == (number.kind, "" if number.book is None else str(number.book), str(number.line))


def mildest_change(row: Row) -> int:
    """In millimetres: all lengths of these surveys are whole ones."""
    given, low, high = (units(row[field]) for field in ("given", "low", "high"))
    return ((low if low > given else high) - given) // UNITS


def mended(survey: Survey, text: Written, row: Row) -> Optional[Survey]:
    """The survey with the number of a row at its mildest value; none for a book."""
    number = next((own for own in text.numbers if is_row_of(row, own)), None)
    return None if number is None else changed(survey, number, mildest_change(row))


class Trial:
    """One survey in one form, by one implementation."""

    def __init__(self, implementation, survey: Survey, form: str) -> None:
        self.implementation = implementation
        self.survey = survey
        self.form = form

    def adjust(self, survey: Optional[Survey]) -> Optional[Adjusted]:
        return None if survey is None else self.implementation.adjust(written(survey, self.form))

    def is_checked(self, exact: Survey, number: Number, change: int) -> bool:
        """Whether the number has others that check it: alone among exact numbers, its mistake costs something."""
        own = self.adjust(changed(exact, number, change))
        return own is not None and own.cost > 0

    def is_right_after(self, survey: Survey, text: Written, row: Row) -> bool:
        return is_right(survey, self.adjust(mended(survey, text, row)))

    def of(self, number: Number, change: int) -> Dict[str, bool]:
        wrong = changed(self.survey, number, change)
        text = written(wrong, self.form)
        marks = self.implementation.adjust(text).marks
        own = sights_at(text, wrong, number.name) if number.kind == "benchmark" else sights_of(text, number)
        left = without(wrong, [(book, *text.sights[book, line]) for book, line in marks])
        first = [row for row in self.implementation.explain(text) if row["number"] == "1"]
        truth = [row for row in first if is_row_of(row, number)]
        return {"numbers": True, "marked": bool(marks) and set(marks) <= set(own), "removed": is_right(wrong, self.adjust(left)),
                "leads": bool(truth) or len(first) == MOST_ROWS, "alone": len(first) == 1 and bool(truth),
                "mended": bool(first) and self.is_right_after(wrong, text, first[0]),
                "settled": bool(truth) and self.is_right_after(wrong, text, truth[0])}


def hiding(reviewed: Dict[str, List[Row]]) -> set:
    """Books and lines, and the words of entries, that `review` says hide or drag."""
    sights = {(row["book"], row["line"], "") for row in reviewed[".observations.csv"] if row["mistake"] == "hides"}
    return sights | {(row["book"], row["line"], row["word"]) for row in reviewed[".entries.csv"] if row["mistake"] == "drags"}


def word_of(number: Number) -> str:
    return {"instrument": "88", "reflector": "87", "sight": ""}.get(number.kind, "none")


# A survey


def implementation_of(program: Optional[Path]):
    return SecondOffice(LIMIT_IN_MICROMETRES) if program is None else Program(program, LIMIT_IN_MICROMETRES)


def kinds_of(number: Number, hides: bool) -> List[str]:
    return [number.kind] + ([HIDING] if hides else [])


def tried(task: Task) -> Tried:
    implementation = implementation_of(task.program)
    survey = survey_of(task.seed, task.shape, task.size, task.noise, task.heaviest)
    text = written(survey, task.form)
    if len(text.sights) > implementation.most_sights:
        return Tried(0, {}, [])
    trial = Trial(implementation, survey, task.form)
    exact = survey_of(task.seed, task.shape, task.size, 0, task.heaviest)
    # As `review` sees entries, words that are written again open new ones: it is asked in the form in which they are written once.
    hides = hiding(implementation.review(written(survey, "once")))
    once = written(survey, "once").numbers
    failures = [f"{survey.title}, {task.form}: without a mistake there is the row {row}" for row in implementation.explain(text)]
    counts: Dict[Tuple[int, str, str], int] = Counter()
    for own, number in list(zip(once, text.numbers))[:: task.share]:
        for change in task.changes:
            if not trial.is_checked(exact, number, change):
                continue
            found = trial.of(number, change)
            failures += [f"{survey.title}, {task.form}: {number} wrong by {change} mm: not {what}" for what in WANTED if not found[what]]
            for kind in kinds_of(number, (str(own.book), str(own.line), word_of(own)) in hides):
                counts.update({(change, kind, column): int(holds) for column, holds in found.items()})
    if task.program is not None:
        shutil.rmtree(implementation.folder)
    return Tried(len(text.sights), counts, failures)


# The table


def tasks_of(chosen: argparse.Namespace, program: Optional[Path]) -> List[Task]:
    changes = tuple(int(change) for change in chosen.changes.split(","))
    return [Task(chosen.seed, shape, size, heaviest, chosen.noise, form, changes, chosen.share, program)
            for size, heaviest in SIZES[::-1] for shape in SHAPES for form in FORMS]


def table_of(counts: Dict[Tuple[int, str, str], int]) -> Iterator[str]:
    for change in sorted({change for change, _, _ in counts}, key=abs):
        yield f"\n{f'{change} mm':<18}" + "".join(f"{column:>9}" for column in COLUMNS)
        for kind in KINDS:
            numbers = counts.get((change, kind, "numbers"), 0)
            if numbers:
                shares = (100 * counts[change, kind, column] // numbers for column in COLUMNS[1:])
                yield f"{kind:<18}{numbers:>9}" + "".join(f"{share:>7} %" for share in shares)


def arguments() -> argparse.Namespace:
    parser = argparse.ArgumentParser(description="Plants wrong numbers, and prints what explains them.")
    parser.add_argument("--program", type=Path, default=DEFAULT_PROGRAM, help="the built program")
    parser.add_argument("--second-office", action="store_true", help="let the second office answer")
    parser.add_argument("--share", type=int, default=1, help="try every Nth number")
    parser.add_argument("--noise", type=int, default=1, help="the largest error, in millimetres")
    parser.add_argument("--changes", default=DEFAULT_CHANGES, help="how wrong the numbers are, in millimetres")
    parser.add_argument("--seed", type=int, default=DEFAULT_SEED, help="where the random numbers begin")
    parser.add_argument("--workers", type=int, default=os.cpu_count() or 2, help="how many surveys at a time")
    return parser.parse_args()


def program_of(chosen: argparse.Namespace) -> Optional[Path]:
    """The program to be tried; none where the second office is to answer."""
    if chosen.second_office:
        return None
    if not os.access(chosen.program, os.X_OK):
        sys.exit(f"there is no program at {chosen.program}: build it, or name it with --program, or try --second-office")
    return chosen.program


def main() -> int:
    chosen = arguments()
    program = program_of(chosen)
    with Pool(chosen.workers) as pool:
        results = [own for own in pool.imap_unordered(tried, tasks_of(chosen, program)) if own.sights]
    counts: Dict[Tuple[int, str, str], int] = Counter()
    for own in results:
        counts.update(own.counts)
    failures = [failure for own in results for failure in own.failures]
    sizes = [own.sights for own in results]
    print(f"seed {chosen.seed}: {len(results)} surveys of {min(sizes)} to {max(sizes)} sights, errors of at most {chosen.noise} mm")
    print("\n".join(table_of(counts)))
    print("\n" + "\n".join(failures[:20] + [f"{len(failures)} failures"]))
    return 1 if failures and chosen.noise <= 1 else 0


if __name__ == "__main__":
    sys.exit(main())
