#!/usr/bin/env python3
"""Plants one wrong name or one wrong sign at a time in some thirty surveys, and reads which readings `explain` names.

    names.py [--program PATH | --second-office] [--tries N] [--noise MILLIMETRES] [--seed S] [--workers W]

The surveys are those of `explained.py`, in both forms. N times in each a sight runs to another point, a setup has the name of another
point, a benchmark's row that of a point without one, and a word 33 the other sign; and N times a number is wrong by 0.1 m or 1 m, where all
names are right. For each kind it prints how many were planted, of how many

- trace   a row of the wrong place has number 1, and at most three rows have it (of a number: any rows);

and of how many of those, where the right name is elsewhere in the books,

- found   the right name or sign is named;
- first   it is the first that is named for its row;
- untrue  only other ones are named for it (of a number: any).

Status 1 if less than FOUND or FIRST of 100 are found or first, or more than UNTRUE of 100 wrong numbers have an untrue name, and errors are of
at most 1 mm. The second office answers on surveys of at most 40 sights.
"""

import argparse
import os
import shutil
import sys
from collections import Counter
from multiprocessing import Pool
from pathlib import Path
from random import Random
from typing import Iterator, List, NamedTuple, Optional, Tuple

from answers import DEFAULT_PROGRAM, Row
from explained import DEFAULT_SEED, LIMIT_IN_MICROMETRES, SIZES, implementation_of, program_of
from surveys import FORMS, SHAPES, Setup, Survey, Written, changed, survey_of, written

MOST_FIRST = 3
NAMED = ("target", "station", "point", "sign")
NUMBER = "number"
OUTCOMES = ("found", "first", "untrue")
FOUND = {"target": 99, "station": 98, "point": 98, "sign": 99}
FIRST = 98
UNTRUE = 10
# How wrong a number is, in millimetres.
CHANGES = (-1_000, -100, 100, 1_000)
# A word 33 whose sign is wrong by less than this leaves no trace: millimetres.
SMALLEST_WORD = 11


class Planted(NamedTuple):
    """A wrong survey: the kind of reading that mends it, its name, and the wrong place: a book, a setup and a sight, or a benchmark. A wrong
    number has none of them."""

    kind: str
    survey: Survey
    name: str
    place: Tuple[int, int, int]
    benchmark: str


class Task(NamedTuple):
    """A survey in a form, to be tried by one process."""

    seed: int
    shape: str
    size: int
    heaviest: int
    noise: int
    form: str
    tries: int
    program: Optional[Path]


# What is planted


def with_setup(survey: Survey, book: int, place: int, setup: Setup) -> Survey:
    setups = list(survey.books[book])
    setups[place] = setup
    return survey._replace(books=survey.books[:book] + (tuple(setups),) + survey.books[book + 1 :])


def with_sight(survey: Survey, place: Tuple[int, int, int], **changes) -> Survey:
    book, number, sight = place
    setup = survey.books[book][number]
    sights = tuple(seen._replace(**changes) if count == sight else seen for count, seen in enumerate(setup.sights))
    return with_setup(survey, book, number, setup._replace(sights=sights))


def any_sight(rng: Random, survey: Survey) -> Tuple[int, int, int]:
    book = rng.randrange(len(survey.books))
    setup = rng.randrange(len(survey.books[book]))
    return book, setup, rng.randrange(len(survey.books[book][setup].sights))


def another(rng: Random, survey: Survey, but: set) -> Optional[str]:
    others = [name for name in survey.truth if name not in but]
    return rng.choice(others) if others else None


def with_target(rng: Random, survey: Survey) -> Optional[Planted]:
    place = any_sight(rng, survey)
    setup = survey.books[place[0]][place[1]]
    right = setup.sights[place[2]].target
    wrong = another(rng, survey, {setup.station, right})
    return Planted("target", with_sight(survey, place, target=wrong), right, place, "") if wrong else None


def with_station(rng: Random, survey: Survey) -> Optional[Planted]:
    place = any_sight(rng, survey)
    setup = survey.books[place[0]][place[1]]
    wrong = another(rng, survey, {setup.station} | {seen.target for seen in setup.sights})
    return Planted("station", with_setup(survey, *place[:2], setup._replace(station=wrong)), setup.station, place, "") if wrong else None


def with_row(rng: Random, survey: Survey) -> Optional[Planted]:
    right, wrong = rng.choice(sorted(survey.benchmarks)), another(rng, survey, set(survey.benchmarks))
    if wrong is None:
        return None
    rows = {wrong if name == right else name: height for name, height in survey.benchmarks.items()}
    return Planted("point", survey._replace(benchmarks=rows), right, (0, 0, 0), wrong)


def with_sign(rng: Random, survey: Survey) -> Optional[Planted]:
    place = any_sight(rng, survey)
    read = survey.books[place[0]][place[1]].sights[place[2]].read
    return Planted("sign", with_sight(survey, place, read=-read), "", place, "") if abs(read) >= SMALLEST_WORD else None


def with_number(rng: Random, survey: Survey) -> Planted:
    number = rng.choice(written(survey, "once").numbers)
    return Planted(NUMBER, changed(survey, number, rng.choice(CHANGES)), "", (0, 0, 0), "")


PLANTS = (with_target, with_station, with_row, with_sign)


def planted_in(rng: Random, survey: Survey, tries: int) -> Iterator[Planted]:
    for _ in range(tries):
        for plant in PLANTS:
            own = plant(rng, survey)
            if own is not None:
                yield own
    for _ in range(tries):
        yield with_number(rng, survey)


# What is named


def lines_of(text: Written, own: Planted) -> set:
    """The books and lines of the rows that are of the wrong place."""
    book, setup, sight = own.place
    sights = {where for where, at in text.sights.items() if where[0] == book + 1 and at == (setup, sight)}
    if own.kind != "station":
        return sights
    numbers = {(number.book, number.line) for number in text.numbers if (number.kind, number.book, number.setup) == ("instrument", book + 1, setup)}
    return numbers or sights


def is_of(row: Row, text: Written, own: Planted) -> bool:
    if own.kind == NUMBER:
        return True
    if own.kind == "point":
        return (row["kind"], row["from"]) == ("benchmark", own.benchmark)
    kinds = ("instrument", "sight") if own.kind == "station" else ("sight",)
    return row["kind"] in kinds and (int(row["book"]), int(row["line"])) in lines_of(text, own)


def names_in(survey: Survey) -> set:
    """The names in the books."""
    return {name for setups in survey.books for setup in setups for name in [setup.station] + [seen.target for seen in setup.sights]}


def outcomes(rows: List[Row], text: Written, own: Planted) -> List[str]:
    first = [row for row in rows if row["number"] == "1"]
    if len(first) > MOST_FIRST or not any(is_of(row, text, own) for row in first):
        return ["planted"]
    if own.name and own.name not in names_in(own.survey) | set(own.survey.benchmarks):
        return ["planted", "trace", "nowhere"]
    named = [(row["reading"], row["name"]) for row in rows if row["number"] == "" and is_of(row, text, own)]
    right = (own.kind, own.name)
    found = ["found"] if right in named else ["untrue"] if named else []
    return ["planted", "trace"] + found + (["first"] if named[:1] == [right] else [])


def tried(task: Task) -> Counter:
    implementation = implementation_of(task.program)
    survey = survey_of(task.seed, task.shape, task.size, task.noise, task.heaviest)
    counts: Counter = Counter()
    if len(written(survey, task.form).sights) <= implementation.most_sights:
        rng = Random(f"{task.seed} {survey.title} {task.form}")
        for own in planted_in(rng, survey, task.tries):
            text = written(own.survey, task.form)
            if implementation.adjust(text) is not None:
                counts.update({(own.kind, outcome): 1 for outcome in outcomes(implementation.explain(text), text, own)})
    if task.program is not None:
        shutil.rmtree(implementation.folder)
    return counts


# The table


def share(counts: Counter, kind: str, outcome: str) -> float:
    return 100 * counts[kind, outcome] / max(counts[kind, "trace"] - counts[kind, "nowhere"], 1)


def table_of(counts: Counter) -> Iterator[str]:
    yield f"{'':<10}{'planted':>9}{'trace':>9}{'nowhere':>9}" + "".join(f"{outcome:>9}" for outcome in OUTCOMES)
    for kind in (*NAMED, NUMBER):
        numbers = "".join(f"{counts[kind, column]:>9}" for column in ("planted", "trace", "nowhere"))
        yield f"{kind:<10}{numbers}" + "".join(f"{share(counts, kind, outcome):>7.1f} %" for outcome in OUTCOMES)


def is_enough(counts: Counter) -> bool:
    are_named = all(share(counts, kind, "found") >= FOUND[kind] and share(counts, kind, "first") >= FIRST for kind in NAMED)
    return are_named and share(counts, NUMBER, "untrue") <= UNTRUE


def arguments() -> argparse.Namespace:
    parser = argparse.ArgumentParser(description="Plants wrong names and signs, and reads which readings are named.")
    parser.add_argument("--program", type=Path, default=DEFAULT_PROGRAM, help="the built program")
    parser.add_argument("--second-office", action="store_true", help="let the second office answer")
    parser.add_argument("--tries", type=int, default=5, help="how many of each kind in each survey")
    parser.add_argument("--noise", type=int, default=1, help="the largest error, in millimetres")
    parser.add_argument("--seed", type=int, default=DEFAULT_SEED, help="where the random numbers begin")
    parser.add_argument("--workers", type=int, default=os.cpu_count() or 2, help="how many surveys at a time")
    return parser.parse_args()


def main() -> int:
    chosen = arguments()
    program = program_of(chosen)
    tasks = [Task(chosen.seed, shape, size, heaviest, chosen.noise, form, chosen.tries, program)
             for size, heaviest in SIZES[::-1] for shape in SHAPES for form in FORMS]
    with Pool(chosen.workers) as pool:
        counts = sum(pool.imap_unordered(tried, tasks), Counter())
    print(f"seed {chosen.seed}, errors of at most {chosen.noise} mm, limit {LIMIT_IN_MICROMETRES} micrometres")
    print("\n".join(table_of(counts)))
    return 0 if chosen.noise > 1 or is_enough(counts) else 1


if __name__ == "__main__":
    sys.exit(main())
