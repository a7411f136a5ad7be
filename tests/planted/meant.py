#!/usr/bin/env python3
"""Plants one typing mistake at a time in the keyed-in heights of some sixty surveys, and reads which heights `explain` says may have been meant.

    meant.py [--program PATH | --second-office] [--share N] [--noise MILLIMETRES] [--seed S] [--workers W]

The surveys have eleven shapes and three sizes, and are written in two forms: words 87 and 88 once, and in each sight. Instrument heights
are a few that come again and again, or others in each setup. Each height is typed wrong in turn: with another digit, with two neighbouring
digits exchanged, and a pole not at all, so that the one before it stays in force. --share N tries every Nth of these mistakes.

What is named is in the fields `poles` and `instruments` of `explain --csv`, for the sights that the number of the row has.

For each kind of mistake it prints how many were planted, how many of these have such rows, and of how many of those

- alone    the height that was meant is named, and nothing else;
- among    it is one of several that are named;
- place    it alone is named, but not for exactly the sights that it is wrong for;
- other    only another height is named;
- others   several are named, but not this one;
- none     nothing is named.

Status 1 if the height that was meant is named alone for less than ALONE of 100 mistakes, or another one alone for more than OTHER of 100,
and errors are of at most 1 mm. The second office answers on surveys of at most 40 sights.
"""

import argparse
import os
import shutil
import sys
from collections import Counter
from multiprocessing import Pool
from pathlib import Path
from random import Random
from typing import Dict, Iterator, List, NamedTuple, Optional, Tuple

from answers import DEFAULT_PROGRAM, UNITS, Program, Row, SecondOffice, units
from explained import DEFAULT_SEED, program_of
from surveys import FORMS, SHAPES, Setup, Survey, Written, survey_of, written

LIMIT_IN_MICROMETRES = 20_000
LEAST_DIGITS = 4
SIZES = (4, 10, 24)
INSTRUMENTS = (1_400, 1_750)  # between these, where each setup has another height
ALONE = 80
OTHER = 1
KINDS = ("digit of 88", "digit of 87", "digits of 88 exchanged", "digits of 87 exchanged", "pole not keyed in", "all")
OUTCOMES = ("alone", "among", "place", "other", "others", "none")
FIELDS = {"87": "poles", "88": "instruments"}


class Place(NamedTuple):
    """Sights of a setup, from the first to the one behind the last, and the word of their height."""

    word: str
    book: int
    setup: int
    first: int
    last: int


class Typing(NamedTuple):
    """A survey with a height typed wrong: where it is, and which one was meant, in millimetres."""

    kind: str
    survey: Survey
    place: Place
    meant: int


class Task(NamedTuple):
    """A survey in a form, to be tried by one process."""

    seed: int
    shape: str
    size: int
    noise: int
    form: str
    apart: bool
    share: int
    program: Optional[Path]


# Keyed-in heights


def poles_of(setup: Setup) -> List[Tuple[int, int, int]]:
    """The runs of sights with one pole: the first sight, the one behind the last, and the pole."""
    runs: List[Tuple[int, int, int]] = []
    for place, seen in enumerate(setup.sights):
        if runs and runs[-1][2] == seen.pole:
            runs[-1] = (runs[-1][0], place + 1, seen.pole)
        else:
            runs.append((place, place + 1, seen.pole))
    return runs


def heights_of(survey: Survey) -> Dict[Place, int]:
    """The heights in force, and the sights that use them."""
    heights = {}
    for book, setups in enumerate(survey.books, start=1):
        for place, setup in enumerate(setups):
            heights[Place("88", book, place, 0, len(setup.sights))] = setup.instrument
            for first, last, pole in poles_of(setup):
                heights[Place("87", book, place, first, last)] = pole
    return heights


def with_height(survey: Survey, place: Place, height: int) -> Survey:
    """The survey with another height keyed in: words 33 stay."""
    books = [list(setups) for setups in survey.books]
    setup = books[place.book - 1][place.setup]
    if place.word == "88":
        setup = setup._replace(instrument=height)
    else:
        sights = tuple(seen._replace(pole=height) if place.first <= count < place.last else seen for count, seen in enumerate(setup.sights))
        setup = setup._replace(sights=sights)
    books[place.book - 1][place.setup] = setup
    return survey._replace(books=tuple(tuple(setups) for setups in books))


def set_apart(survey: Survey, rng: Random) -> Survey:
    """The survey with another instrument height in each setup."""
    for place, height in heights_of(survey).items():
        if place.word == "88":
            own = rng.randint(*INSTRUMENTS)
            setup = survey.books[place.book - 1][place.setup]
            sights = tuple(seen._replace(read=seen.read + height - own) for seen in setup.sights)
            books = [list(setups) for setups in survey.books]
            books[place.book - 1][place.setup] = setup._replace(instrument=own, sights=sights)
            survey = survey._replace(books=tuple(tuple(setups) for setups in books))
    return survey


# Typing mistakes


def digits_of(height: int) -> str:
    return f"{abs(height):0{LEAST_DIGITS}}"


def with_digit(rng: Random, height: int) -> int:
    digits = digits_of(height)
    place = rng.randrange(len(digits))
    digit = rng.choice([other for other in "0123456789" if other != digits[place]])
    return int(digits[:place] + digit + digits[place + 1 :])


def exchanged(rng: Random, height: int) -> Optional[int]:
    digits = digits_of(height)
    places = [place for place in range(len(digits) - 1) if digits[place] != digits[place + 1]]
    if not places:
        return None
    place = rng.choice(places)
    return int(digits[:place] + digits[place + 1] + digits[place] + digits[place + 2 :])


def pole_before(survey: Survey, place: Place) -> Optional[int]:
    """The pole that was in force before, in this setup or the one before it."""
    setups = survey.books[place.book - 1]
    if place.first > 0:
        return setups[place.setup].sights[place.first - 1].pole
    return setups[place.setup - 1].sights[-1].pole if place.setup > 0 else None


def typings_of(survey: Survey, rng: Random) -> Iterator[Typing]:
    for place, height in heights_of(survey).items():
        tries = [(f"digit of {place.word}", with_digit(rng, height)), (f"digits of {place.word} exchanged", exchanged(rng, height))]
        if place.word == "87":
            tries.append(("pole not keyed in", pole_before(survey, place)))
        for kind, typed in tries:
            if typed not in (None, height):
                yield Typing(kind, with_height(survey, place, typed), place, height)


# What may have been meant


class Named(NamedTuple):
    """A height that is named, in units, for some sights."""

    place: Place
    height: int


def named_in(text: Written, rows: List[Row]) -> List[Named]:
    """The heights that rows of `explain` name."""
    numbers = {(number.kind, number.book, number.line): number for number in text.numbers}
    named = []
    for row in rows:
        for word, field in FIELDS.items():
            for height in row[field].split():
                number = numbers[row["kind"], int(row["book"]), int(row["line"])]
                named.append(Named(Place(word, number.book, number.setup, number.first, number.last), units(height)))
    return named


def outcome_of(named: List[Named], typing: Typing) -> str:
    meant = UNITS * typing.meant
    if any((own.place, own.height) == (typing.place, meant) for own in named):
        return "alone" if len(named) == 1 else "among"
    heights = {own.height for own in named}
    return "place" if heights == {meant} else {0: "none", 1: "other"}.get(len(heights), "others")


# A survey


def tried(task: Task) -> Counter:
    """How often each outcome came of a task, by kind of mistake."""
    implementation = SecondOffice(LIMIT_IN_MICROMETRES) if task.program is None else Program(task.program, LIMIT_IN_MICROMETRES)
    rng = Random(f"{task.seed} {task.shape} {task.size} {task.form} {task.apart}")
    survey = survey_of(task.seed, task.shape, task.size, task.noise)
    survey = set_apart(survey, rng) if task.apart else survey
    counts: Counter = Counter()
    if len(written(survey, task.form).sights) <= implementation.most_sights:
        for typing in list(typings_of(survey, rng))[:: task.share]:
            text = written(typing.survey, task.form)
            rows = implementation.explain(text)
            outcome = outcome_of(named_in(text, rows), typing) if rows else "no row"
            counts.update({(kind, outcome): 1 for kind in (typing.kind, "all")})
    if task.program is not None:
        shutil.rmtree(implementation.folder)
    return counts


# The table


def tasks_of(chosen: argparse.Namespace, program: Optional[Path]) -> List[Task]:
    return [Task(chosen.seed, shape, size, chosen.noise, form, apart, chosen.share, program)
            for size in SIZES[::-1] for shape in SHAPES for form in FORMS for apart in (False, True)]


def table_of(counts: Counter) -> Iterator[str]:
    yield f"{'':<24}{'planted':>8}{'rows':>8}" + "".join(f"{outcome:>9}" for outcome in OUTCOMES)
    for kind in KINDS:
        rows = sum(counts[kind, outcome] for outcome in OUTCOMES)
        shares = "".join(f"{100 * counts[kind, outcome] / max(rows, 1):>7.1f} %" for outcome in OUTCOMES)
        yield f"{kind:<24}{rows + counts[kind, 'no row']:>8}{rows:>8}{shares}"


def is_enough(counts: Counter) -> bool:
    rows = sum(counts["all", outcome] for outcome in OUTCOMES)
    return rows > 0 and 100 * counts["all", "alone"] >= ALONE * rows and 100 * counts["all", "other"] <= OTHER * rows


def arguments() -> argparse.Namespace:
    parser = argparse.ArgumentParser(description="Plants typing mistakes, and reads which heights may have been meant.")
    parser.add_argument("--program", type=Path, default=DEFAULT_PROGRAM, help="the built program")
    parser.add_argument("--second-office", action="store_true", help="let the second office answer")
    parser.add_argument("--share", type=int, default=1, help="try every Nth mistake")
    parser.add_argument("--noise", type=int, default=1, help="the largest error, in millimetres")
    parser.add_argument("--seed", type=int, default=DEFAULT_SEED, help="where the random numbers begin")
    parser.add_argument("--workers", type=int, default=os.cpu_count() or 2, help="how many surveys at a time")
    return parser.parse_args()


def main() -> int:
    chosen = arguments()
    program = program_of(chosen)
    with Pool(chosen.workers) as pool:
        counts = sum(pool.imap_unordered(tried, tasks_of(chosen, program)), Counter())
    print(f"seed {chosen.seed}, errors of at most {chosen.noise} mm")
    print("\n".join(table_of(counts)))
    return 0 if chosen.noise > 1 or is_enough(counts) else 1


if __name__ == "__main__":
    sys.exit(main())
