#!/usr/bin/env python3
"""Plants one mistake, two mistakes, or a wrong name of a station in some thirty surveys, and counts what the sentences of `explain` say.

    sentences.py [--program PATH] [--tries N] [--noise MILLIMETRES] [--seed S]

The surveys are those of `explained.py`, in the form in which words 87 and 88 are written once. N mistakes of each kind are planted in each
survey, at random. For each kind it prints of how many trials it is true that

- trials    the wrong survey has a row, or marks;
- leads     a wrong number has number 1, or all 20 rows do; for a wrong name, a number of its setup;
- one       the text says that one wrong number explains this;
- no one    it says that no one number explains all of this;
- cannot    it says that no instrument stands, or no pole is, as proposed;
- asks      it asks whether another height was meant than was typed;
- vain      all heights that it asks for are of numbers that are right.

Status 1 if the text says of one mistake of 50 mm or more, whose number leads, that no one number explains all; or of one mistake of at most
100 mm that a height cannot be.
"""

import argparse
import sys
from collections import Counter
from pathlib import Path
from random import Random
from typing import Dict, Iterator, List, NamedTuple, Tuple

from answers import DEFAULT_PROGRAM, Program, Row, rows_of
from explained import LIMIT_IN_MICROMETRES, MOST_ROWS, SIZES, is_row_of
from surveys import SHAPES, Number, Survey, changed, survey_of, written

DEFAULT_SEED = 20_240_607
COLUMNS = ("trials", "leads", "one", "no one", "cannot", "asks", "vain")
ONE, NO_ONE, ASKS = "One wrong number explains this", "No one number explains all of this", ", meant "
CANNOT = ("No instrument stands", "No pole is")
# Of one mistake: its size in millimetres.
SIZES_OF_ONE = (15, 20, 25, 50, 100, 1_000)


class Planted(NamedTuple):
    """A wrong survey, the numbers that are wrong, and books and setups whose station has a wrong name."""

    survey: Survey
    numbers: List[Number]
    setups: List[Tuple[int, int]]


def numbers_of(survey: Survey) -> List[Number]:
    return written(survey, "once").numbers


def with_one(rng: Random, survey: Survey, size: int) -> Planted:
    number = rng.choice(numbers_of(survey))
    return Planted(changed(survey, number, rng.choice((-size, size))), [number], [])


def with_two(rng: Random, survey: Survey) -> Planted:
    first, second = rng.sample(numbers_of(survey), 2)
    wrong = changed(changed(survey, first, rng.choice((-500, -100, 100, 500))), second, rng.choice((-500, -100, 100, 500)))
    return Planted(wrong, [first, second], [])


def with_name(rng: Random, survey: Survey) -> Planted:
    """The station of a setup is another point, which none of its sights has as its target."""
    book = rng.randrange(len(survey.books))
    place = rng.randrange(len(survey.books[book]))
    setup = survey.books[book][place]
    others = [name for name in survey.truth if name != setup.station and name not in {seen.target for seen in setup.sights}]
    if not others:
        return Planted(survey, [], [])
    setups = list(survey.books[book])
    setups[place] = setup._replace(station=rng.choice(others))
    books = list(survey.books)
    books[book] = tuple(setups)
    return Planted(survey._replace(books=tuple(books)), [], [(book + 1, place)])


def is_of_setup(row: Row, text, setups: List[Tuple[int, int]]) -> bool:
    """Whether a row is of a setup with a wrong name."""
    for number in text.numbers:
        if is_row_of(row, number) and (number.book, number.setup) in setups:
            return True
    return False


def counted(program: Program, planted: Planted) -> Dict[str, bool]:
    text = written(planted.survey, "once")
    done = program.run(["explain", "--csv"], text)
    if done.returncode:
        return {}
    rows = rows_of(done.stdout)
    said = program.run(["explain"], text).stdout.decode("ascii")
    if not rows and "\nNothing to explain" in said:
        return {}
    first = [row for row in rows if row["number"] == "1"]
    wrong = [row for row in first if any(is_row_of(row, number) for number in planted.numbers) or is_of_setup(row, text, planted.setups)]
    asks = ASKS in said
    return {"trials": True, "leads": bool(wrong) or len(first) == MOST_ROWS, "one": ONE in said, "no one": NO_ONE in said,
            "cannot": any(f"\n{start}" in said for start in CANNOT), "asks": asks,
            "vain": asks and not any(row["poles"] or row["instruments"] for row in wrong)}


def trials(rng: Random, survey: Survey, tries: int) -> Iterator[Tuple[str, Planted]]:
    for _ in range(tries):
        for size in SIZES_OF_ONE:
            yield f"one of {size} mm", with_one(rng, survey, size)
        yield "two of 0.1 or 0.5 m", with_two(rng, survey)
        yield "name of a station", with_name(rng, survey)


def main() -> int:
    parser = argparse.ArgumentParser(description=__doc__.splitlines()[0])
    parser.add_argument("--program", type=Path, default=DEFAULT_PROGRAM)
    parser.add_argument("--tries", type=int, default=5)
    parser.add_argument("--noise", type=int, default=1)
    parser.add_argument("--seed", type=int, default=DEFAULT_SEED)
    chosen = parser.parse_args()
    program = Program(chosen.program, LIMIT_IN_MICROMETRES)
    counts: Dict[Tuple[str, str], int] = Counter()
    failures: List[str] = []
    for size, heaviest in SIZES:
        for shape in SHAPES:
            survey = survey_of(chosen.seed, shape, size, chosen.noise, heaviest)
            for kind, planted in trials(Random(f"{chosen.seed} {survey.title}"), survey, chosen.tries):
                found = counted(program, planted)
                counts.update({(kind, column): int(holds) for column, holds in found.items()})
                if found.get("cannot") and kind.startswith("one") and kind != "one of 1000 mm":
                    failures.append(f"{survey.title}: {kind} in {planted.numbers}: a value is said to be impossible")
                if found.get("no one") and found.get("leads") and kind.startswith("one") and int(kind.split()[2]) >= 50:
                    failures.append(f"{survey.title}: {kind} in {planted.numbers}: no one number is said to explain all")
    print(f"{'':<22}" + "".join(f"{column:>9}" for column in COLUMNS))
    for kind in dict.fromkeys(kind for kind, _ in counts):
        print(f"{kind:<22}" + "".join(f"{counts[kind, column]:>9}" for column in COLUMNS))
    for failure in failures:
        print(failure)
    return 1 if failures else 0


if __name__ == "__main__":
    sys.exit(main())
