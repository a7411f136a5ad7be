#!/usr/bin/env python3
"""Types a benchmark wrong by less than the limit of blunders, and looks for the note on a residual that is far above the usual one.

    noted.py [--program PATH | --second-office] [--whole] [--surveys N] [--noise MILLIMETRES] [--seed S]

N surveys have no mistake, and N have a benchmark that is wrong by 6 to 19 mm. Their shapes and sizes are drawn at random, but for a line
that is measured once: there nothing else shows which errors are usual. There are no weights: in these surveys they would say nothing of the
errors. Word 33 has tenths of a millimetre, as instruments write it, or with --whole whole ones. It prints in how many of them a sight is
marked, and in how many the note comes, by the shape of the survey.

Status 1 if the note comes in more than UNTRUE of 500 surveys without a mistake, or in less than FOUND of 500 with one, and errors are of at
most 1 mm, in tenths; or if the limit that a note proposes does not mark the sight that it names.
"""

import argparse
import re
import sys
from collections import Counter
from pathlib import Path
from random import Random
from typing import Dict, Iterator, NamedTuple, Optional, Tuple

from answers import DEFAULT_PROGRAM, Program, office
from surveys import SHAPES, Survey, Written, survey_of, written
import network
import notes

DEFAULT_SEED = 20_240_611
LIMIT_IN_MICROMETRES = 20_000
SIZES = (8, 12, 16, 24)
LEFT_OUT = "line one way"
WRONG = (6, 19)  # millimetres
TENTHS = 10  # of a millimetre
UNTRUE, FOUND, OF = 2, 400, 500
NOTE = re.compile(r"note: a residual of (\S+) m \(book (\d+) line (\d+)\) is within the limit, and \d+ times the usual one: "
                  r"--blunder (\d+) marks it")
COLUMNS = ("right", "marked", "noted", "wrong", "marked", "noted")


class Noted(NamedTuple):
    """Whether a sight is marked, and the note on a residual if there is one: a book, a line, and a limit."""

    marked: bool
    note: Optional[Tuple[int, int, int]]


class Answers:
    """What the second office notes, or a program if one is given."""

    def __init__(self, program: Optional[Path]) -> None:
        self.program = program and Program(program, LIMIT_IN_MICROMETRES)

    def told(self, text: Written, limit: int) -> str:
        if self.program:
            self.program.limit = limit
            return self.program.run(["adjust", "--out", "own"], text).stderr.decode("ascii")
        survey, _ = office.read_inputs(office.Inputs(text.books, text.benchmarks, text.weights), None)
        low = network.lowest_heights(survey, network.best_flows(survey))
        units = notes.UNITS_IN_MICROMETRE * limit
        return notes.joined(notes.marked(survey, low, units) + notes.outlying(survey, low, units)).decode("ascii")

    def of(self, text: Written) -> Noted:
        told = self.told(text, LIMIT_IN_MICROMETRES)
        found = NOTE.search(told)
        return Noted(" marked, up to " in told, (int(found[2]), int(found[3]), int(found[4])) if found else None)

    def marks(self, text: Written, note: Tuple[int, int, int]) -> bool:
        """Whether the limit that a note proposes marks the sight that it names: then no note of an unmarked sight names it."""
        told = self.told(text, note[2])
        found = NOTE.search(told)
        return " marked, up to " in told and (found is None or (int(found[2]), int(found[3])) != note[:2])


def with_wrong_benchmark(rng: Random, survey: Survey, parts: int) -> Optional[Survey]:
    if len(survey.benchmarks) < 2:
        return None
    name = rng.choice(sorted(survey.benchmarks))
    change = rng.choice((-1, 1)) * rng.randint(parts * WRONG[0], parts * WRONG[1])
    return survey._replace(benchmarks={**survey.benchmarks, name: survey.benchmarks[name] + change})


def in_tenths(text: Written, survey: Survey) -> Written:
    """The texts of a survey whose lengths are read as tenths of a millimetre: position 6 of their words is 6."""
    table = "".join(f"{name},{height // 10_000}.{height % 10_000:04}\n" for name, height in survey.benchmarks.items())
    return text._replace(books=[re.sub(rb"(33|87|88)\.\.10", rb"\1..16", book) for book in text.books],
                         benchmarks=f"point,height\n{table}".encode("ascii"))


def surveys(seed: int, noise: int) -> Iterator[Tuple[Random, str, Survey]]:
    """Surveys without end."""
    rng = Random(seed)
    while True:
        shape = rng.choice([shape for shape in SHAPES if shape != LEFT_OUT])
        yield rng, shape, survey_of(rng.randrange(2**32), shape, rng.choice(SIZES), noise)


def main() -> int:
    parser = argparse.ArgumentParser(description=__doc__.splitlines()[0])
    parser.add_argument("--program", type=Path, default=DEFAULT_PROGRAM)
    parser.add_argument("--second-office", action="store_true")
    parser.add_argument("--whole", action="store_true")
    parser.add_argument("--surveys", type=int, default=OF)
    parser.add_argument("--noise", type=int, default=1)
    parser.add_argument("--seed", type=int, default=DEFAULT_SEED)
    chosen = parser.parse_args()
    answers = Answers(None if chosen.second_office else chosen.program)
    counts: Dict[Tuple[str, int], int] = Counter()
    failures = []
    right, wrong = 0, 0
    parts = 1 if chosen.whole else TENTHS
    for rng, shape, survey in surveys(chosen.seed, parts * chosen.noise):
        if min(right, wrong) >= chosen.surveys:
            break
        mistaken = with_wrong_benchmark(rng, survey, parts)
        for column, own, taken in ((0, survey, right), (3, mistaken, wrong)):
            if own is None or taken >= chosen.surveys:
                continue
            right, wrong = right + (column == 0), wrong + (column == 3)
            text = written(own, "once") if chosen.whole else in_tenths(written(own, "once"), own)
            noted = answers.of(text)
            counts.update({(shape, column): 1, (shape, column + 1): int(noted.marked), (shape, column + 2): int(noted.note is not None)})
            if noted.note and not answers.marks(text, noted.note):
                failures.append(f"{own.title}: --blunder {noted.note[2]} does not mark book {noted.note[0]} line {noted.note[1]}")
    print(f"{'':<18}" + "".join(f"{column:>8}" for column in COLUMNS))
    for shape in [shape for shape in SHAPES if shape != LEFT_OUT] + ["all"]:
        row = [sum(count for (own, column), count in counts.items() if column == place and shape in (own, "all")) for place in range(len(COLUMNS))]
        print(f"{shape:<18}" + "".join(f"{count:>8}" for count in row))
    if chosen.noise <= 1 and not chosen.whole and (OF * row[2] > UNTRUE * row[0] or OF * row[5] < FOUND * row[3]):
        failures.append(f"the note comes in {row[2]} of {row[0]} surveys without a mistake, and in {row[5]} of {row[3]} with one")
    for failure in failures:
        print(failure)
    return 1 if failures else 0


if __name__ == "__main__":
    sys.exit(main())
