#!/usr/bin/env python3
"""Plants a wrong number that nothing checks in surveys, and looks whether one more sight checks it, as the page says.

    one_more.py [--program PATH] [--tries N]

In each of N surveys of each shape six numbers are wrong by half a metre, one at a time. Where no sight is marked then, one sight more is
added between points of the survey, of up to 30 that are tried. Status 1 if none of them leads to a mark.
"""

import argparse
import sys
from itertools import permutations
from pathlib import Path
from random import Random
from typing import Iterator

from answers import DEFAULT_PROGRAM, Program
from explained import LIMIT_IN_MICROMETRES
from surveys import SHAPES, Seen, Setup, Survey, changed, survey_of, written

CHANGE = 500
NUMBERS = 6
SIGHTS = 30
INSTRUMENT, POLE = 1_600, 1_300


def is_marked(program: Program, survey: Survey) -> bool:
    """Whether a sight is marked. A survey that is refused has no mark."""
    adjusted = program.adjust(written(survey, "once"))
    return adjusted is not None and bool(adjusted.marks)


def with_one_more(rng: Random, survey: Survey) -> Iterator[Survey]:
    """The survey with one more right sight at its end, from each of some pairs of points."""
    pairs = list(permutations(survey.truth, 2))
    for station, target in rng.sample(pairs, min(SIGHTS, len(pairs))):
        read = survey.truth[target] - survey.truth[station] - INSTRUMENT + POLE
        setup = Setup(station, INSTRUMENT, (Seen(target, POLE, read),))
        yield survey._replace(books=survey.books[:-1] + (survey.books[-1] + (setup,),))


def main() -> int:
    parser = argparse.ArgumentParser(description=__doc__, formatter_class=argparse.RawDescriptionHelpFormatter)
    parser.add_argument("--program", type=Path, default=DEFAULT_PROGRAM)
    parser.add_argument("--tries", type=int, default=10)
    chosen = parser.parse_args()
    program = Program(chosen.program, LIMIT_IN_MICROMETRES)
    planted = silent = unchecked = 0
    for seed in range(chosen.tries):
        for shape in SHAPES:
            rng = Random(f"{seed} {shape}")
            survey = survey_of(seed, shape, rng.choice((4, 5)), 1, rng.choice((1, 5)))
            numbers = [number for number in written(survey, "once").numbers if not number.kind.endswith("since")]
            for number in rng.sample(numbers, min(NUMBERS, len(numbers))):
                wrong = changed(survey, number, CHANGE)
                planted += 1
                if not is_marked(program, wrong):
                    silent += 1
                    unchecked += not any(is_marked(program, more) for more in with_one_more(rng, wrong))
    print(f"{planted} wrong numbers, {silent} without a mark; {unchecked} of these that one more sight does not check")
    return 1 if unchecked or not silent else 0


sys.exit(main())
