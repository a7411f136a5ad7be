#!/usr/bin/env python3
"""Plants no mistake, one, or two in the surveys of `explained.py`, and compares what their pages say with the heights without it.

    verdicts.py [--program PATH | --second-office] [--tries N] [--noise MILLIMETRES] [--seed S] [--workers W]

N mistakes of each kind are planted in each survey, and 3 N surveys have none. The second office answers on surveys of at most 20 sights.
A height is wrong if it differs by more than the limit from that of the survey without the mistake. Of the trials of each kind it prints
how many pages have a verdict of each class, and how often

- wrong     a height is wrong;
- hidden    and the verdict is `good`;
- struck    some heights are struck out;
- missed    some number has number 1, and a height is wrong that is not struck out;
- vain      all heights that are struck out were right;
- alone     one number alone has number 1;
- mended    and no height is wrong, once those that stand beside struck ones take their places;
- false     what the heading says is not true.

A heading is true of one mistake or none: `All sights fit.` where no residual is above the limit, a heading that names one wrong number
where the planted number has number 1 or more than three have it, and one that says that no number explains it all never. Status 1 if one
mistake of 50 mm or more has a false heading, a missed height, or a hidden one; if a survey without a mistake has a verdict that is `bad`;
or if more than 3 in 100 of these do not say that all sights fit.
"""

import argparse
import html
import re
import shutil
import sys
from collections import Counter
from multiprocessing import Pool
from pathlib import Path
from random import Random
from typing import Dict, Iterator, List, NamedTuple, Optional, Tuple

from answers import DEFAULT_PROGRAM, UNITS, UNITS_IN_METRE, Adjusted
from explained import LIMIT_IN_MICROMETRES, MOST_ROWS, SIZES, implementation_of, is_row_of
from sentences import DEFAULT_SEED, Planted, with_one, with_two
from surveys import SHAPES, Survey, survey_of, written

VERDICT = re.compile(r'<div class="verdict (\w+)">\n<h2>(.*?)</h2>\n(.*?)</div>\n', re.DOTALL)
HEIGHTS = re.compile(r'<section id="heights">.*?</section>', re.DOTALL)
STRUCK = re.compile(r'<tr class="x"><th>(.*?)<td><s>.*?<b>(-?[0-9.]+)(?: to (-?[0-9.]+))?</b>')
CLASSES = ("good", "care", "bad")
COLUMNS = ("trials",) + CLASSES + ("wrong", "hidden", "struck", "missed", "vain", "alone", "mended", "false")
LIMIT = LIMIT_IN_MICROMETRES * UNITS // 1_000
# How large one mistake is, in millimetres. Those below FAR_BEYOND are of about the size of the limit.
SIZES_OF_ONE = (15, 20, 25, 50, 100, 500, 1_000)
FAR_BEYOND = 50
FITS, ONE, NO_ONE = "All sights fit.", "One wrong number", "no one number"
NONE, TWO = "no mistake", "two of 0.1 or 0.5 m"
FEW = 3
MOST_SIGHTS = 20  # of a survey on which the second office answers
MOST_DOUBTED = 3  # of a hundred surveys without a mistake


class Page(NamedTuple):
    """The class and the heading of the verdict, and the heights that stand beside those that are struck out."""

    kind: str
    heading: str
    struck: Dict[str, Tuple[int, int]]


class Task(NamedTuple):
    program: Optional[Path]
    shape: str
    size: int
    heaviest: int
    tries: int
    noise: int
    seed: int


def length(text: str) -> int:
    """A height of a page, which has four digits behind its dot."""
    whole, parts = text.lstrip("-").split(".")
    return (-1 if text.startswith("-") else 1) * (int(whole) * UNITS_IN_METRE + int(parts) * 10_000)


def page_of(implementation, text) -> Page:
    page = implementation.page(text)
    found = VERDICT.search(page)
    struck = STRUCK.findall(HEIGHTS.search(page)[0])
    return Page(found[1], found[2], {html.unescape(name): (length(low), length(high or low)) for name, low, high in struck})


def wrong_names(adjusted: Adjusted, right: Adjusted) -> List[str]:
    return [name for name in right.low if abs(adjusted.low[name] - right.low[name]) > LIMIT]


def is_true(heading: str, adjusted: Adjusted, first: int, leads: bool, mistakes: int) -> bool:
    """Whether the heading is true of so many mistakes."""
    if heading == FITS:
        return not adjusted.marks
    if NO_ONE in heading:
        return mistakes > 1
    return not heading.startswith(ONE) or leads or first > FEW


def counted(implementation, right: Adjusted, planted: Planted) -> Dict[str, bool]:
    text = written(planted.survey, "once")
    adjusted = implementation.adjust(text)
    if adjusted is None:
        return {}
    page = page_of(implementation, text)
    first = [row for row in implementation.explain(text) if row["number"] == "1"]
    leads = any(is_row_of(row, number) for row in first for number in planted.numbers) or len(first) == MOST_ROWS
    wrong = wrong_names(adjusted, right)
    alone, missed = len(first) == 1, bool(first) and any(name not in page.struck for name in wrong)
    # A height of a page is rounded.
    beside = all(abs(height - right.low[name]) <= LIMIT + 10_000 for name, span in page.struck.items() for height in span)
    return {"trials": True, **{own: page.kind == own for own in CLASSES}, "wrong": bool(wrong),
            "hidden": bool(wrong) and page.kind == "good", "struck": bool(page.struck), "missed": missed,
            "vain": bool(page.struck) and not set(wrong) & set(page.struck), "alone": alone, "mended": alone and not missed and beside,
            "false": not is_true(page.heading, adjusted, len(first), leads, len(planted.numbers)), "fits": page.heading == FITS}


def trials(rng: Random, survey: Survey, tries: int) -> Iterator[Tuple[str, Planted]]:
    for _ in range(tries):
        for size in SIZES_OF_ONE:
            yield f"one of {size} mm", with_one(rng, survey, size)
        yield TWO, with_two(rng, survey)


def is_large(kind: str) -> bool:
    return kind.startswith("one") and int(kind.split()[2]) >= FAR_BEYOND


def failures_of(kind: str, found: Dict[str, bool]) -> List[str]:
    if kind == NONE:
        return ["the verdict is bad"] if found["bad"] else []
    wanted = {"false": "the heading is not true", "missed": "a wrong height is not struck out", "hidden": "the verdict is good"}
    return [words for column, words in wanted.items() if is_large(kind) and found[column]]


def tried(task: Task) -> Tuple[Dict[Tuple[str, str], int], List[str]]:
    """What came of the trials of a survey: how often each column held, and what failed, in words."""
    implementation = implementation_of(task.program)
    counts: Dict[Tuple[str, str], int] = Counter()
    failures: List[str] = []
    own = survey_of(task.seed, task.shape, task.size, task.noise, task.heaviest)
    text = written(own, "once")
    if task.program is None and len(text.sights) > MOST_SIGHTS:
        return counts, failures
    right = implementation.adjust(text)
    clean = [survey_of(task.seed + number, task.shape, task.size, task.noise, task.heaviest) for number in range(3 * task.tries)]
    rows = [(NONE, Planted(survey, [], []), implementation.adjust(written(survey, "once"))) for survey in clean]
    rows += [(kind, planted, right) for kind, planted in trials(Random(f"{task.seed} {own.title}"), own, task.tries)]
    for kind, planted, exact in rows:
        found = counted(implementation, exact, planted)
        counts.update({(kind, column): int(holds) for column, holds in found.items()})
        failures += [f"{own.title}: {kind} in {planted.numbers}: {failure}" for failure in failures_of(kind, found)] if found else []
    if task.program is not None:
        shutil.rmtree(implementation.folder)
    return counts, failures


def arguments() -> argparse.Namespace:
    parser = argparse.ArgumentParser(description=__doc__.splitlines()[0])
    parser.add_argument("--program", type=Path, default=DEFAULT_PROGRAM)
    parser.add_argument("--second-office", action="store_true", help="let the second office answer")
    parser.add_argument("--tries", type=int, default=3)
    parser.add_argument("--noise", type=int, default=1)
    parser.add_argument("--seed", type=int, default=DEFAULT_SEED)
    parser.add_argument("--workers", type=int, default=2)
    return parser.parse_args()


def main() -> int:
    chosen = arguments()
    program = None if chosen.second_office else chosen.program
    tasks = [Task(program, shape, size, heaviest, chosen.tries, chosen.noise, chosen.seed)
             for size, heaviest in SIZES for shape in SHAPES]
    counts: Dict[Tuple[str, str], int] = Counter()
    failures: List[str] = []
    with Pool(chosen.workers) as pool:
        for own, failed in pool.imap(tried, tasks):
            counts.update(own)
            failures += failed
    kinds = [NONE] + [f"one of {size} mm" for size in SIZES_OF_ONE] + [TWO]
    print(f"{'':<22}" + "".join(f"{column:>8}" for column in COLUMNS))
    for kind in kinds:
        print(f"{kind:<22}" + "".join(f"{counts[kind, column]:>8}" for column in COLUMNS))
    doubted = counts[NONE, "trials"] - counts[NONE, "fits"]
    if 100 * doubted > MOST_DOUBTED * counts[NONE, "trials"]:
        failures.append(f"{doubted} of {counts[NONE, 'trials']} surveys without a mistake do not say that all sights fit")
    print("\n".join(failures))
    return 1 if failures else 0


if __name__ == "__main__":
    sys.exit(main())
