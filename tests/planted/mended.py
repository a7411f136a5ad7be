#!/usr/bin/env python3
"""Plants one typing mistake at a time, pastes the table of changes that `explain` prints, runs `mend` with it, and adjusts the mended books.

    mended.py [--program PATH] [--share N] [--noise MILLIMETRES] [--seed S] [--workers W]

The surveys and mistakes are those of meant.py. A table is printed where just one height is named. For each kind of mistake it prints how
many were planted, how many of these have a table, and of how many of those

- mended   the table changes the wrong height into the one that was meant, and the heights are those of the survey without the mistake;
- left out the table leaves the wrong sights out, and no height is further than the limit from that of the survey without the mistake;
- apart    the table changes another number, or the heights are others.

Status 1 if more than APART of 100 tables are apart, or if a mended survey whose named height is the right one has other heights than the
survey without the mistake, and errors are of at most 1 mm.
"""

import argparse
import os
import shutil
import sys
from collections import Counter
from multiprocessing import Pool
from pathlib import Path
from random import Random
from typing import Dict, Iterator, List, NamedTuple, Optional

from answers import DEFAULT_PROGRAM, Program
from explained import DEFAULT_SEED, program_of
from meant import KINDS, LIMIT_IN_MICROMETRES, Task, Typing, named_in, outcome_of, set_apart, tasks_of, typings_of, with_height
from surveys import Survey, Written, survey_of, written

HEADER = "line,word,value"
TAKES = "height_office mend takes these changes"
APART = 2
OUTCOMES = ("mended", "left out", "apart")


class Table(NamedTuple):
    """A table of changes as it is printed, and the book that it changes, from 1."""

    book: int
    text: bytes


class Counted(NamedTuple):
    """How often each outcome came, by kind of mistake, and the surveys that contradict the law."""

    counts: Counter
    untrue: List[str]


def table_in(text: str) -> Optional[Table]:
    """The table of changes in the text for people, if it has one."""
    lines = text.splitlines()
    if HEADER not in lines:
        return None
    place = lines.index(HEADER)
    purpose = lines[place - 1]
    book = int(purpose.rstrip(":").rsplit(" of book ", 1)[1]) if " of book " in purpose else 1
    assert TAKES in purpose, purpose
    return Table(book, "\n".join(lines[place : place + 2]).encode("ascii") + b"\n")


def mended(program: Program, text: Written, table: Table) -> Written:
    """The books, with one of them mended by the program."""
    books = list(text.books)
    (program.folder / "changes.csv").write_bytes(table.text)
    (program.folder / "book.gsi").write_bytes(books[table.book - 1])
    books[table.book - 1] = program.print(["mend", "changes.csv", "book.gsi"])
    return text._replace(books=books)


def right_survey(typing: Typing) -> Survey:
    return with_height(typing.survey, typing.place, typing.meant)


def farthest(own: Dict[str, int], right: Dict[str, int]) -> int:
    """How far heights are from the right ones at most, in units."""
    return max((abs(own[name] - right[name]) for name in right), default=0)


def outcome_with(program: Program, typing: Typing, form: str, table: Table) -> str:
    text = written(typing.survey, form)
    own = program.adjust(mended(program, text, table))
    right = program.adjust(written(right_survey(typing), form))
    if own is None or right is None:
        return "apart"
    if own.low == right.low:
        return "mended"
    leaves_out = table.text.endswith(b",33,\n")
    return "left out" if leaves_out and farthest(own.low, right.low) <= 100 * LIMIT_IN_MICROMETRES else "apart"


def tried(task: Task) -> Counted:
    """What came of a task."""
    program = Program(task.program, LIMIT_IN_MICROMETRES)
    rng = Random(f"{task.seed} {task.shape} {task.size} {task.form} {task.apart}")
    survey = survey_of(task.seed, task.shape, task.size, task.noise)
    survey = set_apart(survey, rng) if task.apart else survey
    counts: Counter = Counter()
    untrue = []
    for typing in list(typings_of(survey, rng))[:: task.share]:
        text = written(typing.survey, task.form)
        table = table_in(program.run(["explain"], text).stdout.decode("ascii"))
        outcome = outcome_with(program, typing, task.form, table) if table else "no table"
        counts.update({(kind, outcome): 1 for kind in (typing.kind, "all")})
        if table and outcome == "apart" and outcome_of(named_in(text, program.explain(text)), typing) == "alone":
            untrue.append(f"{typing.survey.title}, {task.form}: {typing.kind} at {typing.place}")
    shutil.rmtree(program.folder)
    return Counted(counts, untrue)


def table_of(counts: Counter) -> Iterator[str]:
    yield f"{'':<24}{'planted':>8}{'tables':>8}" + "".join(f"{outcome:>10}" for outcome in OUTCOMES)
    for kind in KINDS:
        tables = sum(counts[kind, outcome] for outcome in OUTCOMES)
        shares = "".join(f"{100 * counts[kind, outcome] / max(tables, 1):>8.1f} %" for outcome in OUTCOMES)
        yield f"{kind:<24}{tables + counts[kind, 'no table']:>8}{tables:>8}{shares}"


def is_enough(counts: Counter) -> bool:
    tables = sum(counts["all", outcome] for outcome in OUTCOMES)
    return tables > 0 and 100 * counts["all", "apart"] <= APART * tables


def arguments() -> argparse.Namespace:
    parser = argparse.ArgumentParser(description="Plants typing mistakes, and mends the books by the tables that explain prints.")
    parser.add_argument("--program", type=Path, default=DEFAULT_PROGRAM, help="the built program")
    parser.add_argument("--share", type=int, default=1, help="try every Nth mistake")
    parser.add_argument("--noise", type=int, default=1, help="the largest error, in millimetres")
    parser.add_argument("--seed", type=int, default=DEFAULT_SEED, help="where the random numbers begin")
    parser.add_argument("--workers", type=int, default=os.cpu_count() or 2, help="how many surveys at a time")
    parser.set_defaults(second_office=False)
    return parser.parse_args()


def main() -> int:
    chosen = arguments()
    program = program_of(chosen)
    with Pool(chosen.workers) as pool:
        found = list(pool.imap_unordered(tried, tasks_of(chosen, program)))
    counts = sum((own.counts for own in found), Counter())
    untrue = [line for own in found for line in own.untrue]
    print(f"seed {chosen.seed}, errors of at most {chosen.noise} mm")
    print("\n".join([*table_of(counts), *untrue]))
    return 0 if chosen.noise > 1 or (is_enough(counts) and not untrue) else 1


if __name__ == "__main__":
    sys.exit(main())
