#!/usr/bin/env python3
"""Compares the program with the second office on small random projects.

    compare.py [--program PATH] [--projects N] [--seed S] [--workers W]

Each project is adjusted and reviewed by both, and both write its page. Standard output, standard error and status have to be the
same, and so have the five files of the review, the page, the heights file, the report, the GSI file, and all records of the
certificate but the flows, byte by byte. For the page books and titles have names that would do harm if they were markup, and each page
has known elements and attributes alone. Which of several best flows is written is open: the program's have to keep their weights,
balance and be slack with the heights, and have the cost. Both forms of what `explain` prints have to be the second office's, byte by
byte. Then the program checks its own certificate, and changed ones, with the second office's verdict, line and status; every second
project lists the inputs behind `yes`. Prints the seed, how many came out which way, and every difference, with the project saved in a
folder that it names. Status 0 only without a difference; 2 where the comparison could not be made.
"""

import argparse
import os
import shutil
import subprocess
import sys
import tempfile
from collections import Counter
from concurrent.futures import ThreadPoolExecutor
from pathlib import Path
from random import Random
from typing import Dict, List, NamedTuple, Optional, Tuple

import office
from markup import faults_of
from pages import HOSTILE
from projects import Project, changed_certificate, some_project
from runs import (DEFAULT_PROGRAM, ENDS, EXPLAIN_FORMS, PAGE_END, REVIEW_ENDS, Files, compare_files, differ, differ_in_lines,
                  explain_words, network_words, outcome_of, saved, saved_under, second_adjustment, second_explanations,
                  second_review, written)

DEFAULT_PROJECTS = 1_000
DEFAULT_SEED = 20_240_607
CHANGED_CERTIFICATES = 4
PATIENCE_IN_SECONDS = 120


class Comparison(NamedTuple):
    """What came of one project: outcomes, and what differs, in words."""

    outcomes: List[str]
    differences: List[str]
    folder: Path


class Renamed(NamedTuple):
    """What a page is called, and its books."""

    books: List[bytes]
    title: Optional[bytes]

    def words(self) -> List[str]:
        return [] if self.title is None else ["--title", os.fsdecode(self.title)]


# Running the program


def run(program: Path, folder: Path, words: List[str]) -> Tuple[int, bytes, bytes]:
    try:
        done = subprocess.run([str(program)] + words, cwd=folder, stdout=subprocess.PIPE, stderr=subprocess.PIPE,
                              timeout=PATIENCE_IN_SECONDS, check=False)
    except subprocess.TimeoutExpired:
        return -1, b"", f"(no end within {PATIENCE_IN_SECONDS} s)".encode("ascii")
    return done.returncode, done.stdout, office.reader.without_help(done.stderr)


# Comparing


def some_of(files: Dict[str, bytes], ends: Tuple[str, ...]) -> Dict[str, bytes]:
    return {end: text for end, text in files.items() if end in ends}


def compare_review(program: Path, project: Project, files: Files, second: office.Answer) -> Tuple[str, List[str]]:
    own = run(program, files.folder, network_words("review", project, files))
    differences = differ("review", own, (second.status, second.standard_output, second.standard_error))
    differences += compare_files(project, some_of(written(files.folder), REVIEW_ENDS), second)
    return outcome_of("review", second), differences


def compare_explain(program: Path, project: Project, files: Files, forms: List[office.Answer]) -> Tuple[str, List[str]]:
    differences = []
    for form, second in zip(EXPLAIN_FORMS, forms):
        own = run(program, files.folder, explain_words(project, files, form))
        differences += differ(f"explain, {form}", own, (second.status, second.standard_output, second.standard_error))
    return outcome_of("explain", second), differences


def renamed(rng: Random, count: int) -> Renamed:
    """Hostile names of so many books, and a hostile title or none. An argument has to be text, and a title a line without controls."""
    names = [name for name in HOSTILE if name.decode("utf-8", "ignore").encode("utf-8") == name]
    titles = [name for name in names if min(name) >= 32 and 127 not in name]
    return Renamed([b"%d" % number + rng.choice(names) for number in range(count)], rng.choice([None, *titles]))


def compare_page(program: Path, project: Project, files: Files, second: office.Answer, rename: Renamed) -> Tuple[str, List[str]]:
    named = saved_under(rename.books, project, files)
    own = run(program, files.folder, network_words("page", project, named) + rename.words())
    page = written(files.folder).get(PAGE_END, b"")
    differences = differ("page", own, (second.status, second.standard_output, second.standard_error))
    differences += differ_in_lines("page", page, second.files.get(PAGE_END, b"")) + (faults_of(page) if page else [])
    return outcome_of("page", second), differences


def compare_check(program: Path, project: Project, files: Files, title: str, certificate: bytes, is_listed: bool) -> Tuple[str, List[str]]:
    name = f"{title}.csv"
    (files.folder / name).write_bytes(certificate)
    own = run(program, files.folder, ["check", "--certificate", name, *(["--inputs"] if is_listed else [])] + files.words)
    second = office.check(project.inputs, certificate, name.encode() if is_listed else None)
    differences = differ(f"check of {title}", own, (second.status, second.standard_output, second.standard_error))
    return outcome_of("check", second), differences


def compare_project(program: Path, folder: Path, seed: int, number: int) -> Comparison:
    """Compares project `number`, which hangs on the seed and the number alone."""
    rng = Random(f"{seed} {number}")
    project = some_project(rng, number)
    files = saved(project, folder)
    own = run(program, folder, network_words("adjust", project, files))
    second = second_adjustment(project)
    differences = differ("adjust", own, (second.status, second.standard_output, second.standard_error))
    differences += compare_files(project, some_of(written(folder), ENDS), second)
    outcomes = [outcome_of("adjust", second)]
    reviewed, explained = second_review(project), second_explanations(project, *EXPLAIN_FORMS)
    rename = renamed(Random(f"names {seed} {number}"), len(project.inputs.books))
    paged = office.page(reviewed, explained[0], project.inputs, rename.title or b"own", rename.books)
    for outcome, found in (compare_review(program, project, files, reviewed), compare_explain(program, project, files, explained),
                           compare_page(program, project, files, paged, rename)):
        outcomes.append(outcome)
        differences += found
    # Where a table was refused there is no certificate of one's own, but somebody else's is still checked.
    certificate = written(folder).get(".certificate.csv", b"kind,key,value\nV,2,0\nZ,cost,0\n")
    changed = [changed_certificate(rng, certificate) for _ in range(CHANGED_CERTIFICATES)]
    for title, text in [("certificate", certificate)] + [(f"changed_{k}", text) for k, text in enumerate(changed, start=1)]:
        outcome, found = compare_check(program, project, files, title, text, number % 2 == 1)
        outcomes.append(outcome)
        differences += found
    return Comparison(outcomes, differences, folder)


# The report


def compare_in(scratch: Path, program: Path, seed: int, number: int) -> Comparison:
    folder = scratch / f"project_{number:06}"
    folder.mkdir()
    comparison = compare_project(program, folder, seed, number)
    if not comparison.differences:
        shutil.rmtree(folder)
    return comparison


def report(comparisons) -> int:
    """Prints what came of all projects, and gives the number of those with a difference."""
    outcomes: Dict[str, int] = Counter()
    projects = differing = 0
    for comparison in comparisons:
        projects += 1
        outcomes.update(comparison.outcomes)
        if comparison.differences:
            differing += 1
            print(f"DIFFERENCE in {comparison.folder}")
            for difference in comparison.differences:
                print(f"  {difference}")
    for outcome, count in sorted(outcomes.items()):
        print(f"{count:8}  {outcome}")
    print(f"{projects} projects, {differing} of them with differences")
    return differing


def arguments(words: Optional[List[str]] = None) -> argparse.Namespace:
    parser = argparse.ArgumentParser(description="Compares the program with the second office.")
    parser.add_argument("--program", type=Path, default=DEFAULT_PROGRAM, help="the built program")
    parser.add_argument("--projects", type=int, default=DEFAULT_PROJECTS, help="how many random projects")
    parser.add_argument("--seed", type=int, default=DEFAULT_SEED, help="where the random numbers begin")
    parser.add_argument("--workers", type=int, default=os.cpu_count() or 2, help="how many projects at a time")
    return parser.parse_args(words)


def main() -> int:
    chosen = arguments()
    if not os.access(chosen.program, os.X_OK):
        print(f"there is no program at {chosen.program}: build it, or name it with --program", file=sys.stderr)
        return 2
    print(f"seed {chosen.seed}")
    program = chosen.program.resolve()
    scratch = Path(tempfile.mkdtemp(prefix="second_office_"))
    with ThreadPoolExecutor(max_workers=chosen.workers) as executor:
        comparisons = executor.map(lambda number: compare_in(scratch, program, chosen.seed, number), range(chosen.projects))
        differing = report(comparisons)
    if not differing:
        shutil.rmtree(scratch)
    return 1 if differing else 0


if __name__ == "__main__":
    sys.exit(main())
