#!/usr/bin/env python3
"""Compares the program with the second office on mutated books, tables and certificates.

    compare_mutated.py [--program PATH] [--inputs N] [--first K] [--seed S] [--workers W] [--minutes M]
    compare_mutated.py --each-byte [--program PATH] [--first K] [--workers W] [--minutes M]

Each input is a small project with a mutated text, which the program lists, adjusts, reviews, checks or explains: one run
an input. Standard output, standard error, status and files have to be the second office's (of the certificate all but the flows,
which have to show the heights). Whatever the second office says, a status is 0 to 5, a run that is refused
prints nothing and begins no file, and no run takes more than a second of processor time. Input K of a seed is the
same in every run, so a long series can be run in parts: inputs --first to --first + --inputs - 1, or as many as
--minutes allow. Prints the seed, how many inputs came out which way, the longest run, and every difference, with the
input saved in a folder that it names. With --each-byte the inputs are the beginnings of a book (listed and
reviewed), of a table of weights and of two certificates, and these with each byte changed to each other value. Status 0 only without a difference; 2 where the
comparison could not be made.
"""

import argparse
import os
import resource
import shutil
import sys
import tempfile
import time
from collections import Counter
from contextlib import suppress
from multiprocessing import Pool
from pathlib import Path
from typing import Dict, Iterator, List, NamedTuple, Optional, Tuple

import office
from mutated import COUNT_OF_CHANGES, Case, changed_case, random_case
from runs import (DEFAULT_PROGRAM, ENDS, REVIEW_ENDS, compare_files, differ, explain_words, network_words,
                  outcome_of, saved, second_adjustment, second_explanations, second_review, written)

DEFAULT_INPUTS = 1_000
DEFAULT_SEED = 20_240_607
LARGEST_STATUS = 5
# Processor time: a busy machine makes a run wait, which is not its fault.
MOST_SECONDS = 1.0
PATIENCE_IN_SECONDS = 20
INPUTS_AT_A_TIME = 200
# How often a long series says how far it is, on standard error.
INPUTS_A_REPORT = 10_000
HERE = Path(".")


class Run(NamedTuple):
    """What the program answered, and the processor time that it took."""

    answer: office.Answer
    seconds: float


class Tally(NamedTuple):
    """What came of a row of inputs: their number, outcomes, the longest run, and what differs, in words."""

    inputs: int
    outcomes: Dict[str, int]
    slowest: float
    differences: List[str]


# Running the program


def run(program: str, words: List[str]) -> Run:
    """Runs the program in the folder of this worker, in which its outputs are left."""
    actions = [(os.POSIX_SPAWN_OPEN, 0, "/dev/null", os.O_RDONLY, 0)]
    for descriptor, name in ((1, "stdout"), (2, "stderr")):
        actions.append((os.POSIX_SPAWN_OPEN, descriptor, name, os.O_WRONLY | os.O_CREAT | os.O_TRUNC, 0o644))
    process = os.posix_spawn(program, [program] + words, os.environ, file_actions=actions)
    with suppress(OSError):
        resource.prlimit(process, resource.RLIMIT_CPU, (PATIENCE_IN_SECONDS, PATIENCE_IN_SECONDS))
    _, ended, usage = os.wait4(process, 0)
    printed, said = Path("stdout").read_bytes(), office.reader.without_help(Path("stderr").read_bytes())
    answer = office.Answer(os.waitstatus_to_exitcode(ended), printed, said, written(HERE))
    return Run(answer, usage.ru_utime + usage.ru_stime)


def save_case(case: Case) -> List[str]:
    """Writes the inputs of a case, and gives the command line."""
    for end in ENDS + REVIEW_ENDS:
        with suppress(FileNotFoundError):
            os.unlink(f"own{end}")
    files = saved(case.project, HERE)
    if case.command == "list":
        return ["list", files.words[-1]]
    if case.command in ("adjust", "review"):
        return network_words(case.command, case.project, files)
    if case.command == "explain":
        return explain_words(case.project, files, "table")
    (HERE / "certificate.csv").write_bytes(case.certificate or b"")
    return ["check", "--certificate", "certificate.csv"] + files.words


# Comparing


def second_answer(case: Case) -> office.Answer:
    if case.command == "adjust":
        return second_adjustment(case.project)
    if case.command == "review":
        return second_review(case.project)
    if case.command == "explain":
        return second_explanations(case.project, "table")[0]
    if case.command == "check":
        return office.check(case.project.inputs, case.certificate or b"")
    listed = office.reader.answer(case.project.inputs.books[0])
    return office.Answer(listed.status, listed.standard_output, listed.standard_error, {})


def broken_rules(own: Run) -> List[str]:
    """What no run may do, whatever its input."""
    answer = own.answer
    rules = (
        (0 <= answer.status <= LARGEST_STATUS, f"the status is {answer.status}"),
        (answer.status <= 1 or answer.standard_output == b"", "standard output after a refusal"),
        (answer.status == 0 or not answer.files, "files after a refusal"),
        (own.seconds <= MOST_SECONDS, f"the run took {own.seconds:.2f} s"),
    )
    return [words for holds, words in rules if not holds]


def compare_case(program: str, case: Case) -> Tuple[str, float, List[str]]:
    own = run(program, save_case(case))
    second = second_answer(case)
    differences = broken_rules(own) + differ(
        case.command, own.answer[:3], (second.status, second.standard_output, second.standard_error))
    differences += compare_files(case.project, own.answer.files, second)
    return outcome_of(case.command, second), own.seconds, differences


def case_of(seed: Optional[int], number: int) -> Case:
    """The case of a number, of a seed or of --each-byte."""
    return changed_case(number) if seed is None else random_case(seed, number)


def compare_inputs(task: Tuple[str, str, Optional[int], range]) -> Tally:
    """Compares a row of inputs, in a folder of its own."""
    scratch, program, seed, numbers = task
    folder = Path(scratch) / f"worker_{os.getpid()}"
    folder.mkdir(exist_ok=True)
    os.chdir(folder)
    outcomes: Dict[str, int] = Counter()
    slowest = 0.0
    differences = []
    for number in numbers:
        case = case_of(seed, number)
        outcome, seconds, found = compare_case(program, case)
        outcomes[outcome] += 1
        slowest = max(slowest, seconds)
        if found:
            kept = Path(scratch) / f"input_{number:09}"
            shutil.copytree(folder, kept)
            differences += [f"DIFFERENCE in {kept}"] + [f"  {words}" for words in found]
    return Tally(len(numbers), outcomes, slowest, differences)


# The report


def joined(tallies: Iterator[Tally], end: Optional[float]) -> Tally:
    """All that came, up to a time; differences are printed as they come."""
    inputs, outcomes, slowest, differences = 0, Counter(), 0.0, []
    for tally in tallies:
        inputs += tally.inputs
        outcomes.update(tally.outcomes)
        slowest = max(slowest, tally.slowest)
        differences += tally.differences
        for words in tally.differences:
            print(words, flush=True)
        if inputs % INPUTS_A_REPORT == 0:
            print(f"{inputs} inputs", file=sys.stderr, flush=True)
        if end is not None and time.monotonic() > end:
            break
    return Tally(inputs, outcomes, slowest, differences)


def report(first: int, tally: Tally) -> None:
    for outcome, count in sorted(tally.outcomes.items()):
        print(f"{count:8}  {outcome}")
    differing = sum(words.startswith("DIFFERENCE") for words in tally.differences)
    print(f"inputs {first} to {first + tally.inputs - 1}: {tally.inputs}, {differing} of them with differences; "
          f"the longest run took {tally.slowest:.3f} s")


def arguments(words: Optional[List[str]] = None) -> argparse.Namespace:
    parser = argparse.ArgumentParser(description="Compares the program with the second office on mutated inputs.")
    parser.add_argument("--program", type=Path, default=DEFAULT_PROGRAM, help="the built program")
    parser.add_argument("--inputs", type=int, default=DEFAULT_INPUTS, help="how many mutated inputs")
    parser.add_argument("--first", type=int, default=0, help="the number of the first input")
    parser.add_argument("--seed", type=int, default=DEFAULT_SEED, help="where the random numbers begin")
    parser.add_argument("--workers", type=int, default=os.cpu_count() or 2, help="how many runs at a time")
    parser.add_argument("--minutes", type=float, help="begin no more inputs after so many minutes")
    parser.add_argument("--each-byte", action="store_true", help="each beginning and each changed byte of some texts")
    chosen = parser.parse_args(words)
    if chosen.each_byte:
        chosen.seed, chosen.inputs = None, COUNT_OF_CHANGES - chosen.first
    return chosen


def main() -> int:
    chosen = arguments()
    if not os.access(chosen.program, os.X_OK):
        print(f"there is no program at {chosen.program}: build it, or name it with --program", file=sys.stderr)
        return 2
    print("each byte" if chosen.each_byte else f"seed {chosen.seed}", flush=True)
    scratch = tempfile.mkdtemp(prefix="mutated_inputs_")
    program = str(chosen.program.resolve())
    last = chosen.first + chosen.inputs
    tasks = ((scratch, program, chosen.seed, range(start, min(last, start + INPUTS_AT_A_TIME)))
             for start in range(chosen.first, last, INPUTS_AT_A_TIME))
    end = None if chosen.minutes is None else time.monotonic() + 60 * chosen.minutes
    with Pool(chosen.workers) as pool:
        tally = joined(pool.imap(compare_inputs, tasks), end)
    report(chosen.first, tally)
    if not tally.differences:
        shutil.rmtree(scratch, ignore_errors=True)
    return 1 if tally.differences else 0


if __name__ == "__main__":
    sys.exit(main())
