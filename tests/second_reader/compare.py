#!/usr/bin/env python3
"""Compares the program with the second reader, on books at the limits and on many mutated ones.

    compare.py [--program PATH] [--books N] [--seed S] [--workers W]

The program gets each book on standard input, without words. Standard output, standard error and status have to be those of the
second reader. Prints the seed, how many books gave which outcome, and every difference, with the book saved in a folder that it
names. Status 0 only without a difference; 2 where the comparison could not be made.
"""

import argparse
import os
import subprocess
import sys
import tempfile
from collections import Counter
from concurrent.futures import ThreadPoolExecutor
from functools import partial
from itertools import chain
from pathlib import Path
from random import Random
from typing import Callable, Dict, Iterable, Iterator, List, NamedTuple, Optional, Tuple

import reader
from made_books import BOOKS_AT_THE_LIMITS, mostly_sensible_book
from mutations import mutate

ROOT = Path(__file__).resolve().parents[2]
DEFAULT_PROGRAM = ROOT / "crates" / "height_office" / "out" / "height_office"
EXAMPLES = ROOT / "examples"
DEFAULT_BOOKS = 10_000
DEFAULT_SEED = 20_240_607
# Far more than any book here takes: a program that waits for ever is a difference, not a hang.
PATIENCE_IN_SECONDS = 120
LONGEST_PRINTED_TEXT = 300

Answering = Callable[[bytes], reader.Answer]
# A book's title, and the way to make it: a worker makes it when its turn comes, so that not all of them are kept.
TitledBook = Tuple[str, Callable[[], bytes]]


class Difference(NamedTuple):
    """A book on which the program and the second reader differ."""

    title: str
    book: bytes
    of_program: reader.Answer
    of_reader: reader.Answer


class Comparison(NamedTuple):
    """What came of one book."""

    outcome: str
    difference: Optional[Difference]


# The books


def example_books() -> List[bytes]:
    return [path.read_bytes() for path in sorted(EXAMPLES.glob("*.gsi"))]


def random_book(seed: int, number: int, examples: List[bytes]) -> bytes:
    """The book of a number. It hangs on the seed and the number alone, not on which worker makes it."""
    rng = Random(f"{seed} {number}")
    if examples and rng.random() < 0.2:
        return mutate(rng, rng.choice(examples))
    return mutate(rng, mostly_sensible_book(rng))


def random_books(seed: int, count: int) -> Iterator[TitledBook]:
    examples = example_books()
    for number in range(count):
        yield f"book {number}", partial(random_book, seed, number, examples)


def limit_books() -> Iterator[TitledBook]:
    for title, make in BOOKS_AT_THE_LIMITS.items():
        yield title, make


# Answers


def answer_of_program(program: Path) -> Answering:
    def answer(book: bytes) -> reader.Answer:
        try:
            run = subprocess.run([str(program)], input=book, stdout=subprocess.PIPE, stderr=subprocess.PIPE,
                                 timeout=PATIENCE_IN_SECONDS, check=False)
        except subprocess.TimeoutExpired:
            return reader.Answer(b"", f"(no end within {PATIENCE_IN_SECONDS} s)".encode("ascii"), -1)
        return reader.Answer(run.stdout, reader.without_help(run.stderr), run.returncode)

    return answer


def outcome_of(answer: reader.Answer) -> str:
    """`list`, `list of nothing`, or the kind of fault, with the words where a kind has several."""
    if answer.status == 0:
        records = answer.standard_output.count(b"\n") - 1
        return "list" if records else "list of nothing"
    kind, words = answer.standard_error.decode("ascii").split(": ", 1)[1].rstrip("\n").split(" ", 1)
    if kind != "B1":
        return f"{kind} {words}"
    # Without the word's number, so that the counts stay few.
    return kind + " " + " ".join("K" if part.rstrip(":").isdigit() else part.rstrip(":") for part in words.split(" "))


def compare_one(title: str, book: bytes, answering: Answering) -> Comparison:
    of_reader = reader.answer(book)
    of_program = answering(book)
    if of_program == of_reader:
        return Comparison(outcome_of(of_reader), None)
    return Comparison(outcome_of(of_reader), Difference(title, book, of_program, of_reader))


def compare_all(seed: int, count: int, answering: Answering, workers: int) -> Iterable[Comparison]:
    with ThreadPoolExecutor(max_workers=workers) as executor:
        books = chain(limit_books(), random_books(seed, count))
        yield from executor.map(lambda titled: compare_one(titled[0], titled[1](), answering), books)


# The report


def shortened(text: bytes) -> str:
    if len(text) <= LONGEST_PRINTED_TEXT:
        return repr(text)
    return f"{text[:LONGEST_PRINTED_TEXT]!r}... ({len(text)} bytes)"


def from_first_difference(text: bytes, other: bytes) -> bytes:
    """The text from the line on in which it begins to differ from another."""
    common = os.path.commonprefix([text, other])
    return text[common.rfind(b"\n") + 1 :]


def print_difference(number: int, difference: Difference, folder: Path) -> None:
    path = folder / f"difference_{number:06}.gsi"
    path.write_bytes(difference.book)
    print(f"DIFFERENCE {number}: {difference.title}, saved as {path}")
    program, second = difference.of_program, difference.of_reader
    for whose, own, other in (("program", program, second), ("reader", second, program)):
        print(f"  {whose}: status {own.status}, "
              f"standard error {shortened(own.standard_error)}, "
              f"standard output from the first difference {shortened(from_first_difference(own.standard_output, other.standard_output))}")


def print_outcomes(outcomes: Dict[str, int]) -> None:
    for outcome, books in sorted(outcomes.items(), key=lambda item: outcome_order(item[0])):
        print(f"{books:8}  {outcome}")


def outcome_order(outcome: str) -> Tuple[int, str]:
    """Lists first, then the kinds by number: B2 before B10."""
    kind = outcome.split(" ", 1)[0]
    return (int(kind[1:]) if kind[1:].isdigit() else 0, outcome)


def report(comparisons: Iterable[Comparison]) -> int:
    """Prints what came of all books, and gives the number of differences."""
    outcomes: Dict[str, int] = Counter()
    folder: Optional[Path] = None
    differences = 0
    for comparison in comparisons:
        outcomes[comparison.outcome] += 1
        if comparison.difference is not None:
            folder = folder or Path(tempfile.mkdtemp(prefix="second_reader_"))
            differences += 1
            print_difference(differences, comparison.difference, folder)
    print_outcomes(outcomes)
    print(f"{sum(outcomes.values())} books, {differences} differences" + (f", books in {folder}" if folder else ""))
    return differences


def arguments(words: Optional[List[str]] = None) -> argparse.Namespace:
    parser = argparse.ArgumentParser(description="Compares the program with the second reader.")
    parser.add_argument("--program", type=Path, default=DEFAULT_PROGRAM, help="the built program")
    parser.add_argument("--books", type=int, default=DEFAULT_BOOKS, help="how many mutated books")
    parser.add_argument("--seed", type=int, default=DEFAULT_SEED, help="where the random numbers begin")
    parser.add_argument("--workers", type=int, default=os.cpu_count() or 2, help="how many runs at a time")
    return parser.parse_args(words)


def main() -> int:
    chosen = arguments()
    if not os.access(chosen.program, os.X_OK):
        print(f"there is no program at {chosen.program}: build it, or name it with --program", file=sys.stderr)
        return 2
    print(f"seed {chosen.seed}")
    comparisons = compare_all(chosen.seed, chosen.books, answer_of_program(chosen.program.resolve()), chosen.workers)
    return 1 if report(comparisons) else 0


if __name__ == "__main__":
    sys.exit(main())
