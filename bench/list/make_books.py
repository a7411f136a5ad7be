#!/usr/bin/env python3
"""Makes the books of the benchmark.

    make_books.py FOLDER [--sizes MIB ...] [--shapes MIB]

Writes a GSI-8, a GSI-16 and a mixed book of each size into FOLDER, as a total station writes them, and a book of each shape that asks
much of one part of the program: lines of one word, line ends alone, sights of two words, code blocks, lines of 64 words. No book has a
fault. A book is filled with whole setups up to its size, and then with spaces on last lines, so that it has exactly as many bytes as
its name says (64 MiB is the largest book).
"""

import argparse
import sys
from pathlib import Path
from random import Random
from typing import Callable, Dict, List

MIB = 1 << 20
SIZES_IN_MIB = (1, 64)
SHAPES_IN_MIB = 16
SIGHTS_OF_A_SETUP = 12
# A last line of spaces has to be short enough to be blank.
LONGEST_LINE = 1_600
SEED = 7

Block = Callable[[List[str]], str]


def gsi_8(words: List[str]) -> str:
    """A line of GSI-8 of words with data of up to 8 bytes."""
    return " ".join(word[:7] + word[7:].rjust(8, "0") for word in words) + " \r\n"


def gsi_16(words: List[str]) -> str:
    return "*" + " ".join(word[:7] + word[7:].rjust(16, "0") for word in words) + " \r\n"


def setup_words(block: int, station: int, rng: Random) -> List[str]:
    return [
        f"11{block % 10_000:04}+ST{station}",
        f"84..10+{rng.randrange(99_999_999)}",
        f"85..10+{rng.randrange(99_999_999)}",
        f"86..10+{rng.randrange(999_999)}",
        f"87..10+{rng.randrange(1_200, 2_200)}",
        f"88..10+{rng.randrange(1_400, 1_800)}",
    ]


def sight_words(block: int, target: int, rng: Random) -> List[str]:
    """A sight with the words that a total station writes: angles, distances, the target's coordinates, and ours."""
    distance = rng.randrange(5_000, 90_000)
    words = [
        f"11{block % 10_000:04}+P{target}",
        f"21.322+{rng.randrange(39_999_999)}",
        f"22.322+{rng.randrange(9_500_000, 10_500_000)}",
        f"31..00+{distance}",
        f"32..00+{distance - 7}",
        f"33..00{rng.choice('+-')}{rng.randrange(9_999)}",
        "51....+0000+034",
        f"81..00+{rng.randrange(99_999_999)}",
        f"82..00+{rng.randrange(99_999_999)}",
        f"83..00+{rng.randrange(999_999)}",
    ]
    if block % 4 == 0:
        words.append(f"87..10+{rng.randrange(1_200, 2_200)}")
    return words


def station_setup(number: int, block_of: Block, rng: Random) -> str:
    """The lines of a setup and its sights. Neighbouring setups see some targets in common."""
    first_block = number * (SIGHTS_OF_A_SETUP + 1) + 1
    lines = [block_of(setup_words(first_block, number, rng))]
    for sight in range(1, SIGHTS_OF_A_SETUP + 1):
        target = number * (SIGHTS_OF_A_SETUP - 2) + sight
        lines.append(block_of(sight_words(first_block + sight, target, rng)))
    return "".join(lines)


def last_lines(space_left: int) -> str:
    """Blank lines of spaces that fill the space left."""
    lines = []
    while space_left > LONGEST_LINE:
        lines.append(" " * (LONGEST_LINE - 1) + "\n")
        space_left -= LONGEST_LINE
    return "".join(lines) + " " * space_left


Lines = Callable[[int, Random], str]


def write_book(path: Path, size: int, lines_of: Lines) -> None:
    """A book of the lines of the first parts, as many as fit."""
    rng = Random(SEED)
    with path.open("w", encoding="ascii", newline="") as file:
        space_left = size
        number = 0
        lines = lines_of(number, rng)
        while len(lines) <= space_left:
            file.write(lines)
            space_left -= len(lines)
            number += 1
            lines = lines_of(number, rng)
        file.write(last_lines(space_left))


def two_word_sights(number: int, rng: Random) -> str:
    """A setup, and sights that say no more than they must."""
    lines = [gsi_8(setup_words(1, number, rng))]
    for sight in range(SIGHTS_OF_A_SETUP):
        lines.append(gsi_8([f"11{sight + 2:04}+P{number * 10 + sight}", f"33..00+{rng.randrange(9_999)}"]))
    return "".join(lines)


def code_block(number: int, rng: Random) -> str:
    """A block of a code and its remarks, which mean nothing to a list."""
    return gsi_8([f"41{number % 10_000:04}+{rng.randrange(999)}", *(f"{index}....+{rng.randrange(9_999)}" for index in range(42, 50))])


def full_sights(number: int, rng: Random) -> str:
    """A setup, and sights that have as many words as a block can have."""
    lines = [gsi_8(setup_words(1, number, rng))]
    for sight in range(SIGHTS_OF_A_SETUP):
        words = [f"11{sight + 2:04}+P{number * 10 + sight}", f"33..00+{rng.randrange(9_999)}"]
        lines.append(gsi_8([*words, *(f"7{place % 10}....+{rng.randrange(99_999_999)}" for place in range(62))]))
    return "".join(lines)


WIDTHS: Dict[str, Lines] = {
    "gsi_8": lambda number, rng: station_setup(number, gsi_8, rng),
    "gsi_16": lambda number, rng: station_setup(number, gsi_16, rng),
    "mixed": lambda number, rng: station_setup(number, (gsi_8, gsi_16)[number % 2], rng),
}

SHAPES: Dict[str, Lines] = {
    "one_word": lambda number, rng: f"11{number % 10_000:04}+{rng.randrange(99_999_999):08}\r",
    "line_ends": lambda number, rng: "\r" * 1_024,
    "two_words": two_word_sights,
    "code_blocks": code_block,
    "64_words": full_sights,
}


def main() -> int:
    parser = argparse.ArgumentParser(description="Makes the books of the benchmark.")
    parser.add_argument("folder", type=Path)
    parser.add_argument("--sizes", type=int, nargs="+", default=SIZES_IN_MIB, help="sizes of the books of each width in MiB")
    parser.add_argument("--shapes", type=int, default=SHAPES_IN_MIB, help="size of the books of each shape in MiB")
    chosen = parser.parse_args()
    for size in chosen.sizes:
        for name, lines_of in WIDTHS.items():
            write_book(chosen.folder / f"{name}_{size:02}_mib.gsi", size * MIB, lines_of)
    for name, lines_of in SHAPES.items():
        write_book(chosen.folder / f"{name}_{chosen.shapes:02}_mib.gsi", chosen.shapes * MIB, lines_of)
    return 0


if __name__ == "__main__":
    sys.exit(main())
