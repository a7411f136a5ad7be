#!/usr/bin/env python3
"""Tests the comparison itself: each mistake planted in the second reader has to show as a difference.

    self_test.py [--books N] [--seed S]

Each mistake is one edit of the text of reader.py. The edited reader stands in for the program, within this process. Status 0 only
where every mistake shows. A mistake that does not show says that the books of made_books.py and mutations.py are too few or too tame.
"""

import argparse
import sys
from pathlib import Path
from types import ModuleType
from typing import Iterable, NamedTuple, Optional

import compare
import reader

READER = Path(__file__).resolve().parent / "reader.py"


class Mistake(NamedTuple):
    """An edit of the second reader: a text that stands in it exactly once, and the wrong text in its place."""

    title: str
    right: str
    wrong: str


# Pieces of reader.py that several mistakes edit.
SIGHT_OR_SETUP = "    if is_sight(words) or is_setup(words):\n"
POINT_NUMBER_CHECKED = "        check_point_number(words[0])\n"
REPEATED_WORDS_CHECKED = "    check_repeated_words(words)\n"
HEIGHTS_TAKEN = "        if self.setup is not None:\n            self.setup.take_heights(words)\n"
SIGHT_OBSERVED = "        if is_sight(words):\n            self.observations.append(observe(self.setup, words))\n"
INSTRUMENT_LOOKED_FOR = '    if setup.instrument_height is None:\n        raise LineFault("B9", "no instrument height")\n'
REFLECTOR_LOOKED_FOR = '    if setup.reflector_height is None:\n        raise LineFault("B10", "no reflector height")\n'
NEEDS_QUOTES = "if b\",\" in name or b'\"' in name:"
ONLY_DIGITS = "all(is_made_of(word.data, DIGITS) for word in lengths)"
HEADER = 'records = [b"number,from,to,difference\\n"]'

MISTAKES = (
    Mistake("a book of the largest size is refused", "len(book) > LARGEST_BOOK", "len(book) >= LARGEST_BOOK"),
    Mistake("a book too long is read", "LARGEST_BOOK = 67_108_864", "LARGEST_BOOK = 67_108_865"),
    Mistake("CR LF is two ends", '.replace(b"\\r\\n", b"\\n")', ""),
    Mistake("CR alone is no end", '.replace(b"\\r", b"\\n")', ""),
    Mistake("a long line of spaces is blank", "len(line) <= LONGEST_LINE and only_spaces(line)", "only_spaces(line)"),
    Mistake("a line of spaces is no blank line", "len(line) <= LONGEST_LINE and only_spaces(line)", 'line == b""'),
    Mistake("blank lines are not counted", 'if lines[-1] == b"":\n        lines.pop()', 'lines = [line for line in lines if line != b""]'),
    Mistake("the longest line is refused", "if len(line) > LONGEST_LINE", "if len(line) >= LONGEST_LINE"),
    Mistake("the line's length is not looked at", "if len(line) > LONGEST_LINE", "if False"),
    Mistake("a star and many spaces are a bad index", "if only_spaces(rest):\n            raise", "if False:\n            raise"),
    Mistake("63 words are the most", "MOST_WORDS = 64", "MOST_WORDS = 63"),
    Mistake("65 words are the most", "MOST_WORDS = 64", "MOST_WORDS = 65"),
    Mistake("too many words before no space", "len(words) == MOST_WORDS", "len(words) >= MOST_WORDS - 1"),
    Mistake("a dot in the index", "is_made_of(parts.index, DIGITS)", "is_made_of(parts.index, DIGITS + DOT)"),
    Mistake("no dot in the information", "is_made_of(parts.information, DIGITS + DOT)", "is_made_of(parts.information, DIGITS)"),
    Mistake("a space is a sign", '(b"+", b"-")', '(b"+", b"-", b" ")'),
    Mistake("DEL is printable", "range(0x20, 0x7F)", "range(0x20, 0x80)"),
    Mistake("bytes above 0x7F are printable", "range(0x20, 0x7F)", "range(0x20, 0x100)"),
    Mistake("control bytes are printable", "range(0x20, 0x7F)", "range(0x7F)"),
    Mistake("words are counted from 0", "place = len(words) + 1", "place = len(words)"),
    Mistake("a word counts with a digit at position 3", "self.index in COUNTING_INDEXES and position_3 == DOT", "self.index in COUNTING_INDEXES"),
    Mistake("the unit stands at position 5", "self.information[3:4]  # position 6", "self.information[2:3]"),
    Mistake("1/1000 ft is 30,479", "30_480", "30_479"),
    Mistake("1/10,000 ft is 1/1000 ft", "3_048", "30_480"),
    Mistake("1/100 mm is 1/10 mm", 'b"8": 1_000}', 'b"8": 10_000}'),
    Mistake("unit 2 is 1 mm", 'UNITS = {', 'UNITS = {b"2": 100_000, '),
    Mistake("10 km is too large", "abs(length_of(word)) <= LARGEST_LENGTH", "abs(length_of(word)) < LARGEST_LENGTH"),
    Mistake("no length is too large below zero", "abs(length_of(word)) <= LARGEST_LENGTH", "length_of(word) <= LARGEST_LENGTH"),
    Mistake("a setup needs all of 84 to 86", "marks_a_station = any(", "marks_a_station = all("),
    Mistake("no setup by word 85", 'STATION_INDEXES = (b"84", b"85", b"86")', 'STATION_INDEXES = (b"84", b"86")'),
    Mistake("a sight with a station word is a setup too", "marks_a_station and not is_sight(words)", "marks_a_station"),
    Mistake("the sign of a length is lost", 'return -size if word.sign == b"-" else size', "return size"),
    Mistake("zeros at the right are stripped", 'data.lstrip(b"0 ").rstrip(SPACE)', 'data.lstrip(b"0 ").rstrip(b"0 ")'),
    Mistake("spaces at the left stay", 'data.lstrip(b"0 ")', 'data.lstrip(b"0")'),
    Mistake("spaces at the right stay", '.rstrip(SPACE)\n    if name', '\n    if name'),
    Mistake("a name of zeros is no name", 'return b"0" if b"0" in data else None', "return None"),
    Mistake("a name of spaces is 0", 'return b"0" if b"0" in data else None', 'return b"0"'),
    Mistake("repeated station words are let through", "for index in COUNTING_INDEXES):", "for index in LENGTH_INDEXES):"),
    Mistake("repeated words are let through", "> 1 for index in COUNTING_INDEXES", "> 2 for index in COUNTING_INDEXES"),
    Mistake("the point number is looked at before repeated words",
            REPEATED_WORDS_CHECKED + SIGHT_OR_SETUP + POINT_NUMBER_CHECKED,
            SIGHT_OR_SETUP + POINT_NUMBER_CHECKED + REPEATED_WORDS_CHECKED),
    Mistake("a setup needs no point number", SIGHT_OR_SETUP + POINT_NUMBER_CHECKED, "    if is_sight(words):\n" + POINT_NUMBER_CHECKED),
    Mistake("every block needs a point number", SIGHT_OR_SETUP + POINT_NUMBER_CHECKED, "    if True:\n" + POINT_NUMBER_CHECKED),
    Mistake("lengths are looked at in sights and setups only", "    check_lengths([", SIGHT_OR_SETUP + "        check_lengths(["),
    Mistake("a bad unit is named before a bad number",
            ONLY_DIGITS, "all(is_made_of(word.data, DIGITS) or word.unit() not in UNITS for word in lengths)"),
    Mistake("heights stay over a setup", "            self.setup = Setup(station)\n",
            "            old, self.setup = self.setup or Setup(station), Setup(station)\n"
            "            self.setup.instrument_height, self.setup.reflector_height = old.instrument_height, old.reflector_height\n"),
    Mistake("the instrument height is 0 at first", "self.instrument_height: Optional[int] = None", "self.instrument_height: Optional[int] = 0"),
    Mistake("the reflector height is 0 at first", "self.reflector_height: Optional[int] = None", "self.reflector_height: Optional[int] = 0"),
    Mistake("the setup's own heights do not count",
            HEIGHTS_TAKEN, HEIGHTS_TAKEN.replace("not None:", "not None and not is_setup(words):")),
    Mistake("heights of other blocks do not count",
            HEIGHTS_TAKEN, HEIGHTS_TAKEN.replace("not None:", "not None and (is_setup(words) or is_sight(words)):")),
    Mistake("the sight's own heights come too late", HEIGHTS_TAKEN + SIGHT_OBSERVED, SIGHT_OBSERVED + HEIGHTS_TAKEN),
    Mistake("the reflector's height is looked for first",
            INSTRUMENT_LOOKED_FOR + REFLECTOR_LOOKED_FOR, REFLECTOR_LOOKED_FOR + INSTRUMENT_LOOKED_FOR),
    Mistake("a sight may go to itself", "if target == setup.station:", "if False:"),
    Mistake("the heights are exchanged", "+ setup.instrument_height - setup.reflector_height", "- setup.instrument_height + setup.reflector_height"),
    Mistake("lines are numbered from 0", "start=1):\n        try", "start=0):\n        try"),
    Mistake("observations are numbered from 0", "enumerate(observations, start=1)", "enumerate(observations, start=0)"),
    Mistake("minus is rounded down", "divmod(abs(length), METRE)", "divmod(length, METRE)"),
    Mistake("minus zero has a sign", '"-" if length < 0 else ""', '"-" if length <= 0 else ""'),
    Mistake("seven digits behind the dot", "{rest:08}", "{rest:07}"),
    Mistake("a comma needs no quotes", NEEDS_QUOTES, "if b'\"' in name:"),
    Mistake("a quote needs no quotes", NEEDS_QUOTES, 'if b"," in name:'),
    Mistake("a space needs quotes", NEEDS_QUOTES, NEEDS_QUOTES.replace("if ", "if b' ' in name or ")),
    Mistake("a quote is not doubled", """.replace(b'"', b'""')""", ""),
    Mistake("a list of nothing has no header", HEADER, HEADER + " if observations else []"),
)


def with_mistake(mistake: Mistake) -> ModuleType:
    text = READER.read_text(encoding="ascii")
    if text.count(mistake.right) != 1:
        raise SystemExit(f"{mistake.title}: the text to edit stands {text.count(mistake.right)} times in reader.py, not once")
    module = ModuleType("reader_with_a_mistake")
    exec(compile(text.replace(mistake.right, mistake.wrong), mistake.title, "exec"), module.__dict__)
    return module


def answers_differ(module: ModuleType, book: bytes) -> bool:
    try:
        # As plain tuples: the edited reader has an `Answer` of its own.
        return tuple(module.answer(book)) != tuple(reader.answer(book))
    except Exception:  # A mistake that ends the reader shows as well.
        return True


def first_difference(module: ModuleType, titled_books: Iterable[compare.TitledBook]) -> Optional[str]:
    return next((title for title, make in titled_books if answers_differ(module, make())), None)


def main() -> int:
    parser = argparse.ArgumentParser(description="Tests the comparison with planted mistakes.")
    parser.add_argument("--books", type=int, default=compare.DEFAULT_BOOKS, help="how many mutated books at most for a mistake")
    parser.add_argument("--seed", type=int, default=compare.DEFAULT_SEED, help="where the random numbers begin")
    chosen = parser.parse_args()
    unseen = 0
    # Made once, for all mistakes. Those at the limits come last: some of them are large.
    books = list(compare.random_books(chosen.seed, chosen.books)) + list(compare.limit_books())
    for mistake in MISTAKES:
        shown_by = first_difference(with_mistake(mistake), books)
        unseen += shown_by is None
        print(f"{'does not show':16}  {mistake.title}" if shown_by is None else f"{shown_by:16}  {mistake.title}")
    print(f"{len(MISTAKES)} mistakes, {unseen} of them do not show")
    return 1 if unseen else 0


if __name__ == "__main__":
    sys.exit(main())
