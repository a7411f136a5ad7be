#!/usr/bin/env python3
"""A second reader of books, written from docs/FORMATS.md alone.

    reader.py [BOOK]

Reads one book, from the file BOOK or else from standard input. Prints its list on standard output with status 0, or its
fault on standard error with status 2. It shares nothing with the program, so that where the two differ one of them, or the
page, is at fault. It is written to be compared with the page, section by section, and not to be fast.
"""

import re
import sys
from pathlib import Path
from typing import List, NamedTuple, Optional

# Books and lines.
LARGEST_BOOK = 67_108_864
LONGEST_LINE = 1_600
MOST_WORDS = 64

# Words: bytes of a whole word, counted without the space that closes it.
GSI_8_WIDTH = 15
GSI_16_WIDTH = 23
DIGITS = b"0123456789"
PRINTABLE = bytes(range(0x20, 0x7F))
DOT = b"."
SPACE = b" "

# Indexes with a meaning.
POINT_NUMBER = b"11"
HEIGHT_DIFFERENCE = b"33"
STATION_INDEXES = (b"84", b"85", b"86")
REFLECTOR_HEIGHT = b"87"
INSTRUMENT_HEIGHT = b"88"
LENGTH_INDEXES = (HEIGHT_DIFFERENCE, REFLECTOR_HEIGHT, INSTRUMENT_HEIGHT)
COUNTING_INDEXES = LENGTH_INDEXES + STATION_INDEXES

# Lengths, in units of 10 nm.
METRE = 100_000_000
LARGEST_LENGTH = 1_000_000_000_000
UNITS = {b"0": 100_000, b"1": 30_480, b"6": 10_000, b"7": 3_048, b"8": 1_000}

LONGEST_NAME = 16


class LineFault(Exception):
    """A fault of one line, which does not know the line's number."""

    def __init__(self, kind: str, words: str) -> None:
        super().__init__(kind, words)
        self.kind = kind
        self.words = words


class BookFault(Exception):
    """The fault of a book: its line (0 for the whole book), its kind and its words."""

    def __init__(self, line: int, kind: str, words: str) -> None:
        super().__init__(line, kind, words)
        self.line = line
        self.kind = kind
        self.words = words

    def text(self) -> str:
        return f"book 1 line {self.line}: {self.kind} {self.words}\n"


# Words that tell of what a book has in place of sights, in ascending order.
NOTED_NUMBERS = (b"22", b"31", b"32", b"83") + tuple(b"33%d" % digit for digit in range(10))


class Word(NamedTuple):
    """A word, in the parts that have a meaning. Positions are the page's, from 1."""

    index: bytes  # positions 1 and 2
    information: bytes  # positions 3 to 6
    sign: bytes  # position 7
    data: bytes  # positions 8 to 15 or 8 to 23

    def counts(self) -> bool:
        """Whether this is a counting word 33 or 84 to 88. (What a word 11 means hangs on its place instead.)"""
        position_3 = self.information[0:1]
        return self.index in COUNTING_INDEXES and position_3 == DOT

    def unit(self) -> bytes:
        return self.information[3:4]  # position 6


class Observation(NamedTuple):
    """An observed height difference, in units of 10 nm."""

    station: bytes
    target: bytes
    difference: int


class Answer(NamedTuple):
    """What a program gives for one book."""

    standard_output: bytes
    standard_error: bytes
    status: int


# What a program says on standard error


def without_help(said: bytes) -> bytes:
    """What is said, without a second line. That one is for people, two spaces in front, and its words may change."""
    line, end, rest = said.partition(b"\n")
    return line + end if re.fullmatch(rb"  [ -~]+\n", rest) else said


# Lines


def split_into_lines(book: bytes) -> List[bytes]:
    """The lines of a book without their ends."""
    # A CR directly followed by an LF is one end, so it is made one LF first. Then each CR that is left is an end of its own.
    lines = book.replace(b"\r\n", b"\n").replace(b"\r", b"\n").split(b"\n")
    # What stands after the last end is a line only where there is any.
    if lines[-1] == b"":
        lines.pop()
    return lines


def only_spaces(text: bytes) -> bool:
    return text.strip(SPACE) == b""


def is_blank(line: bytes) -> bool:
    return len(line) <= LONGEST_LINE and only_spaces(line)


# Words and blocks


def is_made_of(text: bytes, allowed: bytes) -> bool:
    # Stripping stops at the first byte from either end that is not allowed.
    return text.strip(allowed) == b""


def is_printable(text: bytes) -> bool:
    return is_made_of(text, PRINTABLE)


def split_into_parts(spelling: bytes) -> Word:
    return Word(spelling[0:2], spelling[2:6], spelling[6:7], spelling[7:])


def wrong_with_spelling(bytes_left: bytes, width: int) -> Optional[str]:
    """The first thing wrong with the bytes at a word's place, or None where they begin with a word."""
    if len(bytes_left) < width:
        return "short"
    parts = split_into_parts(bytes_left[:width])
    if not is_made_of(parts.index, DIGITS):
        return "bad index"
    if not is_made_of(parts.information, DIGITS + DOT):
        return "bad information"
    if parts.sign not in (b"+", b"-"):
        return "bad sign"
    if not is_printable(parts.data):
        return "bad data"
    return None


def read_block(line: bytes) -> List[Word]:
    """The words of a line that is not blank, or the line's fault B1."""
    if len(line) > LONGEST_LINE:
        raise LineFault("B1", "line too long")
    if line[0:1] == b"*":
        width = GSI_16_WIDTH
        rest = line[1:]
        # The page asks for `short` here, although the spaces may be as many as a word has bytes.
        if only_spaces(rest):
            raise LineFault("B1", "word 1: short")
    else:
        width = GSI_8_WIDTH
        rest = line
    return read_words(rest, width)


def read_words(rest: bytes, width: int) -> List[Word]:
    """The words of a block without its star."""
    words: List[Word] = []
    while True:
        place = len(words) + 1
        wrong = wrong_with_spelling(rest, width)
        if wrong is not None:
            raise LineFault("B1", f"word {place}: {wrong}")
        words.append(split_into_parts(rest[:width]))
        rest = rest[width:]
        if only_spaces(rest):
            return words
        if rest[0:1] != SPACE:
            raise LineFault("B1", f"no space after word {place}")
        if len(words) == MOST_WORDS:
            raise LineFault("B1", "too many words")
        rest = rest[1:]


# Words with a meaning


def counting_words(words: List[Word], index: bytes) -> List[Word]:
    return [word for word in words if word.index == index and word.counts()]


def has_counting_word(words: List[Word], index: bytes) -> bool:
    return counting_words(words, index) != []


def is_sight(words: List[Word]) -> bool:
    return has_counting_word(words, HEIGHT_DIFFERENCE)


def is_setup(words: List[Word]) -> bool:
    marks_a_station = any(has_counting_word(words, index) for index in STATION_INDEXES)
    return marks_a_station and not is_sight(words)


def length_of(word: Word) -> int:
    """The length of a word with digits for data and a known unit."""
    size = int(word.data) * UNITS[word.unit()]
    return -size if word.sign == b"-" else size


def name_of(data: bytes) -> Optional[bytes]:
    """The name of some data, or None where they give no name."""
    if not is_printable(data):
        return None
    name = data.lstrip(b"0 ").rstrip(SPACE)
    if name == b"":
        return b"0" if b"0" in data else None
    return name if len(name) <= LONGEST_NAME else None


# Faults of a line that need nothing but the line


def check_block(words: List[Word]) -> None:
    """Raises the first of B2 to B7 that applies."""
    check_repeated_words(words)
    if is_sight(words) or is_setup(words):
        check_point_number(words[0])
    check_lengths([word for word in words if word.index in LENGTH_INDEXES and word.counts()])


def check_repeated_words(words: List[Word]) -> None:
    if any(len(counting_words(words, index)) > 1 for index in COUNTING_INDEXES):
        raise LineFault("B2", "repeated word")


def check_point_number(first_word: Word) -> None:
    if first_word.index != POINT_NUMBER:
        raise LineFault("B3", "no point number")
    if name_of(first_word.data) is None:
        raise LineFault("B4", "bad name")


def check_lengths(lengths: List[Word]) -> None:
    # The kind comes before the word's place in the line: a bad unit in an earlier word does not hide a bad number in a later one.
    if not all(is_made_of(word.data, DIGITS) for word in lengths):
        raise LineFault("B5", "bad number")
    if not all(word.unit() in UNITS for word in lengths):
        raise LineFault("B6", "bad unit")
    if not all(abs(length_of(word)) <= LARGEST_LENGTH for word in lengths):
        raise LineFault("B7", "too large")


# Setups and sights


class Setup:
    """A station and the heights that stand since its line."""

    def __init__(self, station: bytes) -> None:
        self.station = station
        self.instrument_height: Optional[int] = None
        self.reflector_height: Optional[int] = None

    def take_heights(self, words: List[Word]) -> None:
        for word in counting_words(words, INSTRUMENT_HEIGHT):
            self.instrument_height = length_of(word)
        for word in counting_words(words, REFLECTOR_HEIGHT):
            self.reflector_height = length_of(word)


def observe(setup: Optional[Setup], words: List[Word]) -> Observation:
    """The observation of a sight, or the first of B8 to B11 that applies. The setup already has the heights of the sight's own line."""
    if setup is None:
        raise LineFault("B8", "sight before setup")
    if setup.instrument_height is None:
        raise LineFault("B9", "no instrument height")
    if setup.reflector_height is None:
        raise LineFault("B10", "no reflector height")
    target = name_of(words[0].data)
    assert target is not None, "check_block has refused such a line"
    if target == setup.station:
        raise LineFault("B11", "sight to itself")
    axis_to_reflector = length_of(counting_words(words, HEIGHT_DIFFERENCE)[0])
    difference = axis_to_reflector + setup.instrument_height - setup.reflector_height
    return Observation(setup.station, target, difference)


class BookReader:
    """The state between two lines of a book."""

    def __init__(self) -> None:
        self.setup: Optional[Setup] = None
        self.observations: List[Observation] = []

    def take_line(self, line: bytes) -> None:
        if is_blank(line):
            return
        words = read_block(line)
        check_block(words)
        if is_setup(words):
            station = name_of(words[0].data)
            assert station is not None, "check_block has refused such a line"
            self.setup = Setup(station)
        if self.setup is not None:
            self.setup.take_heights(words)
        if is_sight(words):
            self.observations.append(observe(self.setup, words))


def read_book(book: bytes) -> List[Observation]:
    """The observations of a book in the order of their sights, or its fault."""
    if len(book) > LARGEST_BOOK:
        raise BookFault(0, "B12", "book too long")
    reader = BookReader()
    for number, line in enumerate(split_into_lines(book), start=1):
        try:
            reader.take_line(line)
        except LineFault as fault:
            raise BookFault(number, fault.kind, fault.words) from None
    return reader.observations


# The list


def metres(length: int) -> bytes:
    sign = "-" if length < 0 else ""
    whole, rest = divmod(abs(length), METRE)
    return f"{sign}{whole}.{rest:08}".encode("ascii")


def csv_field(name: bytes) -> bytes:
    if b"," in name or b'"' in name:
        return b'"' + name.replace(b'"', b'""') + b'"'
    return name


def list_of(observations: List[Observation]) -> bytes:
    """The list, also of no observations: then it is the header alone."""
    records = [b"number,from,to,difference\n"]
    for number, observation in enumerate(observations, start=1):
        fields = [
            str(number).encode("ascii"),
            csv_field(observation.station),
            csv_field(observation.target),
            metres(observation.difference),
        ]
        records.append(b",".join(fields) + b"\n")
    return b"".join(records)


# Notes


def number_of(word: Word) -> bytes:
    """The number of a word: two digits where position 3 is a dot, or else three."""
    position_3 = word.information[0:1]
    return word.index if position_3 == DOT else word.index + position_3


def without_sight(number: int, book: bytes) -> Optional[str]:
    """What is noted of a book with this number and without a fault, if it has blocks and no sight."""
    blocks = [read_block(line) for line in split_into_lines(book) if not is_blank(line)]
    if not blocks or any(is_sight(words) for words in blocks):
        return None
    there = {number_of(word) for words in blocks for word in words}
    told = [own.decode("ascii") for own in NOTED_NUMBERS if own in there]
    joined = " and ".join(([", ".join(told[:-1])] if told[1:] else []) + told[-1:])
    words = f"; it has word{'s' if told[1:] else ''} {joined}" if told else ""
    return f"book {number} has no sight in {len(blocks)} block{'s' if blocks[1:] else ''} (no word 33{words})"


def note_of(number: int, book: bytes) -> bytes:
    """The line of that note, if there is one."""
    noted = without_sight(number, book)
    return f"note: {noted}\n".encode("ascii") if noted else b""


def answer(book: bytes) -> Answer:
    """What the page says that a program gives for a book that can be read."""
    try:
        return Answer(list_of(read_book(book)), note_of(1, book), 0)
    except BookFault as fault:
        return Answer(b"", fault.text().encode("ascii"), 2)


def main(words: List[str]) -> int:
    if len(words) > 1:
        sys.stderr.write("usage: reader.py [BOOK]\n")
        return 3
    try:
        book = Path(words[0]).read_bytes() if words else sys.stdin.buffer.read()
    except OSError:
        sys.stderr.write("read failed: book 1\n")
        return 5
    given = answer(book)
    sys.stdout.buffer.write(given.standard_output)
    sys.stderr.buffer.write(given.standard_error)
    return given.status


if __name__ == "__main__":
    sys.exit(main(sys.argv[1:]))
