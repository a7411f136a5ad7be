#!/usr/bin/env python3
"""Mended books: the section on tables of changes, from the page alone.

    mend.py CHANGES BOOK
    mend.py --random COUNT [SEED] [--program PROGRAM]

Prints the book with the changes of a table on standard output, or the fault on standard error with status 2. It shares
nothing with the program. With --random it mends random books by random tables, and checks the promises of the page: other
lines stay, an empty table changes nothing, and a mended book has the observations with just these numbers and names changed.
With a program it also compares its status, standard output and first line with its own. Prints how often what came out.
"""

import re
import subprocess
import sys
import tempfile
from pathlib import Path
from random import Random
from typing import Dict, List, NamedTuple, Optional, Tuple

sys.path.insert(0, str(Path(__file__).resolve().parents[1] / "second_reader"))
import made_books  # noqa: E402
import reader  # noqa: E402
import tables  # noqa: E402

LARGEST_TABLE = 65_536
HEADER = [b"line", b"word", b"value"]
HEIGHTS = {b"88": b"88", b"87": b"87", b"88 since": b"88", b"87 since": b"87"}
ADDED_UNITS = (b"8", b"7")
NAMED = (b"to", b"from")
PATIENCE_IN_SECONDS = 60


class MendFault(Exception):
    """The fault of a table, of a record or of a book, as it is printed."""


class Change(NamedTuple):
    """A change of a line, counted from 1: its record, its word, and its value where there is one."""

    record: int
    line: int
    word: bytes
    length: Optional[int]
    name: Optional[bytes]

    def index(self) -> bytes:
        """The index of the words that it changes."""
        return reader.POINT_NUMBER if self.word in NAMED else HEIGHTS.get(self.word, reader.HEIGHT_DIFFERENCE)


class Line(NamedTuple):
    """A line of the book: its bytes, its end, and its words, none where it is blank."""

    text: bytes
    end: bytes
    words: List[reader.Word]


# The table


def changes_of(text: bytes) -> List[Change]:
    try:
        if len(text) > LARGEST_TABLE:
            raise tables.TableFault(0, "E7", "table too long")
        return [change_of(row, record) for record, row in enumerate(tables.rows_of(text, HEADER), start=2)]
    except tables.TableFault as fault:
        raise MendFault(f"changes record {fault.record}: {fault.kind} {fault.words}") from None


def change_of(row: List[bytes], record: int) -> Change:
    tables.check_field_count(row, 3, record)
    line, word, value = row
    if not (tables.are_digits(line) and len(line) <= 9 and int(line) > 0):
        raise tables.TableFault(record, "E8", "bad line")
    number = int(line)
    if word in HEIGHTS or (word == b"33" and value != b""):
        return Change(record, number, word, length_in(value, record), None)
    if word == b"33":
        return Change(record, number, word, None, None)
    if word == b"sign":
        if value != b"":
            raise tables.TableFault(record, "E10", "value not empty")
        return Change(record, number, word, None, None)
    if word in NAMED:
        return Change(record, number, word, None, tables.name_in(value, record))
    raise tables.TableFault(record, "E9", "bad word")


def length_in(value: bytes, record: int) -> int:
    try:
        return tables.height_in(value, record)
    except tables.TableFault:
        raise tables.TableFault(record, "E4", "bad length") from None


# The book


def check_book(book: bytes, what: str) -> None:
    try:
        reader.read_book(book)
    except reader.BookFault as fault:
        raise MendFault(f"{what}line {fault.line}: {fault.kind} {fault.words}") from None


def lines_of(book: bytes) -> List[Line]:
    parts = re.split(rb"(\r\n|\r|\n)", book)
    texts, ends = parts[0::2], parts[1::2] + [b""]
    lines = [Line(text, end, words_of(text)) for text, end in zip(texts, ends)]
    return lines if texts[-1] else lines[:-1]


def words_of(text: bytes) -> List[reader.Word]:
    return [] if reader.is_blank(text) else reader.read_block(text)


# Which lines a change reaches. Places count from 0.


def entries_in_force(lines: List[Line], index: bytes) -> List[Optional[int]]:
    """For each line the first line of the entry that is in force there."""
    in_force: List[Optional[int]] = []
    setup, entry, length = False, None, None
    for place, line in enumerate(lines):
        if reader.is_setup(line.words):
            setup, entry, length = True, None, None
        for word in reader.counting_words(line.words, index):
            if setup and (length is None or reader.length_of(word) != length):
                entry, length = place, reader.length_of(word)
        in_force.append(entry)
    return in_force


def fault_of(lines: List[Line], forces: Dict[bytes, List[Optional[int]]], change: Change) -> Optional[str]:
    place = change.line - 1
    if place >= len(lines):
        return "M1 no such line"
    words = lines[place].words
    if change.word in HEIGHTS:
        return None if words and forces[change.index()][place] is not None else "M4 no such height in force"
    if change.word == b"from":
        return None if reader.is_setup(words) else "M3 no setup in this line"
    if not reader.is_sight(words):
        return "M2 no sight in this line"
    left_out = change.word == b"33" and change.length is None
    if left_out and any(reader.has_counting_word(words, index) for index in reader.STATION_INDEXES):
        return "M5 the line would be a setup"
    return None


def reached_by(forces: Dict[bytes, List[Optional[int]]], change: Change) -> List[int]:
    place = change.line - 1
    if change.word not in HEIGHTS:
        return [place]
    own = forces[change.index()]
    begin = place if change.word.endswith(b"since") else 0
    return [other for other in range(begin, len(own)) if own[other] == own[place]]


# What becomes of words


def with_length(word: reader.Word, length: int) -> reader.Word:
    number, rest = divmod(abs(length), reader.UNITS[word.unit()])
    if rest:
        raise ValueError("M8 no whole number of the unit")
    data = str(number).encode("ascii").rjust(len(word.data), b"0")
    if len(data) > len(word.data):
        raise ValueError("M9 too many digits")
    return word._replace(sign=b"-" if length < 0 else b"+", data=data)


def with_name(word: reader.Word, name: bytes) -> reader.Word:
    if len(name) > len(word.data):
        raise ValueError("M10 name too long")
    return word._replace(data=name.rjust(len(word.data), b"0"))


def changed(word: reader.Word, change: Change) -> List[reader.Word]:
    if change.name is not None:
        return [with_name(word, change.name)]
    if change.length is not None:
        return [with_length(word, change.length)]
    if change.word == b"sign":
        return [word._replace(sign=b"+" if word.sign == b"-" else b"-")]
    return []


def added(change: Change, width: int) -> reader.Word:
    assert change.length is not None
    unit = ADDED_UNITS[0] if change.length % reader.UNITS[ADDED_UNITS[0]] == 0 else ADDED_UNITS[1]
    return with_length(reader.Word(change.index(), b"..4" + unit, b"+", b"0" * width), change.length)


def is_changed(word: reader.Word, first: bool, change: Change) -> bool:
    return first if change.name is not None else word.index == change.index() and word.counts()


def mended_words(line: Line, place: int, changes: List[Change]) -> List[reader.Word]:
    """The words of a line with the changes that reach it, in the order of records."""
    words: List[reader.Word] = []
    try:
        for number, word in enumerate(line.words):
            own = [change for change in changes if is_changed(word, number == 0, change)]
            fault_record = own[0].record if own else 0
            words += changed(word, own[0]) if own else [word]
        for change in changes:
            lacks = not any(is_changed(word, False, change) for word in line.words)
            if change.word.endswith(b"since") and change.line == place + 1 and lacks:
                fault_record = change.record
                words.append(added(change, len(line.words[0].data)))
    except ValueError as fault:
        raise MendFault(f"changes record {fault_record}: {fault}") from None
    return words


def spelled(words: List[reader.Word], star: bytes) -> bytes:
    return star + b" ".join(b"".join(word) for word in words)


def mended_line(line: Line, place: int, changes: List[Change]) -> bytes:
    if not changes or not line.words:
        return line.text
    star = b"*" if line.text.startswith(b"*") else b""
    behind = line.text[len(spelled(line.words, star)) :]
    return spelled(mended_words(line, place, changes), star) + behind


def mended(table: bytes, book: bytes) -> bytes:
    """The mended book, or the first fault."""
    changes = changes_of(table)
    check_book(book, "book 1 ")
    lines = lines_of(book)
    forces = {index: entries_in_force(lines, index) for index in (reader.INSTRUMENT_HEIGHT, reader.REFLECTOR_HEIGHT)}
    at: Dict[int, List[Change]] = {}
    taken: Dict[Tuple[bytes, int], int] = {}
    for change in changes:
        fault = fault_of(lines, forces, change)
        reached = [] if fault else reached_by(forces, change)
        if fault is None and any((change.index(), place) in taken for place in reached):
            fault = "M6 changed by an earlier record"
        if fault:
            raise MendFault(f"changes record {change.record}: {fault}")
        for place in reached:
            taken[change.index(), place] = change.record
            at.setdefault(place, []).append(change)
    text = b"".join(mended_line(line, place, at.get(place, [])) + line.end for place, line in enumerate(lines))
    check_book(text, "mended ")
    return text


# Random books and tables


def random_change(rng: Random, lines: List[Line], values: List[int]) -> bytes:
    words = [b"88", b"87", b"88 since", b"87 since", b"33", b"33", b"sign", b"to", b"from", b"34"]
    word = rng.choices(words, [4, 4, 4, 4, 4, 2, 2, 4, 2, 0.2])[0]
    fitting = [place for place, line in enumerate(lines) if fits(line, word)]
    place = rng.choice(fitting) if fitting and rng.random() < 0.9 else rng.randrange(len(lines) + 2)
    if word == b"sign":
        value = b"" if rng.random() < 0.95 else b"1"
    elif word in NAMED:
        value = rng.choice([b"A1", b"B", b"P77", b"00C", b"LONGNAME9", b"SIXTEEN-BYTES-16", b"", b"0"])
    elif word == b"33" and rng.random() < 0.3:
        value = b""
    else:
        value = reader.metres(rng.choice(values))
    return b"%d,%s,%s\n" % (place + 1, word, value)


def fits(line: Line, word: bytes) -> bool:
    if word == b"from":
        return reader.is_setup(line.words)
    return reader.is_sight(line.words) if word not in HEIGHTS else bool(line.words)


def random_table(rng: Random, book: bytes) -> bytes:
    try:
        lines = lines_of(book)
    except reader.LineFault:
        lines = []
    steps = list(reader.UNITS.values())
    values = [rng.choice([1, -1]) * rng.randrange(10 ** rng.randrange(1, 6)) * rng.choice(steps) for _ in range(4)]
    rows = [random_change(rng, lines, values) for _ in range(rng.choice([0, 1, 1, 2, 2, 3, 5]))]
    return b"line,word,value\n" + b"".join(rows)


class Expected(NamedTuple):
    """What a sight is to say in the mended book."""

    station: bytes
    target: bytes
    difference: int
    line: int


def expected_sights(table: bytes, book: bytes) -> List[Expected]:
    """The sights of the mended book, found without mending a word: from heights, names and words 33 by line."""
    changes, lines = changes_of(table), lines_of(book)
    new: Dict[Tuple[bytes, int], Change] = {}
    forces = {index: entries_in_force(lines, index) for index in (reader.INSTRUMENT_HEIGHT, reader.REFLECTOR_HEIGHT)}
    for change in changes:
        for place in reached_by(forces, change):
            new[change.index(), place] = change
    sights: List[Expected] = []
    setup, heights = 0, {}
    for place, line in enumerate(lines):
        if reader.is_setup(line.words):
            setup, heights = place, {}
        for index in forces:
            for word in reader.counting_words(line.words, index):
                heights[index] = reader.length_of(word)
        if not reader.is_sight(line.words):
            continue
        own = reader.length_of(reader.counting_words(line.words, reader.HEIGHT_DIFFERENCE)[0])
        change = new.get((reader.HEIGHT_DIFFERENCE, place))
        if change is not None:
            if change.word == b"33" and change.length is None:
                continue
            own = -own if change.length is None else change.length
        known = {index: length_by(new.get((index, place)), heights[index]) for index in forces}
        difference = own + known[reader.INSTRUMENT_HEIGHT] - known[reader.REFLECTOR_HEIGHT]
        sights.append(Expected(name_at(new, lines, setup), name_at(new, lines, place), difference, place + 1))
    return sights


def length_by(change: Optional[Change], before: int) -> int:
    return before if change is None or change.length is None else change.length


def name_at(new: Dict[Tuple[bytes, int], Change], lines: List[Line], place: int) -> bytes:
    change = new.get((reader.POINT_NUMBER, place))
    name = reader.name_of(lines[place].words[0].data) if change is None else change.name
    assert name is not None
    return name


def check_one(table: bytes, book: bytes) -> str:
    """Mends a book, and checks what the page promises of it. Says what came out."""
    try:
        text = mended(table, book)
    except MendFault as fault:
        words = str(fault).split(": ", 1)[1] if ": " in str(fault) else str(fault)
        return ("mended " if str(fault).startswith("mended") else "") + " ".join(words.split()[:2])
    seen = [(own.station, own.target, own.difference) for own in reader.read_book(text)]
    told = [(own.station, own.target, own.difference) for own in expected_sights(table, book)]
    assert seen == told, (table, book, text)
    before, after = lines_of(book), lines_of(text)
    assert [line.end for line in before] == [line.end for line in after], (table, book)
    if table.count(b"\n") == 1:
        assert text == book, (table, book)
    return "mended"


def answer_of(table: bytes, book: bytes) -> Tuple[int, bytes, bytes]:
    """The status, standard output, and the line on standard error."""
    try:
        return 0, mended(table, book), b""
    except MendFault as fault:
        return 2, b"", f"{fault}\n".encode("ascii")


def compare_program(program: Path, folder: Path, table: bytes, book: bytes) -> None:
    (folder / "changes.csv").write_bytes(table)
    (folder / "book.gsi").write_bytes(book)
    done = subprocess.run([str(program), "mend", "changes.csv", "book.gsi"], cwd=folder, stdin=subprocess.DEVNULL,
                          stdout=subprocess.PIPE, stderr=subprocess.PIPE, timeout=PATIENCE_IN_SECONDS, check=False)
    told = done.returncode, done.stdout, reader.without_help(done.stderr)
    assert told == answer_of(table, book), (table, book, told)


def try_random(count: int, seed: int, program: Optional[Path]) -> None:
    rng = Random(seed)
    counts: Dict[str, int] = {}
    with tempfile.TemporaryDirectory() as folder:
        for _ in range(count):
            book = made_books.mostly_sensible_book(rng)
            table = random_table(rng, book)
            came = check_one(table, book)
            counts[came] = counts.get(came, 0) + 1
            if program is not None:
                compare_program(program, Path(folder), table, book)
    for came, number in sorted(counts.items()):
        print(f"{number:6}  {came}")


def main(arguments: List[str]) -> int:
    program = None
    if "--program" in arguments[:-1]:
        place = arguments.index("--program")
        program = Path(arguments[place + 1]).resolve()
        arguments = arguments[:place] + arguments[place + 2:]
    if arguments[:1] == ["--random"] and arguments[1:]:
        try_random(int(arguments[1]), int(arguments[2]) if arguments[2:] else 1, program)
        return 0
    if len(arguments) != 2:
        sys.stderr.write("usage: mend.py CHANGES BOOK\n       mend.py --random COUNT [SEED] [--program PROGRAM]\n")
        return 3
    status, text, line = answer_of(*(Path(name).read_bytes() for name in arguments))
    sys.stdout.buffer.write(text)
    sys.stderr.buffer.write(line)
    return status


if __name__ == "__main__":
    sys.exit(main(sys.argv[1:]))
