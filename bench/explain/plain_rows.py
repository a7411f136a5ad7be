"""The rows that `explain` has to print of a book, plainly: each number by a whole solve of its own with LEMON (`lemon_freed.cpp`).

The numbers of a book, what each leaves, and which of them are rows: docs/FORMATS.md, on `explain`. A book is read as those that the scripts
beside this one write: GSI-16, lengths in hundredths of a millimetre, a word 87 or 88 wherever the height changes.
"""

import csv
import re
import subprocess
from pathlib import Path
from typing import Dict, Iterator, List, NamedTuple, Optional, Tuple

MOST_ROWS = 20
LIMIT = 2_000_000
UNITS_PER_METRE = 100_000_000
UNITS_PER_STEP = 1_000
LARGEST_DIFFERENCE = 30_000 * UNITS_PER_METRE
FIRST_RECORD = 2  # the header is record 1
# A book is a row where so many times what it leaves is less than the cost.
BOOK_TIMES = 10
WORDS = {"instrument": "88", "reflector": "87", "instrument since": "88", "reflector since": "87", "sight": "", "benchmark": "", "book": "33"}
# The order of rows that explain equally.
RANKS = {"instrument": 0, "reflector": 1, "instrument since": 2, "reflector since": 2, "sight": 3, "benchmark": 4, "book": 5}
KIND_OF_WORD = {"88": "instrument", "87": "reflector"}
WORD = re.compile(r"(33|84|87|88)\.\.08([+-])(\d{16})")

Ends = List[Tuple[int, int]]


class Sight(NamedTuple):
    """An observation: its line, its two points, its difference and its word 33 alone, in units of 10 nm."""

    line: int
    station: str
    target: str
    difference: int
    raised: int


class Entry(NamedTuple):
    """A height as it was keyed in: its word, line, station and length, and its sights."""

    word: str
    line: int
    station: str
    length: int
    sights: List[int]


class Book(NamedTuple):
    sights: List[Sight]
    entries: List[Entry]


class Network(NamedTuple):
    """The links of a network by vertices, as `network.txt` has them: tail, head, difference, weight."""

    vertices: int
    links: List[Tuple[int, int, int, int]]


class Number(NamedTuple):
    """A number of a survey: its kind, line, points and value; the ends of links that a change of it moves, and its sign; its whole entry, if
    it is a forgotten change; and the largest difference of its sights in size."""

    kind: str
    line: Optional[int]
    station: str
    target: str
    given: Optional[int]
    ends: Ends
    sign: int
    entry: Optional[Tuple[str, int]]
    largest: int

    @property
    def key(self) -> Tuple[str, Optional[int]]:
        return self.kind, self.line

    @property
    def reach(self) -> int:
        return LARGEST_DIFFERENCE - self.largest


class Freed(NamedTuple):
    """What a number leaves: the cost, the lowest and the highest change, the cost of a change within reach, and the blunders of a row."""

    left: int
    low: Optional[int]
    high: Optional[int]
    reached: int
    blunders: int

    @property
    def mildest(self) -> int:
        """In size."""
        return 0 if self.low is None else max(0, self.low, -self.high)

    @property
    def furthest(self) -> int:
        return max(abs(self.low), abs(self.high))


# Numbers of a book


def words_of(line: str) -> Dict[str, int]:
    """The words with a meaning of a line, in units of 10 nm."""
    return {index: int(sign + data) * UNITS_PER_STEP for index, sign, data in WORD.findall(line)}


def read_book(path: Path) -> Book:
    sights: List[Sight] = []
    entries: List[Entry] = []
    station, current = "", {}
    for number, line in enumerate(path.read_text().splitlines(), 1):
        name, words = line[8:24].lstrip("0"), words_of(line)
        if "84" in words:
            station, current = name, {}
        for word in ("88", "87"):
            if word in words and (word not in current or current[word].length != words[word]):
                current[word] = Entry(word, number, station, words[word], [])
                entries.append(current[word])
        if "33" in words:
            for entry in current.values():
                entry.sights.append(len(sights))
            difference = words["33"] + current["88"].length - current["87"].length
            sights.append(Sight(number, station, name, difference, words["33"]))
    return Book(sights, entries)


def read_benchmarks(path: Path) -> Dict[str, int]:
    with path.open(newline="") as file:
        return {row["point"]: units_of(row["height"]) for row in csv.DictReader(file)}


def read_network(path: Path) -> Network:
    (vertices, _), *links = [tuple(map(int, line.split())) for line in path.read_text().splitlines()]
    return Network(vertices, links)


def units_of(metres: str) -> int:
    whole, _, part = metres.lstrip("-").partition(".")
    return (-1 if metres.startswith("-") else 1) * (int(whole) * UNITS_PER_METRE + int(part.ljust(8, "0")))


def sight_numbers(book: Book) -> Iterator[Number]:
    for k, own in enumerate(book.sights):
        yield Number("sight", own.line, own.station, own.target, own.difference, [(k, 0)], 1, None, abs(own.difference))


def entry_number(book: Book, entry: Entry, first: int = 0) -> Number:
    """An entry, or with `first` the change that was forgotten from this sight of it on."""
    kind, sights = KIND_OF_WORD[entry.word], entry.sights[first:]
    largest = max(abs(book.sights[k].difference) for k in sights)
    whole = Number(kind, entry.line, entry.station, "", entry.length, [(k, 0) for k in sights], 1 if entry.word == "88" else -1, None, largest)
    return whole._replace(kind=f"{kind} since", line=book.sights[sights[0]].line, entry=whole.key) if first else whole


def entry_numbers(book: Book) -> Iterator[Number]:
    """The entries of two or more sights, each with the changes that may have been forgotten: of at least two sights, and not all."""
    for entry in book.entries:
        if len(entry.sights) > 1:
            yield from (entry_number(book, entry, first) for first in range(len(entry.sights) - 1))


def parts_of(book: Book) -> Dict[str, str]:
    """For each observed point another one that stands for its part of the network."""
    parent: Dict[str, str] = {}

    def root(name: str) -> str:
        while parent.setdefault(name, name) != name:
            parent[name] = parent[parent[name]]
            name = parent[name]
        return name

    for own in book.sights:
        parent[root(own.station)] = root(own.target)
    return {name: root(name) for name in list(parent)}


def benchmark_numbers(book: Book, heights: Dict[str, int]) -> Iterator[Number]:
    """The benchmarks that observations join to another one."""
    parts = parts_of(book)
    held = [parts[name] for name in heights if name in parts]
    ends: Dict[str, Ends] = {}
    for k, own in enumerate(book.sights):
        for end, name in enumerate((own.station, own.target)):
            ends.setdefault(name, []).append((k, end))
    for record, (name, height) in enumerate(heights.items(), FIRST_RECORD):
        if name in parts and held.count(parts[name]) > 1:
            largest = max(abs(book.sights[k].difference) for k, _ in ends[name])
            yield Number("benchmark", record, name, "", height, ends[name], 1, None, largest)


def numbers_of(book: Book, heights: Dict[str, int]) -> Dict[Tuple[str, Optional[int]], Number]:
    """All numbers of a book but the book itself."""
    return {own.key: own for numbers in (sight_numbers(book), entry_numbers(book), benchmark_numbers(book, heights)) for own in numbers}


# Plain solves


def freed_by(lemon: Path, network: Network, numbers: List[Number], place: Path) -> List[Freed]:
    """What each of these numbers leaves. The file of the place is written."""
    lines = [f"{network.vertices} {len(network.links)} {len(numbers)}", *(" ".join(map(str, link)) for link in network.links)]
    for own in numbers:
        lines += [f"{len(own.ends)} {own.reach}", *(f"{link} {end}" for link, end in own.ends)]
    place.write_text("\n".join(lines) + "\n")
    answer = subprocess.run([str(lemon), str(place), str(LIMIT)], stdout=subprocess.PIPE, text=True, check=True)
    return [freed_of(own, line.split()) for own, line in zip(numbers, answer.stdout.splitlines())]


def freed_of(number: Number, words: List[str]) -> Freed:
    left, reached, blunders = int(words[0]), int(words[3]), int(words[4])
    if words[1] == "none":
        return Freed(left, None, None, reached, blunders)
    low, high = sorted(number.sign * int(word) for word in words[1:3])
    return Freed(left, low, high, reached, blunders)


def book_number(book: Book) -> Number:
    """The book, read from mark to mark. It has no value, and no ends: it is another network."""
    return Number("book", None, "", "", None, [], 1, None, 0)


def mark_to_mark(network: Network, book: Book) -> Network:
    return network._replace(links=[(tail, head, difference + own.raised - own.difference, weight)
                                   for (tail, head, difference, weight), own in zip(network.links, book.sights)])


# Rows


class Row(NamedTuple):
    number: Number
    freed: Freed

    @property
    def order(self) -> tuple:
        own = self.number
        return self.freed.left, RANKS[own.kind], own.line or 0, -int(WORDS[own.kind] or 0)


def is_possible(row: Row, freed: Dict[Tuple[str, Optional[int]], Freed]) -> bool:
    """Whether a number may be a row, but for the size of its change. `freed` has the whole entry of a forgotten change."""
    own = row.number
    if row.freed.low is None or row.freed.furthest >= own.reach:
        return False
    return own.entry is None or row.freed.left <= freed[own.entry].reached


def filtered(rows: List[Row], freed: Dict[Tuple[str, Optional[int]], Freed]) -> List[Row]:
    """Those beyond the limit; and if there are some, those beyond half of it that leave no more than the best of them."""
    possible = [row for row in rows if is_possible(row, freed)]
    best = min((row.freed.left for row in possible if row.freed.mildest > LIMIT), default=None)
    return [row for row in possible
            if row.freed.mildest > LIMIT or best is not None and row.freed.left <= best and 2 * row.freed.mildest > LIMIT]


def metres(units: Optional[int]) -> str:
    if units is None:
        return ""
    whole, part = divmod(abs(units), UNITS_PER_METRE)
    return f"{'-' if units < 0 else ''}{whole}.{part:08}"


def fields_of(row: Row, cost: int, sights: int) -> List[str]:
    """The fields of a row behind its number."""
    own, freed = row.number, row.freed
    low, high = (None, None) if own.given is None else (own.given + freed.low, own.given + freed.high)
    return [own.kind, "" if own.kind == "benchmark" else "1", str(own.line or ""), WORDS[own.kind], own.station, own.target,
            str(len(own.ends) or sights), metres(own.given), metres(low), metres(high), metres(cost - freed.left), metres(freed.left),
            str(freed.blunders)]


def numbered(rows: List[Row], cost: int, sights: int) -> List[List[str]]:
    """The first rows in order, with their numbers: those that explain equally have the same one."""
    rows = sorted(rows, key=lambda row: row.order)[:MOST_ROWS]
    costs = sorted({row.freed.left for row in rows})
    return [[str(costs.index(row.freed.left) + 1), *fields_of(row, cost, sights)] for row in rows]


def with_entries(chosen: List[Number], numbers: Dict[Tuple[str, Optional[int]], Number]) -> List[Number]:
    """These numbers, and the whole entries of those that are forgotten changes."""
    keys = dict.fromkeys(own.key for own in chosen)
    keys.update(dict.fromkeys(own.entry for own in chosen if own.entry is not None))
    return [numbers[key] for key in keys]


def plain_rows(lemon: Path, folder: Path, printed: List[List[str]], sample: int) -> Tuple[List[List[str]], int]:
    """The rows that a network has to have, and how many numbers they were found from: those of the printed rows, each Nth number, the
    benchmarks and the book."""
    book, network = read_book(folder / "book.gsi"), read_network(folder / "network.txt")
    numbers = numbers_of(book, read_benchmarks(folder / "benchmarks.csv"))
    keys = [(row[1], int(row[3])) for row in printed if row[1] != "book"]
    some = [own for k, own in enumerate(numbers.values()) if k % sample == 0 or own.kind == "benchmark"]
    chosen = with_entries([numbers[key] for key in keys if key in numbers] + some, numbers)
    whole = book_number(book)
    now, *freed = freed_by(lemon, network, [whole, *chosen], folder / "numbers.txt")
    (read,) = freed_by(lemon, mark_to_mark(network, book), [whole], folder / "numbers.txt")
    found = {own.key: one for own, one in zip(chosen, freed)}
    rows = filtered(list(map(Row, chosen, freed)), found)
    rows += [Row(whole, read)] if BOOK_TIMES * read.left < now.left else []
    return numbered(rows, now.left, len(book.sights)), len(chosen) + 1


def compared(lemon: Path, folder: Path, table: Path, sample: int) -> int:
    """How many numbers the rows of a table were compared with. Fails where plain solves give others. What may have been
    meant is not compared: the fields behind `blunders`, and the records without a number."""
    with table.open(newline="") as file:
        header, *records = csv.reader(file)
    fields = header.index("blunders") + 1
    printed = [record[:fields] for record in records if record[0]]
    rows, count = plain_rows(lemon, folder, printed, sample)
    for own, plain in zip(printed + [[]] * len(rows), rows + [[]] * len(printed)):
        if own != plain:
            raise ValueError(f"{folder}: a row is {','.join(own) or 'missing'}, plainly {','.join(plain) or 'missing'}")
    return count
