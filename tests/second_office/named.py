"""The heights that may have been meant where rows of `explain` doubt what was keyed in: docs/FORMATS.md, the section on `explain`."""

from typing import Dict, Iterator, List, NamedTuple, Optional, Set, Tuple

from freed import Freed
from network import Network
from reliability import Entry, entries_of
from tables import reader

MOST_NAMED = 3
LEAST_DIGITS = 4
TENTH = 10  # of the limit: how far outside the values that fit a height may be


class Named(NamedTuple):
    """A height that may have been meant: the place of its row, the word, what was typed, whether it is one elsewhere, and whether only sights of
    the row use what was typed."""

    row: int
    word: bytes
    typed: int
    meant: int
    elsewhere: bool
    whole: bool


def slips_of(entry: Entry) -> Set[int]:
    """The lengths that a slip in the digits of an entry's first word makes."""
    unit = reader.UNITS[entry.unit]
    digits = f"{abs(entry.length) // unit:0{LEAST_DIGITS}}"
    texts = {digits[:place] + digit + digits[place + 1 :] for place in range(len(digits)) for digit in "0123456789"}
    texts |= {digits[:place] + digits[place + 1] + digits[place] + digits[place + 2 :] for place in range(len(digits) - 1)}
    sign = -1 if entry.length < 0 else 1
    return {sign * int(text) * unit for text in texts if int(text) * unit <= reader.LARGEST_LENGTH}


def named_of(entry: Entry, others: Set[int], low: int, high: int, limit: int) -> List[int]:
    """What may have been meant by the height of an entry, nearest to the middle first."""
    among = others if entry.length in others else slips_of(entry)
    fitting = [height for height in among - {entry.length} if low - limit // TENTH <= height <= high + limit // TENTH]
    return sorted(fitting, key=lambda height: (abs(2 * height - low - high), height)) if len(fitting) <= MOST_NAMED else []


def uses_of(network: Network, books: List[bytes]) -> List[Tuple[Entry, Set[int]]]:
    """The entries of all books, each with the places of the observations that use it."""
    place_at = {(own.book, own.line): place for place, own in enumerate(network.observations)}
    return [(entry, {place_at[count, line] for line in entry.sights})
            for count, book in enumerate(books, start=1) for entry in entries_of(count, book)]


def doubted(row: Freed, uses: List[Tuple[Entry, Set[int]]]) -> Iterator[Tuple[Entry, bool, int, int]]:
    """The entries that a row doubts, poles first: each with whether it has the sights of the row alone, and the lowest and the highest height that fits."""
    own = row.number
    if own.kind in ("benchmark", "book"):
        return
    for entry, places in sorted(uses, key=lambda use: use[0].word):
        if not places.issuperset(own.places):
            continue
        whole = places == set(own.places)
        if own.kind != "sight" and entry.word == own.word():
            yield entry, whole, row.low, row.high
        if own.kind == "sight" and entry.word == reader.REFLECTOR_HEIGHT:
            yield entry, whole, entry.length + own.given - row.high, entry.length + own.given - row.low
        if own.kind == "sight" and entry.word == reader.INSTRUMENT_HEIGHT and whole:
            yield entry, whole, entry.length - own.given + row.low, entry.length - own.given + row.high


def elsewhere(row: Freed, word: bytes, uses: List[Tuple[Entry, Set[int]]]) -> Set[int]:
    """The heights of a kind that sights use which the number of a row does not have."""
    return {entry.length for entry, places in uses if entry.word == word and places - set(row.number.places)}


def heights_named(network: Network, books: List[bytes], rows: List[Tuple[int, Freed]], limit: int) -> List[Named]:
    uses = uses_of(network, books)
    named = []
    for place, (number, row) in enumerate(rows):
        for entry, whole, low, high in doubted(row, uses) if number == 1 else ():
            others = elsewhere(row, entry.word, uses)
            named += [Named(place, entry.word, entry.length, meant, meant in others, whole)
                      for meant in named_of(entry, others, low, high, limit)]
    return [own for own in named if own.elsewhere and own.word == reader.REFLECTOR_HEIGHT] or named


def last_lines(network: Network, books: List[bytes]) -> Dict[Tuple[int, int, bytes], int]:
    """The last line that repeats an entry, by its book, its line and its word."""
    return {(entry.book, entry.line, entry.word): entry.repeated for entry, _ in uses_of(network, books)}


def last_line(row: Freed, lasts: Dict[Tuple[int, int, bytes], int]) -> Optional[int]:
    own = row.number
    return lasts[own.book, own.line, own.word()] if own.kind in ("instrument", "reflector") else None
