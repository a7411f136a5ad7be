"""What the parts of a page share: its rows, and how numbers and names are written. Lengths are in units of 10 nm."""

import re
from typing import List, NamedTuple, Optional, Tuple

from inputs import Input
from notes import Outlier

RAISE = 10**18

Span = Tuple[int, int]


class Point(NamedTuple):
    """A point in point order. A benchmark has no strength. `moved` are its mended heights."""

    name: bytes
    low: int
    high: int
    strength: Optional[int]
    drawn: int
    moved: Optional[Span]


class Sight(NamedTuple):
    """An observation with its number from 1 and its group; its ends are places among the points, from 0."""

    number: int
    book: int
    line: int
    station: int
    target: int
    difference: int
    weight: int
    residual: int
    control: Optional[int]
    mistake: str
    group: str


class Entry(NamedTuple):
    """A keyed-in height, `reflector` or `instrument`."""

    book: int
    line: int
    kind: str
    station: bytes
    length: int
    sights: int
    weight: int
    mistake: str


class Others(NamedTuple):
    """What the other benchmarks say of one: whether they say something, and the heights that fit better, if some do."""

    speak: bool
    differ: Optional[Span]


class Benchmark(NamedTuple):
    """A row of the table of benchmarks. One that was never observed has no mistake. The others are said of the first rows alone."""

    name: bytes
    height: int
    sights: int
    weight: int
    mistake: Optional[str]
    others: Optional[Others]


class Explanation(NamedTuple):
    """A row of what `explain` prints."""

    number: int
    kind: str
    book: Optional[int]
    line: Optional[int]
    station: Optional[bytes]
    target: Optional[bytes]
    given: Optional[int]
    low: Optional[int]
    high: Optional[int]
    left: int
    blunders: int


class Page(NamedTuple):
    """What a page shows."""

    title: bytes
    inputs: List[Input]
    points: List[Point]
    sights: List[Sight]
    entries: List[Entry]
    benchmarks: List[Benchmark]
    explanations: List[Explanation]
    says: List[bytes]
    notes: List[bytes]
    cost: int
    limit: int
    outlier: Optional[Outlier]


def is_marked(page: Page, sight: Sight) -> bool:
    return abs(sight.residual) > page.limit


def first_rows(page: Page) -> List[Explanation]:
    return [row for row in page.explanations if row.number == 1]


def largest_within(page: Page) -> int:
    """The largest size of a residual that is not marked."""
    return max([0] + [abs(own.residual) for own in page.sights if not is_marked(page, own)])


# Texts

ENTITIES = {ord("&"): b"&amp;", ord("<"): b"&lt;", ord(">"): b"&gt;", ord('"'): b"&quot;", ord("'"): b"&#39;"}
# C1 controls, and what is no character.
HIDDEN = re.compile(rb"\xc2[\x80-\x9f]|\xef\xbf[\xbe\xbf]")


def escaped(text: bytes) -> bytes:
    text = HIDDEN.sub(b"?", text)
    return b"".join(ENTITIES.get(byte, b"?" if byte < 32 or byte == 127 else bytes([byte])) for byte in text)


def tenths(length: int) -> int:
    """The size in tenths of a millimetre, halves up."""
    return (abs(length) // 5_000 + 1) // 2


def height(length: int) -> bytes:
    size = tenths(length)
    return (b"-" if length < 0 < size else b"") + b"%d.%04d" % (size // 10_000, size % 10_000)


def signed(length: int) -> bytes:
    return (b"+" if length > 0 and tenths(length) > 0 else b"") + height(length)


def size(length: int) -> bytes:
    """A size in millimetres, or in metres from one on."""
    own = tenths(length)
    return b"%d.%d mm" % (own // 10, own % 10) if own < 10_000 else height(abs(length)) + b" m"


def span(own: Span) -> bytes:
    """Two heights, or one if both are rounded to the same."""
    low, high = own
    is_one = tenths(low) == tenths(high) and (low < 0) == (high < 0)
    return height(low) + (b"" if is_one else b" to " + height(high))


def count(many: int, one: bytes, more: bytes) -> bytes:
    return b"%d %s" % (many, one if many == 1 else more)


def place(book: int, line: int) -> bytes:
    return b"%d:%d" % (book, line)


def is_written(k: int, count: int, many: int) -> bool:
    """Whether number k, from 0, of a count is written, if fewer than twice `many` are written."""
    return k % max(1, count // many) == 0
