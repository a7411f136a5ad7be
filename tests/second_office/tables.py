"""Records, benchmarks and weights: section 3 of docs/FORMATS.md.

A table is a list of records, which are lists of fields. Faults are raised as `TableFault`.
"""

import sys
from pathlib import Path
from typing import Dict, List, Tuple

sys.path.insert(0, str(Path(__file__).resolve().parents[1] / "second_reader"))
import reader  # noqa: E402

LARGEST_TABLE = 1_048_576
LARGEST_WEIGHT = 1_000
MOST_DIGITS_BEFORE_DOT = 9
MOST_DIGITS_BEHIND_DOT = 8
BYTE_ORDER_MARK = b"\xef\xbb\xbf"

Record = List[bytes]
Pair = Tuple[bytes, bytes]


class TableFault(Exception):
    """The fault of a table: its record (0 for the whole table), its kind and its words."""

    def __init__(self, record: int, kind: str, words: str) -> None:
        super().__init__(record, kind, words)
        self.record = record
        self.kind = kind
        self.words = words


class NotMetres(Exception):
    """A text that has not the form of metres."""


class TooManyDigits(Exception):
    """A text in the form of metres, with too many digits before the dot."""


# Records


class RecordReader:
    """The records of a text, byte by byte. Fields stand between commas; a quoted field may hold commas, line ends and doubled quotes."""

    def __init__(self) -> None:
        self.records: List[Record] = []
        self.fields: Record = []
        self.field = b""
        self.state = self.before_record

    def end_field(self) -> None:
        self.fields.append(self.field)
        self.field = b""

    def end_record(self) -> None:
        self.end_field()
        self.records.append(self.fields)
        self.fields = []
        self.state = self.before_record

    def before_record(self, byte: bytes) -> None:
        # Line ends before a record are passed over: an empty line is no record, and the LF of CR LF is none either.
        if byte not in b"\r\n":
            self.before_field(byte)

    def before_field(self, byte: bytes) -> None:
        if byte == b'"':
            self.state = self.in_quotes
        else:
            self.in_field(byte)

    def in_field(self, byte: bytes) -> None:
        if byte == b",":
            self.end_field()
            self.state = self.before_field
        elif byte in b"\r\n":
            self.end_record()
        else:
            self.field += byte
            self.state = self.in_field

    def in_quotes(self, byte: bytes) -> None:
        if byte == b'"':
            self.state = self.behind_quote
        else:
            self.field += byte

    def behind_quote(self, byte: bytes) -> None:
        if byte == b'"':
            self.field += byte
            self.state = self.in_quotes
        else:
            self.in_field(byte)

    def finish(self) -> List[Record]:
        # What stands after the last line end is a record where it has begun, also inside quotes.
        if self.state != self.before_record:
            self.end_record()
        return self.records


def records_of(text: bytes) -> List[Record]:
    """The records of a text, without the byte order mark that it may begin with."""
    rest = text[len(BYTE_ORDER_MARK) :] if text.startswith(BYTE_ORDER_MARK) else text
    records = RecordReader()
    for place in range(len(rest)):
        records.state(rest[place : place + 1])
    return records.finish()


# Numbers


def are_digits(text: bytes) -> bool:
    return text != b"" and reader.is_made_of(text, reader.DIGITS)


def without_sign(text: bytes) -> Tuple[bool, bytes]:
    """Whether a text begins with a minus, and the text without its optional sign."""
    return text[:1] == b"-", text[1:] if text[:1] in (b"+", b"-") else text


def metres_in(text: bytes) -> int:
    """The length of a text in metres: an optional sign, digits, and optionally a dot and 1 to 8 digits."""
    negative, rest = without_sign(text)
    whole, dot, part = rest.partition(b".")
    if not are_digits(whole):
        raise NotMetres
    if dot and not (are_digits(part) and len(part) <= MOST_DIGITS_BEHIND_DOT):
        raise NotMetres
    if len(whole) > MOST_DIGITS_BEFORE_DOT:
        raise TooManyDigits
    size = int(whole) * reader.METRE + int(part.ljust(MOST_DIGITS_BEHIND_DOT, b"0"))
    return -size if negative else size


# Tables


def rows_of(text: bytes, header: Record) -> List[Record]:
    """The records behind the header, or the table's fault E7 or E1."""
    if len(text) > LARGEST_TABLE:
        raise TableFault(0, "E7", "table too long")
    records = records_of(text)
    if not records or records[0] != header:
        raise TableFault(1, "E1", "bad header")
    return records[1:]


def name_in(field: bytes, record: int) -> bytes:
    name = reader.name_of(field)
    if name is None:
        raise TableFault(record, "E3", "bad name")
    return name


def check_field_count(row: Record, count: int, record: int) -> None:
    if len(row) != count:
        raise TableFault(record, "E2", "field count")


def height_in(field: bytes, record: int) -> int:
    try:
        height = metres_in(field)
    except (NotMetres, TooManyDigits):
        raise TableFault(record, "E4", "bad height") from None
    if abs(height) > reader.LARGEST_LENGTH:
        raise TableFault(record, "E4", "bad height")
    return height


def weight_in(field: bytes, record: int) -> int:
    if not (are_digits(field) and len(field) <= 4 and 1 <= int(field) <= LARGEST_WEIGHT):
        raise TableFault(record, "E5", "bad weight")
    return int(field)


def read_benchmarks(text: bytes) -> Dict[bytes, int]:
    """The heights of the benchmarks, in table order."""
    heights: Dict[bytes, int] = {}
    for record, row in enumerate(rows_of(text, [b"point", b"height"]), start=2):
        check_field_count(row, 2, record)
        name = name_in(row[0], record)
        height = height_in(row[1], record)
        if name in heights:
            raise TableFault(record, "E6", "repeated")
        heights[name] = height
    return heights


def read_weights(text: bytes) -> Dict[Pair, int]:
    """The weights of pairs of station and target. A file of no bytes stands for an empty table."""
    weights: Dict[Pair, int] = {}
    if text == b"":
        return weights
    for record, row in enumerate(rows_of(text, [b"from", b"to", b"weight"]), start=2):
        check_field_count(row, 3, record)
        pair = (name_in(row[0], record), name_in(row[1], record))
        weight = weight_in(row[2], record)
        if pair in weights:
            raise TableFault(record, "E6", "repeated")
        weights[pair] = weight
    return weights
