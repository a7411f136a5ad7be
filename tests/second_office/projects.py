"""Small random projects: books, benchmarks, weights, and certificates that somebody changed.

A project is made from heights that are known, so that most networks are sensible, with misreadings, repeated sights, rows that are
wrong, points that nothing ties to a benchmark, and networks whose best heights are not unique. All of it hangs on the `rng` alone.
"""

import re
import sys
from pathlib import Path
from random import Random
from typing import Callable, List, NamedTuple, Optional, Sequence, Tuple

from office import Inputs
from tables import metres_in, reader

sys.path.append(str(Path(__file__).resolve().parents[1] / "planted"))
from surveys import SHAPES, changed, survey_of, written  # noqa: E402

NAMES = (b"A", b"B", b"C", b"D", b"BM1", b"BM2", b"KO 1", b"7", b"0", b"A,B", b'X"Y', b"SO 112/4")
# Names of 16 characters, some of which would do harm if they were markup, and a short one.
LONG_NAMES = (b"<script>1</script"[:16], b"</b></s></td><i>", b"&lt;&amp;&quot;;", b"\"'\"'\"'><a href=x", b"<img src=# on=x>", b"WWWWWWWWWWWWWWWW",
              b"SIXTEEN-BYTES-AB", b"<!--]]>&#x3c;b>.", b"A")
MEASURED_NUMBERS = (b"21.", b"22.", b"31.", b"32.", b"83.", b"310", b"329", b"330", b"331", b"335", b"339", b"340", b"830")
LARGEST_LIMIT = 1_000_000_000
DEFAULT_LIMIT = 20_000
MILLIMETRE = 100_000


# Of one number that is planted: its change in millimetres.
CHANGES_OF_ONE = (15, 20, 21, 25, 50, 100, 1_000)


class Project(NamedTuple):
    """What a run reads, with the limit of blunders in micrometres where one is named."""

    inputs: Inputs
    limit: Optional[int]


# Books


def spelled(width: int, index: str, information: str, length: int, step: int) -> bytes:
    """A word of a length that is a multiple of its unit's step."""
    sign = "-" if length < 0 else "+"
    return f"{index}{information}{sign}{abs(length) // step:0{width}}".encode("ascii")


UNITS = (("0", MILLIMETRE), ("6", MILLIMETRE // 10), ("8", MILLIMETRE // 100))


class BookWriter:
    """Writes setups and sights as an instrument does, with GSI-8 or GSI-16 words. Some instruments write the heights in force into
    every sight, others once."""

    def __init__(self, rng: Random, longest: int = 1) -> None:
        """A book of names of at most so many characters."""
        self.rng = rng
        self.width = max(rng.choice((8, 8, 16)), 8 if longest <= 8 else 16)
        self.end = rng.choice((b"\n", b"\r\n"))
        self.repeats = rng.choice((0.0, 0.0, 0.3, 1.0))
        # Some write a word 33 that holds the heights already.
        self.from_mark_to_mark = rng.random() < 0.05
        self.lines: List[bytes] = []
        self.instrument = 0
        self.reflector: Optional[int] = None

    def add(self, words: List[bytes]) -> None:
        star = b"*" if self.width == 16 else b""
        self.lines.append(star + b" ".join(words) + self.rng.choice((b" ", b" ", b"")) + self.end)

    def point_word(self, name: bytes) -> bytes:
        number = (len(self.lines) + 1) % 10_000
        return f"11{number:04}+".encode("ascii") + name.rjust(self.width, self.rng.choice((b"0", b"0", b"0", b"0", b" ")))

    def height_word(self, index: str, height: int) -> bytes:
        """A height in one of the units that it is a multiple of."""
        unit, step = self.rng.choice(UNITS)
        return spelled(self.width, index, f"..1{unit}", height, step)

    def setup(self, station: bytes) -> None:
        self.instrument = self.rng.choice((0, 1_450, 1_500, 1_545)) * MILLIMETRE
        self.reflector = None
        self.add([self.point_word(station), b"84..10+" + b"0" * self.width, self.height_word("88", self.instrument)])

    def instrument_alone(self, point: bytes) -> None:
        """A block that looks like a setup and is none: the instrument height counts, the station stays."""
        self.instrument = self.rng.choice((1_450, 1_500)) * MILLIMETRE
        words = [self.point_word(point), self.height_word("88", self.instrument)]
        if self.rng.random() < 0.3:
            words.append(f"{self.rng.choice((21, 22, 31, 32))}..00+".encode("ascii") + b"0" * self.width)
        self.add(words)

    def sight(self, target: bytes, difference: int) -> None:
        words = [self.point_word(target)]
        reflector = self.reflector
        if reflector is None or self.rng.random() < 0.2:
            reflector = self.rng.choice((0, 1_300, 1_600)) * MILLIMETRE
        unit, step = self.rng.choice((("0", MILLIMETRE), ("8", 1_000)))
        read = difference if self.from_mark_to_mark else difference - self.instrument + reflector
        words.append(spelled(self.width, "33", f"..1{unit}", read - read % step, step))
        if reflector != self.reflector or self.rng.random() < self.repeats:
            words.append(self.height_word("87", reflector))
            self.reflector = reflector
        if self.rng.random() < self.repeats:
            words.append(self.height_word("88", self.instrument))
        self.add(words)

    def measured(self, point: bytes) -> None:
        """A block with some of what an instrument measures, and without word 33."""
        words = [self.point_word(point)]
        words += [number + b".00+" + b"0" * self.width for number in self.rng.sample(MEASURED_NUMBERS, self.rng.randint(0, 4))]
        self.add(words)

    def text(self) -> bytes:
        return b"".join(self.lines)


def noise(rng: Random) -> int:
    """How far an observation is from the truth: nothing, millimetres, or a misreading."""
    kind = rng.random()
    if kind < 0.45:
        return 0
    if kind < 0.85:
        return rng.randint(-4, 4) * MILLIMETRE
    return rng.choice((-1, 1)) * rng.choice((5, 10, 99, 100, 1_000)) * 10 * MILLIMETRE


def book_of(rng: Random, heights: dict) -> bytes:
    names = list(heights)
    writer = BookWriter(rng, max(map(len, names)))
    if rng.random() < 0.05:
        for _ in range(rng.randint(1, 3)):
            writer.measured(rng.choice(names))
        return writer.text()
    for _ in range(rng.randint(0, 3)):
        station = rng.choice(names)
        writer.setup(station)
        for _ in range(rng.randint(0, 4)):
            target = rng.choice(names)
            if rng.random() < 0.05:
                writer.instrument_alone(target)
            if target != station:
                writer.sight(target, heights[target] - heights[station] + noise(rng))
    return writer.text()


# Tables


def metres_text(rng: Random, height: int) -> bytes:
    """A height in one of its spellings."""
    text = reader.metres(height)
    if rng.random() < 0.3:
        text = text.rstrip(b"0").rstrip(b".")
    return rng.choice((b"", b"", b"+")) + text if height >= 0 else text


def quoted(rng: Random, name: bytes) -> bytes:
    return b'"' + name.replace(b'"', b'""') + b'"' if rng.random() < 0.1 else reader.csv_field(name)


def benchmarks_of(rng: Random, heights: dict) -> bytes:
    rows = [b"point,height"]
    for name in rng.sample(list(heights), min(len(heights), rng.choice((1, 1, 2, 2, 3)))):
        moved = rng.choice((0, 0, 0, rng.randint(-30, 30) * MILLIMETRE))
        rows.append(quoted(rng, name) + b"," + metres_text(rng, heights[name] + moved))
    if rng.random() < 0.1:
        rows.append(b"Z 9,-1.5")
    end = rng.choice((b"\n", b"\r\n"))
    return end.join(rows) + rng.choice((end, b""))


def weights_of(rng: Random, heights: dict) -> bytes:
    rows = [b"from,to,weight"]
    names = list(heights)
    pairs = [(station, target) for station in names for target in names]
    for station, target in rng.sample(pairs, rng.randint(0, min(6, len(pairs)))):
        weight = rng.choice((1, 2, 3, 10, 999, 1000))
        rows.append(b",".join((quoted(rng, station), quoted(rng, target), str(weight).encode("ascii"))))
    return b"\n".join(rows) + b"\n"


# Mistakes in texts. Each takes a text of lines and gives another.


def lines_of(text: bytes) -> List[bytes]:
    return text.splitlines(keepends=True)


def drop_line(rng: Random, text: bytes) -> bytes:
    lines = lines_of(text)
    if lines:
        del lines[rng.randrange(len(lines))]
    return b"".join(lines)


def repeat_line(rng: Random, text: bytes) -> bytes:
    lines = lines_of(text)
    if lines:
        lines.insert(rng.randrange(len(lines) + 1), rng.choice(lines))
    return b"".join(lines)


def exchange_lines(rng: Random, text: bytes) -> bytes:
    lines = lines_of(text)
    if len(lines) > 1:
        one, two = rng.sample(range(len(lines)), 2)
        lines[one], lines[two] = lines[two], lines[one]
    return b"".join(lines)


def change_number(rng: Random, text: bytes) -> bytes:
    """Another digit, sign or dot in place of one."""
    places = [match.start() for match in re.finditer(rb"[-+.0-9]", text)]
    if not places:
        return text
    place = rng.choice(places)
    return text[:place] + bytes([rng.choice(b"0123456789.+-")]) + text[place + 1 :]


def add_digits(rng: Random, text: bytes) -> bytes:
    """Zeros or nines before or behind a number."""
    places = [match.span() for match in re.finditer(rb"[0-9]+", text)]
    if not places:
        return text
    place = rng.choice(rng.choice(places))
    return text[:place] + rng.choice((b"0", b"9")) * rng.choice((1, 3, 9, 30)) + text[place:]


def change_field(rng: Random, text: bytes) -> bytes:
    """Another field in place of one, or a field more or fewer."""
    lines = lines_of(text)
    if not lines:
        return text
    place = rng.randrange(len(lines))
    line = lines[place].rstrip(b"\r\n")
    end = lines[place][len(line) :]
    fields = line.split(b",")
    wrong = rng.choice((b"", b" ", b"0", b"A", b"00A ", b"1", b"-1", b"1.", b".5", b"V", b"H", b"L", b"U", b"F", b"Z", b"cost", b'"', b'"A"x', b"\xff", b"A" * 17))
    what = rng.random()
    if what < 0.6:
        fields[rng.randrange(len(fields))] = wrong
    elif what < 0.8:
        fields.append(wrong)
    else:
        fields.pop()
    lines[place] = b",".join(fields) + end
    return b"".join(lines)


def change_ends(rng: Random, text: bytes) -> bytes:
    return b"".join(line.rstrip(b"\r\n") + rng.choice((b"\n", b"\r", b"\r\n", b"\n\n")) for line in lines_of(text))


def mark_byte_order(rng: Random, text: bytes) -> bytes:
    return b"\xef\xbb\xbf" * rng.choice((1, 1, 2)) + text


def cut_off(rng: Random, text: bytes) -> bytes:
    return text[: rng.randrange(len(text) + 1)]


MISTAKES: Tuple[Callable[[Random, bytes], bytes], ...] = (
    drop_line, repeat_line, exchange_lines, change_number, change_number, add_digits, change_field, change_field, change_ends,
    mark_byte_order, cut_off)


def with_mistakes(rng: Random, text: bytes) -> bytes:
    for _ in range(rng.choice((1, 1, 2))):
        text = rng.choice(MISTAKES)(rng, text)
    return text


# Certificates


def heights_moved(rng: Random, text: bytes) -> bytes:
    """Heights of one kind by some units up or down."""
    kind = rng.choice((b"H", b"L", b"U"))
    moved = rng.choice((-1, 1, MILLIMETRE))
    rows = []
    for line in lines_of(text):
        fields = line.rstrip(b"\n").rsplit(b",", 1)
        if line.startswith(kind + b",") and rng.random() < 0.3:
            line = fields[0] + b"," + reader.metres(metres_in(fields[1]) + moved) + b"\n"
        rows.append(line)
    return b"".join(rows)


def flow_changed(rng: Random, text: bytes) -> bytes:
    """One flow, by a little or by more than any weight."""
    rows = lines_of(text)
    places = [place for place, row in enumerate(rows) if row.startswith(b"F,")]
    if places:
        place = rng.choice(places)
        key, flow = rows[place].rstrip(b"\n").rsplit(b",", 1)
        rows[place] = key + b"," + str(int(flow) + rng.choice((-1, 1, -2, 2, 1_001, -1_001))).encode("ascii") + b"\n"
    return b"".join(rows)


def last_flow_dropped(rng: Random, text: bytes) -> bytes:
    """A certificate for one observation fewer."""
    rows = lines_of(text)
    flows = [row for row in rows if row.startswith(b"F,")]
    if not flows:
        return text
    rows.remove(flows[-1])
    return b"".join(rows).replace(b",%d\n" % len(flows), b",%d\n" % (len(flows) - 1), 1)


def cost_changed(rng: Random, text: bytes) -> bytes:
    return re.sub(rb"^Z,cost,([0-9]+)$", lambda match: b"Z,cost,%d" % max(0, int(match[1]) + rng.choice((-1, 1, MILLIMETRE))), text, flags=re.MULTILINE)


def lows_and_highs_exchanged(rng: Random, text: bytes) -> bytes:
    rows = lines_of(text)
    low = [row[1:] for row in rows if row.startswith(b"L,")]
    high = [row[1:] for row in rows if row.startswith(b"U,")]
    first = [row for row in rows if row[:1] in b"kVH"]
    last = [row for row in rows if row[:1] in b"FZ"]
    return b"".join(first + [b"L" + row for row in high] + [b"U" + row for row in low] + last)


def of_version_1(rng: Random, text: bytes) -> bytes:
    rows = [row for row in lines_of(text) if row[:1] not in b"LU"]
    return b"".join(rows).replace(b"\nV,2,", b"\nV,1,", 1)


def names_spelled_otherwise(rng: Random, text: bytes) -> bytes:
    return re.sub(rb"^([HLU]),([A-Z0-9]+),", lambda match: match[1] + b",0 " + match[2] + b" ,", text, count=rng.randint(1, 3), flags=re.MULTILINE)


CHANGES: Tuple[Callable[[Random, bytes], bytes], ...] = (
    heights_moved, heights_moved, flow_changed, flow_changed, last_flow_dropped, cost_changed, lows_and_highs_exchanged, of_version_1,
    names_spelled_otherwise, with_mistakes, with_mistakes, with_mistakes)


def changed_certificate(rng: Random, text: bytes) -> bytes:
    changed = rng.choice(CHANGES)(rng, text)
    return with_mistakes(rng, changed) if rng.random() < 0.2 else changed


# Projects


def random_height(rng: Random) -> int:
    """Millimetres, any units, or so little that it is next to nothing in 1/100 mm."""
    if rng.random() < 0.15:
        return rng.randint(-600, 600)
    return rng.randint(-2_000, 20_000) * MILLIMETRE + rng.choice((0, 0, rng.randint(0, 99_999)))


def random_project(rng: Random, pool: Sequence[bytes] = NAMES) -> Project:
    names = rng.sample(pool, rng.randint(2, 7))
    heights = {name: random_height(rng) for name in names}
    books = [book_of(rng, heights) for _ in range(rng.choice((1, 1, 2, 3)))]
    if rng.random() < 0.1:
        books.append(rng.choice(books))
    benchmarks = benchmarks_of(rng, heights)
    weights = weights_of(rng, heights) if rng.random() < 0.5 else None
    if rng.random() < 0.15:
        benchmarks = with_mistakes(rng, benchmarks)
    if weights is not None and rng.random() < 0.3:
        weights = rng.choice((b"", with_mistakes(rng, weights)))
    if rng.random() < 0.1:
        place = rng.randrange(len(books))
        books[place] = with_mistakes(rng, books[place])
    # Residuals are often whole millimetres, so some limits are as large as a residual.
    limit = rng.choice((None, None, 0, 1_000, 2_000, 3_000, 50_000, DEFAULT_LIMIT, rng.randint(0, LARGEST_LIMIT)))
    return Project(Inputs(books, benchmarks, weights), limit)


def planted_project(rng: Random) -> Project:
    """A small survey of some shape with one wrong number."""
    survey = survey_of(rng.randrange(10**6), rng.choice(list(SHAPES)), rng.choice((4, 5)), rng.choice((0, 1)), rng.choice((1, 1, 5)))
    number = rng.choice(written(survey, "once").numbers)
    text = written(changed(survey, number, rng.choice((-1, 1)) * rng.choice(CHANGES_OF_ONE)), rng.choice(("once", "each")))
    return Project(Inputs(text.books, text.benchmarks, text.weights), None)


def some_project(rng: Random, number: int) -> Project:
    """Project `number` of a row of them, three in ten of which have one wrong number, and one in ten long names."""
    kind = number % 10
    return planted_project(rng) if kind < 3 else random_project(rng, LONG_NAMES) if kind == 3 else random_project(rng)
