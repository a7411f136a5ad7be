"""The five texts of a review, and its notes: the section of docs/FORMATS.md on what `review` writes."""

from collections import Counter
from typing import Dict, Iterator, List, NamedTuple, Optional, Sequence, Set, Tuple

from certificates import csv_row, number_text
from inputs import Input, input_line
from moves import Blame, blames_of, free_sets
from network import Heights, Network, Observation, anchored_points
from reliability import Benchmark, Entry, benchmarks_of, controls_of, entries_of, mistake_of, shared_mistake_of, strengths_of
from tables import Pair, reader
from texts import label_line, metres, residual_line

MOST_LARGEST = 20
OBSERVATION_MARKS = {"shows": "", "ties": "  =", "hides": "  <", "unchecked": "  0"}
SHARED_MARKS = {None: "", "shows": "", "ties": "  =", "drags": "  <", "unchecked": "  0"}
ANY_BLAME = Blame(0, 0, None)  # where the network is too large for all of its sets to be tried
FIRST_RECORD = 2  # the header is record 1
MEASURED_INDEXES = (b"21", b"22", b"31", b"32")  # angles and distances
SLOPE_DISTANCE = b"31"
MOST_LISTED = 1_000  # notes of a kind
MOST_COMPARED = 200_000  # setups and sights whose names are compared
FORMULA_BYTES = b"=+-@"
TWIN_LIMIT = 5_000_000  # 0.05 m


class BookCount(NamedTuple):
    """What stands in a book: its lines, its blocks, and which of them are setups and sights."""

    lines: int
    blocks: int
    setups: int
    sights: int


class Review(NamedTuple):
    """A network with what a mistake in it would do."""

    network: Network
    low: Heights
    high: Heights
    limit: int
    strengths: Dict[bytes, Optional[int]]
    controls: List[Optional[int]]
    entries: List[Entry]
    books: List[BookCount]
    inputs: List[Input]
    notes: List[str]
    own_blames: List[Set[Blame]]  # of each observation, what the least sets would move; none where it shows
    shared_blames: List[Set[Blame]]  # of each entry
    benchmarks: List[Benchmark]
    benchmark_blames: List[Set[Blame]]  # of each benchmark

    def mistakes(self) -> List[str]:
        return [mistake_of(control, own.weight) for control, own in zip(self.controls, self.network.observations)]

    def weight_of(self, entry: Entry) -> int:
        return sum(own.weight for own in self.network.observations if own.book == entry.book and own.line in entry.sights)

    def shared_mistakes(self) -> List[str]:
        return [shared_mistake_of(self.network, entry) for entry in self.entries]


# What moves


def places_of(network: Network, entry: Entry) -> Set[int]:
    return {place for place, own in enumerate(network.observations) if own.book == entry.book and own.line in entry.sights}


def blames_of_all(network: Network, mistakes: Sequence[Optional[str]], mistaken: List[Set[int]]) -> List[Set[Blame]]:
    """What each mistake would move: all that the definition allows, or `ANY_BLAME` where there are too many sets."""
    sets = free_sets(network)
    return [set() if word in (None, "shows") else {ANY_BLAME} if sets is None else blames_of(network, sets, own)
            for word, own in zip(mistakes, mistaken)]


# Books


def blocks_of(book: bytes) -> List[Tuple[int, List[reader.Word]]]:
    lines = enumerate(reader.split_into_lines(book), start=1)
    return [(number, reader.read_block(line)) for number, line in lines if not reader.is_blank(line)]


def count_of(book: bytes) -> BookCount:
    blocks = [words for _, words in blocks_of(book)]
    setups = sum(reader.is_setup(words) for words in blocks)
    return BookCount(len(reader.split_into_lines(book)), len(blocks), setups, sum(reader.is_sight(words) for words in blocks))


# Notes


def limited(notes: List[str], kind: str) -> List[str]:
    """The notes of a kind, as many as are listed, and one that counts the rest."""
    rest = len(notes) - MOST_LISTED
    return notes[:MOST_LISTED] + ([f"and {rest} more: {kind}"] if rest > 0 else [])


def dotted_words(words: List[reader.Word], index: bytes) -> List[reader.Word]:
    """The words with an index and a dot at position 3."""
    return [word for word in words if word.index == index and word.information[0:1] == reader.DOT]


def without_sight(books: List[bytes]) -> List[str]:
    noted = [reader.without_sight(number, book) for number, book in enumerate(books, start=1)]
    return [note for note in noted if note]


def repeated_books(network: Network, count: int) -> List[str]:
    said = [[(own.station, own.target, own.difference) for own in network.observations if own.book == number]
            for number in range(1, count + 1)]
    notes = []
    for place, own in enumerate(said):
        earlier = said.index(own)
        if own and earlier < place:
            notes.append(f"book {place + 1}: same observations as book {earlier + 1}")
    return notes


def looks_like_setup(words: List[reader.Word], station: Optional[bytes]) -> bool:
    indexes = (reader.HEIGHT_DIFFERENCE,) + reader.STATION_INDEXES
    return (words[0].index == reader.POINT_NUMBER and reader.has_counting_word(words, reader.INSTRUMENT_HEIGHT)
            and not any(reader.has_counting_word(words, index) for index in indexes)
            and not any(word.index in MEASURED_INDEXES for word in words)
            and (station is None or reader.name_of(words[0].data) != station))


def lookalikes(books: List[bytes]) -> List[str]:
    notes = []
    for number, book in enumerate(books, start=1):
        station: Optional[bytes] = None
        for line, words in blocks_of(book):
            if looks_like_setup(words, station):
                notes.append(f"book {number} line {line}: looks like a setup, but has no word 84, 85 or 86")
            if reader.is_setup(words):
                station = reader.name_of(words[0].data)
    return limited(notes, "lines that look like setups")


def other_heights(books: List[bytes]) -> List[str]:
    notes = []
    for number, book in enumerate(books, start=1):
        height: Optional[int] = None
        for line, words in blocks_of(book):
            if reader.is_setup(words):
                height = None
            own = [reader.length_of(word) for word in reader.counting_words(words, reader.INSTRUMENT_HEIGHT)]
            if reader.is_sight(words) and own and height is not None and own[0] != height:
                notes.append(f"book {number} line {line}: another instrument height than its setup")
            height = own[0] if own else height
    return limited(notes, "sights with another instrument height")


def is_zero(word: reader.Word) -> bool:
    return reader.is_made_of(word.data, reader.DIGITS) and word.unit() in reader.UNITS and reader.length_of(word) == 0


def directions(books: List[bytes]) -> List[str]:
    notes = []
    for number, book in enumerate(books, start=1):
        for line, words in blocks_of(book):
            if all(any(is_zero(word) for word in dotted_words(words, index))
                   for index in (SLOPE_DISTANCE, reader.HEIGHT_DIFFERENCE)):
                notes.append(f"book {number} line {line}: words 31 and 33 are both zero")
    return limited(notes, "sights whose words 31 and 33 are both zero")


def unused_weights(network: Network, weights: Dict[Pair, int]) -> List[str]:
    observed = {(own.station, own.target) for own in network.observations}
    notes = []
    for record, (station, target) in enumerate(weights, start=FIRST_RECORD):
        if (station, target) in observed:
            continue
        one, other = station.decode("ascii"), target.decode("ascii")
        also = f", but {other} to {one} was" if (target, station) in observed else ""
        notes.append(f"weights record {record}: {one} to {other} was never observed{also}")
    return limited(notes, "weights records never observed")


def unseen_benchmarks(network: Network) -> List[str]:
    seen = {name for own in network.observations for name in (own.station, own.target)}
    notes = [f"benchmarks record {record}: {name.decode('ascii')} was never observed"
             for record, name in enumerate(network.benchmarks, start=FIRST_RECORD) if name not in seen]
    return limited(notes, "benchmarks records never observed")


def sighted_once(network: Network) -> List[str]:
    ends = [(name, own) for own in network.observations for name in (own.station, own.target)]
    often = Counter(name for name, _ in ends)
    notes = [f"{name.decode('ascii')} is sighted once (book {own.book} line {own.line})"
             for name, own in ends if often[name] == 1 and name not in network.benchmarks]
    return limited(notes, "points sighted once")


def parts_of(network: Network) -> List[Set[bytes]]:
    """The sets of points that observations join, in any number of steps."""
    parts: List[Set[bytes]] = []
    for own in network.observations:
        joined = {own.station, own.target}.union(*(part for part in parts if own.station in part or own.target in part))
        parts = [part for part in parts if own.station not in part and own.target not in part] + [joined]
    return parts


def hanging_parts(network: Network) -> List[str]:
    benchmarks = [name for name in network.points if name in network.benchmarks]
    notes = {}
    for part in parts_of(network):
        own = [name.decode("ascii") for name in benchmarks if name in part]
        if len(own) == 1:
            notes[own[0]] = f"a part of the network hangs on {own[0]} alone: nothing checks its height"
        elif len(own) == 2:
            notes[own[0]] = f"a part of the network hangs on {own[0]} and {own[1]}: nothing says which is wrong"
    return limited([notes[name.decode("ascii")] for name in benchmarks if name.decode("ascii") in notes], "parts with one or two benchmarks")


def formulas(network: Network) -> List[str]:
    return limited([f"{name.decode('ascii')} reads as a formula in a spreadsheet" for name in network.points if name[0] in FORMULA_BYTES],
                   "names that read as formulas")


def differ_once(one: bytes, other: bytes) -> bool:
    """Whether one character is changed, added or dropped, or two neighbours are exchanged."""
    places = range(len(one) + 1)
    dropped = {one[:k] + one[k + 1:] for k in places[:-1]}
    added = {one[:k] + bytes([byte]) + one[k:] for k in places for byte in other}
    changed = {one[:k] + bytes([byte]) + one[k + 1:] for k in places[:-1] for byte in other}
    exchanged = {one[:k] + one[k + 1:k + 2] + one[k:k + 1] + one[k + 2:] for k in places[:-2]}
    return one != other and other in dropped | added | changed | exchanged


def uses_of(network: Network) -> List[bytes]:
    """Each target, and a station once for the observations of a book that follow one another."""
    uses = []
    before: Optional[Tuple[int, bytes]] = None
    for own in network.observations:
        if before != (own.book, own.station):
            uses.append(own.station)
        uses.append(own.target)
        before = (own.book, own.station)
    return uses


def twins(network: Network, heights: Heights) -> List[str]:
    often = Counter(uses_of(network))
    stations = {own.station for own in network.observations}
    joined = {frozenset((own.station, own.target)) for own in network.observations}
    places = {}
    for own in network.observations:
        for name in (own.station, own.target):
            places.setdefault(name, f"book {own.book} line {own.line}")
    notes = []
    for k, later in enumerate(network.points):
        for earlier in network.points[:k]:
            apart = abs(heights[later] - heights[earlier])
            once = [name for name in (later, earlier) if often[name] == 1]
            if (apart < TWIN_LIMIT and once and {later, earlier} & stations and frozenset((later, earlier)) not in joined
                    and differ_once(later, earlier)):
                name, other = (later, earlier) if once[0] == later else (earlier, later)
                notes.append(f"{name.decode('ascii')} ({places[name]}) is within {metres(apart)} m of {other.decode('ascii')}")
    return limited(notes, "points that may be others")


def other_spellings(books: List[bytes]) -> List[str]:
    first: Dict[bytes, bytes] = {}
    noted = set()
    notes = []
    compared = 0
    for number, book in enumerate(books, start=1):
        for line, words in blocks_of(book):
            if compared == MOST_COMPARED or not (reader.is_sight(words) or reader.is_setup(words)):
                continue
            compared += 1
            name = reader.name_of(words[0].data)
            spelling = words[0].data.lstrip(b"0")
            if first.setdefault(name, spelling) != spelling and name not in noted:
                noted.add(name)
                notes.append(f"book {number} line {line}: {name.decode('ascii')} is spelled in another way than before")
    return limited(notes, "names spelled in another way than before")


def review_of(network: Network, low: Heights, high: Heights, limit: int, books: List[bytes], weights: Dict[Pair, int],
              inputs: List[Input]) -> Review:
    counts = [count_of(book) for book in books]
    entries = [entry for number, book in enumerate(books, start=1) for entry in entries_of(number, book)]
    notes = (without_sight(books) + repeated_books(network, len(books)) + lookalikes(books) + other_heights(books) + directions(books)
             + unused_weights(network, weights) + unseen_benchmarks(network) + hanging_parts(network) + sighted_once(network)
             + twins(network, low) + other_spellings(books) + formulas(network))
    benchmarks = benchmarks_of(network)
    review = Review(network, low, high, limit, strengths_of(network), controls_of(network), entries, counts, inputs, notes, [], [], benchmarks, [])
    places = [{place} for place in range(len(network.observations))]
    return review._replace(own_blames=blames_of_all(network, review.mistakes(), places),
                           shared_blames=blames_of_all(network, review.shared_mistakes(), [places_of(network, own) for own in entries]),
                           benchmark_blames=blames_of_all(network, [own.mistake for own in benchmarks], [own.places for own in benchmarks]))


# Tables


def optional(number: Optional[int], missing: str = "") -> str:
    return missing if number is None else str(number)


def points_text(review: Review) -> bytes:
    rows = [csv_row(b"point", b"height", b"low", b"high", b"strength")]
    for point in review.network.points:
        low, high = reader.metres(review.low[point]), reader.metres(review.high[point])
        rows.append(csv_row(point, low, low, high, optional(review.strengths[point]).encode("ascii")))
    return b"".join(rows)


def first_of(blames: Set[Blame]) -> Optional[Blame]:
    return min(blames, key=lambda own: (own.moves, own.blames, own.blamed or 0), default=None)


def blame_fields(blame: Optional[Blame]) -> List[bytes]:
    return [optional(None if blame is None else part).encode("ascii") for part in blame or (None, None, None)]


def blame_columns(blame: Optional[Blame]) -> str:
    return "".join(f"  {optional(part, '-'):>6}" for part in (blame or (None, None))[:2])


def observations_text(review: Review) -> bytes:
    rows = [b"number,book,line,from,to,difference,weight,residual,control,mistake,moves,blames,blamed\n"]
    parts = zip(review.network.observations, review.controls, review.mistakes(), map(first_of, review.own_blames))
    for number, (own, control, mistake, blame) in enumerate(parts, start=1):
        rows.append(csv_row(*(number_text(part) for part in (number, own.book, own.line)), own.station, own.target,
                            reader.metres(own.difference), number_text(own.weight), reader.metres(own.residual(review.low)),
                            optional(control).encode("ascii"), mistake.encode("ascii"), *blame_fields(blame)))
    return b"".join(rows)


def entries_text(review: Review) -> bytes:
    rows = [b"book,line,word,station,length,sights,weight,mistake,moves,blames,blamed\n"]
    for entry, mistake, blame in zip(review.entries, review.shared_mistakes(), map(first_of, review.shared_blames)):
        rows.append(csv_row(number_text(entry.book), number_text(entry.line), entry.word, entry.station, reader.metres(entry.length),
                            number_text(len(entry.sights)), number_text(review.weight_of(entry)), mistake.encode("ascii"),
                            *blame_fields(blame)))
    return b"".join(rows)


def benchmarks_text(review: Review) -> bytes:
    rows = [b"point,height,sights,weight,strength,mistake,moves,blames,blamed\n"]
    for own, blame in zip(review.benchmarks, map(first_of, review.benchmark_blames)):
        rows.append(csv_row(own.name, reader.metres(own.height), number_text(len(own.places)), number_text(own.weight),
                            optional(own.strength).encode("ascii"), (own.mistake or "").encode("ascii"), *blame_fields(blame)))
    return b"".join(rows)


# The review


def summary(review: Review) -> List[str]:
    network = review.network
    free = [strength for strength in review.strengths.values() if strength is not None]
    mistakes = review.mistakes()
    weak = sum(mistake != "shows" for mistake in review.shared_mistakes())
    weak_benchmarks = sum(own.mistake not in (None, "shows") for own in review.benchmarks)
    values = (("points", str(len(network.points))), ("benchmarks", str(len(network.benchmarks))),
              ("observations", str(len(network.observations))), ("loops", str(len(network.observations) - len(free))),
              ("unchecked", str(mistakes.count("unchecked"))), ("hidden", str(mistakes.count("hides"))),
              ("ties", str(mistakes.count("ties"))), ("entries", str(len(review.entries))), ("weak entries", str(weak)),
              ("weak benchmark", str(weak_benchmarks)),
              ("weakest point", optional(min(free, default=None), "-")))
    return ["HEIGHT NETWORK REVIEW"] + [label_line(label, value) for label, value in values]


def book_lines(review: Review) -> List[str]:
    rows = [(str(number),) + tuple(str(part) for part in count) for number, count in enumerate(review.books, start=1)]
    return [f"{row[0]:>2}" + "".join(f"  {part:>8}" for part in row[1:]) for row in [("BK", "LINES", "BLOCKS", "SETUPS", "SIGHTS")] + rows]


OBSERVATION_HEADER = residual_line("NO", "BK", "LINE", "FROM", "TO", "WT", "RESIDUAL") + f"  {'CONTROL':>8}"
MOVED_HEADER = f"  {'MOVES':>6}  {'BLAMES':>6}"


def observation_line(review: Review, number: int) -> str:
    own: Observation = review.network.observations[number - 1]
    line = residual_line(str(number), str(own.book), str(own.line), own.station.decode("ascii"), own.target.decode("ascii"),
                         str(own.weight), metres(own.residual(review.low)))
    return line + f"  {optional(review.controls[number - 1], '-'):>8}"


def largest_lines(review: Review) -> List[str]:
    sizes = [abs(own.residual(review.low)) for own in review.network.observations]
    numbers = sorted(range(1, len(sizes) + 1), key=lambda number: (-sizes[number - 1], number))[:MOST_LARGEST]
    lines = [observation_line(review, number) + ("  *" if sizes[number - 1] > review.limit else "") for number in numbers]
    return [label_line("largest", str(len(numbers))), label_line("blunder limit", metres(review.limit)), OBSERVATION_HEADER] + lines


def held_by_one(network: Network) -> set:
    """The points that the removal of some one observation cuts off from every benchmark."""
    cut_off = set()
    for place in range(len(network.observations)):
        others = network.observations[:place] + network.observations[place + 1 :]
        cut_off |= set(network.points) - anchored_points(others, network.benchmarks)
    return cut_off


def point_line(name: str, height: str, play: str, strength: str, withstands: str) -> str:
    return f"{name:<16}  {height:>20}  {play:>20}  {strength:>8}  {withstands:>10}"


def point_lines(review: Review) -> List[str]:
    lines = [point_line("POINT", "HEIGHT", "HIGH-LOW", "STRENGTH", "WITHSTANDS")]
    single = held_by_one(review.network)
    largest = max((own.weight for own in review.network.observations), default=1)
    for point in review.network.points:
        strength = review.strengths[point]
        play = review.high[point] - review.low[point]
        mark = ("1" if point in single else "") + ("=" if play else "")
        withstands = None if strength is None else (strength - 1) // 2 // largest
        line = point_line(point.decode("ascii"), metres(review.low[point]), metres(play), optional(strength, "-"), optional(withstands, "-"))
        lines.append(line + (f"  {mark}" if mark else ""))
    return lines


def observation_lines(review: Review) -> List[str]:
    parts = enumerate(zip(review.mistakes(), map(first_of, review.own_blames)), start=1)
    return [OBSERVATION_HEADER + MOVED_HEADER] + [observation_line(review, number) + blame_columns(blame) + OBSERVATION_MARKS[mistake]
                                                  for number, (mistake, blame) in parts]


def entry_line(book: str, line: str, word: str, station: str, length: str, sights: str, weight: str) -> str:
    return f"{book:>2}  {line:>8}  {word:>4}  {station:<16}  {length:>20}  {sights:>6}  {weight:>8}"


def entry_lines(review: Review) -> List[str]:
    lines = [entry_line("BK", "LINE", "WORD", "STATION", "LENGTH", "SIGHTS", "WEIGHT") + MOVED_HEADER]
    for entry, mistake, blame in zip(review.entries, review.shared_mistakes(), map(first_of, review.shared_blames)):
        line = entry_line(str(entry.book), str(entry.line), entry.word.decode("ascii"), entry.station.decode("ascii"), metres(entry.length),
                          str(len(entry.sights)), str(review.weight_of(entry)))
        lines.append(line + blame_columns(blame) + SHARED_MARKS[mistake])
    return lines


def benchmark_line(name: str, height: str, sights: str, weight: str, strength: str) -> str:
    return f"{name:<16}  {height:>20}  {sights:>6}  {weight:>8}  {strength:>8}"


def benchmark_lines(review: Review) -> List[str]:
    lines = [benchmark_line("POINT", "HEIGHT", "SIGHTS", "WEIGHT", "STRENGTH") + MOVED_HEADER]
    for own, blame in zip(review.benchmarks, map(first_of, review.benchmark_blames)):
        line = benchmark_line(own.name.decode("ascii"), metres(own.height), str(len(own.places)), str(own.weight), optional(own.strength, "-"))
        lines.append(line + blame_columns(blame) + SHARED_MARKS[own.mistake])
    return lines


def review_text(review: Review) -> bytes:
    parts = (summary(review), book_lines(review), [input_line(own) for own in review.inputs], largest_lines(review), point_lines(review), observation_lines(review), entry_lines(review),
             benchmark_lines(review),
             [label_line("notes", str(len(review.notes)))] + review.notes)
    return "\n\n".join("\n".join(part) for part in parts).encode("ascii") + b"\n"


def files_of(review: Review) -> Dict[str, bytes]:
    return {
        ".points.csv": points_text(review),
        ".observations.csv": observations_text(review),
        ".entries.csv": entries_text(review),
        ".benchmarks.csv": benchmarks_text(review),
        ".review.txt": review_text(review),
    }


# What another office chose


def said_in(text: bytes) -> Iterator[Optional[Blame]]:
    """The last three fields of each row of a table, none where they are empty."""
    for row in text.decode("ascii").splitlines()[1:]:
        moves, blames, blamed = row.split(",")[-3:]
        yield Blame(int(moves), int(blames), int(blamed) if blamed else None) if moves else None


def chosen(allowed: List[Set[Blame]], text: bytes) -> List[Set[Blame]]:
    """Of what the definition allows, what a table says where it is allowed."""
    rows = list(said_in(text))
    if len(rows) != len(allowed):
        return allowed
    return [{own} if own is not None and (own in blames or blames == {ANY_BLAME}) else blames for own, blames in zip(rows, allowed)]


def as_chosen(review: Review, files: Dict[str, bytes]) -> Dict[str, bytes]:
    """The five texts with the sets that the texts of another office have chosen among those of the least value."""
    return files_of(review._replace(own_blames=chosen(review.own_blames, files.get(".observations.csv", b"")),
                                    shared_blames=chosen(review.shared_blames, files.get(".entries.csv", b"")),
                                    benchmark_blames=chosen(review.benchmark_blames, files.get(".benchmarks.csv", b""))))
