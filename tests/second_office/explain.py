"""The two texts of `explain`: the section of docs/FORMATS.md on it."""

from typing import Dict, List, NamedTuple, Optional, Tuple

from certificates import csv_row, number_text
from freed import Freed, Number, Survey, differences_read, marks_of, rows_of
from named import Named, heights_named, last_line, last_lines
from network import Heights, Network, cost_of
from readings import MOST_FIRST, Reading, readings_of
from tables import reader
from texts import label_line, metres

MOST_ROWS = 20
MOST_NAMED = 3
HIGHEST_STAND = 500_000_000  # of an instrument, or the longest pole: 5 m, in units of 10 nm
SIGHT_HEIGHTS = {reader.REFLECTOR_HEIGHT: "the pole", reader.INSTRUMENT_HEIGHT: "the instrument height"}
LABELS = ("sights", "entries", "changes", "benchmarks", "books")


class Explanation(NamedTuple):
    """What is printed: the rows with their numbers, what stands above them, the last lines of their entries, what may have been meant, and which readings fit."""

    cost: int
    limit: int
    marked: int
    counts: Dict[str, int]
    rows: List[Tuple[int, Freed]]
    lasts: List[Optional[int]]
    named: List[Named]
    readings: List[Reading]


def numbered(rows: List[Freed]) -> List[Tuple[int, Freed]]:
    """The rows with their numbers from 1; those that explain equally have one."""
    values = sorted({row.explains for row in rows}, reverse=True)
    return [(values.index(row.explains) + 1, row) for row in rows]


def explanation_of(network: Network, low: Heights, limit: int, books: List[bytes]) -> Explanation:
    survey = Survey(network, cost_of(network, low), limit, differences_read(network, books))
    found, counts = rows_of(survey, books)
    rows, lasts = numbered(found[:MOST_ROWS]), last_lines(network, books)
    return Explanation(survey.cost, limit, marks_of(network, low, limit), counts, rows, [last_line(row, lasts) for _, row in rows],
                       heights_named(network, books, rows, limit), readings_of(survey, books, rows))


# The table


def optional(number: Optional[int], text) -> str:
    return "" if number is None else text(number)


def meant_field(explanation: Explanation, place: int, word: bytes) -> bytes:
    """The heights of a kind that are named for a row."""
    return b" ".join(reader.metres(own.meant) for own in explanation.named if (own.row, own.word) == (place, word))


def place_fields(row: Freed) -> List[bytes]:
    """Which number a row is, and its values."""
    own = row.number
    return [own.kind.encode("ascii"), optional(own.book, str).encode("ascii"), optional(own.line, str).encode("ascii"), own.word(),
            own.station, own.target, number_text(len(own.places)),
            *(optional(length, metres).encode("ascii") for length in (own.given, row.low, row.high))]


def csv_line(explanation: Explanation, place: int) -> bytes:
    number, row = explanation.rows[place]
    return csv_row(number_text(number), *place_fields(row), reader.metres(row.explains), reader.metres(row.left), number_text(row.blunders),
                   optional(explanation.lasts[place], str).encode("ascii"), meant_field(explanation, place, reader.REFLECTOR_HEIGHT),
                   meant_field(explanation, place, reader.INSTRUMENT_HEIGHT), b"", b"", b"")


def reading_line(explanation: Explanation, own: Reading) -> bytes:
    """The record of a reading: the fields of its row, but its number, its costs and the heights that are named."""
    row = explanation.rows[own.row][1]
    return csv_row(b"", *place_fields(row), b"", b"", b"", optional(explanation.lasts[own.row], str).encode("ascii"), b"", b"",
                   own.kind.encode("ascii"), own.name, reader.metres(own.fit))


def csv_text(explanation: Explanation) -> bytes:
    header = b"number,kind,book,line,word,from,to,sights,given,low,high,explains,left,blunders,last,poles,instruments,reading,name,fit\n"
    rows = [csv_line(explanation, place) for place in range(len(explanation.rows))]
    return header + b"".join(rows + [reading_line(explanation, own) for own in explanation.readings])


# The text


def columns(number: str, book: str, line: str, word: str, station: str, target: str, proposed: str, left: str, blunders: str) -> str:
    return (f"{number:>4}  {book:>2}  {line:>6}  {word:>4}  {station:<16}  {target:<16}  {proposed:>13}  {left:>12} {blunders:>8}")


def mildest(row: Freed) -> Optional[int]:
    """The proposed value nearest to the given one, which is not among them."""
    return row.low if row.low is None or row.low > row.number.given else row.high


def text_line(number: int, row: Freed) -> str:
    own = row.number
    line = columns(str(number), optional(own.book, str), optional(own.line, str), own.word().decode("ascii"), own.station.decode("ascii"),
                   own.target.decode("ascii"), optional(mildest(row), metres), metres(row.left), str(row.blunders))
    return line + ("  since" if own.kind.endswith("since") else "")


def lines_said(own: Number, last: Optional[int], books: int) -> str:
    """The line of a number in a sentence, or its lines if later ones repeat it."""
    lines = f"line {own.line}" if last in (None, own.line) else f"lines {own.line} to {last}"
    return lines + (f" of book {own.book}" if books > 1 else "")


def said(own: Number, last: Optional[int], books: int) -> str:
    """A number in a sentence."""
    if own.kind == "benchmark":
        return f"the height of {own.station.decode('ascii')}"
    if own.kind == "book":
        return f"word 33 of book {own.book}"
    where = lines_said(own, last, books)
    if own.kind == "sight":
        return f"the sight of {where}"
    return f"word {own.word().decode('ascii')} {'since' if own.kind.endswith('since') else 'of'} {where}"


def capital(text: str) -> str:
    return text[:1].upper() + text[1:]


def count_said(ranked: int, count: int) -> str:
    """How many numbers explain equally; there may be more of them where all rows have number 1."""
    return f"At least {count}" if ranked == MOST_ROWS else str(count)


def joined(explanation: Explanation, places: List[int]) -> str:
    """What sentences call some rows."""
    books = explanation.counts["books"]
    return " or ".join(said(explanation.rows[place][1].number, explanation.lasts[place], books) for place in places)


def explaining_sentence(explanation: Explanation, first: List[int], explaining: List[int]) -> str:
    """Which numbers explain all."""
    if len(explaining) > MOST_NAMED:
        return (f"{count_said(len(first), len(explaining))} numbers explain this equally well: any one of them may be wrong. "
                "The books do not say which. Measure one of them again.")
    return f"One wrong number explains this: {joined(explanation, explaining)}."


def most_sentence(explanation: Explanation, first: List[int]) -> str:
    """Which numbers explain most, where none explains all."""
    left = min(explanation.rows[place][1].blunders for place in first)
    marked = "1 sight stays marked" if left == 1 else f"{left} sights stay marked"
    if len(first) > MOST_NAMED:
        return (f"No one number explains all of this. {count_said(len(first), len(first))} numbers explain most, equally well: {marked}. "
                "The books do not say which. Measure one of them again.")
    return f"No one number explains all of this. {capital(joined(explanation, first))} explains most: {marked}."


def impossible_sentences(row: Freed) -> List[str]:
    """That no proposed value can be, of a height that was keyed in."""
    word = row.number.word()
    if word not in (b"88", b"87") or 0 <= row.high and row.low <= HIGHEST_STAND:
        return []
    if word == b"88":
        return [f"No instrument stands at {metres(mildest(row))} m: look at the name of the station."]
    return [f"No pole is {metres(mildest(row))} m long."]


def given_sentences(explanation: Explanation, place: int) -> List[str]:
    """What was given and what fits."""
    row = explanation.rows[place][1]
    if row.low is None:
        return []
    fits = metres(row.low) if row.low == row.high else f"from {metres(row.low)} to {metres(row.high)}"
    return [f"{capital(joined(explanation, [place]))}: given {metres(row.number.given)}, fits {fits}."] + impossible_sentences(row)


def meant_sentences(explanation: Explanation) -> List[str]:
    """What may have been meant."""
    lines = []
    for named in explanation.named if len(explanation.named) <= MOST_NAMED else ():
        own, height = explanation.rows[named.row][1].number, joined(explanation, [named.row])
        if own.kind == "sight":
            height = f"{SIGHT_HEIGHTS[named.word]} of {lines_said(own, None, explanation.counts['books'])}"
        lines.append(f"{capital(height)}: typed {metres(named.typed)}, meant {metres(named.meant)}?")
    return lines


def reading_said(explanation: Explanation, reading: Reading) -> str:
    """What fits."""
    own, name = explanation.rows[reading.row][1].number, reading.name.decode("ascii")
    if reading.kind == "point":
        return f"The height of {own.station.decode('ascii')} fits {name}"
    where = lines_said(own, explanation.lasts[reading.row], explanation.counts["books"])
    if reading.kind == "sign":
        return f"{capital(where)} fits with the other sign of word 33"
    if reading.kind == "target":
        return f"{capital(where)} fits {name} in place of {own.target.decode('ascii')}"
    return f"The setup of {where} fits {name} in place of {own.station.decode('ascii')}"


def reading_sentences(explanation: Explanation, first: List[int]) -> List[str]:
    """What fits of the rows with number 1; of an instrument height without any, that the setup may have stood elsewhere."""
    lines = []
    for place in first if len(first) <= MOST_FIRST else ():
        own = explanation.rows[place][1].number
        readings = [reading for reading in explanation.readings if reading.row == place]
        lines += [f"{reading_said(explanation, reading)}, within {metres(reading.fit)} m." for reading in readings]
        if not readings and own.kind == "instrument":
            lines.append(f"Or the setup stood on another point than {own.station.decode('ascii')}.")
    return lines


def sentences(explanation: Explanation) -> List[str]:
    first = [place for place, (number, _) in enumerate(explanation.rows) if number == 1]
    if not first and explanation.marked:
        return ["No single number explains what is marked."]
    if not first:
        return [f"Nothing to explain: no number has to be wrong by more than {metres(explanation.limit)} m."]
    explaining = [place for place in first if explanation.rows[place][1].blunders == 0]
    named = explaining or first
    lines = [explaining_sentence(explanation, first, explaining) if explaining else most_sentence(explanation, first)]
    if len(named) <= MOST_NAMED:
        lines += ["The books do not say which of them."] if len(named) > 1 else []
        lines += [line for place in named for line in given_sentences(explanation, place)]
    lines += reading_sentences(explanation, first)
    lines += meant_sentences(explanation)
    lines += [f"The next best leaves {metres(row.left)}." for _, row in explanation.rows[len(first) : len(first) + 1]]
    return lines if explaining else lines + ["Mend it and run again."]


def changes(explanation: Explanation) -> List[str]:
    """The changes that mend the book, where just one height is named."""
    if len(explanation.named) != 1:
        return []
    named = explanation.named[0]
    own = explanation.rows[named.row][1].number
    of_book = f" of book {own.book}" if explanation.counts["books"] > 1 else ""
    since = " since" if own.kind.endswith("since") else ""
    if own.kind == "sight" and not named.whole:
        purpose, change = "To leave the sight out", "33,"
    else:
        purpose, change = f"If {metres(named.meant)} was meant", f"{named.word.decode('ascii')}{since},{metres(named.meant)}"
    return ["", f"{purpose}, height_office mend takes these changes{of_book}:", "line,word,value", f"{own.line},{change}"]


def people_text(explanation: Explanation) -> bytes:
    values = [("cost", metres(explanation.cost)), ("blunder limit", metres(explanation.limit)), ("marked", str(explanation.marked))]
    values += [(label, str(explanation.counts[label])) for label in LABELS] + [("explanations", str(len(explanation.rows)))]
    header = columns("NO", "BK", "LINE", "WORD", "FROM", "TO", "PROPOSED", "COST LEFT", "BLUNDERS")
    lines = [label_line(label, value) for label, value in values] + [header] + [text_line(*row) for row in explanation.rows]
    return "\n".join(lines + [""] + sentences(explanation) + changes(explanation)).encode("ascii") + b"\n"
