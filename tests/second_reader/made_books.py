"""Books made up at random: mostly sensible, with faults planted among the good lines.

Every function takes its random numbers from the `rng` that it is given, so that a seed makes the same books again.
"""

from random import Random
from typing import Callable, Dict, Iterator, List, NamedTuple, Tuple

LARGEST_BOOK = 67_108_864
LONGEST_LINE = 1_600
LINE_ENDS = (b"\r\n", b"\n", b"\r")
GSI_8_DATA = 8
GSI_16_DATA = 16

STATION_INDEXES = (b"84", b"85", b"86")
LENGTH_INDEXES = (b"33", b"87", b"88")
# Words that surveyors' books are full of, and that have no meaning here.
OTHER_INDEXES = (b"21", b"22", b"31", b"32", b"41", b"42", b"51", b"58", b"59", b"71", b"81", b"82", b"83")

UNIT_CODES = b"01678"
NO_UNIT_CODES = b"23459."
# The largest numbers that are still 10 km, by the code of the unit.
LARGEST_NUMBERS = {b"0": 10_000_000, b"1": 32_808_398, b"6": 100_000_000, b"7": 328_083_989, b"8": 1_000_000_000}

SHORT_NAMES = (b"A", b"B", b"KO1", b"KO2", b"BM12", b"1", b"2", b"101", b"P 1", b"0", b"A0", b"A,B", b'1"', b'"', b",", b"7A-3/x", b"~!", b"#1")
LONG_NAMES = (b"KM 112.340 L", b"KM 112,340 R", b"SIXTEEN-BYTES-AB", b'"quoted", twice"', b"BRIDGE 7 EAST")

# How often a line of a book is spoiled: most books are clean, and some are full of faults.
FAULT_RATES = (0.0, 0.0, 0.0, 0.02, 0.06, 0.2)

Words = List[bytes]


class Names(NamedTuple):
    """The names of a book: mostly, its stations are no targets, so that few sights go to their own station."""

    stations: List[bytes]
    targets: List[bytes]


# Words


def data_of(text: bytes, data_width: int, filling: bytes = b"0") -> bytes:
    """A text as data: filled up at the left, cut at the left where it is too long."""
    return text.rjust(data_width, filling)[-data_width:]


def random_digits(rng: Random, most: int) -> bytes:
    return str(rng.randrange(10 ** rng.randint(1, most))).encode("ascii")


def other_word(rng: Random, data_width: int) -> bytes:
    """A word without a meaning: another index, or one of ours with a digit at position 3."""
    sign = rng.choice((b"+", b"-"))
    if rng.random() < 0.1:
        index = rng.choice(STATION_INDEXES + LENGTH_INDEXES)
        information = b"%d.%d%d" % (rng.randrange(10), rng.randrange(10), rng.randrange(10))
        return index + information + sign + data_of(rng.choice((b"12345", b"?....", b"0")), data_width)
    information = rng.choice((b"..00", b".322", b".324", b"....", b"0102", b"..16", b"0...", b"..10"))
    data = rng.choice((random_digits(rng, 8), b"0000+034", b"a text", b" "))
    return rng.choice(OTHER_INDEXES) + information + sign + data_of(data, data_width)


def point_word(rng: Random, name: bytes, data_width: int) -> bytes:
    """A word 11, with the name spelled in one of the ways that are one name."""
    data = name
    if rng.random() < 0.2:
        data += b" " * rng.randint(1, 3)
    filling = b"0" if rng.random() < 0.8 else b" "
    # Spaces at the right go first where the data are too narrow, so that the name stays.
    if len(data) > data_width:
        data = name[-data_width:]
    information = rng.choice((b"0001", b"%04d" % rng.randrange(10_000), b"....", b"..10"))
    sign = b"+" if rng.random() < 0.95 else b"-"
    return b"11" + information + sign + data_of(data, data_width, filling)


def length_number(rng: Random, unit: bytes, data_width: int) -> bytes:
    """A number of a length, at times at the limit or just below it."""
    chance = rng.random()
    if chance < 0.02 and len(str(LARGEST_NUMBERS[unit])) <= data_width:
        return str(LARGEST_NUMBERS[unit] - rng.randrange(2)).encode("ascii")
    if chance < 0.1:
        return b"0"
    return random_digits(rng, 5)


def length_word(rng: Random, index: bytes, data_width: int) -> bytes:
    code = rng.choice(UNIT_CODES) if rng.random() < 0.5 else UNIT_CODES[0]
    unit = bytes([code])
    information = b"." + rng.choice((b".0", b".1", b"..", b"04", b"32")) + unit
    sign = b"-" if rng.random() < 0.3 else b"+"
    return index + information + sign + data_of(length_number(rng, unit, data_width), data_width)


def station_word(rng: Random, index: bytes, data_width: int) -> bytes:
    """A word 84, 85 or 86. Its data are not read, so they may be anything."""
    data = random_digits(rng, 8) if rng.random() < 0.9 else b" x.y"
    return index + rng.choice((b"..10", b"..16", b"....", b".120")) + rng.choice((b"+", b"-")) + data_of(data, data_width)


# Lines


def setup_words(rng: Random, names: Names, data_width: int) -> Words:
    indexes = [index for index in STATION_INDEXES if rng.random() < 0.8] or [b"86"]
    words = [station_word(rng, index, data_width) for index in indexes]
    words += [length_word(rng, index, data_width) for index in (b"88", b"87") if rng.random() < 0.85]
    return finished_words(rng, point_word(rng, rng.choice(names.stations), data_width), words, data_width)


def sight_words(rng: Random, names: Names, data_width: int) -> Words:
    words = [length_word(rng, b"33", data_width)]
    if rng.random() < 0.5:
        words.append(length_word(rng, b"87", data_width))
    if rng.random() < 0.15:
        words.append(length_word(rng, b"88", data_width))
    # A sight with a word of the station stays a sight.
    if rng.random() < 0.05:
        words.append(station_word(rng, rng.choice(STATION_INDEXES), data_width))
    target = rng.choice(names.targets if rng.random() < 0.97 else names.stations)
    return finished_words(rng, point_word(rng, target, data_width), words, data_width)


def heights_words(rng: Random, _names: Names, data_width: int) -> Words:
    """A block that is neither setup nor sight, and carries heights."""
    words = [length_word(rng, index, data_width) for index in rng.choice(((b"87",), (b"88",), (b"88", b"87")))]
    first = rng.choice((b"41....+", b"110007+")) + data_of(random_digits(rng, 4), data_width)
    return finished_words(rng, first, words, data_width)


def other_words(rng: Random, _names: Names, data_width: int) -> Words:
    words = [other_word(rng, data_width) for _ in range(rng.randint(0, 3))]
    return finished_words(rng, other_word(rng, data_width), words, data_width)


def finished_words(rng: Random, first: bytes, words: Words, data_width: int) -> Words:
    """A block's words with some others between them, often in another order."""
    words = words + [other_word(rng, data_width) for _ in range(rng.choice((0, 0, 1, 2, 4)))]
    if rng.random() < 0.4:
        rng.shuffle(words)
    return [first] + words


LINE_MAKERS = (setup_words, sight_words, heights_words, other_words)
LINE_WEIGHTS = (12, 62, 10, 10)


def line_of(words: Words, data_width: int) -> bytes:
    return (b"*" if data_width == GSI_16_DATA else b"") + b" ".join(words)


# Faults, one function for each way to spoil a line. Each gives a line's words another form.


def repeat_word(rng: Random, words: Words, data_width: int) -> Words:
    counting = [word for word in words if word[0:2] in STATION_INDEXES + LENGTH_INDEXES]
    index = rng.choice(counting)[0:2] if counting else rng.choice(LENGTH_INDEXES)
    return words + [length_word(rng, index, data_width)]


def spoil_point_number(rng: Random, words: Words, data_width: int) -> Words:
    return rng.choice((words[1:] + words[:1], [other_word(rng, data_width)] + words))


def spoil_name(_rng: Random, words: Words, data_width: int) -> Words:
    return [words[0][:7] + b" " * data_width] + words[1:]


def change_length(rng: Random, words: Words, change: Callable[[bytes], bytes]) -> Words:
    places = [place for place, word in enumerate(words) if word[0:2] in LENGTH_INDEXES]
    if not places:
        return words
    place = rng.choice(places)
    return words[:place] + [change(words[place])] + words[place + 1 :]


def spoil_number(rng: Random, words: Words, data_width: int) -> Words:
    place = 7 + rng.randrange(data_width)
    spoiled = rng.choice((b" ", b".", b"-", b"O", b"?", b"/", b":"))
    return change_length(rng, words, lambda word: word[:place] + spoiled + word[place + 1 :])


def spoil_unit(rng: Random, words: Words, _data_width: int) -> Words:
    code = bytes([rng.choice(NO_UNIT_CODES)])
    return change_length(rng, words, lambda word: word[:5] + code + word[6:])


def spoil_size(rng: Random, words: Words, data_width: int) -> Words:
    # Only the units whose limit can be passed in so few digits.
    units = [unit for unit, largest in LARGEST_NUMBERS.items() if len(str(largest + 1)) <= data_width]
    unit = rng.choice(units)
    number = rng.choice((LARGEST_NUMBERS[unit] + 1, LARGEST_NUMBERS[unit] + 17, 10 ** data_width - 1, 2 ** 53 - 1))
    data = data_of(str(number).encode("ascii"), data_width)
    return change_length(rng, words, lambda word: word[:5] + unit + word[6:7] + data)


def double_fault(rng: Random, words: Words, data_width: int) -> Words:
    """Two faults of one line: only the first kind counts."""
    pair = (spoil_unit, spoil_number) if rng.random() < 0.3 else rng.sample(SINGLE_SPOILERS, 2)
    for spoil in pair:
        words = spoil(rng, words, data_width)
    return words


def spoil_spelling(rng: Random, words: Words, _data_width: int) -> Words:
    place = rng.randrange(len(words))
    word = words[place]
    spoiled = rng.choice((word[:-1], word + b"0", b" " + word, word[:1] + b"x" + word[2:], word[:4] + b"+" + word[5:],
                          word[:6] + b"." + word[7:], word[:9] + b"\xe4" + word[10:], word[:9] + b"\x7f" + word[10:], b""))
    return words[:place] + [spoiled] + words[place + 1 :]


def spoil_all_words(rng: Random, _words: Words, data_width: int) -> Words:
    """Nothing but spaces: behind a star that is no blank line."""
    return [b" " * rng.choice((0, 1, data_width + 6, data_width + 7, 60))]


SINGLE_SPOILERS = (repeat_word, spoil_point_number, spoil_name, spoil_number, spoil_unit, spoil_size, spoil_spelling)
SPOILERS = SINGLE_SPOILERS + (double_fault, double_fault, spoil_all_words)


# Books


def random_line(rng: Random, names: Names, data_width: int, fault_rate: float) -> bytes:
    if rng.random() < 0.06:
        return b" " * rng.choice((0, 0, 1, 15, 24))
    make = rng.choices(LINE_MAKERS, LINE_WEIGHTS)[0]
    words = make(rng, names, data_width)
    if rng.random() < fault_rate:
        words = rng.choice(SPOILERS)(rng, words, data_width)
    spaces = b" " * rng.choice((0, 0, 1, 1, 3))
    return line_of(words, data_width) + spaces


def first_lines(rng: Random, names: Names, data_width: int) -> List[bytes]:
    """A sensible start: a setup and its heights. Some books go without."""
    if rng.random() < 0.06:
        return []
    words = setup_words(rng, names, data_width)
    if rng.random() < 0.9:
        carried = {word[0:2] for word in words if word[2:3] == b"."}
        words += [length_word(rng, index, data_width) for index in (b"88", b"87") if index not in carried]
    return [line_of(words, data_width)]


def random_names(rng: Random, width_choices: List[int]) -> Names:
    pool = SHORT_NAMES + LONG_NAMES if GSI_16_DATA in width_choices else SHORT_NAMES
    names = rng.sample(pool, rng.choice((2, 4, 8, 12)))
    stations = len(names) // 2
    return Names(names[:stations], names[stations:])


def mostly_sensible_book(rng: Random) -> bytes:
    width_choices = rng.choice(([GSI_8_DATA], [GSI_16_DATA], [GSI_8_DATA, GSI_16_DATA]))
    ends = rng.choice(([b"\r\n"], [b"\n"], [b"\r"], list(LINE_ENDS)))
    names = random_names(rng, width_choices)
    fault_rate = rng.choice(FAULT_RATES)
    lines = first_lines(rng, names, rng.choice(width_choices))
    for _ in range(rng.choice((1, 3, 6, 10, 10, 20))):
        lines.append(random_line(rng, names, rng.choice(width_choices), fault_rate))
    book = b"".join(line + rng.choice(ends) for line in lines)
    return book if rng.random() < 0.8 else book.rstrip(b"\r\n")


# Books at the limits. They are the same in every run.


def block_of_words(count: int, data_width: int) -> bytes:
    return line_of([b"41....+" + b"0" * data_width] * count, data_width)


def largest_book() -> bytes:
    """A book of as many bytes as a book may have, all of them on blank lines."""
    longest_blank_line = b" " * LONGEST_LINE + b"\n"
    return (longest_blank_line * (LARGEST_BOOK // len(longest_blank_line))).ljust(LARGEST_BOOK)


def books_of_long_lines() -> Iterator[Tuple[str, Callable[[], bytes]]]:
    for data_width in (GSI_8_DATA, GSI_16_DATA):
        for count in (63, 64, 65):
            title = f"{count} words of {data_width} bytes of data"
            block = block_of_words(count, data_width)
            yield title, lambda block=block: block
            yield title + " and a letter", lambda block=block: block + b"x"
            yield title + ", a space and a letter", lambda block=block: block + b" x"
            for length in (LONGEST_LINE - 1, LONGEST_LINE, LONGEST_LINE + 1):
                yield f"{title} in {length} bytes", lambda block=block, length=length: block.ljust(length)


# Each by a title that says which limit, with the way to make it: the largest are too many bytes to be made before their turn.
BOOKS_AT_THE_LIMITS: Dict[str, Callable[[], bytes]] = {
    "empty": lambda: b"",
    "longest blank line": lambda: b" " * LONGEST_LINE,
    "blank line too long": lambda: b"\n" + b" " * (LONGEST_LINE + 1),
    "star alone": lambda: b"*",
    "star and spaces": lambda: b"\r\n*" + b" " * 40,
    "star and spaces of the longest line": lambda: b"*" + b" " * (LONGEST_LINE - 1),
    "star and spaces of a line too long": lambda: b"*" + b" " * LONGEST_LINE,
    **dict(books_of_long_lines()),
    "largest book": largest_book,
    "one byte more than the largest book": lambda: largest_book() + b" ",
    "a fault in a book too long": lambda: b"x" + largest_book(),
    "one line of the largest book": lambda: b" " * LARGEST_BOOK,
}
