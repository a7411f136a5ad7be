"""Mutations of books: what typing, cutting, joining and broken transfer do to them.

Every function takes a book and gives another. Random numbers come from the `rng` that it is given.
"""

import re
from random import Random
from typing import Callable, List, NamedTuple, Tuple

from made_books import GSI_16_DATA, GSI_8_DATA, LARGEST_NUMBERS, LINE_ENDS, LONG_NAMES, SHORT_NAMES, data_of

# Bytes that mean something somewhere, and the neighbours of those at the ends of ranges.
TELLING_BYTES = b"0123456789.+-* \r\nAz,\"/:!~\x00\t\x0b\x0c\x1f\x7f\x80\x85\xa0\xff"


class Line(NamedTuple):
    """A line with its end, which is empty for a last line without one."""

    text: bytes
    end: bytes


class Block(NamedTuple):
    """A line cut into words of the width that its first byte announces, whether or not they are spelled rightly."""

    star: bytes
    words: List[bytes]

    def data_width(self) -> int:
        return GSI_16_DATA if self.star else GSI_8_DATA

    def text(self) -> bytes:
        return self.star + b" ".join(self.words)


def lines_of(book: bytes) -> List[Line]:
    pieces = re.split(rb"(\r\n|\r|\n)", book)
    lines = [Line(text, end) for text, end in zip(pieces[0::2], pieces[1::2])]
    return lines + [Line(pieces[-1], b"")] if pieces[-1] else lines


def book_of(lines: List[Line]) -> bytes:
    return b"".join(line.text + line.end for line in lines)


def block_of(text: bytes) -> Block:
    star = text[:1] if text[:1] == b"*" else b""
    rest = text[len(star) :]
    step = 7 + (GSI_16_DATA if star else GSI_8_DATA) + 1
    return Block(star, [rest[start : start + step - 1] for start in range(0, len(rest), step)])


# Bytes


def random_byte(rng: Random) -> bytes:
    return bytes([rng.choice(TELLING_BYTES) if rng.random() < 0.8 else rng.randrange(256)])


def change_bytes(rng: Random, book: bytes) -> bytes:
    for _ in range(rng.choice((1, 1, 1, 3))):
        place = rng.randrange(len(book) + 1)
        book = book[:place] + random_byte(rng) + book[place + 1 :]
    return book


def insert_bytes(rng: Random, book: bytes) -> bytes:
    place = rng.randrange(len(book) + 1)
    return book[:place] + random_byte(rng) * rng.choice((1, 1, 2)) + book[place:]


def cut_bytes(rng: Random, book: bytes) -> bytes:
    place = rng.randrange(len(book) + 1)
    return book[:place] + book[place + rng.choice((1, 1, 2, 16, 24)) :]


def cut_off(rng: Random, book: bytes) -> bytes:
    return book[: rng.randrange(len(book) + 1)]


# Lines


def on_lines(change: Callable[[Random, List[Line]], List[Line]]) -> Callable[[Random, bytes], bytes]:
    """A mutation of a book from one of its lines; a book without lines stays as it is."""

    def mutate(rng: Random, book: bytes) -> bytes:
        lines = lines_of(book)
        return book_of(change(rng, lines)) if lines else book

    mutate.__name__ = change.__name__
    return mutate


@on_lines
def exchange_lines(rng: Random, lines: List[Line]) -> List[Line]:
    first, second = rng.randrange(len(lines)), rng.randrange(len(lines))
    lines[first], lines[second] = lines[second], lines[first]
    return lines


@on_lines
def double_line(rng: Random, lines: List[Line]) -> List[Line]:
    lines.insert(rng.randrange(len(lines) + 1), rng.choice(lines))
    return lines


@on_lines
def drop_line(rng: Random, lines: List[Line]) -> List[Line]:
    del lines[rng.randrange(len(lines))]
    return lines


@on_lines
def change_line_ends(rng: Random, lines: List[Line]) -> List[Line]:
    ends = LINE_ENDS + (b"\n\r", b"\r\r\n", b"\n\n")
    return [Line(line.text, rng.choice(ends) if rng.random() < 0.5 else line.end) for line in lines]


@on_lines
def add_spaces(rng: Random, lines: List[Line]) -> List[Line]:
    place = rng.randrange(len(lines))
    text, end = lines[place]
    spaces = b" " * rng.choice((1, 1, 2, 15, 23))
    start = rng.choice((0, len(text), len(text), rng.randrange(len(text) + 1)))
    lines[place] = Line(text[:start] + spaces + text[start:], end)
    return lines


@on_lines
def fill_line(rng: Random, lines: List[Line]) -> List[Line]:
    """Spaces up to the longest line, or one byte beside it."""
    place = rng.randrange(len(lines))
    text, end = lines[place]
    lines[place] = Line(text.ljust(rng.choice((1_599, 1_600, 1_600, 1_601))), end)
    return lines


# Words


def on_block(change: Callable[[Random, Block], Block]) -> Callable[[Random, bytes], bytes]:
    """A mutation of a book from one of its blocks."""

    def change_one_line(rng: Random, lines: List[Line]) -> List[Line]:
        places = [place for place, line in enumerate(lines) if line.text.strip(b"* ")]
        if places:
            place = rng.choice(places)
            lines[place] = Line(change(rng, block_of(lines[place].text)).text(), lines[place].end)
        return lines

    change_one_line.__name__ = change.__name__
    return on_lines(change_one_line)


def change_word(rng: Random, block: Block, indexes: Tuple[bytes, ...], change: Callable[[bytes], bytes]) -> Block:
    """The block with one of the words of some indexes changed, or as it is where it has none."""
    places = [place for place, word in enumerate(block.words) if word[:2] in indexes]
    if not places:
        return block
    place = rng.choice(places)
    return Block(block.star, block.words[:place] + [change(block.words[place])] + block.words[place + 1 :])


@on_lines
def exchange_words(rng: Random, lines: List[Line]) -> List[Line]:
    """Two words of two lines, or of one, in each other's place."""
    first, second = rng.randrange(len(lines)), rng.randrange(len(lines))
    blocks = {place: block_of(lines[place].text) for place in (first, second)}
    if not all(block.words for block in blocks.values()):
        return lines
    word_of_first, word_of_second = rng.randrange(len(blocks[first].words)), rng.randrange(len(blocks[second].words))
    words_of_first, words_of_second = blocks[first].words, blocks[second].words
    words_of_first[word_of_first], words_of_second[word_of_second] = words_of_second[word_of_second], words_of_first[word_of_first]
    for place, block in blocks.items():
        lines[place] = Line(block.text(), lines[place].end)
    return lines


@on_block
def change_number(rng: Random, block: Block) -> Block:
    limits = [limit + step for limit in LARGEST_NUMBERS.values() for step in (0, 1)]
    number = rng.choice((0, 1, 10 ** block.data_width() - 1, rng.randrange(10_000), rng.choice(limits), rng.choice(limits)))
    data = data_of(str(number).encode("ascii"), block.data_width())
    return change_word(rng, block, (b"33", b"87", b"88"), lambda word: word[:7] + data)


@on_block
def change_sign(rng: Random, block: Block) -> Block:
    return change_word(rng, block, (b"11", b"33", b"87", b"88"), lambda word: word[:6] + rng.choice((b"-", b"-", b"+", b" ")) + word[7:])


@on_block
def change_unit(rng: Random, block: Block) -> Block:
    code = rng.choice((b"0", b"1", b"6", b"7", b"8", b"2", b"5", b"9", b"."))
    return change_word(rng, block, (b"33", b"87", b"88"), lambda word: word[:5] + code + word[6:])


@on_block
def change_name(rng: Random, block: Block) -> Block:
    name = rng.choice(SHORT_NAMES + LONG_NAMES + (b" ", b"00", b"0 0", b" 00A 0 ", b"0" * 16, b" " * 16))
    data = data_of(name, block.data_width(), rng.choice((b"0", b" ")))
    return change_word(rng, block, (b"11",), lambda word: word[:7] + data)


@on_block
def change_index(rng: Random, block: Block) -> Block:
    index = rng.choice((b"11", b"33", b"84", b"85", b"86", b"87", b"88", b"83", b"89", b"31"))
    place = rng.randrange(len(block.words))
    words = block.words[:place] + [index + block.words[place][2:]] + block.words[place + 1 :]
    return Block(block.star, words)


@on_block
def digit_at_position_3(rng: Random, block: Block) -> Block:
    digit = rng.choice((b"0", b"1", b"9", b"."))
    indexes = (b"33", b"84", b"85", b"86", b"87", b"88")
    return change_word(rng, block, indexes, lambda word: word[:2] + digit + word[3:])


@on_block
def drop_word(rng: Random, block: Block) -> Block:
    place = rng.randrange(len(block.words))
    return Block(block.star, block.words[:place] + block.words[place + 1 :])


@on_block
def double_word(rng: Random, block: Block) -> Block:
    words = list(block.words)
    words.insert(rng.randrange(len(words) + 1), rng.choice(words))
    return Block(block.star, words)


@on_block
def many_words(rng: Random, block: Block) -> Block:
    """A block of about as many words as there may be."""
    word = b"51....+" + b"0" * block.data_width()
    more = rng.choice((62, 63, 64, 65, 66)) - len(block.words)
    return Block(block.star, block.words + [word] * max(more, 0))


@on_block
def widen(_rng: Random, block: Block) -> Block:
    """A GSI-8 line as the same line of GSI-16."""
    if block.star:
        return block
    return Block(b"*", [word[:7] + data_of(word[7:], GSI_16_DATA) for word in block.words])


@on_block
def change_star(_rng: Random, block: Block) -> Block:
    """A line that announces the other width than it has."""
    return Block(b"" if block.star else b"*", block.words)


MUTATIONS = (change_bytes, insert_bytes, cut_bytes, cut_off, exchange_lines, double_line, drop_line, change_line_ends, add_spaces,
             fill_line, exchange_words, change_number, change_sign, change_unit, change_name, change_index, digit_at_position_3,
             drop_word, double_word, many_words, widen, change_star)
# The gentle ones mostly leave a book whole, so they are taken more often.
GENTLE_MUTATIONS = (exchange_lines, double_line, change_line_ends, change_name, change_sign, change_unit, change_number, widen,
                    digit_at_position_3, drop_word)


def mutate(rng: Random, book: bytes) -> bytes:
    """The book after none to three mutations."""
    for _ in range(rng.choice((0, 0, 1, 1, 2, 3))):
        book = rng.choice(GENTLE_MUTATIONS if rng.random() < 0.5 else MUTATIONS)(rng, book)
    return book
