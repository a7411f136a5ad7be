"""Mutated inputs: small projects one of whose books, tables or certificates somebody has spoiled.

Books are mutated as those of the second reader are. Tables and certificates get fields cut and exchanged, numbers at
the limits of their formats and of machine words, names in other spellings, quotes, byte order marks and other line
ends. All of it hangs on the `rng` alone. Most texts are mutated once, so that what is read behind a first fault is
reached as well.
"""

import re
from random import Random
from typing import Callable, NamedTuple, Optional, Tuple

from office import Inputs
from projects import CHANGES, MISTAKES, Project, lines_of, mark_byte_order, random_project
from runs import second_adjustment

# Of the second reader, whose folder `tables`, which `office` imports, puts on the path.
from made_books import mostly_sensible_book
from mutations import GENTLE_MUTATIONS, MUTATIONS, change_bytes, cut_bytes, insert_bytes

Mutation = Callable[[Random, bytes], bytes]

# Numbers at the limits of weights, counts, heights, flows and costs, of machine words, and beside them.
LIMITS = tuple(number.encode("ascii") for number in (
    "0", "-0", "+0", "1", "-1", "00001", "999", "1000", "1001", "9999", "10000", "-10000", "10000.00000001",
    "-10000.00000001", "9999.99999999", "0.00000001", "-0.00000001", "0.000000001", "39999", "40000", "40001",
    "999999999", "-999999999", "1000000000", "0999999999", "999999999.99999999", "-999999999.99999999",
    "99999999999999999", str(2**31), str(2**32 - 1), str(2**32), str(2**63 - 1), str(-(2**63)), str(2**63),
    str(2**64 - 1), str(2**64), "9" * 30, "9" * 31, "0" * 30, "0" * 31, str(2**127), str(2**128 - 1), str(2**128),
    "1e3", "0x10", "1_000", "--1", "1,5"))
SOME_WEIGHTS = b"from,to,weight\nA,B,2\n"
NO_CERTIFICATE = b"kind,key,value\nV,2,0\nZ,cost,0\n"


class Case(NamedTuple):
    """A command over a project with a mutated text; a check has a certificate."""

    command: str
    project: Project
    certificate: Optional[bytes]


# Mutations of fields


def on_field(wanted: Callable[[bytes], object], change: Mutation) -> Mutation:
    """A mutation of a text from one of its fields that are wanted, seldom of the header's; else the text as it is."""

    def mutate_field(rng: Random, text: bytes) -> bytes:
        # Fields with the commas and line ends between them, which stand at the odd places.
        parts = re.split(rb"(,|\r\n|\r|\n)", text)
        behind_header = next((place + 1 for place in range(1, len(parts), 2) if parts[place] != b","), 0)
        start = behind_header if rng.random() < 0.9 else 0
        places = [place for place in range(start, len(parts), 2) if wanted(parts[place])]
        if places:
            place = rng.choice(places)
            parts[place] = change(rng, parts[place])
        return b"".join(parts)

    return mutate_field


def is_number(field: bytes) -> object:
    return re.fullmatch(rb"[-+]?[0-9][0-9.]*", field)


def other_spelling(rng: Random, field: bytes) -> bytes:
    return rng.choice((b"", b"0", b" ", b"0 0", b"0" * 20)) + field + rng.choice((b"", b" ", b"   "))


def cut_field(rng: Random, field: bytes) -> bytes:
    place = rng.randrange(len(field))
    return rng.choice((field[:place], field[place + 1 :], field[:place] + field[place + 1 :]))


def quoted_field(rng: Random, field: bytes) -> bytes:
    doubled = field.replace(b'"', b'""')
    place = rng.randrange(len(field) + 1)
    return rng.choice((
        b'"' + doubled + b'"', b'"' + doubled + b'"', b'"' + doubled, doubled + b'"', b'""' + doubled,
        b'"' + doubled + b'" ', b' "' + doubled + b'"', b'"' + field[:place] + b'"' + field[place:],
        field[:place] + b'"' + field[place:] + b'"',
        b'"' + field[:place] + b"\n" + field[place:] + b'"', b'"' + field[:place] + b"," + field[place:] + b'"'))


def number_at_limit(rng: Random, _field: bytes) -> bytes:
    return rng.choice(LIMITS)


def exchange_fields(rng: Random, text: bytes) -> bytes:
    parts = re.split(rb"(,|\r\n|\r|\n)", text)
    one, two = rng.randrange(0, len(parts), 2), rng.randrange(0, len(parts), 2)
    parts[one], parts[two] = parts[two], parts[one]
    return b"".join(parts)


def repeat_name(rng: Random, text: bytes) -> bytes:
    """A record once more, its fields in other spellings."""
    lines = lines_of(text)
    if lines:
        place = rng.randrange(len(lines))
        fields = [other_spelling(rng, field) if rng.random() < 0.5 else field for field in lines[place].split(b",")]
        lines.insert(rng.randint(place, len(lines)), b",".join(fields))
    return b"".join(lines)


def mark_inside(rng: Random, text: bytes) -> bytes:
    """A byte order mark somewhere in a text."""
    place = rng.randrange(len(text) + 1)
    return text[:place] + b"\xef\xbb\xbf" + text[place:]


FIELD_MUTATIONS: Tuple[Mutation, ...] = (
    on_field(is_number, number_at_limit), on_field(is_number, number_at_limit), on_field(len, other_spelling),
    on_field(len, cut_field), on_field(len, quoted_field), exchange_fields, repeat_name)
TABLE_MUTATIONS = 3 * FIELD_MUTATIONS + MISTAKES + (mark_inside, change_bytes, insert_bytes, cut_bytes)
BOOK_MUTATIONS = MUTATIONS + 4 * GENTLE_MUTATIONS + (mark_byte_order, mark_inside)


def mutated(rng: Random, text: bytes, mutations: Tuple[Mutation, ...]) -> bytes:
    """A text after one mutation, at times more; it is never the text that it was."""
    changed = text
    for _ in range(rng.choice((1, 1, 1, 2, 3))):
        changed = rng.choice(mutations)(rng, changed)
    while changed == text:
        changed = rng.choice(mutations)(rng, changed)
    return changed


# Cases


def with_book(rng: Random, inputs: Inputs) -> Inputs:
    books = list(inputs.books)
    place = rng.randrange(len(books))
    books[place] = mutated(rng, books[place], BOOK_MUTATIONS)
    return inputs._replace(books=books)


def with_benchmarks(rng: Random, inputs: Inputs) -> Inputs:
    return inputs._replace(benchmarks=mutated(rng, inputs.benchmarks, TABLE_MUTATIONS))


def with_weights(rng: Random, inputs: Inputs) -> Inputs:
    return inputs._replace(weights=mutated(rng, inputs.weights or SOME_WEIGHTS, TABLE_MUTATIONS))


INPUT_MUTATIONS = (with_book, with_book, with_benchmarks, with_weights)


def listed_book(rng: Random, project: Project) -> Case:
    book = mostly_sensible_book(rng) if rng.random() < 0.5 else rng.choice(project.inputs.books)
    inputs = project.inputs._replace(books=[mutated(rng, book, BOOK_MUTATIONS)])
    return Case("list", project._replace(inputs=inputs), None)


def adjusted_project(rng: Random, project: Project) -> Case:
    return Case("adjust", project._replace(inputs=rng.choice(INPUT_MUTATIONS)(rng, project.inputs)), None)


def reviewed_project(rng: Random, project: Project) -> Case:
    return adjusted_project(rng, project)._replace(command="review")


def explained_project(rng: Random, project: Project) -> Case:
    return adjusted_project(rng, project)._replace(command="explain")


def checked_certificate(rng: Random, project: Project) -> Case:
    """A check of a mutated certificate, or of a good one beside mutated inputs."""
    certificate = second_adjustment(project).files.get(".certificate.csv", NO_CERTIFICATE)
    if rng.random() < 0.2:
        return Case("check", project._replace(inputs=rng.choice(INPUT_MUTATIONS)(rng, project.inputs)), certificate)
    changed = rng.choice(CHANGES)(rng, certificate) if rng.random() < 0.5 else certificate
    if changed == certificate or rng.random() < 0.3:
        changed = mutated(rng, changed, TABLE_MUTATIONS)
    return Case("check", project, changed)


CASES: Tuple[Callable[[Random, Project], Case], ...] = (listed_book, adjusted_project, checked_certificate, reviewed_project,
                                                            explained_project)
CASE_WEIGHTS = (20, 20, 20, 30, 10)


def random_case(seed: int, number: int) -> Case:
    """The case of a number. It hangs on the seed and the number alone."""
    rng = Random(f"{seed} {number}")
    return rng.choices(CASES, CASE_WEIGHTS)[0](rng, random_project(rng))


# Every beginning of a text, and every change of one byte


SIGHT_BOOK = (b"110001+0000000A 84..10+00000000 85..10+00000000 86..10+00100000 88..10+00001500 \n"
              b"110002+0000000B 33..00+00002345 87..10+00001300 \n")
TRIANGLE_BOOK = (b"110001+0000000A 84..10+00000000 88..10+00001500 \n110002+0000000B 33..00+00001000 87..10+00001500 \n"
                 b"110003+0000000B 84..10+00000000 88..10+00001500 \n110004+0000000C 33..00+00001000 87..10+00001500 \n"
                 b"110005+0000000C 84..10+00000000 88..10+00001500 \n110006+0000000A 33..00-00002000 87..10+00001500 \n"
                 b"110007+0000000A 84..10+00000000 88..10+00001500 \n"
                 b"110008+0000000C 33..00+00002500 87..10+00001500 \n")
TRIANGLE_HEIGHTS = b"H,A,100.00000000\nH,B,101.00000000\nH,C,102.00000000\n"
TRIANGLE_FLOWS = b"F,1,0\nF,2,0\nF,3,1\nF,4,1\nZ,cost,50000000\n"
TRIANGLE_CERTIFICATES = (
    b"kind,key,value\nV,1,4\n" + TRIANGLE_HEIGHTS + TRIANGLE_FLOWS,
    b"kind,key,value\nV,2,4\n" + TRIANGLE_HEIGHTS + TRIANGLE_HEIGHTS.replace(b"H", b"L")
    + TRIANGLE_HEIGHTS.replace(b"H", b"U") + TRIANGLE_FLOWS)
A_AT_100 = b"point,height\nA,100\n"
WEIGHT_BACK = b"from,to,weight\nB,A,7\n"


def count_of_changes(text: bytes) -> int:
    """How many beginnings a text has, the whole among them, and how many changes of one byte."""
    return len(text) + 1 + 255 * len(text)


def change_of(text: bytes, number: int) -> bytes:
    """The beginning or change of a number: first the beginnings, then each byte with each other value in its place."""
    if number <= len(text):
        return text[:number]
    place, value = divmod(number - len(text) - 1, 255)
    value += value >= text[place]
    return text[:place] + bytes([value]) + text[place + 1 :]


def listed(book: bytes) -> Case:
    return Case("list", Project(Inputs([book], A_AT_100, None), None), None)


def reviewed(book: bytes) -> Case:
    return Case("review", Project(Inputs([book], A_AT_100, WEIGHT_BACK), None), None)


def reviewed_weights(weights: bytes) -> Case:
    return Case("review", Project(Inputs([SIGHT_BOOK], A_AT_100, weights), None), None)


def checked(certificate: bytes) -> Case:
    return Case("check", Project(Inputs([TRIANGLE_BOOK], A_AT_100, None), None), certificate)


# What is changed, and the case that is made of each change.
CHANGED_TEXTS: Tuple[Tuple[bytes, Callable[[bytes], Case]], ...] = (
    (SIGHT_BOOK, listed), (SIGHT_BOOK, reviewed), (WEIGHT_BACK, reviewed_weights),
    *((certificate, checked) for certificate in TRIANGLE_CERTIFICATES))
COUNT_OF_CHANGES = sum(count_of_changes(text) for text, _ in CHANGED_TEXTS)


def changed_case(number: int) -> Case:
    """The case of a number."""
    for text, case_of in CHANGED_TEXTS:
        if number < count_of_changes(text):
            return case_of(change_of(text, number))
        number -= count_of_changes(text)
    raise IndexError("no such case")
