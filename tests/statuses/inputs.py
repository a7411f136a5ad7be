"""Inputs that cannot be read or are refused, books that `book` makes, and notes."""

import itertools
import re
from hashlib import sha256
from pathlib import Path
from typing import Iterator

from rows import Case, Row, RowCase

MARKS = "--benchmarks marks.csv"
LIST = "number,from,to,difference"
ROWS_OF_EXPLANATIONS = "number,kind,book,line,word,from,to,sights,given,low,high,explains,left,blunders,last,poles,instruments,reading,name,fit"

READ_FAILED = [
    ("book 1", "list missing.gsi"),
    ("book 1", "list folder"),
    ("book 2", f"adjust {MARKS} --out own cellar.gsi missing.gsi"),
    ("benchmarks", "adjust --benchmarks missing.csv --out own cellar.gsi"),
    ("weights", f"adjust {MARKS} --weights missing.csv --out own cellar.gsi"),
    ("certificate", f"check {MARKS} --certificate missing.csv cellar.gsi"),
    ("book 2", f"review {MARKS} --out own cellar.gsi missing.gsi"),
    ("benchmarks", "review --benchmarks missing.csv --out own cellar.gsi"),
    ("weights", f"review {MARKS} --weights missing.csv --out own cellar.gsi"),
    ("book 2", f"page {MARKS} --out own cellar.gsi missing.gsi"),
    ("benchmarks", "page --benchmarks missing.csv --out own cellar.gsi"),
    ("weights", f"page {MARKS} --weights missing.csv --out own cellar.gsi"),
    ("book 2", f"explain {MARKS} cellar.gsi missing.gsi"),
    ("weights", f"explain {MARKS} --weights missing.csv cellar.gsi"),
    ("book 1", "book --heights missing.gsi"),
    ("book 1", "book --heights folder"),
    ("differences", "book missing.csv"),
    ("differences", "book folder"),
    ("changes", "mend missing.csv cellar.gsi"),
    ("changes", "mend folder missing.gsi"),
    ("book 1", "mend changes.csv missing.gsi"),
    ("book 1", "mend changes.csv folder"),
]

WRITE_FAILED = [
    ("heights", f"adjust {MARKS} --out missing/own cellar.gsi"),
    ("page", f"page {MARKS} --out missing/own cellar.gsi"),
    ("points", f"review {MARKS} --out missing/own cellar.gsi"),
]

REFUSED = [
    ("benchmarks record 1: E1 bad header", "adjust --benchmarks cellar.gsi --out own cellar.gsi"),
    ("book 1 line 1: B1 word 1: short", f"adjust {MARKS} --out own marks.csv"),
    ("benchmarks record 1: E1 bad header", "review --benchmarks cellar.gsi --out own cellar.gsi"),
    ("weights record 1: E1 bad header", f"review {MARKS} --weights marks.csv --out own cellar.gsi"),
    ("book 1 line 1: B1 word 1: short", f"review {MARKS} --out own marks.csv"),
    ("benchmarks record 1: E1 bad header", "page --benchmarks cellar.gsi --out own cellar.gsi"),
    ("weights record 1: E1 bad header", f"page {MARKS} --weights marks.csv --out own cellar.gsi"),
    ("book 1 line 1: B1 word 1: short", f"page {MARKS} --out own marks.csv"),
    ("benchmarks record 1: E1 bad header", "explain --benchmarks cellar.gsi cellar.gsi"),
    ("book 1 line 1: B1 word 1: short", f"explain {MARKS} marks.csv"),
    ("certificate record 1: C1 bad header", f"check {MARKS} --certificate marks.csv cellar.gsi"),
    ("network: N3 no benchmark for G1", "review --benchmarks other.csv --out own cellar.gsi"),
    ("network: N3 no benchmark for G1", "page --benchmarks other.csv --out own cellar.gsi"),
    ("network: N3 no benchmark for G1", "explain --benchmarks other.csv --csv cellar.gsi"),
]

DIFFERENCES = [
    ("record 1: E1 bad header", ""),
    ("record 1: E1 bad header", "from;to;difference\nA;B;1,5\n"),
    ("record 1: E1 bad header", "from,to,weight\nA,B,1\n"),
    ("record 2: E2 field count", "from,to,difference\nA,B,1,5\n"),
    ("record 3: E2 field count", "number,from,to,difference\n1,A,B,1\nA,B,1\n"),
    ("record 2: E3 bad name", "from,to,difference\nA, ,1\n"),
    ("record 2: E3 bad name", "from,to,difference\n12345678901234567,B,1\n"),
    ("record 3: E4 bad difference", "from,to,difference\nA,B,1\nA,B,1 m\n"),
    ("record 2: E4 bad difference", 'from,to,difference\nA,B,"1,5"\n'),
    ("record 2: E4 bad difference", "from,to,difference\nA,B,0.000001\n"),
    ("record 2: E4 bad difference", "from,to,difference\nA,B,-10000.00001\n"),
    ("record 2: E6 to itself", "from,to,difference\nA,00A,1\n"),
    # A table that is too long, and one whose book is: each record has a setup of its own.
    ("record 0: E7 table too long", lambda: b"from,to,difference\n" + b"A,B,1\n" * 700_000),
    ("record 0: E7 table too long", lambda: b"from,to,difference\n" + b"A,B,1\nB,A,1\n" * 300_000),
]
BOOK_OF_DIFFERENCES = "\r\n".join([
    "*110001+000000000000000A 84..40+0000000000000000 87..48+0000000000000000 88..48+0000000000000000 ",
    "*110002+000000000000000B 33..48+0000000000150000 ",
    "*110003+000000000000000C 33..48-0000000000000001 ",
]) + "\r"

STATION = "110001+0000000A 86..40+00250112 88..10+00001545"
SIGHT = "110002+0000000B 31..00+00027472 83..00+00251384"
WITH_HEIGHTS = {"with_heights.gsi": f"{STATION}\n{SIGHT}\n"}
BOOK_OF_HEIGHTS = f"{STATION}\r\n{SIGHT} 87..48+00000000 33..48-00027300 \r"

HEIGHTS = [
    ("line 2: B1 word 1: short", f"{STATION}\nx\n"),
    ("line 2: B2 has a word 33", f"{STATION}\n{SIGHT} 33..00+00000001\n"),
    ("line 2: B2 repeated word", f"{STATION}\n{SIGHT} 83..00+00251384\n"),
    ("line 1: B2 repeated word", f"{STATION} 84..00+00000000 84..00+00000000\n{SIGHT}\n"),
    ("line 2: B4 bad name", f"{STATION}\n110002+         31..00+00000001 83..00+00000001\n"),
    ("line 1: B5 bad number", f"{STATION} 83..00+0000000A\n"),
    ("line 1: B6 bad unit", "110001+0000000A 86..09+00000000\n"),
    ("line 2: B6 no unit for word 33", f"{STATION}\n110002+0000000B 31..01+00000001 83..01+00000001\n"),
    ("line 2: B7 too large", f"{STATION}\n110002+0000000B 31..00+00000001 83..00+99999999\n"),
    ("line 2: B7 too large for word 33", f"{STATION}\n110002+0000000B 31..00+00000001 83..00+01260000\n"),
    # A height in force is wrong, whatever else a line has: no other height is added in its place.
    ("line 2: B5 bad number", "110001+0000000A 86..10+00000000\n110002+0000000B 83..10+00001000 31..00+00000001 87..10+0000A500\n"),
    ("line 1: B6 bad unit", "110001+0000000A 86..10+00000000 88..19+00001500\n"),
    ("line 2: B7 too large", "110001+0000000A 86..10+00000000\n110002+0000000B 83..10+00001000 31..00+00000001 88..10+99999999\n"),
    ("line 1: B8 sight before setup", f"{SIGHT}\n{STATION}\n"),
    ("line 2: B9 no station height", f"110001+0000000A 84..40+00250112\n{SIGHT}\n"),
    ("line 2: B11 sight to itself", f"{STATION}\n110002+0000000A 31..00+00000001 83..00+00000001\n"),
    # A book of 50 MiB, of which the printed book has 69: each line of 48 bytes gets 66.
    ("line 0: B12 book too long", lambda: f"{STATION}\n".encode() + f"{SIGHT}\n".encode() * 1_100_000),
]

# The book of a setup and of two sights, of which the second repeats its heights.
SETUP = "110001+0000000A 84..10+00000000 87..10+00000000 88..10+00001545 "
TARGETS = "110002+0000000B 33..10-00000100 \n\n110003+0000000C 33..10+00000200 87..10+00000000 88..10+00001545"
SMALL = f"{SETUP}\r\n{TARGETS}"
COORDINATES = f"{SETUP}\n110002+0000000B 33..10-00000100 84..10+00000000\n"
CHANGES = "line,word,value\n"
MENDED = {"changes.csv": f"{CHANGES}1,88,1.5\n2,33,-0.2\n2,to,C1\n4,87 since,1.30001\n3,sign,\n", "two.gsi": f"{SETUP}\r\n110002+0000000B 33..10-00000100 \n"
          "110003+0000000C 33..10+00000200 88..10+00001545\n110004+0000000D 33..10+00000300"}
BOOK_OF_CHANGES = (f"{SETUP.replace('1545', '1500')}\r\n110002+000000C1 33..10-00000200 \n"
                   "110003+0000000C 33..10-00000200 88..10+00001500\n110004+0000000D 33..10+00000300 87..48+00130001")

# A table of changes for SMALL, or for another book.
UNFIT = [
    ("changes record 1: E1 bad header", "", SMALL),
    ("changes record 1: E1 bad header", "line;word;value\n2;33;1\n", SMALL),
    ("changes record 2: E2 field count", f"{CHANGES}2,33,1,5\n", SMALL),
    ("changes record 2: E8 bad line", f"{CHANGES}0,33,1\n", SMALL),
    ("changes record 3: E8 bad line", f"{CHANGES}2,33,1\n1234567890,33,1\n", SMALL),
    ("changes record 2: E9 bad word", f"{CHANGES}2,34,1\n", SMALL),
    ("changes record 2: E9 bad word", f"{CHANGES}2,88since,1\n", SMALL),
    ("changes record 2: E4 bad length", f"{CHANGES}1,88,\n", SMALL),
    ("changes record 2: E4 bad length", f"{CHANGES}1,88,10000.00000001\n", SMALL),
    ("changes record 2: E10 value not empty", f"{CHANGES}2,sign,-\n", SMALL),
    ("changes record 2: E3 bad name", f"{CHANGES}2,to,\n", SMALL),
    ("changes record 0: E7 table too long", lambda: CHANGES.encode() + b"2,33,1\n" * 9_361, SMALL),
    # The table comes before the book, and the book before the first change that does not fit it.
    ("changes record 2: E9 bad word", f"{CHANGES}2,34,1\n", "x\n"),
    ("book 1 line 1: B1 word 1: short", f"{CHANGES}9,33,1\n", "x\n"),
    ("book 1 line 2: B10 no reflector height", f"{CHANGES}9,33,1\n", "110001+0000000A 84..10+00000000 88..10+00001545\n110002+0000000B 33..10-00000100\n"),
    ("changes record 2: M1 no such line", f"{CHANGES}5,33,1\n", SMALL),
    ("changes record 2: M2 no sight in this line", f"{CHANGES}1,33,1\n", SMALL),
    ("changes record 2: M2 no sight in this line", f"{CHANGES}3,33,\n", SMALL),
    ("changes record 3: M2 no sight in this line", f"{CHANGES}2,to,X\n1,sign,\n", SMALL),
    ("changes record 2: M3 no setup in this line", f"{CHANGES}2,from,X\n", SMALL),
    ("changes record 2: M4 no such height in force", f"{CHANGES}3,88,1\n", SMALL),
    ("changes record 2: M4 no such height in force", f"{CHANGES}1,88,1\n", "410001+0000000A\n"),
    ("changes record 2: M5 the line would be a setup", f"{CHANGES}2,33,\n", COORDINATES),
    ("changes record 3: M6 changed by an earlier record", f"{CHANGES}1,88,1\n4,88,1\n", SMALL),
    ("changes record 3: M6 changed by an earlier record", f"{CHANGES}2,33,1\n2,sign,\n", SMALL),
    ("changes record 2: M8 no whole number of the unit", f"{CHANGES}1,88,1.0005\n", SMALL),
    ("changes record 2: M8 no whole number of the unit", f"{CHANGES}2,88 since,0.00000001\n", SMALL),
    ("changes record 3: M9 too many digits", f"{CHANGES}1,88,1\n2,87 since,1000\n", SMALL),
    ("changes record 2: M10 name too long", f"{CHANGES}2,to,NINEBYTES\n", SMALL),
    ("mended line 2: B11 sight to itself", f"{CHANGES}2,to,A\n", SMALL),
]

# A book has blocks and no sight, heights are not unique, a sight is marked, or a book is given twice.
NO_SIGHT = "has no sight in 2 blocks (no word 33; it has words 31 and 83)"
NOTES = [
    Row(0, f"note: book 1 {NO_SIGHT}", "list with_heights.gsi", LIST, WITH_HEIGHTS),
    Row(0, f"note: book 1 {NO_SIGHT}", f"adjust {MARKS} --out mask with_heights.gsi", files=WITH_HEIGHTS),
    Row(0, f"note: book 2 {NO_SIGHT}", f"adjust {MARKS} --out mask cellar.gsi with_heights.gsi", files=WITH_HEIGHTS),
    Row(0, "", f"adjust {MARKS} --out mask cellar.gsi"),
    Row(0, "note: 3 points have more than one best height, up to 0.00200000 m apart at G2",
        f"adjust {MARKS} --blunder 1900 --out mask cellar.gsi",
        second="note: 1 of 5 sights is marked, up to 0.00200000 m: explain names the number that may be wrong"),
    Row(0, "note: book 2: 5 of 5 sights are in book 1 too", f"adjust {MARKS} --out mask cellar.gsi cellar.gsi"),
    Row(0, "", f"adjust {MARKS} --blunder 2000 --out mask cellar.gsi"),
    Row(0, "", f"review {MARKS} --out mask with_heights.gsi", files=WITH_HEIGHTS),
    Row(0, "", f"page {MARKS} --out mask with_heights.gsi", files=WITH_HEIGHTS),
    Row(0, "note: book 1 has no sight in 1 block (no word 33)", "list code.gsi", LIST, {"code.gsi": "410001+0000000A\n\n"}),
    Row(0, "", "list blank.gsi", LIST, {"blank.gsi": "\n  \n"}),
]

# Points move together between their lowest and highest heights (`heights_between_are_best`): a certificate whose lowest heights have the
# highest one of a point is no answer.
SITE = Path(__file__).resolve().parents[2] / "examples" / "building_site"
MIXED = {
    "monday.gsi": lambda: (SITE / "monday.gsi").read_bytes(),
    "site_marks.csv": lambda: (SITE / "marks.csv").read_bytes(),
    "mixed.csv": lambda: re.sub(rb"(?m)^H,KO1,250\.11100000", b"H,KO1,250.11200000", (SITE / "site.certificate.csv").read_bytes()),
}

DONE = [
    Row(0, "", "", LIST),
    Row(0, "", "book differences.csv", BOOK_OF_DIFFERENCES),
    Row(0, "", "book --heights with_heights.gsi", BOOK_OF_HEIGHTS, WITH_HEIGHTS),
    Row(0, "", "book with_heights.gsi --heights", BOOK_OF_HEIGHTS, WITH_HEIGHTS),
    Row(0, "", "mend changes.csv two.gsi", BOOK_OF_CHANGES, MENDED),
    Row(0, "", "mend none.csv two.gsi", MENDED["two.gsi"], {**MENDED, "none.csv": CHANGES}),
    Row(0, "", f"explain {MARKS} --csv cellar.gsi", ROWS_OF_EXPLANATIONS),
    Row(0, "", f"check {MARKS} --certificate cellar.certificate.csv cellar.gsi", "yes"),
    Row(1, "", f"check {MARKS} --certificate wrong.certificate.csv cellar.gsi", "no: wrong cost"),
    Row(1, "", "check --benchmarks site_marks.csv --certificate mixed.csv monday.gsi", "no: not slack at 2", MIXED),
]


class NotesOfReview(Case):
    """The review of a book without sights has the note of the other commands."""

    def runTest(self) -> None:
        self.write(WITH_HEIGHTS)
        self.check(f"review {MARKS} --out mask with_heights.gsi", 0)
        notes = [line for line in (self.folder / "mask.review.txt").read_text().splitlines() if "has no sight" in line]
        self.assertEqual(notes, [f"book 1 {NO_SIGHT}"])


class NotesOfNames(Case):
    """A name in blocks of both widths is spelled in one way, and one with a blank in front in another. A block with a word 21, whatever
    its position 3, measures something and looks like no setup."""

    def runTest(self) -> None:
        self.write({"widths.gsi": "110001+000000G1 84..10+00000000 88..10+00001500 87..10+00001500\n110002+000000G2 33..00+00001000\n"
                                  "*110003+00000000000000G1 84..10+0000000000000000 88..10+0000000000001500 87..10+0000000000001500\n"
                                  "*110004+00000000000000G2 33..00+0000000000001000\n110005+      G2 33..00+00001000\n"
                                  "110006+000000G7 88..10+00001500 213.00+00000000\n110007+000000G8 88..10+00001500\n"})
        self.check(f"review {MARKS} --out mask widths.gsi", 0)
        notes = [line for line in (self.folder / "mask.review.txt").read_text().splitlines() if "spelled" in line or "looks like" in line]
        self.assertEqual(notes, ["book 1 line 7: looks like a setup, but has no word 84, 85 or 86", "book 1 line 5: G2 is spelled in another way than before"])


class NamedInputs(Case):
    """A review and a page name each input by the last part of its name, its length and its SHA-256."""

    def runTest(self) -> None:
        names = {"book 1": "client/no\x07n.gsi", "book 2": "empty.gsi", "benchmarks": "marks.csv", "weights": "client/unused.csv"}
        (self.folder / "client").mkdir()
        self.write({names["book 1"]: (self.folder / "cellar.gsi").read_text(), names["book 2"]: "", names["weights"]: "from,to,weight\n"})
        given = {label: (name.rsplit("/", 1)[-1], (self.folder / name).read_bytes()) for label, name in names.items()}
        words = f"--benchmarks {names['benchmarks']} --weights {names['weights']} --out own"
        for command in ("review", "page"):
            self.check(f"{command} {words} {names['book 1']} {names['book 2']}", 0)
        lines = (self.folder / "own.review.txt").read_text().splitlines()
        self.assertEqual(lines[lines.index("") + 5:][:4], [f"{label:<10}{len(text):>10}  {sha256(text).hexdigest()}  {name}".replace("\x07", "\\x07")
                                                           for label, (name, text) in given.items()])
        items = [f"<li>{label}: <bdi>{name}</bdi> <small>{len(text)} B, SHA-256 {sha256(text).hexdigest()}</small>\n".replace("\x07", "?")
                 for label, (name, text) in given.items()]
        self.assertIn('<ul class="inputs">\n' + "".join(items) + "</ul>\n", (self.folder / "own.html").read_text())


class ListedInputs(Case):
    """`check --inputs` prints behind `yes` the lines that a review has of its inputs, and that of the certificate. Behind `no` it prints none."""

    def runTest(self) -> None:
        (self.folder / "client").mkdir()
        self.write({"client/no\x07n.gsi": (self.folder / "cellar.gsi").read_text(), "empty.gsi": ""})
        names = {"book 1": "empty.gsi", "book 2": "client/no\x07n.gsi", "benchmarks": "marks.csv", "certificate": "cellar.certificate.csv"}
        words = f"{MARKS} --certificate {names['certificate']} {names['book 1']} {names['book 2']}"
        texts = {label: (self.folder / name).read_bytes() for label, name in names.items()}
        lines = [f"{label:<10}{len(text):>10}  {sha256(text).hexdigest()}  {names[label].rsplit('/', 1)[-1]}".replace("\x07", "\\x07")
                 for label, text in texts.items()]
        self.check(f"check --inputs {words}", 0, printed="\n".join(["yes", *lines]))
        self.check(f"check {words}", 0, printed="yes")
        self.check(f"check --inputs {words.replace('cellar.cert', 'wrong.cert')}", 1, printed="no: wrong cost")
        self.check(f"review {MARKS} --out own {names['book 1']} {names['book 2']}", 0)
        self.assertIn("\n".join(lines[:3]) + "\n", (self.folder / "own.review.txt").read_text())


def rows() -> Iterator[Row]:
    yield from DONE
    yield from (Row(5, f"read failed: {what}", words) for what, words in READ_FAILED)
    yield from (Row(5, f"write failed: {what}", words) for what, words in WRITE_FAILED)
    yield Row(5, "read failed: book 1", ["list", "no\x1f.gsi"], second="  'no\\x1F.gsi': no such file")
    yield from (Row(2, line, words) for line, words in REFUSED)
    yield from (Row(2, f"differences {line}", "book table.csv", files={"table.csv": table}) for line, table in DIFFERENCES)
    yield from (Row(2, f"book 1 {line}", "book --heights refused.gsi", files={"refused.gsi": book}) for line, book in HEIGHTS)
    yield from (Row(2, line, "mend changes.csv small.gsi", files={"changes.csv": table, "small.gsi": book}) for line, table, book in UNFIT)
    yield from NOTES


def cases() -> Iterator[Case]:
    return itertools.chain(map(RowCase, rows()), [NotesOfReview(), NotesOfNames(), NamedInputs(), ListedInputs()])
