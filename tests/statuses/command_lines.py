"""Bad command lines, help and the version."""

import itertools
import re
from typing import Iterator

from program import ROOT
from rows import Case, Row, RowCase

MARKS = "--benchmarks marks.csv"
SEVENTEEN = " ".join(map(str, range(1, 18)))
LACKS = "error: the following required arguments were not provided:"
NOT_TEXT = "error: a word of the command line is no text"
TWO_STREAMS = "error: '-' is standard input, and can be one input alone"
TWO_LIMITS = "error: '--limit' and '--blunder' are one limit: leave one of them out"
BAD_LIMIT = "error: the value of '--limit' must be a whole number of mm or um, as in '5mm', and at most 1 km"
BAD_TITLE = "error: the value of '--title' must be one line of 1 to 100 characters"
NO_FILES = "error: the value of '--out' must end in the beginning of a file name, as in 'dam' or 'site/dam'"
VERSION = re.search(r'^pub const VERSION: &str = "(.*)";$', (ROOT / "crates/th_commands/src/commands.rt").read_text(), re.MULTILINE)[1]

LINES = [
    ("error: unrecognized subcommand 'cellar.gsi'", "cellar.gsi"),
    (LACKS, "adjust --out own cellar.gsi"),
    (LACKS, "review --out own cellar.gsi"),
    (LACKS, f"review {MARKS} cellar.gsi"),
    (LACKS, f"review {MARKS} --out own"),
    (LACKS, f"page {MARKS} cellar.gsi"),
    (LACKS, "book"),
    (LACKS, "book --heights"),
    (LACKS, "mend changes.csv"),
    ("error: unexpected argument 'c' found", "mend a b c"),
    ("error: unexpected argument 'b' found", "book a b"),
    ("error: unexpected argument 'b' found", "book --heights a b"),
    ("error: unexpected argument '--out' found", f"explain {MARKS} --out own cellar.gsi"),
    ("error: unexpected argument '--certificate' found", f"review {MARKS} --certificate marks.csv --out own cellar.gsi"),
    ("error: unexpected argument '--csv' found", f"page {MARKS} --csv --out own cellar.gsi"),
    ("error: the argument '--csv' cannot be used multiple times", f"explain {MARKS} --csv --csv cellar.gsi"),
    ("error: more than 16 books", f"explain {MARKS} {SEVENTEEN}"),
    ("error: more than 16 books", f"adjust {MARKS} --out own {SEVENTEEN}"),
    ("error: more than 16 books", f"review {MARKS} --out own {SEVENTEEN}"),
    ("error: more than 16 books", f"page {MARKS} --out own {SEVENTEEN}"),
    ("error: invalid value '-5' for '--blunder <MICROMETRES>': -5 is not in 0..=1000000000", f"review {MARKS} --blunder=-5 --out own cellar.gsi"),
    (TWO_STREAMS, f"adjust {MARKS} --out own - cellar.gsi -"),
    (TWO_STREAMS, "explain --benchmarks - -"),
    (TWO_STREAMS, "mend - -"),
    (TWO_LIMITS, f"adjust {MARKS} --limit 5mm --blunder 5000 --out own cellar.gsi"),
    (TWO_LIMITS, f"explain {MARKS} --blunder 20000 --limit 20mm cellar.gsi"),
    (BAD_LIMIT, f"adjust {MARKS} --limit 5 --out own cellar.gsi"),
    (BAD_LIMIT, f"review {MARKS} --limit 0.5mm --out own cellar.gsi"),
    (BAD_LIMIT, f"page {MARKS} --limit 1000001mm --out own cellar.gsi"),
    (BAD_LIMIT, f"explain {MARKS} --limit=-5mm cellar.gsi"),
    (BAD_TITLE, f"page {MARKS} --out own --title= cellar.gsi"),
    (BAD_TITLE, ["page", *MARKS.split(), "--out", "own", "--title", "a\nb", "cellar.gsi"]),
    (BAD_TITLE, ["page", *MARKS.split(), "--out", "own", "--title", "\u00fc" * 101, "cellar.gsi"]),
    ("error: unexpected argument '--title' found", f"review {MARKS} --out own --title a cellar.gsi"),
    (NOT_TEXT, ["list", b"\xff.gsi"]),
    (NOT_TEXT, ["adjust", *MARKS.split(), "--out", b"\xc3", "cellar.gsi"]),
]
# They name no files.
PREFIXES = ["", "/", ".", "..", "folder/", "folder/.", "folder/.."]


class Tip(Case):
    """A tip to write `--` before a book is given where the argument can be the name of one."""

    def runTest(self) -> None:
        for named, words in (("-5", f"adjust {MARKS} --blunder -5 --out own cellar.gsi"), ("-o", f"adjust {MARKS} -o own cellar.gsi"),
                             ("--out", f"explain {MARKS} --out own cellar.gsi"), ("--k.gsi", f"explain {MARKS} --k.gsi")):
            answer = self.check(words, 3, f"error: unexpected argument '{named}' found")
            self.assertEqual("." in named, any("tip: write '--' before a book" in line for line in answer.lines), named)
            self.assertNotIn(f"-- {named}", "\n".join(answer.lines))


class Help(Case):
    """Help is on standard output, where it can be piped."""

    def runTest(self) -> None:
        whole, adjust = self.answer("--help"), self.answer("adjust --help")
        self.assertEqual((whole.status, whole.lines), (3, []))
        self.assertIn("\nCommands:\n", whole.printed)
        self.assertGreater(len(adjust.printed.splitlines()), 20)


class Library(Case):
    """README says of which version the C library has to be: the highest one that the program names."""

    def runTest(self) -> None:
        named = re.findall(rb"GLIBC_(\d+)\.(\d+)", self.program.read_bytes())
        told = re.search(r"of glibc (\d+)\.(\d+) or later", (ROOT / "README.md").read_text())
        self.assertIsNotNone(told)
        self.assertEqual(max((int(major), int(minor)) for major, minor in named), (int(told[1]), int(told[2])))


def rows() -> Iterator[Row]:
    yield from (Row(3, line, words) for line, words in LINES)
    for command, prefix in itertools.product(("adjust", "review", "page"), PREFIXES):
        yield Row(3, NO_FILES, [command, *MARKS.split(), "--out", prefix, "cellar.gsi"])
        yield Row(3, NO_FILES, [command, *MARKS.split(), f"--out={prefix}", "cellar.gsi"])
    yield Row(3, "", "--version", f"height_office {VERSION}")


def cases() -> Iterator[Case]:
    return itertools.chain(map(RowCase, rows()), [Tip(), Help(), Library()])
