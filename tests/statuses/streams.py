"""Standard streams that are closed, full, read by nobody, or a terminal."""

import itertools
import os
import pty
import re
import subprocess
import time
from typing import Iterator, List, Sequence, Tuple

from rows import Case, texts_of

MARKS = "--benchmarks marks.csv"
LIST = "number,from,to,difference"
STREAMS = {"0": [0], "1": [1], "2": [2], "all": [0, 1, 2]}
WITH_HEIGHTS = ("110001+0000000A 86..40+00250112 88..10+00001545\n"
                "110002+0000000B 31..00+00027472 83..00+00251384\n")
# A book of so many sights takes its time.
SIGHTS = 1_199


class ReadByNobody(Case):
    """Nobody reads standard output: the status says so, and no line."""

    def __init__(self, words: str) -> None:
        super().__init__()
        self.title, self.words = f"{words}, read by nobody", words

    def runTest(self) -> None:
        ours, theirs = os.pipe()
        os.close(ours)
        try:
            answer = self.answer(self.words, stdout=theirs)
        finally:
            os.close(theirs)
        self.assertEqual((answer.status, answer.lines), (5, []))


class Full(Case):
    """A stream that takes nothing: standard output fails the run, and standard error does not."""

    def runTest(self) -> None:
        with open("/dev/full", "wb") as full:
            self.check("book differences.csv", 5, "write failed: book", stdout=full)
            self.write({"with_heights.gsi": WITH_HEIGHTS})
            self.check(f"adjust {MARKS} --out full with_heights.gsi", 0, stderr=full)
        self.answer(f"adjust {MARKS} --out again with_heights.gsi")
        self.assertEqual(*((self.folder / f"{name}.heights.csv").read_bytes() for name in ("full", "again")))


class Closed(Case):
    """With a standard stream closed a run leaves the outputs that it leaves with the streams open.

    The number of that stream goes to an input, and no output gets what a stream was to have.
    """

    def __init__(self, status: int, stream: str, words: str) -> None:
        super().__init__()
        self.title, self.status, self.stream, self.words = f"{words}, stream {stream} closed", status, stream, words

    def runTest(self) -> None:
        def close() -> None:
            for number in STREAMS[self.stream]:
                os.close(number)

        for name in ("open", "closed"):
            (self.folder / name).mkdir()
        if self.status == 0:
            self.check_open()
        before = texts_of(self.folder)
        answer = self.answer(self.words, preexec_fn=close)
        self.assertEqual(answer.status, self.status)
        after = texts_of(self.folder)
        self.assertEqual(texts_of(self.folder / "closed"), texts_of(self.folder / "open"))
        self.assertEqual({name: after.get(name) for name in before}, before, "an input was changed")

    def check_open(self) -> None:
        self.assertEqual(self.answer(self.words.replace("closed/", "open/")).status, 0)


class Typed(Case):
    """A book that is typed: one line on standard error says so."""

    def runTest(self) -> None:
        ours, theirs = pty.openpty()
        os.write(ours, b"\x04")
        answer = self.answer("", stdin=theirs)
        os.close(theirs)
        os.close(ours)
        self.assertEqual((answer.status, answer.printed), (0, LIST))
        self.assertEqual(answer.lines, ["reading a book from the terminal, up to Ctrl-D; for help, write 'height_office --help'"])


class Dash(Case):
    """The input `-` is standard input, and `./-` a file of that name."""

    def runTest(self) -> None:
        book = (self.folder / "cellar.gsi").read_bytes()
        listed = self.answer("list cellar.gsi").printed
        for words in ("list -", f"adjust {MARKS} --out own -", f"adjust {MARKS} --out file cellar.gsi"):
            with (self.folder / "cellar.gsi").open("rb") as stream:
                answer = self.answer(words, stdin=stream)
            self.assertEqual((answer.status, answer.printed), (0, listed if words.startswith("list") else ""), words)
        self.assertEqual(*((self.folder / f"{name}.heights.csv").read_bytes() for name in ("own", "file")))
        self.write({"-": book})
        self.check("list ./-", 0, printed=listed)
        self.check("list -", 0, printed=LIST)


class Watched(Case):
    """What a review and an explanation show while they work: on a terminal, after two seconds, a line that is gone at the end.

    Elsewhere they show nothing. The book comes by a pipe after these two seconds.
    """

    def __init__(self, words: str, line: str, terminal: bool) -> None:
        super().__init__()
        self.title, self.words, self.line, self.terminal = f"{words} on {'a terminal' if terminal else 'a pipe'}", words, line, terminal

    def shown(self) -> Tuple[int, bytes]:
        """The status, and what is shown on standard error."""
        ours, theirs = pty.openpty() if self.terminal else os.pipe()
        book = self.folder / "slow.gsi"
        os.mkfifo(book)
        run = subprocess.Popen([self.program, *self.words.split()], cwd=self.folder, stdin=subprocess.DEVNULL, stdout=subprocess.DEVNULL, stderr=theirs)
        os.close(theirs)
        with open(book, "wb") as file:
            time.sleep(2.2)
            file.write(b"110001+0000000A 84..10+00000000 88..10+00001500 \n")
            file.writelines(b"110002+000B%04d 33..00+00002345 87..10+00001300 \n" % number for number in range(1, SIGHTS + 1))
        status = run.wait()
        return status, b"".join(parts_of(ours))

    def runTest(self) -> None:
        self.write({"slow.csv": "point,height\nA,100\n"})
        status, shown = self.shown()
        self.assertEqual(status, 0)
        parts = [part.strip() for part in shown.decode().split("\r") if part.strip()]
        if not self.terminal:
            self.assertEqual(parts, [])
            return
        self.assertTrue(shown.endswith(b" \r"), shown[-80:])
        self.assertRegex(parts[0], re.compile(rf"^\w+: 0 of {self.line.split(' of ')[1].split('|')[0].lstrip('(')}"))
        # A slow machine shows more of them.
        self.assertEqual([part for part in parts if not re.fullmatch(self.line, part)], [])


def parts_of(ours: int) -> Iterator[bytes]:
    """All that comes; a terminal ends with an error."""
    try:
        while True:
            part = os.read(ours, 4_096)
            if not part:
                return
            yield part
    except OSError:
        return
    finally:
        os.close(ours)


def closed_cases() -> Iterator[Closed]:
    for command, weights in itertools.product(("adjust", "review", "page"), ("", " --weights factors.csv")):
        for stream in STREAMS:
            yield Closed(0, stream, f"{command} {MARKS}{weights} --out closed/own cellar.gsi")
            yield Closed(5, stream, f"{command} {MARKS}{weights} --out closed/none/own cellar.gsi")
            yield Closed(2, stream, f"{command} {MARKS} --out closed/own marks.csv")
    for words in ("list cellar.gsi", f"explain {MARKS} cellar.gsi", "book differences.csv", "mend changes.csv cellar.gsi"):
        for stream, status in (("0", 0), ("1", 5), ("2", 0)):
            yield Closed(status, stream, words)
    yield Closed(5, "0", "")


def watched_cases() -> Iterator[Watched]:
    review = "review --benchmarks slow.csv --out slow slow.gsi", f"review: [0-9,]+ of ({SIGHTS:,} cuts|2 entries)"
    explain = "explain --benchmarks slow.csv slow.gsi", f"explain: [0-9,]+ of {3 * SIGHTS - 2:,} numbers"
    yield from (Watched(words, line, terminal) for words, line in (review, explain) for terminal in (True, False))


def cases() -> Iterator[Case]:
    read: Sequence[str] = ["list cellar.gsi", "book differences.csv", "mend changes.csv cellar.gsi", f"explain {MARKS} cellar.gsi",
                           f"check {MARKS} --certificate cellar.certificate.csv cellar.gsi"]
    single: List[Case] = [Full(), Typed(), Dash()]
    return itertools.chain(map(ReadByNobody, read), single, closed_cases(), watched_cases())
