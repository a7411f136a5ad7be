"""Runs tables of rows: command lines with the status, the lines and the text that the program has to answer.

A case is a `unittest.TestCase` that works in a folder of its own, a copy of the folder that a table needs. A row is the most common case.
"""

import os
import shutil
import subprocess
import tempfile
import unittest
from pathlib import Path
from typing import Callable, Dict, Iterable, List, Mapping, NamedTuple, Optional, Sequence, Union

from program import parser_of

Words = Union[str, Sequence[Union[str, bytes]]]  # a text has a word between two blanks
Text = Union[str, bytes, Callable[[], bytes]]  # a large one is made when it is needed

PATIENCE_IN_SECONDS = 300
# Commands that write files; the others, and those that are refused, leave a folder as it is.
WRITE_FILES = ("adjust", "review", "page")


class Answer(NamedTuple):
    """What a run gives: the status, standard output without line feeds at its end, and the lines on standard error."""

    status: int
    printed: str
    lines: List[str]

    def line(self) -> str:
        """The first line on standard error."""
        return self.lines[0] if self.lines else ""


def words_of(words: Words) -> List[Union[str, bytes]]:
    return list(words.split() if isinstance(words, str) else words)


def bytes_of(text: Text) -> bytes:
    return text if isinstance(text, bytes) else text.encode() if isinstance(text, str) else text()


def texts_of(folder: Path) -> Dict[str, Optional[bytes]]:
    """Each file below a folder with its bytes, and what is no file with nothing."""
    return {str(path.relative_to(folder)): path.read_bytes() if path.is_file() and not path.is_symlink() else None
            for path in sorted(folder.rglob("*"))}


class Case(unittest.TestCase):
    """A case in the copy `folder` of a table's folder, with the program that is tested."""

    program: Path
    template: Path
    title = ""

    def setUp(self) -> None:
        scratch = tempfile.TemporaryDirectory()
        self.addCleanup(scratch.cleanup)
        self.folder = Path(scratch.name) / "case"
        shutil.copytree(self.template, self.folder, symlinks=True)

    def __str__(self) -> str:
        return self.title or type(self).__name__

    def write(self, files: Mapping[str, Text]) -> None:
        for name, text in files.items():
            (self.folder / name).write_bytes(bytes_of(text))

    def answer(self, words: Words, **how) -> Answer:
        """Runs the program in the folder, with nothing on standard input unless told otherwise."""
        how = {"stdin": subprocess.DEVNULL, "stdout": subprocess.PIPE, "stderr": subprocess.PIPE, **how}
        command = [self.program, *words_of(words)]
        done = subprocess.run(command, cwd=self.folder, timeout=PATIENCE_IN_SECONDS, check=False, **how)
        printed, lines = ((text or b"").decode(errors="backslashreplace") for text in (done.stdout, done.stderr))
        return Answer(done.returncode, printed.rstrip("\n"), lines.splitlines())

    def check(self, words: Words, status: int, line: str = "", printed: str = "", **how) -> Answer:
        """The answer, which has this status, first line on standard error, and text on standard output."""
        answer = self.answer(words, **how)
        self.assertEqual((answer.status, answer.line(), answer.printed), (status, line, printed))
        return answer


class Row(NamedTuple):
    """A command line with its answer, and what the folder has besides."""

    status: int
    line: str
    words: Words
    printed: str = ""
    files: Mapping[str, Text] = {}
    # The lines of standard error behind the first. A bad command line has more, which are not compared.
    second: Optional[str] = None


class RowCase(Case):
    """A row, which changes no file unless it is a command that writes some and succeeds."""

    def __init__(self, row: Row) -> None:
        super().__init__("test_row")
        self.row = row
        self.title = " ".join(map(str, words_of(row.words)))

    def test_row(self) -> None:
        row = self.row
        self.write(row.files)
        before = texts_of(self.folder)
        answer = self.check(row.words, row.status, row.line, row.printed)
        if row.second is not None:
            self.assertEqual(answer.lines[1:2] or [""], [row.second])
            self.assertTrue(row.status == 3 or len(answer.lines) <= 2, f"more than two lines: {answer.lines}")
        after = texts_of(self.folder)
        if row.status == 0 and words_of(row.words)[:1] in [[name] for name in WRITE_FILES]:
            after = {name: text for name, text in after.items() if name in before}
        self.assertEqual(after, before, "a file was changed")


def run_cases(name: str, program: Path, template: Path, cases: Iterable[Case]) -> unittest.TestResult:
    """Runs the cases, prints those that fail, and last how many passed and failed."""
    Case.program, Case.template = program, template
    # A file that the program makes has the mode that a test expects, whoever runs this.
    os.umask(0o022)
    result = unittest.TestResult()
    for case in cases:
        case.run(result)
    failed = result.failures + result.errors
    for case, trace in failed:
        print(f"{case}: {trace}")
    for case, reason in result.skipped:
        print(f"{case}: skipped, {reason}")
    print(f"{name}: {result.testsRun - len(failed) - len(result.skipped)} passed, {len(failed)} failed")
    return result


def run_tables(name: str, purpose: str, make: Callable[[Path], None], cases: Iterable[Case]) -> int:
    """Runs the cases of a script in folders that `make` makes; its status, which is 0 if there are some and none failed."""
    parser = parser_of(purpose)
    parser.add_argument("--only", metavar="TEXT", default="", help="run the cases whose title has this text alone")
    chosen = parser.parse_args()
    with tempfile.TemporaryDirectory() as scratch:
        template = Path(scratch) / "template"
        template.mkdir()
        make(template)
        result = run_cases(name, chosen.program, template, (case for case in cases if chosen.only in str(case)))
    return 0 if result.testsRun and result.wasSuccessful() else 1
