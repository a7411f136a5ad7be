"""What a program, or the second office, answers about a survey: heights, marks, a review, explanations."""

import csv
import io
import subprocess
import sys
import tempfile
from pathlib import Path
from typing import Dict, List, NamedTuple, Optional, Tuple

from surveys import Written

TESTS = Path(__file__).resolve().parents[1]
sys.path.insert(0, str(TESTS / "second_office"))
import office  # noqa: E402
from explain import csv_text  # noqa: E402
from runs import DEFAULT_PROGRAM  # noqa: E402

PATIENCE_IN_SECONDS = 600
UNITS = 100_000  # of 10 nm in a millimetre
UNITS_IN_METRE = 1_000 * UNITS


class Adjusted(NamedTuple):
    """Lowest and highest best heights in units, the cost, and books and lines of the marked sights."""

    low: Dict[str, int]
    high: Dict[str, int]
    cost: int
    marks: List[Tuple[int, int]]


Row = Dict[str, str]


def units(text: str) -> int:
    """A text of metres with eight digits behind the dot, in units."""
    whole, parts = text.lstrip("-").split(".")
    return (-1 if text.startswith("-") else 1) * (int(whole) * UNITS_IN_METRE + int(parts))


def rows_of(text: bytes) -> List[Row]:
    return list(csv.DictReader(io.StringIO(text.decode("ascii"))))


def marks_of(report: str) -> List[Tuple[int, int]]:
    """The books and lines of the table of blunders."""
    table = report.split("\n\nblunders")[1].split("\n\n")[0].splitlines()[1:]
    return [(int(line[7:9]), int(line[11:19])) for line in table]


def cost_of(report: str) -> int:
    return next(int(line.split()[1]) for line in report.splitlines() if line.startswith("cost"))


def adjusted_of(files: Dict[str, bytes]) -> Adjusted:
    rows = rows_of(files[".heights.csv"])
    report = files[".report.txt"].decode("ascii")
    return Adjusted({row["point"]: units(row["low"]) for row in rows}, {row["point"]: units(row["high"]) for row in rows},
                    cost_of(report), marks_of(report))


class SecondOffice:
    """The second office, in this process."""

    title = "the second office"
    # Its plain solves take long in large networks.
    most_sights = 40

    def __init__(self, limit: int) -> None:
        self.limit = limit * 100

    def inputs(self, written: Written) -> office.Inputs:
        return office.Inputs(written.books, written.benchmarks, written.weights)

    def adjust(self, written: Written) -> Optional[Adjusted]:
        answer = office.adjust(self.inputs(written), self.limit)
        return adjusted_of(answer.files) if answer.status == 0 else None

    def review(self, written: Written) -> Dict[str, List[Row]]:
        files = office.review(self.inputs(written), self.limit).files
        return {end: rows_of(text) for end, text in files.items() if end.endswith(".csv")}

    def explain(self, written: Written) -> List[Row]:
        return rows_of(office.explain(self.inputs(written), self.limit, csv_text)[0].standard_output)

    def page(self, written: Written) -> str:
        inputs = self.inputs(written)
        paged = office.page(office.review(inputs, self.limit), office.explain(inputs, self.limit, csv_text)[0], inputs, b"own")
        return paged.files[".html"].decode()


class Program:
    """A built program, in a folder of its own."""

    most_sights = 300

    def __init__(self, path: Path, limit: int) -> None:
        self.title = str(path)
        self.path = path.resolve()
        self.limit = limit
        self.folder = Path(tempfile.mkdtemp(prefix="planted_"))

    def run(self, command: List[str], written: Written) -> subprocess.CompletedProcess:
        words = command + ["--blunder", str(self.limit), "--benchmarks", "benchmarks.csv"]
        (self.folder / "benchmarks.csv").write_bytes(written.benchmarks)
        if written.weights is not None:
            (self.folder / "weights.csv").write_bytes(written.weights)
            words += ["--weights", "weights.csv"]
        for number, book in enumerate(written.books, start=1):
            (self.folder / f"book_{number}.gsi").write_bytes(book)
            words.append(f"book_{number}.gsi")
        done = subprocess.run([str(self.path)] + words, cwd=self.folder, stdout=subprocess.PIPE, stderr=subprocess.PIPE,
                              timeout=PATIENCE_IN_SECONDS, check=False)
        if done.returncode not in (0, 2):
            raise RuntimeError(f"{' '.join(words)} ends with {done.returncode}: {done.stderr!r}")
        return done

    def print(self, words: List[str]) -> bytes:
        """What a command prints that reads files of the folder."""
        done = subprocess.run([str(self.path)] + words, cwd=self.folder, stdout=subprocess.PIPE, stderr=subprocess.PIPE,
                              timeout=PATIENCE_IN_SECONDS, check=False)
        if done.returncode:
            raise RuntimeError(f"{' '.join(words)} ends with {done.returncode}: {done.stderr!r}")
        return done.stdout

    def adjust(self, written: Written) -> Optional[Adjusted]:
        if self.run(["adjust", "--out", "own"], written).returncode:
            return None
        return adjusted_of({end: (self.folder / f"own{end}").read_bytes() for end in (".heights.csv", ".report.txt")})

    def review(self, written: Written) -> Dict[str, List[Row]]:
        self.run(["review", "--out", "own"], written)
        return {path.name[3:]: rows_of(path.read_bytes()) for path in self.folder.glob("own.*.csv")}

    def explain(self, written: Written) -> List[Row]:
        return rows_of(self.run(["explain", "--csv"], written).stdout)

    def page(self, written: Written) -> str:
        self.run(["page", "--out", "own"], written)
        return (self.folder / "own.html").read_text()
