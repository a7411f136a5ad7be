"""What the benchmarks share: the programs that they run, what a process takes, and rows of tables."""

import os
import re
import resource
import statistics
import subprocess
import sys
import tempfile
import time
from pathlib import Path
from typing import Iterable, List, NamedTuple, Optional, Tuple, Union

BENCH = Path(__file__).resolve().parent
ROOT = BENCH.parent
CRATES = ROOT / "crates"
DEFAULT_PROGRAM = CRATES / "height_office" / "out" / "height_office"
NETWORKS = BENCH / "settle" / "make_networks.py"
SURVEYS = BENCH / "explain" / "surveys.py"
MIB = 1 << 20
TITLE_WIDTH = 34

Command = List[str]
Cell = Tuple[Union[int, float, str, None], str]  # a value, or none, and its form, which begins with the width


class Usage(NamedTuple):
    """What a process took. The status of one that a signal ended is less than zero."""

    status: int
    seconds: float
    processor_seconds: float
    peak_bytes: int

    @property
    def milliseconds(self) -> float:
        """Of the processor."""
        return self.processor_seconds * 1e3

    @property
    def peak(self) -> float:
        """In MiB."""
        return self.peak_bytes / MIB


# Programs


def built_program(crate: str = "benches") -> Path:
    """The program of a crate, which `rt run` proves and builds; with no arguments it does nothing else."""
    subprocess.run(["rt", "run"], cwd=CRATES / crate, stdin=subprocess.DEVNULL, stdout=subprocess.DEVNULL, check=True)
    return CRATES / crate / "out" / crate


def compiled(source: Path, folder: Path) -> Path:
    """A peer of the program, compiled into the folder."""
    program = folder / source.stem
    subprocess.run(["g++", "-O2", "-std=c++17", "-o", str(program), str(source)], check=True)
    return program


def built_lemon(folder: Path, source: str = "settle/lemon_flow.cpp") -> Path:
    """A program of LEMON's solvers (Debian: liblemon-dev), compiled into the folder."""
    return compiled(BENCH / source, folder)


def made_networks(folder: Path, points: Union[int, str], observations: Union[int, str], *more: str) -> List[Path]:
    """The folders of the networks of `make_networks.py`.

    They are made in a process of its own: a child's peak memory is never less than that of the process it came from, so this one
    stays small.
    """
    words = [sys.executable, str(NETWORKS), str(folder), "--points", str(points), "--observations", str(observations), *more]
    subprocess.run(words, check=True)
    return sorted(path for path in folder.iterdir() if path.is_dir())


def made_surveys(folder: Path, shapes: Iterable[str], size: str, *more: str) -> List[Path]:
    """The folders of the surveys of `surveys.py` of these shapes and this size, made likewise: one for each range of weights and mistake."""
    subprocess.run([sys.executable, str(SURVEYS), str(folder), "--sizes", size, "--shapes", *shapes, *more], check=True)
    return sorted(path for path in folder.glob("*/*") if path.is_dir())


def tables_of(folder: Path) -> Command:
    """The options that name the tables of a network."""
    return ["--benchmarks", str(folder / "benchmarks.csv"), "--weights", str(folder / "weights.csv")]


def command_on(program: Path, command: str, folder: Path, *more: str) -> Command:
    """A command of the program on a network; those that write files get a prefix in its folder."""
    prefix = [] if command in ("list", "explain", "check") else ["--out", str(folder / "out")]
    return [str(program), command, *tables_of(folder), *prefix, *more, str(folder / "book.gsi")]


# Processes


def usage_of(command: Command, most_seconds: Optional[int] = None, **how) -> Usage:
    """Runs a process. It is stopped where it takes more processor time than it may."""
    how = {"stdin": subprocess.DEVNULL, **how}
    if most_seconds is not None:
        how["preexec_fn"] = lambda: resource.setrlimit(resource.RLIMIT_CPU, (most_seconds, most_seconds))
    start = time.perf_counter()
    process = subprocess.Popen(command, **how)
    # wait4 gives the usage of this one child. Its status is told to Popen, which would wait for it again.
    _, status, usage = os.wait4(process.pid, 0)
    seconds = time.perf_counter() - start
    process.returncode = os.WEXITSTATUS(status) if os.WIFEXITED(status) else -os.WTERMSIG(status)
    # Linux counts in KiB, macOS in bytes.
    peak_bytes = usage.ru_maxrss * (1 if sys.platform == "darwin" else 1024)
    return Usage(process.returncode, seconds, usage.ru_utime + usage.ru_stime, peak_bytes)


def usage_of_success(command: Command, most_seconds: Optional[int] = None, **how) -> Usage:
    """The same of a process that has to end with status 0, or to be stopped."""
    usage = usage_of(command, most_seconds, **how)
    if usage.status > 0 or (usage.status < 0 and most_seconds is None):
        raise subprocess.CalledProcessError(usage.status, command)
    return usage


def printed_by(command: Command, most_seconds: Optional[int] = None) -> Tuple[str, Usage]:
    """What a process prints that has to end with status 0, or to be stopped, and what it took."""
    with tempfile.TemporaryFile() as file:
        usage = usage_of_success(command, most_seconds, stdout=file)
        file.seek(0)
        return file.read().decode(), usage


# Rows


def print_row(title: str, *cells: Cell, note: str = "", width: int = TITLE_WIDTH) -> None:
    """Prints a title and cells; one without a value is blank."""
    shown = (f"{format(value, form):>{width_of(form)}}" if value is not None else " " * width_of(form) for value, form in cells)
    print(f"{title:{width}} " + " ".join(shown) + note, flush=True)


def width_of(form: str) -> int:
    return int(re.match(r">?(\d+)", form)[1])


def print_median(title: str, values: List[float], form: str = ".3f") -> None:
    print(f"{title}: median {format(statistics.median(values), form)}, greatest {format(max(values), form)}", flush=True)
