#!/usr/bin/env python3
"""Refuses each request for memory in turn, and looks at what the built programs answer.

    run.py [--program PATH] [--calls PATH]

The program lists, adjusts, reviews, explains and checks two projects, writes the page of one, makes a book of a table, and mends one; of each run
request 1 is refused, then request 2, and so on until a run asks for less: once that request alone, and once it and all behind it. A run
that wants memory has to say `out of memory` and nothing else, to end with status 4 and to begin no file. Where the library makes up for
a refusal, as of room that it only asks for ahead, the answer has to be the right one, all of it. The program `tests_memory` makes calls
and makes them once more where they want memory: it has to say so, and the rest of what it prints may not change.

Requests are counted and refused by `refusing_allocator.c`, which is compiled with `cc` and stands before the C
library's allocator. Prints for each run how many requests there are and what was answered. Status 0 only where all is
right.
"""

import argparse
import os
import shutil
import subprocess
import sys
import tempfile
from pathlib import Path
from typing import Dict, List, NamedTuple, Optional, Tuple

HERE = Path(__file__).resolve().parent
sys.path.insert(0, str(HERE.parent / "second_office"))

import office
from explain import csv_text

CRATES = HERE.parents[1] / "crates"
DEFAULT_PROGRAM = CRATES / "height_office" / "out" / "height_office"
DEFAULT_CALLS = CRATES / "tests_memory" / "out" / "tests_memory"
# No run here asks so often.
MOST_REQUESTS = 100_000
NO_MEMORY = 4

# Three sights from A to B, the last of them misread by a metre.
MISREAD = (b"110001+0000000A 84..10+00000000 85..10+00000000 86..10+00100000 88..10+00001500 \n"
           b"110002+0000000B 33..00+00002345 87..10+00001300 \n"
           b"110003+0000000B 33..00+00002346 \n110004+0000000B 33..00+00003345 \n")
MISREAD_LIST = b"number,from,to,difference\n1,A,B,2.54500000\n2,A,B,2.54600000\n3,A,B,3.54500000\n"
MISREAD_HEIGHTS = (b"point,height,low,high\nA,100.00000000,100.00000000,100.00000000\n"
                   b"B,102.54600000,102.54600000,102.54600000\n")
# Three sides of a triangle that close, and a side that does not.
TRIANGLE = (b"110001+0000000A 84..10+00000000 88..10+00001500 \n110002+0000000B 33..00+00001000 87..10+00001500 \n"
            b"110003+0000000B 84..10+00000000 88..10+00001500 \n110004+0000000C 33..00+00001000 87..10+00001500 \n"
            b"110005+0000000C 84..10+00000000 88..10+00001500 \n110006+0000000A 33..00-00002000 87..10+00001500 \n"
            b"110007+0000000A 84..10+00000000 88..10+00001500 \n110008+0000000C 33..00+00002500 87..10+00001500 \n")
TRIANGLE_LIST = b"number,from,to,difference\n1,A,B,1.00000000\n2,B,C,1.00000000\n3,C,A,-2.00000000\n4,A,C,2.50000000\n"
TRIANGLE_HEIGHTS = (b"point,height,low,high\nA,100.00000000,100.00000000,100.00000000\n"
                    b"B,101.00000000,101.00000000,101.00000000\nC,102.00000000,102.00000000,102.00000000\n")
TRIANGLE_CERTIFICATE = (b"kind,key,value\nV,1,4\nH,A,100.00000000\nH,B,101.00000000\nH,C,102.00000000\n"
                        b"F,1,0\nF,2,0\nF,3,1\nF,4,1\nZ,cost,50000000\n")
MISREAD_CERTIFICATE = (b"kind,key,value\nV,2,3\nH,A,100.00000000\nH,B,102.54600000\n"
                       b"L,A,100.00000000\nL,B,102.54600000\nU,A,100.00000000\nU,B,102.54600000\n"
                       b"F,1,-1\nF,2,0\nF,3,1\nZ,cost,100000000\n")
# What a mistake would do in them: each of three sights of B is outvoted by the others, and two alone tie B in the triangle.
MISREAD_MISTAKES = (b"number,book,line,from,to,difference,weight,residual,control,mistake,moves,blames,blamed\n"
                    b"1,1,2,A,B,2.54500000,1,-0.00100000,2,shows,,,\n2,1,3,A,B,2.54600000,1,0.00000000,2,shows,,,\n"
                    b"3,1,4,A,B,3.54500000,1,0.99900000,2,shows,,,\n")
TRIANGLE_MISTAKES = (b"number,book,line,from,to,difference,weight,residual,control,mistake,moves,blames,blamed\n"
                     b"1,1,2,A,B,1.00000000,1,0.00000000,1,ties,1,1,2\n2,1,4,B,C,1.00000000,1,0.00000000,1,ties,1,1,1\n"
                     b"3,1,6,C,A,-2.00000000,1,0.00000000,2,shows,,,\n4,1,8,A,C,2.50000000,1,0.50000000,2,shows,,,\n")
DIFFERENCES_BOOK = (b"*110001+000000000000000A 84..40+0000000000000000 87..48+0000000000000000 88..48+0000000000000000 \r\n"
                    b"*110002+000000000000000B 33..48+0000000000150000 \r\n"
                    b"*110003+000000000000000C 33..48-0000000000000001 \r\n")
# What explains them, as the second office prints it.
MISREAD_EXPLAINED = (b"number,kind,book,line,word,from,to,sights,given,low,high,explains,left,blunders,last,poles,instruments,reading,name,fit\n"
                        b"1,sight,1,4,,A,B,1,3.54500000,2.54500000,2.54600000,0.99900000,0.00100000,0,,,,,,\n")
TRIANGLE_EXPLAINED = (b"cost                          0.50000000\n"
                        b"blunder limit                 0.02000000\n"
                        b"marked                                 1\n"
                        b"sights                                 4\n"
                        b"entries                                0\n"
                        b"changes                                0\n"
                        b"benchmarks                             0\n"
                        b"books                                  1\n"
                        b"explanations                           1\n"
                        b"  NO  BK    LINE  WORD  FROM              TO                     PROPOSED     COST LEFT BLUNDERS\n"
                        b"   1   1       8        A                 C                    2.00000000    0.00000000        0\n"
                        b"\n"
                        b"One wrong number explains this: the sight of line 8.\n"
                        b"The sight of line 8: given 2.50000000, fits 2.00000000.\n")
# A setup and a sight with heights, and their book.
HEIGHTS = (b"110001+0000000A 86..40+00250112 88..10+00001545\n"
           b"110002+0000000B 31..00+00027472 83..00+00251384\n")
HEIGHTS_BOOK = (b"110001+0000000A 86..40+00250112 88..10+00001545\r\n"
                b"110002+0000000B 31..00+00027472 83..00+00251384 87..48+00000000 33..48-00027300 \r\n")
# A table of changes for that book, and the book with them.
CHANGES = b"line,word,value\n2,88 since,1.6\n1,from,C\n"
MENDED = (b"110001+0000000C 86..40+00250112 88..10+00001545\n"
          b"110002+0000000B 31..00+00027472 83..00+00251384 88..48+00160000\n")
INPUTS = {
    "misread.gsi": MISREAD,
    "triangle.gsi": TRIANGLE,
    "marks.csv": b"point,height\nA,100\n",
    "weights.csv": b"from,to,weight\nB,A,7\n",
    "misread.csv": MISREAD_CERTIFICATE,
    "triangle.csv": TRIANGLE_CERTIFICATE,
    "differences.csv": b"from,to,difference\nA,B,1.5\nA,C,-0.00001\n",
    "heights.gsi": HEIGHTS,
    "changes.csv": CHANGES,
}
# The calls that are refused memory in turn.
CALLS = {f"{call} wants memory\n".encode("ascii")
         for call in ("Book::line", "BookFeed", "read_book", "read_benchmarks", "read_weights", "Network::build",
                      "settle")}
TABLES = ["--benchmarks", "marks.csv", "--weights", "weights.csv"]
LIMIT = 2_000_000


def page_of(book: str) -> bytes:
    """The page of a book, as the second office writes it."""
    names = [book.encode(), b"marks.csv", b"weights.csv"]
    inputs = office.Inputs([INPUTS[book]], INPUTS["marks.csv"], INPUTS["weights.csv"], names)
    explained = office.explain(inputs, LIMIT, csv_text)[0]
    return office.page(office.review(inputs, LIMIT), explained, inputs, b"own", names[:1]).files[".html"]


class Answer(NamedTuple):
    """What a run gave: its files by name, and whether a request was refused."""

    status: int
    standard_output: bytes
    standard_error: bytes
    files: Dict[str, bytes]
    refused: bool


MISREAD_NOTE = b"note: 1 of 3 sights is marked, up to 0.99900000 m: explain names the number that may be wrong\n"
TRIANGLE_NOTE = b"note: 1 of 4 sights is marked, up to 0.50000000 m: explain names the number that may be wrong\n"


class Series(NamedTuple):
    """A command line, what it has to print, a file that it has to write, and its notes on standard error."""

    title: str
    words: List[str]
    printed: bytes
    file: Optional[Tuple[str, bytes]]
    noted: bytes = b""


SERIES = (
    Series("list of a misread sight", ["list", "misread.gsi"], MISREAD_LIST, None),
    Series("list of a triangle", ["list", "triangle.gsi"], TRIANGLE_LIST, None),
    Series("list of a book without sights", ["list", "heights.gsi"], b"number,from,to,difference\n", None,
           b"note: book 1 has no sight in 2 blocks (no word 33; it has words 31 and 83)\n"),
    Series("adjustment of a misread sight", ["adjust"] + TABLES + ["--out", "own", "misread.gsi"], b"",
           ("own.heights.csv", MISREAD_HEIGHTS), MISREAD_NOTE),
    Series("adjustment of a triangle", ["adjust"] + TABLES + ["--out", "own", "triangle.gsi"], b"",
           ("own.heights.csv", TRIANGLE_HEIGHTS), TRIANGLE_NOTE),
    Series("adjustment of a triangle and a book without sights",
           ["adjust"] + TABLES + ["--out", "own", "triangle.gsi", "heights.gsi"], b"",
           ("own.heights.csv", TRIANGLE_HEIGHTS),
           b"note: book 2 has no sight in 2 blocks (no word 33; it has words 31 and 83)\n" + TRIANGLE_NOTE),
    Series("review of a misread sight", ["review"] + TABLES + ["--out", "own", "misread.gsi"], b"",
           ("own.observations.csv", MISREAD_MISTAKES)),
    Series("review of a triangle", ["review"] + TABLES + ["--out", "own", "triangle.gsi"], b"",
           ("own.observations.csv", TRIANGLE_MISTAKES)),
    Series("explanation of a misread sight", ["explain"] + TABLES + ["--csv", "misread.gsi"], MISREAD_EXPLAINED, None),
    Series("explanation of a triangle", ["explain"] + TABLES + ["triangle.gsi"], TRIANGLE_EXPLAINED, None),
    Series("page of a triangle", ["page"] + TABLES + ["--out", "own", "triangle.gsi"], b"", ("own.html", page_of("triangle.gsi"))),
    Series("check of a misread sight", ["check"] + TABLES + ["--certificate", "misread.csv", "misread.gsi"], b"yes\n",
           None),
    Series("check of a triangle", ["check"] + TABLES + ["--certificate", "triangle.csv", "triangle.gsi"], b"yes\n",
           None),
    Series("book of a table", ["book", "differences.csv"], DIFFERENCES_BOOK, None),
    Series("book of a book with heights", ["book", "--heights", "heights.gsi"], HEIGHTS_BOOK, None),
    Series("mended book", ["mend", "changes.csv", "heights.gsi"], MENDED, None),
)


class Wrong(Exception):
    """An answer that is not allowed, in words."""


# Running


class Folder:
    """Where the runs take place: the inputs, the allocator, and what a run leaves."""

    def __init__(self, path: Path) -> None:
        self.path = path
        self.allocator = path / "refusing_allocator.so"
        compiler = ["cc", "-shared", "-fPIC", "-O1", "-o", str(self.allocator), str(HERE / "refusing_allocator.c")]
        subprocess.run(compiler, check=True)
        for name, text in INPUTS.items():
            (path / name).write_bytes(text)
        os.chdir(path)

    def run(self, program: Path, words: List[str], refuse: str) -> Answer:
        """Runs a program with requests refused: `3` the third alone, `3..` it and all behind it, `0` none."""
        for left in self.path.glob("own.*"):
            left.unlink()
        actions = [(os.POSIX_SPAWN_OPEN, 0, "/dev/null", os.O_RDONLY, 0)]
        for descriptor, name in ((1, "stdout"), (2, "stderr"), (3, "refused")):
            actions.append((os.POSIX_SPAWN_OPEN, descriptor, name, os.O_WRONLY | os.O_CREAT | os.O_TRUNC, 0o644))
        environment = {**os.environ, "LD_PRELOAD": str(self.allocator), "REFUSE": refuse}
        process = os.posix_spawn(str(program), [str(program)] + words, environment, file_actions=actions)
        status = os.waitstatus_to_exitcode(os.waitpid(process, 0)[1])
        printed, said, refused = (Path(name).read_bytes() for name in ("stdout", "stderr", "refused"))
        files = {left.name: left.read_bytes() for left in self.path.glob("own.*")}
        return Answer(status, printed, said, files, refused != b"")


# Comparing


def wants_memory(answer: Answer) -> bool:
    return answer[:4] == (NO_MEMORY, b"", b"out of memory\n", {})


def check_right(series: Series, answer: Answer) -> None:
    if answer[:3] != (0, series.printed, series.noted):
        raise Wrong(f"{series.title}: {answer[:3]}")
    if series.file is not None and answer.files.get(series.file[0]) != series.file[1]:
        raise Wrong(f"{series.title}: {answer.files}")


def refuse_in_turn(folder: Folder, program: Path, series: Series, and_all_behind: bool) -> str:
    """Refuses each request of a run in turn, and says how many there are, and how many want memory."""
    right = folder.run(program, series.words, "0")
    check_right(series, right)
    wanting = 0
    for request in range(1, MOST_REQUESTS):
        refuse = f"{request}.." if and_all_behind else str(request)
        answer = folder.run(program, series.words, refuse)
        if wants_memory(answer) and answer.refused:
            wanting += 1
        elif answer[:4] != right[:4]:
            raise Wrong(f"{series.title}, request {refuse}: {answer[:4]}")
        if not answer.refused:
            if wanting == 0:
                raise Wrong(f"{series.title}: no request was wanted")
            which = " and all behind it" if and_all_behind else ""
            return f"{series.title}: {request - 1} requests{which} refused in turn, {wanting} times out of memory"
    raise Wrong(f"{series.title}: more requests than may be")


def refuse_calls(folder: Folder, program: Path) -> List[str]:
    """Refuses each request of the program of calls in turn, and says how often each call wanted memory."""
    right = folder.run(program, [], "0")
    wanting: Dict[bytes, int] = {}
    for request in range(1, MOST_REQUESTS):
        answer = folder.run(program, [], str(request))
        lines = answer.standard_output.splitlines(keepends=True)
        said = [line for line in lines if line.endswith(b" wants memory\n")]
        rest = b"".join(line for line in lines if line not in said)
        if (answer.status, rest, answer.standard_error) != right[:3] or len(said) > answer.refused:
            raise Wrong(f"calls, request {request}: {answer[:3]}")
        for line in said:
            wanting[line] = wanting.get(line, 0) + 1
        if not answer.refused:
            if set(wanting) != CALLS:
                raise Wrong(f"calls: {wanting} wanted memory, and not {CALLS}")
            return [f"calls: {request - 1} requests refused in turn"] + [
                f"calls: {line.decode('ascii').rstrip()} at {count} of them" for line, count in wanting.items()]
    raise Wrong("calls: more requests than may be")


def arguments() -> argparse.Namespace:
    parser = argparse.ArgumentParser(description="Refuses each request for memory in turn.")
    parser.add_argument("--program", type=Path, default=DEFAULT_PROGRAM, help="the built program")
    parser.add_argument("--calls", type=Path, default=DEFAULT_CALLS, help="the built program tests_memory")
    return parser.parse_args()


def run_all(folder: Folder, program: Path, calls: Path) -> None:
    for series in SERIES:
        for and_all_behind in (False, True):
            print(refuse_in_turn(folder, program, series, and_all_behind), flush=True)
    for line in refuse_calls(folder, calls):
        print(line)


def main() -> int:
    chosen = arguments()
    for program in (chosen.program, chosen.calls):
        if not os.access(program, os.X_OK):
            print(f"there is no program at {program}: build it with `make build calls`", file=sys.stderr)
            return 2
    program, calls = chosen.program.resolve(), chosen.calls.resolve()
    scratch = tempfile.mkdtemp(prefix="refused_memory_")
    try:
        run_all(Folder(Path(scratch)), program, calls)
    except Wrong as wrong:
        print(f"WRONG {wrong}")
        return 1
    finally:
        os.chdir(HERE)
        shutil.rmtree(scratch)
    return 0


if __name__ == "__main__":
    sys.exit(main())
