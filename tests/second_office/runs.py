"""Runs of the program on a project, and how their answers are compared with the second office's."""

import os
import re
from contextlib import suppress
from itertools import islice, zip_longest
from pathlib import Path
from typing import Dict, List, NamedTuple

import office
from explain import csv_text, people_text
from projects import DEFAULT_LIMIT, Project
from review import as_chosen

ROOT = Path(__file__).resolve().parents[2]
DEFAULT_PROGRAM = ROOT / "crates" / "height_office" / "out" / "height_office"
LONGEST_PRINTED_TEXT = 300
ENDS = (".heights.csv", ".certificate.csv", ".report.txt", ".heights.gsi")
REVIEW_ENDS = (".points.csv", ".observations.csv", ".entries.csv", ".benchmarks.csv", ".review.txt")
PAGE_END = ".html"
LINE_FEED = b"\n"
# The forms of what `explain` prints: the option, and the second office's text.
EXPLAIN_FORMS = {"text": ([], people_text), "table": (["--csv"], csv_text)}


class Files(NamedTuple):
    """A project in a folder: the words of the command line that name its inputs."""

    folder: Path
    words: List[str]


# The files of a project


def saved(project: Project, folder: Path) -> Files:
    """Writes a project's inputs."""
    words = ["--benchmarks", "benchmarks.csv"]
    (folder / "benchmarks.csv").write_bytes(project.inputs.benchmarks)
    if project.inputs.weights is not None:
        (folder / "weights.csv").write_bytes(project.inputs.weights)
        words += ["--weights", "weights.csv"]
    for number, book in enumerate(project.inputs.books, start=1):
        (folder / f"book_{number}.gsi").write_bytes(book)
        words.append(f"book_{number}.gsi")
    return Files(folder, words)


def saved_under(names: List[bytes], project: Project, files: Files) -> Files:
    """The same project with books of these names, which may lead into other folders."""
    for name, book in zip(names, project.inputs.books):
        path = Path(os.fsdecode(os.fsencode(files.folder) + b"/" + name))
        path.parent.mkdir(parents=True, exist_ok=True)
        path.write_bytes(book)
    words = files.words[:len(files.words) - len(names)]
    return Files(files.folder, words + [os.fsdecode(name) for name in names])


def network_words(command: str, project: Project, files: Files) -> List[str]:
    """The words of `adjust`, `review` or `page`."""
    limit = [] if project.limit is None else ["--blunder", str(project.limit)]
    return [command, "--out", "own"] + limit + files.words


def explain_words(project: Project, files: Files, form: str) -> List[str]:
    """The words of `explain`, for one of its two forms."""
    limit = [] if project.limit is None else ["--blunder", str(project.limit)]
    return ["explain"] + limit + EXPLAIN_FORMS[form][0] + files.words


def written(folder: Path) -> Dict[str, bytes]:
    files = {}
    for end in ENDS + REVIEW_ENDS + (PAGE_END,):
        with suppress(FileNotFoundError), open(f"{folder}/own{end}", "rb") as file:
            files[end] = file.read()
    return files


def limit_of(project: Project) -> int:
    return office.UNITS_IN_MICROMETRE * (DEFAULT_LIMIT if project.limit is None else project.limit)


def second_adjustment(project: Project) -> office.Answer:
    """What the second office gives for a project."""
    return office.adjust(project.inputs, limit_of(project))


def second_review(project: Project) -> office.Answer:
    """What the second office says that a mistake would do in a project."""
    return office.review(project.inputs, limit_of(project))


def second_explanations(project: Project, *forms: str) -> List[office.Answer]:
    """What the second office says that would explain a project, in some of the two forms."""
    return office.explain(project.inputs, limit_of(project), *(EXPLAIN_FORMS[form][1] for form in forms))


# Comparing


def shortened(text: bytes) -> str:
    if len(text) <= LONGEST_PRINTED_TEXT:
        return repr(text)
    return f"{text[:LONGEST_PRINTED_TEXT]!r}... ({len(text)} bytes)"


def differ(what: str, own: object, second: object) -> List[str]:
    if own == second:
        return []
    show = [shortened(text) if isinstance(text, bytes) else repr(text) for text in (own, second)]
    return [f"{what}: program {show[0]}, second office {show[1]}"]


def differ_in_lines(what: str, own: bytes, second: bytes) -> List[str]:
    """The first line in which two texts differ."""
    pairs = zip_longest(own.split(LINE_FEED), second.split(LINE_FEED), fillvalue=b"(no line)")
    different = ((number, pair) for number, pair in enumerate(pairs, start=1) if pair[0] != pair[1])
    return [difference for number, pair in islice(different, 1) for difference in differ(f"{what}, line {number}", *pair)]


def without_flows(certificate: bytes) -> bytes:
    """A certificate with its flows left open."""
    return re.sub(rb"^(F,[0-9]+),.*$", rb"\1,?", certificate, flags=re.MULTILINE)


def compare_files(project: Project, own: Dict[str, bytes], answer: office.Answer) -> List[str]:
    """Compares files byte by byte. What a mistake would move has to be what the definition allows, where it allows several."""
    second = answer.files
    differences = differ("files", sorted(own), sorted(second))
    if differences or not second:
        return differences
    if answer.review is not None:
        second = as_chosen(answer.review, own)
        return [difference for end in REVIEW_ENDS for difference in differ(end, own[end], second[end])]
    for end in (".heights.csv", ".report.txt", ".heights.gsi"):
        differences += differ(end, own[end], second[end])
    certificate = own[".certificate.csv"]
    differences += differ(".certificate.csv", without_flows(certificate), without_flows(second[".certificate.csv"]))
    verdict = office.check(project.inputs, certificate)
    return differences + differ("the second office's verdict on the program's flows", b"yes\n", verdict.standard_output)


def outcome_of(command: str, answer: office.Answer) -> str:
    """The command with its line, without the numbers and names in it."""
    if command in ("list", "explain") and answer.status == 0:
        return f"{command}: {'rows' if answer.standard_output.count(LINE_FEED) > 1 else 'header'}"
    line = (answer.standard_output + answer.standard_error).decode("ascii").rstrip("\n")
    line = re.sub(r" at .*| for .*", "", re.sub(r"(book|line|record|word) [0-9]+", r"\1 K", line))
    return f"{command}: {line or 'files'}"
