#!/usr/bin/env python3
"""A second office, written from docs/FORMATS.md alone.

    office.py adjust --benchmarks F [--weights F] [--blunder MICROMETRES] --out PREFIX BOOK...
    office.py review --benchmarks F [--weights F] [--blunder MICROMETRES] --out PREFIX BOOK...
    office.py check --benchmarks F [--weights F] --certificate F [--inputs] BOOK...
    office.py explain --benchmarks F [--weights F] [--blunder MICROMETRES] [--csv] BOOK...
    office.py page --benchmarks F [--weights F] [--blunder MICROMETRES] [--title TEXT] --out PREFIX BOOK...

Gives what the program gives: the same files, the same lines, the same statuses. It shares nothing with the program, so that where
the two differ one of them, or the page, is at fault. Which of several best flows a certificate carries is left open: the program's
may differ from these.
"""

import argparse
import os
import sys
from pathlib import Path
from typing import Dict, List, NamedTuple, Optional

from answer import answer_of
from certificates import CertificateFault, certificate_text, read_certificate, verdict_line
from explain import Explanation, csv_text, explanation_of, people_text
from inputs import Input, input_line, inputs_of
from network import Heights, Network, NetworkFault, Sight, best_flows, cost_of, highest_heights, lowest_heights, make_network
from page import page_text
from pages import page_of
import notes
import review as reviews
from tables import TableFault, read_benchmarks, read_weights, reader
from texts import gsi_text, heights_text, report_text

UNITS_IN_MICROMETRE = 100
DEFAULT_BLUNDER = 20_000


class Inputs(NamedTuple):
    """The bytes that an adjustment and a check read, and the names of the files, if they are not those of `runs.saved`."""

    books: List[bytes]
    benchmarks: bytes
    weights: Optional[bytes]
    names: Optional[List[bytes]] = None

    def named(self) -> List[Input]:
        """The inputs with their names."""
        names = self.names or [b"book_%d.gsi" % number for number, _ in enumerate(self.books, start=1)] + [b"benchmarks.csv", b"weights.csv"]
        return inputs_of(names, self.books, self.benchmarks, self.weights)


class Adjusted(NamedTuple):
    """A network, its lowest and highest best heights, and flows that show them."""

    network: Network
    low: Heights
    high: Heights
    flows: List[int]


class Refused(Exception):
    """An input was refused, with the line for standard error."""


class Answer(NamedTuple):
    """What a command gives. Files are known by the ends of their names."""

    status: int
    standard_output: bytes
    standard_error: bytes
    files: Dict[str, bytes]
    review: Optional[reviews.Review] = None
    explanation: Optional[Explanation] = None


# Inputs


def sight_lines(book: bytes) -> List[int]:
    """The numbers of the lines that are sights, of a book without a fault."""
    lines = enumerate(reader.split_into_lines(book), start=1)
    return [number for number, line in lines if not reader.is_blank(line) and reader.is_sight(reader.read_block(line))]


def sights_of(number: int, book: bytes) -> List[Sight]:
    """The sights of a book that is given as book `number`."""
    try:
        observations = reader.read_book(book)
    except reader.BookFault as fault:
        raise Refused(f"book {number} line {fault.line}: {fault.kind} {fault.words}") from None
    return [Sight(observation.station, observation.target, observation.difference, number, line)
            for observation, line in zip(observations, sight_lines(book))]


def table_of(which: str, read, text: bytes):
    try:
        return read(text)
    except (TableFault, CertificateFault) as fault:
        raise Refused(f"{which} record {fault.record}: {fault.kind} {fault.words}") from None


def network_of(sights: List[Sight], benchmarks: Heights, weights) -> Network:
    try:
        return make_network(sights, benchmarks, weights)
    except NetworkFault as fault:
        raise Refused(f"network: {fault.kind} {fault.words}") from None


def read_inputs(inputs: Inputs, certificate: Optional[bytes]):
    """The network and what the certificate says. The first input with a fault decides: books, benchmarks, weights, certificate, network."""
    sights = [sight for number, book in enumerate(inputs.books, start=1) for sight in sights_of(number, book)]
    benchmarks = table_of("benchmarks", read_benchmarks, inputs.benchmarks)
    weights = table_of("weights", read_weights, inputs.weights or b"")
    stated = None if certificate is None else table_of("certificate", read_certificate, certificate)
    return network_of(sights, benchmarks, weights), stated


# Commands


def adjusted(network: Network) -> Adjusted:
    flows = best_flows(network)
    return Adjusted(network, lowest_heights(network, flows), highest_heights(network, flows), flows)


def files_of(answer: Adjusted, limit: int) -> Dict[str, bytes]:
    return {
        ".heights.csv": heights_text(answer.network, answer.low, answer.high),
        ".certificate.csv": certificate_text(answer.network, answer.low, answer.high, answer.flows),
        ".report.txt": report_text(answer.network, answer.low, limit),
        ".heights.gsi": gsi_text(answer.network, answer.low),
    }


def notes_of(books: List[bytes], answer: Adjusted, limit: int) -> bytes:
    """The lines on standard error at status 0 of an adjustment."""
    return notes.joined(notes.sightless(books) + notes.repeated(answer.network.observations) + notes.loose(answer.network, answer.low, answer.high, limit)
                        + notes.marked(answer.network, answer.low, limit) + notes.outlying(answer.network, answer.low, limit)
                        + notes.in_one_case(answer.network))


def refused(fault: Refused) -> Answer:
    return Answer(2, b"", f"{fault}\n".encode("ascii"), {})


def adjust(inputs: Inputs, limit: int) -> Answer:
    try:
        network, _ = read_inputs(inputs, None)
    except Refused as fault:
        return refused(fault)
    answer = adjusted(network)
    return Answer(0, b"", notes_of(inputs.books, answer, limit), files_of(answer, limit))


def review(inputs: Inputs, limit: int) -> Answer:
    try:
        network, _ = read_inputs(inputs, None)
    except Refused as fault:
        return refused(fault)
    answer = adjusted(network)
    weights = read_weights(inputs.weights or b"")
    found = reviews.review_of(network, answer.low, answer.high, limit, inputs.books, weights, inputs.named())
    return Answer(0, b"", b"", reviews.files_of(found), found)


def check(inputs: Inputs, certificate: bytes, listed_as: Optional[bytes] = None) -> Answer:
    """The verdict, and behind `yes` the lines of the inputs if the name of the certificate is given."""
    try:
        network, stated = read_inputs(inputs, certificate)
    except Refused as fault:
        return refused(fault)
    line = verdict_line(network, stated)
    if line != b"yes\n":
        return Answer(1, line, b"", {})
    listed = [] if listed_as is None else inputs.named() + [Input("certificate", listed_as, certificate)]
    return Answer(0, line + b"".join(input_line(own).encode() + b"\n" for own in listed), b"", {})


def explain(inputs: Inputs, limit: int, *texts) -> List[Answer]:
    """What is printed in each of some forms: the text for people, the table."""
    try:
        network, _ = read_inputs(inputs, None)
    except Refused as fault:
        return [refused(fault) for _ in texts]
    explanation = explanation_of(network, adjusted(network).low, limit, inputs.books)
    return [Answer(0, text(explanation), b"", {}, explanation=explanation) for text in texts]


def page(reviewed: Answer, explained: Answer, inputs: Inputs, title: bytes, names: Optional[List[bytes]] = None) -> Answer:
    """The page of a project, given what `review` and `explain` find. The books may have other names."""
    if reviewed.review is None or explained.explanation is None:
        return reviewed
    found, names = reviewed.review, names or []
    named = [own._replace(name=name) for own, name in zip(found.inputs, names)] + found.inputs[len(names):]
    answer = answer_of(found.network, found.low, explained.explanation, inputs.books)
    return Answer(0, b"", b"", {".html": page_text(page_of(found, explained.explanation, answer, named, title))})


# The command line


def arguments(words: Optional[List[str]] = None) -> argparse.Namespace:
    parser = argparse.ArgumentParser(description="A second office, to be compared with the program.")
    commands = parser.add_subparsers(dest="command", required=True)
    for name in ("adjust", "review", "check", "explain", "page"):
        command = commands.add_parser(name)
        command.add_argument("--benchmarks", type=Path, required=True)
        command.add_argument("--weights", type=Path)
        command.add_argument("books", type=Path, nargs="+", metavar="BOOK")
    for name in ("adjust", "review", "explain", "page"):
        commands.choices[name].add_argument("--blunder", type=int, default=DEFAULT_BLUNDER)
    for name in ("adjust", "review", "page"):
        commands.choices[name].add_argument("--out", required=True)
    commands.choices["page"].add_argument("--title")
    commands.choices["explain"].add_argument("--csv", action="store_const", const=csv_text, default=people_text)
    commands.choices["check"].add_argument("--certificate", type=Path, required=True)
    commands.choices["check"].add_argument("--inputs", action="store_true")
    return parser.parse_args(words)


def run(chosen: argparse.Namespace) -> Answer:
    books = [path.read_bytes() for path in chosen.books]
    weights = chosen.weights.read_bytes() if chosen.weights else None
    names = [os.fsencode(path) for path in chosen.books + [chosen.benchmarks] + ([chosen.weights] if chosen.weights else [])]
    inputs = Inputs(books, chosen.benchmarks.read_bytes(), weights, names)
    if chosen.command == "check":
        return check(inputs, chosen.certificate.read_bytes(), os.fsencode(chosen.certificate) if chosen.inputs else None)
    limit = UNITS_IN_MICROMETRE * chosen.blunder
    if chosen.command == "explain":
        return explain(inputs, limit, chosen.csv)[0]
    if chosen.command == "page":
        title = chosen.title or chosen.out.rsplit("/", 1)[-1]
        return page(review(inputs, limit), explain(inputs, limit, csv_text)[0], inputs, os.fsencode(title))
    return adjust(inputs, limit) if chosen.command == "adjust" else review(inputs, limit)


def main() -> int:
    chosen = arguments()
    answer = run(chosen)
    for end, text in answer.files.items():
        Path(chosen.out + end).write_bytes(text)
    sys.stdout.buffer.write(answer.standard_output)
    sys.stderr.buffer.write(answer.standard_error)
    return answer.status


if __name__ == "__main__":
    sys.exit(main())
