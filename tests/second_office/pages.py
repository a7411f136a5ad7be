"""The page of a network: what docs/PAGE.md shows of what a review and an explanation find, and of what that means."""

from itertools import zip_longest
from typing import List

from answer import Answer
from explain import Explanation as Explained
from explain import sentences
from inputs import Input
from markings import Benchmark, Entry, Explanation, Page, Point, Sight
from network import cost_of
from review import Review

# Names of books, and notes, that would do harm if they were markup.
HOSTILE = [b"<script>alert(1)</script>.gsi", b"a&amp;b.gsi", b'"quoted" & \'so\'.gsi', "\u202eright to left.gsi".encode("utf-8"),
           b"control\x01\x1f\x7f.gsi", b"\xff\xfe.gsi", b"</style></bdi>.gsi", b"monday.gsi"]


def page_of(review: Review, found: Explained, answer: Answer, inputs: List[Input], title: bytes) -> Page:
    """The page of a network of these inputs."""
    network = review.network
    place = {name: k for k, name in enumerate(network.points)}
    points = [Point(name, review.low[name], review.high[name], review.strengths[name], drawn, moved)
              for name, drawn, moved in zip(network.points, answer.drawn, answer.moved)]
    parts = zip(network.observations, review.controls, review.mistakes(), answer.groups)
    sights = [Sight(number, own.book, own.line, place[own.station], place[own.target], own.difference, own.weight,
                    own.residual(review.low), control, mistake, group) for number, (own, control, mistake, group) in enumerate(parts, start=1)]
    entries = [Entry(own.book, own.line, "reflector" if own.word == b"87" else "instrument", own.station, own.length, len(own.sights),
                     review.weight_of(own), mistake) for own, mistake in zip(review.entries, review.shared_mistakes())]
    benchmarks = [Benchmark(own.name, own.height, len(own.places), own.weight, own.mistake, others)
                  for own, others in zip_longest(review.benchmarks, answer.others)]
    rows = [Explanation(number, row.number.kind, row.number.book, row.number.line, row.number.station or None, row.number.target or None,
                        row.number.given, row.low, row.high, row.left, row.blunders) for number, row in found.rows]
    notes = [note.encode("ascii") for note in review.notes]
    says = [sentence.encode("ascii") for sentence in sentences(found)]
    return Page(title, inputs, points, sights, entries, benchmarks, rows, says, notes, cost_of(network, review.low), review.limit, answer.outlier)
