"""The page: docs/PAGE.md, but for its pictures. Lengths are in units of 10 nm."""

from pathlib import Path
from typing import Iterable, List, Optional

from markings import (Benchmark, Entry, Explanation, Page, Point, Sight, count, escaped, first_rows, height, is_marked, largest_within, place,
                      signed, size, span)
from picture import legend, picture, strip, undrawn

ROWS, BLOCK, MOST_LISTED = 100, 20, 2_000
STYLE = (Path(__file__).resolve().parents[2] / "docs" / "page" / "style.css").read_bytes()


def number(value: int) -> bytes:
    return b"%d" % value


def optional(value: Optional[int], text=number) -> bytes:
    return b"" if value is None else text(value)


def paragraph(text: bytes) -> bytes:
    return b"<p>%s</p>\n" % text


# What the verdict depends on


def loops(page: Page) -> int:
    return max(0, len(page.sights) - new_points(page))


def new_points(page: Page) -> int:
    return sum(point.strength is not None for point in page.points)


def moved_points(page: Page) -> List[Point]:
    return [point for point in page.points if point.moved is not None]


def unchecked(rows: Iterable) -> int:
    return sum(row.mistake == "unchecked" for row in rows)


HEADINGS = {
    "unlike": b"All sights are within the limit, but not all fit alike.",
    "unchecked": b"Nothing checks these heights.",
    "fits": b"All sights fit.",
    "doubted": b"All sights are within the limit, but one number may be wrong.",
    "unexplained": b"Sights do not fit, and no one number explains it.",
    "in part": b"Sights do not fit, and no one number explains all of it.",
    "explained": b"One wrong number explains all that does not fit.",
    "undecided": b"One wrong number explains all that does not fit, but the books do not say which.",
}


def verdict_without_marks(page: Page) -> str:
    if page.explanations:
        return "doubted"
    if not loops(page):
        return "unchecked"
    return "unlike" if page.outlier is not None else "fits"


def verdict_on(page: Page) -> str:
    """Which row of the table of verdicts applies first."""
    if not any(is_marked(page, sight) for sight in page.sights):
        return verdict_without_marks(page)
    if not page.explanations:
        return "unexplained"
    explaining = sum(row.blunders == 0 for row in first_rows(page))
    return "in part" if explaining == 0 else "explained" if explaining == 1 else "undecided"


def class_of(page: Page) -> bytes:
    verdict = verdict_on(page)
    if moved_points(page) or verdict in ("unexplained", "in part"):
        return b"bad"
    return b"good" if verdict == "fits" and not unchecked(page.sights) and not unchecked(page.entries) else b"care"


# The verdict


def meaning(page: Page) -> bytes:
    marked = sum(is_marked(page, sight) for sight in page.sights)
    whose = b"Its residual is" if marked == 1 else b"Their residuals are"
    text = whose + b' above the limit: see <a href="#residuals">residuals</a>.' if marked else b"No residual is above the limit."
    wait = b" Do not use these heights yet." if class_of(page) == b"bad" else b""
    return paragraph(b"<b>%d of %d sights marked.</b> %s%s" % (marked, len(page.sights), text, wait))


def moves(page: Page) -> bytes:
    """What the first rows move."""
    points, alone = moved_points(page), len(first_rows(page)) == 1
    if not points:
        return paragraph(b"No height moves by more than %s then." % size(page.limit))
    if not alone:
        return paragraph(b"%s on it by more than %s: struck out below." % (count(len(points), b"height depends", b"heights depend"), size(page.limit)))
    if len(points) > 1:
        return paragraph(b"Then %d heights move by more than %s: they are struck out below." % (len(points), size(page.limit)))
    point = points[0]
    return paragraph(b"Then the height of <b>%s</b> is <b>%s</b> in place of <s>%s</s>." % (escaped(point.name), height(point.moved[0]), height(point.low)))


def unlike(page: Page) -> bytes:
    """What the note on the sight that is farthest from the usual residual says."""
    own = page.outlier
    return paragraph(b"The sight in line %d of book %d is off by %s: %d times the usual residual. To see what would explain it, make the page again "
                     b"with <code>--blunder %d</code>." % (own.observation.line, own.observation.book, size(own.size), own.times, own.proposed))


def verdict(page: Page) -> bytes:
    out = b'<div class="verdict %s">\n<h2>%s</h2>\n' % (class_of(page), HEADINGS[verdict_on(page)])
    out += meaning(page) + b"".join(paragraph(escaped(sentence)) for sentence in page.says)
    out += moves(page) if first_rows(page) else b""
    out += unlike(page) if verdict_on(page) == "unlike" else b""
    counts = [count(many, one, more) for many, one, more in ((unchecked(page.sights), b"sight", b"sights"),
                                                             (unchecked(page.entries), b"keyed-in height", b"keyed-in heights")) if many]
    if counts:
        out += paragraph(b"Nothing checks %s: a mistake there would not show." % b" and ".join(counts))
    if len(page.points) - new_points(page) == 1:
        out += paragraph(b"All heights rest on one benchmark: nothing checks its height.")
    return out + b"</div>\n"


def fact(value: bytes, what: bytes) -> bytes:
    return b"<li><b>%s</b>%s\n" % (value, what)


def facts(rows: List[bytes]) -> bytes:
    return b'<ul class="facts">\n' + b"".join(rows) + b"</ul>\n"


# Tables

SIGHT_HEAD = b"<td>Place<th>From<th>To<td>Observed<td>Residual<td>Weight<td>Control<th>"
ENTRY_HEAD = b"<td>Place<th>Height of<th>At<td>Given<td>Sights<td>Weight<th>A mistake"
WEAK_BENCHMARK_HEAD = b"<th>Benchmark<td>Height<td>Sights<td>Weight<th>A mistake"
BENCHMARK_HEAD = b"<th>Benchmark<td>Given<td>Sights<td>The others say<td>Off by"
HEIGHT_HEAD = b"<th>Point<td>Height<td>up to<td>Strength"
EXPLANATION_HEAD = b"<td>No<td>Place<th>What<th>At<td>Given<td>Proposed<td>up to<td>Cost left<td>Marks left"
WHAT = {"instrument": b"instrument height", "reflector": b"reflector height", "instrument since": b"instrument height since",
        "reflector since": b"reflector height since", "sight": b"sight", "benchmark": b"benchmark", "book": b"word 33 of the book"}
GROUP_WORDS = {"a": b"in question", "s": b"does not fit", "c": b"fits if mended", "v": b"unlike the others", "q": b""}


def row_start(is_first: bool) -> bytes:
    return b'<tr class="x">' if is_first else b"<tr>"


def sight_cells(page: Page, sight: Sight) -> bytes:
    return (b"<tr><td>%s<th>%s<th>%s<td>%s<td>%s<td>%d<td>%s"
            % (place(sight.book, sight.line), escaped(page.points[sight.station].name), escaped(page.points[sight.target].name),
               height(sight.difference), signed(sight.residual), sight.weight, optional(sight.control)))


def sight_row(page: Page, sight: Sight) -> bytes:
    return sight_cells(page, sight) + b'<th class="t">%s\n' % GROUP_WORDS[sight.group]


def weak_sight_row(page: Page, sight: Sight) -> bytes:
    return sight_cells(page, sight) + b"<th>%s\n" % sight.mistake.encode()


def entry_row(entry: Entry) -> bytes:
    return (b"<tr><td>%s<th>%s<th>%s<td>%s<td>%d<td>%d<th>%s\n"
            % (place(entry.book, entry.line), entry.kind.encode(), escaped(entry.station), height(entry.length), entry.sights, entry.weight,
               entry.mistake.encode()))


def weak_benchmark_row(row: Benchmark) -> bytes:
    return b"<tr><th>%s<td>%s<td>%d<td>%d<th>%s\n" % (escaped(row.name), height(row.height), row.sights, row.weight, row.mistake.encode())


def off_by(row: Benchmark) -> int:
    """How far the given height is outside what the others say."""
    low, high = row.others and row.others.differ or (row.height, row.height)
    return max(0, low - row.height, row.height - high)


def benchmark_row(page: Page, row: Benchmark) -> bytes:
    off = off_by(row)
    return row_start(off > page.limit) + b"<th>%s<td>%s<td>%d%s\n" % (escaped(row.name), height(row.height), row.sights, said_of(page, row))


def said_of(page: Page, row: Benchmark) -> bytes:
    """The cells of what the others say, and how far the given height is off."""
    if row.others is None:
        return b"<td><td>"
    if not row.others.speak:
        return b"<td>nothing%s<td>" % (b": it is the only one" if len(page.benchmarks) == 1 else b"")
    off = off_by(row)
    return b"<td>%s<td>%s" % (span(row.others.differ) if row.others.differ else b"", size(off) if off else b"fits")


def height_row(point: Point, has_moved: bool) -> bytes:
    strength = b"benchmark" if point.strength is None else number(point.strength)
    if point.moved is not None:
        return b'<tr class="x"><th>%s<td><s>%s</s><td><td>%s<td><b>%s</b>\n' % (escaped(point.name), height(point.low), strength, span(point.moved))
    high = height(point.high) if point.high > point.low else b""
    return b"<tr><th>%s<td>%s<td>%s<td>%s%s\n" % (escaped(point.name), height(point.low), high, strength, b"<td>" if has_moved else b"")


def place_found(row: Explanation) -> bytes:
    if row.book is None:
        return b"-"
    return number(row.book) if row.line is None else place(row.book, row.line)


def ends_found(row: Explanation) -> bytes:
    one = b"" if row.station is None else escaped(row.station)
    return one if row.target is None else one + b" to " + escaped(row.target)


def explanation_row(row: Explanation) -> bytes:
    high = None if row.low == row.high else row.high
    return (row_start(row.number == 1) + b"<td>%d<td>%s<th>%s<th>%s<td>%s<td>%s<td>%s<td>%s<td>%d\n"
            % (row.number, place_found(row), WHAT[row.kind], ends_found(row), optional(row.given, height), optional(row.low, height),
               optional(high, height), height(row.left), row.blunders))


def table(head: bytes, rows: List[bytes], box: bytes = b"w") -> bytes:
    return b'<div class="%s"><table>\n<thead><tr>%s</thead>\n<tbody>\n%s</tbody></table></div>\n' % (box, head, b"".join(rows))


def short_table(head: bytes, rows: List[bytes]) -> bytes:
    left = count(len(rows) - ROWS, b"more row is", b"more rows are")
    more = paragraph(b"%s in the tables of height_office review." % left) if len(rows) > ROWS else b""
    return table(head, rows[:ROWS]) + more


def details(summary: bytes, body: bytes) -> bytes:
    return b"<details>\n<summary>%s</summary>\n%s</details>\n" % (summary, body)


def section(name: bytes, title: bytes, note: bytes, body: bytes) -> bytes:
    text = b'<p class="note">%s</p>\n' % note if note else b""
    return b'<section id="%s">\n<h2>%s</h2>\n%s%s</section>\n' % (name, title, text, body)


# Sections


def heights(page: Page) -> bytes:
    has_moved = bool(moved_points(page))
    wait = b'<span class="r">Do not use the heights that are struck out.</span> ' if has_moved else b""
    head = HEIGHT_HEAD + (b"<td>If mended" if has_moved else b"")
    blocks = [page.points[k : k + BLOCK] for k in range(0, len(page.points), BLOCK)] or [[]]
    return section(b"heights", b"Heights",
                   wait + b"In metres. Where there is a second height, any height up to it fits equally well if other points move with it. "
                   b"Strength is the least weight of sights that tie the point to the benchmarks. Wrong sights that weigh less than half "
                   b"of it together do not drag the point.",
                   b"".join(table(head, [height_row(point, has_moved) for point in block], b"col") for block in blocks))


def benchmarks(page: Page) -> bytes:
    rows = [benchmark_row(page, row) for row in page.benchmarks[:ROWS]] + [b""] * max(0, len(page.benchmarks) - ROWS)
    return section(b"benchmarks", b"Benchmarks", b"The given heights, and what the other benchmarks say of each by the sights that lead there. "
                   b"With more than 4,000 sights it may be asked of the first rows alone.",
                   short_table(BENCHMARK_HEAD, rows)) if rows else b""


def residuals(page: Page) -> bytes:
    if not page.sights:
        return b""
    others = [sight_row(page, sight) for sight in page.sights if sight.group != "q"]
    body = b'<div class="w">\n' + strip(page) + b"</div>\n" + (short_table(SIGHT_HEAD, others) if others else b"")
    if len(page.sights) <= MOST_LISTED:
        body += details(b"All %d sights" % len(page.sights), table(SIGHT_HEAD, [sight_row(page, sight) for sight in page.sights]))
    return section(b"residuals", b"Residuals",
                   b"By how much each sight puts its target above (+) or below (-) its height, in the order of the books. Grey: within the limit. "
                   b"A place such as 2:14 is line 14 of book 2.", body)


def explanations(page: Page) -> bytes:
    rows = [explanation_row(row) for row in page.explanations]
    return section(b"explanations", b"What would explain it",
                   b"One number changed at a time. With the proposed number nearest to the given one, the cost and the marks of the last two "
                   b"columns are left. Rows with the same number explain equally well.", short_table(EXPLANATION_HEAD, rows)) if rows else b""


def could_hide(page: Page) -> bytes:
    sights = [weak_sight_row(page, sight) for sight in page.sights if sight.mistake != "shows"]
    weak = [weak_benchmark_row(row) for row in page.benchmarks if row.mistake not in ("shows", None)]
    entries = [entry_row(row) for row in page.entries if row.mistake != "shows"]
    body = facts([fact(number(len(sights)), b"weak sights"), fact(number(len(weak)), b"weak benchmarks"),
                  fact(number(len(entries)), b"weak keyed-in heights")])
    body += details(b"Weak sights", short_table(SIGHT_HEAD + b"A mistake", sights)) if sights else b""
    body += details(b"Weak benchmarks", short_table(WEAK_BENCHMARK_HEAD, weak)) if weak else b""
    body += details(b"Weak keyed-in heights", short_table(ENTRY_HEAD, entries)) if entries else b""
    return section(b"hide", b"What could hide",
                   b"Where a single mistake would not show as its own residual. This is no fault that was found: one more sight or "
                   b"benchmark can check such a number. Ties: it or another sight is marked. Hides: other sights are marked. Drags: points "
                   b"move, and other sights are marked, or none. Unchecked: nothing is marked.", body)


def notes(page: Page) -> bytes:
    rows = b"".join(b"<li>%s\n" % escaped(note) for note in page.notes)
    return section(b"notes", b"Notes", b"What looks odd in the books and tables.", b"<ul>\n" + rows + b"</ul>\n") if rows else b""


def asked(page: Page) -> bytes:
    inputs = [b"<li>%s: <bdi>%s</bdi> <small>%d B, SHA-256 %s</small>\n" % (own.label.encode(), escaped(own.last_part), len(own.text), own.digest.encode())
              for own in page.inputs]
    return section(b"ask", b"What a client may ask", b"",
                   paragraph(b"<b>How were the heights found?</b> They keep the benchmarks, and the sum of weight times size over all residuals is %s m: no "
                             b"heights that keep the benchmarks have less. A sight that others outweigh does not pull them. All lengths are in "
                             b"metres, rounded to 0.1 mm." % height(page.cost))
                   + paragraph(b"<b>How can they be checked?</b> <code>height_office adjust</code> writes a certificate beside the heights. With it and "
                               b"these inputs <code>height_office check</code> prints yes.")
                   + paragraph(b"<b>What were they made of?</b>") + b'<ul class="inputs">\n' + b"".join(inputs) + b"</ul>\n"
                   + paragraph(b"Height Office"))


# The page


def page_text(page: Page) -> bytes:
    inputs = b", ".join(b"<bdi>%s</bdi>" % escaped(own.last_part) for own in page.inputs)
    left_out = paragraph(b"Not drawn, because they are too many: %d sights." % undrawn(page)) if undrawn(page) else b""
    return (b'<!DOCTYPE html>\n<html lang="en">\n<head>\n<meta charset="utf-8">\n<meta name="viewport" content="width=device-width, initial-scale=1">\n'
            b"<title>%s: heights</title>\n<style>\n" % escaped(page.title) + STYLE
            + b'</style>\n</head>\n<body>\n<h1>%s</h1>\n<p class="of">Heights from %s &middot; limit %s</p>\n' % (escaped(page.title), inputs, size(page.limit))
            + verdict(page) + b'<figure>\n<div class="w">\n' + picture(page) + b"</div>\n" + legend(page) + left_out
            + b"<figcaption>Heights in metres, points in the order of the books. Each sight is drawn from its station to where it puts its "
            b"target. It bends up if it runs to the right, and down if to the left.</figcaption>\n</figure>\n"
            + facts([fact(number(len(page.sights)), b"sights"), fact(number(new_points(page)), b"new points"), fact(number(loops(page)), b"sights to spare"),
                     fact(size(largest_within(page)), b"largest residual within the limit")])
            + heights(page) + benchmarks(page) + residuals(page) + explanations(page)
            + could_hide(page) + notes(page) + asked(page) + b"</body>\n</html>\n")
