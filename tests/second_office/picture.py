"""The picture, its legend and the strip of residuals: docs/PAGE.md. Coordinates are in tenths of a pixel."""

from typing import List, NamedTuple, Tuple

from markings import RAISE, Page, Point, Sight, escaped, first_rows, height, is_written, largest_within, place, signed

LEFT, WIDTH = 900, 7_000
TOP, HEIGHT, BEYOND = 400, 3_000, 100
FEW, MANY, NAMES, PLACES, GAPS, LEAST_GAP = 60, 1_000, 30, 4, 20, 40
STEPS = [digit * 10**power for power in range(5, 17) for digit in (1, 2, 5)]
# The groups in the order in which they are drawn, and how many sights of each are drawn.
GROUPS = ("q", "v", "c", "s", "a")
MOST_DRAWN = {"q": 4_000, "v": 2_000, "c": 2_000, "s": 2_000, "a": 2_000}
MIDDLE, LONGEST, LEAST_HALF = 650, 550, 50_000


class Scale(NamedTuple):
    """Raised heights: the lowest and the highest line of the scale, and the step between two lines."""

    low: int
    high: int
    step: int


def x_of(k: int, n: int) -> int:
    return LEFT + min(WIDTH, WIDTH * (2 * k + 1) // max(1, 2 * n))


def moved(start: int, by: int) -> int:
    return start + by if by >= 0 else max(0, start + by)


def raised(length: int) -> int:
    return moved(RAISE, length)


def scale_of(points: List[Point]) -> Scale:
    heights = [raised(point.drawn) for point in points] or [RAISE]
    least, greatest = min(heights), max(heights)
    step = next(step for step in STEPS if (greatest - least) // 8 < step)
    return Scale(least - least % step, greatest - greatest % step + step, step)


def y_of(scale: Scale, at: int) -> int:
    """Where a raised height is, to scale also a little beyond the lines."""
    span = max(1, scale.high - scale.low)
    return TOP + min(HEIGHT + BEYOND, HEIGHT * max(0, scale.high - at) // span) - min(BEYOND, HEIGHT * max(0, at - scale.high) // span)


# Groups


def in_group(page: Page, group: str) -> List[Sight]:
    return [sight for sight in page.sights if sight.group == group]


def is_drawn(page: Page, group: str) -> bool:
    return 0 < len(in_group(page, group)) <= MOST_DRAWN[group]


def undrawn(page: Page) -> int:
    """How many sights are of groups with too many."""
    return sum(len(sights) for sights in (in_group(page, group) for group in GROUPS if not is_drawn(page, group)))


# The picture


def tick_lines(scale: Scale) -> bytes:
    ticks = [at for at in (scale.low + k * scale.step for k in range(10)) if at <= scale.high]
    return b"".join(b'<path class="l" d="M900 %dH7900"/><text x="840" y="%d">%s</text>\n'
                    % (y_of(scale, at), y_of(scale, at) + 35, height(at - RAISE)) for at in ticks)


def found(page: Page, sight: Sight) -> bytes:
    names = escaped(page.points[sight.station].name), escaped(page.points[sight.target].name)
    return b"%s %s to %s, %s" % (place(sight.book, sight.line), *names, signed(sight.residual))


def end_of(page: Page, scale: Scale, sight: Sight) -> Tuple[int, int]:
    """Where a sight puts its target."""
    puts = moved(raised(page.points[sight.station].drawn), sight.difference)
    return x_of(sight.target, len(page.points)), y_of(scale, puts)


def path(page: Page, scale: Scale, sight: Sight) -> bytes:
    x, y = x_of(sight.station, len(page.points)), y_of(scale, raised(page.points[sight.station].drawn))
    u, v = end_of(page, scale, sight)
    flat = 32 * (sight.number % 3 + 1)
    bend = x // flat - u // flat
    return (b'<path d="M%d %dQ%d %d %d %dT%d %d"><title>%s</title></path>\n'
            % (x, y, (3 * x + u) // 4, (3 * y + v) // 4 + bend, (x + u) // 2, (y + v) // 2 + bend, u, v, found(page, sight)))


def group_lines(page: Page, scale: Scale, group: str) -> bytes:
    if not is_drawn(page, group):
        return b""
    sights = in_group(page, group)
    few = b" few" if len(sights) <= FEW else b""
    return b'<g class="%s%s">\n' % (group.encode(), few) + b"".join(path(page, scale, sight) for sight in sights) + b"</g>\n"


def radius(points: int) -> int:
    """Of the dot of each of so many points."""
    return 38 if points <= FEW else 20 if points <= MANY else 6


def dot(page: Page, scale: Scale, k: int) -> bytes:
    point = page.points[k]
    x, y = x_of(k, len(page.points)), y_of(scale, raised(point.drawn))
    is_low = point.drawn == point.low
    title = b"<title>%s%s</title>" % (escaped(point.name), b" " + height(point.low) if is_low else b"")
    if point.strength is None:
        return b'<path class="k" d="M%d %dl70 120h-140z">%s</path>\n' % (x, y - 75, title)
    play = b'<path class="p" d="M%d %dV%d"/>' % (x, y, y_of(scale, raised(point.high))) if is_low and point.high > point.low else b""
    own = title if len(page.points) <= MANY else b""
    return play + b'<circle cx="%d" cy="%d" r="%d">%s</circle>\n' % (x, y, radius(len(page.points)), own)


def gap_lines(page: Page, scale: Scale, group: str) -> bytes:
    """From where sights end to their targets."""
    gaps = []
    for sight in in_group(page, group):
        u, v = end_of(page, scale, sight)
        target = y_of(scale, raised(page.points[sight.target].drawn))
        if abs(v - target) >= LEAST_GAP:
            gaps.append(b'<path class="gap" d="M%d %dV%d"/><path class="cross" d="M%d %dl80 80m0-80l-80 80"/>\n' % (u, v, target, u - 40, v - 40))
    return b"".join(gaps) if is_drawn(page, group) and len(gaps) <= GAPS else b""


def name_lines(page: Page, scale: Scale, level: bool) -> bytes:
    lines = b""
    for k, point in enumerate(page.points):
        x, y = x_of(k, len(page.points)), y_of(scale, raised(point.drawn))
        if is_written(k, len(page.points), NAMES):
            start = b'<text class="m" x="%d" y="3650">' % x if level else b'<text class="e" x="-3560" y="%d" transform="rotate(-90)">' % (x + 35)
            lines += b'<path class="d" d="M%d %dV3500"/>' % (x, y) + start + escaped(point.name) + b"</text>\n"
    return lines


def picture(page: Page) -> bytes:
    scale = scale_of(page.points)
    longest = max([0] + [len(point.name) for point in page.points])
    level = longest <= 70 // max(1, len(page.points))
    depth = 160 if level else 100 + 90 * longest
    return (b'<svg viewBox="0 0 8000 %d" role="img" aria-label="Heights of points and sights">\n' % (3_560 + depth)
            + b'<g class="n e">\n<text x="840" y="260">metres</text>\n' + tick_lines(scale) + b'</g>\n<g class="n">\n'
            + name_lines(page, scale, level) + b"</g>\n" + b"".join(group_lines(page, scale, group) for group in GROUPS)
            + b'<g class="dots">\n' + b"".join(dot(page, scale, k) for k in range(len(page.points))) + b"</g>\n"
            + gap_lines(page, scale, "s") + gap_lines(page, scale, "a") + b"</svg>\n")


# The legend


def sample(drawn: bytes, words: bytes) -> bytes:
    return b'<li><svg viewBox="0 0 500 160">%s</svg>%s\n' % (drawn, words)


def legend(page: Page) -> bytes:
    words = {"a": b"sight with the wrong number" if len(first_rows(page)) <= 1 else b"sight with a number that may be wrong", "s": b"does not fit",
             "c": b"does not fit now, but does with the right number", "v": b"within the limit, but unlike the others", "q": b"fits"}
    lines = [sample(b'<path class="%s" d="M0 80H500"/>' % group.encode(), text) for group, text in words.items() if in_group(page, group)]
    return b'<ul class="legend">\n' + b"".join(lines) + sample(b'<path class="k" d="M250 20l70 120h-140z"/>', b"benchmark") + b"</ul>\n"


# The strip of residuals


def offset(half: int, length: int) -> int:
    return min(LONGEST, LONGEST // 2 * abs(length) // half)


def bar(page: Page, half: int, sight: Sight) -> bytes:
    x, length = x_of(sight.number - 1, len(page.sights)), offset(half, sight.residual)
    if sight.residual < 0:
        return b"M%d %dV%d" % (x, MIDDLE - 20, MIDDLE + length)
    return b"M%d %dV%d" % (x, MIDDLE + 20, MIDDLE - length)


def place_lines(page: Page) -> bytes:
    many = len(page.sights)
    return b"".join(b'<text x="%d" y="1350">%s</text>\n' % (x_of(sight.number - 1, many), place(sight.book, sight.line))
                    for sight in page.sights if is_written(sight.number - 1, many, PLACES))


def strip(page: Page) -> bytes:
    half = max(LEAST_HALF, largest_within(page))
    grey = offset(half, page.limit)
    bars = b"".join(b'<path class="%s" d="%s"/>\n' % (group.encode(), b"".join(bar(page, half, sight) for sight in in_group(page, group)))
                    for group in GROUPS if in_group(page, group))
    return (b'<svg viewBox="0 0 8000 1420" role="img" aria-label="Residuals of sights">\n'
            + b'<rect x="900" y="%d" width="7000" height="%d"/>\n<g class="n e">\n' % (MIDDLE - grey, 2 * grey)
            + b'<path class="l" d="M900 375H7900"/><text x="840" y="410">+%s</text>\n' % height(half)
            + b'<path class="l" d="M900 925H7900"/><text x="840" y="960">-%s</text>\n' % height(half)
            + b'</g>\n<path class="z" d="M900 650H7900"/>\n<g class="bars" stroke-width="%d">\n' % max(6, min(80, 3_500 // max(1, len(page.sights))))
            + bars + b'</g>\n<g class="n e">\n' + place_lines(page) + b"</g>\n</svg>\n")
