"""The lines on standard error at status 0: what is noted of books and of a network, as docs/FORMATS.md has it."""

from typing import Dict, List, NamedTuple, Optional, Tuple

from network import Heights, Network, Observation
from tables import reader
from texts import metres

UNITS_IN_MICROMETRE = 100
FEWEST_SIZES = 5
FAR = 8
FEWEST_SIGHTS = 3
MOST = 2**32 - 1


class Unmarked(NamedTuple):
    """An observation that no limit marks, and its weighted size."""

    observation: Observation
    size: int
    weighted: int


class Outlier(NamedTuple):
    """The observation within the limit that is farthest from the usual one: its size, how many times the usual one that is, and the
    limit in micrometres that marks it."""

    observation: Observation
    size: int
    times: int
    proposed: int


def joined(lines: List[str]) -> bytes:
    return "".join(f"note: {line}\n" for line in lines).encode("ascii")


def plural(count: int, one: str, many: str) -> str:
    return f"{count} {one if count == 1 else many}"


# Books


def sightless(books: List[bytes]) -> List[str]:
    noted = (reader.without_sight(number, book) for number, book in enumerate(books, start=1))
    return [line for line in noted if line]


def repeated(sights: List[Observation]) -> List[str]:
    """The books of which half the sights or more are in one earlier book."""
    books: Dict[int, List[Tuple[bytes, bytes, int]]] = {}
    for sight in sights:
        books.setdefault(sight.book, []).append((sight.station, sight.target, sight.difference))
    lines = []
    for number, own in sorted(books.items()):
        shared = {earlier: sum(said in set(others) for said in own) for earlier, others in books.items() if earlier < number}
        most = max(shared.values(), default=0)
        if len(own) >= FEWEST_SIGHTS and 2 * most >= len(own):
            first = min(earlier for earlier, count in shared.items() if count == most)
            lines.append(f"book {number}: {most} of {len(own)} sights are in book {first} too")
    return lines


# The network


def loose(network: Network, low: Heights, high: Heights, limit: int) -> List[str]:
    gaps = {name: high[name] - low[name] for name in network.points}
    widest = max(gaps.values(), default=0)
    if widest <= limit:
        return []
    first = next(name for name, gap in gaps.items() if gap == widest).decode("ascii")
    have = plural(sum(gap > 0 for gap in gaps.values()), "point has", "points have")
    return [f"{have} more than one best height, up to {metres(widest)} m apart at {first}"]


def marked(network: Network, heights: Heights, limit: int) -> List[str]:
    sizes = [abs(observation.residual(heights)) for observation in network.observations]
    above = [size for size in sizes if size > limit]
    if not above:
        return []
    are = "is" if len(above) == 1 else "are"
    return [f"{len(above)} of {plural(len(sizes), 'sight', 'sights')} {are} marked, up to {metres(max(above))} m: "
            "explain names the number that may be wrong"]


def usual_size(weighted: List[int]) -> Optional[int]:
    """The lower median of the sizes that are not 0, if there are five or more."""
    there = sorted(size for size in weighted if size)
    return there[(len(there) - 1) // 2] if len(there) >= FEWEST_SIZES else None


def sizes_of(network: Network, heights: Heights) -> List[Unmarked]:
    sizes = [abs(observation.residual(heights)) for observation in network.observations]
    return [Unmarked(own, size, own.weight * size) for own, size in zip(network.observations, sizes)]


def far_beyond(network: Network, heights: Heights, limit: int) -> List[Unmarked]:
    """The observations within the limit that are far beyond the usual size."""
    sizes = sizes_of(network, heights)
    usual = usual_size([own.weighted for own in sizes])
    return [] if usual is None else [own for own in sizes if own.size <= limit and own.weighted > FAR * usual]


def outlier_of(network: Network, heights: Heights, limit: int) -> Optional[Outlier]:
    found = far_beyond(network, heights, limit)
    if not found:
        return None
    usual = usual_size([own.weighted for own in sizes_of(network, heights)])
    farthest = max(found, key=lambda own: own.weighted)  # the first of the largest
    return Outlier(farthest.observation, farthest.size, min(farthest.weighted // usual, MOST),
                   min(FAR * usual // (UNITS_IN_MICROMETRE * farthest.observation.weight), MOST))


def outlying(network: Network, heights: Heights, limit: int) -> List[str]:
    own = outlier_of(network, heights, limit)
    if own is None:
        return []
    where = f"book {own.observation.book} line {own.observation.line}"
    return [f"a residual of {metres(own.size)} m ({where}) is within the limit, and {own.times} times the usual one: "
            f"--blunder {own.proposed} marks it"]


def in_one_case(network: Network) -> List[str]:
    """Points whose names are those of earlier points in other cases."""
    seen: Dict[bytes, bytes] = {}
    pairs = []
    for name in network.points:
        earlier = seen.setdefault(name.lower(), name)
        if earlier != name:
            pairs.append((earlier, name))
    return [f"{with_place(network, earlier)} and {with_place(network, name)} differ only in upper and lower case" for earlier, name in pairs]


def with_place(network: Network, name: bytes) -> str:
    """A name with the line where it is first used, if a sight uses it."""
    for observation in network.observations:
        if name in (observation.station, observation.target):
            return f"{name.decode('ascii')} (book {observation.book} line {observation.line})"
    return name.decode("ascii")
