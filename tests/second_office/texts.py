"""The heights file, the report and the GSI file of an adjustment."""

from typing import Dict, List, NamedTuple, Tuple

from certificates import csv_row
from network import Heights, Network, Observation, cost_of
from tables import reader

GSI_STEP = 1_000  # 1/100 mm, in units of 10 nm
GSI_NAME_WIDTH = 16


def metres(length: int) -> str:
    return reader.metres(length).decode("ascii")


# The heights file


def heights_text(network: Network, low: Heights, high: Heights) -> bytes:
    """The height, which is the lowest best height, the lowest and the highest of each point."""
    rows = [csv_row(b"point", b"height", b"low", b"high")]
    for point in network.points:
        lowest, highest = reader.metres(low[point]), reader.metres(high[point])
        rows.append(csv_row(point, lowest, lowest, highest))
    return b"".join(rows)


# The GSI file


def rounded(height: int) -> Tuple[str, int]:
    """The sign and the size of a height in 1/100 mm. Half of one is rounded away from zero, and zero has no minus."""
    size = (abs(height) + GSI_STEP // 2) // GSI_STEP
    return ("-" if height < 0 and size != 0 else "+"), size


def gsi_line(number: int, point: bytes, height: int) -> bytes:
    sign, size = rounded(height)
    name = point.rjust(GSI_NAME_WIDTH, b"0").decode("ascii")
    return f"*11{number:04}+{name} 83..48{sign}{size:016} \r\n".encode("ascii")


def gsi_text(network: Network, heights: Heights) -> bytes:
    return b"".join(gsi_line(number, point, heights[point]) for number, point in enumerate(network.points, start=1))


# The report


class Opposite(NamedTuple):
    """An observation and the last earlier one the other way round, and the sum of the two differences."""

    number: int
    earlier: int
    sum: int


def opposites_of(observations: List[Observation]) -> List[Opposite]:
    last: Dict[Tuple[bytes, bytes], int] = {}
    opposites = []
    for number, observation in enumerate(observations, start=1):
        earlier = last.get((observation.target, observation.station))
        if earlier is not None:
            opposites.append(Opposite(number, earlier, observation.difference + observations[earlier - 1].difference))
        last[(observation.station, observation.target)] = number
    return opposites


def label_line(label: str, value: str) -> str:
    return f"{label:<14}{value:>26}"


def point_line(point: str, height: str) -> str:
    return f"{point:<16}  {height:>20}"


def residual_line(number: str, book: str, line: str, station: str, target: str, weight: str, residual: str) -> str:
    return f"{number:>5}  {book:>2}  {line:>8}  {station:<16}  {target:<16}  {weight:>4}  {residual:>20}"


def opposite_line(number: str, earlier: str, station: str, target: str, total: str) -> str:
    return f"{number:>5}  {earlier:>5}  {station:<16}  {target:<16}  {total:>20}"


class Report:
    """The parts of a report, each a list of lines."""

    def __init__(self, network: Network, heights: Heights, limit: int) -> None:
        self.network = network
        self.heights = heights
        self.limit = limit

    def is_blunder(self, observation: Observation) -> bool:
        return abs(observation.residual(self.heights)) > self.limit

    def summary(self) -> List[str]:
        network = self.network
        return [
            "HEIGHT NETWORK REPORT",
            label_line("points", str(len(network.points))),
            label_line("benchmarks", str(len(network.benchmarks))),
            label_line("observations", str(len(network.observations))),
            label_line("cost", str(cost_of(network, self.heights))),
            label_line("blunder limit", metres(self.limit)),
        ]

    def point_lines(self) -> List[str]:
        lines = [point_line("POINT", "HEIGHT")]
        for point in self.network.points:
            mark = "  B" if point in self.network.benchmarks else ""
            lines.append(point_line(point.decode("ascii"), metres(self.heights[point])) + mark)
        return lines

    def line_of(self, number: int, observation: Observation) -> str:
        mark = "  *" if self.is_blunder(observation) else ""
        line = residual_line(str(number), str(observation.book), str(observation.line), observation.station.decode("ascii"),
                             observation.target.decode("ascii"), str(observation.weight), metres(observation.residual(self.heights)))
        return line + mark

    def residual_lines(self) -> List[str]:
        header = residual_line("NO", "BK", "LINE", "FROM", "TO", "WT", "RESIDUAL")
        return [header] + [self.line_of(number, observation) for number, observation in enumerate(self.network.observations, start=1)]

    def blunder_lines(self) -> List[str]:
        lines = [self.line_of(number, observation) for number, observation in enumerate(self.network.observations, start=1)
                 if self.is_blunder(observation)]
        return [label_line("blunders", str(len(lines)))] + lines

    def opposite_lines(self) -> List[str]:
        observations = self.network.observations
        lines = []
        for opposite in opposites_of(observations):
            own = observations[opposite.number - 1]
            lines.append(opposite_line(str(opposite.number), str(opposite.earlier), own.station.decode("ascii"),
                                       own.target.decode("ascii"), metres(opposite.sum)))
        return [label_line("opposites", str(len(lines)))] + lines


def report_text(network: Network, heights: Heights, limit: int) -> bytes:
    report = Report(network, heights, limit)
    parts = (report.summary(), report.point_lines(), report.residual_lines(), report.blunder_lines(), report.opposite_lines())
    return "\n\n".join("\n".join(part) for part in parts).encode("ascii") + b"\n"
