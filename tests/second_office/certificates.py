"""The certificate, its faults, and the verdict on it: sections 5 and 6 of docs/FORMATS.md."""

from typing import Dict, List, NamedTuple, Optional

from network import Heights, MOST_OBSERVATIONS, Network, cost_of, first_not_slack, first_too_large, first_unbalanced
from tables import NotMetres, Record, TooManyDigits, are_digits, metres_in, reader, records_of, without_sign

LARGEST_CERTIFICATE = 8_388_608
MOST_DIGITS = 9
MOST_COST_DIGITS = 30
# The kinds behind the version record, in their order; L and U stand in version 2 alone.
KINDS = {b"1": (b"H", b"F", b"Z"), b"2": (b"H", b"L", b"U", b"F", b"Z")}
WORDS = {"C1": "bad header", "C2": "field count", "C3": "bad kind", "C4": "bad name", "C5": "bad number", "C6": "too large", "C7": "truncated"}


class CertificateFault(Exception):
    """The fault of a certificate: its record (0 for the whole certificate) and its kind."""

    def __init__(self, record: int, kind: str) -> None:
        super().__init__(record, kind)
        self.record = record
        self.kind = kind
        self.words = WORDS[kind]


class Certificate(NamedTuple):
    """What a certificate says: one map of heights for version 1, three (best, lowest, highest) for version 2."""

    version: bytes
    maps: List[Heights]
    flows: List[int]
    cost: int


# Writing


def csv_row(*fields: bytes) -> bytes:
    return b",".join(reader.csv_field(field) for field in fields) + b"\n"


def number_text(number: int) -> bytes:
    return str(number).encode("ascii")


def certificate_text(network: Network, low: Heights, high: Heights, flows: List[int]) -> bytes:
    """A certificate of version 2, whose best heights are the lowest."""
    rows = [csv_row(b"kind", b"key", b"value"), csv_row(b"V", b"2", number_text(len(network.observations)))]
    for kind, heights in ((b"H", low), (b"L", low), (b"U", high)):
        rows += [csv_row(kind, point, reader.metres(heights[point])) for point in network.points]
    rows += [csv_row(b"F", number_text(number), number_text(flow)) for number, flow in enumerate(flows, start=1)]
    rows.append(csv_row(b"Z", b"cost", number_text(cost_of(network, low))))
    return b"".join(rows)


# Reading


class CertificateReader:
    """Takes the records behind the header, each with its number."""

    def __init__(self) -> None:
        self.version = b""
        self.count = 0
        self.reached = b"H"
        self.maps: Dict[bytes, Heights] = {}
        self.flows: List[int] = []
        self.cost: Optional[int] = None

    def take(self, number: int, row: Record) -> None:
        if len(row) != 3:
            raise CertificateFault(number, "C2")
        kind, key, value = row
        if number == 2:
            self.take_version(kind, key, value)
            return
        self.check_kind(number, kind, key)
        if kind == b"F":
            self.take_flow(number, key, value)
        elif kind == b"Z":
            self.take_cost(number, value)
        else:
            self.take_height(number, kind, key, value)

    def take_version(self, kind: bytes, key: bytes, value: bytes) -> None:
        if kind != b"V" or key not in KINDS:
            raise CertificateFault(2, "C3")
        if not are_digits(value):
            raise CertificateFault(2, "C5")
        if len(value) > MOST_DIGITS or int(value) > MOST_OBSERVATIONS:
            raise CertificateFault(2, "C6")
        self.version = key
        self.count = int(value)
        self.maps = {kind: {} for kind in KINDS[key] if kind not in (b"F", b"Z")}

    def check_kind(self, number: int, kind: bytes, key: bytes) -> None:
        """Kinds stand in their order, F as often as the version record says, Z once and last, with the key `cost`."""
        order = KINDS[self.version]
        stands = kind in order and order.index(kind) >= order.index(self.reached) and self.cost is None
        if kind == b"F":
            stands = stands and len(self.flows) < self.count
        if kind == b"Z":
            stands = stands and len(self.flows) == self.count and key == b"cost"
        if not stands:
            raise CertificateFault(number, "C3")
        self.reached = kind

    def take_height(self, number: int, kind: bytes, key: bytes, value: bytes) -> None:
        name = reader.name_of(key)
        if name is None or name in self.maps[kind]:
            raise CertificateFault(number, "C4")
        try:
            self.maps[kind][name] = metres_in(value)
        except NotMetres:
            raise CertificateFault(number, "C5") from None
        except TooManyDigits:
            raise CertificateFault(number, "C6") from None

    def take_flow(self, number: int, key: bytes, value: bytes) -> None:
        negative, digits = without_sign(value)
        if not (are_digits(key) and int(key) == len(self.flows) + 1 and are_digits(digits)):
            raise CertificateFault(number, "C5")
        if len(key) > MOST_DIGITS or len(digits) > MOST_DIGITS:
            raise CertificateFault(number, "C6")
        self.flows.append(-int(digits) if negative else int(digits))

    def take_cost(self, number: int, value: bytes) -> None:
        if not are_digits(value):
            raise CertificateFault(number, "C5")
        if len(value) > MOST_COST_DIGITS:
            raise CertificateFault(number, "C6")
        self.cost = int(value)

    def finish(self, records: int) -> Certificate:
        if self.cost is None:
            raise CertificateFault(records + 1, "C7")
        return Certificate(self.version, list(self.maps.values()), self.flows, self.cost)


def read_certificate(text: bytes) -> Certificate:
    """What a certificate says, or the first faulty record with its first kind."""
    if len(text) > LARGEST_CERTIFICATE:
        raise CertificateFault(0, "C6")
    records = records_of(text)
    if not records or records[0] != [b"kind", b"key", b"value"]:
        raise CertificateFault(1, "C1")
    certificate = CertificateReader()
    for number, row in enumerate(records[1:], start=2):
        certificate.take(number, row)
    return certificate.finish(len(records))


# The verdict


def moves_benchmark(network: Network, heights: Heights) -> bool:
    return any(heights[name] != height for name, height in network.benchmarks.items())


def reason_against(network: Network, certificate: Certificate) -> Optional[str]:
    """The first reason why a certificate does not show that its heights are best."""
    if any(set(heights) != set(network.points) for heights in certificate.maps):
        return "points differ"
    if any(moves_benchmark(network, heights) for heights in certificate.maps):
        return "benchmark moved"
    if len(certificate.flows) != len(network.observations):
        return "flow count"
    return reason_against_flows(network, certificate.flows) or reason_against_heights(network, certificate)


def reason_against_flows(network: Network, flows: List[int]) -> Optional[str]:
    number = first_too_large(network, flows)
    if number is not None:
        return f"flow too large at {number}"
    point = first_unbalanced(network, flows)
    if point is not None:
        return "unbalanced at " + point.decode("ascii")
    return None


def reason_against_heights(network: Network, certificate: Certificate) -> Optional[str]:
    best = certificate.maps[0]
    number = first_not_slack(network, certificate.flows, best)
    if number is not None:
        return f"not slack at {number}"
    if certificate.cost != cost_of(network, best):
        return "wrong cost"
    for which, heights in zip(("low", "high"), certificate.maps[1:]):
        number = first_not_slack(network, certificate.flows, heights)
        if number is not None:
            return f"{which} not slack at {number}"
    return None


def verdict_line(network: Network, certificate: Certificate) -> bytes:
    reason = reason_against(network, certificate)
    return b"yes\n" if reason is None else f"no: {reason}\n".encode("ascii")
