#!/usr/bin/env python3
"""Tests the second office itself on rows that were calculated by hand. It needs no program.

    self_test.py

Status 0 only where every row comes out.
"""

import sys
from pathlib import Path
from typing import Callable, Dict, List, NamedTuple, Optional

import office
from explain import csv_text, people_text
from office import Inputs
from reliability import controls_of, strengths_of

# A setup on A with the instrument at 1.5 m, and a sight of B: 2.345 + 1.5 - 1.3 = 2.545 m.
S = b"110001+0000000A 84..10+00000000 85..10+00000000 86..10+00100000 88..10+00001500 \n"
P = b"110002+0000000B 33..00+00002345 87..10+00001300 \n"
# Sights of B that differ in millimetres and by a metre.
MISREAD = S + P + b"110003+0000000B 33..00+00002346 \n110004+0000000B 33..00+00003345 \n"
TWO_BEST = S + P + b"110003+0000000B 33..00+00002347 \n"
# On from B to C, a metre up.
TWO_BEST_AND_ON = TWO_BEST + (b"110004+0000000B 84..10+00000000 88..10+00001500 \n"
                              b"110005+0000000C 33..00+00001000 87..10+00001500 \n")
# Three sides of a triangle that close, and a side that doesn't.
TRIANGLE = (
    b"110001+0000000A 84..10+00000000 88..10+00001500 \n"
    b"110002+0000000B 33..00+00001000 87..10+00001500 \n"
    b"110003+0000000B 84..10+00000000 88..10+00001500 \n"
    b"110004+0000000C 33..00+00001000 87..10+00001500 \n"
    b"110005+0000000C 84..10+00000000 88..10+00001500 \n"
    b"110006+0000000A 33..00-00002000 87..10+00001500 \n"
    b"110007+0000000A 84..10+00000000 88..10+00001500 \n"
    b"110008+0000000C 33..00+00002500 87..10+00001500 \n"
)
THERE_AND_BACK = S + P + (b"110003+0000000B 84..10+00000000 88..10+00001450 \n"
                          b"110004+0000000A 33..00-00002705 87..10+00001300 \n")
A_100 = b"point,height\nA,100\n"
TRIANGLE_CERTIFICATE = b"""kind,key,value
V,1,4
H,A,100.00000000
H,B,101.00000000
H,C,102.00000000
F,1,0
F,2,0
F,3,1
F,4,1
Z,cost,50000000
"""
TWO_BEST_CERTIFICATE = b"""kind,key,value
V,2,2
H,A,100.00000000
H,B,102.54500000
L,A,100.00000000
L,B,102.54500000
U,A,100.00000000
U,B,102.54700000
F,1,-1
F,2,1
Z,cost,200000
"""
MISREAD_REPORT = b"""HEIGHT NETWORK REPORT
points                                 2
benchmarks                             1
observations                           3
cost                           100000000
blunder limit                 0.02000000

POINT                           HEIGHT
A                         100.00000000  B
B                         102.54600000

   NO  BK      LINE  FROM              TO                  WT              RESIDUAL
    1   1         2  A                 B                    1           -0.00100000
    2   1         3  A                 B                    1            0.00000000
    3   1         4  A                 B                    1            0.99900000  *

blunders                               1
    3   1         4  A                 B                    1            0.99900000  *

opposites                              0
"""


class Row(NamedTuple):
    """A project, and what is calculated of it: the cost, the lowest and the highest heights in metres, the flows where they are forced."""

    title: str
    inputs: Inputs
    cost: int
    low: Dict[bytes, str]
    high: Dict[bytes, str]
    flows: Optional[List[int]]


def same(heights: Dict[bytes, str]) -> tuple:
    return heights, heights


ROWS = (
    Row("one sight", Inputs([S + P], A_100, None), 0, *same({b"A": "100.00000000", b"B": "102.54500000"}), [0]),
    Row("ten-thousandths of a foot",
        Inputs([S + b"*110002+000000000000000B 33..07+0000000000076940 87..08+0000000000130000 \n"], A_100, None),
        0, *same({b"A": "100.00000000", b"B": "102.54513120"}), [0]),
    Row("a misread staff", Inputs([MISREAD], A_100, None), 100_000_000, *same({b"A": "100.00000000", b"B": "102.54600000"}), [-1, 0, 1]),
    Row("a staff misread by 9 km more", Inputs([MISREAD.replace(b"00003345", b"09003345")], A_100, None), 900_100_000_000,
        *same({b"A": "100.00000000", b"B": "102.54600000"}), [-1, 0, 1]),
    Row("best heights that are not unique", Inputs([TWO_BEST], A_100, None), 200_000,
        {b"A": "100.00000000", b"B": "102.54500000"}, {b"A": "100.00000000", b"B": "102.54700000"}, [-1, 1]),
    Row("and on", Inputs([TWO_BEST_AND_ON], A_100, None), 200_000,
        {b"A": "100.00000000", b"B": "102.54500000", b"C": "103.54500000"},
        {b"A": "100.00000000", b"B": "102.54700000", b"C": "103.54700000"}, [-1, 1, 0]),
    Row("a triangle", Inputs([TRIANGLE], A_100, None), 50_000_000,
        *same({b"A": "100.00000000", b"B": "101.00000000", b"C": "102.00000000"}), None),
    Row("a triangle of two books", Inputs([b"".join(TRIANGLE.splitlines(True)[:4]), b"".join(TRIANGLE.splitlines(True)[4:])], A_100, None),
        50_000_000, *same({b"A": "100.00000000", b"B": "101.00000000", b"C": "102.00000000"}), None),
    Row("there and back", Inputs([THERE_AND_BACK], A_100, b"from,to,weight\nA,B,3\n"), 1_000_000,
        *same({b"A": "100.00000000", b"B": "102.54500000"}), [-1, -1]),
    Row("two benchmarks that disagree", Inputs([S + P], A_100 + b"B,103\n", None), 45_500_000,
        *same({b"A": "100.00000000", b"B": "103.00000000"}), [-1]),
    Row("an empty book", Inputs([b""], A_100, None), 0, *same({b"A": "100.00000000"}), []),
    Row("nothing", Inputs([b""], b"point,height\n", None), 0, *same({}), []),
    Row("a weight of a thousand", Inputs([S + b"".join(
        b"110002+0000000B 33..00+00002345 87..10+00001300 \n" if k < 5 else b"110002+0000000B 33..00+00002347 87..10+00001300 \n"
        for k in range(8))], A_100, b"from,to,weight\nA,B,1000\n"), 600_000_000,
        {b"A": "100.00000000", b"B": "102.54500000"}, {b"A": "100.00000000", b"B": "102.54500000"}, None),
)


def inputs_with(book: bytes = S + P, benchmarks: bytes = A_100, weights: Optional[bytes] = None) -> Inputs:
    return Inputs([book], benchmarks, weights)


# A project, a certificate where one is checked, and the line and the status that come.
LINES = (
    ("no benchmark", inputs_with(benchmarks=b"point,height\nZ,100\n"), None, b"network: N3 no benchmark for A\n", 2),
    ("no reflector height", inputs_with(book=S + P + b"110003+0000000B 84..10+00000000 88..10+00001400 \n110004+0000000C 33..00+00001000 \n"),
     None, b"book 1 line 4: B10 no reflector height\n", 2),
    ("one name in two spellings", inputs_with(benchmarks=b"point,height\n00A,100\nA,101\n"), None, b"benchmarks record 3: E6 repeated\n", 2),
    ("too high", inputs_with(benchmarks=b"point,height\nA,10000.00000001\n"), None, b"benchmarks record 2: E4 bad height\n", 2),
    ("a field is missing", inputs_with(benchmarks=b"point,height\nA\n"), None, b"benchmarks record 2: E2 field count\n", 2),
    ("no weight", inputs_with(weights=b"from,to,weight\nA,B,0\n"), None, b"weights record 2: E5 bad weight\n", 2),
    ("no header of weights", inputs_with(weights=b"\xef\xbb\xbf"), None, b"weights record 1: E1 bad header\n", 2),
    ("no header of benchmarks", inputs_with(benchmarks=b""), None, b"benchmarks record 1: E1 bad header\n", 2),
    ("a table that is too long", inputs_with(benchmarks=b"\n" * 1_048_577), None, b"benchmarks record 0: E7 table too long\n", 2),
    ("the first input with a fault decides", Inputs([S + P, P], b"", None), None, b"book 2 line 1: B8 sight before setup\n", 2),
    ("yes", inputs_with(book=TRIANGLE), TRIANGLE_CERTIFICATE, b"yes\n", 0),
    ("other flows", inputs_with(book=TRIANGLE), TRIANGLE_CERTIFICATE.replace(b"F,1,0\nF,2,0\nF,3,1", b"F,1,-1\nF,2,-1\nF,3,0"), b"yes\n", 0),
    ("other spellings", inputs_with(book=TRIANGLE), TRIANGLE_CERTIFICATE.replace(b"H,A,100.00000000", b"H,00A,100").replace(b"F,1,0", b"F,01,-0"),
     b"yes\n", 0),
    ("a unit too high", inputs_with(book=TRIANGLE), TRIANGLE_CERTIFICATE.replace(b"102.00000000", b"102.00000001"), b"no: not slack at 2\n", 1),
    ("not balanced", inputs_with(book=TRIANGLE), TRIANGLE_CERTIFICATE.replace(b"F,3,1", b"F,3,0"), b"no: unbalanced at C\n", 1),
    ("over its weight", inputs_with(book=TRIANGLE), TRIANGLE_CERTIFICATE.replace(b"F,4,1", b"F,4,2"), b"no: flow too large at 4\n", 1),
    ("another cost", inputs_with(book=TRIANGLE), TRIANGLE_CERTIFICATE.replace(b"50000000", b"49999999"), b"no: wrong cost\n", 1),
    ("a benchmark moved", inputs_with(book=TRIANGLE), TRIANGLE_CERTIFICATE.replace(b"100.00000000", b"100.00000001"), b"no: benchmark moved\n", 1),
    ("a flow is missing", inputs_with(book=TRIANGLE), TRIANGLE_CERTIFICATE.replace(b"F,4,1\n", b"").replace(b"V,1,4", b"V,1,3"), b"no: flow count\n", 1),
    ("a point is missing", inputs_with(book=TRIANGLE), TRIANGLE_CERTIFICATE.replace(b"H,B,101.00000000\n", b""), b"no: points differ\n", 1),
    ("no cost", inputs_with(book=TRIANGLE), TRIANGLE_CERTIFICATE.replace(b"Z,cost,50000000\n", b""), b"certificate record 10: C7 truncated\n", 2),
    ("a point twice", inputs_with(book=TRIANGLE), TRIANGLE_CERTIFICATE.replace(b"H,B", b"H,A,100\nH,B"), b"certificate record 4: C4 bad name\n", 2),
    ("a count that is too large", inputs_with(book=TRIANGLE), TRIANGLE_CERTIFICATE.replace(b"V,1,4", b"V,1,40001"), b"certificate record 2: C6 too large\n", 2),
    ("the cost before the count is reached", inputs_with(book=TRIANGLE), TRIANGLE_CERTIFICATE.replace(b"V,1,4", b"V,1,4001"), b"certificate record 10: C3 bad kind\n", 2),
    ("a flow beyond the count", inputs_with(book=TRIANGLE), TRIANGLE_CERTIFICATE.replace(b"Z,", b"F,5,0\nZ,"), b"certificate record 10: C3 bad kind\n", 2),
    ("two costs", inputs_with(book=TRIANGLE), TRIANGLE_CERTIFICATE + b"Z,cost,50000000\n", b"certificate record 11: C3 bad kind\n", 2),
    ("lows in version 1", inputs_with(book=TRIANGLE), TRIANGLE_CERTIFICATE.replace(b"F,1,0", b"L,A,100\nF,1,0"), b"certificate record 6: C3 bad kind\n", 2),
    ("version 3", inputs_with(book=TRIANGLE), TRIANGLE_CERTIFICATE.replace(b"V,1,4", b"V,3,4"), b"certificate record 2: C3 bad kind\n", 2),
    ("a benchmark moved against the disagreement", inputs_with(benchmarks=A_100 + b"B,103\n"),
     b"kind,key,value\nV,1,1\nH,A,100.00000000\nH,B,103.00000000\nF,1,-1\nZ,cost,45500000\n", b"yes\n", 0),
    ("version 2", inputs_with(book=TWO_BEST), TWO_BEST_CERTIFICATE, b"yes\n", 0),
    ("too low", inputs_with(book=TWO_BEST), TWO_BEST_CERTIFICATE.replace(b"L,B,102.54500000", b"L,B,102.54499999"), b"no: low not slack at 1\n", 1),
    ("too high a high", inputs_with(book=TWO_BEST), TWO_BEST_CERTIFICATE.replace(b"102.54700000", b"102.54700001"), b"no: high not slack at 2\n", 1),
    ("a low benchmark moved", inputs_with(book=TWO_BEST), TWO_BEST_CERTIFICATE.replace(b"L,A,100.00000000", b"L,A,100.00000001"), b"no: benchmark moved\n", 1),
    ("no lows", inputs_with(book=TWO_BEST), TWO_BEST_CERTIFICATE.replace(b"L,A,100.00000000\nL,B,102.54500000\n", b""), b"no: points differ\n", 1),
    ("lows and highs exchanged", inputs_with(book=TWO_BEST),
     TWO_BEST_CERTIFICATE.replace(b"L,B,102.54500000", b"L,B,102.54700000").replace(b"U,B,102.54700000", b"U,B,102.54500000"), b"yes\n", 0),
)

# A project, a limit in micrometres, the end of a file's name, and the file.
FILES = (
    ("heights of one sight", inputs_with(), 20_000, ".heights.csv",
     b"point,height,low,high\nA,100.00000000,100.00000000,100.00000000\nB,102.54500000,102.54500000,102.54500000\n"),
    ("heights that are not unique", inputs_with(book=TWO_BEST), 20_000, ".heights.csv",
     b"point,height,low,high\nA,100.00000000,100.00000000,100.00000000\nB,102.54500000,102.54500000,102.54700000\n"),
    ("their certificate", inputs_with(book=TWO_BEST), 20_000, ".certificate.csv", TWO_BEST_CERTIFICATE),
    ("heights of nothing", inputs_with(book=b"", benchmarks=b"point,height\n"), 20_000, ".heights.csv", b"point,height,low,high\n"),
    ("certificate of nothing", inputs_with(book=b"", benchmarks=b"point,height\n"), 20_000, ".certificate.csv", b"kind,key,value\nV,2,0\nZ,cost,0\n"),
    ("GSI file of nothing", inputs_with(book=b"", benchmarks=b"point,height\n"), 20_000, ".heights.gsi", b""),
    ("GSI file of one sight", inputs_with(), 20_000, ".heights.gsi",
     b"*110001+000000000000000A 83..48+0000000010000000 \r\n*110002+000000000000000B 83..48+0000000010254500 \r\n"),
    ("half of 1/100 mm below zero", inputs_with(book=b"", benchmarks=b"point,height\nA,-0.000005\n"), 20_000, ".heights.gsi",
     b"*110001+000000000000000A 83..48-0000000000000001 \r\n"),
    ("less than half of it", inputs_with(book=b"", benchmarks=b"point,height\nA,-0.00000499\n"), 20_000, ".heights.gsi",
     b"*110001+000000000000000A 83..48+0000000000000000 \r\n"),
    ("report of a misread staff", inputs_with(book=MISREAD), 20_000, ".report.txt", MISREAD_REPORT),
)

# A text that a report has to hold, or must not hold.
REPORT_LINES: tuple = (
    ("the sum of opposites", inputs_with(book=THERE_AND_BACK, weights=b"from,to,weight\nA,B,3\n"), 20_000,
     b"\nopposites                              1\n    2      1  B                 A                          -0.01000000\n", True),
    ("a residual at the limit", inputs_with(book=MISREAD), 999_000, b"*", False),
    ("a residual above the limit", inputs_with(book=MISREAD), 998_999, b"0.99900000  *\n", True),
)


def expect(failures: List[str], title: str, own: object, wanted: object) -> None:
    if own != wanted:
        failures.append(f"{title}: {own!r}, and not {wanted!r}")


def test_row(failures: List[str], row: Row) -> None:
    network, _ = office.read_inputs(row.inputs, None)
    answer = office.adjusted(network)
    expect(failures, f"{row.title}: cost", office.cost_of(network, answer.low), row.cost)
    for which, heights, wanted in (("low", answer.low, row.low), ("high", answer.high, row.high)):
        shown = {point: office.reader.metres(height).decode("ascii") for point, height in heights.items()}
        expect(failures, f"{row.title}: {which}", shown, wanted)
    if row.flows is not None:
        expect(failures, f"{row.title}: flows", answer.flows, row.flows)
    own = office.adjust(row.inputs, 0).files[".certificate.csv"]
    expect(failures, f"{row.title}: its own certificate", office.check(row.inputs, own).standard_output, b"yes\n")


def test_line(failures: List[str], title: str, inputs: Inputs, certificate: Optional[bytes], line: bytes, status: int) -> None:
    answer = office.adjust(inputs, 0) if certificate is None else office.check(inputs, certificate)
    expect(failures, title, (answer.standard_output + answer.standard_error, answer.status), (line, status))


def test_file(failures: List[str], title: str, inputs: Inputs, limit: int, end: str, text: bytes) -> None:
    expect(failures, title, office.adjust(inputs, 100 * limit).files[end], text)


def test_report(failures: List[str], title: str, inputs: Inputs, limit: int, text: bytes, stands: bool) -> None:
    expect(failures, title, text in office.adjust(inputs, 100 * limit).files[".report.txt"], stands)


# What was worked out by hand for the example projects: the strength of each free point, and the control of each observation.
EXAMPLES = Path(__file__).resolve().parents[2] / "examples"
REVIEWS = (
    ("building_site", ("monday.gsi",), "marks.csv", None, {"KO1": 2, "KO2": 2, "KO3": 2, "D1": 2}, [1, 5, 4, 2, 5, 1, 4, 2, 4, 2, 4]),
    ("cellar", ("cellar.gsi",), "marks.csv", None, {"G2": 2, "S1": 2, "S2": 2}, [1, 1, 1, 1, 1]),
    ("dam", ("crest.gsi",), "rocks.csv", "weights.csv", {"P1": 8, "C1": 7, "C2": 4, "C3": 4, "C4": 7},
     [4, 5, 2, 2, 5, 6, 6, 3, 3, 6, 6, 3, 3, 6, 6]),
    ("levelling_line", ("there.gsi",), "marks.csv", "weights.csv", {"T1": 59, "T2": 59, "T3": 54, "T4": 56, "T5": 56}, [23, 23, 23, 31, 23, 23]),
    ("railway_line", ("there.gsi", "back.gsi"), "bolts.csv", None, {"FP 112/3": 4, "FP 112/5": 4, "FP 112/7": 4}, [3, 3, 3, 3, 3, 3, 3, 3]),
)


def test_review(failures: List[str], project: str, books: tuple, benchmarks: str, weights: Optional[str], strengths: Dict[str, int],
                controls: List[int]) -> None:
    folder = EXAMPLES / project
    inputs = Inputs([(folder / book).read_bytes() for book in books], (folder / benchmarks).read_bytes(),
                    (folder / weights).read_bytes() if weights else None)
    network, _ = office.read_inputs(inputs, None)
    free = {point.decode("ascii"): strength for point, strength in strengths_of(network).items() if strength is not None}
    expect(failures, f"{project}: strengths", free, strengths)
    expect(failures, f"{project}: controls", controls_of(network), controls)


# Examples with one wrong number, and what explains it. Costs were found with `adjust` on books that were changed by hand.
BUILDING_SITE = (EXAMPLES / "building_site" / "monday.gsi").read_bytes().replace(b"33..10-00000027", b"33..10-00001027")
TYPED_AT_KO1 = Inputs([BUILDING_SITE.replace(b"88..10+00001545", b"88..10+00001645")],
                      (EXAMPLES / "building_site" / "marks.csv").read_bytes(), None)
TYPED_AT_KO1_TEXT = b"""cost                          0.20000000
blunder limit                 0.02000000
marked                                 2
sights                                11
entries                                6
changes                                9
benchmarks                             0
books                                  1
explanations                           4
  NO  BK    LINE  WORD  FROM              TO                     PROPOSED     COST LEFT BLUNDERS
   1   1       2    88  KO1                                    1.54600000    0.00200000        0
   1   1       2    87  KO1                                    1.59900000    0.00200000        0
   2   1       8        KO2               KO1                 -2.89500000    0.10100000        1
   2   1      15        KO3               KO1                 -1.64300000    0.10100000        1

One wrong number explains this: word 88 of line 2 or word 87 of line 2.
The books do not say which of them.
Word 88 of line 2: given 1.64500000, fits 1.54600000.
Word 87 of line 2: given 1.50000000, fits 1.59900000.
Or the setup stood on another point than KO1.
Word 88 of line 2: typed 1.64500000, meant 1.54500000?
The next best leaves 0.10100000.

If 1.54500000 was meant, height_office mend takes these changes:
line,word,value
2,88,1.54500000
"""
TYPED_AT_KO1_TABLE = b"""number,kind,book,line,word,from,to,sights,given,low,high,explains,left,blunders,last,poles,instruments,reading,name,fit
1,instrument,1,2,88,KO1,,4,1.64500000,1.54600000,1.54600000,0.19800000,0.00200000,0,2,,1.54500000,,,
1,reflector,1,2,87,KO1,,4,1.50000000,1.59900000,1.59900000,0.19800000,0.00200000,0,2,,,,,
2,sight,1,8,,KO2,KO1,1,-2.79600000,-2.89500000,-2.89500000,0.09900000,0.10100000,1,,,,,,
2,sight,1,15,,KO3,KO1,1,-1.54400000,-1.64300000,-1.64300000,0.09900000,0.10100000,1,,,,,,
"""
FORGOTTEN_POLE = Inputs([(EXAMPLES / "building_site" / "monday.gsi").read_bytes()], TYPED_AT_KO1.benchmarks, None)
FORGOTTEN_POLE_TABLE = b"""number,kind,book,line,word,from,to,sights,given,low,high,explains,left,blunders,last,poles,instruments,reading,name,fit
1,sight,1,14,,KO3,D1,1,0.07500000,-0.92600000,-0.92500000,1.00000000,0.00400000,0,,2.50000000,,,,
"""
DAM = (EXAMPLES / "dam" / "crest.gsi").read_bytes().splitlines(True)
TYPED_AT_P1 = Inputs([b"".join(DAM[:7] + DAM[8:18]).replace(b"88..10+00001612", b"88..10+00001712")],
                     (EXAMPLES / "dam" / "rocks.csv").read_bytes(), None)
TYPED_AT_P1_TABLE = b"""number,kind,book,line,word,from,to,sights,given,low,high,explains,left,blunders,last,poles,instruments,reading,name,fit
1,instrument,1,2,88,P1,,5,1.71200000,1.61200000,1.61300000,0.09900000,0.01000000,0,2,,1.61200000,,,
1,reflector,1,2,87,P1,,5,1.30000000,1.39900000,1.40000000,0.09900000,0.01000000,0,2,,,,,
1,sight,1,9,,C1,P1,1,-0.80200000,-0.90200000,-0.90100000,0.09900000,0.01000000,0,,,,,,
"""
LINE = EXAMPLES / "levelling_line"
ONE_WAY = Inputs([(LINE / "there.gsi").read_bytes()], (LINE / "marks.csv").read_bytes(), (LINE / "weights.csv").read_bytes())
ONE_WAY_TEXT = b"""cost                         11.50690000
blunder limit                 0.02000000
marked                                 1
sights                                 6
entries                                0
changes                                0
benchmarks                             2
books                                  1
explanations                           9
  NO  BK    LINE  WORD  FROM              TO                     PROPOSED     COST LEFT BLUNDERS
   1   1       4        BM 41             T1                  -1.21680000    0.00000000        0
   1   1       7        T1                T2                   1.27080000    0.00000000        0
   1   1      10        T2                T3                   0.88310000    0.00000000        0
   1   1      13        T3                T4                  -1.33960000    0.00000000        0
   1   1      16        T4                T5                   1.07380000    0.00000000        0
   1   1      19        T5                BM 47                0.59650000    0.00000000        0
   1           2        BM 41                                511.84770000    0.00000000        0
   1           3        BM 47                                516.61760000    0.00000000        0
   2   1            33                                                       0.36340000        0

8 numbers explain this equally well: any one of them may be wrong. The books do not say which. Measure one of them again.
The next best leaves 0.36340000.
"""
BOTH_WAYS = ONE_WAY._replace(books=ONE_WAY.books + [(LINE / "back.gsi").read_bytes()])
BOTH_WAYS_TEXT = b"""cost                         24.10090000
blunder limit                 0.02000000
marked                                 1
sights                                12
entries                                0
changes                                0
benchmarks                             2
books                                  2
explanations                           2
  NO  BK    LINE  WORD  FROM              TO                     PROPOSED     COST LEFT BLUNDERS
   1   1       7        T1                T2                   1.27120000    0.10570000        0
   2   2      16        T2                T1                  -1.77110000   23.02750000        2

One wrong number explains this: the sight of line 7 of book 1.
The sight of line 7 of book 1: given 1.77110000, fits 1.27120000.
The instrument height of line 7 of book 1: typed 1.60350000, meant 1.10350000?
The next best leaves 23.02750000.

If 1.10350000 was meant, height_office mend takes these changes of book 1:
line,word,value
7,88,1.10350000
"""
NOTHING_TEXT = b"""cost                          0.00000000
blunder limit                 0.02000000
marked                                 0
sights                                 0
entries                                0
changes                                0
benchmarks                             0
books                                  0
explanations                           0
  NO  BK    LINE  WORD  FROM              TO                     PROPOSED     COST LEFT BLUNDERS

Nothing to explain: no number has to be wrong by more than 0.02000000 m.
"""
# The pole was read at 2.500 m in the last two sights of A, and 1.500 m stays keyed in: a change that was forgotten.
FORGOTTEN = (
    b"110001+0000000A 84..10+00000000 88..10+00001500 87..10+00001500 \n"
    b"110002+0000000B 33..00+00001000 \n110003+0000000C 33..00+00003000 \n110004+0000000D 33..00+00004000 \n"
    b"110005+0000000B 84..10+00000000 88..10+00001500 87..10+00001500 \n"
    b"110006+0000000A 33..00-00001000 \n110007+0000000C 33..00+00001000 \n110008+0000000D 33..00+00002000 \n"
    b"110009+0000000C 84..10+00000000 88..10+00001500 87..10+00001500 \n"
    b"110010+0000000A 33..00-00002000 \n110011+0000000B 33..00-00001000 \n110012+0000000D 33..00+00001000 \n")
FORGOTTEN_LINES = (
    "   1   1       3    88  A                                      0.50000000    0.00000000        0  since\n"
    "   1   1       3    87  A                                      2.50000000    0.00000000        0  since\n").encode("ascii")
# Words 88 and 87 written again in each sight are still one entry each.
REPEATED = FORGOTTEN.replace(b"33..", b"88..10+00001500 87..10+00001500 33..")
# At A the instrument stood at 1.860 m, and each line says 1.680 m.
MISTYPED = (REPEATED.replace(b"88..10+00001500", b"88..10+00001680", 4).replace(b"+00001000", b"+00000640", 1)
            .replace(b"+00003000", b"+00001640", 1).replace(b"+00004000", b"+00002640", 1))
MISTYPED_LINES = (b"\nWord 88 of lines 1 to 4: given 1.68000000, fits 1.86000000.\n"
                  b"Word 87 of lines 1 to 4: given 1.50000000, fits 1.32000000.\n"
                  b"Or the setup stood on another point than A.\n"
                  b"Word 88 of lines 1 to 4: typed 1.68000000, meant 1.86000000?\n")
# A benchmark, D, that is 30 mm wrong. Nothing ties C twice, so that the last two sights could be wrong together.
SUNK = S + b"110002+0000000B 33..00+00000000 87..10+00001500 \n110003+0000000C 33..00+00000000 \n110004+0000000D 33..00+00000000 \n"
SUNK_TABLE = b"""number,kind,book,line,word,from,to,sights,given,low,high,explains,left,blunders,last,poles,instruments,reading,name,fit
1,instrument since,1,3,88,A,,2,1.50000000,1.53000000,1.53000000,0.03000000,0.00000000,0,,,,,,
1,reflector since,1,3,87,A,,2,1.50000000,1.47000000,1.47000000,0.03000000,0.00000000,0,,,,,,
1,sight,1,4,,A,D,1,0.00000000,0.03000000,0.03000000,0.03000000,0.00000000,0,,,,,,
1,benchmark,,4,,D,,1,100.03000000,100.00000000,100.00000000,0.03000000,0.00000000,0,,,,,,
"""
# A book whose word 33 holds the heights already.
MARK_TO_MARK = S + b"".join(b"1100%02d+0000000%s 33..00+00001000 87..10+0000%04d \n" % (2 + k, name, 1300 - 200 * k)
                            for k, name in enumerate((b"B", b"C", b"D")))
# A triangle of 12, 12 and -4 km that misses by 20 km: with the whole change, only the last difference would stay below 30 km.
FAR = (b"110001+0000000A 84..10+00000000 88..10+06000000 87..10+00000000 \n110002+0000000B 33..00+06000000 \n"
       b"110003+0000000B 84..10+00000000 88..10+06000000 87..10+00000000 \n110004+0000000C 33..00+06000000 \n"
       b"110005+0000000C 84..10+00000000 88..10+00000000 87..10+00000000 \n110006+0000000A 33..00-04000000 \n")
FAR_TABLE = b"""number,kind,book,line,word,from,to,sights,given,low,high,explains,left,blunders,last,poles,instruments,reading,name,fit
1,sight,1,6,,C,A,1,-4000.00000000,-24000.00000000,-24000.00000000,20000.00000000,0.00000000,0,,,,,,
"""
# The building site observed right, but for one name or sign at a time.
RIGHT = (BUILDING_SITE.replace(b"33..10-00001027 ", b"33..10-00000027 87..10+00002500 ")
         .replace(b"33..10-00001646 ", b"33..10-00001646 87..10+00001500 "))
WRONG_TARGET = RIGHT.replace(b"110008+00000KO1", b"110008+000000D1")
WRONG_TARGET_TABLE = b"""number,kind,book,line,word,from,to,sights,given,low,high,explains,left,blunders,last,poles,instruments,reading,name,fit
1,sight,1,8,,KO2,D1,1,-2.79600000,-2.17700000,-2.17700000,0.61900000,0.00300000,0,,,,,,
,sight,1,8,,KO2,D1,1,-2.79600000,-2.17700000,-2.17700000,,,,,,,target,KO1,0.00100000
"""
WRONG_STATION = RIGHT.replace(b"110012+00000KO3", b"110012+0000BM12")
WRONG_SIGN = RIGHT.replace(b"33..10-00002876", b"33..10+00002876")
WRONG_ROW = b"point,height\nBM12,251.384\nKO3,251.655\nD1,250.112\n"
EXPLAINED = (
    ("an instrument height keyed in wrongly", TYPED_AT_KO1, people_text, TYPED_AT_KO1_TEXT),
    ("the same as a table", TYPED_AT_KO1, csv_text, TYPED_AT_KO1_TABLE),
    ("one sight with a wrong pole", FORGOTTEN_POLE, csv_text, FORGOTTEN_POLE_TABLE),
    ("three that explain equally", TYPED_AT_P1, csv_text, TYPED_AT_P1_TABLE),
    ("a line one way", ONE_WAY, people_text, ONE_WAY_TEXT),
    ("a line both ways", BOTH_WAYS, people_text, BOTH_WAYS_TEXT),
    ("nothing", Inputs([b""], b"point,height\n", None), people_text, NOTHING_TEXT),
    ("changes beyond reach", Inputs([FAR], A_100, None), csv_text, FAR_TABLE),
    ("another target", Inputs([WRONG_TARGET], TYPED_AT_KO1.benchmarks, None), csv_text, WRONG_TARGET_TABLE),
    ("a benchmark that sank", Inputs([SUNK], A_100 + b"B,100\nD,100.03\n", None), csv_text, SUNK_TABLE),
)
EXPLAINED_LINES = (
    ("another target in a sentence", Inputs([WRONG_TARGET], TYPED_AT_KO1.benchmarks, None),
     b"\nLine 8 fits KO1 in place of D1, within 0.00100000 m.\n"),
    ("another station", Inputs([WRONG_STATION], TYPED_AT_KO1.benchmarks, None),
     b"\nThe setup of line 12 fits KO3 in place of BM12, within 0.00000000 m.\n"),
    ("the other sign", Inputs([WRONG_SIGN], TYPED_AT_KO1.benchmarks, None),
     b"\nLine 8 fits with the other sign of word 33, within 0.00100000 m.\n"),
    ("a benchmark under another name", Inputs([RIGHT], WRONG_ROW, None), b"\nThe height of D1 fits KO1, within 0.00000000 m.\n"),
    ("a forgotten change", Inputs([FORGOTTEN], A_100, None), FORGOTTEN_LINES),
    ("the same with words 87 and 88 in each sight", Inputs([REPEATED], A_100, None), FORGOTTEN_LINES),
    ("two digits exchanged in four lines", Inputs([MISTYPED], A_100, None), MISTYPED_LINES),
    ("a book read from mark to mark", Inputs([MARK_TO_MARK], A_100 + b"B,101\nC,101\nD,101\n", None),
     b"\n   1   1            33                                                       0.00000000        0\n"),
    ("it in a sentence", Inputs([MARK_TO_MARK], A_100 + b"B,101\nC,101\nD,101\n", None), b"\nOne wrong number explains this: word 33 of book 1.\n"),
)


def test_explained(failures: List[str], title: str, inputs: Inputs, text: Callable, wanted: bytes) -> None:
    expect(failures, title, office.explain(inputs, 100 * 20_000, text)[0].standard_output, wanted)


def test_explained_line(failures: List[str], title: str, inputs: Inputs, lines: bytes) -> None:
    text = office.explain(inputs, 100 * 20_000, people_text)[0].standard_output
    expect(failures, f"{title}, in {text!r}", lines in text, True)


TESTS: tuple = ((test_row, [(row,) for row in ROWS]), (test_line, LINES), (test_file, FILES), (test_report, REPORT_LINES),
                (test_review, REVIEWS), (test_explained, EXPLAINED), (test_explained_line, EXPLAINED_LINES))


def main() -> int:
    failures: List[str] = []
    for test, rows in TESTS:
        for row in rows:
            test(failures, *row)
    for failure in failures:
        print(failure)
    print(f"second office: {sum(len(rows) for _, rows in TESTS)} rows, {len(failures)} failures")
    return 1 if failures else 0


if __name__ == "__main__":
    sys.exit(main())
