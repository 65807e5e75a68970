"""Short texts for the programs `proteusds` and `explain`, each with its words and what the program must write, worked by hand from requests M-100 to M-103 and document 01.

TEXTS are those of `proteusds`. One text is read once and fed to six readers. A refusal is one line: of the first component, in ascending order, whose reading or closing is refused,
`component N refused NUMBER PLACE`; of the choice or of the six together, `refused NUMBER 0`.

EXPLAINED are those of `explain`. Its words are the choices, and the number and the place that are stated. The status is that of tools/run: 0 for an explanation, 1 where the text gives something else.
"""
from kit import modulus


def row(component, value="", periods="10 10", headings="0 0", im="0", mod=""):
    """A row; MOD is the size of the real part, unless another is given."""
    value = value or f"-.0{component}"
    return f"{periods} {headings} {component} {mod or value.lstrip('-')} 0 {value} {im}\n"


# Lines 1 to 6: of component K the value -0.0K at 10 s.
SIX = "".join(row(component) for component in range(1, 7))
WRITTEN = """$QTFFrequencies
0.628318531
$QTFHeadings
0.000
$WaveDriftQTFMatrix
0 0 0 0 -0.010000 0.000000 -0.020000 0.000000 -0.030000 0.000000 -0.040000 0.000000 -0.050000 0.000000 -0.060000 0.000000
"""
# 8 s as well, and both periods together; component 5 says that pair from its other side.
PAIRS = "".join(
    row(k, f"{k}", "8 8") + row(k, "-.5", "8 10" if k == 5 else "10 8", im=f"-.0{k}" if k == 5 else f".0{k}", mod=modulus(500_000, 10_000 * k))
    for k in range(6, 0, -1)
)
WRITTEN_PAIRS = """$QTFFrequencies
0.628318531 0.785398163
$QTFHeadings
0.000
$WaveDriftQTFMatrix
0 0 0 0 -0.010000 0.000000 -0.020000 0.000000 -0.030000 0.000000 -0.040000 0.000000 -0.050000 0.000000 -0.060000 0.000000
0 1 0 0 -0.500000 0.010000 -0.500000 0.020000 -0.500000 0.030000 -0.500000 0.040000 -0.500000 0.050000 -0.500000 0.060000
1 0 0 0 -0.500000 -0.010000 -0.500000 -0.020000 -0.500000 -0.030000 -0.500000 -0.040000 -0.500000 -0.050000 -0.500000 -0.060000
1 1 0 0 1.000000 0.000000 2.000000 0.000000 3.000000 0.000000 4.000000 0.000000 5.000000 0.000000 6.000000 0.000000
"""

# Lines 1 to 6 again, at 180 degrees, written in six ways.
HALF_TURNS = ["180 180", "-180 -180", "180 -180", "-180 180", "-179.9996 180.0005", "-1.8E2 +180"]
HALF_TURN = "".join(row(component, headings=headings) for component, headings in enumerate(HALF_TURNS, 1))
WRITTEN_HALF_TURN = WRITTEN.replace("\n0.000\n", "\n180.000\n")

# What it shows, the coverage, the text, what is written.
TEXTS = [
    ("six rows", "single", SIX, WRITTEN),
    ("six rows, full", "full", SIX, WRITTEN),
    ("a title, a blank line, carriage returns, no last line feed", "single", "PER1\n\n" + SIX.replace("\n", "\r\n")[:-2], WRITTEN),
    ("two periods", "full", PAIRS + SIX, WRITTEN_PAIRS),
    ("no text", "single", "", "component 1 refused 10 0\n"),
    ("no row of component 4", "single", SIX.replace(row(4), ""), "component 4 refused 10 0\n"),
    ("a wrong form stops all six, and the first is named", "single", SIX.replace("-.03", "NaN"), "component 1 refused 5 3\n"),
    ("a line too long", "single", SIX + " " * 161, "component 1 refused 3 7\n"),
    ("component 5's mean has an imaginary part", "single", SIX.replace(row(5), row(5, im="1", mod="1.00125")), "component 5 refused 7 5\n"),
    ("component 6 contradicts itself", "full", SIX + row(6, "-.07"), "component 6 refused 9 7\n"),
    ("closing component 1 comes before a line of component 2", "single", SIX + row(2, "0", "200 10") + row(1, "0", "8 8"), "component 1 refused 11 1000 0 1250 0\n"),
    ("but a line of component 2 before closing component 3", "single", SIX + row(3, "0", "8 8") + row(2, "0", "200 10"), "component 2 refused 6 8\n"),
    ("the place of 11 in full coverage", "full", SIX + row(4, "0", "10 8", "0 90", "1", "1"), "component 4 refused 11 1000 0 1250 0\n"),
    ("two headings are passed over in single coverage, though MOD does not fit", "single", SIX + row(4, "0", "10 8", "0 90", "1"), WRITTEN),
    ("the same row in full coverage", "full", SIX + row(4, "0", "10 8", "0 90", "1"), "component 4 refused 17 7\n"),
    ("component 3's MOD does not fit: -0.03 with 0.04", "single", SIX.replace(row(3), row(3, mod=".04")), "component 3 refused 17 3\n"),
    ("a MOD of 1415.000001 in component 2 is out of range before that", "full", SIX.replace(row(3), row(3, mod="0")) + row(2, mod="1415.000001"), "component 2 refused 6 7\n"),
    ("component 3 is refused its line before component 4 its closing", "single", SIX.replace(row(4), "") + row(3, "-.04", mod=".03"), "component 3 refused 17 6\n"),
    ("but closing component 2 comes before a line of component 3", "single", SIX.replace(row(2), "") + row(3, "-.04", mod=".03"), "component 2 refused 10 0\n"),
    ("component 6 has another frequency", "single", SIX.replace(row(6), row(6, periods="8 8")), "refused 18 0\n"),
    ("component 2 has another heading", "full", SIX.replace(row(2), row(2, headings="90 90")), "refused 18 0\n"),
    ("component 3 has a heading more", "single", SIX + row(3, headings="90 90"), "refused 18 0\n"),
    ("-180 and 180 are one heading, however they are written", "single", HALF_TURN, WRITTEN_HALF_TURN),
    ("the same, full", "full", HALF_TURN, WRITTEN_HALF_TURN),
    ("all with a minus", "full", "".join(row(component, headings="-180 -180") for component in range(1, 7)), WRITTEN_HALF_TURN),
    ("component 4 says something else at -180", "single", HALF_TURN + row(4, "-.05", headings="-180 -180"), "component 4 refused 9 7\n"),
    ("component 5's mean at 180 and -180 has an imaginary part", "full", HALF_TURN.replace(row(5, headings=HALF_TURNS[4]), row(5, headings="180 -180", im="1", mod="1.00125")), "component 5 refused 7 5\n"),
    ("the place of 11 at -180", "single", HALF_TURN + row(2, "0", "10 8", "-180 -180", "1", "1"), "component 2 refused 11 1250 180000 1250 180000\n"),
    ("-180.001 in a row of component 3", "full", HALF_TURN + row(3, headings="-180.001 180"), "component 3 refused 6 7\n"),
    ("component 6 is at -179.999", "full", HALF_TURN.replace(row(6, headings=HALF_TURNS[5]), row(6, headings="-179.999 -179.999")), "refused 18 0\n"),
    ("no such coverage", "both", SIX, "refused 2 0\n"),
    ("no such coverage, and a text that would be refused", "Single", "x", "refused 2 0\n"),
]
TEXTS = [(title, coverage, text.encode(), answer.encode()) for title, coverage, text, answer in TEXTS]


ONE, FIVE = "1 1 0 1 0\n", "1 5 53 3 4\n"  # component 1: the value 1; the value 3 + 4i
H_ROWS = "10 10 0 0 1 .02 180 -.02 0\n8 8 0 0 1 .036 180 -.036 0\n10 8 0 0 1 .0302655 172.405 -.03 .004\n"
FIELDS = ["PER1", "PER2", "BETA1", "BETA2", "I", "MOD", "PHS", "RE", "IM"]
FAR = {1: "101", 2: "0.9", 3: "-181", 4: "180.001", 6: "-1", 8: "1001", 9: "-1001"}  # out of range, by column
TWENTY_TWO = "PER1\n" + "".join(f"{s} {s} 0 0 1 0 0 0 0\n" for s in range(1, 22))
SAID_TWENTY = "line 22 says 476 0 476 0, and there is no slot left for it\n" + "".join(
    f"line {line} brought frequency {tick}\n"
    for line, tick in enumerate([10000, 5000, 3333, 2500, 2000, 1667, 1429, 1250, 1111, 1000, 909, 833, 769, 714, 667, 625, 588, 556, 526, 500], 2)
) + "line 2 brought heading 0\n"


def second_line(at, word):
    """A good row, and one with another word in this column."""
    good = ["10", "10", "0", "0", "1", "1", "0", "1", "0"]
    return " ".join(good) + "\n" + " ".join(good[:at - 1] + [word] + good[at:]) + "\n"


# What it shows, the words, the text, what is written, the status.
EXPLAINED = [
    ("the page of requests", "difference 1 single 9 4", H_ROWS + "8 10 0 0 1 .0302655 172.405 -.03 .004\n", "line 4 says -0.030000 0.004000 of 1250 0 1000 0; line 3 set it to -0.030000 -0.004000\n", 0),
    ("9 with no last line feed", "difference 1 full 9 4", H_ROWS + "8 10 0 0 1 .0302655 172.405 -.03 .004", "line 4 says -0.030000 0.004000 of 1250 0 1000 0; line 3 set it to -0.030000 -0.004000\n", 0),
    ("9 at equal nodes", "difference 1 single 9 4", H_ROWS + "10 10 0 0 1 .021 180 -.021 0\n", "line 4 says -0.021000 0.000000 of 1000 0 1000 0; line 1 set it to -0.020000 0.000000\n", 0),
    ("9 in a sum table, headings with three places", "sum 2 full 9 2", "10 8 22.5 -0.25 2 5 53 3 4\n8 10 -0.25 22.5 2 5 -53 3 -4\n", "line 2 says 3.000000 -4.000000 of 1250 -0.250 1000 22.500; line 1 set it to 3.000000 4.000000\n", 0),
    ("9 with the largest values", "difference 1 single 9 2", "10 8 0 0 1 1414.213562 45 1000 1000\n8 10 0 0 1 1414.213562 45 1000 1000\n", "line 2 says 1000.000000 1000.000000 of 1250 0 1000 0; line 1 set it to 1000.000000 -1000.000000\n", 0),
    ("9 with the smallest, at 180", "difference 1 single 9 2", "10 10 180 -180 1 0 0 .000001 0\n10 10 -180 -180 1 0 0 -.000001 0\n", "line 2 says -0.000001 0.000000 of 1000 180 1000 180; line 1 set it to 0.000001 0.000000\n", 0),
    ("9 where 0 is held", "difference 6 single 9 3", "\n10 8 -90 -90 6 0 0 -0 -0\n8 10 -90 -90 6 5 53 3 4", "line 3 says 3.000000 4.000000 of 1250 -90 1000 -90; line 2 set it to 0.000000 0.000000\n", 0),
    ("9 with values that were rounded", "difference 1 single 9 2", "10 8 .0004 .0004 1 5 53 2.9999996 3.9999994\n8 10 0 0 1 5 -53 3 -4\n", "line 2 says 3.000000 -4.000000 of 1250 0 1000 0; line 1 set it to 3.000000 -3.999999\n", 0),
    ("11", "difference 1 single 11 1000 0 1250 0", "10 10 0 0 " + ONE + "8 8 0 0 " + ONE, "no row says 1000 0 1250 0: line 1 brought frequency 1000 and line 1 heading 0; line 2 brought frequency 1250 and line 1 heading 0\n", 0),
    ("11 in full coverage, four different lines", "difference 1 full 11 833 -90000 1000 500", "".join(nodes + ONE for nodes in ["8 8 90 90 ", "8 12 90 90 ", "8 8 90 -90 ", "10 8 90 90 ", "8 8 .5 90 ", "12 12 -90 -90 ", "12 10 -90 -90 ", "8 12 -90 -90 ", "12 12 -90 .5 "]), "no row says 833 -90 1000 0.500: line 2 brought frequency 833 and line 3 heading -90; line 4 brought frequency 1000 and line 5 heading 0.500\n", 0),
    ("11 at -179.999", "difference 1 single 11 1000 -179999 1000 -179999", "10 10 -.001 -.001 " + ONE + "8 10 -179.999 -179.999 " + ONE, "no row says 1000 -179.999 1000 -179.999: line 1 brought frequency 1000 and line 2 heading -179.999; line 1 brought frequency 1000 and line 2 heading -179.999\n", 0),
    ("11 at 180, written -180", "sum 1 single 11 1000 180000 1250 180000", "10 10 -180 -180 " + FIVE + "8 8 180 180 " + FIVE[:-1], "no row says 1000 180 1250 180: line 1 brought frequency 1000 and line 1 heading 180; line 2 brought frequency 1250 and line 1 heading 180\n", 0),
    ("8 by a frequency", "difference 1 single 8 22", TWENTY_TWO, SAID_TWENTY, 0),
    ("8 by a heading", "difference 1 single 8 5", "9 9 -90 -90 1 1 0 1 0\n9 9 180 180 1 2 0 2 0\n9 9 -179.999 -179.999 1 3 0 3 0\n9 9 .001 .001 1 4 0 4 0\n8 9 0 0 1 0 0 0 0\n", "line 5 says 1250 0 1111 0, and there is no slot left for it\nline 1 brought frequency 1111\nline 1 brought heading -90\nline 2 brought heading 180\nline 3 brought heading -179.999\nline 4 brought heading 0.001\n", 0),
    ("8 by two headings of one row", "difference 1 full 8 3", "9 8 0 30 " + FIVE + "9 9 0 90 " + FIVE + "7 9 -.5 120 " + FIVE, "line 3 says 1429 -0.500 1111 120, and there is no slot left for it\nline 1 brought frequency 1111\nline 1 brought frequency 1250\nline 1 brought heading 0\nline 1 brought heading 30\nline 2 brought heading 90\n", 0),
]
EXPLAINED += [(f"5 in column {at}", "difference 1 single 5 2", second_line(at, "*****"), f"line 2: field {at}, {name}, has the wrong form\n", 0) for at, name in enumerate(FIELDS, 1)]
EXPLAINED += [(f"6 in column {at}", "difference 1 single 6 2", second_line(at, word), f"line 2: field {at}, {FIELDS[at - 1]}, is out of range\n", 0) for at, word in FAR.items()]
EXPLAINED += [
    (title, "difference 1 single " + stated, text, f"refused {stated}: no other line or field has a part in it\n", 0)
    for title, stated, text in [
        ("3", "3 2", "\n" + "x" * 161),
        ("4", "4 1", "10 10 0 0 1 1 0 1\n"),
        ("7", "7 3", "PER1\n\n10 10 0 0 " + FIVE),
        ("10", "10 0", ""),
        ("10 of another component", "10 0", H_ROWS.replace(" 0 0 1 ", " 0 0 2 ")),
        ("17", "17 1", "10 8 0 0 1 6 53 3 4"),
    ]
]
ACCEPTED = "the text is accepted, frequencies 2, headings 1\n"
EXPLAINED += [
    (title, words, text, answer, 1)
    for title, words, text, answer in [
        ("an accepted text", "difference 1 single 9 4", H_ROWS, ACCEPTED),
        ("an accepted text, and an 11", "difference 1 full 11 1000 0 1250 0", H_ROWS, ACCEPTED),
        ("an accepted text, and a number of none", "difference 1 single 0 0", H_ROWS, ACCEPTED),
        ("an accepted text, and 2, which of a text is not given", "difference 1 single 2 0", H_ROWS, ACCEPTED),
        ("an accepted text of two headings", "difference 1 full 12 0", "10 10 0 0 " + ONE + "10 10 90 90 " + ONE + "10 10 0 90 " + ONE, "the text is accepted, frequencies 1, headings 2\n"),
        ("another line", "difference 1 single 9 3", H_ROWS + "8 10 0 0 1 .0302655 172.405 -.03 .004\n", "the text gives refused 9 4\n"),
        ("no line", "difference 1 single 9 0", H_ROWS + "8 10 0 0 1 .0302655 172.405 -.03 .004\n", "the text gives refused 9 4\n"),
        ("another number", "difference 1 single 7 4", H_ROWS + "8 10 0 0 1 .0302655 172.405 -.03 .004\n", "the text gives refused 9 4\n"),
        ("the largest number and line", "difference 1 single 255 4294967295", H_ROWS + "x", "the text gives refused 4 4\n"),
        ("another component", "difference 2 single 9 4", H_ROWS + "8 10 0 0 1 .0302655 172.405 -.03 .004\n", "the text gives refused 10 0\n"),
        ("10 with a line", "difference 1 single 10 1", "", "the text gives refused 10 0\n"),
        ("another pair", "difference 1 single 11 1250 0 1000 0", "10 10 0 0 " + ONE + "8 8 0 0 " + ONE, "the text gives refused 11 1000 0 1250 0\n"),
        ("a 9 where a pair is missing", "difference 1 single 9 2", "10 10 -22.5 -22.5 " + ONE + "8 8 -22.5 -22.5 " + ONE, "the text gives refused 11 1000 -22500 1250 -22500\n"),
        ("a pair with the least heading and the largest tick", "difference 1 full 11 4294967295 -2147483648 0 2147483647", TWENTY_TWO, "the text gives refused 8 22\n"),
        ("6 where it is 5", "sum 1 single 6 1", "200 10 0 0 1 1 0 NaN 0\n", "the text gives refused 5 1\n"),
        ("a 17", "sum 1 full 7 1", "10 8 0 0 1 6 53 3 4", "the text gives refused 17 1\n"),
        ("a line too long", "sum 1 full 4 1", "x" * 200, "the text gives refused 3 1\n"),
    ]
]
EXPLAINED = [(title, words, text.encode(), answer.encode(), status) for title, words, text, answer, status in EXPLAINED]
