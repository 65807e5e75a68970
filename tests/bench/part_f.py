"""Part F: why was it refused? (request M-103)."""
from kit import Part, bench_sum, record
from part_a import DIAGONALS, H1, H2, H3, H4, H4_WRONG, H_CELLS, H_LISTING, HEADINGS4
from part_b import SEA_H, bits, show
from texts import WRITTEN, row

F = Part(
    "Part F: why was it refused? (M-103)",
    "Request M-103, read as the page of requests and the bench's page read it. `explain WAY KIND COMPONENT COVERAGE NUMBER P1 P2 P3 P4 N` is shown with its text behind a colon. The text is read and closed by the reader's\n"
    "rules, on cells and flags of its own. Where that does not give the stated number with the stated place, so for every accepted text, it is `refused 2 0`. Else: 9 is `set`, the first line whose used row set the cell, directly or\n"
    "as its mirror, then the value held and the value said, both as the refused row has its two nodes; 11 is `brought`, the first used rows with the first tick, the first heading, the second tick, the second heading; 8 is `held`, the\n"
    "lines that brought the 20 frequency slots and the 4 heading slots, 0 for a slot that is not held; 5 and 6 are `field`, the first that offends, from 1; 3, 4, 7, 10 and 17 are `nothing`. Values are in millionths, headings in\n"
    "millidegrees. In every row that is used MOD fits RE and IM (part D): most are 3, 4 and 5, or have one part alone.",
)
c, p, x, sea = F.c, F.p, F.x, F.sea
NOT = "refused 2 0"


def held(frequencies, headings):
    """The lines of the slots that are held, filled up with 0."""
    frequencies, headings = list(frequencies), list(headings)
    return " ".join(["held"] + [str(line) for line in frequencies + [0] * (20 - len(frequencies)) + headings + [0] * (4 - len(headings))])


def each(choices, cases):
    for stated, text, answer, why in cases:
        x(choices, stated, text, answer, why)


# ---------------------------------------------------------------------------------------------
F.section("F1. Example H with a fourth row", "Document 01's example: lines 1 and 2 set the diagonal, line 3 sets 10 s with 8 s to -0.030 + 0.004i and so 8 s with 10 s to -0.030 - 0.004i.")
H = H1 + H2 + H3
each(
    "0 1 0",
    [
        ("9 4", H + H4_WRONG, "set 3 -30000 -4000 -30000 4000", "the page of requests: 8 s then 10 s with +0.004; line 3 set it as its mirror"),
        ("9 4", (H + H4_WRONG)[:-1], "set 3 -30000 -4000 -30000 4000", "no last line feed: refused at closing"),
        ("9 4", (H + H4_WRONG).replace("\n", "\r\n"), "set 3 -30000 -4000 -30000 4000", "carriage returns"),
        ("9 4", H + H4_WRONG + H1 + "x\n" + "x" * 161, "set 3 -30000 -4000 -30000 4000", "what follows is not read"),
        ("9 4", H + "10 8 0 0 1 .0302655 -172 -.03 -.004\n", "set 3 -30000 4000 -30000 -4000", "10 s then 8 s: set directly"),
        ("9 4", H + "10 10 0 0 1 .021 180 -.021 0\n", "set 1 -20000 0 -21000 0", "the mean of 10 s"),
        ("9 4", H + "8 8 0 0 1 .036 180 -.036001 0\n", "set 2 -36000 0 -36001 0", "the mean of 8 s, one unit off"),
        ("9 4", H + "8 10 0 0 1 .0302655 172 -.0300006 -.004\n", "set 3 -30000 -4000 -30001 -4000", "-30,000.6 is said as -30,001"),
        ("9 4", H + H4, NOT, "document 01: this fourth row is accepted"),
        ("9 3", H1 + H3 + H4_WRONG, "set 2 -30000 -4000 -30000 4000", "one line earlier: without the mean of 8 s"),
        ("9 2", H3 + H4_WRONG + H1 + H2, "set 1 -30000 -4000 -30000 4000", "at once"),
        ("9 2", H4_WRONG + H3, "set 1 -30000 -4000 -30000 4000", "the shorter period first, and it is not conjugated again: the mirror of -0.030 + 0.004i"),
        ("9 2", H4 + H3.replace("0.004", "-0.004"), "set 1 -30000 4000 -30000 -4000", "the same with the other sign"),
    ],
)

R = "10 8 0 0 1 5 53 3 4\n"  # 3 + 4i for 10 s with 8 s, and 3 - 4i (in a sum table 3 + 4i) for 8 s with 10 s
SAME = "8 10 0 0 1 5 -53 3 -4\n"  # its mirror in a difference table
SUM_SAME = "8 10 0 0 1 5 53 3 4\n"  # its mirror in a sum table
F.section("F2. 9 in single coverage", "The value held is that of the cell which the refused row would set, so it is conjugated where a difference table has it from a row of the other half.")
each(
    "0 1 0",
    [
        ("9 2", R + "10 8 0 0 1 5 37 4 3\n", "set 1 3000000 4000000 4000000 3000000", "difference, directly"),
        ("9 2", R + "8 10 0 0 1 5 37 4 3\n", "set 1 3000000 -4000000 4000000 3000000", "by the mirror"),
        ("9 2", R + SUM_SAME, "set 1 3000000 -4000000 3000000 4000000", "the mission's yards: the second half with the sign turned"),
        ("9 2", SUM_SAME + R, "set 1 3000000 -4000000 3000000 4000000", "the second half first"),
        ("9 2", R + "10 8 0 0 1 5 53 3.000001 4\n", "set 1 3000000 4000000 3000001 4000000", "the real part alone"),
        ("9 2", R + "10 8 0 0 1 5 53 3 3.999999\n", "set 1 3000000 4000000 3000000 3999999", "the imaginary part alone"),
        ("9 2", R + "8 10 0 0 1 5 53 3.000001 -4\n", "set 1 3000000 -4000000 3000001 -4000000", "the real part of the mirror"),
        ("9 2", R + "8 10 0 0 1 4 -90 0 -4\n", "set 1 3000000 -4000000 0 -4000000", "a value with a 0 in it"),
        ("9 2", R + "8 10 0 0 1 0 0 0 0\n", "set 1 3000000 -4000000 0 0", "0 is said"),
        ("9 2", "10 8 0 0 1 0 0 0 0\n" + R, "set 1 0 0 3000000 4000000", "0 is held: a cell that is set is told from one that is not by its flag"),
        ("9 2", "10 8 0 0 1 3 0 3 0\n8 10 0 0 1 4 0 4 0\n", "set 1 3000000 0 4000000 0", "no imaginary part to turn"),
        ("9 2", "10 10 0 0 1 3 0 3 0\n10 10 0 0 1 3 0 -3 0\n", "set 1 3000000 0 -3000000 0", "equal nodes: the cell is its own mirror"),
        ("9 2", "10 8 0 0 1 1414.213562 45 1000 1000\n8 10 0 0 1 1414.213562 45 1000 1000\n", "set 1 1000000000 -1000000000 1000000000 1000000000", "the largest values"),
        ("9 2", "10 8 0 0 1 1414.213562 45 -1000 -1000\n8 10 0 0 1 1414.213562 45 1000 -1000\n", "set 1 -1000000000 1000000000 1000000000 -1000000000", "and with minus"),
    ],
)
each(
    "1 1 0",
    [
        ("9 2", R + "10 8 0 0 1 5 37 4 3\n", "set 1 3000000 4000000 4000000 3000000", "sum, directly"),
        ("9 2", R + SAME, "set 1 3000000 4000000 3000000 -4000000", "by the mirror, which is the same and not the conjugate"),
        ("9 2", SAME + R, "set 1 3000000 -4000000 3000000 4000000", "the other way about"),
        ("9 2", R + SUM_SAME, NOT, "no 9 in a sum table: it says the same"),
        ("11 1000 0 1000 0", R + SUM_SAME, "brought 1 1 1 1", "so closing asks for the rest"),
        ("9 2", "10 10 0 0 1 5 53 3 4\n10 10 0 0 1 5 -53 3 -4\n", "set 1 3000000 4000000 3000000 -4000000", "equal nodes, where 7 does not hold of a sum"),
        ("9 4", H + H4, "set 3 -30000 4000 -30000 -4000", "example H as a sum: now this fourth row is 9"),
        ("9 4", H + H4_WRONG, NOT, "and this one is accepted"),
    ],
)

F.section("F3. 9 in full coverage", "The mirror swaps frequency and heading together: what swaps one of them alone is another cell.")
A, B = "10 8 0 90 1 5 53 3 4\n", "8 10 0 90 1 5 37 4 3\n"  # ((10, 0), (8, 90)) and ((8, 0), (10, 90))
each(
    "0 1 1",
    [
        ("9 2", A + "10 8 0 90 1 5 37 4 3\n", "set 1 3000000 4000000 4000000 3000000", "difference, directly"),
        ("9 2", A + "8 10 90 0 1 5 53 3 4\n", "set 1 3000000 -4000000 3000000 4000000", "by the mirror"),
        ("9 3", A + B + "8 10 90 0 1 5 53 3 4\n", "set 1 3000000 -4000000 3000000 4000000", "line 2 is 8 s at 0 with 10 s at 90, another cell"),
        ("9 3", A + B + "10 8 90 0 1 5 37 4 3\n", "set 2 4000000 -3000000 4000000 3000000", "and that cell's mirror"),
        ("9 4", A + B + "10 8 90 90 1 1 0 1 0\n8 10 0 90 1 5 37 3 4\n", "set 2 4000000 3000000 3000000 4000000", "that cell directly"),
        ("9 2", "10 10 0 90 1 5 53 3 4\n10 10 90 0 1 5 53 3 4\n", "set 1 3000000 -4000000 3000000 4000000", "equal frequencies, two headings: two nodes"),
        ("9 3", "10 10 0 90 1 5 53 3 4\n10 10 90 0 1 5 -53 3 -4\n10 10 0 90 1 5 -53 3 -4\n", "set 1 3000000 4000000 3000000 -4000000", "line 2 repeats line 1 from the other side"),
        ("9 2", "10 10 90 90 1 3 0 3 0\n10 10 90 90 1 4 0 4 0\n", "set 1 3000000 0 4000000 0", "equal nodes"),
        ("9 2", "10 8 180 -180 1 5 53 3 4\n8 10 180 -180 1 5 53 3 4\n", "set 1 3000000 -4000000 3000000 4000000", "-180 and 180 are one heading (M-102)"),
    ],
)
each(
    "1 1 1",
    [
        ("9 2", A + "10 8 0 90 1 5 37 4 3\n", "set 1 3000000 4000000 4000000 3000000", "sum, directly"),
        ("9 2", A + "8 10 90 0 1 5 -53 3 -4\n", "set 1 3000000 4000000 3000000 -4000000", "by the mirror"),
        ("9 3", A + B + "10 8 90 0 1 5 37 -4 3\n", "set 2 4000000 3000000 -4000000 3000000", "the mirror of line 2"),
        ("11 1000 0 1000 0", A + "8 10 90 0 1 5 53 3 4\n", "brought 1 1 1 1", "the same mirror is no 9"),
    ],
)
LAST = DIAGONALS + "".join(f"20 20 {h} {h} 1 {h} 0 {h} 0\n" for h in (1, 2, 3))  # lines 21 to 23: nodes 39, 59, 79
each(
    "0 1 1",
    [
        ("9 24", LAST + "20 20 3 3 1 4 0 4 0\n", "set 23 3000000 0 4000000 0", "the table's last cell, node 79 with itself"),
        ("9 24", LAST + "20 20 2 2 1 4 0 4 0\n", "set 22 2000000 0 4000000 0", "node 59"),
        ("9 24", LAST + "1 1 0 0 1 4 0 4 0\n", "set 1 0 0 4000000 0", "node 0"),
        ("9 25", LAST + "20 1 3 0 1 5 53 3 4\n1 20 0 3 1 5 53 3 4\n", "set 24 3000000 -4000000 3000000 4000000", "node 79 with node 0, and the first row's last column"),
        ("9 26", LAST + "19 20 3 3 1 5 53 3 4\n18 20 3 3 1 5 37 4 3\n20 19 3 3 1 5 53 3 4\n", "set 24 3000000 -4000000 3000000 4000000", "node 78 with node 79, not node 77"),
    ],
)

# ---------------------------------------------------------------------------------------------
F.section("F4. The first of several lines", "A repeat that says the same sets nothing anew. A cell may be set first as a mirror, and said directly by a later row only.")
each(
    "0 1 0",
    [
        ("9 3", R + R + "10 8 0 0 1 5 37 4 3\n", "set 1 3000000 4000000 4000000 3000000", "a repeated row"),
        ("9 3", R + SAME + "10 8 0 0 1 5 37 4 3\n", "set 1 3000000 4000000 4000000 3000000", "a repeated mirror"),
        ("9 3", R + SAME + SUM_SAME, "set 1 3000000 -4000000 3000000 4000000", "line 2 says the cell directly, but line 1 set it, as its mirror"),
        ("9 3", SAME + R + "10 8 0 0 1 5 -53 3 -4\n", "set 1 3000000 4000000 3000000 -4000000", "the other way about"),
        ("9 6", SAME + R + SAME + R + R + SUM_SAME, "set 1 3000000 -4000000 3000000 4000000", "five lines say it"),
        ("9 4", "10 10 0 0 1 1 0 1 0\n" + R + R + SUM_SAME, "set 2 3000000 -4000000 3000000 4000000", "line 1 is another cell"),
        ("9 4", "10 10 0 0 1 1 0 1 0\n" * 3 + "10 10 0 0 1 2 0 2 0\n", "set 1 1000000 0 2000000 0", "equal nodes"),
        ("9 3", "10 8 0 0 1 5 53 3.0000004 3.9999996\n" + R + SUM_SAME, "set 1 3000000 -4000000 3000000 4000000", "line 1 rounds to the same"),
        ("9 3", "10 8 0 0 1 4.99996 53 3 4\n" + R + SUM_SAME, "set 1 3000000 -4000000 3000000 4000000", "line 1 has another MOD, which fits too: 40 off, k is 51"),
        ("9 3", "10.0001 8 0 0 1 5 53 3 4\n" + R + "8 10.0002 0 0 1 5 53 3 4\n", "set 1 3000000 -4000000 3000000 4000000", "10.0001 s and 10.0002 s are 1,000 ticks too"),
        ("9 3", "10 8 .0004 -.0004 1 5 53 3 4\n" + R + SUM_SAME, "set 1 3000000 -4000000 3000000 4000000", "headings that round to 0"),
        ("9 3", "10 8 180 -180 1 5 53 3 4\n10 8 180 180 1 5 53 3 4\n8 10 -180 -180 1 5 53 3 4\n", "set 1 3000000 -4000000 3000000 4000000", "-180 is 180, and line 1 is used (M-102)"),
    ],
)
each(
    "1 1 0",
    [
        ("9 3", R + SUM_SAME + SAME, "set 1 3000000 4000000 3000000 -4000000", "sum: line 1 set it, as its mirror"),
        ("9 4", SUM_SAME + R + R + "10 8 0 0 1 5 -53 3 -4\n", "set 1 3000000 4000000 3000000 -4000000", "likewise"),
    ],
)
each(
    "0 1 1",
    [
        ("9 4", "10 10 0 0 1 1 0 1 0\n" + A + "8 10 90 0 1 5 -53 3 -4\n" + "8 10 90 0 1 5 53 3 4\n", "set 2 3000000 -4000000 3000000 4000000", "full: line 3 repeats line 2's mirror"),
        ("9 4", "8 10 90 0 1 5 -53 3 -4\n" + A + A + "10 8 0 90 1 5 -53 3 -4\n", "set 1 3000000 4000000 3000000 -4000000", "and the other way about"),
    ],
)

F.section(
    "F5. What counts as a line",
    "Lines count from 1: a title, blank lines and rows that are passed over too. A row of another component, and in single coverage a row of two headings, sets nothing and brings nothing.",
)
MIXED = "PER1 PER2\n\n \t\n10 8 0 0 2 9 9 9 9\n10 8 0 90 1 5 37 4 3\n10 8 0 0 1 5 53 3 4\r\n\r\n"  # six lines and a blank one: line 6 is used
each(
    "0 1 0",
    [
        ("9 8", MIXED + "8\t10 0  0 1 5 53 3 4 ", "set 6 3000000 -4000000 3000000 4000000", "a title, two blank lines, component 2 and two headings before it"),
        ("9 8", MIXED + "8 10 0 0 1 5 53 3 4\n\n\n", "set 6 3000000 -4000000 3000000 4000000", "lines behind it do not matter"),
        ("9 10", MIXED + "8 10 0 90 1 5 53 3 4\n8 10 0 0 6 5 53 3 4\n8 10 0 0 1 5 53 3 4\n", "set 6 3000000 -4000000 3000000 4000000", "nor do lines that are passed over between them"),
        ("9 2", R[:-1] + " " * 141 + "\n" + SUM_SAME[:-1] + "\t" * 140 + "\r", "set 1 3000000 -4000000 3000000 4000000", "two lines of 160 bytes, the second with its carriage return and no line feed"),
        ("11 1000 0 1000 0", MIXED, "brought 6 6 6 6", "of these seven lines only the sixth brought anything"),
        ("11 1000 0 1000 0", "10 10 90 90 2 1 0 1 0\n10 10 0 90 1 1 0 1 0\n\n8 10 0 0 1 1 0 1 0\n10 8 0 0 1 1 0 1 0", "brought 4 4 4 4", "lines 1 and 2 are passed over"),
    ],
)
each(
    "0 1 1",
    [
        ("9 8", MIXED + SUM_SAME, "set 6 3000000 -4000000 3000000 4000000", "full coverage: line 5 is used, and is another cell"),
        ("9 8", MIXED + "8 10 90 0 1 5 53 3 4\n", "set 5 4000000 -3000000 3000000 4000000", "this one"),
        ("11 1000 0 1000 0", MIXED, "brought 5 5 5 5", "line 5 brought 10 s and heading 0 now"),
    ],
)
each(
    "0 2 0",
    [
        ("11 1000 0 1000 0", MIXED.replace("9 9 9 9", "5 53 3 4"), "brought 4 4 4 4", "for component 2 line 4 is used, and the others are passed over"),
        ("17 4", MIXED, "nothing", "as it stands, its MOD does not fit"),
    ],
)

# ---------------------------------------------------------------------------------------------
F.section("F6. 11 in single coverage", "Four lines: of the first tick, the first heading, the second tick, the second heading. A frequency is brought by PER1 or PER2, a heading by a row that is used.")
each(
    "0 1 0",
    [
        ("11 1000 0 1250 0", H1 + H2, "brought 1 1 2 1", "example H without its third row"),
        ("11 1000 0 1250 0", (H1 + H2)[:-1], "brought 1 1 2 1", "no last line feed: the last line brought 8 s at closing"),
        ("11 1000 0 1250 0", H2 + H1, "brought 2 1 1 1", "8 s came first"),
        ("11 1000 0 1000 0", H3, "brought 1 1 1 1", "one row brought both; the first pair that is missing is 10 s with itself"),
        ("11 1000 0 1000 0", H2 + H3, "brought 2 1 2 1", "10 s by line 2, as PER1"),
        ("11 1000 0 1000 0", H2 + H4, "brought 2 1 2 1", "as PER2"),
        ("11 1250 0 1250 0", H1 + H3, "brought 2 1 2 1", "8 s by line 2, as PER2"),
        ("11 1250 0 1250 0", H1 + H4, "brought 2 1 2 1", "as PER1"),
        ("11 1000 0 1000 0", "9 9 0 0 1 1 0 1 0\n9 8 0 0 1 1 0 1 0\n10 9 0 0 1 1 0 1 0\n8 8 0 0 1 1 0 1 0\n8 10 0 0 1 1 0 1 0\n", "brought 3 1 3 1", "line 5 has 10 s again"),
        ("11 1000 0 1250 0", "9 9 0 0 1 1 0 1 0\n9 8 0 0 1 1 0 1 0\n10 9 0 0 1 1 0 1 0\n8 8 0 0 1 1 0 1 0\n10 10 0 0 1 1 0 1 0\n", "brought 3 1 2 1", "8 s as PER2 of line 2, 10 s as PER1 of line 3; both have rows of their own later"),
        ("11 1000 90000 1250 90000", H + "10 10 90 90 1 1 0 1 0\n8 8 90 90 1 1 0 1 0\n", "brought 1 4 2 4", "a second heading by line 4; the frequencies are older"),
        ("11 1000 -90000 1250 -90000", H + "10 10 -90 -90 1 1 0 1 0\n", "brought 1 4 2 4", "heading -90 comes before 0"),
        ("11 1250 0 1250 0", "10 10 90 90 1 1 0 1 0\n10 10 0 0 1 1 0 1 0\n10 8 90 90 1 1 0 1 0\n10 8 0 0 1 1 0 1 0\n8 8 90 90 1 1 0 1 0\n", "brought 3 2 3 2", "8 s by line 3 at 90, heading 0 by line 2 with 10 s"),
        ("11 1000 180000 1250 180000", "10 10 -180 -180 1 1 0 1 0\n8 8 180 180 1 1 0 1 0\n", "brought 1 1 2 1", "-180 is 180 (M-102): line 1 brought it"),
        ("11 1000 -180000 1250 180000", "10 10 -180 -180 1 1 0 1 0\n8 8 180 180 1 1 0 1 0\n", NOT, "no place has -180000"),
        ("11 1000 0 1250 0", "10.0001 10 0 0 1 1 0 1 0\n10 10 0 0 1 1 0 1 0\n8 8 0 0 1 1 0 1 0\n", "brought 1 1 3 1", "10.0001 s brought tick 1,000"),
        ("11 1000 1 1000 1", "8 8 .0006 .0006 1 1 0 1 0\n10 8 .001 .001 1 1 0 1 0\n", "brought 2 1 2 1", "0.0006 rounds to one millidegree"),
        ("11 500 0 526 0", DIAGONALS, "brought 20 1 19 1", "1 to 20 s on the diagonal: 20 s is 500 ticks, 19 s is 526"),
        ("11 500 0 526 0", DIAGONALS[:-1] + "\r", "brought 20 1 19 1", "the last line with a carriage return and no line feed"),
    ],
)
x("1 1 0", "11 1000 0 1250 0", "10 10 0 0 1 5 53 3 4\n8 8 0 0 1 5 53 3 4", "brought 1 1 2 1", "a sum table")
x("0 5 0", "11 1000 0 1250 0", "10 10 0 0 1 1 0 1 0\n10 10 0 0 5 1 0 1 0\n8 10 0 0 2 1 0 1 0\n8 8 0 0 5 1 0 1 0", "brought 2 2 4 2", "component 5: lines 1 and 3 are passed over")

F.section("F7. 11 in full coverage", "Every pair of headings is needed too. Nodes go by heading, then tick, and the first node is not above the second.")
FIVE = "8 8 90 90 1 1 0 1 0\n8 12 90 90 1 1 0 1 0\n8 8 90 -90 1 1 0 1 0\n10 8 90 90 1 1 0 1 0\n8 8 0 90 1 1 0 1 0\n"  # 8 s and 90; then 12 s, -90, 10 s and 0, a line each
FIRST = "12 12 -90 -90 1 1 0 1 0\n12 10 -90 -90 1 1 0 1 0\n8 12 -90 -90 1 1 0 1 0\n12 12 -90 0 1 1 0 1 0\n"  # (12 s, -90) with itself, with 10 s and 8 s at -90, with 12 s at 0
each(
    "0 1 1",
    [
        ("11 833 -90000 1000 0", FIVE + FIRST, "brought 2 3 4 5", "12 s as PER2, -90 as BETA2, 10 s as PER1, 0 as BETA1; (12 s, -90) with (10 s, 0) is missing"),
        ("11 833 -90000 833 0", FIVE + FIRST.replace("12 12 -90 0 1 1 0 1 0\n", ""), "brought 2 3 2 5", "without the last row (12 s, -90) with (12 s, 0) is"),
        ("11 833 -90000 833 -90000", FIVE, "brought 2 3 2 3", "of the five lines alone the first node with itself"),
        ("11 833 -90000 1000 0", FIVE + FIVE + FIRST + FIRST, "brought 2 3 4 5", "repeats bring nothing"),
        ("11 833 -90000 1000 0", ("PER1\n" + FIVE + FIRST).replace("\n", "\n\n"), "brought 5 7 9 11", "a title and blank lines: line k is line 2k + 1"),
        ("11 1000 0 1250 90000", "10 10 0 0 1 1 0 1 0\n8 8 90 90 1 1 0 1 0\n10 8 0 0 1 1 0 1 0\n10 10 90 0 1 1 0 1 0\n", "brought 1 1 2 2", "8 s and 90 by one line"),
        ("11 1250 0 1000 90000", "10 8 0 0 1 1 0 1 0\n10 10 0 0 1 1 0 1 0\n8 8 0 0 1 1 0 1 0\n10 10 0 90 1 1 0 1 0\n10 8 0 90 1 1 0 1 0\n10 10 90 90 1 1 0 1 0\n", "brought 1 1 1 4", "90 as BETA2 of line 4; the first node has the higher tick"),
        ("11 1000 0 1000 90000", "10 10 0 0 1 1 0 1 0\n10 10 90 90 1 1 0 1 0\n", "brought 1 1 1 2", "a file made for single coverage, read as full"),
        ("11 1000 0 1000 0", "10 10 90 0 1 1 0 1 0\n", "brought 1 1 1 1", "one row brought everything"),
        ("11 1250 180000 1250 180000", "10 10 180 180 1 1 0 1 0\n10 8 180 -180 1 2 0 2 0", "brought 2 1 2 1", "8 s by line 2, whose -180 is line 1's 180"),
        ("11 1000 0 1000 180000", "10 10 -180 180 1 1 0 1 0\n10 10 0 0 1 1 0 1 0\n", "brought 1 2 1 1", "heading 180 by line 1, written both ways"),
    ],
)
x("1 6 1", "11 833 -90000 1000 0", (FIVE + FIRST).replace(" 1 1 0 1 0", " 6 5 53 3 4"), "brought 2 3 4 5", "a sum table of component 6")
x("0 1 0", "11 833 90000 833 90000", FIVE.replace("8 8 90 90 1", "8 8 90 90 2"), "brought 2 2 2 2", "single coverage, line 1 of another component: lines 3 and 5 have two headings, so line 2 brought 8 s, 12 s and 90, and 12 s with itself is missing")

# ---------------------------------------------------------------------------------------------
F.section("F8. 8 by a frequency", "The lines of the slots that were held before the refused row, frequencies in order of arrival. DIAGONALS is 1 to 20 s, a line each, all at heading 0.")
TWENTY = held(range(1, 21), [1])
PAIRED = "".join(f"{s} {s + 1} 0 0 1 0 0 0 0\n" for s in range(1, 20, 2))  # ten lines, two frequencies each
each(
    "0 1 0",
    [
        ("8 21", DIAGONALS + "21 21 0 0 1 0 0 0 0\n", TWENTY, "21 lines"),
        ("8 21", DIAGONALS + "21 21 0 0 1 0 0 0 0", TWENTY, "no last line feed"),
        ("8 21", DIAGONALS + "1 21 0 0 1 0 0 0 0\n", TWENTY, "PER1 is held"),
        ("8 21", DIAGONALS + "21 20 0 0 1 0 0 0 0\n", TWENTY, "PER2 is held"),
        ("8 21", DIAGONALS + "21 22 0 0 1 0 0 0 0\n", TWENTY, "neither is"),
        ("8 21", DIAGONALS + "21 21 90 90 1 0 0 0 0\n", TWENTY, "a second heading in that row is not held: a refused row writes no slot"),
        ("8 21", DIAGONALS[:-1].replace("\n", "\r\n") + "\r\n21 21 0 0 1 0 0 0 0\r\n", TWENTY, "carriage returns"),
        ("8 20", DIAGONALS.replace("20 20 0 0 1 0 0 0 0\n", "20 21 0 0 1 0 0 0 0\n"), held(range(1, 20), [1]), "19 are held, and the row has two new ones: 19 lines, and the 20th slot is free"),
        ("8 22", DIAGONALS + "20 19 0 0 1 1 0 1 0\n" + "21 21 0 0 1 0 0 0 0\n", TWENTY, "line 21 brings nothing"),
        ("8 11", PAIRED + "21 1 0 0 1 0 0 0 0\n", held([line for line in range(1, 11) for _ in "12"], [1]), "two to a line, PER1 before PER2"),
        ("8 11", PAIRED.replace("19 20", "19 18") + "20 21 0 0 1 0 0 0 0\n", held([line for line in range(1, 10) for _ in "12"] + [10], [1]), "19 of them: line 10 brought 19 s alone"),
        ("8 21", "".join(f"20 {s} 0 0 1 0 0 0 0\n" for s in range(20, 0, -1)) + "20 21 0 0 1 0 0 0 0\n", TWENTY, "the shortest last: order of arrival, not of ticks"),
        ("8 24", "PER1\n\n" + DIAGONALS.replace("11 11 0 0 1", "11 11 0 0 3") + "10 11 0 90 1 0 0 0 0\n", NOT, "a row of component 3 and one of two headings are passed over: 19 are held, and nothing is refused 8"),
        (
            "8 25",
            "PER1\n\n" + DIAGONALS.replace("11 11 0 0 1", "11 11 0 0 3") + "10 11 0 90 1 0 0 0 0\n23 11 0 0 1 0 0 0 0\n21 21 0 0 1 0 0 0 0\n",
            NOT,
            "line 24 has two new ones already",
        ),
        (
            "8 24",
            "PER1\n\n" + DIAGONALS.replace("11 11 0 0 1", "11 11 0 0 3") + "10 11 0 90 1 0 0 0 0\n23 11 0 0 1 0 0 0 0\n21 21 0 0 1 0 0 0 0\n",
            held([*range(3, 13), *range(14, 23)], [3]),
            "at that line: 1 to 10 s by lines 3 to 12, 12 to 20 s by lines 14 to 22",
        ),
        (
            "8 25",
            "PER1\n\n" + DIAGONALS.replace("11 11 0 0 1", "11 11 0 0 3") + "10 11 0 90 1 0 0 0 0\n20 11 0 0 1 0 0 0 0\n21 21 0 0 1 0 0 0 0\n",
            held([*range(3, 13), *range(14, 23), 24], [3]),
            "line 24 brought 11 s, the last to arrive",
        ),
        ("8 22", DIAGONALS.replace("20 20", "10.0001 10") + "20 20 0 0 1 0 0 0 0\n21 21 0 0 1 0 0 0 0\n", held([*range(1, 20), 21], [1]), "line 20 has tick 1,000 twice, which line 10 brought"),
        ("9 21", DIAGONALS + "21 21 0 0 1 0 0 0 0\n", NOT, "it is 8"),
        ("7 21", DIAGONALS + "21 21 0 0 1 1 90 0 1\n", "nothing", "7 before 8"),
        ("8 21", DIAGONALS + "21 21 0 0 1 1 90 0 1\n", NOT, "so it is not 8"),
    ],
)
x("1 2 0", "8 21", (DIAGONALS + "21 21 0 0 1 0 0 0 0\n").replace(" 0 0 1 0", " 0 0 2 0"), TWENTY, "a sum table of component 2")
x("0 1 1", "8 21", DIAGONALS + "20 21 0 90 1 0 0 0 0\n", TWENTY, "full coverage: heading 90 would be new as well")

F.section("F9. 8 by a heading", "Four heading slots, BETA1 before BETA2.")
FULL4 = "9 9 0 30 1 1 0 1 0\n9 9 60 90 1 1 0 1 0\n"  # two headings to a line
each(
    "0 1 0",
    [
        ("8 5", HEADINGS4 + "9 9 0 0 1 0 0 0 0\n", held([1], [1, 2, 3, 4]), "single coverage: one frequency, four headings"),
        ("8 5", HEADINGS4 + "9 8 0 0 1 0 0 0 0", held([1], [1, 2, 3, 4]), "8 s would be new as well, and has room: it is not held"),
        ("8 7", HEADINGS4 + "9 8 0.001 0.001 1 0 0 0 0\n9 9 0 1 1 0 0 0 0\n9 8 0 0 1 0 0 0 0\n", held([1, 5], [1, 2, 3, 4]), "line 5 brought 8 s; line 6 is passed over"),
        ("8 6", "".join(f"10 10 {h} {h} 1 0 0 0 0\n" for h in (0, 90, 180, -90, -180, 45)), held([1], [1, 2, 3, 4]), "line 5 has -180, which line 3 brought as 180"),
        ("8 6", "".join(f"10 10 {h} {h} 1 0 0 0 0\n" for h in (-180, 180, 0, 90, -90, 45)), held([1], [1, 3, 4, 5]), "and line 1 as -180"),
        ("8 6", "".join(f"10 10 {h} {h} 1 0 0 0 0\n" for h in ("0", "0.0005", "0.001", "0.0015", "0.003", "0.004")), held([1], [1, 3, 4, 5]), "0.0005 is a tie and goes to 0, which line 1 brought; 0.0015 goes to 2, and 4 is a fifth"),
        ("8 5", "".join(f"10 10 {h} {h} 1 0 0 0 0\n" for h in ("0", "0.0006", "0.0016", "0.0026", "0.0036")), held([1], [1, 2, 3, 4]), "0, 1, 2, 3 and 4 millidegrees"),
    ],
)
each(
    "0 1 1",
    [
        ("8 5", HEADINGS4 + "9 9 0 0 1 0 0 0 0\n", held([1], [1, 2, 3, 4]), "full coverage"),
        ("8 3", FULL4 + "9 9 0 120 1 0 0 0 0\n", held([1], [1, 1, 2, 2]), "two headings to a line; a fifth as BETA2"),
        ("8 3", FULL4 + "9 9 120 0 1 0 0 0 0\n", held([1], [1, 1, 2, 2]), "as BETA1"),
        ("8 3", FULL4.replace("60 90", "0 90") + "9 9 60 120 1 0 0 0 0\n", held([1], [1, 1, 2]), "three are held, and the row has two new ones: three lines, and the fourth slot is free"),
        ("8 2", "9 8 0 30 1 1 0 1 0\n7 6 60 120 1 1 0 1 0\n", NOT, "two and two have room"),
        ("8 3", "9 8 0 30 1 1 0 1 0\n7 6 60 120 1 1 0 1 0\n9 9 5 5 1 1 0 1 0\n", held([1, 1, 2, 2], [1, 1, 2, 2]), "two frequencies and two headings to a line"),
        ("8 5", "9 9 0 0 2 1 0 1 0\n\n" + FULL4.replace("60 90", "60 180") + "9 9 -180 5 1 0 0 0 0\n", held([3], [3, 3, 4, 4]), "-180 is held as 180, 5 degrees are not"),
        ("8 24", LAST + "20 20 4 4 1 5 0 5 0\n", held(range(1, 21), [1, 21, 22, 23]), "20 frequencies and four headings: all 24 lines"),
        ("8 24", LAST + "21 20 0 0 1 5 0 5 0\n", held(range(1, 21), [1, 21, 22, 23]), "the same, by a 21st frequency"),
        ("8 24", LAST + "21 21 4 4 1 5 0 5 0\n", held(range(1, 21), [1, 21, 22, 23]), "by both"),
    ],
)

# ---------------------------------------------------------------------------------------------
F.section(
    "F10. 5: the first field of the wrong form",
    "Columns from 1: PER1 PER2 BETA1 BETA2 I MOD PHS RE IM. Line 1 is a good row, since a first line that starts with a letter would be a title; line 2 has the fault. I is one byte, 1 to 6.",
)
GOOD = ["10", "10", "0", "0", "1", "1", "0", "1", "0"]


def line(**fields):
    """A good row with other fields: `f8="NaN"` is column 8."""
    return " ".join(fields.get(f"f{at}", word) for at, word in enumerate(GOOD, 1)) + "\n"


def field(number, columns, answer, why, choices="0 1 0"):
    """Line 2, refused with this number, has these columns."""
    x(choices, f"{number} 2", line() + line(**columns), f"field {answer}", why)


for at in range(1, 10):
    field(5, {f"f{at}": "x"}, at, f"column {at} alone")
for at in range(1, 9):
    field(5, {f"f{later}": "NaN" for later in range(at, 10)}, at, f"column {at} and every later one")
for one, other in [(1, 9), (2, 5), (3, 4), (4, 5), (5, 6), (5, 9), (6, 8), (7, 8), (8, 9)]:
    field(5, {f"f{one}": "1,0", f"f{other}": "1..0"}, one, f"columns {one} and {other}")
for word, why in [
    ("7", "1 to 6"),
    ("0", "1 to 6"),
    ("11", "a single byte"),
    ("01", "a single byte"),
    ("+1", "a single byte"),
    ("1.", "a single byte, though it is a number"),
    ("-", "no digit"),
    ("*", "a star"),
]:
    field(5, {"f5": word}, 5, f"I is {word}: {why}")
for word, why in [
    ("*****", "stars, where a number was too wide for its column"),
    ("NaN", "no number was worked out"),
    ("-", "a sign alone"),
    (".", "a point alone: at least one digit"),
    ("1.2.3", "two points"),
    ("--1", "two signs"),
    ("1234567890123456", "16 digits"),
    ("0.000000000000001", "16 digits, leading zeros too"),
    ("1E", "no exponent"),
    ("1E+", "a sign alone there"),
    ("1E001", "three digits there"),
    ("1E1.0", "a point there"),
    ("1D0", "E or e"),
    ("0x1", "no such digit"),
    ("1\r", "a carriage return within the line"),
    ("\x01", "a byte of 1"),
    ("1\x7f", "a byte of 127"),
]:
    field(5, {"f6": word}, 6, f"MOD: {why}")
field(5, {"f7": "*****"}, 7, "PHS is not used, but it must be a field")
field(5, {"f7": "*****", "f8": "*****", "f9": "*****"}, 7, "three columns of stars")
each(
    "0 1 0",
    [
        ("5 1", "10 10 0 0 1 ***** 180 -0.02 0\n", "field 6", "document 01's `*****`, at line 1"),
        ("5 1", "10 10 0 0 1 1 0 NaN 0", "field 8", "and its `NaN`, with no line feed"),
        ("5 1", "1x 10 0 0 1 1 0 1 0\n", "field 1", "line 1 starts with a digit: no title"),
        ("5 1", "x 10 0 0 1 1 0 1 0\n", NOT, "a title: no row at all"),
        ("10 0", "x 10 0 0 1 1 0 1 0\n", "nothing", "so no row was used"),
        ("5 2", "x 10 0 0 1 1 0 1 0\nx 10 0 0 1 1 0 1 0\n", "field 1", "line 2 is no title"),
        ("5 2", "\na b c d e f g h i\n", "field 1", "nor is it behind a blank line"),
        ("5 4", line() + "\n \t\n" + "10\t10 0\t\t0 1  1 0 1 0,5 \n", "field 9", "a comma; blank lines count; spaces and tabs"),
        ("5 1", "10 10 0 0 1 1 0 1 0\r\r\n", "field 9", "of two carriage returns one is dropped, and IM is `0` with the other"),
        ("5 1", "\r 10 0 0 1 1 0 1 0\n", "field 1", "a carriage return at the start is a field"),
        ("5 2", line() + line(f5="2", f8="NaN"), "field 8", "a row of another component is tested for 5 too"),
        ("5 2", line() + line(f5="2", f1="200", f6="x", f9="y"), "field 6", "200 s there is not tested, and 5 comes first"),
        ("5 2", line() + line(f1="200", f8="NaN"), "field 8", "5 over the whole row before 6: 200 s is out of range, and is not named"),
        ("6 2", line() + line(f1="200", f8="NaN"), NOT, "it is not 6"),
        ("5 2", line() + line(f3="0", f4="90", f9="i"), "field 9", "a row of two headings in single coverage"),
        ("5 3", line() + line() + line(f2="10s") + line(f1="x"), "field 2", "line 4 is not read"),
        ("5 2", line() + line(f8="1e"), "field 8", "a small e"),
        ("5 1", line(f9="0" * 16), "field 9", "zeros count among the 15 digits"),
        ("5 1", line(f9="0" * 15), NOT, "15 are a field, and the text is accepted"),
        ("4 2", line() + "x y z\n", "nothing", "4 before 5"),
        ("5 2", line() + "x y z\n", NOT, "so it is not 5"),
    ],
)
x("1 6 1", "5 2", line(f5="6") + line(f5="7", f6="x"), "field 5", "a sum table of component 6 in full coverage")

F.section(
    "F11. 6: the first field out of range",
    "After rounding: PER1 and PER2 (1 to 100 s), BETA1 and BETA2 (-180 to 180), MOD (0 to 1415), RE and IM (-1000 to 1000): columns 1, 2, 3, 4, 6, 8 and 9. I has no range, and PHS none.",
)
OUT = {1: ("0.9999994", "100.0000006"), 2: ("0.9999994", "100.0000006"), 3: ("-180.0006", "180.0006"), 4: ("-180.0006", "180.0006"), 6: ("-.0000006", "1415.0000006"), 8: ("-1000.0000006", "1000.0000006"), 9: ("-1000.0000006", "1000.0000006")}
for at, (below, above) in OUT.items():
    field(6, {f"f{at}": below}, at, f"column {at}, one unit below after rounding")
    field(6, {f"f{at}": above}, at, "one unit above")
for at in (1, 2, 3, 4, 6, 8):
    field(6, {f"f{later}": OUT[later][1] for later in OUT if later >= at}, at, f"column {at} and every later one that has a range")
for one, other in [(1, 9), (2, 3), (2, 6), (3, 4), (4, 8), (6, 8), (6, 9), (8, 9)]:
    field(6, {f"f{one}": OUT[one][0], f"f{other}": OUT[other][1]}, one, f"columns {one} and {other}")
INSIDE = {"f1": "0.9999995", "f2": "100.0000005", "f3": "180.0005", "f4": "-180.0005", "f6": "-.0000005", "f8": "0"}  # ties, each to the even number in range; two periods
field(6, {**INSIDE, "f9": "-1000.000001"}, 9, "ties in all columns before it, each to the even number in range")
field(6, {**INSIDE, "f8": "1E99"}, 8, "a number of any size")
field(6, {"f7": "1E99", "f8": "1001"}, 8, "PHS may be anything")
field(6, {"f7": "-9E99", "f2": "0"}, 2, "a period of 0")
field(6, {"f1": "-10"}, 1, "a period below 0")
field(6, {"f3": "190", "f4": "-190"}, 3, "no turn is taken away")
field(6, {"f3": "-181", "f6": "-1"}, 3, "before MOD")
field(6, {"f6": "2000", "f8": "2000"}, 6, "MOD stands before RE")
field(6, {"f3": "0", "f4": "90", "f6": "-1"}, 6, "a row of two headings in single coverage is tested for 6, MOD too")
field(6, {"f3": "0", "f4": "270"}, 4, "and for its headings")
field(6, {"f3": "0", "f4": "270", "f8": "1001"}, 4, "in full coverage", "0 1 1")
field(6, {"f8": "1001", "f9": "1"}, 8, "6 before 7 and 17", "1 1 1")
each(
    "0 1 0",
    [
        ("6 2", line() + line(f5="2", f1="200"), NOT, "a row of another component is not tested: accepted"),
        ("6 1", line(f1="100.000001"), "field 1", "document 01: 100.000001 s"),
        ("6 1", line(f1="100.000001")[:-1], "field 1", "no line feed"),
        ("6 1", line(f8="1000.000001"), "field 8", "document 01's 1000.000001"),
        ("6 1", line(f6="1000", f8="1000.0000005"), NOT, "1000.0000005 is 10^9: accepted"),
        ("6 1", line(f6="1415"), NOT, "1415 is in range"),
        ("17 1", line(f6="1415"), "nothing", "and does not fit"),
        ("6 5", "PER1\n\n" + line() + "\n" + line(f4="181") + line(f1="200"), "field 4", "lines count from 1; line 6 is not read"),
        ("6 2", line() + line(f5="7", f1="200"), NOT, "a component of 7 is 5"),
        ("5 2", line() + line(f5="7", f1="200"), "field 5", "there"),
    ],
)

F.section("F12. 3, 4, 7, 10 and 17", "No other line and no field has a part in them: `nothing`, where they are what the text gives.")
SPACES = " " * 141  # behind a row of 19 bytes, a line of 160
each(
    "0 1 0",
    [
        ("3 1", "x" * 161, "nothing", "161 bytes"),
        ("3 1", R[:-1] + SPACES + " \n", "nothing", "a row and blanks, 161 bytes"),
        ("3 1", R[:-1] + SPACES + "\r\n", "nothing", "the carriage return is the 161st"),
        ("3 3", R + "\n" + R[:-1] + SPACES + "0", "nothing", "line 3"),
        ("3 1", "x" * 1000, "nothing", "it falls at the 161st byte"),
        ("3 2", H1 + "x" * 160, NOT, "160 bytes are no 3"),
        ("4 2", H1 + "x" * 160, "nothing", "but one field"),
        ("3 1", "*" * 160 + "\n", NOT, "the same with its line feed"),
        ("4 1", "*" * 160 + "\n", "nothing", "one field"),
        ("4 1", "10 10 0 0 1 1 0 1\n", "nothing", "eight fields"),
        ("4 3", "PER1\n" + R + "10 8 0 0 1 5 53 3 4 5", "nothing", "ten, at line 3, with no line feed"),
        ("4 2", "PER1\nPER1 PER2\n", "nothing", "a second title"),
        ("4 1", "\r\r\n", "nothing", "one field: a carriage return"),
        ("7 1", "10 10 0 0 1 5 53 3 4\n", "nothing", "an imaginary part at equal nodes"),
        ("7 4", H + "6 6 0 0 1 .05 180 -.05 .000001", "nothing", "one unit of it"),
        ("7 2", "10 8 180 -180 1 5 53 3 4\n10 10 180 -180 1 5 53 3 4\n", "nothing", "180 and -180 are one node (M-102)"),
        ("7 2", H1 + "10.0001 10 0 0 1 5 53 3 4\n", "nothing", "and so are 10.0001 s and 10 s"),
        ("9 2", H1 + "10.0001 10 0 0 1 5 53 3 4\n", NOT, "7 before 9"),
        ("10 0", "", "nothing", "no text"),
        ("10 0", "\n", "nothing", "an empty line"),
        ("10 0", " \t\r\n\n ", "nothing", "blank lines"),
        ("10 0", "Nothing but a title", "nothing", "a title alone"),
        ("10 0", "PER1\n10 10 0 0 2 1 0 1 0\n10 10 0 90 1 1 0 1 0\n", "nothing", "another component, and two headings"),
        ("17 3", H1 + H2 + "10 8 0 0 1 .0302655 172.405 -.031 .004\n", "nothing", "part D's pasted columns"),
        ("17 1", "10 8 0 0 1 .03 172 -.03 .004", "nothing", "no line feed"),
        ("17 1", "10 10 0 0 1 .03 172 -.03 .004", "nothing", "17 before 7"),
        ("7 1", "10 10 0 0 1 .03 172 -.03 .004", NOT, "so it is not 7"),
        ("17 4", H + "8 10 0 0 1 .03 172 -.03 .004\n", "nothing", "17 before 9"),
        ("17 21", DIAGONALS + "21 21 0 0 1 1 0 0 0\n", "nothing", "and before 8"),
    ],
)
each("0 2 0", [("10 0", H, "nothing", "example H has no row of component 2"), ("10 0", H + H4_WRONG, "nothing", "whatever its rows of component 1 say")])
each("1 1 0", [("7 1", "10 10 0 0 1 5 53 3 4\n", NOT, "no 7 in a sum table: accepted"), ("10 0", "", "nothing", ""), ("17 1", "10 10 0 0 1 6 53 3 4\n", "nothing", "")])
each("0 1 1", [("7 2", "10 10 0 90 1 5 53 3 4\n10 10 90 90 1 5 53 3 4\n", "nothing", "line 1 has two nodes"), ("10 0", "\n" * 100, "nothing", ""), ("4 101", "\n" * 100 + "x", "nothing", "")])

# ---------------------------------------------------------------------------------------------
F.section("F13. Accepted texts", "Nothing is explained of them, whatever is stated.")
STATED = [f"{number} {place}" for number in (3, 4, 5, 6, 7, 8, 9, 17) for place in (0, 1, 3)] + ["10 0", "10 3", "11 1000 0 1250 0", "11 1000 0 1000 0", "11 0 0 0 0"]
STATED += [f"{number} 0" for number in (0, 1, 2, 12, 13, 14, 15, 16, 18, 19, 20, 21, 255)]
for stated in STATED:
    x("0 1 0", stated, H, NOT, "example H" if stated == STATED[0] else "")
for stated in ("9 3", "9 4", "10 0", "11 1000 0 1250 0", "0 0", "2 0"):
    x("0 1 1", stated, H + H4, NOT, "with the fourth row that agrees, in full coverage" if stated == "9 3" else "")
    x("1 1 0", stated, H + H4_WRONG, NOT, "as a sum table with the other fourth row" if stated == "9 3" else "")
x("0 1 0", "9 4", H + R.replace(" 1 5", " 2 5") + "\n", NOT, "a last row of another component")

F.section("F14. Refused otherwise than is stated", "The number and the place must both be the text's: the line, the pair, or 0 for 10.")
WRONG = H + H4_WRONG
for stated, why in [
    ("9 0", "no place"),
    ("9 1", "another line"),
    ("9 3", "the line that set it"),
    ("9 5", "the line behind it"),
    ("9 260", "256 more"),
    ("9 65540", "65,536 more"),
    ("9 4294967295", "the largest line that can be stated"),
    ("3 4", "another number"),
    ("4 4", ""),
    ("5 4", ""),
    ("6 4", ""),
    ("7 4", ""),
    ("8 4", ""),
    ("17 4", ""),
    ("10 4", "10 has no line"),
    ("10 0", "10 is not what it gives"),
    ("11 4 0 0 0", "the line as a tick"),
    ("11 1000 0 1250 0", "no pair is missing"),
    ("11 1250 0 1000 0", "nor this one, which is the refused row's"),
    ("0 4", "a number that nothing gives"),
    ("1 0", ""),
    ("1 4", ""),
    ("2 0", "2 is what is answered, and not what the text gives"),
    ("2 4", ""),
    ("12 4", "numbers of seas and of the ProteusDS text"),
    ("13 4", ""),
    ("14 4", ""),
    ("15 0", ""),
    ("16 0", ""),
    ("18 0", ""),
    ("19 0", ""),
    ("25 4", "16 more"),
    ("73 4", "64 more"),
    ("137 4", "128 more"),
    ("255 4", "the largest number that can be stated"),
]:
    x("0 1 0", stated, WRONG, NOT, why)
x("0 1 0", "9 4", WRONG, "set 3 -30000 -4000 -30000 4000", "and this is what it gives")
for stated, why in [
    ("11 1250 0 1000 0", "the pair the other way about"),
    ("11 1000 0 1000 0", "another pair, which is there"),
    ("11 1250 0 1250 0", "likewise"),
    ("11 1000 0 1250 1", "another heading"),
    ("11 1000 1 1250 0", ""),
    ("11 1000 1 1250 1", ""),
    ("11 1001 0 1250 0", "another tick"),
    ("11 1000 0 1251 0", ""),
    ("11 0 0 0 0", "no pair"),
    ("11 4294967295 2147483647 4294967295 2147483647", "the largest numbers"),
    ("11 1000 -2147483648 1250 -2147483648", "the least headings"),
    ("11 66536 0 66786 0", "ticks that are 65,536 more"),
    ("10 0", "10 is closing's too, but not this"),
    ("9 2", "no line"),
]:
    x("0 1 0", stated, H1 + H2, NOT, why)
x("0 1 0", "11 1000 0 1250 0", H1 + H2, "brought 1 1 2 1", "and this is what it gives")
THREE = "10 10 0 0 1 1 0 1 0\n8 8 0 0 1 1 0 1 0\n5 5 0 0 1 1 0 1 0\n"
x("0 1 0", "11 1000 0 1250 0", THREE, "brought 1 1 2 1", "three pairs are missing")
x("0 1 0", "11 1000 0 2000 0", THREE, NOT, "missing too, but not the first")
x("0 1 0", "11 1250 0 2000 0", THREE, NOT, "likewise")
for stated, why in [("10 1", "10 with a line"), ("10 4294967295", ""), ("9 0", ""), ("11 0 0 0 0", ""), ("3 0", ""), ("0 0", "")]:
    x("0 1 0", stated, "\n", NOT, why)
for stated, text, why in [
    ("5 1", line() + line(f8="x"), "the line before it"),
    ("5 0", line() + line(f8="x"), ""),
    ("6 2", line() + line(f8="x"), "6, where it is 5"),
    ("5 2", line() + line(f8="2000"), "5, where it is 6"),
    ("6 1", line() + line(f8="2000"), "another line"),
    ("6 3", line() + line(f8="2000"), ""),
    ("8 20", DIAGONALS + "21 21 0 0 1 0 0 0 0\n", "the line before it"),
    ("8 22", DIAGONALS + "21 21 0 0 1 0 0 0 0\n", "the line behind it"),
    ("8 0", DIAGONALS + "21 21 0 0 1 0 0 0 0\n", "no line"),
    ("8 21", DIAGONALS, "20 have room: it is 11"),
    ("8 21", DIAGONALS + "20 1 0 0 1 0 0 0 0\n", "nothing new at line 21"),
    ("3 2", "x" * 161, "another line"),
    ("3 0", "x" * 161, "no line"),
    ("4 3", "x\nx\nx\n", "line 1 is a title, so that line 2 is the first refused"),
    ("7 2", "10 10 0 0 1 5 53 3 4\n", "another line"),
    ("17 2", "10 10 0 0 1 6 53 3 4\n", "another line"),
]:
    x("0 1 0", stated, text, NOT, why)
for choices, stated, why in [
    ("0 2 0", "9 4", "of component 2 no row is used: it is 10"),
    ("1 1 0", "9 4", "as a sum table it is accepted"),
    ("0 6 1", "9 4", "component 6"),
]:
    x(choices, stated, WRONG, NOT, why)
x("0 1 1", "9 4", WRONG, "set 3 -30000 -4000 -30000 4000", "in full coverage the same, since all headings are 0")

# ---------------------------------------------------------------------------------------------
F.section(
    "F15. Lent buffers and choices",
    "1 where fewer than 12,800 cells or 6,400 flags are lent, then 2 where a choice is not valid, then the text. The bytes are taken in every case: the next command is answered.",
)
for lent in ("12799 6400", "12800 6399", "0 0", "12799 6399", "12900 6399", "12799 6500"):
    c(f"lend {lent}", f"lent {lent}")
    x("0 1 0", "9 4", WRONG, "refused 1 0", "what it would explain")
    x("0 1 0", "9 4", H, "refused 1 0", "an accepted text: 1 before 2")
    x("2 1 0", "9 4", WRONG, "refused 1 0", "a choice that is not valid: 1 before 2")
    x("0 1 0", "1 0", "", "refused 1 0", "1 is stated, and still is no explanation")
    c("explain 1 0 1 0 10 0 0 0 0 0", "?", "and no command is no command")
for lent in ("12800 6400", "12801 6400", "12900 6500"):
    c(f"lend {lent}", f"lent {lent}")
    x("0 1 0", "9 4", WRONG, "set 3 -30000 -4000 -30000 4000", "enough")
c("lend 12800 6400", "lent 12800 6400")
for choices, why in [("2 1 0", "no such kind"), ("255 1 0", ""), ("0 0 0", "components are 1 to 6"), ("0 7 0", ""), ("0 255 0", ""), ("0 1 2", "no such coverage"), ("0 1 255", ""), ("255 255 255", "")]:
    x(choices, "9 4", WRONG, NOT, why)
    x(choices, "10 0", "", NOT, "though no row is used")
    x(choices, "2 0", "", NOT, "2 is not explained")
for component in range(1, 7):
    x(f"0 {component} 0", "9 4", WRONG.replace(" 0.0 0.0 1 ", f" 0.0 0.0 {component} "), "set 3 -30000 -4000 -30000 4000", f"component {component}")
    x(f"1 {component} 1", "10 0", WRONG.replace(" 0.0 0.0 1 ", f" 0.0 0.0 {component % 6 + 1} "), "nothing", "of the next component")

F.section("F16. Commands that the bench's page does not describe", "`?`, and no bytes are taken: what follows is the next command.")
for command, why in [
    ("explain", "no numbers"),
    ("explain 0 0 1 0 10 0 0 0 0", "nine"),
    ("explain 0 0 1 0 10 0", "six"),
    ("explain 0 0 1 0 10 0 0 0 0 0 0", "eleven"),
    ("explain  0 0 1 0 10 0 0 0 0 0", "words are separated by one space"),
    ("explain 0 0 1 0 10 0 0 0  0 0", "likewise"),
    ("explain 0 0 1 0 10 0 0 0 0 0 ", "likewise"),
    ("Explain 0 0 1 0 10 0 0 0 0 0", "no such command"),
    ("explains 0 0 1 0 10 0 0 0 0 0", "no such command"),
    ("explain 1 0 1 0 10 0 0 0 0 0", "WAY is 0 until M-105"),
    ("explain 2 0 1 0 10 0 0 0 0 0", ""),
    ("explain 255 0 1 0 10 0 0 0 0 0", ""),
    ("explain 256 0 1 0 10 0 0 0 0 0", "nor what a byte would cut to 0"),
    ("explain -1 0 1 0 10 0 0 0 0 0", ""),
    ("explain x 0 1 0 10 0 0 0 0 0", "no number"),
    ("explain 0 256 1 0 10 0 0 0 0 0", "a choice is a u8"),
    ("explain 0 -1 1 0 10 0 0 0 0 0", ""),
    ("explain 0 difference 1 0 10 0 0 0 0 0", "a number"),
    ("explain 0 0 257 0 10 0 0 0 0 0", "a component too"),
    ("explain 0 0 -1 0 10 0 0 0 0 0", ""),
    ("explain 0 0 1 256 10 0 0 0 0 0", "a coverage too"),
    ("explain 0 0 1 -1 10 0 0 0 0 0", ""),
    ("explain 0 0 1 0 256 0 0 0 0 0", "the number too"),
    ("explain 0 0 1 0 266 0 0 0 0 0", "nor what a byte would cut to 10"),
    ("explain 0 0 1 0 267 0 0 0 0 0", "or to 11"),
    ("explain 0 0 1 0 -1 0 0 0 0 0", ""),
    ("explain 0 0 1 0 x 0 0 0 0 0", "no number"),
    ("explain 0 0 1 0 9 4294967296 0 0 0 0", "a line is a u32"),
    ("explain 0 0 1 0 9 -1 0 0 0 0", ""),
    ("explain 0 0 1 0 9 x 0 0 0 0", "no number"),
    ("explain 0 0 1 0 10 +0 0 0 0 0", "a plus is no number"),
    ("explain 0 0 1 0 9 4 1 0 0 0", "where the number is not 11 the other three are 0"),
    ("explain 0 0 1 0 9 4 -1 0 0 0", ""),
    ("explain 0 0 1 0 9 4 0 1 0 0", ""),
    ("explain 0 0 1 0 9 4 0 0 1 0", ""),
    ("explain 0 0 1 0 9 4 0 0 -1 0", ""),
    ("explain 0 0 1 0 10 1000 0 1250 0 0", "a pair for 10"),
    ("explain 0 0 1 0 0 0 0 1 0 0", "for any other number"),
    ("explain 0 0 1 0 12 1 0 0 5 0", ""),
    ("explain 0 0 1 0 255 0 1 1 1 0", ""),
    ("explain 0 0 1 0 9 4 2147483648 0 0 0", "what its place cannot hold"),
    ("explain 0 0 1 0 11 4294967296 0 1250 0 0", "a tick is a u32"),
    ("explain 0 0 1 0 11 -1 0 1250 0 0", ""),
    ("explain 0 0 1 0 11 1000 2147483648 1250 0 0", "a heading is an i32"),
    ("explain 0 0 1 0 11 1000 -2147483649 1250 0 0", ""),
    ("explain 0 0 1 0 11 1000 0 4294967296 0 0", "the second tick"),
    ("explain 0 0 1 0 11 1000 0 -1250 0 0", ""),
    ("explain 0 0 1 0 11 1000 0 1250 2147483648 0", "the second heading"),
    ("explain 0 0 1 0 11 1000 0 1250 -2147483649 0", ""),
    ("explain 0 0 1 0 11 1000 0 1250", "no heading and no N"),
    ("explain 0 0 1 0 10 0 0 0 0 -1", "no such number of bytes"),
    ("explain 0 0 1 0 10 0 0 0 0 x", ""),
    ("explain 0 0 1 0 10 0 0 0 0 +0", ""),
    ("explain 0 0 1 0 10 0 0 0 0 18446744073709551616", "more than 64 bits hold"),
]:
    c(command, "?", why)
c("explain 0 0 1 0 9 4 1 0 0 15", "?", "15 bytes follow, as a line of their own, and are the next command")
c("lend 12800 6400", "lent 12800 6400", "answered as one")
c("explain 1 0 1 0 10 0 0 0 0 0", "?", "an empty line follows")
c("", "?", "and is a command too, which is none")
c("explain 0 3 1 0 9 4 0 0 0 0x0", "?", "a kind of 3 is not refused 2 where N is no number")
x("0 1 0", "10 0", "", "nothing", "no bytes, and their line feed")
x("0 1 0", "10 0", "\n", "nothing", "a line feed as the text, and one behind it")

# ---------------------------------------------------------------------------------------------
F.section(
    "F17. Each explanation begins anew",
    "It has cells, flags and lines of its own, which are set to 0 each time: nothing of the text before, and nothing of the bench's own cells and flags, has a part in it.",
)
for _ in "12":
    x("0 1 0", "9 4", WRONG, "set 3 -30000 -4000 -30000 4000", "asked twice")
x("0 1 0", "11 1000 0 1250 0", H1 + H2, "brought 1 1 2 1", "the third row of the text before is not there")
x("0 1 0", "9 3", "\n" + R + SUM_SAME, "set 2 3000000 -4000000 3000000 4000000", "nor is its line")
x("0 1 1", "8 24", LAST + "20 20 4 4 1 5 0 5 0\n", held(range(1, 21), [1, 21, 22, 23]), "every slot is held")
x("0 1 0", "8 7", "\n\n" + HEADINGS4 + "9 9 0 0 1 0 0 0 0\n", held([3], [3, 4, 5, 6]), "and then few are")
x("0 1 0", "11 1000 0 1250 0", "\n" + H1 + H2, "brought 2 2 3 2", "lines are counted from 1 again")
x("1 1 0", "9 2", R + SAME, "set 1 3000000 4000000 3000000 -4000000", "a sum table")
x("0 1 0", "9 2", R + SUM_SAME, "set 1 3000000 -4000000 3000000 4000000", "a difference table after it")
c("open 0 1 0", "open")
for r, k in [(0, 0), (0, 1), (1, 0), (1, 1), (79, 79)]:
    c(f"poke {r} {k} 77 78 1", "poked")
POKED = bench_sum({cell: (77, 78, 1) for cell in [(0, 0), (0, 1), (1, 0), (1, 1), (79, 79)]})
x("0 1 0", "9 4", WRONG, "set 3 -30000 -4000 -30000 4000", "somebody else's writing to the bench's cells")
x("0 1 0", "11 1000 0 1250 0", H1 + H2, "brought 1 1 2 1", "and flags")
x("0 1 1", "9 24", LAST + "20 20 3 3 1 4 0 4 0\n", "set 23 3000000 0 4000000 0")
c("sum", POKED, "which stay as they are")
c("spill 9", "spilt 9")
c("lend 12900 6500", "lent 12900 6500")
x("0 1 1", "9 24", LAST + "20 20 3 3 1 4 0 4 0\n", "set 23 3000000 0 4000000 0", "all is lent")
c("sum", bench_sum({cell: (77, 78, 1) for cell in [(0, 0), (0, 1), (1, 0), (1, 1), (79, 79)]}, 9), "and what is beyond the table stays too")
c("spill 0", "spilt 0")
c("lend 12800 6400", "lent 12800 6400")

F.section("F18. The bench's own table", "Record, cells, flags, sea and the six places stay as they are, in the middle of an open table too.")
EXPLAINED = [
    ("0 1 0", "9 4", WRONG, "set 3 -30000 -4000 -30000 4000"),
    ("0 1 0", "11 1000 0 1250 0", H1 + H2, "brought 1 1 2 1"),
    ("0 1 1", "8 24", LAST + "20 20 4 4 1 5 0 5 0", held(range(1, 21), [1, 21, 22, 23])),
    ("1 3 1", "5 1", "10 10 0 0 3 x y z 0", "field 6"),
    ("0 4 0", "6 1", "10 10 0 0 4 1 0 1 -1001\n", "field 9"),
    ("0 1 0", "3 2", "\n" + "9" * 161, "nothing"),
    ("0 1 0", "10 0", "", "nothing"),
    ("0 1 0", "9 4", H, NOT),
    ("2 1 0", "9 4", H, NOT),
]


def explained():
    for choices, stated, text, answer in EXPLAINED:
        x(choices, stated, text, answer)


c("open 0 1 0", "open")
p(H1 + H2 + "10 8 0 0 1 .03", why="in the middle of a line, and of a field")
HALF = bench_sum({(0, 0): (-20000, 0, 1), (1, 1): (-36000, 0, 1)})
c("record", record(1, "0 1 0", 3, [1000, 1250], [0]))
explained()
c("record", record(1, "0 1 0", 3, [1000, 1250], [0]), "as before")
c("sum", HALF)
p("02655 172.405 -.03 .004", why="the rest of the line: its first part was kept")
x("0 1 0", "9 4", WRONG, "set 3 -30000 -4000 -30000 4000", "behind an unfinished line")
c("close", "accepted 2 1")
c("sum", bench_sum(H_CELLS))
sea(SEA_H)
explained()
c("listing", H_LISTING, "accepted, and as before")
c("coefficient 1000 0 1100 0", "coefficient -24000 1600")
c("force 10", "force -7040000000", "the sea is the one that was given")
c(f"display 0 {bits(0.5)}", show("force", -4120000.0, -8620000.0))
c("record", record(2, "0 1 0", 3, [1000, 1250], [0]))
c("sum", bench_sum(H_CELLS))
c("open 0 1 0", "open")
p(WRONG, "refused 9 4")
explained()
c("record", record(9, "0 1 0", 4, [1000, 1250], [0]), "stuck, and as before")
p(H4, "refused 9 4")
c("close", "refused 9 4")
c("sum", bench_sum(H_CELLS))
c("open 0 1 0", "open")
p(" " * 160, why="160 kept bytes")
explained()
p("\r", "refused 3 1", "the 161st byte of that line")
explained()
c("close", "refused 3 1")
for component in range(1, 7):
    c(f"open 0 {component} 0", "open")
    p(row(component))
    c("close", "accepted 1 1")
    c(f"keep {component}", f"kept {component}")
explained()
c(f"proteus {len(WRITTEN)}", f"proteus {len(WRITTEN)}\n{WRITTEN[:-1]}", "the six places are as they were kept")
c("forge stage 0", "forged", "a record that is not open")
explained()
c("record", record(0, "0 6 0", 1, [1000], [0]))
c("forge component 0", "forged", "a record that is not valid: the explanation has one of its own")
explained()
c("close", "refused 2 0")

F.section(
    "F19. Over 64 KiB",
    "65,535 line feeds, then example H with its fourth row: line 1 of the example is line 65,536, whose first byte is the last of the first 65,536. Where the text is cut makes no difference. (3 past line 1,000,000 would need a text of\n"
    "1,000,001 bytes, ten times the script: docs/NUMBERS.md has it, by the program, and tests/numbers runs it.)",
)
x("0 1 0", "9 65539", "\n" * 65_535 + WRONG, "set 65538 -30000 -4000 -30000 4000", "lines past what 16 bits hold")
x("0 1 0", "9 4", WRONG, "set 3 -30000 -4000 -30000 4000", "and the next one")
c("sum", bench_sum({(0, 0): (-60000, 0, 1)}), "component 6 of the six, the last that was opened")
