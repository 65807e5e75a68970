"""Part C: six tables as a text for ProteusDS (request M-100)."""
from kit import Part, bench_sum, modulus, record
from part_a import H1, H2, H3
from part_b import nearest

C = Part(
    "Part C: six tables for ProteusDS",
    "Request M-100, read as the page of requests reads it, and source document 004, section 3.1. `keep N` copies the record and all cells to place N; `proteus ROOM` writes the six tables\n"
    "that are kept, each lent as many cells as `lend` says, into ROOM bytes. Order of refusals over the six: 1, 2, 18, 15, 19. A text's lines are shown with ` / ` between them. 10 s is tick\n"
    "1,000 and 628,318,530.7 billionths of rad/s, so 0.628318531; 8 s is tick 1,250 and 785,398,163.375, so 0.785398163.",
)
c, p = C.c, C.p

FULL_ROOM = 1_100_000


def load(place, choices, text, answer="accepted 2 1", why=""):
    """A table opened, read, closed and kept."""
    c(f"open {choices}", "open")
    p(text)
    c("close", answer, why)
    c(f"keep {place}", f"kept {place}")


def proteus(text, room=FULL_ROOM, why=""):
    """The text is written: its length and its lines."""
    c(f"proteus {room}", f"proteus {len(text)}\n{text[:-1]}", why)


def refused(number, room=FULL_ROOM, why=""):
    c(f"proteus {room}", f"refused {number} 0", why)


# ---------------------------------------------------------------------------------------------
C.section("C1. Before six tables are kept", "A place never kept to holds a record never opened.")
c("lend 12800 6400", "lent 12800 6400")
refused(2, why="no place was kept to")
refused(2, 0, "2 before 19")
c("lend 12799 6400", "lent 12799 6400")
refused(1, 0, "each of the six is lent one cell too few: 1 before 2")
c("lend 12800 6400", "lent 12800 6400")
c("open 0 1 0", "open")
p("10 10 0 0 1 .25 0 .25 0\n")
c("keep 1", "kept 1", "a table that is not closed can be kept")
refused(2, why="but not written")

# Component 1 is example H. Components 3 and 4 bring 8 s first, so that their slots are the other way round.
ROWS = [
    H1 + H2 + H3,
    "10 10 0 0 2 .5 0 .5 0\n8 8 0 0 2 1000 0 1000 0\n10 8 0 0 2 1414.21 135 -1000 1000\n",
    "8 8 0 0 3 .000001 0 .000001 0\n10 8 0 0 3 0 0 0 0\n10 10 0 0 3 0 0 0 0\n",
    "8 10 0 0 4 12.3461 0 12.345678 -.1\n8 8 0 0 4 .000001 180 -.000001 0\n10 10 0 0 4 12.5 180 -12.5 0\n",
    "10 10 0 0 5 1000 0 999.999999 0\n10 8 0 0 5 2.23607 -63 1 -2\n8 8 0 0 5 1000 180 -999.999999 0\n",
    "10 8 0 0 6 .999999 -90 .00001 -.999999\n10 10 0 0 6 7 0 7 0\n8 8 0 0 6 7 180 -7 0\n",
]
SIX = """$QTFFrequencies
0.628318531 0.785398163
$QTFHeadings
0.000
$WaveDriftQTFMatrix
0 0 0 0 -0.020000 0.000000 0.500000 0.000000 0.000000 0.000000 -12.500000 0.000000 999.999999 0.000000 7.000000 0.000000
0 1 0 0 -0.030000 0.004000 -1000.000000 1000.000000 0.000000 0.000000 12.345678 0.100000 1.000000 -2.000000 0.000010 -0.999999
1 0 0 0 -0.030000 -0.004000 -1000.000000 -1000.000000 0.000000 0.000000 12.345678 -0.100000 1.000000 2.000000 0.000010 0.999999
1 1 0 0 -0.036000 0.000000 1000.000000 0.000000 0.000001 0.000000 -0.000001 0.000000 -999.999999 0.000000 -7.000000 0.000000
"""
assert len(SIX) == 79 + 121 + 127 + 128 + 125 == 580  # the five lines ahead of the rows, and the four rows, counted by hand
C.section(
    "C2. Two frequencies and one heading, single coverage",
    "Kept in any order; each table read by itself. A row is frequency index, frequency index, heading index, heading index, then RE IM of components 1 to 6, with six decimals; a mirror is the\n"
    "conjugate. A sign stands only before values below 0, and then also where the whole part is 0. The text has 580 bytes:\n\n```\n" + SIX + "```",
)
for place in (3, 1, 6, 2, 5):
    load(place, f"0 {place} 0", ROWS[place - 1])
refused(2, why="place 4 was never kept to")
load(4, "0 4 0", ROWS[3])
c("record", record(2, "0 4 0", 3, [1250, 1000], [0]), "8 s has slot 0 here, and slot 1 in component 1")
proteus(SIX)
proteus(SIX, 580, "as much room as the text has bytes")
refused(19, 579, "one byte less")
refused(19, 0)
c("lend 12900 0", "lent 12900 0")
proteus(SIX, 581, "more cells than a table has, and no flags: none are read")
c("lend 12800 6400", "lent 12800 6400")

C.section("C3. The order of refusals", "Over all six each number is tested before the next: 1, 2, 18, 15, 19. The six of C2; one more of them is spoilt at each step, and then they are mended the other way round.")
c("open 0 3 0", "open")
p(ROWS[2])
c("close", "accepted 2 1")
c("poke 1 0 0 1000000001 1", "poked", "1,000 has slot 1, 1,250 slot 0: the imaginary part of (1000, 1250)")
c("keep 3", "kept 3")
refused(15, 580, "a part that is to be written is out of bounds, in the third table")
refused(15, 579, "15 before 19")
load(5, "0 5 1", ROWS[4], why="full coverage, and with one heading it needs no more than single")
refused(18, 0, "18 before 15 and 19: the coverage is not the first table's")
c("open 0 2 0", "open")
p(ROWS[1])
c("keep 2", "kept 2", "not closed")
refused(2, 0, "2 before 18")
c("lend 12799 6400", "lent 12799 6400")
refused(1, 0, "1 before 2")
c("lend 12800 6400", "lent 12800 6400")
c("close", "accepted 2 1", "keeping a record changed nothing of it")
c("keep 2", "kept 2")
refused(18, 0)
load(5, "0 5 0", ROWS[4])
refused(15, 0)
load(3, "0 3 0", ROWS[2])
refused(19, 0)
proteus(SIX, 580)

C.section("C4. Refusal 15", "Any part of any pair that is to be written, outside -10^9 to 10^9. What is not written may hold anything. The third table of C2 is kept again after each poke.")
for command, why in [
    ("poke 0 0 -1000000001 0 1", "the real part of (1250, 1250)"),
    ("poke 0 0 1 -2147483648 1", "its imaginary part: it is written too"),
]:
    c(command, "poked", why)
    c("keep 3", "kept 3")
    refused(15, 580)
c("poke 0 0 1 0 0", "poked", "as it was, but for its flag")
c("poke 79 79 2147483647 2147483647 1", "poked", "a cell of no node of the table")
c("poke 0 20 -2147483648 0 1", "poked", "heading slot 1 is free")
c("poke 1 2 0 1000000001 1", "poked", "and frequency slot 2")
c("keep 3", "kept 3")
proteus(SIX, why="none of these is to be written")
c("poke 1 0 -1000000000 1000000000 1", "poked", "(1000, 1250): both parts just within the bounds")
c("keep 3", "kept 3")
BOUNDS = SIX.replace("0 1 0 0 -0.030000 0.004000 -1000.000000 1000.000000 0.000000 0.000000", "0 1 0 0 -0.030000 0.004000 -1000.000000 1000.000000 -1000.000000 1000.000000")
assert len(BOUNDS) == 580 + 4 + 3
proteus(BOUNDS, 587, "the cells are written as they stand: (1250, 1000) is still 0, though it is no longer the conjugate")
refused(19, 586)

C.section(
    "C5. Refusal 18",
    "Table i is a difference table of component i, and its coverage, its set of frequencies and its set of headings are the first table's. The bench's record is the third table's; a part of it is\n"
    "forged, it is kept, and the part is put back.",
)
load(3, "0 3 0", ROWS[2])
for forged, back, why in [
    ("kind 1", "kind 0", "a sum table"),
    ("component 4", "component 3", "not of component 3"),
    ("coverage 1", "coverage 0", "another coverage"),
    ("tick 0 1251", "tick 0 1250", "another frequency"),
    ("tick 2 2000", "tick 2 0", "a frequency more"),
    ("tick 1 0", "tick 1 1000", "a frequency less"),
    ("heading 0 1", "heading 0 0", "another heading"),
]:
    c(f"forge {forged}", "forged", why)
    c("keep 3", "kept 3")
    refused(18)
    c(f"forge {back}", "forged")
c("forge heading 1 90000", "forged", "a heading slot that is not held")
c("keep 3", "kept 3")
proteus(SIX, why="is none of the headings")
c("forge headings 2", "forged", "now it is held: a heading more")
c("keep 3", "kept 3")
refused(18)
c("forge headings 1", "forged")
c("keep 4", "kept 4", "the third table is itself again, but in place 4")
refused(18, why="in place 3 too many headings, in place 4 the wrong component")
c("keep 3", "kept 3")
refused(18, why="place 4 is left")
load(4, "1 4 0", ROWS[3].replace("-.1\n", "-.1\n10 8 0 0 4 12.3461 0 12.345678 -.1\n"), why="a sum table, and of the right component")
refused(18, 0)
load(4, "0 4 0", ROWS[3])
proteus(SIX)
load(1, "0 1 1", ROWS[0], why="the first table is of full coverage now, the other five are not")
refused(18)
load(1, "0 1 0", "10 10 0 0 1 .02 180 -.02 0\n9 9 0 0 1 .036 180 -.036 0\n10 9 0 0 1 .030265 172 -.03 .004\n", why="or it has another frequency: 9 s is tick 1,111")
refused(18)
load(1, "0 1 0", ROWS[0])
proteus(SIX)

C.section("C6. Refusal 2", "Any of the six records not valid or not accepted.")
for forged, back, why in [
    ("stage 1", "stage 2", "open"),
    ("stage 11", "stage 2", "stuck"),
    ("stage 17", "stage 2", "stuck with 17"),
    ("kept 161", "kept 0", "not valid"),
    ("tick 5 1000", "tick 5 0", "not valid: two ticks that are not distinct"),
    ("kind 2", "kind 0", "not valid, rather than another kind"),
    ("component 7", "component 1", "not valid, rather than another component"),
]:
    c(f"forge {forged}", "forged", why)
    c("keep 1", "kept 1")
    refused(2, 0)
    c(f"forge {back}", "forged")
c("keep 1", "kept 1")
proteus(SIX)

C.section("C7. By values, never by slots", "What a slot holds is what the record says of it. Component 1 is the bench's own record: slot 0 is tick 1,000, slot 1 tick 1,250.")
c("forge tick 0 1250", "forged", "the two ticks change places; their set is the same")
c("forge tick 1 1000", "forged")
c("keep 1", "kept 1")
TURNED = SIX
for left, right in [
    ("0 0 0 0 -0.020000 0.000000", "0 0 0 0 -0.036000 0.000000"),
    ("0 1 0 0 -0.030000 0.004000", "0 1 0 0 -0.030000 -0.004000"),
    ("1 0 0 0 -0.030000 -0.004000", "1 0 0 0 -0.030000 0.004000"),
    ("1 1 0 0 -0.036000 0.000000", "1 1 0 0 -0.020000 0.000000"),
]:
    assert TURNED.count(left) == 1
    TURNED = TURNED.replace(left, right)
proteus(TURNED, 580, "its four cells change places with them; the other five tables do not")
c("forge tick 0 0", "forged", "1,250 goes to slot 19, whose cells are 0")
c("forge tick 19 1250", "forged")
c("keep 1", "kept 1")
MOVED = SIX
for left, right in [
    ("0 0 0 0 -0.020000 0.000000", "0 0 0 0 -0.036000 0.000000"),
    ("0 1 0 0 -0.030000 0.004000", "0 1 0 0 0.000000 0.000000"),
    ("1 0 0 0 -0.030000 -0.004000", "1 0 0 0 0.000000 0.000000"),
    ("1 1 0 0 -0.036000 0.000000", "1 1 0 0 0.000000 0.000000"),
]:
    MOVED = MOVED.replace(left, right)
proteus(MOVED, 580 - 1 - 2 - 1, "free slots in between; -0.030000, -0.030000 -0.004000 and -0.036000 have lost their signs")

C.section("C8. What is kept is a copy", "Record and cells as they were when they were kept; the bench goes on with its own, and neither command changes them.")
load(1, "0 1 0", ROWS[0])
c("poke 0 0 2147483647 0 1", "poked")
c("forge kind 1", "forged")
proteus(SIX, why="what was kept is as it was")
c("open 1 2 1", "open")
proteus(SIX, why="an opening does not reach it either")
c("sum", bench_sum({}))
p("10 10 0 0 2 1.41421 45 1 1\n")
c("keep 1", "kept 1")
refused(2, why="kept again: the place now holds a table that is not closed")
c("sum", bench_sum({(0, 0): (1_000_000, 1_000_000, 1)}))
c("close", "accepted 1 1")
c("keep 1", "kept 1")
refused(18, why="a sum table")
c("record", record(2, "1 2 1", 1, [1000], [0]))
load(1, "0 1 0", ROWS[0])
proteus(SIX)
c("keep 2", "kept 2")
c("lend 100 0", "lent 100 0")
c("keep 1", "kept 1", "all cells are copied, however few are lent: (1250, 1250) is cell 162")
c("lend 12800 6400", "lent 12800 6400")
refused(18, why="component 1 is in place 2")
load(2, "0 2 0", ROWS[1])
proteus(SIX)

# Nodes by heading, then tick: (1000, -90), (1250, -90), (1000, 180), (1250, 180). The pair number of two of them is P, in the order (0, 0), (0, 1), .. (0, 3), (1, 1), .. (3, 3). Of
# component K the real part of pair P is K.P and the imaginary part 0.PK, from the lower node to the higher; it is 0 at equal nodes.
NODES = [("10", "-90"), ("8", "-90"), ("10", "180"), ("8", "180")]
PAIRS = [(0, 0), (0, 1), (0, 2), (0, 3), (1, 1), (1, 2), (1, 3), (2, 2), (2, 3), (3, 3)]
# Of each matrix line the four indexes, P, and whether the first node is the lower (""), the higher ("-"), or both are the same ("0").
MATRIX = [
    ("0 0 0 0", 0, "0"), ("0 1 0 0", 1, ""), ("0 0 0 1", 2, ""), ("0 1 0 1", 3, ""),
    ("1 0 0 0", 1, "-"), ("1 1 0 0", 4, "0"), ("1 0 0 1", 5, ""), ("1 1 0 1", 6, ""),
    ("0 0 1 0", 2, "-"), ("0 1 1 0", 5, "-"), ("0 0 1 1", 7, "0"), ("0 1 1 1", 8, ""),
    ("1 0 1 0", 3, "-"), ("1 1 1 0", 6, "-"), ("1 0 1 1", 8, "-"), ("1 1 1 1", 9, "0"),
]


def rows_of(k):
    """Component k's rows, from pair k on and then from the first; every odd pair from its other side, so conjugated."""
    rows = []
    for number in [*range(k, 10), *range(k)]:
        (a, b), sign = PAIRS[number], ""
        if number % 2 and a != b:
            a, b, sign = b, a, "-"
        im = "0" if a == b else f"{sign}.{number}{k}"
        mod = modulus(1_000_000 * k + 100_000 * number, 0 if a == b else 100_000 * number + 10_000 * k)
        rows.append(f"{NODES[a][0]} {NODES[b][0]} {NODES[a][1]} {NODES[b][1]} {k} {mod} 0 {k}.{number} {im}\n")
    return "".join(rows)


def matrix_line(indexes, number, sign):
    im = {"0": lambda k: "0.000000", "": lambda k: f"0.{number}{k}0000", "-": lambda k: f"-0.{number}{k}0000"}[sign]
    return indexes + "".join(f" {k}.{number}00000 {im(k)}" for k in range(1, 7)) + "\n"


HEAD = "$QTFFrequencies\n0.628318531 0.785398163\n$QTFHeadings\n-90.000 180.000\n$WaveDriftQTFMatrix\n"
FULL = HEAD + "".join(matrix_line(*line) for line in MATRIX)
assert rows_of(3).startswith(
    "8 10 180 -90 3 3.316458 0 3.3 -.33\n8 8 -90 -90 3 3.400000 0 3.4 0\n10 8 180 -90 3 3.539901 0 3.5 -.53\n8 8 -90 180 3 3.654709 0 3.6 .63\n"
)
assert "\n0 1 0 1 1.300000 0.310000 2.300000 0.320000 3.300000 0.330000 4.300000 0.340000 5.300000 0.350000 6.300000 0.360000\n" in FULL
assert "\n0 1 1 0 1.500000 -0.510000 2.500000 -0.520000 3.500000 -0.530000 4.500000 -0.540000 5.500000 -0.550000 6.500000 -0.560000\n" in FULL
assert len(FULL) == 89 + 16 * 116 + 6 * 6 == 1981  # the first five lines; 16 rows without signs; six signs in each of the six lower rows
C.section(
    "C9. Two frequencies and two headings, full coverage",
    "Of component K the entry of pair P is K.P + 0.PKi, pairs numbered from 0 over the nodes (1000, -90), (1250, -90), (1000, 180), (1250, 180), first node not above the second; it has no\n"
    "imaginary part at equal nodes. Each text starts with another pair, and every odd pair comes from its other side, so that both sorts of slots differ from table to table. What is written:\n\n```\n"
    + FULL + "```",
)
for place in (6, 5, 4, 3, 2, 1):
    load(place, f"0 {place} 1", rows_of(place), "accepted 2 2")
    if place == 3:
        c("record", record(2, "0 3 1", 10, [1250, 1000], [180000, -90000]), "both the other way round")
    if place == 5:
        c("record", record(2, "0 5 1", 10, [1000, 1250], [180000, -90000]))
        refused(18, why="places 1 to 4 have one heading")
proteus(FULL, 1981, "every ordered pair in the listing's order: the first node by heading, then tick, and then the second")
refused(19, 1980)
c("poke 0 20 1 1000000001 1", "poked", "two headings, and in full coverage it is to be written")
c("keep 1", "kept 1")
refused(15)

C.section("C10. The same texts, single coverage", "Rows with two headings are passed over, and only pairs with equal headings are written.")
load(1, "0 1 0", rows_of(1), "accepted 2 2")
refused(18, why="the other five are of full coverage")
for place in (2, 3, 4, 5, 6):
    load(place, f"0 {place} 0", rows_of(place), "accepted 2 2")
SINGLE = HEAD + "".join(matrix_line(*line) for line in MATRIX if line[0][4] == line[0][6])
assert [line.split(" ", 4)[:4] for line in SINGLE.splitlines()[5:]] == [list(s) for s in ("0000", "0100", "1000", "1100", "0011", "0111", "1011", "1111")]
assert len(SINGLE) == 89 + 8 * 116 + 2 * 6 == 1029
proteus(SINGLE, 1029)
refused(19, 1028)
c("poke 0 20 1 1000000001 1", "poked", "two headings: single coverage does not write it")
c("keep 6", "kept 6")
proteus(SINGLE, 1029)


def forge_six():
    """The bench's record, accepted by forging, in all six places; its cells are 0."""
    c("forge stage 2", "forged")
    for place in range(1, 7):
        c(f"forge component {place}", "forged")
        c(f"keep {place}", f"kept {place}")


ZEROS = " 0.000000" * 12 + "\n"
C.section("C11. Frequencies", "Ticks times 6,283,185,307 over 10,000 in billionths of rad/s, rounded to the nearest, a tie to the even one. Records are forged; their cells are 0, and 0 has no sign.")
c("open 0 1 0", "open")
for slot, tick in [(0, 10000), (3, 5000), (7, 100), (19, 9999)]:
    c(f"forge tick {slot} {tick}", "forged")
c("forge headings 1", "forged", "slot 0 is 0 from opening")
forge_six()
TICKS = (
    "$QTFFrequencies\n0.062831853 3.141592654 6.282556988 6.283185307\n$QTFHeadings\n0.000\n$WaveDriftQTFMatrix\n"
    + "".join(f"{i} {j} 0 0{ZEROS}" for i in range(4) for j in range(4))
)
proteus(TICKS, why="62,831,853.07; 3,141,592,653.5, the one tie; 6,282,556,988.4693; 6,283,185,307")
c("open 0 1 0", "open")
ELEVEN = range(1000, 1011)
for slot, tick in enumerate(ELEVEN):
    c(f"forge tick {slot} {tick}", "forged")
c("forge headings 1", "forged")
forge_six()
BILLIONTHS = [nearest(tick * 6_283_185_307, 10_000) for tick in ELEVEN]
assert BILLIONTHS[0] == 628_318_531 and BILLIONTHS[10] == 634_601_716
TWO_DIGITS = (
    "$QTFFrequencies\n" + " ".join(f"0.{value}" for value in BILLIONTHS) + "\n$QTFHeadings\n0.000\n$WaveDriftQTFMatrix\n"
    + "".join(f"{i} {j} 0 0{ZEROS}" for i in range(11) for j in range(11))
)
proteus(TWO_DIGITS, why="eleven frequencies: indexes of two digits; 1,010 ticks are 634,601,716.007")

C.section("C12. Headings", "Degrees with three decimals, rising.")
c("open 0 1 0", "open")
c("forge tick 0 1592", "forged", "1,000,283,100.8744 billionths")
for slot, heading in enumerate((180000, -1, -179999, 90500)):
    c(f"forge heading {slot} {heading}", "forged")
c("forge headings 4", "forged")
forge_six()
HEADINGS = "$QTFFrequencies\n1.000283101\n$QTFHeadings\n-179.999 -0.001 90.500 180.000\n$WaveDriftQTFMatrix\n" + "".join(f"0 0 {h} {h}{ZEROS}" for h in range(4))
proteus(HEADINGS, why="-179.999 and 180 are two headings; a record with -180,000 is not valid since M-102 (part E)")

C.section("C13. Commands that the bench's page does not describe", "`?`, and nothing changes.")
for command, why in [
    ("keep", "no number"),
    ("keep 0", "places are 1 to 6"),
    ("keep 7", "likewise"),
    ("keep -1", "likewise"),
    ("keep 257", "nor what a byte would cut to 1"),
    ("keep 1 2", "two numbers"),
    ("keep  1", "words are separated by one space"),
    ("keep x", "no number"),
    ("proteus", "no number"),
    ("proteus 1100001", "at most 1,100,000"),
    ("proteus -1", "0 to 1,100,000"),
    ("proteus 4294967296", "nor what 32 bits would cut to 0"),
    ("proteus 5000 1", "two numbers"),
    ("proteus 5000 ", "words are separated by one space"),
    ("proteus single", "no number"),
    ("Proteus 5000", "no such command"),
]:
    c(command, "?", why)
proteus(HEADINGS, len(HEADINGS))
c("record", record(2, "0 6 0", 0, [1592], [180000, -1, -179999, 90500]))
c("sum", bench_sum({}), "nothing was written to the bench's own cells and flags")
