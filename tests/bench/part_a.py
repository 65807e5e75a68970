"""Part A: the reader and the table."""
from kit import Part, bench_sum, record

A = Part(
    "Part A: reader and table",
    "The gate's script is the parts of this page, one behind the other; commands are numbered in the order of their part. Each section's first words give the rule of document 01 (or of the design\n"
    "page, where that is named) that its answers follow; a reason stands beside each answer that needs one. A piece's text is\n"
    "shown with its line feeds and carriage returns as `\\n` and `\\r`; a listing's lines are shown with ` / ` between them. Since request M-101 the MOD of a\n"
    "row that is used, or refused by 7 or a later number, fits its RE and IM (part D); that of a row that is passed over need not, and some do not.",
)
c, p = A.c, A.p

H1 = "0.100000E+02 0.100000E+02 0.0 0.0 1 0.020000 180.0 -0.020000 0.0\n"
H2 = "0.800000E+01 0.800000E+01 0.0 0.0 1 0.036000 180.0 -0.036000 0.0\n"
H3 = "0.100000E+02 0.800000E+01 0.0 0.0 1 0.0302655 172.405 -0.030000 0.004000\n"
H4 = "0.800000E+01 0.100000E+02 0.0 0.0 1 0.0302655 172.405 -0.030000 -0.004000\n"
H4_WRONG = "0.800000E+01 0.100000E+02 0.0 0.0 1 0.0302655 172.405 -0.030000 0.004000\n"
H_CELLS = {
    (0, 0): (-20000, 0, 1),
    (0, 1): (-30000, 4000, 1),
    (1, 0): (-30000, -4000, 1),
    (1, 1): (-36000, 0, 1),
}
H_LISTING = """QTF difference 1 single 2 1
1000 0 1000 0 -20000 0
1000 0 1250 0 -30000 4000
1250 0 1000 0 -30000 -4000
1250 0 1250 0 -36000 0"""
NINE = "9 9 0 0 1 0.5 0 0.5 0"  # 9 s is tick 1,111; the value is 500,000, and so is MOD
ZERO = bench_sum({})


def opened(answer="open", choices="0 1 0", why=""):
    c(f"open {choices}", answer, why)


# ---------------------------------------------------------------------------------------------
A.section(
    "A1. Before opening",
    "Nothing was opened, so every call that needs an opened or an accepted record is 2, place 0, and writes nothing.",
)
p("", "refused 2 0", "a piece before opening, though it is empty")
p(NINE + "\n", "refused 2 0", "a piece before opening")
c("close", "refused 2 0", "closing before opening")
c("listing", "refused 2 0", "a query before acceptance")
c("coefficient 1000 0 1000 0", "refused 2 0", "a query before acceptance")
c("force 0", "refused 2 0", "a query before acceptance, though an empty sea has force 0: 2 is tested first")
c("display 0 4602678819172646912", "refused 2 0", "a query before acceptance")
c("sum", ZERO, "all 12,900 cells and 6,500 flags are 0")

A.section(
    "A2. Opening and lent buffers",
    "Opening tests 1, then 2; refusals 1 and 2 change nothing; a good opening sets 12,800 cells and 6,400 flags to 0.",
)
c("poke 0 0 5 -6 7", "poked")
c("poke 79 79 2147483647 -2147483648 255", "poked", "the last cell and the last flag of the table")
POKED = bench_sum({(0, 0): (5, -6, 7), (79, 79): (2147483647, -2147483648, 255)})
c("sum", POKED)
c("lend 12799 6400", "lent 12799 6400")
opened("refused 1 0", why="one cell short")
opened("refused 1 0", "2 1 0", "numbers are tested in rising order: 1 before 2")
c("lend 12800 6399", "lent 12800 6399")
opened("refused 1 0", why="one flag short")
p(NINE, "refused 1 0", "1 before 2, though nothing is open")
c("close", "refused 1 0", "the same for closing")
c("lend 12800 6400", "lent 12800 6400")
opened("refused 2 0", "2 1 0", "no such kind")
opened("refused 2 0", "0 0 0", "components are 1 to 6")
opened("refused 2 0", "0 7 0", "components are 1 to 6")
opened("refused 2 0", "0 1 2", "no such coverage")
c("close", "refused 2 0", "the refused openings left the bench's record as it was: never opened")
c("sum", POKED, "and wrote nothing")
opened(choices="1 6 1")
c("record", record(1, "1 6 1", 0, [], []), "an opened record: stage 1, the choices, all else 0")
c("sum", ZERO, "opening sets cells and flags to 0")
c("lend 12900 6500", "lent 12900 6500")
opened(why="more than enough is lent; opening again is opening")
c("lend 12799 6500", "lent 12799 6500")
p("", "refused 1 0", "an open record, one cell short")
c("close", "refused 1 0")
c("lend 12900 6399", "lent 12900 6399")
c("close", "refused 1 0", "one flag short: closing reads flags too")
c("lend 12800 6400", "lent 12800 6400")
p("", why="refusal 1 changed nothing: the record is still open")

A.section(
    "A3. Example H",
    "Document 01's example, whole: listing, cells and flags, and the two calls that are refused after closing.",
)
p(H1 + H2 + H3)
c("record", record(1, "0 1 0", 3, [1000, 1250], [0]), "slots in order of arrival: 10 s is 1,000 ticks, 8 s is 1,250")
c("cell 0 1", "cell -30000 4000 1", "x is node 0 (10 s), y is node 1 (8 s)")
c("cell 1 0", "cell -30000 -4000 1", "the mirror of a difference row is its conjugate")
c("listing", "refused 2 0", "not accepted yet")
c("close", "accepted 2 1", "two frequencies, one heading")
c("record", record(2, "0 1 0", 3, [1000, 1250], [0]))
c("listing", H_LISTING, "as printed in document 01")
c("sum", bench_sum(H_CELLS), "four cells and four flags, nothing else")
c("close", "refused 2 0", "closing twice")
p(H4, "refused 2 0", "a piece after closing")
c("sum", bench_sum(H_CELLS), "unchanged")

A.section(
    "A4. The second half sent too",
    "The mission's 23 yards: a repeated row and a second half that says the same are accepted; with the sign wrong it is 9.",
)
opened()
p(H1 + H2 + H3 + H4)
c("close", "accepted 2 1", "document 01: the fourth row with -0.030 and -0.004 is accepted")
c("sum", bench_sum(H_CELLS), "and changes nothing")
opened()
p(H1 + H2 + H3 + H3 + H1 + "10 8 0 0 1 0.0302655 172 -0.0300004 0.0039996\n", why="repeated rows; the last one rounds to the same")
c("close", "accepted 2 1")
opened()
p(H1 + H2 + H3 + H4_WRONG, "refused 9 4", "document 01: with +0.004 it is 9; line 4")
c("sum", bench_sum(H_CELLS), "the refused row writes nothing, the earlier rows stay")
c("record", record(9, "0 1 0", 4, [1000, 1250], [0]), "stage 9; four lines begun")
p(H4, "refused 9 4", "stuck: the same number and place")
c("close", "refused 9 4", "stuck")
c("lend 0 0", "lent 0 0")
p("x", "refused 9 4", "ahead of every other test but that of a valid record: ahead of 1 too")
c("close", "refused 9 4")
c("lend 12800 6400", "lent 12800 6400")
c("coefficient 1000 0 1000 0", "refused 2 0", "a query on a stuck record is a query before acceptance")
c("forge stage 10", "forged")
c("close", "refused 10 0", "the record keeps line 4, but the place of 10 is nothing")
c("forge stage 11", "forged")
c("close", "refused 11 0 0 0 0", "a line and a pair stand side by side (design page); the pair is 0 from opening")
c("forge stage 4", "forged")
c("close", "refused 4 4", "any other number gives the line")
c("sum", bench_sum(H_CELLS), "nothing changed")
opened()
p(H1 + H2 + H4)
c("close", "accepted 2 1", "the fourth row written over the third")
c("listing", H_LISTING, "the row is not conjugated again because its first period is the shorter")

A.section(
    "A5. Sum tables",
    "The mirror of a sum row is the same value; an imaginary part at equal nodes is no fault.",
)
opened(choices="1 1 0")
p("10 10 0 0 1 0.02119 161 -0.02 0.007\n8 8 0 0 1 0.036 180 -0.036 0\n10 8 0 0 1 0.030265 172 -0.03 0.004\n", why="no 7 in a sum table")
p("8 10 0 0 1 0.030265 172 -0.03 0.004\n", why="the second half says the same")
c("close", "accepted 2 1")
c(
    "listing",
    "QTF sum 1 single 2 1\n1000 0 1000 0 -20000 7000\n1000 0 1250 0 -30000 4000\n1250 0 1000 0 -30000 4000\n1250 0 1250 0 -36000 0",
    "mirrors are not conjugated",
)
opened(choices="1 1 0")
p("10 8 0 0 1 0.030265 172 -0.03 0.004\n8 10 0 0 1 0.030265 -172 -0.03 -0.004\n", "refused 9 2", "a conjugate mirror is another value in a sum table")

A.section(
    "A6. Cut anywhere",
    "Where the text is cut makes no difference: inside a number, inside a line, between carriage return and line feed, pieces of length 0.",
)
opened()
p("")
p("0.1000")
c("record", record(1, "0 1 0", 1, [], []), "a line is begun by its first byte")
p("00E+02 10 0.0 0.0 1 0.020000 180.0 -0.020")
p("000 0.0\r")
p("\n")
c("record", record(1, "0 1 0", 1, [1000], [0]), "used at its line feed")
p("\r")
c("record", record(1, "0 1 0", 2, [1000], [0]), "a carriage return begins a line like any byte")
p("\n8 8 0 0 1 0.036 180 -0.036 0.0\r\n10 ")
p("8")
p(" 0 0 1 .030265 172 -0.03 0.00400")
p("0")
c("close", "accepted 2 1", "the end of the text ends the line")
c("sum", bench_sum(H_CELLS), "as for the text whole")

A.section(
    "A7. Carriage returns",
    "One carriage return just before the end of a line is dropped; any other is part of a field (design page: blank is only space and tab).",
)
opened()
p(NINE + "\r\n\r\n \t\r\n", why="a row, an empty line and a blank line, each with its carriage return")
p("8 8 0 0 1 0.5 0 0.5 0\r\r\n", "refused 5 4", "two: the field `0` with a carriage return has the wrong form")
opened()
p("\r\r\n", "refused 4 1", "one is left, and that is one field")
opened()
p(NINE + "\r")
c("close", "accepted 1 1", "the end of the text ends the line too")
opened()
p(NINE + "\r\r")
c("close", "refused 5 1", "two are not dropped there either")

A.section(
    "A8. Line ends and blank lines",
    "Blank lines are counted and skipped; no line follows a final line feed.",
)
opened()
p("\n \n\t\n" + NINE + "\n\n")
c("record", record(1, "0 1 0", 5, [1111], [0]), "five lines; none follows the final line feed")
p("\t 9\t9 0  0 \t1 0.5 0 0.5 0 \t\n", why="fields stand between spaces or tabs, any number of them")
c("close", "accepted 1 1")
opened()
p("\n\n" + NINE + "\n \n9 9\n", "refused 4 5", "places count blank lines")
opened()
p("   ")
c("close", "refused 10 0", "an unfinished blank line is skipped; no row was used")

A.section(
    "A9. A first line that starts with a letter",
    "The first line is skipped if its first byte after blanks is a letter (A to Z, a to z); no other line is.",
)
opened()
p("PER1 PER2 BETA1 BETA2 I MOD PHS RE IM\n" + NINE + "\n")
c("record", record(1, "0 1 0", 2, [1111], [0]), "counted and skipped")
c("close", "accepted 1 1")
opened()
p(" \tz")
p("\n" + NINE)
c("close", "accepted 1 1", "after blanks; a small letter; the line cut in two")
opened()
p("PER1\nPER1\n", "refused 4 2", "a second line with a letter is not skipped: one field")
opened()
p("PER1\na b c d e f g h i\n", "refused 5 2", "nine fields of the wrong form")
opened()
p("\nPER1\n", "refused 4 2", "the first line is the blank one")
opened()
p("Nothing but a title")
c("close", "refused 10 0", "an unfinished first line is skipped too")
opened()
p("P" * 161, "refused 3 1", "but the limit of 160 bytes holds for it")

A.section(
    "A10. Refusal 3: 160 and 161 bytes",
    "A line holds at most 160 bytes before its line feed, a carriage return among them (design page). 3 falls at the byte that breaks the limit.",
)
LONG = NINE + " " * (160 - len(NINE))
opened()
p(LONG + "\n", why="160 bytes")
p(LONG[:159] + "\r\n", why="160 with the carriage return")
p(LONG, why="160 and unfinished")
c("close", "accepted 1 1")
opened()
p(LONG + " \n", "refused 3 1", "161 bytes")
c("record", record(3, "0 1 0", 1, [], []), "nothing of the line was used")
opened()
p("\n" + " " * 160)
p("\r", "refused 3 2", "blanks count, and the carriage return is the 161st; the place is the line")
p("\n", "refused 3 2", "stuck")
c("close", "refused 3 2", "stuck")
opened()
p(LONG + "xxx", "refused 3 1", "at byte 161")
c("forge stage 1", "forged", "somebody else opens it again")
p("\n", why="the record stands as before that byte (design page): the 160 bytes are still kept, and are a row")
c("cell 0 0", "cell 500000 0 1")

A.section(
    "A11. Refusal 3: the last lines",
    "1,000,000 lines; the first byte past them is 3 with place 1,000,001 and the count stays (design page). The count is forged, so that the script is small.",
)
opened()
c("forge lines 999998", "forged")
p("\n", why="line 999,999, begun and ended by its own line feed")
p(NINE, why="line 1,000,000")
p("\n", why="its line feed is no new line")
c("record", record(1, "0 1 0", 1000000, [1111], [0]))
p("\n", "refused 3 1000001", "a line feed begins line 1,000,001")
c("record", record(3, "0 1 0", 1000000, [1111], [0]), "stuck, and the count of lines begun stays")
c("close", "refused 3 1000001", "stuck")
c("forge stage 1", "forged")
c("close", "accepted 1 1", "without that byte the text is accepted")
opened()
c("forge lines 999999", "forged")
p("9 9")
c("close", "refused 4 1000000", "closing reads the unfinished line 1,000,000")
opened()
c("forge lines 1000001", "forged")
p("", "refused 2 0", "a count of lines begun above 1,000,000 is not valid")
c("forge lines 1000000", "forged")
p("", why="1,000,000 is")
p(" ", "refused 3 1000001", "a blank is a byte")

A.section("A12. Refusal 4: not nine fields", "Tested before the form of any field.")
opened()
p("9 9 0 0 1 0.5 0 0.5\n", "refused 4 1", "eight")
opened()
p("9 9 0 0 1 0.5 0 0.5 0 0\n", "refused 4 1", "ten")
opened()
p(NINE + "\nNaN 9 0 0 1 0 0 0.5\n", "refused 4 2", "eight, one of the wrong form: 4 before 5")
opened()
p("9 9 0 0 2 0 0 0.5\n", "refused 4 1", "another component is passed over only after its form is checked")

A.section(
    "A13. Refusal 5: the form of a field",
    "Optional sign, 1 to 15 digits with at most one point, optionally E or e, an optional sign and one or two digits. I is one byte, 1 to 6.",
)
opened()
p(
    "+9 9. 0 .0 1 +.5e+00 -1E99 .5 -0\n"
    "9.00000000000000 9e0 -0.0 0E99 1 500000.e-6 999999999999999 +500000E-06 0.00E-99\n"
    "00000000000009. 90E-1 0 0 1 0.50000000000000 1.e-9 5.E-1 +.0\n",
    why="all of the form: 15 digits, a point first or last, E and e, one or two digits of power; each MOD is 0.5; PHS may be of any size",
)
c("cell 0 0", "cell 500000 0 1", "the three rows say the same")
for bad, why in [
    ("*****", "document 01"),
    ("NaN", "document 01"),
    (".", "no digit"),
    ("1.2.3", "two points"),
    ("--1", "two signs"),
    ("1E+", "no digit of power"),
    ("1E001", "three digits of power"),
    ("1D0", "no E"),
    ("0.000000000000001", "16 digits; zeros are digits"),
]:
    opened()
    p(f"9 9 0 0 1 0 0 {bad} 0\n", "refused 5 1", why)
for column, text in [
    ("PER1", "x 9 0 0 1 0 0 0 0"),
    ("MOD", "9 9 0 0 1 x 0 0 0"),
    ("PHS", "9 9 0 0 1 0 x 0 0"),
]:
    opened()
    p("\n" + text + "\n", "refused 5 2", f"{column} has the wrong form")
for bad, why in [("0", "no component"), ("7", "no component"), ("01", "two bytes")]:
    opened()
    p(f"9 9 0 0 {bad} 0 0 0 0\n", "refused 5 1", f"I: {why}")
opened()
p("900 9 0 0 1 0 0 0 1E\n", "refused 5 1", "out of range and of the wrong form: 5 over the whole row before 6")
opened()
p("9 9 0 0 2 0 0 0 1E\n", "refused 5 1", "a row of another component is checked for its form")

A.section(
    "A14. Refusal 6: both sides of each limit",
    "Values are tested after rounding. Each first line stands on the limit and passes, each second is just past it. MOD has its limits in part D.",
)
LIMITS = [
    ("100 9 0 0 1 0 0 0 0", "100.000001 9 0 0 1 0 0 0 0", "100 s and 100.000001 s"),
    ("9 100.0000005 0 0 1 0 0 0 0", "9 100.0000006 0 0 1 0 0 0 0", "100,000,000.5 µs is a tie and goes to the even one"),
    ("1 9 0 0 1 0 0 0 0", "0.999999 9 0 0 1 0 0 0 0", "1 s and 0.999999 s"),
    ("9 0.9999995 0 0 1 0 0 0 0", "9 0.9999994 0 0 1 0 0 0 0", "999,999.5 µs is a tie and goes to 1,000,000"),
    ("9 9 180 180 1 0 0 0 0", "9 9 180.001 180.001 1 0 0 0 0", "180 and 180.001 degrees"),
    ("9 9 -180.0005 -180 1 0 0 0 0", "9 9 -180 -180.001 1 0 0 0 0", "-180,000.5 is a tie and goes to -180,000, in range; since M-102 it is then read as 180,000 (part E)"),
    ("9 8 0 0 1 1000 0 1000.0000005 0", "9 8 0 0 1 1000 0 1000.000001 0", "document 01: 10^9, and refusal 6"),
    ("9 8 0 0 1 1000 180 -1000.0000005 0", "9 8 0 0 1 1000 180 -1000.000001 0", "the same below 0"),
    ("9 8 0 0 1 1E3 90 0 1E3", "9 8 0 0 1 1E3 90 0 1000000001E-6", "the imaginary part"),
    ("9 8 0 0 1 1000 -90 0 -1000", "9 8 0 0 1 1000 -90 0 -1000.0000006", "the imaginary part below 0"),
]
for good, bad, why in LIMITS:
    opened()
    p(good + "\n" + bad + "\n", "refused 6 2", why)
c("cell 0 1", "cell 0 -1000000000 1", "the row on the limit was used")
opened()
p("1E-99 9 0 0 1 0 0 1E99 0\n", "refused 6 1", "far out of range at both ends")
opened()
p("9 9 360 0 1 0 0 0 0\n", "refused 6 1", "in single coverage only a row in range is passed over for its two headings")
opened()
p("900 9 999 0 2 -1 0 1E9 0\n", why="another component is passed over before 6")
c("close", "refused 10 0", "and brings nothing")

A.section("A15. Rounding", "To the nearest whole unit, a tie to the even one; periods to microseconds, then to ticks.")
opened()
p("6.4 6.4 0 0 1 0 0 0.0000005 0\n", why="6.4 s is 1,562.5 ticks, a tie: 1,562; 0.5 millionths is 0")
p("0.628319E+01 0.628319E+01 0 0 1 0 0 0.0000015 0.0000005\n", why="1,592; 1.5 is 2; the imaginary part is 0 after rounding, so no 7")
p("10 10 0 0 1 0 0 -0.0000015 -.0000005\n", why="-1.5 is -2")
p("6.402 10 0.0005 -0.0004 1 0.0000035 -45 0.0000025 -0.0000025000001\n", why="6.402 s is 1,562 ticks too, the same frequency; both headings are 0")
c("record", record(1, "0 1 0", 4, [1562, 1592, 1000], [0]))
c("cell 1 1", "cell 2 0 1")
c("cell 2 2", "cell -2 0 1")
c("cell 0 2", "cell 2 -3 1", "2.5 is a tie and goes to 2; -2.5000001 is nearer to -3")
c("close", "refused 11 1000 0 1592 0", "of (1000, 1562), (1000, 1592), (1562, 1592) the second is the first that is missing")

A.section("A16. Refusal 7", "Difference table, equal nodes, imaginary part not 0 after rounding; after both kinds of passing over, after 17 and before 8.")
opened()
p("9 9 0 0 1 0.5 0 0.5 0.000001\n", "refused 7 1")
c("record", record(7, "0 1 0", 1, [], []), "a refused row writes no slot")
opened()
p("6.4 6.402 0 0 1 0.509902 11 0.5 0.1\n", "refused 7 1", "two periods with the same tick are the same frequency")
opened()
p("9 9 0 90 1 0 0 0.5 0.1\n", why="single coverage: two headings are passed over before 7, and before MOD is held to the parts (17), which it does not fit here")
c("close", "refused 10 0")
opened(choices="0 1 1")
p("9 9 0 90 1 0.509902 11 0.5 0.1\n", why="full coverage: two headings are two nodes")
p("9 9 0 0 1 0.509902 -11 0.5 -0.1\n", "refused 7 2")

A.section("A17. Refusal 8: 20 and 21 frequencies, 4 and 5 headings", "Slots in order of arrival, PER1 before PER2 and BETA1 before BETA2.")
TICKS20 = [10000, 5000, 3333, 2500, 2000, 1667, 1429, 1250, 1111, 1000, 909, 833, 769, 714, 667, 625, 588, 556, 526, 500]
DIAGONALS = "".join(f"{s} {s} 0 0 1 0 0 0 0\n" for s in range(1, 21))
opened()
p(DIAGONALS, why="1 to 20 s: 20 frequencies")
c("record", record(1, "0 1 0", 20, TICKS20, [0]), "10^10 over the microseconds, rounded")
p("21 21 0 0 2 0 0 0 0\n21 20 0 1 1 0 0 0 0\n", why="passed-over rows bring no frequency")
p("20 19 0 0 1 0.223607 63 0.1 0.2\n", why="no new frequency")
c("cell 19 18", "cell 100000 200000 1")
p("1 21 0 0 1 0 0 0 0\n", "refused 8 24", "a 21st frequency, in PER2")
opened()
p("".join(f"{s} {s} 0 0 1 0 0 0 0\n" for s in range(1, 20)))
p("20 21 0 0 1 0 0 0 0\n", "refused 8 20", "the 20th and the 21st in one row")
c("record", record(8, "0 1 0", 20, TICKS20[:19], [0]), "a refused row writes no slot, not even for its PER1")
opened()
p(DIAGONALS + "21 21 0 0 1 1 90 0 1\n", "refused 7 21", "7 before 8")
opened()
p(DIAGONALS)
c("close", "refused 11 500 0 526 0", "ascending ticks: the first missing pair")
HEADINGS4 = "9 9 -90 -90 1 1 0 1 0\n9 9 180 180 1 2 0 2 0\n9 9 -179.999 -179.999 1 3 0 3 0\n9 9 0.001 0.001 1 4 0 4 0\n"
opened()
p(HEADINGS4, why="four headings; -179.999 and 180 are two (-180 and 180 are one since M-102: part E)")
c("cell 60 60", "cell 4000000 0 1", "node = 20 times heading slot plus frequency slot")
c("close", "accepted 1 4")
c(
    "listing",
    "QTF difference 1 single 1 4\n1111 -179999 1111 -179999 3000000 0\n1111 -90000 1111 -90000 1000000 0\n"
    "1111 1 1111 1 4000000 0\n1111 180000 1111 180000 2000000 0",
    "nodes run by heading, then tick",
)
opened()
p(HEADINGS4 + "9 9 0 0 1 0 0 0 0\n", "refused 8 5", "a 5th heading")

A.section("A18. Refusal 9", "The cell or its mirror already set to another value; any flag but 0 is set; a cell that is not flagged says nothing.")
opened()
p("10 8 0 0 1 2.236068 63 1 2\n")
p("10 8 0 0 1 2.236069 63 1 2.000001\n", "refused 9 2", "another imaginary part")
opened()
p("10 10 0 0 1 1 0 1 0\n10 10 0 0 1 1.000001 0 1.000001 0\n", "refused 9 2", "another real part")
opened()
c("poke 1 0 1000000 5 7", "poked", "the mirror's cell, flagged 7")
p("10 8 0 0 1 2.236068 63 1 2\n", "refused 9 1", "only the mirror differs")
c("record", record(9, "0 1 0", 1, [], []), "no slot is written")
c("sum", bench_sum({(1, 0): (1000000, 5, 7)}), "no cell, no flag")
opened()
c("poke 1 0 1000000 -2000000 7", "poked", "the mirror as the row will say it")
c("poke 0 1 77 88 0", "poked", "another value, but not flagged")
p("10 8 0 0 1 2.236068 63 1 2\n", why="accepted: written over, and both flags are set to 1")
c("sum", bench_sum({(0, 1): (1000000, 2000000, 1), (1, 0): (1000000, -2000000, 1)}))

A.section("A19. Refusal 10", "Closed with no row used; place 0; the reader is stuck.")
opened()
c("close", "refused 10 0", "no text")
p(NINE, "refused 10 0", "stuck")
c("close", "refused 10 0")
c("record", record(10, "0 1 0", 0, [], []))
opened()
p("Title\n\n9 9 0 0 2 0 0 1 0\n9 8 0 1 1 0 0 1 0\n", why="a title, a blank line, another component, two headings in single coverage; neither row's MOD fits it, and neither is tested for that")
c("close", "refused 10 0")
c("sum", ZERO, "passed-over rows bring no cell")

A.section("A20. Refusal 11", "The first missing pair by heading, then tick of the first node, then of the second; either flag; the design page: an unfinished line is read first.")
opened()
p("5 5 0 0 1 1 0 1 0\n10 10 0 0 1 1 0 1 0\n8 8 0 0 1 1 0 1 0\n10 5 0 0 1 1 0 1 0\n", why="ticks 2000, 1000, 1250 in order of arrival")
c("close", "refused 11 1000 0 1250 0", "values in ascending order, not slots")
p("", "refused 11 1000 0 1250 0", "stuck, with the pair")
c("forge stage 1", "forged")
p("8 10 0 0 1 1 0 1 0\n", why="somebody opened it again: that pair, from its other side")
c("close", "refused 11 1250 0 2000 0")
c("forge stage 1", "forged")
p("8 5 0 0 1 1 0 1 0")
c("close", "accepted 3 1", "the unfinished line brings the last pair")
opened()
p("9 9 0 0 1 1 0 1 0\n8 8 -5 -5 1 1 0 1 0\n", why="two frequencies and two headings, single coverage")
c("close", "refused 11 1111 -5000 1111 -5000", "heading -5 comes first; tick 1,111 has no row there")
opened(choices="0 1 1")
p("9 9 0 0 1 1 0 1 0\n9 9 -5 -5 1 1 0 1 0\n")
c("close", "refused 11 1111 -5000 1111 0", "full coverage asks for pairs with two headings; the first node is not above the second")
opened()
p(H1 + H2 + H3)
c("poke 1 0 -30000 -4000 0", "poked", "the flag of the mirror is taken away")
c("close", "refused 11 1000 0 1250 0", "either flag not set")
opened()
p(H1 + H2)
c("poke 0 1 3 4 255", "poked")
c("poke 1 0 5 6 2", "poked")
c("close", "accepted 2 1", "any byte but 0 is set; closing looks at flags alone")
c("listing", "QTF difference 1 single 2 1\n1000 0 1000 0 -20000 0\n1000 0 1250 0 3 4\n1250 0 1000 0 5 6\n1250 0 1250 0 -36000 0", "the cells as they stand")
opened()
p(H1 + H2 + "10 8 0 0 1")
c("close", "refused 4 3", "what that row is refused is what closing answers, not 11")
c("forge stage 1", "forged")
p(" 0.030265 172 -0.03 0.004\n", why="the record stands as before the closing: the unfinished line is still kept, and goes on")
c("close", "accepted 2 1")
opened()
p(H1 + "10 8 0 0 1 1 0 1 0")
c("close", "refused 11 1250 0 1250 0", "the unfinished line was used; (1250, 1250) is missing")
c("record", record(11, "0 1 0", 2, [1000, 1250], [0]))
c("forge stage 1", "forged")
p(H2, why="11 left no kept bytes: the unfinished line does not come again")
c("close", "accepted 2 1")

A.section("A21. Forged records", "A record that is not valid is 2 for every call, and nothing changes; put right again, it goes on. Each part in turn.")
opened()
p(H1)
for bads, good in [
    ([("kind 2", "kinds are 0 and 1")], "kind 0"),
    ([("component 0", "components are 1 to 6"), ("component 7", "likewise")], "component 1"),
    ([("coverage 2", "coverages are 0 and 1")], "coverage 0"),
    ([("stage 12", "12 is no number that sticks")], "stage 1"),
    (
        [
            ("headings 0", "ticks present, headings absent"),
            ("headings 5", "over 4 headings"),
            ("headings 2", "two headings that are not distinct: slot 1 is 0 from opening"),
        ],
        "headings 1",
    ),
    ([("heading 0 180001", "a heading out of range"), ("heading 0 -180001", "likewise")], "heading 0 0"),
    (
        [
            ("tick 0 99", "a tick below 100"),
            ("tick 0 10001", "a tick above 10,000"),
            ("tick 0 0", "headings present, ticks absent"),
        ],
        "tick 0 1000",
    ),
    ([("tick 19 1000", "two ticks that are not distinct")], "tick 19 0"),
    ([("kept 161", "over 160 kept bytes")], "kept 0"),
]:
    for bad, why in bads:
        c(f"forge {bad}", "forged", why)
        p("x", "refused 2 0")
    c(f"forge {good}", "forged")
c("forge stage 0", "forged")
c("close", "refused 2 0", "valid, but not open")
c("forge stage 1", "forged")
p("8 8", why="nothing of all that changed the record: a line is begun and kept")
c("forge byte 1 10", "forged")
c("close", "refused 2 0", "a line feed among the kept bytes")
c("forge byte 1 32", "forged")
c("forge byte 3 10", "forged", "past the three kept bytes")
p(" 0 0 1 0.036 180 -0.036 0\n", why="a line feed that is not kept is none of them")
c("forge tick 7 2000", "forged", "slots may be free in between")
p("9 9 0 0 1 0.1 180 -0.1 0\n", why="a valid record with ticks in slots 0, 1 and 7: a new one takes the lowest free slot")
c("record", record(1, "0 1 0", 3, [1000, 1250, 1111, 0, 0, 0, 0, 2000], [0]))
c("close", "refused 11 1000 0 1111 0")
c("forge kind 2", "forged")
c("close", "refused 2 0", "stuck, but the record is not valid")
c("lend 12799 6400", "lent 12799 6400")
c("close", "refused 1 0", "then 1 comes before 2")
c("forge kind 1", "forged")
c("close", "refused 11 1000 0 1111 0", "valid again: what it is stuck with comes first")
c("lend 12800 6400", "lent 12800 6400")
opened()
c("forge stage 11", "forged")
c("close", "refused 11 0 0 0 0", "a forged 11: the pair of the record is 0 from opening")
c("forge stage 5", "forged")
c("close", "refused 5 0", "a forged 5: the line is 0 from opening")
c("forge stage 2", "forged")
c("listing", "refused 2 0", "accepted with neither ticks nor headings is not valid")
c("forge tick 4 5000", "forged")
c("forge headings 1", "forged")
c("listing", "QTF difference 1 single 1 1\n5000 0 5000 0 0 0", "ticks and headings both present: valid, and its cell is as opening left it")

A.section("A22. Components and coverage", "Rows of other components bring nothing; full coverage with two frequencies and two headings.")
opened(choices="1 6 1")
p("9 9 0 0 1 0 0 9 9\n10 10 0 0 6 1 0 1 0\n10 10 5 5 6 2 0 2 0\n8 8 0 0 6 3 0 3 0\n8 8 5 5 6 4 0 4 0\n", why="a row of component 1 first; its MOD is not held to its parts")
p("10 8 0 0 6 5 0 5 0\n10 8 5 5 6 6 0 6 0\n10 10 0 5 6 7 0 7 0\n10 8 0 5 6 8 0 8 0\n8 10 0 5 6 9 0 9 0\n")
c("record", record(1, "1 6 1", 10, [1000, 1250], [0, 5000]), "9 s came with component 1 and is not here")
c("close", "refused 11 1250 0 1250 5000", "nodes (1000, 0), (1250, 0), (1000, 5000), (1250, 5000): the last pair but the diagonal's")
c("forge stage 1", "forged")
p("8 8 5 0 6 10.0499 -6 10 -1\n", why="from its other side; in a sum table the mirror is the same")
c("close", "accepted 2 2")
c(
    "listing",
    "QTF sum 6 full 2 2\n"
    "1000 0 1000 0 1000000 0\n1000 0 1250 0 5000000 0\n1000 0 1000 5000 7000000 0\n1000 0 1250 5000 8000000 0\n"
    "1250 0 1000 0 5000000 0\n1250 0 1250 0 3000000 0\n1250 0 1000 5000 9000000 0\n1250 0 1250 5000 10000000 -1000000\n"
    "1000 5000 1000 0 7000000 0\n1000 5000 1250 0 9000000 0\n1000 5000 1000 5000 2000000 0\n1000 5000 1250 5000 6000000 0\n"
    "1250 5000 1000 0 8000000 0\n1250 5000 1250 0 10000000 -1000000\n1250 5000 1000 5000 6000000 0\n1250 5000 1250 5000 4000000 0",
    "every ordered pair, nodes by heading, then tick",
)

A.section("A23. Commands that the bench's page does not describe", "`?`, and nothing changes.")
for command, why in [
    ("opens 0 1 0", "no such command"),
    ("open  0 1 0", "words are separated by one space"),
    ("open 256 1 0", "a choice is a u8"),
    ("lend 12901 6400", "at most 12,900"),
    ("poke 0 0 2147483648 0 0", "a cell is a signed 32-bit number"),
    ("force -1", "a second is a u64"),
    ("forge tick 20 1000", "20 slots"),
    ("forge byte 160 0", "160 bytes"),
]:
    c(command, "?", why)
c("record", record(2, "1 6 1", 11, [1000, 1250], [0, 5000]))

A.section(
    "A24. Beyond the table",
    "The bench's page: `spill V` sets the 100 cells beyond 12,800 and the 100 flags beyond 6,400 to V, somebody else's writing, which does not go by what is lent. Document 01: opening\n"
    "sets 12,800 cells and 6,400 flags to 0, and anything beyond is never written. So every sum below is that of the table with the last V behind it.",
)
opened()
c("sum", ZERO)
c("spill 7", "spilt 7", "12,800 and 6,400 are lent: a spill goes beyond them")
c("sum", bench_sum({}, 7))
opened(why="no more than the table is lent")
c("sum", bench_sum({}, 7))
c("lend 12900 6500", "lent 12900 6500")
c("sum", bench_sum({}, 7), "lending writes nothing")
opened(why="all is lent")
c("sum", bench_sum({}, 7), "an opening that clears all that is lent, cells or flags, gives another sum")
p(H1 + H2)
c("sum", bench_sum({(0, 0): (-20000, 0, 1), (1, 1): (-36000, 0, 1)}, 7), "rows write their cells and no others")
c("spill 100", "spilt 100", "the most")
p(H3)
c("close", "accepted 2 1")
c("sum", bench_sum(H_CELLS, 100))
c("listing", H_LISTING, "nothing beyond the table is read")
c("coefficient 1000 0 1100 0", "coefficient -24000 1600", "document 01's case")
c("force 0", "force 0", "no sea was given yet")
opened("refused 2 0", "2 1 0", "a refused opening changes nothing")
p(H4, "refused 2 0", "nor does a piece after closing")
c("close", "refused 2 0")
c("sum", bench_sum(H_CELLS, 100))
c("spill 0", "spilt 0", "the least")
c("sum", bench_sum(H_CELLS))
c("spill 1", "spilt 1")
for command, why in [
    ("spill 101", "0 to 100"),
    ("spill -1", "0 to 100"),
    ("spill 256", "nor what a flag would cut to 0"),
    ("spill 4294967298", "nor what a cell would cut to 2"),
    ("spill", "no number"),
    ("spill 2 3", "two numbers"),
    ("spill  2", "words are separated by one space"),
    ("spill 2 ", "likewise"),
    ("spill +2", "a minus is the only sign"),
    ("spill x", "no number"),
    ("spilt 2", "no such command"),
]:
    c(command, "?", why)
c("sum", bench_sum(H_CELLS, 1), "and nothing changed")
c("spill 55", "spilt 55")
c("lend 12799 6399", "lent 12799 6399", "then fewer")
opened("refused 1 0")
p(NINE, "refused 1 0")
c("close", "refused 1 0")
c("listing", "refused 1 0")
c("sum", bench_sum(H_CELLS, 55), "refusal 1 changes nothing")
c("lend 0 0", "lent 0 0")
c("spill 3", "spilt 3", "nothing is lent, and still")
c("sum", bench_sum(H_CELLS, 3))
c("lend 12850 6401", "lent 12850 6401", "part of what is beyond")
c("poke 79 79 4 -5 6", "poked", "the table's last two cells and last flag")
c("spill 88", "spilt 88")
c("cell 79 79", "cell 4 -5 6", "a spill writes nothing of the table")
c("sum", bench_sum({**H_CELLS, (79, 79): (4, -5, 6)}, 88))
opened()
c("cell 79 79", "cell 0 0 0", "opening clears the table to its end")
c("sum", bench_sum({}, 88), "and no further")
# 1 to 20 s take the 20 frequency slots, and 20 s the last of them; node = 20 times heading slot + frequency slot.
c("lend 12900 6500", "lent 12900 6500")
p("".join(f"{period} {period} 0 0 1 1 0 1 0\n" for period in range(1, 21)))
p("20 20 1 1 1 2 0 2 0\n20 20 2 2 1 3 0 3 0\n20 20 3 3 1 4 0 4 0\n", why="nodes 39, 59 and 79: the last row writes the table's last cell")
CORNER = {(node, node): (1_000_000, 0, 1) for node in range(20)}
CORNER.update({(39, 39): (2_000_000, 0, 1), (59, 59): (3_000_000, 0, 1), (79, 79): (4_000_000, 0, 1)})
c("sum", bench_sum(CORNER, 88))
p("20 20 4 4 1 5 0 5 0\n", "refused 8 24", "a fifth heading has no place beyond the table")
c("sum", bench_sum(CORNER, 88))
c("forge stage 1", "forged", "somebody opened it again; the refused line is still kept")
c("forge kept 0", "forged", "and is taken away")
c("close", "refused 11 500 0 526 0", "20 s and 19 s at heading 0: the flags beyond stand for no pair")
c("sum", bench_sum(CORNER, 88))
opened()
c("sum", bench_sum({}, 88))
c("spill 0", "spilt 0")
c("lend 12800 6400", "lent 12800 6400")
c("sum", ZERO)
