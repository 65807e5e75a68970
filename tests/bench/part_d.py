"""Part D: columns that disagree (request M-101)."""
from kit import Part, bench_sum, record
from part_a import DIAGONALS, H1, H2, H3, H4_WRONG, H_CELLS, H_LISTING, HEADINGS4, TICKS20

D = Part(
    "Part D: columns that disagree (M-101)",
    "Request M-101, read as the page of requests reads it. M is MOD in millionths, rounded as usual, and k is 2 plus M over 100,000 rounded down. A row fits where the squares of RE and IM, in millionths, are\n"
    "together no less than the square of M - k (0 if that is negative) and no more than that of M + k. MOD outside 0 to 1,415,000,000 is 6, a misfit is 17 at its line, and 17 sticks. Order in a row: 4, 5,\n"
    "another component passed over, 6, two headings in single coverage passed over, 17, 7, 8, 9. PHS needs only the form of a field.",
)
c, p = D.c, D.p


def opened(choices="0 1 0"):
    c(f"open {choices}", "open")


def sides(answer, cases):
    """Two rows of 10 s and 8 s at heading 0, told apart by MOD PHS RE IM: the first passes, and the second is refused at line 2, with this number, before it could contradict the first."""
    for passes, refused, why in cases:
        opened()
        p(f"10 8 0 0 1 {passes}\n10 8 0 0 1 {refused}\n", f"refused {answer} 2", why)


H_DIAGONAL = {(0, 0): (-20000, 0, 1), (1, 1): (-36000, 0, 1)}
PASTED = "0.100000E+02 0.800000E+01 0.0 0.0 1 0.0302655 172.405 -0.031000 0.004000\n"  # PER1 to PHS of example H, RE and IM of another run
SWAPPED = "8 8 0 0 1 0.036 180 -0.063 0\r\n"  # example H's second row, two digits of RE exchanged

# ---------------------------------------------------------------------------------------------
D.section(
    "D1. Columns of two runs",
    "Example H is one run. Another gave the same but for the third row, -0.031 + 0.004i. A yard pasted RE and IM of the second beside the first seven columns of the first. MOD there is 0.0302655, a tie: M is\n"
    "30,266, k is 2; 30,264 squared is 915,909,696 and 30,268 squared 916,151,824.",
)
assert 30_264**2 == 915_909_696 and 30_268**2 == 916_151_824
assert 31_000**2 + 4_000**2 == 977_000_000
opened()
p(H1 + H2 + PASTED, "refused 17 3", "the first two rows agree; 31,000 squared and 4,000 squared are 977,000,000 together, too much")
c("record", record(17, "0 1 0", 3, [1000, 1250], [0]), "stage 17; three lines begun")
c("sum", bench_sum(H_DIAGONAL), "the refused row writes nothing, the earlier rows stay")
c("close", "refused 17 3", "stuck")
opened()
p(H1 + H2 + PASTED.replace("0.0302655", "0.0312570"), why="with its own MOD the row fits: the root is 31,256.999")
c("close", "accepted 2 1")
c("cell 0 1", "cell -31000 4000 1")
assert 30_002**2 + 4_000**2 == 916_120_004 and 30_003**2 + 4_000**2 == 916_180_009
assert 29_999**2 + 4_000**2 == 915_940_001 and 29_998**2 + 4_000**2 == 915_880_004
opened()
p(H1 + H2 + PASTED.replace("-0.031000", "-0.030002"), why="900,120,004 and 16,000,000 are within: runs so close are not told apart")
c("cell 0 1", "cell -30002 4000 1", "RE as it is written is what counts")
opened()
p(PASTED.replace("-0.031000", "-0.030003"), "refused 17 1", "900,180,009 and 16,000,000 are over 916,151,824")
c("record", record(17, "0 1 0", 1, [], []), "a refused row writes no slot")
opened()
p(PASTED.replace("-0.031000", "-0.029999"), why="899,940,001 and 16,000,000 are 30,235 above 915,909,696")
opened()
p(PASTED.replace("-0.031000", "-0.029998"), "refused 17 1", "899,880,004 and 16,000,000 are below it")
opened()
p(PASTED.replace("-0.031000", "0.030000"), why="a wrong sign is not found: squares have none, and PHS is not used")
c("cell 0 1", "cell 30000 4000 1")
opened("1 2 0")
p("10 10 0 0 2 .02119 161 -.02 .007\n10 8 0 0 2 .030265 172 -.03 .004\n8 8 0 0 2 .036 180 -.0063 0\n", "refused 17 3", "a sum table is tested as a difference table is")

D.section("D2. Small MODs", "k is 2. Each first line is on a limit and passes, each second past it. M - k is below 0 at M = 0 and 1, 0 at 2, 1 at 3.")
sides(
    17,
    [
        ("0 0 .000002 0", "0 0 .000003 0", "M = 0: up to 2 squared; 4 and 9"),
        ("0 0 -.000001 .000001", "0 0 -.000002 .000001", "1 + 1, and 4 + 1, one more than 4"),
        ("0 0 0 -.000002", "0 0 .000001 -.000002", "the imaginary part alone"),
        ("0 0 0 0", "0 0 1000 1000", "0 fits, since M - k is negative and counts as 0: its own square would be 4"),
        (".000001 0 0 0", ".000001 0 .000003 .000001", "M = 1: the same, a square of 1; up to 3 squared, and 9 + 1"),
        (".000001 0 0 .000003", ".000001 0 -.000002 -.000003", "9, and 4 + 9"),
        (".000002 0 0 0", ".000002 0 .000004 .000001", "M = 2: from 0 to 4 squared, and 16 + 1"),
        (".000003 0 .000001 0", ".000003 0 0 0", "M = 3: from 1 on; 0 is too little"),
        (".000003 0 .000003 -.000004", ".000003 0 .000005 .000001", "up to 5 squared; 9 + 16, and 25 + 1"),
        (".000004 0 0 -.000002", ".000004 0 .000001 -.000001", "M = 4: from 4 on; 2 is the nearest below, since 3 is no sum of two squares"),
    ],
)
c("record", record(17, "0 1 0", 2, [1000, 1250], [0]), "what the last line on its limit brought")
c("sum", bench_sum({(0, 1): (0, -2, 1), (1, 0): (0, 2, 1)}))

assert 8**2 + 15**2 == 17**2 and 13**2 + 11**2 == 17**2 + 1 and 12**2 + 12**2 == 17**2 - 1
assert 30_000**2 + 40_000**2 == 50_000**2
assert 23_496**2 + 44_055**2 == 49_929**2 and 49_928**2 + 316**2 == 49_929**2 - 1
D.section("D3. On the limits, and one past", "Whole-number triples: both parts not 0 and the squares together exactly that of M + k or of M - k; then one more or one less. k is 2.")
sides(
    17,
    [
        (".000015 62 .000008 .000015", ".000015 40 .000013 .000011", "M + k is 17: 64 + 225 is 289, and 169 + 121 is 290"),
        (".000019 62 -.000008 .000015", ".000019 -45 .000012 -.000012", "M - k is 17: 289, and 144 + 144 is 288"),
        (".049998 53 .03 .04", ".049998 0 .05 .000001", "M + k is 50,000: 2,500,000,000, and one more"),
        (".049931 62 -.023496 -.044055", ".049931 0 .049928 .000316", "M - k is 49,929: 2,492,905,041, and one less"),
        (".05 0 .050002 0", ".05 0 .050003 0", "one part 0: 50,002 and 50,003"),
        (".05 0 .050002 0", ".05 0 .050002 .000001", "and one more in the squares"),
        (".05 -90 0 -.049998", ".05 -90 0 -.049997", "49,998 and 49,997"),
    ],
)
c("cell 0 1", "cell 0 -49998 1", "the row on the limit was used")
c("cell 1 0", "cell 0 49998 1", "and its mirror")

assert 41_515**2 + 90_972**2 == 99_997**2 and 89_300**2 + 44_999**2 == 99_997**2 - 8
D.section("D4. Where k steps", "k is 2 up to M = 99,999, 3 from 100,000 on, 4 from 200,000 on: M over 100,000 is rounded down.")
sides(
    17,
    [
        (".099999 0 .100001 0", ".099999 0 .100001 .000001", "M = 99,999, k = 2: up to 100,001"),
        (".1 0 .100003 0", ".1 0 .100003 -.000001", "M = 100,000, k = 3: up to 100,003"),
        (".1 0 .100002 0", ".099999 0 .100002 0", "so that 100,002 fits the one and not the other"),
        (".099999 65 .041515 .090972", ".099999 27 .0893 .044999", "from 99,997 on: 9,999,400,009, and 8 less, the nearest sum of two squares below it"),
        (".1 65 .041515 -.090972", ".1 0 .099996 0", "from 99,997 on too, since M - k is the same"),
        (".099998 0 .099996 0", ".099999 0 .099996 0", "M = 99,998 is from 99,996 on"),
        (".199999 90 0 .200002", ".199999 90 0 .200003", "M = 199,999, k = 3: up to 200,002; a k rounded to the nearest would be 4"),
        (".2 90 0 .200004", ".2 90 0 .200005", "M = 200,000, k = 4: up to 200,004"),
        (".199999 180 -.199996 0", ".199999 180 -.199995 0", "from 199,996 on"),
        (".2 180 -.199996 0", ".2 180 -.199995 0", "and here"),
        (".15 0 .150003 0", ".15 0 .150004 0", "M = 150,000, k = 3"),
        ("1 0 1.000012 0", "1 0 1.000013 0", "M = 1,000,000, k = 12"),
        ("1 0 .999988 0", "1 0 .999987 0", "likewise"),
    ],
)

assert 1_414_985_848**2 == 2_002_184_950_040_279_104  # M - k for M = 1,415,000,000, k = 14,152
assert 1_414_213_562**2 == 1_999_999_998_944_727_844 and 1_414_213_563**2 == 2_000_000_001_773_154_969
assert 1_414_199_420 + 14_143 == 1_414_213_563 and 1_414_227_706 - 14_144 == 1_414_213_562
assert 1_000_010_002 - 10_002 == 10**9 == 999_989_999 + 10_001
assert 600_000_000**2 + 800_000_000**2 == 10**18
assert 800_000_000**2 + 40_000**2 == 800_000_001**2 - 1 == 640_000_001_600_000_000
D.section(
    "D5. The largest numbers",
    "RE and IM are at most 10^9, so the squares at most 2 10^18, whose root is 1,414,213,562.4. M = 1,415,000,000 has k = 14,152 and asks for 1,414,985,848 squared, over 2.002 10^18: it is in range, and no parts fit it.",
)
sides(
    17,
    [
        ("1414.213562 45 1000 1000", "1415 45 1000 1000", "the root itself, k = 14,144; and the largest MOD, which is refused 17 and not 6"),
        ("1414.19942 45 1000 1000", "1414.199419 45 1000 1000", "the smallest that fits: k = 14,143, up to 1,414,213,563; one less goes up to 1,414,213,562, whose square is 1,999,999,998,944,727,844"),
        ("1414.227706 135 -1000 1000", "1414.227707 135 -1000 1000", "the largest that fits: k = 14,144, from 1,414,213,562 on; one more is from 1,414,213,563 on, whose square is over 2 10^18"),
        ("1000.010002 0 1000 0", "1000.010003 0 1000 0", "the largest that fits 10^9 alone: k = 10,002, from 10^9 on, and from 10^9 + 1 on"),
        ("999.989999 0 -1000 0", "999.989998 0 -1000 0", "the smallest: k = 10,001, up to 10^9, and up to 999,999,999"),
        ("999.989999 53 600 800", "999.989999 0 1000 .000001", "M + k is 10^9: 0.36 and 0.64 of 10^18, and one more than 10^18"),
        ("999.989998 0 999.999999 0", "999.989998 0 999.999999 .000001", "999,999,998,000,000,001 and one more, which doubles do not tell apart"),
        ("1000.010002 127 -600 800", "1000.010002 90 0 999.999999", "M - k is 10^9"),
        ("800.008003 0 800.000001 0", "800.008003 0 800 .04", "M - k is 800,000,001, k = 8,002: 640,000,001,600,000,001, and one less"),
        (".065534 0 .065536 0", "0 0 .065536 0", "2^32 in the squares: 32 bits would make it 0"),
        ("0 0 0 0", "1415 0 0 0", "M - k is not 0 then"),
    ],
)
c("cell 0 1", "cell 0 0 1", "of the row before it")

D.section("D6. Refusal 6 for MOD", "0 to 1,415,000,000 after rounding. A MOD that is in range goes on to 17, as no parts fit 1,415,000,000.")
sides(
    6,
    [
        ("-0.0000005 0 0 0", "-0.0000006 0 0 0", "-0.5 is a tie and goes to 0; -0.6 goes to -1"),
        ("-0 0 0 0", "-0.000001 0 0 0", "-1, with parts that would be near enough"),
        ("-1E-99 0 0 0", "-1E99 0 0 0", "far out"),
        (".5 0 .5 0", "-.5 0 .5 0", "the right size with a minus"),
    ],
)
for mod, number, why in [
    ("1415", 17, "in range"),
    ("1415.0000005", 17, "a tie goes to the even 1,415,000,000"),
    ("1415.0000006", 6, "1,415,000,001"),
    ("1415.000001", 6, "1,415,000,001"),
    ("1415.0000015", 6, "a tie goes to the even 1,415,000,002"),
    ("1415000000E-6", 17, "in range"),
    ("1415000001e-06", 6, "and not"),
    ("999999999999999", 6, "15 digits"),
    ("1E99", 6, "far out"),
]:
    opened()
    p(f"10 8 0 0 1 {mod} 45 1000 1000\n", f"refused {number} 1", why)
opened("1 1 1")
p("10 8 0 0 1 1414.213562 45 1000 1000\n10 8 0 90 1 1415.000001 45 1000 1000\n", "refused 6 2", "a sum table, full coverage")
c("record", record(6, "1 1 1", 2, [1000, 1250], [0]), "90 degrees took no slot")

D.section("D7. Passed-over rows", "A row of another component is never tested for 6 or 17; in single coverage a row of two headings is tested for 6, and not for 17.")
opened()
p(
    H1 + "10 8 0 0 2 1415.000001 45 1000 1000\n8 8 0 0 3 -1 0 1 0\n10 8 0 0 6 0 0 -0.03 0.004\n9 9 0 0 2 7 0 0 0\n10 8 0 90 1 0 0 -0.03 0.004\n9 9 90 0 1 7 0 5 5\n",
    why="MOD out of range in rows of components 2 and 3, misfits in rows of 6 and 2, and in two rows of two headings",
)
c("record", record(1, "0 1 0", 7, [1000], [0]), "seven lines, and only the first is used")
c("sum", bench_sum({(0, 0): (-20000, 0, 1)}), "they bring no cell")
c("close", "accepted 1 1")
opened("0 1 1")
p("10 8 0 90 1 0 0 -0.03 0.004\n", "refused 17 1", "the same row of two headings in full coverage")
opened("0 2 0")
p("9 9 0 0 2 7 0 0 0\n", "refused 17 1", "and that of component 2 where 2 is the component")
opened()
p("10 8 0 90 1 1415 45 1000 1000\n10 8 0 90 1 1415.0000005 45 0 0\n10 8 90 0 1 -0.0000005 0 1 1\n", why="two headings and MODs in range, none of which fits")
p("10 8 0 90 1 1415.000001 45 1000 1000\n", "refused 6 4", "two headings: 6 is tested")
opened()
p("10 8 90 0 1 -.000001 0 0 0\n", "refused 6 1", "and at the other end")
opened()
p("10 8 0 0 2 ***** 0 0 0\n", "refused 5 1", "the form of MOD is tested in every row")
opened()
p("10 8 0.0006 0 1 0 0 1 0\n10 8 0.0004 0 1 0 0 1 0\n", "refused 17 2", "0.0006 is another heading than 0, and the row is passed over; 0.0004 is none")

D.section("D8. The order of refusals", "17 comes after 3 to 6 and before 7, 8 and 9; of two bad lines the first is named. Beside each row that misfits stands the same with a MOD that fits.")
for row, fitting, number, why in [
    ("9 9 0 0 1 0 0 .5 .1", "9 9 0 0 1 .509902 11 .5 .1", 7, "equal nodes with an imaginary part"),
    ("6.4 6.402 0 0 1 .1 11 .5 .1", "6.4 6.402 0 0 1 .509902 11 .5 .1", 7, "the same tick"),
]:
    opened()
    p(row + "\n", "refused 17 1", why + ": 17 before 7")
    opened()
    p(fitting + "\n", f"refused {number} 1")
opened("1 1 0")
p("9 9 0 0 1 .509902 11 .5 .1\n9 9 0 0 1 .1 11 .5 .1\n", "refused 17 2", "a repeated row that says the same, but for a MOD that does not fit")
opened()
p(DIAGONALS + "21 1 0 0 1 .1 0 0 0\n", "refused 17 21", "a 21st frequency: 17 before 8")
c("record", record(17, "0 1 0", 21, TICKS20, [0]))
opened()
p(DIAGONALS + "21 1 0 0 1 0 0 0 0\n", "refused 8 21")
opened()
p(DIAGONALS + "21 21 0 0 1 .1 90 0 1\n", "refused 17 21", "before 7 and 8")
opened()
p(HEADINGS4 + "9 9 0 0 1 .5 0 5 0\n", "refused 17 5", "a 5th heading")
opened()
p(HEADINGS4 + "9 9 0 0 1 5 0 5 0\n", "refused 8 5")
opened()
p(H1 + H2 + H3 + "8 10 0 0 1 0 0 -0.03 0.004\n", "refused 17 4", "another value than its mirror's: 17 before 9")
c("sum", bench_sum(H_CELLS))
opened()
p(H1 + H2 + H3 + "8 10 0 0 1 .030265 172 -0.03 0.004\n", "refused 9 4")
for row, number, why in [
    ("10 8 0 0 1 1415.000001 0 0 0", 6, "MOD out of range, and far from its parts: 6 before 17"),
    ("10 8 0 0 1 0 0 1000.000001 0", 6, "RE out of range"),
    ("10 8 0 0 1 0 0 1 -1000.000001", 6, "IM out of range"),
    ("100.000001 8 0 0 1 0 0 1 0", 6, "a period out of range"),
    ("10 8 180.001 180.001 1 0 0 1 0", 6, "headings out of range"),
    ("10 8 0 0 1 0 x 1 0", 5, "PHS of the wrong form"),
    ("10 8 0 0 1 0 0 1", 4, "eight fields"),
    ("10 8 0 0 1 0 0 1 0".ljust(161), 3, "161 bytes"),
    ("10 8 0 0 1 0 0 1 0".ljust(160), 17, "160 bytes"),
    ("\n10 8 0 0 1 0 0 1 0".ljust(161), 17, "a blank line, and 160 bytes"),
]:
    opened()
    p(row + "\n", f"refused {number} {2 if row[0] == chr(10) else 1}", why)
opened()
p(H1 + "9 9 0 0 1 0 0 1 0\n9 9\n", "refused 17 2", "line 2 comes before line 3")
opened()
p(H1 + "9 9 0 0 1 1 0 1 .000001\n9 9 0 0 1 0 0 1 0\n", "refused 7 2", "likewise")

D.section("D9. 17 sticks", "Each later piece or closing gives the same number and place, ahead of every other test but that of a valid record, and changes nothing; the refused line stays kept.")
opened()
p("PER1 PER2 BETA1 BETA2 I MOD PHS RE IM\n\n" + H1 + " \t\r\n" + SWAPPED + H3, "refused 17 5", "a title and blank lines count; two digits of RE were exchanged")
STUCK = record(17, "0 1 0", 5, [1000], [0])
FIRST = bench_sum({(0, 0): (-20000, 0, 1)})
c("record", STUCK, "nothing of the rows behind it was read")
c("sum", FIRST, "and the row before it stays")
p("", "refused 17 5")
p(H2, "refused 17 5")
c("close", "refused 17 5")
c("lend 0 0", "lent 0 0")
p(H2, "refused 17 5", "ahead of 1 too")
c("close", "refused 17 5")
c("open 0 1 0", "refused 1 0", "an opening is not")
c("listing", "refused 1 0", "nor is a query")
c("lend 12799 6400", "lent 12799 6400")
c("forge kind 2", "forged")
c("close", "refused 1 0", "not valid: 1 before 2")
c("lend 12800 6400", "lent 12800 6400")
c("close", "refused 2 0", "not valid")
c("forge kind 0", "forged")
c("close", "refused 17 5", "valid again")
for query in ("listing", "coefficient 1000 0 1000 0", "force 0", "display 0 4607182418800017408"):
    c(query, "refused 2 0", "a query before acceptance")
c("open 2 1 0", "refused 2 0", "a refused opening leaves it stuck")
c("close", "refused 17 5")
c("record", STUCK, "nothing changed")
c("sum", FIRST)
c("forge stage 1", "forged", "somebody else opens it again")
c("close", "refused 17 5", "the refused line is still kept, and is read at closing")
c("forge stage 1", "forged")
p("\n", "refused 17 5", "or at its line feed")
c("forge stage 1", "forged")
c("forge byte 24 51", "forged", "bytes 20 to 25 are -0.063: it is mended to -0.036")
c("forge byte 25 54", "forged")
p("\n", why="the line that was kept, with its carriage return, is a row that fits")
c("record", record(1, "0 1 0", 5, [1000, 1250], [0]), "and no new line")
p(H3)
c("close", "accepted 2 1")
c("listing", H_LISTING)
opened()
c("forge lines 999999", "forged")
p("9 9 0 0 1 0 0 1 0\n", "refused 17 1000000", "the last line there can be")
p("\n", "refused 17 1000000", "ahead of 3")

D.section("D10. Forged stages", "A stuck number is valid only if it is one of those that stick: 3 to 11, and 17. Its place is what the record keeps: the line for 17, 0 from opening until a refusal sets it.")
opened()
p(H1)
for stage in (12, 13, 14, 15, 16):
    c(f"forge stage {stage}", "forged")
    p("x", "refused 2 0", f"{stage} does not stick")
c("close", "refused 2 0")
c("forge stage 17", "forged")
p("x", "refused 17 0", "17 does; no line was refused")
c("close", "refused 17 0")
c("lend 0 0", "lent 0 0")
c("close", "refused 17 0", "ahead of 1")
c("lend 12800 6400", "lent 12800 6400")
c("coefficient 1000 0 1000 0", "refused 2 0", "valid, and not accepted")
c("forge kept 161", "forged")
c("close", "refused 2 0", "not valid")
c("forge kept 0", "forged")
c("close", "refused 17 0")
for stage in (18, 19, 20, 21, 33, 255):
    c(f"forge stage {stage}", "forged")
    p("x", "refused 2 0", f"{stage} does not stick")
c("close", "refused 2 0")
c("forge stage 2", "forged")
c("coefficient 1000 0 1000 0", "coefficient -20000 0", "all of that changed nothing else")
c("forge stage 1", "forged")
c("close", "accepted 1 1")
c("forge stage 17", "forged")
c("listing", "refused 2 0", "an accepted record forged to 17")
c("close", "refused 17 0")
opened()
p(H1 + H2 + H3 + H4_WRONG, "refused 9 4")
c("forge stage 17", "forged")
c("close", "refused 17 4", "the line that 9 was at")
opened()
p(H1 + H2 + PASTED, "refused 17 3")
for stage, answer, why in [
    (9, "refused 9 3", "the line that 17 was at"),
    (3, "refused 3 3", "likewise"),
    (10, "refused 10 0", "the place of 10 is nothing"),
    (11, "refused 11 0 0 0 0", "the pair is 0 from opening: 17 sets the line alone"),
    (16, "refused 2 0", "not valid"),
    (17, "refused 17 3", "as it was"),
]:
    c(f"forge stage {stage}", "forged")
    c("close", answer, why)
opened()
p(H1 + H2)
c("close", "refused 11 1000 0 1250 0")
c("forge stage 17", "forged")
c("close", "refused 17 0", "11 sets the pair alone")
c("forge stage 11", "forged")
c("close", "refused 11 1000 0 1250 0", "and the pair is still there")

D.section("D11. Cut anywhere, and closing", "Where the text is cut makes no difference, in the refused line too; the end of the text ends a line as a line feed does.")
opened()
p(H1)
for at, byte in enumerate(SWAPPED):
    p(byte, "refused 17 2" if byte == "\n" else "going", {0: "a byte at a time", len(SWAPPED) - 1: "at its line feed"}.get(at, ""))
CUT_RECORD = record(17, "0 1 0", 2, [1000], [0])
c("record", CUT_RECORD)
for at, why in [(12, "in MOD"), (23, "in RE"), (28, "before the carriage return")]:
    opened()
    p(H1 + SWAPPED[:at], why=why)
    p("")
    p(SWAPPED[at:] + H3, "refused 17 2")
c("record", CUT_RECORD)
c("sum", FIRST)
opened()
p(H1 + SWAPPED[:-1])
c("record", record(1, "0 1 0", 2, [1000], [0]), "not tested before its end")
c("close", "refused 17 2", "closing reads the unfinished line; a carriage return at its end is dropped")
c("record", CUT_RECORD)
p("\n", "refused 17 2", "stuck")
opened()
p(H1 + H2 + "10 8 0 0 1 0.0302655 172.405 -0.030000 0.")
c("close", "refused 17 3", "900,000,000 is below 915,909,696: 17, and not the missing pair")
c("sum", bench_sum(H_DIAGONAL))
c("forge stage 1", "forged")
p("004000\n", why="the record stands as before the closing: the unfinished line is still kept, and goes on, and fits")
c("close", "accepted 2 1")
c("sum", bench_sum(H_CELLS))
opened()
p("10 8 0 0 1 0 0 1 0")
c("close", "refused 17 1", "17, and not 10")
opened()
p("10 8 0 0 2 0 0 1 0")
c("close", "refused 10 0", "another component: not tested, and no row was used")
opened()
p("10 8 0 90 1 0 0 1 0")
c("close", "refused 10 0", "two headings: likewise")

D.section("D12. Notations and rounding", "MOD is any field; it is rounded to millionths before k is taken of it, and RE and IM before they are squared.")
opened()
p("".join(f"10 8 0 0 1 {mod} 0 .5 0\n" for mod in ("0.5", ".5", "+.5", "5E-1", "5e-01", "5.E-1", "50E-02", "0.05e1", ".0000005E+06")), why="0.5 in nine ways")
p(
    "".join(f"10 8 0 0 1 {mod} 0 .5 0\n" for mod in ("0.50000000000000", "00000000000000.5", "500000000000000E-15", ".000000000000005E14", ".500000000000000")),
    why="and in five of 15 digits",
)
p("10 8 0 0 1 .5000000000000000 0 .5 0\n", "refused 5 15", "16 digits")
c("sum", bench_sum({(0, 1): (500_000, 0, 1), (1, 0): (500_000, 0, 1)}), "fourteen rows that say the same")
opened()
p("".join(f"10 8 0 0 1 {mod} 0 0 0\n" for mod in ("0", "-0", ".0", "0E99", "0.00E-99", "000000000000000", "1E-99", ".0000004999")), why="0 in eight ways, two of them by rounding")
c("cell 0 1", "cell 0 0 1")
sides(
    17,
    [
        ("5E-1 0 .500007 0", "5E-1 0 .500008 0", "M = 500,000, k = 7"),
        ("500000000000000E-15 0 .499993 0", "500000000000000E-15 0 .499992 0", "likewise"),
        (".0999995 0 .100003 0", ".0999994 0 .100002 0", "99,999.5 is a tie and goes to 100,000, k = 3; 99,999.4 goes to 99,999, k = 2"),
        (".1000005 0 .100003 0", ".1000005 0 .100004 0", "100,000.5 goes to 100,000, not to 100,001"),
        (".1000015 0 .100005 0", ".1000014 0 .100005 0", "100,001.5 goes to 100,002, and 100,001.4 to 100,001"),
        ("0 0 .0000025 0", "0 0 .0000026 0", "2.5 goes to 2, and 2.6 to 3"),
        (".000003 0 .0000005000001 0", ".000003 0 .0000005 0", "M - k is 1: 0.5000001 goes to 1, and 0.5 to 0"),
        ("0.302655E-01 172 -0.300000E-01 0.400000E-02", "0.302655E-02 172 -0.300000E-01 0.400000E-02", "as WAMIT prints; another power of ten is no fit"),
    ],
)

D.section("D13. Full coverage and sum tables", "Each row is tested by itself, whatever its nodes, its kind and its component.")
opened("0 4 1")
p("10 8 -90 90 4 5 -53 3 -4\n8 10 90 -90 4 5 53 3 4\n10 8 90 -90 4 5 53 3 4.0001\n", "refused 17 3", "M = 5,000,000, k = 52: 25.00080001 is over 5.000052 squared, 25.000520002704")
c("record", record(17, "0 4 1", 3, [1000, 1250], [-90000, 90000]))
c("cell 0 21", "cell 3000000 -4000000 1", "the rows before it: (1000, -90) with (1250, 90)")
opened("1 6 1")
p("10 10 0 5 6 7 0 7 0\n8 10 0 5 6 7 0 9 0\n", "refused 17 2", "a sum table; the MOD of the row above it")
c("sum", bench_sum({(0, 20): (7_000_000, 0, 1), (20, 0): (7_000_000, 0, 1)}))
opened("1 6 1")
p("10 10 0 5 6 7 0 7 0\n8 10 0 5 6 9 0 9 0\n")
c("record", record(1, "1 6 1", 2, [1000, 1250], [0, 5000]))
