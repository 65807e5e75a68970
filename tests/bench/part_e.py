"""Part E: plus and minus 180 (request M-102)."""
from kit import Part, bench_sum, record
from part_a import H_CELLS, H_LISTING
from part_b import MAX, bits, show
from part_c import FULL, rows_of

E = Part(
    "Part E: plus and minus 180 (M-102)",
    "Request M-102, read as the page of requests reads it. A heading of a row is rounded to millidegrees, a tie to the even one; then 6 is tested, -180,000 to 180,000; then -180,000 is read as 180,000, and everything\n"
    "behind that compares what was read: two headings, 7, 8, 9, the pairs of 11, line 1's heading. In seas and coefficient calls the number -180,000 is read as 180,000. A record with a held heading slot of -180,000 is not\n"
    "valid. So no slot, no listing, no place and no text for ProteusDS shows -180,000. There is no new number.",
)
c, p, sea = E.c, E.p, E.sea


def opened(choices="0 1 0"):
    c(f"open {choices}", "open")


def table(choices, text, answer, why=""):
    opened(choices)
    p(text)
    c("close", answer, why)


def flagged(cells):
    """Cells and mirrors with real parts alone, in millions, each flagged 1."""
    both = {}
    for (r, k), value in cells.items():
        both[r, k] = both[k, r] = (1_000_000 * value, 0, 1)
    return bench_sum(both)


# ---------------------------------------------------------------------------------------------
E.section(
    "E1. Headings that read 180,000",
    "Each value V in five places. Single coverage: 10 s with 10 s at V and V, 10 s with 8 s at V and 180, 9 s with 9 s at 180 and V; 8 s and 9 s are in the record only where V and 180 are one heading. Full coverage: V as\n"
    "BETA1, as BETA2, as both, and on either side of 180; slot 0 is V's, slot 1 that of 0, and no third is taken. Ticks are 1,000, 1,250 and 1,111 in order of arrival.",
)
SINGLE = "10 10 {v} {v} 1 1 0 1 0\n10 8 {v} 180 1 2 0 2 0\n9 9 180 {v} 1 3 0 3 0\n"
WHOLE = "10 8 {v} 0 1 1 0 1 0\n9 10 0 {v} 1 2 0 2 0\n8 9 {v} {v} 1 3 0 3 0\n10 10 {v} 180 1 4 0 4 0\n8 8 180 {v} 1 5 0 5 0\n"
SINGLE_SUM = flagged({(0, 0): 1, (0, 1): 2, (2, 2): 3})
WHOLE_SUM = flagged({(0, 21): 1, (22, 0): 2, (1, 2): 3, (0, 0): 4, (1, 1): 5})
for v, why in [
    ("180", "180,000 as it stands"),
    ("-180", "-180,000"),
    ("-180.0", "-180,000"),
    ("-1.8E2", "-180,000"),
    ("-180.0004", "-180,000.4 goes to -180,000"),
    ("-180.0005", "-180,000.5 is a tie and goes to the even -180,000, which is in range"),
    ("-179.9996", "-179,999.6 goes to -180,000"),
    ("-179.9995", "-179,999.5 is a tie and goes to the even -180,000"),
    ("-179.99950000001", "just past that tie"),
    ("179.9996", "179,999.6 goes to 180,000"),
    ("179.9995", "a tie, to the even 180,000"),
    ("180.0004", "180,000.4 goes to 180,000"),
    ("180.0005", "a tie, to the even 180,000"),
]:
    opened()
    p(SINGLE.format(v=v), why=f"V is {v}: {why}")
    c("record", record(1, "0 1 0", 3, [1000, 1250, 1111], [180000]), "one heading, and all three rows are used")
    c("sum", SINGLE_SUM)
    opened("0 1 1")
    p(WHOLE.format(v=v))
    c("record", record(1, "0 1 1", 5, [1000, 1250, 1111], [180000, 0]), "two headings")
    c("sum", WHOLE_SUM, "nodes 0, 1 and 2 are at V, 20, 21 and 22 at 0")
c("close", "refused 11 1000 0 1000 0", "of the last one: heading 0 is below 180,000, and 10 s with 10 s is not there")

E.section("E2. Headings next to them", "The same rows. V and 180 are two headings: in single coverage only the first row is used, in full coverage 180 takes slot 2, so that its nodes are 40 and 41.")
NEXT_SUM = flagged({(0, 21): 1, (22, 0): 2, (1, 2): 3, (0, 40): 4, (41, 1): 5})
for v, read, why in [
    ("-179.9994", -179_999, "-179,999.4 goes to -179,999, and stays"),
    ("-179.99949999999", -179_999, "just short of the tie"),
    ("-179.999", -179_999, "-179,999"),
    ("-179.9985", -179_998, "a tie, to the even -179,998"),
    ("179.9994", 179_999, "179,999"),
    ("-0.18", -180, "-180 millidegrees are no half turn"),
    ("-18", -18_000, "nor are -18 degrees"),
]:
    opened()
    p(SINGLE.format(v=v), why=f"V is {v}: {why}")
    c("record", record(1, "0 1 0", 3, [1000], [read]), "V beside 180 is passed over")
    opened("0 1 1")
    p(WHOLE.format(v=v))
    c("record", record(1, "0 1 1", 5, [1000, 1250, 1111], [read, 0, 180000]), "three headings")
    c("sum", NEXT_SUM)
opened()
p("9 9 -90 -90 1 1 0 1 0\n9 9 90 90 1 2 0 2 0\n9 9 -179.999 -179.999 1 3 0 3 0\n9 9 179.999 179.999 1 4 0 4 0\n", why="no other sign is dropped")
c("close", "accepted 1 4")
c(
    "listing",
    "QTF difference 1 single 1 4\n1111 -179999 1111 -179999 3000000 0\n1111 -90000 1111 -90000 1000000 0\n1111 90000 1111 90000 2000000 0\n1111 179999 1111 179999 4000000 0",
)

E.section("E3. Refusal 6", "The range is tested on the rounded value, before -180,000 is read as 180,000. Line 1 of each text passes.")
for v, why in [
    ("-180.0006", "-180,000.6 goes to -180,001"),
    ("-180.001", "-180,001"),
    ("180.0006", "180,001"),
]:
    for choices in ("0 1 0", "0 1 1"):
        for headings in (f"{v} 180", f"-180 {v}", f"{v} {v}", f"{v} 0"):
            opened(choices)
            p(f"9 9 -180 -180 1 0 0 0 0\n9 9 {headings} 1 0 0 0 0\n", "refused 6 2", f"{why}; ahead of two headings, too" if headings.endswith(" 0") else why)
    c("record", record(6, "0 1 1", 2, [1111], [180000]), "a refused row writes no slot")
for v, why in [
    ("-180.00050000001", "just past the tie: -180,001"),
    ("-180.00051", "-180,001"),
    ("-180.0015", "a tie, to the even -180,002"),
    ("-180.1", "-180,100"),
    ("-181", "no turn is added"),
    ("-360", "likewise, though it is the direction of 0"),
    ("-540", "likewise, though it is that of 180"),
    ("540", "nor taken away"),
    ("180.00050000001", "just past the tie on the other side"),
    ("-1.8E3", "-1,800 degrees"),
]:
    opened()
    p(f"9 9 -180 -180 1 0 0 0 0\n9 9 {v} {v} 1 0 0 0 0\n", "refused 6 2", f"{v}: {why}")

E.section("E4. Notations", "One heading however it is written.")
WAYS = ["180", "+180", "-180", "-180.", "-18E1", "-18e+01", "-.18E3", "-1800.e-1", "-180000E-03", "-0.180000E+03", "-1.80000E+02", "-180E0", "-180e-00"]
WAYS += ["-180.000000000000", "-000000000000180", "-180000000000000E-12", "-.000000000000180E15", "-179.999999999999", "-180.000000000001"]
opened("0 1 1")
p("".join(f"10 10 {h} {h} 1 .5 0 .5 0\n" for h in WAYS), why="in nineteen ways, six of them of 15 digits")
p("".join(f"10 8 {one} {other} 1 .7 0 .7 0\n8 10 {other} {one} 1 .7 0 .7 0\n" for one, other in zip(WAYS, WAYS[1:])), why="each beside the next, and as its mirror")
p("8 8 -180.0000000000000 180 1 0 0 0 0\n", "refused 5 56", "16 digits; 19 lines, and 36")
c("record", record(5, "0 1 1", 56, [1000, 1250], [180000]), "one heading")
c("sum", bench_sum({(0, 0): (500_000, 0, 1), (0, 1): (700_000, 0, 1), (1, 0): (700_000, 0, 1)}))
for bad, why in [("--180", "two signs"), ("-", "no digit"), ("-180.0.0", "two points"), ("- 180", "ten fields, one a minus alone")]:
    opened()
    p(f"9 9 {bad} 180 1 0 0 0 0\n", "refused 4 1" if " " in bad else "refused 5 1", why)

E.section(
    "E5. Headings alone",
    "What is read as 180,000 is a heading of -180,000 millidegrees. RE and IM of -0.18 are -180,000 millionths and stay, as does an RE of -180; so do a PHS of -180, cells and amplitudes.",
)
assert 2 * 180_000**2 == 64_800_000_000 and 254_554**2 < 64_800_000_000 < 254_562**2  # M = 254,558, k = 4
opened()
p("10 8 0 0 1 .254558 -135 -.18 -.18\n10 10 0 0 1 180 -180 -180 0\n8 8 0 0 1 .18 -180 -.18 0\n")
c("cell 0 1", "cell -180000 -180000 1")
c("cell 1 0", "cell -180000 180000 1", "its mirror")
c("close", "accepted 2 1")
c("listing", "QTF difference 1 single 2 1\n1000 0 1000 0 -180000000 0\n1000 0 1250 0 -180000 -180000\n1250 0 1000 0 -180000 180000\n1250 0 1250 0 -180000 0")
c("coefficient 1000 0 1250 0", "coefficient -180000 -180000")
c("coefficient 1250 0 1250 0", "coefficient -180000 0")
sea([(1250, 0, 1, 0)])
c("force 7", "force -180000")
c(f"display 7 {bits(1.0)}", show("force", -180.0, -180.0))
sea([(1250, 0, -180, 0)])
c("force 7", "force -5832000000", "180 squared times -180,000")
sea([(1250, 0, -180000, 0)])
c("force 7", "refused 12 0", "an amplitude of -180,000 mm is over 40,000")
c("poke 1 1 -180000 -180000 1", "poked")
c("coefficient 1250 0 1250 0", "coefficient -180000 -180000", "as it stands")

# ---------------------------------------------------------------------------------------------
LISTING_180 = """QTF difference 1 single 2 1
1000 180000 1000 180000 -20000 0
1000 180000 1250 180000 -30000 4000
1250 180000 1000 180000 -30000 -4000
1250 180000 1250 180000 -36000 0"""
assert LISTING_180 == H_LISTING.replace(" 0 1", " 180000 1").replace(" 0 -", " 180000 -")  # example H with 180,000 for its heading
H180 = "10 10 {0} {1} 1 .02 180 -.02 0\n8 8 {2} {3} 1 .036 180 -.036 0\n10 8 {4} {5} 1 .0302655 172.405 -.03 .004\n"
E.section(
    "E6. Example H at 180, in every mixture of signs",
    "Its three rows with headings of 180 and -180 beside each other. In single coverage rows of -180 and 180 were passed over before, so that the table lacked what they say; in full coverage they were two headings, and 11.",
)
for headings, why in [
    (("180",) * 6, "no minus"),
    (("-180",) * 6, "all with a minus"),
    (("180", "180", "-180", "180", "180", "-180"), "before, the last two rows were passed over, and the table was accepted with one frequency"),
    (("-180", "180", "180", "-180", "-180", "180"), "before, all three were: 10"),
    (("180", "180", "-180", "-180", "180", "180"), "each row of one sign: before, 8 s with 8 s was at another heading than 10 s with 10 s, and 11"),
    (("-180", "-180", "180", "180", "-179.9996", "180.0004"), "by rounding"),
]:
    for choices, word in (("0 1 0", "single"), ("0 1 1", "full")):
        opened(choices)
        p(H180.format(*headings), why=why)
        c("record", record(1, choices, 3, [1000, 1250], [180000]))
        c("sum", bench_sum(H_CELLS))
        c("close", "accepted 2 1", "two frequencies, one heading")
        c("listing", LISTING_180.replace("single", word))

E.section(
    "E7. Full coverage that was refused 11 for this alone",
    "One period and the headings -90 and 180; the pair of both has the other sign. Before, there were three headings, and -180 with itself was missing. Then two periods, each heading of 180 with either sign.",
)
opened("0 1 1")
p("10 10 -90 -90 1 1 0 1 0\n10 10 180 180 1 2 0 2 0\n10 10 -180 -90 1 3.60555 34 3 2\n")
c("record", record(1, "0 1 1", 3, [1000], [-90000, 180000]))
c("cell 20 0", "cell 3000000 2000000 1", "(1000, 180) with (1000, -90)")
c("cell 0 20", "cell 3000000 -2000000 1")
c("close", "accepted 1 2", "before: refused 11 1000 -180000 1000 -180000")
c(
    "listing",
    "QTF difference 1 full 1 2\n1000 -90000 1000 -90000 1000000 0\n1000 -90000 1000 180000 3000000 -2000000\n1000 180000 1000 -90000 3000000 2000000\n1000 180000 1000 180000 2000000 0",
    "180,000 stands behind -90,000",
)
# The table of part B's B11 with 180 for 5 degrees.
BOTH = (
    "10 10 0 0 5 1 0 1 0\n8 8 0 0 5 3 0 3 0\n10 8 0 0 5 5.09902 11 5 1\n10 10 180 -180 5 2 0 2 0\n8 8 -180 180 5 4 0 4 0\n10 8 -180 -180 5 6.08276 -9 6 -1\n"
    "10 10 0 180 5 7.28011 16 7 2\n10 8 0 -180 5 8.544 21 8 3\n8 10 0 180 5 9.21954 -13 9 -2\n8 8 -180 0 5 10.0499 -6 10 -1\n"
)
BOTH_LISTING = (
    "QTF difference 5 full 2 2\n"
    "1000 0 1000 0 1000000 0\n1000 0 1250 0 5000000 1000000\n1000 0 1000 180000 7000000 2000000\n1000 0 1250 180000 8000000 3000000\n"
    "1250 0 1000 0 5000000 -1000000\n1250 0 1250 0 3000000 0\n1250 0 1000 180000 9000000 -2000000\n1250 0 1250 180000 10000000 1000000\n"
    "1000 180000 1000 0 7000000 -2000000\n1000 180000 1250 0 9000000 2000000\n1000 180000 1000 180000 2000000 0\n1000 180000 1250 180000 6000000 -1000000\n"
    "1250 180000 1000 0 8000000 -3000000\n1250 180000 1250 0 10000000 -1000000\n1250 180000 1000 180000 6000000 1000000\n1250 180000 1250 180000 4000000 0"
)
table("0 5 1", BOTH, "accepted 2 2")
c("record", record(2, "0 5 1", 10, [1000, 1250], [0, 180000]))
c("listing", BOTH_LISTING)
table("0 5 1", BOTH.replace("-180", "180"), "accepted 2 2", "the same without a minus")
c("listing", BOTH_LISTING)
table("0 5 1", BOTH.replace("-180", "180").replace("180", "-180"), "accepted 2 2", "and with no 180 but by a minus")
c("record", record(2, "0 5 1", 10, [1000, 1250], [0, 180000]))
c("listing", BOTH_LISTING)

E.section("E8. Places of 11", "Headings and frequencies as values in ascending order: 180,000 is the last heading, and never the first.")
opened()
p("10 10 -180 -180 1 1 0 1 0\n8 8 180 180 1 1 0 1 0\n", why="single coverage, both signs")
c("close", "refused 11 1000 180000 1250 180000", "before: at -180,000")
p("10 8 -180 180 1 1 0 1 0\n", "refused 11 1000 180000 1250 180000", "stuck, with the pair")
c("forge stage 1", "forged")
p("8 10 -180 180 1 1 0 1 0")
c("close", "accepted 2 1", "somebody opened it again, and the unfinished line brings the pair")
opened()
p("10 10 -180 -180 1 1 0 1 0\n8 8 -180 -180 1 1 0 1 0\n")
c("close", "refused 11 1000 180000 1250 180000", "no 180 but by a minus")
opened("0 1 1")
p("10 10 -180 -180 1 1 0 1 0\n10 10 0 0 1 1 0 1 0\n")
c("close", "refused 11 1000 0 1000 180000", "full coverage: the first node is not above the second; before, (1000, -180000) came first")
c("forge stage 1", "forged")
p("10 10 -180 0 1 1 0 1 0\n", why="from its other side")
c("close", "accepted 1 2")
opened()
p("10 10 -90 -90 1 1 0 1 0\n8 8 -180 -180 1 1 0 1 0\n10 8 -180 180 1 1 0 1 0\n")
c("close", "refused 11 1000 -90000 1250 -90000", "-90 comes before 180")
c("forge stage 1", "forged")
p("8 8 -90 -90 1 1 0 1 0\n10 8 -90 -90 1 1 0 1 0\n")
c("close", "refused 11 1000 180000 1000 180000", "then 180")
opened("0 1 1")
p("10 10 -30 -30 1 1 0 1 0\n10 8 -30 -30 1 1 0 1 0\n10 10 -30 -180 1 1 0 1 0\n")
c("close", "refused 11 1000 -30000 1250 180000", "four different numbers")
c("record", record(11, "0 1 1", 3, [1000, 1250], [-30000, 180000]))

E.section("E9. Refusal 9", "Rows that say different things at -180 and at 180 contradict each other; rows that say the same are repeats. Mirrors likewise: the conjugate in a difference table, the same in a sum table.")
AT_180 = bench_sum({(0, 0): (1_000_000, 0, 1)})
for one, other in [("180 180", "-180 -180"), ("-180 -180", "180 180"), ("180 180", "-180 180"), ("180 180", "180 -180"), ("-180 180", "180 -180"), ("-179.9995 180", "-180.0005 -180")]:
    for choices in ("0 1 0", "0 1 1"):
        opened(choices)
        p(f"10 10 {one} 1 1 0 1 0\n10 10 {other} 1 1 0 1 0\n", why="the same")
        p(f"10 10 {other} 1 2 0 2 0\n", "refused 9 3", "another value")
    c("sum", AT_180, "the refused row writes nothing")
    c("record", record(9, "0 1 1", 3, [1000], [180000]))
for kind, fits, clashes in [(0, "1 -2", "1 2"), (1, "1 2", "1 -2")]:
    for one, other in [("180 180", "-180 -180"), ("180 -180", "180 -180"), ("-180 180", "180 180"), ("0 180", "-180 0"), ("-180 0", "0 180"), ("0 -180", "-180 0")]:
        opened(f"{kind} 1 1")
        p(f"10 8 {one} 1 2.23607 63 1 2\n8 10 {other} 1 2.23607 63 {fits}\n", why="the second half, in the other sign: it says the same")
        p(f"8 10 {other} 1 2.23607 63 {clashes}\n", "refused 9 3", "conjugated, in a sum table" if kind else "not conjugated")
        heading = [0, 180000] if one.startswith("0") else [180000, 0] if one.endswith(" 0") else [180000]
        c("record", record(9, f"{kind} 1 1", 3, [1000, 1250], heading))
opened("0 1 1")
p("10 10 0 180 1 2.23607 63 1 2\n10 10 0 -180 1 2.23607 -63 1 -2\n", "refused 9 2", "the same orientation, conjugated: before, two headings and two pairs")
opened()
c("poke 1 0 1000000 5 7", "poked", "the mirror's cell, flagged 7")
p("10 8 -180 180 1 2.23607 63 1 2\n", "refused 9 1", "only the mirror differs")
c("record", record(9, "0 1 0", 1, [], []))

E.section("E10. Refusal 7", "Difference table, equal nodes as read, imaginary part not 0.")
for headings in ("180 -180", "-180 180", "-180 -180", "-179.9996 180", "180.0005 -179.9995"):
    for choices in ("0 1 0", "0 1 1"):
        opened(choices)
        p(f"10 10 {headings} 1 1.41421 45 1 1\n", "refused 7 1", "in full coverage two nodes before, and in single coverage passed over" if headings == "180 -180" else "")
    c("record", record(7, "0 1 1", 1, [], []), "no slot")
opened("0 1 1")
p("10 10 -179.9994 180 1 1.41421 45 1 1\n10 8 -180 180 1 1.41421 45 1 1\n10 10 -180 180 1 1 0 1 0.0000005\n", why="two headings; two frequencies; an imaginary part that rounds to 0")
c("record", record(1, "0 1 1", 3, [1000, 1250], [-179999, 180000]))
c("cell 20 20", "cell 1000000 0 1")
opened("0 1 1")
p("6.4 6.402 180 -180 1 1.41421 45 1 1\n", "refused 7 1", "the same tick and the same heading")
opened("1 1 1")
p("10 10 180 -180 1 1.41421 45 1 1\n", why="no 7 in a sum table")
c("close", "accepted 1 1")
c("listing", "QTF sum 1 full 1 1\n1000 180000 1000 180000 1000000 1000000")

E.section("E11. Refusal 8", "180 and -180 take one of the four slots, whichever comes first.")
for order, slots in [
    (["0", "180", "90", "-90", "-180"], [0, 180000, 90000, -90000]),
    (["-180", "0", "90", "-90", "180"], [180000, 0, 90000, -90000]),
    (["0", "90", "-90", "180", "-180"], [0, 90000, -90000, 180000]),
    (["0", "-180", "180", "90", "-90"], [0, 180000, 90000, -90000]),
]:
    opened()
    p("".join(f"10 10 {h} {h} 1 1 0 1 0\n" for h in order), why="five headings as written, four as read")
    c("record", record(1, "0 1 0", 5, [1000], slots))
    p("10 8 45 -180 1 1 0 1 0\n", why="two headings: passed over, and so 45 takes no slot")
    p("10 10 45 45 1 1 0 1 0\n", "refused 8 7", "a real fifth")
c("forge stage 1", "forged", "somebody opened the last one again; the refused line is still kept")
c("forge kept 0", "forged", "and is taken away")
c("close", "accepted 1 4", "four headings are counted, not five")
c("listing", "QTF difference 1 single 1 4\n1000 -90000 1000 -90000 1000000 0\n1000 0 1000 0 1000000 0\n1000 90000 1000 90000 1000000 0\n1000 180000 1000 180000 1000000 0")
opened("0 1 1")
p("10 10 0 90 1 1 0 1 0\n10 10 -90 0 1 1 0 1 0\n10 10 -180 180 1 1 0 1 0\n", why="full coverage: three headings, and a fourth in both signs by one row")
c("record", record(1, "0 1 1", 3, [1000], [0, 90000, -90000, 180000]))
p("10 10 -180 45 1 1 0 1 0\n", "refused 8 4", "45 is a fifth")
opened("0 1 1")
p("10 10 0 90 1 1 0 1 0\n10 10 -90 45 1 1 0 1 0\n10 10 -180 0 1 1 0 1 0\n", "refused 8 3", "180 is a fifth, by its minus too")
opened("0 1 1")
p("10 10 0 90 1 1 0 1 0\n10 10 -90 0 1 1 0 1 0\n10 10 -180 -179.999 1 1 0 1 0\n", "refused 8 3", "a fourth and a fifth in one row")
c("record", record(8, "0 1 1", 3, [1000], [0, 90000, -90000]), "neither takes a slot")

# ---------------------------------------------------------------------------------------------
E.section("E12. Other components, and the order of refusals", "A row of another component is not tested for 6 and brings nothing. A row of -180 and 180 has one heading, and so is tested for 17, 7, 8 and 9 in single coverage too.")
opened()
p("10 10 -180.001 -180.001 2 0 0 0 0\n10 10 -180 180 3 7 0 0 1\n8 8 -540 0 4 -1 0 1E9 0\n9 9 -180 -180 6 0 0 1 1\n", why="four rows of other components")
c("record", record(1, "0 1 0", 4, [], []), "nothing")
p("10 10 180 180 1 1 0 1 0\n10 10 -180 -180 2 2 0 2 0\n10 10 -180 180 2 2 0 2 0\n", why="of component 2 another value at -180: no contradiction")
c("close", "accepted 1 1")
c("sum", AT_180)
for choices, component in (("0 1 0", 1), ("0 2 1", 2)):
    opened(choices)
    p(f"10 10 -180.001 -180.001 {component} 0 0 0 0\n", "refused 6 1", "of the component itself")
for choices, rows, answer, why in [
    ("0 1 0", "10 10 -180.0.0 180 2 0 0 0 0\n", "refused 5 1", "the form is tested in every row"),
    ("0 1 0", "10 10 -180.001 180 1 x 0 0 0\n", "refused 5 1", "5 before 6"),
    ("0 1 0", "10 10 -180.001 0 1 0 0 0 0\n", "refused 6 1", "6 before two headings"),
    ("0 1 0", "10 10 0 -180.0006 1 0 0 0 0\n", "refused 6 1", "likewise"),
    ("0 1 0", "10 10 -180.001 180 1 0 0 1 1\n", "refused 6 1", "and before 17 and 7"),
    ("0 1 0", "10 8 -180 180 1 0 0 1 0\n", "refused 17 1", "one heading: MOD has to fit; before, passed over"),
    ("0 1 0", "10 8 180 -180.0004 1 7 0 1 0\n", "refused 17 1", "likewise"),
    ("0 1 1", "10 8 -180 180 1 0 0 1 0\n", "refused 17 1", "as in full coverage"),
    ("0 1 0", "10 10 -180 180 1 0 0 1 1\n", "refused 17 1", "17 before 7"),
    ("0 1 0", "10 10 180 180 1 1 0 1 0\n10 10 -180 -180 1 1 0 2 0\n", "refused 17 2", "17 before 9"),
    ("0 1 0", "10 10 180 180 1 1 0 1 0\n10 10 -180 180 1 2.23607 27 2 1\n", "refused 7 2", "7 before 9"),
    ("0 1 0", "".join(f"{s} {s} -180 180 1 0 0 0 0\n" for s in range(1, 22)), "refused 8 21", "a 21st frequency, each brought by -180 and 180; before, all were passed over"),
]:
    opened(choices)
    p(rows, answer, why)
opened()
p("10 8 -180 179.999 1 0 0 1 0\n10 8 -179.9994 180 1 0 0 1 1\n10 8 -180.0005 0 1 0 0 1 0\n10 10 0 -180 1 7 0 0 5\n", why="two headings: passed over, and not tested for 17")
c("close", "refused 10 0")
opened()
p("10 10 -180 180 1 1 0 1 0\n")
c("close", "accepted 1 1", "a text of this row alone was 10")

E.section("E13. The same text in both signs", "S stands for no sign and then for a minus: answers, places and records are the same, in single and in full coverage.")
for text, last, why in [
    ("10 10 S180 S180 1 0 0 0\n", "refused 4 1", "eight fields"),
    ("10 10 S180 S180 1 0 0 0 x\n", "refused 5 1", "a wrong form"),
    ("200 10 S180 180 1 0 0 0 0\n", "refused 6 1", "a period out of range"),
    ("\n10 8 S180 S180 1 0 0 1 0\n", "refused 17 2", "a misfit"),
    ("10 10 180 S180 1 1.41421 45 1 1\n", "refused 7 1", "a mean with an imaginary part"),
    ("".join(f"9 9 {h} {h} 1 0 0 0 0\n" for h in ("0", "S180", "90", "180", "-90", "S180", "45")), "refused 8 7", "a fifth heading"),
    ("10 8 180 S180 1 1 0 1 0\n8 10 S180 S180 1 1.41421 45 1 1\n", "refused 9 2", "another value"),
    ("Title S180\n9 9 S180 S180 2 0 0 0 0\n9 9 S180 0 2 0 0 0 0\n", "refused 10 0", "no row of the component"),
    ("10 10 S180 S180 1 0 0 0 0\n8 8 180 S180 1 0 0 0 0\n", "refused 11 1000 180000 1250 180000", "a missing pair"),
    ("10 10 S180 S180 1 0 0 0 0\n8 8 180 180 1 0 0 0 0\n10 8 S180 180 1 0 0 0 0", "accepted 2 1", "none"),
]:
    closes = last.split()[1] in ("10", "11") or last.startswith("accepted")
    for sign in ("", "-"):
        for choices in ("0 1 0", "0 1 1"):
            opened(choices)
            p(text.replace("S", sign), "going" if closes else last, why)
            c("close", last)

E.section(
    "E14. Cut anywhere",
    "Where the text is cut makes no difference: before the minus, behind it, within the digits. The same cuts without a minus, and with a plus, give the same answer to each piece; a record is the same after each.",
)
PIECES = ["10 10 S", "180 S1", "80 1 .02 180 -.02 0\n8 8 S18", "0 ", "S", "180 1 .036 180 -.036 0\n10 8 180 ", "S18", "0", " 1 .0302655 172.405 -.03 .004"]
LINES = [1, 1, 2, 2, 2, 3, 3, 3, 3]
SLOTS = [[], [], [1000], [1000], [1000], [1000, 1250], [1000, 1250], [1000, 1250], [1000, 1250]]
for sign in ("-", "", "+"):
    opened()
    for piece, lines, ticks in zip(PIECES, LINES, SLOTS):
        p(piece.replace("S", sign), why="a minus alone at the end of a piece, or alone in it" if sign == "-" and piece.endswith("S") else "")
        c("record", record(1, "0 1 0", lines, ticks, [180000] if ticks else []))
    c("close", "accepted 2 1", "the unfinished line is read")
    c("sum", bench_sum(H_CELLS))
    c("listing", LISTING_180)
opened("0 1 1")
LINE = "10 10 -180 180 1 1 0 1 0\n"
for at, byte in enumerate(LINE):
    p(byte, why="a byte at a time" if at == 0 else "")
c("record", record(1, "0 1 1", 1, [1000], [180000]))
for at in (7, 8, 9, 10):
    opened("0 1 1")
    p(LINE + "10 10 -180 180 1 2 0 2 0\n"[:at], why={7: "the line that contradicts, cut behind its minus", 10: "and behind its digits"}.get(at, ""))
    p("10 10 -180 180 1 2 0 2 0\n"[at:], "refused 9 2")
    c("record", record(9, "0 1 1", 2, [1000], [180000]))
opened()
p("10 10 180 -")
c("close", "refused 4 1", "closing reads what there is: four fields, the last a minus")
c("forge stage 1", "forged")
p("180 1 1 0 1 0", why="the line is still kept, and goes on")
c("close", "accepted 1 1")
c("listing", "QTF difference 1 single 1 1\n1000 180000 1000 180000 1000000 0")

E.section("E15. A sign is a byte", "A line holds at most 160 bytes. The same line with 180 for -180 has one byte less.")
NINE_180 = "9 9 180 180 1 .5 0 .5 0"
assert len(NINE_180) == 23
PAD = " " * 137
for line, answer, why in [
    (NINE_180 + PAD, "going", "160 bytes with 180"),
    ("9 9 -180 180 1 .5 0 .5 0" + PAD, "refused 3 1", "161 with -180"),
    ("9 9 180 -180 1 .5 0 .5 0" + PAD, "refused 3 1", "likewise"),
    ("9 9 +180 180 1 .5 0 .5 0" + PAD, "refused 3 1", "a plus is a byte too"),
    ("9 9 -180 180 1 .5 0 .5 0" + PAD[1:], "going", "160 with -180"),
    ("9 9 -180 -180 1 .5 0 .5 0" + PAD[1:], "refused 3 1", "161 with two of them"),
    ("9 9 -180 -180 1 .5 0 .5 0" + PAD[2:], "going", "160 with two"),
    (PAD[1:] + NINE_180 + "\r", "going", "160 with the carriage return"),
    (PAD[1:] + "9 9 180 -180 1 .5 0 .5 0" + "\r", "refused 3 1", "161"),
    (PAD[2:] + "9 9 180 -180 1 .5 0 .5 0" + "\r", "going", "160"),
]:
    opened()
    p(line + "\n", answer, why)
    c("close", "accepted 1 1" if answer == "going" else answer)
opened()
p(PAD + "9 9 -180 180 1 .5 0 .5 ", why="the first 160 bytes of 161")
p("0", "refused 3 1", "at the byte that breaks the limit")
c("record", record(3, "0 1 0", 1, [], []))

# ---------------------------------------------------------------------------------------------
E.section("E16. Coefficients", "The number -180,000 as the heading of a point is read as 180,000; no other number is changed. Example H at 180, read from rows with a minus.")
table("0 1 0", H180.format(*("-180",) * 6), "accepted 2 1")
for one, other in [(180000, 180000), (-180000, 180000), (180000, -180000), (-180000, -180000)]:
    c(f"coefficient 1000 {one} 1100 {other}", "coefficient -24000 1600", "document 01's case, at 180")
    c(f"coefficient 1100 {one} 1000 {other}", "coefficient -24000 -1600")
    c(f"coefficient 1250 {one} 1250 {other}", "coefficient -36000 0")
c("coefficient 1100 -180000 1100 180000", "coefficient -27360 0")
for wrong in (-180001, 180001, -179999, 179999, 0, -540000, 540000, -360000, -90000, 2147483647, -2147483648):
    c(f"coefficient 1000 {wrong} 1000 -180000", "refused 14 1", {-180001: "headings must be the table's own; there is no range here", -540000: "no turn is added"}.get(wrong, ""))
    c(f"coefficient 1000 -180000 1000 {wrong}", "refused 14 2")
c("coefficient 999 -180000 1000 180000", "refused 13 1", "13 before 14")
c("coefficient 1000 -180000 1251 -180000", "refused 13 2")
c("coefficient 1000 -180001 1251 -180000", "refused 14 1", "line 1 is done before line 2")
c("poke 1 1 1000000001 0 1", "poked")
c("coefficient 1250 -180000 1250 180000", "refused 15 0", "the entry of (1250, 180) with itself is out of range")
c("coefficient 1000 -180000 1100 -180000", "coefficient -24000 1600", "and is not needed here")
table("0 1 0", H180.format(*("0",) * 6), "accepted 2 1", "a table without 180")
for points, place in [("1000 -180000 1000 0", 1), ("1000 0 1000 -180000", 2), ("1000 -180000 1000 -180000", 1), ("1000 -180000 1000 180000", 1), ("1000 180000 1000 0", 1), ("1000 0 1000 180000", 2)]:
    c(f"coefficient {points}", f"refused 14 {place}")
c("coefficient 1000 0 1100 0", "coefficient -24000 1600")
table("0 1 0", H180.format(*("-179.999",) * 6), "accepted 2 1", "a table next to it")
c("coefficient 1000 -179999 1100 -179999", "coefficient -24000 1600")
c("coefficient 1000 -180000 1100 -179999", "refused 14 1")
c("coefficient 1000 -179999 1100 -180000", "refused 14 2")
c("coefficient 1000 179999 1100 -179999", "refused 14 1", "-179,999 and 179,999 are two")

# The table of part B's B7 with -90 for 0 and 180 for 90 degrees.
TWO = "10 10 -90 -90 1 1 0 1 0\n8 8 -90 -90 1 3 0 3 0\n10 8 -90 -90 1 5.09902 11 5 1\n10 10 180 -180 1 2 0 2 0\n8 8 -180 -180 1 4 0 4 0\n10 8 -180 180 1 6.08276 -9 6 -1\n"
E.section("E17. Line 1's heading", "Single coverage, headings -90 and 180: each line must have the heading of line 1, as read.")
table("0 1 0", TWO, "accepted 2 2")
for one, other in [(180000, 180000), (-180000, 180000), (180000, -180000), (-180000, -180000)]:
    c(f"coefficient 1125 {one} 1250 {other}", "coefficient 5000000 -500000", "half of 6 - 1i and half of 4")
    sea([(1000, one, 1, 0), (1250, other, 2, 0)])
    c("force 0", "force 42000000", "2 + 4(4) + 2(2)(6)")
    c("force 10", "force 14000000", "18 + 2(2) Re (6 - 1i)(-i) = 18 - 4")
    c(f"display 0 {bits(0.5)}", show("force", 9000.0, 21000.0), "half of 18,000 and of 42,000")
c("coefficient 1000 -180000 1250 -90000", "refused 14 2", "in the table, but not that of line 1")
c("coefficient 1000 -90000 1250 -180000", "refused 14 2", "likewise")
c("coefficient 1000 -90000 1250 180000", "refused 14 2")
for lines, answer, why in [
    ([(1000, -180000, 1, 0), (1250, -90000, 1, 0)], "refused 14 2", "in the table, but not that of line 1"),
    ([(1000, -90000, 1, 0), (1250, -180000, 1, 0)], "refused 14 2", "likewise"),
    ([(1000, -180001, 1, 0), (1250, -180000, 1, 0)], "refused 14 1", "-180,001 is no heading of the table"),
    ([(1000, -180000, 1, 0), (1250, -180001, 1, 0)], "refused 14 2", "likewise"),
    ([(1000, -180000, 1, 0), (1250, 180001, 1, 0)], "refused 14 2", "likewise"),
    ([(1000, -180000, 1, 0), (1251, -180001, 1, 0)], "refused 13 2", "13 before 14"),
    ([(1000, -180000, 40000, 0), (1250, -180001, 1, 0)], "refused 12 0", "12 before any line"),
    ([(1000, -180000, 1, 0), (1100, 180000, 0, 0), (1200, -180000, 0, 0), (1250, 180000, 2, 0)], "force 42000000", "four lines in both signs, two with no amplitude"),
    ([(1000, 180000, 1, 0), (1100, -180000, 0, 0), (1250, -90000, 2, 0)], "refused 14 3", "the third is another heading"),
    ([(1000, -90000, 1, 0)], "force 1000000", "the other heading's entries are where they were"),
    ([(1000, -180000, 1, 0)], "force 2000000", "and one line at 180"),
]:
    sea(lines)
    c("force 0", answer, why)
    if answer.startswith("refused"):
        c(f"display 0 {bits(0.0)}", answer, "before 16")
sea([(1000 + i, -180000 if i % 2 else 180000, 0, 0) for i in range(63)] + [(1063, 180001, 0, 0)])
c("force 0", "refused 14 64", "the last line there is room for")
sea([(1000 + i, 180000 if i % 2 else -180000, 0, 0) for i in range(64)], why="64 lines in both signs")
c("force 0", "force 0")

E.section("E18. Seas: example H at 180", "The force at -180,000 is the force at 180,000, which is document 01's at 0. Where the table has no 180,000, both are 14.")
table("0 1 0", H180.format("180", "-180", "-180", "-180", "180", "180"), "accepted 2 1")
for one, other in [(180000, 180000), (-180000, 180000), (180000, -180000), (-180000, -180000)]:
    sea([(1000, one, 500, 0), (1250, other, 300, 0)])
    c("force 0", "force -17240000000")
    c("force 10", "force -7040000000")
    c("force 20", "force 760000000")
    c("force 18446744073709551615", f"force {MAX}", "as in part B")
    c(f"display 0 {bits(0.5)}", show("force", -4120000.0, -8620000.0))
    c(f"display 0 {bits(-0.5)}", "refused 16 0")
for last in (180000, -180000):
    sea([(1000 + i, -180000 if i % 2 else 180000, 0, 0) for i in range(63)] + [(1250, last, 500, 0)], why="64 lines at either sign, and an amplitude in the last alone")
    c("force 0", "force -9000000000", "500 squared times -36,000")
c("poke 0 1 -30000 1000000001 1", "poked")
c("force 0", "refused 15 0", "out of range, and needed")
table("0 1 0", H180.format(*("0",) * 6), "accepted 2 1", "a table without 180")
for lines, place in [
    ([(1000, -180000, 1, 0), (1250, 180000, 1, 0)], 1),
    ([(1000, 180000, 1, 0), (1250, -180000, 1, 0)], 1),
    ([(1000, 0, 1, 0), (1250, -180000, 1, 0)], 2),
    ([(1000, 0, 1, 0), (1250, 180000, 1, 0)], 2),
]:
    sea(lines)
    c("force 0", f"refused 14 {place}")
    c(f"display 0 {bits(1.0)}", f"refused 14 {place}")

E.section("E19. Seas: a sum table and full coverage", "The sum table of part B at 180, written in both signs; then the table of E7, where lines may have different headings.")
table("1 3 0", H180.format("180", "-180", "-180", "180", "-180", "-180").replace(" 1 .0", " 3 .0"), "accepted 2 1")
c("listing", LISTING_180.replace("difference 1", "sum 3").replace("-30000 -4000", "-30000 4000"), "the mirror is the same")
c("coefficient 1100 -180000 1000 180000", "coefficient -24000 1600", "swapping keeps a sum entry")
c("coefficient 1100 -180000 1100 -180000", "coefficient -27360 1920", "0.24(4000) twice")
c("coefficient 1100 -180001 1100 -180000", "refused 14 1")
for one, other in [(180000, 180000), (-180000, 180000), (180000, -180000), (-180000, -180000)]:
    sea([(1000, one, 500, 0), (1250, other, 300, 0)])
    c("force 10", "force -2960000000", "steps 0, 5000 and 2500: -5e9 + 3.24e9 + 2(150000)(-4000)")
    c("force 20", "force 760000000", "steps 0, 0 and 5000: -5e9 - 3.24e9 + 9e9")
    c(f"display 10 {bits(1.0)}", show("force", 0.0, -2960000.0), "the mean of a sum table is 0.0")
sea([(1000, -180000, 500, 0), (1250, 0, 300, 0)])
c("force 10", "refused 14 2")
table("0 5 1", BOTH, "accepted 2 2")
for h in (180000, -180000):
    c(f"coefficient 1250 0 1250 {h}", "coefficient 10000000 1000000", "the row came from its other side, conjugated")
    c(f"coefficient 1100 0 1200 {h}", "coefficient 8600000 1840000", "weights 0.12, 0.48, 0.08, 0.32 of 7 + 2i, 8 + 3i, 9 - 2i, 10 + 1i")
    c(f"coefficient 1200 {h} 1100 0", "coefficient 8600000 -1840000")
    c(f"coefficient 1000 -180000 1250 {h}", "coefficient 6000000 -1000000", "10 s with 8 s, both at 180")
    c(f"coefficient 1000 {h} 1000 -180001", "refused 14 2")
    sea([(1000, 0, 1, 0), (1250, h, 2, 0)])
    c("force 0", "force 49000000", "1 + 4(4) + 2(2)(8)")
    c("force 10", "force 29000000", "17 + 2(2)(3)")
    c("force 20", "force -15000000", "17 - 32")
    c(f"display 0 {bits(0.25)}", show("moment", 4250.0, 12250.0))
    sea([(1000, -180000, 1, 0), (1250, h, 2, 0)])
    c("force 0", "force 42000000", "2 + 4(4) + 2(2)(6)")
    sea([(1000, h, 1, 0), (1250, 0, 2, 0)])
    c("force 0", "force 50000000", "2 + 4(3) + 2(2)(9)")
sea([(1000, 0, 1, 0), (1250, -180001, 2, 0)])
c("force 0", "refused 14 2")

# ---------------------------------------------------------------------------------------------
E.section(
    "E20. Forged records",
    "A held heading slot of -180,000 makes a record not valid: 2 in every call that tests a record, ahead of what it is stuck with, and nothing changes. Four headings, 0, -90, 90 and 180 in slots 0 to 3. In slots 0 to 2 the\n"
    "forged one stands together with 180,000, in slot 3 alone.",
)
FOUR = [0, -90000, 90000, 180000]
FOUR_CELLS = bench_sum({(0, 0): (1_000_000, 0, 1), (20, 20): (2_000_000, 0, 1), (40, 40): (3_000_000, 0, 1), (60, 60): (4_000_000, 0, 1)})
FOUR_LISTING = "QTF difference 1 single 1 4\n1000 -90000 1000 -90000 2000000 0\n1000 0 1000 0 1000000 0\n1000 90000 1000 90000 3000000 0\n1000 180000 1000 180000 4000000 0"
table("0 1 0", "10 10 0 0 1 1 0 1 0\n10 10 -90 -90 1 2 0 2 0\n10 10 90 90 1 3 0 3 0\n10 10 -180 -180 1 4 0 4 0\n", "accepted 1 4")
c("listing", FOUR_LISTING)
for slot, good in enumerate(FOUR):
    other = 90000 if slot == 0 else 0
    c(f"forge heading {slot} -180000", "forged", f"slot {slot}, accepted")
    sea([(1000, other, 1, 0)])
    for query in (f"coefficient 1000 {other} 1000 {other}", "coefficient 1000 -180000 1000 180000", "force 0", f"display 0 {bits(1.0)}", "listing", "close"):
        c(query, "refused 2 0")
    p("", "refused 2 0")
    c("forge stage 1", "forged", "open")
    for piece in ("", "x", "10 10 0 0 1 1 0 1 0\n", "10 10 -180 180 1 4 0 4 0\n"):
        p(piece, "refused 2 0")
    c("close", "refused 2 0")
    for stage in (3, 9, 10, 11, 17):
        c(f"forge stage {stage}", "forged", "stuck" if stage == 3 else "")
        p("x", "refused 2 0")
        c("close", "refused 2 0")
    c("lend 12799 6400", "lent 12799 6400")
    c("close", "refused 1 0", "not valid: 1 before 2")
    c("force 0", "refused 1 0")
    c("lend 12800 6400", "lent 12800 6400")
    c(f"forge heading {slot} {good}", "forged", "as it was")
    for stage, answer in [(17, "refused 17 0"), (11, "refused 11 0 0 0 0"), (10, "refused 10 0"), (9, "refused 9 0"), (3, "refused 3 0")]:
        c(f"forge stage {stage}", "forged")
        c("close", answer, "valid again: what it is stuck with; no line was refused" if stage == 17 else "")
    c("forge stage 1", "forged")
    p("", why="open again")
    c("forge stage 2", "forged")
    c("force 0", f"force {[3, 1, 1, 1][slot]}000000", "accepted again")
c("record", record(2, "0 1 0", 4, [1000], FOUR), "nothing of all that changed it")
c("sum", FOUR_CELLS)
c("listing", FOUR_LISTING)
c("forge heading 0 -180000", "forged")
c("forge heading 1 -180000", "forged", "two of them")
c("listing", "refused 2 0")
c("forge heading 0 0", "forged")
c("listing", "refused 2 0", "one is left")
c("open 2 1 0", "refused 2 0", "a refused opening leaves the record as it was")
c("close", "refused 2 0")
c("forge heading 1 -90000", "forged")
c("listing", FOUR_LISTING)
c("forge heading 3 -179999", "forged", "next to it: valid")
c("listing", "QTF difference 1 single 1 4\n1000 -179999 1000 -179999 4000000 0\n1000 -90000 1000 -90000 2000000 0\n1000 0 1000 0 1000000 0\n1000 90000 1000 90000 3000000 0")
c("coefficient 1000 -179999 1000 -179999", "coefficient 4000000 0")
c("coefficient 1000 -180000 1000 -180000", "refused 14 1", "180 is no heading of it now")
c("forge heading 3 -180001", "forged", "out of range, as before")
c("listing", "refused 2 0")
c("forge heading 3 180001", "forged", "likewise")
c("listing", "refused 2 0")
c("forge heading 3 180000", "forged")
c("coefficient 1000 -180000 1000 -180000", "coefficient 4000000 0", "as it was")

E.section("E21. Slots that are not held", "What stands in a heading slot that is not held does not matter.")
c("forge headings 3", "forged", "180 in slot 3 is no longer held")
c("forge heading 3 -180000", "forged")
THREE_LISTING = "QTF difference 1 single 1 3\n1000 -90000 1000 -90000 2000000 0\n1000 0 1000 0 1000000 0\n1000 90000 1000 90000 3000000 0"
c("listing", THREE_LISTING, "valid")
c("coefficient 1000 0 1000 0", "coefficient 1000000 0")
c("coefficient 1000 -180000 1000 -180000", "refused 14 1", "not held: no heading of the table")
c("coefficient 1000 180000 1000 180000", "refused 14 1")
sea([(1000, -90000, 2, 0)])
c("force 0", "force 8000000", "4(2)")
c(f"display 0 {bits(1.0)}", show("force", 8000.0, 8000.0))
c("record", record(2, "0 1 0", 4, [1000], [0, -90000, 90000, -180000], 3), "and it stays as it was written")
c("forge headings 4", "forged", "now it is held")
c("listing", "refused 2 0")
c("force 0", "refused 2 0")
c("forge headings 3", "forged")
c("forge stage 1", "forged")
p("10 10 -90 -90 1 2 0 2 0\n", why="an open record: valid")
c("record", record(1, "0 1 0", 5, [1000], [0, -90000, 90000, -180000], 3), "a repeated row takes no slot")
p("10 10 -180 -180 1 4 0 4 0\n", why="a new heading takes slot 3; its cell is what the earlier row left")
c("record", record(1, "0 1 0", 6, [1000], FOUR), "and writes 180,000 there")
c("close", "accepted 1 4")
opened()
for slot in range(4):
    c(f"forge heading {slot} -180000", "forged", "a record that holds nothing" if slot == 0 else "")
p("", why="valid: neither ticks nor headings are present")
p("10 10 -180.001 0 1 1 0 1 0", why="a line that will be refused")
c("close", "refused 6 1")
c("record", record(6, "0 1 0", 1, [], [-180000] * 4, 0), "no slot is written")
opened()
for slot in range(4):
    c(f"forge heading {slot} -180000", "forged")
p("10 10 180 -180 1 1 0 1 0\n")
c("record", record(1, "0 1 0", 1, [1000], [180000, -180000, -180000, -180000], 1))
p("8 8 -180 -180 1 1 0 1 0\n10 8 180 180 1 1 0 1 0\n", why="no new heading")
c("close", "accepted 2 1")
c("listing", "QTF difference 1 single 2 1\n1000 180000 1000 180000 1000000 0\n1000 180000 1250 180000 1000000 0\n1250 180000 1000 180000 1000000 0\n1250 180000 1250 180000 1000000 0")
c("forge heading 0 -180000", "forged", "the one that is held")
c("listing", "refused 2 0")
c("coefficient 1000 -180000 1000 -180000", "refused 2 0", "2 before 14")
opened()
c("record", record(1, "0 1 0", 0, [], []), "opening sets all slots to 0")
opened()
c("forge heading 0 -180000", "forged")
c("forge headings 1", "forged", "held, with no tick: not valid for two reasons")
p("", "refused 2 0")
c("forge heading 0 0", "forged")
p("", "refused 2 0", "one is left")
c("forge tick 0 1000", "forged")
p("", why="none")
c("forge heading 0 -180000", "forged")
p("", "refused 2 0", "and now this alone")
c("close", "refused 2 0")
c("forge heading 0 180000", "forged")
p("10 10 -180 -180 1 5 0 5 0", why="the heading that is forged, and the tick: node 0")
c("close", "accepted 1 1")
c("listing", "QTF difference 1 single 1 1\n1000 180000 1000 180000 5000000 0")

# ---------------------------------------------------------------------------------------------
WRITTEN = """$QTFFrequencies
0.628318531
$QTFHeadings
180.000
$WaveDriftQTFMatrix
0 0 0 0 -0.010000 0.000000 -0.020000 0.000000 -0.030000 0.000000 -0.040000 0.000000 -0.050000 0.000000 -0.060000 0.000000
"""
assert len(WRITTEN) == 16 + 12 + 13 + 8 + 20 + 122 == 191
SIGNS = ["180 180", "-180 -180", "180 -180", "-180 180", "-179.9996 180.0005", "-1.8E2 +180"]


def load(place, choices, text, answer):
    table(choices, text, answer)
    c(f"keep {place}", f"kept {place}")


def proteus(text, room=1_100_000, why=""):
    c(f"proteus {room}", f"proteus {len(text)}\n{text[:-1]}", why)


def refused(number, room=1_100_000, why=""):
    c(f"proteus {room}", f"refused {number} 0", why)


E.section("E22. ProteusDS", "Six components at 180, each written in another way: the sets of headings are the same, and the text shows 180.000. Before, component 2 had another heading (18), and 3 to 6 had no row in single coverage (10). The text has 191 bytes.")
for k, headings in enumerate(SIGNS, 1):
    load(k, f"0 {k} 0", f"10 10 {headings} {k} .0{k} 180 -.0{k} 0\n", "accepted 1 1")
proteus(WRITTEN)
proteus(WRITTEN, 191)
refused(19, 190)
c("forge heading 1 -180000", "forged", "component 6's slot 1, not held")
c("keep 6", "kept 6")
proteus(WRITTEN, 191, "it does not matter")
c("forge heading 0 -180000", "forged", "slot 0 is held")
c("keep 6", "kept 6")
refused(2, why="a kept record that is not valid")
refused(2, 0, "2 before 19")
c("forge component 3", "forged")
c("keep 3", "kept 3", "another of the six")
refused(2)
c("forge component 1", "forged")
c("keep 1", "kept 1", "and the first, with which the others are compared")
refused(2, why="and not 18, though the numbers differ")
for k in (1, 3):
    load(k, f"0 {k} 0", f"10 10 {SIGNS[k - 1]} {k} .0{k} 180 -.0{k} 0\n", "accepted 1 1")
    refused(2, why="components 3 and 6 are left" if k == 1 else "component 6 is left")
load(6, "0 6 0", "10 10 -179.999 -179.999 6 .06 180 -.06 0\n", "accepted 1 1")
refused(18, why="-179.999 is another heading")
for headings in ("-180 -180", "180 180", "-179.9995 -180.0005"):
    load(6, "0 6 0", f"10 10 {headings} 6 .06 180 -.06 0\n", "accepted 1 1")
    proteus(WRITTEN, 191)
for k in range(1, 7):
    load(k, f"0 {k} 0", f"10 10 -180 -180 {k} .0{k} 180 -.0{k} 0\n", "accepted 1 1")
proteus(WRITTEN, 191, "all six with a minus")


def turned(text, which):
    """The rows with a minus before every 180 in the columns named: 2 is BETA1, 3 is BETA2."""
    rows = [line.split(" ") for line in text.splitlines()]
    return "".join(" ".join("-180" if at in which and word == "180" else word for at, word in enumerate(words)) + "\n" for words in rows)


assert turned(rows_of(3), [2]).startswith("8 10 -180 -90 3 3.316458 0 3.3 -.33\n8 8 -90 -90 3 3.400000 0 3.4 0\n10 8 -180 -90 3 3.539901 0 3.5 -.53\n8 8 -90 180 3 3.654709 0 3.6 .63\n")
E.section(
    "E23. ProteusDS, two frequencies and two headings",
    "The texts of part C's C9, headings -90 and 180: component 1 without a minus, 2 and 6 with a minus before every 180, 3 in BETA1 alone, 4 in BETA2 alone, 5 in BETA1 of every other row. What is written is what C9 has.",
)
MINUS = [[], [2, 3], [2], [3], None, [2, 3]]
for k, which in enumerate(MINUS, 1):
    text = rows_of(k)
    if which is None:
        text = "".join(turned(line, [2] if at % 2 else []) for at, line in enumerate(text.splitlines()))
    load(k, f"0 {k} 1", turned(text, which or []), "accepted 2 2")
proteus(FULL, 1981)
refused(19, 1980)
c("record", record(2, "0 6 1", 10, [1250, 1000], [-90000, 180000]), "component 6 begins with pair 6, (1250, -90) with (1250, 180)")
