"""Part B: queries."""
import struct

from kit import Part
from part_a import H1, H2, H3, H4, H_LISTING

B = Part(
    "Part B: queries",
    "Example H's cells in units of a millionth: Q(1000, 1000) = -20000, Q(1250, 1250) = -36000, Q(1000, 1250) = -30000 + 4000i and\n"
    "Q(1250, 1000) its conjugate. z(2500) = i, z(5000) = -1, z(7500) = -i exactly; z(1250) = (c + ic)/2^30 with c = 759,250,125,\n"
    "since 2^30 over the root of 2 is 759,250,124.99. The step of a pair at second t is (f(m) - f(n)) t, or (f(m) + f(n)) t for sum.",
)
c, p, sea = B.c, B.p, B.sea

HALF_TURN_C = 759_250_125  # the entry at step 1,250


def nearest(n, d):
    below, rest = divmod(n, d)
    return below + (2 * rest > d or (2 * rest == d and below % 2))


def bits(x):
    return struct.unpack("<Q", struct.pack("<d", x))[0]


def show(word, mean, whole):
    return f"{word} {bits(mean)} {bits(whole)}"


def table(choices, text, answer):
    c(f"open {choices}", "open")
    p(text)
    c("close", answer)


H = H1 + H2 + H3
SEA_H = [(1000, 0, 500, 0), (1250, 0, 300, 0)]

# ---------------------------------------------------------------------------------------------
B.section("B1. Document 01's checked cases", "Example H; sea: tick 1000 amplitude (500, 0), tick 1250 amplitude (300, 0).")
table("0 1 0", H, "accepted 2 1")
c("coefficient 1000 0 1100 0", "coefficient -24000 1600", "starred: 0.6 of -20000 and 0.4 of -30000 + 4000i")
c("coefficient 1100 0 1100 0", "coefficient -27360 0", "starred: 0.36, 0.24, 0.24 and 0.16 of the four corners")
c("coefficient 1100 0 1000 0", "coefficient -24000 -1600", "swapping conjugates a difference entry")
c("coefficient 1250 0 1000 0", "coefficient -30000 -4000", "a table entry")
c("coefficient 1250 0 1250 0", "coefficient -36000 0", "the highest frequency is in the table")
c(
    "coefficient 1001 0 1249 0",
    "coefficient -29984 3968",
    "weights 249, 62001, 1, 249 over 62500: -1,874,004,000 / 62500 = -29984.064 and 248,000,000 / 62500 = 3968",
)
c("force 7", "force 0", "an empty sea has force 0")
c(f"display 7 {bits(2.0)}", "force 0 0", "and shows 0.0")
sea(SEA_H)
c("force 0", "force -17240000000", "starred: 250000(-20000) + 90000(-36000) + 2(150000)(-30000)")
c("force 10", "force -7040000000", "starred: step 2500, the cross pairs give 2(150000)(4000)")
c("force 20", "force 760000000", "starred: step 5000, the cross pairs change sign")
c(f"display 0 {bits(0.5)}", show("force", -4120000.0, -8620000.0), "scale 0.5: -8620000.0, mean -4120000.0")
c("force 10010", "force -7040000000", "phase steps are taken modulo 10,000")
c("force 30", "force -9440000000", "step 7500: 2(150000)(-4000)")
MAX = nearest(-8_240_000_000 * 2**30 + 2 * 150_000 * 34_000 * HALF_TURN_C, 2**30)
c(
    "force 18446744073709551615",
    f"force {MAX}",
    "2^64 - 1 is 1615 modulo 10,000; step 3750 is (-c + ic): the cross pairs give 2(150000)(30000 + 4000)c over 2^30",
)

B.section("B2. The fourth row written over the third", "8 s then 10 s with -0.030 and -0.004: the same table, so the same force. -9,440,000,000 would be the tired hand's.")
table("0 1 0", H1 + H2 + H4, "accepted 2 1")
c("force 10", "force -7040000000", "not -9,440,000,000: the row is not conjugated again because its first period is the shorter")
c("coefficient 1000 0 1100 0", "coefficient -24000 1600")
table("0 1 0", H4 + H2 + H1, "accepted 2 1")
c("cell 0 1", "cell -30000 -4000 1", "8 s came first and is node 0")
c("coefficient 1000 0 1100 0", "coefficient -24000 1600", "but slots make no difference to a query")
c("force 10", "force -7040000000")
c("force 0", "force -17240000000")

B.section("B3. Complex amplitudes, and lines between frequencies", "a(1) conj a(2) = (300 + 400i)(-100i) = 40000 - 30000i; the mean part is 250000(-20000) + 10000(-36000) = -5.36e9.")
table("0 1 0", H, "accepted 2 1")
sea([(1000, 0, 300, 400), (1250, 0, 0, 100)])
c("force 0", "force -7520000000", "cross: 2 Re (40000 - 30000i)(-30000 + 4000i) = 2(-1.08e9)")
c("force 10", "force -3240000000", "z(7500) = -i for (1, 2): cross is 2(1.06e9)")
sea([(1000, 0, -500, 0), (1100, 0, -300, 0)])
c("force 0", "force -14662400000", "250000(-20000) + 90000(-27360) + 2(150000)(-24000); both signs turn around together")
c("force 25", "force -6982400000", "step 2500: 2(150000)(1600)")

B.section("B4. Refusals 1 and 2", "A query tests its cells, then the record; it is lent no flags and reads none.")
sea(SEA_H)
c("lend 12800 0", "lent 12800 0")
c("force 0", "force -17240000000", "no flags are needed")
c("lend 12799 6400", "lent 12799 6400")
c("coefficient 1000 0 1000 0", "refused 1 0", "one cell short")
c("force 0", "refused 1 0")
c(f"display 0 {bits(0.0)}", "refused 1 0", "ahead of 16")
c("listing", "refused 1 0")
c("forge stage 1", "forged")
c("force 0", "refused 1 0", "ahead of 2")
c("lend 12900 6500", "lent 12900 6500")
c("force 0", "refused 2 0", "not accepted")
c("coefficient 1 1 1 1", "refused 2 0", "ahead of 13 and 14")
c(f"display 0 {bits(0.0)}", "refused 2 0", "ahead of 16")
c("forge stage 2", "forged")
c("forge tick 2 1000", "forged")
c("force 0", "refused 2 0", "two ticks that are not distinct")
c("forge tick 2 0", "forged")
c("forge coverage 9", "forged")
c("listing", "refused 2 0", "no such coverage")
c("forge coverage 0", "forged")
c("poke 0 0 -20000 0 0", "poked", "the flag is taken away, the cell stays")
c("force 0", "force -17240000000", "queries read no flags")
c("open 0 1 0", "open")
c("force 0", "refused 2 0", "open, not accepted")
p(H + "x\n", "refused 4 4")
c("force 0", "refused 2 0", "stuck, not accepted")

B.section("B5. Refusal 12", "Over 64 lines, ticks not strictly rising, or A over 40,000; before any line is looked at. The table is -20000 everywhere, so the force at second 0 is -20000 times the square of the sum of the amplitudes.")
table("0 1 0", "10 10 0 0 1 .02 180 -.02 0\n8 8 0 0 1 .02 180 -.02 0\n10 8 0 0 1 .02 180 -.02 0\n", "accepted 2 1")
sea([(1000 + i, 0, 625, 0) for i in range(64)], why="64 lines, A = 40,000")
c("force 0", "force -32000000000000", "40000 squared times -20000")
c("force 10000", "force -32000000000000", "every step is a whole number of turns")
sea([(1000 + i, 0, 1, 0) for i in range(65)], why="65 lines, the last one dropped but counted")
c("force 0", "refused 12 0")
sea([(1000 + i, 0, 1, 0) for i in range(70)])
c("force 0", "refused 12 0")
sea([(1000 + i, 0, 1, 0) for i in range(64)])
c("force 0", "force -81920000", "64 squared times -20000")
sea([(1000, 0, 20000, 0), (1250, 0, -20000, 0)], why="A = 40,000, though the amplitudes cancel")
c("force 0", "force 0", "20000 - 20000 is 0")
sea([(1000, 0, 20000, 0), (1250, 0, -20000, 1)], why="A = 40,001")
c("force 0", "refused 12 0")
sea([(1000, 0, 0, -40000)], why="A = 40,000 in one part")
c("force 3", "force -32000000000000", "one line: no phase")
sea([(1000, 0, 0, -40001)])
c("force 3", "refused 12 0")
sea([(1000, 0, 20000, -20000)], why="A = 40,000 over both parts of one line")
c("force 3", "force -16000000000000", "(20000^2 + 20000^2)(-20000)")
sea([(1000, 0, 20000, -20001)], why="A = 40,001")
c("force 3", "refused 12 0")
sea([(1000, 0, -2147483648, 0)], why="an amplitude of -2^31 has the size 2^31")
c("force 0", "refused 12 0")
sea([(1000 + i, 0, -2147483648, -2147483648) for i in range(64)], why="A = 2^38")
c("force 0", "refused 12 0")
sea([(1000, 0, 1, 0), (1000, 0, 1, 0)])
c("force 0", "refused 12 0", "equal ticks are not strictly rising")
sea([(1250, 0, 1, 0), (1000, 0, 1, 0)])
c("force 0", "refused 12 0", "falling")
sea([(999, 7, 1, 0), (5000, 7, 40000, 0)])
c("force 0", "refused 12 0", "12 before 13 and 14 of any line")
c(f"display 0 {bits(-1.0)}", "refused 12 0", "and before 16")

B.section("B6. Refusals 13 and 14", "Line by line, 13 then 14; a coefficient call treats its two points as lines 1 and 2.")
table("0 1 0", H, "accepted 2 1")
c("coefficient 999 0 1000 0", "refused 13 1", "below the lowest")
c("coefficient 1251 7 999 7", "refused 13 1", "above the highest; 13 before 14 of the same line")
c("coefficient 1000 7 999 0", "refused 14 1", "line 1 is done before line 2")
c("coefficient 1000 0 4294967295 7", "refused 13 2")
c("coefficient 1000 0 1000 -2147483648", "refused 14 2", "not in the table")
c("coefficient 1250 0 0 0", "refused 13 2", "tick 0 is no frequency of the table, though free slots hold 0")
sea([(999, 0, 1, 0), (1000, 0, 1, 0)])
c("force 0", "refused 13 1")
sea([(1000, 7, 1, 0), (1251, 0, 1, 0)])
c("force 0", "refused 14 1", "line 1 is done before line 2")
sea([(1000 + i, 0, 1, 0) for i in range(63)] + [(1063, 7, 1, 0)])
c("force 0", "refused 14 64", "the last line there is room for")
sea([(1000 + i, 0, 1, 0) for i in range(63)] + [(1251, 7, 1, 0)])
c("force 0", "refused 13 64")
sea([(1000, 0, 1, 0), (1100, 1, 1, 0), (1251, 0, 1, 0)])
c("force 0", "refused 14 2", "line 2 comes before line 3")
sea([(1000, 0, 1, 0), (1100, 0, 1, 0), (1251, 1, 0, 0)])
c("force 0", "refused 13 3", "an amplitude of 0 makes no difference")
c(f"display 0 {bits(5000.0)}", "refused 13 3", "before 16")
table("0 1 0", "10 10 0 0 1 0.000007 0 0.000007 0\n", "accepted 1 1")
c("coefficient 1000 0 1000 0", "coefficient 7 0", "with one frequency there is nothing between")
c("coefficient 1001 0 1000 0", "refused 13 1")
c("coefficient 1000 0 999 0", "refused 13 2")

B.section("B7. Single coverage with a second heading", "Every line must have the heading of line 1; either heading of the table will do for line 1.")
table(
    "0 1 0",
    "10 10 0 0 1 1 0 1 0\n8 8 0 0 1 3 0 3 0\n10 8 0 0 1 5.09902 11 5 1\n10 10 90 90 1 2 0 2 0\n8 8 90 90 1 4 0 4 0\n10 8 90 90 1 6.08276 -9 6 -1\n",
    "accepted 2 2",
)
c("coefficient 1000 0 1250 90000", "refused 14 2", "in the table, but not that of line 1")
c("coefficient 1000 90000 1250 90000", "coefficient 6000000 -1000000")
c("coefficient 1125 90000 1250 90000", "coefficient 5000000 -500000", "half of 6 - 1i and half of 4; the other heading's slot")
sea([(1000, 0, 1, 0), (1250, 90000, 1, 0)])
c("force 0", "refused 14 2")
sea([(1000, 90000, 1, 0), (1250, 0, 1, 0)])
c("force 0", "refused 14 2", "line 1 sets the heading, not slot 0")
sea([(1000, 90000, 1, 0), (1250, 90000, 2, 0)])
c("force 0", "force 42000000", "2 + 4(4) + 2(2)(6)")
c("force 10", "force 14000000", "18 + 2(2) Re (6 - 1i)(-i) = 18 - 4")
c("coefficient 1000 180001 1250 0", "refused 14 1")

B.section("B8. Refusal 15", "A cell part outside -10^9 to 10^9 in a corner whose weight is not 0, whatever the amplitudes; place 0. Somebody else wrote it.")
table("0 1 0", H, "accepted 2 1")
c("poke 1 1 1000000001 0 1", "poked", "the entry of (1250, 1250)")
c("coefficient 1000 0 1100 0", "coefficient -24000 1600", "needs (1000, 1000) and (1000, 1250) alone")
c("coefficient 1100 0 1000 0", "coefficient -24000 -1600")
c("coefficient 1001 0 1001 0", "refused 15 0", "needs all four corners")
c("coefficient 1250 0 1250 0", "refused 15 0")
sea([(1000, 0, 500, 0)])
c("force 3", "force -5000000000", "a line at a table frequency needs no neighbour")
sea([(1001, 0, 0, 0)])
c("force 3", "refused 15 0", "a line between needs it, though its amplitude is 0")
sea([(1000, 0, 1, 0), (1251, 0, 1, 0)])
c("force 3", "refused 13 2", "13 before 15")
sea(SEA_H)
c("force 3", "refused 15 0")
c(f"display 3 {bits(0.0)}", "refused 15 0", "15 before 16")
c("listing", H_LISTING.replace("-36000", "1000000001"), "the listing does not test 15 (design page)")
c("poke 1 1 1000000000 0 1", "poked")
c("force 0", "force 89986000000000", "10^9 is in range: -5e9 + 90000(10^9) - 9e9")
c("poke 1 1 -36000 -1000000001 1", "poked")
c("force 0", "refused 15 0", "the imaginary part at m = n is a needed part too (design page)")
c("poke 1 1 -36000 -1000000000 1", "poked")
c("force 0", "force -17240000000", "in range; it does not show in the real part")
c("poke 1 1 -36000 0 1", "poked")
c("poke 0 1 -30000 -2147483648 1", "poked")
c("coefficient 1250 0 1000 0", "coefficient -30000 -4000", "the mirror is not needed here")
c("force 0", "refused 15 0", "the force needs both")
c("poke 0 1 -30000 5000 1", "poked")
c("force 10", "force -6890000000", "both cells are read as they are: 150000(5000) + 150000(4000)")
c("poke 0 1 -30000 4000 1", "poked")

B.section("B9. Refusal 16 and the display", "Scale not a number, not above 0, or above 1,000; the count is the force over 1,000, rounded, and is multiplied once.")
for value, why in [
    (9221120237041090560, "a quiet NaN"),
    (9218868437227405313, "another pattern of NaN"),
    (9223372036854775807, "the last of its patterns without a sign"),
    (18442240474082181121, "NaN with its sign"),
    (18446744073709551615, "another with its sign"),
    (bits(0.0), "0"),
    (bits(-0.0), "-0.0 is not above 0"),
    (bits(-0.5), "below 0"),
    (2**63 + 1, "the first double below 0"),
    (bits(float("-inf")), "and minus infinity"),
    (bits(1000.0) + 1, "the next double above 1,000"),
    (bits(float("inf")), "infinity"),
]:
    c(f"display 0 {value}", "refused 16 0", why)
c(f"display 0 {bits(1000.0)}", show("force", -8240000000.0, -17240000000.0), "1,000 passes")
c("display 0 1", f"force {2**63 + 8240000} {2**63 + 17240000}", "the smallest double: -8240000 and -17240000 times 2^-1074")
c(f"display 10 {bits(0.1)}", show("force", -8240000 * 0.1, -7040000 * 0.1), "one product, rounded once")
c("forge component 3", "forged")
c(f"display 20 {bits(1.0)}", show("force", -8240000.0, 760000.0), "components 1 to 3 are forces")
c("forge component 4", "forged")
c(f"display 20 {bits(1.0)}", show("moment", -8240000.0, 760000.0), "4 to 6 are moments")
c("forge component 6", "forged")
c(f"display 20 {bits(1.0)}", show("moment", -8240000.0, 760000.0))
sea([(1000, 0, 1, 0)])
for value, count in [(1500, 2.0), (2500, 2.0), (-1500, -2.0), (-500, 0.0), (501, 1.0), (499, 0.0)]:
    c(f"poke 0 0 {value} 0 1", "poked")
    why = f"force {value}: {value / 1000} rounds to {int(count)}" + (", and that is plain 0.0" if value == -500 else "")
    c(f"display 0 {bits(1.0)}", show("moment", count, count), why)
for value, sign in [(1000, 0), (-1000, 2**63)]:
    c(f"poke 0 0 {value} 0 1", "poked")
    for scale, why in [
        (1, "the smallest double"),
        (2**52 - 1, "the largest with no leading one"),
        (2**52, "the smallest with one"),
        (bits(0.1), "0.1"),
        (bits(1.0) - 1, "the double below 1"),
        (bits(1000.0), "1,000"),
    ]:
        shown = sign + scale
        c(f"display 0 {scale}", f"moment {shown} {shown}", f"a count of {value // 1000}: the scale{' with a minus' if sign else ''}, bit for bit; {why}")

B.section("B10. Sum tables", "a(n) not conjugated, f(m) + f(n), the mirror the same, the mean 0.0.")
table("1 3 0", (H1 + H2 + H3).replace(" 0.0 0.0 1 ", " 0.0 0.0 3 "), "accepted 2 1")
c("coefficient 1100 0 1000 0", "coefficient -24000 1600", "swapping keeps a sum entry")
c("coefficient 1100 0 1100 0", "coefficient -27360 1920", "0.24(4000) twice")
sea(SEA_H)
c("force 0", "force -17240000000")
c("force 10", "force -2960000000", "steps 0, 5000 and 2500: -5e9 + 3.24e9 + 2(150000)(-4000)")
c("force 20", "force 760000000", "steps 0, 0 and 5000: -5e9 - 3.24e9 + 9e9")
c(f"display 10 {bits(1.0)}", show("force", 0.0, -2960000.0), "the mean of a sum table is 0.0")
c(f"display 10 {bits(0.0)}", "refused 16 0", "the scale is tested all the same")
SUM_MAX = nearest(-5_000_000_000 * 2**30 + 2 * 150_000 * 26_000 * HALF_TURN_C, 2**30)
c(
    "force 18446744073709551615",
    f"force {SUM_MAX}",
    "2^64 - 1 is 1615: steps 0, 7500 and 3750, so -5e9, 0 and 2(150000) Re (-30000 + 4000i)(-c + ic) = 2(150000)(26000)c over 2^30",
)
sea([(1000, 0, 300, 400), (1250, 0, 0, 100)])
c("force 0", "force 3920000000", "squares -70000 + 240000i and -10000; product -40000 + 30000i: 1.4e9 + 3.6e8 + 2(1.08e9)")
SUM5 = nearest(1_400_000_000 * 2**30 + 2 * (1_080_000_000 + 1_060_000_000) * HALF_TURN_C, 2**30)
c("force 5", f"force {SUM5}", "steps 0, 2500 and 1250: 1.4e9 + 0 + 2(1.08e9 + 1.06e9)c over 2^30")
c(f"display 5 {bits(1.0)}", show("force", 0.0, float(nearest(SUM5, 1000))))

B.section("B11. Full coverage", "Lines of different headings; the coefficient of (tick, heading) with (tick, heading) from the block of the two headings.")
table(
    "0 5 1",
    "10 10 0 0 5 1 0 1 0\n8 8 0 0 5 3 0 3 0\n10 8 0 0 5 5.09902 11 5 1\n10 10 5 5 5 2 0 2 0\n8 8 5 5 5 4 0 4 0\n10 8 5 5 5 6.08276 -9 6 -1\n"
    "10 10 0 5 5 7.28011 16 7 2\n10 8 0 5 5 8.544 21 8 3\n8 10 0 5 5 9.21954 -13 9 -2\n8 8 5 0 5 10.0499 -6 10 -1\n",
    "accepted 2 2",
)
c("coefficient 1250 0 1250 5000", "coefficient 10000000 1000000", "the row came from its other side, conjugated")
c("coefficient 1100 0 1200 5000", "coefficient 8600000 1840000", "weights 0.12, 0.48, 0.08, 0.32 of 7 + 2i, 8 + 3i, 9 - 2i, 10 + 1i")
c("coefficient 1200 5000 1100 0", "coefficient 8600000 -1840000")
c("coefficient 1000 0 1000 4999", "refused 14 2", "headings must be the table's own")
sea([(1000, 0, 1, 0), (1250, 5000, 2, 0)])
c("force 0", "force 49000000", "1 + 4(4) + 2(2)(8)")
c("force 10", "force 29000000", "17 + 2(2)(3)")
c("force 20", "force -15000000", "17 - 32")
c(f"display 0 {bits(0.25)}", show("moment", 4250.0, 12250.0))

B.section("B12. Rounding once", "Coefficients round once per part from the one fraction; the force is over rounded coefficients and rounds once at the end, ties to the even one.")
table("0 1 0", "10 10 0 0 1 0 0 0 0\n9.98 9.98 0 0 1 0.000001 0 0.000001 0\n10 9.98 0 0 1 0.000003 72 0.000001 0.000003\n", "accepted 2 1")
c("coefficient 1000 0 1001 0", "coefficient 0 2", "9.98 s is tick 1002; 0.5 goes to 0, 1.5 to 2")
c("coefficient 1001 0 1000 0", "coefficient 0 -2")
c("coefficient 1001 0 1001 0", "coefficient 1 0", "3/4 goes to 1; rounding twice would give 0")
sea([(1000, 0, 1, 0), (1001, 0, 1, 0)])
c("force 0", "force 1", "0 + 1 + 0 + 0, over rounded coefficients")
c("force 2500", "force 5", "step 2500: 1 + 2 + 2")
table("0 1 0", "10 10 0 0 1 0 0 0 0\n8 8 0 0 1 0 0 0 0\n10 8 0 0 1 268.435 0 268.435456 0\n", "accepted 2 1")
sea([(1000, 0, 1, 0), (1250, 0, 1, 0)])
c("force 0", "force 536870912", "2(2^28): the force at step k is half the cosine entry")
c("force 5", "force 379625062", "half of 759,250,125 is a tie: the even one")
c("force 15", "force -379625062", "step 3750, the same below 0")
c("force 4", "force 434337692", "step 1000: half of 868,675,383, a tie upwards")
c("force 16", "force -434337692", "step 4000")
c("force 8", "force 165902236", "step 2000: half of 331,804,471")

B.section("B13. The largest numbers", "A = 40,000 with parts of 10^9.")
table("0 2 0", "10 10 0 0 2 1000 0 1000 0\n8 8 0 0 2 1000 0 1000 0\n10 8 0 0 2 1414.21 135 -1000 1000\n", "accepted 2 1")
sea([(1000, 0, 40000, 0)])
c("force 1", "force 1600000000000000000", "1.6e9 times 10^9")
c(f"display 1 {bits(1000.0)}", show("force", 1.6e15 * 1000.0, 1.6e15 * 1000.0), "a count of 1.6e15, below 2^53")
sea([(1000, 0, 20000, 0), (1250, 0, 20000, 0)])
c("force 0", "force 0", "8e17 - 8e17")
c("force 10", "force 1600000000000000000", "8e17 + 2(4e8)(10^9)")
C15 = nearest(800_000_000_000_000_000 * 2**30 + 2 * 400_000_000 * 2_000_000_000 * HALF_TURN_C, 2**30)
c("force 15", f"force {C15}", "step 3750, (-c + ic): 2(4e8)(2e9)c over 2^30 more")
assert C15 == 800_000_000_000_000_000 + nearest(1_600_000_000_000_000_000 * HALF_TURN_C, 2**30)

B.section(
    "B14. Seas and numbers that the bench's page does not describe",
    "`?`, and nothing changes. A sea's lines belong to its command, so that one bad line is one `?`; here it is always the last. What a place can just hold is held.",
)
table("0 1 0", H, "accepted 2 1")
sea(SEA_H)
c("sea 71", "?", "0 to 70; no lines are taken")
c("sea -1", "?")
c("sea", "?")
c("sea 1 1", "?")
for line, why in [
    ((4294967296, 0, 1, 0), "a tick is a u32"),
    ((-1, 0, 1, 0), "likewise"),
    ((1000, 2147483648, 1, 0), "a heading is an i32"),
    ((1000, -2147483649, 1, 0), "likewise"),
    ((1000, 0, 2147483648, 0), "an amplitude is two i32"),
    ((1000, 0, 0, -2147483649), "likewise"),
    ((1000, 0, 1), "three numbers"),
    ((1000, 0, 1, 0, 0), "five numbers"),
    ((1000, 0, "x", 0), "no number"),
    (("", 1000, 0, 1, 0), "a space before the first"),
]:
    sea([line], "?", why)
sea([(1000 + i, 0, 1, 0) for i in range(64)] + [(1064, 0, 1, 2147483648)], "?", "a 65th line is dropped, but it must be one")
for command, why in [
    ("coefficient 4294967296 0 1000 0", "a tick is a u32"),
    ("coefficient 1000 0 -1 0", "likewise"),
    ("coefficient 1000 2147483648 1000 0", "a heading is an i32"),
    ("coefficient 1000 0 1000 -2147483649", "likewise"),
    ("coefficient 1000 0 1000", "three numbers"),
    ("coefficient 1000 0 1000 0 0", "five numbers"),
    ("force 18446744073709551616", "a second is a u64"),
    ("force", "no number"),
    ("force 0 0", "two numbers"),
    ("display 18446744073709551616 1", "a second is a u64"),
    ("display 0 18446744073709551616", "a scale has 64 bits"),
    ("display 0 -1", "unsigned"),
    ("display 0", "no scale"),
    ("display 0 1 1", "three numbers"),
]:
    c(command, "?", why)
c("force 0", "force -17240000000", "the sea is what it was")
sea([(4294967295, 2147483647, 1, 0)])
c("force 0", "refused 13 1", "held, and above the highest")
sea([(0, -2147483648, 0, 0)])
c("force 0", "refused 13 1", "held, and below the lowest")
sea([])
c("force 5", "force 0", "no lines again")
c(f"display 5 {bits(1000.0)}", "force 0 0")
