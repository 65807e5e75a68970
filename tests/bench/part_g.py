"""Part G: records that no chain of calls makes."""
from kit import Part, record
from part_a import H1

G = Part(
    "Part G: a line of which no beginning was counted",
    "A record that is open, has 0 lines begun and keeps bytes is valid by document 01's list. Closing reads the kept bytes as a line, which is not the first, and what it is refused has the place that the record counts: line 0\n"
    "(docs/DECISIONS.md, \"The reader\").",
)
c, p = G.c, G.p

# ---------------------------------------------------------------------------------------------
G.section("G1. Bytes kept, and no line begun", "")
c("open 0 1 0", "open")
p("1 2", why="two fields of line 1, kept")
c("forge lines 0", "forged", "somebody says that no line has begun")
c("close", "refused 4 0", "not nine fields, at line 0")
c("close", "refused 4 0", "and it sticks with its place")
c("record", record(4, "0 1 0", 0, [], []))
c("open 0 1 0", "open")
p("WAMIT", why="a title, if it is line 1")
c("forge lines 0", "forged")
c("close", "refused 4 0", "only the first line is a title, and this is no first line")
c("open 0 1 0", "open")
p(H1[:-1], why="a row with no line feed behind it")
c("forge lines 0", "forged")
c("close", "accepted 1 1", "the row is used, wherever it stands")
c("open 0 1 0", "open")
p("1 2")
c("forge lines 0", "forged")
p(" 3\n", "refused 4 0", "so in a piece: the line is the one that was begun before")
