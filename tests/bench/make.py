"""Writes the gate's script and its answers, crates/bench/stdin and stdout, and CASES.md beside this file.

The answers are worked from document 01 (part_a.py, part_b.py) and from requests M-100 (part_c.py), M-101 (part_d.py), M-102 (part_e.py) and M-103 (part_f.py); no program is run
to make them. Parts C, E and F, which write texts for ProteusDS, wait until `bench` knows their commands (KNOWS_PROTEUS in second/talk.py): until then they stand in CASES.md, and second/compare holds the second program to them, but the gate's
script is without them.
"""
import os
import sys

HERE = os.path.dirname(os.path.abspath(__file__))
sys.path[:0] = [HERE, os.path.join(HERE, "..", "..", "second")]
from kit import write
from part_a import A
from part_b import B
from part_c import C
from part_d import D
from part_e import E
from part_f import F
from talk import KNOWS_PROTEUS

PARTS = [A, B, C, D, E, F] if KNOWS_PROTEUS else [A, B, D]
WAITING = [part for part in (A, B, C, D, E, F) if part not in PARTS]


def main():
    bench = os.path.join(HERE, "..", "..", "crates", "bench")
    asked = write(PARTS, os.path.join(bench, "stdin"), os.path.join(bench, "stdout"))
    for part in WAITING:
        part.about += "\n\nNot in the gate's script yet: `bench` does not know these commands."
    with open(os.path.join(HERE, "CASES.md"), "w") as out:
        out.write("\n".join(part.markdown() for part in PARTS + WAITING))
    print(f"{asked} commands")


if __name__ == "__main__":
    main()
