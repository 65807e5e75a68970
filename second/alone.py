"""The box's part alone: flash/box.rattle over the crates that the box holds, built as a static library by `rt lib` in a folder of its own and linked with flash/driver.c."""
import os
import re
import shutil
import subprocess

from sizes import Code, functions, size_of, tool
from talk import ROOT, RUN, ask, commands_of

TOP = ("readout", "lines", "proteus")  # and what they stand on: what the box holds, the listing and the ProteusDS text with it
ENTRIES = ("open", "piece", "close", "coefficient", "force", "display", "line", "proteus")  # the last is the ProteusDS text's, and the one before it the listing's
# How often a function that calls itself stands on the stack: the pen's `digits` once for each digit and once for none. The listing's numbers are whole ones of 32 bits, with ten
# digits at most. Of a decimal, digits before the point and digits behind it are put by a call each: in the ProteusDS text the most are the nine behind a frequency's point;
# before a point there are seven at most, whatever 32 bits hold, and an index has two.
TURNS = {"line": {"text::pen::Pen::digits": 11}, "proteus": {"text::pen::Pen::digits": 10}}
# As driver.c makes them, the bits being those of 1.0; `flash_proteus` makes six tables of the one as `forge` and `keep` do here.
CALLS = (b"coefficient 500 90000 700 120000\nforce 977\ndisplay 977 4607182418800017408\nlisting\n"
         + b"".join(b"forge component %d\nkeep %d\n" % (place, place) for place in range(1, 7)) + b"proteus 1100000\n")
LINE = 4242  # of the listing and of the ProteusDS text, the one that driver.c asks for; line 0 is the first


class Missing(Exception):
    """Why the box's part could not be linked here."""


def prover():
    found = subprocess.run([RUN, "--kit"], stdout=subprocess.PIPE, stderr=subprocess.PIPE, text=True)
    if found.returncode:
        raise Missing("the Rattle kit is missing")
    return os.path.join(found.stdout.rstrip("\n"), "bin", "rt")


def held():
    """The crates that the box holds, each with its line of crates.txt."""
    with open(os.path.join(ROOT, "crates.txt"), encoding="utf-8") as file:
        listed = {line.split(":")[0].strip(): line for line in file if ":" in line}
    found, todo = {}, list(TOP)
    while todo:
        name = todo.pop()
        if name not in found:
            found[name] = listed[name]
            todo += listed[name].split(":", 1)[1].split()
    return found


def archive(folder):
    """The entry points over the crates as they stand: what `rt check` or `rt run` built of those is not proved again, since it comes along with its stamps."""
    rt, box = prover(), held()
    crates = os.path.join(folder, "crates")
    for name in box:
        for part in ("src", "specs", "proofs", "out/rlib"):
            if os.path.isdir(os.path.join(ROOT, "crates", name, part)):
                shutil.copytree(os.path.join(ROOT, "crates", name, part), os.path.join(crates, name, part))
    os.makedirs(os.path.join(crates, "flash", "src"))
    shutil.copy(os.path.join(ROOT, "second", "flash", "box.rattle"), os.path.join(crates, "flash", "src", "lib.rt"))
    with open(os.path.join(folder, "crates.txt"), "w", encoding="utf-8") as file:
        file.write("".join(box.values()) + f"flash staticlib: {' '.join(box)}\n")
    done = subprocess.run([rt, "lib"], cwd=os.path.join(crates, "flash"), stdin=subprocess.DEVNULL, stdout=subprocess.PIPE, stderr=subprocess.STDOUT, text=True)
    built = os.path.join(crates, "flash", "out", "libflash.a")
    if done.returncode or not os.path.exists(built):
        raise Missing(f"rt lib refused second/flash/box.rattle: {done.stdout[-600:]}")
    return built


class Box:
    """The linked driver: its answers, what its entry points weigh and what stack they take."""

    def __init__(self, folder, compiler, sea, text):
        library = archive(folder)
        self.path, self.object = os.path.join(folder, "driver"), os.path.join(folder, "flash.o")
        subprocess.run([compiler, "-std=gnu11", "-O2", "-Wl,-z,now", "-o", self.path, os.path.join(ROOT, "second", "flash", "driver.c"), library], check=True)
        with open(self.object, "wb") as file:
            subprocess.run([tool("ar"), "p", library], stdout=file, check=True)
        self.code = Code(self.path)
        self.answers = ask([RUN, self.path], sea.split(b" ", 1)[1] + text).decode().splitlines()
        self.painted = {name: int(size) for name, size in re.findall(r"stack (\w+) (\d+) refused 0$", "\n".join(self.answers), re.M)}

    def check(self, bench_said):
        """The driver must answer what bench answers to CALLS, which its script ends with, command by command, and refuse nothing."""
        coefficient, force, display, listing, *_, text = [each.decode() for each in bench_said[-len(commands_of(CALLS)):]]
        listed, put = listing.splitlines(), text.splitlines()[1:]  # the text's length stands before it
        wanted = [f"line {listed[LINE]}", f"proteus {put[LINE]}", coefficient, force, display.replace("force", "newtons")]
        given = self.answers[-len(wanted):]
        if given != wanted or len(self.painted) != 2 + len(ENTRIES):
            raise SystemExit(f"second/measure: the box's part alone answers {given}, and bench {wanted}")

    def bytes_of(self, entries):
        """Code that these entry points reach, in bytes; the library's other functions are left out."""
        held = functions(self.object)
        return sum(size for name, size in held.items() if name in self.code.reached(f"flash_{entry}" for entry in entries))

    def products(self, bits):
        """How many places of the code of each function multiply to so many bits."""
        held = self.code.reached(f"flash_{entry}" for entry in ENTRIES) & set(functions(self.object))
        return {name: self.code.products[name].count(bits) for name in sorted(held)}

    def rows(self):
        code, constants, data = size_of(self.object)
        nothing, whole = self.bytes_of(["nothing"]), self.bytes_of(ENTRIES)
        yield f"| flash: code and constants of the box's part | {whole + constants:,} | code {whole:,}, constants {constants:,}, data {data:,} |"
        for title, entries in (("without the ProteusDS line", ENTRIES[:-1]), ("without the listing too", ENTRIES[:-2])):
            without = self.bytes_of(entries)
            yield f"| {title} | {without + constants:,} | code {without:,}, constants as above |"
        yield (f"| of that, to put a record together for C and to take it apart | about {nothing * len(ENTRIES):,} | `flash_nothing`, which does nothing else, has {nothing:,} "
               f"bytes, and there are {len(ENTRIES)} entry points |")
        shown = sorted(functions(self.object).items(), key=lambda each: -each[1])
        yield f"| its functions | | {', '.join(f'`{name}` {size:,}' for name, size in shown if size >= code / 50)} |"
        for bits, made in ((128, "of 64 bits by 64 to 128, which divisions by constants become"), (64, "to 64 bits"), (32, "to 32 bits")):
            found = {name: count for name, count in self.products(bits).items() if count}
            yield f"| products {made} | {sum(found.values())} places | {', '.join(f'`{name}` {count}' for name, count in found.items())} |"

    def taken(self, entry):
        """What the paint shows of the entry point alone, without its caller and the painted context."""
        caller = 8 + self.code.stacks[f"call_{entry}"]
        return self.painted[entry] - caller - (self.painted["none"] - 8)

    def stack_rows(self):
        for entry in ENTRIES:
            size, path = self.code.deepest(f"flash_{entry}", TURNS.get(entry, {}))
            if self.taken(entry) > size:
                raise SystemExit(f"second/measure: {entry} took {self.taken(entry):,} bytes of stack, and by its frames it takes at most {size:,}")
            yield f"| {entry} | {size:,} | {self.taken(entry):,} | {', '.join(f'`{each}`' for each in path)} |"
