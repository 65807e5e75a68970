"""Instruction counts by valgrind's callgrind, for a program that this processor runs as it is."""
import os
import platform
import re
import shutil
import subprocess
import sys


def missing():
    """Why nothing can be counted here, or an empty text."""
    if platform.machine() != "x86_64":
        return f"valgrind runs no x86-64 program on {platform.machine()}"
    return "" if shutil.which("valgrind") else "valgrind is missing (Debian: apt-get install valgrind)"


class Profile:
    """What one run of a program on a script took: instructions in all, and of each function those of itself and those with what it calls."""

    def __init__(self, program, script, folder):
        out = os.path.join(folder, "callgrind.out")
        with open(script, "rb") as file:
            done = subprocess.run(["valgrind", "--tool=callgrind", f"--callgrind-out-file={out}", *program], stdin=file, stdout=subprocess.DEVNULL,
                                  stderr=subprocess.PIPE, text=True)
        if done.returncode:
            sys.exit(f"second/measure: valgrind on {program} ended with {done.returncode}: {done.stderr[-500:]}")
        self.own, self.called = {}, {}
        with open(out, encoding="utf-8") as file:
            self.read(file)
        os.remove(out)
        self.total = sum(self.own.values())

    def read(self, file):
        """Lines of cost under each `fn=`; the one behind a `calls=` is the whole cost of that call. A name is written out where it stands first, behind its number."""
        names, function, callee, call = {}, "", "", False
        for line in file:
            named = re.match(r"(c?fn)=\((\d+)\)(?: (.*))?", line)
            if named:
                kind, number, name = named.groups()
                name = names.setdefault(number, name)
                if kind == "fn":
                    function = name
                else:
                    callee = name
            elif line.startswith("calls="):
                call = True
            elif line[:1].isdigit() or line[:1] in "+-*":
                cost = int(line.split()[-1])
                if call:
                    edge = function, callee
                    self.called[edge] = self.called.get(edge, 0) + (cost if function != callee else 0)
                else:
                    self.own[function] = self.own.get(function, 0) + cost
                call = False

    def whole(self, function):
        return self.own.get(function, 0) + sum(cost for (caller, _), cost in self.called.items() if caller == function)


class Counted:
    """The instructions of one unit of work: the difference of two scripts, the second with so many units more."""

    def __init__(self, program, paths, units, folder):
        self.little, self.much = [Profile(program, path, folder) for path in paths]
        self.units = units
        self.each = (self.much.total - self.little.total) / units

    def functions(self):
        """Each function's share in one unit: instructions with what it calls, and its own; the largest first, down to a hundredth of the whole. `main` and what calls
        it are left out. What the little script does instead is taken off, and most of that is below other functions, so that a caller's share may be over the whole."""
        shares = []
        for name in self.much.own:
            whole = (self.much.whole(name) - self.little.whole(name)) / self.units
            own = (self.much.own[name] - self.little.own.get(name, 0)) / self.units
            if whole >= self.each / 100 and not re.search(r"main|^0x|^_start|^_dl_|below", name):
                shares.append((name, whole, own))
        return sorted(shares, key=lambda share: -share[1])
