"""What all parts of the hand-made script are written with.

Every command stands beside the answer that document 01 (and, for open points, the design page) asks
for. Nothing here runs the program: answers are literals, or whole-number work done in the open.
"""
import math

MODULUS = 1_000_000_007


def bench_sum(cells, beyond=0):
    """`sum` for a bench whose cells and flags are 0 but for {(r, c): (re, im, flag)}, and for what was last spilt beyond the table."""
    values = [0] * 12_800 + [beyond] * 100
    flags = [0] * 6_400 + [beyond] * 100
    for (r, c), (re, im, flag) in cells.items():
        values[2 * (80 * r + c)] = re
        values[2 * (80 * r + c) + 1] = im
        flags[80 * r + c] = flag
    s = 0
    for value in values:
        s = (31 * s + value + 2**31) % MODULUS
    for flag in flags:
        s = (31 * s + flag) % MODULUS
    return f"sum {s}"


def record(stage, choices, lines, ticks, headings, held=None):
    """`record`: choices as 'K C V', ticks and headings filled up with 0."""
    held = len(headings) if held is None else held
    ticks = list(ticks) + [0] * (20 - len(ticks))
    headings = list(headings) + [0] * (4 - len(headings))
    return " ".join(["record", str(stage), choices, str(lines), str(held)] + [str(v) for v in ticks + headings])


def modulus(re, im):
    """MOD for parts in millionths, where a text is made by a function: the root of the sum of their squares, cut to whole millionths, so that it fits them (M-101)."""
    root = math.isqrt(re * re + im * im)
    return f"{root // 1_000_000}.{root % 1_000_000:06}"


def in_short(data):
    """Bytes as CASES.md shows them."""
    shown = repr(data.decode("latin-1"))[1:-1]
    return shown if len(shown) <= 110 else shown[:70] + " ... " + shown[-30:]


class Part:
    def __init__(self, title, about):
        self.title = title
        self.about = about
        self.commands = []
        self.cases = []
        self.count = 0

    def section(self, name, about):
        self.cases.append(("section", name, about))

    def _add(self, raw, shown, answer, why):
        self.count += 1
        self.commands.append((raw, answer))
        self.cases.append(("case", self.count, shown, answer, why))

    def c(self, command, answer, why=""):
        self._add(command.encode() + b"\n", command, answer, why)

    def p(self, text, answer="going", why=""):
        data = text.encode("latin-1") if isinstance(text, str) else text
        raw = b"piece %d\n" % len(data) + data + b"\n"
        self._add(raw, f"piece {len(data)}: {in_short(data)}", answer, why)

    def x(self, choices, stated, text, answer, why=""):
        """`explain` of nine columns: the choices, the number and the place that are stated (a line is filled up with three zeros), and the text."""
        data = text.encode("latin-1") if isinstance(text, str) else text
        words = stated.split(" ")
        line = f"explain 0 {choices} {' '.join(words + ['0'] * (5 - len(words)))} {len(data)}"
        self._add(line.encode() + b"\n" + data + b"\n", f"{line}: {in_short(data)}", answer, why)

    def sea(self, lines, answer=None, why=""):
        lines = [" ".join(str(v) for v in line) for line in lines]
        raw = f"sea {len(lines)}\n" + "".join(line + "\n" for line in lines)
        shown = f"sea {len(lines)}: " + ", ".join(lines[:3])
        if len(lines) > 3:
            shown += ", ... " + lines[-1]
        self._add(raw.encode(), shown, answer or f"sea {len(lines)}", why)

    def markdown(self):
        out = [f"# {self.title}\n", self.about + "\n"]
        table_open = False
        for case in self.cases:
            if case[0] == "section":
                if table_open:
                    out.append("")
                out.append(f"## {case[1]}\n")
                out.append(case[2] + "\n")
                out.append("| no. | command | answer | why |\n|---|---|---|---|")
                table_open = True
            else:
                _, number, shown, answer, why = case
                shown = shown.replace("|", "\\|")
                answer = answer.replace("\n", " / ")
                if len(answer) > 150:
                    answer = answer[:110] + " ... " + answer[-25:]
                out.append(f"| {number} | `{shown}` | `{answer}` | {why} |")
        out.append("")
        return "\n".join(out)


def write(parts, stdin, stdout):
    """One script of all parts, one behind the other, and its answers."""
    commands = [command for part in parts for command in part.commands]
    open(stdin, "wb").write(b"".join(raw for raw, _ in commands))
    open(stdout, "w").write("\n".join(answer for _, answer in commands) + "\n")
    return len(commands)
