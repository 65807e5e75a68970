"""What compare, hunt, measure and tools/picture share: scripts in the bench's protocol, the programs that answer them, and their answers."""
import importlib.machinery
import importlib.util
import os
import re
import shlex
import subprocess
import sys
import tempfile

ROOT = os.path.dirname(os.path.dirname(os.path.abspath(__file__)))
RUN = os.path.join(ROOT, "tools", "run")


def built(crate):
    """Where rt leaves a program."""
    return os.path.join(ROOT, "crates", crate, "out", crate)


BENCH = [RUN, built("bench")]  # by path: make_ready sees once that they are built
LISTING = [RUN, built("listing")]
PROTEUS = [RUN, built("proteusds")]
# Whether `bench` knows `keep` and `proteus`, and there is a program `proteusds` (M-100). The one switch: with it compare and hunt make cases of six tables, compare
# holds the program to this one, and tests/bench/make.py puts part C into the gate's script (run it again).
KNOWS_PROTEUS = True
# Whether `bench` knows `explain` (M-103). With it compare and hunt make cases of explanations.
KNOWS_EXPLAIN = True
QUERIES = (b"coefficient", b"sea", b"force", b"display")
STOPPED = b"stopped: "
TOO_LONG = 300  # seconds; no batch of cases takes a tenth of it


class Stopped(Exception):
    """A program that did not end by itself with status 0, or another that it may end with."""


def ask(program, script):
    """What the program writes when it is given the script."""
    return ended(program, script, [0]).stdout


def ended(program, script, statuses):
    """The program's run, given the script, if it ended with one of these statuses."""
    try:
        done = subprocess.run(program, input=script, stdout=subprocess.PIPE, stderr=subprocess.PIPE, timeout=TOO_LONG)
    except subprocess.TimeoutExpired as late:
        raise Stopped(f"{shlex.join(program)}: no end after {TOO_LONG} s") from late
    if done.returncode not in statuses:
        raise Stopped(f"{shlex.join(program)}: ended with {done.returncode}: {done.stderr.decode(errors='replace')[-500:]}")
    return done


def make_ready(*programs):
    """Builds those of our programs that are not built, or older than a source, once and before any run: no old program is held to anything."""
    names = [os.path.basename(program[1]) for program in programs if program and program[:2] in (BENCH, LISTING, PROTEUS)]
    if names and subprocess.run([RUN, "--build", *names], stdin=subprocess.DEVNULL).returncode:
        sys.exit(f"{os.path.basename(sys.argv[0])}: nothing was run, since {' and '.join(names)} could not be built")


def build_second():
    """Builds the second program and gives its path. It has no dependencies, so no network is asked for."""
    here = os.path.join(ROOT, "second")
    subprocess.run(["cargo", "build", "--release", "--offline", "--quiet", "--locked", "--manifest-path", os.path.join(here, "Cargo.toml"), "--target-dir",
                    os.path.join(here, "target")], check=True)
    return os.path.join(here, "target", "release", "second")


def commands_of(script):
    """A script as its commands: a piece and an explanation with their bytes, a sea with its lines."""
    commands, at = [], 0
    while at < len(script):
        end = end_of_line(script, at)
        words = script[at:end].rstrip(b"\n").split(b" ")
        if len(words) == 2 and words[1].isdigit():
            if words[0] == b"piece":
                end = min(len(script), end + int(words[1]) + 1)
            elif words[0] == b"sea" and int(words[1]) <= 70:
                for _ in range(int(words[1])):
                    end = end_of_line(script, end)
        elif takes_text(words):
            end = min(len(script), end + int(words[-1]) + 1)
        commands.append(script[at:end])
        at = end
    return commands


def takes_text(words):
    """Whether these words are an `explain` that takes bytes: one whose numbers are not as the bench's page says is a command by itself."""
    if words[0] != b"explain" or len(words) != 11 or not all(re.fullmatch(rb"-?\d+", word) for word in words[1:]):
        return False
    way, kind, component, coverage, number, tick1, heading1, tick2, heading2, count = map(int, words[1:])
    small = all(0 <= choice < 2**8 for choice in (kind, component, coverage, number))
    place = all(0 <= tick < 2**32 for tick in (tick1, tick2)) and all(-2**31 <= heading < 2**31 for heading in (heading1, heading2))
    return way == 0 and small and place and 0 <= count < 2**64 and (number == 11 or (heading1, tick2, heading2) == (0, 0, 0))


def end_of_line(script, at):
    found = script.find(b"\n", at)
    return len(script) if found < 0 else found + 1


def name_of(command):
    return command.split(None, 1)[0] if command.strip() else b""


def without_queries(commands):
    return [command for command in commands if name_of(command) not in QUERIES]


def piece(text):
    return b"piece %d\n%s\n" % (len(text), text)


def answers_of(commands, output):
    """The output cut into one answer for each command; what is missing is an empty answer, what is left over goes to the last."""
    lines = output.split(b"\n")
    if lines[-1] == b"":
        lines.pop()
    answers, at = [], 0
    for command in commands:
        taken = 1
        if name_of(command) == b"listing" and at < len(lines):
            taken += listed_pairs(lines[at])
        if name_of(command) == b"proteus" and at < len(lines):
            taken += text_lines(lines, at)
        answers.append(b"\n".join(lines[at:at + taken]))
        at += taken
    if at < len(lines) and answers:
        answers[-1] += b"\n" + b"\n".join(lines[at:])
    return answers


def listed_pairs(first_line):
    """How many lines follow the first line of a listing."""
    words = first_line.split(b" ")
    if words[0] != b"QTF" or len(words) != 6:
        return 0
    frequencies, headings = int(words[4]), int(words[5])
    return (frequencies * headings) ** 2 if words[3] == b"full" else frequencies ** 2 * headings


def text_lines(lines, at):
    """How many lines the text has whose length stands in this line."""
    words = lines[at].split(b" ")
    if words[0] != b"proteus" or len(words) != 2 or not words[1].isdigit():
        return 0
    left, taken = int(words[1]), 0
    while left > 0 and at + taken + 1 < len(lines):
        taken += 1
        left -= len(lines[at + taken]) + 1
    return taken


class Difference:
    """Where two programs first part on one script."""

    def __init__(self, commands, number, first, second):
        self.commands = commands
        self.number = number  # of the command, from 1
        self.first = first
        self.second = second

    def kind(self):
        """What was asked and what sort of answers came, so that a shrunk script is held to the same difference."""
        if self.first.startswith(STOPPED):
            return STOPPED
        return name_of(self.commands[self.number - 1]), sort_of(self.first), sort_of(self.second)

    def text(self, names):
        shown = self.commands[self.number - 1].decode("latin-1").rstrip("\n")
        said = [f"  {name}: {answer.decode('latin-1')[:400]}" for name, answer in zip(names, (self.first, self.second))]
        return "\n".join([f"  command {self.number}: {shown[:400]}"] + said)


def sort_of(answer):
    """The first word of an answer; of a refusal its number too."""
    words = answer.split()
    return tuple(words[:2] if words[:1] == [b"refused"] else words[:1])


def difference(first, second, commands):
    """The first command that the two programs answer otherwise, or None."""
    return answered(first, second, commands)[0]


def answered(first, second, commands):
    """The same, and all that the first program answered."""
    script = b"".join(commands)
    wanted = answers_of(commands, ask(second, script))
    try:
        output = ask(first, script)
    except Stopped as stopped:
        return Difference(commands, len(commands), STOPPED + str(stopped).encode(), wanted[-1]), b""
    for number, (one, other) in enumerate(zip(answers_of(commands, output), wanted), 1):
        if one != other:
            return Difference(commands, number, one, other), output
    return None, output


def read_back(second, words, *files):
    """Gives `second back` these words, and files with these contents: how many texts for ProteusDS it read back, and what it says of the first that it did not, or None."""
    with tempfile.TemporaryDirectory() as room:
        paths = [os.path.join(room, str(number)) for number in range(len(files))]
        for path, content in zip(paths, files):
            with open(path, "wb") as file:
                file.write(content)
        done = ended([second, "back", *words, *paths], b"", [0, 1])
    return (0, done.stdout.decode().rstrip("\n")) if done.returncode else (int(done.stdout.split()[0]), None)


def is_text(answer):
    """Whether an answer to `proteus` is a text and no refusal."""
    return answer.startswith(b"proteus ")


def made_cases(second, first, count, maker="cases"):
    """The cases of `count` seeds: (seed, commands) each. The maker is `cases`, `sixes` for cases with six tables, or `explains` for cases of explanations."""
    framed, cases, at = ask([second, maker, str(first), str(count)], b""), [], 0
    while at < len(framed):
        end = end_of_line(framed, at)
        _, seed, size = framed[at:end].split()
        cases.append((int(seed), commands_of(framed[end:end + int(size)])))
        at = end + int(size)
    return cases


def case_at(cases, number):
    """Which of the cases has the command of this number, and its number within that case."""
    for seed, commands in cases:
        if number <= len(commands):
            return seed, commands, number
        number -= len(commands)
    raise IndexError(number)


def example_maker():
    """examples/make as a module."""
    loader = importlib.machinery.SourceFileLoader("make", os.path.join(ROOT, "examples", "make"))
    make = importlib.util.module_from_spec(importlib.util.spec_from_loader("make", loader))
    sys.dont_write_bytecode = True  # it would leave a file beside examples/make
    loader.exec_module(make)
    return make
