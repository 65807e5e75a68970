"""Delta debugging for scripts of the bench: the same difference from a few commands with small bodies."""
import decimal
import re

from talk import STOPPED, Difference, Stopped, answers_of, ask, name_of, piece, takes_text

MOST_BYTES = 4_000_000  # of scripts tried in one run
SHORT_BODY = 400  # bytes; a longer body is cut by lines alone


class Judge:
    """Tells which of some scripts show the difference that is being shrunk. Every script runs behind `fresh`, which sets all of the bench's state that
    a script can meet, so that many can be tried in one run."""

    def __init__(self, bench, second, kind, fresh):
        self.bench, self.second, self.kind, self.fresh = bench, second, kind, fresh
        self.together = True  # False where a script depends on what others before it leave behind
        self.runs = 0

    def failing(self, scripts):
        verdicts, batch, size = [], [], 0
        for script in scripts:
            batch.append(script)
            size += sum(map(len, script))
            if size > MOST_BYTES or not self.together:
                verdicts += self.one_run(batch)
                batch, size = [], 0
        return verdicts + (self.one_run(batch) if batch else [])

    def one_run(self, scripts):
        self.runs += 1
        commands = [command for script in scripts for command in self.fresh + script]
        try:
            ours, theirs = [answers_of(commands, ask(program, b"".join(commands))) for program in (self.bench, self.second)]
        except Stopped:
            return [self.kind == STOPPED] if len(scripts) == 1 else [verdict for script in scripts for verdict in self.one_run([script])]
        verdicts, at = [], 0
        for script in scripts:
            at += len(self.fresh)
            verdicts.append(self.shows(script, ours[at:at + len(script)], theirs[at:at + len(script)]))
            at += len(script)
        return verdicts

    def given(self, choices, texts):
        """What each text is refused with by the second program, as `explain` is to state it: a number and four numbers for the place; None if it is accepted."""
        commands = [command for text in texts for command in (b"open " + b" ".join(choices) + b"\n", piece(text), b"close\n")]
        closings = answers_of(commands, ask(self.second, b"".join(commands)))[2::3]
        places = [closing.split(b" ")[1:] for closing in closings]
        return [b" ".join((place + [b"0"] * 3)[:5]) if closing.startswith(b"refused ") else None for closing, place in zip(closings, places)]

    def shows(self, script, ours, theirs):
        for number, (one, other) in enumerate(zip(ours, theirs), 1):
            if one != other:
                return Difference(script, number, one, other).kind() == self.kind
        return False


def smallest(parts, failing):
    """Fewer of these parts, from which no single one can go. `failing` tells of a list of lists of parts which still fail."""
    width = max(1, len(parts) // 2)
    while parts:
        starts = list(range(0, len(parts), width))
        can_go = [at for at, fails in zip(starts, failing([without(parts, [at], width) for at in starts])) if fails]
        if can_go:
            # All that can go one by one at once, or else half of them, and so on; one alone can.
            counts = [len(can_go) >> half for half in range(len(can_go).bit_length())]
            tries = [without(parts, can_go[:count], width) for count in counts]
            parts = next((fewer for fewer, fails in zip(tries, failing(tries)) if fails), tries[-1])
        elif width == 1:
            break
        width = max(1, min(width // 2 if not can_go else width, len(parts)))
    return parts


def without(parts, starts, width):
    return [part for at, part in enumerate(parts) if not any(start <= at < start + width for start in starts)]


def shrink(script, judge):
    """Commands first, with their bodies whole; then the bodies; until neither gets smaller."""
    while True:
        before = script
        script = smallest(script, judge.failing)
        script = one_of([merged(script)], judge) or script
        for at in range(len(script)):
            put = lambda commands: [script[:at] + [command] + script[at + 1:] for command in commands]
            script = script[:at] + [smaller(script[at], lambda commands: judge.failing(put(commands)), judge.given)] + script[at + 1:]
        if script == before:
            return script


def one_of(scripts, judge):
    return next((script for script, fails in zip(scripts, judge.failing(scripts)) if fails), None)


def merged(script):
    """Pieces that follow each other as one."""
    out = []
    for command in script:
        if out and name_of(command) == b"piece" and name_of(out[-1]) == b"piece":
            out[-1] = piece(body_of(out[-1]) + body_of(command))
        else:
            out.append(command)
    return out


def body_of(command):
    return command.split(b"\n", 1)[1][:-1]


def smaller(command, failing, given):
    """The same command with a smaller body and smaller numbers; `failing` tells of a list of commands which still fail, and `given` what texts are refused with."""
    if takes_text(command.split(b"\n", 1)[0].split(b" ")):
        return smaller_explanation(command, failing, given)
    if name_of(command) == b"piece":
        return piece(smaller_text(body_of(command), lambda texts: failing([piece(text) for text in texts])))
    if name_of(command) == b"sea":
        lines = smallest(command.splitlines(keepends=True)[1:], lambda tries: failing([sea(some) for some in tries]))
        for at in range(len(lines)):
            put = lambda some: [sea(lines[:at] + [one] + lines[at + 1:]) for one in some]
            lines = lines[:at] + [smaller_numbers(lines[at], lambda some: failing(put(some)))] + lines[at + 1:]
        return sea(lines)
    return smaller_numbers(command, failing)


def smaller_explanation(command, failing, given):
    """One of a smaller text. If what it states is right it is stated anew, since the place moves where lines go."""
    words = command.split(b"\n", 1)[0].split(b" ")
    text, stated = body_of(command), b" ".join(words[5:10])
    right = given(words[2:5], [text]) == [stated]

    def commands(texts):
        states = given(words[2:5], texts) if right else [stated] * len(texts)
        return [b" ".join(words[:5] + [state or stated, b"%d" % len(some)]) + b"\n" + some + b"\n" for some, state in zip(texts, states)]

    return commands([smaller_text(text, lambda texts: failing(commands(texts)))])[0]


def sea(lines):
    return b"sea %d\n" % len(lines) + b"".join(lines)


def smaller_numbers(line, failing):
    """Each number of a line as near to 0 as the difference allows, by halves."""
    at = 0
    while True:
        number = next((found for found in re.finditer(rb"(?<= )-?\d+|^-?\d+", line) if found.start() >= at), None)
        if number is None:
            return line
        value = int(number.group())
        tries = dict.fromkeys(v for v in (0, 1, value % 10000, int(value / 2), value - 1 if value > 0 else value + 1) if abs(v) < abs(value))
        lines = [line[:number.start()] + b"%d" % v + line[number.end():] for v in tries]
        better = next((some for some, fails in zip(lines, failing(lines)) if fails), None)
        if better is None:
            at = number.end()
        else:
            line = better


def smaller_text(text, failing):
    """Whole frequencies and headings go first, since a table with a pair missing is refused; then notation, lines, bytes."""
    lines = text.splitlines(keepends=True)
    keys = list(dict.fromkeys(key for at, line in enumerate(lines) for key in keys_of(line, at)))
    of_keys = lambda some: b"".join(line for at, line in enumerate(lines) if set(keys_of(line, at)) <= set(some))
    text = of_keys(smallest(keys, lambda tries: failing([of_keys(some) for some in tries])))
    plain = b"".join(plain_row(line) for line in text.splitlines(keepends=True))
    if plain != text and failing([plain])[0]:
        text = plain
    join = b"".join
    text = join(smallest(text.splitlines(keepends=True), lambda tries: failing([join(some) for some in tries])))
    if len(text) > SHORT_BODY:
        return text
    return join(smallest([bytes([byte]) for byte in text], lambda tries: failing([join(some) for some in tries])))


def values_of(line):
    """The nine values of a row, or None."""
    fields = line.split()
    try:
        return [decimal.Decimal(field.decode()) for field in fields] if len(fields) == 9 else None
    except (decimal.InvalidOperation, UnicodeDecodeError):
        return None


def keys_of(line, at):
    """The frequencies and headings that a row names; any other line is its own."""
    values = values_of(line)
    if not values or not all(values[:2]):
        return [("line", at)]
    return [("tick", round(10000 / values[0])), ("tick", round(10000 / values[1])), ("heading", round(values[2], 3)), ("heading", round(values[3], 3))]


def plain_row(line):
    """A row in plain decimals, its phase 0. The modulus stays what it rounds to, so that it fits or does not as before."""
    values = values_of(line)
    if not values or any(abs(value) > 10**9 for value in values[:4] + [values[5]] + values[7:]):
        return line
    places = [6, 6, 3, 3, 0, 6, 0, 6, 6]
    values[6] = decimal.Decimal(0)
    fields = [f"{value:.{place}f}" for value, place in zip(values, places)]
    return " ".join(field.rstrip("0").rstrip(".") if "." in field else field for field in fields).encode() + b"\n"
