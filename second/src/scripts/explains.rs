//! Cases of M-103: texts that are refused in every way, and some that are not, each with what a mate might state of it.
//! What is right to state is asked of the reader.

use super::{Modulus, Plan, Rng, Values, Writer, FRESH};
use crate::protocol::Bench;
use crate::reader;
use crate::rows::{Choices, Node, FULL, SINGLE};
use crate::table::{Place, Refusal, CELLS, FLAGS};

/// Each with bytes behind it that are commands, since it takes none: a `sum`, and an empty line.
const NO_EXPLAINS: [&str; 30] = [
    "explain 1 0 1 0 4 1 0 0 0 4",
    "explain 1 0 1 0 10 0 0 0 0 4",
    "explain 2 0 1 0 4 1 0 0 0 4",
    "explain 255 0 1 0 4 1 0 0 0 4",
    "explain 256 0 1 0 4 1 0 0 0 4",
    "explain -1 0 1 0 4 1 0 0 0 4",
    "explain x 0 1 0 4 1 0 0 0 4",
    "explain 0 256 1 0 4 1 0 0 0 4",
    "explain 0 -1 1 0 4 1 0 0 0 4",
    "explain 0 0 256 0 4 1 0 0 0 4",
    "explain 0 0 257 0 4 1 0 0 0 4",
    "explain 0 0 1 256 4 1 0 0 0 4",
    "explain 0 0 1 -1 4 1 0 0 0 4",
    "explain 0 0 1 0 256 1 0 0 0 4",
    "explain 0 0 1 0 260 1 0 0 0 4",
    "explain 0 0 1 0 -4 1 0 0 0 4",
    "explain 0 0 1 0 4 -1 0 0 0 4",
    "explain 0 0 1 0 4 4294967296 0 0 0 4",
    "explain 0 0 1 0 4 4294967297 0 0 0 4",
    "explain 0 0 1 0 4 1 1 0 0 4",
    "explain 0 0 1 0 4 1 0 1 0 4",
    "explain 0 0 1 0 4 1 0 0 1 4",
    "explain 0 0 1 0 4 1 0 0 -1 4",
    "explain 0 0 1 0 12 1000 0 1000 0 4",
    "explain 0 0 1 0 11 -1 0 1000 0 4",
    "explain 0 0 1 0 11 1000 0 4294967296 0 4",
    "explain 0 0 1 0 11 1000 2147483648 1000 0 4",
    "explain 0 0 1 0 11 1000 0 1000 -2147483649 4",
    "explain  0 0 1 0 4 1 0 0 0 4",
    "Explain 0 0 1 0 4 1 0 0 0 4",
];

/// Commands near it that are none, with nothing behind them.
const NOT_AS_DESCRIBED: [&str; 8] = [
    "explain",
    "explain 0 0 1 0 10 0 0 0 0",
    "explain 0 0 1 0 10 0 0 0 0 0 0",
    "explain 0 0 1 0 10 0 0 0 0 x",
    "explain 0 0 1 0 10 0 0 0 0 -1",
    "explain 0 0 1 0 10 0 x 0 0 0",
    "explain 0 0 1 0 10",
    "explained 0 0 1 0 10 0 0 0 0 0",
];

/// Of each column fields that are just in range.
const JUST_IN_RANGE: [&[&str]; 9] = [
    &["100", "100.0000005", "1", "0.9999995", "1E2", "9"],
    &["100", "100.0000005", "1", "0.9999995", "1E2", "9"],
    &["180", "-180", "180.0005", "-180.0005", "-179.9996", "0"],
    &["180", "-180", "180.0005", "-180.0005", "-179.9996", "0"],
    &[],
    &["0", "-0", "-0.0000005", "1415", "1415.0000005", "-1E-99"],
    &["9E99", "-9E99", "1E-99", "999999999999999"],
    &["1000", "-1000", "1000.0000005", "-1000.0000005", "-0"],
    &["1000", "-1000", "1000.0000005", "-1000.0000005", "-0"],
];

/// Numbers that no text gives, and numbers that one does.
const NUMBERS: [u8; 22] = [3, 4, 5, 6, 7, 8, 9, 10, 11, 17, 5, 6, 8, 9, 0, 1, 2, 12, 15, 16, 18, 255];

/// A text with the choices that it is made for.
struct Told {
    choices: Choices,
    text: Vec<u8>,
}

/// One case.
pub fn explained(seed: u64) -> Vec<u8> {
    let mut writer = Writer { out: Vec::new(), bench: Bench::new(), rng: Rng(seed) };
    for command in FRESH {
        writer.say(command);
    }
    writer.own_table();
    for _ in 0..writer.rng.between(3, 7) {
        match writer.rng.below(20) {
            0 => writer.no_explain(),
            1 => writer.short_explain(),
            _ => writer.explain_one(),
        }
        writer.look();
    }
    writer.say("record");
    writer.say("sum");
    writer.out
}

/// What the reader gives of a text.
fn given(choices: Choices, text: &[u8]) -> Option<Refusal> {
    let (mut cells, mut flags) = (vec![0; CELLS], vec![0; FLAGS]);
    let record = reader::open(choices, &mut cells, &mut flags).ok()?;
    let (record, _) = reader::piece(record, text, &mut cells, &mut flags);
    reader::close(record, &mut cells, &mut flags).1.err()
}

/// A pair with -180 for 180, which is not what a text gives; any other place as it is.
fn at_minus_180(place: Place) -> Place {
    let minus = |node: Node| Node { heading: if node.heading == 180_000 { -180_000 } else { node.heading }, ..node };
    match place {
        Place::Pair(a, b) => Place::Pair(minus(a), minus(b)),
        other => other,
    }
}

impl Writer {
    // The bench's own table, which no explanation touches

    /// Open, open with an unfinished line, accepted, stuck, or with something beyond it.
    fn own_table(&mut self) {
        if self.rng.chance(40) {
            self.spill();
            self.lend_beyond();
        }
        let plan = self.short_plan();
        self.say(&format!("open {} {} {}", plan.kind, plan.component, plan.coverage));
        let rows = self.all_rows(&plan);
        let mut text = self.text_of(&plan, rows, 0);
        match self.rng.below(4) {
            0 => text.truncate(text.len() / 2),
            1 => text.extend_from_slice(b"9 9 0\n"),
            _ => {}
        }
        self.piece(&text);
        if self.rng.chance(50) {
            self.say("close");
        }
    }

    /// Shows what the bench holds, or goes on with it.
    fn look(&mut self) {
        match self.rng.below(16) {
            0..=1 => self.say("record"),
            2..=3 => self.say("sum"),
            4 => self.say("close"),
            5 => self.say("cell 0 0"),
            6 => self.piece(b"\n"),
            7 => {
                self.ask_coefficient();
                String::new()
            }
            _ => String::new(),
        };
    }

    // Asking

    fn explain_one(&mut self) {
        let told = self.told();
        let mut choices = told.choices;
        let given = given(choices, &told.text);
        let mut stated = match given {
            Some(refusal) if self.rng.chance(78) => refusal,
            Some(refusal) => self.other_than(&refusal),
            None => self.of_an_accepted(&told),
        };
        if self.rng.chance(15) {
            stated.place = at_minus_180(stated.place);
        }
        if self.rng.chance(6) {
            choices = self.other_choices(choices);
        }
        self.ask_explain(choices, &stated, &told.text);
        if self.rng.chance(8) {
            // Nothing stays of it.
            self.ask_explain(choices, &stated, &told.text);
        }
    }

    fn ask_explain(&mut self, choices: Choices, stated: &Refusal, text: &[u8]) -> String {
        let place = match stated.place {
            Place::Nothing => "0 0 0 0".to_string(),
            Place::Line(line) => format!("{line} 0 0 0"),
            Place::Pair(a, b) => format!("{} {} {} {}", a.tick, a.heading, b.tick, b.heading),
        };
        let Choices { kind, component, coverage } = choices;
        let head = format!("explain 0 {kind} {component} {coverage} {} {place} {}\n", stated.number, text.len());
        self.say_bytes(&[head.as_bytes(), text, b"\n"].concat())
    }

    /// Other choices than the text was made for, valid or not.
    fn other_choices(&mut self, choices: Choices) -> Choices {
        match self.rng.below(6) {
            0 => Choices { kind: 1 - choices.kind, ..choices },
            1 => Choices { coverage: 1 - choices.coverage, ..choices },
            2 => Choices { component: choices.component % 6 + 1, ..choices },
            3 => Choices { kind: self.rng.pick(&[2, 255]), ..choices },
            4 => Choices { component: self.rng.pick(&[0, 7, 255]), ..choices },
            _ => Choices { coverage: self.rng.pick(&[2, 255]), ..choices },
        }
    }

    /// Too little is lent, the choices valid or not; then enough again.
    fn short_explain(&mut self) {
        let told = self.told();
        let stated = given(told.choices, &told.text).unwrap_or(Refusal::plain(10));
        let (cells, flags) = self.rng.pick(&[(12_799, 6_400), (12_800, 6_399), (0, 0), (12_799, 6_500), (12_900, 0)]);
        self.say(&format!("lend {cells} {flags}"));
        let choices = if self.rng.chance(30) { self.other_choices(told.choices) } else { told.choices };
        self.ask_explain(choices, &stated, &told.text);
        self.lend_beyond();
        self.ask_explain(choices, &stated, &told.text);
    }

    fn no_explain(&mut self) {
        for _ in 0..self.rng.between(1, 3) {
            if self.rng.chance(25) {
                let command = self.rng.pick(&NOT_AS_DESCRIBED);
                self.say(command);
            } else {
                let command = self.rng.pick(&NO_EXPLAINS);
                self.say_bytes(format!("{command}\nsum\n\n").as_bytes());
            }
        }
    }

    // Wrong statements

    /// Another number with the same place, or the same number with another place.
    fn other_than(&mut self, right: &Refusal) -> Refusal {
        let number = self.rng.pick(&NUMBERS);
        let place = match right.place {
            Place::Nothing => Place::Line(self.rng.pick(&[1, 1, 2, 1_000_001, u32::MAX])),
            Place::Line(line) => self.other_line(line),
            Place::Pair(a, b) => self.other_pair(a, b),
        };
        match self.rng.below(5) {
            // A pair goes with 11 alone, and a line with any other.
            0..=1 if (number == 11) == (right.number == 11) => Refusal { number, ..*right },
            0..=1 if number == 11 => self.any_pair(),
            0..=1 => Refusal::at_line(number, self.rng.pick(&[1, 2, 3])),
            _ => Refusal { place, ..*right },
        }
    }

    fn other_line(&mut self, line: u32) -> Place {
        let line = self.rng.pick(&[line - 1, line - 1, line + 1, line + 1, 0, 1, line + 10, 1_000_001, u32::MAX]);
        if line == 0 {
            Place::Nothing
        } else {
            Place::Line(line)
        }
    }

    fn other_pair(&mut self, a: Node, b: Node) -> Place {
        let (mut first, mut second) = (a, b);
        match self.rng.below(8) {
            0..=2 => (first, second) = (b, a),
            3 => second = a,
            4 => first.tick += 1,
            5 => second.tick -= 1,
            6 => first.heading -= 1,
            _ => second.heading += 1,
        }
        Place::Pair(first, second)
    }

    fn any_pair(&mut self) -> Refusal {
        let node = Node { tick: self.rng.pick(&[0, 1, 1_000]), heading: 0 };
        Refusal { number: 11, place: Place::Pair(node, node) }
    }

    /// Something that a text of these rows could give, if it were not accepted.
    fn of_an_accepted(&mut self, told: &Told) -> Refusal {
        let lines = told.text.split(|&byte| byte == b'\n').count() as i64;
        match self.rng.below(6) {
            0 => Refusal::plain(10),
            1 => Refusal::plain(self.rng.pick(&[0, 2, 9, 255])),
            2 => self.any_pair(),
            _ => Refusal::at_line(self.rng.pick(&NUMBERS), self.rng.between(1, lines) as u32),
        }
    }

    // Texts

    fn told(&mut self) -> Told {
        let plan = self.short_plan();
        let text = match self.rng.below(44) {
            0..=8 => self.clash(&plan),
            9..=15 => self.gap_in(&plan),
            16..=22 => self.no_slot(&plan),
            23..=28 => self.bad_row(&plan, Writer::spoil_forms),
            29..=34 => self.bad_row(&plan, Writer::spoil_ranges),
            35..=38 => self.any_fault(&plan),
            39..=41 => self.long_line(&plan),
            _ => self.nothing_wrong(&plan),
        };
        Told { choices: Choices { kind: plan.kind, component: plan.component, coverage: plan.coverage }, text }
    }

    /// A few frequencies and headings in any order; both kinds and coverages as often.
    fn short_plan(&mut self) -> Plan {
        let mut ticks = vec![1_000, 1_250, 500, 10_000, 2_000, 1_111];
        let mut headings = vec![0, 180_000, 90_000, -45_000, 30_500];
        self.rng.shuffle(&mut ticks);
        self.rng.shuffle(&mut headings);
        ticks.truncate(self.rng.pick(&[1, 2, 2, 3, 3, 4]));
        headings.truncate(self.rng.pick(&[1, 1, 2, 2, 3]));
        let coverage = self.rng.pick(&[SINGLE, FULL]);
        Plan { kind: self.rng.below(2) as u8, component: self.rng.between(1, 6) as u8, coverage, ticks, headings }
    }

    /// Rows in this order, with rows that are passed over, blank lines and a title among them.
    fn with_others(&mut self, plan: &Plan, rows: &[Values]) -> Vec<u8> {
        let mut lines: Vec<Vec<u8>> = rows.iter().map(|row| self.line(plan.component, row)).collect();
        for _ in 0..self.rng.pick(&[0, 0, 1, 1, 2, 3]) {
            let line = self.shadow(plan, rows);
            let at = if self.rng.chance(50) { 0 } else { self.rng.gap(&lines) };
            lines.insert(at, line);
        }
        for _ in 0..self.rng.pick(&[0, 0, 1, 2]) {
            let blank: &[u8] = self.rng.pick(&[b"".as_slice(), b" ", b"\t", b"\r", b" \r"]);
            let at = if self.rng.chance(40) { 0 } else { self.rng.gap(&lines) };
            lines.insert(at, blank.to_vec());
        }
        if self.rng.chance(25) {
            let line = self.heading_line();
            lines.insert(0, line);
        }
        self.joined(lines)
    }

    /// A row that is passed over and looks like one that is used: of another component, or of two headings in single coverage.
    fn shadow(&mut self, plan: &Plan, rows: &[Values]) -> Vec<u8> {
        let mut row = self.rng.pick(rows);
        if self.rng.chance(50) {
            row = row.mirrored(plan.kind);
        }
        if self.rng.chance(50) {
            row.re = self.part();
        }
        if plan.coverage == SINGLE && self.rng.chance(50) {
            row.headings[self.rng.pick(&[0, 1])] = self.rng.pick(&[1_000, -90_000, 0, 180_000]);
            if row.headings[0] != row.headings[1] {
                return self.line(plan.component, &row);
            }
        }
        self.line(plan.component % 6 + 1, &row)
    }

    /// 9: a row that was set, directly or as its mirror and perhaps again, and then says something else.
    fn clash(&mut self, plan: &Plan) -> Vec<u8> {
        let mut rows = self.all_rows(plan);
        let one = self.rng.below(rows.len());
        let row = rows[one];
        let mut at = one + 1;
        for _ in 0..self.rng.pick(&[0, 1, 1, 2, 3]) {
            at += self.rng.below(rows.len() - at + 1);
            let again = if self.rng.chance(50) { row } else { row.mirrored(plan.kind) };
            rows.insert(at, again);
            at += 1;
        }
        at += self.rng.below(rows.len() - at + 1);
        let other = self.said_otherwise(plan, &row);
        rows.insert(at, other);
        self.with_others(plan, &rows)
    }

    /// The same pair from either side, with another value.
    fn said_otherwise(&mut self, plan: &Plan, row: &Values) -> Values {
        let mut other = if self.rng.chance(50) { *row } else { row.mirrored(plan.kind) };
        let real = plan.kind == 0 && row.same_nodes();
        match self.rng.below(4) {
            0 if other.im != 0 => other.im = -other.im,
            1 if !real => other.im = if other.im > 0 { other.im - 1 } else { other.im + 1 },
            2 if !real => (other.re, other.im) = (self.part(), self.part()),
            _ => other.re = if other.re > 0 { other.re - 1 } else { other.re + 1 },
        }
        other
    }

    /// 11: no row of a pair or two, in either order; at times what is left is of one pair alone, or the last line brings a frequency.
    fn gap_in(&mut self, plan: &Plan) -> Vec<u8> {
        let mut rows = self.all_rows(plan);
        for _ in 0..self.rng.pick(&[1, 1, 1, 2, 4]) {
            let gone = self.rng.pick(&rows);
            let pair = |row: &Values| {
                let mut nodes = [(row.ticks[0], row.headings[0]), (row.ticks[1], row.headings[1])];
                nodes.sort();
                nodes
            };
            if rows.iter().any(|row| pair(row) != pair(&gone)) {
                rows.retain(|row| pair(row) != pair(&gone));
            }
        }
        if self.rng.chance(70) {
            return self.with_others(plan, &rows);
        }
        let ticks = [self.rng.pick(&plan.ticks), 300];
        rows.push(Values { ticks, headings: [plan.headings[0]; 2], re: 5, im: 0, modulus: Modulus::Fits });
        let mut text = self.with_others(plan, &rows);
        if self.rng.chance(60) {
            text.pop_if(|last| *last == b'\n');
        }
        text
    }

    /// 8: by frequency, by heading or by both, with one new slot in the row or two.
    fn no_slot(&mut self, plan: &Plan) -> Vec<u8> {
        let by = self.rng.below(5);
        let ticks = if by < 3 { self.some_ticks() } else { plan.ticks.clone() };
        let headings = if by > 1 { self.some_headings() } else { plan.headings.clone() };
        let mut rows = self.bringing(plan, &ticks, &headings);
        let last = [self.rng.pick(&ticks), self.rng.pick(&ticks)];
        let mut ticks = if by < 3 { [9_001, self.rng.pick(&[9_001, 9_002, 9_002, last[0]])] } else { last };
        let mut headings = [self.rng.pick(&headings); 2];
        if by > 1 {
            headings =
                [-1_000, if plan.coverage == FULL { self.rng.pick(&[-1_000, -2_000, headings[0]]) } else { -1_000 }];
        }
        if self.rng.chance(50) {
            ticks.reverse();
            headings.reverse();
        }
        let new = Values { ticks, headings, re: self.part(), im: 0, modulus: Modulus::Fits };
        rows.push(new);
        for _ in 0..self.rng.below(3) {
            rows.push(self.rng.pick(&rows));
        }
        self.with_others(plan, &rows)
    }

    /// 18 to 20 frequencies, in any order.
    fn some_ticks(&mut self) -> Vec<u32> {
        let mut ticks: Vec<u32> = (0..self.rng.pick(&[18, 19, 19, 19, 20, 20, 20])).map(|at| 400 + 37 * at).collect();
        self.rng.shuffle(&mut ticks);
        ticks
    }

    /// Two to four headings, in any order.
    fn some_headings(&mut self) -> Vec<i32> {
        let mut headings = vec![0, 180_000, 45_000, -90_000];
        self.rng.shuffle(&mut headings);
        headings.truncate(self.rng.pick(&[2, 3, 3, 4, 4, 4]));
        headings
    }

    /// Rows that bring all of these, some two at once, some again. All have one value, so that none is 9.
    fn bringing(&mut self, plan: &Plan, ticks: &[u32], headings: &[i32]) -> Vec<Values> {
        let mut rows = Vec::new();
        for at in 0..ticks.len().max(headings.len()) {
            let tick = ticks[at.min(ticks.len() - 1)];
            let heading = headings[at.min(headings.len() - 1)];
            let other = if self.rng.chance(40) { self.rng.pick(ticks) } else { tick };
            let turned = if plan.coverage == FULL && self.rng.chance(40) { self.rng.pick(headings) } else { heading };
            let mut row =
                Values { ticks: [tick, other], headings: [heading, turned], re: 7, im: 0, modulus: Modulus::Fits };
            if self.rng.chance(50) {
                row = row.mirrored(plan.kind);
            }
            rows.push(row);
            if self.rng.chance(15) {
                rows.push(row.mirrored(plan.kind));
            }
        }
        rows
    }

    /// 5 or 6: good rows, one that is spoilt, and rows behind it.
    fn bad_row(&mut self, plan: &Plan, spoil: fn(&mut Writer, &mut [String])) -> Vec<u8> {
        let mut lines: Vec<Vec<u8>> = Vec::new();
        let rows = self.all_rows(plan);
        for row in rows.iter().take(4) {
            lines.push(self.line(plan.component, row));
        }
        let mut row = self.rng.pick(&rows);
        if self.rng.chance(25) {
            row.headings[1] = self.rng.pick(&[1_000, -180_000]);
        }
        let component = if self.rng.chance(92) { plan.component } else { plan.component % 6 + 1 };
        let mut fields = self.fields(component, &row);
        spoil(self, &mut fields);
        let at = self.rng.gap(&lines);
        let line = self.join(&fields);
        lines.insert(at, line);
        if self.rng.chance(30) {
            let at = if self.rng.chance(50) { 0 } else { self.rng.gap(&lines) };
            lines.insert(at, self.rng.pick(&[b"".as_slice(), b" ", b"\r"]).to_vec());
        }
        if self.rng.chance(20) {
            let line = self.heading_line();
            lines.insert(0, line);
        }
        self.joined(lines)
    }

    /// One to four fields of the wrong form, at times with others out of range.
    fn spoil_forms(&mut self, fields: &mut [String]) {
        if self.rng.chance(30) {
            self.spoil_ranges(fields);
        }
        for _ in 0..self.rng.pick(&[1, 1, 2, 2, 3, 4]) {
            self.break_form(fields);
        }
        if self.rng.chance(15) {
            fields[4] = self.rng.pick(&["0", "7", "x", "11", "1.", "+1"]).to_string();
        }
    }

    /// One to four fields out of range, at times with others just in range.
    fn spoil_ranges(&mut self, fields: &mut [String]) {
        if self.rng.chance(15) {
            // Of RE and IM one alone, behind a phase that has no range.
            let column = self.rng.pick(&[7, 8]);
            fields[column] = self.rng.pick(&["1000.000001", "-1000.0000006", "1E4"]).to_string();
            fields[6] = self.rng.pick(JUST_IN_RANGE[6]).to_string();
            return;
        }
        for _ in 0..self.rng.pick(&[0, 0, 1, 2, 3]) {
            let column = self.rng.pick(&[0, 1, 2, 3, 5, 6, 7, 8]);
            fields[column] = self.rng.pick(JUST_IN_RANGE[column]).to_string();
        }
        for _ in 0..self.rng.pick(&[1, 1, 2, 2, 3, 4]) {
            self.break_range(fields);
        }
    }

    /// 3, 4, 7, 10, 17 and all the others as other cases make them.
    fn any_fault(&mut self, plan: &Plan) -> Vec<u8> {
        let mut rows = self.all_rows(plan);
        let faults = self.rng.pick(&[0, 1, 1, 1, 2]);
        for _ in 0..faults {
            self.spoil(plan, &mut rows);
        }
        self.text_of(plan, rows, usize::from(faults == 0))
    }

    /// 3, mostly: a line of 159 to 200 bytes, a title or a row that is passed over too.
    fn long_line(&mut self, plan: &Plan) -> Vec<u8> {
        let rows = self.all_rows(plan);
        let mut lines: Vec<Vec<u8>> = rows.iter().take(3).map(|row| self.line(plan.component, row)).collect();
        let component = self.rng.pick(&[plan.component, plan.component % 6 + 1]);
        let row = self.rng.pick(&rows);
        let fields = self.fields(component, &row);
        let long = self.overlong(&fields);
        let at = self.rng.gap(&lines);
        lines.insert(at, long);
        if self.rng.chance(25) {
            let title = self.heading_line();
            lines.insert(0, title);
        }
        self.joined(lines)
    }

    /// Mostly accepted; or no text at all, or blank lines alone.
    fn nothing_wrong(&mut self, plan: &Plan) -> Vec<u8> {
        if self.rng.chance(12) {
            return self.rng.pick(&[b"".as_slice(), b"\n", b"\r\n \n", b"x", b"PER1\n"]).to_vec();
        }
        let rows = self.all_rows(plan);
        self.with_others(plan, &rows)
    }
}

#[cfg(test)]
mod tests {
    use super::*;
    use crate::protocol::Script;
    use crate::rows::{self, Line};

    fn writer(seed: u64) -> Writer {
        Writer { out: Vec::new(), bench: Bench::new(), rng: Rng(seed) }
    }

    #[test]
    fn a_case_answers_the_same_alone_and_behind_others() {
        let mut bench = Bench::new();
        for seed in 0..40 {
            assert_eq!(explained(seed), explained(seed));
            assert_eq!(bench.run(&explained(seed)), Bench::new().run(&explained(seed)), "{seed}");
        }
    }

    /// The answers to `explain`, each with its command.
    fn answers(seeds: std::ops::Range<u64>) -> Vec<(String, String)> {
        let mut all = Vec::new();
        for seed in seeds {
            let out = explained(seed);
            let (mut bench, mut script) = (Bench::new(), Script { rest: &out });
            while let Some((command, answer)) = bench.step(&mut script) {
                if command.starts_with(b"explain") {
                    all.push((String::from_utf8_lossy(command).into_owned(), answer));
                }
            }
        }
        all
    }

    #[test]
    fn every_explanation_comes() {
        let all = answers(0..150);
        let count = |number: &str, start: &str| {
            let stated = |command: &str| command.split(' ').nth(5) == Some(number);
            all.iter().filter(|(command, answer)| stated(command) && answer.starts_with(start)).count()
        };
        for (number, start) in [("5", "field "), ("6", "field "), ("8", "held "), ("9", "set "), ("11", "brought ")] {
            assert!(count(number, start) >= 40, "{number}");
            assert!(count(number, "refused 2 0") >= 5, "{number}");
        }
        for number in ["3", "4", "7", "10", "17"] {
            assert!(count(number, "nothing") >= 3, "{number}");
        }
        for column in 1..=9 {
            assert!(count("5", &format!("field {column}")) >= 2, "{column}");
            assert_eq!(count("6", &format!("field {column}")) >= 2, column != 5 && column != 7, "{column}");
        }
        for answer in ["refused 1 0", "refused 2 0", "?"] {
            assert!(all.iter().filter(|(_, said)| said == answer).count() >= 10, "{answer}");
        }
    }

    /// 8 with 20 frequencies held, with 19 and two new ones in the row, with three headings held and with four.
    #[test]
    fn every_sort_of_full_table_comes() {
        let mut seen = std::collections::BTreeMap::new();
        for (_, answer) in answers(0..150) {
            if let Some(lines) = answer.strip_prefix("held ") {
                let held: Vec<bool> = lines.split(' ').map(|line| line != "0").collect();
                let count = |slots: &[bool]| slots.iter().filter(|&&is| is).count();
                *seen.entry(count(&held[..20])).or_insert(0) += 1;
                *seen.entry(100 + count(&held[20..])).or_insert(0) += 1;
            }
        }
        for wanted in [1, 2, 19, 20, 101, 103, 104] {
            assert!(seen.get(&wanted).is_some_and(|&times| times >= 4), "{wanted}: {seen:?}");
        }
    }

    #[test]
    fn the_first_field_is_that_of_the_reader() {
        // A line is 5 or 6 just where a field is named; of the fields before it none alone makes the line so.
        let (mut writer, choices) = (writer(5), Choices { kind: 1, component: 3, coverage: FULL });
        let good = ["9", "9", "0", "0", "3", "0", "0", "0", "0"];
        for round in 0..4_000 {
            let mut fields = good.map(String::from);
            let number = 5 + round % 2;
            if number == 5 {
                writer.spoil_forms(&mut fields);
            } else {
                writer.spoil_ranges(&mut fields);
            }
            let line = format!("\n{}", fields.join(" "));
            assert_eq!(rows::read(&line.as_bytes()[1..], 2, &choices), Line::Refused(number as u8), "{line}");
            let answer = writer.ask_explain(choices, &Refusal::at_line(number as u8, 2), line.as_bytes());
            let column: usize = answer.trim_end().strip_prefix("field ").unwrap().parse().unwrap();
            for at in 1..=column {
                let mut alone = good.map(String::from);
                alone[at - 1] = fields[at - 1].clone();
                let read = rows::read(alone.join(" ").as_bytes(), 2, &choices);
                assert_eq!(read == Line::Refused(number as u8), at == column, "{line} {at}");
            }
        }
    }

    /// 9: the line that is named, read by itself, says the value held of the refused line's pair, and all lines between agree.
    #[test]
    fn the_line_that_set_it_says_what_is_held() {
        let mut writer = writer(9);
        let mut times = 0;
        for _ in 0..600 {
            let plan = writer.short_plan();
            let text = writer.clash(&plan);
            let choices = Choices { kind: plan.kind, component: plan.component, coverage: plan.coverage };
            let Some(Refusal { number: 9, place: Place::Line(refused) }) = given(choices, &text) else { continue };
            let answer = writer.ask_explain(choices, &Refusal::at_line(9, refused), &text);
            let words: Vec<i64> = answer.trim_end().split(' ').skip(1).map(|word| word.parse().unwrap()).collect();
            let lines: Vec<&[u8]> = text.split(|&byte| byte == b'\n').collect();
            let row = |line: u32| match rows::read(lines[line as usize - 1], line, &choices) {
                Line::Used(row) => row,
                other => panic!("{other:?}"),
            };
            let (set, said) = (row(words[0] as u32), row(refused));
            let direct = (set.first, set.second) == (said.first, said.second);
            assert!(direct || (set.second, set.first) == (said.first, said.second));
            let im = if direct || plan.kind == 1 { set.im } else { -set.im };
            let want = [set.re, im, said.re, said.im].map(i64::from);
            assert_eq!(words[1..], want, "{answer}");
            assert!(words[0] < i64::from(refused) && want[..2] != want[2..]);
            times += 1;
        }
        assert!(times >= 400, "{times}");
    }
}
