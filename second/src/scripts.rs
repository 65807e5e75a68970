//! Random but reproducible cases for the bench. A case is a small script from opening on, made from
//! one seed. The writer runs its own bench beside the case that it writes, so that it knows what
//! stands in the table and can ask near it.
//!
//! Only commands with one answer by the documents are written: see NOTES.md for what is left out.

use crate::protocol::Bench;
use crate::rounding::nearest;
use crate::rows::{tick_of, FULL, SINGLE};
use crate::table::{ACCEPTED, OPEN};

mod edge;
mod explains;
mod limits;
mod moduli;
mod sixes;

pub use explains::explained;
use moduli::{millionths, Modulus};
pub use sixes::six;

/// What a case starts with. It sets all of the bench's state that a case can meet (an opening clears
/// the table and the record, a spill what is beyond the table), so a case has the same answers alone
/// and behind other cases.
const FRESH: [&str; 4] = ["lend 12800 6400", "sea 0", "spill 0", "open 0 1 0"];

/// One case.
pub fn case(seed: u64) -> Vec<u8> {
    let mut writer = Writer { out: Vec::new(), bench: Bench::new(), rng: Rng(seed) };
    for command in FRESH {
        writer.say(command);
    }
    if writer.rng.chance(60) {
        writer.spill();
        writer.lend_beyond();
    }
    writer.scenario();
    // Whatever the case wrote beyond the table shows here.
    writer.say("sum");
    writer.out
}

/// Cases of the seeds from `first` on, `made` by one of the three makers, each with a line `case SEED BYTES` before it.
pub fn cases(made: fn(u64) -> Vec<u8>, first: u64, count: u64) -> Vec<u8> {
    let mut out = Vec::new();
    for seed in (0..count).map(|at| first.wrapping_add(at)) {
        let script = made(seed);
        out.extend_from_slice(format!("case {seed} {}\n", script.len()).as_bytes());
        out.extend_from_slice(&script);
    }
    out
}

/// The splitmix64 generator.
struct Rng(u64);

impl Rng {
    fn next(&mut self) -> u64 {
        self.0 = self.0.wrapping_add(0x9E37_79B9_7F4A_7C15);
        let mut z = self.0;
        z = (z ^ (z >> 30)).wrapping_mul(0xBF58_476D_1CE4_E5B9);
        z = (z ^ (z >> 27)).wrapping_mul(0x94D0_49BB_1331_11EB);
        z ^ (z >> 31)
    }

    /// From `low` to `high`, both included.
    fn between(&mut self, low: i64, high: i64) -> i64 {
        let width = (i128::from(high) - i128::from(low) + 1) as u128;
        (i128::from(low) + (u128::from(self.next()) % width) as i128) as i64
    }

    fn below(&mut self, count: usize) -> usize {
        self.between(0, count as i64 - 1) as usize
    }

    fn chance(&mut self, percent: i64) -> bool {
        self.between(1, 100) <= percent
    }

    fn pick<T: Clone>(&mut self, list: &[T]) -> T {
        list[self.below(list.len())].clone()
    }

    fn shuffle<T>(&mut self, list: &mut [T]) {
        for i in (1..list.len()).rev() {
            let j = self.below(i + 1);
            list.swap(i, j);
        }
    }

    /// A place in the list to insert at.
    fn gap<T>(&mut self, list: &[T]) -> usize {
        self.below(list.len() + 1)
    }
}

/// A row to be written: nine fields as text.
type Fields = [String; 9];

/// A table that a text is made for.
struct Plan {
    kind: u8,
    component: u8,
    coverage: u8,
    ticks: Vec<u32>,
    headings: Vec<i32>,
}

/// The values of one row before they are written as text.
#[derive(Clone, Copy)]
struct Values {
    ticks: [u32; 2],
    headings: [i32; 2],
    re: i64,
    im: i64,
    modulus: Modulus,
}

impl Values {
    fn same_nodes(&self) -> bool {
        self.ticks[0] == self.ticks[1] && self.headings[0] == self.headings[1]
    }

    /// The same pair said from its other side.
    fn mirrored(&self, kind: u8) -> Values {
        Values {
            ticks: [self.ticks[1], self.ticks[0]],
            headings: [self.headings[1], self.headings[0]],
            re: self.re,
            im: if kind == 0 { -self.im } else { self.im },
            modulus: self.modulus,
        }
    }
}

const BAD_FIELDS: [&str; 26] = [
    "*****",
    "NaN",
    "-",
    "+",
    ".",
    "E5",
    ".E1",
    "1E",
    "1E+",
    "1E-",
    "1E123",
    "1.2.3",
    "--1",
    "+-1",
    "1D0",
    "1,5",
    "Inf",
    "1234567890123456",
    "0.000000000000000",
    "1e1e1",
    "1E1.",
    "0x10",
    "1.0_",
    "1\r1",
    "7a",
    "\u{b5}",
];

/// Commands that the bench's page does not describe.
const NO_COMMANDS: [&str; 54] = [
    "",
    "x",
    "opens 0 1 0",
    "open 0 1",
    "open 0 1 0 0",
    "open  0 1 0",
    "open 256 1 0",
    "open 0 -1 0",
    "open 0 1 x",
    "lend 12901 6400",
    "lend 12800 6501",
    "lend 12800",
    "cell 80 0",
    "cell 0 80",
    "cell 0 -1",
    "cell 0",
    "close now",
    "poke 80 0 0 0 0",
    "poke 0 0 2147483648 0 0",
    "poke 0 0 0 -2147483649 0",
    "poke 0 0 0 0 256",
    "poke 0 0 0 0",
    "force",
    "force -1",
    "force 18446744073709551616",
    "force 1 1",
    "display 0",
    "display 0 18446744073709551616",
    "display -1 0",
    "sea 71",
    "sea -1",
    "sea",
    "coefficient 1000 0 1000",
    "coefficient 4294967296 0 1000 0",
    "coefficient 1000 2147483648 1000 0",
    "coefficient -1 0 1000 0",
    "forge tick 20 1000",
    "forge heading 4 0",
    "forge byte 160 0",
    "forge byte 0 256",
    "forge stage",
    "forge colour 1",
    "forge tick 0",
    "forge tick 0 4294967296",
    "forge heading 0 2147483648",
    "forge kind 256",
    "record 1",
    "sum 1",
    "piece",
    "piece x",
    "listing 1",
    "Close",
    "Spill 1",
    "spilt 1",
];

/// Spills that the bench's page does not describe: out of range, wrapped into it, or not one number.
const NO_SPILLS: [&str; 10] = [
    "spill",
    "spill 101",
    "spill 101",
    "spill -1",
    "spill 256",
    "spill 4294967296",
    "spill 18446744073709551617",
    "spill 1 1",
    "spill x",
    "spill  1",
];

struct Writer {
    out: Vec<u8>,
    bench: Bench,
    rng: Rng,
}

impl Writer {
    // Saying commands

    fn say(&mut self, command: &str) -> String {
        self.say_bytes(format!("{command}\n").as_bytes())
    }

    fn say_bytes(&mut self, bytes: &[u8]) -> String {
        self.out.extend_from_slice(bytes);
        self.bench.run(bytes)
    }

    fn piece(&mut self, text: &[u8]) -> String {
        let mut bytes = format!("piece {}\n", text.len()).into_bytes();
        bytes.extend_from_slice(text);
        bytes.push(b'\n');
        self.say_bytes(&bytes)
    }

    // Beyond the table

    /// Somebody else writes beyond the table. No call of the box writes there, so each later `sum` shows it.
    fn spill(&mut self) -> String {
        if self.rng.chance(8) {
            let command = self.rng.pick(&NO_SPILLS);
            self.say(command);
        }
        let value = match self.rng.below(8) {
            0 => 0,
            1 => 100,
            _ => self.rng.between(1, 99),
        };
        self.say(&format!("spill {value}"))
    }

    /// Enough is lent, and mostly more: what is beyond the table can be written then.
    fn lend_beyond(&mut self) {
        let (cells, flags) = self.rng.pick(&[
            (12_900, 6_500),
            (12_900, 6_500),
            (12_900, 6_500),
            (12_801, 6_401),
            (12_900, 6_400),
            (12_800, 6_500),
            (12_800, 6_400),
        ]);
        self.say(&format!("lend {cells} {flags}"));
    }

    // Scenarios

    fn scenario(&mut self) {
        match self.rng.below(117) {
            0..=32 => self.good_table(),
            33..=58 => self.broken_text(),
            59..=61 => self.strange_fields(),
            62..=65 => self.near_forms(),
            66..=67 => self.many_lines(),
            68..=72 => self.forged_while_open(),
            73..=76 => self.written_while_open(),
            77..=80 => self.forged_when_accepted(),
            81..=83 => self.every_cut(),
            84..=90 => self.sea_limits(),
            91..=95 => self.every_scale(),
            96..=97 => self.bad_choices(),
            98..=99 => self.junk(),
            100..=104 => self.fit_limits(),
            _ => self.edge(),
        }
    }

    /// A text that is to be accepted, and queries.
    fn good_table(&mut self) {
        let plan = self.plan();
        self.open(&plan);
        let rows = self.all_rows(&plan);
        let text = self.text_of(&plan, rows, 0);
        self.send(&text);
        let answer = self.say("close");
        if answer.starts_with("accepted") {
            if self.rng.chance(75) {
                self.sea();
            }
            let questions = self.rng.between(4, 16);
            for _ in 0..questions {
                self.question();
            }
        } else {
            self.after_refusal();
        }
    }

    /// A text with one or two faults.
    fn broken_text(&mut self) {
        let plan = self.plan();
        self.open(&plan);
        let mut rows = self.all_rows(&plan);
        let faults = self.rng.pick(&[0, 0, 1, 1, 1, 2]);
        for _ in 0..faults {
            self.spoil(&plan, &mut rows);
        }
        let broken_lines = if faults == 0 { 1 } else { self.rng.pick(&[0, 0, 0, 0, 1]) };
        let text = self.text_of(&plan, rows, broken_lines);
        self.send(&text);
        let answer = self.say("close");
        if answer.starts_with("accepted") {
            self.question();
        } else {
            self.after_refusal();
        }
    }

    fn after_refusal(&mut self) {
        for _ in 0..self.rng.between(1, 4) {
            match self.rng.below(11) {
                0 => self.say("close"),
                1 => self.piece(b""),
                2 => self.piece(b"9 9 0 0 1 0 0 0 0\n"),
                3 => self.say("record"),
                4 => self.say("sum"),
                5 => self.say("force 0"),
                6 => self.say("listing"),
                7 => {
                    self.short_loan();
                    String::new()
                }
                8 => self.say(&format!("forge stage {}", self.bench.record.stage)),
                9 => self.spill(),
                _ => {
                    // Somebody else opens the stuck record again: the refused line is still kept.
                    self.say("forge stage 1");
                    let text: &[u8] =
                        self.rng.pick(&[b"".as_slice(), b"\n", b" \n", b"\r\n", b"5\n", b"1 0 0\n", b"x"]);
                    self.piece(text);
                    self.say("record");
                    self.say("close")
                }
            };
        }
    }

    /// The last lines that a text may have, by forging the count.
    fn many_lines(&mut self) {
        let plan = self.plan();
        self.open(&plan);
        let rows = self.all_rows(&plan);
        let mut text = self.text_of(&plan, rows, 0);
        text.truncate(2_000);
        let lines = text.iter().filter(|&&b| b == b'\n').count() as i64;
        let start = 1_000_000 - lines + self.rng.between(-3, 2);
        self.say(&format!("forge lines {}", start.clamp(0, 1_000_001)));
        self.send(&text);
        self.say("record");
        let last: &[u8] = self.rng.pick(&[b"".as_slice(), b"\n", b"\r", b"x", b" ", b"\n\n"]);
        self.piece(last);
        self.say("close");
        self.say("record");
        self.after_refusal();
    }

    /// Text, a forged record, more text.
    fn forged_while_open(&mut self) {
        let plan = self.plan();
        self.open(&plan);
        let rows = self.all_rows(&plan);
        let text = self.text_of(&plan, rows, 0);
        let cut = self.rng.below(text.len() + 1);
        self.send(&text[..cut]);
        for _ in 0..self.rng.between(1, 3) {
            self.forge();
        }
        self.say("record");
        self.send(&text[cut..]);
        self.say("record");
        let answer = self.say("close");
        self.say("record");
        if answer.starts_with("accepted") {
            self.question();
        } else {
            self.after_refusal();
        }
    }

    /// Rows with one strange field each, and what they wrote.
    fn strange_fields(&mut self) {
        let kind = self.rng.below(2);
        self.say(&format!("open {kind} 1 0"));
        let column = self.rng.pick(&[0, 1, 2, 5, 7, 7, 8]);
        for row in 1..=20 {
            let field = self.strange_field();
            let other = row + 1;
            let part = millionths(&format!("0.{row}")).unwrap_or(0);
            let size = self.modulus_of(&field);
            let text = match column {
                0 => format!("{field} 9 0 0 1 {} 0 0.{row} 0.{row}\n", self.fitting_field(part, part)),
                1 => format!("9 {field} 0 0 1 {} 0 0.{row} 0.{row}\n", self.fitting_field(part, part)),
                2 => format!("9 9 {field} {field} 1 0.5 0 0.5 0\n"),
                5 => format!("{row} {other} 0 0 1 {field} 0 {} 0\n", self.part_of(&field)),
                7 => format!("{row} {row} 0 0 1 {size} 0 {field} 0\n"),
                _ => format!("{row} {other} 0 0 1 {size} 0 0 {field}\n"),
            };
            let answer = self.piece(text.as_bytes());
            match column {
                0..=2 => self.say("record"),
                7 => self.say_last_cell(0),
                _ => self.say_last_cell(1),
            };
            if answer.starts_with("refused") {
                self.say(&format!("open {kind} 1 0"));
            }
        }
        self.say("close");
    }

    /// The cell that the last row wrote: of the newest frequency with itself, or with the one before.
    fn say_last_cell(&mut self, back: usize) -> String {
        let last = self.bench.record.frequency_count().saturating_sub(1);
        self.say(&format!("cell {} {last}", last.saturating_sub(back)))
    }

    /// Something that may or may not have the form of a field.
    fn strange_field(&mut self) -> String {
        let mut field = self.rng.pick(&["", "", "", "-", "+"]).to_string();
        let digits = self.rng.pick(&[1, 1, 2, 3, 4, 5, 7, 8, 9, 14, 15, 15]);
        let point = self.rng.below(digits + 2);
        for at in 0..digits {
            if at == point {
                field.push('.');
            }
            field.push(self.rng.pick(&['0', '0', '1', '5', '5', '9', '3']));
        }
        if point == digits {
            field.push('.');
        }
        if self.rng.chance(60) {
            field.push(self.rng.pick(&['E', 'e']));
            field.push_str(self.rng.pick(&["", "+", "-", "-"]));
            let most = self.rng.pick(&[3, 9, 17, 99]);
            field.push_str(&self.rng.between(0, most).to_string());
        }
        if self.rng.chance(5) {
            // One byte more, or one byte less.
            let at = self.rng.below(field.len());
            if self.rng.chance(50) {
                field.insert(at, self.rng.pick(&['.', '-', '+', 'E', 'e', '0', 'x']));
            } else if field.len() > 1 {
                field.remove(at);
            }
        }
        field
    }

    /// A modulus that fits a row with this field and a 0 for its parts, if the field has its form and is in range.
    fn modulus_of(&mut self, field: &str) -> String {
        match millionths(field) {
            Some(part) if part.abs() <= 1_000_000_000 => self.fitting_field(part, 0),
            _ => "0".to_string(),
        }
    }

    /// A real part that fits this field as a modulus, on one of the two limits or between them, if there is one.
    fn part_of(&mut self, field: &str) -> String {
        match millionths(field) {
            Some(modulus) if (0..=1_000_000_000).contains(&modulus) => {
                let k = 2 + modulus / 100_000;
                let part = self.rng.pick(&[modulus - k, modulus, modulus + k, modulus + k]).clamp(0, 1_000_000_000);
                self.decimal(part, 6)
            }
            _ => "0".to_string(),
        }
    }

    fn bad_choices(&mut self) {
        let kind = self.rng.pick(&[0, 1, 2, 255]);
        let component = self.rng.pick(&[0, 1, 6, 7, 255]);
        let coverage = self.rng.pick(&[0, 1, 2, 255]);
        self.say(&format!("open {kind} {component} {coverage}"));
        self.say("record");
        self.say("sum");
        self.piece(b"9 9 0 0 1 0 0 0 0");
        self.say("close");
    }

    fn junk(&mut self) {
        for _ in 0..self.rng.between(1, 4) {
            let command = self.rng.pick(&NO_COMMANDS);
            self.say(command);
        }
        self.say("sum");
    }

    // Plans and rows

    fn plan(&mut self) -> Plan {
        let coverage = if self.rng.chance(60) { SINGLE } else { FULL };
        let (frequencies, headings) = match self.rng.below(200) {
            0 => (20, 4),
            1..=8 => (20, 1),
            9..=16 => (self.rng.between(5, 9), self.rng.between(1, 2)),
            17..=90 => (self.rng.between(1, 3), self.rng.between(1, 3)),
            _ => (self.rng.between(1, 4), self.rng.between(1, 4)),
        };
        let mut plan = Plan {
            kind: self.rng.below(2) as u8,
            component: self.rng.between(1, 6) as u8,
            coverage,
            ticks: Vec::new(),
            headings: Vec::new(),
        };
        while plan.ticks.len() < frequencies as usize {
            let tick = self.plan_tick(&plan.ticks);
            if !plan.ticks.contains(&tick) {
                plan.ticks.push(tick);
            }
        }
        while plan.headings.len() < headings as usize {
            let heading = self.plan_heading();
            if !plan.headings.contains(&heading) {
                plan.headings.push(heading);
            }
        }
        plan
    }

    fn plan_tick(&mut self, ticks: &[u32]) -> u32 {
        match self.rng.below(12) {
            0 => 100,
            1 => 10_000,
            2 if !ticks.is_empty() => (self.rng.pick(ticks) + 1).min(10_000),
            3..=6 => self.rng.between(100, 10_000) as u32,
            _ => self.rng.between(400, 2_500) as u32,
        }
    }

    fn plan_heading(&mut self) -> i32 {
        match self.rng.below(8) {
            0..=1 => 0,
            // -180 is the same one: which of the two a row writes is left to its fields.
            2..=3 => 180_000,
            4 => self.rng.between(-179_999, 180_000) as i32,
            _ => 1_000 * self.rng.between(-179, 180) as i32,
        }
    }

    fn open(&mut self, plan: &Plan) {
        if self.rng.chance(4) {
            self.short_loan();
        }
        let beyond = self.rng.chance(15);
        if beyond {
            self.spill();
            self.lend_beyond();
        }
        self.say(&format!("open {} {} {}", plan.kind, plan.component, plan.coverage));
        if beyond {
            self.say("sum");
        }
    }

    /// A row for each pair that the coverage needs, from either side, in any order, some twice.
    fn all_rows(&mut self, plan: &Plan) -> Vec<Values> {
        let mut nodes = Vec::new();
        for &heading in &plan.headings {
            for &tick in &plan.ticks {
                nodes.push((tick, heading));
            }
        }
        let mut rows = Vec::new();
        for (i, &(tick1, heading1)) in nodes.iter().enumerate() {
            for &(tick2, heading2) in &nodes[i..] {
                if plan.coverage == SINGLE && heading1 != heading2 {
                    continue;
                }
                let (re, im) = (self.part(), self.part());
                let (ticks, headings) = ([tick1, tick2], [heading1, heading2]);
                let mut row = Values { ticks, headings, re, im, modulus: Modulus::Fits };
                if row.same_nodes() && plan.kind == 0 {
                    row.im = 0;
                }
                if self.rng.chance(50) {
                    row = row.mirrored(plan.kind);
                }
                rows.push(row);
                if self.rng.chance(6) {
                    rows.push(row);
                }
                if self.rng.chance(6) {
                    rows.push(row.mirrored(plan.kind));
                }
            }
        }
        if self.rng.chance(70) {
            self.rng.shuffle(&mut rows);
        }
        rows
    }

    fn part(&mut self) -> i64 {
        match self.rng.below(10) {
            0 => 0,
            1 => self.rng.pick(&[1_000_000_000, -1_000_000_000, 999_999_999, 1, -1]),
            2..=3 => self.rng.between(-1_000_000_000, 1_000_000_000),
            4..=5 => self.rng.between(-50, 50),
            _ => self.rng.between(-90_000, 90_000),
        }
    }

    /// A fault that shows in the values; faults in the text are made in `text_of`.
    fn spoil(&mut self, plan: &Plan, rows: &mut Vec<Values>) {
        let one = self.rng.below(rows.len());
        match self.rng.below(16) {
            // 11
            0..=1 => {
                rows.remove(one);
            }
            2..=4 => self.spoil_by_9(plan, rows, one),
            5..=8 if plan.kind == 0 => self.spoil_by_7(plan, rows),
            9 => self.spoil_by_frequencies(plan, rows),
            10 => self.spoil_by_headings(plan, rows),
            11..=13 => self.spoil_by_17(plan.kind, rows, one),
            // 10
            _ => rows.clear(),
        }
        let modulus = Modulus::Fits;
        if rows.is_empty() && self.rng.chance(40) {
            rows.push(Values { ticks: [1_000; 2], headings: [0; 2], re: 1, im: 0, modulus });
        }
        if rows.is_empty() {
            // The next fault needs a row to look at; this one is of a pair that nobody asks for.
            rows.push(Values { ticks: [0; 2], headings: [0; 2], re: 0, im: 0, modulus });
        }
    }

    /// A row again, or its mirror, with another value.
    fn spoil_by_9(&mut self, plan: &Plan, rows: &mut Vec<Values>, one: usize) {
        let mut row = rows[one];
        if self.rng.chance(50) {
            row = row.mirrored(plan.kind);
        }
        match self.rng.below(3) {
            0 if row.im != 0 => row.im = -row.im,
            1 if plan.kind == 1 || !row.same_nodes() => row.im = if row.im > 0 { row.im - 1 } else { row.im + 1 },
            _ => row.re = if row.re > 0 { row.re - 1 } else { row.re + 1 },
        }
        let at = self.rng.gap(rows);
        rows.insert(at, row);
    }

    /// Equal nodes with an imaginary part.
    fn spoil_by_7(&mut self, plan: &Plan, rows: &mut Vec<Values>) {
        let node = (self.rng.pick(&plan.ticks), self.rng.pick(&plan.headings));
        let row = Values {
            ticks: [node.0, node.0],
            headings: [node.1, node.1],
            re: self.part(),
            im: self.rng.pick(&[1, -1, 5_000]),
            modulus: Modulus::Fits,
        };
        let at = self.rng.gap(rows);
        rows.insert(at, row);
    }

    /// 8: more frequencies than there are slots.
    fn spoil_by_frequencies(&mut self, plan: &Plan, rows: &mut Vec<Values>) {
        let heading = self.rng.pick(&plan.headings);
        for _ in 0..self.rng.between(18, 24) {
            let tick = self.rng.between(100, 10_000) as u32;
            let other = if self.rng.chance(50) { tick } else { self.rng.pick(&plan.ticks) };
            let at = self.rng.gap(rows);
            let modulus = self.seldom_misfits();
            rows.insert(at, Values { ticks: [other, tick], headings: [heading; 2], re: 7, im: 0, modulus });
        }
    }

    /// 8: more headings than there are slots.
    fn spoil_by_headings(&mut self, plan: &Plan, rows: &mut Vec<Values>) {
        let tick = self.rng.pick(&plan.ticks);
        for _ in 0..5 {
            let heading = if self.rng.chance(15) { 180_000 } else { self.rng.between(-179_999, 180_000) as i32 };
            let other = if self.rng.chance(70) { heading } else { self.rng.pick(&plan.headings) };
            let at = self.rng.gap(rows);
            let modulus = self.seldom_misfits();
            rows.insert(at, Values { ticks: [tick; 2], headings: [other, heading], re: 7, im: 0, modulus });
        }
    }

    /// Of the rows that bring too many slots one may misfit as well.
    fn seldom_misfits(&mut self) -> Modulus {
        if self.rng.chance(1) {
            Modulus::Misfits
        } else {
            Modulus::Fits
        }
    }

    // Text

    fn text_of(&mut self, plan: &Plan, rows: Vec<Values>, broken_lines: usize) -> Vec<u8> {
        let mut lines: Vec<Vec<u8>> = Vec::new();
        for row in rows.iter().filter(|row| row.ticks[0] != 0) {
            lines.push(self.line(plan.component, row));
        }

        // Rows that are passed over, and blank lines.
        for _ in 0..self.rng.between(0, 2) {
            if self.rng.chance(60) {
                let line = self.passed_over(plan);
                let at = self.rng.gap(&lines);
                lines.insert(at, line);
            }
            if self.rng.chance(30) {
                let blank: &[u8] = self.rng.pick(&[b"".as_slice(), b" ", b"\t", b" \t ", b"\r", b" \r"]);
                let at = self.rng.gap(&lines);
                lines.insert(at, blank.to_vec());
            }
        }

        for _ in 0..broken_lines {
            let line = if self.rng.chance(92) { self.broken_line(plan) } else { self.heading_line() };
            let at = self.rng.gap(&lines);
            lines.insert(at, line);
        }
        if self.rng.chance(15) {
            let line = self.heading_line();
            lines.insert(0, line);
        }

        self.joined(lines)
    }

    /// Lines with their ends, the last perhaps without, or cut short.
    fn joined(&mut self, lines: Vec<Vec<u8>>) -> Vec<u8> {
        let returns = self.rng.chance(15);
        let mut text = Vec::new();
        for line in lines {
            text.extend_from_slice(&line);
            if returns || self.rng.chance(2) {
                text.push(b'\r');
            }
            text.push(b'\n');
        }
        // No last line feed, or a cut short last line.
        if self.rng.chance(20) {
            text.pop();
            if self.rng.chance(10) {
                text.truncate(text.len().saturating_sub(self.rng.below(12)));
            }
        }
        text
    }

    /// A line that is skipped if it is the first.
    fn heading_line(&mut self) -> Vec<u8> {
        let lines = ["PER1 PER2 BETA1", " \t w2 4 6", "a b c d e f g h i", "NaN", "z"];
        self.rng.pick(&lines).as_bytes().to_vec()
    }

    /// The nine fields in notations of any sort that leave room on the line.
    fn fields(&mut self, component: u8, row: &Values) -> Fields {
        loop {
            let fields = [
                self.period(row.ticks[0]),
                self.period(row.ticks[1]),
                self.heading_field(row.headings[0]),
                self.heading_field(row.headings[1]),
                component.to_string(),
                self.modulus(row),
                self.rng.pick(&["180.0", "172.405", "0", "-90", "999999999999999", "-9E99", "0.0"]).to_string(),
                self.decimal(row.re, 6),
                self.decimal(row.im, 6),
            ];
            if fields.iter().map(String::len).sum::<usize>() <= 140 {
                return fields;
            }
        }
    }

    fn join(&mut self, fields: &[String]) -> Vec<u8> {
        let mut line = self.rng.pick(&["", "", "", " ", "\t", "   "]).to_string();
        for (column, field) in fields.iter().enumerate() {
            if column > 0 {
                line.push_str(self.rng.pick(&[" ", " ", " ", " ", "  ", "\t"]));
            }
            line.push_str(field);
        }
        line.push_str(self.rng.pick(&["", "", "", "", "", " ", "\t"]));
        if line.len() > 155 {
            line = fields.join(" ");
        }
        line.into_bytes()
    }

    /// A period in seconds that gives this tick.
    fn period(&mut self, tick: u32) -> String {
        let tick = i128::from(tick);
        let exact = nearest(10_000_000_000, tick);
        let spread = (5_000_000_000 / (tick * tick)).min(400_000) as i64;
        let moved = exact + i128::from(self.rng.between(-spread, spread));
        let fits = (1_000_000..=100_000_000).contains(&moved) && tick_of(moved) == tick;
        self.decimal(if fits { moved } else { exact } as i64, 6)
    }

    /// A value in units of ten to the minus `places`, as a field that rounds to it.
    fn decimal(&mut self, value: i64, places: usize) -> String {
        if self.rng.chance(40) {
            return self.notation(value, places);
        }
        let sign = if value < 0 { "-" } else { self.rng.pick(&["", "", "", "+"]) };
        let size = value.unsigned_abs();
        let unit = 10_u64.pow(places as u32);
        let (whole, part) = (size / unit, size % unit);
        let plain = format!("{whole}.{part:0places$}");
        match self.rng.below(9) {
            0 => format!("{sign}{size}E-{places:02}"),
            1 => format!("{sign}{size}e-{places}"),
            2 => {
                // As WAMIT writes it.
                let digits = size.to_string();
                let power = digits.len() as i64 - places as i64;
                let power_sign = if power < 0 { '-' } else { '+' };
                format!("{sign}0.{digits}E{power_sign}{:02}", power.abs())
            }
            3 if part == 0 => format!("{sign}{whole}"),
            3 if whole == 0 => format!("{sign}.{part:0places$}"),
            4 => format!("{sign}{}", plain.trim_end_matches('0')),
            // Another digit or more that rounding drops again.
            5 => format!("{sign}{plain}{}", self.rng.pick(&["4", "49", "3"])),
            // A tie goes to the even one.
            6 if size.is_multiple_of(2) && self.rng.chance(60) => {
                format!("{sign}{plain}{}", self.rng.pick(&["5", "50"]))
            }
            6 if size > 0 => {
                let below = size - 1;
                let more = if size.is_multiple_of(2) { ["5", "51", "6"] } else { ["501", "51", "6"] };
                format!("{sign}{}.{:0places$}{}", below / unit, below % unit, self.rng.pick(&more))
            }
            _ => format!("{sign}{plain}"),
        }
    }

    fn passed_over(&mut self, plan: &Plan) -> Vec<u8> {
        let tick = self.rng.between(100, 10_000) as u32;
        let low = if self.rng.chance(15) { -179_999 } else { self.rng.between(-179_999, -1) as i32 };
        let high = if self.rng.chance(25) { 180_000 } else { self.rng.between(0, 180_000) as i32 };
        let headings = self.rng.pick(&[[low, high], [high, low]]);
        let ticks = [tick, self.rng.pick(&plan.ticks)];
        // No row that is passed over is tested for a misfit.
        let modulus = self.rng.pick(&[Modulus::Fits, Modulus::Misfits, Modulus::Is(1_415_000_000)]);
        let row = Values { ticks, headings, re: self.part(), im: self.part(), modulus };
        if plan.coverage == SINGLE && self.rng.chance(50) {
            return self.line(plan.component, &row);
        }
        let component = plan.component % 6 + 1;
        let mut fields = self.fields(component, &row);
        if self.rng.chance(50) {
            // Out of range, in a row of another component.
            fields[self.rng.pick(&[0, 1, 2, 3, 5, 5, 7, 8])] = self.rng.pick(&["-1E9", "1415.000001"]).to_string();
        }
        self.join(&fields)
    }

    /// A line with a fault in its text: 3, 4, 5 or 6, or several of these.
    fn broken_line(&mut self, plan: &Plan) -> Vec<u8> {
        let tick = self.rng.pick(&plan.ticks);
        let heading = self.rng.pick(&plan.headings);
        let mut headings = [heading; 2];
        if self.rng.chance(25) {
            headings[1] = self.rng.between(-180_000, 180_000) as i32;
        }
        let row = Values { ticks: [tick; 2], headings, re: self.part(), im: 0, modulus: Modulus::Fits };
        let component = if self.rng.chance(80) { plan.component } else { plan.component % 6 + 1 };
        let mut fields = self.fields(component, &row).to_vec();
        let kinds = if self.rng.chance(25) { 2 } else { 1 };
        for _ in 0..kinds {
            match self.rng.below(9) {
                // 4
                0 => {
                    if self.rng.chance(50) {
                        fields.pop();
                    } else {
                        fields.push("0".to_string());
                    }
                }
                1..=2 => self.break_form(&mut fields),
                3..=6 => self.break_range(&mut fields),
                _ => return self.overlong(&fields),
            }
        }
        self.join(&fields)
    }

    /// 5
    fn break_form(&mut self, fields: &mut [String]) {
        let column = self.rng.below(fields.len());
        fields[column] = if column == 4 && self.rng.chance(80) {
            self.rng.pick(&["0", "7", "01", "+1", "1.", "12", "x"]).to_string()
        } else {
            self.rng.pick(&BAD_FIELDS).to_string()
        };
    }

    /// 6
    fn break_range(&mut self, fields: &mut [String]) {
        let column = self.rng.pick(&[0, 1, 2, 3, 5, 5, 7, fields.len() - 1]).min(fields.len() - 1);
        let values: &[&str] = match column {
            0 | 1 => &["100.000001", "100.0000006", "0.999999", "0.9999994", "0", "-9", "1E99", "1E-99"],
            2 | 3 => &["180.001", "-180.001", "180.0006", "-180.0006", "180.00051", "-180.00051", "360", "-360", "1E9"],
            5 => &["1415.000001", "1415.0000006", "-0.000001", "-0.0000006", "1E4", "9E99", "-9E99"],
            _ => &["1000.000001", "-1000.000001", "1000.0000006", "-1000.0000006", "1E4", "-9E99"],
        };
        fields[column] = self.rng.pick(values).to_string();
    }

    /// 3, or a line that just passes.
    fn overlong(&mut self, fields: &[String]) -> Vec<u8> {
        let mut line = self.join(fields);
        let length = self.rng.pick(&[159, 160, 160, 161, 161, 162, 200]);
        let fill = self.rng.pick(b"  \tx\r");
        while line.len() < length {
            line.push(fill);
        }
        line
    }

    /// Sends a text in pieces, cut anywhere, sometimes with other calls between.
    fn send(&mut self, text: &[u8]) {
        let mut cuts = vec![0, text.len()];
        for _ in 0..self.rng.pick(&[0, 0, 1, 1, 2, 3, 5]) {
            cuts.push(self.rng.below(text.len() + 1));
        }
        if self.rng.chance(25) {
            // Around a line feed.
            if let Some(at) = text.iter().position(|&b| b == b'\n') {
                cuts.extend([at, at + 1]);
            }
        }
        cuts.sort();
        for ends in cuts.windows(2) {
            self.piece(&text[ends[0]..ends[1]]);
            if self.rng.chance(8) {
                self.between_pieces();
            }
        }
    }

    fn between_pieces(&mut self) {
        match self.rng.below(10) {
            0 => self.say("record"),
            1 => self.say("sum"),
            2 => self.say("listing"),
            3 => self.say("force 3"),
            4 => self.say("coefficient 1000 0 1000 0"),
            5 => {
                self.short_loan();
                String::new()
            }
            6 => {
                let (r, c) = self.near_nodes();
                self.say(&format!("cell {r} {c}"))
            }
            7 => {
                // Somebody else's writing while the table is open: 9, 11, or nothing.
                let (r, c) = self.near_nodes();
                let (re, im) = self.cell_values();
                let flag = self.rng.pick(&[0, 0, 1, 7, 255]);
                self.say(&format!("poke {r} {c} {re} {im} {flag}"))
            }
            8 => {
                self.lend_beyond();
                self.spill()
            }
            _ => self.piece(b""),
        };
    }

    // Forging

    /// One part of the record is set to something, valid or not.
    fn forge(&mut self) {
        let slot = self.rng.pick(&[0, 0, 1, 2, 3, 19]);
        let some_tick = self.bench.record.ticks[self.rng.pick(&[0, 1, 2])];
        let some_heading = self.bench.record.headings[self.rng.pick(&[0, 1])];
        let held = self.bench.record.kept_held;
        match self.rng.below(12) {
            0..=1 => self
                .forge_to("stage", &[0, 1, 2, 2, 3, 5, 9, 10, 11, 11, 12, 13, 14, 15, 16, 16, 17, 17, 17, 18, 18, 255]),
            2 => self.forge_to("kind", &[0, 1, 1, 2, 255]),
            3 => self.forge_to("component", &[0, 1, 3, 4, 6, 7, 255]),
            4 => self.forge_to("coverage", &[0, 1, 1, 2, 255]),
            5 => {
                let lines = i64::from(self.bench.record.lines);
                let mut values = vec![lines + 1, 999_999, 1_000_000, 1_000_001, i64::from(u32::MAX)];
                if held == 0 {
                    values.push(0);
                }
                self.forge_to("lines", &values);
            }
            6 => self.forge_to("headings", &[0, 1, 2, 3, 4, 5, 255]),
            7..=8 => {
                let values = [0, 0, 99, 100, 10_000, 10_001, i64::from(some_tick), 1_234, i64::from(u32::MAX)];
                self.forge_to(&format!("tick {slot}"), &values);
            }
            9 => {
                let ends = [i64::from(i32::MIN), i64::from(i32::MAX)];
                let (plus, minus) = (180_000, -180_000);
                let values =
                    [0, plus, minus, minus, plus + 1, minus - 1, i64::from(some_heading), 45_000, ends[0], ends[1]];
                self.forge_to(&format!("heading {}", slot.min(3)), &values);
            }
            10 => {
                // A kept byte, or one past those that are kept.
                let index = self.rng.pick(&[0, held / 2, held.min(159), 159]);
                self.forge_to(&format!("byte {index}"), &b"\n\n 5x\r\0\xFF".map(i64::from));
            }
            _ => self.forge_kept(held),
        }
    }

    fn forge_to(&mut self, part: &str, values: &[i64]) {
        let value = self.rng.pick(values);
        self.say(&format!("forge {part} {value}"));
    }

    /// How many bytes are kept. What stands past the kept bytes is not written down, so bytes that
    /// come to be kept are forged first.
    fn forge_kept(&mut self, held: u32) {
        match self.rng.below(4) {
            0 => {
                let kept = self.rng.pick(&[161, 200, 255]);
                self.say(&format!("forge kept {kept}"));
            }
            1 if held > 0 && held <= 160 => {
                let kept = self.rng.below(held as usize);
                self.say(&format!("forge kept {kept}"));
            }
            _ if held < 20 && self.bench.record.lines > 0 => {
                let text: &[u8] = self.rng.pick(&[b"9 9 0 0 1 3 0 3 0".as_slice(), b"  ", b"x", b"9 9 0 0\n"]);
                for (index, byte) in text.iter().enumerate() {
                    self.say(&format!("forge byte {index} {byte}"));
                }
                self.say(&format!("forge kept {}", text.len()));
            }
            _ => {
                self.say("forge kept 161");
            }
        }
    }

    /// Too little is lent for some calls, then enough again. A spill does not mind what is lent.
    fn short_loan(&mut self) {
        let (cells, flags) = self.rng.pick(&[
            (12_799, 6_400),
            (12_800, 6_399),
            (0, 0),
            (12_900, 6_399),
            (12_799, 6_500),
            (12_900, 6_500),
        ]);
        self.say(&format!("lend {cells} {flags}"));
        for _ in 0..self.rng.between(1, 3) {
            match self.rng.below(9) {
                0 => self.say("open 0 1 0"),
                1 => self.say("open 2 1 0"),
                2 => self.piece(b""),
                3 => self.say("close"),
                4 => self.say("listing"),
                5 => self.say("coefficient 1000 0 1000 0"),
                6 => self.say("force 3"),
                7 => self.spill(),
                _ => self.say("display 3 4607182418800017408"),
            };
        }
        let (cells, flags) = self.rng.pick(&[(12_800, 6_400), (12_800, 6_400), (12_900, 6_500)]);
        self.say(&format!("lend {cells} {flags}"));
    }

    // Questions

    fn question(&mut self) {
        match self.rng.below(100) {
            0..=24 => self.ask_coefficient(),
            25..=49 => {
                self.sea();
                self.ask_force();
                if self.rng.chance(40) {
                    self.ask_force();
                }
            }
            50..=59 => self.ask_force(),
            60..=74 => self.ask_display(),
            75..=79 => {
                if self.table_nodes().len() <= 9 || self.rng.chance(5) {
                    self.say("listing");
                }
            }
            80..=89 => self.poke_and_ask(),
            90..=91 => self.short_loan(),
            92..=94 => self.forge_and_ask(),
            other => self.call(other),
        }
    }

    /// A call that is refused once a table is accepted, or one that shows it.
    fn call(&mut self, which: usize) {
        match which {
            95 => self.say("close"),
            96 => self.piece(b"9 9 0 0 1 0 0 0 0\n"),
            97 if self.rng.chance(50) => self.spill(),
            97 => {
                self.say(&format!("forge stage {OPEN}"));
                self.ask_any();
                self.say("close")
            }
            98 => self.say("record"),
            _ => self.say("sum"),
        };
    }

    fn forge_and_ask(&mut self) {
        self.forge();
        self.ask_any();
        if self.rng.chance(50) {
            self.say("record");
        }
        self.say(&format!("forge stage {ACCEPTED}"));
        self.ask_any();
    }

    fn ask_any(&mut self) {
        match self.rng.below(4) {
            0 => self.ask_coefficient(),
            1 => self.ask_force(),
            2 => self.ask_display(),
            _ => {
                self.say("listing");
            }
        }
    }

    /// Ticks that the table holds, rising; some ticks if it holds none.
    fn table_ticks(&self) -> Vec<u32> {
        let ticks: Vec<u32> = self.bench.record.rising_ticks().iter().map(|&(tick, _)| tick).collect();
        if ticks.is_empty() {
            vec![1_000]
        } else {
            ticks
        }
    }

    /// The numbers of the table's nodes; none for a record that is not valid.
    fn table_nodes(&self) -> Vec<usize> {
        let record = &self.bench.record;
        if !record.valid() {
            return Vec::new();
        }
        record.nodes().iter().map(|&(_, number)| number).collect()
    }

    fn table_headings(&self) -> Vec<i32> {
        let held = (self.bench.record.headings_held as usize).clamp(1, 4);
        self.bench.record.headings[..held].to_vec()
    }

    /// A tick of the table, or between two of its ticks.
    fn tick_inside(&mut self) -> u32 {
        let ticks = self.table_ticks();
        if self.rng.chance(45) {
            return self.rng.pick(&ticks);
        }
        let at = self.rng.below(ticks.len());
        let (low, high) = (ticks[at], ticks[(at + 1).min(ticks.len() - 1)]);
        self.rng.between(i64::from(low), i64::from(high)) as u32
    }

    fn tick_near(&mut self) -> u32 {
        if self.rng.chance(97) {
            return self.tick_inside();
        }
        let ticks = self.table_ticks();
        let (low, high) = (ticks[0], ticks[ticks.len() - 1]);
        self.rng.pick(&[low.saturating_sub(1), high.saturating_add(1), 0, 99, 10_001, u32::MAX])
    }

    fn heading_near(&mut self) -> i32 {
        let headings = self.table_headings();
        let heading = self.rng.pick(&headings);
        if self.rng.chance(95) {
            return self.either_sign(heading);
        }
        let turn = self.rng.pick(&[360_000, -360_000]);
        let others = [heading.saturating_add(1), heading.saturating_sub(1), heading.saturating_add(turn)];
        self.rng.pick(&[&others[..], &[180_000, -180_000, i32::MIN, i32::MAX]].concat())
    }

    fn ask_coefficient(&mut self) {
        let (tick1, tick2) = (self.tick_near(), self.tick_near());
        let heading1 = self.heading_near();
        let single = self.bench.record.choices.coverage == SINGLE;
        let heading2 = if single && self.rng.chance(85) { heading1 } else { self.heading_near() };
        self.say(&format!("coefficient {tick1} {heading1} {tick2} {heading2}"));
    }

    fn sea(&mut self) {
        let ticks = self.sea_ticks();
        let headings = self.sea_headings(ticks.len());
        let mut parts = self.amplitudes(ticks.len());
        if !ticks.is_empty() && self.rng.chance(3) {
            let at = self.rng.below(parts.len());
            parts[at] = self.rng.pick(&[i32::MIN, i32::MAX, 40_001]);
        }

        let mut text = format!("sea {}\n", ticks.len());
        for (index, tick) in ticks.iter().enumerate() {
            text.push_str(&format!("{tick} {} {} {}\n", headings[index], parts[2 * index], parts[2 * index + 1]));
        }
        self.say_bytes(text.as_bytes());
    }

    /// Rising ticks of the table or between them; at times two of them fall or are equal, or one is past an end.
    fn sea_ticks(&mut self) -> Vec<u32> {
        let mut ticks = self.rising_ticks();
        let count = ticks.len();
        if count > 1 && self.rng.chance(6) {
            let at = self.rng.below(count - 1);
            if self.rng.chance(50) {
                ticks.swap(at, at + 1);
            } else {
                ticks[at + 1] = ticks[at];
            }
        }
        if count > 0 && self.rng.chance(8) {
            let table = self.table_ticks();
            if self.rng.chance(50) {
                ticks[0] = self.rng.pick(&[0, 99, table[0].saturating_sub(1)]);
            } else {
                ticks[count - 1] = self.rng.pick(&[u32::MAX, 10_001, table[table.len() - 1].saturating_add(1)]);
            }
        }
        ticks
    }

    fn rising_ticks(&mut self) -> Vec<u32> {
        let count = match self.rng.below(20) {
            0 => 0,
            1..=4 => 1,
            5..=14 => self.rng.below(5) + 2,
            15..=16 => self.rng.below(20) + 5,
            17 => 64,
            18 => self.rng.below(40) + 25,
            _ => self.rng.below(6) + 65,
        };
        let mut ticks: Vec<u32> = Vec::new();
        for _ in 0..3 * count {
            let tick = self.tick_inside();
            if ticks.len() < count && !ticks.contains(&tick) {
                ticks.push(tick);
            }
        }
        ticks.sort();
        if count > 64 {
            while ticks.len() < count {
                let next = ticks.last().map_or(1_000, |tick| tick.saturating_add(1));
                ticks.push(next);
            }
        }
        ticks
    }

    /// Headings of the table, one for all lines in single coverage; at times one is another.
    fn sea_headings(&mut self, count: usize) -> Vec<i32> {
        let single = self.bench.record.choices.coverage == SINGLE;
        let table_headings = self.table_headings();
        let first = self.rng.pick(&table_headings);
        let mut headings: Vec<i32> =
            (0..count).map(|_| if single { first } else { self.rng.pick(&table_headings) }).collect();
        if count > 0 && self.rng.chance(12) {
            let at = self.rng.below(count);
            headings[at] = if self.rng.chance(50) { self.rng.pick(&table_headings) } else { first.saturating_add(1) };
        }
        headings.into_iter().map(|heading| self.either_sign(heading)).collect()
    }

    /// Two parts for each line; together 40,000 at most, at times exactly, at times one more.
    fn amplitudes(&mut self, count: usize) -> Vec<i32> {
        if count == 0 {
            return Vec::new();
        }
        let each = 40_000 / (2 * count as i64);
        let most = self.rng.pick(&[each, each, 1_000.min(each), 3, 0]);
        let mut parts: Vec<i32> = (0..2 * count).map(|_| self.rng.between(-most, most) as i32).collect();
        if self.rng.chance(25) {
            let total: i64 = parts.iter().map(|&part| i64::from(part).abs()).sum();
            let room = 40_000 - total + if self.rng.chance(30) { 1 } else { 0 };
            let at = self.rng.below(parts.len());
            parts[at] += if parts[at] < 0 { -room } else { room } as i32;
        }
        parts
    }

    fn second(&mut self) -> u64 {
        match self.rng.below(10) {
            0 => 0,
            1 => u64::MAX,
            2 => 10_000 * self.rng.between(0, 1_000_000_000) as u64,
            3 => 2_500 * self.rng.between(0, 12) as u64,
            4..=6 => self.rng.between(0, 100_000) as u64,
            7 => u64::from(self.rng.next() as u32),
            _ => self.rng.next(),
        }
    }

    fn ask_force(&mut self) {
        let second = self.second();
        self.say(&format!("force {second}"));
    }

    fn ask_display(&mut self) {
        let second = self.second();
        let bits = match self.rng.below(10) {
            0..=1 => self.rng.pick(&[
                0.0_f64.to_bits(),
                (-0.0_f64).to_bits(),
                (-1.0_f64).to_bits(),
                1000.0_f64.to_bits() + 1,
                f64::INFINITY.to_bits(),
                f64::NEG_INFINITY.to_bits(),
                f64::NAN.to_bits(),
                0x7FF0_0000_0000_0001,
                0xFFF8_0000_0000_0000,
                u64::MAX,
            ]),
            2 => self.rng.next(),
            3 => self.rng.pick(&[
                1,
                0x0010_0000_0000_0000,
                0x000F_FFFF_FFFF_FFFF,
                1000.0_f64.to_bits(),
                1000.0_f64.to_bits() - 1,
            ]),
            4..=5 => self.rng.pick(&[0.5_f64, 1.0, 2.0, 0.1, 10.055, 999.5]).to_bits(),
            // Any positive double up to 1,000.
            _ => self.rng.next() % (1000.0_f64.to_bits() + 1),
        };
        self.say(&format!("display {second} {bits}"));
    }

    /// Two node numbers, near the used ones.
    fn near_nodes(&mut self) -> (usize, usize) {
        if self.rng.chance(8) {
            return (self.rng.below(80), self.rng.below(80));
        }
        let nodes = self.table_nodes();
        if nodes.is_empty() {
            return (self.rng.below(2), self.rng.below(2));
        }
        (self.rng.pick(&nodes), self.rng.pick(&nodes))
    }

    fn cell_values(&mut self) -> (i64, i64) {
        let wild = [1_000_000_001, -1_000_000_001, i64::from(i32::MIN), i64::from(i32::MAX)];
        match self.rng.below(4) {
            0 => (self.part(), self.part()),
            1 => (self.rng.pick(&wild), self.part()),
            2 => (self.part(), self.rng.pick(&wild)),
            _ => (self.rng.pick(&[1_000_000_000, -1_000_000_000]), self.part()),
        }
    }

    /// Somebody else writes a cell; the queries read it as it is, or refuse it by 15.
    fn poke_and_ask(&mut self) {
        let (r, c) = self.near_nodes();
        let (re, im) = self.cell_values();
        let flag = self.rng.pick(&[0, 1, 255]);
        let before = self.say(&format!("cell {r} {c}"));
        self.say(&format!("poke {r} {c} {re} {im} {flag}"));
        for _ in 0..self.rng.between(1, 3) {
            self.ask_any();
        }
        if self.rng.chance(75) {
            // Put it back.
            let old = before.trim_start_matches("cell ").trim_end();
            self.say(&format!("poke {r} {c} {old}"));
        }
    }
}

#[cfg(test)]
mod tests {
    use super::*;

    #[test]
    fn cases_are_reproducible_and_bring_every_answer() {
        let script: Vec<u8> = (0..300).flat_map(case).collect();
        assert_eq!(script, (0..300).flat_map(case).collect::<Vec<u8>>());
        assert_ne!(case(7), case(8));
        let answers = Bench::new().run(&script);
        for number in 1..=17 {
            let wanted = format!("refused {number} ");
            let times = answers.lines().filter(|line| line.starts_with(&wanted)).count();
            assert!(times >= 5, "refusal {number}: {times}");
        }
        let words = "accepted force moment coefficient going QTF ? poked spilt forged sum record cell sea lent open";
        for word in words.split(' ') {
            assert!(answers.lines().filter(|line| line.starts_with(word)).count() >= 5, "{word}");
        }
    }

    #[test]
    fn a_case_answers_the_same_alone_and_behind_others() {
        let mut bench = Bench::new();
        for seed in 0..60 {
            assert_eq!(bench.run(&case(seed)), Bench::new().run(&case(seed)), "{seed}");
        }
    }

    #[test]
    fn every_notation_says_its_value() {
        let mut writer = Writer { out: Vec::new(), bench: Bench::new(), rng: Rng(1) };
        for _ in 0..20_000 {
            let (value, places) = (writer.part(), writer.rng.pick(&[3, 6]));
            for field in [writer.notation(value, places), writer.decimal(value, places)] {
                let decimal = crate::fields::read(field.as_bytes()).unwrap_or_else(|| panic!("{field}"));
                assert_eq!(decimal.in_units(places as i32), i128::from(value), "{field}");
            }
        }
    }
}
