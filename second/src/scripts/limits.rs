//! Cases that go to a limit of document 01 on purpose: every cut of a short text, seas on both sides
//! of each limit, scales of every kind, every part of an accepted record forged, and every notation
//! that the form of a field allows.

use super::{Plan, Values, Writer};
use crate::rows::{FULL, SINGLE};
use crate::table::ACCEPTED;

/// A sea line as it is written: tick, heading, two amplitude parts.
type Line = (u32, i32, i64, i64);

/// The last double at which a display still answers.
const MOST_SCALE: f64 = 1000.0;

impl Writer {
    /// A short text, whole or damaged, cut once at every place.
    pub(super) fn every_cut(&mut self) {
        let component = self.rng.between(1, 2);
        let choices = format!("open {} {component} {}", self.rng.below(2), self.rng.below(2));
        let rows = [
            "9 9 0 0 1 .5 0 .5 0",
            "8 8 0 0 2 1 0 1 0",
            "9 8 0 0 1 1.41421 0 1e0 1",
            "9 9 0 0 1 .500007 0 5E-1 -0",
            "9 9 0 1 1 2.82843 0 2 2",
        ];
        let others = [
            "",
            " ",
            "PER1",
            "9 9 0 0 1 .5 0 .5",
            "9 9 0 0 1 .5 0 .5 x",
            "9 9 0 0 1 .5 0 4e3 0",
            "9 9 0 0 1 .6 0 .6 0",
            "9 9 0 0 1 .4 0 .5 0",
            "9 9 0 0 1 .500008 0 .5 0",
            "9 9 0 0 1 0 0 .5 1",
            "9 9 0 0 1 -.5 0 .5 0",
            // Passed over where only one heading is asked, or another component; else 17, and 6.
            "9 9 0 1 1 2.8 0 2 2",
            "9 9 0 0 2 -1 0 .5 0",
            // One heading.
            "9 9 180 -180 1 .5 0 .5 0",
            "9 9 -180 180 1 .5 0 0 .5",
        ];
        let mut text = String::new();
        for _ in 0..self.rng.between(1, 3) {
            text.push_str(if self.rng.chance(82) { self.rng.pick(&rows) } else { self.rng.pick(&others) });
            text.push_str(self.rng.pick(&["\n", "\n", "\r\n", "\n\n"]));
        }
        if self.rng.chance(40) {
            text.pop();
        }
        for cut in 0..=text.len() {
            self.say(&choices);
            self.piece(&text.as_bytes()[..cut]);
            self.piece(&text.as_bytes()[cut..]);
            self.say("close");
            self.say("record");
            self.say("sum");
        }
    }

    /// Fields on either side of each limit of their form, one row each: the row is used or it is 5.
    pub(super) fn near_forms(&mut self) {
        let column = self.rng.pick(&[0, 2, 5, 6, 7, 7, 8]);
        for _ in 0..20 {
            let field = self.near_form();
            let mut fields = ["9", "8", "0", "0", "1", "0", "0", "0", "0"].map(String::from);
            match column {
                5 => fields[7] = self.part_of(&field),
                7 | 8 => fields[5] = self.modulus_of(&field),
                _ => {}
            }
            fields[column] = field;
            self.say("open 1 1 0");
            self.piece((fields.join(" ") + "\n").as_bytes());
            self.say("cell 0 1");
            self.say("record");
        }
    }

    fn near_form(&mut self) -> String {
        let digits = self.rng.pick(&[0, 1, 2, 14, 15, 15, 16, 16, 17]);
        let zeros = self.rng.below(digits + 1);
        let mut field: String =
            (0..digits).map(|at| if at < zeros { '0' } else { self.rng.pick(&['1', '5', '9']) }).collect();
        for _ in 0..self.rng.pick(&[0, 1, 1, 1, 1, 2]) {
            let at = self.rng.gap(field.as_bytes());
            field.insert(at, '.');
        }
        field.insert_str(0, self.rng.pick(&["", "", "", "-", "+", "--", "+-"]));
        if self.rng.chance(50) {
            field.push_str(self.rng.pick(&["E", "e", "E+", "E-", "e+", "e-", "D", "E--", "EE"]));
            field.push_str(self.rng.pick(&["", "0", "1", "01", "09", "12", "99", "001", "100", "1.", "x"]));
        }
        // An empty field would make the row one of eight.
        if field.is_empty() {
            "x".to_string()
        } else {
            field
        }
    }

    /// Somebody else writes while the table is open: the cells and flags of a row or its mirror, or the kept bytes of
    /// a line that is not finished. The rest of the text then agrees, is 9, 11 or 4, or finds a record that is not valid.
    pub(super) fn written_while_open(&mut self) {
        let kind = self.rng.below(2);
        self.say(&format!("open {kind} 1 0"));
        self.piece(b"9 9 0 0 1 .5 0 .5 0\n8 8 0 0 1 .25 0 .25 0\n9 8 0 0 1 .760345 0 .75 .125\n8 9 0");
        for _ in 0..self.rng.between(1, 3) {
            if self.rng.chance(60) {
                let (r, c) = self.rng.pick(&[(0, 0), (1, 1), (0, 1), (1, 0), (2, 2), (79, 79)]);
                let re = self.rng.pick(&[0, 500_000, 250_000, 750_000, 750_001, i64::from(i32::MIN)]);
                let im = self.rng.pick(&[0, 125_000, -125_000, 125_000, -125_001]);
                let flag = self.rng.pick(&[0, 0, 1, 2, 128, 255]);
                self.say(&format!("poke {r} {c} {re} {im} {flag}"));
            } else {
                let at = self.rng.pick(&[0, 2, 4, 5, 5, 6, 159]);
                let byte = self.rng.pick(b"\n\n\n \t\r0x");
                self.say(&format!("forge byte {at} {byte}"));
            }
        }
        let mirror = if kind == 0 { "-.125" } else { ".125" };
        let rest = format!(
            " 0 1 .760345 0 .75 {mirror}\n{}",
            self.rng.pick(&["", "9 8 0 0 1 .76035 0 .75 .125\n", "8 8 0 0 1 .25 0 .25 0\n", "8 8 0 0 1 .2 0 .25 0\n"])
        );
        self.piece(rest.as_bytes());
        self.say("record");
        self.say("close");
        self.say("sum");
        self.after_refusal();
        if self.rng.chance(50) {
            // Opening takes back all of it.
            self.say(&format!("open {kind} 1 0"));
            self.say("sum");
        }
    }

    /// An accepted table whose lowest and highest frequency are far enough apart for 70 lines.
    fn wide_table(&mut self) -> Plan {
        let ticks = match self.rng.below(3) {
            0 => vec![500, 570],
            1 => vec![2_000, 1_000, 400],
            _ => vec![100, 10_000, self.rng.between(101, 9_999) as u32],
        };
        let headings = self.rng.pick(&[vec![0], vec![0, 90_000], vec![180_000, -179_999, 7]]);
        let coverage = self.rng.pick(&[SINGLE, FULL]);
        let plan =
            Plan { kind: self.rng.below(2) as u8, component: self.rng.between(1, 6) as u8, coverage, ticks, headings };
        self.say(&format!("open {} {} {}", plan.kind, plan.component, plan.coverage));
        let rows = self.all_rows(&plan);
        let text = self.text_of(&plan, rows, 0);
        self.piece(&text);
        self.say("close");
        plan
    }

    /// Seas on both sides of each limit, each with a force, some with a display.
    pub(super) fn sea_limits(&mut self) {
        let plan = self.wide_table();
        let heading = plan.headings[0];
        let low = plan.ticks.iter().copied().min().unwrap_or(0);
        let count = self.rng.pick(&[1, 2, 3, 63, 64]);
        let even: Vec<Line> = (0..count).map(|at| (low + at, self.either_sign(heading), 0, 0)).collect();
        for seas in [self.long_seas(low, heading), self.tall_seas(&even), self.misplaced_seas(&plan, &even)] {
            for sea in seas {
                self.say_sea(&sea);
                self.ask_force();
                if self.rng.chance(20) {
                    self.ask_display();
                }
            }
        }
        self.coefficient_limits(&plan);
    }

    /// Both points of a coefficient at, between and past the table's ends, with headings that it has and has not.
    fn coefficient_limits(&mut self, plan: &Plan) {
        let low = plan.ticks.iter().copied().min().unwrap_or(0);
        let high = plan.ticks.iter().copied().max().unwrap_or(0);
        let ticks = [low, low + 1, high - 1, high, low - 1, high + 1, 0, u32::MAX];
        let (first, last) = (plan.headings[0], plan.headings[plan.headings.len() - 1]);
        let headings = [first, first, first, last, first + 1, first - 360_000, i32::MIN, i32::MAX];
        for _ in 0..16 {
            let (one, other) = (self.rng.pick(&ticks), self.rng.pick(&ticks));
            let [from, to] = [self.rng.pick(&headings), self.rng.pick(&headings)].map(|one| self.either_sign(one));
            self.say(&format!("coefficient {one} {from} {other} {to}"));
        }
    }

    fn say_sea(&mut self, lines: &[Line]) {
        let mut text = format!("sea {}\n", lines.len());
        for (tick, heading, re, im) in lines {
            text.push_str(&format!("{tick} {heading} {re} {im}\n"));
        }
        self.say_bytes(text.as_bytes());
    }

    /// 63 to 70 lines: 64 are the most.
    fn long_seas(&mut self, low: u32, heading: i32) -> Vec<Vec<Line>> {
        let mut seas = Vec::new();
        for count in [63, 64, 65, 66, 70] {
            let size = self.rng.pick(&[1, 7, 312]);
            let mut sea: Vec<Line> = (0..count).map(|at| (low + at, self.either_sign(heading), size, -size)).collect();
            if count == 65 && self.rng.chance(50) {
                // The line that is dropped would be refused by itself; the count alone is 12.
                sea[64] = (0, heading + 1, 0, 0);
            }
            seas.push(sea);
        }
        seas
    }

    /// A of 40,000 and 40,001, in one part or spread, and parts of -2^31.
    fn tall_seas(&mut self, even: &[Line]) -> Vec<Vec<Line>> {
        let mut seas = Vec::new();
        for most in [39_999, 40_000, 40_001] {
            let mut sea = even.to_vec();
            let mut left: i64 = most;
            for line in &mut sea {
                let (re, im) = (self.rng.between(0, left / 2), self.rng.between(0, left / 4));
                left -= re + im;
                (line.2, line.3) =
                    (if self.rng.chance(50) { -re } else { re }, if self.rng.chance(50) { -im } else { im });
            }
            let at = self.rng.below(sea.len());
            sea[at].2 += if sea[at].2 < 0 { -left } else { left };
            seas.push(sea);
        }
        let least = i64::from(i32::MIN);
        for (re, im) in [(least, 0), (0, least), (least, least), (i64::from(i32::MAX), 1), (40_001, 0), (0, -40_001)] {
            let mut sea = even.to_vec();
            let at = self.rng.below(sea.len());
            (sea[at].2, sea[at].3) = (re, im);
            seas.push(sea);
        }
        // Every part the least: their sum is past 32 bits, and past 2^37 with 64 lines.
        seas.push(even.iter().map(|line| (line.0, line.1, least, least)).collect());
        seas
    }

    /// Equal and falling ticks, ticks past either end, headings that are not in the table, and two of these at once.
    fn misplaced_seas(&mut self, plan: &Plan, even: &[Line]) -> Vec<Vec<Line>> {
        let low = plan.ticks.iter().copied().min().unwrap_or(0);
        let high = plan.ticks.iter().copied().max().unwrap_or(0);
        let heading = plan.headings[0];
        let other = plan.headings[plan.headings.len() - 1];
        let none = self.rng.pick(&[heading + 1, 180_001, -180_001, i32::MIN, i32::MAX, 45_000]);
        let mut seas = vec![
            vec![(low, heading, 3, 4), (low, heading, 3, 4)],
            vec![(low + 1, heading, 3, 4), (low, heading, 3, 4)],
            vec![(low - 1, heading, 3, 4)],
            vec![(high, heading, 3, 4), (high + 1, heading, 3, 4)],
            vec![(low, none, 3, 4)],
            vec![(low, heading, 3, 4), (high, other, 3, 4)],
            vec![(low, heading, 3, 4), (high, none, 3, 4)],
            vec![(low - 1, none, 3, 4)],
            vec![(low, none, 3, 4), (high + 1, none, 3, 4)],
            vec![(0, none, 3, 4), (u32::MAX, none, 3, 4)],
            vec![(high + 1, heading, 3, 4), (high + 1, heading, 3, 4)],
            vec![(low - 1, none, 40_001, 0)],
        ];
        let mut late = even.to_vec();
        let last = late.len() - 1;
        late[last].1 = none;
        seas.push(late.clone());
        late[last].0 = high + 1;
        seas.push(late);
        seas
    }

    /// Displays with scales of every kind, on a table and a sea that answer.
    pub(super) fn every_scale(&mut self) {
        let plan = self.wide_table();
        let low = plan.ticks.iter().copied().min().unwrap_or(0);
        let size = self.rng.pick(&[0, 1, 500, 20_000]);
        let [one, other] = [plan.headings[0]; 2].map(|heading| self.either_sign(heading));
        self.say_sea(&[(low, one, size, 0), (low + 70, other, 1, -size / 2)]);
        let past = MOST_SCALE.to_bits() + 1;
        let infinity = f64::INFINITY.to_bits();
        let sign = 1_u64 << 63;
        let mut scales = vec![0, sign, 1, sign + 1, (1 << 52) - 1, 1 << 52, past - 1, past, past - 2, sign + past - 1];
        scales.extend([infinity, infinity - 1, sign + infinity, infinity + 1, sign + infinity + 1, u64::MAX, sign - 1]);
        scales.extend([
            1.0_f64.to_bits(),
            0.5_f64.to_bits(),
            (-0.5_f64).to_bits(),
            0.1_f64.to_bits(),
            999.9_f64.to_bits(),
        ]);
        // A quiet NaN and one that signals, both with some payload; any subnormal; any double in range.
        scales.push(infinity + (1 << 51) + self.rng.next() % (1 << 51));
        scales.push(sign + infinity + 1 + self.rng.next() % (1 << 50));
        scales.push(self.rng.next() % (1 << 52));
        scales.push(self.rng.next() % past);
        for bits in scales {
            let second = self.second();
            self.say(&format!("display {second} {bits}"));
        }
    }

    /// Each part of an accepted record set to a value on either side of valid, a query, and the part as it was.
    pub(super) fn forged_when_accepted(&mut self) {
        let plan = self.wide_table();
        let ticks = &plan.ticks;
        let mut forgings: Vec<(String, i64, Vec<i64>)> = vec![
            ("stage".into(), 2, vec![0, 1, 3, 7, 11, 12, 16, 17, 18, 255]),
            ("kind".into(), i64::from(plan.kind), vec![0, 1, 2, 255]),
            ("component".into(), i64::from(plan.component), vec![0, 1, 3, 4, 6, 7, 255]),
            ("coverage".into(), i64::from(plan.coverage), vec![0, 1, 2, 255]),
            ("lines".into(), 1, vec![0, 1_000_000, 1_000_001, i64::from(u32::MAX)]),
            ("headings".into(), plan.headings.len() as i64, vec![0, 1, 4, 5, 255]),
            ("kept".into(), 0, vec![161, 255]),
        ];
        let held = i64::from(self.bench.record.ticks[0]);
        forgings.push(("tick 0".into(), held, vec![0, 99, 100, 10_000, 10_001, i64::from(ticks[1]), 1_234]));
        forgings.push(("tick 19".into(), 0, vec![held, 99, 100, 10_001, 777, i64::from(u32::MAX)]));
        let heading = i64::from(self.bench.record.headings[0]);
        forgings.push((
            "heading 0".into(),
            heading,
            vec![-180_001, -180_000, -179_999, 180_000, 180_001, 33, i64::from(i32::MIN)],
        ));
        // No table here has four headings: this slot is not held.
        forgings.push(("heading 3".into(), 0, vec![-180_000, 180_000, i64::from(i32::MIN)]));
        for (part, before, values) in forgings {
            for value in values {
                self.say(&format!("forge {part} {value}"));
                self.ask_any();
                if part == "stage" {
                    // A stage that is stuck repeats its refusal here, and one that is not valid is 2.
                    self.say("close");
                }
                self.say(&format!("forge {part} {before}"));
            }
        }
        self.say(&format!("forge stage {ACCEPTED}"));
        self.say("record");
        self.ask_any();
    }

    /// A value in units of ten to the minus `places` in any notation: zeros before and behind, the point anywhere or
    /// nowhere, an exponent that makes up for it, digits that rounding drops again.
    pub(super) fn notation(&mut self, value: i64, places: usize) -> String {
        let (mut digits, mut power) = self.rounds_to(value.unsigned_abs(), -(places as i64));
        while digits.is_multiple_of(10) && digits > 0 && self.rng.chance(60) {
            (digits, power) = (digits / 10, power + 1);
        }
        let mut text = digits.to_string();
        while text.len() < 15 && self.rng.chance(15) {
            text.insert(0, '0');
        }
        while text.len() < 15 && self.rng.chance(15) {
            text.push('0');
            power -= 1;
        }
        let point = self.rng.below(text.len() + 1);
        let mut exponent = power + (text.len() - point) as i64;
        if digits == 0 && self.rng.chance(50) {
            exponent = self.rng.between(-99, 99);
        }
        if point < text.len() || self.rng.chance(50) {
            text.insert(point, '.');
        }
        let sign = if value < 0 { "-" } else { self.rng.pick(&["", "", "+"]) };
        let sign = if value == 0 { self.rng.pick(&["", "+", "-"]) } else { sign };
        format!("{sign}{text}{}", self.exponent(exponent))
    }

    /// Digits and a power of ten that round to `size` units of ten to the `power`.
    fn rounds_to(&mut self, size: u64, power: i64) -> (u64, i64) {
        let more = self.rng.pick(&[0, 0, 0, 1, 2, 4]);
        let unit = 10_u64.pow(more);
        if more == 0 || size >= 10_u64.pow(15 - more) {
            return (size, power);
        }
        let half = unit / 2;
        let tie = size.is_multiple_of(2);
        let drop = self.rng.pick(&[0, 1, half - 1, half]);
        let digits = match drop {
            drop if drop == half && !tie => size * unit + half - 1,
            drop if size > 0 && self.rng.chance(50) => size * unit - drop,
            drop => size * unit + drop,
        };
        (digits, power - i64::from(more))
    }

    fn exponent(&mut self, exponent: i64) -> String {
        if exponent == 0 && self.rng.chance(60) {
            return String::new();
        }
        let letter = self.rng.pick(&["E", "e"]);
        let sign = match exponent {
            0 => self.rng.pick(&["", "+", "-"]),
            1.. => self.rng.pick(&["", "+"]),
            _ => "-",
        };
        let size = exponent.abs();
        if self.rng.chance(50) {
            format!("{letter}{sign}{size:02}")
        } else {
            format!("{letter}{sign}{size}")
        }
    }

    /// A line of this row that is short enough, whatever its notations.
    pub(super) fn line(&mut self, component: u8, row: &Values) -> Vec<u8> {
        loop {
            let fields = self.fields(component, row);
            let line = self.join(&fields);
            if line.len() <= 158 {
                return line;
            }
        }
    }
}
