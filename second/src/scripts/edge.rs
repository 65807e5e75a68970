//! M-102 in made cases: headings at 180 degrees in both signs and every notation, in rows, seas and coefficient calls,
//! and records that hold -180,000.

use super::{Plan, Values, Writer};
use crate::rows::{FULL, SINGLE};

/// Around both ends of a heading's range: read as 180, out of range, or another heading next to it.
const NEAR_180: [&str; 36] = [
    "180",
    "180.0",
    "+180.",
    "1.8E2",
    "180.0004",
    "180.0005",
    "180.00051",
    "180.0006",
    "180.001",
    "179.9996",
    "179.9995",
    "179.9994",
    "179.999",
    "-180",
    "-180.0",
    "-180.",
    "-1.8E2",
    "-0.180000E+03",
    "-180000E-3",
    "-.0018e5",
    "-180.0004",
    "-180.00049",
    // A tie, and -180,000 is the even one.
    "-180.0005",
    "-180.00050",
    "-180.00051",
    "-180.0006",
    "-180.001",
    "-180.0015",
    "-179.9996",
    "-179.99951",
    "-179.9995",
    "-179.99949",
    "-179.9994",
    "-179.999",
    "-360",
    "540",
];

/// The same direction, in a few bytes.
const SAYS_180: [&str; 14] = [
    "180",
    "180",
    "180.0",
    "1.8E2",
    "179.9996",
    "180.0005",
    "-180",
    "-180",
    "-180.0",
    "-1.8E2",
    "-180.0004",
    "-179.9996",
    "-180.0005",
    "-179.9995",
];

/// Texts whose answer hinges on what H is, in single or in full coverage; C is the component.
const HINGES: [&str; 17] = [
    // 7, 17, or passed over if these were two headings.
    "9 9 H H C 5 0 0 5\n",
    "9 9 H H C 5 0 5 0\n",
    "9 9 H H C 4 0 5 0\n",
    "9 9 H H C 0 0 0 0.0000005\n",
    // A mirror that says the same, and one that does not.
    "9 8 H H C 5 0 3 4\n8 9 H H C 5 0 3 -4\n",
    "9 8 H H C 5 0 3 4\n8 9 H H C 5 0 3 4\n",
    // A row again, and 9.
    "9 9 H H C 5 0 5 0\n9 9 H H C 5 0 5 0\n",
    "9 9 H H C 5 0 5 0\n9 9 H H C 6 0 6 0\n",
    "9 9 0 H C 5 0 5 0\n9 9 H 0 C 6 0 6 0\n",
    // Four headings, a fifth, and none.
    "9 9 0 0 C 0 0 0 0\n9 9 1 1 C 0 0 0 0\n9 9 2 2 C 0 0 0 0\n9 9 H H C 0 0 0 0\n9 9 H H C 0 0 0 0\n",
    "9 9 H H C 0 0 0 0\n9 9 0 0 C 0 0 0 0\n9 9 1 1 C 0 0 0 0\n9 9 H H C 0 0 0 0\n9 9 2 2 C 0 0 0 0\n9 9 3 3 C 0 0 0 0\n",
    "9 9 0 0 C 0 0 0 0\n9 9 1 1 C 0 0 0 0\n9 9 2 2 C 0 0 0 0\n9 9 3 3 C 0 0 0 0\n9 9 H H C 0 0 0 0\n",
    // Every pair is there, in single coverage or in both; or one is missing.
    "9 9 H H C 5 0 5 0\n8 8 H H C 5 0 5 0\n9 8 H H C 5 0 3 4\n",
    "9 9 H H C 5 0 5 0\n9 9 0 0 C 5 0 5 0\n9 9 0 H C 5 0 3 4\n",
    "9 9 H H C 5 0 5 0\n9 9 -179.999 -179.999 C 5 0 5 0\n9 9 H -179.999 C 5 0 3 4\n",
    "9 9 H H C 5 0 5 0\n9 9 0 0 C 5 0 5 0\n",
    "9 9 H H C 5 0 5 0\n8 8 H H C 5 0 5 0\n",
];

/// How all headings of a text at 180 are written.
#[derive(Clone, Copy)]
enum Signs {
    Plus,
    Minus,
    Mixed,
}

impl Writer {
    /// 180 or -180, which are one direction; any other heading as it is.
    pub(super) fn either_sign(&mut self, heading: i32) -> i32 {
        match heading {
            180_000 | -180_000 => self.rng.pick(&[180_000, -180_000]),
            other => other,
        }
    }

    /// A heading as a field of a row.
    pub(super) fn heading_field(&mut self, heading: i32) -> String {
        let heading = self.either_sign(heading);
        self.decimal(i64::from(heading), 3)
    }

    pub(super) fn edge(&mut self) {
        match self.rng.below(14) {
            0..=3 => self.two_signs(),
            4..=5 => self.near_180(),
            6..=7 => self.hinges(),
            8..=9 => self.points_at_180(),
            10..=12 => self.minus_in_slots(),
            _ => self.lines_of_160(),
        }
    }

    /// Few frequencies, and headings among which 180 stands first, last, or not at all.
    fn edge_plan(&mut self) -> Plan {
        let headings = self.rng.pick(&[
            vec![180_000],
            vec![180_000],
            vec![180_000, 0],
            vec![0, 180_000],
            vec![-179_999, 180_000],
            vec![90_000, 180_000, -90_000],
            vec![0, -90_000],
        ]);
        Plan {
            kind: self.rng.below(2) as u8,
            component: self.rng.between(1, 6) as u8,
            coverage: self.rng.pick(&[SINGLE, FULL]),
            ticks: self.rng.pick(&[vec![1_000], vec![1_250, 1_000], vec![1_000, 1_250]]),
            headings,
        }
    }

    fn open_edge(&mut self, plan: &Plan) {
        self.say(&format!("open {} {} {}", plan.kind, plan.component, plan.coverage));
    }

    /// The same text once with a sign at 180, once without, and once with some: all that is answered is the same.
    fn two_signs(&mut self) {
        let plan = self.edge_plan();
        let mut rows = self.all_rows(&plan);
        if self.rng.chance(45) {
            self.spoil(&plan, &mut rows);
        }
        let rows: Vec<Values> = rows.into_iter().filter(|row| row.ticks[0] != 0).collect();
        let lines: Vec<Vec<String>> = rows.iter().map(|row| self.fields(plan.component, row).to_vec()).collect();
        let mut ways = vec![Signs::Plus, Signs::Minus, Signs::Mixed];
        self.rng.shuffle(&mut ways);
        for signs in ways {
            let mut text = String::new();
            for (row, fields) in rows.iter().zip(&lines) {
                text.push_str(&self.signed(row, fields, signs).join(" "));
                text.push('\n');
            }
            self.open_edge(&plan);
            self.send_or_say(text.as_bytes());
            self.say("record");
            let answer = self.say("close");
            self.say("record");
            self.say("sum");
            if answer.starts_with("accepted") {
                self.say("listing");
                self.ask_coefficient();
            }
        }
        self.question();
    }

    /// The fields of a row, those at 180 with the sign that they are to have.
    fn signed(&mut self, row: &Values, fields: &[String], signs: Signs) -> Vec<String> {
        let mut fields = fields.to_vec();
        for column in 0..2 {
            if row.headings[column] != 180_000 {
                continue;
            }
            let minus = match signs {
                Signs::Plus => false,
                Signs::Minus => true,
                Signs::Mixed => self.rng.chance(50),
            };
            let size = fields[2 + column].trim_start_matches(['-', '+']);
            fields[2 + column] = if minus { format!("-{size}") } else { size.to_string() };
        }
        fields
    }

    /// Rows with one field near 180 or both, each behind an opening of its own.
    fn near_180(&mut self) {
        for _ in 0..10 {
            let plan = self.edge_plan();
            self.open_edge(&plan);
            if self.rng.chance(30) {
                let before = self.rng.pick(&["9 9 180 180 C 5 0 5 0\n", "9 9 -180 -180 C 5 0 5 0\n"]);
                self.piece(before.replace('C', &plan.component.to_string()).as_bytes());
            }
            let field = self.rng.pick(&NEAR_180);
            let other = self.rng.pick(&[field, field, "180", "-180", "0", "-179.999"]);
            let (one, two) = self.rng.pick(&[(field, other), (other, field)]);
            let component = if self.rng.chance(90) { plan.component } else { plan.component % 6 + 1 };
            let rest = self.rng.pick(&["5 0 5 0", "5 0 5 0", "5 0 3 4", "4 0 5 0", "6 0 6 0"]);
            let row = format!("9 9 {one} {two} {component} {rest}\n");
            self.send_or_say(row.as_bytes());
            self.say("record");
            let answer = self.say("close");
            if answer.starts_with("accepted") {
                self.say("listing");
                self.ask_coefficient();
            }
        }
    }

    /// Texts whose answer hinges on it, each 180 in a notation of its own.
    fn hinges(&mut self) {
        for _ in 0..8 {
            let plan = self.edge_plan();
            self.open_edge(&plan);
            let mut text = String::new();
            for byte in self.rng.pick(&HINGES).chars() {
                match byte {
                    'H' => text.push_str(self.rng.pick(&SAYS_180)),
                    'C' => text.push_str(&plan.component.to_string()),
                    other => text.push(other),
                }
            }
            self.send_or_say(text.as_bytes());
            self.say("record");
            let answer = self.say("close");
            self.say("sum");
            if answer.starts_with("accepted") {
                self.say("listing");
                self.ask_coefficient();
            } else if self.rng.chance(30) {
                self.after_refusal();
            }
        }
    }

    /// A table that holds 180, or one that does not, and seas and points at both numbers and beside them.
    fn points_at_180(&mut self) {
        let mut plan = self.edge_plan();
        if self.rng.chance(25) {
            plan.headings.retain(|&heading| heading != 180_000);
            plan.headings.push(-179_000);
        }
        self.open_edge(&plan);
        let rows = self.all_rows(&plan);
        let text = self.text_of(&plan, rows, 0);
        self.piece(&text);
        self.say("close");
        let held = self.rng.pick(&plan.headings);
        let most = [180_000, 180_000, -180_000, -180_000, -180_000, held];
        let beside = [-180_001, 180_001, -179_999, 179_999, held - 360_000, held + 360_000, i32::MIN];
        let low = plan.ticks.iter().copied().min().unwrap_or(0);
        let high = plan.ticks.iter().copied().max().unwrap_or(0);
        for _ in 0..8 {
            let count = self.rng.pick(&[1, 2, 2, 3]);
            let mut headings: Vec<i32> = (0..count.max(2)).map(|_| self.rng.pick(&most)).collect();
            if self.rng.chance(20) {
                let at = self.rng.below(headings.len());
                headings[at] = self.rng.pick(&beside);
            }
            let (one, other) = (self.rng.pick(&[low, high]), self.rng.pick(&[low, high, (low + high) / 2]));
            self.say(&format!("coefficient {one} {} {other} {}", headings[0], headings[1]));
            // One frequency is room for one line that is not 13.
            let ticks = [low, (low + high) / 2, high];
            let count = if low == high { 1 } else { count };
            let mut sea = format!("sea {count}\n");
            for line in 0..count {
                let tick = if count == 2 { ticks[2 * line] } else { ticks[line] };
                sea.push_str(&format!("{tick} {} {} 7\n", headings[line], 100 * line + 50));
            }
            self.say_bytes(sea.as_bytes());
            self.ask_force();
            if self.rng.chance(40) {
                self.ask_display();
            }
        }
    }

    /// A heading slot that is held, if any is, gets -180,000.
    pub(super) fn forge_minus_held(&mut self) {
        let held = (self.bench.record.headings_held as usize).clamp(1, 4);
        let slot = self.rng.below(held);
        self.say(&format!("forge heading {slot} -180000"));
    }

    /// One that is not held does, if there is one.
    pub(super) fn forge_minus_unheld(&mut self) {
        let held = self.bench.record.headings_held as usize;
        if held < 4 {
            let slot = held + self.rng.below(4 - held);
            self.say(&format!("forge heading {slot} -180000"));
        }
    }

    /// Every call with a record that holds -180,000, and with one that has it where nothing is held: open, accepted and stuck.
    fn minus_in_slots(&mut self) {
        let plan = self.edge_plan();
        self.open_edge(&plan);
        let mut rows = self.all_rows(&plan);
        let missing = self.rng.chance(45);
        if missing && rows.len() > 1 {
            rows.pop();
        }
        let text = self.text_of(&plan, rows, 0);
        self.piece(&text);
        if self.rng.chance(60) {
            self.say("close");
        }
        self.say("sea 0");
        let before = self.bench.record.headings;
        for _ in 0..3 {
            if self.rng.chance(50) {
                self.forge_minus_held();
            } else {
                self.forge_minus_unheld();
                if self.rng.chance(25) {
                    // Somebody else holds it now.
                    let held = self.rng.pick(&[2, 3, 4]);
                    self.say(&format!("forge headings {held}"));
                }
            }
            self.every_call(plan.component);
            self.say("record");
            if self.rng.chance(70) {
                for (slot, heading) in before.iter().enumerate() {
                    self.say(&format!("forge heading {slot} {heading}"));
                }
                self.say(&format!("forge headings {}", plan.headings.len()));
                self.every_call(plan.component);
            }
        }
    }

    /// All calls that test a record, in any order. A row may bring a heading over what stands in a free slot.
    fn every_call(&mut self, component: u8) {
        let mut calls = vec![
            "close".to_string(),
            "listing".to_string(),
            "coefficient 1000 180000 1000 -180000".to_string(),
            "force 7".to_string(),
            "display 7 4607182418800017408".to_string(),
            String::new(),
        ];
        self.rng.shuffle(&mut calls);
        for call in calls {
            if call.is_empty() {
                let heading = self.rng.pick(&["7", "-180", "180", "-90"]);
                self.piece(format!("10 10 {heading} {heading} {component} 0 0 0 0\n").as_bytes());
            } else {
                self.say(&call);
            }
        }
    }

    /// A line of 160 bytes, and the same with a sign, which is a byte: 3 where that is the 161st.
    fn lines_of_160(&mut self) {
        for _ in 0..3 {
            let plan = self.edge_plan();
            let value = self.rng.pick(&["5 0 5 0", "5 0 5 0", "4 0 5 0"]);
            let size = self.rng.pick(&["180", "180.0", "1.8E2", "180.0005", "179.9996"]);
            let fill = self.rng.pick(&["end", "end", "start", "phase", "return"]);
            let length = self.rng.pick(&[158, 159, 160, 160, 160, 161]);
            let line = |one: &str, two: &str| format!("9 9 {one}{size} {two}180 {} {value}", plan.component);
            let room = length - line("", "").len();
            let mut signs = vec![("", ""), ("-", ""), ("", "-"), ("-", "-")];
            self.rng.shuffle(&mut signs);
            for (one, two) in signs {
                let line = line(one, two);
                let text = match fill {
                    "start" => format!("{}{line}", " ".repeat(room)),
                    "phase" => line.replacen(" 0 ", &format!("{} 0 ", " ".repeat(room)), 1),
                    "return" => format!("{line}{}\r", " ".repeat(room - 1)),
                    _ => format!("{line}{}", " ".repeat(room)),
                };
                self.open_edge(&plan);
                let ended = self.rng.pick(&["\n", "\n", ""]);
                self.send_or_say((text + ended).as_bytes());
                self.say("record");
                self.say("close");
            }
        }
    }
}

#[cfg(test)]
mod tests {
    use super::*;
    use crate::protocol::Bench;
    use crate::rows::{self, Choices, Line};
    use crate::scripts::Rng;

    fn writer(seed: u64) -> Writer {
        Writer { out: Vec::new(), bench: Bench::new(), rng: Rng(seed) }
    }

    #[test]
    fn every_notation_of_180_is_read_so() {
        let mut writer = writer(3);
        let choices = Choices { kind: 1, component: 1, coverage: SINGLE };
        let mut minus = 0;
        for at in 0..5_000 {
            let field = if at < SAYS_180.len() { SAYS_180[at].to_string() } else { writer.heading_field(180_000) };
            let row = rows::read(format!("9 8 {field} 180 1 0 0 0 0").as_bytes(), 2, &choices);
            assert!(matches!(row, Line::Used(row) if row.first.heading == 180_000), "{field}: {row:?}");
            minus += usize::from(field.starts_with('-'));
        }
        assert!((2_000..3_000).contains(&minus), "{minus}");
    }

    #[test]
    fn near_180_comes_to_all_three() {
        let choices = Choices { kind: 1, component: 1, coverage: FULL };
        let mut seen = [0; 3];
        for field in NEAR_180 {
            let row = rows::read(format!("9 8 {field} 0 1 0 0 0 0").as_bytes(), 2, &choices);
            seen[match row {
                Line::Used(row) if row.first.heading == 180_000 => 0,
                Line::Used(_) => 1,
                other => {
                    assert_eq!(other, Line::Refused(6), "{field}");
                    2
                }
            }] += 1;
        }
        assert_eq!(seen, [22, 5, 9]);
    }

    /// The answers of one way: record, close, record, sum; a cut between pieces is no answer of these.
    fn answers_of_ways(script: &[u8]) -> Vec<Vec<String>> {
        let mut bench = Bench::new();
        let mut script = crate::protocol::Script { rest: script };
        let (mut ways, mut left) = (Vec::new(), 0);
        while let Some((command, answer)) = bench.step(&mut script) {
            if command.starts_with(b"open") {
                ways.push(Vec::new());
                left = 4;
            }
            let asked = command == b"record" || command == b"close" || command == b"sum";
            if asked && left > 0 {
                ways.last_mut().unwrap().push(answer);
                left -= 1;
            }
        }
        ways
    }

    #[test]
    fn both_signs_give_the_same_answers() {
        let mut numbers = std::collections::BTreeSet::new();
        for seed in 0..400 {
            let mut writer = writer(seed);
            writer.two_signs();
            let ways = answers_of_ways(&writer.out);
            // A question at the end may open a table of its own.
            assert!(ways.len() >= 3 && ways[0].len() == 4, "{seed}");
            assert_eq!((&ways[0], &ways[0]), (&ways[1], &ways[2]), "{seed}");
            numbers.insert(ways[0][1].split(' ').take(2).collect::<Vec<_>>().join(" "));
        }
        for number in ["refused 7", "refused 8", "refused 9", "refused 10", "refused 11", "refused 17", "accepted 2"] {
            assert!(numbers.contains(number), "{number}: {numbers:?}");
        }
    }

    #[test]
    fn all_that_hinges_comes() {
        let mut writer = writer(11);
        for _ in 0..150 {
            writer.hinges();
            writer.lines_of_160();
        }
        let answers = Bench::new().run(&writer.out);
        for wanted in ["accepted 1 1", "accepted 1 2", "accepted 2 1", "accepted 1 4"] {
            assert!(answers.lines().any(|line| line == wanted), "{wanted}");
        }
        for number in [3, 7, 8, 9, 11, 17] {
            let wanted = format!("refused {number} ");
            assert!(answers.lines().filter(|line| line.starts_with(&wanted)).count() >= 20, "{number}");
        }
        assert!(answers.lines().any(|line| line == "refused 11 1111 0 1111 180000"));
        assert!(!answers.contains("-180000"));
    }
}
