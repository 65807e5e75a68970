//! Cases of M-100: six tables of a hull are made, kept and written for ProteusDS. Half of them are as they should be;
//! in the others one place or two hold something else.

use super::{Modulus, Plan, Rng, Values, Writer, FRESH};
use crate::proteus::COMPONENTS;
use crate::protocol::Bench;
use crate::rounding::nearest;
use crate::rows::{FULL, SINGLE};
use crate::table::ACCEPTED;

/// Room for any text.
const MOST_ROOM: i64 = 1_100_000;

/// Commands near these two that the bench's page does not describe.
const NO_SIXES: [&str; 20] = [
    "keep",
    "keep 0",
    "keep 7",
    "keep -1",
    "keep 1 2",
    "keep  1",
    "keep 1 ",
    "keep x",
    "keep 257",
    "Keep 1",
    "kept 1",
    "proteus",
    "proteus -1",
    "proteus 1100001",
    "proteus 4294967296",
    "proteus 18446744073709551616",
    "proteus 1 1",
    "proteus single",
    "proteus 1e6",
    "Proteus 1000",
];

/// What is wrong with what is kept in a place.
#[derive(Clone, Copy, PartialEq, Eq)]
enum Flaw {
    /// Nothing: the place keeps what it had.
    Missing,
    /// A text that is refused, or not closed.
    NotAccepted,
    Sum,
    OtherCoverage,
    OtherTicks,
    OtherHeadings,
    OtherComponent,
    /// A part that is to be written is out of bounds, or just within them.
    WildNeeded,
    /// A cell that nobody asks for.
    WildUnneeded,
    /// The two mirrors no longer agree, and both are written as they are.
    OtherValue,
    Forged,
    /// -180,000 in a heading slot that is held, which is not valid, or in one that is not (M-102).
    MinusHeld,
    MinusUnheld,
}

const FLAWS: [Flaw; 17] = [
    Flaw::Missing,
    Flaw::NotAccepted,
    Flaw::Sum,
    Flaw::OtherCoverage,
    Flaw::OtherTicks,
    Flaw::OtherTicks,
    Flaw::OtherHeadings,
    Flaw::OtherComponent,
    Flaw::WildNeeded,
    Flaw::WildNeeded,
    Flaw::WildNeeded,
    Flaw::WildUnneeded,
    Flaw::OtherValue,
    Flaw::Forged,
    Flaw::MinusHeld,
    Flaw::MinusHeld,
    Flaw::MinusUnheld,
];

/// One case. The six places outlast a case, so each starts by putting an open record into all of them.
pub fn six(seed: u64) -> Vec<u8> {
    let mut writer = Writer { out: Vec::new(), bench: Bench::new(), rng: Rng(seed) };
    for command in FRESH {
        writer.say(command);
    }
    for place in 1..=COMPONENTS {
        writer.say(&format!("keep {place}"));
    }
    if writer.rng.chance(30) {
        writer.spill();
        writer.lend_beyond();
    }
    match writer.rng.below(100) {
        0..=13 => writer.from_one_text(),
        14..=19 => writer.forged_six(),
        _ => writer.six_tables(),
    }
    writer.say("sum");
    writer.out
}

impl Writer {
    /// Six texts, each for its own table, kept in any order; then what is wrong is put right.
    fn six_tables(&mut self) {
        let hull = self.hull();
        let mut flaws = self.flaws();
        let mut order: Vec<usize> = (1..=COMPONENTS).collect();
        self.rng.shuffle(&mut order);
        for place in order {
            self.fill(&hull, place, flaws[place - 1]);
            if self.rng.chance(4) {
                self.ask_text();
            }
        }
        self.ask_text();
        let mut flawed: Vec<usize> = (1..=COMPONENTS).filter(|place| flaws[place - 1].is_some()).collect();
        self.rng.shuffle(&mut flawed);
        for place in flawed {
            if self.rng.chance(70) {
                flaws[place - 1] = None;
                self.fill(&hull, place, None);
                self.ask_text();
            }
        }
        if self.rng.chance(25) {
            self.write_elsewhere();
        }
        if self.rng.chance(15) {
            let place = self.rng.below(COMPONENTS) + 1;
            let flaw = self.rng.pick(&FLAWS);
            self.fill(&hull, place, Some(flaw));
            self.ask_text();
        }
    }

    /// Up to two of the six places have a flaw.
    fn flaws(&mut self) -> [Option<Flaw>; COMPONENTS] {
        let mut flaws = [None; COMPONENTS];
        for _ in 0..self.rng.pick(&[0, 0, 0, 0, 0, 1, 1, 1, 1, 2, 2]) {
            flaws[self.rng.below(COMPONENTS)] = Some(self.rng.pick(&FLAWS));
        }
        flaws
    }

    /// Few frequencies and headings, so that six texts stay short.
    fn hull(&mut self) -> Plan {
        let coverage = self.rng.pick(&[SINGLE, SINGLE, FULL]);
        let (frequencies, headings) = if coverage == SINGLE {
            self.rng.pick(&[(2, 1), (2, 1), (3, 1), (4, 1), (1, 1), (2, 2), (2, 2), (3, 2), (2, 3), (1, 2)])
        } else {
            self.rng.pick(&[(2, 1), (3, 1), (1, 2), (1, 3), (2, 2), (2, 2)])
        };
        let mut hull = Plan { kind: 0, component: 1, coverage, ticks: Vec::new(), headings: Vec::new() };
        while hull.ticks.len() < frequencies {
            let tick = if self.rng.chance(15) { 5_000 } else { self.plan_tick(&hull.ticks) };
            if !hull.ticks.contains(&tick) {
                hull.ticks.push(tick);
            }
        }
        while hull.headings.len() < headings {
            let heading = self.rng.pick(&[0, -90_000, 180_000, 180_000, -1, 1, i32::MIN]);
            let heading = if heading == i32::MIN { self.plan_heading() } else { heading };
            if !hull.headings.contains(&heading) {
                hull.headings.push(heading);
            }
        }
        hull
    }

    /// Makes the table of a place and keeps it there, with its flaw.
    fn fill(&mut self, hull: &Plan, place: usize, flaw: Option<Flaw>) {
        if flaw == Some(Flaw::Missing) {
            return;
        }
        let plan = self.plan_of(hull, place, flaw);
        self.say(&format!("open {} {} {}", plan.kind, plan.component, plan.coverage));
        let mut rows = self.all_rows(&plan);
        if flaw == Some(Flaw::NotAccepted) {
            match self.rng.below(6) {
                0..=2 => {
                    rows.pop();
                }
                3..=4 => rows[0].modulus = Modulus::Misfits,
                _ => {}
            }
        }
        let lines: Vec<Vec<u8>> = rows.iter().map(|row| self.short_line(plan.component, row)).collect();
        self.piece(&ended(&lines));
        if flaw != Some(Flaw::NotAccepted) || self.rng.chance(70) {
            self.say("close");
        }
        match flaw {
            Some(Flaw::WildNeeded) => self.poke_needed(&[1_000_000_001, -1_000_000_001, i32::MIN, i32::MAX]),
            Some(Flaw::OtherValue) => self.poke_needed(&[1_000_000_000, -1_000_000_000, 0, -1, 77]),
            Some(Flaw::WildUnneeded) => self.poke_unneeded(),
            Some(Flaw::Forged) => self.forge(),
            Some(Flaw::MinusHeld) => self.forge_minus_held(),
            Some(Flaw::MinusUnheld) => self.forge_minus_unheld(),
            _ => {}
        }
        self.keep(place);
    }

    /// All cells are copied, however few are lent.
    fn keep(&mut self, place: usize) {
        let short = self.rng.chance(5);
        if short {
            let cells = self.rng.pick(&[0, 1, 161, 12_799]);
            self.say(&format!("lend {cells} 0"));
        }
        self.say(&format!("keep {place}"));
        if short {
            self.say("lend 12800 6400");
        }
    }

    /// A row in few bytes, most of its numbers plain.
    fn short_line(&mut self, component: u8, row: &Values) -> Vec<u8> {
        let mut fields = Vec::new();
        for tick in row.ticks {
            fields.push(self.short_field(nearest(10_000_000_000, i128::from(tick)) as i64, 6));
        }
        for heading in row.headings {
            let heading = self.either_sign(heading);
            fields.push(self.short_field(i64::from(heading), 3));
        }
        let modulus = self.modulus(row);
        fields.push(format!("{component} {modulus} 0"));
        for part in [row.re, row.im] {
            fields.push(self.short_field(part, 6));
        }
        fields.join(" ").into_bytes()
    }

    /// A value in units of ten to the minus `places`.
    fn short_field(&mut self, value: i64, places: usize) -> String {
        if self.rng.chance(12) {
            return self.notation(value, places);
        }
        let sign = if value < 0 { "-" } else { "" };
        let (size, unit) = (value.unsigned_abs(), 10_u64.pow(places as u32));
        let text = format!("{sign}{}.{:0places$}", size / unit, size % unit);
        text.trim_end_matches('0').trim_end_matches('.').to_string()
    }

    /// The table that is to stand in a place. Its frequencies and headings come in an order of its own.
    fn plan_of(&mut self, hull: &Plan, place: usize, flaw: Option<Flaw>) -> Plan {
        let mut plan = Plan {
            kind: hull.kind,
            component: place as u8,
            coverage: hull.coverage,
            ticks: hull.ticks.clone(),
            headings: hull.headings.clone(),
        };
        match flaw {
            Some(Flaw::Sum) => plan.kind = 1,
            Some(Flaw::OtherCoverage) => plan.coverage = SINGLE + FULL - plan.coverage,
            Some(Flaw::OtherComponent) => plan.component = self.rng.between(1, 6) as u8,
            Some(Flaw::OtherTicks) => {
                let other = self.rng.between(100, 10_000) as u32;
                let near = plan.ticks[0] + if plan.ticks[0] < 10_000 { 1 } else { 0 };
                let new = self.rng.pick(&[other, near]);
                self.change(&mut plan.ticks, new);
            }
            Some(Flaw::OtherHeadings) => {
                // -180 is 180 itself and no other heading; the one next to it is.
                let new = match self.rng.pick(&[plan.headings[0] ^ 1, -plan.headings[0], 45_000]) {
                    -180_000 => -179_999,
                    new => new,
                };
                self.change(&mut plan.headings, new);
            }
            _ => {}
        }
        self.rng.shuffle(&mut plan.ticks);
        self.rng.shuffle(&mut plan.headings);
        plan
    }

    /// One of a list is another, is gone, or one more is there; the list stays one of distinct values.
    fn change<T: Copy + PartialEq>(&mut self, list: &mut Vec<T>, new: T) {
        if list.contains(&new) {
            return;
        }
        let at = self.rng.below(list.len());
        match self.rng.below(3) {
            0 => list.push(new),
            1 if list.len() > 1 => {
                list.remove(at);
            }
            _ => list[at] = new,
        }
    }

    /// A part of a pair that the coverage needs is set to one of these.
    fn poke_needed(&mut self, values: &[i32]) {
        let record = &self.bench.record;
        if !record.valid() || record.stage != ACCEPTED {
            return;
        }
        let mut pairs = Vec::new();
        for (a, r) in record.nodes() {
            for (b, c) in record.nodes() {
                if record.needs(a, b) {
                    pairs.push((r, c));
                }
            }
        }
        let (r, c) = self.rng.pick(&pairs);
        let value = i64::from(self.rng.pick(values));
        let other = self.part();
        let (re, im) = self.rng.pick(&[(value, other), (other, value), (value, value)]);
        let flag = self.rng.pick(&[0, 1, 255]);
        self.say(&format!("poke {r} {c} {re} {im} {flag}"));
    }

    /// A cell of no node of the table, or of two headings in single coverage.
    fn poke_unneeded(&mut self) {
        let record = &self.bench.record;
        if !record.valid() || record.stage != ACCEPTED {
            return;
        }
        let nodes = record.nodes();
        let mut pairs = vec![(79, 79), (nodes[0].1, 79), (79, nodes[0].1)];
        for &(a, r) in &nodes {
            for &(b, c) in &nodes {
                if !record.needs(a, b) {
                    pairs.extend([(r, c); 3]);
                }
            }
        }
        let (r, c) = self.rng.pick(&pairs);
        let value = self.rng.pick(&[1_000_000_001, i64::from(i32::MIN), 5]);
        self.say(&format!("poke {r} {c} {value} {value} 1"));
    }

    /// One text with the rows of all six, read by six tables.
    fn from_one_text(&mut self) {
        let mut hull = self.hull();
        hull.ticks.truncate(2);
        hull.headings.truncate(if hull.coverage == SINGLE { 2 } else { 1 });
        let mut lines = Vec::new();
        for place in 1..=COMPONENTS {
            let plan = self.plan_of(&hull, place, None);
            let mut rows = self.all_rows(&plan);
            if self.rng.chance(2) {
                rows[0].modulus = Modulus::Misfits;
            }
            for row in &rows {
                let line = self.short_line(plan.component, row);
                lines.push(line);
            }
        }
        if self.rng.chance(60) {
            self.rng.shuffle(&mut lines);
        }
        if self.rng.chance(12) {
            lines.pop();
        }
        let text = ended(&lines);
        let mut places: Vec<usize> = (1..=COMPONENTS).collect();
        if self.rng.chance(15) {
            // Kept in one another's places, or one of them twice.
            let (one, other) = (self.rng.below(COMPONENTS), self.rng.below(COMPONENTS));
            if self.rng.chance(50) {
                places.swap(one, other);
            } else {
                places[one] = other + 1;
            }
        }
        let mut order: Vec<usize> = (1..=COMPONENTS).collect();
        self.rng.shuffle(&mut order);
        for component in order {
            self.say(&format!("open 0 {component} {}", hull.coverage));
            self.piece(&text);
            self.say("close");
            self.say(&format!("keep {}", places[component - 1]));
        }
        self.ask_text();
    }

    /// More frequencies than a short text brings, by forging an accepted record: indexes of two digits, all four
    /// headings, free slots in between, and slots that differ from table to table.
    fn forged_six(&mut self) {
        let headings = self.rng.pick(&[1, 1, 2, 4]);
        let frequencies = if headings == 1 { self.rng.between(10, 13) } else { self.rng.between(1, 4) } as usize;
        let coverage = if headings == 4 { SINGLE } else { self.rng.pick(&[SINGLE, FULL]) };
        self.say(&format!("open 0 1 {coverage}"));
        let mut slots: Vec<usize> = (0..20).collect();
        self.rng.shuffle(&mut slots);
        slots.truncate(frequencies);
        let low = self.rng.between(100, 9_000);
        let step = self.rng.between(1, 70);
        for (at, slot) in slots.iter().enumerate() {
            self.say(&format!("forge tick {slot} {}", low + step * at as i64));
        }
        let edge = self.rng.below(6) as i64;
        for slot in 0..headings {
            let heading = if slot == edge { 180_000 } else { self.rng.between(-59_999, 59_999) * 3 + slot };
            self.say(&format!("forge heading {slot} {heading}"));
        }
        self.say(&format!("forge headings {headings}"));
        self.say(&format!("forge stage {ACCEPTED}"));
        for place in 1..=COMPONENTS {
            self.say(&format!("forge component {place}"));
            let (one, other) = (self.rng.pick(&slots), self.rng.pick(&slots));
            let (a, b) = (self.bench.record.ticks[one], self.bench.record.ticks[other]);
            // The same set; one tick is nowhere for a moment.
            self.say(&format!("forge tick {one} {b}"));
            self.say(&format!("forge tick {other} {a}"));
            for _ in 0..3 {
                self.poke_needed(&[1_000_000_000, -1_000_000_000, -20_000, 1, 123_456]);
            }
            if self.rng.chance(3) {
                self.poke_needed(&[1_000_000_001, i32::MIN]);
            }
            self.say(&format!("keep {place}"));
        }
        let answer = self.say(&format!("proteus {MOST_ROOM}"));
        if let Some(length) = length_of(&answer) {
            self.say(&format!("proteus {}", length - 1));
        }
        // Of one of them, or of all six, a free heading slot has -180,000, and then one that is held.
        let places = if self.rng.chance(50) { 1..=COMPONENTS } else { 3..=3 };
        self.forge_minus_unheld();
        self.keep_as_it_is(places.clone());
        self.forge_minus_held();
        self.keep_as_it_is(places);
    }

    /// The record goes to these places as it is, but for the component.
    fn keep_as_it_is(&mut self, places: std::ops::RangeInclusive<usize>) {
        for place in places {
            self.say(&format!("forge component {place}"));
            self.say(&format!("keep {place}"));
        }
        self.say(&format!("proteus {MOST_ROOM}"));
    }

    /// The text with room to spare, then with room on both sides of its length; of a refusal that no room changes it.
    fn ask_text(&mut self) {
        if self.rng.chance(10) {
            let command = self.rng.pick(&NO_SIXES);
            self.say(command);
        }
        if self.rng.chance(12) {
            self.short_of_cells();
        }
        let answer = self.say(&format!("proteus {MOST_ROOM}"));
        let Some(length) = length_of(&answer) else {
            self.say("proteus 0");
            return;
        };
        self.say(&format!("proteus {}", length - 1));
        if self.rng.chance(50) {
            self.say(&format!("proteus {length}"));
        }
        if self.rng.chance(20) {
            let room = self.rng.pick(&[0, 1, 16, length / 2, length - 2, length + 1]);
            self.say(&format!("proteus {room}"));
        }
    }

    /// Too few cells are lent of all six, or more than there are in a table. Flags are not asked for.
    fn short_of_cells(&mut self) {
        let (cells, flags) = self.rng.pick(&[(12_799, 6_400), (0, 0), (12_799, 6_500), (12_800, 0), (12_900, 6_500)]);
        self.say(&format!("lend {cells} {flags}"));
        let room = self.rng.pick(&[0, MOST_ROOM]);
        self.say(&format!("proteus {room}"));
        self.say("lend 12800 6400");
    }

    /// Somebody writes to the bench's own record and cells: what is kept stays as it was.
    fn write_elsewhere(&mut self) {
        for _ in 0..self.rng.between(1, 3) {
            match self.rng.below(5) {
                0 => self.poke_needed(&[i32::MIN, 1_000_000_001, 3]),
                1 => self.forge(),
                2 => {
                    self.say("open 1 2 1");
                }
                3 => {
                    self.spill();
                }
                _ => {
                    self.say("poke 0 0 -2147483648 2147483647 9");
                }
            }
        }
        self.ask_text();
    }
}

/// Lines with their line feeds.
fn ended(lines: &[Vec<u8>]) -> Vec<u8> {
    lines.iter().flat_map(|line| [line.as_slice(), b"\n"].concat()).collect()
}

/// The length that a text was written with.
fn length_of(answer: &str) -> Option<i64> {
    answer.lines().next()?.strip_prefix("proteus ")?.parse().ok()
}

#[cfg(test)]
mod tests {
    use super::*;

    #[test]
    fn sixes_are_reproducible_and_bring_every_answer() {
        let script: Vec<u8> = (0..300).flat_map(six).collect();
        assert_eq!(script, (0..300).flat_map(six).collect::<Vec<u8>>());
        let answers = Bench::new().run(&script);
        for number in [1, 2, 15, 18, 19] {
            let wanted = format!("refused {number} ");
            let times = answers.lines().filter(|line| line.starts_with(&wanted)).count();
            assert!(times >= 20, "refusal {number}: {times}");
        }
        assert!(answers.lines().filter(|&line| line == "?").count() >= 10);
    }

    #[test]
    fn more_than_half_write_a_text() {
        let writes = |seed: &u64| Bench::new().run(&six(*seed)).lines().any(|line| line == "$WaveDriftQTFMatrix");
        let count = (0..200).filter(writes).count();
        assert!(count >= 100, "{count}");
    }

    #[test]
    fn a_six_answers_the_same_alone_and_behind_others() {
        let mut bench = Bench::new();
        for seed in 0..60 {
            assert_eq!(bench.run(&six(seed)), Bench::new().run(&six(seed)), "{seed}");
        }
    }
}
