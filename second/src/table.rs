//! The record, its validity, slots, nodes, cells and flags; a row put into the table or refused
//! 8 or 9; the pairs that the coverage needs; the listing's lines.

use crate::rows::{Choices, Node, Row, DIFFERENCE, SINGLE};

pub const CELLS: usize = 12_800;
pub const FLAGS: usize = 6_400;
pub const FREQUENCY_SLOTS: usize = 20;
pub const HEADING_SLOTS: usize = 4;
pub const NODES: usize = FREQUENCY_SLOTS * HEADING_SLOTS;
pub const KEPT_BYTES: usize = 160;
pub const MOST_LINES: u32 = 1_000_000;

pub const NEVER_OPENED: u8 = 0;
pub const OPEN: u8 = 1;
pub const ACCEPTED: u8 = 2;

/// Where a refusal falls.
#[derive(Clone, Copy, Debug, PartialEq, Eq)]
pub enum Place {
    Nothing,
    /// A line of the text or a line of the sea, from 1.
    Line(u32),
    Pair(Node, Node),
}

/// One of the numbers of documents 01 and 02, with its place.
#[derive(Clone, Copy, Debug, PartialEq, Eq)]
pub struct Refusal {
    pub number: u8,
    pub place: Place,
}

impl Refusal {
    pub fn plain(number: u8) -> Refusal {
        Refusal { number, place: Place::Nothing }
    }

    pub fn at_line(number: u8, line: u32) -> Refusal {
        Refusal { number, place: Place::Line(line) }
    }

    /// `refused`, number and place.
    pub fn text(&self) -> String {
        let number = self.number;
        match self.place {
            Place::Nothing => format!("refused {number} 0"),
            Place::Line(line) => format!("refused {number} {line}"),
            Place::Pair(a, b) => {
                format!("refused {number} {} {} {} {}", a.tick, a.heading, b.tick, b.heading)
            }
        }
    }
}

/// The record that goes from call to call.
#[derive(Clone, Copy, Debug, PartialEq, Eq)]
pub struct Record {
    /// 0 never opened, 1 open, 2 accepted, 3 to 11 and 17 stuck with that refusal.
    pub stage: u8,
    pub stuck_line: u32,
    pub stuck_pair: (Node, Node),
    pub choices: Choices,
    /// Lines begun.
    pub lines: u32,
    /// Ticks, 0 for a free slot.
    pub ticks: [u32; FREQUENCY_SLOTS],
    pub headings: [i32; HEADING_SLOTS],
    pub headings_held: u32,
    pub kept: [u8; KEPT_BYTES],
    pub kept_held: u32,
}

pub const NO_NODE: Node = Node { tick: 0, heading: 0 };

impl Record {
    pub fn never_opened() -> Record {
        Record {
            stage: NEVER_OPENED,
            stuck_line: 0,
            stuck_pair: (NO_NODE, NO_NODE),
            choices: Choices { kind: 0, component: 0, coverage: 0 },
            lines: 0,
            ticks: [0; FREQUENCY_SLOTS],
            headings: [0; HEADING_SLOTS],
            headings_held: 0,
            kept: [0; KEPT_BYTES],
            kept_held: 0,
        }
    }

    pub fn opened(choices: Choices) -> Record {
        Record { stage: OPEN, choices, ..Record::never_opened() }
    }

    /// Document 01, "A valid record has ...".
    pub fn valid(&self) -> bool {
        let ticks: Vec<u32> = self.ticks.iter().copied().filter(|&tick| tick != 0).collect();
        let ticks_valid = ticks.iter().all(|tick| (100..=10_000).contains(tick)) && distinct(&ticks);

        // M-102: no row brings -180,000, since it is read as 180,000, and no valid record holds it.
        let headings_valid = self.headings_held as usize <= HEADING_SLOTS && {
            let held = &self.headings[..self.headings_held as usize];
            held.iter().all(|heading| (-179_999..=180_000).contains(heading)) && distinct(held)
        };

        let kept_valid =
            self.kept_held as usize <= KEPT_BYTES && !self.kept[..self.kept_held as usize].contains(&b'\n');

        let any_tick = !ticks.is_empty();
        let any_heading = self.headings_held > 0;
        let presence_valid = any_tick == any_heading && (any_tick || self.stage != ACCEPTED);

        let stage_valid = matches!(self.stage, NEVER_OPENED | OPEN | ACCEPTED) || sticks(self.stage);

        ticks_valid
            && headings_valid
            && kept_valid
            && self.lines <= MOST_LINES
            && self.choices.valid()
            && presence_valid
            && stage_valid
    }

    /// The refusal that a stuck record repeats.
    pub fn stuck_with(&self) -> Option<Refusal> {
        if !sticks(self.stage) {
            return None;
        }
        let place = match self.stage {
            10 => Place::Nothing,
            11 => Place::Pair(self.stuck_pair.0, self.stuck_pair.1),
            _ => Place::Line(self.stuck_line),
        };
        Some(Refusal { number: self.stage, place })
    }

    /// The record as it stands, but stuck with this refusal.
    pub fn stuck(mut self, refusal: &Refusal) -> Record {
        self.stage = refusal.number;
        match refusal.place {
            Place::Nothing => {}
            Place::Line(line) => self.stuck_line = line,
            Place::Pair(a, b) => self.stuck_pair = (a, b),
        }
        self
    }

    pub fn frequency_count(&self) -> usize {
        self.ticks.iter().filter(|&&tick| tick != 0).count()
    }

    /// The held headings, in order of arrival.
    pub fn held_headings(&self) -> &[i32] {
        &self.headings[..self.headings_held as usize]
    }

    pub fn heading_slot(&self, heading: i32) -> Option<usize> {
        self.held_headings().iter().position(|&held| held == heading)
    }

    pub fn frequency_slot(&self, tick: u32) -> Option<usize> {
        self.ticks.iter().position(|&held| held != 0 && held == tick)
    }

    /// The held ticks with their slots, rising.
    pub fn rising_ticks(&self) -> Vec<(u32, usize)> {
        let mut list: Vec<(u32, usize)> = Vec::new();
        for (slot, &tick) in self.ticks.iter().enumerate() {
            if tick != 0 {
                list.push((tick, slot));
            }
        }
        list.sort();
        list
    }

    /// The nodes of the table by heading, then tick, each with its number.
    pub fn nodes(&self) -> Vec<(Node, usize)> {
        let mut headings: Vec<(i32, usize)> = Vec::new();
        for (slot, &heading) in self.held_headings().iter().enumerate() {
            headings.push((heading, slot));
        }
        headings.sort();
        let mut list = Vec::new();
        for &(heading, heading_slot) in &headings {
            for &(tick, frequency_slot) in &self.rising_ticks() {
                list.push((Node { tick, heading }, node_number(heading_slot, frequency_slot)));
            }
        }
        list
    }

    /// Does the coverage ask for this pair of nodes?
    pub fn needs(&self, a: Node, b: Node) -> bool {
        self.choices.coverage != SINGLE || a.heading == b.heading
    }
}

/// The numbers after which the reader is stuck.
pub fn sticks(number: u8) -> bool {
    (3..=11).contains(&number) || number == 17
}

fn distinct<T: PartialEq>(list: &[T]) -> bool {
    for i in 0..list.len() {
        for j in 0..i {
            if list[i] == list[j] {
                return false;
            }
        }
    }
    true
}

pub fn node_number(heading_slot: usize, frequency_slot: usize) -> usize {
    FREQUENCY_SLOTS * heading_slot + frequency_slot
}

pub fn flag_at(r: usize, c: usize) -> usize {
    NODES * r + c
}

/// The cell of nodes r, c: real, then imaginary.
pub fn cell_at(r: usize, c: usize) -> usize {
    2 * (NODES * r + c)
}

pub fn cell(cells: &[i32], r: usize, c: usize) -> (i32, i32) {
    (cells[cell_at(r, c)], cells[cell_at(r, c) + 1])
}

/// Finds the slot of a tick or takes the lowest free one; `None` if there is none.
fn take_frequency(record: &mut Record, tick: u32) -> Option<usize> {
    if let Some(slot) = record.frequency_slot(tick) {
        return Some(slot);
    }
    let slot = record.ticks.iter().position(|&held| held == 0)?;
    record.ticks[slot] = tick;
    Some(slot)
}

fn take_heading(record: &mut Record, heading: i32) -> Option<usize> {
    if let Some(slot) = record.heading_slot(heading) {
        return Some(slot);
    }
    let slot = record.headings_held as usize;
    if slot == HEADING_SLOTS {
        return None;
    }
    record.headings[slot] = heading;
    record.headings_held += 1;
    Some(slot)
}

/// Puts a row into the table: the record with the row's slots, or the number 8 or 9 with nothing
/// written.
pub fn put(record: &Record, row: &Row, cells: &mut [i32], flags: &mut [u8]) -> Result<Record, u8> {
    let mut next = *record;

    // 8; PER1 before PER2 and BETA1 before BETA2
    let frequency1 = take_frequency(&mut next, row.first.tick).ok_or(8)?;
    let frequency2 = take_frequency(&mut next, row.second.tick).ok_or(8)?;
    let heading1 = take_heading(&mut next, row.first.heading).ok_or(8)?;
    let heading2 = take_heading(&mut next, row.second.heading).ok_or(8)?;

    let x = node_number(heading1, frequency1);
    let y = node_number(heading2, frequency2);
    let value = (row.re, row.im);
    let mirror = if record.choices.kind == DIFFERENCE { (row.re, -row.im) } else { value };

    // 9
    let differs = |r: usize, c: usize, wanted: (i32, i32)| flags[flag_at(r, c)] != 0 && cell(cells, r, c) != wanted;
    if differs(x, y, value) || differs(y, x, mirror) {
        return Err(9);
    }

    for (r, c, (re, im)) in [(x, y, value), (y, x, mirror)] {
        cells[cell_at(r, c)] = re;
        cells[cell_at(r, c) + 1] = im;
        flags[flag_at(r, c)] = 1;
    }
    Ok(next)
}

/// What closing asks of a record: 10, 11, or nothing.
pub fn complete(record: &Record, flags: &[u8]) -> Result<(), Refusal> {
    if record.frequency_count() == 0 {
        return Err(Refusal::plain(10));
    }
    let nodes = record.nodes();
    for (i, &(a, r)) in nodes.iter().enumerate() {
        for &(b, c) in &nodes[i..] {
            if record.needs(a, b) && (flags[flag_at(r, c)] == 0 || flags[flag_at(c, r)] == 0) {
                return Err(Refusal { number: 11, place: Place::Pair(a, b) });
            }
        }
    }
    Ok(())
}

/// Queries test 1, then 2. They are lent no flags.
pub fn may_query(record: &Record, cells: &[i32]) -> Result<(), Refusal> {
    if cells.len() < CELLS {
        return Err(Refusal::plain(1));
    }
    if !record.valid() || record.stage != ACCEPTED {
        return Err(Refusal::plain(2));
    }
    Ok(())
}

/// The lines of the listing, each without its line feed.
pub fn listing(record: &Record, cells: &[i32]) -> Result<Vec<String>, Refusal> {
    may_query(record, cells)?;
    let kind = if record.choices.kind == DIFFERENCE { "difference" } else { "sum" };
    let coverage = if record.choices.coverage == SINGLE { "single" } else { "full" };
    let mut lines = vec![format!(
        "QTF {kind} {} {coverage} {} {}",
        record.choices.component,
        record.frequency_count(),
        record.headings_held
    )];
    let nodes = record.nodes();
    for &(a, r) in &nodes {
        for &(b, c) in &nodes {
            if record.needs(a, b) {
                let (re, im) = cell(cells, r, c);
                lines.push(format!("{} {} {} {} {re} {im}", a.tick, a.heading, b.tick, b.heading));
            }
        }
    }
    Ok(lines)
}

#[cfg(test)]
mod tests {
    use super::*;

    fn open() -> Record {
        Record::opened(Choices { kind: 0, component: 1, coverage: 0 })
    }

    fn with_table() -> Record {
        let mut record = open();
        record.ticks[0] = 1000;
        record.ticks[1] = 1250;
        record.headings_held = 1;
        record
    }

    #[test]
    fn opened_record_is_valid() {
        assert!(open().valid());
        assert!(with_table().valid());
        assert!(!Record::never_opened().valid());
    }

    #[test]
    fn each_part_can_make_it_invalid() {
        let breaks: [fn(&mut Record); 26] = [
            |r| r.ticks[0] = 99,
            |r| r.ticks[0] = 10_001,
            |r| r.ticks[7] = 1250,
            |r| r.ticks = [0; 20],
            |r| r.headings_held = 0,
            |r| r.headings_held = 2,
            |r| r.headings_held = 5,
            |r| r.headings[0] = 180_001,
            |r| r.headings[0] = -180_001,
            |r| r.headings[0] = -180_000,
            |r| {
                r.headings[1] = -180_000;
                r.headings_held = 2;
            },
            |r| {
                r.headings = [180_000, -180_000, 0, 0];
                r.headings_held = 2;
            },
            |r| {
                r.headings = [1, 2, 3, -180_000];
                r.headings_held = 4;
            },
            |r| r.kept_held = 161,
            |r| {
                r.kept_held = 3;
                r.kept[2] = b'\n';
            },
            |r| r.lines = 1_000_001,
            |r| r.choices.kind = 2,
            |r| r.choices.component = 0,
            |r| r.choices.component = 7,
            |r| r.choices.coverage = 2,
            |r| r.stage = 12,
            |r| r.stage = 13,
            |r| r.stage = 16,
            |r| r.stage = 18,
            |r| r.stage = 19,
            |r| r.stage = 255,
        ];
        for (number, change) in breaks.iter().enumerate() {
            let mut record = with_table();
            change(&mut record);
            assert!(!record.valid(), "{number}");
        }
    }

    #[test]
    fn what_stays_valid() {
        let keeps: [fn(&mut Record); 13] = [
            |r| r.ticks[0] = 100,
            |r| r.ticks[19] = 10_000,
            |r| r.ticks[0] = 0,
            |r| r.headings[0] = -179_999,
            |r| r.headings[0] = 180_000,
            // In slots that are not held, beside 180,000 too.
            |r| r.headings[1] = -180_000,
            |r| r.headings = [180_000, -180_000, -180_000, -180_000],
            |r| {
                r.headings = [180_000, -179_999, 7, -180_000];
                r.headings_held = 3;
            },
            |r| {
                r.headings[1] = 1;
                r.headings_held = 4;
                r.headings[2] = 2;
                r.headings[3] = 3;
            },
            |r| r.kept_held = 160,
            |r| r.kept[0] = b'\n',
            |r| r.lines = 1_000_000,
            |r| r.headings[3] = 1_000_000,
        ];
        for (number, change) in keeps.iter().enumerate() {
            let mut record = with_table();
            change(&mut record);
            assert!(record.valid(), "{number}");
        }
        for stage in (0..=11).chain([17]) {
            let mut record = with_table();
            record.stage = stage;
            assert!(record.valid(), "{stage}");
            let mut record = open();
            record.stage = stage;
            assert_eq!(record.valid(), stage != ACCEPTED, "{stage}");
        }
        let valid = |stage: &u8| Record { stage: *stage, ..with_table() }.valid();
        assert_eq!((0..=255).filter(valid).count(), 13);
    }

    #[test]
    fn a_stage_of_17_has_its_line() {
        let record = Record { stage: 17, stuck_line: 23, ..with_table() };
        assert_eq!(record.stuck_with(), Some(Refusal::at_line(17, 23)));
        assert_eq!(with_table().stuck(&Refusal::at_line(17, 23)), record);
        for stage in [12, 13, 14, 15, 16, 18, 19, 255] {
            assert_eq!(Record { stage, ..record }.stuck_with(), None, "{stage}");
        }
    }

    #[test]
    fn a_free_slot_in_the_middle_is_taken_first() {
        let mut record = with_table();
        record.ticks[0] = 0;
        let (mut cells, mut flags) = (vec![0; CELLS], vec![0; FLAGS]);
        let node = Node { tick: 2000, heading: 0 };
        let row = Row { first: node, second: node, re: 5, im: 0 };
        let next = put(&record, &row, &mut cells, &mut flags).unwrap();
        assert_eq!(next.ticks[..3], [2000, 1250, 0]);
        assert_eq!((cells[0], flags[0]), (5, 1));
    }

    #[test]
    fn mirrors() {
        let (mut cells, mut flags) = (vec![0; CELLS], vec![0; FLAGS]);
        let row = Row { first: Node { tick: 1000, heading: 0 }, second: Node { tick: 1250, heading: 0 }, re: 7, im: 8 };
        put(&with_table(), &row, &mut cells, &mut flags).unwrap();
        assert_eq!((cell(&cells, 0, 1), cell(&cells, 1, 0)), ((7, 8), (7, -8)));
        let mut sum = with_table();
        sum.choices.kind = 1;
        assert_eq!(put(&sum, &row, &mut cells, &mut flags), Err(9));
        flags[flag_at(1, 0)] = 0;
        put(&sum, &row, &mut cells, &mut flags).unwrap();
        assert_eq!((cell(&cells, 0, 1), cell(&cells, 1, 0)), ((7, 8), (7, 8)));
    }
}
