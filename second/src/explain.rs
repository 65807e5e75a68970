//! M-103: why a text was refused. The text is read and closed once more; where that gives what was stated, its lines are
//! gone through by themselves for the first one of the kind that explains it.

use crate::fields;
use crate::reader;
use crate::rows::{self, Choices, Line, Node, Row, MOST_MODULUS};
use crate::table::{self, Place, Record, Refusal, FREQUENCY_SLOTS, HEADING_SLOTS};

/// What explains a refusal. Lines count from 1, and so do fields.
#[derive(Clone, Copy, Debug, PartialEq, Eq)]
pub enum Explanation {
    /// 5 and 6: the first field that offends.
    Field(usize),
    /// 9: the first line that set the cell, what it holds and what the refused row says.
    Set {
        line: u32,
        held: (i32, i32),
        said: (i32, i32),
    },
    /// 11: the lines that brought the first tick, the first heading, the second tick and the second heading.
    Brought([u32; 4]),
    /// 8: the lines that brought the slots, 0 for a slot that is not held.
    Held {
        frequencies: [u32; FREQUENCY_SLOTS],
        headings: [u32; HEADING_SLOTS],
    },
    Nothing,
}

impl Explanation {
    pub fn text(&self) -> String {
        match self {
            Explanation::Field(column) => format!("field {column}"),
            Explanation::Set { line, held, said } => {
                format!("set {line} {} {} {} {}", held.0, held.1, said.0, said.1)
            }
            Explanation::Brought(lines) => format!("brought{}", list(lines)),
            Explanation::Held { frequencies, headings } => format!("held{}{}", list(frequencies), list(headings)),
            Explanation::Nothing => "nothing".to_string(),
        }
    }
}

fn list(lines: &[u32]) -> String {
    lines.iter().map(|line| format!(" {line}")).collect()
}

/// 1 and 2 as at opening; 2 where the text, read and closed, is not refused as stated; else what explains it.
pub fn explain(
    choices: Choices,
    stated: Refusal,
    text: &[u8],
    cells: &mut [i32],
    flags: &mut [u8],
) -> Result<Explanation, Refusal> {
    let record = reader::open(choices, cells, flags)?;
    let (record, _) = reader::piece(record, text, cells, flags);
    // A record that is stuck gives its refusal again.
    let (record, given) = reader::close(record, cells, flags);
    if given != Err(stated) {
        return Err(Refusal::plain(2));
    }
    let lines = lines_of(text);
    Ok(match stated.place {
        Place::Nothing => Explanation::Nothing,
        Place::Pair(first, second) => brought(&used_rows(&lines, &choices), first, second),
        Place::Line(line) => of_line(stated.number, &lines[..line as usize], &record, cells),
    })
}

/// The lines of a text: a line feed ends one, and so does the end of the text.
fn lines_of(text: &[u8]) -> Vec<&[u8]> {
    let mut lines: Vec<&[u8]> = text.split(|&byte| byte == b'\n').collect();
    // No line follows a final line feed, and a text of no bytes has none.
    lines.pop_if(|last| last.is_empty());
    lines
}

/// The rows that are used, each with the number of its line.
fn used_rows(lines: &[&[u8]], choices: &Choices) -> Vec<(u32, Row)> {
    let mut used = Vec::new();
    for (number, bytes) in (1..).zip(lines) {
        if let Line::Used(row) = rows::read(bytes, number, choices) {
            used.push((number, row));
        }
    }
    used
}

/// The first line whose row is of a kind; 0 if there is none.
fn first_line(used: &[(u32, Row)], of_the_kind: impl Fn(&Row) -> bool) -> u32 {
    used.iter().find(|(_, row)| of_the_kind(row)).map_or(0, |&(line, _)| line)
}

fn brings_tick(row: &Row, tick: u32) -> bool {
    row.first.tick == tick || row.second.tick == tick
}

fn brings_heading(row: &Row, heading: i32) -> bool {
    row.first.heading == heading || row.second.heading == heading
}

/// The pair that a row sets, directly or as its mirror.
fn sets(row: &Row, first: Node, second: Node) -> bool {
    (row.first, row.second) == (first, second) || (row.second, row.first) == (first, second)
}

/// What explains a refusal of the last of these lines. The record and the cells are as the lines before it left them.
fn of_line(number: u8, lines: &[&[u8]], record: &Record, cells: &[i32]) -> Explanation {
    let Some((refused, before)) = lines.split_last() else {
        return Explanation::Nothing;
    };
    match number {
        5 => first_field(&rows::fields_of(refused), has_form),
        6 => first_field(&rows::fields_of(refused), in_range),
        8 => held(&used_rows(before, &record.choices), record),
        9 => match rows::read(refused, lines.len() as u32, &record.choices) {
            Line::Used(row) => set(&used_rows(before, &record.choices), &row, record, cells),
            _ => Explanation::Nothing,
        },
        _ => Explanation::Nothing,
    }
}

/// The first field in column order that is not as it should be.
fn first_field(fields: &[&[u8]], good: fn(usize, &[u8]) -> bool) -> Explanation {
    let offending = (1..).zip(fields).find(|&(column, field)| !good(column, field));
    offending.map_or(Explanation::Nothing, |(column, _)| Explanation::Field(column))
}

/// I is one byte, 1 to 6; the other columns have the form of a field.
fn has_form(column: usize, field: &[u8]) -> bool {
    match column {
        5 => matches!(field, [b'1'..=b'6']),
        _ => fields::read(field).is_some(),
    }
}

/// PER1 PER2 BETA1 BETA2 I MOD PHS RE IM, rounded in their unit; of I and PHS there is no range.
fn in_range(column: usize, field: &[u8]) -> bool {
    let (places, range) = match column {
        1 | 2 => (6, 1_000_000..=100_000_000),
        3 | 4 => (3, -180_000..=180_000),
        6 => (6, 0..=MOST_MODULUS),
        8 | 9 => (6, -1_000_000_000..=1_000_000_000),
        _ => return true,
    };
    fields::read(field).is_some_and(|value| range.contains(&value.in_units(places)))
}

/// 8. Slots are in order of arrival; the refused row brings none.
fn held(used: &[(u32, Row)], record: &Record) -> Explanation {
    let mut headings = [0; HEADING_SLOTS];
    for (line, &heading) in headings.iter_mut().zip(record.held_headings()) {
        *line = first_line(used, |row| brings_heading(row, heading));
    }
    // A free slot holds 0, and no row brings a tick of 0.
    let frequencies = record.ticks.map(|tick| first_line(used, |row| brings_tick(row, tick)));
    Explanation::Held { frequencies, headings }
}

/// 9. Both values are those of the refused row's first and second node, in that order.
fn set(used: &[(u32, Row)], row: &Row, record: &Record, cells: &[i32]) -> Explanation {
    let line = first_line(used, |other| sets(other, row.first, row.second));
    let (x, y) = (number_of(row.first, record), number_of(row.second, record));
    Explanation::Set { line, held: table::cell(cells, x, y), said: (row.re, row.im) }
}

/// The node's number in the table. Where a cell is set already, both its nodes have their slots.
fn number_of(node: Node, record: &Record) -> usize {
    let slots = record.heading_slot(node.heading).zip(record.frequency_slot(node.tick));
    slots.map(|(heading, frequency)| table::node_number(heading, frequency)).expect("a node of a cell that is set")
}

/// 11. A tick and a heading are brought in either of their two places.
fn brought(used: &[(u32, Row)], first: Node, second: Node) -> Explanation {
    let tick = |tick| first_line(used, |row| brings_tick(row, tick));
    let heading = |heading| first_line(used, |row| brings_heading(row, heading));
    Explanation::Brought([tick(first.tick), heading(first.heading), tick(second.tick), heading(second.heading)])
}

#[cfg(test)]
mod tests {
    use super::*;
    use crate::reader::tests::{EXAMPLE_H, FOURTH};
    use crate::table::{CELLS, FLAGS};

    const H: Choices = Choices { kind: 0, component: 1, coverage: 0 };
    const F: Choices = Choices { kind: 0, component: 1, coverage: 1 };
    const S: Choices = Choices { kind: 1, component: 1, coverage: 0 };

    fn of(choices: Choices, stated: Refusal, text: &str) -> String {
        let (mut cells, mut flags) = (vec![0; CELLS], vec![0; FLAGS]);
        let told = explain(choices, stated, text.as_bytes(), &mut cells, &mut flags);
        told.map_or_else(|refusal| refusal.text(), |explanation| explanation.text())
    }

    /// With a line for its place.
    fn line(choices: Choices, number: u8, line: u32, text: &str) -> String {
        of(choices, Refusal::at_line(number, line), text)
    }

    fn pair(choices: Choices, pair: [i32; 4], text: &str) -> String {
        let node = |at: usize| Node { tick: pair[at] as u32, heading: pair[at + 1] };
        of(choices, Refusal { number: 11, place: Place::Pair(node(0), node(2)) }, text)
    }

    #[test]
    fn the_fourth_row_of_example_h() {
        let wrong = FOURTH.replace("-0.004000", "0.004000");
        // Line 3 set it as its mirror; both values are those of 1250, 1000.
        assert_eq!(line(H, 9, 4, &format!("{EXAMPLE_H}{wrong}")), "set 3 -30000 -4000 -30000 4000");
        // The right one ahead of it is a repeat, and the first line stays the third.
        assert_eq!(line(H, 9, 5, &format!("{EXAMPLE_H}{FOURTH}{wrong}")), "set 3 -30000 -4000 -30000 4000");
        let third = EXAMPLE_H.lines().last().unwrap().replace(" 0.004000", " -0.004000");
        assert_eq!(line(H, 9, 4, &format!("{EXAMPLE_H}{third}")), "set 3 -30000 4000 -30000 -4000");
        assert_eq!(line(H, 9, 5, &format!("{EXAMPLE_H}{FOURTH}{third}")), "set 3 -30000 4000 -30000 -4000");
        // With a title, a blank line and carriage returns, all three counted.
        let text = format!("PER1 and so on\n \n{EXAMPLE_H}{wrong}").replace('\n', "\r\n");
        assert_eq!(line(H, 9, 6, &text), "set 5 -30000 -4000 -30000 4000");
        assert_eq!(line(H, 9, 6, text.trim_end()), "set 5 -30000 -4000 -30000 4000");
    }

    #[test]
    fn set_in_both_kinds_and_coverages() {
        let rows = "9 8 0 0 1 5 0 3 4\n8 9 0 0 1 5 0 3 4\n";
        assert_eq!(line(H, 9, 2, rows), "set 1 3000000 -4000000 3000000 4000000");
        let rows = "9 8 0 0 1 5 0 3 4\n8 9 0 0 1 5 0 3 4\n8 9 0 0 1 5 0 3 -4\n";
        assert_eq!(line(S, 9, 3, rows), "set 1 3000000 4000000 3000000 -4000000");
        // Equal nodes are their own mirror.
        assert_eq!(line(S, 9, 2, "9 9 0 0 1 5 0 3 4\n9 9 0 0 1 5 0 4 3"), "set 1 3000000 4000000 4000000 3000000");
        assert_eq!(line(H, 9, 2, "9 9 0 0 1 5 0 5 0\n9 9 0 0 1 5 0 -5 0"), "set 1 5000000 0 -5000000 0");
        // The pair of one frequency at two headings; in single coverage line 1 is passed over, and line 4 too.
        let rows = "9 9 0 1 1 5 0 3 4\n9 9 0 0 1 1 0 1 0\n9 9 1 1 1 1 0 1 0\n9 9 1 0 1 5 0 3 4\n9 9 1 1 1 2 0 2 0\n";
        assert_eq!(line(F, 9, 4, rows), "set 1 3000000 -4000000 3000000 4000000");
        assert_eq!(line(H, 9, 5, rows), "set 3 1000000 0 2000000 0");
        // A row of another component that says the same pair sets nothing; nor does a row of the same ticks elsewhere.
        let rows = "9 8 0 0 2 5 0 5 0\n9 8 1 1 1 5 0 5 0\n8 9 0 0 1 5 0 5 0\n9 8 0 0 1 5 0 5 0\n9 8 0 0 1 5 0 -5 0\n";
        assert_eq!(line(H, 9, 5, rows), "set 3 5000000 0 -5000000 0");
        // 180 in both signs is one heading (M-102), and two periods of one tick are one frequency.
        assert_eq!(
            line(H, 9, 2, "6.4 6.4 -180 180 1 5 0 5 0\n6.402 6.4 180 180 1 4 0 4 0"),
            "set 1 5000000 0 4000000 0"
        );
    }

    #[test]
    fn brought_by_either_place() {
        let rows = "9 9 0 0 1 0 0 0 0\n8 9 0 0 1 0 0 0 0\n";
        assert_eq!(pair(H, [1250, 0, 1250, 0], rows), "brought 2 1 2 1");
        let rows = "9 8 0 0 1 0 0 0 0\n9 9 0 0 1 0 0 0 0\n";
        assert_eq!(pair(H, [1250, 0, 1250, 0], rows), "brought 1 1 1 1");
        // 10 s and 8 s at 0 degrees, 10 s at 30: in full coverage (1000 0) with (1250 0) is missing first.
        let rows = "\n10 10 0 0 1 0 0 0 0\n10 10 30 30 1 0 0 0 0\n10 8 30 30 1 0 0 0 0\n10 8 0 30 1 0 0 0 0\n";
        assert_eq!(pair(F, [1000, 0, 1250, 0], rows), "brought 2 2 4 2");
        // In single coverage line 5 is passed over, and so is line 1 here.
        let rows = "10 8 0 30 1 0 0 0 0\n10 10 30 30 1 0 0 0 0\n10 10 0 0 1 0 0 0 0\n8 8 0 0 1 0 0 0 0";
        assert_eq!(pair(H, [1000, 0, 1250, 0], rows), "brought 2 3 4 3");
        // In full coverage line 1 is used, and brings all four.
        assert_eq!(pair(F, [1000, 0, 1250, 0], rows), "brought 1 1 1 1");
        // The second heading in BETA2 alone.
        let rows = "9 9 0 0 1 0 0 0 0\n9 9 0 -180 1 0 0 0 0\n";
        assert_eq!(pair(F, [1111, 180_000, 1111, 180_000], rows), "brought 1 2 1 2");
    }

    fn diagonal(period: u32, heading: u32) -> String {
        format!("{period} {period} {heading} {heading} 1 0 0 0 0\n")
    }

    #[test]
    fn held_frequencies() {
        let twenty: String = (1..=20).map(|period| diagonal(period, 0)).collect();
        let lines = "1 2 3 4 5 6 7 8 9 10 11 12 13 14 15 16 17 18 19 20";
        let want = format!("held {lines} 1 0 0 0");
        assert_eq!(line(H, 8, 21, &format!("{twenty}{}", diagonal(21, 0))), want);
        assert_eq!(line(H, 8, 21, &format!("{twenty}20 21 0 0 1 0 0 0 0")), want);
        assert_eq!(line(H, 8, 21, &format!("{twenty}21 1 0 0 1 0 0 0 0")), want);
        // Repeats bring nothing.
        assert_eq!(line(H, 8, 41, &format!("{twenty}{twenty}{}", diagonal(21, 0))), want);
        // 19 held and two new ones in the row: 19 lines, and its heading is not held either.
        let nineteen: String = (1..=19).map(|period| diagonal(period, 0)).collect();
        let want = "held 1 2 3 4 5 6 7 8 9 10 11 12 13 14 15 16 17 18 19 0 1 0 0 0";
        assert_eq!(line(F, 8, 20, &format!("{nineteen}21 20 0 5 1 0 0 0 0\n")), want);
        // Two to a row: PER1's slot before PER2's, on one line.
        let pairs: String = (0..10).map(|at| format!("{} {} 0 0 1 0 0 0 0\n", 2 * at + 2, 2 * at + 1)).collect();
        let want = "held 1 1 2 2 3 3 4 4 5 5 6 6 7 7 8 8 9 9 10 10 1 0 0 0";
        assert_eq!(line(H, 8, 11, &format!("{pairs}{}", diagonal(21, 0))), want);
        // A row of another component ahead of them, blank lines between.
        let text = format!("1 2 0 0 2 0 0 0 0\n{}{}", pairs.replace('\n', "\n\n"), diagonal(21, 0));
        let want = "held 2 2 4 4 6 6 8 8 10 10 12 12 14 14 16 16 18 18 20 20 2 0 0 0";
        assert_eq!(line(H, 8, 22, &text), want);
    }

    #[test]
    fn held_headings() {
        let none = "0 0 0 0 0 0 0 0 0 0 0 0 0 0 0 0 0 0 0";
        let four: String = (0..4).map(|heading| diagonal(9, heading)).collect();
        assert_eq!(line(H, 8, 5, &format!("{four}{}", diagonal(9, 4))), format!("held 1 {none} 1 2 3 4"));
        // A frequency and a heading that are new: neither is held.
        assert_eq!(line(H, 8, 5, &format!("{four}{}", diagonal(8, 4))), format!("held 1 {none} 1 2 3 4"));
        // Three held and two new ones.
        let three: String = (1..4).map(|heading| diagonal(9, heading)).collect();
        assert_eq!(line(F, 8, 4, &format!("{three}9 9 0 4 1 0 0 0 0\n")), format!("held 1 {none} 1 2 3 0"));
        // Brought by BETA2: line 1 brings two.
        let rows = "9 9 7 -180 1 0 0 0 0\n9 9 180 0 1 0 0 0 0\n9 9 1 0 1 0 0 0 0\n9 9 1 2 1 0 0 0 0\n";
        assert_eq!(line(F, 8, 4, rows), format!("held 1 {none} 1 1 2 3"));
    }

    #[test]
    fn the_first_field_of_a_wrong_form() {
        let good = ["9", "9", "0", "0", "1", "0", "0", "0", "0"];
        for column in 1..=9 {
            let mut fields = good;
            fields[column - 1] = "x";
            // A first line that starts with a letter is a title.
            let text = format!("\n{}\n", fields.join(" "));
            assert_eq!(line(H, 5, 2, &text), format!("field {column}"));
            fields[8] = "*****\r";
            let text = format!("\n{}\n", fields.join(" "));
            assert_eq!(line(H, 5, 2, &text), format!("field {column}"));
        }
        for wrong in ["0", "7", "01", "1.", "+1", "12"] {
            assert_eq!(line(H, 5, 1, &format!("9 9 0 0 {wrong} 0 0 0 NaN")), "field 5");
            assert_eq!(line(H, 5, 1, &format!("9 9 0 - {wrong} 0 0 0 NaN")), "field 4");
        }
        // In a row of another component the form is asked too; a range is none of the form.
        assert_eq!(line(H, 5, 1, "900 9 0 0 2 0 1E123 0 0\n"), "field 7");
        assert_eq!(line(H, 5, 1, "900 9 0 360 1 -1 0 1.2.3 0\r"), "field 8");
    }

    #[test]
    fn the_first_field_out_of_range() {
        let good = ["9", "9", "0", "0", "1", "0", "9E99", "0", "0"];
        let bad = ["900", "0.9", "180.001", "-180.001", "", "1415.000001", "", "-1000.000001", "1000.000001"];
        for column in [1, 2, 3, 4, 6, 8, 9] {
            let mut fields = good;
            fields[column - 1] = bad[column - 1];
            assert_eq!(line(H, 6, 1, &fields.join(" ")), format!("field {column}"));
            fields[8] = bad[8];
            assert_eq!(line(H, 6, 1, &fields.join(" ")), format!("field {column}"));
        }
        // MOD is the sixth and comes before RE; all before it just in range.
        assert_eq!(line(H, 6, 1, "100.0000005 0.9999995 -180.0005 180.0005 1 -0.000001 0 1001 0"), "field 6");
        assert_eq!(line(H, 6, 1, "9 9 0 90 1 1415 1E99 1000.0000005 -1000.000001"), "field 9");
    }

    #[test]
    fn numbers_with_nothing() {
        assert_eq!(line(H, 3, 1, &format!("{:161}", "9 9 0 0 1 0 0 0 0")), "nothing");
        assert_eq!(line(H, 3, 2, &format!("\n{:161}\n", "x")), "nothing");
        assert_eq!(line(H, 4, 2, "9 9 0 0 1 0 0 0 0\n9 9 0\n"), "nothing");
        assert_eq!(line(H, 7, 1, "9 9 0 0 1 5 0 0 5"), "nothing");
        assert_eq!(line(H, 17, 1, "9 9 0 0 1 4 0 5 0"), "nothing");
        assert_eq!(of(H, Refusal::plain(10), ""), "nothing");
        assert_eq!(of(H, Refusal::plain(10), "9 9 0 0 2 0 0 0 0\n\n9 9 0 1 1 0 0 0 0"), "nothing");
    }

    #[test]
    fn past_the_last_line() {
        let blank = "\n".repeat(1_000_000);
        for more in ["\n", "x", "\n\n", "9 9 0 0 1 0 0 0 0\n"] {
            assert_eq!(line(H, 3, 1_000_001, &format!("{blank}{more}")), "nothing");
            assert_eq!(line(H, 3, 1_000_000, &format!("{blank}{more}")), "refused 2 0");
        }
        assert_eq!(of(H, Refusal::plain(10), &blank), "nothing");
        assert_eq!(line(H, 3, 1_000_001, &blank), "refused 2 0");
    }

    #[test]
    fn what_the_text_does_not_give() {
        let two = "refused 2 0";
        for number in 0..=255 {
            assert_eq!(of(H, Refusal::plain(number), EXAMPLE_H), two);
            assert_eq!(line(H, number, 3, EXAMPLE_H), two);
            assert_eq!(line(H, number, 2, "9 9 0 0 1 0 0 0 0\n9") == two, number != 4, "{number}");
        }
        assert_eq!(pair(H, [1000, 0, 1250, 0], EXAMPLE_H), two);
        for other in [1, 3, 1_000_001, u32::MAX] {
            assert_eq!(line(H, 4, other, "9 9 0 0 1 0 0 0 0\n9"), two);
        }
        assert_eq!(of(H, Refusal::plain(4), "9"), two);
        assert_eq!(line(H, 10, 1, ""), two);
        assert_eq!(line(H, 10, 1, "\n"), two);
        let rows = "9 9 180 180 1 0 0 0 0\n9 9 90 90 1 0 0 0 0\n";
        let missing = [1111, 90_000, 1111, 180_000];
        assert_eq!(pair(F, missing, rows), "brought 1 2 1 1");
        // The pair from its other side, -180 for 180, one part other.
        for place in [
            [1111, 180_000, 1111, 90_000],
            [1111, 90_000, 1111, -180_000],
            [1110, 90_000, 1111, 180_000],
            [1111, 90_001, 1111, 180_000],
            [1111, 90_000, 1112, 180_000],
            [1111, 90_000, 1111, 90_000],
            [0; 4],
        ] {
            assert_eq!(pair(F, place, rows), two, "{place:?}");
        }
        // Other choices are another text.
        assert_eq!(pair(H, missing, rows), two);
        assert_eq!(line(S, 9, 4, &format!("{EXAMPLE_H}{}", FOURTH.replace("-0.004000", "0.004000"))), two);
    }

    #[test]
    fn one_then_two_come_first() {
        let ask = |choices: Choices, cells: usize, flags: usize| {
            let (mut cells, mut flags) = (vec![7; cells], vec![7; flags]);
            explain(choices, Refusal::plain(10), b"", &mut cells, &mut flags)
        };
        let invalid = Choices { kind: 2, ..H };
        for (cells, flags) in [(CELLS - 1, FLAGS), (CELLS, FLAGS - 1), (0, 0)] {
            assert_eq!(ask(H, cells, flags), Err(Refusal::plain(1)));
            assert_eq!(ask(invalid, cells, flags), Err(Refusal::plain(1)));
        }
        assert_eq!(ask(H, CELLS, FLAGS), Ok(Explanation::Nothing));
        assert_eq!(ask(H, CELLS + 100, FLAGS + 100), Ok(Explanation::Nothing));
        for invalid in
            [invalid, Choices { component: 0, ..H }, Choices { component: 7, ..H }, Choices { coverage: 2, ..H }]
        {
            assert_eq!(ask(invalid, CELLS, FLAGS), Err(Refusal::plain(2)));
        }
    }
}
