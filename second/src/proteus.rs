//! M-100: six accepted difference tables of one hull, components 1 to 6, as the text that ProteusDS reads
//! (source document 004, section 3.1), and the program that makes it of one WAMIT text.

use crate::protocol::coverage_of;
use crate::reader;
use crate::rounding::nearest;
use crate::rows::{Choices, Node, DIFFERENCE};
use crate::table::{cell, may_query, node_number, Record, Refusal, CELLS, FLAGS};

pub const COMPONENTS: usize = 6;
/// A turn in billionths of a radian; a tick is a 10,000th of a turn to the second.
const TURN: i128 = 6_283_185_307;
const TICKS_TO_THE_HERTZ: i128 = 10_000;
const MOST_PART: i32 = 1_000_000_000;

/// One of the six: its record, and the cells that are lent of it.
#[derive(Clone, Copy)]
pub struct Table<'a> {
    pub record: &'a Record,
    pub cells: &'a [i32],
}

type Six<'a> = [Table<'a>; COMPONENTS];

/// Writes the text into the room that is lent and gives its length: 1 and 2 over the six, 18, 15, 19. A refusal
/// writes nothing, and an answer nothing behind the text.
pub fn write(six: &Six, room: &mut [u8]) -> Result<usize, Refusal> {
    may_write(six)?;
    let text = text(six)?;
    let Some(room) = room.get_mut(..text.len()) else {
        return Err(Refusal::plain(19));
    };
    room.copy_from_slice(text.as_bytes());
    Ok(text.len())
}

/// 1 if any of the six is lent too little, then 2 if any is not valid or not accepted, then 18.
fn may_write(six: &Six) -> Result<(), Refusal> {
    let refusals: Vec<Refusal> = six.iter().filter_map(|table| may_query(table.record, table.cells).err()).collect();
    if let Some(refusal) = refusals.into_iter().min_by_key(|refusal| refusal.number) {
        return Err(refusal);
    }
    for (index, table) in six.iter().enumerate() {
        if !belongs(table.record, index as u8 + 1, six[0].record) {
            return Err(Refusal::plain(18));
        }
    }
    Ok(())
}

/// What is asked of the table in the place of a component, beside the first table.
fn belongs(record: &Record, component: u8, first: &Record) -> bool {
    record.choices.kind == DIFFERENCE
        && record.choices.component == component
        && record.choices.coverage == first.choices.coverage
        && rising_ticks(record) == rising_ticks(first)
        && rising_headings(record) == rising_headings(first)
}

fn rising_ticks(record: &Record) -> Vec<u32> {
    record.rising_ticks().into_iter().map(|(tick, _)| tick).collect()
}

fn rising_headings(record: &Record) -> Vec<i32> {
    let mut headings = record.held_headings().to_vec();
    headings.sort();
    headings
}

/// The whole text, or 15.
fn text(six: &Six) -> Result<String, Refusal> {
    let first = six[0].record;
    let ticks = rising_ticks(first);
    let headings = rising_headings(first);
    let frequency_words: Vec<String> = ticks.iter().map(|&tick| decimal(billionths(tick), 9)).collect();
    let heading_words: Vec<String> = headings.iter().map(|&heading| decimal(i128::from(heading), 3)).collect();
    let mut lines = vec![
        "$QTFFrequencies".to_string(),
        frequency_words.join(" "),
        "$QTFHeadings".to_string(),
        heading_words.join(" "),
        "$WaveDriftQTFMatrix".to_string(),
    ];
    // As the listing goes: the first node by heading, then tick, and then the second.
    let nodes: Vec<Node> = first.nodes().into_iter().map(|(node, _)| node).collect();
    for &a in &nodes {
        for &b in nodes.iter().filter(|&&b| first.needs(a, b)) {
            let frequency = |node: Node| ticks.iter().position(|&tick| tick == node.tick).expect("a tick of the first");
            let heading = |node: Node| headings.iter().position(|&held| held == node.heading).expect("a heading of it");
            let mut line = format!("{} {} {} {}", frequency(a), frequency(b), heading(a), heading(b));
            for table in six {
                let (re, im) = entry(table, a, b)?;
                line += &format!(" {} {}", decimal(i128::from(re), 6), decimal(i128::from(im), 6));
            }
            lines.push(line);
        }
    }
    Ok(lines.join("\n") + "\n")
}

/// The entry of two nodes in a table, found by what they are and not by where the first table has them; or 15.
fn entry(table: &Table, a: Node, b: Node) -> Result<(i32, i32), Refusal> {
    let (re, im) = cell(table.cells, number_of(table.record, a), number_of(table.record, b));
    let in_range = |part: i32| (-MOST_PART..=MOST_PART).contains(&part);
    if !in_range(re) || !in_range(im) {
        return Err(Refusal::plain(15));
    }
    Ok((re, im))
}

fn number_of(record: &Record, node: Node) -> usize {
    let heading_slot = record.heading_slot(node.heading).expect("the six have the same headings");
    let frequency_slot = record.frequency_slot(node.tick).expect("the six have the same frequencies");
    node_number(heading_slot, frequency_slot)
}

/// A frequency in billionths of a radian a second.
fn billionths(tick: u32) -> i128 {
    nearest(i128::from(tick) * TURN, TICKS_TO_THE_HERTZ)
}

/// A whole number of units of ten to the minus `places` as a decimal, with a sign only below 0.
fn decimal(value: i128, places: usize) -> String {
    let unit = 10_u128.pow(places as u32);
    let size = value.unsigned_abs();
    let sign = if value < 0 { "-" } else { "" };
    format!("{sign}{}.{:0places$}", size / unit, size % unit)
}

/// Room for any text: the longest has 1,056,325 bytes.
const ROOM: usize = 1_100_000;

/// The program: one WAMIT text with rows of all six components, read by six readers; the text for ProteusDS, or one
/// line that says what is refused.
pub fn program(coverage: &str, text: &[u8]) -> String {
    let tables = match six_tables(coverage, text) {
        Ok(tables) => tables,
        Err(line) => return line,
    };
    let six: Six = std::array::from_fn(|index| Table { record: &tables[index].0, cells: &tables[index].1 });
    let mut room = vec![0; ROOM];
    match write(&six, &mut room) {
        Ok(length) => String::from_utf8_lossy(&room[..length]).into_owned(),
        Err(refusal) => refusal.text() + "\n",
    }
}

/// What the six readers make of the text, or the program's line of the first that is refused.
pub fn six_tables(coverage: &str, text: &[u8]) -> Result<Vec<(Record, Vec<i32>)>, String> {
    let mut tables = Vec::new();
    for component in 1..=COMPONENTS as u8 {
        let choices = Choices { kind: DIFFERENCE, component, coverage: coverage_of(coverage) };
        let (mut cells, mut flags) = (vec![0; CELLS], vec![0; FLAGS]);
        // The one choice is the caller's and not a component's.
        let record = reader::open(choices, &mut cells, &mut flags).map_err(|refusal| refusal.text() + "\n")?;
        let (record, _) = reader::piece(record, text, &mut cells, &mut flags);
        // Where the piece was refused, closing says the same.
        let (record, answer) = reader::close(record, &mut cells, &mut flags);
        answer.map_err(|refusal| format!("component {component} {}\n", refusal.text()))?;
        tables.push((record, cells));
    }
    Ok(tables)
}

#[cfg(test)]
mod tests {
    use super::*;
    use crate::reader::tests::{run_choices, Run, EXAMPLE_H};
    use crate::table::{cell_at, ACCEPTED, FREQUENCY_SLOTS, HEADING_SLOTS};

    #[test]
    fn frequencies() {
        let worked = [
            (100, "0.062831853"),   // 62,831,853.07
            (1_000, "0.628318531"), // 628,318,530.7
            (1_250, "0.785398163"), // 785,398,163.375
            (1_592, "1.000283101"), // 1,000,283,100.8744
            (5_000, "3.141592654"), // 3,141,592,653.5: the even one is above
            (9_999, "6.282556988"), // 6,282,556,988.4693
            (10_000, "6.283185307"),
        ];
        for (tick, want) in worked {
            assert_eq!(decimal(billionths(tick), 9), want, "{tick}");
        }
    }

    #[test]
    fn the_one_tie() {
        let tied = (100..=10_000).filter(|&tick| i128::from(tick) * TURN % TICKS_TO_THE_HERTZ == 5_000);
        assert_eq!(tied.collect::<Vec<u32>>(), [5_000]);
    }

    #[test]
    fn decimals() {
        let parts = [
            (0, "0.000000"),
            (1, "0.000001"),
            (-1, "-0.000001"),
            (-20_000, "-0.020000"),
            (-999_999, "-0.999999"),
            (-1_000_000, "-1.000000"),
            (12_345_678, "12.345678"),
            (1_000_000_000, "1000.000000"),
            (-1_000_000_000, "-1000.000000"),
        ];
        for (value, want) in parts {
            assert_eq!(decimal(value, 6), want);
        }
        let headings = [
            (0, "0.000"),
            (-90_000, "-90.000"),
            (180_000, "180.000"),
            (-179_999, "-179.999"),
            (-1, "-0.001"),
            (22_500, "22.500"),
        ];
        for (value, want) in headings {
            assert_eq!(decimal(value, 3), want);
        }
    }

    /// Two frequencies, one heading. Component 1 is example H; 3 and 4 bring 8 s first.
    const ROWS: [&str; 6] = [
        EXAMPLE_H,
        "10 10 0 0 2 .5 0 .5 0\n8 8 0 0 2 1000 0 1000 0\n10 8 0 0 2 1414.21 0 -1000 1000\n",
        "8 8 0 0 3 0 0 .000001 0\n10 8 0 0 3 0 0 0 0\n10 10 0 0 3 0 0 0 0\n",
        "8 10 0 0 4 12.3461 0 12.345678 -.1\n8 8 0 0 4 0 0 -.000001 0\n10 10 0 0 4 12.5 0 -12.5 0\n",
        "10 10 0 0 5 1000 0 999.999999 0\n10 8 0 0 5 2.23607 0 1 -2\n8 8 0 0 5 1000 0 -999.999999 0\n",
        "10 8 0 0 6 1 0 .00001 -.999999\n10 10 0 0 6 7 0 7 0\n8 8 0 0 6 7 0 -7 0\n",
    ];
    const TEXT: &str = "\
$QTFFrequencies
0.628318531 0.785398163
$QTFHeadings
0.000
$WaveDriftQTFMatrix
0 0 0 0 -0.020000 0.000000 0.500000 0.000000 0.000000 0.000000 -12.500000 0.000000 999.999999 0.000000 7.000000 0.000000
0 1 0 0 -0.030000 0.004000 -1000.000000 1000.000000 0.000000 0.000000 12.345678 0.100000 1.000000 -2.000000 0.000010 -0.999999
1 0 0 0 -0.030000 -0.004000 -1000.000000 -1000.000000 0.000000 0.000000 12.345678 -0.100000 1.000000 2.000000 0.000010 0.999999
1 1 0 0 -0.036000 0.000000 1000.000000 0.000000 0.000001 0.000000 -0.000001 0.000000 -999.999999 0.000000 -7.000000 0.000000
";

    fn worked(coverage: u8) -> Vec<Run> {
        let read = |(index, rows): (usize, &&str)| run_choices(0, index as u8 + 1, coverage, &[rows.as_bytes()]);
        ROWS.iter().enumerate().map(read).collect()
    }

    fn written_in(runs: &[Run], room: &mut [u8]) -> Result<usize, Refusal> {
        write(&std::array::from_fn(|index| Table { record: &runs[index].record, cells: &runs[index].cells }), room)
    }

    fn written(runs: &[Run]) -> Result<String, Refusal> {
        let mut room = vec![0; ROOM];
        written_in(runs, &mut room).map(|length| String::from_utf8(room[..length].to_vec()).unwrap())
    }

    #[test]
    fn two_frequencies_and_one_heading() {
        let runs = worked(0);
        assert_eq!((runs[0].record.ticks[0], runs[2].record.ticks[0]), (1_000, 1_250));
        assert_eq!(written(&runs).unwrap(), TEXT);
        // With one heading the coverage makes no difference to the text.
        assert_eq!(written(&worked(1)).unwrap(), TEXT);
    }

    #[test]
    fn two_headings() {
        let rows = "10 10 180 180 C C.1 0 C.1 0\n10 10 180 -90 C MOD 0 C.2 .C\n10 10 -90 -90 C C.3 0 C.3 0\n";
        let moduli = ["1.20416", "2.20907", "3.21403", "4.21900", "5.22398", "6.22896"];
        let six = |coverage: u8| -> Vec<Run> {
            let read = |component: u8| {
                let rows = rows.replace("MOD", moduli[usize::from(component) - 1]).replace('C', &component.to_string());
                run_choices(0, component, coverage, &[rows.as_bytes()])
            };
            (1..=6).map(read).collect()
        };
        let head = "$QTFFrequencies\n0.628318531\n$QTFHeadings\n-90.000 180.000\n$WaveDriftQTFMatrix\n";
        let first = "0 0 0 0 1.300000 0.000000 2.300000 0.000000 3.300000 0.000000 4.300000 0.000000 5.300000 0.000000 6.300000 0.000000\n";
        let up = "0 0 0 1 1.200000 -0.100000 2.200000 -0.200000 3.200000 -0.300000 4.200000 -0.400000 5.200000 -0.500000 6.200000 -0.600000\n";
        let down = "0 0 1 0 1.200000 0.100000 2.200000 0.200000 3.200000 0.300000 4.200000 0.400000 5.200000 0.500000 6.200000 0.600000\n";
        let last = "0 0 1 1 1.100000 0.000000 2.100000 0.000000 3.100000 0.000000 4.100000 0.000000 5.100000 0.000000 6.100000 0.000000\n";
        assert_eq!(written(&six(1)).unwrap(), [head, first, up, down, last].concat());
        assert_eq!(written(&six(0)).unwrap(), [head, first, last].concat());
        // What single coverage does not need may hold anything.
        let mut single = six(0);
        single[4].cells[cell_at(0, 20)] = i32::MIN;
        assert_eq!(written(&single).unwrap(), [head, first, last].concat());
        let mut full = six(1);
        full[4].cells[cell_at(0, 20)] = i32::MIN;
        assert_eq!(written(&full), Err(Refusal::plain(15)));
    }

    #[test]
    fn room() {
        let runs = worked(0);
        let length = TEXT.len();
        let mut room = vec![b'~'; length - 1];
        assert_eq!(written_in(&runs, &mut room), Err(Refusal::plain(19)));
        assert!(room.iter().all(|&byte| byte == b'~'));
        assert_eq!(written_in(&runs, &mut []), Err(Refusal::plain(19)));
        let mut room = vec![b'~'; length];
        assert_eq!(written_in(&runs, &mut room), Ok(length));
        assert_eq!(room, TEXT.as_bytes());
        let mut room = vec![b'~'; length + 3];
        assert_eq!(written_in(&runs, &mut room), Ok(length));
        assert_eq!(room, [TEXT.as_bytes(), b"~~~"].concat());
    }

    #[test]
    fn eighteen() {
        let breaks: [fn(&mut Run); 6] = [
            |run| run.record.choices.kind = 1,
            |run| run.record.choices.component = 7 - run.record.choices.component,
            |run| run.record.choices.coverage = 1,
            |run| run.record.ticks[0] += 1,
            |run| run.record.ticks[2] = 2_000,
            |run| run.record.headings[0] = 1,
        ];
        for (number, change) in breaks.iter().enumerate() {
            for index in 0..COMPONENTS {
                let mut runs = worked(0);
                change(&mut runs[index]);
                assert_eq!(written(&runs), Err(Refusal::plain(18)), "{number} {index}");
            }
        }
        // Six sum tables are the same kind, and 18.
        let mut runs = worked(0);
        for run in &mut runs {
            run.record.choices.kind = 1;
        }
        assert_eq!(written(&runs), Err(Refusal::plain(18)));
        // A heading slot that is not held is none of the headings.
        let mut runs = worked(0);
        runs[3].record.headings[1] = 5_000;
        assert_eq!(written(&runs).unwrap(), TEXT);
    }

    #[test]
    fn fifteen_in_any_part_of_any_pair_of_any_table() {
        for index in 0..COMPONENTS {
            for (r, c) in [(0, 0), (0, 1), (1, 0), (1, 1)] {
                for part in 0..2 {
                    let mut runs = worked(0);
                    let at = cell_at(r, c) + part;
                    for (value, refused) in
                        [(1_000_000_001, true), (-1_000_000_001, true), (i32::MIN, true), (-1_000_000_000, false)]
                    {
                        runs[index].cells[at] = value;
                        let answer = written(&runs);
                        assert_eq!(answer == Err(Refusal::plain(15)), refused, "{index} {r} {c} {part} {value}");
                        assert_eq!(answer.is_ok(), !refused);
                    }
                }
            }
        }
        // A cell of no node of the table, and flags, are not looked at.
        let mut runs = worked(0);
        runs[5].cells[cell_at(2, 0)] = i32::MAX;
        runs[5].flags.fill(0);
        assert_eq!(written(&runs).unwrap(), TEXT);
    }

    #[test]
    fn order_of_refusals() {
        let mut runs = worked(0);
        let mut none: [u8; 0] = [];
        let mut answer = |runs: &[Run]| written_in(runs, &mut none).map_err(|refusal| refusal.number);
        assert_eq!(answer(&runs), Err(19));
        runs[2].cells[0] = i32::MAX;
        assert_eq!(answer(&runs), Err(15));
        runs[5].record.choices.coverage = 1;
        assert_eq!(answer(&runs), Err(18));
        // The last of the six not accepted, ahead of what is wrong with the first.
        runs[0].record.choices.kind = 1;
        runs[5].record.stage = 1;
        assert_eq!(answer(&runs), Err(2));
        runs[4].cells.truncate(CELLS - 1);
        assert_eq!(answer(&runs), Err(1));
        runs[0].record.stage = 12;
        assert_eq!(answer(&runs), Err(1));
    }

    /// All parts -1000, 20 frequencies, 4 headings of 8 bytes: 325 bytes ahead of the rows (16 + 240 + 13 + 36 + 20),
    /// and 6,400 rows of 12 parts of 12 bytes, two heading indexes of 1 byte, frequency indexes of 1 or 2 (3 for both in
    /// the mean) and 16 spaces and line feed: 6,400 (144 + 2 + 3 + 16) = 1,056,000.
    #[test]
    fn the_longest_text() {
        let mut runs = worked(1);
        for run in &mut runs {
            run.record.stage = ACCEPTED;
            for slot in 0..FREQUENCY_SLOTS {
                run.record.ticks[slot] = 10_000 - slot as u32;
            }
            run.record.headings_held = HEADING_SLOTS as u32;
            run.record.headings = [-100_000, -179_998, -179_999, -100_001];
            run.cells.fill(-MOST_PART);
        }
        let text = written(&runs).unwrap();
        assert_eq!((text.len(), text.lines().count()), (1_056_325, 6_405));
        assert_eq!(text.lines().map(|line| line.len() + 1).max(), Some(240));
        // As rows leave it: the imaginary part is 0 at equal nodes (4 bytes less, 80 nodes, six tables) and has a
        // minus in one of two mirrors (1 byte less, 3,160 pairs, six tables).
        for run in &mut runs {
            for r in 0..80 {
                for c in 0..=r {
                    run.cells[cell_at(r, c) + 1] = if r == c { 0 } else { MOST_PART };
                }
            }
        }
        assert_eq!(written(&runs).unwrap().len(), 1_056_325 - 1_920 - 18_960);
    }

    #[test]
    fn the_program() {
        let text = ROWS.concat();
        assert_eq!(program("single", text.as_bytes()), TEXT);
        assert_eq!(program("full", format!("PER1\n\n{text}").as_bytes()), TEXT);
        assert_eq!(program("both", text.as_bytes()), "refused 2 0\n");
        assert_eq!(program("single", b""), "component 1 refused 10 0\n");
        // All six readers stop at a line of the wrong form; the first is named.
        assert_eq!(program("single", format!("{text}8 8 0 0 6 0 0 NaN 0\n").as_bytes()), "component 1 refused 5 19\n");
        assert_eq!(
            program("single", format!("{text}8 8 0 0 6 7.07107 0 -7 1\n").as_bytes()),
            "component 6 refused 7 19\n"
        );
        assert_eq!(program("single", format!("{text}8 8 0 0 6 6 0 -7 1\n").as_bytes()), "component 6 refused 17 19\n");
        // Component 3 misses a pair at closing. A line of component 4 that is refused comes after that, and one of
        // component 2 before, though both stand ahead of all others.
        let gap = text.replace("10 8 0 0 3 0 0 0 0\n", "");
        assert_eq!(program("single", gap.as_bytes()), "component 3 refused 11 1000 0 1250 0\n");
        let both = format!("200 1 0 0 4 0 0 0 0\n{gap}");
        assert_eq!(program("single", both.as_bytes()), "component 3 refused 11 1000 0 1250 0\n");
        let both = format!("200 1 0 0 2 0 0 0 0\n{gap}");
        assert_eq!(program("single", both.as_bytes()), "component 2 refused 6 1\n");
        // Each is accepted by itself; component 6 has another frequency.
        let other = text.replace("8 8 0 0 6", "9 9 0 0 6").replace("10 8 0 0 6", "10 9 0 0 6");
        assert_eq!(program("single", other.as_bytes()), "refused 18 0\n");
    }
}
