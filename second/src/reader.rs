//! Opening, pieces of text, closing.

use crate::rows::{self, Choices, Line};
use crate::table::{self, Record, Refusal, ACCEPTED, CELLS, FLAGS, KEPT_BYTES, MOST_LINES, OPEN};

fn lent_enough(cells: &[i32], flags: &[u8]) -> Result<(), Refusal> {
    if cells.len() < CELLS || flags.len() < FLAGS {
        return Err(Refusal::plain(1));
    }
    Ok(())
}

/// Opening: 1, then 2. Sets the lent cells and flags to 0.
pub fn open(choices: Choices, cells: &mut [i32], flags: &mut [u8]) -> Result<Record, Refusal> {
    lent_enough(cells, flags)?;
    if !choices.valid() {
        return Err(Refusal::plain(2));
    }
    cells[..CELLS].fill(0);
    flags[..FLAGS].fill(0);
    Ok(Record::opened(choices))
}

/// What comes before the text: a stuck record repeats its refusal; 1; 2.
fn may_read(record: &Record, cells: &[i32], flags: &[u8]) -> Result<(), Refusal> {
    if record.valid() {
        if let Some(refusal) = record.stuck_with() {
            return Err(refusal);
        }
    }
    lent_enough(cells, flags)?;
    if !record.valid() || record.stage != OPEN {
        return Err(Refusal::plain(2));
    }
    Ok(())
}

/// One piece of text.
pub fn piece(mut record: Record, text: &[u8], cells: &mut [i32], flags: &mut [u8]) -> (Record, Result<(), Refusal>) {
    if let Err(refusal) = may_read(&record, cells, flags) {
        return (record, Err(refusal));
    }
    for &byte in text {
        match read_byte(&record, byte, cells, flags) {
            Ok(next) => record = next,
            // The record as it stood before the byte, but for the stage and the place.
            Err(refusal) => return (record.stuck(&refusal), Err(refusal)),
        }
    }
    (record, Ok(()))
}

fn read_byte(record: &Record, byte: u8, cells: &mut [i32], flags: &mut [u8]) -> Result<Record, Refusal> {
    let mut next = *record;
    if next.kept_held == 0 {
        // A line starts with its first byte.
        if next.lines >= MOST_LINES {
            return Err(Refusal::at_line(3, MOST_LINES + 1));
        }
        next.lines += 1;
    }
    if byte == b'\n' {
        return end_line(&next, cells, flags);
    }
    let held = next.kept_held as usize;
    if held == KEPT_BYTES {
        return Err(Refusal::at_line(3, next.lines));
    }
    next.kept[held] = byte;
    next.kept_held += 1;
    Ok(next)
}

/// The kept bytes are a whole line: read it, and keep nothing.
fn end_line(record: &Record, cells: &mut [i32], flags: &mut [u8]) -> Result<Record, Refusal> {
    let bytes = &record.kept[..record.kept_held as usize];
    let mut next = match rows::read(bytes, record.lines, &record.choices) {
        Line::Skipped | Line::PassedOver => *record,
        Line::Refused(number) => return Err(Refusal::at_line(number, record.lines)),
        Line::Used(row) => {
            table::put(record, &row, cells, flags).map_err(|number| Refusal::at_line(number, record.lines))?
        }
    };
    next.kept_held = 0;
    Ok(next)
}

/// Closing: an unfinished line is read as a line first; then 10 and 11. An acceptance reports the
/// counts of frequencies and headings.
pub fn close(record: Record, cells: &mut [i32], flags: &mut [u8]) -> (Record, Result<(usize, usize), Refusal>) {
    if let Err(refusal) = may_read(&record, cells, flags) {
        return (record, Err(refusal));
    }
    let mut last = record;
    if record.kept_held > 0 {
        match end_line(&record, cells, flags) {
            Ok(next) => last = next,
            Err(refusal) => return (record.stuck(&refusal), Err(refusal)),
        }
    }
    match table::complete(&last, flags) {
        Err(refusal) => (last.stuck(&refusal), Err(refusal)),
        Ok(()) => {
            last.stage = ACCEPTED;
            (last, Ok((last.frequency_count(), last.headings_held as usize)))
        }
    }
}

#[cfg(test)]
pub mod tests {
    use super::*;
    use crate::rows::Node;
    use crate::table::{cell, listing, Place};

    pub const EXAMPLE_H: &str = "\
0.100000E+02 0.100000E+02 0.0 0.0 1 0.020000 180.0 -0.020000 0.0
0.800000E+01 0.800000E+01 0.0 0.0 1 0.036000 180.0 -0.036000 0.0
0.100000E+02 0.800000E+01 0.0 0.0 1 0.0302655 172.405 -0.030000 0.004000
";
    const TWO_ROWS: &str = "\
0.100000E+02 0.100000E+02 0.0 0.0 1 0.020000 180.0 -0.020000 0.0
0.800000E+01 0.800000E+01 0.0 0.0 1 0.036000 180.0 -0.036000 0.0
";
    pub const FOURTH: &str = "0.800000E+01 0.100000E+02 0.0 0.0 1 0.0302655 172.405 -0.030000 -0.004000\n";
    const FOURTH_WRONG: &str = "0.800000E+01 0.100000E+02 0.0 0.0 1 0.0302655 172.405 -0.030000 0.004000\n";

    pub struct Run {
        pub record: Record,
        pub cells: Vec<i32>,
        pub flags: Vec<u8>,
        pub answer: Result<(usize, usize), Refusal>,
    }

    pub fn run_choices(kind: u8, component: u8, coverage: u8, pieces: &[&[u8]]) -> Run {
        let (mut cells, mut flags) = (vec![0; CELLS], vec![0; FLAGS]);
        let choices = Choices { kind, component, coverage };
        let mut record = open(choices, &mut cells, &mut flags).unwrap();
        for text in pieces {
            record = piece(record, text, &mut cells, &mut flags).0;
        }
        let (record, answer) = close(record, &mut cells, &mut flags);
        Run { record, cells, flags, answer }
    }

    pub fn run(text: &str) -> Run {
        run_choices(0, 1, 0, &[text.as_bytes()])
    }

    pub fn two_rows_and(third: &str) -> Run {
        run(&format!("{TWO_ROWS}{third}"))
    }

    #[test]
    fn example_h_lists_as_written() {
        let done = run(EXAMPLE_H);
        assert_eq!(done.answer, Ok((2, 1)));
        assert_eq!(
            listing(&done.record, &done.cells).unwrap(),
            [
                "QTF difference 1 single 2 1",
                "1000 0 1000 0 -20000 0",
                "1000 0 1250 0 -30000 4000",
                "1250 0 1000 0 -30000 -4000",
                "1250 0 1250 0 -36000 0",
            ]
        );
    }

    #[test]
    fn the_fourth_row() {
        assert_eq!(run(&format!("{EXAMPLE_H}{FOURTH}")).answer, Ok((2, 1)));
        assert_eq!(run(&format!("{EXAMPLE_H}{FOURTH_WRONG}")).answer, Err(Refusal::at_line(9, 4)));
        let instead = two_rows_and(FOURTH);
        assert_eq!(instead.answer, Ok((2, 1)));
        assert_eq!(instead.cells, run(EXAMPLE_H).cells);
    }

    #[test]
    fn cutting_anywhere_makes_no_difference() {
        let text = format!("PER1 and so on\r\n\r\n{EXAMPLE_H}\n \t\n{FOURTH}").replace("0.0\n", "0.0\r\n");
        for text in [text.clone(), text.trim_end().to_string(), format!("{text}{FOURTH_WRONG}"), format!("{text}9 9")] {
            let bytes = text.as_bytes();
            let whole = run(&text);
            for cut in 0..=bytes.len() {
                let cut = run_choices(0, 1, 0, &[&bytes[..cut], &[], &bytes[cut..]]);
                assert_eq!((cut.record, cut.answer), (whole.record, whole.answer));
                assert_eq!((cut.cells, cut.flags), (whole.cells.clone(), whole.flags.clone()));
            }
        }
    }

    #[test]
    fn line_lengths() {
        let row = "9 9 0 0 1 0 0 0 0";
        let full = format!("{row:160}");
        assert_eq!(run(&format!("{full}\n")).answer, Ok((1, 1)));
        assert_eq!(run(&full).answer, Ok((1, 1)));
        assert_eq!(run(&format!("{full} \n")).answer, Err(Refusal::at_line(3, 1)));
        assert_eq!(run(&format!("{row:159}\r\n")).answer, Ok((1, 1)));
        assert_eq!(run(&format!("{full}\r\n")).answer, Err(Refusal::at_line(3, 1)));
        assert_eq!(run(&format!("x{full}\n{row}")).answer, Err(Refusal::at_line(3, 1)));
        let kept = run(&format!("\n{full}zzz")).record;
        assert_eq!((kept.stage, kept.stuck_line, kept.lines, kept.kept_held), (3, 2, 2, 160));
    }

    #[test]
    fn the_last_lines() {
        let (mut cells, mut flags) = (vec![0; CELLS], vec![0; FLAGS]);
        let choices = Choices { kind: 0, component: 1, coverage: 0 };
        let mut record = open(choices, &mut cells, &mut flags).unwrap();
        record.lines = 999_998;
        let (record, answer) = piece(record, b"\n9 9 0 0 1 0 0 0 0\n", &mut cells, &mut flags);
        assert_eq!((record.lines, answer), (1_000_000, Ok(())));
        assert_eq!(close(record, &mut cells, &mut flags).1, Ok((1, 1)));
        for byte in [b"\n", b"x"] {
            let (after, answer) = piece(record, byte, &mut cells, &mut flags);
            assert_eq!(answer, Err(Refusal::at_line(3, 1_000_001)));
            assert_eq!((after.lines, after.kept_held, after.stage), (1_000_000, 0, 3));
        }
        let mut past = record;
        past.lines = 1_000_001;
        assert_eq!(piece(past, b"", &mut cells, &mut flags).1, Err(Refusal::plain(2)));
    }

    fn diagonal(period: u32, heading: u32) -> String {
        format!("{period} {period} {heading} {heading} 1 0 0 0 0\n")
    }

    #[test]
    fn slots_run_out() {
        let twenty: String = (1..=20).map(|p| diagonal(p, 0)).collect();
        let done = run(&twenty);
        let a = Node { tick: 500, heading: 0 };
        let b = Node { tick: 526, heading: 0 };
        assert_eq!(done.answer, Err(Refusal { number: 11, place: Place::Pair(a, b) }));
        let more = run(&format!("{twenty}{}", diagonal(21, 0)));
        assert_eq!(more.answer, Err(Refusal::at_line(8, 21)));
        assert_eq!((more.record.ticks, &more.cells), (done.record.ticks, &done.cells));
        let four: String = (0..4).map(|h| diagonal(9, h)).collect();
        assert_eq!(run(&four).answer, Ok((1, 4)));
        assert_eq!(run(&format!("{four}{}", diagonal(9, 4))).answer, Err(Refusal::at_line(8, 5)));
    }

    #[test]
    fn nothing_used() {
        assert_eq!(run("").answer, Err(Refusal::plain(10)));
        assert_eq!(run("9 9 0 0 2 0 0 0 0\n").answer, Err(Refusal::plain(10)));
        assert_eq!(run("9 9 0 1 1 0 0 0 0").answer, Err(Refusal::plain(10)));
        let done = run("9 9 0 1 1 0 0 0 0");
        assert_eq!((done.record.stage, done.record.kept_held, done.record.lines), (10, 0, 1));
    }

    #[test]
    fn stuck_repeats_ahead_of_short_buffers() {
        let mut done = run("9 9 0 0 1 0 0 0 0\nx\n");
        assert_eq!(done.answer, Err(Refusal::at_line(4, 2)));
        let again = piece(done.record, b"9", &mut done.cells[..5], &mut done.flags[..0]);
        assert_eq!(again, (done.record, Err(Refusal::at_line(4, 2))));
        done.record.kept_held = 200;
        assert_eq!(close(done.record, &mut done.cells[..5], &mut done.flags).1, Err(Refusal::plain(1)));
        assert_eq!(close(done.record, &mut done.cells, &mut done.flags).1, Err(Refusal::plain(2)));
    }

    #[test]
    fn columns_that_disagree() {
        let good = "9 9 0 0 1 .5 0 .5 0\n";
        let bad = "8 8 0 0 1 .4 0 .5 0";
        let whole = run(&format!("{good}{bad}\n"));
        assert_eq!(whole.answer, Err(Refusal::at_line(17, 2)));
        // The line stays kept, its line is begun, nothing of it is written.
        let record = whole.record;
        assert_eq!((record.stage, record.stuck_line, record.lines), (17, 2, 2));
        assert_eq!(&record.kept[..record.kept_held as usize], bad.as_bytes());
        assert_eq!((record.ticks[0], record.ticks[1]), (1111, 0));
        assert_eq!((cell(&whole.cells, 0, 0), cell(&whole.cells, 1, 1), whole.flags[81]), ((500_000, 0), (0, 0), 0));
        // So it is where closing reads it.
        let closed = run(&format!("{good}{bad}"));
        assert_eq!((closed.record, closed.answer), (whole.record, whole.answer));
        // It sticks, ahead of 1.
        let (mut cells, mut flags) = (whole.cells.clone(), whole.flags.clone());
        let again = piece(record, good.as_bytes(), &mut cells[..5], &mut flags);
        assert_eq!(again, (record, Err(Refusal::at_line(17, 2))));
        assert_eq!(close(record, &mut cells, &mut flags), (record, Err(Refusal::at_line(17, 2))));
        assert_eq!((cells, flags), (whole.cells, whole.flags));
        // 17 before 8 and 9.
        let nine = run(&format!("{good}9 9 0 0 1 .5 0 .4 0"));
        assert_eq!(nine.answer, Err(Refusal::at_line(17, 2)));
        let four: String = (0..4).map(|h| diagonal(9, h)).collect();
        assert_eq!(run(&format!("{four}9 9 4 4 1 .5 0 .4 0")).answer, Err(Refusal::at_line(17, 5)));
        assert_eq!(run(&format!("{four}9 9 4 4 1 .4 0 .4 0")).answer, Err(Refusal::at_line(8, 5)));
    }

    /// The firm's own: one following sea, at -180 in some rows and at 180 in others, took two slots and was 11.
    #[test]
    fn a_following_sea_in_both_signs() {
        let text = "\
10 10 -180 -180 1 2 0 2 0
8 8 180 180 1 3 0 3 0
10 8 180 -180 1 1.41421 0 1 1
10 10 0 0 1 4 0 4 0
8 8 0 0 1 5 0 5 0
10 8 0 0 1 6 0 6 0
10 10 0 -180 1 7 0 7 0
8 8 180 0 1 8 0 8 0
10 8 -180 0 1 9 0 9 0
8 10 -179.9996 0 1 9 0 9 0
";
        let signs = ["180", "-180", "-180.0005", "-1.8E2", "-179.9996"];
        for coverage in [0, 1] {
            let done = run_choices(0, 1, coverage, &[text.as_bytes()]);
            assert_eq!(done.answer, Ok((2, 2)));
            assert_eq!(done.record.headings, [180_000, 0, 0, 0]);
            let listed = listing(&done.record, &done.cells).unwrap();
            assert_eq!(listed.len(), if coverage == 0 { 9 } else { 17 });
            assert_eq!(listed.last().unwrap(), "1250 180000 1250 180000 3000000 0");
            assert!(listed.iter().all(|line| !line.contains("-180000")));
            // With any sign in its place, all is the same but the bytes.
            for sign in signs {
                let other = text.replace("-179.9996", "180").replace("-180", "180").replace("180", sign);
                let other = run_choices(0, 1, coverage, &[other.as_bytes()]);
                assert_eq!((&other.cells, &other.flags), (&done.cells, &done.flags), "{sign}");
                assert_eq!((other.record.headings, other.answer), (done.record.headings, done.answer), "{sign}");
            }
        }
    }

    #[test]
    fn nine_and_eleven_at_either_sign() {
        let row = |headings: &str, part: u32| format!("9 9 {headings} 1 {part} 0 {part} 0\n");
        for sign in ["-180", "-180.0004", "-179.9996", "-1.8E2", "-180.0005", "180.0005"] {
            let both = format!("{sign} {sign}");
            assert_eq!(run(&(row("180 180", 3) + &row(&both, 3))).answer, Ok((1, 1)), "{sign}");
            assert_eq!(run(&(row("180 180", 3) + &row(&both, 4))).answer, Err(Refusal::at_line(9, 2)), "{sign}");
            assert_eq!(run(&(row(&both, 3) + &row("180 -180", 4))).answer, Err(Refusal::at_line(9, 2)), "{sign}");
            let gap = run_choices(0, 1, 1, &[(row(&both, 3) + &row("0 0", 3)).as_bytes()]);
            let pair = (Node { tick: 1111, heading: 0 }, Node { tick: 1111, heading: 180_000 });
            assert_eq!(gap.answer, Err(Refusal { number: 11, place: Place::Pair(pair.0, pair.1) }), "{sign}");
        }
    }

    #[test]
    fn eight_at_either_sign() {
        let heading = |heading: &str| format!("9 9 {heading} {heading} 1 0 0 0 0\n");
        let rows = |list: &[&str]| run(&list.iter().map(|one| heading(one)).collect::<String>()).answer;
        assert_eq!(rows(&["180", "0", "1", "2", "-180", "-179.9996"]), Ok((1, 4)));
        assert_eq!(rows(&["0", "1", "-180", "180", "2"]), Ok((1, 4)));
        assert_eq!(rows(&["0", "1", "-180", "180", "2", "-179.999"]), Err(Refusal::at_line(8, 6)));
        assert_eq!(rows(&["0", "1", "2", "3", "-180"]), Err(Refusal::at_line(8, 5)));
    }

    /// A sign is a byte.
    #[test]
    fn lines_of_160_bytes_with_and_without_the_sign() {
        for row in ["9 9 180 SIGN180 1 0 0 0 0", "9 9 SIGN180 180 1 0 0 0 0", "9 9 SIGN180.0004 1.8E2 1 0 0 0 0"] {
            let full = format!("{:160}", row.replace("SIGN", ""));
            assert_eq!(run(&format!("{full}\n")).answer, Ok((1, 1)));
            let signed = format!("{:161}", row.replace("SIGN", "-"));
            assert_eq!(run(&format!("{signed}\n")).answer, Err(Refusal::at_line(3, 1)));
            assert_eq!(run(&format!("{}\n", &signed[..160])).answer, Ok((1, 1)));
        }
    }

    #[test]
    fn no_call_takes_a_record_that_holds_minus_180() {
        let mut done = run("9 9 180 180 1 0 0 0 0\n9 9 0 0 1 0 0 0 0\n");
        assert_eq!(done.answer, Ok((1, 2)));
        let two = Refusal::plain(2);
        for (headings, valid) in [
            ([-180_000, 0, 0, 0], false),
            ([180_000, -180_000, 0, 0], false),
            ([0, -180_000, 0, 0], false),
            ([180_000, 0, -180_000, -180_000], true),
        ] {
            for stage in [1, 2, 9, 11] {
                let record = Record { headings, stage, ..done.record };
                let fed = piece(record, b"", &mut done.cells, &mut done.flags);
                let closed = close(record, &mut done.cells, &mut done.flags).1;
                let listed = listing(&record, &done.cells);
                if valid {
                    assert_eq!((fed.1.is_ok(), closed.is_ok(), listed.is_ok()), (stage == 1, stage == 1, stage == 2));
                } else {
                    assert_eq!((fed, closed, listed), ((record, Err(two)), Err(two), Err(two)), "{headings:?} {stage}");
                }
            }
        }
        // Whatever stands in a slot that is not held, a new heading goes over it.
        let record = Record { stage: 1, headings: [180_000, 0, -180_000, -180_000], ..done.record };
        let (record, answer) =
            piece(record, b"9 9 7 7 1 0 0 0 0\n9 9 -180 180 1 0 0 0 0\n", &mut done.cells, &mut done.flags);
        assert_eq!((answer, record.headings, record.headings_held), (Ok(()), [180_000, 0, 7_000, -180_000], 3));
    }

    #[test]
    fn single_and_full() {
        let rows = "9 9 0 0 1 3 0 3 0\n9 9 1 1 1 4 0 4 0\n";
        assert_eq!(run_choices(0, 1, 0, &[rows.as_bytes()]).answer, Ok((1, 2)));
        let a = Node { tick: 1111, heading: 0 };
        let b = Node { tick: 1111, heading: 1000 };
        let missing = Err(Refusal { number: 11, place: Place::Pair(a, b) });
        assert_eq!(run_choices(0, 1, 1, &[rows.as_bytes()]).answer, missing);
        let full = format!("{rows}9 9 1 0 1 7.81025 0 5 6\n");
        let done = run_choices(0, 1, 1, &[full.as_bytes()]);
        assert_eq!(done.answer, Ok((1, 2)));
        assert_eq!(cell(&done.cells, 20, 0), (5_000_000, 6_000_000));
        assert_eq!(cell(&done.cells, 0, 20), (5_000_000, -6_000_000));
        // in single coverage that row is passed over
        assert_eq!(run_choices(0, 1, 0, &[full.as_bytes()]).cells[40], 0);
    }
}
