//! M-100, the other way: a text for ProteusDS and the coverage give six tables back, by values. Nothing is shared with
//! the writer, and the reading is strict: what is not as the request has it is an error that says where.

use crate::rows::{Choices, DIFFERENCE, FULL};
use crate::table::{cell, may_query, node_number, Record, FREQUENCY_SLOTS, HEADING_SLOTS};
use std::collections::BTreeMap;

pub const TABLES: usize = 6;
const INDEXES: usize = 4;
const COLUMNS: usize = INDEXES + 2 * TABLES;

/// A node by values, so that the order is the listing's: heading in thousandths of a degree, then tick.
pub type Point = (i32, u32);

/// A table by values: no slots, no order of arrival, and of the cells those alone that the coverage needs.
#[derive(Clone, Debug, PartialEq, Eq)]
pub struct Values {
    pub choices: Choices,
    /// Rising.
    pub ticks: Vec<u32>,
    /// Rising.
    pub headings: Vec<i32>,
    /// Of each needed ordered pair the real and the imaginary part, in millionths.
    pub entries: BTreeMap<(Point, Point), (i32, i32)>,
}

fn needed(coverage: u8, (first, second): (Point, Point)) -> bool {
    coverage == FULL || first.0 == second.0
}

/// The table that an accepted record and its cells hold, each entry found by that record's own slots.
pub fn held(record: &Record, cells: &[i32]) -> Result<Values, String> {
    may_query(record, cells).map_err(|refusal| format!("no table to be written: {}", refusal.text()))?;
    let mut nodes: Vec<(Point, usize)> = Vec::new();
    for (heading_slot, &heading) in record.held_headings().iter().enumerate() {
        for (frequency_slot, &tick) in record.ticks.iter().enumerate().filter(|(_, &tick)| tick != 0) {
            nodes.push(((heading, tick), node_number(heading_slot, frequency_slot)));
        }
    }
    let mut entries = BTreeMap::new();
    for &(a, r) in &nodes {
        for &(b, c) in nodes.iter().filter(|&&(b, _)| needed(record.choices.coverage, (a, b))) {
            entries.insert((a, b), cell(cells, r, c));
        }
    }
    let mut ticks: Vec<u32> = record.ticks.iter().copied().filter(|&tick| tick != 0).collect();
    let mut headings = record.held_headings().to_vec();
    ticks.sort();
    headings.sort();
    Ok(Values { choices: record.choices, ticks, headings, entries })
}

impl Values {
    /// What this table says otherwise than another; `None` if they are the same by values.
    pub fn other_than(&self, other: &Values) -> Option<String> {
        if self.choices != other.choices {
            return Some(format!("{:?} and not {:?}", self.choices, other.choices));
        }
        if self.ticks != other.ticks {
            return Some(format!("ticks {:?} and not {:?}", self.ticks, other.ticks));
        }
        if self.headings != other.headings {
            return Some(format!("headings {:?} and not {:?}", self.headings, other.headings));
        }
        // With these the same, the needed pairs are the same.
        let mut entries = self.entries.iter().zip(other.entries.values());
        let ((((heading1, tick1), (heading2, tick2)), value), other) =
            entries.find(|((_, value), other)| value != other)?;
        Some(format!("{tick1} {heading1} {tick2} {heading2} is {value:?} and not {other:?}"))
    }
}

/// The six tables of a text, components 1 to 6, or what is wrong with it and in which line.
pub fn read(text: &[u8], coverage: u8) -> Result<[Values; TABLES], String> {
    let mut lines = Lines { rest: text, number: 0 };
    lines.name("$QTFFrequencies")?;
    let ticks: Vec<u32> = lines.rising(FREQUENCY_SLOTS, tick)?;
    lines.name("$QTFHeadings")?;
    let headings: Vec<i32> = lines.rising(HEADING_SLOTS, heading)?;
    lines.name("$WaveDriftQTFMatrix")?;
    let empty = |index: usize| Values {
        choices: Choices { kind: DIFFERENCE, component: index as u8 + 1, coverage },
        ticks: ticks.clone(),
        headings: headings.clone(),
        entries: BTreeMap::new(),
    };
    let mut six: [Values; TABLES] = std::array::from_fn(empty);
    let mut before = None;
    while let Some(line) = lines.next()? {
        let (pair, values) = row(line, &ticks, &headings).map_err(|why| lines.here(&why))?;
        if !needed(coverage, pair) {
            return Err(lines.here("two headings in single coverage"));
        }
        // Rising from row to row: the listing's order, and no pair twice.
        if before >= Some(pair) {
            return Err(lines.here("a pair that does not come behind the one before"));
        }
        before = Some(pair);
        for (table, value) in six.iter_mut().zip(values) {
            table.entries.insert(pair, value);
        }
    }
    complete(&six[0])?;
    Ok(six)
}

/// Every needed pair is there.
fn complete(table: &Values) -> Result<(), String> {
    let points = || table.headings.iter().flat_map(|&heading| table.ticks.iter().map(move |&tick| (heading, tick)));
    for a in points() {
        for b in points().filter(|&b| needed(table.choices.coverage, (a, b))) {
            if !table.entries.contains_key(&(a, b)) {
                return Err(format!("no row for {} {} {} {}", a.1, a.0, b.1, b.0));
            }
        }
    }
    Ok(())
}

/// The text and how far it has been read; lines count from 1.
struct Lines<'a> {
    rest: &'a [u8],
    number: usize,
}

impl<'a> Lines<'a> {
    fn here(&self, why: &str) -> String {
        format!("line {}: {why}", self.number)
    }

    /// The next line without its line feed, which it must have; `None` behind the last.
    fn next(&mut self) -> Result<Option<&'a [u8]>, String> {
        if self.rest.is_empty() {
            return Ok(None);
        }
        self.number += 1;
        let Some(end) = self.rest.iter().position(|&byte| byte == b'\n') else {
            return Err(self.here("no line feed at its end"));
        };
        let line = &self.rest[..end];
        self.rest = &self.rest[end + 1..];
        Ok(Some(line))
    }

    /// A line that must be there.
    fn another(&mut self) -> Result<&'a [u8], String> {
        self.next()?.ok_or_else(|| self.here("the text ends behind it"))
    }

    fn name(&mut self, name: &str) -> Result<(), String> {
        if self.another()? != name.as_bytes() {
            return Err(self.here(&format!("not {name}")));
        }
        Ok(())
    }

    /// One line of words, at least one and at most `most`, whose values rise.
    fn rising<T: PartialOrd>(
        &mut self,
        most: usize,
        value: fn(&[u8]) -> Result<T, &'static str>,
    ) -> Result<Vec<T>, String> {
        let words = words(self.another()?);
        if words.len() > most {
            return Err(self.here(&format!("{} words, and at most {most} have a slot", words.len())));
        }
        let mut list = Vec::new();
        for (index, word) in words.into_iter().enumerate() {
            let value = value(word).map_err(|why| self.here(&at_word(index, why)))?;
            if list.last().is_some_and(|last| *last >= value) {
                return Err(self.here(&at_word(index, "not above the one before")));
            }
            list.push(value);
        }
        Ok(list)
    }
}

fn at_word(index: usize, why: &str) -> String {
    format!("word {}: {why}", index + 1)
}

/// Every space parts two words, so that two spaces, or one at an end, leave an empty one.
fn words(line: &[u8]) -> Vec<&[u8]> {
    line.split(|&byte| byte == b' ').collect()
}

type Row = ((Point, Point), [(i32, i32); TABLES]);

/// One row of the matrix: the pair that its four indexes name, and a value for each of the six.
fn row(line: &[u8], ticks: &[u32], headings: &[i32]) -> Result<Row, String> {
    let words = words(line);
    if words.len() != COLUMNS {
        return Err(format!("{} words and not {COLUMNS}", words.len()));
    }
    let number = |at: usize, count: usize| index(words[at], count).map_err(|why| at_word(at, why));
    let (frequency1, frequency2) = (number(0, ticks.len())?, number(1, ticks.len())?);
    let (heading1, heading2) = (number(2, headings.len())?, number(3, headings.len())?);
    let mut values = [(0, 0); TABLES];
    for (component, value) in values.iter_mut().enumerate() {
        let part = |at: usize| part(words[at]).map_err(|why| at_word(at, why));
        *value = (part(INDEXES + 2 * component)?, part(INDEXES + 2 * component + 1)?);
    }
    Ok((((headings[heading1], ticks[frequency1]), (headings[heading2], ticks[frequency2])), values))
}

/// An index from 0 into a list of so many.
fn index(word: &[u8], count: usize) -> Result<usize, &'static str> {
    let index = whole(word)? as usize;
    if index < count {
        Ok(index)
    } else {
        Err("an index behind the end of its list")
    }
}

/// A frequency: the tick that is nearest, if that tick is written so. A turn is 6,283,185,307 billionths of a radian.
fn tick(word: &[u8]) -> Result<u32, &'static str> {
    let billionths = decimal(word, 9)?;
    let turn = 6_283_185_307;
    let tick = (2 * 10_000 * billionths + turn) / (2 * turn);
    // In ten-thousandths of a billionth: no more than half a billionth away, and half of one only from an even one.
    let away = (tick * turn - billionths * 10_000).abs();
    if away > 5_000 || (away == 5_000 && billionths % 2 != 0) {
        return Err("no tick is written so");
    }
    Ok(within(tick, 100, 10_000)?.unsigned_abs())
}

/// No table holds -180 (M-102), so no text shows it.
fn heading(word: &[u8]) -> Result<i32, &'static str> {
    within(decimal(word, 3)?, -179_999, 180_000)
}

fn part(word: &[u8]) -> Result<i32, &'static str> {
    within(decimal(word, 6)?, -1_000_000_000, 1_000_000_000)
}

fn within(value: i64, least: i64, most: i64) -> Result<i32, &'static str> {
    if value < least || value > most {
        return Err("out of range");
    }
    i32::try_from(value).map_err(|_| "out of range")
}

/// A decimal with so many places, in units of its last. A sign stands below 0 and nowhere else.
fn decimal(word: &[u8], places: usize) -> Result<i64, &'static str> {
    let (negative, size) = match word {
        [b'-', size @ ..] => (true, size),
        _ => (false, word),
    };
    let Some(point) = size.iter().position(|&byte| byte == b'.') else {
        return Err("no decimal point");
    };
    let (before, behind) = (&size[..point], &size[point + 1..]);
    if behind.len() != places {
        return Err("another number of decimals");
    }
    let mut value = whole(before)?;
    for &byte in behind {
        value = 10 * value + digit(byte)?;
    }
    match (negative, value) {
        (true, 0) => Err("a sign before 0"),
        (true, _) => Ok(-value),
        (false, _) => Ok(value),
    }
}

/// A whole number of one to four digits (no value of a text has more ahead of its point), no 0 ahead.
fn whole(word: &[u8]) -> Result<i64, &'static str> {
    match word {
        [] => Err("a digit is missing"),
        [b'0', _, ..] => Err("a 0 ahead"),
        [_, _, _, _, _, ..] => Err("too many digits"),
        _ => word.iter().try_fold(0, |sum, &byte| Ok(10 * sum + digit(byte)?)),
    }
}

fn digit(byte: u8) -> Result<i64, &'static str> {
    match byte {
        b'0'..=b'9' => Ok(i64::from(byte - b'0')),
        _ => Err("no digit"),
    }
}

#[cfg(test)]
mod tests {
    use super::*;
    use crate::reader::tests::{run_choices, EXAMPLE_H};
    use crate::rows::SINGLE;
    use crate::table::{cell_at, CELLS};

    /// 10 s and 8 s, heading 0.
    const TWO_FREQUENCIES: &str = "\
$QTFFrequencies
0.628318531 0.785398163
$QTFHeadings
0.000
$WaveDriftQTFMatrix
0 0 0 0 -0.020000 0.000000 0.500000 0.000000 0.000000 0.000000 -12.500000 0.000000 999.999999 0.000000 7.000000 0.000000
0 1 0 0 -0.030000 0.004000 -1000.000000 1000.000000 0.000000 0.000000 12.345678 0.100000 1.000000 -2.000000 0.000010 -0.999999
1 0 0 0 -0.030000 -0.004000 -1000.000000 -1000.000000 0.000000 0.000000 12.345678 -0.100000 1.000000 2.000000 0.000010 0.999999
1 1 0 0 -0.036000 0.000000 1000.000000 0.000000 0.000001 0.000000 -0.000001 0.000000 -999.999999 0.000000 -7.000000 0.000000
";

    #[test]
    fn two_frequencies_and_one_heading() {
        let at = |a: u32, b: u32| ((0, a), (0, b));
        let pairs = [at(1_000, 1_000), at(1_000, 1_250), at(1_250, 1_000), at(1_250, 1_250)];
        let worked = [
            [(-20_000, 0), (-30_000, 4_000), (-30_000, -4_000), (-36_000, 0)],
            [(500_000, 0), (-1_000_000_000, 1_000_000_000), (-1_000_000_000, -1_000_000_000), (1_000_000_000, 0)],
            [(0, 0), (0, 0), (0, 0), (1, 0)],
            [(-12_500_000, 0), (12_345_678, 100_000), (12_345_678, -100_000), (-1, 0)],
            [(999_999_999, 0), (1_000_000, -2_000_000), (1_000_000, 2_000_000), (-999_999_999, 0)],
            [(7_000_000, 0), (10, -999_999), (10, 999_999), (-7_000_000, 0)],
        ];
        // With one heading the coverage makes no difference but to itself.
        for coverage in [SINGLE, FULL] {
            let six = read(TWO_FREQUENCIES.as_bytes(), coverage).unwrap();
            for (index, (table, values)) in six.iter().zip(worked).enumerate() {
                assert_eq!(table.choices, Choices { kind: 0, component: index as u8 + 1, coverage });
                assert_eq!((&table.ticks[..], &table.headings[..]), (&[1_000, 1_250][..], &[0][..]));
                assert_eq!(table.entries, pairs.into_iter().zip(values).collect::<BTreeMap<_, _>>(), "{index}");
            }
        }
    }

    const HEAD: &str = "$QTFFrequencies\n0.628318531\n$QTFHeadings\n-90.000 180.000\n$WaveDriftQTFMatrix\n";

    /// A row whose real parts are the component and this digit behind the point, and whose imaginary parts are 0.
    fn row_of(indexes: &str, digit: u8) -> String {
        let parts: Vec<String> = (1..=6).map(|component| format!("{component}.{digit}00000 0.000000")).collect();
        format!("{indexes} {}\n", parts.join(" "))
    }

    #[test]
    fn two_headings() {
        let rows = [row_of("0 0 0 0", 1), row_of("0 0 0 1", 2), row_of("0 0 1 0", 3), row_of("0 0 1 1", 4)];
        let (low, high) = ((-90_000, 1_000), (180_000, 1_000));
        let full = read((HEAD.to_string() + &rows.concat()).as_bytes(), FULL).unwrap();
        assert_eq!((&full[0].ticks[..], &full[0].headings[..]), (&[1_000][..], &[-90_000, 180_000][..]));
        let worked =
            [((low, low), 2_100_000), ((low, high), 2_200_000), ((high, low), 2_300_000), ((high, high), 2_400_000)];
        assert_eq!(full[1].entries, BTreeMap::from(worked.map(|(pair, re)| (pair, (re, 0)))));
        let single = read([HEAD, &rows[0], &rows[3]].concat().as_bytes(), SINGLE).unwrap();
        assert_eq!(single[5].entries, BTreeMap::from([((low, low), (6_100_000, 0)), ((high, high), (6_400_000, 0))]));
        // The same bytes are another text in the other coverage.
        let refused = |text: String, coverage: u8| read(text.as_bytes(), coverage).unwrap_err();
        assert_eq!(refused(HEAD.to_string() + &rows.concat(), SINGLE), "line 7: two headings in single coverage");
        assert_eq!(refused([HEAD, &rows[0], &rows[3]].concat(), FULL), "no row for 1000 -90000 1000 180000");
    }

    /// The one tie, 3,141,592,653.5, goes up, so that adding a half and cutting writes every tick.
    #[test]
    fn every_tick_and_nothing_beside_it() {
        let word = |billionths: u64| format!("{}.{:09}", billionths / 1_000_000_000, billionths % 1_000_000_000);
        for ticks in 100..=10_000_u32 {
            let written = (u64::from(ticks) * 6_283_185_307 + 5_000) / 10_000;
            assert_eq!(tick(word(written).as_bytes()), Ok(ticks));
            for other in [written - 1, written + 1, written - 300_000, written + 400_000] {
                assert_eq!(tick(word(other).as_bytes()), Err("no tick is written so"), "{other}");
            }
        }
        for (written, ticks) in [("0.628318531", 1_000), ("3.141592654", 5_000), ("1.000283101", 1_592)] {
            assert_eq!(tick(written.as_bytes()), Ok(ticks));
        }
        // Ticks 99, 10,001, 0 and -1,000.
        for beyond in ["0.062203535", "6.283813626", "0.000000000", "-0.628318531"] {
            assert!(tick(beyond.as_bytes()).is_err(), "{beyond}");
        }
        assert_eq!(tick(b"0.062203535"), Err("out of range"));
        assert_eq!(tick(b"6.283813626"), Err("out of range"));
    }

    #[test]
    fn words_that_are_values() {
        let parts = [
            ("0.000000", 0),
            ("-0.000001", -1),
            ("-0.020000", -20_000),
            ("10.000000", 10_000_000),
            ("1000.000000", 1_000_000_000),
            ("-1000.000000", -1_000_000_000),
        ];
        for (word, value) in parts {
            assert_eq!(part(word.as_bytes()), Ok(value), "{word}");
        }
        let headings = [("0.000", 0), ("-0.001", -1), ("180.000", 180_000), ("-179.999", -179_999), ("22.500", 22_500)];
        for (word, value) in headings {
            assert_eq!(heading(word.as_bytes()), Ok(value), "{word}");
        }
    }

    #[test]
    fn words_that_are_not() {
        let refused = [
            ("-0.000000", "a sign before 0"),
            ("+1.000000", "no digit"),
            ("--1.000000", "no digit"),
            ("1.00000", "another number of decimals"),
            ("1.0000000", "another number of decimals"),
            ("1.", "another number of decimals"),
            ("1", "no decimal point"),
            ("", "no decimal point"),
            ("-", "no decimal point"),
            (".500000", "a digit is missing"),
            ("-.500000", "a digit is missing"),
            ("00.500000", "a 0 ahead"),
            ("01.000000", "a 0 ahead"),
            ("1.00000x", "no digit"),
            ("1.0-0000", "no digit"),
            ("1.000.00", "no digit"),
            ("1.000.000", "another number of decimals"),
            ("1e0.000000", "no digit"),
            ("1.000000\r", "another number of decimals"),
            ("1.000000\t", "another number of decimals"),
            ("\t1.000000", "no digit"),
            ("1000.000001", "out of range"),
            ("-1000.000001", "out of range"),
            ("10000.000000", "too many digits"),
            ("99999999999999999999.000000", "too many digits"),
        ];
        for (word, why) in refused {
            assert_eq!(part(word.as_bytes()), Err(why), "{word:?}");
        }
        assert_eq!(heading(b"180.001"), Err("out of range"));
        assert_eq!(heading(b"-180.001"), Err("out of range"));
        assert_eq!(heading(b"-180.000"), Err("out of range"));
        for word in ["", "-1", "+1", "00", "01", "0.0", "x", "3", "9999", "10000"] {
            assert!(index(word.as_bytes(), 3).is_err(), "{word}");
        }
    }

    /// Text by text: what stands once in it, what stands there then, and what is said of it.
    #[test]
    fn texts_that_are_refused() {
        let row = |number: usize| TWO_FREQUENCIES.split_inclusive('\n').nth(number - 1).unwrap().to_string();
        let damages: &[(&str, &str, &str)] = &[
            ("$QTFFrequencies", "QTFFrequencies", "line 1: not $QTFFrequencies"),
            ("$QTFFrequencies", "\\$QTFFrequencies", "line 1: not $QTFFrequencies"),
            ("$QTFFrequencies\n", "$QTFFrequencies \n", "line 1: not $QTFFrequencies"),
            ("$QTFFrequencies\n", "$QTFFrequencies\r\n", "line 1: not $QTFFrequencies"),
            ("$QTFFrequencies\n", "\n$QTFFrequencies\n", "line 1: not $QTFFrequencies"),
            ("$QTFHeadings\n0.000\n", "", "line 3: not $QTFHeadings"),
            ("$QTFHeadings", "$QTFheadings", "line 3: not $QTFHeadings"),
            ("0.785398163\n", "0.785398163\n0.785398163\n", "line 3: not $QTFHeadings"),
            ("$WaveDriftQTFMatrix\n", "", "line 5: not $WaveDriftQTFMatrix"),
            ("0.785398163", "0.785398164", "line 2: word 2: no tick is written so"),
            ("0.628318531", "0.628318530", "line 2: word 1: no tick is written so"),
            ("0.785398163", "0.78539816", "line 2: word 2: another number of decimals"),
            ("0.628318531 0.785398163", "0.785398163 0.628318531", "line 2: word 2: not above the one before"),
            ("0.628318531 0.785398163", "0.628318531 0.628318531", "line 2: word 2: not above the one before"),
            ("0.628318531 0.785398163", "0.628318531  0.785398163", "line 2: word 2: no decimal point"),
            ("0.628318531 0.785398163", "0.628318531\t0.785398163", "line 2: word 1: another number of decimals"),
            ("0.785398163\n", "0.785398163 \n", "line 2: word 3: no decimal point"),
            ("0.628318531 0.785398163", "", "line 2: word 1: no decimal point"),
            ("0.628318531 0.785398163", "0.628318531", "line 7: word 2: an index behind the end of its list"),
            ("0.785398163\n", "0.785398163 3.141592654\n", "no row for 1000 0 5000 0"),
            ("\n0.000\n", "\n-0.000\n", "line 4: word 1: a sign before 0"),
            ("\n0.000\n", "\n0.00\n", "line 4: word 1: another number of decimals"),
            ("\n0.000\n", "\n0.000 90.000\n", "no row for 1000 90000 1000 90000"),
            ("\n0.000\n", "\n0.000 1.000 2.000 3.000 4.000\n", "line 4: 5 words, and at most 4 have a slot"),
            ("\n0 1 0 0 ", "\n0 1 0 1 ", "line 7: word 4: an index behind the end of its list"),
            ("\n0 1 0 0 ", "\n0 1 1 0 ", "line 7: word 3: an index behind the end of its list"),
            ("\n0 1 0 0 ", "\n0 2 0 0 ", "line 7: word 2: an index behind the end of its list"),
            ("\n0 1 0 0 ", "\n0 01 0 0 ", "line 7: word 2: a 0 ahead"),
            ("\n0 1 0 0 ", "\n0 -1 0 0 ", "line 7: word 2: no digit"),
            ("\n0 1 0 0 ", "\n0 0 0 0 ", "line 7: a pair that does not come behind the one before"),
            ("\n0 1 0 0 ", "\n 0 1 0 0 ", "line 7: 17 words and not 16"),
            ("\n0 1 0 0 ", "\n0  1 0 0 ", "line 7: 17 words and not 16"),
            ("7.000000 0.000000\n0", "7.000000\n0", "line 6: 15 words and not 16"),
            ("7.000000 0.000000\n0", "7.000000 0.000000 \n0", "line 6: 17 words and not 16"),
            ("7.000000 0.000000\n0", "7.000000 \n0", "line 6: word 16: no decimal point"),
            ("7.000000 0.000000\n0", "7.000000 -0.000000\n0", "line 6: word 16: a sign before 0"),
            ("7.000000 0.000000\n0", "7.000000 0.000000\n\n0", "line 7: 1 words and not 16"),
            ("-0.020000", "-0.02", "line 6: word 5: another number of decimals"),
            ("-0.020000", "-.020000", "line 6: word 5: a digit is missing"),
            ("-12.500000", "-012.500000", "line 6: word 11: a 0 ahead"),
            (" 1000.000000 0.000000 0.000001", " 1000.000001 0.000000 0.000001", "line 9: word 7: out of range"),
            ("-7.000000 0.000000\n", "-7.000000 0.000000", "line 9: no line feed at its end"),
            ("-7.000000 0.000000\n", "-7.000000 0.000000\n\n", "line 10: 1 words and not 16"),
            ("-7.000000 0.000000\n", "-7.000000 0.000000\n ", "line 10: no line feed at its end"),
            (&row(6), "", "no row for 1000 0 1000 0"),
            (&row(7), "", "no row for 1000 0 1250 0"),
            (&row(9), "", "no row for 1250 0 1250 0"),
            (&row(9), &row(9).repeat(2), "line 10: a pair that does not come behind the one before"),
            (&(row(7) + &row(8)), &(row(8) + &row(7)), "line 8: a pair that does not come behind the one before"),
            (&(row(6) + &row(7)), &(row(7) + &row(6)), "line 7: a pair that does not come behind the one before"),
            (&row(8), &row(7), "line 8: a pair that does not come behind the one before"),
        ];
        for &(stands, instead, why) in damages {
            assert_eq!(TWO_FREQUENCIES.matches(stands).count(), 1, "{stands:?}");
            let text = TWO_FREQUENCIES.replace(stands, instead);
            assert_eq!(read(text.as_bytes(), SINGLE), Err(why.to_string()), "{stands:?} {instead:?}");
        }
    }

    /// Every text that ends too early, and every text with one byte gone, is refused or says something else.
    #[test]
    fn every_byte_is_needed() {
        let text = TWO_FREQUENCIES.as_bytes();
        let whole = read(text, SINGLE).unwrap();
        for at in 0..text.len() {
            assert!(read(&text[..at], SINGLE).is_err(), "{at}");
            assert_ne!(read(&[&text[..at], &text[at + 1..]].concat(), SINGLE), Ok(whole.clone()), "{at}");
            for byte in [b' ', b'\n', b'0', b'-', b'.', b'\r', 0xFF] {
                assert_ne!(
                    read(&[&text[..at], &[byte], &text[at..]].concat(), SINGLE),
                    Ok(whole.clone()),
                    "{at} {byte}"
                );
            }
        }
        assert_eq!(read(b"", SINGLE).unwrap_err(), "line 0: the text ends behind it");
    }

    #[test]
    fn tables_by_values() {
        let run = run_choices(0, 1, SINGLE, &[EXAMPLE_H.as_bytes()]);
        let table = held(&run.record, &run.cells).unwrap();
        assert_eq!(read(TWO_FREQUENCIES.as_bytes(), SINGLE).unwrap()[0].other_than(&table), None);
        // The same table with 8 s in slot 17 and 10 s in slot 3, and a heading's slot that is not held.
        let mut moved = run.record;
        moved.ticks[..2].fill(0);
        (moved.ticks[17], moved.ticks[3], moved.headings[1]) = (1_250, 1_000, 5);
        let mut cells = vec![77; CELLS];
        for (r, c, (re, im)) in
            [(3, 3, (-20_000, 0)), (3, 17, (-30_000, 4_000)), (17, 3, (-30_000, -4_000)), (17, 17, (-36_000, 0))]
        {
            (cells[cell_at(r, c)], cells[cell_at(r, c) + 1]) = (re, im);
        }
        assert_eq!(held(&moved, &cells).unwrap(), table);
        cells[cell_at(17, 3) + 1] = 4_000;
        let other = held(&moved, &cells).unwrap();
        let why = "1250 0 1000 0 is (-30000, -4000) and not (-30000, 4000)";
        assert_eq!(table.other_than(&other), Some(why.to_string()));
        moved.ticks[17] = 1_251;
        let why = "ticks [1000, 1250] and not [1000, 1251]";
        assert_eq!(table.other_than(&held(&moved, &cells).unwrap()), Some(why.to_string()));
        moved.stage = 1;
        assert_eq!(held(&moved, &cells), Err("no table to be written: refused 2 0".to_string()));
        assert_eq!(held(&run.record, &cells[1..]), Err("no table to be written: refused 1 0".to_string()));
    }
}
