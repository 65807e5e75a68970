//! One line of the text: blank, skipped, passed over, a row to use, or a refusal 4 to 7 or 17.

use crate::fields::{self, Decimal};
use crate::rounding::nearest;

pub const DIFFERENCE: u8 = 0;
pub const SUM: u8 = 1;
pub const SINGLE: u8 = 0;
pub const FULL: u8 = 1;

/// What the caller chose at opening.
#[derive(Clone, Copy, Debug, PartialEq, Eq)]
pub struct Choices {
    pub kind: u8,
    pub component: u8,
    pub coverage: u8,
}

impl Choices {
    pub fn valid(&self) -> bool {
        (self.kind == DIFFERENCE || self.kind == SUM)
            && (1..=6).contains(&self.component)
            && (self.coverage == SINGLE || self.coverage == FULL)
    }
}

/// A frequency (ticks of 0.0001 Hz) with a heading (millidegrees).
#[derive(Clone, Copy, Debug, PartialEq, Eq)]
pub struct Node {
    pub tick: u32,
    pub heading: i32,
}

impl Node {
    /// What a sea line or a point of a coefficient call means by this node.
    pub fn as_read(self) -> Node {
        Node { heading: direction(self.heading), ..self }
    }
}

/// M-102: -180 and 180 degrees are one direction, which is read as 180. No other number is moved, in range or not.
pub fn direction(millidegrees: i32) -> i32 {
    if millidegrees == -180_000 {
        180_000
    } else {
        millidegrees
    }
}

/// A row that goes into the table: its two nodes and its value in millionths.
#[derive(Clone, Copy, Debug, PartialEq, Eq)]
pub struct Row {
    pub first: Node,
    pub second: Node,
    pub re: i32,
    pub im: i32,
}

#[derive(Clone, Copy, Debug, PartialEq, Eq)]
pub enum Line {
    /// Blank, or a first line that starts with a letter.
    Skipped,
    /// Another component, or two headings in single coverage.
    PassedOver,
    Used(Row),
    Refused(u8),
}

/// Reads the bytes of one line (no line feed among them). `number` counts from 1.
pub fn read(bytes: &[u8], number: u32, choices: &Choices) -> Line {
    let fields = fields_of(bytes);
    if fields.is_empty() {
        return Line::Skipped;
    }
    if number == 1 && fields[0][0].is_ascii_alphabetic() {
        return Line::Skipped;
    }
    let Ok(fields) = <[&[u8]; 9]>::try_from(fields) else {
        return Line::Refused(4);
    };
    let Some((component, decimals)) = forms(&fields) else {
        return Line::Refused(5);
    };
    // Another component is passed over once the form is checked.
    if component != choices.component {
        return Line::PassedOver;
    }
    let Some((row, modulus)) = in_range(&decimals) else {
        return Line::Refused(6);
    };
    // In single coverage a row in range with two different headings is passed over too.
    if choices.coverage == SINGLE && row.first.heading != row.second.heading {
        return Line::PassedOver;
    }
    // M-101: columns that disagree, in rows that are not passed over.
    if !fits(modulus, &row) {
        return Line::Refused(17);
    }
    if choices.kind == DIFFERENCE && row.first == row.second && row.im != 0 {
        return Line::Refused(7);
    }
    Line::Used(row)
}

/// What stands between blanks, once a carriage return at the end is dropped.
pub fn fields_of(bytes: &[u8]) -> Vec<&[u8]> {
    let bytes = drop_carriage_return(bytes);
    bytes.split(|&b| is_blank(b)).filter(|f| !f.is_empty()).collect()
}

/// The component and the other eight fields, if each of the nine has its form.
fn forms(fields: &[&[u8]; 9]) -> Option<(u8, [Decimal; 8])> {
    let [per1, per2, beta1, beta2, component, modulus, phase, re, im] = *fields;
    let &[digit @ b'1'..=b'6'] = component else {
        return None;
    };
    let mut decimals = Vec::new();
    for field in [per1, per2, beta1, beta2, modulus, phase, re, im] {
        decimals.push(fields::read(field)?);
    }
    Some((digit - b'0', decimals.try_into().ok()?))
}

/// The row and its modulus in millionths, if its seven values are in range. Of the phase only the form is asked.
fn in_range(decimals: &[Decimal; 8]) -> Option<(Row, i128)> {
    let [per1, per2, beta1, beta2, modulus, _phase, re, im] = decimals;
    let first = Node { tick: tick(per1)?, heading: heading(beta1)? };
    let second = Node { tick: tick(per2)?, heading: heading(beta2)? };
    let modulus = modulus.in_units(6);
    if !(0..=MOST_MODULUS).contains(&modulus) {
        return None;
    }
    Some((Row { first, second, re: part(re)?, im: part(im)? }, modulus))
}

/// Millionths: somewhat above the root of twice 1,000 squared.
pub const MOST_MODULUS: i128 = 1_415_000_000;

/// M-101: the modulus, give or take k, is that of the two parts; compared by squares, all in millionths.
fn fits(modulus: i128, row: &Row) -> bool {
    let k = 2 + modulus / 100_000;
    let least = (modulus - k).max(0);
    let most = modulus + k;
    let (re, im) = (i128::from(row.re), i128::from(row.im));
    let square = re * re + im * im;
    square >= least * least && square <= most * most
}

fn is_blank(byte: u8) -> bool {
    byte == b' ' || byte == b'\t'
}

fn drop_carriage_return(bytes: &[u8]) -> &[u8] {
    match bytes.split_last() {
        Some((b'\r', rest)) => rest,
        _ => bytes,
    }
}

/// A period in microseconds, 1,000,000 to 100,000,000, turned into ticks.
fn tick(period: &Decimal) -> Option<u32> {
    let microseconds = period.in_units(6);
    if !(1_000_000..=100_000_000).contains(&microseconds) {
        return None;
    }
    u32::try_from(tick_of(microseconds)).ok()
}

/// 10^10 over the microseconds, rounded.
pub fn tick_of(microseconds: i128) -> i128 {
    nearest(10_000_000_000, microseconds)
}

/// A heading in millidegrees, -180,000 to 180,000 once it is rounded; then as it is read.
fn heading(beta: &Decimal) -> Option<i32> {
    let millidegrees = beta.in_units(3);
    if !(-180_000..=180_000).contains(&millidegrees) {
        return None;
    }
    i32::try_from(millidegrees).ok().map(direction)
}

fn part(value: &Decimal) -> Option<i32> {
    let millionths = value.in_units(6);
    if !(-1_000_000_000..=1_000_000_000).contains(&millionths) {
        return None;
    }
    i32::try_from(millionths).ok()
}

#[cfg(test)]
mod tests {
    use super::*;

    const H: Choices = Choices { kind: DIFFERENCE, component: 1, coverage: SINGLE };
    const S: Choices = Choices { kind: SUM, component: 1, coverage: SINGLE };
    const F: Choices = Choices { kind: DIFFERENCE, component: 1, coverage: FULL };

    fn line(text: &str) -> Line {
        read(text.as_bytes(), 2, &H)
    }

    fn used(text: &str) -> Row {
        match line(text) {
            Line::Used(row) => row,
            other => panic!("{text}: {other:?}"),
        }
    }

    #[test]
    fn example_h() {
        assert_eq!(
            used("0.100000E+02 0.800000E+01 0.0 0.0 1 0.0302655 172.405 -0.030000 0.004000"),
            Row {
                first: Node { tick: 1000, heading: 0 },
                second: Node { tick: 1250, heading: 0 },
                re: -30000,
                im: 4000
            }
        );
    }

    #[test]
    fn ticks_checked_by_hand() {
        assert_eq!(used("6.4 6.4 0 0 1 0 0 0 0").first.tick, 1562);
        assert_eq!(used("0.628319E+01 1 0 0 1 0 0 0 0").first.tick, 1592);
        assert_eq!(used("100 1 0 0 1 0 0 0 0").first.tick, 100);
        assert_eq!(used("100 1 0 0 1 0 0 0 0").second.tick, 10_000);
    }

    #[test]
    fn parts_checked_by_hand() {
        for (text, want) in [("0.0000005", 0), ("0.0000015", 2), ("-0.0000015", -2), ("1000.0000005", 1_000_000_000)] {
            let size = text.trim_start_matches('-');
            assert_eq!(used(&format!("9 9 0 0 1 {size} 0 {text} 0")).re, want);
        }
        assert_eq!(line("9 9 0 0 1 0 0 1000.000001 0"), Line::Refused(6));
        assert_eq!(line("9 9 0 0 1 0 0 -1000.000001 0"), Line::Refused(6));
        assert_eq!(line("9 8 0 0 1 0 0 0 1000.000001"), Line::Refused(6));
        assert_eq!(used("9 8 0 0 1 1000 0 0 -1000").im, -1_000_000_000);
    }

    #[test]
    fn limits_of_periods_and_headings() {
        assert_eq!(line("100.000001 9 0 0 1 0 0 0 0"), Line::Refused(6));
        assert_eq!(line("9 100.000001 0 0 1 0 0 0 0"), Line::Refused(6));
        assert_eq!(line("0.999999 9 0 0 1 0 0 0 0"), Line::Refused(6));
        assert_eq!(line("-9 9 0 0 1 0 0 0 0"), Line::Refused(6));
        assert_eq!(used("100.0000005 9 0 0 1 0 0 0 0").first.tick, 100);
        assert_eq!(used("0.9999995 9 0 0 1 0 0 0 0").first.tick, 10_000);
        assert_eq!(used("9 9 180 180 1 0 0 0 0").first.heading, 180_000);
        assert_eq!(used("9 9 -180 -180 1 0 0 0 0").first.heading, 180_000);
        assert_eq!(line("9 9 180.001 180.001 1 0 0 0 0"), Line::Refused(6));
        assert_eq!(line("9 9 0 -180.001 1 0 0 0 0"), Line::Refused(6));
        assert_eq!(line("9 9 180 -179.999 1 0 0 0 0"), Line::PassedOver);
    }

    /// What a heading in a row is read as, in either column; `None` is 6.
    fn read_as(field: &str) -> Option<i32> {
        let both = [format!("9 8 {field} 0 1 0 0 0 0"), format!("9 8 0 {field} 1 0 0 0 0")];
        let [one, other] = both.map(|row| read(row.as_bytes(), 2, &F));
        match (one, other) {
            (Line::Used(one), Line::Used(other)) => {
                assert_eq!(one.first.heading, other.second.heading, "{field}");
                Some(one.first.heading)
            }
            both => {
                assert_eq!(both, (Line::Refused(6), Line::Refused(6)), "{field}");
                None
            }
        }
    }

    #[test]
    fn plus_and_minus_180() {
        // The range is that of the rounded value: a tie goes to the even one, so -180.0005 is -180,000 and in range.
        for field in [
            "180",
            "180.0",
            "+180",
            "1.8E2",
            "180.0004",
            "180.0005",
            "179.9995",
            "179.9996",
            "-180",
            "-180.0",
            "-180.",
            "-1.8E2",
            "-0.180000E+03",
            "-180000E-3",
            "-180.0004",
            "-180.0005",
            "-180.00050",
            "-180.00049",
            "-179.9995",
            "-179.99951",
            "-179.9996",
        ] {
            assert_eq!(read_as(field), Some(180_000), "{field}");
        }
        for field in [
            "-180.00051",
            "-180.0006",
            "-180.001",
            "-180.0015",
            "-181",
            "-360",
            "180.00051",
            "180.0006",
            "180.001",
            "360",
            "-1.8E3",
        ] {
            assert_eq!(read_as(field), None, "{field}");
        }
        // What rounds to anything else stays.
        for (field, want) in [
            ("-179.9994", -179_999),
            ("-179.99949", -179_999),
            ("-179.999", -179_999),
            ("179.9994", 179_999),
            ("-0", 0),
            ("-90", -90_000),
        ] {
            assert_eq!(read_as(field), Some(want), "{field}");
        }
        // In a row of another component nothing is tested.
        assert_eq!(line("9 9 -180.001 180 2 0 0 0 0"), Line::PassedOver);
    }

    #[test]
    fn one_direction_in_a_row() {
        // Two headings that are one are not passed over in single coverage, and the misfit and 7 are tested there.
        for headings in ["180 -180", "-180 180", "-179.9996 180.0004", "1.8E2 -180.0005", "-180 -180"] {
            let row = |rest: &str| format!("9 9 {headings} 1 {rest}");
            let node = Node { tick: 1111, heading: 180_000 };
            assert_eq!(used(&row("5 0 5 0")), Row { first: node, second: node, re: 5_000_000, im: 0 }, "{headings}");
            for choices in [&H, &F] {
                assert_eq!(read(row("5 0 0 5").as_bytes(), 2, choices), Line::Refused(7), "{headings}");
                assert_eq!(read(row("4 0 5 0").as_bytes(), 2, choices), Line::Refused(17), "{headings}");
            }
            assert!(matches!(read(row("5 0 0 5").as_bytes(), 2, &S), Line::Used(_)), "{headings}");
        }
        // 6 is tested before: what is out of range is no direction.
        assert_eq!(line("9 9 180 -180.001 1 0 0 0 0"), Line::Refused(6));
        assert_eq!(line("9 9 -179.999 180 1 5 0 0 5"), Line::PassedOver);
    }

    #[test]
    fn only_one_number_is_moved() {
        for number in [0, 180_000, -179_999, 179_999, -180_001, 180_001, -360_000, i32::MIN, i32::MAX] {
            assert_eq!(direction(number), number);
        }
        assert_eq!(direction(-180_000), 180_000);
        let node = Node { tick: 7, heading: -180_000 };
        assert_eq!(node.as_read(), Node { tick: 7, heading: 180_000 });
    }

    #[test]
    fn order_of_the_tests() {
        // 4 before 5, 5 before another component, that before 6, 6 before two headings, that before 17, 17 before 7
        assert_eq!(line("NaN 9 0 0 1 0 0 0"), Line::Refused(4));
        assert_eq!(line("9 9 0 0 2 0 0 0 NaN"), Line::Refused(5));
        assert_eq!(line("900 9 0 0 2 0 0 0 0"), Line::PassedOver);
        assert_eq!(line("900 9 0 1 1 0 0 0 0"), Line::Refused(6));
        assert_eq!(line("900 *** 0 1 1 0 0 0 0"), Line::Refused(5));
        assert_eq!(line("9 9 0 1 1 5 0 0 5"), Line::PassedOver);
        assert_eq!(line("9 9 0 0 1 5 0 0 5"), Line::Refused(7));
        assert_eq!(line("9 9 0 0 1 0 0 0 5000"), Line::Refused(6));
        assert_eq!(line("6.4 6.402 0 0 1 5 0 0 5"), Line::Refused(7));
        assert_eq!(used("9 9 0 0 1 0 0 0 0.0000005").im, 0);
        assert!(matches!(read(b"9 9 0 0 1 5 0 0 5", 2, &S), Line::Used(_)));
        assert!(matches!(read(b"9 9 0 1 1 5 0 0 5", 2, &F), Line::Used(_)));
    }

    #[test]
    fn order_with_columns_that_disagree() {
        // 17 before 7, and in rows without a 7
        for row in ["9 9 0 0 1 0 0 0 5", "9 9 0 0 1 6 0 0 5", "9 9 0 0 1 0 0 5 0", "9 8 0 0 1 0 0 0 5"] {
            assert_eq!(line(row), Line::Refused(17), "{row}");
            assert_eq!(read(row.as_bytes(), 2, &S), Line::Refused(17), "{row}");
        }
        // 6 before 17, of MOD and of any other value
        for row in ["9 9 0 0 1 1415.000001 0 0 5", "9 9 0 0 1 -5 0 0 5", "9 9 0 0 1 0 0 1001 0", "900 9 0 0 1 0 0 5 0"]
        {
            assert_eq!(line(row), Line::Refused(6), "{row}");
        }
        // 4 and 5 before both
        assert_eq!(line("9 9 0 0 1 -5 0 5"), Line::Refused(4));
        assert_eq!(line("9 9 0 0 1 -5 x 5 0"), Line::Refused(5));
        // two headings: 6 for MOD and no 17 in single coverage, both in full
        for (row, single, full) in [
            ("9 9 0 1 1 0 0 0 5", Line::PassedOver, Line::Refused(17)),
            ("9 9 0 1 1 1415 0 0 0", Line::PassedOver, Line::Refused(17)),
            ("9 9 0 1 1 1415.000001 0 0 5", Line::Refused(6), Line::Refused(6)),
            ("9 9 0 1 1 -0.000001 0 0 0", Line::Refused(6), Line::Refused(6)),
        ] {
            assert_eq!((line(row), read(row.as_bytes(), 2, &F)), (single, full), "{row}");
        }
        // another component: neither, once the form is that of a field
        for modulus in ["0", "-5", "1415.000001", "9E99"] {
            assert_eq!(line(&format!("9 9 0 0 2 {modulus} 0 0 5")), Line::PassedOver);
            assert_eq!(line(&format!("9 9 0 1 2 {modulus} 0 0 5")), Line::PassedOver);
        }
        assert_eq!(line("9 9 0 0 2 x 0 0 5"), Line::Refused(5));
    }

    #[test]
    fn the_range_of_mod() {
        // in range: used where both parts are 0, or else 17
        for (modulus, fits) in [
            ("0", true),
            ("-0", true),
            ("-0.0000001", true),
            ("-0.0000005", true),
            ("-1E-99", true),
            ("0E99", true),
            ("1415", false),
            ("1415.0000005", false),
            ("1415.0000004E0", false),
        ] {
            let row = format!("9 9 0 0 1 {modulus} 0 0 0");
            assert_eq!(matches!(line(&row), Line::Used(_)), fits, "{row}");
            assert_eq!(line(&row) == Line::Refused(17), !fits, "{row}");
        }
        for modulus in
            ["-0.0000006", "-0.000001", "-1", "1415.0000006", "1415.000001", "1.415000001E3", "9E99", "-9E99"]
        {
            let row = format!("9 9 0 0 1 {modulus} 0 0 0");
            assert_eq!(line(&row), Line::Refused(6), "{row}");
        }
    }

    /// Whether these parts, in millionths, fit this modulus.
    fn fit(modulus: i128, re: i32, im: i32) -> bool {
        let node = Node { tick: 1000, heading: 0 };
        fits(modulus, &Row { first: node, second: node, re, im })
    }

    /// The squares of both parts together on either side of both limits, with one part 0 and in a right triangle.
    fn limits(modulus: i128, least: i32, most: i32) {
        for sign in [1, -1] {
            assert!(fit(modulus, sign * least, 0) && fit(modulus, 0, sign * least), "{modulus}");
            assert!(fit(modulus, sign * most, 0) && fit(modulus, 0, sign * most), "{modulus}");
            assert!(!fit(modulus, sign * (most + 1), 0) && !fit(modulus, 0, sign * (most + 1)), "{modulus}");
            // One more than the square of the limit.
            assert!(!fit(modulus, most, sign) && !fit(modulus, sign, -most), "{modulus}");
            if least > 0 {
                assert!(!fit(modulus, sign * (least - 1), 0) && !fit(modulus, 0, sign * (least - 1)), "{modulus}");
            }
        }
    }

    #[test]
    fn both_limits_of_the_fit() {
        limits(0, 0, 2);
        limits(1, 0, 3);
        limits(2, 0, 4);
        limits(3, 1, 5);
        // k is 2 below 100,000 and 3 from there on
        limits(99_998, 99_996, 100_000);
        limits(99_999, 99_997, 100_001);
        limits(100_000, 99_997, 100_003);
        limits(100_001, 99_998, 100_004);
        limits(199_999, 199_996, 200_002);
        limits(200_000, 199_996, 200_004);
        limits(50_000, 49_998, 50_002);
        limits(999_899_999, 999_889_999, 999_909_999);
        limits(999_900_000, 999_889_999, 999_910_001);
    }

    #[test]
    fn the_largest_parts() {
        // Twice 10^18 is between the squares of 1,414,213,562 and of the next one.
        const MOST: i32 = 1_000_000_000;
        assert!(fit(1_414_213_562, MOST, MOST) && fit(1_414_213_562, -MOST, MOST));
        // k is 14,143 and M + k 1,414,213,563 or one less
        assert!(fit(1_414_199_420, MOST, -MOST));
        assert!(!fit(1_414_199_419, MOST, -MOST));
        // k is 14,144 and M - k 1,414,213,562 or one more
        assert!(fit(1_414_227_706, MOST, MOST));
        assert!(!fit(1_414_227_707, MOST, MOST));
        assert!(fit(1_414_213_562, MOST, MOST - 1));
        // The largest MOD in range fits nothing.
        assert!(!fit(1_415_000_000, MOST, MOST));
        assert!(!fit(1_415_000_000, 0, 0));
        assert_eq!(line("9 8 0 0 1 1415 0 1000 1000"), Line::Refused(17));
        assert!(matches!(line("9 8 0 0 1 1414.21 0 1000 1000"), Line::Used(_)));
    }

    #[test]
    fn right_triangles_on_a_limit() {
        // k is 2: 3 and 4 times 10,000, and 50,000
        for modulus in [49_998, 50_002] {
            assert!(fit(modulus, 30_000, 40_000));
        }
        assert!(!fit(49_997, 30_000, -40_000) && !fit(50_003, -40_000, 30_000));
        // k is 7: 5 and 12 times 40,000, and 520,000
        assert!(fit(520_007, 200_000, 480_000) && !fit(520_008, 200_000, 480_000));
        assert!(fit(519_993, 200_000, -480_000) && !fit(519_992, 200_000, -480_000));
    }

    #[test]
    fn forms() {
        for text in ["*****", "NaN"] {
            assert_eq!(line(&format!("9 9 0 0 1 {text} 0 0 0")), Line::Refused(5));
            assert_eq!(line(&format!("9 9 0 0 1 0 {text} 0 0")), Line::Refused(5));
            assert_eq!(line(&format!("9 9 0 0 1 0 0 {text} 0")), Line::Refused(5));
        }
        for text in ["0", "7", "+1", "01", "1.", "x"] {
            assert_eq!(line(&format!("9 9 0 0 {text} 0 0 0 0")), Line::Refused(5));
        }
        // PHS needs only the form
        assert!(matches!(line("9 9 0 0 1 0 999999999999999E99 0 0"), Line::Used(_)));
        assert!(matches!(line("9 9 0 0 1 0 -1E99 0 0"), Line::Used(_)));
    }

    #[test]
    fn blanks_and_carriage_returns() {
        for text in ["", " ", "\t \t", "\r", " \t\r"] {
            assert_eq!(line(text), Line::Skipped, "{text:?}");
        }
        assert_eq!(line("\r\r"), Line::Refused(4));
        assert_eq!(line("\r "), Line::Refused(4));
        assert!(matches!(line("\t9  9\t0 0 1 0 0 0 0 \r"), Line::Used(_)));
        assert_eq!(line("9 9 0 0 1 0 0 0 0\r\r"), Line::Refused(5));
    }

    #[test]
    fn first_line() {
        assert_eq!(read(b" \tPER1", 1, &H), Line::Skipped);
        assert_eq!(read(b"x 9 0 0 1 0 0 0 0", 1, &H), Line::Skipped);
        assert_eq!(read(b"NaN", 1, &H), Line::Skipped);
        assert_eq!(read(b"_PER1", 1, &H), Line::Refused(4));
        assert_eq!(read(b"1 PER", 1, &H), Line::Refused(4));
        assert_eq!(read(b"PER1", 2, &H), Line::Refused(4));
        assert_eq!(read(b"x 9 0 0 1 0 0 0 0", 2, &H), Line::Refused(5));
    }
}
