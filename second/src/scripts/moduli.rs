//! M-101 in made texts: a modulus for every row, one that fits its two parts or one that does not, and rows on either
//! side of both limits of the fit. What fits is worked here once more from the request, by whole numbers, and not by
//! the reader's own test.

use super::{Values, Writer};
use crate::fields;
use crate::rounding::nearest;

/// How a row's modulus is to be written.
#[derive(Clone, Copy, Debug, PartialEq, Eq)]
pub(super) enum Modulus {
    Fits,
    /// In range, and mostly next to one that fits.
    Misfits,
    /// So many millionths.
    Is(i64),
    Written(&'static str),
}

/// Millionths.
const MOST_MODULUS: i64 = 1_415_000_000;
const MOST_PART: i64 = 1_000_000_000;

/// On both sides of both ends of the range, after rounding.
const NEAR_THE_RANGE: [&str; 22] = [
    "1415",
    "1415.",
    "1.415E3",
    "1415.000001",
    "1415.0000005",
    "1415.00000049",
    "1415.0000006",
    "1415.00000051",
    "1414.9999995",
    "1414.999999",
    "1415000001E-6",
    "-0",
    "-0.0000001",
    "-0.0000005",
    "-0.00000051",
    "-.000001",
    "-1E-99",
    "1E-99",
    "-0E99",
    "9E99",
    "-9E99",
    "-1",
];

/// Right triangles in whole numbers: their sides in any unit are parts whose root is whole.
const TRIANGLES: [(i64, i64, i64); 6] = [(3, 4, 5), (5, 12, 13), (8, 15, 17), (7, 24, 25), (20, 21, 29), (9, 40, 41)];

/// Document 02: "k = 2 plus M over 100,000 rounded down".
fn k(modulus: i64) -> i64 {
    2 + modulus / 100_000
}

fn least_root(modulus: i64) -> i64 {
    (modulus - k(modulus)).max(0)
}

fn most_root(modulus: i64) -> i64 {
    modulus + k(modulus)
}

fn square(value: i64) -> i128 {
    i128::from(value) * i128::from(value)
}

/// The first of 0 to `MOST_MODULUS` from which on it holds, or the one behind them.
fn first_that(holds: impl Fn(i64) -> bool) -> i64 {
    let (mut low, mut high) = (0, MOST_MODULUS + 1);
    while low < high {
        let middle = (low + high) / 2;
        if holds(middle) {
            high = middle;
        } else {
            low = middle + 1;
        }
    }
    low
}

/// The least and the most modulus that fit these parts: both limits rise with the modulus.
fn fitting(re: i64, im: i64) -> (i64, i64) {
    let both = square(re) + square(im);
    let least = first_that(|modulus| square(most_root(modulus)) >= both);
    let past = first_that(|modulus| square(least_root(modulus)) > both);
    (least, past - 1)
}

/// The root of both squares together in millionths of a millionth, rounded down.
fn root(re: i64, im: i64) -> i128 {
    let both = (square(re) + square(im)) as u128;
    (both * 1_000_000_000_000).isqrt() as i128
}

/// Such a root in so many significant digits, as WAMIT prints a number (it prints six).
fn significant(root: i128, count: u32) -> String {
    let mut power = root.to_string().len() as i64;
    let ten_to = |power: i64| 10_i128.pow(power as u32);
    let dropped = (power - i64::from(count)).max(0);
    let mut digits = nearest(root, ten_to(dropped));
    if root > 0 && digits >= ten_to(power - dropped) {
        (digits, power) = (digits / 10, power + 1);
    }
    let exponent = if root == 0 { 0 } else { power - 12 };
    let sign = if exponent < 0 { '-' } else { '+' };
    format!("0.{digits:0<width$}E{sign}{:02}", exponent.abs(), width = count as usize)
}

/// The millionths of a field that has its form, if they are not far out of every range.
pub(super) fn millionths(field: &str) -> Option<i64> {
    let value = fields::read(field.as_bytes())?.in_units(6);
    i64::try_from(value).ok().filter(|value| value.abs() <= 10_000_000_000)
}

impl Writer {
    /// The sixth field of a row.
    pub(super) fn modulus(&mut self, row: &Values) -> String {
        let millionths = match row.modulus {
            Modulus::Fits => return self.fitting_field(row.re, row.im),
            Modulus::Misfits => self.misfitting(row.re, row.im),
            Modulus::Is(millionths) => millionths,
            Modulus::Written(text) => return text.to_string(),
        };
        self.decimal(millionths, 6)
    }

    /// A modulus that fits: as WAMIT prints it, with more digits, or anywhere from one limit to the other.
    pub(super) fn fitting_field(&mut self, re: i64, im: i64) -> String {
        let (least, most) = fitting(re, im);
        let millionths = match self.rng.below(12) {
            0..=3 => return significant(root(re, im), 6),
            4 => {
                let digits = self.rng.between(7, 14) as u32;
                return significant(root(re, im), digits);
            }
            5..=7 => self.rng.between(least, most),
            8 => least,
            9 => most,
            _ => nearest(root(re, im), 1_000_000) as i64,
        };
        self.decimal(millionths, 6)
    }

    /// A modulus in range that does not fit.
    fn misfitting(&mut self, re: i64, im: i64) -> i64 {
        let (least, most) = fitting(re, im);
        let near = self.rng.between(1, 5);
        let far = self.rng.between(0, MOST_MODULUS);
        let outside = [
            least - 1,
            most + 1,
            least - 1,
            most + 1,
            least - near,
            most + near,
            // No modulus at all, one of another unit, one of a part alone, one of another run.
            0,
            least / 1_000,
            1_000 * most,
            re.abs(),
            im.abs(),
            re.abs() + im.abs(),
            MOST_MODULUS,
            far,
        ];
        let fits = least..=most;
        let outside: Vec<i64> = outside
            .into_iter()
            .filter(|modulus| (0..=MOST_MODULUS).contains(modulus) && !fits.contains(modulus))
            .collect();
        self.rng.pick(&outside)
    }

    /// 17 in a text that is otherwise good: one row, one that would be 7 or 9 as well, or a column of two runs.
    pub(super) fn spoil_by_17(&mut self, kind: u8, rows: &mut Vec<Values>, one: usize) {
        match self.rng.below(6) {
            0..=1 => rows[one].modulus = Modulus::Misfits,
            2 => {
                // Its mirror, or itself, again, with another value.
                let mut row = if self.rng.chance(50) { rows[one].mirrored(kind) } else { rows[one] };
                row.re = if row.re > 0 { row.re - 1 } else { row.re + 1 };
                row.modulus = Modulus::Misfits;
                let at = self.rng.gap(rows);
                rows.insert(at, row);
            }
            3..=4 => {
                // Equal nodes with an imaginary part.
                let im = self.rng.pick(&[1, -1, 5_000]);
                let (tick, heading) = (rows[one].ticks[0], rows[one].headings[0]);
                let (ticks, headings) = ([tick; 2], [heading; 2]);
                let row = Values { ticks, headings, re: self.part(), im, modulus: Modulus::Misfits };
                let at = self.rng.gap(rows);
                rows.insert(at, row);
            }
            _ => {
                // From some row on the moduli are those of another run, here of the rows one further on.
                let roots: Vec<i64> = rows.iter().map(|row| nearest(root(row.re, row.im), 1_000_000) as i64).collect();
                for at in one..rows.len() {
                    rows[at].modulus = Modulus::Is(roots[(at + 1) % roots.len()]);
                }
            }
        }
    }

    /// Rows on both sides of both limits of the fit and of the range of a modulus, each behind an opening of its own:
    /// as they are, of equal nodes, of another component, of two headings, or where a cell or a slot is taken.
    pub(super) fn fit_limits(&mut self) {
        for _ in 0..10 {
            let kind = self.rng.below(2) as u8;
            let coverage = self.rng.below(2) as u8;
            let component = self.rng.between(1, 6) as u8;
            self.say(&format!("open {kind} {component} {coverage}"));
            let mut row = self.near_fit();
            let mut written = component;
            match self.rng.below(12) {
                0..=2 => row.ticks[1] = row.ticks[0],
                3 => written = component % 6 + 1,
                4..=6 => {
                    row.headings[1] = self.rng.pick(&[90_000, 1, -180_000, 180_000]);
                    if self.rng.chance(40) {
                        row.modulus = Modulus::Written(self.rng.pick(&NEAR_THE_RANGE));
                    }
                }
                7..=8 => self.set_otherwise(component, &row, kind),
                9 => self.no_slot_for(&row),
                _ => {}
            }
            let mut text = self.line(written, &row);
            let ended = self.rng.chance(80);
            if ended {
                text.push(b'\n');
            }
            self.send_or_say(&text);
            self.say("record");
            if !ended || self.rng.chance(40) {
                self.say("close");
            }
            if self.rng.chance(30) {
                self.say("cell 0 1");
                self.say("sum");
            }
            if self.rng.chance(25) {
                self.after_refusal();
            }
        }
    }

    /// In one piece, or cut once.
    pub(super) fn send_or_say(&mut self, text: &[u8]) {
        let cut = if self.rng.chance(25) { self.rng.below(text.len() + 1) } else { text.len() };
        self.piece(&text[..cut]);
        if cut < text.len() {
            self.piece(&text[cut..]);
        }
    }

    /// A row that fits, for the same pair or its mirror, with another value: the next one is 9 if it is not 17.
    fn set_otherwise(&mut self, component: u8, row: &Values, kind: u8) {
        let re = if row.re > 0 { row.re - 1 } else { row.re + 1 };
        let mut before = Values { re, modulus: Modulus::Fits, ..*row };
        if self.rng.chance(40) {
            before = before.mirrored(kind);
        }
        let mut line = self.line(component, &before);
        line.push(b'\n');
        self.piece(&line);
    }

    /// Somebody else holds all the headings: the next row is 8 if it is not 17.
    fn no_slot_for(&mut self, row: &Values) {
        for slot in 0..4 {
            self.say(&format!("forge heading {slot} {}", row.headings[0] - slot - 1));
        }
        self.say("forge headings 4");
        self.say("forge tick 0 1000");
    }

    /// Two frequencies at heading 0, with a modulus and parts near a limit.
    fn near_fit(&mut self) -> Values {
        let ticks = [self.rng.between(100, 5_000) as u32, self.rng.between(5_001, 10_000) as u32];
        let row = Values { ticks, headings: [0; 2], re: 0, im: 0, modulus: Modulus::Fits };
        if self.rng.chance(22) {
            let modulus = Modulus::Written(self.rng.pick(&NEAR_THE_RANGE));
            let (re, im) = self.rng.pick(&[(0, 0), (0, 0), (2, 0), (-1, 2), (3, 0), (MOST_PART, -MOST_PART)]);
            return Values { re, im, modulus, ..row };
        }
        if self.rng.chance(8) {
            let (re, im) = self.rng.pick(&[(MOST_PART, MOST_PART), (-MOST_PART, MOST_PART), (0, -MOST_PART)]);
            let (least, most) = fitting(re, im);
            let modulus = Modulus::Is(self.rng.pick(&[least - 1, least, most, most + 1]));
            return Values { re, im, modulus, ..row };
        }
        let upper = self.rng.chance(50);
        let limit = |modulus: i64| if upper { most_root(modulus) } else { least_root(modulus) };
        if self.rng.chance(14) {
            let (root, re, im) = self.just_below();
            let modulus = Modulus::Is(first_that(|modulus| limit(modulus) >= root));
            return Values { re, im, modulus, ..row };
        }
        let modulus = self.near_modulus();
        let modulus = if self.rng.chance(40) { self.with_triangle(modulus, limit) } else { modulus };
        let (re, im) = match self.rng.below(9) {
            0..=3 => self.parts_at(limit(modulus)),
            4..=5 => self.parts_above(limit(modulus)),
            6..=7 => self.parts_below(limit(modulus)),
            _ => (self.part(), self.part()),
        };
        let (re, im) = if self.rng.chance(50) { (re, im) } else { (im, re) };
        let sign = |negative: bool, size: i64| if negative { -size } else { size };
        let (re, im) = (sign(self.rng.chance(50), re), sign(self.rng.chance(50), im));
        Values { re, im, modulus: Modulus::Is(modulus), ..row }
    }

    /// 0, around the steps of k, around the largest root, or any.
    fn near_modulus(&mut self) -> i64 {
        match self.rng.below(10) {
            0..=1 => self.rng.between(0, 6),
            2 => self.rng.pick(&[99_998, 99_999, 100_000, 100_001, 199_999, 200_000]),
            3..=4 => 100_000 * self.rng.between(1, 14_149) + self.rng.between(-1, 1),
            5 => 1_414_213_562 + self.rng.between(-15_000, 15_000),
            6 => self.rng.between(0, MOST_MODULUS),
            7 => 10_i64.pow(self.rng.between(1, 9) as u32) + self.rng.between(-1, 1),
            _ => {
                let most = self.rng.pick(&[100, 10_000, 1_000_000, 100_000_000, 999_000_000]);
                self.rng.between(0, most)
            }
        }
    }

    /// A modulus from this one on whose limit is the long side of a right triangle.
    fn with_triangle(&mut self, modulus: i64, limit: impl Fn(i64) -> i64) -> i64 {
        let (_, _, long) = self.rng.pick(&TRIANGLES);
        (modulus..=MOST_MODULUS).take(100).find(|&next| limit(next) % long == 0).unwrap_or(modulus)
    }

    /// Parts whose squares together are that of `root`, or a little less where there are none such in range.
    fn parts_at(&mut self, root: i64) -> (i64, i64) {
        let mut found = Vec::new();
        if root <= MOST_PART {
            found.push((root, 0));
        }
        for (one, other, long) in TRIANGLES {
            if root % long == 0 && other * (root / long) <= MOST_PART {
                found.extend([(one * (root / long), other * (root / long)); 2]);
            }
        }
        if found.is_empty() {
            return self.parts_below(root);
        }
        self.rng.pick(&found)
    }

    /// Parts whose squares together are as little above that of `root` as is found.
    fn parts_above(&mut self, root: i64) -> (i64, i64) {
        if root <= MOST_PART {
            // One part more, or one more by a single unit of the other.
            return if self.rng.chance(30) && root < MOST_PART { (root + 1, 0) } else { (root, 1) };
        }
        let one = |re: i64| ((square(root) - square(re)) as u128).isqrt() as i64 + 1;
        self.nearest_parts(root, one)
    }

    /// A root, and parts whose squares together are one or two less than its square.
    fn just_below(&mut self) -> (i64, i64, i64) {
        let most = self.rng.pick(&[30, 2_000, 44_000]);
        let im = self.rng.between(2, most);
        let root = im * im / 2 + 1 + im % 2;
        (root, root - 1, if self.rng.chance(50) { -im } else { im })
    }

    /// The same below it.
    fn parts_below(&mut self, root: i64) -> (i64, i64) {
        if root == 0 || (root <= MOST_PART && self.rng.chance(30)) {
            return ((root - 1).max(0), 0);
        }
        let one = |re: i64| ((square(root) - 1 - square(re)).max(0) as u128).isqrt() as i64;
        self.nearest_parts(root, one)
    }

    /// Of some real parts the one whose imaginary part in range comes nearest to the square of `root`.
    fn nearest_parts(&mut self, root: i64, other: impl Fn(i64) -> i64) -> (i64, i64) {
        let most = MOST_PART.min(root - 1);
        let mut best = (most, other(most).min(MOST_PART));
        let gap = |(re, im): (i64, i64)| (square(root) - square(re) - square(im)).abs();
        for _ in 0..200 {
            let re =
                if self.rng.chance(50) { self.rng.between(0, most) } else { most - self.rng.between(0, most.min(200)) };
            let parts = (re, other(re));
            if parts.1 <= MOST_PART && gap(parts) < gap(best) {
                best = parts;
            }
        }
        best
    }
}

#[cfg(test)]
mod tests {
    use super::*;
    use crate::protocol::Bench;
    use crate::rows::{self, Choices, Line};
    use crate::scripts::Rng;

    fn writer() -> Writer {
        Writer { out: Vec::new(), bench: Bench::new(), rng: Rng(5) }
    }

    /// What the reader says of these parts with this modulus, as a sum table.
    fn read(modulus: &str, re: i64, im: i64) -> Line {
        let choices = Choices { kind: 1, component: 1, coverage: 0 };
        rows::read(format!("9 8 0 0 1 {modulus} 0 {re}E-6 {im}E-6").as_bytes(), 2, &choices)
    }

    fn used(modulus: &str, re: i64, im: i64) -> bool {
        matches!(read(modulus, re, im), Line::Used(_))
    }

    #[test]
    fn what_fits_is_what_the_reader_takes() {
        let mut writer = writer();
        for _ in 0..3_000 {
            let (re, im) = (writer.part(), writer.part());
            let (least, most) = fitting(re, im);
            assert!(least <= most && most < MOST_MODULUS, "{re} {im}");
            for (modulus, fits) in [(least - 1, false), (least, true), (most, true), (most + 1, false)] {
                if modulus >= 0 {
                    assert_eq!(used(&format!("{modulus}E-6"), re, im), fits, "{modulus} {re} {im}");
                }
            }
            let field = writer.fitting_field(re, im);
            assert!(used(&field, re, im), "{field} {re} {im}");
            let misfit = writer.misfitting(re, im);
            assert_eq!(read(&format!("{misfit}E-6"), re, im), Line::Refused(17), "{misfit} {re} {im}");
        }
        assert_eq!(fitting(0, 0), (0, 2));
        assert_eq!(fitting(MOST_PART, MOST_PART), (1_414_199_420, 1_414_227_706));
    }

    #[test]
    fn as_wamit_prints() {
        assert_eq!(significant(root(0, 0), 6), "0.000000E+00");
        assert_eq!(significant(root(-30_000, 4_000), 6), "0.302655E-01");
        assert_eq!(significant(root(MOST_PART, MOST_PART), 6), "0.141421E+04");
        assert_eq!(significant(root(1, 0), 6), "0.100000E-05");
        assert_eq!(significant(root(999_999_600, 0), 6), "0.100000E+04");
        assert_eq!(significant(root(1_000_000, 1_000_000), 13), "0.1414213562373E+01");
    }

    #[test]
    fn one_or_two_below_a_square() {
        let mut writer = writer();
        for _ in 0..1_000 {
            let (root, re, im) = writer.just_below();
            assert!((1..=2).contains(&(square(root) - square(re) - square(im))) && root <= MOST_PART, "{root}");
        }
    }

    #[test]
    fn both_sides_of_both_limits_come() {
        let mut writer = writer();
        // Above and below and on the upper limit, and the same of the lower one; the steps of k; 0; the parts' most.
        let mut seen = [0; 9];
        for _ in 0..4_000 {
            let row = writer.near_fit();
            let Modulus::Is(modulus) = row.modulus else { continue };
            let both = square(row.re) + square(row.im);
            assert!(row.re.abs() <= MOST_PART && row.im.abs() <= MOST_PART);
            for (at, root) in [(0, most_root(modulus)), (3, least_root(modulus))] {
                let away = both - square(root);
                // Within one unit of the root.
                if away.abs() <= i128::from(2 * root + 1) {
                    seen[at + (away.signum() + 1) as usize] += 1;
                }
            }
            seen[6] += usize::from(modulus >= 99_999 && (modulus + 1) % 100_000 <= 2);
            seen[7] += usize::from(modulus == 0);
            seen[8] += usize::from(square(row.re).max(square(row.im)) == square(MOST_PART));
        }
        assert!(seen.iter().all(|&times| times >= 10), "{seen:?}");
    }
}
