//! The display's reading: two doubles, marked a force or a moment.

use crate::load::{self, Sea};
use crate::phase::Phases;
use crate::rounding::nearest;
use crate::table::{Record, Refusal};

#[derive(Clone, Copy, Debug, PartialEq)]
pub struct Doubles {
    pub mean: f64,
    pub whole: f64,
}

#[derive(Clone, Copy, Debug, PartialEq)]
pub enum Reading {
    /// Newtons, components 1 to 3.
    Force(Doubles),
    /// Newton metres, components 4 to 6.
    Moment(Doubles),
}

/// All that the force tests, then 16.
pub fn display(
    record: &Record,
    cells: &[i32],
    sea: &Sea,
    second: u64,
    scale: f64,
    phases: &Phases,
) -> Result<Reading, Refusal> {
    let load = load::force(record, cells, sea, second, phases)?;
    if !(scale > 0.0 && scale <= 1000.0) {
        return Err(Refusal::plain(16));
    }
    // The mean of a sum table is 0, so its double is 0.0 whatever the scale.
    let doubles = Doubles { mean: scaled(load.mean, scale), whole: scaled(load.whole, scale) };
    if record.choices.component <= 3 {
        Ok(Reading::Force(doubles))
    } else {
        Ok(Reading::Moment(doubles))
    }
}

/// The force over 1,000, rounded to a whole count, as a double, times the scale once.
fn scaled(force: i128, scale: f64) -> f64 {
    let count = nearest(force, 1_000);
    assert!(count.abs() < 1 << 53);
    count as f64 * scale
}

#[cfg(test)]
mod tests {
    use super::*;
    use crate::load::SeaLine;
    use crate::reader::tests::{run, run_choices, EXAMPLE_H};
    use crate::rows::Node;

    fn sea_h() -> Sea {
        let line = |tick, re| SeaLine { node: Node { tick, heading: 0 }, re, im: 0 };
        Sea { count: 2, lines: vec![line(1000, 500), line(1250, 300)] }
    }

    #[test]
    fn checked_by_hand() {
        let done = run(EXAMPLE_H);
        let reading = display(&done.record, &done.cells, &sea_h(), 0, 0.5, &Phases::new());
        assert_eq!(reading, Ok(Reading::Force(Doubles { mean: -4120000.0, whole: -8620000.0 })));
    }

    #[test]
    fn scales() {
        let done = run(EXAMPLE_H);
        let phases = Phases::new();
        let show = |scale| display(&done.record, &done.cells, &sea_h(), 0, scale, &phases);
        for scale in [f64::NAN, -f64::NAN, 0.0, -0.0, -1.0, 1000.0000000000001, f64::INFINITY, f64::NEG_INFINITY] {
            assert_eq!(show(scale), Err(Refusal::plain(16)), "{scale}");
        }
        for scale in [f64::from_bits(1), f64::MIN_POSITIVE, 1.0, 1000.0] {
            assert!(show(scale).is_ok(), "{scale}");
        }
    }

    #[test]
    fn marks_and_the_mean_of_a_sum() {
        let text = EXAMPLE_H.replace(" 0.0 0.0 1 ", " 0.0 0.0 4 ");
        let done = run_choices(1, 4, 0, &[text.as_bytes()]);
        let reading = display(&done.record, &done.cells, &sea_h(), 0, 1.0, &Phases::new());
        // -5e9 - 3.24e9 + 2 * 150000 * -30000 = -17.24e9
        let Ok(Reading::Moment(doubles)) = reading else { panic!("{reading:?}") };
        assert_eq!((doubles.mean.to_bits(), doubles.whole), (0, -17240000.0));
    }

    #[test]
    fn small_negative_counts_show_plain_zero() {
        assert_eq!(scaled(-500, 1.0).to_bits(), 0);
        assert_eq!(scaled(-1500, 1.0), -2.0);
        assert_eq!(scaled(2500, 1.0), 2.0);
    }
}
