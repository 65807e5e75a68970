//! Coefficients between frequencies, the sea and its tests, the force and the mean.

use crate::phase::{self, Phases};
use crate::rounding::nearest;
use crate::rows::{Node, DIFFERENCE, SINGLE};
use crate::table::{self, cell, node_number, Record, Refusal};

pub const SEA_LINES: usize = 64;
pub const MOST_AMPLITUDE: i64 = 40_000;
const MOST_PART: i32 = 1_000_000_000;

/// A whole complex number.
type Complex = (i128, i128);

fn product(a: Complex, b: Complex) -> Complex {
    (a.0 * b.0 - a.1 * b.1, a.0 * b.1 + a.1 * b.0)
}

fn conjugate(a: Complex) -> Complex {
    (a.0, -a.1)
}

#[derive(Clone, Copy, Debug, PartialEq, Eq)]
pub struct SeaLine {
    pub node: Node,
    pub re: i32,
    pub im: i32,
}

/// The sea: a count, which may be over 64, and at most 64 lines.
#[derive(Clone, Debug, PartialEq, Eq)]
pub struct Sea {
    pub count: u32,
    pub lines: Vec<SeaLine>,
}

impl Sea {
    pub fn empty() -> Sea {
        Sea { count: 0, lines: Vec::new() }
    }

    /// A: the sum over the lines of the sizes of both amplitude parts.
    pub fn amplitude(&self) -> i64 {
        let size = |part: i32| i64::from(part).abs();
        self.lines.iter().map(|line| size(line.re) + size(line.im)).sum()
    }
}

/// Where a point stands in the table: its heading's slot, and the frequency slots around it with
/// weights over one denominator. Only weights that are not 0 are kept.
struct Standing {
    heading_slot: usize,
    weights: Vec<(usize, i128)>,
    denominator: i128,
}

/// 13 and 14 for one point, as it is read. `first_heading` is the heading of line 1, as it is read too.
fn stand(record: &Record, point: Node, line: u32, first_heading: i32) -> Result<Standing, Refusal> {
    let (weights, denominator) = stand_between(&record.rising_ticks(), point.tick).ok_or(Refusal::at_line(13, line))?;
    let heading_slot = record.heading_slot(point.heading).ok_or(Refusal::at_line(14, line))?;
    if record.choices.coverage == SINGLE && point.heading != first_heading {
        return Err(Refusal::at_line(14, line));
    }
    Ok(Standing { heading_slot, weights, denominator })
}

/// Where a tick stands among the table's ticks; `None` below the lowest or above the highest.
fn stand_between(rising: &[(u32, usize)], tick: u32) -> Option<(Vec<(usize, i128)>, i128)> {
    for &(held, slot) in rising {
        if held == tick {
            return Some((vec![(slot, 1)], 1));
        }
    }
    for pair in rising.windows(2) {
        let (low, low_slot) = pair[0];
        let (high, high_slot) = pair[1];
        if low < tick && tick < high {
            let weights = vec![(low_slot, i128::from(high - tick)), (high_slot, i128::from(tick - low))];
            return Some((weights, i128::from(high - low)));
        }
    }
    None
}

/// The rounded coefficient of two points, or 15.
fn coefficient_of(cells: &[i32], first: &Standing, second: &Standing) -> Result<Complex, Refusal> {
    let mut re = 0;
    let mut im = 0;
    for &(slot1, weight1) in &first.weights {
        for &(slot2, weight2) in &second.weights {
            let r = node_number(first.heading_slot, slot1);
            let c = node_number(second.heading_slot, slot2);
            let (cell_re, cell_im) = cell(cells, r, c);
            if !in_range(cell_re) || !in_range(cell_im) {
                return Err(Refusal::plain(15));
            }
            re += weight1 * weight2 * i128::from(cell_re);
            im += weight1 * weight2 * i128::from(cell_im);
        }
    }
    let denominator = first.denominator * second.denominator;
    Ok((nearest(re, denominator), nearest(im, denominator)))
}

fn in_range(part: i32) -> bool {
    (-MOST_PART..=MOST_PART).contains(&part)
}

/// A coefficient call: 1, 2, then 13 and 14 for its two points as lines 1 and 2, then 15.
pub fn coefficient(record: &Record, cells: &[i32], first: Node, second: Node) -> Result<(i64, i64), Refusal> {
    table::may_query(record, cells)?;
    let (first, second) = (first.as_read(), second.as_read());
    let one = stand(record, first, 1, first.heading)?;
    let two = stand(record, second, 2, first.heading)?;
    let (re, im) = coefficient_of(cells, &one, &two)?;
    Ok((re as i64, im as i64))
}

/// A force and its mean part, both in units of 10^-12 m².
#[derive(Clone, Copy, Debug, PartialEq, Eq)]
pub struct Load {
    pub mean: i128,
    pub whole: i128,
}

/// The force at a second: 1, 2, 12, then line by line 13 and 14, then 15.
pub fn force(record: &Record, cells: &[i32], sea: &Sea, second: u64, phases: &Phases) -> Result<Load, Refusal> {
    table::may_query(record, cells)?;

    // 12
    let rising = sea.lines.windows(2).all(|pair| pair[0].node.tick < pair[1].node.tick);
    if sea.count as usize > SEA_LINES || !rising || sea.amplitude() > MOST_AMPLITUDE {
        return Err(Refusal::plain(12));
    }

    // 13, 14, of what is read: line 1's heading too.
    let nodes: Vec<Node> = sea.lines.iter().map(|line| line.node.as_read()).collect();
    let mut standings = Vec::new();
    for (&node, number) in nodes.iter().zip(1..) {
        standings.push(stand(record, node, number, nodes[0].heading)?);
    }

    // The double sum, pair by pair, in units of 2^-30 of a force unit; 15 on the way.
    let mut total: i128 = 0;
    let mut mean: i128 = 0;
    for (m, line_m) in sea.lines.iter().enumerate() {
        for (n, line_n) in sea.lines.iter().enumerate() {
            let coefficient = coefficient_of(cells, &standings[m], &standings[n])?;
            let (amplitudes, ticks) = paired(record.choices.kind, line_m, line_n);
            let (cosine, sine) = phases.at(phase::step(ticks, second));
            let pushed = product(amplitudes, coefficient);
            total += product(pushed, (i128::from(cosine), i128::from(sine))).0;
            if m == n && record.choices.kind == DIFFERENCE {
                mean += pushed.0;
            }
        }
    }
    Ok(Load { mean, whole: nearest(total, i128::from(phase::ONE)) })
}

/// Of two lines the product of the amplitudes, the second conjugated in a difference table, and the difference or sum of the ticks.
fn paired(kind: u8, m: &SeaLine, n: &SeaLine) -> (Complex, i64) {
    let a_m = (i128::from(m.re), i128::from(m.im));
    let a_n = (i128::from(n.re), i128::from(n.im));
    let (f_m, f_n) = (i64::from(m.node.tick), i64::from(n.node.tick));
    if kind == DIFFERENCE {
        (product(a_m, conjugate(a_n)), f_m - f_n)
    } else {
        (product(a_m, a_n), f_m + f_n)
    }
}

#[cfg(test)]
mod tests {
    use super::*;
    use crate::reader::tests::{run, run_choices, two_rows_and, Run, EXAMPLE_H, FOURTH};
    use crate::table::CELLS;

    fn node(tick: u32, heading: i32) -> Node {
        Node { tick, heading }
    }

    fn sea(lines: &[(u32, i32, i32, i32)]) -> Sea {
        let lines: Vec<SeaLine> =
            lines.iter().map(|&(tick, heading, re, im)| SeaLine { node: node(tick, heading), re, im }).collect();
        Sea { count: lines.len() as u32, lines }
    }

    fn sea_h() -> Sea {
        sea(&[(1000, 0, 500, 0), (1250, 0, 300, 0)])
    }

    fn whole(done: &Run, sea: &Sea, second: u64) -> Result<i128, Refusal> {
        force(&done.record, &done.cells, sea, second, &Phases::new()).map(|load| load.whole)
    }

    fn at(done: &Run, first: (u32, i32), second: (u32, i32)) -> Result<(i64, i64), Refusal> {
        coefficient(&done.record, &done.cells, node(first.0, first.1), node(second.0, second.1))
    }

    #[test]
    fn coefficients_checked_by_hand() {
        let done = run(EXAMPLE_H);
        assert_eq!(at(&done, (1000, 0), (1100, 0)), Ok((-24000, 1600)));
        assert_eq!(at(&done, (1100, 0), (1000, 0)), Ok((-24000, -1600)));
        assert_eq!(at(&done, (1100, 0), (1100, 0)), Ok((-27360, 0)));
        assert_eq!(at(&done, (1000, 0), (1250, 0)), Ok((-30000, 4000)));
        assert_eq!(at(&done, (999, 0), (1, 7)), Err(Refusal::at_line(13, 1)));
        assert_eq!(at(&done, (1000, 7), (1, 7)), Err(Refusal::at_line(14, 1)));
        assert_eq!(at(&done, (1000, 0), (1251, 7)), Err(Refusal::at_line(13, 2)));
        assert_eq!(at(&done, (1000, 0), (1250, 7)), Err(Refusal::at_line(14, 2)));
    }

    #[test]
    fn forces_checked_by_hand() {
        let done = run(EXAMPLE_H);
        assert_eq!(whole(&done, &sea_h(), 0), Ok(-17_240_000_000));
        assert_eq!(whole(&done, &sea_h(), 10), Ok(-7_040_000_000));
        assert_eq!(whole(&done, &sea_h(), 20), Ok(760_000_000));
        let load = force(&done.record, &done.cells, &sea_h(), 0, &Phases::new()).unwrap();
        assert_eq!(load.mean, -8_240_000_000);
        let instead = two_rows_and(FOURTH);
        assert_eq!(whole(&instead, &sea_h(), 10), Ok(-7_040_000_000));
    }

    #[test]
    fn sea_limits() {
        let done = run(EXAMPLE_H);
        let twelve = Err(Refusal::plain(12));
        assert!(whole(&done, &sea(&[(1000, 0, 20_000, -20_000)]), 0).is_ok());
        assert_eq!(whole(&done, &sea(&[(1000, 0, 20_000, -20_001)]), 0), twelve);
        assert_eq!(whole(&done, &sea(&[(1000, 0, i32::MIN, i32::MIN)]), 0), twelve);
        assert_eq!(whole(&done, &sea(&[(1000, 0, 1, 0), (1000, 0, 1, 0)]), 0), twelve);
        assert_eq!(whole(&done, &sea(&[(1250, 0, 1, 0), (1000, 0, 1, 0)]), 0), twelve);
        let lines: Vec<_> = (0..64).map(|i| (1000 + i, 0, 1, 0)).collect();
        assert!(whole(&done, &sea(&lines), 0).is_ok());
        let mut many = sea(&lines);
        many.count = 65;
        assert_eq!(whole(&done, &many, 0), twelve);
        assert_eq!(whole(&done, &Sea::empty(), 0), Ok(0));
        assert_eq!(whole(&done, &sea(&[(1000, 0, 1, 0), (1251, 5, 1, 0)]), 0), Err(Refusal::at_line(13, 2)));
        assert_eq!(whole(&done, &sea(&[(1000, 5, 1, 0), (1251, 0, 1, 0)]), 0), Err(Refusal::at_line(14, 1)));
    }

    #[test]
    fn needed_cells() {
        let mut done = run(EXAMPLE_H);
        done.cells[2 * 81] = 1_000_000_001;
        assert_eq!(at(&done, (1000, 0), (1100, 0)), Ok((-24000, 1600)));
        assert_eq!(at(&done, (1100, 0), (1100, 0)), Err(Refusal::plain(15)));
        assert!(whole(&done, &sea(&[(1000, 0, 1, 0)]), 0).is_ok());
        assert_eq!(whole(&done, &sea(&[(1001, 0, 0, 0)]), 0), Err(Refusal::plain(15)));
        done.cells[2 * 81] = -1_000_000_000;
        assert!(whole(&done, &sea(&[(1001, 0, 1, 0)]), 0).is_ok());
        done.cells[2 * 81 + 1] = i32::MIN;
        assert_eq!(whole(&done, &sea(&[(1001, 0, 1, 0)]), 0), Err(Refusal::plain(15)));
    }

    #[test]
    fn single_headings_must_agree_and_full_need_not() {
        let rows = "9 9 0 0 1 3 0 3 0\n8 8 0 0 1 4 0 4 0\n9 8 0 0 1 1.41421 0 1 1\n";
        let other = rows.replace(" 0 0 1", " 1 1 1");
        let cross = "9 9 0 1 1 1 0 1 0\n9 8 0 1 1 1 0 1 0\n8 9 0 1 1 1 0 1 0\n8 8 0 1 1 1 0 1 0\n";
        let single = run_choices(0, 1, 0, &[rows.as_bytes(), other.as_bytes()]);
        assert_eq!(single.answer, Ok((2, 2)));
        let lines = sea(&[(1111, 0, 1, 0), (1250, 1000, 1, 0)]);
        assert_eq!(whole(&single, &lines, 0), Err(Refusal::at_line(14, 2)));
        assert_eq!(at(&single, (1111, 0), (1111, 1000)), Err(Refusal::at_line(14, 2)));
        let full = run_choices(0, 1, 1, &[rows.as_bytes(), other.as_bytes(), cross.as_bytes()]);
        assert_eq!(full.answer, Ok((2, 2)));
        assert_eq!(whole(&full, &lines, 0), Ok(3_000_000 + 4_000_000 + 2_000_000));
    }

    /// Ticks 1,111 and 1,250 at 180 degrees and at 0; the rows write 180 with either sign.
    fn at_the_edge(coverage: u8) -> Run {
        let rows = "9 9 180 -180 1 3 0 3 0\n8 8 -180 -180 1 4 0 4 0\n9 8 -179.9996 180 1 1.41421 0 1 1\n";
        let other = rows.replace("-179.9996", "0").replace("-180", "0").replace("180", "0");
        let cross = "9 9 0 -180 1 1 0 1 0\n9 8 0 180 1 1 0 1 0\n8 9 0 -180 1 1 0 1 0\n8 8 0 180 1 1 0 1 0\n";
        let done = run_choices(0, 1, coverage, &[rows.as_bytes(), other.as_bytes(), cross.as_bytes()]);
        assert_eq!(done.answer, Ok((2, 2)));
        assert_eq!(done.record.held_headings(), [180_000, 0]);
        done
    }

    #[test]
    fn coefficient_points_at_minus_180() {
        let (plus, minus) = (180_000, -180_000);
        for coverage in [0, 1] {
            let done = at_the_edge(coverage);
            let wanted = at(&done, (1111, plus), (1250, plus));
            assert_eq!(wanted, Ok((1_000_000, 1_000_000)));
            for (one, other) in [(plus, minus), (minus, plus), (minus, minus)] {
                assert_eq!(at(&done, (1111, one), (1250, other)), wanted, "{one} {other}");
            }
            let across = at(&done, (1111, 0), (1250, plus));
            assert_eq!(at(&done, (1111, 0), (1250, minus)), across);
            assert_eq!(across.is_ok(), coverage == 1);
            for none in [-180_001, 180_001, -179_999, 179_999, -540_000, 540_000, i32::MIN, i32::MAX] {
                assert_eq!(at(&done, (1111, none), (1250, minus)), Err(Refusal::at_line(14, 1)), "{none}");
                assert_eq!(at(&done, (1111, minus), (1250, none)), Err(Refusal::at_line(14, 2)), "{none}");
            }
        }
        // A table that does not hold 180.
        let done = run(EXAMPLE_H);
        for heading in [plus, minus] {
            assert_eq!(at(&done, (1000, heading), (1000, heading)), Err(Refusal::at_line(14, 1)));
            assert_eq!(at(&done, (1000, 0), (1000, heading)), Err(Refusal::at_line(14, 2)));
        }
    }

    #[test]
    fn seas_at_minus_180() {
        let two = |one: i32, other: i32| sea(&[(1111, one, 500, 3), (1250, other, 300, -7)]);
        let (plus, minus) = (180_000, -180_000);
        for coverage in [0, 1] {
            let done = at_the_edge(coverage);
            let wanted = whole(&done, &two(plus, plus), 77);
            assert!(wanted.is_ok());
            for (one, other) in [(plus, minus), (minus, plus), (minus, minus)] {
                assert_eq!(whole(&done, &two(one, other), 77), wanted, "{one} {other}");
            }
            for (one, other) in [(0, plus), (plus, 0)] {
                let across = whole(&done, &two(one, other), 77);
                assert_eq!(across.is_ok(), coverage == 1);
                assert_eq!(whole(&done, &two(-one, -other), 77), across);
            }
            // There is no range here: any other number is not in the table.
            for none in [-180_001, -540_000, i32::MIN] {
                assert_eq!(whole(&done, &two(none, minus), 77), Err(Refusal::at_line(14, 1)), "{none}");
                assert_eq!(whole(&done, &two(minus, none), 77), Err(Refusal::at_line(14, 2)), "{none}");
            }
        }
        let done = run(EXAMPLE_H);
        assert_eq!(whole(&done, &sea(&[(1000, minus, 1, 0)]), 0), Err(Refusal::at_line(14, 1)));
        assert_eq!(whole(&done, &sea(&[(1000, 0, 1, 0), (1250, minus, 1, 0)]), 0), Err(Refusal::at_line(14, 2)));
    }

    #[test]
    fn no_query_of_a_record_that_holds_minus_180() {
        let mut done = at_the_edge(1);
        for headings in [[-180_000, 0, 0, 0], [180_000, -180_000, 0, 0]] {
            done.record.headings = headings;
            assert_eq!(at(&done, (1111, 180_000), (1111, 180_000)), Err(Refusal::plain(2)));
            assert_eq!(whole(&done, &Sea::empty(), 0), Err(Refusal::plain(2)));
        }
        done.record.headings = [180_000, 0, -180_000, -180_000];
        assert!(at(&done, (1111, 180_000), (1111, -180_000)).is_ok());
        assert_eq!(whole(&done, &Sea::empty(), 0), Ok(0));
    }

    #[test]
    fn largest_force_fits() {
        let rows = "9 9 0 0 1 1414.21 0 1000 1000\n";
        let done = run_choices(1, 1, 0, &[rows.as_bytes()]);
        let load = whole(&done, &sea(&[(1111, 0, 20_000, 20_000)]), 0);
        // (20000 + 20000i)² = 8e8 i; times 1e9 (1 + i): real part -8e17
        assert_eq!(load, Ok(-800_000_000_000_000_000));
    }

    #[test]
    fn queries_read_no_flags_and_test_their_cells() {
        let mut done = run(EXAMPLE_H);
        done.flags.clear();
        assert!(whole(&done, &sea_h(), 0).is_ok());
        done.cells.truncate(CELLS - 1);
        assert_eq!(whole(&done, &sea_h(), 0), Err(Refusal::plain(1)));
        done.cells.push(0);
        done.record.stage = 1;
        assert_eq!(whole(&done, &Sea::empty(), 0), Err(Refusal::plain(2)));
    }
}
