//! The quarter turn table and cosine and sine at a step of 10,000 to the turn.
//!
//! The entries are made here with whole numbers alone: fixed point with 110 binary places, pi by
//! Machin's formula, the cosine by its Taylor series.

pub const TURN: usize = 10_000;
pub const QUARTER: usize = 2_500;
/// Cosines are in units of 2^-30.
pub const ONE: i64 = 1 << 30;

const PLACES: u32 = 110;

/// The product of two fixed-point numbers, cut off towards 0.
fn times(a: i128, b: i128) -> i128 {
    let (high, low) = wide_product(a.unsigned_abs(), b.unsigned_abs());
    let size = ((high << (128 - PLACES)) | (low >> PLACES)) as i128;
    if (a < 0) == (b < 0) {
        size
    } else {
        -size
    }
}

/// The 256-bit product of two 128-bit numbers, by 64-bit halves.
fn wide_product(a: u128, b: u128) -> (u128, u128) {
    let half = u128::from(u64::MAX);
    let (a1, a0) = (a >> 64, a & half);
    let (b1, b0) = (b >> 64, b & half);
    let low = a0 * b0;
    let middle = a1 * b0 + (low >> 64);
    let middle_low = (middle & half) + a0 * b1;
    let high = a1 * b1 + (middle >> 64) + (middle_low >> 64);
    (high, (middle_low << 64) | (low & half))
}

/// The arc whose tangent is 1/n.
fn arc_of_inverse(n: i128) -> i128 {
    let mut power = (1_i128 << PLACES) / n;
    let mut sum = 0;
    let mut odd = 1;
    while power != 0 {
        let term = power / odd;
        sum += if odd % 4 == 1 { term } else { -term };
        power /= n * n;
        odd += 2;
    }
    sum
}

fn pi() -> i128 {
    16 * arc_of_inverse(5) - 4 * arc_of_inverse(239)
}

fn cosine_of(angle: i128) -> i128 {
    let square = times(angle, angle);
    let mut term = 1_i128 << PLACES;
    let mut sum = 0;
    let mut k = 0;
    while term != 0 {
        sum += term;
        term = -times(term, square) / ((k + 1) * (k + 2));
        k += 2;
    }
    sum
}

/// 2^30 times the cosine of step i, rounded to nearest, for i from 0 to 2,500.
pub fn quarter_table() -> Vec<i64> {
    let pi = pi();
    (0..=QUARTER as i128).map(|i| rounded_entry(cosine_of(2 * pi * i / TURN as i128))).collect()
}

fn rounded_entry(cosine: i128) -> i64 {
    let drop = PLACES - 30;
    let unit = 1_i128 << drop;
    let rest = cosine.rem_euclid(unit);
    // The error of the series and of pi is below 2^20 of the last place; a tie is nowhere near.
    assert!((rest - unit / 2).abs() > 1 << 40, "too close to a tie");
    ((cosine + unit / 2) >> drop) as i64
}

/// Cosine and sine at every step, from the quarter turn.
pub struct Phases {
    quarter: Vec<i64>,
}

impl Phases {
    pub fn new() -> Phases {
        Phases { quarter: quarter_table() }
    }

    /// z(step): cosine and sine in units of 2^-30.
    pub fn at(&self, step: usize) -> (i64, i64) {
        assert!(step < TURN);
        let along = step % QUARTER;
        let near = self.quarter[along];
        let far = self.quarter[QUARTER - along];
        match step / QUARTER {
            0 => (near, far),
            1 => (-far, near),
            2 => (-near, -far),
            _ => (far, -near),
        }
    }
}

/// The phase step of ticks (a difference or a sum) at a second, modulo 10,000.
pub fn step(ticks: i64, second: u64) -> usize {
    let turn = TURN as i128;
    (i128::from(ticks) * i128::from(second)).rem_euclid(turn) as usize
}

#[cfg(test)]
mod tests {
    use super::*;

    #[test]
    fn pi_is_pi() {
        // floor(pi * 10^30)
        let digits: i128 = 3_141592653589793238462643383279;
        let ours = times(pi(), 10_i128.pow(30));
        assert!((ours - digits).abs() <= 1, "{ours}");
    }

    #[test]
    fn ends_and_fall() {
        let table = quarter_table();
        assert_eq!(table.len(), 2_501);
        assert_eq!((table[0], table[2_500]), (ONE, 0));
        assert!(table.windows(2).all(|pair| pair[0] > pair[1]));
        // 2^30 over the root of 2: 759,250,124.99; steps of 36 degrees: (1 + root 5)/4 of 2^30
        assert_eq!(table[1_250], 759_250_125);
        assert_eq!(table[1_000], 868_675_383);
    }

    #[test]
    fn square_sum_and_step_rules() {
        let phases = Phases::new();
        let (c1, s1) = phases.at(1);
        let (c1, s1) = (i128::from(c1), i128::from(s1));
        for i in 0..TURN {
            let (c, s) = phases.at(i);
            let (c, s) = (i128::from(c), i128::from(s));
            assert!((c * c + s * s - (1 << 60)).abs() <= 1_518_500_250);
            let (cn, sn) = phases.at((i + 1) % TURN);
            assert!((c * c1 - s * s1 - (i128::from(cn) << 30)).abs() <= 1 << 31);
            assert!((c * s1 + s * c1 - (i128::from(sn) << 30)).abs() <= 1 << 31);
        }
    }

    #[test]
    fn close_to_the_machine_cosine() {
        for (i, &entry) in quarter_table().iter().enumerate() {
            let rough = (i as f64 * std::f64::consts::TAU / 10_000.0).cos() * ONE as f64;
            assert!((rough - entry as f64).abs() < 0.501, "{i}");
        }
    }

    #[test]
    fn steps() {
        assert_eq!(step(250, 10), 2_500);
        assert_eq!(step(-250, 10), 7_500);
        assert_eq!(step(250, u64::MAX), 3_750);
        assert_eq!(step(-250, u64::MAX), 6_250);
        assert_eq!(step(20_000, u64::MAX), 0);
        assert_eq!(step(0, u64::MAX), 0);
    }
}
