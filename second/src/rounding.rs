//! The one rounding of document 01 ("Numbers"): to the nearest whole unit, a tie to the even one.

/// `numerator / denominator`, rounded. The denominator must be above 0.
pub fn nearest(numerator: i128, denominator: i128) -> i128 {
    assert!(denominator > 0);
    let below = numerator.div_euclid(denominator);
    let rest = numerator.rem_euclid(denominator);
    let missing = denominator - rest;
    if rest > missing || (rest == missing && below % 2 != 0) {
        below + 1
    } else {
        below
    }
}

#[cfg(test)]
mod tests {
    use super::nearest;

    #[test]
    fn ties_go_to_the_even_one() {
        let halves = [(-5, -2), (-3, -2), (-1, 0), (1, 0), (3, 2), (5, 2), (7, 4)];
        for (n, want) in halves {
            assert_eq!(nearest(n, 2), want, "{n}/2");
        }
    }

    #[test]
    fn otherwise_the_nearest() {
        assert_eq!(nearest(4, 3), 1);
        assert_eq!(nearest(5, 3), 2);
        assert_eq!(nearest(-4, 3), -1);
        assert_eq!(nearest(-5, 3), -2);
        assert_eq!(nearest(0, 7), 0);
        assert_eq!(nearest(21, 7), 3);
        assert_eq!(nearest(1_562_500, 1_000), 1_562);
        assert_eq!(nearest(1_563_500, 1_000), 1_564);
    }
}
