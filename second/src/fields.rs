//! One field of a row: its form, its exact decimal value, and that value in a unit.

use crate::rounding::nearest;

/// An exact decimal: `digits` times ten to the `power`, with a sign.
#[derive(Clone, Copy, Debug, PartialEq, Eq)]
pub struct Decimal {
    pub negative: bool,
    pub digits: u64,
    pub power: i32,
}

const MOST_DIGITS: usize = 15;

/// Document 01, "A field": optional sign, digits with at most one point, at least one and at most
/// 15 digits, then optionally E or e, an optional sign and one or two digits. Nothing else.
pub fn read(field: &[u8]) -> Option<Decimal> {
    let mut rest = field;
    let negative = take_sign(&mut rest);
    let (digits, after_point) = take_digits(&mut rest)?;
    let exponent = match rest.split_first() {
        None => 0,
        Some((b'E' | b'e', tail)) => exponent(tail)?,
        Some(_) => return None,
    };
    Some(Decimal { negative, digits, power: exponent - after_point })
}

/// The digits as one number, and how many of them stand after the point.
fn take_digits(rest: &mut &[u8]) -> Option<(u64, i32)> {
    let mut digits: u64 = 0;
    let mut digit_count = 0;
    let mut after_point = 0;
    let mut seen_point = false;
    while let Some((&byte, tail)) = rest.split_first() {
        if byte.is_ascii_digit() {
            digit_count += 1;
            if digit_count > MOST_DIGITS {
                return None;
            }
            digits = digits * 10 + u64::from(byte - b'0');
            if seen_point {
                after_point += 1;
            }
        } else if byte == b'.' && !seen_point {
            seen_point = true;
        } else {
            break;
        }
        *rest = tail;
    }
    (digit_count > 0).then_some((digits, after_point))
}

/// What follows E or e: an optional sign and one or two digits, to the end of the field.
fn exponent(mut rest: &[u8]) -> Option<i32> {
    let negative = take_sign(&mut rest);
    if rest.is_empty() || rest.len() > 2 || !rest.iter().all(u8::is_ascii_digit) {
        return None;
    }
    let size = rest.iter().fold(0, |sum, &byte| sum * 10 + i32::from(byte - b'0'));
    Some(if negative { -size } else { size })
}

fn take_sign(rest: &mut &[u8]) -> bool {
    match rest.split_first() {
        Some((b'-', tail)) => {
            *rest = tail;
            true
        }
        Some((b'+', tail)) => {
            *rest = tail;
            false
        }
        _ => false,
    }
}

/// Powers of ten past this one change no answer: a number of at most 15 digits times 10^20 is
/// outside every range of document 01 (unless it is 0), and one over 10^20 rounds to 0.
const FAR: i32 = 20;

impl Decimal {
    /// The value in units of ten to the minus `places`, rounded once. A value that is too large
    /// for any range comes out as some other value that is too large for any range.
    pub fn in_units(&self, places: i32) -> i128 {
        let power = (self.power + places).clamp(-FAR, FAR);
        let ten_to = 10_i128.pow(power.unsigned_abs());
        let size = i128::from(self.digits);
        let signed = if self.negative { -size } else { size };
        if power >= 0 {
            signed * ten_to
        } else {
            nearest(signed, ten_to)
        }
    }
}

#[cfg(test)]
mod tests {
    use super::*;

    fn millionths(text: &str) -> i128 {
        read(text.as_bytes()).expect(text).in_units(6)
    }

    #[test]
    fn forms_that_pass() {
        for text in [
            "0",
            "1",
            "+1",
            "-1",
            "1.",
            ".1",
            "-.5",
            "+.5",
            "0.0",
            "000000000000001",
            "123456789012345",
            "1234567.89012345",
            ".123456789012345",
            "123456789012345.",
            "1E1",
            "1e1",
            "1E+1",
            "1E-1",
            "1E00",
            "1.E99",
            ".1e-99",
            "-0",
            "+0.E+00",
        ] {
            assert!(read(text.as_bytes()).is_some(), "{text}");
        }
    }

    #[test]
    fn forms_that_do_not() {
        for text in [
            "",
            "+",
            "-",
            ".",
            "-.",
            "+.E1",
            "E1",
            ".E1",
            "1E",
            "1E+",
            "1E-",
            "1E123",
            "1E+001",
            "1EE1",
            "1E1.",
            "1E1E1",
            "--1",
            "+-1",
            "1-",
            "1+1",
            "1.2.3",
            "1..",
            "..1",
            "1234567890123456",
            "0.000000000000000",
            "*****",
            "NaN",
            "Inf",
            "1D1",
            "1,0",
            "0x1",
            "1\r",
            " 1",
            "1_0",
            "1E 1",
        ] {
            assert!(read(text.as_bytes()).is_none(), "{text}");
        }
        assert!(read(&[0xB2]).is_none());
        assert!(read(&[b'1', 0]).is_none());
    }

    #[test]
    fn checked_by_hand() {
        assert_eq!(millionths("0.0000005"), 0);
        assert_eq!(millionths("0.0000015"), 2);
        assert_eq!(millionths("-0.0000015"), -2);
        assert_eq!(millionths("1000.0000005"), 1_000_000_000);
        assert_eq!(millionths("1000.000001"), 1_000_000_001);
        assert_eq!(millionths("0.628319E+01"), 6_283_190);
        assert_eq!(millionths("6.4"), 6_400_000);
    }

    #[test]
    fn far_powers() {
        assert_eq!(millionths("0E99"), 0);
        assert_eq!(millionths("0.00E-99"), 0);
        assert_eq!(millionths("123456789012345E-99"), 0);
        assert_eq!(millionths("-999999999999999E-99"), 0);
        assert!(millionths("1E99") > 1_000_000_000_000);
        assert!(millionths("-1E14") < -1_000_000_000_000);
        assert!(millionths(".00000000000001E99") > 1_000_000_000_000);
        assert_eq!(millionths(".00000000000001E14"), 1_000_000);
        assert_eq!(millionths("100000000000000E-14"), 1_000_000);
        assert_eq!(millionths("500000000000000E-21"), 0);
        assert_eq!(millionths("500000000000001E-21"), 1);
    }

    #[test]
    fn thousandths() {
        assert_eq!(read(b"180.0005").unwrap().in_units(3), 180_000);
        assert_eq!(read(b"180.001").unwrap().in_units(3), 180_001);
        assert_eq!(read(b"-0.0015").unwrap().in_units(3), -2);
        assert_eq!(read(b"1.80E2").unwrap().in_units(3), 180_000);
    }
}
