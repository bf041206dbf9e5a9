//! Whole numbers of a decimal part of a unit, told in the unit itself: exactly, for no
//! floating point takes part.

use crate::json::Number;
use std::fmt;

const TEN: u64 = 10;

/// A number of so many decimal places, without its point: 14870 of one place is 1487.0.
#[derive(Clone, Copy, Debug, PartialEq, Eq, PartialOrd, Ord)]
pub struct Decimal {
    pub number: i64,
    pub places: u8,
}

impl fmt::Display for Decimal {
    fn fmt(&self, to: &mut fmt::Formatter<'_>) -> fmt::Result {
        if self.places == 0 {
            return write!(to, "{}", self.number);
        }
        let one = TEN.pow(self.places.into());
        let amount = self.number.unsigned_abs();
        let sign = if self.number < 0 { "-" } else { "" };
        let (whole, part) = (amount / one, amount % one);
        write!(
            to,
            "{sign}{whole}.{part:0places$}",
            places = self.places.into()
        )
    }
}

impl Number for Decimal {}

#[cfg(test)]
mod tests {
    use super::*;

    #[test]
    fn decimals() {
        for (number, places, told) in [
            (0, 0, "0"),
            (-3, 0, "-3"),
            (0, 1, "0.0"),
            (14870, 1, "1487.0"),
            (-3, 1, "-0.3"),
            (-30, 1, "-3.0"),
            (71, 6, "0.000071"),
            (-64_000_480, 6, "-64.000480"),
            (i32::MIN.into(), 6, "-2147.483648"),
            (i64::MIN, 4, "-922337203685477.5808"),
        ] {
            assert_eq!(Decimal { number, places }.to_string(), told);
        }
    }
}
