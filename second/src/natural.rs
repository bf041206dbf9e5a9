//! Whole numbers of any size, as far as request i's table needs them.

use std::cmp::Ordering;

/// Its digits to the base 2^32, the lowest first and the highest not 0.
#[derive(Clone, PartialEq, Eq, Debug)]
pub(crate) struct Natural(Vec<u32>);

impl Natural {
    fn of_digits(mut digits: Vec<u32>) -> Natural {
        while digits.last() == Some(&0) {
            digits.pop();
        }
        Natural(digits)
    }

    pub fn times(&self, other: &Natural) -> Natural {
        let mut digits = vec![0; self.0.len() + other.0.len()];
        for (nth, digit) in self.0.iter().enumerate() {
            let mut carry = 0u64;
            for (sum, other) in digits[nth..].iter_mut().zip(&other.0) {
                // the largest digits give 2^64 - 1 here, and no more
                carry += u64::from(*sum) + u64::from(*digit) * u64::from(*other);
                *sum = carry as u32;
                carry >>= 32;
            }
            digits[nth + other.0.len()] = carry as u32;
        }
        Natural::of_digits(digits)
    }

    pub fn power(&self, exponent: u32) -> Natural {
        if exponent == 0 {
            return Natural::from(1);
        }
        let half = self.power(exponent / 2);
        let square = half.times(&half);
        if exponent % 2 == 1 {
            square.times(self)
        } else {
            square
        }
    }
}

impl From<u32> for Natural {
    fn from(number: u32) -> Natural {
        Natural::of_digits(vec![number])
    }
}

impl Ord for Natural {
    fn cmp(&self, other: &Natural) -> Ordering {
        let longer = self.0.len().cmp(&other.0.len());
        longer.then_with(|| self.0.iter().rev().cmp(other.0.iter().rev()))
    }
}

impl PartialOrd for Natural {
    fn partial_cmp(&self, other: &Natural) -> Option<Ordering> {
        Some(self.cmp(other))
    }
}

#[cfg(test)]
mod tests {
    use super::*;

    fn of(number: u128) -> Natural {
        let digits = (0..4).map(|nth| (number >> (32 * nth)) as u32);
        Natural::of_digits(digits.collect())
    }

    #[test]
    fn products_and_order_are_those_of_128_bits() {
        let some: [u128; 9] = [
            0,
            1,
            2,
            0xFFFF_FFFF,
            0x1_0000_0000,
            0x1_0000_0001,
            0xFFFF_FFFF_0000_0000,
            0x8000_0000_FFFF_FFFF,
            u64::MAX.into(),
        ];
        for (a, b) in some.iter().flat_map(|a| some.iter().map(move |b| (*a, *b))) {
            assert_eq!(of(a).times(&of(b)), of(a * b), "{a} {b}");
            assert_eq!(of(a).cmp(&of(b)), a.cmp(&b), "{a} {b}");
        }
    }

    #[test]
    fn powers_are_products() {
        for base in [0u32, 1, 2, 3, 10, 65_535, u32::MAX] {
            let mut product = Natural::from(1);
            for exponent in 0..40 {
                assert_eq!(Natural::from(base).power(exponent), product);
                product = product.times(&base.into());
            }
        }
        assert_eq!(Natural::from(10).power(38), of(10u128.pow(38)));
    }
}
