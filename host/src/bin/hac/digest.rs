//! A digest, by which bytes are sorted before they are compared.

use std::array;
use std::hash::{BuildHasher, RandomState};

/// A prime, and its bits: all of them are 1.
const PRIME: u64 = (1 << BITS) - 1;
const BITS: u32 = 61;

/// So many bytes are taken for one number, which is below the prime.
const STEP: usize = 7;

/// So many numbers make a digest: 183 bits.
const NUMBERS: usize = 3;

pub type Digest = [u64; NUMBERS];

/// What a digest is worked out with. It is drawn anew for each run: who doesn't know it
/// can't make deposits that differ and share a digest, which would cost time, for such
/// ones are all compared with each other.
pub struct Key([u64; NUMBERS]);

impl Key {
    pub fn drawn() -> Key {
        Key(array::from_fn(|nth| {
            RandomState::new().hash_one(nth) % PRIME
        }))
    }

    /// The bytes as a polynomial over the prime, at each number of the key. Two that differ
    /// and are equally long agree at fewer numbers than they have steps.
    pub fn digest(&self, bytes: &[u8]) -> Digest {
        let mut digest = [0; NUMBERS];
        for step in bytes.chunks(STEP) {
            let next = step
                .iter()
                .fold(0, |next, byte| next << 8 | u64::from(*byte));
            for (sum, key) in digest.iter_mut().zip(&self.0) {
                *sum = reduced(u128::from(*sum) * u128::from(*key) + u128::from(next));
            }
        }
        digest
    }
}

/// What a number leaves behind the prime. The number is at most a product of two that are
/// below the prime, and a step.
fn reduced(number: u128) -> u64 {
    let low = number as u64 & PRIME;
    let high = (number >> BITS) as u64;
    let sum = low + high;
    if sum < PRIME {
        sum
    } else {
        sum - PRIME
    }
}

#[cfg(test)]
mod tests {
    use super::*;

    /// By division, which is slow.
    #[test]
    fn remainders() {
        let (prime, step) = (u128::from(PRIME), (1 << (8 * STEP)) - 1);
        let most = (prime - 1) * (prime - 1) + step;
        for number in [
            0,
            1,
            prime - 1,
            prime,
            prime + 1,
            2 * prime,
            prime * prime / 2,
            most,
        ] {
            assert_eq!(u128::from(reduced(number)), number % prime, "{number}");
        }
    }

    /// The polynomial's own sum, of two steps and a short one.
    #[test]
    fn polynomials() {
        let key = Key([2, 3, PRIME - 1]);
        let bytes = [0, 0, 0, 0, 0, 0, 5, 0, 0, 0, 0, 0, 1, 0, 9];
        let sums = [4 * 5 + 2 * 256 + 9, 9 * 5 + 3 * 256 + 9];
        let digest = key.digest(&bytes);
        assert_eq!(digest[..2], sums);
        // at -1
        assert_eq!(digest[2], PRIME - 256 + 5 + 9);
        assert_eq!(key.digest(&[]), [0; NUMBERS]);
    }

    /// Every bit counts, whatever the key is.
    #[test]
    fn bits() {
        let key = Key::drawn();
        let mut bytes = [0xA5; 40];
        let digest = key.digest(&bytes);
        for bit in 0..8 * bytes.len() {
            bytes[bit / 8] ^= 1 << (bit % 8);
            assert_ne!(key.digest(&bytes), digest, "{bit}");
            bytes[bit / 8] ^= 1 << (bit % 8);
        }
        assert_eq!(key.digest(&bytes), digest);
    }
}
