//! Bytes made shorter as zlib streams (RFC 1950): one block of fixed Huffman codes
//! (RFC 1951) over literals and what stood there before.

/// The head of a stream: a window of 32,768 bytes, compressed fast.
const HEAD: [u8; 2] = [0x78, 0x01];

/// The head of a block: the last one, of fixed codes, in three bits.
const LAST_FIXED: u32 = 0b011;

/// The code behind the last literal or pair of a block.
const END: u32 = 256;

/// How long what is repeated may be, and how far back it may stand.
const SHORTEST: usize = 3;
const LONGEST: usize = 258;
const FARTHEST: usize = 32_768;

/// The first code of lengths; and of lengths and of distances those that codes begin with, each
/// with how many bits behind the code tell the rest.
const LENGTHS: u32 = 257;
#[rustfmt::skip]
const LENGTH_CODES: [(usize, u32); 29] = [
    (3, 0), (4, 0), (5, 0), (6, 0), (7, 0), (8, 0), (9, 0), (10, 0),
    (11, 1), (13, 1), (15, 1), (17, 1), (19, 2), (23, 2), (27, 2), (31, 2),
    (35, 3), (43, 3), (51, 3), (59, 3), (67, 4), (83, 4), (99, 4), (115, 4),
    (131, 5), (163, 5), (195, 5), (227, 5), (258, 0),
];
#[rustfmt::skip]
const DISTANCE_CODES: [(usize, u32); 30] = [
    (1, 0), (2, 0), (3, 0), (4, 0), (5, 1), (7, 1), (9, 2), (13, 2), (17, 3), (25, 3),
    (33, 4), (49, 4), (65, 5), (97, 5), (129, 6), (193, 6), (257, 7), (385, 7),
    (513, 8), (769, 8), (1025, 9), (1537, 9), (2049, 10), (3073, 10),
    (4097, 11), (6145, 11), (8193, 12), (12289, 12), (16385, 13), (24577, 13),
];

/// The bits of a distance's code.
const DISTANCE_BITS: u32 = 5;

/// A zlib stream of some bytes.
pub fn zlib(bytes: &[u8]) -> Vec<u8> {
    let mut stream = HEAD.to_vec();
    stream.extend(deflate(bytes));
    stream.extend(adler_32(bytes).to_be_bytes());
    stream
}

/// RFC 1950's sum of bytes.
fn adler_32(bytes: &[u8]) -> u32 {
    const BASE: u32 = 65_521;
    let sums = bytes.iter().fold((1, 0), |(one, other), byte| {
        let one = (one + u32::from(*byte)) % BASE;
        (one, (other + one) % BASE)
    });
    sums.1 << 16 | sums.0
}

fn deflate(bytes: &[u8]) -> Vec<u8> {
    let mut bits = Bits::default();
    bits.put(LAST_FIXED, 3);
    let mut seen = Seen::new();
    let mut at = 0;
    while at < bytes.len() {
        let length = match seen.repeated(bytes, at) {
            Some((length, distance)) => {
                bits.pair(length, distance);
                length
            }
            None => {
                bits.literal(bytes[at].into());
                1
            }
        };
        (at..at + length).for_each(|place| seen.note(bytes, place));
        at += length;
    }
    bits.literal(END);
    bits.whole()
}

/// Where some bytes stood last, by their first three.
struct Seen(Vec<Option<usize>>);

impl Seen {
    /// As many rows as 15 bits number, and a large odd number that spreads bytes over them.
    const BITS: u32 = 15;
    const SPREAD: u32 = 0x9E37_79B1;

    fn new() -> Seen {
        Seen(vec![None; 1 << Seen::BITS])
    }

    /// The row of the three bytes at a place; others may share it.
    fn row(bytes: &[u8], at: usize) -> Option<usize> {
        let [a, b, c] = *bytes.get(at..)?.first_chunk()?;
        let three = u32::from_le_bytes([a, b, c, 0]);
        Some((three.wrapping_mul(Seen::SPREAD) >> (u32::BITS - Seen::BITS)) as usize)
    }

    fn note(&mut self, bytes: &[u8], at: usize) {
        if let Some(row) = Seen::row(bytes, at) {
            self.0[row] = Some(at);
        }
    }

    /// How many bytes from a place on are those so far back, where it is worth telling.
    fn repeated(&self, bytes: &[u8], at: usize) -> Option<(usize, usize)> {
        let before = self.0[Seen::row(bytes, at)?]?;
        let both = bytes[before..].iter().zip(&bytes[at..]);
        let length = both.take(LONGEST).take_while(|(one, other)| one == other);
        let (length, distance) = (length.count(), at - before);
        (length >= SHORTEST && distance <= FARTHEST).then_some((length, distance))
    }
}

/// Bits in bytes, the least significant first.
#[derive(Default)]
struct Bits {
    bytes: Vec<u8>,
    /// Those that don't fill a byte yet, and how many they are.
    pending: u32,
    count: u32,
}

impl Bits {
    fn put(&mut self, value: u32, count: u32) {
        self.pending |= value << self.count;
        self.count += count;
        while self.count >= u8::BITS {
            self.bytes.push(self.pending as u8);
            self.pending >>= u8::BITS;
            self.count -= u8::BITS;
        }
    }

    /// A Huffman code, whose most significant bit comes first.
    fn code(&mut self, code: u32, count: u32) {
        self.put(code.reverse_bits() >> (u32::BITS - count), count);
    }

    /// A literal byte, the end or a length, by the fixed code.
    fn literal(&mut self, symbol: u32) {
        match symbol {
            0..144 => self.code(0b0011_0000 + symbol, 8),
            144..256 => self.code(0b1_1001_0000 + (symbol - 144), 9),
            256..280 => self.code(symbol - 256, 7),
            _ => self.code(0b1100_0000 + (symbol - 280), 8),
        }
    }

    fn pair(&mut self, length: usize, distance: usize) {
        let (nth, rest, bits) = coded(&LENGTH_CODES, length);
        self.literal(LENGTHS + nth);
        self.put(rest, bits);
        let (nth, rest, bits) = coded(&DISTANCE_CODES, distance);
        self.code(nth, DISTANCE_BITS);
        self.put(rest, bits);
    }

    fn whole(mut self) -> Vec<u8> {
        if self.count > 0 {
            self.bytes.push(self.pending as u8);
        }
        self.bytes
    }
}

/// The code of a number: the last that begins no later, the rest, and the bits of the rest.
fn coded(codes: &[(usize, u32)], number: usize) -> (u32, u32, u32) {
    let nth = codes.partition_point(|(first, _)| *first <= number) - 1;
    let (first, bits) = codes[nth];
    (nth as u32, (number - first) as u32, bits)
}

#[cfg(test)]
mod tests {
    use super::*;

    /// As zlib has them.
    #[test]
    fn sums() {
        assert_eq!(adler_32(b""), 1);
        assert_eq!(adler_32(b"Wikipedia"), 0x11E6_0398);
        assert_eq!(adler_32(&[255; 5552]), 0xF18F_9B8C);
    }

    /// By hand, from RFC 1951: codes of literals are packed from their most significant bit on.
    #[test]
    fn blocks_by_hand() {
        // 1, 01, 0000000 for the end, and zeros
        assert_eq!(deflate(b""), [0b0000_0011, 0]);
        // what zlib gives for the same
        assert_eq!(deflate(b"a"), [0x4B, 0x04, 0x00]);
        // a literal, and nine more of it from one byte back: length 9, distance 1
        assert_eq!(deflate(b"aaaaaaaaaa"), [0x4B, 0x84, 0x03, 0x00]);
        // a literal of nine bits
        assert_eq!(deflate(&[255]), [0xFB, 0x0F, 0x00]);
    }

    #[test]
    fn codes_of_numbers() {
        assert_eq!(coded(&LENGTH_CODES, 3), (0, 0, 0));
        assert_eq!(coded(&LENGTH_CODES, 12), (8, 1, 1));
        assert_eq!(coded(&LENGTH_CODES, 257), (27, 30, 5));
        assert_eq!(coded(&LENGTH_CODES, LONGEST), (28, 0, 0));
        assert_eq!(coded(&DISTANCE_CODES, 1), (0, 0, 0));
        assert_eq!(coded(&DISTANCE_CODES, FARTHEST), (29, 8191, 13));
    }
}
