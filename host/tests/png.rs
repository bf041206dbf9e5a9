//! PNG files read strictly, as the program writes them: numbered colours, one block of fixed
//! Huffman codes. By ISO/IEC 15948 and RFC 1950 and 1951.

/// A picture: its pixels, line by line.
pub struct Picture {
    pub width: usize,
    pub height: usize,
    pixels: Vec<[u8; 3]>,
}

impl Picture {
    pub fn of(file: &[u8]) -> Picture {
        let rest = file.strip_prefix(b"\x89PNG\r\n\x1a\n").expect("a mark");
        let (head, rest) = chunk(rest, b"IHDR");
        let (colours, rest) = chunk(rest, b"PLTE");
        let (data, rest) = chunk(rest, b"IDAT");
        let (end, rest) = chunk(rest, b"IEND");
        assert_eq!((end, rest), (&[][..], &[][..]));
        assert_eq!(head[8..], [8, 3, 0, 0, 0]);
        let [width, height] = [0, 4].map(|at| four(&head[at..]) as usize);
        let lines = inflated(data);
        assert_eq!(lines.len(), (width + 1) * height);
        let pixels = lines.chunks(width + 1).flat_map(|line| {
            assert_eq!(line[0], 0, "an unfiltered line");
            line[1..].iter().map(|pixel| {
                let at = 3 * usize::from(*pixel);
                *colours[at..].first_chunk().expect("a colour")
            })
        });
        Picture {
            width,
            height,
            pixels: pixels.collect(),
        }
    }

    pub fn pixel(&self, across: usize, down: usize) -> [u8; 3] {
        assert!(across < self.width && down < self.height);
        self.pixels[down * self.width + across]
    }
}

fn four(bytes: &[u8]) -> u32 {
    u32::from_be_bytes(*bytes.first_chunk().expect("four bytes"))
}

/// The data of the first chunk, which is of a kind, and what is behind it.
fn chunk<'a>(file: &'a [u8], kind: &[u8; 4]) -> (&'a [u8], &'a [u8]) {
    let length = four(file) as usize;
    let (checked, rest) = file[4..].split_at(4 + length);
    assert_eq!(&checked[..4], kind);
    assert_eq!(four(rest), crc_32(checked));
    (&checked[4..], &rest[4..])
}

fn crc_32(bytes: &[u8]) -> u32 {
    let mut rest = u32::MAX;
    for byte in bytes {
        rest ^= u32::from(*byte);
        for _ in 0..8 {
            let odd = rest & 1 == 1;
            rest >>= 1;
            if odd {
                rest ^= 0xEDB8_8320;
            }
        }
    }
    !rest
}

/// What a stream holds, by its own sum.
fn inflated(stream: &[u8]) -> Vec<u8> {
    let head = u16::from_be_bytes([stream[0], stream[1]]);
    assert_eq!((head >> 8 & 15, head % 31), (8, 0), "a head of zlib");
    let (blocks, sum) = stream[2..].split_at(stream.len() - 6);
    let out = Bits {
        bytes: blocks,
        at: 0,
    }
    .block();
    let (mut one, mut other) = (1, 0);
    for byte in &out {
        one = (one + u32::from(*byte)) % 65_521;
        other = (other + one) % 65_521;
    }
    assert_eq!(four(sum), other << 16 | one);
    out
}

struct Bits<'a> {
    bytes: &'a [u8],
    at: usize,
}

impl Bits<'_> {
    fn bit(&mut self) -> usize {
        let bit = self.bytes[self.at / 8] >> (self.at % 8) & 1;
        self.at += 1;
        bit.into()
    }

    /// A number, its least significant bit first.
    fn number(&mut self, bits: usize) -> usize {
        (0..bits).map(|nth| self.bit() << nth).sum()
    }

    /// More bits of a code, its most significant bit first.
    fn code(&mut self, code: usize, bits: usize) -> usize {
        (0..bits).fold(code, |code, _| code << 1 | self.bit())
    }

    fn symbol(&mut self) -> usize {
        let code = self.code(0, 7);
        if code < 24 {
            return code + 256;
        }
        match self.code(code, 1) {
            code @ 48..192 => code - 48,
            code @ 192..200 => code - 192 + 280,
            code => self.code(code, 1) - 400 + 144,
        }
    }

    fn length(&mut self, symbol: usize) -> usize {
        match symbol - 257 {
            nth @ 0..8 => nth + 3,
            28 => 258,
            nth => self.spread(nth, 4) + 3,
        }
    }

    fn distance(&mut self) -> usize {
        match self.code(0, 5) {
            nth @ 0..4 => nth + 1,
            nth => self.spread(nth, 2) + 1,
        }
    }

    /// Codes stand for twice as many numbers every so often.
    fn spread(&mut self, nth: usize, every: usize) -> usize {
        let bits = nth / every - 1;
        ((every + nth % every) << bits) + self.number(bits)
    }

    fn block(mut self) -> Vec<u8> {
        assert_eq!((self.bit(), self.number(2)), (1, 1), "the last, fixed");
        let mut out: Vec<u8> = Vec::new();
        loop {
            match self.symbol() {
                256 => break,
                literal @ 0..256 => out.push(literal as u8),
                symbol => {
                    let (length, distance) = (self.length(symbol), self.distance());
                    (0..length).for_each(|_| out.push(out[out.len() - distance]));
                }
            }
        }
        assert_eq!(self.at.div_ceil(8), self.bytes.len());
        out
    }
}
