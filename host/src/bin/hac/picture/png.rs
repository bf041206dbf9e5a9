//! Pictures of at most 256 colours as PNG files (ISO/IEC 15948).

use super::deflate;

const SIGNATURE: [u8; 8] = *b"\x89PNG\r\n\x1a\n";

/// Behind width and height: 8 bits a pixel, each the number of a colour; the one compression,
/// the one set of filters, and no interlacing.
const FORM: [u8; 5] = [8, 3, 0, 0, 0];

/// The filter of a line that leaves it as it is.
const UNFILTERED: u8 = 0;

/// A colour: red, green, blue.
pub type Colour = [u8; 3];

/// The file of a picture: lines of pixels, each so wide, by the numbers of their colours.
pub fn encode(width: usize, pixels: &[u8], colours: &[Colour]) -> Vec<u8> {
    let lines = pixels.chunks(width);
    let sides = [width, lines.len()].map(|side| (side as u32).to_be_bytes());
    let head = [sides.as_flattened(), &FORM].concat();
    let lines = lines.flat_map(|line| [&[UNFILTERED], line]);
    let lines: Vec<u8> = lines.flatten().copied().collect();
    let mut file = SIGNATURE.to_vec();
    put(&mut file, b"IHDR", &head);
    put(&mut file, b"PLTE", colours.as_flattened());
    put(&mut file, b"IDAT", &deflate::zlib(&lines));
    put(&mut file, b"IEND", &[]);
    file
}

/// A chunk: its length, its type, its data, and the check of the last two.
fn put(file: &mut Vec<u8>, kind: &[u8; 4], data: &[u8]) {
    file.extend((data.len() as u32).to_be_bytes());
    let start = file.len();
    file.extend(kind);
    file.extend(data);
    let check = crc_32(&file[start..]);
    file.extend(check.to_be_bytes());
}

/// The check of chunks, by its polynomial, bits reversed.
fn crc_32(bytes: &[u8]) -> u32 {
    const POLYNOMIAL: u32 = 0xEDB8_8320;
    let divided = |rest: u32| (rest >> 1) ^ (POLYNOMIAL * (rest & 1));
    !bytes.iter().fold(!0, |rest, byte| {
        (0..u8::BITS).fold(rest ^ u32::from(*byte), |rest, _| divided(rest))
    })
}

#[cfg(test)]
mod tests {
    use super::*;

    /// The check value of the catalogues, and that of the last chunk of every PNG file.
    #[test]
    fn checks() {
        assert_eq!(crc_32(b""), 0);
        assert_eq!(crc_32(b"123456789"), 0xCBF4_3926);
        assert_eq!(crc_32(b"IEND"), 0xAE42_6082);
    }

    /// One white pixel, byte by byte.
    #[test]
    fn the_smallest() {
        let file = encode(1, &[0], &[[255, 255, 255]]);
        let (head, rest) = file.split_at(33);
        let ihdr = b"\x89PNG\r\n\x1a\n\0\0\0\x0dIHDR\0\0\0\x01\0\0\0\x01\x08\x03\0\0\0";
        assert_eq!(head[..29], ihdr[..]);
        assert_eq!(rest[..11], *b"\0\0\0\x03PLTE\xff\xff\xff");
        assert_eq!(file[file.len() - 12..], *b"\0\0\0\0IEND\xae\x42\x60\x82");
    }
}
