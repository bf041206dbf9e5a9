//! Numbers of two and four bytes in both byte orders.

/// The byte order of a whole file, told by its first four bytes.
#[derive(Clone, Copy, PartialEq, Eq, Debug)]
pub enum Order {
    /// Least significant byte first: AC 00 00 00.
    Lsb,
    /// Most significant byte first: 00 00 00 AC.
    Msb,
}

impl Order {
    pub const BOTH: [Order; 2] = [Order::Lsb, Order::Msb];

    /// The mark: 172 as a number of four bytes.
    pub const fn mark(self) -> [u8; 4] {
        self.from_four(0xAC)
    }

    /// The order told by a file's mark; none where no mark stands.
    pub fn of(file: &[u8]) -> Option<Order> {
        match file {
            [0xAC, 0, 0, 0, ..] => Some(Order::Lsb),
            [0, 0, 0, 0xAC, ..] => Some(Order::Msb),
            _ => None,
        }
    }

    pub const fn two(self, bytes: [u8; 2]) -> u16 {
        match self {
            Order::Lsb => u16::from_le_bytes(bytes),
            Order::Msb => u16::from_be_bytes(bytes),
        }
    }

    pub const fn four(self, bytes: [u8; 4]) -> u32 {
        match self {
            Order::Lsb => u32::from_le_bytes(bytes),
            Order::Msb => u32::from_be_bytes(bytes),
        }
    }

    #[allow(clippy::wrong_self_convention)]
    pub const fn from_two(self, number: u16) -> [u8; 2] {
        match self {
            Order::Lsb => number.to_le_bytes(),
            Order::Msb => number.to_be_bytes(),
        }
    }

    #[allow(clippy::wrong_self_convention)]
    pub const fn from_four(self, number: u32) -> [u8; 4] {
        match self {
            Order::Lsb => number.to_le_bytes(),
            Order::Msb => number.to_be_bytes(),
        }
    }

    /// The number of two bytes at a place; none where it passes the end.
    pub fn read_two(self, bytes: &[u8], at: usize) -> Option<u16> {
        match bytes.get(at..)? {
            [a, b, ..] => Some(self.two([*a, *b])),
            _ => None,
        }
    }

    /// The number of four bytes at a place; none where it passes the end.
    pub fn read_four(self, bytes: &[u8], at: usize) -> Option<u32> {
        match bytes.get(at..)? {
            [a, b, c, d, ..] => Some(self.four([*a, *b, *c, *d])),
            _ => None,
        }
    }
}

// Within a tuple that the frame has already judged, places are known to be
// inside: there the plain forms below are used.

pub(crate) fn two_at(order: Order, tuple: &[u8], at: usize) -> u16 {
    order.two([tuple[at], tuple[at + 1]])
}

pub(crate) fn four_at(order: Order, tuple: &[u8], at: usize) -> u32 {
    order.four([tuple[at], tuple[at + 1], tuple[at + 2], tuple[at + 3]])
}

pub(crate) fn put_two(order: Order, tuple: &mut [u8], at: usize, number: u16) {
    tuple[at..at + 2].copy_from_slice(&order.from_two(number));
}

pub(crate) fn put_four(order: Order, tuple: &mut [u8], at: usize, number: u32) {
    tuple[at..at + 4].copy_from_slice(&order.from_four(number));
}

/// Two or four bytes as a number; the order is fixed when compiled, and so is the
/// width wherever chunks of one width are read, so that the loops over samples need
/// not look at them.
#[inline(always)]
pub(crate) fn number<const MSB: bool>(bytes: &[u8]) -> u32 {
    let order = if MSB { Order::Msb } else { Order::Lsb };
    match *bytes {
        [a, b] => order.two([a, b]).into(),
        [a, b, c, d] => order.four([a, b, c, d]),
        _ => 0,
    }
}

/// The same as a signed number.
#[inline(always)]
pub(crate) fn signed<const MSB: bool>(bytes: &[u8]) -> i32 {
    let number = number::<MSB>(bytes);
    if bytes.len() == 2 {
        i32::from(number as i16)
    } else {
        number as i32
    }
}

/// Puts a number into two bytes, which take its lower ones, or into four.
#[inline(always)]
pub(crate) fn put_number<const MSB: bool>(bytes: &mut [u8], number: u32) {
    let width = bytes.len();
    if MSB {
        bytes.copy_from_slice(&number.to_be_bytes()[4 - width..]);
    } else {
        bytes.copy_from_slice(&number.to_le_bytes()[..width]);
    }
}

#[cfg(test)]
mod tests {
    use super::*;

    #[test]
    fn both_orders() {
        assert_eq!(Order::Lsb.mark(), [0xAC, 0, 0, 0]);
        assert_eq!(Order::Msb.mark(), [0, 0, 0, 0xAC]);
        assert_eq!(Order::Lsb.two([0x34, 0x12]), 0x1234);
        assert_eq!(Order::Msb.two([0x34, 0x12]), 0x3412);
        assert_eq!(Order::Lsb.four([0x78, 0x56, 0x34, 0x12]), 0x1234_5678);
        assert_eq!(Order::Msb.four([0x78, 0x56, 0x34, 0x12]), 0x7856_3412);
        for order in Order::BOTH {
            assert_eq!(order.two(order.from_two(0xBEEF)), 0xBEEF);
            assert_eq!(order.four(order.from_four(0xDEAD_BEEF)), 0xDEAD_BEEF);
        }
    }

    #[test]
    fn numbers_by_width() {
        let bytes = [0x81, 0x02, 0x03, 0x84];
        assert_eq!(number::<false>(&bytes), 0x8403_0281);
        assert_eq!(number::<true>(&bytes), 0x8102_0384);
        assert_eq!(number::<false>(&bytes[..2]), 0x0281);
        assert_eq!(number::<true>(&bytes[..2]), 0x8102);
        assert_eq!(signed::<false>(&bytes[..2]), 0x0281);
        assert_eq!(signed::<true>(&bytes[..2]), 0x8102 - 0x1_0000);
        assert_eq!(signed::<true>(&bytes), 0x8102_0384_u32 as i32);
        let mut out = [0; 4];
        put_number::<true>(&mut out[..2], 0x1234_5678);
        put_number::<false>(&mut out[2..], 0x1234_5678);
        assert_eq!(out, [0x56, 0x78, 0x78, 0x56]);
    }

    #[test]
    fn places_outside_give_none() {
        let bytes = [1, 2, 3, 4, 5];
        assert_eq!(Order::Lsb.read_four(&bytes, 1), Some(0x0504_0302));
        assert_eq!(Order::Lsb.read_four(&bytes, 2), None);
        assert_eq!(Order::Lsb.read_two(&bytes, 3), Some(0x0504));
        assert_eq!(Order::Lsb.read_two(&bytes, 4), None);
        assert_eq!(Order::Msb.read_two(&bytes, usize::MAX), None);
    }

    #[test]
    fn marks() {
        assert_eq!(Order::of(&[0xAC, 0, 0, 0]), Some(Order::Lsb));
        assert_eq!(Order::of(&[0, 0, 0, 0xAC, 9]), Some(Order::Msb));
        assert_eq!(Order::of(&[0xAC, 0, 0]), None);
        assert_eq!(Order::of(&[0, 0xAC, 0, 0]), None);
        assert_eq!(Order::of(&[]), None);
    }
}
