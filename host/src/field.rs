//! Fields as they stand in records, in the entries of an answer and among the numbers
//! of a record.

/// Names an echosounder tuple: no other of a file has it, whoever made the two.
#[derive(Clone, Copy, Debug, Default, PartialEq, Eq, Hash)]
#[repr(transparent)]
pub struct DocumentId(pub u32);

/// Names a channel tuple: no other of a file has it, whoever made the two.
#[derive(Clone, Copy, Debug, Default, PartialEq, Eq, Hash)]
#[repr(transparent)]
pub struct SoftwareChannel(pub u16);

impl SoftwareChannel {
    /// What means all channels in an attitude, and there alone.
    pub const ALL: SoftwareChannel = SoftwareChannel(65535);
}

/// The hardware channel of an echosounder. It names no tuple.
#[derive(Clone, Copy, Debug, Default, PartialEq, Eq, Hash)]
#[repr(transparent)]
pub struct Transceiver(pub u16);

/// A field, told as its pattern in its own width.
pub(crate) trait Field {
    fn of(pattern: u64) -> Self;
}

/// A field of a record, handed over as the same pattern.
pub(crate) trait Number: Field {
    fn pattern(self) -> u32;
}

/// Numbers: the lower bits of the pattern, which is a number without a sign.
macro_rules! numbers {
    ($($number:ty as $unsigned:ty)*) => {$(
        impl Field for $number {
            fn of(pattern: u64) -> $number {
                pattern as $number
            }
        }

        impl Number for $number {
            fn pattern(self) -> u32 {
                u32::from(self as $unsigned)
            }
        }
    )*};
}

numbers!(u16 as u16 i16 as u16 u32 as u32 i32 as u32);

/// Whether there is what the next entry tells.
impl Field for bool {
    fn of(pattern: u64) -> bool {
        pattern != 0
    }
}

/// A number of tuples or of identifiers, a place or a length.
impl Field for usize {
    fn of(pattern: u64) -> usize {
        pattern as usize
    }
}

/// Identifiers: the number that they are.
macro_rules! identifiers {
    ($($identifier:ident)*) => {$(
        impl From<$identifier> for i64 {
            fn from(identifier: $identifier) -> i64 {
                identifier.0.into()
            }
        }

        impl Field for $identifier {
            fn of(pattern: u64) -> $identifier {
                $identifier(Field::of(pattern))
            }
        }

        impl Number for $identifier {
            fn pattern(self) -> u32 {
                self.0.pattern()
            }
        }
    )*};
}

identifiers!(DocumentId SoftwareChannel Transceiver);

/// A field of an answer: the entry at its place.
pub(crate) fn told<F: Field>(answer: &[u64], place: usize) -> F {
    F::of(answer[place])
}
