//! The records: what stands in a tuple that is no ping.

use crate::answer::Refusal;
use crate::call::{self, HAC_LENGTH};
use crate::field::{told, DocumentId, Field, Number, SoftwareChannel, Transceiver};
use crate::file::Order;
use crate::types;

/// The characters of a remark.
pub const REMARK: usize = 30;

/// Reads the record of a type at a place: its fields into lent numbers, in TR's order,
/// the attribute last, each as its pattern in its own width; numbers past them stay.
/// Gives its characters, a part of the file, none of a record that has none.
///
/// Refuses as a forward step is refused, by 3 at the end; by 9 for another type, and
/// for every tuple where the type is no record's; then by 9, and by 8 for a signature;
/// last by 19 at 0 where fewer numbers are lent than the record has.
///
/// ```
/// use hac::{Navigation, Order};
///
/// // A navigation tuple, whichever: its heading is its fourth number.
/// let mut file = [0; hac::FIRST_PLACE + 28];
/// file[..hac::FIRST_PLACE].copy_from_slice(&Order::Msb.mark());
/// hac::write_record(Navigation::CODE, &[0; 6], &[], Order::Msb, &mut file[hac::FIRST_PLACE..])?;
/// let mut numbers = [0; Navigation::NUMBERS];
/// let text = hac::read_record(&file, hac::FIRST_PLACE, Navigation::CODE, &mut numbers)?;
/// assert!(text.is_empty());
/// numbers[3] = -905_i32 as u32;
/// hac::write_record(Navigation::CODE, &numbers, &[], Order::Msb, &mut file[hac::FIRST_PLACE..])?;
/// assert_eq!(Navigation::read(&file, hac::FIRST_PLACE)?.heading, -905);
/// # Ok::<(), hac::Refusal>(())
/// ```
pub fn read_record<'a>(
    file: &'a [u8],
    place: usize,
    code: u16,
    numbers: &mut [u32],
) -> Result<&'a [u8], Refusal> {
    let answer = call::read_record(file, place, code, numbers)?;
    let start: usize = told(&answer, call::HAC_RECORD_TEXT_PLACE);
    let length: usize = told(&answer, call::HAC_RECORD_TEXT_LENGTH);
    Ok(&file[start..start + length])
}

/// Writes the record of a type, its fields handed over as [`read_record`] gives them,
/// and gives its length. Of a number only the lower bytes of the field's width are
/// taken; numbers past the record's are not looked at.
///
/// Refuses, all at 0, by 9 where the type is no record's; by 9 for fewer numbers than
/// the record has; by 9 for a text that the record can't hold; by 11 for a tuple over
/// [`crate::TUPLE_LIMIT`]; by 19.
pub fn write_record(
    code: u16,
    numbers: &[u32],
    text: &[u8],
    order: Order,
    out: &mut [u8],
) -> Result<usize, Refusal> {
    let answer = call::write_record(code, numbers, text, order.is_msb(), out)?;
    Ok(told(&answer, HAC_LENGTH))
}

/// What a reader gives: the record, and its characters where it has some.
macro_rules! given {
    ($record:ident) => {
        $record
    };
    ($record:ident $beside:ident) => {
        ($record, &[u8])
    };
}

/// The record read, with its characters where it has some.
macro_rules! give {
    ($record:ident, $text:ident) => {{
        let _ = $text;
        $record
    }};
    ($record:ident, $text:ident, $beside:ident) => {
        ($record, $text)
    };
}

macro_rules! define {
    ($(
        $(#[$about:meta])*
        $record:ident = $type:ident
            => ($($beside:ident)?)
            <= $(($characters:ident))? $([$zeros:literal])?
        { $($field:ident: $kind:ty,)* }
    )*) => {$(
        $(#[$about])*
        // The fields bear TR's names.
        #[allow(missing_docs)]
        #[derive(Clone, Copy, Debug, Default, PartialEq, Eq)]
        pub struct $record {
            $(pub $field: $kind,)*
        }

        impl $record {
            /// The type code.
            pub const CODE: u16 = types::$type;

            /// How many numbers [`read_record`] and [`write_record`] take: its fields.
            pub const NUMBERS: usize = [$(stringify!($field)),*].len();

            /// Reads the tuple at a place. Refuses as a forward step is refused, by 3
            /// at the end; by 9 for another type; then by 9, and by 8 for a signature.
            $(
                ///
                #[doc = concat!("Beside the record: its ", stringify!($beside), ", a part of the file.")]
            )?
            pub fn read(
                file: &[u8],
                place: usize,
            ) -> Result<given!($record $($beside)?), Refusal> {
                let mut numbers = [0; Self::NUMBERS];
                let text = read_record(file, place, Self::CODE, &mut numbers)?;
                let [$($field),*] = numbers;
                let record = $record { $($field: Field::of($field.into()),)* };
                Ok(give!(record, text $(, $beside)?))
            }

            /// Writes the tuple and gives its length. Refuses by 19 where `out` is too
            /// short.
            $(
                ///
                #[doc = concat!("Refuses ", stringify!($characters), " that don't fit before that.")]
            )?
            pub fn write(
                &self,
                $($characters: &[u8],)?
                order: Order,
                out: &mut [u8],
            ) -> Result<usize, Refusal> {
                let numbers = [$(self.$field.pattern()),*];
                let text: &[u8] = $($characters)? $(&[0; $zeros])?;
                write_record(Self::CODE, &numbers, text, order, out)
            }
        }
    )*};
}

records!(define);

/// A field of a record that is a number.
#[derive(Clone, Copy, Debug)]
pub struct RecordField {
    /// TR's name.
    pub name: &'static str,
    /// The number that its pattern, as [`read_record`] gives it, stands for.
    pub number: fn(u32) -> i64,
}

/// What stands in a record.
#[derive(Clone, Copy, Debug)]
pub struct RecordFields {
    /// Its fields, in the order of its numbers.
    pub numbers: &'static [RecordField],
    /// The name of the characters that stand beside them, where it has some.
    pub text: Option<&'static str>,
}

macro_rules! name {
    ($(
        $(#[$about:meta])*
        $record:ident = $type:ident
            => ($($beside:ident)?)
            <= $(($characters:ident))? $([$zeros:literal])?
        { $($field:ident: $kind:ty,)* }
    )*) => {
        /// The fields of the record of a type, for those who read one without knowing which;
        /// none where the type is no record's.
        ///
        /// ```
        /// let fields = hac::record_fields(hac::Navigation::CODE).expect("a record");
        /// let heading = fields.numbers[3];
        /// assert_eq!(heading.name, "heading");
        /// assert_eq!((heading.number)(0xFC77), -905);
        /// ```
        pub fn record_fields(code: u16) -> Option<RecordFields> {
            match code {
                $(types::$type => Some(RecordFields {
                    numbers: &[$(RecordField {
                        name: stringify!($field),
                        number: |pattern| <$kind>::of(pattern.into()).into(),
                    }),*],
                    text: [$(stringify!($beside))?].first().copied(),
                }),)*
                _ => None,
            }
        }
    };
}

records!(name);
