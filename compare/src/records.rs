//! What is compared of the two calls on records: every type read at many places and
//! written from many numbers, what was written read back, and records of a file read,
//! altered in one field and written back.

use crate::batch::{Arg, Batch, File, FILLED};
use crate::boundary::{kind_of, read_record, write_record};
use crate::exports::export;
use crate::kinds::{Kind, Text, KINDS};
use crate::tally::Given;
use crate::writing::{compare_writer, BEHIND_MARK};
use second::gen::Rng;
use second::layout::{PING_C16, PING_C32, PING_U16_ANGLES, PING_U32};
use second::Order;
use std::io;

/// What the exports compared here can give.
pub const GIVEN: [Given; 2] = [
    Given::new("read_record", &[1, 2, 3, 5, 6, 8, 9, 19]),
    Given::new("write_record", &[9, 11, 19]),
];

/// Types that are no record's: the pings, the index class, and what isn't listed, the
/// neighbours of the EK-500's among it.
const NO_RECORDS: [u16; 10] = [
    PING_U32,
    PING_C32,
    PING_C16,
    PING_U16_ANGLES,
    0,
    65406,
    65515,
    12345,
    201,
    2001,
];

/// More numbers than any record has, and some more.
const MANY: u64 = 30;

/// So many of a hundred writers are handed too few numbers, and so many more than the
/// record has.
const FEW: u64 = 15;
const SURPLUS: u64 = 25;

/// So many of a hundred texts have a length that is drawn whatever the record is.
const ANY_TEXT: u64 = 20;

/// Lengths of remarks: mostly the field's width, some beside it.
const REMARKS: [usize; 6] = [30, 30, 30, 29, 31, 0];

/// Lengths of an end of file's data: mostly two and more by fours.
const DATA: [usize; 8] = [2, 2, 6, 10, 18, 0, 3, 4];

/// Other texts are mostly under so many characters.
const SHORT_TEXTS: usize = 21;

/// Texts at the limit of an event and of an end of file, and past it.
const LONG_TEXTS: [usize; 11] = [
    262_120, 262_122, 262_123, 262_124, 262_125, 262_126, 262_127, 262_128, 262_130, 262_132,
    262_144,
];

/// Every record at a place, lent just its numbers, one more, one fewer and none; and a
/// type that is no record's.
pub fn read_at(batch: &mut Batch, file: &mut File, place: u64) {
    for kind in &KINDS {
        for lent in [kind.numbers, kind.numbers + 1, kind.numbers - 1, 0] {
            read_as(batch, file, place, kind.code, lent);
        }
    }
    let nth = place % NO_RECORDS.len() as u64;
    read_as(
        batch,
        file,
        place,
        NO_RECORDS[nth as usize],
        (place % MANY) as usize,
    );
}

/// What stands at a place, read as a type into so many numbers. Gives what the second
/// program left there, where it was read.
fn read_as(
    batch: &mut Batch,
    file: &mut File,
    place: u64,
    code: u16,
    lent: usize,
) -> Option<Vec<u32>> {
    let mut numbers = vec![FILLED; lent];
    let told = read_record(file.bytes, place, code, &mut numbers);
    let given = batch.file(file);
    let of_numbers = batch.lend_words(&numbers);
    let arguments = [
        given.into(),
        place.into(),
        u64::from(code).into(),
        of_numbers,
    ];
    batch.call(export("read_record"), &arguments, &told);
    let read = told[0] == 0;
    if let Some(kind) = kind_of(code).filter(|_| read) {
        batch.met(kind.name, false);
    }
    read.then_some(numbers)
}

/// What the writer is handed.
#[derive(Clone)]
struct Handed {
    code: u16,
    numbers: Vec<u32>,
    text: Vec<u8>,
}

impl Handed {
    /// Numbers of a record, each with whatever stands above its width, now and then
    /// too few or too many; and a text of so many characters.
    fn draw(kind: &Kind, text: usize, rng: &mut Rng) -> Handed {
        let mut numbers = (kind.draw)(rng);
        let plain = (kind.cut)(&[u32::MAX; MANY as usize]);
        for (number, most) in numbers.iter_mut().zip(plain) {
            if rng.chance(50) {
                *number |= rng.four() & !most;
            }
        }
        match rng.below(100) {
            few if few < FEW => numbers.truncate(rng.index(kind.numbers)),
            more if more < FEW + SURPLUS => numbers.extend((0..=rng.below(4)).map(|_| rng.four())),
            _ => {}
        }
        Handed {
            code: kind.code,
            numbers,
            text: rng.bytes(text),
        }
    }
}

/// A length for the text of a record, mostly one that it can hold.
fn text_length(kind: &Kind, rng: &mut Rng) -> usize {
    if rng.chance(ANY_TEXT) {
        return rng.index(2 * SHORT_TEXTS);
    }
    match kind.text {
        Text::None => 0,
        Text::Remarks => REMARKS[rng.index(REMARKS.len())],
        Text::Multiple => rng.index(SHORT_TEXTS),
        Text::Data => DATA[rng.index(DATA.len())],
    }
}

/// Every record written from numbers and characters drawn anew, and a type that is no
/// record's.
pub fn compare_records(batch: &mut Batch, rng: &mut Rng) -> io::Result<()> {
    for kind in &KINDS {
        let text = text_length(kind, rng);
        compare_written(batch, &Handed::draw(kind, text, rng), rng)?;
    }
    let kind = &KINDS[rng.index(KINDS.len())];
    let text = text_length(kind, rng);
    let other = Handed {
        code: NO_RECORDS[rng.index(NO_RECORDS.len())],
        ..Handed::draw(kind, text, rng)
    };
    compare_written(batch, &other, rng)
}

/// Records whose text has any length, on texts about as long as a tuple holds.
pub fn compare_long_texts(batch: &mut Batch, rng: &mut Rng) -> io::Result<()> {
    for kind in &KINDS {
        if matches!(kind.text, Text::Multiple | Text::Data) || rng.chance(ANY_TEXT) {
            let text = LONG_TEXTS[rng.index(LONG_TEXTS.len())];
            compare_written(batch, &Handed::draw(kind, text, rng), rng)?;
        }
    }
    Ok(())
}

/// A record of a file read, one of its numbers altered, written back in both orders
/// with its characters, and read again.
pub fn alter_at(batch: &mut Batch, file: &mut File, place: u64, rng: &mut Rng) -> io::Result<()> {
    for kind in &KINDS {
        let Ok(read) = (kind.read)(file.bytes, place) else {
            continue;
        };
        let Some(mut numbers) = read_as(batch, file, place, kind.code, kind.numbers) else {
            batch.differ("a record that is read is not read by its type");
            continue;
        };
        let at = rng.index(numbers.len());
        numbers[at] = rng.four();
        let text = read
            .text
            .map_or(0..0, |[at, n]| at as usize..(at + n) as usize);
        let altered = Handed {
            code: kind.code,
            numbers,
            text: file.bytes[text].to_vec(),
        };
        compare_written(batch, &altered, rng)?;
    }
    Ok(())
}

/// The writer in both orders, and what it writes read back.
fn compare_written(batch: &mut Batch, handed: &Handed, rng: &mut Rng) -> io::Result<()> {
    let Handed {
        code,
        numbers,
        text,
    } = handed;
    for order in Order::BOTH {
        let written = compare_writer(
            batch,
            export("write_record"),
            order,
            rng,
            |batch| {
                let of_numbers = batch.give_words(numbers);
                let of_text: Arg = batch.give(text).into();
                vec![u64::from(*code).into(), of_numbers, of_text]
            },
            |out| write_record(*code, numbers, text, order, out),
        )?;
        if let Some(written) = written {
            read_back(batch, handed, &written);
        }
    }
    Ok(())
}

/// What was written is read back: the same numbers in their own widths, and the same
/// characters.
fn read_back(batch: &mut Batch, handed: &Handed, bytes: &[u8]) {
    let Some(kind) = kind_of(handed.code) else {
        return batch.differ("a type that is no record's was written");
    };
    batch.met(kind.name, true);
    match (kind.read)(bytes, BEHIND_MARK) {
        Ok(read) => {
            if read.numbers != (kind.cut)(&handed.numbers) {
                batch.differ("other fields are read than were written");
            }
            let text = read
                .text
                .map_or(0..0, |[at, n]| at as usize..(at + n) as usize);
            if bytes[text] != handed.text {
                batch.differ("other characters are read than were written");
            }
        }
        Err(_) => batch.differ("what was written is not read"),
    }
    let mut file = File::new(bytes);
    read_as(batch, &mut file, BEHIND_MARK, kind.code, kind.numbers);
}
