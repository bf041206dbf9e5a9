//! What is compared of the ping writers: what they answer and leave in lent memory,
//! and that the proved readers find the same fields and samples in it.

use crate::answers::FIELDS;
use crate::batch::{Arg, Batch, File};
use crate::exports::export;
use crate::files::{halves, kind_number, lend_samples, length_numbers, ping_at, ping_numbers};
use crate::kinds::{draw_header, header_numbers};
use crate::lists::{
    draw_angles, draw_length, draw_lists, limit_angles, limit_lengths, limit_lists,
};
use crate::lists::{Angles, Length, Lists};
use crate::tally::{Deed, Given};
use crate::writing::{compare_writer, BEHIND_MARK};
use second::gen::{Rng, FAMILIES};
use second::pings::*;
use second::{Answer, Family, Order, PingKind};
use std::io;

/// What the exports compared here can give.
pub const GIVEN: [Given; 7] = [
    Given::new("write_u32", &[11, 19, 22, 23]),
    Given::new("write_c32", &[11, 19, 21, 22, 23, 26]),
    Given::new("write_u32_16_angles", &[11, 19, 22, 23]),
    Given::new("write_u16", &[11, 19, 22, 23]),
    Given::new("write_u16_angles", &[11, 19, 22, 23]),
    Given::new("write_c16", &[11, 19, 21, 22, 23, 26]),
    Given::new("write_ce16", &[11, 19, 21, 22, 23, 26]),
];

/// The kinds with angles.
const ANGLES: [PingKind; 2] = [PingKind::U32_16Angles, PingKind::U16Angles];

/// All ping writers on lists drawn anew.
pub fn compare_pings(batch: &mut Batch, rng: &mut Rng) -> io::Result<()> {
    for family in FAMILIES {
        let lists = draw_lists(rng, family);
        let length = draw_length(rng, family, &lists);
        compare_listed(batch, family, &lists, rng)?;
        compare_words(batch, family, &lists, length, rng)?;
    }
    for kind in ANGLES {
        let angles = draw_angles(rng, kind);
        compare_angles(batch, kind, &angles, rng)?;
    }
    Ok(())
}

/// All ping writers on a list at the limits, those of words without a length and with
/// some at theirs.
pub fn compare_limit_pings(batch: &mut Batch, nth: u64, rng: &mut Rng) -> io::Result<()> {
    for family in FAMILIES {
        let lists = limit_lists(nth, family);
        compare_listed(batch, family, &lists, rng)?;
        for length in limit_lengths(nth, family, &lists) {
            compare_words(batch, family, &lists, length, rng)?;
        }
    }
    for kind in ANGLES {
        compare_angles(batch, kind, &limit_angles(nth), rng)?;
    }
    Ok(())
}

/// Lists in two bytes, as the writers of 16 bits take them.
fn narrow_numbers(numbers: &[u32]) -> Vec<u16> {
    numbers.iter().map(|number| *number as u16).collect()
}

fn narrow_values(values: &[i32]) -> Vec<i16> {
    values.iter().map(|value| *value as i16).collect()
}

/// Values of four bytes as their patterns.
fn patterns(values: &[i32]) -> Vec<u32> {
    values.iter().map(|value| *value as u32).collect()
}

/// What a writer is handed besides its samples.
struct Head {
    header: PingHeader,
    attribute: i32,
    order: Order,
}

impl Head {
    fn draw(rng: &mut Rng, order: Order) -> Head {
        Head {
            header: draw_header(rng),
            attribute: rng.four() as i32,
            order,
        }
    }

    /// Header and attribute as numbers.
    fn numbers(&self) -> Vec<u64> {
        header_numbers(&self.header, self.attribute)
    }
}

/// What is written: its kind, and what must be read of it.
struct Written<'a> {
    kind: PingKind,
    values: usize,
    length: Option<u32>,
    /// Whether the samples that are read of a file are those handed over.
    same: &'a dyn Fn(&[u8]) -> bool,
}

/// A writer in both orders: the arguments for its samples, and the second program's.
fn compare(
    batch: &mut Batch,
    name: &str,
    rng: &mut Rng,
    written: Written,
    samples: impl Fn(&mut Batch) -> Vec<Arg>,
    write: impl Fn(&Head, &mut [u8]) -> Answer,
) -> io::Result<()> {
    for order in Order::BOTH {
        let head = Head::draw(rng, order);
        let numbers = head.numbers();
        let arguments = |batch: &mut Batch| {
            let mut arguments: Vec<Arg> = numbers.iter().copied().map(Arg::Number).collect();
            arguments.extend(samples(batch));
            arguments
        };
        let write = |out: &mut [u8]| write(&head, out);
        let file = compare_writer(batch, export(name), order, rng, arguments, write)?;
        if let Some(file) = file {
            read_back(batch, &numbers, &written, &file)?;
        }
    }
    Ok(())
}

/// What was written is read back: header and attribute, kind, number of values, length,
/// and samples.
fn read_back(batch: &mut Batch, head: &[u64], written: &Written, bytes: &[u8]) -> io::Result<()> {
    let Written {
        kind,
        values,
        length,
        ..
    } = *written;
    batch.met_ping(Deed::Written, kind, length.is_some());
    let told = [kind_number(kind), values as u64];
    let fields = [head, &told, &length_numbers(length)].concat();
    if ping_numbers(Ping::read(bytes, BEHIND_MARK)).get(FIELDS..) != Some(&fields[..]) {
        batch.differ("other fields of a ping are read than were written");
    }
    if !(written.same)(bytes) {
        batch.differ("other samples are read than were written");
    }
    let mut file = File::new(bytes);
    ping_at(batch, &mut file, BEHIND_MARK);
    lend_samples(batch, &mut file, BEHIND_MARK)
}

/// Whether a written ping has these samples.
fn has_samples(bytes: &[u8], numbers: &[u32], values: &[i32]) -> bool {
    let n = numbers.len();
    let mut read = (vec![0; n], vec![0; n]);
    let answer = read_samples(bytes, BEHIND_MARK, &mut read.0, &mut read.1);
    answer == Answer::accepted(1, n as u64) && read.0 == numbers && read.1 == values
}

/// The writer of a family's kind that numbers samples, if there is one.
fn compare_listed(
    batch: &mut Batch,
    family: Family,
    lists: &Lists,
    rng: &mut Rng,
) -> io::Result<()> {
    match family {
        Family::Bits16 => compare_u16(batch, lists, rng),
        Family::Ce16 => Ok(()),
        _ => compare_u32(batch, lists, rng),
    }
}

fn compare_u32(batch: &mut Batch, (numbers, values): &Lists, rng: &mut Rng) -> io::Result<()> {
    let written = Written {
        kind: PingKind::U32,
        values: numbers.len(),
        length: None,
        same: &|bytes| has_samples(bytes, numbers, values),
    };
    let samples = |batch: &mut Batch| {
        vec![
            batch.give_words(numbers),
            batch.give_words(&patterns(values)),
        ]
    };
    compare(batch, "write_u32", rng, written, samples, |head, out| {
        write_u32(
            &head.header,
            head.attribute,
            numbers,
            values,
            head.order,
            out,
        )
    })
}

fn compare_u16(batch: &mut Batch, (numbers, values): &Lists, rng: &mut Rng) -> io::Result<()> {
    let (numbers, values) = (narrow_numbers(numbers), narrow_values(values));
    let wide = |bytes: &[u8]| {
        let numbers: Vec<u32> = numbers.iter().map(|number| u32::from(*number)).collect();
        let values: Vec<i32> = values.iter().map(|value| i32::from(*value)).collect();
        has_samples(bytes, &numbers, &values)
    };
    let written = Written {
        kind: PingKind::U16,
        values: numbers.len(),
        length: None,
        same: &wide,
    };
    let samples = |batch: &mut Batch| {
        vec![
            batch.give_halves(&numbers),
            batch.give_halves(&halves(&values)),
        ]
    };
    compare(batch, "write_u16", rng, written, samples, |head, out| {
        write_u16(
            &head.header,
            head.attribute,
            &numbers,
            &values,
            head.order,
            out,
        )
    })
}

/// The writer of a family's kind of words.
fn compare_words(
    batch: &mut Batch,
    family: Family,
    (numbers, values): &Lists,
    handed: Length,
    rng: &mut Rng,
) -> io::Result<()> {
    let (name, kind) = match family {
        Family::Bits16 => ("write_c16", PingKind::C16),
        Family::Ce16 => ("write_ce16", PingKind::Ce16),
        _ => ("write_c32", PingKind::C32),
    };
    let narrow = narrow_values(values);
    let values = match kind {
        PingKind::C16 => narrow.iter().map(|value| i32::from(*value)).collect(),
        _ => values.clone(),
    };
    let length = handed.meant();
    let written = Written {
        kind,
        values: numbers.len(),
        length,
        same: &|bytes| has_samples(bytes, numbers, &values),
    };
    let samples = |batch: &mut Batch| {
        let numbers = batch.give_words(numbers);
        let values = match kind {
            PingKind::C16 => batch.give_halves(&halves(&narrow)),
            _ => batch.give_words(&patterns(&values)),
        };
        let mut arguments = vec![numbers, values];
        arguments.extend(handed.arguments());
        arguments
    };
    compare(batch, name, rng, written, samples, |head, out| {
        let Head {
            header,
            attribute,
            order,
        } = head;
        match kind {
            PingKind::C16 => write_c16(header, *attribute, numbers, &narrow, length, *order, out),
            PingKind::Ce16 => write_ce16(header, *attribute, numbers, &values, length, *order, out),
            _ => write_c32(header, *attribute, numbers, &values, length, *order, out),
        }
    })
}

/// Either writer of angles.
fn compare_angles(
    batch: &mut Batch,
    kind: PingKind,
    (numbers, along, athwart): &Angles,
    rng: &mut Rng,
) -> io::Result<()> {
    let narrow = narrow_numbers(numbers);
    let is_narrow = kind == PingKind::U16Angles;
    let name = match is_narrow {
        true => "write_u16_angles",
        false => "write_u32_16_angles",
    };
    let numbers: Vec<u32> = match is_narrow {
        true => narrow.iter().map(|number| u32::from(*number)).collect(),
        false => numbers.clone(),
    };
    let written = Written {
        kind,
        values: numbers.len(),
        length: None,
        same: &|bytes| has_angles(bytes, &numbers, along, athwart),
    };
    let samples = |batch: &mut Batch| {
        let numbers = match is_narrow {
            true => batch.give_halves(&narrow),
            false => batch.give_words(&numbers),
        };
        let [along, athwart] = [along, athwart].map(|list| batch.give_halves(&halves(list)));
        vec![numbers, along, athwart]
    };
    compare(batch, name, rng, written, samples, |head, out| {
        let Head {
            header,
            attribute,
            order,
        } = head;
        match is_narrow {
            true => write_u16_angles(header, *attribute, &narrow, along, athwart, *order, out),
            false => write_u32_16_angles(header, *attribute, &numbers, along, athwart, *order, out),
        }
    })
}

/// Whether a written ping has these angles.
fn has_angles(bytes: &[u8], numbers: &[u32], along: &[i16], athwart: &[i16]) -> bool {
    let n = numbers.len();
    let mut read = (vec![0; n], vec![0; n], vec![0; n]);
    let answer = read_angles(bytes, BEHIND_MARK, &mut read.0, &mut read.1, &mut read.2);
    let same = read.0 == numbers && read.1 == along && read.2 == athwart;
    answer == Answer::accepted(1, n as u64) && same
}
