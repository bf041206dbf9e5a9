//! The time to read one record through the boundary, beside the second program's.

use crate::{time, ROUNDS};
use hac::{Order, Refusal, FIRST_PLACE, REMARK, TUPLE_LIMIT};
use std::hint::black_box;

/// So many calls in a row are timed together.
const CALLS: u32 = 10_000;

/// The characters of an event that is read.
const TEXT: [u8; 16] = *b"net in the water";

/// A record: its type and how many numbers it has, how one is written, and the second
/// program's reader of it, which says whether it was read.
struct Record {
    name: &'static str,
    code: u16,
    numbers: usize,
    text: &'static [u8],
    second: fn(&[u8], u64) -> bool,
}

macro_rules! record {
    ($name:expr, $text:expr, $second:ident) => {
        Record {
            name: $name,
            code: second::records::$second::CODE,
            // the attribute is a number, too
            numbers: second::records::$second::FIELDS.len() + 1,
            text: $text,
            second: |file, place| black_box(second::records::$second::read(file, place)).is_ok(),
        }
    };
}

const RECORDS: [Record; 7] = [
    record!("Navigation", &[], Navigation),
    record!("Sounder", &[b' '; REMARK], Echosounder),
    record!("Channel", &[b' '; REMARK], Channel),
    record!("Ek500Sounder", &[b' '; REMARK], Ek500Sounder),
    record!("Ek500Channel", &[b' '; REMARK], Ek500Channel),
    record!("Threshold", &[], Threshold),
    record!("Event", &TEXT, EventMarker),
];

impl Record {
    /// A mark and one such tuple.
    fn file(&self, order: Order) -> Result<Vec<u8>, Refusal> {
        let numbers: Vec<u32> = (1..).take(self.numbers).collect();
        let mut file = order.mark().to_vec();
        file.resize(FIRST_PLACE + TUPLE_LIMIT, 0);
        let out = &mut file[FIRST_PLACE..];
        let length = hac::write_record(self.code, &numbers, self.text, order, out)?;
        file.truncate(FIRST_PLACE + length);
        Ok(file)
    }

    /// The shortest times of both, in ns a call.
    fn times(&self, file: &[u8]) -> [f64; 2] {
        let mut numbers = vec![0; self.numbers];
        let (file, code) = (|| black_box(file), self.code);
        let mut best = [f64::MAX; 2];
        for _ in 0..ROUNDS {
            let proved = time(CALLS, || {
                hac::read_record(file(), FIRST_PLACE, code, black_box(&mut numbers)).is_ok()
            });
            let second = time(CALLS, || (self.second)(file(), FIRST_PLACE as u64));
            best = [best[0].min(proved), best[1].min(second)];
        }
        best.map(|seconds| seconds * 1e9)
    }
}

pub fn show() -> Result<(), String> {
    println!(
        "one record read: ns a call, the best of {ROUNDS}; ratio: the second program's time over the proved library's"
    );
    println!(
        "{:26} | {:>7} {:>7} {:>6} | {:>7} {:>7} {:>6}",
        "record", "LSB", "second", "ratio", "MSB", "second", "ratio"
    );
    for record in RECORDS {
        let mut row = format!("{:26}", record.name);
        for order in [Order::Lsb, Order::Msb] {
            let file = record.file(order).map_err(|refusal| refusal.to_string())?;
            let mut numbers = vec![0; record.numbers];
            let read = hac::read_record(&file, FIRST_PLACE, record.code, &mut numbers);
            let same = read == Ok(record.text) && numbers.iter().zip(1..).all(|(a, b)| *a == b);
            if !same || !(record.second)(&file, FIRST_PLACE as u64) {
                return Err(format!("{}: it is not read as it was written", record.name));
            }
            let [proved, second] = record.times(&file);
            row += &format!(" | {proved:7.1} {second:7.1} {:6.2}", second / proved);
        }
        println!("{row}");
    }
    println!();
    Ok(())
}
