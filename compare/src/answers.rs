//! Answers as the archive tells them, in numbers.

use second::{Answer, Reply};

/// Where an answer's numbers end and its fields start.
pub const FIELDS: usize = 5;

/// Where among the numbers each of them stands: the code, the place, that of tuples, the
/// length, that of identifiers compared.
pub const CODE: usize = 0;
pub const PLACE: usize = 1;
pub const TUPLES: usize = 2;
pub const LENGTH: usize = 3;
pub const COMPARED: usize = 4;

/// An answer's five numbers, which fields may follow.
pub fn five(answer: Answer) -> Vec<u64> {
    let Answer {
        code,
        place,
        tuples,
        length,
        compared,
    } = answer;
    vec![code.into(), place, tuples, length, compared]
}

/// A reader's numbers: the answer, and on acceptance the fields.
pub fn reply_numbers<T>(reply: Reply<T>, fields: impl Fn(T) -> Vec<u64>) -> Vec<u64> {
    match reply {
        Ok((answer, record)) => [five(answer), fields(record)].concat(),
        Err(answer) => five(answer),
    }
}
