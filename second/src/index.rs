//! Request h of 02: an index that stays true.

use crate::answer::Answer;
use crate::check::{survey, Survey};
use crate::layout::{class, Class, END_OF_FILE, FILE_LIMIT};
use crate::order::{put_four, put_two, two_at, Order};
use crate::walk::frame;

/// The type of the Index 1 tuple: TR's Table 14.
pub const INDEX_1: u16 = 65406;

/// Where a file's first tuple starts, which is behind the mark, and where a tuple has its
/// type.
const FIRST: usize = 4;
const TYPE_AT: usize = 4;

/// Where an index has its list, and how many bytes it has besides.
const LIST_AT: usize = 12;
const BESIDES: usize = 20;

/// Flags in one number.
const FLAGS: usize = 64;

/// The types of a file's tuples, those of the index class left out: a flag for each type
/// that there can be, so that they come once each and ascending.
pub(crate) struct Types([u64; (1 << 16) / FLAGS]);

impl Types {
    pub fn none() -> Types {
        Types([0; (1 << 16) / FLAGS])
    }

    pub fn note(&mut self, code: u16) {
        if class(code) != Some(Class::Index) {
            let code = usize::from(code);
            self.0[code / FLAGS] |= 1 << (code % FLAGS);
        }
    }

    fn ascending(&self) -> impl Iterator<Item = u16> + '_ {
        let numbers = self.0.iter().enumerate().filter(|(_, flags)| **flags != 0);
        numbers.flat_map(|(nth, flags)| {
            let set = (0..FLAGS).filter(move |bit| flags >> bit & 1 == 1);
            set.map(move |bit| (nth * FLAGS + bit) as u16)
        })
    }

    /// The length of their index: two types to each four bytes, a space where one is left.
    /// All that there can be are 65,426, so every index has an allowed length.
    pub fn index_length(&self) -> usize {
        let types: u32 = self.0.iter().map(|flags| flags.count_ones()).sum();
        BESIDES + 2 * (types as usize).next_multiple_of(2)
    }

    /// Writes their index at the start of `out`, which has room for it, and gives its
    /// length. Time, space and attribute are 0.
    pub fn put_index(&self, order: Order, out: &mut [u8]) -> usize {
        let length = self.index_length();
        let out = &mut out[..length];
        out.fill(0);
        put_four(order, out, 0, length as u32 - 10);
        put_two(order, out, TYPE_AT, INDEX_1);
        for (nth, code) in self.ascending().enumerate() {
            put_two(order, out, LIST_AT + 2 * nth, code);
        }
        put_four(order, out, length - 4, length as u32);
        length
    }
}

fn code(order: Order, tuple: &[u8]) -> u16 {
    two_at(order, tuple, TYPE_AT)
}

/// Tuples in one byte order, one behind another.
struct Tuples<'a> {
    order: Order,
    list: Vec<&'a [u8]>,
}

impl<'a> Tuples<'a> {
    /// Divides bytes into tuples as far as these go, and tells what is left of the bytes.
    fn divide(order: Order, mut bytes: &'a [u8]) -> (Tuples<'a>, &'a [u8]) {
        let mut list = Vec::new();
        while let Ok(tuple) = frame(bytes, order, 0) {
            let (whole, rest) = bytes.split_at(tuple.length as usize);
            list.push(whole);
            bytes = rest;
        }
        (Tuples { order, list }, bytes)
    }

    /// Those of an accepted file.
    fn of_file(survey: &Survey, file: &'a [u8]) -> Tuples<'a> {
        Tuples::divide(survey.order, &file[FIRST..]).0
    }

    /// Takes out the tuple that starts at a place of the file whose tuples these are; none
    /// where none starts.
    fn take_at(&mut self, place: u64) -> Option<&'a [u8]> {
        let mut start = FIRST as u64;
        let nth = self.list.iter().position(|tuple| {
            let found = start == place;
            start += tuple.len() as u64;
            found
        });
        nth.map(|nth| self.list.remove(nth))
    }

    /// Drops those of the index class.
    fn drop_index_class(&mut self) {
        let order = self.order;
        self.list
            .retain(|tuple| class(code(order, tuple)) != Some(Class::Index));
    }

    /// A file of them, with something behind them.
    fn file_with(&self, behind: &[&[u8]]) -> Vec<u8> {
        [
            &self.order.mark()[..],
            &self.list.concat(),
            &behind.concat(),
        ]
        .concat()
    }

    /// The file of them: those of the index class are dropped, and an index of the others
    /// stands just before the end of file, or last where there is none.
    fn reindexed(mut self) -> Vec<u8> {
        self.drop_index_class();
        let mut types = Types::none();
        for tuple in &self.list {
            types.note(code(self.order, tuple));
        }
        let mut index = vec![0; types.index_length()];
        types.put_index(self.order, &mut index);
        let last = self.list.last().copied();
        match last.filter(|last| code(self.order, last) == END_OF_FILE) {
            Some(end) => {
                self.list.pop();
                self.file_with(&[&index, end])
            }
            None => self.file_with(&[&index]),
        }
    }
}

/// Hands back the result of a call on a checked file: what the check says against the
/// result, then 19 at 0 where it has no room.
fn hand_back(checked: &Survey, result: &[u8], out: &mut [u8]) -> Result<Answer, Answer> {
    survey(result)?;
    let out = out.get_mut(..result.len());
    let out = out.ok_or(Answer::refused(19, 0))?;
    out.copy_from_slice(result);
    Ok(checked.accepted(result.len() as u64))
}

fn try_index(file: &[u8], out: &mut [u8]) -> Result<Answer, Answer> {
    let checked = survey(file)?;
    let result = Tuples::of_file(&checked, file).reindexed();
    hand_back(&checked, &result, out)
}

fn try_append(file: &[u8], bytes: &[u8], out: &mut [u8]) -> Result<Answer, Answer> {
    let checked = survey(file)?;
    if bytes.len() as u64 > FILE_LIMIT {
        return Err(Answer::refused(1, 0));
    }
    let mut all = Tuples::of_file(&checked, file);
    let end = all.list.pop();
    let (appended, rest) = Tuples::divide(checked.order, bytes);
    all.list.extend(appended.list);
    let result = if rest.is_empty() {
        all.list.extend(end);
        all.reindexed()
    } else {
        // What is left is no tuple, so the check never accepts this.
        all.drop_index_class();
        all.file_with(&[rest])
    };
    hand_back(&checked, &result, out)
}

fn try_remove(file: &[u8], place: u64, out: &mut [u8]) -> Result<Answer, Answer> {
    let checked = survey(file)?;
    let mut all = Tuples::of_file(&checked, file);
    all.take_at(place).ok_or(Answer::refused(3, place))?;
    hand_back(&checked, &all.reindexed(), out)
}

fn either(answer: Result<Answer, Answer>) -> Answer {
    answer.unwrap_or_else(|refusal| refusal)
}

/// Writes a file with its index: its tuples in order, those of the index class dropped,
/// and just before the end of file one that lists the types of the others.
///
/// Accepts with the tuples of the file handed in, the length written and the comparisons
/// of the check. The check's refusals; what the check would say of what is to be written,
/// which can only be that it is over the limit; 19 at 0. A refusal alters nothing, and
/// success nothing past the length written.
pub fn index(file: &[u8], out: &mut [u8]) -> Answer {
    either(try_index(file, out))
}

/// The same with bytes handed over before the end of file, which are tuples of the file's
/// byte order: behind the check's refusals 1 at 0 where they alone are over the limit;
/// then, where they don't divide into tuples, what the check says of the file's tuples
/// before its end and these bytes, index class dropped, with nothing behind them.
pub fn append(file: &[u8], bytes: &[u8], out: &mut [u8]) -> Answer {
    either(try_append(file, bytes, out))
}

/// The same without the tuple at a place: behind the check's refusals 3 at the place
/// where none starts.
pub fn remove(file: &[u8], place: u64, out: &mut [u8]) -> Answer {
    either(try_remove(file, place, out))
}
