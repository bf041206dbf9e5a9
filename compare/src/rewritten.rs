//! What is compared of calls that write a whole file, without some private tuples and with them:
//! salvage keeps them, the normal form and the edits have them where they stand among the others
//! and their types in the index. The archive's own result about the file without them tells what
//! it must write.

use crate::answers::{five, CODE, LENGTH, PLACE, TUPLES};
use crate::batch::{numbers, Arg, Batch, File, Left};
use crate::edits::own_index;
use crate::exports::export;
use crate::private::{is_index, Map, Partners, Put};
use crate::walked::{walked, FIRST};
use second::gen::Rng;
use second::index::INDEX_1;
use second::layout::FILE_LIMIT;
use second::walk::Tuple;
use second::{Answer, Order};
use std::collections::BTreeSet;
use std::io;

/// Codes: of what is over the limit, of a file and of a normal form; of a result that has no
/// end of file, and of one that lacks a class, both at its length; of a type that can't be
/// turned.
const OVER_LIMIT: u32 = 1;
const NORMAL_OVER_LIMIT: u32 = 20;
const AT_LENGTH: [u64; 2] = [4, 16];
const UNTURNABLE: u64 = 18;

/// Where an index has its list of types, and what it has besides that list.
const LIST_AT: usize = 12;
const BEHIND_LIST: usize = 8;
const BESIDES: u64 = 20;

/// Where salvage tells how many places it tried; the numbers of a range in its table.
const TRIED: usize = 6;
const RANGE: usize = 3;

/// What is lent where nothing is to be written.
const REFUSED: usize = 64;

/// What is done with both files, besides what is done with private tuples alone.
pub enum Rewriting {
    Salvage,
    Normal,
    Index,
    /// Some tuple of the file, once more.
    Append(Tuple),
    Remove(Tuple),
}

impl Rewriting {
    pub fn name(&self) -> &'static str {
        match self {
            Rewriting::Salvage => "salvage",
            Rewriting::Normal => "normalise",
            Rewriting::Index => "index",
            Rewriting::Append(_) => "append",
            Rewriting::Remove(_) => "remove",
        }
    }
}

/// What is done with an accepted file: its index is the first. Of a file that has hardly any room
/// left the tuples that it has stay as they are.
pub fn rewritings(partners: &Partners, rng: &mut Rng) -> Vec<Rewriting> {
    let mut all = vec![Rewriting::Index, Rewriting::Salvage, Rewriting::Normal];
    let file = &partners.before;
    let room = FILE_LIMIT - partners.after.len() as u64;
    if room > 2 * file.len() as u64 {
        let tuples: Vec<Tuple> = walked(file).map(|(_, tuple)| tuple).collect();
        let any = |rng: &mut Rng, from: usize| tuples[from + rng.index(tuples.len() - from)];
        all.push(Rewriting::Append(any(rng, 0)));
        // without a signature nothing but that is told
        all.push(Rewriting::Remove(any(rng, 1)));
    }
    all
}

impl Rewriting {
    /// Makes it of the file without private tuples, to be heard. A normal form has at most twice
    /// the file's bytes; an index has at most two for each tuple.
    pub fn ask(&self, batch: &mut Batch, before: &mut File) {
        let bytes = before.bytes;
        let given = batch.file(before);
        let room = 2 * bytes.len() + 2 * walked(bytes).count() + 2 * BESIDES as usize;
        let mut arguments = vec![given.into()];
        match self {
            Rewriting::Append(tuple) => arguments.push(batch.give(tuple.bytes(bytes)).into()),
            Rewriting::Remove(tuple) => arguments.push(tuple.place.into()),
            _ => {}
        }
        arguments.push(batch.lend(room).into());
        if let Rewriting::Salvage = self {
            arguments.push(batch.lend_longs(&[0; RANGE]));
        }
        batch.ask(export(self.name()), &arguments);
    }

    /// Makes it of the file with them. Gives the numbers that it must answer.
    pub fn ask_again(
        &self,
        batch: &mut Batch,
        after: &mut File,
        partners: &Partners,
        left: &Left,
    ) -> Vec<u64> {
        let (numbers, written) = self.moved(partners, left);
        let more = match self {
            Rewriting::Append(tuple) => Some(batch.give(tuple.bytes(&partners.before)).into()),
            Rewriting::Remove(tuple) => Some(partners.map.place(tuple.place).into()),
            _ => None,
        };
        let mut arguments = vec![batch.file(after).into()];
        arguments.extend(more);
        arguments.push(lend_written(batch, &written));
        if let Rewriting::Salvage = self {
            let table = moved_range(&left.slices[1], &partners.map);
            arguments.push(batch.lend_longs(&table));
        }
        batch.call(export(self.name()), &arguments, &numbers);
        numbers
    }

    /// What it must answer and write.
    fn moved(&self, partners: &Partners, left: &Left) -> (Vec<u64>, Vec<u8>) {
        match self {
            Rewriting::Salvage => salvaged(partners, left),
            Rewriting::Normal => normal(partners, left),
            Rewriting::Index => Edited::of(partners, None, None).moved(partners, left),
            Rewriting::Append(tuple) => {
                Edited::of(partners, None, Some(tuple)).moved(partners, left)
            }
            Rewriting::Remove(tuple) => {
                Edited::of(partners, Some(tuple), None).moved(partners, left)
            }
        }
    }
}

/// Lends just enough for what must be written; where that is nothing, some bytes that must stay.
fn lend_written(batch: &mut Batch, written: &[u8]) -> Arg {
    match written {
        [] => batch.lend(REFUSED).into(),
        _ => batch.lend_bytes(written),
    }
}

/// The bytes that a call wrote.
pub fn written(left: &Left) -> &[u8] {
    &left.slices[0][..left.answer[LENGTH] as usize]
}

/// Refused with nothing written.
fn refused(code: u32, place: u64) -> (Vec<u64>, Vec<u8>) {
    (five(Answer::refused(code, place)), Vec::new())
}

/// The one range that all of an accepted file is, as the table has it.
fn moved_range(table: &[u8], map: &Map) -> Vec<u64> {
    let range = numbers(table);
    vec![range[0], map.place(range[1]), map.behind(range[2])]
}

/// Salvage keeps the whole file.
fn salvaged(partners: &Partners, left: &Left) -> (Vec<u64>, Vec<u8>) {
    let mut numbers = left.answer.clone();
    numbers[TUPLES] += partners.more();
    numbers[LENGTH] += partners.more_bytes();
    numbers[TRIED] += partners.more();
    (numbers, partners.after.clone())
}

/// The normal form: of an LSB file the same with the private tuples in it, where they stand among
/// the others; an MSB file has none, for their bytes can't be turned.
fn normal(partners: &Partners, left: &Left) -> (Vec<u64>, Vec<u8>) {
    if Order::of(&partners.before) == Some(Order::Msb) {
        let first = partners.puts[0].at;
        let own = (left.answer[CODE] == UNTURNABLE).then(|| partners.map.place(left.answer[PLACE]));
        return refused(UNTURNABLE as u32, own.map_or(first, |own| own.min(first)));
    }
    let written = with_private(written(left), &ranked(partners, None));
    accepted(partners, left, written, NORMAL_OVER_LIMIT)
}

/// The answer with what is written, unless that is over the limit.
fn accepted(partners: &Partners, left: &Left, written: Vec<u8>, over: u32) -> (Vec<u64>, Vec<u8>) {
    if written.len() as u64 > FILE_LIMIT {
        return refused(over, 0);
    }
    let mut numbers = left.answer.clone();
    numbers[TUPLES] += partners.more();
    numbers[LENGTH] = written.len() as u64;
    (numbers, written)
}

/// A private tuple, and how many tuples outside the index class stand before it that were there
/// before: these are what every result keeps, in their order.
type Ranked<'a> = (usize, &'a Put);

/// All of them, where a tuple may have been removed.
pub fn ranked<'a>(partners: &'a Partners, removed: Option<&Tuple>) -> Vec<Ranked<'a>> {
    let kept: Vec<u64> = walked(&partners.before)
        .map(|(_, tuple)| tuple)
        .filter(|tuple| !is_index(tuple) && Some(tuple) != removed)
        .map(|tuple| tuple.place)
        .collect();
    let puts = partners.puts.iter();
    puts.map(|put| (kept.partition_point(|place| *place < put.at), put))
        .collect()
}

/// A result with private tuples among its others, and their types in its index.
pub fn with_private(result: &[u8], puts: &[Ranked]) -> Vec<u8> {
    let Some(order) = Order::of(result) else {
        return Vec::new();
    };
    let tuples = walked(result).map(|(_, tuple)| tuple);
    let (index, others): (Vec<Tuple>, Vec<Tuple>) = tuples.partition(is_index);
    let index = index
        .iter()
        .flat_map(|index| listed(index.bytes(result), order));
    let mut types: BTreeSet<u16> = index.collect();
    types.extend(puts.iter().map(|(_, put)| put.code));
    let mut with = order.mark().to_vec();
    for (nth, tuple) in others.iter().enumerate() {
        for (_, put) in puts.iter().filter(|(rank, _)| *rank == nth) {
            with.extend(&put.bytes);
        }
        if nth + 1 == others.len() {
            with.extend(own_index(&types, order));
        }
        with.extend(tuple.bytes(result));
    }
    with
}

/// The types that an index lists. The last is that of the signature, so a 0 behind it is a space.
pub fn listed(index: &[u8], order: Order) -> Vec<u16> {
    let list = LIST_AT..index.len() - BEHIND_LIST;
    let types = list.step_by(2).filter_map(|at| order.read_two(index, at));
    let mut types: Vec<u16> = types.collect();
    if types.last() == Some(&0) {
        types.pop();
    }
    types
}

/// The types that the index of a result lists.
pub fn listed_in(result: &[u8]) -> Vec<u16> {
    let index = walked(result).find(|(_, tuple)| tuple.code == INDEX_1);
    index.map_or(Vec::new(), |(order, tuple)| {
        listed(tuple.bytes(result), order)
    })
}

/// An edit's result, as far as it can be told without private tuples.
struct Edited<'a> {
    puts: Vec<Ranked<'a>>,
    /// Where in a result a place is, with private tuples in it.
    map: Map,
    /// How much longer its index is by their types.
    longer: u64,
}

impl Edited<'_> {
    fn of<'a>(
        partners: &'a Partners,
        removed: Option<&Tuple>,
        appended: Option<&Tuple>,
    ) -> Edited<'a> {
        let tuples = walked(&partners.before).map(|(_, tuple)| tuple);
        let (gone, kept): (Vec<Tuple>, Vec<Tuple>) =
            tuples.partition(|tuple| is_index(tuple) || Some(tuple) == removed);
        let at = |put: &Put| {
            let gone = gone.iter().filter(|tuple| tuple.place < put.at);
            put.at - gone.map(|tuple| tuple.length).sum::<u64>()
        };
        let appended = appended.into_iter().filter(|tuple| !is_index(tuple));
        let types: BTreeSet<u16> = kept
            .iter()
            .chain(appended)
            .map(|tuple| tuple.code)
            .collect();
        let mut more = types.clone();
        more.extend(partners.puts.iter().map(|put| put.code));
        Edited {
            puts: ranked(partners, removed),
            map: Map::of(partners.puts.iter().map(|put| (at(put), put.length()))),
            longer: index_length(&more) - index_length(&types),
        }
    }

    /// What the edit must answer and write.
    fn moved(&self, partners: &Partners, left: &Left) -> (Vec<u64>, Vec<u8>) {
        if left.answer[CODE] == 0 {
            let written = with_private(written(left), &self.puts);
            return accepted(partners, left, written, OVER_LIMIT);
        }
        let mut numbers = left.answer.clone();
        numbers[PLACE] = self.map.place(numbers[PLACE]);
        if AT_LENGTH.contains(&numbers[CODE]) {
            numbers[PLACE] += self.longer;
        }
        (numbers, Vec::new())
    }
}

/// The bytes of an index of some types.
fn index_length(types: &BTreeSet<u16>) -> u64 {
    BESIDES + 2 * types.len().next_multiple_of(2) as u64
}

/// Edits of private tuples alone, by what the index of the file without them is: one of them
/// removed again, another appended to either file. Gives the codes of these.
pub fn edit_private(
    batch: &mut Batch,
    [before, after]: [&mut File; 2],
    partners: &Partners,
    nth: usize,
    other: &Put,
    left: &Left,
) -> io::Result<[u64; 3]> {
    let puts = ranked(partners, None);
    let place = partners.placed().nth(nth).map_or(FIRST, |(place, _)| place);
    let mut fewer = puts.clone();
    fewer.remove(nth);
    let given = [batch.file(after).into(), place.into()];
    let removed = edit(batch, "remove", given, partners, left, &fewer);
    batch.rest()?;
    // behind all tuples but the end of file
    let rank = walked(written(left))
        .filter(|(_, tuple)| !is_index(tuple))
        .count()
        - 1;
    let more = [&puts[..], &[(rank, other)]].concat();
    let given = [batch.file(after).into(), batch.give(&other.bytes).into()];
    let appended = edit(batch, "append", given, partners, left, &more);
    batch.rest()?;
    let written = with_private(written(left), &[(rank, other)]);
    let mut numbers = left.answer.clone();
    numbers[LENGTH] = written.len() as u64;
    let given = [batch.file(before).into(), batch.give(&other.bytes).into()];
    let arguments = [&given[..], &[batch.lend_bytes(&written)]].concat();
    batch.call(export("append"), &arguments, &numbers);
    batch.rest()?;
    Ok([removed, appended, numbers[CODE]])
}

/// An edit of the file with private tuples that leaves these in the index written without any.
fn edit(
    batch: &mut Batch,
    name: &str,
    given: [Arg; 2],
    partners: &Partners,
    left: &Left,
    puts: &[Ranked],
) -> u64 {
    let written = with_private(written(left), puts);
    let (numbers, written) = accepted(partners, left, written, OVER_LIMIT);
    let arguments = [&given[..], &[lend_written(batch, &written)]].concat();
    batch.call(export(name), &arguments, &numbers);
    numbers[CODE]
}
