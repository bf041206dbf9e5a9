//! What was met of private tuples: where they stand, what they look like, what stands beside
//! them, and what the calls made of it; and all that has to be, so that nothing that can be is
//! never there.

use crate::answers::{CODE, COMPARED, PLACE};
use crate::batch::{numbers, Batch, Left};
use crate::exports::EXPORTS;
use crate::found;
use crate::private::{but_typed_met, is_index, is_private, within_met};
use crate::private::{Partners, Put, MODELS, TYPES};
use crate::rewritten::{listed_in, written};
use crate::tally::{in_both_orders, in_order, Chapter};
use crate::walked::walked;
use second::kinds::KINDS;
use second::layout::{is_listed, CHANNEL_LIMIT, END_OF_FILE, FILE_LIMIT};
use second::layout::{TUPLE_LEAST, TUPLE_LIMIT};
use second::walk::Tuple;
use second::{Order, PingKind};
use std::collections::BTreeSet;

/// The code of a type that can't be turned.
const UNTURNABLE: u64 = 18;

/// As many boundaries as may be drawn one by one: of more than these not all are by chance.
const FEW: usize = 8;

/// A file of more tuples than this is long.
const LONG: usize = 200;

/// Notes what was met in a file of a byte order.
pub fn met(batch: &mut Batch, file: &[u8], what: &str) {
    batch.met_in_order(Chapter::Private, file, what);
}

pub fn accepted_met(name: &str) -> String {
    format!("{name} accepted without them and with them")
}

/// What can be seen of a check: the fewest identifiers compared that there can be, and more than
/// one search compares.
const COMPARISONS: [&str; 2] = ["no identifier compared", "over 1,024 identifiers compared"];

pub fn note_compared(batch: &mut Batch, partners: &Partners, left: &Left) {
    let compared = left.answer[COMPARED];
    let seen = [compared == 0, compared > CHANNEL_LIMIT as u64];
    for what in seen_of(&COMPARISONS, seen) {
        met(batch, &partners.after, &what);
    }
}

/// What can be seen of settings: a setting that a private tuple was put in behind, but before
/// its ping, by which that ping moved further.
const BETWEEN: [&str; 3] = [
    "a ping that moved",
    "private tuples between a threshold and its ping",
    "private tuples between an attitude and its ping",
];

pub fn note_settings(batch: &mut Batch, partners: &Partners, left: &Left) {
    let [pings, thresholds, attitudes] = [0, 1, 2].map(|nth| numbers(&left.slices[nth]));
    let by = |place: u64| partners.map.place(place) - place;
    let parts = |settings: &[u64]| {
        let mut held = pings.iter().zip(settings);
        held.any(|(ping, setting)| *setting > 0 && by(*ping) > by(*setting))
    };
    let seen = [
        pings.iter().any(|ping| by(*ping) > 0),
        parts(&thresholds),
        parts(&attitudes),
    ];
    for what in seen_of(&BETWEEN, seen) {
        met(batch, &partners.after, &what);
    }
}

/// What can be seen of normal forms, each in one byte order alone.
const KEPT: &str = "private tuples kept in the normal form";
const FIRST_UNTURNED: &str = "18 at the first private tuple";
const EARLIER_UNTURNED: &str = "18 at an unlisted tuple before it";

pub fn note_normal(batch: &mut Batch, partners: &Partners, numbers: &[u64]) {
    let what = match numbers[CODE] {
        0 => KEPT,
        UNTURNABLE if numbers[PLACE] == partners.puts[0].at => FIRST_UNTURNED,
        UNTURNABLE => EARLIER_UNTURNED,
        _ => return,
    };
    met(batch, &partners.after, what);
}

/// What can be seen of edits: of the index that is written, and of private tuples that are
/// removed or appended.
const EDITS: [&str; 7] = [
    "a type more in the index",
    "no type more in the index",
    "the only private tuple removed",
    "one of several private tuples removed",
    "a private tuple appended to the file without them",
    "a private tuple appended to the file with them",
    "a private tuple appended past the limit",
];

pub fn note_edits(batch: &mut Batch, partners: &Partners, left: &Left, codes: [u64; 3]) {
    let types: BTreeSet<u16> = listed_in(written(left)).into_iter().collect();
    let more = partners.puts.iter().any(|put| !types.contains(&put.code));
    let [removed, appended, before] = codes.map(|code| code == 0);
    let alone = partners.puts.len() == 1;
    let seen = [
        more,
        !more,
        removed && alone,
        removed && !alone,
        before,
        appended,
        !appended,
    ];
    for what in seen_of(&EDITS, seen) {
        met(batch, &partners.after, &what);
    }
}

/// What can be seen of where private tuples stand.
const WHERE: [&str; 7] = [
    "right behind the signature",
    "right before the end of file",
    "between others",
    "several at one place",
    "at every boundary of many",
    "before a tuple of the index class",
    "behind a tuple of the index class",
];

/// What can be seen of how long they are.
const LENGTHS: [&str; 2] = ["the least length", "the largest length"];

/// What can be seen of the file besides them.
const OTHERS: [&str; 5] = [
    "another private tuple",
    "another unlisted tuple",
    "a tuple of the index class",
    "over 200 tuples",
    "16 MiB",
];

/// What can be seen of a file whose own private tuples were taken out.
pub const SOME_TAKEN: &str = "some of its own taken out";
pub const ALL_TAKEN: &str = "all of its own taken out";

fn type_met(code: u16) -> String {
    format!("type {code}")
}

fn behind_met(kind: &str) -> String {
    format!("{kind} behind private tuples")
}

fn before_met(kind: &str) -> String {
    format!("{kind} before private tuples")
}

/// Notes what was met in a file and the private tuples in it, each thing once.
pub fn note(batch: &mut Batch, partners: &Partners) {
    let tuples: Vec<Tuple> = walked(&partners.before).map(|(_, tuple)| tuple).collect();
    let mut whats: BTreeSet<String> = BTreeSet::new();
    whats.extend(seen_of(&WHERE, stand(&partners.puts, &tuples)));
    for put in &partners.puts {
        let length = put.length();
        whats.insert(type_met(put.code));
        whats.extend(put.looks.clone());
        whats.extend(seen_of(
            &LENGTHS,
            [length == TUPLE_LEAST, length == TUPLE_LIMIT],
        ));
    }
    whats.extend(seen_of(&OTHERS, others(partners, &tuples)));
    let (first, last) = match &partners.puts[..] {
        [] => return,
        [first, .., last] => (first.at, last.at),
        [one] => (one.at, one.at),
    };
    for tuple in &tuples {
        if let Some(kind) = PingKind::of(tuple.code) {
            let name = kind.row().name;
            whats.extend((first <= tuple.place).then(|| behind_met(name)));
            whats.extend((last > tuple.place).then(|| before_met(name)));
        }
    }
    for what in whats {
        met(batch, &partners.after, &what);
    }
}

/// Those of some sights that were seen.
fn seen_of<const N: usize>(sights: &[&str; N], seen: [bool; N]) -> Vec<String> {
    let seen = sights.iter().zip(seen).filter(|(_, seen)| *seen);
    seen.map(|(what, _)| what.to_string()).collect()
}

/// Where private tuples stand among the others.
fn stand(puts: &[Put], tuples: &[Tuple]) -> [bool; WHERE.len()] {
    let at: BTreeSet<u64> = puts.iter().map(|put| put.at).collect();
    let boundaries = &tuples[1..];
    let stands = |is_such: &dyn Fn(&Tuple) -> bool| {
        boundaries
            .iter()
            .any(|tuple| at.contains(&tuple.place) && is_such(tuple))
    };
    let first = tuples[0].end();
    let behind_index = tuples.iter().filter(|tuple| is_index(tuple));
    [
        at.contains(&first),
        stands(&|tuple| tuple.code == END_OF_FILE),
        stands(&|tuple| tuple.place != first && tuple.code != END_OF_FILE),
        at.len() < puts.len(),
        boundaries.len() > FEW && at.len() == boundaries.len(),
        stands(&is_index),
        behind_index.map(Tuple::end).any(|end| at.contains(&end)),
    ]
}

/// What the file has besides them.
fn others(partners: &Partners, tuples: &[Tuple]) -> [bool; OTHERS.len()] {
    let is_unlisted =
        |tuple: &Tuple| !is_listed(tuple.code) && !is_index(tuple) && !is_private(tuple);
    [
        tuples.iter().any(is_private),
        tuples.iter().any(is_unlisted),
        tuples.iter().any(is_index),
        tuples.len() > LONG,
        partners.after.len() as u64 == FILE_LIMIT,
    ]
}

/// Calls that take no file begin so; and those that are told of otherwise, or, as the normal form
/// of one tuple, refuse every file of more.
const WRITER: &str = "write_";
const APART: [&str; 3] = ["find_ping", "normalise", "normalise_tuple"];

/// The calls that take a file and accept it with private tuples in it.
fn accepting() -> impl Iterator<Item = &'static str> {
    let calls = EXPORTS.iter().map(|export| export.name);
    calls.filter(|name| !name.starts_with(WRITER) && !APART.contains(name))
}

/// All that has to be met of private tuples.
pub fn wanted() -> Vec<String> {
    let mut wanted: Vec<String> = TYPES.map(type_met).collect();
    let files = [&WHERE[..], &LENGTHS, &OTHERS].concat();
    let sights = [&files[..], &COMPARISONS, &BETWEEN, &EDITS].concat();
    wanted.extend(sights.into_iter().map(String::from));
    wanted.extend([SOME_TAKEN, ALL_TAKEN].map(String::from));
    wanted.extend(MODELS.map(within_met));
    wanted.extend(MODELS.map(but_typed_met));
    wanted.extend(KINDS.map(|row| behind_met(row.name)));
    wanted.extend(KINDS.map(|row| before_met(row.name)));
    wanted.extend(accepting().map(accepted_met));
    let mut wanted = in_both_orders(&wanted);
    wanted.push(in_order(KEPT, Order::Lsb));
    wanted.extend([FIRST_UNTURNED, EARLIER_UNTURNED].map(|what| in_order(what, Order::Msb)));
    wanted.extend(found::wanted());
    wanted
}
