//! What is compared of an index that stays true: a file's index written, bytes appended to it,
//! a tuple removed from it; what is answered, written and left; and what was met, so that
//! nothing that can be is never there.

use crate::answers::five;
use crate::batch::{Batch, File};
use crate::exports::export;
use crate::tally::{in_both_orders, Chapter, Given};
use crate::walked::{walked, FIRST};
use second::gen::{big_edit, big_edit_count, edit_case, Edit, EditCase};
use second::index::INDEX_1;
use second::layout::{class, layout, Class, END_OF_FILE, FILE_LIMIT, LAYOUTS, SIGNATURE};
use second::walk::{forward, Step, Tuple};
use second::{append, check, index, remove, Answer, Order};
use std::collections::BTreeSet;
use std::io;

/// What the exports compared here can give: what a check can, and 19, for each of them judges
/// the file and its result.
pub const GIVEN: [Given; 3] = [
    Given::checking("index", &[19]).comparing(0),
    Given::checking("append", &[19]).comparing(0),
    Given::checking("remove", &[19]).comparing(0),
];

/// So many of the generator's files come with each case that is compared in full.
const FILES: u64 = 3;

/// Lent memory is longer than needed by so many bytes; where nothing is written it is as long
/// as the file and so much more, so that a result written too early would have room.
const SPARE: usize = 9;
const REFUSED_SPARE: usize = 64;

/// The most bytes of a result that is edited again.
const LARGE: u64 = 1 << 20;

/// The code of a place where no tuple starts.
const CUT_SHORT: u32 = 3;

/// The code of what is over the limit.
const OVER_LIMIT: u32 = 1;

/// The edits of a case; and one of the cases of 16 MiB, as long as there are such, where a
/// turn of the generator's begins.
pub fn compare_edits(batch: &mut Batch, seed: u64, case: u64, turn: Option<u64>) -> io::Result<()> {
    for number in FILES * case..FILES * (case + 1) {
        let about = format!("seed {seed}, edits {number}");
        each_edit(batch, about, &edit_case(seed, number))?;
    }
    match turn.map(|turn| turn as usize) {
        Some(nth) if nth < big_edit_count() => {
            each_edit(batch, "edits".to_string(), &big_edit(nth))
        }
        _ => Ok(()),
    }
}

fn each_edit(batch: &mut Batch, about: String, case: &EditCase) -> io::Result<()> {
    batch.start(format!("{about}, {}", case.name), &case.file);
    let mut file = File::new(&case.file);
    let sound = check(&case.file).is_accepted();
    for (nth, edit) in case.edits.iter().enumerate() {
        let answer = compare_edit(batch, &mut file, edit, nth)?;
        if sound {
            note(batch, &case.file, edit, answer);
        }
        if answer.is_accepted() && answer.length <= LARGE {
            let result = batch.scratch[..answer.length as usize].to_vec();
            again(batch, &result)?;
        }
    }
    // what was lent for one of 16 MiB isn't kept
    batch.run()
}

/// What was written: the check accepts it, and its index is written again as it stands.
fn again(batch: &mut Batch, result: &[u8]) -> io::Result<()> {
    let checked = check(result);
    let mut written = vec![0; result.len()];
    if !index(result, &mut written).is_accepted() || written != result {
        batch.differ("an index that is written again is another");
    }
    let mut file = File::new(result);
    let given = batch.file(&mut file);
    batch.call(export("check"), &[given.into()], &five(checked));
    lend(batch, &mut file, &Edit::Index, result.len());
    batch.rest()?;
    Ok(())
}

/// Any file: its index, something appended to it and one of its tuples removed, in turn by its
/// length; each lent just enough and, in turn, one of the rest.
pub fn compare_own_edits(batch: &mut Batch, file: &mut File) -> io::Result<()> {
    let turn = file.bytes.len() / 4;
    let tuples: Vec<Tuple> = walked(file.bytes).map(|(_, tuple)| tuple).collect();
    let some = tuples.get(turn % tuples.len().max(1));
    let before_end = tuples.iter().rev().nth(1);
    let appended = match turn % 3 {
        0 => &[][..],
        1 => before_end.map_or(&[][..], |tuple| tuple.bytes(file.bytes)),
        _ => some.map_or(&[1; 20][..], |tuple| tuple.bytes(file.bytes)),
    };
    let place = some.map_or(turn as u64, |tuple| tuple.place);
    for edit in [
        Edit::Index,
        Edit::Append(appended.to_vec()),
        Edit::Remove(place),
    ] {
        compare_edit(batch, file, &edit, turn / 3)?;
    }
    Ok(())
}

/// The second program's call.
fn edited(file: &[u8], edit: &Edit, out: &mut [u8]) -> Answer {
    match edit {
        Edit::Index => index(file, out),
        Edit::Append(bytes) => append(file, bytes, out),
        Edit::Remove(place) => remove(file, *place, out),
    }
}

/// A call lent just enough, or as much as would be where it is refused; and, in turn, one byte
/// less, more, or none. Gives the answer where there is room.
fn compare_edit(
    batch: &mut Batch,
    file: &mut File,
    edit: &Edit,
    turn: usize,
) -> io::Result<Answer> {
    batch.scratch.resize(FILE_LIMIT as usize, 0);
    let answer = edited(file.bytes, edit, &mut batch.scratch);
    let n = match answer.is_accepted() {
        true => answer.length as usize,
        false => file.bytes.len() + REFUSED_SPARE,
    };
    for length in [n, [n - 1, n + SPARE, 0][turn % 3]] {
        lend(batch, file, edit, length);
        batch.rest()?;
    }
    Ok(answer)
}

fn lend(batch: &mut Batch, file: &mut File, edit: &Edit, length: usize) {
    let given = batch.file(file);
    let more = match edit {
        Edit::Append(bytes) => Some(batch.give(bytes).into()),
        Edit::Remove(place) => Some((*place).into()),
        Edit::Index => None,
    };
    let out = batch.lend(length);
    let answer = edited(file.bytes, edit, batch.expected(&out));
    let mut arguments = vec![given.into()];
    arguments.extend(more);
    arguments.push(out.into());
    batch.call(export(name(edit)), &arguments, &five(answer));
}

fn name(edit: &Edit) -> &'static str {
    match edit {
        Edit::Index => "index",
        Edit::Append(_) => "append",
        Edit::Remove(_) => "remove",
    }
}

/// Notes what an edit of an accepted file met.
fn note(batch: &mut Batch, file: &[u8], edit: &Edit, answer: Answer) {
    let Some(order) = Order::of(file) else {
        return;
    };
    for what in seen(file, order, edit, answer) {
        batch.met_in_order(Chapter::Edits, file, &what);
    }
}

fn seen(file: &[u8], order: Order, edit: &Edit, answer: Answer) -> BTreeSet<String> {
    match edit {
        Edit::Index if answer.is_accepted() => indexed(file, order),
        Edit::Index => BTreeSet::from([refused_by("the index", answer.code)]),
        Edit::Append(bytes) => appended(bytes, order, answer),
        Edit::Remove(place) => BTreeSet::from([removed(file, *place, answer)]),
    }
}

fn is_index(tuple: &Tuple) -> bool {
    class(tuple.code) == Some(Class::Index)
}

/// What a type is called.
fn type_name(code: u16) -> &'static str {
    match layout(code) {
        Some(layout) => layout.name,
        None if class(code) == Some(Class::Index) => "index class",
        None => "an unlisted type",
    }
}

fn refused_by(what: &str, code: u32) -> String {
    format!("{what} refused by {code}")
}

/// What a file has of the index class.
struct Had {
    /// How many, and whether one of them is of another type than the Index 1 tuple.
    tuples: usize,
    other: bool,
    /// Whether one is the index that the file ought to have, and whether one of its length but
    /// with other bytes stands where that ought to.
    is_there: bool,
    stale: bool,
    /// Whether the file is as it ought to be.
    kept: bool,
    /// Whether the types are odd in number.
    odd: bool,
}

type HadSight = (&'static str, fn(&Had) -> bool);

const HAD: [HadSight; 8] = [
    ("an index put in", |had| had.tuples == 0),
    ("a true index kept", |had| had.kept),
    ("a true index moved", |had| had.is_there && !had.kept),
    ("a stale index replaced", |had| had.stale),
    ("several dropped", |had| had.tuples > 1),
    ("another type of the class dropped", |had| had.other),
    ("an odd number of types", |had| had.odd),
    ("an even number of types", |had| !had.odd),
];

/// What is seen of a file whose index was written.
fn indexed(file: &[u8], order: Order) -> BTreeSet<String> {
    let tuples: Vec<Tuple> = walked(file).map(|(_, tuple)| tuple).collect();
    let of_class: Vec<&Tuple> = tuples.iter().filter(|tuple| is_index(tuple)).collect();
    let types: BTreeSet<u16> = tuples
        .iter()
        .filter(|tuple| !is_index(tuple))
        .map(|tuple| tuple.code)
        .collect();
    let own = own_index(&types, order);
    let is_own = |tuple: &Tuple| tuple.bytes(file) == own;
    let before_end = &tuples[tuples.len() - 2];
    let had = Had {
        tuples: of_class.len(),
        other: of_class.iter().any(|tuple| tuple.code != INDEX_1),
        is_there: of_class.iter().any(|tuple| is_own(tuple)),
        stale: before_end.code == INDEX_1 && !is_own(before_end),
        kept: of_class.len() == 1 && is_own(before_end),
        odd: types.len() % 2 == 1,
    };
    let sights = HAD.iter().filter(|(_, is_seen)| is_seen(&had));
    sights.map(|(what, _)| what.to_string()).collect()
}

/// The index of some types by TR's Table 14.
pub fn own_index(types: &BTreeSet<u16>, order: Order) -> Vec<u8> {
    let length = 20 + 2 * types.len().next_multiple_of(2) as u32;
    let mut tuple = order.from_four(length - 10).to_vec();
    tuple.extend(order.from_two(INDEX_1));
    tuple.extend([0; 6]);
    tuple.extend(types.iter().flat_map(|code| order.from_two(*code)));
    tuple.resize(length as usize - 4, 0);
    tuple.extend(order.from_four(length));
    tuple
}

const NOTHING: &str = "nothing appended";
const SEVERAL: &str = "several appended";
const DROPPED: &str = "index class appended among others";
const TOO_MANY: &str = "bytes appended that are over the limit";
const PAST: &str = "a result over the limit";
const DROPPED_BEFORE: &str = "index class before what doesn't divide";
const ENDED: &str = "an end of file appended";
const ENDED_BEFORE: &str = "an end of file appended before others";

fn added(code: u16) -> String {
    format!("{} appended", type_name(code))
}

/// What is seen of bytes that were appended.
fn appended(bytes: &[u8], order: Order, answer: Answer) -> BTreeSet<String> {
    let mut seen = BTreeSet::new();
    if bytes.len() as u64 > FILE_LIMIT {
        seen.insert(TOO_MANY.to_string());
        return seen;
    }
    if answer.code == OVER_LIMIT {
        seen.insert(PAST.to_string());
        return seen;
    }
    let marked = [&order.mark()[..], bytes].concat();
    let tuples: Vec<Tuple> = walked(&marked).map(|(_, tuple)| tuple).collect();
    let end = tuples.last().map_or(FIRST, Tuple::end);
    let of_class = tuples.iter().any(is_index);
    if answer.is_accepted() {
        seen.extend(tuples.iter().map(|tuple| added(tuple.code)));
        let kept = tuples.iter().filter(|tuple| !is_index(tuple)).count();
        let sights = [
            (NOTHING, tuples.is_empty()),
            (SEVERAL, kept > 1),
            (DROPPED, kept > 0 && of_class),
        ];
        let sights = sights.into_iter().filter(|(_, is_seen)| *is_seen);
        seen.extend(sights.map(|(what, _)| what.to_string()));
        return seen;
    }
    if end < marked.len() as u64 {
        seen.insert(refused_by("what doesn't divide", answer.code));
        seen.extend(of_class.then(|| DROPPED_BEFORE.to_string()));
        return seen;
    }
    seen.insert(refused_by("an append", answer.code));
    let ended = tuples.iter().position(|tuple| tuple.code == END_OF_FILE);
    seen.extend(ended.map(|nth| match nth + 1 == tuples.len() {
        true => ENDED.to_string(),
        false => ENDED_BEFORE.to_string(),
    }));
    seen
}

/// Where no tuple starts.
const NOWHERE: [&str; 5] = [
    "removed before the first tuple",
    "removed inside a tuple",
    "removed inside a tuple from what looks like one",
    "removed at the end",
    "removed past the end",
];

/// What is seen of a removal.
fn removed(file: &[u8], place: u64, answer: Answer) -> String {
    let mut tuples = walked(file).map(|(_, tuple)| tuple);
    if let Some(tuple) = tuples.find(|tuple| tuple.place == place) {
        return taken(tuple.code, answer.code);
    }
    assert_eq!(answer.code, CUT_SHORT);
    let end = file.len() as u64;
    let nowhere = match forward(file, place) {
        _ if place < FIRST => 0,
        _ if place > end => 4,
        _ if place == end => 3,
        Step::Tuple { .. } => 2,
        _ => 1,
    };
    NOWHERE[nowhere].to_string()
}

/// A tuple of a type was removed, or the call refused for that.
fn taken(code: u16, refusal: u32) -> String {
    let what = format!("{} removed", type_name(code));
    match refusal {
        0 => what,
        refusal => refused_by(&what, refusal),
    }
}

/// Types that a sound file has once: neither is ever appended or removed. And those that are
/// counted by a sounder, and so never removed.
const ONCE: [u16; 2] = [SIGNATURE, END_OF_FILE];
const COUNTED: [u16; 2] = [1000, 2000];

/// Some type of the index class, and one that isn't listed.
const OTHERS: [u16; 2] = [INDEX_1, 0];

/// The codes that the check gives a result for what was appended: of tuples, and of bytes that
/// don't divide into such, of which an earlier rule may be broken, too; and for what was
/// removed, with the type of that.
const BY_TUPLES: [u32; 11] = [7, 9, 11, 12, 13, 14, 15, 17, 23, 24, 25];
const BY_OTHERS: [u32; 5] = [3, 5, 6, 13, 15];
const BY_REMOVAL: [(u16, u32); 10] = [
    (SIGNATURE, 7),
    (END_OF_FILE, 4),
    (100, 13),
    (200, 13),
    (1000, 13),
    (2000, 13),
    (1000, 17),
    (2000, 17),
    (20, 16),
    (10000, 16),
];

/// All that edits have to meet.
pub fn wanted() -> Vec<String> {
    let listed = LAYOUTS.iter().map(|layout| layout.code);
    let types: Vec<u16> = listed
        .filter(|code| !ONCE.contains(code))
        .chain(OTHERS)
        .collect();
    let mut wanted: Vec<String> = HAD.map(|(what, _)| what.to_string()).to_vec();
    wanted.push(refused_by("the index", OVER_LIMIT));
    wanted.extend(types.iter().map(|code| added(*code)));
    wanted.extend(
        [
            NOTHING,
            SEVERAL,
            DROPPED,
            TOO_MANY,
            PAST,
            DROPPED_BEFORE,
            ENDED,
            ENDED_BEFORE,
        ]
        .map(String::from),
    );
    wanted.extend(BY_TUPLES.map(|code| refused_by("an append", code)));
    wanted.extend(BY_OTHERS.map(|code| refused_by("what doesn't divide", code)));
    let removable = types.iter().filter(|code| !COUNTED.contains(code));
    wanted.extend(removable.map(|code| taken(*code, 0)));
    wanted.extend(BY_REMOVAL.map(|(code, refusal)| taken(code, refusal)));
    wanted.extend(ONCE.map(|code| taken(code, OVER_LIMIT)));
    wanted.extend(NOWHERE.map(String::from));
    in_both_orders(&wanted)
}
