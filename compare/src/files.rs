//! What is compared of a file: the check, the walks, pings and records read at many
//! places, settings, energies, readings, a ping looked for in it and another beside it, salvage,
//! what is done to it, and the normal form.

use crate::answers::{five, reply_numbers};
use crate::batch::{Batch, File, FILLED, HALF_FILLED};
use crate::corrections::compare_beside;
use crate::echoes::{echoes, few_enough};
use crate::edits::compare_own_edits;
use crate::energies::compare_energies;
use crate::exports::{export, Export};
use crate::kinds::header_numbers;
use crate::readings::compare_readings;
use crate::records;
use crate::salvage::compare_salvage;
use crate::settings::compare_settings;
use crate::slices::Tries;
use crate::tally::{Deed, Given};
use crate::walked::FIRST;
use second::gen::{Case, Rng};
use second::layout::{CHANNEL_LIMIT, FILE_LIMIT};
use second::pings::{read_angles, read_samples, Ping};
use second::programs::normalise_tuple;
use second::records::{Channel, Echosounder, Ek500Channel, Ek500Sounder};
use second::walk::{backward, forward, Step};
use second::{check, normalise, parents, Answer, DocumentId, Maker, Order, PingKind, Reply};
use std::io;

/// The most bytes of a file that is read at every place.
const SMALL: usize = 4096;

/// The most bytes of a file whose tuples are normalised alone, too.
const LARGE: usize = 1 << 20;

/// Of a file of more tuples than this about so many are read, evenly apart.
const MANY: usize = 200;

/// So far from a tuple's place of a longer file it is read, too.
const BESIDE: [u64; 10] = [0, 1, 2, 3, 4, 6, 8, 12, 16, 20];

/// Places past the end of a file.
const PAST: u64 = 8;

const HUGE: [u64; 8] = [
    (1 << 31) + 4,
    1 << 32,
    (1 << 32) + 4,
    i64::MAX as u64,
    1 << 63,
    u64::MAX - 15,
    u64::MAX - 3,
    u64::MAX,
];

/// The most bytes of a normal form, and some more.
const ROOM: usize = FILE_LIMIT as usize + 64;

/// A normal form is lent so many bytes more than needed; where there is none,
/// up to so many.
const SPARE: usize = 9;
const REFUSED_LENGTHS: usize = 200;

/// A tuple is damaged in its mark, head or first fields: so many bytes.
const DAMAGED: usize = 48;

/// The code of a place where no ping starts.
const OTHER_TYPE: u64 = 9;

/// The code of a parent that wasn't declared.
const NO_PARENT: u32 = 13;

/// What the exports compared here can give. A check needs no identifier compared;
/// asking needs a ping, its channel and that one's sounder.
pub const GIVEN: [Given; 9] = [
    Given::checking("check", &[]).comparing(0),
    Given::new("forward", &[1, 2, 3, 5, 6]),
    Given::new("backward", &[1, 2, 3, 5, 6]),
    Given::checking("ask", &[]).comparing(2),
    Given::checking("normalise", &[18, 19, 20]).comparing(0),
    Given::new(
        "normalise_tuple",
        &[1, 2, 3, 5, 6, 8, 9, 11, 15, 18, 19, 23, 24, 25],
    ),
    Given::new("read_ping", &[1, 2, 3, 5, 6, 9, 11, 23, 24, 25]),
    Given::new("read_samples", &[1, 2, 3, 5, 6, 9, 11, 19, 23, 24, 25]),
    Given::new("read_angles", &[1, 2, 3, 5, 6, 9, 11, 19, 23]),
];

type Writer = fn(&[u8], &mut [u8]) -> Answer;

/// A step is told as an answer: 1 tuple and where it is, or 0 at the end.
fn step_numbers(step: Step) -> Vec<u64> {
    match step {
        Step::Tuple { tuple, next } => {
            let mut numbers = five(Answer::accepted(1, 0));
            numbers.extend([tuple.place, tuple.length, tuple.code.into(), next]);
            numbers
        }
        Step::End => five(Answer::accepted(0, 0)),
        Step::Refused(answer) => five(answer),
    }
}

fn ask_numbers(file: &[u8], place: u64) -> Vec<u64> {
    reply_numbers(parents(file, place), |found| {
        vec![
            found.channel.0.into(),
            found.channel_place,
            found.sampling_rate.into(),
            found.type_of_data_sample.into(),
            found.sounder.0.into(),
            found.sounder_place,
        ]
    })
}

/// A kind of ping as the archive tells it.
pub fn kind_number(kind: PingKind) -> u64 {
    match kind {
        PingKind::U32 => 0,
        PingKind::C32 => 1,
        PingKind::U32_16Angles => 2,
        PingKind::U16 => 3,
        PingKind::U16Angles => 4,
        PingKind::C16 => 5,
        PingKind::Ce16 => 6,
    }
}

/// A ping's header, attribute, kind and number of values, whether it has a length, and
/// that one or 0.
pub fn ping_numbers(read: Reply<Ping>) -> Vec<u64> {
    reply_numbers(read, |ping| {
        let mut numbers = header_numbers(&ping.header, ping.tuple_attribute);
        numbers.extend([kind_number(ping.kind), ping.values.into()]);
        numbers.extend(length_numbers(ping.length));
        numbers
    })
}

/// A length as the archive tells it: whether there is one, and which; 0 for none.
pub fn length_numbers(length: Option<u32>) -> [u64; 2] {
    [length.is_some().into(), length.unwrap_or(0).into()]
}

/// A call at a place of a file, the second program's numbers beside it.
fn call_at(batch: &mut Batch, export: Export, file: &mut File, place: u64, numbers: &[u64]) {
    let given = batch.file(file);
    batch.call(export, &[given.into(), place.into()], numbers);
}

/// The check, both walks, fields, samples and angles of each ping, the parents of the
/// first and the last, settings, energies, readings, salvage, edits and the normal form.
/// Gives that, where there is one.
pub fn compare_whole(batch: &mut Batch, case: &Case) -> io::Result<Option<Vec<u8>>> {
    let mut file = File::new(&case.bytes);
    check_file(batch, &mut file, case.expected);
    let tuples = walk_both(batch, &mut file)?;
    each_ping(batch, &mut file, &tuples)?;
    compare_settings(batch, &mut file, Tries::One)?;
    compare_echoes(batch, &mut file, Tries::One)?;
    compare_salvage(batch, &mut file)?;
    compare_own_edits(batch, &mut file)?;
    compare_normal(batch, export("normalise"), normalise, &mut file)
}

/// Fields and samples of each ping, and the parents of the first and the last.
fn each_ping(batch: &mut Batch, file: &mut File, tuples: &[u64]) -> io::Result<()> {
    let mut pings = Vec::new();
    for place in tuples {
        if ping_at(batch, file, *place) != OTHER_TYPE {
            let lent = [11, 13, 17].map(|most| *place as usize % most);
            samples_at(batch, file, *place, lent);
            angles_at(batch, file, *place, lent);
            pings.push(*place);
        }
        batch.rest()?;
    }
    for place in pings.first().into_iter().chain(pings.last()) {
        ask_at(batch, file, *place);
    }
    Ok(())
}

/// Where a file is read.
#[derive(Clone, Copy, PartialEq, Eq)]
pub enum Places {
    /// At every place of a small file, of a larger one at each tuple's and those beside.
    All,
    /// At each tuple's, and at some where none starts.
    OfTuples,
}

/// All comparisons of a file. Gives its normal form, where it has one.
pub fn compare_file(
    batch: &mut Batch,
    case: &Case,
    places: Places,
    rng: &mut Rng,
) -> io::Result<Option<Vec<u8>>> {
    let mut file = File::new(&case.bytes);
    check_file(batch, &mut file, case.expected);
    let tuples = walk_both(batch, &mut file)?;
    if tuples.len() > MANY {
        each_ping(batch, &mut file, &tuples)?;
    }
    let tuples = some_of(tuples);
    let places = places.of(file.bytes, &tuples);
    for place in &places {
        read_at(batch, &mut file, *place);
        batch.rest()?;
    }
    for place in asked(&places, &tuples, &file) {
        ask_at(batch, &mut file, place);
        batch.rest()?;
    }
    for place in &tuples {
        lend_samples(batch, &mut file, *place)?;
    }
    for place in &tuples {
        records::alter_at(batch, &mut file, *place, rng)?;
    }
    if file.bytes.len() <= LARGE {
        each_tuple(batch, &file, &tuples, rng)?;
    } else {
        one_tuple(batch, file.bytes)?;
    }
    compare_settings(batch, &mut file, Tries::All)?;
    compare_echoes(batch, &mut file, Tries::All)?;
    compare_beside(batch, &mut file)?;
    compare_salvage(batch, &mut file)?;
    compare_own_edits(batch, &mut file)?;
    compare_normal(batch, export("normalise"), normalise, &mut file)
}

/// Energies of a file's pings, and their readings.
pub fn compare_echoes(batch: &mut Batch, file: &mut File, tries: Tries) -> io::Result<()> {
    let echoes = echoes(file.bytes);
    compare_energies(batch, file, &echoes, tries)?;
    compare_readings(batch, file, &echoes, tries)
}

/// All tuples of a file, or some where they are many, the last among them.
fn some_of(tuples: Vec<u64>) -> Vec<u64> {
    let apart = tuples.len().div_ceil(MANY).max(1);
    let mut some: Vec<u64> = tuples.into_iter().rev().step_by(apart).collect();
    some.reverse();
    some
}

/// The check, held also to what the making of the case tells, and to the most
/// identifiers that may be compared.
fn check_file(batch: &mut Batch, file: &mut File, told: Option<(u32, u64)>) {
    let answer = check(file.bytes);
    if told.is_some_and(|told| told != (answer.code, answer.place)) {
        batch.differ("the making of the case tells another answer of the check");
    }
    if answer.compared > CHANNEL_LIMIT as u64 * answer.tuples {
        batch.differ("more identifiers are compared than 1,024 a tuple");
    }
    if answer.code == NO_PARENT {
        if let Some(channel) = names_a_sounder(file.bytes, answer.place) {
            batch.other_maker(channel);
        }
    }
    let given = batch.file(file);
    batch.call(export("check"), &[given.into()], &five(answer));
}

/// Whose channel it is that stands at a place, where it names a sounder declared before
/// it: if it has no parent, that one is of the other maker.
fn names_a_sounder(file: &[u8], place: u64) -> Option<Maker> {
    let (channel, named) = match (Channel::read(file, place), Ek500Channel::read(file, place)) {
        (Ok((_, read)), _) => (Maker::Biosonics, read.echosounder_document_identifier),
        (_, Ok((_, read))) => (Maker::Simrad, read.echosounder_document_identifier),
        _ => return None,
    };
    let mut at = FIRST;
    while let Step::Tuple { next, .. } = forward(file, at) {
        if at >= place {
            break;
        }
        if declared_at(file, at) == Some(named) {
            return Some(channel);
        }
        at = next;
    }
    None
}

/// The document identifier of the sounder at a place, of either maker.
fn declared_at(file: &[u8], place: u64) -> Option<DocumentId> {
    match (
        Echosounder::read(file, place),
        Ek500Sounder::read(file, place),
    ) {
        (Ok((_, read)), _) => Some(read.echosounder_document_identifier),
        (_, Ok((_, read))) => Some(read.echosounder_document_identifier),
        _ => None,
    }
}

/// Both walks all through. Gives the places of the tuples found forward.
fn walk_both(batch: &mut Batch, file: &mut File) -> io::Result<Vec<u64>> {
    let mut tuples = Vec::new();
    let mut at = FIRST;
    while let Step::Tuple { next, .. } = forward_at(batch, file, at) {
        tuples.push(at);
        at = next;
        batch.rest()?;
    }
    at = file.bytes.len() as u64;
    while let Step::Tuple { next, .. } = backward_at(batch, file, at) {
        at = next;
        batch.rest()?;
    }
    Ok(tuples)
}

fn forward_at(batch: &mut Batch, file: &mut File, place: u64) -> Step {
    let step = forward(file.bytes, place);
    call_at(batch, export("forward"), file, place, &step_numbers(step));
    step
}

fn backward_at(batch: &mut Batch, file: &mut File, place: u64) -> Step {
    let step = backward(file.bytes, place);
    call_at(batch, export("backward"), file, place, &step_numbers(step));
    step
}

impl Places {
    fn of(self, file: &[u8], tuples: &[u64]) -> Vec<u64> {
        let end = file.len() as u64;
        let mut places: Vec<u64> = HUGE.to_vec();
        let starts = tuples.iter().copied().chain([0, FIRST, end]);
        if self == Places::OfTuples {
            places.extend(starts);
        } else if file.len() <= SMALL {
            places.extend(0..=end + PAST);
        } else {
            for at in starts {
                for beside in BESIDE {
                    places.push(at + beside);
                    places.push(at.saturating_sub(beside));
                }
            }
        }
        places.sort_unstable();
        places.dedup();
        places
    }
}

/// The places asked at: all or some of those read at, by the file's length,
/// for asking checks the whole file each time.
fn asked(places: &[u64], tuples: &[u64], file: &File) -> Vec<u64> {
    let end = file.bytes.len() as u64;
    if file.bytes.len() <= SMALL {
        return places.to_vec();
    }
    let mut asked = tuples.to_vec();
    asked.extend([0, FIRST, FIRST + 1, end, end + 1, u64::MAX]);
    few_enough(asked, file.bytes)
}

/// Steps, samples, ping fields and every record at a place.
fn read_at(batch: &mut Batch, file: &mut File, place: u64) {
    forward_at(batch, file, place);
    backward_at(batch, file, place);
    let lent = [place % 7, place / 7 % 5, place / 35 % 3].map(|entries| entries as usize);
    samples_at(batch, file, place, lent);
    angles_at(batch, file, place, lent);
    ping_at(batch, file, place);
    records::read_at(batch, file, place);
}

/// A ping's fields at a place; gives the code.
pub fn ping_at(batch: &mut Batch, file: &mut File, place: u64) -> u64 {
    let read = Ping::read(file.bytes, place);
    if let Ok((_, ping)) = &read {
        batch.met_ping(Deed::Read, ping.kind, ping.length.is_some());
    }
    let numbers = ping_numbers(read);
    call_at(batch, export("read_ping"), file, place, &numbers);
    numbers[0]
}

fn ask_at(batch: &mut Batch, file: &mut File, place: u64) {
    let numbers = ask_numbers(file.bytes, place);
    call_at(batch, export("ask"), file, place, &numbers);
}

/// Entries of the slices that a reader of samples is lent: numbers first.
type Lent = [usize; 3];

/// The samples at a place, into so many entries of two slices.
fn samples_at(batch: &mut Batch, file: &mut File, place: u64, lent: Lent) {
    let (mut numbers, mut values) = (vec![FILLED; lent[0]], vec![FILLED as i32; lent[1]]);
    let answer = read_samples(file.bytes, place, &mut numbers, &mut values);
    let values: Vec<u32> = values.into_iter().map(|value| value as u32).collect();
    let given = batch.file(file);
    let of_numbers = batch.lend_words(&numbers);
    let of_values = batch.lend_words(&values);
    let arguments = [given.into(), place.into(), of_numbers, of_values];
    batch.call(export("read_samples"), &arguments, &five(answer));
}

/// The angles at a place, into so many entries of three slices.
fn angles_at(batch: &mut Batch, file: &mut File, place: u64, lent: Lent) {
    let mut numbers = vec![FILLED; lent[0]];
    let [mut along, mut athwart] = [lent[1], lent[2]].map(|n| vec![HALF_FILLED as i16; n]);
    let answer = read_angles(file.bytes, place, &mut numbers, &mut along, &mut athwart);
    let given = batch.file(file);
    let of_numbers = batch.lend_words(&numbers);
    let [along, athwart] = [along, athwart].map(|angles| batch.lend_halves(&halves(&angles)));
    let arguments = [given.into(), place.into(), of_numbers, along, athwart];
    batch.call(export("read_angles"), &arguments, &five(answer));
}

/// Signed numbers of two bytes as their patterns.
pub fn halves(numbers: &[i16]) -> Vec<u16> {
    numbers.iter().map(|number| *number as u16).collect()
}

/// The samples of a ping into entries that just suffice, that are one short in one of
/// the slices, and more than needed.
pub fn lend_samples(batch: &mut Batch, file: &mut File, place: u64) -> io::Result<()> {
    let Ok((_, ping)) = Ping::read(file.bytes, place) else {
        return Ok(());
    };
    let n = ping.values as usize;
    let short = n.saturating_sub(1);
    let more = [n + 3, n + 5, n + 1];
    for lent in [[n; 3], [short, n, n], [n, short, n], [n, n, short], more] {
        if ping.kind.row().has_angles() {
            angles_at(batch, file, place, lent);
        } else if lent[2] >= n {
            samples_at(batch, file, place, lent);
        }
        batch.rest()?;
    }
    Ok(())
}

/// A writer of normal forms, lent just enough, one byte less, more and none.
/// Gives the normal form, where there is one and it isn't long.
fn compare_normal(
    batch: &mut Batch,
    export: Export,
    writer: Writer,
    file: &mut File,
) -> io::Result<Option<Vec<u8>>> {
    batch.scratch.resize(ROOM, 0);
    let whole = writer(file.bytes, &mut batch.scratch);
    let n = whole.length as usize;
    let normal = (n > 0 && n < LARGE).then(|| batch.scratch[..n].to_vec());
    if let Some(normal) = &normal {
        each_normal_ping(batch, normal);
    }
    let lengths = if whole.is_accepted() {
        vec![n, n - 1, n + SPARE, 0]
    } else {
        vec![file.bytes.len() % REFUSED_LENGTHS, 0]
    };
    for length in lengths {
        let given = batch.file(file);
        let out = batch.lend(length);
        let answer = writer(file.bytes, batch.expected(&out));
        batch.call(export, &[given.into(), out.into()], &five(answer));
        batch.rest()?;
    }
    Ok(normal)
}

/// Notes the pings of a normal form.
fn each_normal_ping(batch: &mut Batch, normal: &[u8]) {
    let mut at = FIRST;
    while let Step::Tuple { next, .. } = forward(normal, at) {
        if let Ok((_, ping)) = Ping::read(normal, at) {
            batch.met_ping(Deed::Normalised, ping.kind, ping.length.is_some());
        }
        at = next;
    }
}

/// A mark and one tuple, for each tuple of a file: as it stands, damaged, cut
/// short and with bytes behind it; and the file itself.
fn each_tuple(batch: &mut Batch, file: &File, tuples: &[u64], rng: &mut Rng) -> io::Result<()> {
    one_tuple(batch, file.bytes)?;
    let Some(order) = Order::of(file.bytes) else {
        return Ok(());
    };
    for place in tuples {
        let Step::Tuple { tuple, .. } = forward(file.bytes, *place) else {
            continue;
        };
        let alone = [&order.mark()[..], tuple.bytes(file.bytes)].concat();
        one_tuple(batch, &alone)?;
        for _ in 0..2 {
            let mut damaged = alone.clone();
            let at = rng.index(damaged.len().min(DAMAGED));
            damaged[at] ^= 1 << rng.below(8);
            one_tuple(batch, &damaged)?;
        }
        let mut more = alone.clone();
        more.extend(rng.bytes(1));
        one_tuple(batch, &more)?;
        let cut = rng.index(alone.len());
        one_tuple(batch, &alone[..cut])?;
        // The other mark: the tuple's numbers are turned.
        let turned = [&turned(order).mark()[..], tuple.bytes(file.bytes)].concat();
        one_tuple(batch, &turned)?;
    }
    Ok(())
}

fn turned(order: Order) -> Order {
    match order {
        Order::Lsb => Order::Msb,
        Order::Msb => Order::Lsb,
    }
}

fn one_tuple(batch: &mut Batch, bytes: &[u8]) -> io::Result<()> {
    let mut file = File::new(bytes);
    let export = export("normalise_tuple");
    compare_normal(batch, export, normalise_tuple, &mut file)?;
    Ok(())
}
