//! The cases of a seed: of one in so many all is compared, of the others little.

use crate::batch::Batch;
use crate::corrections::{self, compare_pairs};
use crate::edits::{self, compare_edits};
use crate::energies::{self, compare_energy_files};
use crate::files::{self, compare_file, compare_whole, Places};
use crate::partners::compare_partners;
use crate::pings::{self, compare_limit_pings, compare_pings};
use crate::readings::{self, compare_views};
use crate::records::{self, compare_long_texts, compare_records};
use crate::tally::Given;
use crate::{salvage, settings};
use second::gen::{big_limit_count, file_case, limit_count, Case, Rng};
use std::io;

/// Behind each case that is compared in full come so many of which only the
/// check, the walks, the pings, settings, energies, readings, salvage, edits and the
/// normal form are.
const LIGHT: u64 = 40;

/// Record and ping writers are tried so many times a case.
const WRITES: u64 = 8;

/// The generator's kinds of case come in turns; these are some places in a turn.
const TURN: u64 = 16;
const LIMIT: u64 = 13;
const EQUAL_PAIR: u64 = 14;
const UNEQUAL_PAIR: u64 = 15;

/// The numbers of the writers' cases lie apart from the generator's.
const WRITERS: u64 = 0x5EC0_4D57_0817_E455;

/// What each export can give, as those who compare it say.
pub fn given() -> Vec<Given> {
    let all = files::GIVEN.into_iter().chain(pings::GIVEN);
    let all = all.chain(records::GIVEN).chain(salvage::GIVEN);
    let all = all.chain(settings::GIVEN);
    let all = all.chain(corrections::GIVEN);
    let all = all.chain(energies::GIVEN).chain(readings::GIVEN);
    all.chain(edits::GIVEN).collect()
}

/// So many cases are compared in full, of a number of cases asked for.
pub fn full_cases(asked: u64) -> u64 {
    asked.div_ceil(LIGHT + 1)
}

/// From so many cases in full on every limit case is among them.
pub fn complete() -> u64 {
    TURN * (limit_count() + big_limit_count()) as u64
}

/// A case in full, at fewer places of its files.
pub fn measure_case(batch: &mut Batch, seed: u64, nth: u64) -> io::Result<()> {
    full_case(batch, seed, nth, Places::OfTuples)?;
    batch.end_case();
    Ok(())
}

/// A case in full, of so many, and the light ones behind it.
pub fn compare_cases(batch: &mut Batch, seed: u64, nth: u64, full: u64) -> io::Result<()> {
    full_case(batch, seed, nth, Places::All)?;
    batch.end_case();
    for light in LIGHT * nth..LIGHT * (nth + 1) {
        let index = full.next_multiple_of(TURN) + light_index(light);
        compare_files(batch, seed, index, compare_whole)?;
        batch.end_case();
    }
    batch.run()
}

/// The numbers of the light cases step over the limit cases, which come again
/// and again and are long.
fn light_index(light: u64) -> u64 {
    let (turn, at) = (light / (TURN - 1), light % (TURN - 1));
    TURN * turn + at + u64::from(at >= LIMIT)
}

/// The files of a case, pairs of a deposit and its corrections, files that are edited, files of
/// echoes, files with private tuples, and every writer.
fn full_case(batch: &mut Batch, seed: u64, index: u64, places: Places) -> io::Result<()> {
    let mut rng = Rng::of_case(seed ^ WRITERS, index);
    compare_files(batch, seed, index, |batch, case| {
        compare_file(batch, case, places, &mut rng)
    })?;
    compare_pairs(batch, seed, index)?;
    let turn = index.is_multiple_of(TURN).then_some(index / TURN);
    compare_edits(batch, seed, index, turn)?;
    compare_energy_files(batch, seed, index)?;
    compare_views(batch, seed, index)?;
    compare_partners(batch, seed, index, turn, places)?;
    batch.about = format!("seed {seed}, case {index}, writers");
    for _ in 0..WRITES {
        compare_records(batch, &mut rng)?;
        compare_pings(batch, &mut rng)?;
    }
    if index.is_multiple_of(TURN) {
        compare_long_texts(batch, &mut rng)?;
        compare_limit_pings(batch, index / TURN, &mut rng)?;
    }
    batch.run()
}

/// The files of a case, one by one, and what they are to each other.
fn compare_files(
    batch: &mut Batch,
    seed: u64,
    index: u64,
    mut compare: impl FnMut(&mut Batch, &Case) -> io::Result<Option<Vec<u8>>>,
) -> io::Result<()> {
    let mut normal = Vec::new();
    for case in file_case(seed, index) {
        batch.start(
            format!("seed {seed}, case {index}, {}", case.name),
            &case.bytes,
        );
        normal.push(compare(batch, &case)?);
        batch.run()?;
    }
    compare_pair(batch, index, &normal);
    Ok(())
}

/// The two files of a pair of equal content have one normal form; those of a
/// pair of other contents haven't.
fn compare_pair(batch: &mut Batch, index: u64, normal: &[Option<Vec<u8>>]) {
    let equal = index % TURN == EQUAL_PAIR;
    if !equal && index % TURN != UNEQUAL_PAIR {
        return;
    }
    match normal {
        [Some(one), Some(other)] if (one == other) == equal => {}
        [Some(_), Some(_)] if equal => {
            batch.differ("files of equal content with other normal forms");
        }
        [Some(_), Some(_)] => batch.differ("files of other contents with one normal form"),
        _ => batch.differ("a file of a pair without a normal form"),
    }
}
