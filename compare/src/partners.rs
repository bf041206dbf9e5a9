//! What is compared of private tuples, which disturb nobody: files that the check accepts, with
//! such tuples put in or their own taken out. Every call about the file without them tells, under
//! the map of places, what the same call about the file with them must give; and that one is
//! compared with the second program like any.

use crate::answers::CODE;
use crate::batch::{Batch, File, Left, SECOND};
use crate::files::{compare_file, compare_whole, Places};
use crate::found::compare_found_pings;
use crate::moved::{questions, step_over, Question};
use crate::private::{is_private, Host, Partners};
use crate::rewritten::{edit_private, rewritings, Rewriting};
use crate::sights::{accepted_met, met, note, note_compared, note_edits, note_normal};
use crate::sights::{note_settings, ALL_TAKEN, SOME_TAKEN};
use crate::walked::walked;
use second::gen::{edit_case, energy_case, file_case, limit, limit_count, viewer_case};
use second::gen::{Case, Rng};
use second::walk::Tuple;
use second::{check, Order};
use std::collections::BTreeSet;
use std::io;

/// So many files come with each case that is compared in full; fewer where the stack is measured,
/// which takes longer and is no deeper for them.
const FILES: u64 = 3;
const FILES_MEASURED: u64 = 1;

/// One in so many is compared with the second program in full, and the others in brief.
const FULL: u64 = 80;

/// The numbers of these files, and of what is put into them, lie apart from the others.
pub const STREAM: u64 = 0x9417_A7E5;

/// So many kinds of file come in turn.
const SOURCES: u64 = 9;

/// The generator's kinds of file case come in turns; these are places in a turn: sound files,
/// files of settings, pairs of equal and of other content.
const TURN: u64 = 16;
const SOUND: u64 = 0;
const SETTINGS: u64 = 3;
const EQUAL_PAIR: u64 = 14;
const UNEQUAL_PAIR: u64 = 15;

/// Who says what calls about a file with private tuples must give.
pub const BY_THE_MAP: &str = "its answer without private tuples, under the map,";

/// The files and the pair of a case, some read at these places; and, where a turn of the
/// generator's begins, one of the two files of 16 MiB: behind the turns of the limit cases, for a
/// short run does without such files.
pub fn compare_partners(
    batch: &mut Batch,
    seed: u64,
    index: u64,
    turn: Option<u64>,
    places: Places,
) -> io::Result<()> {
    let files = match places {
        Places::All => FILES,
        Places::OfTuples => FILES_MEASURED,
    };
    for number in files * index..files * (index + 1) {
        let mut rng = Rng::of_case(seed ^ STREAM, number);
        let case = source(seed ^ STREAM, number, &mut rng);
        if check(&case.bytes).is_accepted() {
            let about = format!("seed {seed}, private tuples {number}, {}", case.name);
            let places = number.is_multiple_of(FULL).then_some(places);
            compare_put_in(batch, &about, &case.bytes, places, &mut rng)?;
            compare_taken_out(batch, &about, &case.bytes, &mut rng)?;
        }
    }
    compare_found_pings(batch, seed, index)?;
    let nth = turn.and_then(|turn| (turn as usize).checked_sub(limit_count()));
    match nth.and_then(|nth| Order::BOTH.get(nth)) {
        Some(order) => compare_full(batch, *order),
        None => Ok(()),
    }
}

/// A file of one of the generator's kinds, in turn; or a limit case, or one that has private tuples
/// already, which few of the others have.
fn source(seed: u64, number: u64, rng: &mut Rng) -> Case {
    let (kind, turn) = (number % SOURCES, number / SOURCES);
    let of_turn = |place| file_case(seed, TURN * turn + place).swap_remove(0);
    match kind {
        0 | 1 => of_turn(SOUND + kind),
        2 => of_turn(SETTINGS),
        3 => of_turn(EQUAL_PAIR),
        4 => of_turn(UNEQUAL_PAIR),
        5 => energy_case(seed, turn),
        6 => {
            let case = viewer_case(seed, turn);
            Case::new(case.name, case.bytes, None)
        }
        7 => {
            let case = edit_case(seed, turn);
            Case::new(case.name, case.file, None)
        }
        _ if turn % 2 == 0 => with_own(of_turn(SOUND + 2), rng),
        _ => limit_file(turn / 2),
    }
}

/// The limit cases one after another, those of one byte order and then those of the other.
fn limit_file(turn: u64) -> Case {
    let (turn, count) = (turn as usize, limit_count());
    let [lsb, msb] = limit(turn % count);
    match turn / count % 2 {
        0 => lsb,
        _ => msb,
    }
}

/// A sound file with some private tuples that count as its own.
fn with_own(mut case: Case, rng: &mut Rng) -> Case {
    if let Some(host) = Host::of(&case.bytes) {
        case.bytes = Partners::putting(&case.bytes, host.draw(rng)).after;
    }
    case
}

/// Private tuples put into a file.
fn compare_put_in(
    batch: &mut Batch,
    about: &str,
    file: &[u8],
    places: Option<Places>,
    rng: &mut Rng,
) -> io::Result<()> {
    let Some(host) = Host::of(file) else {
        return Ok(());
    };
    let partners = Partners::putting(file, host.draw(rng));
    let about = format!("{about}, put in");
    compare_both(batch, about, &partners, places, rng)
}

/// A file's own private tuples taken out, some or all, where it has any.
fn compare_taken_out(batch: &mut Batch, about: &str, file: &[u8], rng: &mut Rng) -> io::Result<()> {
    let own = walked(file).map(|(_, tuple)| tuple).filter(is_private);
    let own: Vec<Tuple> = own.collect();
    let all = rng.chance(40);
    let mut taken = own.clone();
    taken.retain(|_| all || rng.chance(50));
    if taken.is_empty() {
        return Ok(());
    }
    let what = match taken.len() < own.len() {
        true => SOME_TAKEN,
        false => ALL_TAKEN,
    };
    met(batch, file, what);
    let partners = Partners::taking(file, &taken);
    let about = format!("{about}, taken out");
    compare_both(batch, about, &partners, None, rng)
}

/// As many private tuples as a file has room for.
fn compare_full(batch: &mut Batch, order: Order) -> io::Result<()> {
    let cases = (0..).map(|number| energy_case(0, number));
    let mut cases = cases.filter(|case| Order::of(&case.bytes) == Some(order));
    let Some(case) = cases.find(|case| check(&case.bytes).is_accepted()) else {
        return Ok(());
    };
    let mut rng = Rng::new(0);
    let Some(host) = Host::of(&case.bytes) else {
        return Ok(());
    };
    let partners = Partners::putting(&case.bytes, host.fill(&mut rng));
    let about = format!("private tuples up to the limit, {}", case.name);
    compare_both(batch, about, &partners, None, &mut rng)
}

/// All calls without the private tuples, the same with them, and these beside the second
/// program, in brief or at these places.
fn compare_both(
    batch: &mut Batch,
    about: String,
    partners: &Partners,
    places: Option<Places>,
    rng: &mut Rng,
) -> io::Result<()> {
    batch.start(about.clone(), &partners.after);
    compare_under_map(batch, partners, rng)?;
    note(batch, partners);
    let case = Case::new(about, partners.after.clone(), Some((0, 0)));
    match places {
        Some(places) => compare_file(batch, &case, places, rng)?,
        None => compare_whole(batch, &case)?,
    };
    batch.run()
}

/// Makes all calls about the file without private tuples, hears what they give, and makes them
/// about the file with these.
fn compare_under_map(batch: &mut Batch, partners: &Partners, rng: &mut Rng) -> io::Result<()> {
    // what is heard is what is asked from here on
    batch.run()?;
    let asked = questions(&partners.before, rng);
    let rewritten = rewritings(partners, rng);
    let mut before = File::new(&partners.before);
    for question in &asked {
        question.ask(batch, &mut before);
    }
    for rewriting in &rewritten {
        rewriting.ask(batch, &mut before);
    }
    let left = batch.hear()?;
    let (told, results) = left.split_at(asked.len());
    // the check, and the index
    if told[0].answer[CODE] != 0 || results[0].answer[CODE] != 0 {
        batch.differ("the archive refuses the file without private tuples");
        return Ok(());
    }
    note_compared(batch, partners, &told[0]);
    batch.beside = BY_THE_MAP;
    compare_answers(batch, partners, &asked, told)?;
    compare_results(batch, partners, &rewritten, results, rng)?;
    batch.run()?;
    batch.beside = SECOND;
    Ok(())
}

/// What the calls tell that write no file, and the walks over the private tuples.
fn compare_answers(
    batch: &mut Batch,
    partners: &Partners,
    asked: &[Question],
    told: &[Left],
) -> io::Result<()> {
    let mut after = File::new(&partners.after);
    let mut accepted = BTreeSet::new();
    for (question, left) in asked.iter().zip(told) {
        let numbers = question.ask_again(batch, &mut after, partners, left);
        if numbers[CODE] == 0 {
            accepted.insert(question.name());
            if question.name() == "settings" {
                note_settings(batch, partners, left);
            }
        }
        batch.rest()?;
    }
    for name in accepted {
        met(batch, &partners.after, &accepted_met(name));
    }
    step_over(batch, &mut after, partners)
}

/// What the calls write that write a file, of which the first is its index; and edits of private
/// tuples alone.
fn compare_results(
    batch: &mut Batch,
    partners: &Partners,
    rewritten: &[Rewriting],
    results: &[Left],
    rng: &mut Rng,
) -> io::Result<()> {
    let mut after = File::new(&partners.after);
    for (rewriting, left) in rewritten.iter().zip(results) {
        let numbers = rewriting.ask_again(batch, &mut after, partners, left);
        if numbers[CODE] == 0 {
            met(batch, &partners.after, &accepted_met(rewriting.name()));
        }
        if let Rewriting::Normal = rewriting {
            note_normal(batch, partners, &numbers);
        }
        batch.rest()?;
    }
    let Some(host) = Host::of(&partners.before) else {
        return Ok(());
    };
    let other = host.draw_one(rng, 0);
    let nth = rng.index(partners.puts.len());
    let mut before = File::new(&partners.before);
    let files = [&mut before, &mut after];
    let codes = edit_private(batch, files, partners, nth, &other, &results[0])?;
    note_edits(batch, partners, &results[0], codes);
    Ok(())
}
