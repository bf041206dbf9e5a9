//! What is compared of a ping looked for in a deposit and its corrections, with private tuples in
//! the one, in the other and in both: the same ping of the same file, at its place there.

use crate::answers::CODE;
use crate::batch::{Arg, Batch, SECOND};
use crate::corrections::compare_pair;
use crate::exports::export;
use crate::partners::{BY_THE_MAP, STREAM};
use crate::private::{Host, Partners};
use crate::tally::Chapter;
use second::gen::{correction_case, CorrectionCase, Rng};
use second::{check, Order};
use std::io;

/// Of a pair about so many questions are asked.
const QUESTIONS: usize = 8;

/// Where a ping was found, by its mark.
const MARKS: [&str; 3] = [
    "no ping",
    "a ping of the deposit",
    "a ping of the corrections",
];

/// Where a ping that was found has its mark and its place.
const MARK: usize = 5;
const FOUND: usize = 6;

/// A pair of accepted files: asked for pings without private tuples, with some in the deposit,
/// in the corrections and in both.
pub fn compare_found_pings(batch: &mut Batch, seed: u64, number: u64) -> io::Result<()> {
    let mut rng = Rng::of_case(seed ^ STREAM, !number);
    let mut case = correction_case(seed ^ STREAM, number);
    let files = [&case.deposit, &case.corrections];
    if !files.iter().all(|file| check(file).is_accepted()) {
        return Ok(());
    }
    let apart = case.questions.len().div_ceil(QUESTIONS);
    case.questions = case.questions.iter().copied().step_by(apart).collect();
    let [Some(deposit), Some(corrections)] = files.map(|file| Host::of(file)) else {
        return Ok(());
    };
    let both = [
        Partners::putting(&case.deposit, deposit.draw(&mut rng)),
        Partners::putting(&case.corrections, corrections.draw(&mut rng)),
    ];
    let name = &case.name;
    let about = format!("seed {seed}, pair with private tuples {number}, {name}");
    for partners in &both {
        batch.start(about.clone(), &partners.after);
    }
    batch.run()?;
    compare_found(batch, &case, &both)?;
    let [deposit, corrections] = both.map(|partners| partners.after);
    let with = CorrectionCase {
        deposit,
        corrections,
        ..case
    };
    compare_pair(batch, &with, &mut rng)?;
    batch.run()
}

/// Which of a pair's files have private tuples put in.
const PUT_IN: [(&str, [bool; 2]); 3] = [
    ("the deposit", [true, false]),
    ("the corrections", [false, true]),
    ("both", [true, true]),
];

fn compare_found(batch: &mut Batch, case: &CorrectionCase, both: &[Partners; 2]) -> io::Result<()> {
    let files = both.each_ref().map(|partners| &partners.before[..]);
    let [Some(deposit), Some(corrections)] = files.map(Order::of) else {
        return Ok(());
    };
    find_all(batch, case, files, |batch, _, arguments| {
        batch.ask(export("find_ping"), arguments);
    });
    let told = batch.hear()?;
    batch.beside = BY_THE_MAP;
    for (what, put_in) in PUT_IN {
        let file = |nth: usize| match put_in[nth] {
            true => &both[nth].after[..],
            false => &both[nth].before,
        };
        find_all(batch, case, [file(0), file(1)], |batch, nth, arguments| {
            let numbers = moved_found(&told[nth].answer, both, put_in);
            batch.call(export("find_ping"), arguments, &numbers);
            let mark = MARKS[numbers[MARK] as usize % MARKS.len()];
            let what = found_met(what, mark, [deposit, corrections]);
            batch.met_in(Chapter::Private, what);
        });
    }
    batch.run()?;
    batch.beside = SECOND;
    Ok(())
}

/// All questions of a pair, to each of its two files.
fn find_all(
    batch: &mut Batch,
    case: &CorrectionCase,
    files: [&[u8]; 2],
    mut call: impl FnMut(&mut Batch, usize, &[Arg]),
) {
    let [deposit, corrections] = files.map(|file| batch.give(file));
    for (nth, (channel, number)) in case.questions.iter().enumerate() {
        let arguments = [
            deposit.clone().into(),
            corrections.clone().into(),
            u64::from(*channel).into(),
            u64::from(*number).into(),
        ];
        call(batch, nth, &arguments);
    }
}

/// What must be found: the same ping of the same file, at its place there.
fn moved_found(answer: &[u64], both: &[Partners; 2], put_in: [bool; 2]) -> Vec<u64> {
    let mut numbers = answer.to_vec();
    let from = (numbers[MARK] as usize).checked_sub(1);
    if let (0, Some(nth @ 0..2)) = (numbers[CODE], from) {
        if put_in[nth] {
            numbers[FOUND] = both[nth].map.place(numbers[FOUND]);
        }
    }
    numbers
}

fn found_met(put_in: &str, mark: &str, [deposit, corrections]: [Order; 2]) -> String {
    format!("{mark}, private tuples in {put_in}, {deposit:?} beside {corrections:?}")
}

/// All that has to be met of these, in each of the four pairs of byte orders.
pub fn wanted() -> Vec<String> {
    let mut wanted = Vec::new();
    for (put_in, _) in PUT_IN {
        for mark in MARKS {
            for deposit in Order::BOTH {
                let orders = Order::BOTH.map(|corrections| [deposit, corrections]);
                wanted.extend(orders.map(|orders| found_met(put_in, mark, orders)));
            }
        }
    }
    wanted
}
