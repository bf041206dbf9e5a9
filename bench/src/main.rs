//! Times the check and the normal form of deposits of 16 MiB, of pings that end in
//! silence, of the other ping encodings, of short pings on many channels and of small
//! files, the proved library's beside the second program's and beside a plain copy of
//! the same bytes, and reading one record, in one run; with `records`, the last alone;
//! with `count`, counts the instructions of the calls on deposits, but for the short
//! pings; with `salvage`, times salvage of sound, damaged and crafted files; with
//! `settings`, times the settings of deposits of short pings with thresholds and attitudes
//! between them, on few and on many channels; with `energies`, times the echo energies of
//! deposits of Sv pings of each kind with values; with `readings`, times windows of each
//! ping of such files. docs/SPEED.md says what was measured, and how.

mod count;
mod crafted;
mod deposits;
mod energies;
mod readings;
mod records;
mod salvage;
mod settings;

use deposits::Deposit;
use hac::{Refusal, FILE_LIMIT};
use std::hint::black_box;
use std::time::Instant;

/// Each thing is done so often, in turn with the others; the shortest time
/// counts.
const ROUNDS: usize = 25;

/// What a table says of a call.
struct Unit {
    name: &'static str,
    /// What is said of a call on a deposit that took so many seconds.
    of: fn(&Deposit, f64) -> f64,
    /// So many calls in a row are timed together: the clock is too coarse for a
    /// short one.
    calls: u32,
}

const SPEED: Unit = Unit {
    name: "GB/s",
    of: |deposit, seconds| deposit.bytes.len() as f64 / seconds / 1e9,
    calls: 1,
};

const PER_TUPLE: Unit = Unit {
    name: "40-byte pings: ns a tuple",
    of: |deposit, seconds| seconds * 1e9 / deposit.tuples() as f64,
    calls: 1,
};

const PER_CALL: Unit = Unit {
    name: "small files of 28-byte tuples: microseconds a call",
    of: |_, seconds| seconds * 1e6,
    calls: 1000,
};

/// The time of one call among some in a row, in seconds.
fn time<T>(calls: u32, mut call: impl FnMut() -> T) -> f64 {
    let start = Instant::now();
    for _ in 0..calls {
        black_box(call());
    }
    start.elapsed().as_secs_f64() / f64::from(calls)
}

/// The shortest time of each of some calls, made so often, in turn with the others.
fn shortest<const CALLS: usize>(
    rounds: usize,
    mut times: impl FnMut() -> [f64; CALLS],
) -> [f64; CALLS] {
    let mut best = [f64::MAX; CALLS];
    for _ in 0..rounds {
        for (best, time) in best.iter_mut().zip(times()) {
            *best = best.min(time);
        }
    }
    best
}

/// The shortest times of what is compared.
struct Times {
    copy: f64,
    check: [f64; 2],
    normal: [f64; 2],
}

impl Times {
    fn of(file: &[u8], calls: u32) -> Times {
        let mut out = vec![0; FILE_LIMIT];
        let mut copy = vec![0; file.len()];
        let file = || black_box(file);
        let [copy, check, check_second, normal, normal_second] = shortest(ROUNDS, || {
            [
                time(calls, || black_box(&mut copy).copy_from_slice(file())),
                time(calls, || hac::check(file())),
                time(calls, || second::check(file())),
                time(calls, || hac::normalise(file(), &mut out)),
                time(calls, || second::normalise(file(), &mut out)),
            ]
        });
        Times {
            copy,
            check: [check, check_second],
            normal: [normal, normal_second],
        }
    }
}

/// Both say the same of a deposit, and what its name says.
fn agree(deposit: &Deposit) -> bool {
    let file = &deposit.bytes;
    let said = second::check(file);
    let same = match hac::check(file) {
        Ok(counts) => {
            let told = (counts.tuples as u64, counts.compared as u64);
            said.is_accepted() && told == (said.tuples, said.compared)
        }
        Err(refusal) => {
            u32::from(refusal.code.number()) == said.code && refusal.place as u64 == said.place
        }
    };
    let (mut out, mut other) = (vec![0; FILE_LIMIT], vec![0; FILE_LIMIT]);
    let taken = hac::normalise(file, &mut out).is_ok();
    second::normalise(file, &mut other);
    same && taken == deposit.taken && out == other
}

fn show(deposit: &Deposit, unit: &Unit) {
    let times = Times::of(&deposit.bytes, unit.calls);
    let said = |seconds: f64| (unit.of)(deposit, seconds);
    let pair = |[proved, second]: [f64; 2]| {
        let (a, b) = (said(proved), said(second));
        format!("{a:7.2} {b:7.2} {:6.2}", second / proved)
    };
    println!(
        "{:26} {:7.2} | {} | {}",
        deposit.name,
        said(times.copy),
        pair(times.check),
        pair(times.normal)
    );
}

fn table(unit: &Unit, deposits: Result<Vec<Deposit>, Refusal>) -> Result<(), String> {
    println!(
        "{}, the best of {ROUNDS}; ratio: the second program's time over the proved library's",
        unit.name
    );
    println!(
        "{:26} {:>7} | {:>7} {:>7} {:>6} | {:>7} {:>7} {:>6}",
        "deposit", "copy", "check", "second", "ratio", "normal", "second", "ratio"
    );
    for deposit in deposits.map_err(|refusal| refusal.to_string())? {
        if !agree(&deposit) {
            return Err(format!("{}: the two differ", deposit.name));
        }
        show(&deposit, unit);
    }
    println!();
    Ok(())
}

fn speeds() -> Result<(), String> {
    table(&SPEED, deposits::long())?;
    table(&SPEED, deposits::silence())?;
    table(&SPEED, deposits::encodings())?;
    table(&PER_TUPLE, deposits::linked())?;
    table(&PER_CALL, deposits::small())?;
    records::show()
}

fn main() -> Result<(), String> {
    let words: Vec<String> = std::env::args().skip(1).collect();
    let words: Vec<&str> = words.iter().map(String::as_str).collect();
    match words[..] {
        [] => speeds(),
        ["count"] => count::show(),
        ["once", call, path] => count::once(call, path),
        ["records"] => records::show(),
        ["salvage"] => salvage::show(),
        ["settings"] => settings::show(),
        ["energies"] => energies::show(),
        ["readings"] => readings::show(),
        _ => Err(format!(
            "bench [count | records | salvage | settings | energies | readings], not {}",
            words.join(" ")
        )),
    }
}
