//! Times readings: a window of each ping of files of Sv pings, of each kind with values; the
//! proved library's beside its own check, which each window has before it, and beside the
//! second program's. Both must show the same, bit for bit.

use crate::deposits::{self, Deposit, KIB};
use crate::{shortest, time};
use hac::Walk;
use std::hint::black_box;

/// Each thing is done so often, in turn with the others; the shortest time counts.
const ROUNDS: usize = 25;

/// The bytes of a file: each window checks it whole.
const FILE: usize = 256 * KIB;

/// A window: as many numbers as a screen has lines, from a first one on, so that it starts
/// among the samples.
const FIRST: usize = 500;
const LINES: usize = 1000;

/// What is lent: cases and doubles.
struct Lent {
    cases: Vec<u8>,
    doubles: Vec<f64>,
}

impl Lent {
    fn new() -> Lent {
        Lent {
            cases: vec![0; LINES],
            doubles: vec![0.0; LINES],
        }
    }

    /// The proved library's window of a ping; whether there is one.
    fn proved(&mut self, file: &[u8], place: usize) -> bool {
        hac::readings_into(file, place, FIRST, &mut self.cases, &mut self.doubles).is_ok()
    }

    /// The second program's.
    fn second(&mut self, file: &[u8], place: usize) -> bool {
        let (place, first) = (place as u64, FIRST as u64);
        second::readings(file, place, first, &mut self.cases, &mut self.doubles).is_accepted()
    }

    /// What was shown, the doubles as their bits.
    fn shown(&self) -> impl Iterator<Item = (u8, u64)> + '_ {
        let bits = self.doubles.iter().map(|double| double.to_bits());
        self.cases.iter().copied().zip(bits)
    }
}

/// Both, in memory of their own.
struct Both {
    proved: Lent,
    second: Lent,
}

impl Both {
    /// They show the same of a ping.
    fn agree(&mut self, file: &[u8], place: usize) -> bool {
        let both = self.proved.proved(file, place) && self.second.second(file, place);
        both && self.proved.shown().eq(self.second.shown())
    }

    /// The shortest times of a check for each ping, and of a window of each, both programs'.
    fn times(&mut self, file: &[u8], pings: &[usize]) -> [f64; 3] {
        let file = || black_box(file);
        let each = |call: &mut dyn FnMut(usize) -> bool| {
            time(1, || pings.iter().filter(|place| call(**place)).count())
        };
        shortest(ROUNDS, || {
            [
                each(&mut |_| hac::check(file()).is_ok()),
                each(&mut |place| self.proved.proved(file(), place)),
                each(&mut |place| self.second.second(file(), place)),
            ]
        })
    }

    fn show(&mut self, deposit: &Deposit) -> Result<(), String> {
        let file = &deposit.bytes;
        let pings = pings(file);
        if pings.iter().any(|place| !self.agree(file, *place)) {
            return Err(format!("{}: the two differ", deposit.name));
        }
        let times = self.times(file, &pings);
        let each = times.map(|seconds| seconds * 1e6 / pings.len() as f64);
        let [check, proved, second] = each;
        println!(
            "{:26} {:>5} {check:7.2} | {proved:8.2} {second:7.2} {:6.2}",
            deposit.name,
            pings.len(),
            second / proved
        );
        Ok(())
    }
}

/// The places of the pings of a file.
fn pings(file: &[u8]) -> Vec<usize> {
    let places = Walk::START.forwards(file).flatten();
    let places = places.map(|tuple| tuple.place);
    places
        .filter(|place| hac::read_ping(file, *place).is_ok())
        .collect()
}

pub fn show() -> Result<(), String> {
    println!(
        "Sv pings of files of {} KiB, a window of {LINES} numbers of each: microseconds a window, \
         the best of {ROUNDS}; ratio: the second program's time over the proved library's",
        FILE / KIB
    );
    println!(
        "{:26} {:>5} {:>7} | {:>8} {:>7} {:>6}",
        "deposit", "pings", "check", "readings", "second", "ratio"
    );
    let mut both = Both {
        proved: Lent::new(),
        second: Lent::new(),
    };
    let deposits = deposits::echoes(FILE).map_err(|refusal| refusal.to_string())?;
    deposits.iter().try_for_each(|deposit| both.show(deposit))
}
