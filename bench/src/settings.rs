//! Times settings: of deposits of 16 MiB of short pings with thresholds and attitudes
//! between them, the proved library's beside its own check and beside the second
//! program's. Both must tell the same. That a tuple takes no longer where there are many
//! channels shows that none of them is looked for among the others.

use crate::deposits::{self, Deposit, MOST_PINGS};
use crate::{shortest, time};
use std::hint::black_box;

/// Each thing is done so often, in turn with the others; the shortest time counts.
const ROUNDS: usize = 9;

/// The three slices: pings, thresholds and attitudes.
struct Lent<T>([Vec<T>; 3]);

impl<T: Copy + Default> Lent<T> {
    fn new() -> Lent<T> {
        Lent([(); 3].map(|()| vec![T::default(); MOST_PINGS]))
    }
}

impl Lent<usize> {
    /// The proved library's settings: tuples, pings and identifiers compared.
    fn proved(&mut self, file: &[u8]) -> Option<[usize; 3]> {
        let [pings, thresholds, attitudes] = &mut self.0;
        let told = hac::settings_into(file, pings, thresholds, attitudes).ok()?;
        Some([told.tuples, told.entries, told.compared])
    }
}

impl Lent<u64> {
    /// The second program's.
    fn second(&mut self, file: &[u8]) -> Option<[usize; 3]> {
        let [pings, thresholds, attitudes] = &mut self.0;
        let answer = second::settings(file, pings, thresholds, attitudes);
        let told = [answer.tuples, answer.length, answer.compared];
        let told = told.map(|number| number as usize);
        answer.is_accepted().then_some(told)
    }
}

/// Both, in memory of their own.
struct Both {
    proved: Lent<usize>,
    second: Lent<u64>,
}

impl Both {
    /// They tell and write the same of a deposit.
    fn agree(&mut self, file: &[u8]) -> bool {
        let told = self.proved.proved(file);
        let same = told.is_some() && told == self.second.second(file);
        let slices = self.proved.0.iter().zip(&self.second.0);
        let mut entries = slices.flat_map(|(one, other)| one.iter().zip(other));
        same && entries.all(|(one, other)| *one as u64 == *other)
    }

    /// The shortest times of the check, of settings and of the second program's.
    fn times(&mut self, file: &[u8]) -> [f64; 3] {
        shortest(ROUNDS, || {
            [
                time(1, || hac::check(black_box(file))),
                time(1, || self.proved.proved(black_box(file))),
                time(1, || self.second.second(black_box(file))),
            ]
        })
    }

    fn show(&mut self, deposit: &Deposit) -> Result<(), String> {
        let file = &deposit.bytes;
        if !self.agree(file) {
            return Err(format!("{}: the two differ", deposit.name));
        }
        let times = self.times(file);
        let tuples = deposit.tuples() as f64;
        let [check, proved, second] = times.map(|seconds| seconds * 1e9 / tuples);
        println!(
            "{:26} {check:7.2} | {proved:8.2} {second:7.2} {:6.2} | {:9.2}",
            deposit.name,
            second / proved,
            times[1] * 1e3
        );
        Ok(())
    }
}

pub fn show() -> Result<(), String> {
    println!(
        "40-byte pings with settings between them: ns a tuple, the best of {ROUNDS}; ratio: the \
         second program's time over the proved library's"
    );
    println!(
        "{:26} {:>7} | {:>8} {:>7} {:>6} | {:>9}",
        "deposit", "check", "settings", "second", "ratio", "ms a file"
    );
    let mut both = Both {
        proved: Lent::new(),
        second: Lent::new(),
    };
    let deposits = deposits::set().map_err(|refusal| refusal.to_string())?;
    deposits.iter().try_for_each(|deposit| both.show(deposit))
}
