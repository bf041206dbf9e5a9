//! Times echo energies: of all pings of deposits of 16 MiB of Sv pings, of each kind with
//! values, and of the last ping alone; the proved library's beside its own check and beside
//! the second program's. Both must tell the same, and an energy of every ping.

use crate::deposits::{self, Deposit, MOST_PINGS};
use crate::{shortest, time};
use hac::FILE_LIMIT;
use std::hint::black_box;

/// Each thing is done so often, in turn with the others; the shortest time counts.
const ROUNDS: usize = 9;

/// The three slices, in the archive's codes or in the second program's.
struct Lent<Place, Code> {
    places: Vec<Place>,
    energies: Vec<u64>,
    codes: Vec<Code>,
}

impl<Place: Copy + Default, Code: Copy + Default> Lent<Place, Code> {
    fn new() -> Lent<Place, Code> {
        Lent {
            places: vec![Place::default(); MOST_PINGS],
            energies: vec![0; MOST_PINGS],
            codes: vec![Code::default(); MOST_PINGS],
        }
    }
}

impl Lent<usize, u8> {
    /// The proved library's energies: tuples, pings and identifiers compared.
    fn proved(&mut self, file: &[u8]) -> Option<[usize; 3]> {
        let Lent {
            places,
            energies,
            codes,
        } = self;
        let told = hac::energies_into(file, places, energies, codes).ok()?;
        Some([told.tuples, told.entries, told.compared])
    }

    /// The place of the last of so many pings, and its energy.
    fn last(&self, pings: usize) -> Option<(usize, u64)> {
        let last = pings.checked_sub(1)?;
        Some((self.places[last], self.energies[last]))
    }
}

impl Lent<u64, u32> {
    /// The second program's.
    fn second(&mut self, file: &[u8]) -> Option<[usize; 3]> {
        let Lent {
            places,
            energies,
            codes,
        } = self;
        let answer = second::energies(file, places, energies, codes);
        let told = [answer.tuples, answer.length, answer.compared];
        let told = told.map(|number| number as usize);
        answer.is_accepted().then_some(told)
    }
}

/// Both, in memory of their own.
struct Both {
    proved: Lent<usize, u8>,
    second: Lent<u64, u32>,
}

impl Both {
    /// The place of the last ping, where they tell and write the same of a deposit, an energy
    /// of every ping, and of the last one alone the energy that it has among all.
    fn agree(&mut self, file: &[u8]) -> Option<usize> {
        let told = self.proved.proved(file)?;
        let same = self.second.second(file) == Some(told);
        let (proved, second) = (&self.proved, &self.second);
        let mut places = proved.places.iter().zip(&second.places);
        let same = same
            && places.all(|(one, other)| *one as u64 == *other)
            && proved.energies == second.energies
            && proved.codes.iter().all(|code| *code == 0)
            && second.codes.iter().all(|code| *code == 0);
        let (last, units) = proved.last(told[1])?;
        let alone = hac::energy(file, last).ok()?.units;
        let (_, beside) = second::energy(file, last as u64).ok()?;
        (same && alone == units && beside == units).then_some(last)
    }

    /// The shortest times of the check; of all energies, both programs'; and of that at a
    /// place, both programs'.
    fn times(&mut self, file: &[u8], place: usize) -> [f64; 5] {
        let file = || black_box(file);
        shortest(ROUNDS, || {
            [
                time(1, || hac::check(file())),
                time(1, || self.proved.proved(file())),
                time(1, || self.second.second(file())),
                time(1, || hac::energy(file(), place)),
                time(1, || second::energy(file(), place as u64)),
            ]
        })
    }

    fn show(&mut self, deposit: &Deposit) -> Result<(), String> {
        let file = &deposit.bytes;
        let place = self.agree(file);
        let place = place.ok_or_else(|| format!("{}: the two differ", deposit.name))?;
        let [check, all, all_second, one, one_second] = self.times(file, place);
        let speed = |seconds: f64| file.len() as f64 / seconds / 1e9;
        let pair = |proved: f64, second: f64| {
            let (a, b) = (speed(proved), speed(second));
            format!("{a:8.2} {b:7.2} {:6.2}", second / proved)
        };
        println!(
            "{:26} {:7.2} | {} | {} | {:9.2}",
            deposit.name,
            speed(check),
            pair(all, all_second),
            pair(one, one_second),
            all * 1e3
        );
        Ok(())
    }
}

pub fn show() -> Result<(), String> {
    println!(
        "Sv pings: GB/s, the best of {ROUNDS}; energies: of all pings; energy: of the last one; \
         ratio: the second program's time over the proved library's"
    );
    println!(
        "{:26} {:>7} | {:>8} {:>7} {:>6} | {:>8} {:>7} {:>6} | {:>9}",
        "deposit", "check", "energies", "second", "ratio", "energy", "second", "ratio", "ms a file"
    );
    let mut both = Both {
        proved: Lent::new(),
        second: Lent::new(),
    };
    let deposits = deposits::echoes(FILE_LIMIT).map_err(|refusal| refusal.to_string())?;
    deposits.iter().try_for_each(|deposit| both.show(deposit))
}
