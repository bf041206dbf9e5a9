//! Times salvage: of a sound cruise, of one with damaged blocks, of rubbish, and of files
//! made to take long. The proved library's and the second program's on 1 MiB, where what
//! they say is held together; the proved library's on 16 MiB, and the second program's
//! there only where nobody meant harm, for it reads each ping from its start to its end.

use crate::crafted::{crafted, Make};
use crate::deposits;
use hac::{Refusal, FILE_LIMIT};
use std::hint::black_box;
use std::time::Instant;

/// The bytes of the shorter files.
const SHORT: usize = 1 << 20;

/// A range takes three entries; two of them, of one tuple and one offset, have no fewer
/// bytes than these.
const RANGE: usize = 3;
const TWO_RANGES: usize = 20;

/// What salvage tells: tuples kept, bytes written, ranges and offsets tried.
type Told = [usize; 4];

/// Memory lent to salvage, enough for every file.
struct Lent {
    out: Vec<u8>,
    table: Vec<usize>,
}

impl Lent {
    fn new() -> Lent {
        let ranges = 2 * FILE_LIMIT / TWO_RANGES + 2;
        Lent {
            out: vec![0; FILE_LIMIT],
            table: vec![0; RANGE * ranges],
        }
    }

    /// The proved library's salvage.
    fn proved(&mut self, file: &[u8]) -> Option<Told> {
        let told = hac::salvage_into(file, &mut self.out, &mut self.table).ok()?;
        Some([told.tuples, told.length, told.ranges, told.tried])
    }

    /// The second program's.
    fn second(&mut self, file: &[u8]) -> Option<Told> {
        let (answer, told) = second::salvage(file, &mut self.out, &mut self.table).ok()?;
        let numbers = [answer.tuples, answer.length, told.ranges, told.tried];
        Some(numbers.map(|number| number as usize))
    }

    /// What was written, of what was told.
    fn written(&self, told: Told) -> (&[u8], &[usize]) {
        (&self.out[..told[1]], &self.table[..RANGE * told[2]])
    }
}

/// Both, in memory of their own.
struct Both {
    proved: Lent,
    second: Lent,
}

/// What a call gives, and its seconds.
fn timed<T>(call: impl FnOnce() -> T) -> (T, f64) {
    let start = Instant::now();
    let given = black_box(call());
    (given, start.elapsed().as_secs_f64())
}

impl Both {
    /// The seconds of both on a file, of which they must say and write the same.
    fn times(&mut self, name: &str, file: &[u8]) -> Result<[f64; 2], String> {
        let (told, proved) = timed(|| self.proved.proved(black_box(file)));
        let (other, second) = timed(|| self.second.second(black_box(file)));
        match (told, other) {
            (Some(told), Some(other))
                if told == other && self.proved.written(told) == self.second.written(other) =>
            {
                Ok([proved, second])
            }
            _ => Err(format!("{name}: the two differ, {told:?} and {other:?}")),
        }
    }

    fn show(&mut self, name: &str, make: &Make, crafted: bool) -> Result<(), String> {
        let [proved, second] = self.times(name, &make(SHORT))?;
        let file = make(FILE_LIMIT);
        let (long, beside) = if crafted {
            let (told, seconds) = timed(|| self.proved.proved(black_box(&file)));
            told.ok_or_else(|| format!("{name}: nothing was salvaged"))?;
            (seconds, "-".to_string())
        } else {
            let [proved, second] = self.times(name, &file)?;
            (proved, format!("{second:.3}"))
        };
        println!("{name:30} {proved:8.3} {second:8.3} | {long:8.3} {beside:>8}");
        Ok(())
    }
}

/// Of no ill will: a cruise, the same with damaged blocks, and rubbish.
fn met() -> [(&'static str, Make); 4] {
    let plain = |make: fn(usize) -> Result<Vec<u8>, Refusal>| -> Make {
        Box::new(move |limit| make(limit).unwrap_or_else(|refusal| panic!("{refusal}")))
    };
    [
        ("sound cruise, LSB", plain(deposits::sound_lsb)),
        ("sound cruise, MSB", plain(deposits::sound_msb)),
        ("cruise with zeroed blocks", plain(deposits::zeroed)),
        ("rubbish", Box::new(deposits::rubbish)),
    ]
}

pub fn show() -> Result<(), String> {
    println!("salvage, in seconds, once each");
    println!(
        "{:30} {:>8} {:>8} | {:>8} {:>8}",
        "deposit", "1 MiB", "second", "16 MiB", "second"
    );
    let mut both = Both {
        proved: Lent::new(),
        second: Lent::new(),
    };
    for (name, make) in met() {
        both.show(name, &make, false)?;
    }
    for (name, make) in crafted() {
        both.show(&name, &make, true)?;
    }
    Ok(())
}
