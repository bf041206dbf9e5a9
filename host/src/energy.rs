//! Echo energies: what integration adds up, in linear units of 10^-14.

use crate::answer::{Code, Refusal};
use crate::call::{self, HAC_COMPARED, HAC_TUPLES};
use crate::field::told;
use crate::file::{most_pings, Counts, Filled};

/// The echo energy of a ping.
#[derive(Clone, Copy, Debug, PartialEq, Eq)]
pub struct Energy {
    /// The linear values of its samples added up, in units of 10^-14; 0 of a silent ping.
    pub units: u64,
    /// How many tuples the file has.
    pub tuples: usize,
    /// How many identifiers are compared while the file is linked, as
    /// [`crate::Counts`] has it.
    pub compared: usize,
}

/// The energy of the ping at a place. Refuses as [`crate::ask`] does; then by 28 at the ping
/// where it has angles or its channel isn't Sv; then by 29 for the first value outside -150
/// to 0 dB, at its place in the ping's list of samples. [`crate::ping_advice`] tells more of
/// each.
///
/// ```
/// // The sample of all encodings: a value of 0 dB, which is 10^14 units, and softer ones; and
/// // a silent ping.
/// let file = std::fs::read("../samples/encodings-normal.hac")?;
/// assert_eq!(hac::energy(&file, 1040)?.units / 100_000_000_000_000, 1);
/// assert_eq!(hac::energy(&file, 1144)?.units, 0);
/// # Ok::<(), Box<dyn std::error::Error>>(())
/// ```
pub fn energy(file: &[u8], place: usize) -> Result<Energy, Refusal> {
    let answer = call::energy(file, place)?;
    Ok(Energy {
        units: answer[call::HAC_ENERGY_UNITS],
        tuples: told(&answer, HAC_TUPLES),
        compared: told(&answer, HAC_COMPARED),
    })
}

/// Tells the energies of all listed pings of a file, in file order, for one check, an entry
/// of each lent slice for each: the ping's place; its energy, and 0; or 0, and the code, 28
/// or 29, that [`energy`] gives there.
///
/// Refuses as [`crate::check`] does; then by 19 at 0 where one of the slices has fewer
/// entries than there are pings. A file has at most one ping for each 36 of its bytes.
pub fn energies_into(
    file: &[u8],
    places: &mut [usize],
    energies: &mut [u64],
    codes: &mut [u8],
) -> Result<Filled, Refusal> {
    Ok(Filled::of(call::energies(file, places, energies, codes)?))
}

/// The energy of one of a file's pings.
#[derive(Clone, Copy, Debug, PartialEq, Eq)]
pub struct PingEnergy {
    /// Where the ping starts.
    pub place: usize,
    /// Its energy, in units of 10^-14; or the code, 28 or 29, that [`energy`] gives there.
    pub energy: Result<u64, Code>,
}

/// The energies of a file's pings.
#[derive(Clone, Debug, PartialEq, Eq)]
pub struct Energies {
    /// What is counted in the file.
    pub counts: Counts,
    /// An energy for each listed ping, in file order.
    pub pings: Vec<PingEnergy>,
}

/// The energies of all listed pings of a file, in new memory. Refuses as [`energies_into`]
/// does, but never by 19.
///
/// ```
/// let file = std::fs::read("../samples/cruise-lsb.hac")?;
/// for ping in hac::energies(&file)?.pings {
///     let alone = hac::energy(&file, ping.place).map(|energy| energy.units);
///     assert_eq!(ping.energy, alone.map_err(|refusal| refusal.code));
/// }
/// # Ok::<(), Box<dyn std::error::Error>>(())
/// ```
pub fn energies(file: &[u8]) -> Result<Energies, Refusal> {
    let most = most_pings(file);
    let (mut places, mut energies, mut codes) = (vec![0; most], vec![0; most], vec![0; most]);
    let filled = energies_into(file, &mut places, &mut energies, &mut codes)?;
    let told = energies.into_iter().zip(codes);
    let pings = places.into_iter().zip(told).take(filled.entries);
    let pings = pings.map(|(place, (units, code))| PingEnergy {
        place,
        energy: Code::of(code).map_or(Ok(units), Err),
    });
    Ok(Energies {
        counts: Counts {
            tuples: filled.tuples,
            compared: filled.compared,
        },
        pings: pings.collect(),
    })
}
