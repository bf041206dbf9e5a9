//! Request i of 02: echo energy per ping.

use crate::answer::{Answer, Reply};
use crate::check::survey;
use crate::natural::Natural;
use crate::parents::{asked_ping, linked_pings, LinkedPing};
use crate::quantity::Quantity;
use std::sync::OnceLock;

/// Values are stepped down to multiples of 0.05 dB, of which 1 dB has so many.
const STEPS_PER_DB: i32 = 20;

/// As many of them are 10 dB, and the table has an entry for each; it is also the power to
/// which entries are raised.
const STEPS: u32 = 200;

/// The 200th power of the entry of k is at most 10 to the k + 1200.
const FIRST_EXPONENT: u32 = 1200;

/// An entry is in units of 10^-6 of its 10 dB, and a sum in units of 10^-14.
const SHIFT: u32 = 8;

/// The quietest value that is added, in dB; the loudest is 0.
const QUIETEST: i32 = -150;

/// The largest whole number whose 200th power is at most a bound. Those of the table have at
/// most 24 bits, which are found from the highest on.
fn root(bound: &Natural) -> u32 {
    (0..24).rev().fold(0, |root, bit| {
        let tried = root | 1 << bit;
        if Natural::from(tried).power(STEPS) <= *bound {
            tried
        } else {
            root
        }
    })
}

/// 02's table, in whole numbers throughout.
fn entries() -> Vec<u64> {
    let ten = Natural::from(10);
    let bounds = (0..STEPS).map(|k| ten.power(FIRST_EXPONENT + k));
    bounds.map(|bound| root(&bound).into()).collect()
}

/// The linear value of so many steps below 0 dB: of -10 m dB and k steps more.
fn linear(entries: &[u64], below: u32) -> u64 {
    let m = below.div_ceil(STEPS);
    let k = m * STEPS - below;
    let entry = entries[k as usize];
    if m <= SHIFT {
        entry * 10u64.pow(SHIFT - m)
    } else {
        entry / 10u64.pow(m - SHIFT)
    }
}

/// The linear values of all steps from 0 dB down to the quietest, worked out once.
fn linears() -> &'static [u64] {
    static LINEARS: OnceLock<Vec<u64>> = OnceLock::new();
    LINEARS.get_or_init(|| {
        let entries = entries();
        let last = (-QUIETEST * STEPS_PER_DB) as u32;
        (0..=last).map(|below| linear(&entries, below)).collect()
    })
}

/// The energy of values that have so many units to a dB, or the place in the list of the
/// first one outside the limits. At most 32,764 times 10^14 is far inside 64 bits.
fn sum(values: &[i32], per_db: i32) -> Result<u64, usize> {
    let inside = QUIETEST * per_db..=0;
    if let Some(nth) = values.iter().position(|value| !inside.contains(value)) {
        return Err(nth);
    }
    let linears = linears();
    let step = (per_db / STEPS_PER_DB) as u32;
    // a step down is one more below 0, and a multiple stays
    let below = |value: &i32| value.unsigned_abs().div_ceil(step) as usize;
    Ok(values.iter().map(|value| linears[below(value)]).sum())
}

/// 28 at the ping, then 29 at the value's place in the list of samples.
fn ping_energy(ping: &LinkedPing) -> Result<u64, Answer> {
    let sv = Quantity::of(ping.channel).filter(|quantity| *quantity == Quantity::Sv);
    let per_db = sv.and_then(|sv| sv.units(ping.kind.row().family));
    let per_db = per_db.ok_or(Answer::refused(28, ping.place))?;
    let (_, values) = ping.samples();
    sum(&values, per_db).map_err(|nth| Answer::refused(29, nth as u64))
}

/// The echo energy of the ping at a place, in units of 10^-14: the linear values of its
/// samples added up, and 0 for a silent ping.
///
/// Accepts as asking for the ping's channel does, with the file's number of tuples and the
/// check's comparisons. Refuses as that does; then by 28 at the ping, of angles or of a
/// channel that isn't Sv; then by 29 for the first value outside -150 to 0 dB, at its place
/// in the list of samples, from 0.
pub fn energy(file: &[u8], place: u64) -> Reply<u64> {
    let survey = survey(file)?;
    let ping = asked_ping(&survey, file, place)?;
    Ok((survey.accepted(0), ping_energy(&ping)?))
}

/// The energies of all pings: one entry in each slice for each listed ping, in file order.
/// `places` gets its place, `energies` its energy, `codes` 0; or 0 and the code, 28 or 29,
/// where asking for that ping alone is refused.
///
/// Accepts with the file's number of tuples, the number of pings as length and the check's
/// comparisons; entries past the pings stay. The check's refusals, then 19 at 0 where a
/// slice has too few entries; a refusal leaves all of them.
pub fn energies(
    file: &[u8],
    places: &mut [u64],
    energies: &mut [u64],
    codes: &mut [u32],
) -> Answer {
    let survey = match survey(file) {
        Ok(survey) => survey,
        Err(refusal) => return refusal,
    };
    let pings = linked_pings(&survey, file);
    let room = places.len().min(energies.len()).min(codes.len());
    if room < pings.len() {
        return Answer::refused(19, 0);
    }
    for (nth, ping) in pings.iter().enumerate() {
        let told = ping_energy(ping);
        places[nth] = ping.place;
        energies[nth] = told.unwrap_or(0);
        codes[nth] = told.map_or_else(|refusal| refusal.code, |_| 0);
    }
    survey.accepted(pings.len() as u64)
}
