//! Settings: which threshold and which attitude held at each ping.

use crate::answer::Refusal;
use crate::call;
use crate::file::{most_pings, Filled};

/// Tells which settings held at each listed ping of a file, in file order, an entry of each
/// lent slice for each: the ping's place; that of the last threshold before it for its
/// channel; that of the last attitude before it for its channel or for all
/// ([`crate::SoftwareChannel::ALL`]). 0, where no tuple starts, is for none. Where a tuple
/// stands decides what comes last, and no clock does.
///
/// Refuses as [`crate::check`] does; then by 19 at 0 where one of the slices has fewer
/// entries than there are pings. A file has at most one ping for each 36 of its bytes.
pub fn settings_into(
    file: &[u8],
    pings: &mut [usize],
    thresholds: &mut [usize],
    attitudes: &mut [usize],
) -> Result<Filled, Refusal> {
    Ok(Filled::of(call::settings(
        file, pings, thresholds, attitudes,
    )?))
}

/// The settings that held at a ping.
#[derive(Clone, Copy, Debug, PartialEq, Eq)]
pub struct Setting {
    /// Where the ping starts.
    pub ping: usize,
    /// Where the last threshold before it starts that is for its channel, if there is one.
    pub threshold: Option<usize>,
    /// Where the last attitude before it starts that is for its channel or for all, if
    /// there is one.
    pub attitude: Option<usize>,
}

/// The place that an entry tells; 0 stands for none.
fn place_of(told: usize) -> Option<usize> {
    (told != 0).then_some(told)
}

/// The settings that held at each listed ping of a file, in file order, in new memory.
/// Refuses as [`settings_into`] does, but never by 19.
///
/// ```
/// // The sample cruise: for channel 3 it has an attitude and no threshold.
/// let file = std::fs::read("../samples/cruise-lsb.hac")?;
/// let setting = hac::settings(&file)?[2];
/// let header = hac::read_ping(&file, setting.ping)?.header;
/// assert_eq!(header.software_channel_identifier, hac::SoftwareChannel(3));
/// assert_eq!(setting.threshold, None);
/// let place = setting.attitude.expect("an attitude");
/// let attitude = hac::Attitude::read(&file, place)?;
/// assert_eq!(attitude.software_channel_identifier, hac::SoftwareChannel(3));
/// # Ok::<(), Box<dyn std::error::Error>>(())
/// ```
pub fn settings(file: &[u8]) -> Result<Vec<Setting>, Refusal> {
    let [mut pings, mut thresholds, mut attitudes] = [(); 3].map(|()| vec![0; most_pings(file)]);
    let filled = settings_into(file, &mut pings, &mut thresholds, &mut attitudes)?;
    let held = thresholds.into_iter().zip(attitudes);
    let settings = pings.into_iter().zip(held).take(filled.entries);
    let settings = settings.map(|(ping, (threshold, attitude))| Setting {
        ping,
        threshold: place_of(threshold),
        attitude: place_of(attitude),
    });
    Ok(settings.collect())
}
