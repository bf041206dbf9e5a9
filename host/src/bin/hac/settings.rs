//! `hac settings`: which threshold and which attitude held at each ping, a line each.

use crate::json::Object;
use crate::output::Output;
use crate::stop::Stop;

pub fn run(file: &[u8], output: &mut Output) -> Result<(), Stop> {
    for setting in hac::settings(file)? {
        let header = hac::read_ping(file, setting.ping)?.header;
        let channel = header.software_channel_identifier.0;
        output.tell(
            format_args!(
                "{:>8}  {channel:>5}  {:>10}  {:>8}  {:>8}",
                setting.ping,
                header.ping_number,
                place_or_dash(setting.threshold),
                place_or_dash(setting.attitude)
            ),
            || {
                Object::default()
                    .number("place", setting.ping)
                    .number("channel", channel)
                    .number("ping_number", header.ping_number)
                    .number_or_null("threshold_place", setting.threshold)
                    .number_or_null("attitude_place", setting.attitude)
            },
        )?;
    }
    Ok(())
}

/// A place as a line has it.
fn place_or_dash(place: Option<usize>) -> String {
    place.map_or("-".into(), |place| place.to_string())
}
