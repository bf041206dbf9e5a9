//! `hac parents`: the channel and the sounder of a ping, what the channel says of its
//! samples, and who made both.

use crate::json::Object;
use crate::output::Output;
use crate::stop::Stop;

pub fn run(file: &[u8], place: usize, output: &mut Output) -> Result<(), Stop> {
    let parents = hac::ask(file, place)?;
    // the sounder's too: an accepted file has no channel with the other maker's
    let maker = hac::maker_at(file, parents.channel_place).expect("a listed channel");
    output.tell(
        format_args!(
            "channel {} at {}, sampling rate {}, type of data sample {}, echosounder {} at {}, \
             maker {maker}",
            parents.channel.0,
            parents.channel_place,
            parents.sampling_rate,
            parents.type_of_data_sample,
            parents.sounder.0,
            parents.sounder_place
        ),
        || {
            Object::default()
                .number("channel", parents.channel.0)
                .number("channel_place", parents.channel_place)
                .number("sampling_rate", parents.sampling_rate)
                .number("type_of_data_sample", parents.type_of_data_sample)
                .number("sounder", parents.sounder.0)
                .number("sounder_place", parents.sounder_place)
                .text("maker", maker.name())
        },
    )?;
    Ok(())
}
