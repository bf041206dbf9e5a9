//! Chapter "Fields": a record, a reader and a writer for every listed type but the pings.
//!
//! Names and offsets are those of TR's tables; a test holds them against the
//! rows of `layout`, which are those of 01.

use crate::answer::{Answer, Reply};
use crate::layout::{self, is_identifier, HAC_IDENTIFIER, TUPLE_LIMIT};
use crate::links::{DocumentId, SoftwareChannel, TransceiverNumber};
use crate::order::{four_at, put_four, put_two, two_at, Order};
use crate::walk::{forward, mark, Step};

/// Width of the remarks of sounders and channels.
pub const REMARKS: usize = 30;

/// A number as it stands in a tuple.
pub(crate) trait Number: Copy {
    const WIDTH: usize;
    const SIGNED: bool;
    fn take(order: Order, tuple: &[u8], at: usize) -> Self;
    fn put(self, order: Order, tuple: &mut [u8], at: usize);
}

macro_rules! number {
    ($type:ty, $width:expr, $signed:expr, $take:ident, $put:ident, $from:expr, $to:expr) => {
        impl Number for $type {
            const WIDTH: usize = $width;
            const SIGNED: bool = $signed;
            fn take(order: Order, tuple: &[u8], at: usize) -> Self {
                $from($take(order, tuple, at))
            }
            fn put(self, order: Order, tuple: &mut [u8], at: usize) {
                $put(order, tuple, at, $to(self))
            }
        }
    };
}

number!(u16, 2, false, two_at, put_two, |n| n, |n| n);
number!(i16, 2, true, two_at, put_two, |n| n as i16, |n| n as u16);
number!(u32, 4, false, four_at, put_four, |n| n, |n| n);
number!(i32, 4, true, four_at, put_four, |n| n as i32, |n| n as u32);
number!(
    DocumentId,
    4,
    false,
    four_at,
    put_four,
    DocumentId,
    |n: DocumentId| n.0
);
number!(
    SoftwareChannel,
    2,
    false,
    two_at,
    put_two,
    SoftwareChannel,
    |n: SoftwareChannel| n.0
);
number!(
    TransceiverNumber,
    2,
    false,
    two_at,
    put_two,
    TransceiverNumber,
    |n: TransceiverNumber| n.0
);

/// The tuple of a listed type that a reader asks for: the step's refusals
/// (3 at the end), 9 for another type, 9 for an unfit length, then 8.
pub(crate) fn listed_tuple(
    file: &[u8],
    place: u64,
    asked: impl Fn(u16) -> bool,
) -> Result<(&[u8], u16, Order), Answer> {
    let order = mark(file).map_err(|code| Answer::refused(code, place))?;
    let tuple = match forward(file, place) {
        Step::Tuple { tuple, .. } => tuple,
        Step::End => return Err(Answer::refused(3, place)),
        Step::Refused(refusal) => return Err(refusal),
    };
    if !asked(tuple.code) {
        return Err(Answer::refused(9, place));
    }
    let bytes = tuple.bytes(file);
    judge_fields(bytes, tuple.code, order).map_err(|code| Answer::refused(code, place))?;
    Ok((bytes, tuple.code, order))
}

/// 9 and 8 of a framed tuple of any type.
pub(crate) fn judge_fields(tuple: &[u8], code: u16, order: Order) -> Result<(), u32> {
    match layout::layout(code) {
        Some(layout) if !layout.fits(tuple.len() as u64) => Err(9),
        Some(_) if code == layout::SIGNATURE && !is_identifier(two_at(order, tuple, 6)) => Err(8),
        _ => Ok(()),
    }
}

/// Writes size, type, attribute and backlink of a tuple as long as the slice
/// and puts 0 everywhere else.
pub(crate) fn write_frame(tuple: &mut [u8], code: u16, attribute: i32, order: Order) {
    let length = tuple.len();
    tuple.fill(0);
    put_four(order, tuple, 0, (length - 10) as u32);
    put_two(order, tuple, 4, code);
    put_four(order, tuple, length - 8, attribute as u32);
    put_four(order, tuple, length - 4, length as u32);
}

/// A record's field as the tests see it: offset, width, signed.
pub type FieldPlace = (usize, usize, bool);

/// Makes a record from a table: field, type and offset, then, behind an @, the
/// characters, if it has any, with their range in a tuple of some length.
macro_rules! record {
    (
        $(#[$doc:meta])*
        $name:ident $(<$life:lifetime>)? = $code:expr;
        $($field:ident: $type:ty = $offset:expr,)*
        $(@ $chars:ident: $range:expr,)?
    ) => {
        $(#[$doc])*
        #[derive(Clone, Copy, PartialEq, Eq, Debug)]
        pub struct $name $(<$life>)? {
            $(pub $field: $type,)*
            $(pub $chars: &$life [u8],)?
            pub tuple_attribute: i32,
        }

        impl $(<$life>)? $name $(<$life>)? {
            pub const CODE: u16 = $code;

            /// The numbers' offsets, widths and signs.
            pub const FIELDS: &'static [FieldPlace] = &[
                $(($offset, <$type as Number>::WIDTH, <$type as Number>::SIGNED),)*
            ];

            /// Reads the record at a place of a file.
            pub fn read(file: & $($life)? [u8], place: u64) -> Reply<Self> {
                let (tuple, _, order) = listed_tuple(file, place, |code| code == Self::CODE)?;
                Ok((Answer::accepted(1, 0), Self::take(tuple, order)))
            }

            fn take(tuple: & $($life)? [u8], order: Order) -> Self {
                $name {
                    $($field: <$type as Number>::take(order, tuple, $offset),)*
                    $($chars: &tuple[$range(tuple.len())],)?
                    tuple_attribute: four_at(order, tuple, tuple.len() - 8) as i32,
                }
            }

            /// Writes all but the characters into a tuple of the right length.
            fn put(&self, order: Order, tuple: &mut [u8]) {
                write_frame(tuple, Self::CODE, self.tuple_attribute, order);
                $(<$type as Number>::put(self.$field, order, tuple, $offset);)*
            }
        }
    };
}

/// Lends a tuple of some length at the start of the output: 19.
pub(crate) fn lend(out: &mut [u8], length: u64) -> Result<&mut [u8], Answer> {
    usize::try_from(length)
        .ok()
        .and_then(|length| out.get_mut(..length))
        .ok_or(Answer::refused(19, 0))
}

/// The writer of a record that refuses only by 19.
macro_rules! plain_writer {
    ($name:ident, $length:expr) => {
        impl $name {
            pub const LENGTH: u64 = $length;

            /// Writes the record in the order asked; refuses only by 19.
            pub fn write(&self, order: Order, out: &mut [u8]) -> Answer {
                match lend(out, Self::LENGTH) {
                    Ok(tuple) => {
                        self.put(order, tuple);
                        Answer::accepted(1, Self::LENGTH)
                    }
                    Err(refusal) => refusal,
                }
            }
        }
    };
}

record! {
    /// Table 18. Its identifier, at 6, is no field: which of the two known numbers
    /// a file has says nothing.
    Signature = layout::SIGNATURE;
    hac_version: u16 = 8,
    acquisition_software_version: u16 = 10,
    acquisition_software_identifier: u32 = 12,
}

impl Signature {
    pub const LENGTH: u64 = 24;

    /// Writes the record, always with 44204; refuses only by 19.
    pub fn write(&self, order: Order, out: &mut [u8]) -> Answer {
        match lend(out, Self::LENGTH) {
            Ok(tuple) => {
                self.put(order, tuple);
                put_two(order, tuple, 6, HAC_IDENTIFIER);
                Answer::accepted(1, Self::LENGTH)
            }
            Err(refusal) => refusal,
        }
    }
}

record! {
    /// Table 2.
    Echosounder<'a> = layout::SOUNDER;
    number_of_software_channels: u16 = 6,
    echosounder_document_identifier: DocumentId = 8,
    sound_speed: u16 = 12,
    ping_interval: u16 = 14,
    transmitter_attenuation_setting: i16 = 16,
    multiplexing_mode: u16 = 18,
    blanking_at_tvg_max_range: i16 = 20,
    tvg_max_range: u16 = 22,
    blanking_up_to_range: u16 = 24,
    calibrator_signal: i16 = 26,
    calibrator_mode: u16 = 28,
    calibrator_separator: u16 = 30,
    @ remarks: |_| 32..62,
}

record! {
    /// Table 4.
    Channel<'a> = layout::CHANNEL;
    software_channel_identifier: SoftwareChannel = 6,
    echosounder_document_identifier: DocumentId = 8,
    sampling_rate: u32 = 12,
    type_of_data_sample: u16 = 16,
    time_varied_gain_mode: u16 = 18,
    transceiver_channel_number: TransceiverNumber = 20,
    acoustic_frequency: u32 = 24,
    installation_depth_of_transducer: u32 = 28,
    alongship_angle_offset_of_the_transducer_face: i16 = 32,
    athwartship_angle_offset_of_the_transducer_face: i16 = 34,
    alongship_angle_offset_of_the_main_axis_of_the_acoustic_beam: i16 = 36,
    athwartship_angle_offset_of_the_main_axis_of_the_acoustic_beam: i16 = 38,
    absorption_of_sound: u16 = 40,
    pulse_length: u16 = 42,
    bandwidth: u16 = 44,
    calibration_source_level: u16 = 46,
    beamwidth_3_db_of_the_transducer_beam: u16 = 48,
    beam_pattern: u16 = 50,
    wide_beam_drop_off: u16 = 52,
    calibration_receiving_sensitivity: i16 = 54,
    receiver_gain: i16 = 56,
    bottom_detection_minimum_level: i16 = 58,
    bottom_window_min: u32 = 60,
    bottom_window_max: u32 = 64,
    @ remarks: |_| 68..98,
}

record! {
    /// Table 3. "Super layer: Start" is LONG at 30, a multiple of 2 alone.
    Ek500Sounder<'a> = layout::EK500_SOUNDER;
    number_of_software_channels: u16 = 6,
    echosounder_document_identifier: DocumentId = 8,
    sound_speed: u16 = 12,
    ping_mode: u16 = 14,
    ping_interval: u16 = 16,
    transmit_power: u16 = 18,
    noise_margin: u16 = 20,
    sample_range: u16 = 22,
    super_layer_type: u16 = 24,
    super_layer_number: u16 = 26,
    super_layer_range: u16 = 28,
    super_layer_start: i32 = 30,
    super_layer_margin: u16 = 34,
    super_layer_sv_threshold: i16 = 36,
    ek_500_version: u32 = 38,
    @ remarks: |_| 42..72,
}

record! {
    /// Table 5.
    Ek500Channel<'a> = layout::EK500_CHANNEL;
    software_channel_identifier: SoftwareChannel = 6,
    echosounder_document_identifier: DocumentId = 8,
    sampling_rate: u32 = 12,
    type_of_data_sample: u16 = 16,
    transceiver_channel_number: TransceiverNumber = 18,
    acoustic_frequency: u32 = 20,
    installation_depth_of_transducer: u32 = 24,
    alongship_angle_offset_of_the_transducer_face: i16 = 28,
    athwartship_angle_offset_of_the_transducer_face: i16 = 30,
    alongship_angle_offset_of_the_main_axis_of_the_acoustic_beam: i16 = 32,
    athwartship_angle_offset_of_the_main_axis_of_the_acoustic_beam: i16 = 34,
    absorption_of_sound: u16 = 36,
    pulse_length_mode: u16 = 38,
    bandwidth_mode: u16 = 40,
    max_power: u16 = 42,
    alongship_angle_sensitivity: u16 = 44,
    athwartship_angle_sensitivity: u16 = 46,
    alongship_3_db_beamwidth_of_the_transducer: u16 = 48,
    athwartship_3_db_beamwidth_of_the_transducer: u16 = 50,
    two_way_beam_angle: i16 = 52,
    calibration_transducer_gain: u16 = 54,
    bottom_detection_minimum_level: i16 = 56,
    bottom_window_min_depth: u32 = 60,
    bottom_window_max_depth: u32 = 64,
    @ remarks: |_| 68..98,
}

/// The writer of a record with remarks: 9 at 0 where these haven't their
/// field's width, then 19.
macro_rules! remarks_writer {
    ($name:ident, $length:expr, $remarks:expr) => {
        impl $name<'_> {
            pub const LENGTH: u64 = $length;

            /// Writes the record in the order asked: 9 for the remarks, 19.
            pub fn write(&self, order: Order, out: &mut [u8]) -> Answer {
                if self.remarks.len() != REMARKS {
                    return Answer::refused(9, 0);
                }
                match lend(out, Self::LENGTH) {
                    Ok(tuple) => {
                        self.put(order, tuple);
                        tuple[$remarks].copy_from_slice(self.remarks);
                        Answer::accepted(1, Self::LENGTH)
                    }
                    Err(refusal) => refusal,
                }
            }
        }
    };
}

remarks_writer!(Echosounder, 72, 32..62);
remarks_writer!(Channel, 108, 68..98);
remarks_writer!(Ek500Sounder, 80, 42..72);
remarks_writer!(Ek500Channel, 108, 68..98);

record! {
    /// Table 7; its time fraction is SHORT there, so signed.
    Position = layout::POSITION;
    time_fraction: i16 = 6,
    time_cpu_ansi_c_standard_time: u32 = 8,
    gps_time: u32 = 12,
    positioning_system: u16 = 16,
    latitude: i32 = 20,
    longitude: i32 = 24,
}
plain_writer!(Position, 36);

record! {
    /// Table 9.
    Navigation = layout::NAVIGATION;
    time_fraction: u16 = 6,
    time_cpu_ansi_c_standard_time: u32 = 8,
    navigation_system: u16 = 12,
    heading: i16 = 14,
    navigation_speed: u16 = 16,
}
plain_writer!(Navigation, 28);

record! {
    /// Table 10.
    Attitude = layout::ATTITUDE;
    time_fraction: u16 = 6,
    time_cpu_ansi_c_standard_time: u32 = 8,
    software_channel_identifier: SoftwareChannel = 12,
    platform_referred_to: u16 = 14,
    alongship_offset: i16 = 16,
    athwartship_offset: i16 = 18,
    pitch: i16 = 20,
    roll: i16 = 22,
    heave: i16 = 24,
}
plain_writer!(Attitude, 36);

record! {
    /// Table 8.
    Threshold = layout::THRESHOLD;
    time_fraction: u16 = 6,
    time_cpu_ansi_c_standard_time: u32 = 8,
    software_channel_identifier: SoftwareChannel = 12,
    tvg_max_range: u16 = 14,
    tvg_min_range: u16 = 16,
    tvt_evaluation_mode: u16 = 18,
    tvt_evaluation_interval: u16 = 20,
    tvt_evaluation_no_of_pings: u16 = 22,
    tvt_evaluation_starting_tvt_ping_number: u32 = 24,
    tvt_offset_parameter_or_constant_threshold: u32 = 28,
    tvt_amplification_parameter: u32 = 32,
}
plain_writer!(Threshold, 44);

record! {
    /// Table 11. The text is a part of the file that was read.
    EventMarker<'a> = layout::EVENT_MARKER;
    time_fraction: u16 = 6,
    time_cpu_ansi_c_standard_time: u32 = 8,
    @ text: |length| 12..length - 8,
}

impl EventMarker<'_> {
    /// Writes the marker in the order asked: 9 where the text's length is no
    /// multiple of 4 or under 4, 11 where the tuple would be over 262,144
    /// bytes, then 19.
    pub fn write(&self, order: Order, out: &mut [u8]) -> Answer {
        let text = self.text.len() as u64;
        if !text.is_multiple_of(4) || text < 4 {
            return Answer::refused(9, 0);
        }
        if text > TUPLE_LIMIT - 20 {
            return Answer::refused(11, 0);
        }
        match lend(out, text + 20) {
            Ok(tuple) => {
                self.put(order, tuple);
                tuple[12..12 + self.text.len()].copy_from_slice(self.text);
                Answer::accepted(1, text + 20)
            }
            Err(refusal) => refusal,
        }
    }
}

record! {
    /// Table 15.
    StartOfRun = layout::START_OF_RUN;
    time_fraction: u16 = 6,
    time_cpu_ansi_c_standard_time: u32 = 8,
}
plain_writer!(StartOfRun, 20);

record! {
    /// Table 16.
    EndOfRun = layout::END_OF_RUN;
    time_fraction: u16 = 6,
    time_cpu_ansi_c_standard_time: u32 = 8,
}
plain_writer!(EndOfRun, 20);

record! {
    /// Table 17. The data are a part of the file that was read; the writer
    /// doesn't look at them.
    EndOfFile<'a> = layout::END_OF_FILE;
    time_fraction: u16 = 6,
    time_cpu_ansi_c_standard_time: u32 = 8,
    closing_mode: u16 = 12,
    @ data: |length| 14..length - 8,
}

impl EndOfFile<'_> {
    /// The length that the writer gives it: two data bytes, both 0.
    pub const LENGTH: u64 = 24;

    /// Writes the record with two data bytes 0; refuses only by 19.
    pub fn write(&self, order: Order, out: &mut [u8]) -> Answer {
        match lend(out, Self::LENGTH) {
            Ok(tuple) => {
                self.put(order, tuple);
                Answer::accepted(1, Self::LENGTH)
            }
            Err(refusal) => refusal,
        }
    }
}

#[cfg(test)]
mod tests {
    use super::*;
    use crate::layout::Field;

    /// A row's numbers with their offsets.
    fn row_numbers(code: u16) -> Vec<FieldPlace> {
        let mut at = 6;
        let mut numbers = Vec::new();
        for field in layout::layout(code).unwrap().row {
            match field {
                Field::Two | Field::SignedTwo | Field::Four | Field::SignedFour => {
                    numbers.push((at, field.width(), field.is_signed()));
                }
                _ => {}
            }
            at += field.width();
        }
        numbers
    }

    /// TR's offsets and 01's rows say the same.
    #[test]
    fn tables_agree_with_rows() {
        for (code, fields) in [
            (Signature::CODE, Signature::FIELDS),
            (Echosounder::CODE, Echosounder::FIELDS),
            (Channel::CODE, Channel::FIELDS),
            (Ek500Sounder::CODE, Ek500Sounder::FIELDS),
            (Ek500Channel::CODE, Ek500Channel::FIELDS),
            (Position::CODE, Position::FIELDS),
            (Navigation::CODE, Navigation::FIELDS),
            (Attitude::CODE, Attitude::FIELDS),
            (Threshold::CODE, Threshold::FIELDS),
            (EventMarker::CODE, EventMarker::FIELDS),
            (StartOfRun::CODE, StartOfRun::FIELDS),
            (EndOfRun::CODE, EndOfRun::FIELDS),
            (EndOfFile::CODE, EndOfFile::FIELDS),
        ] {
            assert_eq!(row_numbers(code), fields, "{code}");
        }
    }
}
