//! The records, by their types: the second program's reader and writer of each, on
//! numbers as the archive has them.

use second::gen::Rng;
use second::pings::PingHeader;
use second::records::*;
use second::TransceiverNumber;
use second::{Answer, DocumentId, Order, SoftwareChannel};

/// A field as a number: a signed one as its pattern.
pub trait Field: Copy {
    fn draw(rng: &mut Rng) -> Self;
    fn number(self) -> u32;
    fn of(number: u32) -> Self;
}

macro_rules! field {
    ($type:ty, $draw:ident, $pattern:ty, $of:expr, $to:expr) => {
        impl Field for $type {
            fn draw(rng: &mut Rng) -> Self {
                $of(rng.$draw())
            }
            fn number(self) -> u32 {
                u32::from($to(self))
            }
            fn of(number: u32) -> Self {
                $of(number as $pattern)
            }
        }
    };
}

field!(u16, two, u16, |n| n, |n| n);
field!(i16, two, u16, |n| n as i16, |n| n as u16);
field!(u32, four, u32, |n| n, |n| n);
field!(i32, four, u32, |n| n as i32, |n| n as u32);
field!(DocumentId, four, u32, DocumentId, |n: DocumentId| n.0);
field!(
    SoftwareChannel,
    two,
    u16,
    SoftwareChannel,
    |n: SoftwareChannel| n.0
);
field!(
    TransceiverNumber,
    two,
    u16,
    TransceiverNumber,
    |n: TransceiverNumber| n.0
);

/// The characters of a record.
#[derive(Clone, Copy, PartialEq, Eq)]
pub enum Text {
    None,
    /// Thirty of them.
    Remarks,
    /// A multiple of four, and not none.
    Multiple,
    /// Two, or more by fours. The second program's writer writes two, both 0.
    Data,
}

/// What is read of a record: its numbers, and where its characters stand and how many
/// they are, where it has some.
pub struct Read {
    pub numbers: Vec<u32>,
    pub text: Option<[u64; 2]>,
}

/// A record's type. Fields are numbers in order, the attribute last.
pub struct Kind {
    pub name: &'static str,
    pub code: u16,
    pub text: Text,
    /// How many numbers it has.
    pub numbers: usize,
    /// What reading at a place gives, or the refusal.
    pub read: fn(&[u8], u64) -> Result<Read, Answer>,
    pub draw: fn(&mut Rng) -> Vec<u32>,
    /// The numbers as they are read back: each in its own width.
    pub cut: fn(&[u32]) -> Vec<u32>,
    /// Writes numbers that are enough. Characters of `Data` are not looked at.
    pub write: fn(&[u32], &[u8], Order, &mut [u8]) -> Answer,
}

/// A part of a file as its place and length.
fn part_numbers(file: &[u8], part: &[u8]) -> [u64; 2] {
    let place = part.as_ptr() as usize - file.as_ptr() as usize;
    [place, part.len()].map(|number| number as u64)
}

/// A ping's header: drawn, and with the attribute as numbers.
macro_rules! header {
    ($($field:ident)*) => {
        pub fn draw_header(rng: &mut Rng) -> PingHeader {
            PingHeader {
                $($field: Field::draw(rng),)*
            }
        }

        pub fn header_numbers(header: &PingHeader, attribute: i32) -> Vec<u64> {
            vec![$(header.$field.number().into(),)* attribute.number().into()]
        }
    };
}

header!(
    time_fraction time_cpu_ansi_c_standard_time software_channel_identifier transmitter_mode
    ping_number detected_bottom_range
);

macro_rules! kind {
    ($type:ident, $text:expr, [$($field:ident)*] $(, part $part:ident)?) => {
        Kind {
            name: stringify!($type),
            code: $type::CODE,
            text: $text,
            numbers: $type::FIELDS.len() + 1,
            read: |file, place| {
                let (_, record) = $type::read(file, place)?;
                let numbers = vec![
                    $(record.$field.number(),)*
                    record.tuple_attribute.number(),
                ];
                let text = None $(.or(Some(part_numbers(file, record.$part))))?;
                Ok(Read { numbers, text })
            },
            draw: |rng| {
                vec![
                    $(draw_like(|record: &$type| record.$field, rng),)*
                    i32::draw(rng).number(),
                ]
            },
            cut: |numbers| {
                let mut numbers = numbers.iter().copied();
                let mut next = || numbers.next().unwrap_or(0);
                vec![
                    $(cut_like(|record: &$type| record.$field, next()),)*
                    next(),
                ]
            },
            write: |numbers, text, order, out| {
                let mut numbers = numbers.iter().copied();
                let mut next = || numbers.next().unwrap_or(0);
                let _ = text;
                let record = $type {
                    $($field: Field::of(next()),)*
                    $($part: text,)?
                    tuple_attribute: Field::of(next()),
                };
                record.write(order, out)
            },
        }
    };
}

/// Draws a number of the type that a field of a record has.
fn draw_like<R, T: Field>(_: impl Fn(&R) -> T, rng: &mut Rng) -> u32 {
    T::draw(rng).number()
}

/// What is left of a number in the type that a field of a record has.
fn cut_like<R, T: Field>(_: impl Fn(&R) -> T, number: u32) -> u32 {
    T::of(number).number()
}

pub static KINDS: [Kind; 13] = [
    kind!(Signature, Text::None, [
        hac_version acquisition_software_version acquisition_software_identifier
    ]),
    kind!(Echosounder, Text::Remarks, [
            number_of_software_channels echosounder_document_identifier sound_speed ping_interval
            transmitter_attenuation_setting multiplexing_mode blanking_at_tvg_max_range
            tvg_max_range blanking_up_to_range calibrator_signal calibrator_mode
            calibrator_separator
        ], part remarks),
    kind!(Channel, Text::Remarks, [
            software_channel_identifier echosounder_document_identifier sampling_rate
            type_of_data_sample time_varied_gain_mode transceiver_channel_number
            acoustic_frequency installation_depth_of_transducer
            alongship_angle_offset_of_the_transducer_face
            athwartship_angle_offset_of_the_transducer_face
            alongship_angle_offset_of_the_main_axis_of_the_acoustic_beam
            athwartship_angle_offset_of_the_main_axis_of_the_acoustic_beam
            absorption_of_sound pulse_length bandwidth calibration_source_level
            beamwidth_3_db_of_the_transducer_beam beam_pattern wide_beam_drop_off
            calibration_receiving_sensitivity receiver_gain bottom_detection_minimum_level
            bottom_window_min bottom_window_max
        ], part remarks),
    kind!(Ek500Sounder, Text::Remarks, [
            number_of_software_channels echosounder_document_identifier sound_speed ping_mode
            ping_interval transmit_power noise_margin sample_range super_layer_type
            super_layer_number super_layer_range super_layer_start super_layer_margin
            super_layer_sv_threshold ek_500_version
        ], part remarks),
    kind!(Ek500Channel, Text::Remarks, [
            software_channel_identifier echosounder_document_identifier sampling_rate
            type_of_data_sample transceiver_channel_number acoustic_frequency
            installation_depth_of_transducer
            alongship_angle_offset_of_the_transducer_face
            athwartship_angle_offset_of_the_transducer_face
            alongship_angle_offset_of_the_main_axis_of_the_acoustic_beam
            athwartship_angle_offset_of_the_main_axis_of_the_acoustic_beam
            absorption_of_sound pulse_length_mode bandwidth_mode max_power
            alongship_angle_sensitivity athwartship_angle_sensitivity
            alongship_3_db_beamwidth_of_the_transducer
            athwartship_3_db_beamwidth_of_the_transducer two_way_beam_angle
            calibration_transducer_gain bottom_detection_minimum_level
            bottom_window_min_depth bottom_window_max_depth
        ], part remarks),
    kind!(Threshold, Text::None, [
        time_fraction time_cpu_ansi_c_standard_time software_channel_identifier
        tvg_max_range tvg_min_range tvt_evaluation_mode tvt_evaluation_interval
        tvt_evaluation_no_of_pings tvt_evaluation_starting_tvt_ping_number
        tvt_offset_parameter_or_constant_threshold tvt_amplification_parameter
    ]),
    kind!(Position, Text::None, [
        time_fraction time_cpu_ansi_c_standard_time gps_time positioning_system latitude
        longitude
    ]),
    kind!(Navigation, Text::None, [
        time_fraction time_cpu_ansi_c_standard_time navigation_system heading
        navigation_speed
    ]),
    kind!(Attitude, Text::None, [
        time_fraction time_cpu_ansi_c_standard_time software_channel_identifier
        platform_referred_to alongship_offset athwartship_offset pitch roll heave
    ]),
    kind!(EventMarker, Text::Multiple, [
            time_fraction time_cpu_ansi_c_standard_time
        ], part text),
    kind!(StartOfRun, Text::None, [
        time_fraction time_cpu_ansi_c_standard_time
    ]),
    kind!(EndOfRun, Text::None, [
        time_fraction time_cpu_ansi_c_standard_time
    ]),
    kind!(EndOfFile, Text::Data, [
            time_fraction time_cpu_ansi_c_standard_time closing_mode
        ], part data),
];
