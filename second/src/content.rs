//! Chapter "Content and normal form": content as plain values.
//!
//! It goes through the readers, field by field, and shares nothing with the
//! normaliser but the check; so the one can be held against the other.

use crate::answer::Answer;
use crate::check::check;
use crate::kinds::{Family, PingKind};
use crate::layout::{self, class, Class};
use crate::links::{DocumentId, SoftwareChannel, TransceiverNumber};
use crate::pings::{read_angles, read_samples, Ping, PingHeader};
use crate::records::*;
use crate::walk::{forward, Step, Tuple};

/// One tuple of a file's content.
#[derive(Clone, PartialEq, Eq, Debug)]
pub enum Entry {
    /// A listed type other than a ping: its type, its numbers in the order of
    /// its row, its characters or data, its attribute.
    Fields {
        code: u16,
        numbers: Vec<i64>,
        characters: Vec<u8>,
        attribute: i32,
    },
    /// A ping, by its family: its kinds are one type. It has a length where it ends in
    /// silence, which only words can say.
    Ping {
        family: Family,
        header: PingHeader,
        samples: Vec<(u32, i32)>,
        length: Option<u32>,
        attribute: i32,
    },
    /// A ping of angles: alongship, then athwartship.
    Angles {
        family: Family,
        header: PingHeader,
        samples: Vec<(u32, i16, i16)>,
        attribute: i32,
    },
    /// An unlisted type: its data bytes, the attribute with them.
    Unlisted { code: u16, data: Vec<u8> },
}

/// A number of any width, as a value.
trait Plain {
    fn plain(self) -> i64;
}

macro_rules! plain {
    ($($type:ty => $form:expr;)*) => {
        $(impl Plain for $type {
            fn plain(self) -> i64 {
                $form(self)
            }
        })*
    };
}

plain! {
    u16 => i64::from;
    i16 => i64::from;
    u32 => i64::from;
    i32 => i64::from;
    DocumentId => |id: DocumentId| i64::from(id.0);
    SoftwareChannel => |id: SoftwareChannel| i64::from(id.0);
    TransceiverNumber => |id: TransceiverNumber| i64::from(id.0);
}

/// Reads a record and lists its named fields.
macro_rules! fields {
    ($file:ident, $tuple:ident, $record:ident: $($field:ident)* $(; $characters:ident)?) => {{
        let (_, record) = $record::read($file, $tuple.place)?;
        #[allow(unused_mut, unused_assignments)]
        let mut characters = Vec::new();
        $(characters = record.$characters.to_vec();)?
        Entry::Fields {
            code: $tuple.code,
            numbers: vec![$(record.$field.plain()),*],
            characters,
            attribute: record.tuple_attribute,
        }
    }};
}

fn ping_entry(file: &[u8], place: u64) -> Result<Entry, Answer> {
    let (_, ping) = Ping::read(file, place)?;
    if ping.kind.row().has_angles() {
        return angles_entry(file, place, ping);
    }
    let count = ping.values as usize;
    let (mut numbers, mut values) = (vec![0; count], vec![0; count]);
    let answer = read_samples(file, place, &mut numbers, &mut values);
    if !answer.is_accepted() {
        return Err(answer);
    }
    Ok(Entry::Ping {
        family: ping.kind.row().family,
        header: ping.header,
        samples: numbers.into_iter().zip(values).collect(),
        length: ping.length,
        attribute: ping.tuple_attribute,
    })
}

fn angles_entry(file: &[u8], place: u64, ping: Ping) -> Result<Entry, Answer> {
    let count = ping.values as usize;
    let (mut numbers, mut first, mut second) = (vec![0; count], vec![0; count], vec![0; count]);
    let answer = read_angles(file, place, &mut numbers, &mut first, &mut second);
    if !answer.is_accepted() {
        return Err(answer);
    }
    let angles = first.into_iter().zip(second);
    let samples = numbers.into_iter().zip(angles).map(|(n, (a, b))| (n, a, b));
    Ok(Entry::Angles {
        family: ping.kind.row().family,
        header: ping.header,
        samples: samples.collect(),
        attribute: ping.tuple_attribute,
    })
}

#[rustfmt::skip]
fn entry(file: &[u8], tuple: Tuple) -> Result<Entry, Answer> {
    Ok(match tuple.code {
        layout::SIGNATURE => fields!(file, tuple, Signature:
            hac_version acquisition_software_version acquisition_software_identifier),
        layout::SOUNDER => fields!(file, tuple, Echosounder:
            number_of_software_channels echosounder_document_identifier sound_speed ping_interval
            transmitter_attenuation_setting multiplexing_mode blanking_at_tvg_max_range
            tvg_max_range blanking_up_to_range calibrator_signal calibrator_mode
            calibrator_separator; remarks),
        layout::CHANNEL => fields!(file, tuple, Channel:
            software_channel_identifier echosounder_document_identifier sampling_rate
            type_of_data_sample time_varied_gain_mode transceiver_channel_number
            acoustic_frequency installation_depth_of_transducer
            alongship_angle_offset_of_the_transducer_face
            athwartship_angle_offset_of_the_transducer_face
            alongship_angle_offset_of_the_main_axis_of_the_acoustic_beam
            athwartship_angle_offset_of_the_main_axis_of_the_acoustic_beam
            absorption_of_sound pulse_length bandwidth calibration_source_level
            beamwidth_3_db_of_the_transducer_beam beam_pattern wide_beam_drop_off
            calibration_receiving_sensitivity receiver_gain bottom_detection_minimum_level
            bottom_window_min bottom_window_max; remarks),
        layout::EK500_SOUNDER => fields!(file, tuple, Ek500Sounder:
            number_of_software_channels echosounder_document_identifier sound_speed ping_mode
            ping_interval transmit_power noise_margin sample_range super_layer_type
            super_layer_number super_layer_range super_layer_start super_layer_margin
            super_layer_sv_threshold ek_500_version; remarks),
        layout::EK500_CHANNEL => fields!(file, tuple, Ek500Channel:
            software_channel_identifier echosounder_document_identifier sampling_rate
            type_of_data_sample transceiver_channel_number acoustic_frequency
            installation_depth_of_transducer
            alongship_angle_offset_of_the_transducer_face
            athwartship_angle_offset_of_the_transducer_face
            alongship_angle_offset_of_the_main_axis_of_the_acoustic_beam
            athwartship_angle_offset_of_the_main_axis_of_the_acoustic_beam
            absorption_of_sound pulse_length_mode bandwidth_mode max_power
            alongship_angle_sensitivity athwartship_angle_sensitivity
            alongship_3_db_beamwidth_of_the_transducer
            athwartship_3_db_beamwidth_of_the_transducer two_way_beam_angle
            calibration_transducer_gain bottom_detection_minimum_level
            bottom_window_min_depth bottom_window_max_depth; remarks),
        layout::POSITION => fields!(file, tuple, Position:
            time_fraction time_cpu_ansi_c_standard_time gps_time positioning_system latitude
            longitude),
        layout::NAVIGATION => fields!(file, tuple, Navigation:
            time_fraction time_cpu_ansi_c_standard_time navigation_system heading
            navigation_speed),
        layout::ATTITUDE => fields!(file, tuple, Attitude:
            time_fraction time_cpu_ansi_c_standard_time software_channel_identifier
            platform_referred_to alongship_offset athwartship_offset pitch roll heave),
        layout::THRESHOLD => fields!(file, tuple, Threshold:
            time_fraction time_cpu_ansi_c_standard_time software_channel_identifier
            tvg_max_range tvg_min_range tvt_evaluation_mode tvt_evaluation_interval
            tvt_evaluation_no_of_pings tvt_evaluation_starting_tvt_ping_number
            tvt_offset_parameter_or_constant_threshold tvt_amplification_parameter),
        layout::EVENT_MARKER => fields!(file, tuple, EventMarker:
            time_fraction time_cpu_ansi_c_standard_time; text),
        layout::START_OF_RUN => fields!(file, tuple, StartOfRun:
            time_fraction time_cpu_ansi_c_standard_time),
        layout::END_OF_RUN => fields!(file, tuple, EndOfRun:
            time_fraction time_cpu_ansi_c_standard_time),
        layout::END_OF_FILE => fields!(file, tuple, EndOfFile:
            time_fraction time_cpu_ansi_c_standard_time closing_mode; data),
        code if PingKind::of(code).is_some() => ping_entry(file, tuple.place)?,
        code => {
            let bytes = tuple.bytes(file);
            Entry::Unlisted { code, data: bytes[6..bytes.len() - 4].to_vec() }
        }
    })
}

/// The content of a file: the check's refusals, or its entries in order.
pub fn content(file: &[u8]) -> Result<Vec<Entry>, Answer> {
    let answer = check(file);
    if !answer.is_accepted() {
        return Err(answer);
    }
    let mut entries = Vec::new();
    let mut place = 4;
    while let Step::Tuple { tuple, next } = forward(file, place) {
        if class(tuple.code) != Some(Class::Index) {
            entries.push(entry(file, tuple)?);
        }
        place = next;
    }
    Ok(entries)
}
