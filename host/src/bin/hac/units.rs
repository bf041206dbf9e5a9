//! The units of TR's fields, from the column "Encoded units" of its tables.

use crate::decimal::Decimal;
use hac::types::*;

/// A unit, and the decimal places of what a field counts: `0.1 m` is metres with one.
#[derive(Clone, Copy)]
pub struct Unit {
    places: u8,
    /// Empty where TR has the places alone.
    pub name: &'static str,
}

impl Unit {
    /// A stored number in the unit.
    pub fn value(self, number: i64) -> Decimal {
        let places = self.places;
        Decimal { number, places }
    }
}

const fn unit(places: u8, name: &'static str) -> Unit {
    Unit { places, name }
}

/// A field, and its unit.
type Row = (&'static str, Unit);

/// The units that more than one table has.
const METRES_TENTHS: Unit = unit(1, "m");
const METRES_HUNDREDTHS: Unit = unit(2, "m");
const DEGREES_TENTHS: Unit = unit(1, "degrees");
const DB_WHOLE: Unit = unit(0, "dB");
const DB_HUNDREDTHS: Unit = unit(2, "dB");

/// What every table with a time has.
const TIME_FRACTION: Row = ("time_fraction", unit(4, "s"));
const TIME_CPU: Row = ("time_cpu", unit(0, "s"));

/// TR Table 18.
const OF_SIGNATURE: &[Row] = &[
    ("hac_version", unit(2, "")),
    ("acquisition_software_version", unit(2, "")),
];

/// TR Table 2, Biosonics.
const OF_SOUNDER: &[Row] = &[
    ("sound_speed", unit(1, "m/s")),
    ("ping_interval", unit(2, "s")),
    ("transmitter_attenuation_setting", unit(1, "dB")),
    ("tvg_max_range", METRES_TENTHS),
    ("blanking_up_to_range", METRES_TENTHS),
    ("calibrator_signal", DB_WHOLE),
    ("calibrator_separator", METRES_TENTHS),
];

/// TR Table 3, the EK-500.
const OF_EK500_SOUNDER: &[Row] = &[
    ("sound_speed", unit(1, "m/s")),
    ("ping_interval", unit(2, "s")),
    ("noise_margin", DB_WHOLE),
    ("sample_range", unit(0, "m")),
    ("super_layer_range", METRES_TENTHS),
    ("super_layer_start", METRES_TENTHS),
    ("super_layer_margin", METRES_TENTHS),
    ("super_layer_sv_threshold", DB_WHOLE),
    ("ek_500_version", unit(2, "")),
];

/// TR Table 4, Biosonics, but for [`bottom_level`].
const OF_CHANNEL: &[Row] = &[
    ("sampling_rate", SAMPLING_RATE),
    ("acoustic_frequency", ACOUSTIC_FREQUENCY),
    ("installation_depth_of_transducer", METRES_HUNDREDTHS),
    (
        "alongship_angle_offset_of_the_transducer_face",
        DEGREES_TENTHS,
    ),
    (
        "athwartship_angle_offset_of_the_transducer_face",
        DEGREES_TENTHS,
    ),
    (
        "alongship_angle_offset_of_the_main_axis_of_the_acoustic_beam",
        DEGREES_TENTHS,
    ),
    (
        "athwartship_angle_offset_of_the_main_axis_of_the_acoustic_beam",
        DEGREES_TENTHS,
    ),
    ("absorption_of_sound", unit(2, "dB/km")),
    ("pulse_length", unit(1, "ms")),
    ("bandwidth", unit(2, "kHz")),
    ("calibration_source_level", unit(2, "dB \u{3bc}Pa @ 1 m")),
    ("beamwidth_3_db_of_the_transducer_beam", DEGREES_TENTHS),
    ("beam_pattern", unit(6, "")),
    ("wide_beam_drop_off", unit(4, "")),
    (
        "calibration_receiving_sensitivity",
        unit(2, "dB v / \u{3bc}Pa @ 1 m"),
    ),
    ("receiver_gain", DB_HUNDREDTHS),
    ("bottom_window_min", METRES_HUNDREDTHS),
    ("bottom_window_max", METRES_HUNDREDTHS),
];

/// TR Table 5, the EK-500.
const OF_EK500_CHANNEL: &[Row] = &[
    ("sampling_rate", SAMPLING_RATE),
    ("acoustic_frequency", ACOUSTIC_FREQUENCY),
    ("installation_depth_of_transducer", METRES_HUNDREDTHS),
    (
        "alongship_angle_offset_of_the_transducer_face",
        DEGREES_TENTHS,
    ),
    (
        "athwartship_angle_offset_of_the_transducer_face",
        DEGREES_TENTHS,
    ),
    (
        "alongship_angle_offset_of_the_main_axis_of_the_acoustic_beam",
        DEGREES_TENTHS,
    ),
    (
        "athwartship_angle_offset_of_the_main_axis_of_the_acoustic_beam",
        DEGREES_TENTHS,
    ),
    ("absorption_of_sound", unit(2, "dB/km")),
    ("max_power", unit(0, "watt")),
    ("alongship_angle_sensitivity", unit(1, "")),
    ("athwartship_angle_sensitivity", unit(1, "")),
    ("alongship_3_db_beamwidth_of_the_transducer", DEGREES_TENTHS),
    (
        "athwartship_3_db_beamwidth_of_the_transducer",
        DEGREES_TENTHS,
    ),
    ("two_way_beam_angle", DB_HUNDREDTHS),
    ("calibration_transducer_gain", DB_HUNDREDTHS),
    ("bottom_detection_minimum_level", DB_HUNDREDTHS),
    ("bottom_window_min_depth", METRES_HUNDREDTHS),
    ("bottom_window_max_depth", METRES_HUNDREDTHS),
];

/// TR Table 7.
const OF_POSITION: &[Row] = &[
    TIME_FRACTION,
    TIME_CPU,
    ("gps_time", unit(0, "s")),
    ("latitude", POSITION_DEGREES),
    ("longitude", POSITION_DEGREES),
];

/// TR Table 8.
const OF_THRESHOLD: &[Row] = &[
    TIME_FRACTION,
    TIME_CPU,
    ("tvg_max_range", METRES_TENTHS),
    ("tvg_min_range", METRES_TENTHS),
    ("tvt_evaluation_interval", unit(0, "s")),
    ("tvt_offset_parameter_or_constant_threshold", unit(6, "")),
    ("tvt_amplification_parameter", unit(6, "")),
];

/// TR Table 9.
const OF_NAVIGATION: &[Row] = &[
    TIME_FRACTION,
    TIME_CPU,
    ("heading", DEGREES_TENTHS),
    ("navigation_speed", unit(3, "m/s")),
];

/// TR Table 10.
const OF_ATTITUDE: &[Row] = &[
    TIME_FRACTION,
    TIME_CPU,
    ("alongship_offset", METRES_HUNDREDTHS),
    ("athwartship_offset", METRES_HUNDREDTHS),
    ("pitch", DEGREES_TENTHS),
    ("roll", DEGREES_TENTHS),
    ("heave", METRES_HUNDREDTHS),
];

/// TR Tables 11 and 15 to 17: event marker, start and end of run, end of file.
const OF_TIMED: &[Row] = &[TIME_FRACTION, TIME_CPU];

/// TR Tables 6 and 19 to 24, the seven kinds of ping, before their samples.
const OF_PING: &[Row] = &[
    TIME_FRACTION,
    TIME_CPU,
    ("detected_bottom_range", unit(3, "m")),
];

/// A channel's, either maker's, and a position's.
pub const SAMPLING_RATE: Unit = unit(0, "samples/s");
pub const ACOUSTIC_FREQUENCY: Unit = unit(0, "Hz");
pub const POSITION_DEGREES: Unit = unit(6, "degrees");

fn rows(code: u16) -> &'static [Row] {
    match code {
        SIGNATURE => OF_SIGNATURE,
        SOUNDER => OF_SOUNDER,
        EK500_SOUNDER => OF_EK500_SOUNDER,
        CHANNEL => OF_CHANNEL,
        EK500_CHANNEL => OF_EK500_CHANNEL,
        POSITION => OF_POSITION,
        THRESHOLD => OF_THRESHOLD,
        NAVIGATION => OF_NAVIGATION,
        ATTITUDE => OF_ATTITUDE,
        EVENT | RUN_START | RUN_END | FILE_END => OF_TIMED,
        _ => OF_PING,
    }
}

/// The unit of a field of a listed tuple's type; none where TR's table has none.
pub fn of(code: u16, field: &str) -> Option<Unit> {
    let row = rows(code).iter().find(|(name, _)| *name == field);
    row.map(|(_, unit)| *unit)
}

/// The field of a Biosonics channel whose unit its type of data sample decides.
pub const BOTTOM_LEVEL: &str = "bottom_detection_minimum_level";

/// The unit of that field, TR Table 4: volts for volts, dB for Sv and TS; TR has none for
/// other samples.
pub fn bottom_level(type_of_data_sample: i64) -> Option<Unit> {
    match type_of_data_sample {
        0 => Some(unit(3, "volts")),
        1 | 2 => Some(DB_HUNDREDTHS),
        _ => None,
    }
}

#[cfg(test)]
mod tests {
    use super::*;

    /// A row whose field no record has would never be found.
    #[test]
    fn rows_name_fields() {
        let codes = (0..=u16::MAX).filter_map(|code| Some((code, hac::record_fields(code)?)));
        let mut records = 0;
        for (code, fields) in codes {
            let has = |name| fields.numbers.iter().any(|field| field.name == name);
            assert!(rows(code).iter().all(|(name, _)| has(*name)), "{code}");
            records += 1;
        }
        assert_eq!(records, 13);
    }
}
