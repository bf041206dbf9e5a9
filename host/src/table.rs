//! The records. Made from views/records.txt by views/make.

/// Hands the table of records to a macro. A row: the record and its type; behind
/// `=>` the characters that stand beside what is read; behind `<=` those that the
/// writer takes, or how many zeros it writes in their place; then the fields in the
/// order of the record's numbers.
macro_rules! records {
    ($then:ident) => {
        $then! {
            /// Signature, type 65535: TR Table 18. Its identifier is no field: 44204 and 44201
            /// are read, and 44204 is written.
            Signature = SIGNATURE => () <= [0] {
                hac_version: u16,
                acquisition_software_version: u16,
                acquisition_software_identifier: u32,
                tuple_attribute: i32,
            }
            /// Sounder, type 100: TR Table 2. An echosounder, of Biosonics. Its remarks, 30
            /// characters, stand beside it; to write others is refused by 9 at 0.
            Sounder = SOUNDER => (remarks) <= (remarks) {
                number_of_software_channels: u16,
                echosounder_document_identifier: DocumentId,
                sound_speed: u16,
                ping_interval: u16,
                transmitter_attenuation_setting: i16,
                multiplexing_mode: u16,
                blanking_at_tvg_max_range: i16,
                tvg_max_range: u16,
                blanking_up_to_range: u16,
                calibrator_signal: i16,
                calibrator_mode: u16,
                calibrator_separator: u16,
                tuple_attribute: i32,
            }
            /// Ek500Sounder, type 200: TR Table 3. An echosounder of the other maker, the
            /// EK-500 of Simrad. The start of its super layer is one signed number of four
            /// bytes at 30: nothing is aligned. Its remarks, 30 characters, stand beside it; to
            /// write others is refused by 9 at 0.
            Ek500Sounder = EK500_SOUNDER => (remarks) <= (remarks) {
                number_of_software_channels: u16,
                echosounder_document_identifier: DocumentId,
                sound_speed: u16,
                ping_mode: u16,
                ping_interval: u16,
                transmit_power: u16,
                noise_margin: u16,
                sample_range: u16,
                super_layer_type: u16,
                super_layer_number: u16,
                super_layer_range: u16,
                super_layer_start: i32,
                super_layer_margin: u16,
                super_layer_sv_threshold: i16,
                ek_500_version: u32,
                tuple_attribute: i32,
            }
            /// Channel, type 1000: TR Table 4. A channel of a Biosonics echosounder, which
            /// names one of that maker. Its remarks, 30 characters, stand beside it; to write
            /// others is refused by 9 at 0.
            Channel = CHANNEL => (remarks) <= (remarks) {
                software_channel_identifier: SoftwareChannel,
                echosounder_document_identifier: DocumentId,
                sampling_rate: u32,
                type_of_data_sample: u16,
                time_varied_gain_mode: u16,
                transceiver_channel_number: Transceiver,
                acoustic_frequency: u32,
                installation_depth_of_transducer: u32,
                alongship_angle_offset_of_the_transducer_face: i16,
                athwartship_angle_offset_of_the_transducer_face: i16,
                alongship_angle_offset_of_the_main_axis_of_the_acoustic_beam: i16,
                athwartship_angle_offset_of_the_main_axis_of_the_acoustic_beam: i16,
                absorption_of_sound: u16,
                pulse_length: u16,
                bandwidth: u16,
                calibration_source_level: u16,
                beamwidth_3_db_of_the_transducer_beam: u16,
                beam_pattern: u16,
                wide_beam_drop_off: u16,
                calibration_receiving_sensitivity: i16,
                receiver_gain: i16,
                bottom_detection_minimum_level: i16,
                bottom_window_min: u32,
                bottom_window_max: u32,
                tuple_attribute: i32,
            }
            /// Ek500Channel, type 2000: TR Table 5. A channel of an EK-500, which names an
            /// echosounder of that maker. Its remarks, 30 characters, stand beside it; to write
            /// others is refused by 9 at 0.
            Ek500Channel = EK500_CHANNEL => (remarks) <= (remarks) {
                software_channel_identifier: SoftwareChannel,
                echosounder_document_identifier: DocumentId,
                sampling_rate: u32,
                type_of_data_sample: u16,
                transceiver_channel_number: Transceiver,
                acoustic_frequency: u32,
                installation_depth_of_transducer: u32,
                alongship_angle_offset_of_the_transducer_face: i16,
                athwartship_angle_offset_of_the_transducer_face: i16,
                alongship_angle_offset_of_the_main_axis_of_the_acoustic_beam: i16,
                athwartship_angle_offset_of_the_main_axis_of_the_acoustic_beam: i16,
                absorption_of_sound: u16,
                pulse_length_mode: u16,
                bandwidth_mode: u16,
                max_power: u16,
                alongship_angle_sensitivity: u16,
                athwartship_angle_sensitivity: u16,
                alongship_3_db_beamwidth_of_the_transducer: u16,
                athwartship_3_db_beamwidth_of_the_transducer: u16,
                two_way_beam_angle: i16,
                calibration_transducer_gain: u16,
                bottom_detection_minimum_level: i16,
                bottom_window_min_depth: u32,
                bottom_window_max_depth: u32,
                tuple_attribute: i32,
            }
            /// Threshold, type 10100: TR Table 8.
            Threshold = THRESHOLD => () <= [0] {
                time_fraction: u16,
                time_cpu: u32,
                software_channel_identifier: SoftwareChannel,
                tvg_max_range: u16,
                tvg_min_range: u16,
                tvt_evaluation_mode: u16,
                tvt_evaluation_interval: u16,
                tvt_evaluation_no_of_pings: u16,
                tvt_evaluation_starting_tvt_ping_number: u32,
                tvt_offset_parameter_or_constant_threshold: u32,
                tvt_amplification_parameter: u32,
                tuple_attribute: i32,
            }
            /// Position, type 20: TR Table 7. Its time fraction is signed, here alone.
            Position = POSITION => () <= [0] {
                time_fraction: i16,
                time_cpu: u32,
                gps_time: u32,
                positioning_system: u16,
                latitude: i32,
                longitude: i32,
                tuple_attribute: i32,
            }
            /// Navigation, type 30: TR Table 9.
            Navigation = NAVIGATION => () <= [0] {
                time_fraction: u16,
                time_cpu: u32,
                navigation_system: u16,
                heading: i16,
                navigation_speed: u16,
                tuple_attribute: i32,
            }
            /// Attitude, type 40: TR Table 10. A platform's. [`SoftwareChannel::ALL`] means all
            /// channels, here alone.
            Attitude = ATTITUDE => () <= [0] {
                time_fraction: u16,
                time_cpu: u32,
                software_channel_identifier: SoftwareChannel,
                platform_referred_to: u16,
                alongship_offset: i16,
                athwartship_offset: i16,
                pitch: i16,
                roll: i16,
                heave: i16,
                tuple_attribute: i32,
            }
            /// Event, type 10110: TR Table 11. An event marker. Its text, a multiple of four
            /// characters and not none, stands beside it; to write another is refused by 9 at
            /// 0, one that makes the tuple too long by 11 at 0.
            Event = EVENT => (text) <= (text) {
                time_fraction: u16,
                time_cpu: u32,
                tuple_attribute: i32,
            }
            /// RunStart, type 65516: TR Table 15.
            RunStart = RUN_START => () <= [0] {
                time_fraction: u16,
                time_cpu: u32,
                tuple_attribute: i32,
            }
            /// RunEnd, type 65517: TR Table 16.
            RunEnd = RUN_END => () <= [0] {
                time_fraction: u16,
                time_cpu: u32,
                tuple_attribute: i32,
            }
            /// FileEnd, type 65534: TR Table 17. Its possible data, 2 bytes or 6, 10, 14 and so
            /// on, stand beside it when it is read. It is written with 2 bytes of them, all 0.
            FileEnd = FILE_END => (data) <= [2] {
                time_fraction: u16,
                time_cpu: u32,
                closing_mode: u16,
                tuple_attribute: i32,
            }
        }
    };
}
