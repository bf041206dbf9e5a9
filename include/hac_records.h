/* The records: of each its type, its length, and the place of each field in `numbers`, for hac_read_record and hac_write_record.
   Part of hac.h, which says the two calls. int16_t and int32_t beside a field: it is signed.

   .._NUMBERS: how many numbers the record has, its attribute last. .._LENGTH: the bytes of its tuple; where that isn't fixed
   .._LEAST, the least of them, and .._STEP, by which they grow. .._OFFSET: where its characters stand, in bytes from the tuple's
   first.

   Made from views/records.txt by views/make. */
#ifndef HAC_RECORDS_H
#define HAC_RECORDS_H

/* the most numbers that a record has */
enum { HAC_NUMBERS_MOST = 25 };

/* Signature, type 65535: TR Table 18. Its identifier is no field: 44204 and 44201 are read, and 44204 is written. */
enum { HAC_TYPE_SIGNATURE = 65535, HAC_SIGNATURE_LENGTH = 24 };

enum {
    HAC_SIGNATURE_HAC_VERSION = 0,
    HAC_SIGNATURE_ACQUISITION_SOFTWARE_VERSION = 1,
    HAC_SIGNATURE_ACQUISITION_SOFTWARE_IDENTIFIER = 2,
    HAC_SIGNATURE_TUPLE_ATTRIBUTE = 3,                 /* int32_t */
    HAC_SIGNATURE_NUMBERS = 4
};

/* Sounder, type 100: TR Table 2. An echosounder, of Biosonics. Its remarks, 30 characters, stand beside it; to write others is
   refused by 9 at 0. */
enum {
    HAC_TYPE_SOUNDER = 100,
    HAC_SOUNDER_LENGTH = 72,
    HAC_SOUNDER_REMARKS_OFFSET = 32,
    HAC_SOUNDER_REMARKS_LENGTH = 30  /* so many characters */
};

enum {
    HAC_SOUNDER_NUMBER_OF_SOFTWARE_CHANNELS = 0,
    HAC_SOUNDER_ECHOSOUNDER_DOCUMENT_IDENTIFIER = 1,
    HAC_SOUNDER_SOUND_SPEED = 2,
    HAC_SOUNDER_PING_INTERVAL = 3,
    HAC_SOUNDER_TRANSMITTER_ATTENUATION_SETTING = 4, /* int16_t */
    HAC_SOUNDER_MULTIPLEXING_MODE = 5,
    HAC_SOUNDER_BLANKING_AT_TVG_MAX_RANGE = 6,       /* int16_t */
    HAC_SOUNDER_TVG_MAX_RANGE = 7,
    HAC_SOUNDER_BLANKING_UP_TO_RANGE = 8,
    HAC_SOUNDER_CALIBRATOR_SIGNAL = 9,               /* int16_t */
    HAC_SOUNDER_CALIBRATOR_MODE = 10,
    HAC_SOUNDER_CALIBRATOR_SEPARATOR = 11,
    HAC_SOUNDER_TUPLE_ATTRIBUTE = 12,                /* int32_t */
    HAC_SOUNDER_NUMBERS = 13
};

/* Ek500Sounder, type 200: TR Table 3. An echosounder of the other maker, the EK-500 of Simrad. The start of its super layer is
   one signed number of four bytes at 30: nothing is aligned. Its remarks, 30 characters, stand beside it; to write others is
   refused by 9 at 0. */
enum {
    HAC_TYPE_EK500_SOUNDER = 200,
    HAC_EK500_SOUNDER_LENGTH = 80,
    HAC_EK500_SOUNDER_REMARKS_OFFSET = 42,
    HAC_EK500_SOUNDER_REMARKS_LENGTH = 30  /* so many characters */
};

enum {
    HAC_EK500_SOUNDER_NUMBER_OF_SOFTWARE_CHANNELS = 0,
    HAC_EK500_SOUNDER_ECHOSOUNDER_DOCUMENT_IDENTIFIER = 1,
    HAC_EK500_SOUNDER_SOUND_SPEED = 2,
    HAC_EK500_SOUNDER_PING_MODE = 3,
    HAC_EK500_SOUNDER_PING_INTERVAL = 4,
    HAC_EK500_SOUNDER_TRANSMIT_POWER = 5,
    HAC_EK500_SOUNDER_NOISE_MARGIN = 6,
    HAC_EK500_SOUNDER_SAMPLE_RANGE = 7,
    HAC_EK500_SOUNDER_SUPER_LAYER_TYPE = 8,
    HAC_EK500_SOUNDER_SUPER_LAYER_NUMBER = 9,
    HAC_EK500_SOUNDER_SUPER_LAYER_RANGE = 10,
    HAC_EK500_SOUNDER_SUPER_LAYER_START = 11,              /* int32_t */
    HAC_EK500_SOUNDER_SUPER_LAYER_MARGIN = 12,
    HAC_EK500_SOUNDER_SUPER_LAYER_SV_THRESHOLD = 13,       /* int16_t */
    HAC_EK500_SOUNDER_EK_500_VERSION = 14,
    HAC_EK500_SOUNDER_TUPLE_ATTRIBUTE = 15,                /* int32_t */
    HAC_EK500_SOUNDER_NUMBERS = 16
};

/* Channel, type 1000: TR Table 4. A channel of a Biosonics echosounder, which names one of that maker. Its remarks, 30
   characters, stand beside it; to write others is refused by 9 at 0. */
enum {
    HAC_TYPE_CHANNEL = 1000,
    HAC_CHANNEL_LENGTH = 108,
    HAC_CHANNEL_REMARKS_OFFSET = 68,
    HAC_CHANNEL_REMARKS_LENGTH = 30  /* so many characters */
};

enum {
    HAC_CHANNEL_SOFTWARE_CHANNEL_IDENTIFIER = 0,
    HAC_CHANNEL_ECHOSOUNDER_DOCUMENT_IDENTIFIER = 1,
    HAC_CHANNEL_SAMPLING_RATE = 2,
    HAC_CHANNEL_TYPE_OF_DATA_SAMPLE = 3,
    HAC_CHANNEL_TIME_VARIED_GAIN_MODE = 4,
    HAC_CHANNEL_TRANSCEIVER_CHANNEL_NUMBER = 5,
    HAC_CHANNEL_ACOUSTIC_FREQUENCY = 6,
    HAC_CHANNEL_INSTALLATION_DEPTH_OF_TRANSDUCER = 7,
    HAC_CHANNEL_ALONGSHIP_ANGLE_OFFSET_OF_THE_TRANSDUCER_FACE = 8,                   /* int16_t */
    HAC_CHANNEL_ATHWARTSHIP_ANGLE_OFFSET_OF_THE_TRANSDUCER_FACE = 9,                 /* int16_t */
    HAC_CHANNEL_ALONGSHIP_ANGLE_OFFSET_OF_THE_MAIN_AXIS_OF_THE_ACOUSTIC_BEAM = 10,   /* int16_t */
    HAC_CHANNEL_ATHWARTSHIP_ANGLE_OFFSET_OF_THE_MAIN_AXIS_OF_THE_ACOUSTIC_BEAM = 11, /* int16_t */
    HAC_CHANNEL_ABSORPTION_OF_SOUND = 12,
    HAC_CHANNEL_PULSE_LENGTH = 13,
    HAC_CHANNEL_BANDWIDTH = 14,
    HAC_CHANNEL_CALIBRATION_SOURCE_LEVEL = 15,
    HAC_CHANNEL_BEAMWIDTH_3_DB_OF_THE_TRANSDUCER_BEAM = 16,
    HAC_CHANNEL_BEAM_PATTERN = 17,
    HAC_CHANNEL_WIDE_BEAM_DROP_OFF = 18,
    HAC_CHANNEL_CALIBRATION_RECEIVING_SENSITIVITY = 19,                              /* int16_t */
    HAC_CHANNEL_RECEIVER_GAIN = 20,                                                  /* int16_t */
    HAC_CHANNEL_BOTTOM_DETECTION_MINIMUM_LEVEL = 21,                                 /* int16_t */
    HAC_CHANNEL_BOTTOM_WINDOW_MIN = 22,
    HAC_CHANNEL_BOTTOM_WINDOW_MAX = 23,
    HAC_CHANNEL_TUPLE_ATTRIBUTE = 24,                                                /* int32_t */
    HAC_CHANNEL_NUMBERS = 25
};

/* Ek500Channel, type 2000: TR Table 5. A channel of an EK-500, which names an echosounder of that maker. Its remarks, 30
   characters, stand beside it; to write others is refused by 9 at 0. */
enum {
    HAC_TYPE_EK500_CHANNEL = 2000,
    HAC_EK500_CHANNEL_LENGTH = 108,
    HAC_EK500_CHANNEL_REMARKS_OFFSET = 68,
    HAC_EK500_CHANNEL_REMARKS_LENGTH = 30  /* so many characters */
};

enum {
    HAC_EK500_CHANNEL_SOFTWARE_CHANNEL_IDENTIFIER = 0,
    HAC_EK500_CHANNEL_ECHOSOUNDER_DOCUMENT_IDENTIFIER = 1,
    HAC_EK500_CHANNEL_SAMPLING_RATE = 2,
    HAC_EK500_CHANNEL_TYPE_OF_DATA_SAMPLE = 3,
    HAC_EK500_CHANNEL_TRANSCEIVER_CHANNEL_NUMBER = 4,
    HAC_EK500_CHANNEL_ACOUSTIC_FREQUENCY = 5,
    HAC_EK500_CHANNEL_INSTALLATION_DEPTH_OF_TRANSDUCER = 6,
    HAC_EK500_CHANNEL_ALONGSHIP_ANGLE_OFFSET_OF_THE_TRANSDUCER_FACE = 7,                   /* int16_t */
    HAC_EK500_CHANNEL_ATHWARTSHIP_ANGLE_OFFSET_OF_THE_TRANSDUCER_FACE = 8,                 /* int16_t */
    HAC_EK500_CHANNEL_ALONGSHIP_ANGLE_OFFSET_OF_THE_MAIN_AXIS_OF_THE_ACOUSTIC_BEAM = 9,    /* int16_t */
    HAC_EK500_CHANNEL_ATHWARTSHIP_ANGLE_OFFSET_OF_THE_MAIN_AXIS_OF_THE_ACOUSTIC_BEAM = 10, /* int16_t */
    HAC_EK500_CHANNEL_ABSORPTION_OF_SOUND = 11,
    HAC_EK500_CHANNEL_PULSE_LENGTH_MODE = 12,
    HAC_EK500_CHANNEL_BANDWIDTH_MODE = 13,
    HAC_EK500_CHANNEL_MAX_POWER = 14,
    HAC_EK500_CHANNEL_ALONGSHIP_ANGLE_SENSITIVITY = 15,
    HAC_EK500_CHANNEL_ATHWARTSHIP_ANGLE_SENSITIVITY = 16,
    HAC_EK500_CHANNEL_ALONGSHIP_3_DB_BEAMWIDTH_OF_THE_TRANSDUCER = 17,
    HAC_EK500_CHANNEL_ATHWARTSHIP_3_DB_BEAMWIDTH_OF_THE_TRANSDUCER = 18,
    HAC_EK500_CHANNEL_TWO_WAY_BEAM_ANGLE = 19,                                             /* int16_t */
    HAC_EK500_CHANNEL_CALIBRATION_TRANSDUCER_GAIN = 20,
    HAC_EK500_CHANNEL_BOTTOM_DETECTION_MINIMUM_LEVEL = 21,                                 /* int16_t */
    HAC_EK500_CHANNEL_BOTTOM_WINDOW_MIN_DEPTH = 22,
    HAC_EK500_CHANNEL_BOTTOM_WINDOW_MAX_DEPTH = 23,
    HAC_EK500_CHANNEL_TUPLE_ATTRIBUTE = 24,                                                /* int32_t */
    HAC_EK500_CHANNEL_NUMBERS = 25
};

/* Threshold, type 10100: TR Table 8. */
enum { HAC_TYPE_THRESHOLD = 10100, HAC_THRESHOLD_LENGTH = 44 };

enum {
    HAC_THRESHOLD_TIME_FRACTION = 0,
    HAC_THRESHOLD_TIME_CPU = 1,
    HAC_THRESHOLD_SOFTWARE_CHANNEL_IDENTIFIER = 2,
    HAC_THRESHOLD_TVG_MAX_RANGE = 3,
    HAC_THRESHOLD_TVG_MIN_RANGE = 4,
    HAC_THRESHOLD_TVT_EVALUATION_MODE = 5,
    HAC_THRESHOLD_TVT_EVALUATION_INTERVAL = 6,
    HAC_THRESHOLD_TVT_EVALUATION_NO_OF_PINGS = 7,
    HAC_THRESHOLD_TVT_EVALUATION_STARTING_TVT_PING_NUMBER = 8,
    HAC_THRESHOLD_TVT_OFFSET_PARAMETER_OR_CONSTANT_THRESHOLD = 9,
    HAC_THRESHOLD_TVT_AMPLIFICATION_PARAMETER = 10,
    HAC_THRESHOLD_TUPLE_ATTRIBUTE = 11,                           /* int32_t */
    HAC_THRESHOLD_NUMBERS = 12
};

/* Position, type 20: TR Table 7. Its time fraction is signed, here alone. */
enum { HAC_TYPE_POSITION = 20, HAC_POSITION_LENGTH = 36 };

enum {
    HAC_POSITION_TIME_FRACTION = 0,      /* int16_t */
    HAC_POSITION_TIME_CPU = 1,
    HAC_POSITION_GPS_TIME = 2,
    HAC_POSITION_POSITIONING_SYSTEM = 3,
    HAC_POSITION_LATITUDE = 4,           /* int32_t */
    HAC_POSITION_LONGITUDE = 5,          /* int32_t */
    HAC_POSITION_TUPLE_ATTRIBUTE = 6,    /* int32_t */
    HAC_POSITION_NUMBERS = 7
};

/* Navigation, type 30: TR Table 9. */
enum { HAC_TYPE_NAVIGATION = 30, HAC_NAVIGATION_LENGTH = 28 };

enum {
    HAC_NAVIGATION_TIME_FRACTION = 0,
    HAC_NAVIGATION_TIME_CPU = 1,
    HAC_NAVIGATION_NAVIGATION_SYSTEM = 2,
    HAC_NAVIGATION_HEADING = 3,           /* int16_t */
    HAC_NAVIGATION_NAVIGATION_SPEED = 4,
    HAC_NAVIGATION_TUPLE_ATTRIBUTE = 5,   /* int32_t */
    HAC_NAVIGATION_NUMBERS = 6
};

/* Attitude, type 40: TR Table 10. A platform's. Software channel 65535 means all channels, here alone. */
enum { HAC_TYPE_ATTITUDE = 40, HAC_ATTITUDE_LENGTH = 36 };

enum {
    HAC_ATTITUDE_TIME_FRACTION = 0,
    HAC_ATTITUDE_TIME_CPU = 1,
    HAC_ATTITUDE_SOFTWARE_CHANNEL_IDENTIFIER = 2,
    HAC_ATTITUDE_PLATFORM_REFERRED_TO = 3,
    HAC_ATTITUDE_ALONGSHIP_OFFSET = 4,            /* int16_t */
    HAC_ATTITUDE_ATHWARTSHIP_OFFSET = 5,          /* int16_t */
    HAC_ATTITUDE_PITCH = 6,                       /* int16_t */
    HAC_ATTITUDE_ROLL = 7,                        /* int16_t */
    HAC_ATTITUDE_HEAVE = 8,                       /* int16_t */
    HAC_ATTITUDE_TUPLE_ATTRIBUTE = 9,             /* int32_t */
    HAC_ATTITUDE_NUMBERS = 10
};

/* Event, type 10110: TR Table 11. An event marker. Its text, a multiple of four characters and not none, stands beside it; to
   write another is refused by 9 at 0, one that makes the tuple too long by 11 at 0. */
enum {
    HAC_TYPE_EVENT = 10110,
    HAC_EVENT_LEAST = 24,
    HAC_EVENT_STEP = 4,
    HAC_EVENT_TEXT_OFFSET = 12,
    HAC_EVENT_TEXT_LEAST = 4    /* so many characters, or more by steps */
};

enum {
    HAC_EVENT_TIME_FRACTION = 0,
    HAC_EVENT_TIME_CPU = 1,
    HAC_EVENT_TUPLE_ATTRIBUTE = 2, /* int32_t */
    HAC_EVENT_NUMBERS = 3
};

/* RunStart, type 65516: TR Table 15. */
enum { HAC_TYPE_RUN_START = 65516, HAC_RUN_START_LENGTH = 20 };

enum {
    HAC_RUN_START_TIME_FRACTION = 0,
    HAC_RUN_START_TIME_CPU = 1,
    HAC_RUN_START_TUPLE_ATTRIBUTE = 2, /* int32_t */
    HAC_RUN_START_NUMBERS = 3
};

/* RunEnd, type 65517: TR Table 16. */
enum { HAC_TYPE_RUN_END = 65517, HAC_RUN_END_LENGTH = 20 };

enum {
    HAC_RUN_END_TIME_FRACTION = 0,
    HAC_RUN_END_TIME_CPU = 1,
    HAC_RUN_END_TUPLE_ATTRIBUTE = 2, /* int32_t */
    HAC_RUN_END_NUMBERS = 3
};

/* FileEnd, type 65534: TR Table 17. Its possible data, 2 bytes or 6, 10, 14 and so on, stand beside it when it is read. They
   are handed over when it is written; to write none or others is refused by 9 at 0. */
enum {
    HAC_TYPE_FILE_END = 65534,
    HAC_FILE_END_LEAST = 24,
    HAC_FILE_END_STEP = 4,
    HAC_FILE_END_DATA_OFFSET = 14,
    HAC_FILE_END_DATA_LEAST = 2    /* so many characters, or more by steps */
};

enum {
    HAC_FILE_END_TIME_FRACTION = 0,
    HAC_FILE_END_TIME_CPU = 1,
    HAC_FILE_END_CLOSING_MODE = 2,
    HAC_FILE_END_TUPLE_ATTRIBUTE = 3, /* int32_t */
    HAC_FILE_END_NUMBERS = 4
};

#endif
