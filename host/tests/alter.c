/* Records by the names of their fields. First a navigation and an EK-500's sounder whose fields are named where they are handed
   over; then each navigation, sounder, event and end of file of a file is read, a field or two altered, and written again in the
   file's byte order. Prints what was written, a line each, in hexadecimal. */
#include "hac.h"

#include <stdio.h>
#include <stdlib.h>

static uint8_t file[HAC_FILE_LIMIT];
static size_t length;

/* What the last call said, and the numbers of the last record read. */
static uint64_t answer[HAC_READ_RECORD_ENTRIES];
static uint32_t numbers[HAC_NUMBERS_MOST];

/* Ends the program where a call is refused. */
static void accept(uint8_t code) {
    if (code != HAC_ACCEPTED) {
        printf("refused %d at %llu\n", (int)answer[HAC_CODE], (unsigned long long)answer[HAC_PLACE]);
        exit(1);
    }
}

/* Writes a record and prints its tuple. */
static void print_written(uint16_t type, const uint32_t *of, size_t count, const uint8_t *text, size_t characters, bool msb) {
    static uint8_t out[HAC_TUPLE_LIMIT];
    accept(hac_write_record(type, of, count, text, characters, msb, out, sizeof out, answer, HAC_WRITE_ENTRIES));
    for (size_t i = 0; i < answer[HAC_LENGTH]; i++) {
        printf("%02x", out[i]);
    }
    printf("\n");
}

static void print_named(void) {
    const uint32_t named[HAC_NAVIGATION_NUMBERS] = {
        [HAC_NAVIGATION_TIME_FRACTION] = 5000,
        [HAC_NAVIGATION_TIME_CPU] = 60,
        [HAC_NAVIGATION_NAVIGATION_SYSTEM] = 1,
        [HAC_NAVIGATION_HEADING] = -905,
        [HAC_NAVIGATION_NAVIGATION_SPEED] = 5144,
    };
    print_written(HAC_TYPE_NAVIGATION, named, HAC_NAVIGATION_NUMBERS, file, 0, true);
}

/* A sounder of the EK-500 whose super layer starts below its reference, by a number that takes four bytes. */
static void print_ek500(void) {
    const uint8_t remarks[HAC_REMARK] = {0};
    const uint32_t named[HAC_EK500_SOUNDER_NUMBERS] = {
        [HAC_EK500_SOUNDER_ECHOSOUNDER_DOCUMENT_IDENTIFIER] = 50021,
        [HAC_EK500_SOUNDER_SUPER_LAYER_RANGE] = 500,
        [HAC_EK500_SOUNDER_SUPER_LAYER_START] = -65636,
        [HAC_EK500_SOUNDER_SUPER_LAYER_MARGIN] = 5,
    };
    print_written(HAC_TYPE_EK500_SOUNDER, named, HAC_EK500_SOUNDER_NUMBERS, remarks, HAC_REMARK, true);
}

/* Alters the numbers of a type; false for types that stay as they are. */
static bool alter(uint64_t type) {
    switch (type) {
    case HAC_TYPE_NAVIGATION: numbers[HAC_NAVIGATION_HEADING] = -905; return true;
    case HAC_TYPE_SOUNDER: numbers[HAC_SOUNDER_SOUND_SPEED] = 15000; return true;
    case HAC_TYPE_EK500_SOUNDER: numbers[HAC_EK500_SOUNDER_SOUND_SPEED] = 15000; return true;
    case HAC_TYPE_EVENT: numbers[HAC_EVENT_TIME_FRACTION]++; numbers[HAC_EVENT_TIME_CPU]++; return true;
    case HAC_TYPE_FILE_END: numbers[HAC_FILE_END_TIME_FRACTION]++; numbers[HAC_FILE_END_TIME_CPU]++; return true;
    }
    return false;
}

static void print_altered(size_t place, uint16_t type) {
    uint8_t code = hac_read_record(file, length, place, type, numbers, HAC_NUMBERS_MOST, answer, HAC_READ_RECORD_ENTRIES);
    if (code == HAC_UNFIT) {
        return; /* a ping, an index, or what isn't listed */
    }
    accept(code);
    if (!alter(type)) {
        return;
    }
    size_t characters = (size_t)answer[HAC_RECORD_TEXT_LENGTH];
    print_written(type, numbers, HAC_NUMBERS_MOST, file + answer[HAC_RECORD_TEXT_PLACE], characters, file[0] == 0);
}

int main(int count, char **arguments) {
    FILE *from = count == 2 ? fopen(arguments[1], "rb") : NULL;
    if (from == NULL) {
        return 2;
    }
    length = fread(file, 1, sizeof file, from);
    fclose(from);
    print_named();
    print_ek500();
    uint64_t step[HAC_FORWARD_ENTRIES];
    for (size_t place = HAC_FIRST_PLACE;; place = (size_t)step[HAC_STEP_NEXT]) {
        accept(hac_forward(file, length, place, step, HAC_FORWARD_ENTRIES));
        if (step[HAC_TUPLES] == 0) {
            return 0;
        }
        print_altered(place, (uint16_t)step[HAC_STEP_TYPE]);
    }
}
