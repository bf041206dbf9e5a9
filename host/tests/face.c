/* The header's own example, grown: checks a file, walks it, reads some fields and prints them. */
#include "hac.h"

#include <stdio.h>
#include <stdlib.h>
#include <string.h>

typedef unsigned long long number;

static uint8_t file[HAC_FILE_LIMIT];
static size_t length;

/* What the last call said, with the most fields that a call tells here; and the numbers of the last record read. */
static uint64_t answer[HAC_READ_PING_ENTRIES];
static uint32_t numbers[HAC_NUMBERS_MOST];

static void print_counts(void) {
    printf("%llu tuples, %llu compared\n", (number)answer[HAC_TUPLES], (number)answer[HAC_COMPARED]);
}

/* Ends the program where a call is refused. */
static void accept(uint8_t code) {
    if (code != HAC_ACCEPTED) {
        printf("refused %d at %llu: ", (int)answer[HAC_CODE], (number)answer[HAC_PLACE]);
        print_counts();
        exit(1);
    }
}

static void read_record(size_t place, uint16_t type) {
    accept(hac_read_record(file, length, place, type, numbers, HAC_NUMBERS_MOST, answer, HAC_READ_RECORD_ENTRIES));
}

static void print_navigation(size_t place) {
    read_record(place, HAC_TYPE_NAVIGATION);
    printf("heading %d\n", (int)(int16_t)numbers[HAC_NAVIGATION_HEADING]);
}

static void print_position(size_t place) {
    read_record(place, HAC_TYPE_POSITION);
    printf("position %ld %ld\n", (long)(int32_t)numbers[HAC_POSITION_LATITUDE], (long)(int32_t)numbers[HAC_POSITION_LONGITUDE]);
}

static void print_event(size_t place) {
    read_record(place, HAC_TYPE_EVENT);
    printf("event %.*s\n", (int)answer[HAC_RECORD_TEXT_LENGTH], (const char *)file + answer[HAC_RECORD_TEXT_PLACE]);
}

/* Whose the channel at a place is, and so its sounder: told by the type of the tuple there. */
static const char *maker(size_t place) {
    uint64_t step[HAC_FORWARD_ENTRIES];
    accept(hac_forward(file, length, place, step, HAC_FORWARD_ENTRIES));
    return step[HAC_STEP_TYPE] == HAC_TYPE_EK500_CHANNEL ? "Simrad" : "Biosonics";
}

/* A ping's length, where it ends in silence. */
static void print_length(size_t place) {
    accept(hac_read_ping(file, length, place, answer, HAC_READ_PING_ENTRIES));
    if (answer[HAC_PING_HAS_LENGTH] == 1) {
        printf("length %llu\n", (number)answer[HAC_PING_LENGTH]);
    } else {
        printf("no length\n");
    }
}

/* A ping's parents, their maker, what its channel says of its samples, the sum of these, and its length. */
static void print_ping(size_t place) {
    static uint32_t places[HAC_VALUE_LIMIT];
    static int32_t values[HAC_VALUE_LIMIT];
    accept(hac_ask(file, length, place, answer, HAC_ASK_ENTRIES));
    printf("ping of %llu of %llu, %s, rate %llu, type %llu", (number)answer[HAC_ASK_CHANNEL], (number)answer[HAC_ASK_SOUNDER],
        maker((size_t)answer[HAC_ASK_CHANNEL_PLACE]), (number)answer[HAC_ASK_SAMPLING_RATE],
        (number)answer[HAC_ASK_TYPE_OF_DATA_SAMPLE]);
    accept(hac_read_samples(file, length, place, places, HAC_VALUE_LIMIT, values, HAC_VALUE_LIMIT, answer,
        HAC_READ_SAMPLES_ENTRIES));
    long long sum = 0;
    for (size_t i = 0; i < answer[HAC_LENGTH]; i++) {
        sum += values[i];
    }
    printf(": %llu samples, sum %lld, ", (number)answer[HAC_LENGTH], sum);
    print_length(place);
}

static void print_tuple(size_t place, uint64_t type) {
    switch (type) {
    case HAC_TYPE_NAVIGATION: print_navigation(place); break;
    case HAC_TYPE_POSITION: print_position(place); break;
    case HAC_TYPE_EVENT: print_event(place); break;
    case HAC_TYPE_PING_U:
    case HAC_TYPE_PING_C: print_ping(place); break;
    }
}

int main(int count, char **arguments) {
    FILE *from = count == 2 ? fopen(arguments[1], "rb") : NULL;
    if (from == NULL) {
        return 2;
    }
    length = fread(file, 1, sizeof file, from);
    fclose(from);
    /* what a call doesn't write would be seen */
    memset(answer, 0xA5, sizeof answer);
    accept(hac_check(file, length, answer, HAC_CHECK_ENTRIES));
    print_counts();
    uint64_t step[HAC_FORWARD_ENTRIES];
    for (size_t place = HAC_FIRST_PLACE;; place = (size_t)step[HAC_STEP_NEXT]) {
        accept(hac_forward(file, length, place, step, HAC_FORWARD_ENTRIES));
        if (step[HAC_TUPLES] == 0) {
            return 0;
        }
        print_tuple(place, step[HAC_STEP_TYPE]);
    }
}
