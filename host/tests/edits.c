/* A file put together by the writers, the most significant byte first: signature, position, sounder, channel, ping, a stale index
   and the end of file. Prints the index that hac_index writes, and the types that it lists; then the same with a navigation
   appended, and without it again, which leaves the same bytes. Then the refusals, what they tell and what they leave. */
#include "hac.h"

#include <stdio.h>
#include <string.h>

enum { CHANNEL = 9, SOUNDER = 5, MOST = 600, NAVIGATION_LENGTH = 28 };

static uint8_t file[MOST] = {0, 0, 0, 0xAC};
static size_t length = HAC_FIRST_PLACE;
static uint8_t out[MOST + HAC_INDEX_ROOM], before[MOST + HAC_INDEX_ROOM];
static uint64_t answer[HAC_APPEND_ENTRIES];

static unsigned long entry(size_t place) {
    return (unsigned long)answer[place];
}

static void put(uint16_t type, const uint32_t *numbers, size_t count, size_t characters) {
    static const uint8_t text[HAC_REMARK];
    const uint8_t code = hac_write_record(
        type, numbers, count, text, characters, true, file + length, MOST - length, answer, HAC_WRITE_ENTRIES);
    if (code != HAC_ACCEPTED) {
        printf("not written: %d\n", (int)code);
    }
    length += (size_t)answer[HAC_LENGTH];
}

static void put_all(void) {
    static const uint8_t stale[] = {
        0, 0, 0, 14, 0xFF, 0x7E, 0, 0, 0, 0, 0, 0, 0, HAC_TYPE_NAVIGATION, 0, 0, 0, 0, 0, 0, 0, 0, 0, 24};
    const uint32_t none[HAC_NUMBERS_MOST] = {0};
    uint32_t sounder[HAC_SOUNDER_NUMBERS] = {
        [HAC_SOUNDER_NUMBER_OF_SOFTWARE_CHANNELS] = 1, [HAC_SOUNDER_ECHOSOUNDER_DOCUMENT_IDENTIFIER] = SOUNDER};
    uint32_t channel[HAC_CHANNEL_NUMBERS] = {
        [HAC_CHANNEL_SOFTWARE_CHANNEL_IDENTIFIER] = CHANNEL, [HAC_CHANNEL_ECHOSOUNDER_DOCUMENT_IDENTIFIER] = SOUNDER};
    const uint16_t number = 7;
    const int16_t value = -5;
    put(HAC_TYPE_SIGNATURE, none, HAC_SIGNATURE_NUMBERS, 0);
    put(HAC_TYPE_POSITION, none, HAC_POSITION_NUMBERS, 0);
    put(HAC_TYPE_SOUNDER, sounder, HAC_SOUNDER_NUMBERS, HAC_REMARK);
    put(HAC_TYPE_CHANNEL, channel, HAC_CHANNEL_NUMBERS, HAC_REMARK);
    hac_write_u16(0, 0, CHANNEL, 0, 1, 0, 0, &number, 1, &value, 1, true, file + length, MOST - length, answer, HAC_WRITE_ENTRIES);
    length += (size_t)answer[HAC_LENGTH];
    memcpy(file + length, stale, sizeof stale);
    length += sizeof stale;
    put(HAC_TYPE_FILE_END, none, HAC_FILE_END_NUMBERS, 2);
}

/* What a call doesn't write would be seen. */
static void fill(void) {
    memset(before, 0xA5, sizeof before);
    memcpy(out, before, sizeof out);
    memset(answer, 0xA5, sizeof answer);
}

/* The tuple before the end of file, found from behind. */
static void print_index(void) {
    static uint64_t step[HAC_BACKWARD_ENTRIES];
    const size_t written = (size_t)answer[HAC_LENGTH];
    printf("tuples %lu, length %lu, compared %lu\n", entry(HAC_TUPLES), entry(HAC_LENGTH), entry(HAC_COMPARED));
    hac_backward(out, written, written, step, HAC_BACKWARD_ENTRIES);
    hac_backward(out, written, (size_t)step[HAC_STEP_NEXT], step, HAC_BACKWARD_ENTRIES);
    const size_t place = (size_t)step[HAC_STEP_PLACE], whole = (size_t)step[HAC_STEP_LENGTH];
    printf("%s at %lu:", step[HAC_STEP_TYPE] == HAC_TYPE_INDEX ? "index" : "no index", (unsigned long)place);
    for (size_t at = HAC_INDEX_LIST; at < whole - 8; at += 2) {
        printf(" %u", (unsigned)(out[place + at] << 8 | out[place + at + 1]));
    }
    printf("\n");
    for (size_t at = 0; at < whole; at++) {
        printf("%02x", out[place + at]);
    }
    printf("\n");
}

static void print_refused(uint8_t code) {
    const char *left = memcmp(out, before, sizeof out) == 0 ? "nothing written" : "something written";
    printf("refused %d at %lu, %lu %lu %lu, %s\n", (int)code, entry(HAC_PLACE), entry(HAC_TUPLES), entry(HAC_LENGTH),
        entry(HAC_COMPARED), left);
}

static uint8_t append(const uint8_t *tuples, size_t tuples_length, size_t room) {
    fill();
    return hac_append(file, length, tuples, tuples_length, out, room, answer, HAC_APPEND_ENTRIES);
}

static uint8_t take_away(size_t place) {
    fill();
    return hac_remove(file, length, place, out, sizeof out, answer, HAC_REMOVE_ENTRIES);
}

int main(void) {
    static uint8_t indexed[MOST], navigation[NAVIGATION_LENGTH];
    const uint32_t none[HAC_NUMBERS_MOST] = {0};
    put_all();
    hac_write_record(HAC_TYPE_NAVIGATION, none, HAC_NAVIGATION_NUMBERS, file, 0, true, navigation, sizeof navigation, answer,
        HAC_WRITE_ENTRIES);
    fill();
    hac_index(file, length, out, sizeof out, answer, HAC_INDEX_ENTRIES);
    print_index();
    const size_t kept = (size_t)answer[HAC_LENGTH];
    memcpy(indexed, out, kept);
    append(navigation, sizeof navigation, sizeof out);
    print_index();
    print_refused(append(navigation, sizeof navigation, (size_t)answer[HAC_LENGTH] - 1));
    append(navigation, sizeof navigation, sizeof out);
    memcpy(file, out, length = (size_t)answer[HAC_LENGTH]);
    /* the navigation stands where the stale index stood */
    take_away(280);
    printf("%s\n", answer[HAC_LENGTH] == kept && memcmp(out, indexed, kept) == 0 ? "as it was" : "otherwise");
    print_refused(take_away(281));
    print_refused(take_away(length - 24));
    print_refused(append(navigation, sizeof navigation - 4, sizeof out));
    print_refused(append(file + length - 24, 24, sizeof out));
    file[0] = 1;
    print_refused(append(navigation, sizeof navigation, sizeof out));
    return 0;
}
