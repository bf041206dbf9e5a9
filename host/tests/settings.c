/* A file put together by the writers: a sounder with one channel, and of that channel a ping before any setting, one behind a
   threshold and an attitude for all channels, one behind an attitude of its own, and a threshold behind them all. Prints of each
   ping its place and those of its threshold and its attitude, 0 for none, and what else is told. Then the refusals: of each slice
   that is too short by one, and of a file without a mark. */
#include "hac.h"

#include <stdio.h>
#include <string.h>

enum { CHANNEL = 9, SOUNDER = 5, ALL = 65535, MOST = 600, PINGS = 3, ROOM = MOST / 36 };

static uint8_t file[MOST] = {0, 0, 0, 0xAC};
static size_t length = HAC_FIRST_PLACE;
static uint64_t answer[HAC_SETTINGS_ENTRIES];

/* What is lent, and what it held before the call. */
static struct {
    size_t pings[ROOM], thresholds[ROOM], attitudes[ROOM];
} lent, before;

static unsigned long entry(size_t place) {
    return (unsigned long)answer[place];
}

/* Takes a tuple in that was written behind the others. */
static void take(uint8_t code) {
    if (code != HAC_ACCEPTED) {
        printf("not written: %d\n", (int)code);
    }
    length += (size_t)answer[HAC_LENGTH];
}

static void put(uint16_t type, const uint32_t *numbers, size_t count, size_t characters) {
    static const uint8_t text[HAC_REMARK];
    take(hac_write_record(type, numbers, count, text, characters, true, file + length, MOST - length, answer,
        HAC_WRITE_ENTRIES));
}

static void put_sounder(void) {
    uint32_t sounder[HAC_SOUNDER_NUMBERS] = {
        [HAC_SOUNDER_NUMBER_OF_SOFTWARE_CHANNELS] = 1, [HAC_SOUNDER_ECHOSOUNDER_DOCUMENT_IDENTIFIER] = SOUNDER};
    uint32_t channel[HAC_CHANNEL_NUMBERS] = {
        [HAC_CHANNEL_SOFTWARE_CHANNEL_IDENTIFIER] = CHANNEL, [HAC_CHANNEL_ECHOSOUNDER_DOCUMENT_IDENTIFIER] = SOUNDER};
    put(HAC_TYPE_SOUNDER, sounder, HAC_SOUNDER_NUMBERS, HAC_REMARK);
    put(HAC_TYPE_CHANNEL, channel, HAC_CHANNEL_NUMBERS, HAC_REMARK);
}

static void put_ping(void) {
    const uint16_t number = 7;
    const int16_t value = -5;
    take(hac_write_u16(0, 0, CHANNEL, 0, 1, 0, 0, &number, 1, &value, 1, true, file + length, MOST - length, answer,
        HAC_WRITE_ENTRIES));
}

static void put_threshold(void) {
    uint32_t threshold[HAC_THRESHOLD_NUMBERS] = {[HAC_THRESHOLD_SOFTWARE_CHANNEL_IDENTIFIER] = CHANNEL};
    put(HAC_TYPE_THRESHOLD, threshold, HAC_THRESHOLD_NUMBERS, 0);
}

static void put_attitude(uint32_t channel) {
    uint32_t attitude[HAC_ATTITUDE_NUMBERS] = {[HAC_ATTITUDE_SOFTWARE_CHANNEL_IDENTIFIER] = channel};
    put(HAC_TYPE_ATTITUDE, attitude, HAC_ATTITUDE_NUMBERS, 0);
}

static void put_all(void) {
    const uint32_t none[HAC_NUMBERS_MOST] = {0};
    put(HAC_TYPE_SIGNATURE, none, HAC_SIGNATURE_NUMBERS, 0);
    put(HAC_TYPE_POSITION, none, HAC_POSITION_NUMBERS, 0);
    put_sounder();
    put_ping();
    put_threshold();
    put_attitude(ALL);
    put_ping();
    put_attitude(CHANNEL);
    put_ping();
    put_threshold();
    put(HAC_TYPE_FILE_END, none, HAC_FILE_END_NUMBERS, 2);
}

static uint8_t settings(const uint8_t *from, size_t pings, size_t thresholds, size_t attitudes) {
    /* what a call doesn't write would be seen */
    memset(&before, 0xA5, sizeof before);
    memcpy(&lent, &before, sizeof lent);
    return hac_settings(from, length, lent.pings, pings, lent.thresholds, thresholds, lent.attitudes, attitudes, answer,
        HAC_SETTINGS_ENTRIES);
}

static void print_refused(uint8_t code) {
    const char *left = memcmp(&lent, &before, sizeof lent) == 0 ? "nothing written" : "something written";
    printf("refused %d at %lu, %s\n", (int)code, entry(HAC_PLACE), left);
}

int main(void) {
    put_all();
    if (settings(file, ROOM, ROOM, ROOM) != HAC_ACCEPTED) {
        print_refused((uint8_t)answer[HAC_CODE]);
        return 1;
    }
    for (size_t i = 0; i < answer[HAC_LENGTH]; i++) {
        printf("ping at %lu: threshold at %lu, attitude at %lu\n", (unsigned long)lent.pings[i],
            (unsigned long)lent.thresholds[i], (unsigned long)lent.attitudes[i]);
    }
    printf("tuples %lu, length %lu, compared %lu\n", entry(HAC_TUPLES), entry(HAC_LENGTH), entry(HAC_COMPARED));
    print_refused(settings(file, PINGS - 1, PINGS, PINGS));
    print_refused(settings(file, PINGS, PINGS - 1, PINGS));
    print_refused(settings(file, PINGS, PINGS, PINGS - 1));
    print_refused(settings(file + 1, ROOM, ROOM, ROOM));
    return settings(file, PINGS, PINGS, PINGS);
}
