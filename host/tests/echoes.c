/* A file put together by the writers: a sounder with a channel of Sv and one of volts, and four pings of one sample each: Sv of -3 dB,
   Sv of 0.01 dB, volts, and angles. Prints the energy and the readings of each, its refusals, and all energies told at once; then the
   refusals of a file without a mark and of slices that are too short. */
#include "hac.h"

#include <stdio.h>
#include <string.h>

enum { SV = 9, VOLTS = 10, SOUNDER = 5, NUMBER = 7, MOST = 600, PINGS = 4, ROOM = MOST / 36, WINDOW = 3 };

static uint8_t file[MOST] = {0xAC};
static size_t length = HAC_FIRST_PLACE;
static uint64_t answer[HAC_ENERGY_ENTRIES];

/* What is lent, and what it held before the call. */
static struct {
    size_t places[ROOM];
    uint64_t energies[ROOM];
    double doubles[WINDOW];
    uint8_t codes[ROOM], cases[WINDOW];
} lent, before;

static unsigned long entry(size_t place) {
    return (unsigned long)answer[place];
}

/* Takes a tuple in that was written behind the others, and tells where. */
static size_t take(uint8_t code) {
    size_t place = length;
    if (code != HAC_ACCEPTED) {
        printf("not written: %d\n", (int)code);
    }
    length += (size_t)answer[HAC_LENGTH];
    return place;
}

static void put(uint16_t type, const uint32_t *numbers, size_t count, size_t characters) {
    static const uint8_t text[HAC_REMARK];
    take(hac_write_record(type, numbers, count, text, characters, false, file + length, MOST - length, answer,
        HAC_WRITE_ENTRIES));
}

static void put_channel(uint32_t channel, uint32_t type_of_data_sample) {
    uint32_t numbers[HAC_CHANNEL_NUMBERS] = {[HAC_CHANNEL_SOFTWARE_CHANNEL_IDENTIFIER] = channel,
        [HAC_CHANNEL_ECHOSOUNDER_DOCUMENT_IDENTIFIER] = SOUNDER, [HAC_CHANNEL_TYPE_OF_DATA_SAMPLE] = type_of_data_sample};
    put(HAC_TYPE_CHANNEL, numbers, HAC_CHANNEL_NUMBERS, HAC_REMARK);
}

static size_t put_ping(uint16_t channel, int16_t value) {
    const uint16_t number = NUMBER;
    return take(hac_write_u16(0, 0, channel, 0, 1, 0, 0, &number, 1, &value, 1, false, file + length, MOST - length, answer,
        HAC_WRITE_ENTRIES));
}

static size_t put_angles(uint16_t channel) {
    const uint16_t number = NUMBER;
    const int16_t angle = 15;
    return take(hac_write_u16_angles(0, 0, channel, 0, 1, 0, 0, &number, 1, &angle, 1, &angle, 1, false, file + length,
        MOST - length, answer, HAC_WRITE_ENTRIES));
}

/* What a call doesn't write would be seen. */
static void refill(void) {
    memset(&before, 0xA5, sizeof before);
    memcpy(&lent, &before, sizeof lent);
}

static void print_refused(const char *call, uint8_t code) {
    const char *left = memcmp(&lent, &before, sizeof lent) == 0 ? "nothing written" : "something written";
    printf("%s: refused %d at %lu, %s\n", call, (int)code, entry(HAC_PLACE), left);
}

static void print_energy(const uint8_t *from, size_t place) {
    refill();
    uint8_t code = hac_energy(from, length, place, answer, HAC_ENERGY_ENTRIES);
    if (code != HAC_ACCEPTED) {
        print_refused("energy", code);
        return;
    }
    printf("energy %lu, tuples %lu, length %lu, compared %lu\n", entry(HAC_ENERGY_UNITS), entry(HAC_TUPLES), entry(HAC_LENGTH),
        entry(HAC_COMPARED));
}

/* From the number before the sample's on; the last entry of the doubles isn't lent. */
static void print_readings(const uint8_t *from, size_t place) {
    refill();
    uint8_t code = hac_readings(from, length, place, NUMBER - 1, lent.cases, WINDOW, lent.doubles, WINDOW - 1, answer,
        HAC_READINGS_ENTRIES);
    if (code != HAC_ACCEPTED) {
        print_refused("readings", code);
        return;
    }
    for (size_t i = 0; i < answer[HAC_LENGTH]; i++) {
        printf("%d %g, ", (int)lent.cases[i], lent.doubles[i]);
    }
    bool stays = lent.cases[WINDOW - 1] == before.cases[WINDOW - 1]
        && memcmp(&lent.doubles[WINDOW - 1], &before.doubles[WINDOW - 1], sizeof *lent.doubles) == 0;
    printf("%s, tuples %lu, compared %lu\n", stays ? "the rest stays" : "the rest is written", entry(HAC_TUPLES),
        entry(HAC_COMPARED));
}

static void print_energies(const uint8_t *from, size_t places, size_t energies, size_t codes) {
    refill();
    uint8_t code = hac_energies(from, length, lent.places, places, lent.energies, energies, lent.codes, codes, answer,
        HAC_ENERGIES_ENTRIES);
    if (code != HAC_ACCEPTED) {
        print_refused("energies", code);
        return;
    }
    for (size_t i = 0; i < answer[HAC_LENGTH]; i++) {
        printf("%lu: %lu %d, ", (unsigned long)lent.places[i], (unsigned long)lent.energies[i], (int)lent.codes[i]);
    }
    printf("tuples %lu, compared %lu\n", entry(HAC_TUPLES), entry(HAC_COMPARED));
}

int main(void) {
    const uint32_t none[HAC_NUMBERS_MOST] = {0};
    uint32_t sounder[HAC_SOUNDER_NUMBERS] = {
        [HAC_SOUNDER_NUMBER_OF_SOFTWARE_CHANNELS] = 2, [HAC_SOUNDER_ECHOSOUNDER_DOCUMENT_IDENTIFIER] = SOUNDER};
    put(HAC_TYPE_SIGNATURE, none, HAC_SIGNATURE_NUMBERS, 0);
    put(HAC_TYPE_POSITION, none, HAC_POSITION_NUMBERS, 0);
    put(HAC_TYPE_SOUNDER, sounder, HAC_SOUNDER_NUMBERS, HAC_REMARK);
    put_channel(SV, 1);
    put_channel(VOLTS, 0);
    size_t pings[PINGS] = {put_ping(SV, -300), 0, 0, 0};
    pings[1] = put_ping(SV, 1);
    pings[2] = put_ping(VOLTS, -1500);
    pings[3] = put_angles(SV);
    put(HAC_TYPE_FILE_END, none, HAC_FILE_END_NUMBERS, 2);
    for (size_t i = 0; i < PINGS; i++) {
        print_energy(file, pings[i]);
        print_readings(file, pings[i]);
    }
    print_energies(file, ROOM, ROOM, ROOM);
    print_energy(file, pings[0] + 4);
    print_readings(file, pings[0] + 4);
    print_energies(file, PINGS - 1, PINGS, PINGS);
    print_energies(file, PINGS, PINGS - 1, PINGS);
    print_energies(file, PINGS, PINGS, PINGS - 1);
    print_energy(file + 1, pings[0]);
    print_readings(file + 1, pings[0]);
    print_energies(file + 1, ROOM, ROOM, ROOM);
    return 0;
}
