/* A ping of each kind but U-32 and C-32 written and read back. Prints each, a line each: its bytes in hexadecimal, its kind, how
   many samples it has and the first of them. Then what can't be written: the refusals. */
#include "hac.h"

#include <stdio.h>
#include <string.h>

enum { ROOM = 64, MOST = 4 };

/* A mark, and behind it the ping that was written last. */
static uint8_t file[HAC_FIRST_PLACE + ROOM] = {0xAC};
static uint64_t answer[HAC_READ_PING_ENTRIES];

static uint8_t *const out = file + HAC_FIRST_PLACE;

static const char *name(uint64_t kind) {
    switch (kind) {
    case HAC_KIND_U32_16_ANGLES: return "U-32-16-angles";
    case HAC_KIND_U16: return "U-16";
    case HAC_KIND_U16_ANGLES: return "U-16-angles";
    case HAC_KIND_C16: return "C-16";
    case HAC_KIND_CE16: return "CE-16";
    default: return "another kind";
    }
}

static void print_refusal(uint8_t code) {
    printf("refused %d at %llu\n", (int)code, (unsigned long long)answer[HAC_PLACE]);
}

/* Reads the ping that was written, by the reader of its kind. */
static void print_read(uint8_t code) {
    uint32_t numbers[MOST];
    int32_t values[MOST];
    int16_t alongship[MOST], athwartship[MOST];
    if (code != HAC_ACCEPTED) {
        print_refusal(code);
        return;
    }
    size_t length = HAC_FIRST_PLACE + (size_t)answer[HAC_LENGTH];
    for (size_t i = HAC_FIRST_PLACE; i < length; i++) {
        printf("%02x", file[i]);
    }
    if (hac_read_ping(file, length, HAC_FIRST_PLACE, answer, HAC_READ_PING_ENTRIES) != HAC_ACCEPTED) {
        printf(" unread\n");
        return;
    }
    printf(" %s %llu", name(answer[HAC_PING_KIND]), (unsigned long long)answer[HAC_PING_VALUES]);
    if (answer[HAC_PING_HAS_LENGTH] == 1) {
        printf(" length %llu", (unsigned long long)answer[HAC_PING_LENGTH]);
    }
    /* a ping of angles is another type for the reader of values, and the other way round */
    code = hac_read_samples(file, length, HAC_FIRST_PLACE, numbers, MOST, values, MOST, answer, HAC_READ_SAMPLES_ENTRIES);
    if (code == HAC_ACCEPTED) {
        printf(": %lu %ld\n", (unsigned long)numbers[0], (long)values[0]);
        return;
    }
    code = hac_read_angles(file, length, HAC_FIRST_PLACE, numbers, MOST, alongship, MOST, athwartship, MOST, answer,
        HAC_READ_ANGLES_ENTRIES);
    if (code == HAC_ACCEPTED) {
        printf(": %lu %d %d\n", (unsigned long)numbers[0], (int)alongship[0], (int)athwartship[0]);
    } else {
        print_refusal(code);
    }
}

int main(void) {
    const uint32_t numbers[] = {2, 3};
    const uint16_t narrow[] = {2, 3};
    const int16_t values[] = {-300, 100}, others[] = {7, -8};
    const int32_t counts[] = {-8194, 100}, without_word[] = {100, -8193};
    /* what a call doesn't write would be seen */
    memset(answer, 0xA5, sizeof answer);
    print_read(hac_write_u32_16_angles(0, 60, 1, 0, 1, INT32_MAX, 0, numbers, 2, values, 2, others, 2, false, out, ROOM, answer,
        HAC_WRITE_ENTRIES));
    print_read(hac_write_u16(0, 60, 1, 0, 1, INT32_MAX, 0, narrow, 2, values, 2, false, out, ROOM, answer, HAC_WRITE_ENTRIES));
    print_read(hac_write_u16_angles(0, 60, 1, 0, 1, INT32_MAX, 0, narrow, 1, values, 1, others, 1, false, out, ROOM, answer,
        HAC_WRITE_ENTRIES));
    print_read(hac_write_c16(0, 60, 1, 0, 1, INT32_MAX, 0, numbers, 2, values, 2, true, 261, false, out, ROOM, answer,
        HAC_WRITE_ENTRIES));
    print_read(hac_write_ce16(0, 60, 1, 0, 1, INT32_MAX, 0, numbers, 2, counts, 2, false, 9, false, out, ROOM, answer,
        HAC_WRITE_ENTRIES));
    print_read(hac_write_ce16(0, 60, 1, 0, 1, INT32_MAX, 0, numbers, 2, without_word, 2, false, 9, false, out, ROOM, answer,
        HAC_WRITE_ENTRIES));
    print_read(hac_write_c16(0, 60, 1, 0, 1, INT32_MAX, 0, numbers, 2, values, 2, true, 4, false, out, ROOM, answer,
        HAC_WRITE_ENTRIES));
    print_read(hac_write_u16_angles(0, 60, 1, 0, 1, INT32_MAX, 0, narrow, 2, values, 2, others, 1, false, out, ROOM, answer,
        HAC_WRITE_ENTRIES));
    return 0;
}
