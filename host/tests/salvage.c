/* A damaged file salvaged: a signature, four bytes that are no tuple, a navigation whose backlink is gone, another, and three bytes.
   Prints its ranges, what else is told, and what is written, in hexadecimal. Then the refusals: of a table and of an output that
   are too short by one, and of a file without a mark. */
#include "hac.h"

#include <stdio.h>
#include <string.h>

static const uint8_t file[] = {
    0, 0, 0, 0xAC,                                                                                              /* 0 */
    0, 0, 0, 14, 0xFF, 0xFF, 0xAC, 0xAC, 0, 0, 0, 0, 0, 0, 0, 0, 0, 0, 0, 0, 0, 0, 0, 24,                       /* 4 */
    0xFF, 0xFF, 0xFF, 0xFF,                                                                                     /* 28 */
    0, 0, 0, 18, 0, HAC_TYPE_NAVIGATION, 0, 0, 0, 0, 0, 0, 0, 0, 0, 0, 0, 0, 0, 0, 0, 0, 0, 0, 0, 0, 0, 0,      /* 32 */
    0, 0, 0, 18, 0, HAC_TYPE_NAVIGATION, 0, 0, 0, 0, 0, 0, 0, 0, 0, 0, 0, 0, 0, 0, 0, 0, 0, 0, 0, 0, 0, 28,     /* 60 */
    1, 2, 3,                                                                                                    /* 88 */
};

/* As much as a file of this length can need. */
enum { ROOM = HAC_RANGE_NUMBERS * (sizeof file / 10 + 1) };

/* What is lent, and what it held before the call. */
static struct {
    uint8_t out[sizeof file];
    size_t table[ROOM];
} lent, before;

static uint64_t answer[HAC_SALVAGE_ENTRIES];

static unsigned long entry(size_t place) {
    return (unsigned long)answer[place];
}

static uint8_t salvage(const uint8_t *from, size_t out_length, size_t table_length) {
    /* what a call doesn't write would be seen */
    memset(&before, 0xA5, sizeof before);
    memcpy(&lent, &before, sizeof lent);
    return hac_salvage(from, sizeof file, lent.out, out_length, lent.table, table_length, answer, HAC_SALVAGE_ENTRIES);
}

static void print_refused(uint8_t code) {
    const char *left = memcmp(&lent, &before, sizeof lent) == 0 ? "nothing written" : "something written";
    printf("refused %d at %lu, %s\n", (int)code, entry(HAC_PLACE), left);
}

static void print_ranges(void) {
    for (size_t i = 0; i < answer[HAC_SALVAGE_RANGES]; i++) {
        const size_t *range = lent.table + HAC_RANGE_NUMBERS * i;
        const char *kind = range[HAC_RANGE_KEPT] == 1 ? "kept" : "dropped";
        printf("%s %lu to %lu\n", kind, (unsigned long)range[HAC_RANGE_FROM], (unsigned long)range[HAC_RANGE_TO]);
    }
}

int main(void) {
    if (salvage(file, sizeof file, ROOM) != HAC_ACCEPTED) {
        return 1;
    }
    print_ranges();
    printf("tuples %lu, length %lu, compared %lu, ranges %lu, tried %lu\n", entry(HAC_TUPLES), entry(HAC_LENGTH),
        entry(HAC_COMPARED), entry(HAC_SALVAGE_RANGES), entry(HAC_SALVAGE_TRIED));
    size_t length = (size_t)answer[HAC_LENGTH], ranges = (size_t)answer[HAC_SALVAGE_RANGES];
    for (size_t i = 0; i < length; i++) {
        printf("%02x", lent.out[i]);
    }
    printf("\n");
    print_refused(salvage(file, length, HAC_RANGE_NUMBERS * ranges - 1));
    print_refused(salvage(file, length - 1, HAC_RANGE_NUMBERS * ranges));
    print_refused(salvage(before.out, 0, 0));
    return 0;
}
