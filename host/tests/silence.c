/* Pings written as C-32 with a length and without, then read back. Prints each, a line each: its bytes in hexadecimal and the
   length that is read, or the refusal. */
#include "hac.h"

#include <stdio.h>
#include <string.h>

/* A mark, and behind it the ping that was written last. */
static uint8_t file[HAC_FIRST_PLACE + 64] = {0, 0, 0, 0xAC};
static uint64_t answer[HAC_READ_PING_ENTRIES];

static void print_read(size_t length) {
    for (size_t i = HAC_FIRST_PLACE; i < length; i++) {
        printf("%02x", file[i]);
    }
    if (hac_read_ping(file, length, HAC_FIRST_PLACE, answer, HAC_READ_PING_ENTRIES) != HAC_ACCEPTED) {
        printf(" unread\n");
    } else if (answer[HAC_PING_HAS_LENGTH] == 1) {
        printf(" length %llu\n", (unsigned long long)answer[HAC_PING_LENGTH]);
    } else {
        printf(" no length, %llu told\n", (unsigned long long)answer[HAC_PING_LENGTH]);
    }
}

/* The first `count` of two samples, and a length or none. */
static void print_ping(size_t count, bool has_length, uint32_t ping_length) {
    const uint32_t numbers[] = {2, 3};
    const int32_t values[] = {100, -70000};
    /* what a call doesn't write would be seen */
    memset(answer, 0xA5, sizeof answer);
    uint8_t code = hac_write_c32(0, 60, 1, 0, 1, INT32_MAX, 0, numbers, count, values, count, has_length, ping_length, true,
        file + HAC_FIRST_PLACE, sizeof file - HAC_FIRST_PLACE, answer, HAC_WRITE_ENTRIES);
    if (code == HAC_ACCEPTED) {
        print_read(HAC_FIRST_PLACE + (size_t)answer[HAC_LENGTH]);
    } else {
        printf("refused %d at %llu\n", (int)code, (unsigned long long)answer[HAC_PLACE]);
    }
}

int main(void) {
    print_ping(0, true, 1);
    print_ping(0, true, 65537);
    print_ping(0, true, 0);
    print_ping(0, false, 9);
    print_ping(2, true, 10);
    print_ping(2, true, 5);
    print_ping(2, true, 4);
    print_ping(2, false, 9);
    return 0;
}
