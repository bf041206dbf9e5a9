/* A deposit and a corrections file put together by the writers, the one with the most significant byte first, the other with the
   least: of channel 9 the deposit has the pings 1, 2 and 3, the corrections ping 2 with attribute 0 and then with attribute 1, and
   ping 4 with attribute 1. Prints of each of these which file it comes from, where its bytes are, how many, and its attribute; then
   the refusals, what the call tells and what it leaves. */
#include "hac.h"

#include <stdio.h>
#include <string.h>

enum { CHANNEL = 9, SOUNDER = 5, MOST = 600 };

struct file {
    uint8_t bytes[MOST];
    size_t length;
    bool msb;
};

static struct file deposit = {.bytes = {0, 0, 0, 0xAC}, .length = HAC_FIRST_PLACE, .msb = true};
static struct file corrections = {.bytes = {0xAC}, .length = HAC_FIRST_PLACE};
static uint64_t answer[HAC_FIND_PING_ENTRIES];

static unsigned long entry(size_t place) {
    return (unsigned long)answer[place];
}

/* Takes a tuple in that was written behind the others. */
static void take(struct file *to, uint8_t code) {
    if (code != HAC_ACCEPTED) {
        printf("not written: %d\n", (int)code);
    }
    to->length += (size_t)answer[HAC_LENGTH];
}

static void put(struct file *to, uint16_t type, const uint32_t *numbers, size_t count, size_t characters) {
    static const uint8_t text[HAC_REMARK];
    take(to, hac_write_record(type, numbers, count, text, characters, to->msb, to->bytes + to->length, MOST - to->length, answer,
        HAC_WRITE_ENTRIES));
}

static void put_ping(struct file *to, uint32_t ping_number, int32_t attribute) {
    const uint16_t number = 7;
    const int16_t value = -5;
    take(to, hac_write_u16(0, 0, CHANNEL, 0, ping_number, 0, attribute, &number, 1, &value, 1, to->msb, to->bytes + to->length,
        MOST - to->length, answer, HAC_WRITE_ENTRIES));
}

static void begin(struct file *to) {
    const uint32_t none[HAC_NUMBERS_MOST] = {0};
    uint32_t sounder[HAC_SOUNDER_NUMBERS] = {
        [HAC_SOUNDER_NUMBER_OF_SOFTWARE_CHANNELS] = 1, [HAC_SOUNDER_ECHOSOUNDER_DOCUMENT_IDENTIFIER] = SOUNDER};
    uint32_t channel[HAC_CHANNEL_NUMBERS] = {
        [HAC_CHANNEL_SOFTWARE_CHANNEL_IDENTIFIER] = CHANNEL, [HAC_CHANNEL_ECHOSOUNDER_DOCUMENT_IDENTIFIER] = SOUNDER};
    put(to, HAC_TYPE_SIGNATURE, none, HAC_SIGNATURE_NUMBERS, 0);
    put(to, HAC_TYPE_POSITION, none, HAC_POSITION_NUMBERS, 0);
    put(to, HAC_TYPE_SOUNDER, sounder, HAC_SOUNDER_NUMBERS, HAC_REMARK);
    put(to, HAC_TYPE_CHANNEL, channel, HAC_CHANNEL_NUMBERS, HAC_REMARK);
}

static void put_all(void) {
    const uint32_t none[HAC_NUMBERS_MOST] = {0};
    begin(&deposit);
    for (uint32_t number = 1; number <= 3; number++) {
        put_ping(&deposit, number, 0);
    }
    begin(&corrections);
    put_ping(&corrections, 2, 0);
    put_ping(&corrections, 2, 1);
    put_ping(&corrections, 4, 1);
    put(&deposit, HAC_TYPE_FILE_END, none, HAC_FILE_END_NUMBERS, 2);
    put(&corrections, HAC_TYPE_FILE_END, none, HAC_FILE_END_NUMBERS, 2);
}

static uint8_t find(const struct file *from, const struct file *beside, uint32_t number) {
    /* what a call doesn't write would be seen */
    memset(answer, 0xA5, sizeof answer);
    return hac_find_ping(from->bytes, from->length, beside->bytes, beside->length, CHANNEL, number, answer, HAC_FIND_PING_ENTRIES);
}

static void print_found(uint32_t number) {
    static uint64_t ping[HAC_READ_PING_ENTRIES];
    const uint8_t code = find(&deposit, &corrections, number);
    const struct file *from = answer[HAC_FOUND_MARK] == HAC_MARK_CORRECTIONS ? &corrections : &deposit;
    if (code != HAC_ACCEPTED
        || hac_read_ping(from->bytes, from->length, (size_t)answer[HAC_FOUND_PLACE], ping, HAC_READ_PING_ENTRIES) != HAC_ACCEPTED) {
        printf("ping %lu: not found\n", (unsigned long)number);
        return;
    }
    printf("ping %lu: mark %lu, place %lu, tuples %lu, length %lu, compared %lu, attribute %ld\n",
        (unsigned long)ping[HAC_PING_PING_NUMBER], entry(HAC_FOUND_MARK), entry(HAC_FOUND_PLACE), entry(HAC_TUPLES),
        entry(HAC_LENGTH), entry(HAC_COMPARED), (long)(int32_t)ping[HAC_PING_TUPLE_ATTRIBUTE]);
}

static void print_refused(uint8_t code) {
    const char *left = answer[HAC_FOUND_PLACE] == 0xA5A5A5A5A5A5A5A5 ? "left" : "written";
    printf("refused %d at %lu, mark %lu, %lu %lu %lu, place %s\n", (int)code, entry(HAC_PLACE), entry(HAC_FOUND_MARK),
        entry(HAC_TUPLES), entry(HAC_LENGTH), entry(HAC_COMPARED), left);
}

int main(void) {
    put_all();
    for (uint32_t number = 1; number <= 4; number++) {
        print_found(number);
    }
    print_refused(find(&deposit, &corrections, 5));
    struct file cut = corrections;
    cut.length -= 4;
    print_refused(find(&cut, &corrections, 1));
    print_refused(find(&deposit, &cut, 1));
    cut.bytes[0] = 0;
    print_refused(find(&cut, &cut, 1));
    return 0;
}
