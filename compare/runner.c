/* Calls the archive's exports for the comparison, compiled by the toolchain or by this machine's `cc`.
   Reads batches from standard input and answers each on standard output, until the input ends. A batch: how many bytes are
   given, how many are lent and how many numbers tell the calls; then all these. A call: the export's number in calls.list, how
   many arguments, where in the bytes lent the code that it hands back goes, then the arguments. An argument: its kind, then the
   number, or a slice's place, bytes and entries. The answer: the lent bytes as the calls left them.
   With the argument `apart` each slice is a block of its own, so that a tool that watches the heap sees a step outside of it.
   With `stack` the stack below each call is painted, and where it was altered is looked for; behind the last batch's answer come
   two numbers for each export: the most bytes that it took where it was accepted, and where it was refused.
   calls.list has the exports, CALL(name) each; tests/calls makes it from include/hac.h. What is needed of the C library is
   declared here, since the toolchain has no C header. */

typedef unsigned long word;

long read(int descriptor, void *bytes, word count);
long write(int descriptor, const void *bytes, word count);
void *malloc(word count);
void free(void *block);
void *memcpy(void *to, const void *from, word count);
int memcmp(const void *one, const void *other, word count);

/* The most words that an export takes, and the most slices of them; the kinds of argument. */
enum { WORDS = 24, SLICES = 8 };
enum { NUMBER, GIVEN, LENT };

typedef unsigned char export(word, word, word, word, word, word, word, word, word, word, word, word, word, word, word, word, word,
                             word, word, word, word, word, word, word);

#define CALL(name) export name;
#include "calls.list"
#undef CALL
#define CALL(name) name,
static export *const exports[] = {
#include "calls.list"
};
enum { EXPORTS = sizeof exports / sizeof *exports };

/* An export takes as many of the words as it has parameters: by the C convention the others do no harm. */
__attribute__((noinline)) static word call(export *e, const word *a) {
    return e(a[0], a[1], a[2], a[3], a[4], a[5], a[6], a[7], a[8], a[9], a[10], a[11], a[12], a[13], a[14], a[15], a[16], a[17],
             a[18], a[19], a[20], a[21], a[22], a[23]);
}

/* ---- the stack

   So many bytes are painted below the caller, and so far below its frame, so that it doesn't paint itself. What the runner does
   between two calls alters no more than the topmost of them, which are painted again before each call. */
enum { PAINTED = 192 << 10, BELOW = 512, BETWEEN = 16 << 10 };
static const word PAINT = 0xC5A3C5A3C5A3C5A3;

/* So many words of it are looked at together: there is much of it. */
enum { BLOCK = 1024 };

/* The most bytes that each export took, accepted and refused; and from where on the paint isn't whole, none at first. */
static word most[EXPORTS][2];
static word *altered;

/* Lets the stack grow to where the paint will be. */
__attribute__((noinline)) static void grow(void) {
    volatile char room[PAINTED + BETWEEN];
    for (word i = sizeof room; i > 0; i--) {
        room[i - 1] = 0;
    }
}

__attribute__((noinline)) static void paint(word *from, const word *end) {
    for (volatile word *at = from; at < end; at++) {
        *at = PAINT;
    }
}

/* The first word that isn't paint; or the end. In a block of paint each word is the one before it. */
__attribute__((noinline)) static word *first_altered(word *from, word *end) {
    while (from < end && *from == PAINT && memcmp(from, from + 1, (BLOCK - 1) * sizeof(word)) == 0) {
        from += BLOCK;
    }
    while (from < end && *from == PAINT) {
        from++;
    }
    return from;
}

/* Makes a call, and looks how far below this frame it altered the stack. */
__attribute__((noinline)) static word call_painted(word which, const word *words) {
    char *frame = __builtin_frame_address(0);
    word *end = (word *)(((word)frame - BELOW) & -sizeof(word));
    word *ground = end - PAINTED / sizeof(word), *near = end - BETWEEN / sizeof(word);
    if (!altered) {
        altered = ground;
    }
    paint(altered < near ? altered : near, end);
    word answered = call(exports[which], words);
    __asm__ volatile("" ::: "memory");
    altered = first_altered(ground, end);
    word taken = (word)frame - (word)altered, *known = &most[which][answered != 0];
    *known = taken > *known ? taken : *known;
    return answered;
}

/* ---- batches */

/* A batch's memory, whether slices are blocks of their own, and whether the stack is painted. */
struct batch {
    char *given, *lent;
    int apart, painted;
};

/* A slice: where it lies in the batch's memory, and where the call finds it. */
struct slice {
    char *home, *at;
    word bytes;
};

/* The words that a call is made with. */
struct call {
    word words[WORDS], count;
    struct slice slices[SLICES];
    word taken;
};

/* Takes a slice told by place, bytes and entries; 0 where there is no room for it. */
static int take_slice(struct call *call, const struct batch *batch, const word *told) {
    if (call->taken == SLICES || call->count + 2 > WORDS) {
        return 0;
    }
    struct slice *slice = &call->slices[call->taken];
    slice->home = (told[0] == GIVEN ? batch->given : batch->lent) + told[1];
    slice->bytes = told[2];
    slice->at = batch->apart ? malloc(slice->bytes) : slice->home;
    if (!slice->at) {
        return 0;
    }
    if (batch->apart) {
        memcpy(slice->at, slice->home, slice->bytes);
    }
    call->taken++;
    call->words[call->count++] = (word)slice->at;
    call->words[call->count++] = told[3];
    return 1;
}

/* Brings what a call left in blocks of their own back. */
static void give_back(struct call *call, const struct batch *batch) {
    for (word i = 0; batch->apart && i < call->taken; i++) {
        struct slice *slice = &call->slices[i];
        memcpy(slice->home, slice->at, slice->bytes);
        free(slice->at);
    }
}

/* Makes the call told at a place and gives the place behind it; 0 where it can't be made. */
static const word *call_next(const word *told, const struct batch *batch) {
    struct call made = {0};
    word which = told[0], count = told[1], code = told[2];
    told += 3;
    if (which >= EXPORTS) {
        return 0;
    }
    for (word i = 0; i < count; i++) {
        if (told[0] != NUMBER) {
            if (!take_slice(&made, batch, told)) {
                return 0;
            }
            told += 4;
        } else if (made.count < WORDS) {
            made.words[made.count++] = told[1];
            told += 2;
        } else {
            return 0;
        }
    }
    word answered = batch->painted ? call_painted(which, made.words) : call(exports[which], made.words);
    give_back(&made, batch);
    memcpy(batch->lent + code, &answered, sizeof answered);
    return told;
}

/* Reads so many bytes, or fewer where the input ends before. */
static word read_all(void *bytes, word count) {
    word done = 0;
    while (done < count) {
        long moved = read(0, (char *)bytes + done, count - done);
        if (moved <= 0) {
            break;
        }
        done += (word)moved;
    }
    return done;
}

static int write_all(const char *bytes, word count) {
    while (count > 0) {
        long moved = write(1, bytes, count);
        if (moved <= 0) {
            return 0;
        }
        bytes += moved;
        count -= (word)moved;
    }
    return 1;
}

/* Reads a batch's bytes into its memory, makes its calls and answers; 0 where one of these fails. */
static int run_batch(char *memory, const word *head, int apart, int painted) {
    word given = head[0], lent = head[1], numbers = head[2];
    word total = given + lent + numbers * sizeof(word);
    if (read_all(memory, total) != total) {
        return 0;
    }
    struct batch batch = {memory, memory + given, apart, painted};
    const word *told = (const word *)(memory + given + lent), *end = told + numbers;
    while (told && told < end) {
        told = call_next(told, &batch);
    }
    return told && write_all(batch.lent, lent);
}

int main(int arguments, char **told) {
    word head[3], had;
    int apart = arguments > 1 && told[1][0] == 'a', painted = arguments > 1 && told[1][0] == 's';
    if (painted) {
        grow();
    }
    while ((had = read_all(head, sizeof head)) == sizeof head) {
        char *memory = malloc(head[0] + head[1] + head[2] * sizeof(word));
        if (!memory || !run_batch(memory, head, apart, painted)) {
            return 1;
        }
        free(memory);
    }
    if (painted && !write_all((const char *)most, sizeof most)) {
        return 1;
    }
    return had != 0;
}
