/* HAC fisheries recordings: checked, walked both ways, linked, asked which settings held at each ping, searched for a ping with
   corrections beside the deposit, read, as values, as readings in volts or decibels and as echo energies, written, brought to one
   normal form, appended to and removed from with an index that stays true, and salvaged. The C face of the proved library, for C99 and C++. `host/archive` makes the archive to link with,
   target/archive/libarchive.a.

   A slice is a pointer and a length in elements. `file` is a whole file, of any bytes; `place` is a byte offset in it. `answer`
   is lent for what a call says: entries 0 to 4 are the code, the place, the number of tuples, the length written and the number
   of identifiers compared (HAC_CODE ..); the call's own fields follow from entry 5 on. Each call returns the code too:
   HAC_ACCEPTED, or the first rule broken.

   - Each call has a least number of entries, HAC_.._ENTRIES. Where `entries` is less it returns HAC_NO_ROOM and writes nothing.
   - Accepted: code 0, place 0, tuples, length, compared, then the fields. Entries behind the call's own stay as they were.
   - Refused: code, place, 0, 0, 0; of hac_find_ping, which takes two files, the mark of the refused one too. All other entries,
     and all other lent memory, stay as they were.
   - A signed field is told as its pattern in its own width: (int32_t)answer[HAC_PING_DETECTED_BOTTOM_RANGE] is a ping's bottom.
   - No pointer may be null, even where the length is 0. Lent memory must not overlap anything else that is handed over.
   - Calls share nothing: any number of threads may call at once.

   An example: the heading of each navigation tuple of a file, and each of them written anew to `out`, its heading turned round.

       uint64_t answer[HAC_READ_RECORD_ENTRIES], step[HAC_FORWARD_ENTRIES];
       uint32_t numbers[HAC_NAVIGATION_NUMBERS];
       uint8_t out[HAC_NAVIGATION_LENGTH];
       if (hac_check(file, length, answer, HAC_CHECK_ENTRIES) != HAC_ACCEPTED) {
           printf("refused %d at %llu\n", (int)answer[HAC_CODE], (unsigned long long)answer[HAC_PLACE]);
           return;
       }
       bool msb = file[0] == 0;
       for (size_t at = HAC_FIRST_PLACE;; at = (size_t)step[HAC_STEP_NEXT]) {
           if (hac_forward(file, length, at, step, HAC_FORWARD_ENTRIES) != HAC_ACCEPTED || step[HAC_TUPLES] == 0)
               break;
           if (hac_read_record(file, length, at, HAC_TYPE_NAVIGATION, numbers, HAC_NAVIGATION_NUMBERS, answer,
                   HAC_READ_RECORD_ENTRIES) != HAC_ACCEPTED)
               continue;
           printf("heading %d\n", (int)(int16_t)numbers[HAC_NAVIGATION_HEADING]);
           numbers[HAC_NAVIGATION_HEADING] = -(int16_t)numbers[HAC_NAVIGATION_HEADING];
           if (hac_write_record(HAC_TYPE_NAVIGATION, numbers, HAC_NAVIGATION_NUMBERS, file, 0, msb, out, sizeof out, answer,
                   HAC_WRITE_ENTRIES) != HAC_ACCEPTED)
               return;
       }
*/
#ifndef HAC_H
#define HAC_H

#include <stddef.h>
#include <stdint.h>

#ifdef __cplusplus
extern "C" {
#else
#include <stdbool.h>
#endif

/* ---- limits, in bytes where nothing else is said */
enum {
    HAC_FILE_LIMIT = 16777216,  /* the most of a file, and of a normal form */
    HAC_TUPLE_LEAST = 16,       /* the least of a tuple */
    HAC_TUPLE_LIMIT = 262144,   /* the most of a tuple; its length is a multiple of 4 */
    HAC_VALUE_LIMIT = 32764,    /* the most values of a ping */
    HAC_SOUNDER_LIMIT = 64,     /* the most sounders of a file, of both makers together */
    HAC_CHANNEL_LIMIT = 1024,   /* the most channels of a file, of both makers together */
    HAC_REMARK = 30,            /* the characters of a remark */
    HAC_FIRST_PLACE = 4,        /* the place of a file's first tuple, behind the mark */
    HAC_INDEX_ROOM = 131092     /* more than any index has that is written */
};

/* ---- codes: what a call returns, and what answer[HAC_CODE] holds; HAC_UNFIT is also a reader's for a type not asked for.

   23, 24 and 25 are about the samples of a ping. Their place is the byte of the first offender, for the check, the question, the
   settings, the search for a ping, the normal forms and all readers of a ping alike, whatever place these are handed. With i
   counted from 0:
   - 23: the first sample number that isn't above the one before it, i the place of its sample. U-32 and U-32-16-angles: at
     ping + 24 + 8 i; U-16: ping + 24 + 4 i; U-16-angles: ping + 24 + 6 i.
   - 24: the first word outside the limits, i its place among the words. C-32: at ping + 28 + 4 i; C-16 and CE-16: ping + 28 + 2 i.
   - 25, C-32, C-16 and CE-16: the number of samples, at ping + 24, where it isn't the number of words that are no runs.
   Of one ping 11 comes first, at the ping; then 24; then 25. What is a word of a C-16 or CE-16 ping is said where pings are.

   12, 13, 14 and 17 are about sounders and channels, of which two makers' are listed: Biosonics' (HAC_TYPE_SOUNDER and
   HAC_TYPE_CHANNEL, 100 and 1000) and Simrad's, the EK-500 (HAC_TYPE_EK500_SOUNDER and HAC_TYPE_EK500_CHANNEL, 200 and 2000). A
   file may have both.
   - 12: an identifier is declared once, whoever made what declares it again: no two sounders have one document identifier, no
     two channels one software channel.
   - 13: at a ping, a threshold or an attitude whose channel isn't declared earlier, and at a channel whose sounder isn't, or is
     of the other maker.
   - 14: the limits count both makers' together.
   - 17: a sounder's number of channels is the number of channels that name it.
   All four are listed, so none of them gives 18; neither does a ping of any kind.

   19 is about memory lent to be written that is too short: bytes of `out`; entries of one of the slices that hac_settings,
   hac_energies and the readers of samples, angles and records fill; for every call, entries of `answer`.

   21, 22 and 26 are ping writers' alone, 21 and 26 those of C-32, C-16 and CE-16: hac_write_c32 says more. 27 is hac_salvage's
   alone, 31 hac_find_ping's. 28 and 29 are hac_energy's, and those that hac_energies tells of a ping; 30 is hac_readings' alone. */
enum {
    HAC_ACCEPTED = 0,
    HAC_OVER_LIMIT = 1,          /* file over the limit */
    HAC_NO_MARK = 2,             /* under 4 bytes, or neither mark */
    HAC_CUT_SHORT = 3,           /* fewer than 16 bytes left (but not 0), or the tuple passes the end */
    HAC_NO_END = 4,              /* 0 bytes left and no end of file tuple seen */
    HAC_BAD_LENGTH = 5,          /* length not allowed */
    HAC_BAD_BACKLINK = 6,        /* backlink disagrees */
    HAC_MISPLACED_SIGNATURE = 7, /* first is no signature, or a later one is */
    HAC_UNKNOWN_IDENTIFIER = 8,  /* identifier is neither 44204 nor 44201 */
    HAC_UNFIT = 9,               /* length unfit for a listed type */
    HAC_BROKEN_SAMPLES = 10,     /* no longer given: 23, 24 and 25 stand in its place */
    HAC_OVERFULL = 11,           /* ping over 32,764 values, or writer's tuple over 262,144 */
    HAC_DECLARED_TWICE = 12,     /* identifier declared twice */
    HAC_NO_PARENT = 13,          /* parent not declared earlier, or of the other maker */
    HAC_TOO_MANY = 14,           /* 65th sounder or 1,025th channel */
    HAC_BEHIND_END = 15,         /* bytes after end of file */
    HAC_CLASS_ABSENT = 16,       /* a required class is absent */
    HAC_WRONG_COUNT = 17,        /* sounder's channel count wrong */
    HAC_UNTURNABLE = 18,         /* unlisted, non-index type in an MSB file */
    HAC_NO_ROOM = 19,            /* lent output too short */
    HAC_NORMAL_OVER_LIMIT = 20,  /* normal form over 16,777,216 */
    HAC_NO_WORD = 21,            /* writer of words: a value that has no word */
    HAC_NO_SAMPLES = 22,         /* writer: ping without samples, and, of words, without a length */
    HAC_NOT_RISING = 23,         /* sample number not rising */
    HAC_BAD_WORD = 24,           /* word outside the limits */
    HAC_MISCOUNTED = 25,         /* number of samples wrong */
    HAC_SHORT_LENGTH = 26,       /* writer of words: a ping's length under its last sample number plus 2, or 0 where it has
                                    no samples */
    HAC_SHORT_TABLE = 27,        /* table of ranges too short */
    HAC_NOT_SV = 28,             /* energy: a ping with angles, or of a channel that isn't Sv */
    HAC_OUTSIDE_LEVELS = 29,     /* energy: a value outside -150 to 0 dB; its place is that in the ping's list of samples */
    HAC_NO_READING = 30,         /* readings: a ping with angles, or of a channel that is neither volts nor Sv nor TS */
    HAC_NOT_HELD = 31            /* neither file holds the ping */
};

/* ---- type codes of the pings; those of the records stand in hac_records.h: HAC_TYPE_NAVIGATION .. */
enum {
    HAC_TYPE_PING_U = 10000,             /* U-32 */
    HAC_TYPE_PING_U32_16_ANGLES = 10001,
    HAC_TYPE_PING_C = 10010,             /* C-32 */
    HAC_TYPE_PING_U16 = 10030,
    HAC_TYPE_PING_U16_ANGLES = 10031,
    HAC_TYPE_PING_C16 = 10040,
    HAC_TYPE_PING_CE16 = 10050
};

/* ---- the first five entries of every answer

   HAC_COMPARED is how many identifiers are compared while the file handed in is linked: while a channel's sounder is looked for
   among the sounders, and the channel of a ping, a threshold or an attitude among the channels, both makers' alike. Each search
   goes in declaration order and stops at its match: a channel of the third sounder compares 3. An attitude for all channels
   compares none. Looking for an identifier declared twice isn't counted. It is at most HAC_CHANNEL_LIMIT times HAC_TUPLES. */
enum {
    HAC_CODE = 0,
    HAC_PLACE = 1,
    HAC_TUPLES = 2,  /* a check, a question, settings, energies, readings, the normaliser and edits: those of the file handed in; a
                        salvage: those kept; a reader, a writer, a ping found: 1 */
    HAC_LENGTH = 3,  /* bytes, samples or readings written, pings told, or the bytes of the ping found; else 0 */
    HAC_COMPARED = 4 /* hac_check, hac_ask, hac_settings, hac_energy, hac_energies, hac_readings, hac_normalise, hac_index,
                        hac_append and hac_remove: identifiers compared, as said above; else 0 */
};

/* ---- the check: 1, 2; tuple by tuple 4, 3, 5, 3, 6, 7, 9, 8, 12, 14, 13, 11, 23, 24, 25; behind the end of file 15, 16, 17 */
enum { HAC_CHECK_ENTRIES = 5 };

uint8_t hac_check(const uint8_t *file, size_t length, uint64_t *answer, size_t entries);

/* ---- the walk: one step, from any place of any file. A tuple: 1 tuple and the fields below. The end, which is the file's length
   going forward and place 4 going backward: 0 tuples, and no field is written. Refused at the step's place: 1, 2, 3, 5, 3, 6. */
enum { HAC_FORWARD_ENTRIES = 9, HAC_BACKWARD_ENTRIES = 9 };

enum {
    HAC_STEP_PLACE = 5,  /* where the tuple starts */
    HAC_STEP_LENGTH = 6, /* its whole length */
    HAC_STEP_TYPE = 7,   /* its type code */
    HAC_STEP_NEXT = 8    /* the place for the next step the same way */
};

uint8_t hac_forward(const uint8_t *file, size_t length, size_t place, uint64_t *answer, size_t entries);

uint8_t hac_backward(const uint8_t *file, size_t length, size_t place, uint64_t *answer, size_t entries);

/* ---- the channel and the sounder of the ping at a place, with the file's number of tuples and of identifiers compared, and what
   the channel's tuple says of its samples, so that nobody has to read it again. Refused as the check does; then 9 at a place
   where no listed ping starts.

   Whose both are is told by the type of the tuple at either place, which hac_forward gives there: HAC_TYPE_EK500_CHANNEL at the
   channel's, and then HAC_TYPE_EK500_SOUNDER at the sounder's. What a type of data sample stands for is the maker's: 1 is Sv for
   Biosonics and raw power for the EK-500 (TR Tables 4 and 5). */
enum { HAC_ASK_ENTRIES = 11 };

enum {
    HAC_ASK_CHANNEL = 5,             /* the software channel identifier */
    HAC_ASK_CHANNEL_PLACE = 6,       /* where the channel's tuple starts */
    HAC_ASK_SAMPLING_RATE = 7,       /* the channel's sampling rate */
    HAC_ASK_TYPE_OF_DATA_SAMPLE = 8, /* the channel's type of data sample, a number of its maker's */
    HAC_ASK_SOUNDER = 9,             /* the document identifier */
    HAC_ASK_SOUNDER_PLACE = 10       /* where the sounder's tuple starts */
};

uint8_t hac_ask(const uint8_t *file, size_t length, size_t place, uint64_t *answer, size_t entries);

/* ---- the settings: which threshold and which attitude held at each ping.

   Each listed ping of the file, of all seven kinds and in file order, gets an entry in each of three slices:
   - `pings`: its place;
   - `thresholds`: the place of the last threshold (HAC_TYPE_THRESHOLD) before it for its channel;
   - `attitudes`: the place of the last attitude (HAC_TYPE_ATTITUDE) before it for its channel or for all channels.
   0, where the mark stands and so no tuple, is for none.

   What comes last is decided by where tuples stand in the file, never by their clocks, which some recorders set back. In an
   attitude 65535 means all channels, those declared behind it too; in a ping or a threshold it is an identifier like any other. A
   tuple of a type that isn't listed sets nothing and is no ping.

   How much to lend: no file has more than length / 36 listed pings, for the shortest, a U-16 ping of one sample, has 36 bytes. The
   slices need not be of one length.

   Refused as the check does; then by 19 at 0 where one of the slices has fewer entries than the file has listed pings. Length: the
   number of these, and so of the entries written to each slice; entries past them stay.

       uint64_t answer[HAC_SETTINGS_ENTRIES];
       size_t room = length / 36 + 1;
       size_t *pings = (size_t *)malloc(3 * room * sizeof *pings);
       if (pings != NULL) {
           size_t *thresholds = pings + room, *attitudes = thresholds + room;
           if (hac_settings(file, length, pings, room, thresholds, room, attitudes, room, answer, HAC_SETTINGS_ENTRIES)
               == HAC_ACCEPTED) {
               for (size_t i = 0; i < answer[HAC_LENGTH]; i++)
                   printf("ping at %lu: threshold at %lu, attitude at %lu\n", (unsigned long)pings[i],
                       (unsigned long)thresholds[i], (unsigned long)attitudes[i]);
           }
       }
       free(pings);
*/
enum { HAC_SETTINGS_ENTRIES = 5 };

uint8_t hac_settings(const uint8_t *file, size_t length, size_t *pings, size_t pings_length, size_t *thresholds,
    size_t thresholds_length, size_t *attitudes, size_t attitudes_length, uint64_t *answer, size_t entries);

/* ---- echo energies: what integration adds up, in linear units of 10^-14.

   For a ping with values (U-32, C-32, U-16, C-16, CE-16) of a channel whose samples are Sv: type of data sample 1 of a Biosonics
   channel, 2 of an EK-500's. A value is in units of 0.000001 dB in the 32-bit kinds, of 0.01 dB in U-16 and C-16, of 0.001 dB in
   CE-16. It is stepped down to the next multiple of 0.05 dB, and a multiple stays: -10 m dB + k times 0.05 dB, with k from 0 to
   199. Its linear value is the k-th of 200 entries, the largest whole number whose 200th power is at most 10 to the (k + 1200),
   times 10^(8 - m), or for m above 8 divided by 10^(m - 8) and rounded down. A ping's energy is the sum of these; of a silent ping
   it is 0. No sum passes 64 bits: 0 dB is 10^14, and a ping has at most 32,764 values.

   hac_energy: the energy of the ping at a place. Refused as hac_ask is; then by 28 at the ping where it has angles or its channel
   isn't Sv; then by 29 for the first value outside -150 to 0 dB, at its place in the ping's list of samples, from 0, not in the
   file. Length 0. */
enum { HAC_ENERGY_ENTRIES = 6 };

enum {
    HAC_ENERGY_UNITS = 5 /* the energy, in units of 10^-14 */
};

uint8_t hac_energy(const uint8_t *file, size_t length, size_t place, uint64_t *answer, size_t entries);

/* hac_energies: those of all listed pings of a file, in file order, for one check. Each ping gets an entry in each of three slices:
   `places` its place; `energies` its energy and `codes` 0, or 0 and the code, 28 or 29, that hac_energy gives at its place.

   How much to lend: as for hac_settings. Refused as the check does; then by 19 at 0 where one of the slices has fewer entries than
   the file has listed pings. Length: the number of these, and so of the entries written to each slice; entries past them stay. */
enum { HAC_ENERGIES_ENTRIES = 5 };

uint8_t hac_energies(const uint8_t *file, size_t length, size_t *places, size_t places_length, uint64_t *energies,
    size_t energies_length, uint8_t *codes, size_t codes_length, uint64_t *answer, size_t entries);

/* ---- readings for a viewer: one for each sample number, silent or a double in volts, of Sv or of TS in decibels.

   What a ping's readings are is decided by its channel's type of data sample: 0 of a Biosonics channel volts, 1 Sv, 2 TS; of an
   EK-500's 2 Sv, 3 TS. The double is the stored whole number divided, with one rounding, by 1,000,000 in the 32-bit kinds; by 1,000
   for volts and 100 for decibels in U-16 and C-16; by 10,000 and 1,000 in CE-16, whose unit is a tenth of theirs. A number that the
   ping doesn't hold is silent, and its double 0.

   The window: sample numbers from `first` on, as many as the shorter of both slices has entries; numbers past 4,294,967,295 are
   silent. `cases` gets HAC_READING_SILENT .., `doubles` the reading. Length: how many readings; entries past them stay.

   Refused as hac_ask is; then by 30 at the ping where it has angles, or its channel's samples are none of these. */
enum { HAC_READINGS_ENTRIES = 5 };

enum { HAC_READING_SILENT = 0, HAC_READING_VOLTS = 1, HAC_READING_SV = 2, HAC_READING_TS = 3 };

uint8_t hac_readings(const uint8_t *file, size_t length, size_t place, size_t first, uint8_t *cases, size_t cases_length,
    double *doubles, size_t doubles_length, uint64_t *answer, size_t entries);

/* ---- corrections beside the deposit: the ping of a software channel and a ping number, from a corrections file where it has one
   with attribute 1, and from the deposit otherwise.

   Both are whole files that the check accepts, in either byte order each. A ping is one of all seven kinds; a tuple of a type that
   isn't listed is none. In file order it is
   - the first ping of the corrections with this channel, this number and attribute 1 (TR: an edited tuple), whether the deposit
     has such a ping or not;
   - where the corrections have none, the first ping of the deposit with this channel and this number, whatever its attribute.
   A ping of the corrections with another attribute corrects nothing. Channels are the numbers that pings have: what either file
   declares of a channel isn't compared.

   Nothing is copied, and neither file is written to: the mark tells which of them the ping is in, HAC_FOUND_PLACE where its tuple
   starts there, HAC_LENGTH how many bytes it has, frame and all. hac_read_ping, hac_read_samples and hac_read_angles take that
   file and that place.

   Refused by the deposit's own refusal, with HAC_MARK_DEPOSIT; then by that of the corrections, with HAC_MARK_CORRECTIONS; each is
   the check's, with its place in that file. Then by 31 at 0 where neither holds the ping, with HAC_MARK_NEITHER. So six entries
   are written of a refusal, and HAC_FOUND_PLACE stays.

       uint64_t answer[HAC_FIND_PING_ENTRIES];
       if (hac_find_ping(deposit, deposit_length, corrections, corrections_length, channel, number, answer, HAC_FIND_PING_ENTRIES)
           == HAC_ACCEPTED) {
           bool corrected = answer[HAC_FOUND_MARK] == HAC_MARK_CORRECTIONS;
           printf("%s, bytes at %lu, length %lu\n", corrected ? "corrections" : "deposit",
               (unsigned long)answer[HAC_FOUND_PLACE], (unsigned long)answer[HAC_LENGTH]);
           fwrite((corrected ? corrections : deposit) + answer[HAC_FOUND_PLACE], 1, (size_t)answer[HAC_LENGTH], to);
       }
*/
enum { HAC_FIND_PING_ENTRIES = 7 };

enum {
    HAC_FOUND_MARK = 5, /* which file the ping is in, or which one is refused: HAC_MARK_NEITHER .. */
    HAC_FOUND_PLACE = 6 /* where the ping's tuple starts in that file; told with a ping alone */
};

enum {
    HAC_MARK_NEITHER = 0,
    HAC_MARK_DEPOSIT = 1,
    HAC_MARK_CORRECTIONS = 2
};

uint8_t hac_find_ping(const uint8_t *deposit, size_t deposit_length, const uint8_t *corrections, size_t corrections_length,
    uint16_t channel, uint32_t number, uint64_t *answer, size_t entries);

/* ---- the normal form of a file, with an index over its own tuples just before its end of file (below). Refused as the check does;
   then 18; 20, which counts the index too; 19. Length: the bytes written. What changes for a caller: normal forms had no index
   before, and those of today are longer by it. Lend up to HAC_INDEX_ROOM bytes more. */
enum { HAC_NORMALISE_ENTRIES = 5 };

uint8_t hac_normalise(const uint8_t *file, size_t length, uint8_t *out, size_t out_length, uint64_t *answer, size_t entries);

/* ---- the normal form of a mark and one tuple, whatever would stand around it; the mark alone for a tuple of the index class. It
   has no index. 1, 2; then 3, 5, 3, 6, 9, 8, 11 at 4; 23, 24, 25 at their bytes; 15 for bytes behind it; 18; 19. */
enum { HAC_NORMALISE_TUPLE_ENTRIES = 5 };

uint8_t hac_normalise_tuple(const uint8_t *file, size_t length, uint8_t *out, size_t out_length, uint64_t *answer,
    size_t entries);

/* ---- an index that stays true: which types of tuples a file has, so that nobody scans all of it for them.

   The index is one tuple, Index 1 (TR Table 14, HAC_TYPE_INDEX), just before the end of file and in the file's byte order. It holds
   each type of the file's tuples outside the index class (65406 to 65515) once, ascending, those of signature and end of file too;
   n types take HAC_INDEX_LIST + 2 n bytes, a space of 2 where n is odd, and 8 for attribute and backlink. Time fraction, time,
   space and attribute are 0. It is no content: hac_normalise drops the index of the file handed in and writes that of its own
   tuples.

   Each of the three calls writes a whole file to `out`: the mark; the tuples outside the index class in their order, byte for byte;
   the index, worked out afresh; the end of file. So whatever stood in the index class is gone, wherever it stood.
   - hac_index: the file with its index.
   - hac_append: with `tuples`, framed tuples in the file's byte order without a mark, as handed in before the end of file. Those of
     the index class are dropped. None (length 0): the same as hac_index.
   - hac_remove: without the tuple that starts at `place`. That of an index tuple leaves what hac_index writes.
   What was appended and is then removed again leaves what hac_index writes of the file before.

   How much to lend: `length` bytes, those of `tuples`, and HAC_INDEX_ROOM; never more than HAC_FILE_LIMIT.

   Refused, with nothing written:
   - as the check refuses the file handed in, at a place in that file;
   - by 3 at `place` where no tuple starts there (hac_remove); by 1 at 0 where `tuples` alone has over HAC_FILE_LIMIT bytes
     (hac_append);
   - as the check would refuse the file to be written, at a place in that file: 1 at 0 where it would be over HAC_FILE_LIMIT; 4 at
     its length where the end of file was removed; 13 at a ping whose channel was removed; 15 behind an end of file that was
     appended, for the index follows it. Of `tuples` that don't divide into tuples the rest is judged behind those before it, with
     nothing behind it: 3, 5, 3 or 6, unless a rule is broken earlier;
   - by 19 at 0.

       uint64_t answer[HAC_APPEND_ENTRIES];
       size_t room = length + tuples_length + HAC_INDEX_ROOM;
       uint8_t *out = (uint8_t *)malloc(room);
       if (out != NULL
           && hac_append(file, length, tuples, tuples_length, out, room, answer, HAC_APPEND_ENTRIES) == HAC_ACCEPTED)
           fwrite(out, 1, (size_t)answer[HAC_LENGTH], to);
       free(out);
*/
enum { HAC_INDEX_ENTRIES = 5, HAC_APPEND_ENTRIES = 5, HAC_REMOVE_ENTRIES = 5 };

enum {
    HAC_TYPE_INDEX = 65406,
    HAC_INDEX_LIST = 12 /* where its list of types begins, from its first byte */
};

uint8_t hac_index(const uint8_t *file, size_t length, uint8_t *out, size_t out_length, uint64_t *answer, size_t entries);

uint8_t hac_append(const uint8_t *file, size_t length, const uint8_t *tuples, size_t tuples_length, uint8_t *out,
    size_t out_length, uint64_t *answer, size_t entries);

uint8_t hac_remove(const uint8_t *file, size_t length, size_t place, uint8_t *out, size_t out_length, uint64_t *answer,
    size_t entries);

/* ---- salvage: what is sound of a damaged file, and which of its bytes are lost.

   From HAC_FIRST_PLACE on a tuple is looked for. It is kept where its frame's rules hold (3, 5, 3, 6, as a forward step judges
   them) and, if its type is listed, its own too (9, 8, 11, 23, 24, 25, as the check judges them). The next one is looked for
   behind it; where none is kept, 4 bytes further on. `out` gets the mark and the kept tuples, byte for byte and in their order.

   What it doesn't judge:
   - Nothing between tuples: no links (7, 12, 13, 14, 17), no classes (16), no end of file (4, 15). So hac_check may refuse `out`.
   - Bytes that happen to look like a tuple are kept, those inside a longer tuple that is damaged too.

   `table` gets HAC_RANGE_NUMBERS entries for each range of kept or of dropped bytes, in file order. Neighbours of one kind are one
   range, so that kept and dropped ranges alternate. Together they cover the bytes behind the mark once each, and where the last
   ones are no multiple of 4 these belong to the last dropped range. A file of the mark alone has no range.

   How much to lend: `out` never needs more than `length` bytes, and no file has more than length / 10 + 1 ranges, for a kept one
   has at least 16 bytes and a dropped one at least 4, but for the file's last.

   Refused, all at 0: 1; 2; 27 where `table_length` is less than HAC_RANGE_NUMBERS for each range; 19 where `out_length` is less
   than the bytes to write. Elements of both slices past those written stay.

       uint64_t answer[HAC_SALVAGE_ENTRIES];
       size_t room = HAC_RANGE_NUMBERS * (length / 10 + 1);
       size_t *table = (size_t *)malloc(room * sizeof *table);
       uint8_t *out = (uint8_t *)malloc(length + 1);
       if (table != NULL && out != NULL
           && hac_salvage(file, length, out, length, table, room, answer, HAC_SALVAGE_ENTRIES) == HAC_ACCEPTED) {
           for (size_t i = 0; i < answer[HAC_SALVAGE_RANGES]; i++) {
               const size_t *range = table + HAC_RANGE_NUMBERS * i;
               if (range[HAC_RANGE_KEPT] == 0)
                   printf("lost: %lu to %lu\n", (unsigned long)range[HAC_RANGE_FROM], (unsigned long)range[HAC_RANGE_TO]);
           }
           fwrite(out, 1, (size_t)answer[HAC_LENGTH], to);
       }
       free(out);
       free(table);
*/
enum { HAC_SALVAGE_ENTRIES = 7 };

enum {
    HAC_SALVAGE_RANGES = 5, /* how many ranges there are */
    HAC_SALVAGE_TRIED = 6   /* how many places below the file's length a tuple was looked for at; at most length / 4 + 1 */
};

/* The entries of a range in `table`. */
enum {
    HAC_RANGE_KEPT = 0,   /* 1 for kept, 0 for dropped */
    HAC_RANGE_FROM = 1,   /* the place of its first byte */
    HAC_RANGE_TO = 2,     /* the place behind its last byte */
    HAC_RANGE_NUMBERS = 3 /* how many they are */
};

uint8_t hac_salvage(const uint8_t *file, size_t length, uint8_t *out, size_t out_length, size_t *table, size_t table_length,
    uint64_t *answer, size_t entries);

/* ---- pings, of seven kinds

   U-32, U-16 and the two kinds of angles number their samples; C-32, C-16 and CE-16 have words, each of them a value or a run of
   samples below threshold, and before them the number of values. A value is a whole number; of CE-16 it is the counts that its
   words stand for, from -507840 to 507840.

   A ping's family is content: U-32 and C-32 are one, U-16 and C-16 another; CE-16, U-32-16-angles and U-16-angles are each one
   of their own. Which kind of its family a ping has is none, and no ping changes its family.

   A ping's length is the number of its samples, those below threshold in its runs counted too: how far the water was sampled. A
   ping of words has one where its last word is a run, so one without samples always has, and it is at least 1; one whose last
   word is a value has none, and neither has a ping that numbers its samples. The length is content: two pings are the same only
   where their lengths are equal or both have none, and silent pings of different lengths differ. How runs are cut is no content.

   The normal form is U-32 or U-16, but C-32 or C-16 in the fewest words for a ping with a length, the silence behind its last
   value among them, and C-16 for one with a value past sample 65535, which U-16 can't number. CE-16 stays CE-16 in the fewest
   words, and its second 0, 8000, becomes 0000. Angles stay as they are.

   Behind an odd number of samples of U-16-angles, and of words of C-16 and CE-16, stands a space of two bytes, 0 when written.
   Behind words the number of samples tells it: the last two bytes before the attribute are a space where that number is right
   without them and wrong with them, and else a word. So a space may hold anything but a run (FFxx), which is always a word.

   Silence behind the last value said nothing before, and a ping without samples was one run of 1. What changes for a caller:
   - hac_read_ping tells the length in two entries more, HAC_PING_HAS_LENGTH and HAC_PING_LENGTH: lend it HAC_READ_PING_ENTRIES,
     which are 16. Those before them, and all its refusals, are the same. hac_read_samples is as it was.
   - hac_write_c32 takes `has_length` and `ping_length` behind the values. Hand over false and any number for what it wrote before.
   - hac_write_c32 of a ping without samples and without a length is HAC_NO_SAMPLES. Hand over true and 1 for the run of 1 that it
     wrote before, or better how many samples were silent.
   - hac_normalise and hac_normalise_tuple keep a ping that ends in a run as C-32. Normal forms made before, of files that have
     such pings, are not those of today.

   The five kinds but U-32 and C-32 were of no listed type before. What changes for a caller:
   - Tuples of these types are judged and linked like other pings, so that a file of them may be refused that was not. They no
     longer give 18.
   - HAC_PING_KIND has five numbers more. hac_read_samples takes U-16, C-16 and CE-16 too; hac_read_angles is new, and so are five
     writers. */

/* Header, attribute, kind, number of values and length. Refused as a forward step is, 3 at the end; 9 for another type; 9, 11,
   all at the place; then 23, 24, 25 at their bytes. */
enum { HAC_READ_PING_ENTRIES = 16 };

enum {
    HAC_KIND_U32 = 0,
    HAC_KIND_C32 = 1,
    HAC_KIND_U32_16_ANGLES = 2,
    HAC_KIND_U16 = 3,
    HAC_KIND_U16_ANGLES = 4,
    HAC_KIND_C16 = 5,
    HAC_KIND_CE16 = 6
};

enum {
    HAC_PING_TIME_FRACTION = 5,
    HAC_PING_TIME_CPU = 6,
    HAC_PING_SOFTWARE_CHANNEL_IDENTIFIER = 7,
    HAC_PING_TRANSMITTER_MODE = 8,
    HAC_PING_PING_NUMBER = 9,
    HAC_PING_DETECTED_BOTTOM_RANGE = 10, /* int32_t */
    HAC_PING_TUPLE_ATTRIBUTE = 11,       /* int32_t */
    HAC_PING_KIND = 12,                  /* HAC_KIND_U32 .. */
    HAC_PING_VALUES = 13,                /* the number of its samples that have values, or angles */
    HAC_PING_HAS_LENGTH = 14,            /* 1 where the ping has a length, 0 where it has none */
    HAC_PING_LENGTH = 15                 /* its length: all its samples, runs counted; 0 where it has none */
};

uint8_t hac_read_ping(const uint8_t *file, size_t length, size_t place, uint64_t *answer, size_t entries);

/* The samples that have values: an entry of both slices for each; entries past them stay. Length: how many. Takes U-32, C-32,
   U-16, C-16 and CE-16; a ping of angles is another type: 9 at the place. Else refused as hac_read_ping; then by 19 at 0 where
   either slice is shorter than HAC_PING_VALUES. */
enum { HAC_READ_SAMPLES_ENTRIES = 5 };

uint8_t hac_read_samples(const uint8_t *file, size_t length, size_t place, uint32_t *numbers, size_t numbers_length,
    int32_t *values, size_t values_length, uint64_t *answer, size_t entries);

/* The samples of a ping of angles, in tenths of a degree: an entry of all three slices for each; entries past them stay. Length:
   how many. Takes U-32-16-angles and U-16-angles; any other ping is another type: 9 at the place. Else refused as hac_read_ping;
   then by 19 at 0 where one of the slices is shorter than HAC_PING_VALUES. */
enum { HAC_READ_ANGLES_ENTRIES = 5 };

uint8_t hac_read_angles(const uint8_t *file, size_t length, size_t place, uint32_t *numbers, size_t numbers_length,
    int16_t *alongship, size_t alongship_length, int16_t *athwartship, size_t athwartship_length, uint64_t *answer,
    size_t entries);

/* ---- writers. `msb` asks for the most significant byte first. All write one tuple at the start of `out`, spaces as 0; length:
   its bytes. Every writer has the same least number of entries. */
enum { HAC_WRITE_ENTRIES = 5 };

/* A ping of a kind that numbers its samples, or in the fewest words. Numbers rise strictly; all slices of samples have the same
   length. Refused by 23 at the smallest of unequal lengths; 11 (over HAC_VALUE_LIMIT samples); 22 (no samples, and, of words, no
   length); 23 at the first number not above the one before it; 21 at the first value that has no word (of words alone); 26 (of
   words alone, where there is a length: under the last number plus 2, or 0 without samples); 11 (the tuple over
   HAC_TUPLE_LIMIT, of words alone); 19. The places of 23 and 21 are places in the list, from 0; all others are 0.

   These have a word: C-32, -2147418112 .. -65537 and 0 .. 2147418111; C-16, -32511 .. -257 and 0 .. 32511; CE-16, 0 .. 507840 and
   their negatives as far as an exponent gives them: up to 8191 each number, from 8192 on every second, from 16384 on every
   fourth, and so on, up to every 64th from 262144 on. */
uint8_t hac_write_u32(uint16_t time_fraction, uint32_t time_cpu, uint16_t software_channel_identifier,
    uint16_t transmitter_mode, uint32_t ping_number, int32_t detected_bottom_range, int32_t tuple_attribute,
    const uint32_t *numbers, size_t numbers_length, const int32_t *values, size_t values_length, bool msb, uint8_t *out,
    size_t out_length, uint64_t *answer, size_t entries);

/* With a length the ping ends in the runs that fill it, at least one sample of silence, so that it is read with this length.
   Without one no run stands behind the last value, and `ping_length` is not looked at. The last number plus 2 is worked out in
   more than 32 bits: where the last number is 4294967294 or 4294967295 every length is too short. */
uint8_t hac_write_c32(uint16_t time_fraction, uint32_t time_cpu, uint16_t software_channel_identifier,
    uint16_t transmitter_mode, uint32_t ping_number, int32_t detected_bottom_range, int32_t tuple_attribute,
    const uint32_t *numbers, size_t numbers_length, const int32_t *values, size_t values_length, bool has_length,
    uint32_t ping_length, bool msb, uint8_t *out, size_t out_length, uint64_t *answer, size_t entries);

uint8_t hac_write_u32_16_angles(uint16_t time_fraction, uint32_t time_cpu, uint16_t software_channel_identifier,
    uint16_t transmitter_mode, uint32_t ping_number, int32_t detected_bottom_range, int32_t tuple_attribute,
    const uint32_t *numbers, size_t numbers_length, const int16_t *alongship, size_t alongship_length,
    const int16_t *athwartship, size_t athwartship_length, bool msb, uint8_t *out, size_t out_length, uint64_t *answer,
    size_t entries);

/* U-16 and U-16-angles number samples up to 65535: what is past them can't be handed over. */
uint8_t hac_write_u16(uint16_t time_fraction, uint32_t time_cpu, uint16_t software_channel_identifier,
    uint16_t transmitter_mode, uint32_t ping_number, int32_t detected_bottom_range, int32_t tuple_attribute,
    const uint16_t *numbers, size_t numbers_length, const int16_t *values, size_t values_length, bool msb, uint8_t *out,
    size_t out_length, uint64_t *answer, size_t entries);

uint8_t hac_write_u16_angles(uint16_t time_fraction, uint32_t time_cpu, uint16_t software_channel_identifier,
    uint16_t transmitter_mode, uint32_t ping_number, int32_t detected_bottom_range, int32_t tuple_attribute,
    const uint16_t *numbers, size_t numbers_length, const int16_t *alongship, size_t alongship_length,
    const int16_t *athwartship, size_t athwartship_length, bool msb, uint8_t *out, size_t out_length, uint64_t *answer,
    size_t entries);

/* `has_length` and `ping_length` as for C-32. */
uint8_t hac_write_c16(uint16_t time_fraction, uint32_t time_cpu, uint16_t software_channel_identifier,
    uint16_t transmitter_mode, uint32_t ping_number, int32_t detected_bottom_range, int32_t tuple_attribute,
    const uint32_t *numbers, size_t numbers_length, const int16_t *values, size_t values_length, bool has_length,
    uint32_t ping_length, bool msb, uint8_t *out, size_t out_length, uint64_t *answer, size_t entries);

/* Values are counts. */
uint8_t hac_write_ce16(uint16_t time_fraction, uint32_t time_cpu, uint16_t software_channel_identifier,
    uint16_t transmitter_mode, uint32_t ping_number, int32_t detected_bottom_range, int32_t tuple_attribute,
    const uint32_t *numbers, size_t numbers_length, const int32_t *values, size_t values_length, bool has_length,
    uint32_t ping_length, bool msb, uint8_t *out, size_t out_length, uint64_t *answer, size_t entries);

/* ---- the records: what stands in a listed tuple that is no ping.

   `numbers` holds a record's fields in TR's order, the attribute last, in one layout for reading and for writing: read a record,
   alter a number, write it back. hac_records.h has of each record the place of each field in it (HAC_NAVIGATION_HEADING), how
   many they are (HAC_NAVIGATION_NUMBERS), its type and its length. A signed field is read as its pattern in its own width:
   (int16_t)numbers[HAC_NAVIGATION_HEADING] is the heading. Of a number to write only the lower bytes of the field's width are
   taken, so that -905 may be handed over as it is. In C the fields may be named, and what isn't named is 0:

       uint32_t numbers[HAC_NAVIGATION_NUMBERS] = {[HAC_NAVIGATION_HEADING] = -905, [HAC_NAVIGATION_NAVIGATION_SPEED] = 5144};

   A record's characters are the remarks of either maker's sounder and channel, an event's text and an end of file's data. They
   are a part of the file when they are read, and `text` when they are written; a record that has none is written with a text of
   length 0.

   These two calls stand in the place of 22, a reader and a writer of each record. What changes for a caller of these:
   - hac_read_navigation(file, length, place, answer, HAC_READ_NAVIGATION_ENTRIES) is now
     hac_read_record(file, length, place, HAC_TYPE_NAVIGATION, numbers, HAC_NAVIGATION_NUMBERS, answer, HAC_READ_RECORD_ENTRIES).
   - HAC_NAVIGATION_HEADING and its like are places in `numbers`, from 0 on, and no longer in `answer`, from 5 on.
   - Where characters stand is told in answer[HAC_RECORD_TEXT_PLACE] and answer[HAC_RECORD_TEXT_LENGTH] of every record, in the
     place of HAC_SOUNDER_REMARKS_PLACE and its like.
   - hac_write_navigation(time_fraction, .., tuple_attribute, msb, ..) is now
     hac_write_record(HAC_TYPE_NAVIGATION, numbers, HAC_NAVIGATION_NUMBERS, text, 0, msb, ..), with the same fields in the same
     order in `numbers`. Remarks and texts are handed over as before, as `text`.
   - hac_write_file_end wrote two bytes of data, both 0: hand these two over.
   - Refusals are the same. Beside them stand those of what couldn't be asked for before: a type that is no record's, too few
     numbers, characters for a record that has none. */

/* The record of a type at a place. Its numbers are written to `numbers`; entries past them stay. Refused as a forward step is
   refused, 3 at the end; 9 for another type than asked for, and for every tuple where `type` is no record's; then 9, and 8 for a
   signature, all at the place; last by 19 at 0 where `numbers_length` is less than the record's numbers. */
enum { HAC_READ_RECORD_ENTRIES = 7 };

enum {
    HAC_RECORD_TEXT_PLACE = 5, /* where its characters stand in the file; its attribute's place where it has none */
    HAC_RECORD_TEXT_LENGTH = 6 /* how many they are; 0 where it has none */
};

uint8_t hac_read_record(const uint8_t *file, size_t length, size_t place, uint16_t type, uint32_t *numbers,
    size_t numbers_length, uint64_t *answer, size_t entries);

/* A record written. Numbers past the record's are not looked at. Refused, all at 0, by 9 where `type` is no record's; by 9 where
   `numbers_length` is less than the record's numbers; by 9 where the record can't hold the text: remarks that are not HAC_REMARK
   characters, a text for a record without characters, an event's text that is empty or no multiple of 4, an end of file's data
   that are not 2, 6, 10 .. bytes; by 11 for a tuple over HAC_TUPLE_LIMIT; by 19. */
uint8_t hac_write_record(uint16_t type, const uint32_t *numbers, size_t numbers_length, const uint8_t *text, size_t text_length,
    bool msb, uint8_t *out, size_t out_length, uint64_t *answer, size_t entries);

#include "hac_records.h"

#ifdef __cplusplus
}
#endif

#endif
