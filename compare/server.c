/*
 * Puts the archive behind a pipe, so that a tester built for another processor can call it.
 *
 * Standard input brings calls and standard output takes answers; numbers are little-endian.
 *   call:    8 words of 4 bytes: the functions, one a byte, the first in the lowest; the date; six lengths; then the six
 *            buffers: sheet, table, register, positions, report, index. Functions: 1 judge; 2 lookup, with the BIC in
 *            place of the sheet; 3 read, with the text in place of the sheet and its space in place of the report;
 *            4 judge by the index; 5 build an index, its space filled with guard bytes first; 6 open_day and 7
 *            next_open_day of each date in place of the sheet, 8 open_days of each two, all in words of 4 bytes, with two
 *            words for each answer in place of the report. What a function does not take may be empty. Each of several
 *            gets the buffers as they came
 *   answer:  for each function 6 words of 4 bytes: number, then for the judges the length in two halves (low first) and
 *            the slots read in two more or two 0, for the lookup found, row, reachable and a 0, for reading length and
 *            place in two halves each, for days only 0; last, 1 if no byte outside the lent buffers and none of the first two buffers
 *            changed; then register, positions, report and index as they now are
 * Reading is there only where this was built with WITH_READER.
 */
#include <stdio.h>
#include <stdlib.h>
#include <string.h>

#include "../include/tynderaxo.h"

enum { JUDGE = 1, LOOKUP = 2, READ = 3, INDEXED = 4, BUILD = 5, OPEN_DAY = 6, NEXT_OPEN_DAY = 7, OPEN_DAYS = 8 };
enum { BUFFERS = 6, READ_ONLY = 2, WORDS = 5, GUARD = 61, GUARD_BYTE = 0xA5 };

/* All buffers of a call, each between guards; the odd guard width leaves them unaligned. */
typedef struct {
    uint8_t *bytes, *before;
    size_t room, length;
    size_t at[BUFFERS], lengths[BUFFERS];
} arena;

static void fail(const char *why) {
    fprintf(stderr, "server: %s\n", why);
    exit(2);
}

static void lay_out(arena *a, const uint32_t lengths[BUFFERS]) {
    a->length = GUARD;
    for (int i = 0; i < BUFFERS; i++) {
        a->at[i] = a->length;
        a->lengths[i] = lengths[i];
        a->length += lengths[i] + (size_t)GUARD;
    }
    if (a->room < a->length) {
        a->room = 2 * a->length;
        a->bytes = realloc(a->bytes, a->room);
        a->before = realloc(a->before, a->room);
        if (a->bytes == NULL || a->before == NULL) fail("no memory");
    }
    memset(a->bytes, GUARD_BYTE, a->length);
}

/* An empty buffer is handed over as null, as the header allows. */
static uint8_t *buffer(const arena *a, int i) { return a->lengths[i] == 0 ? NULL : a->bytes + a->at[i]; }

static uint32_t intact(const arena *a) {
    size_t from = 0;
    for (int i = READ_ONLY; i <= BUFFERS; i++) {
        size_t to = i < BUFFERS ? a->at[i] : a->length;
        if (memcmp(a->bytes + from, a->before + from, to - from) != 0) return 0;
        if (i < BUFFERS) from = to + a->lengths[i];
    }
    return 1;
}

static void put_halves(uint32_t words[2], uint64_t number) {
    words[0] = (uint32_t)number;
    words[1] = (uint32_t)(number >> 32);
}

static void read_text(const arena *a, uint32_t answer[WORDS]) {
#ifdef WITH_READER
    tynderaxo_read_answer read = tynderaxo_read(buffer(a, 0), a->lengths[0], buffer(a, 4), a->lengths[4]);
    answer[0] = read.number;
    put_halves(answer + 1, read.length);
    put_halves(answer + 3, read.at);
#else
    (void)a;
    (void)answer;
    fail("the archive has no reader");
#endif
}

static uint32_t word(const uint8_t *p) { return p[0] | p[1] << 8 | p[2] << 16 | (uint32_t)p[3] << 24; }

static void put_word(uint8_t *p, uint32_t number) {
    for (int i = 0; i < 4; i++) p[i] = (uint8_t)(number >> 8 * i);
}

static void tell_days(const arena *a, uint32_t function) {
    const uint8_t *dates = a->bytes + a->at[0];
    uint8_t *answers = a->bytes + a->at[4];
    size_t width = function == OPEN_DAYS ? 8 : 4, count = a->lengths[0] / width;
    if (a->lengths[4] < 8 * count) fail("no space for days");
    for (size_t i = 0; i < count; i++) {
        uint32_t date = word(dates + width * i);
        tynderaxo_day day = function == OPEN_DAY        ? tynderaxo_open_day(date)
                            : function == NEXT_OPEN_DAY ? tynderaxo_next_open_day(date)
                                                        : tynderaxo_open_days(date, word(dates + width * i + 4));
        put_word(answers + 8 * i, day.number);
        put_word(answers + 8 * i + 4, day.value);
    }
}

static void call(const arena *a, uint32_t function, uint32_t date, uint32_t answer[WORDS]) {
    memset(answer, 0, WORDS * sizeof *answer);
    if (function == JUDGE) {
        tynderaxo_answer judged = tynderaxo_judge(date, buffer(a, 0), a->lengths[0], buffer(a, 1), a->lengths[1],
                                                  buffer(a, 2), a->lengths[2], buffer(a, 3), a->lengths[3],
                                                  buffer(a, 4), a->lengths[4]);
        answer[0] = judged.number;
        put_halves(answer + 1, judged.length);
    } else if (function == INDEXED) {
        tynderaxo_indexed_answer judged = tynderaxo_judge_indexed(
            date, buffer(a, 0), a->lengths[0], buffer(a, 1), a->lengths[1], buffer(a, 2), a->lengths[2], buffer(a, 3),
            a->lengths[3], buffer(a, 4), a->lengths[4], buffer(a, 5), a->lengths[5]);
        answer[0] = judged.number;
        put_halves(answer + 1, judged.length);
        put_halves(answer + 3, judged.slots);
    } else if (function == BUILD) {
        memset(a->bytes + a->at[5], GUARD_BYTE, a->lengths[5]);
        answer[0] = tynderaxo_build_index(buffer(a, 2), a->lengths[2], buffer(a, 5), a->lengths[5]);
    } else if (function >= OPEN_DAY && function <= OPEN_DAYS) {
        tell_days(a, function);
    } else if (function == READ) {
        read_text(a, answer);
    } else if (function == LOOKUP) {
        tynderaxo_route route = tynderaxo_lookup(date, buffer(a, 1), a->lengths[1], buffer(a, 0), a->lengths[0]);
        answer[0] = route.number;
        answer[1] = route.found;
        answer[2] = route.row;
        answer[3] = route.reachable;
    } else {
        fail("no such function");
    }
}

int main(void) {
    static char in[1 << 16], out[1 << 16];
    setvbuf(stdin, in, _IOFBF, sizeof in);
    setvbuf(stdout, out, _IOFBF, sizeof out);
    arena a = {0};
    uint32_t words[2 + BUFFERS], answer[WORDS + 1];
    while (fread(words, sizeof words, 1, stdin) == 1) {
        lay_out(&a, words + 2);
        for (int i = 0; i < BUFFERS; i++)
            if (fread(a.bytes + a.at[i], 1, a.lengths[i], stdin) != a.lengths[i]) fail("a call ends early");
        memcpy(a.before, a.bytes, a.length);
        for (uint32_t functions = words[0]; functions != 0; functions >>= 8) {
            memcpy(a.bytes, a.before, a.length);
            call(&a, functions & 255, words[1], answer);
            answer[WORDS] = intact(&a);
            fwrite(answer, sizeof answer, 1, stdout);
            for (int i = READ_ONLY; i < BUFFERS; i++) fwrite(a.bytes + a.at[i], 1, a.lengths[i], stdout);
        }
        if (fflush(stdout) != 0) fail("the answer cannot be written");
    }
    return 0;
}
