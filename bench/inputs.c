/*
 * Makes large inputs: the hard case that real files come close to. Mostly one sender; receivers all over the table, every
 * fourth of them found only by its head office's row.
 */
#include "inputs.h"

#include <stdio.h>
#include <stdlib.h>
#include <string.h>

enum { BRANCHES = 8, SLOTS = 2 * ROOM, MESSAGE = 1, BULK = 2, BULK_SIZE = 16, LETTERS = 62 };
static const char letters[LETTERS + 1] = "0123456789ABCDEFGHIJKLMNOPQRSTUVWXYZabcdefghijklmnopqrstuvwxyz";
/* What a BIC may have: at its first six places the first 26, then any. */
enum { FIRST = 26, ANY = 36 };
static const char capitals[ANY + 1] = "ABCDEFGHIJKLMNOPQRSTUVWXYZ0123456789";

void fail(const char *why) {
    fprintf(stderr, "bench: %s\n", why);
    exit(1);
}

static buffer space(size_t len) {
    buffer made = {calloc(len, 1), len};
    if (made.bytes == NULL) fail("no memory");
    return made;
}

static uint8_t *text(uint8_t *at, const char *value, size_t width) {
    memset(at, ' ', width);
    memcpy(at, value, strlen(value));
    return at + width;
}

uint8_t *number(uint8_t *at, uint64_t value, int width) {
    for (int i = width - 1; i >= 0; i--, value >>= 8) at[i] = (uint8_t)value;
    return at + width;
}

/* The BICs of a bank's rows, the head office first, and behind them one that has no row. */
typedef char bank[BRANCHES + 1][11];

static void draw(char *to, int count, unsigned from) {
    static uint64_t state = 20260615;
    for (int i = 0; i < count; i++) {
        state = state * 6364136223846793005u + 1442695040888963407u;
        to[i] = capitals[(state >> 33) % from];
    }
}

static bool stands_before(bank one, int branch) {
    for (int i = 0; i < branch; i++)
        if (memcmp(one[i], one[branch], sizeof *one) == 0) return true;
    return false;
}

static void draw_bank(bank one) {
    draw(one[0], 6, FIRST);
    draw(one[0] + 6, 2, ANY);
    memcpy(one[0] + 8, "XXX", 3);
    for (int branch = 1; branch <= BRANCHES; branch++) {
        memcpy(one[branch], one[0], sizeof *one);
        while (stands_before(one, branch)) draw(one[branch] + 8, 3, ANY);
    }
}

/* With this seed no two banks are equal. */
static const char *drawn(size_t number, size_t branch) {
    static bank banks[LARGEST_TABLE / BRANCHES];
    static size_t filled;
    while (filled <= number) draw_bank(banks[filled++]);
    return banks[number][branch];
}

/* The BIC of a row, or one of its bank that has no row of its own. */
static uint8_t *bic(uint8_t *at, const sizes *s, size_t row, bool no_row) {
    size_t bank = row / BRANCHES, branch = no_row ? BRANCHES : row % BRANCHES;
    char value[16], end[4] = {'0', '0', (char)('0' + branch), 0};
    if (branch == 0) memcpy(end, "XXX", 3);
    if (no_row) memcpy(end, "RIX", 3);
    switch (s->bics) {
    case RANDOM: memcpy(at, drawn(bank, branch), 11); return at + 11;
    case SIX:
        snprintf(value, sizeof value, "BANKLV%c%c%s", capitals[bank / ANY % ANY], capitals[bank % ANY], end);
        break;
    default:
        snprintf(value, sizeof value, "B%c%c%cLV22%s", (int)('A' + bank / 676 % 26), (int)('A' + bank / 26 % 26),
                 (int)('A' + bank % 26), end);
    }
    return text(at, value, 11);
}

static buffer make_table(const sizes *s) {
    buffer table = space(4 + 20 * s->rows);
    uint8_t *at = number(table.bytes, s->rows, 4);
    for (size_t row = 0; row < s->rows; row++) {
        at = bic(at, s, row, false);
        at = number(at, 20260101, 4);
        at = number(at, 20991231, 4);
        at = number(at, row % BRANCHES == 0 ? 5 : 6, 1);
    }
    return table;
}

static size_t banks(const sizes *s) { return (s->rows + BRANCHES - 1) / BRANCHES; }

/* One bank in the middle of the table sends everything; where many do, they take turns. */
static uint8_t *sender(uint8_t *at, const sizes *s, size_t turn) {
    uint8_t eleven[11];
    bic(eleven, s, s->identifiers == MANY ? turn % banks(s) * BRANCHES : s->rows / 2, false);
    memcpy(at, eleven, 8);
    return at + 8;
}

/* One count for all, or where many banks send, each one's own. */
static size_t counted(const sizes *s, size_t all, size_t own) { return s->identifiers == MANY ? own : all; }

/* For each remainder three characters that are worth it as the last ones of an identifier; for some there are none. */
static const char *end_worth(size_t remainder) {
    static char ends[SLOTS][3];
    static int filled;
    for (const char *a = letters; !filled && *a != 0; a++)
        for (const char *b = letters; *b != 0; b++)
            for (const char *c = letters; *c != 0; c++)
                memcpy(ends[((size_t)*a * 257 * 257 * 257 + (size_t)*b * 257 * 257 + (size_t)*c * 257) % SLOTS],
                       (char[]){*a, *b, *c}, 3);
    filled = 1;
    return ends[remainder][0] == 0 ? NULL : ends[remainder];
}

/* Sets the last four characters so that the entry starts at slot 0. */
static void crowd(uint8_t identifier[35], const uint8_t sender[8], uint8_t tag) {
    uint8_t entry[44];
    for (char first = 'A'; first <= 'Z'; first++) {
        memcpy(entry, sender, 8);
        memcpy(entry + 8, identifier, 35);
        memcpy(entry + 39, (char[]){first, 0, 0, 0, (char)tag}, 5);
        size_t start = 0;
        for (int i = 0; i < 44; i++) start = (start * 257 + entry[i]) % SLOTS;
        const char *end = end_worth((SLOTS - start) % SLOTS);
        if (end == NULL) continue;
        identifier[31] = (uint8_t)first;
        memcpy(identifier + 32, end, 3);
        return;
    }
    fail("no end reaches the slot");
}

/* A number in four characters. */
static void spell(char four[5], size_t index) {
    for (int i = 3; i >= 0; i--, index /= LETTERS) four[i] = letters[index % LETTERS];
    four[4] = 0;
}

static shape shape_of(const sizes *s, size_t index) {
    if (s->identifiers != MIXED) return s->identifiers;
    return index % 2 == 0 ? SHORT : SHARED_FRONT;
}

static uint8_t *identifier(uint8_t *at, const sizes *s, size_t index, uint8_t tag) {
    char value[48];
    unsigned seven = (unsigned)index % 10000000u;
    switch (shape_of(s, index)) {
    case LEADING: snprintf(value, sizeof value, "%07u/SALARIES", seven); break;
    case SHORT: spell(value, index); break;
    case MANY: snprintf(value, sizeof value, "%u", seven); break;
    case CROWDED: snprintf(value, sizeof value, "SALARIES/2026-06-15/SLOT%07u", seven); break;
    default: snprintf(value, sizeof value, "SALARIES/2026-06-15/BATCH01/%07u", seven);
    }
    text(at, value, 35);
    if (s->identifiers == CROWDED) {
        uint8_t eight[8];
        sender(eight, s, 0);
        crowd(at, eight, tag);
    }
    return at + 35;
}

static buffer make_register(const sizes *s) {
    buffer reg = space(4 + 44 * ROOM);
    uint8_t *at = number(reg.bytes, s->entries, 4);
    for (size_t entry = 0; entry < s->entries; entry++) {
        uint8_t tag = entry % BULK_SIZE == 0 ? BULK : MESSAGE;
        at = sender(at, s, entry);
        at = identifier(at, s, counted(s, 5000000 + entry, entry / banks(s)), tag);
        at = number(at, tag, 1);
    }
    return reg;
}

static uint64_t amount(size_t message) { return 100 + message % 900; }

/* Where many banks send, each bulk is another's: its messages count on from what that bank has in the register. */
static uint8_t *make_message(uint8_t *at, const sizes *s, size_t message, size_t first) {
    size_t row = message * 7919 % s->rows;
    at = identifier(at, s, counted(s, message, s->entries / banks(s) + 1 + message - first), MESSAGE);
    at = bic(at, s, row, message % 4 == 0);
    at = number(at, amount(message), 8);
    at = number(at, 0, 8);
    at = text(at, "", 4);
    return text(at, "", 15);
}

/* Messages are shared out evenly. */
static size_t first_of(const sizes *s, size_t bulk) { return s->messages * bulk / s->bulks; }

static buffer make_sheet(const sizes *s) {
    buffer sheet = space(4 + 69 * s->bulks + 81 * s->messages);
    uint8_t *at = number(sheet.bytes, s->bulks, 4);
    for (size_t bulk = 0; bulk < s->bulks; bulk++) {
        uint64_t sum = 0;
        for (size_t message = first_of(s, bulk); message < first_of(s, bulk + 1); message++) sum += amount(message);
        at = number(at, 1, 1);
        at = identifier(at, s, 9000000 + bulk, BULK);
        at = sender(at, s, bulk);
        at = number(at, first_of(s, bulk + 1) - first_of(s, bulk), 8);
        at = number(at, sum, 8);
        at = number(at, TODAY, 4);
        at = number(at, s->falling ? 7 : 3, 1);
    }
    for (size_t bulk = 0; bulk < s->bulks; bulk++) {
        at = number(at, first_of(s, bulk + 1) - first_of(s, bulk), 4);
        for (size_t message = first_of(s, bulk); message < first_of(s, bulk + 1); message++)
            at = make_message(at, s, message, first_of(s, bulk));
    }
    return sheet;
}

input make_input(const sizes *s) {
    buffer names = space(HASH_SLOTS * sizeof(uint32_t));
    return (input){make_sheet(s),      make_table(s),    make_register(s),
                   space(8 * s->rows), space(4 + 68 * s->bulks + 38 * s->messages),
                   space(4 * SLOTS),   (uint32_t *)(void *)names.bytes};
}

void free_input(input *in) {
    buffer buffers[] = {in->sheet, in->table, in->reg, in->positions, in->report, in->index};
    for (size_t i = 0; i < sizeof buffers / sizeof *buffers; i++) free(buffers[i].bytes);
    free(in->names);
}
