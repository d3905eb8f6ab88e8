/* The three ways of finding a row. */
#include "rows.h"

#include <string.h>

static const uint8_t *row_at(const uint8_t *table, uint32_t place) { return table + 4 + ROW * (size_t)place; }

static bool counts(const uint8_t *row, uint32_t date) { return get32(row + 11) <= date && date <= get32(row + 15); }

/* Not inlined, since the compiler makes the better loop of it so. */
__attribute__((noinline)) static long walk(const uint8_t *table, uint32_t date, const uint8_t bic[BIC]) {
    uint32_t rows = get32(table);
    for (uint32_t i = 0; i < rows; i++) {
        const uint8_t *row = table + 4 + ROW * (size_t)i;
        if (memcmp(row, bic, BIC) == 0 && counts(row, date)) return i;
    }
    return NO_ROW;
}

/* The BIC as a number to base 257, modulo the number of slots. */
static size_t start(const uint8_t bic[BIC]) {
    size_t at = 0;
    for (int i = 0; i < BIC; i++) at = (at * 257 + bic[i]) % ROW_SLOTS;
    return at;
}

/* The slot that names the BIC's row, or the empty one where it would be named; one slot at least is empty. */
static size_t slot_by_index(const router *r, const uint8_t bic[BIC]) {
    size_t place = start(bic);
    while (r->names[place] != 0 && memcmp(row_at(r->table, r->names[place] - 1u), bic, BIC) != 0)
        place = place + 1 == ROW_SLOTS ? 0 : place + 1;
    return place;
}

/* The first eight characters and the last four, spread as an entry's are. */
static uint64_t hash(const uint8_t bic[BIC]) {
    uint64_t mixed;
    uint32_t rest;
    memcpy(&mixed, bic, 8);
    memcpy(&rest, bic + BIC - 4, 4);
    mixed *= 0x9E3779B97F4A7C15u;
    mixed ^= mixed >> 32;
    mixed = (mixed ^ rest) * 0x9E3779B97F4A7C15u;
    return mixed ^ mixed >> 32;
}

static size_t slot_by_hash(const router *r, const uint8_t bic[BIC]) {
    size_t place = hash(bic) & (ROW_HASH_SLOTS - 1);
    while (r->names[place] != 0 && memcmp(row_at(r->table, r->names[place] - 1u), bic, BIC) != 0)
        place = (place + 1) & (ROW_HASH_SLOTS - 1);
    return place;
}

static size_t slot(const router *r, const uint8_t bic[BIC]) {
    return r->way == BY_HASH ? slot_by_hash(r, bic) : slot_by_index(r, bic);
}

void name_rows(router *r) {
    if (r->way == BY_READING) return;
    memset(r->names, 0, sizeof *r->names * ROW_HASH_SLOTS);
    uint32_t rows = get32(r->table);
    for (uint32_t i = 0; i < rows; i++) {
        const uint8_t *row = row_at(r->table, i);
        if (!counts(row, r->date)) continue;
        size_t place = slot(r, row);
        if (r->names[place] == 0) r->names[place] = (uint16_t)(i + 1);
    }
}

static long first_row(const router *r, const uint8_t bic[BIC]) {
    if (r->way == BY_READING) return walk(r->table, r->date, bic);
    return (long)r->names[slot(r, bic)] - 1;
}

long head_office_row(const router *r, const uint8_t eight[SENDER]) {
    uint8_t bic[BIC];
    memcpy(bic, eight, SENDER);
    memcpy(bic + SENDER, "XXX", 3);
    return first_row(r, bic);
}

long receiver_row(const router *r, const uint8_t bic[BIC]) {
    long row = first_row(r, bic);
    if (row != NO_ROW || memcmp(bic + SENDER, "XXX", 3) == 0) return row;
    return head_office_row(r, bic);
}
