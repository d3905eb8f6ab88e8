/* The three ways of finding an entry. */
#include "search.h"

#include <string.h>

static const uint8_t *entry_at(const uint8_t *reg, uint32_t place) { return reg + 4 + ENTRY * (size_t)place; }

/* Not inlined, since the compiler makes the better loop of it so. */
__attribute__((noinline)) static bool stands(const uint8_t *reg, const uint8_t entry[ENTRY]) {
    uint32_t used = get32(reg);
    for (uint32_t i = 0; i < used; i++)
        if (memcmp(reg + 4 + ENTRY * (size_t)i, entry, ENTRY) == 0) return true;
    return false;
}

/* The entry as a number to base 257, modulo the number of slots. */
static size_t start(const uint8_t entry[ENTRY], size_t slots) {
    size_t at = 0;
    for (int i = 0; i < ENTRY; i++) at = (at * 257 + entry[i]) % slots;
    return at;
}

static bool find_by_index(finder *f, const uint8_t entry[ENTRY], size_t *place) {
    if (f->slots == 0) return false;
    *place = start(entry, f->slots);
    for (size_t read = 0; read < f->slots; read++) {
        uint32_t name = get32(f->index + SLOT * *place);
        f->read += 1;
        if (name == 0) return false;
        if (memcmp(entry_at(f->reg, name - 1), entry, ENTRY) == 0) return true;
        *place = *place + 1 == f->slots ? 0 : *place + 1;
    }
    return false;
}

/* Eight bytes at a time; a multiplication spreads each word, a shift brings its high half down. */
static uint64_t hash(const uint8_t entry[ENTRY]) {
    uint64_t mixed = 0, word;
    uint32_t rest;
    for (int i = 0; i + 8 <= ENTRY; i += 8) {
        memcpy(&word, entry + i, 8);
        mixed = (mixed ^ word) * 0x9E3779B97F4A7C15u;
        mixed ^= mixed >> 32;
    }
    memcpy(&rest, entry + ENTRY - 4, 4);
    mixed = (mixed ^ rest) * 0x9E3779B97F4A7C15u;
    return mixed ^ mixed >> 32;
}

static bool find_by_hash(const finder *f, const uint8_t entry[ENTRY], size_t *place) {
    for (*place = hash(entry) & (f->slots - 1);; *place = (*place + 1) & (f->slots - 1)) {
        uint32_t name = f->names[*place];
        if (name == 0) return false;
        if (memcmp(entry_at(f->reg, name - 1), entry, ENTRY) == 0) return true;
    }
}

bool find(finder *f, const uint8_t entry[ENTRY], size_t *place) {
    switch (f->way) {
    case BY_INDEX: return find_by_index(f, entry, place);
    case BY_HASH: return find_by_hash(f, entry, place);
    default: return stands(f->reg, entry);
    }
}

static void name(finder *f, size_t place, uint32_t counted_from_one) {
    if (f->way == BY_INDEX) put32(f->index + SLOT * place, counted_from_one);
    if (f->way == BY_HASH) f->names[place] = counted_from_one;
}

void record(finder *f, const uint8_t entry[ENTRY], size_t place) {
    uint32_t used = get32(f->reg);
    memcpy(f->reg + 4 + ENTRY * (size_t)used, entry, ENTRY);
    put32(f->reg, used + 1);
    name(f, place, used + 1);
}

void build(finder *f) {
    if (f->way == BY_INDEX && f->slots > 0) memset(f->index, 0, SLOT * f->slots);
    if (f->way == BY_HASH) memset(f->names, 0, sizeof *f->names * f->slots);
    uint32_t used = get32(f->reg);
    for (uint32_t i = 0; i < used; i++) {
        size_t place = 0;
        if (!find(f, entry_at(f->reg, i), &place)) name(f, place, i + 1);
    }
}
