/* The register of the plain judges, and how an entry is found in it. */
#ifndef SEARCH_H
#define SEARCH_H

#include <stdbool.h>
#include <stddef.h>
#include <stdint.h>

enum { ENTRY = 44, SLOT = 4 };

/* Entry after entry; by the slots of the rules; by a hash table as a C programmer would have it. */
typedef enum { BY_READING, BY_INDEX, BY_HASH } way;

typedef struct {
    way way;
    uint8_t *reg;
    uint8_t *index;  /* BY_INDEX: names in big-endian bytes */
    uint32_t *names; /* BY_HASH: names as the machine has them; the slots are a power of two */
    size_t slots;
    uint64_t read; /* slots read so far, BY_INDEX */
} finder;

static inline uint32_t get32(const uint8_t *p) {
    return (uint32_t)p[0] << 24 | (uint32_t)p[1] << 16 | (uint32_t)p[2] << 8 | p[3];
}

static inline void put32(uint8_t *p, uint32_t value) {
    for (int i = 3; i >= 0; i--, value >>= 8) p[i] = (uint8_t)value;
}

/* Whether the entry is in use. Where it is not, *place is the slot it can be added at until another is added. */
bool find(finder *f, const uint8_t entry[ENTRY], size_t *place);

/* Adds the entry to the register, and to the slots at the place its search ended. */
void record(finder *f, const uint8_t entry[ENTRY], size_t place);

/* Fills the slots from the entries in use. */
void build(finder *f);

#endif
