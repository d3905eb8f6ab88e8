/* The routing table of the plain judges, and how the row of a BIC is found in it. */
#ifndef ROWS_H
#define ROWS_H

#include "search.h"
#include "wording.h"

enum { ROW = 20, MOST_ROWS = 8192, NO_ROW = -1 };

/* The archive's number of slots, a prime, and the hash table's, a power of two: both more than there are rows. */
enum { ROW_SLOTS = 14983, ROW_HASH_SLOTS = 16384 };

/* A table that stands, on a date. */
typedef struct {
    way way;
    uint32_t date;
    const uint8_t *table;
    uint16_t *names; /* BY_INDEX and BY_HASH: rows counted from 1, in ROW_HASH_SLOTS, of which BY_INDEX takes the first */
} router;

static inline uint8_t kind_of(const uint8_t *table, long row) { return table[4 + ROW * (size_t)row + 19]; }

/* Fills the slots from the rows that count on the date. To be done once, before any search. */
void name_rows(router *r);

/* The row a sender's eight characters go by: their head office's first that counts. */
long head_office_row(const router *r, const uint8_t eight[SENDER]);

/* The row a receiver goes by: its own first that counts, else its head office's. */
long receiver_row(const router *r, const uint8_t bic[BIC]);

#endif
