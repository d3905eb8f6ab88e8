/* Inputs for the benchmark: what a judge is lent. */
#ifndef INPUTS_H
#define INPUTS_H

#include <stdbool.h>
#include <stddef.h>
#include <stdint.h>

/*
 * What tells identifiers apart.
 * SHARED_FRONT: the last seven of 35 characters.
 * LEADING: the first seven; a word and blanks follow.
 * SHORT: four characters; blanks follow.
 * MIXED: every other identifier is short, the others have a shared front.
 * MANY: short numbers, and the sender; each of many banks counts its own, so that some of the numbers are the same.
 * CROWDED: seven characters before the last four; those are chosen, as a sender could, so that all entries start at one slot.
 */
typedef enum { SHARED_FRONT, LEADING, SHORT, MIXED, MANY, CROWDED } shape;

/*
 * What tells BICs apart. Each bank has a head office and branches, whatever the spelling.
 * NUMBERED: three letters of the bank and three characters of the branch, both counted.
 * RANDOM: all eleven characters, drawn from a fixed seed.
 * SIX: the last five; the bank has two of them.
 */
typedef enum { NUMBERED, RANDOM, SIX } spelling;

/*
 * Every message is accepted, so that each one is searched in the whole register and makes it longer. In a falling file every
 * bulk has wrong marks: no message is added and none pays.
 */
typedef struct {
    size_t rows, entries, bulks, messages;
    shape identifiers;
    spelling bics;
    bool falling;
} sizes;

typedef struct {
    uint8_t *bytes;
    size_t len;
} buffer;

/* The last four are written, and so are the names: those of the hash table, as the index has those of the slots. */
typedef struct {
    buffer sheet, table, reg, positions, report, index;
    uint32_t *names;
} input;

enum { LARGEST_TABLE = 8192, ROOM = 60000, HASH_SLOTS = 1 << 17 };
static const uint32_t TODAY = 20260615;

/* The index and the hash table are empty yet. */
input make_input(const sizes *s);
void free_input(input *in);

void fail(const char *why);
uint8_t *number(uint8_t *at, uint64_t value, int width);

#endif
