/* Fields of the buffers that the examples lend. */
#ifndef FIELDS_H
#define FIELDS_H

#include <stdint.h>
#include <string.h>

/* Both write a field and return the place after it: text padded with spaces, numbers big-endian. */
static inline uint8_t *text(uint8_t *at, const char *value, size_t width) {
    memset(at, ' ', width);
    memcpy(at, value, strlen(value));
    return at + width;
}

static inline uint8_t *number(uint8_t *at, uint64_t value, int width) {
    for (int i = width - 1; i >= 0; i--, value >>= 8) at[i] = (uint8_t)value;
    return at + width;
}

static inline uint64_t number_at(const uint8_t *at, int width) {
    uint64_t value = 0;
    for (int i = 0; i < width; i++) value = value << 8 | at[i];
    return value;
}

/* A row of the table, which counts in this century from 2026 on. */
static inline uint8_t *row(uint8_t *at, const char *bic, int kind) {
    at = text(at, bic, 11);
    at = number(at, 20260101, 4);
    at = number(at, 20991231, 4);
    return number(at, (uint64_t)kind, 1);
}

#endif
