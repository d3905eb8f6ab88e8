/*
 * How a splitter has identifiers found by an index: it builds the index of its register once, lends it with one file
 * after the other, and prints how many slots were read. A register with room for 4 entries has an index of 8 slots.
 */
#include <inttypes.h>
#include <stdio.h>

#include "../include/tynderaxo.h"
#include "fields.h"

enum { ROWS = 2, ROOM = 4, SLOTS = 2 * ROOM, SHEET = 4 + 65 + 4 + 81, REPORT = 4 + 68 + 38 };
static const uint32_t TODAY = 20260615;

/* What stays from one file to the next. */
static uint8_t table[4 + 20 * ROWS], reg[4 + 44 * ROOM], positions[8 * ROWS], reg_index[4 * SLOTS];

/* A sheet of one bulk with one payment of a euro. */
static void make_sheet(uint8_t *at, const char *bulk, const char *message) {
    at = number(at, 1, 4);
    at = number(at, 1, 1);
    at = text(at, bulk, 35);
    at = text(at, "AAAALV22", 8);
    at = number(at, 1, 8);
    at = number(at, 100, 8);
    at = number(at, TODAY, 4);
    at = number(at, 3, 1);
    at = number(at, 1, 4);
    at = text(at, message, 35);
    at = text(at, "BBBBLV22XXX", 11);
    at = number(at, 100, 8);
    at = number(at, 0, 8);
    at = text(at, "", 4);
    text(at, "", 15);
}

static void print_index(void) {
    printf("index:");
    for (int i = 0; i < SLOTS; i++) printf(" %" PRIu64, number_at(reg_index + 4 * i, 4));
    printf("\n");
}

static void judge(const char *bulk, const char *message) {
    uint8_t sheet[SHEET], report[REPORT];
    make_sheet(sheet, bulk, message);
    tynderaxo_indexed_answer answer =
        tynderaxo_judge_indexed(TODAY, sheet, sizeof sheet, table, sizeof table, reg, sizeof reg, positions,
                                sizeof positions, report, sizeof report, reg_index, sizeof reg_index);
    printf("%s with %s: answer %" PRIu32, bulk, message, answer.number);
    if (answer.number == 0)
        printf(", %" PRIu64 " accepted, %" PRIu64 " slots read", number_at(report + 4 + 38, 4), answer.slots);
    printf("\n");
}

static void build(void) {
    uint32_t number = tynderaxo_build_index(reg, sizeof reg, reg_index, sizeof reg_index);
    printf("build: answer %" PRIu32 "\n", number);
}

int main(void) {
    row(row(number(table, ROWS, 4), "AAAALV22XXX", 5), "BBBBLV22XXX", 5);
    build();
    judge("D1", "T1");
    print_index();
    judge("D9", "T9");
    print_index();

    /* a register that was written by anything but the judge needs its index built anew */
    number(reg, 0, 4);
    judge("D3", "T3");
    build();
    judge("D3", "T3");
    return 0;
}
