/*
 * How a splitter calls the judge: it lays out the worked case in memory, has it judged, asks for a few
 * routes and prints what came back.
 */
#include <inttypes.h>
#include <stdio.h>
#include <string.h>

#include "../include/tynderaxo.h"
#include "fields.h"

enum { ROWS = 3, ROOM = 8, BULKS = 1, MESSAGES = 3 };
static const uint32_t TODAY = 20260615;

static uint8_t *header(uint8_t *at, const char *identifier, const char *sender, uint64_t messages, uint64_t cents) {
    at = number(at, 1, 1);
    at = text(at, identifier, 35);
    at = text(at, sender, 8);
    at = number(at, messages, 8);
    at = number(at, cents, 8);
    at = number(at, TODAY, 4);
    return number(at, 3, 1);
}

static uint8_t *message(uint8_t *at, const char *identifier, const char *receiver, uint64_t cents) {
    at = text(at, identifier, 35);
    at = text(at, receiver, 11);
    at = number(at, cents, 8);
    at = number(at, 0, 8);
    at = text(at, "", 4);
    return text(at, "", 15);
}

static void print_report(const uint8_t *report) {
    const uint8_t *line = report + 4;
    printf("bulk %.2s: outcome %d, faults %" PRIu64, (const char *)line, line[35], number_at(line + 36, 2));
    printf(", accepted %" PRIu64 " of %" PRIu64 " cents", number_at(line + 38, 4), number_at(line + 42, 8));
    /* the rejected cents have ten bytes; here the first two are 0 */
    printf(", rejected %" PRIu64 " of %" PRIu64 " cents\n", number_at(line + 50, 4), number_at(line + 56, 8));
    for (int i = 0; i < MESSAGES; i++) {
        line = report + 4 + 64 * BULKS + 4 + 38 * i;
        printf("message %.2s: outcome %d", (const char *)line, line[35]);
        printf(", faults %" PRIu64 "\n", number_at(line + 36, 2));
    }
}

static void print_route(const uint8_t *table, size_t table_len, const char *bic) {
    tynderaxo_route route = tynderaxo_lookup(TODAY, table, table_len, (const uint8_t *)bic, strlen(bic));
    if (route.number != 0) printf("%s: refusal %" PRIu32 "\n", bic, route.number);
    else if (!route.found) printf("%s: no row\n", bic);
    else printf("%s: row %" PRIu32 ", %s\n", bic, route.row, route.reachable ? "reachable" : "not reachable");
}

int main(void) {
    uint8_t table[4 + 20 * ROWS];
    uint8_t *at = number(table, ROWS, 4);
    at = row(at, "AAAALV22XXX", 5);
    at = row(at, "BBBBLV22XXX", 5);
    row(at, "BBBBLV22KUL", 0);

    uint8_t sheet[4 + 65 * BULKS + 4 * BULKS + 81 * MESSAGES];
    at = number(sheet, BULKS, 4);
    at = header(at, "D1", "AAAALV22", MESSAGES, 600);
    at = number(at, MESSAGES, 4);
    at = message(at, "T1", "BBBBLV22RIX", 100);
    at = message(at, "T2", "BBBBLV22KUL", 200);
    message(at, "T1", "BBBBLV22XXX", 300);

    uint8_t reg[4 + 44 * ROOM] = {0}, positions[8 * ROWS] = {0}, report[4 + 68 * BULKS + 38 * MESSAGES];
    tynderaxo_answer answer = tynderaxo_judge(TODAY, sheet, sizeof sheet, table, sizeof table, reg, sizeof reg,
                                              positions, sizeof positions, report, sizeof report);
    printf("answer %" PRIu32 ", report of %" PRIu64 " bytes\n", answer.number, answer.length);
    if (answer.number != 0) return 1;

    print_report(report);
    for (int i = 0; i < ROWS; i++) printf("position %d: %" PRId64 "\n", i, (int64_t)number_at(positions + 8 * i, 8));
    printf("register: %" PRIu64 " used\n", number_at(reg, 4));
    print_route(table, sizeof table, "BBBBLV22RIX");
    print_route(table, sizeof table, "BBBBLV22KUL");
    print_route(table, sizeof table, "CCCCLV22XXX");
    print_route(table, sizeof table, "BBBBLV22");

    /* a buffer of length 0 may be a null pointer: a table of no rows has no positions */
    uint8_t empty[4] = {0}, used[4] = {0}, count[4];
    answer = tynderaxo_judge(TODAY, empty, sizeof empty, empty, sizeof empty, used, sizeof used, NULL, 0, count, sizeof count);
    printf("no bulks, no rows: answer %" PRIu32 ", report of %" PRIu64 " bytes\n", answer.number, answer.length);
    answer = tynderaxo_judge(TODAY, NULL, 0, NULL, 0, NULL, 0, NULL, 0, NULL, 0);
    printf("nothing at all: answer %" PRIu32 ", report of %" PRIu64 " bytes\n", answer.number, answer.length);
    return 0;
}
