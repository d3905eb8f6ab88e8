/*
 * A judge as a C programmer would write it from the rules: no proofs, plain searches, memcmp.
 * The benchmark measures the proved judge against it, and it stands in for the archive when the comparer is tested.
 */
#include "plain.h"

#include <stdlib.h>
#include <string.h>

#include "days.h"
#include "rows.h"
#include "search.h"
#include "wording.h"

__extension__ typedef unsigned __int128 wide;

enum {
    HEADER = 65, MESSAGE = 81, BULK_LINE = 64, POSITION = 8,
    MOST_ENTRIES = 60000, MOST_BULKS = 999, MOST_MESSAGES = 15000,
    PAYMENTS = 1, RETURNS = 3, PARTICIPANT = 5, TAG_MESSAGE = 1, TAG_BULK = 2
};
static const uint64_t MOST_CENTS = 99999999999u;
static const uint64_t MOST_POSITION = 1000000000000000000u;

/* Where the fields stand in their records. */
enum { H_IDENTIFIER = 1, H_SENDER = 36, H_NUMBER = 44, H_SUM = 52, H_DATE = 60, H_MARKS = 64 };
enum { M_RECEIVER = 35, M_AMOUNT = 46, M_ORIGINAL = 54, M_REASON = 62, M_NAME = 66 };

static uint64_t get64(const uint8_t *p) { return (uint64_t)get32(p) << 32 | get32(p + 4); }

static uint8_t *put(uint8_t *p, wide value, int width) {
    for (int i = width - 1; i >= 0; i--, value >>= 8) p[i] = (uint8_t)value;
    return p + width;
}

static uint8_t *put_text(uint8_t *p, const uint8_t *text, size_t width) {
    memcpy(p, text, width);
    return p + width;
}

/* ---- refusals ---- */

static bool table_stands(const uint8_t *table, size_t len) {
    if (len < 4) return false;
    uint64_t rows = get32(table);
    if (len != 4 + ROW * rows || rows > MOST_ROWS) return false;
    for (size_t i = 0; i < rows; i++) {
        uint8_t kind = table[4 + ROW * i + 19];
        if (kind != 0 && kind != 5 && kind != 6 && kind != 20) return false;
    }
    return true;
}

static bool register_stands(const uint8_t *reg, size_t len) {
    return len >= 4 && (len - 4) % ENTRY == 0 && (len - 4) / ENTRY <= MOST_ENTRIES && get32(reg) <= (len - 4) / ENTRY;
}

static bool index_fits(size_t reg_len, size_t index_len) { return index_len == 2 * SLOT * ((reg_len - 4) / ENTRY); }

/* Builds the slots anew and compares; 12, 13 or 0. */
static uint32_t index_refused(const finder *lent, size_t reg_len, size_t index_len) {
    if (!index_fits(reg_len, index_len)) return 12;
    finder anew = *lent;
    anew.index = malloc(index_len + 1);
    if (anew.index == NULL) abort();
    build(&anew);
    bool differs = index_len > 0 && memcmp(anew.index, lent->index, index_len) != 0;
    free(anew.index);
    return differs ? 13 : 0;
}

/* Counts bulks and messages of a whole sheet; false where it ends early or goes on. */
static bool measure(const uint8_t *sheet, size_t len, uint64_t *bulks, uint64_t *messages) {
    if (len < 4) return false;
    uint64_t left = len - 4;
    *bulks = get32(sheet);
    *messages = 0;
    if (left < HEADER * *bulks) return false;
    left -= HEADER * *bulks;
    for (uint64_t b = 0; b < *bulks; b++) {
        if (left < 4) return false;
        uint64_t count = get32(sheet + len - left);
        left -= 4;
        if (left < MESSAGE * count) return false;
        left -= MESSAGE * count;
        *messages += count;
    }
    return left == 0;
}

static uint32_t kinds_refused(const uint8_t *headers, uint64_t bulks) {
    bool falls = false;
    for (uint64_t b = 0; b < bulks; b++) {
        uint8_t kind = headers[HEADER * b];
        if (kind != PAYMENTS && kind != RETURNS) return 7;
        if (b > 0 && kind < headers[HEADER * (b - 1)]) falls = true;
    }
    return falls ? 8 : 0;
}

static bool positions_stand(const uint8_t *positions, size_t len, uint64_t messages) {
    for (size_t at = 0; at < len; at += POSITION) {
        uint64_t bits = get64(positions + at);
        uint64_t magnitude = bits >> 63 ? 0 - bits : bits;
        if (magnitude > MOST_POSITION - messages * MOST_CENTS) return false;
    }
    return true;
}

/* ---- routing ---- */

tynderaxo_route plain_lookup(uint32_t date, const uint8_t *table, size_t table_len, const uint8_t *bic, size_t bic_len) {
    tynderaxo_route route = {0, 0, 0, 0};
    if (!is_date(date)) route.number = 1;
    else if (!table_stands(table, table_len)) route.number = 2;
    else if (bic_len != BIC) route.number = 18;
    if (route.number != 0) return route;
    router rows = {BY_READING, date, table, NULL};
    long row = receiver_row(&rows, bic);
    if (row == NO_ROW) return route;
    return (tynderaxo_route){0, 1, (uint32_t)row, kind_of(table, row) != 0};
}

/* ---- faults ---- */

static void make_entry(uint8_t entry[ENTRY], const uint8_t *sender, const uint8_t *identifier, uint8_t tag) {
    memcpy(entry, sender, SENDER);
    memcpy(entry + SENDER, identifier, IDENTIFIER);
    entry[ENTRY - 1] = tag;
}

/* One bulk with all that its messages are judged by. */
typedef struct {
    const router *rows;
    const uint8_t *header, *messages;
    uint32_t count;
    long sender_row;
    uint8_t *positions;
    finder *entries;
} bulk;

static uint16_t bulk_faults(const bulk *b, bool stands) {
    const uint8_t *header = b->header;
    wide sum = 0;
    for (uint32_t i = 0; i < b->count; i++) sum += get64(b->messages + MESSAGE * (size_t)i + M_AMOUNT);
    return (uint16_t)((header[H_MARKS] != 3) << 0
                    | (b->sender_row == NO_ROW || kind_of(b->rows->table, b->sender_row) != PARTICIPANT) << 1
                    | (get32(header + H_DATE) != b->rows->date) << 2
                    | badly_formed(header + H_IDENTIFIER) << 3
                    | stands << 4
                    | (b->count == 0) << 5
                    | (get64(header + H_NUMBER) != b->count) << 6
                    | (get64(header + H_SUM) != sum) << 7
                    | !is_open(get32(header + H_DATE)) << 8);
}

static uint16_t message_faults(const bulk *b, const uint8_t *message, bool stands, long row) {
    uint64_t amount = get64(message + M_AMOUNT), original = get64(message + M_ORIGINAL);
    const uint8_t *reason = message + M_REASON, *name = message + M_NAME;
    bool payment = b->header[0] == PAYMENTS, returned = b->header[0] == RETURNS;
    return (uint16_t)(badly_formed(message) << 0
                    | stands << 1
                    | bad_bic(message + M_RECEIVER) << 2
                    | (row == NO_ROW || kind_of(b->rows->table, row) == 0) << 3
                    | (amount < 1 || amount > MOST_CENTS) << 4
                    | (payment && (original != 0 || !blank(reason, 4) || !blank(name, 15))) << 5
                    | (returned && !known_reason(reason)) << 6
                    | (returned && !known_name(name)) << 7
                    | (returned && (answers_cancellation(reason) ? amount > original : amount != original)) << 8);
}

/* ---- judging ---- */

static void move_cents(uint8_t *positions, long row, uint64_t cents) {
    uint8_t *position = positions + POSITION * (size_t)row;
    put(position, get64(position) + cents, POSITION);
}

/* Its messages' entries came in since the bulk's own was searched, so where slots are kept it is searched again. */
static void record_own(finder *entries, const uint8_t own[ENTRY]) {
    size_t place = 0;
    if (entries->way != BY_READING) find(entries, own, &place);
    record(entries, own, place);
}

/* Judges one bulk; writes its line, then its message lines after their count. Returns where the next section goes. */
static uint8_t *judge_bulk(bulk *b, uint8_t *line, uint8_t *section) {
    const uint8_t *sender = b->header + H_SENDER;
    uint8_t own[ENTRY], entry[ENTRY];
    size_t place = 0;
    make_entry(own, sender, b->header + H_IDENTIFIER, TAG_BULK);
    b->sender_row = head_office_row(b->rows, sender);
    uint16_t faults = bulk_faults(b, find(b->entries, own, &place));
    uint32_t accepted = 0;
    wide accepted_cents = 0, rejected_cents = 0;
    section = put(section, b->count, 4);
    for (uint32_t i = 0; i < b->count; i++) {
        const uint8_t *message = b->messages + MESSAGE * (size_t)i;
        uint64_t amount = get64(message + M_AMOUNT);
        long row = receiver_row(b->rows, message + M_RECEIVER);
        make_entry(entry, sender, message, TAG_MESSAGE);
        uint16_t own_faults = message_faults(b, message, find(b->entries, entry, &place), row);
        int outcome = faults != 0 ? 2 : own_faults != 0 ? 1 : 0;
        if (outcome == 0) {
            record(b->entries, entry, place);
            move_cents(b->positions, b->sender_row, 0 - amount);
            move_cents(b->positions, row, amount);
            accepted += 1;
            accepted_cents += amount;
        } else {
            rejected_cents += amount;
        }
        section = put_text(section, message, IDENTIFIER);
        section = put(section, (wide)outcome, 1);
        section = put(section, own_faults, 2);
    }
    if (accepted > 0) record_own(b->entries, own);
    line = put_text(line, b->header + H_IDENTIFIER, IDENTIFIER);
    line = put(line, accepted == 0 ? 2 : accepted < b->count, 1);
    line = put(line, faults, 2);
    line = put(line, accepted, 4);
    line = put(line, accepted_cents, 8);
    line = put(line, b->count - accepted, 4);
    put(line, rejected_cents, 10);
    return section;
}

static tynderaxo_indexed_answer judge(finder *entries, way by, size_t index_len, JUDGED) {
    uint64_t bulks = 0, messages = 0;
    uint32_t number = 0;
    if (!is_date(date)) number = 1;
    else if (!table_stands(table, table_len)) number = 2;
    else if (positions_len != POSITION * (uint64_t)get32(table)) number = 3;
    else if (!register_stands(reg, reg_len)) number = 4;
    else if (entries->way == BY_INDEX && (number = index_refused(entries, reg_len, index_len)) != 0) ;
    else if (!measure(sheet, sheet_len, &bulks, &messages)) number = 5;
    else if (bulks > MOST_BULKS || messages > MOST_MESSAGES) number = 6;
    else if ((number = kinds_refused(sheet + 4, bulks)) != 0) ;
    else if ((reg_len - 4) / ENTRY - get32(reg) < bulks + messages) number = 9;
    else if (!positions_stand(positions, positions_len, messages)) number = 10;
    else if (report_len < 4 + 68 * bulks + 38 * messages) number = 11;
    if (number != 0) return (tynderaxo_indexed_answer){number, 0, 0};

    uint16_t names[ROW_HASH_SLOTS];
    router rows = {by, date, table, names};
    name_rows(&rows);
    const uint8_t *from = sheet + 4 + HEADER * bulks;
    uint8_t *line = put(report, bulks, 4);
    uint8_t *section = line + BULK_LINE * bulks;
    for (uint64_t i = 0; i < bulks; i++) {
        bulk b = {&rows, sheet + 4 + HEADER * i, from + 4, get32(from), NO_ROW, positions, entries};
        section = judge_bulk(&b, line, section);
        line += BULK_LINE;
        from += 4 + MESSAGE * (size_t)b.count;
    }
    return (tynderaxo_indexed_answer){0, (uint64_t)(section - report), entries->read};
}

#define LENT date, sheet, sheet_len, table, table_len, reg, reg_len, positions, positions_len, report, report_len

tynderaxo_answer plain_judge(JUDGED) {
    finder entries = {BY_READING, reg, NULL, NULL, 0, 0};
    tynderaxo_indexed_answer answer = judge(&entries, BY_READING, 0, LENT);
    return (tynderaxo_answer){answer.number, answer.length};
}

tynderaxo_indexed_answer plain_judge_indexed(JUDGED, uint8_t *index, size_t index_len) {
    finder entries = {BY_INDEX, reg, index, NULL, index_len / SLOT, 0};
    return judge(&entries, BY_INDEX, index_len, LENT);
}

tynderaxo_answer plain_judge_routed(JUDGED) {
    finder entries = {BY_READING, reg, NULL, NULL, 0, 0};
    tynderaxo_indexed_answer answer = judge(&entries, BY_HASH, 0, LENT);
    return (tynderaxo_answer){answer.number, answer.length};
}

tynderaxo_answer plain_judge_hashed(JUDGED, uint32_t *names, size_t slots) {
    finder entries = {BY_HASH, reg, NULL, names, slots, 0};
    tynderaxo_indexed_answer answer = judge(&entries, BY_HASH, 0, LENT);
    return (tynderaxo_answer){answer.number, answer.length};
}

uint32_t plain_build_index(const uint8_t *reg, size_t reg_len, uint8_t *index, size_t index_len) {
    if (!register_stands(reg, reg_len)) return 4;
    if (!index_fits(reg_len, index_len)) return 12;
    finder entries = {BY_INDEX, (uint8_t *)(uintptr_t)reg, index, NULL, index_len / SLOT, 0};
    build(&entries);
    return 0;
}

void plain_build_hash(uint8_t *reg, uint32_t *names, size_t slots) {
    finder entries = {BY_HASH, reg, NULL, names, slots, 0};
    build(&entries);
}
