/*
 * How a bureau calls the reader and then the judge: every file becomes a sheet, which is judged on what the one before left.
 *     documents FILE..
 * Last it shows on the first file how the reader treats the space that it is lent.
 */
#include <inttypes.h>
#include <stdio.h>
#include <stdlib.h>

#include "../include/tynderaxo.h"
#include "fields.h"

enum { ROWS = 4, ROOM = 20, MARK = 0xA5 };
static const uint32_t TODAY = 20260615;

typedef struct {
    uint8_t *bytes;
    size_t len;
} buffer;

/* What the desk keeps between files. */
static uint8_t table[4 + 20 * ROWS], reg[4 + 44 * ROOM], positions[8 * ROWS];

static buffer space(size_t len) {
    buffer lent = {malloc(len + 1), len};
    if (lent.bytes == NULL) exit(2);
    memset(lent.bytes, MARK, len);
    return lent;
}

static buffer contents(const char *path) {
    FILE *file = fopen(path, "rb");
    if (file == NULL || fseek(file, 0, SEEK_END) != 0) exit(2);
    buffer whole = space((size_t)ftell(file));
    rewind(file);
    if (fread(whole.bytes, 1, whole.len, file) != whole.len) exit(2);
    fclose(file);
    return whole;
}

/* The identifier that a line begins with, without the spaces at its end; then outcome and faults, which all lines have. */
static void print_line(const char *what, const uint8_t *line) {
    int length = 35;
    while (length > 0 && line[length - 1] == ' ') length--;
    printf("%s %.*s: outcome %d, faults %" PRIu64, what, length, (const char *)line, line[35], number_at(line + 36, 2));
}

static void print_report(const uint8_t *report) {
    uint64_t bulks = number_at(report, 4);
    const uint8_t *section = report + 4 + 64 * bulks;
    for (uint64_t i = 0; i < bulks; i++) {
        const uint8_t *line = report + 4 + 64 * i;
        print_line("bulk", line);
        printf(", accepted %" PRIu64 " of %" PRIu64 " cents", number_at(line + 38, 4), number_at(line + 42, 8));
        /* the rejected cents have ten bytes; here the first two are 0 */
        printf(", rejected %" PRIu64 " of %" PRIu64 " cents\n", number_at(line + 50, 4), number_at(line + 56, 8));
        uint64_t messages = number_at(section, 4);
        section += 4;
        for (uint64_t j = 0; j < messages; j++, section += 38) {
            print_line("message", section);
            printf("\n");
        }
    }
}

static void judge(const char *path) {
    buffer document = contents(path);
    /* a sheet is never longer than its text */
    buffer sheet = space(document.len);
    tynderaxo_read_answer read = tynderaxo_read(document.bytes, document.len, sheet.bytes, sheet.len);
    if (read.number != 0) {
        printf("%s: refusal %" PRIu32 " at byte %" PRIu64 "\n", path, read.number, read.at);
    } else {
        /* a report is never longer than its sheet */
        buffer report = space(read.length);
        tynderaxo_answer judged = tynderaxo_judge(TODAY, sheet.bytes, read.length, table, sizeof table, reg, sizeof reg,
                                                  positions, sizeof positions, report.bytes, report.len);
        printf("%s: sheet of %" PRIu64 " bytes, answer %" PRIu32, path, read.length, judged.number);
        printf(", report of %" PRIu64 " bytes\n", judged.length);
        if (judged.number == 0) print_report(report.bytes);
        free(report.bytes);
    }
    free(sheet.bytes);
    free(document.bytes);
}

/* No byte of a sheet made here happens to be the mark, so what still has it was not written. */
static void print_space(const char *path, size_t len) {
    buffer document = contents(path), sheet = space(len);
    tynderaxo_read_answer read = tynderaxo_read(document.bytes, document.len, sheet.bytes, sheet.len);
    size_t written = 0;
    for (size_t i = 0; i < len; i++) written += sheet.bytes[i] != MARK;
    printf("%s into %zu bytes: answer %" PRIu32 ", length %" PRIu64, path, len, read.number, read.length);
    printf(", place %" PRIu64 ", %zu bytes written\n", read.at, written);
    free(sheet.bytes);
    free(document.bytes);
}

int main(int argc, char **argv) {
    uint8_t *at = number(table, ROWS, 4);
    at = row(at, "AAAALV22XXX", 5);
    at = row(at, "BBBBLV22XXX", 5);
    at = row(at, "BBBBLV22KUL", 0);
    row(at, "CCCCEE2XXXX", 20);

    for (int i = 1; i < argc; i++) judge(argv[i]);
    for (int i = 0; i < ROWS; i++) printf("position %d: %" PRId64 "\n", i, (int64_t)number_at(positions + 8 * i, 8));
    printf("register: %" PRIu64 " used\n", number_at(reg, 4));

    if (argc < 2) return 0;
    /* one bulk of three messages: 4 + 69 + 3 * 81 bytes */
    const size_t lengths[] = {0, 315, 316, 320};
    for (size_t i = 0; i < sizeof lengths / sizeof *lengths; i++) print_space(argv[1], lengths[i]);
    tynderaxo_read_answer none = tynderaxo_read(NULL, 0, NULL, 0);
    printf("nothing at all: answer %" PRIu32 " at byte %" PRIu64 "\n", none.number, none.at);
    return 0;
}
