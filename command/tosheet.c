/*
 * Reads a text of documents by the archive's reader, and writes the sheet that it becomes:  tosheet < TEXT > SHEET
 * A text that is refused is told in one line on standard error, and the status is then 1.
 */
#include <inttypes.h>
#include <stdio.h>
#include <stdlib.h>

#include "../include/tynderaxo.h"

typedef struct {
    uint8_t *bytes;
    size_t len;
} buffer;

static void fail(const char *why) {
    fprintf(stderr, "tosheet: %s\n", why);
    exit(2);
}

/* All that the stream holds, whatever its size. */
static buffer contents(FILE *from) {
    size_t room = 1 << 16;
    buffer text = {malloc(room), 0};
    while (text.bytes != NULL) {
        text.len += fread(text.bytes + text.len, 1, room - text.len, from);
        if (text.len < room) {
            if (ferror(from)) fail("the text cannot be read");
            return text;
        }
        room *= 2;
        text.bytes = realloc(text.bytes, room);
    }
    fail("no memory");
    return text;
}

static const char *reason(uint32_t number) {
    switch (number) {
    case 21: return "the text is not of the accepted form";
    case 22: return "elements stand within one another more than 32 deep";
    case 23: return "in this element something needed is missing or stands twice, or a document is no Document";
    default: return "the sheet's space is too short";
    }
}

/* A line ends with its line feed. Columns count characters, so none of the bytes 80 to BF, which go on with one. */
static void tell(buffer text, tynderaxo_read_answer answer) {
    size_t line = 1, column = 1;
    for (size_t i = 0; i < answer.at; i++) {
        if (text.bytes[i] == '\n') {
            line++;
            column = 1;
        } else if ((text.bytes[i] & 0xC0) != 0x80) {
            column++;
        }
    }
    fprintf(stderr, "%" PRIu32 " at byte %" PRIu64 " (line %zu, column %zu%s): %s\n", answer.number, answer.at, line,
            column, answer.at == text.len ? ", the end of the text" : "", reason(answer.number));
}

int main(void) {
    buffer text = contents(stdin);
    /* A sheet is shorter than its text: the elements that a bulk or a message needs are longer than what becomes of them. */
    buffer sheet = {malloc(text.len + 1), text.len};
    if (sheet.bytes == NULL) fail("no memory");
    tynderaxo_read_answer answer = tynderaxo_read(text.bytes, text.len, sheet.bytes, sheet.len);
    if (answer.number != 0) {
        tell(text, answer);
        return 1;
    }
    if (fwrite(sheet.bytes, 1, answer.length, stdout) != answer.length || fflush(stdout) != 0) fail("the sheet cannot be written");
    return 0;
}
