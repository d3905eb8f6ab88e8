/*
 * Reads one document by expat with handlers that do nothing, by the archive's reader, or not at all:
 *     reading expat|archive|neither FILE PAYMENTS      prints the processor seconds it took
 * The archive's reader is there only where this was built with WITH_READER.
 */
#include <expat.h>
#include <stdint.h>
#include <stdio.h>
#include <stdlib.h>
#include <string.h>
#include <time.h>

#ifdef WITH_READER
#include "../include/tynderaxo.h"
#endif

typedef struct {
    uint8_t *bytes;
    size_t len;
} buffer;

static void fail(const char *why) {
    fprintf(stderr, "reading: %s\n", why);
    exit(1);
}

static buffer space(size_t len) {
    buffer made = {calloc(len, 1), len};
    if (made.bytes == NULL) fail("no memory");
    return made;
}

static buffer contents(const char *path) {
    FILE *file = fopen(path, "rb");
    if (file == NULL || fseek(file, 0, SEEK_END) != 0) fail("no such file");
    buffer text = space((size_t)ftell(file));
    rewind(file);
    if (fread(text.bytes, 1, text.len, file) != text.len) fail("the file cannot be read");
    fclose(file);
    return text;
}

static void begins(void *data, const XML_Char *name, const XML_Char **attributes) {
    (void)data;
    (void)name;
    (void)attributes;
}

static void ends(void *data, const XML_Char *name) {
    (void)data;
    (void)name;
}

static void goes_on(void *data, const XML_Char *text, int len) {
    (void)data;
    (void)text;
    (void)len;
}

static void by_expat(buffer text) {
    XML_Parser parser = XML_ParserCreate(NULL);
    if (parser == NULL) fail("no memory");
    /* a salt of its own choice would make every count another */
    XML_SetHashSalt(parser, 1);
    XML_SetElementHandler(parser, begins, ends);
    XML_SetCharacterDataHandler(parser, goes_on);
    if (XML_Parse(parser, (const char *)text.bytes, (int)text.len, 1) != XML_STATUS_OK) fail("the document is not well formed");
    XML_ParserFree(parser);
}

/* A document that does not become its sheet is no measure of anything. */
static void by_archive(buffer text, buffer sheet) {
#ifdef WITH_READER
    tynderaxo_read_answer answer = tynderaxo_read(text.bytes, text.len, sheet.bytes, sheet.len);
    if (answer.number != 0 || answer.length != sheet.len) fail("the document does not become its sheet");
#else
    (void)text;
    (void)sheet;
    fail("the archive has no reader");
#endif
}

static double processor_seconds(void) {
    struct timespec now;
    clock_gettime(CLOCK_PROCESS_CPUTIME_ID, &now);
    return (double)now.tv_sec + (double)now.tv_nsec / 1e9;
}

int main(int argc, char **argv) {
    if (argc != 4) fail("usage: reading expat|archive|neither FILE PAYMENTS");
    buffer text = contents(argv[2]), sheet = space(4 + 69 + 81 * strtoul(argv[3], NULL, 10));
    double from = processor_seconds();
    if (strcmp(argv[1], "expat") == 0) by_expat(text);
    else if (strcmp(argv[1], "archive") == 0) by_archive(text, sheet);
    else if (strcmp(argv[1], "neither") != 0) fail("expat, archive or neither?");
    printf("%.6f\n", processor_seconds() - from);
    return 0;
}
