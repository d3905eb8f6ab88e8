/*
 * Judges one large input in several ways: plain and by an index, by the archive and by the plain C judges.
 *     bench each ROWS ENTRIES BULKS MESSAGES [SHAPE] [SPELLING] [falling]
 *         times each way, compares what they leave, prints the times and the slots read
 *     bench WAY ROWS ENTRIES BULKS MESSAGES [SHAPE] [SPELLING] [falling]
 *         runs one way once, for counting instructions: plain, hashed or hashing (C, the last two by hash tables), archive
 *         or indexed (the archive's two judges), routed (C, by a hash table of the rows alone), build (the archive's index
 *         once more) or none
 *     SHAPE, of identifiers: leading, short, mixed, many or crowded; SPELLING, of BICs: random or six (inputs.h)
 *
 * The register's index and its hash table are handed over built, so they are built before any way, also before none, whose
 * count is to be taken off the others; hashing makes that hash table once more. One of the rows is made in every call.
 */
#include <stdio.h>
#include <stdlib.h>
#include <string.h>
#include <time.h>

#include "inputs.h"
#include "plain.h"

enum { MOST_REPEATS = 5 };
static const double ENOUGH_SECONDS = 2;

#define LENT(in)                                                                                                       \
    TODAY, (in)->sheet.bytes, (in)->sheet.len, (in)->table.bytes, (in)->table.len, (in)->reg.bytes, (in)->reg.len,     \
        (in)->positions.bytes, (in)->positions.len, (in)->report.bytes, (in)->report.len

static tynderaxo_indexed_answer without_slots(tynderaxo_answer answer) {
    return (tynderaxo_indexed_answer){answer.number, answer.length, 0};
}

static tynderaxo_indexed_answer plain(input *in) { return without_slots(plain_judge(LENT(in))); }
static tynderaxo_indexed_answer archive(input *in) { return without_slots(tynderaxo_judge(LENT(in))); }
static tynderaxo_indexed_answer hashed(input *in) {
    return without_slots(plain_judge_hashed(LENT(in), in->names, HASH_SLOTS));
}
static tynderaxo_indexed_answer hashing(input *in) {
    plain_build_hash(in->reg.bytes, in->names, HASH_SLOTS);
    return hashed(in);
}
static tynderaxo_indexed_answer routed(input *in) { return without_slots(plain_judge_routed(LENT(in))); }
static tynderaxo_indexed_answer indexed(input *in) {
    return tynderaxo_judge_indexed(LENT(in), in->index.bytes, in->index.len);
}
static tynderaxo_indexed_answer build(input *in) {
    uint32_t number = tynderaxo_build_index(in->reg.bytes, in->reg.len, in->index.bytes, in->index.len);
    return (tynderaxo_indexed_answer){number, 0, 0};
}
static tynderaxo_indexed_answer none(input *in) {
    (void)in;
    return (tynderaxo_indexed_answer){0, 0, 0};
}

static const struct {
    const char *name;
    tynderaxo_indexed_answer (*run)(input *);
    int judges;
} ways[] = {{"plain", plain, 1},     {"archive", archive, 1}, {"hashed", hashed, 1}, {"hashing", hashing, 1},
            {"indexed", indexed, 1}, {"build", build, 0},     {"routed", routed, 1}, {"none", none, 0}};
/* The first ways are timed, and but for the building they are compared. */
enum { WAYS = sizeof ways / sizeof *ways, JUDGES = 5, TIMED = 6 };

static input prepared(const sizes *s) {
    input in = make_input(s);
    plain_build_hash(in.reg.bytes, in.names, HASH_SLOTS);
    if (build(&in).number != 0) fail("the index is not built");
    return in;
}

/* Runs one way; a file that is not taken as it was meant is no measure of anything. */
static uint64_t run(int way, const sizes *s, input *in) {
    tynderaxo_indexed_answer answer = ways[way].run(in);
    uint8_t used[4];
    bool adds = ways[way].judges && !s->falling;
    number(used, s->entries + (adds ? s->bulks + s->messages : 0), 4);
    if (answer.number != 0 || memcmp(used, in->reg.bytes, 4) != 0) fail("the input is not taken as it was meant");
    return answer.slots;
}

static double processor_seconds(void) {
    struct timespec now;
    clock_gettime(CLOCK_PROCESS_CPUTIME_ID, &now);
    return (double)now.tv_sec + (double)now.tv_nsec / 1e9;
}

/* The processor time of the shortest of a few runs, each on a fresh input; the last one's buffers stay in *in. */
static double seconds(int way, const sizes *s, input *in, uint64_t *slots) {
    double best = 0, begun = processor_seconds();
    for (int i = 0; i < MOST_REPEATS && (i == 0 || processor_seconds() - begun < ENOUGH_SECONDS); i++) {
        if (i > 0) free_input(in);
        *in = prepared(s);
        double from = processor_seconds();
        *slots = run(way, s, in);
        double took = processor_seconds() - from;
        if (i == 0 || took < best) best = took;
    }
    return best;
}

static int same(buffer a, buffer b) { return a.len == b.len && memcmp(a.bytes, b.bytes, a.len) == 0; }

static void run_each(const sizes *s) {
    input left[TIMED];
    uint64_t slots = 0;
    for (int way = 0; way < TIMED; way++) {
        uint64_t read = 0;
        printf("%.6f ", seconds(way, s, &left[way], &read));
        slots += read;
    }
    for (int way = 1; way < JUDGES; way++)
        if (!same(left[0].reg, left[way].reg) || !same(left[0].positions, left[way].positions) ||
            !same(left[0].report, left[way].report))
            fail("the judges differ");
    printf("%llu\n", (unsigned long long)slots);
}

static const struct {
    const char *name;
    shape identifiers;
    spelling bics;
} words[] = {{"leading", LEADING, NUMBERED}, {"short", SHORT, NUMBERED},     {"mixed", MIXED, NUMBERED},
             {"many", MANY, NUMBERED},       {"crowded", CROWDED, NUMBERED}, {"random", SHARED_FRONT, RANDOM},
             {"six", SHARED_FRONT, SIX}};
enum { WORDS = sizeof words / sizeof *words };

/* One word for the identifiers and one for the BICs, as anyone likes. */
static void take_word(sizes *s, const char *word) {
    if (strcmp(word, "falling") == 0) {
        s->falling = true;
        return;
    }
    for (int i = 0; i < WORDS; i++) {
        if (strcmp(word, words[i].name) != 0) continue;
        if (words[i].identifiers != SHARED_FRONT) {
            if (s->identifiers != SHARED_FRONT) fail("one shape of identifiers only");
            s->identifiers = words[i].identifiers;
        } else {
            if (s->bics != NUMBERED) fail("one spelling of BICs only");
            s->bics = words[i].bics;
        }
        return;
    }
    fail("leading, short, mixed, many, crowded, random, six or falling?");
}

int main(int argc, char **argv) {
    if (argc < 6) fail("usage: bench each|WAY ROWS ENTRIES BULKS MESSAGES [SHAPE] [SPELLING] [falling]");
    sizes s = {strtoul(argv[2], NULL, 10), strtoul(argv[3], NULL, 10), strtoul(argv[4], NULL, 10),
               strtoul(argv[5], NULL, 10), SHARED_FRONT, NUMBERED, false};
    for (int i = 6; i < argc; i++) take_word(&s, argv[i]);
    if (s.rows == 0 || s.rows > LARGEST_TABLE || s.bulks == 0 || s.entries + s.bulks + s.messages > ROOM) fail("no such size");
    if (strcmp(argv[1], "each") == 0) {
        run_each(&s);
        return 0;
    }
    for (int way = 0; way < WAYS; way++) {
        if (strcmp(argv[1], ways[way].name) != 0) continue;
        input in = prepared(&s);
        run(way, &s, &in);
        return 0;
    }
    fail("plain, archive, hashed, hashing, indexed, build, routed or none?");
}
