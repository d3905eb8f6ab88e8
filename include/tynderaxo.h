/*
 * Tynderaxo: reads documents (pacs.008.001.08, pacs.004.001.09) into a sheet, judges a sheet before it goes to clearing, and tells
 * open days.
 *
 * What a caller owes, for all functions:
 *   - each pointer is valid for the length beside it: for reading where it is const, else for reading and writing;
 *   - no buffer that is written (reg, positions, report, index, the sheet of the reader) overlaps another; what is const may lie over what is const;
 *   - a buffer of length 0 may be a null pointer;
 *   - the archive is linked with memcpy and memset, as C has them, and asks for no other function.
 * Nothing else is asked: the buffers may hold any bytes and have any lengths, and what does not fit is answered.
 *
 * All numbers inside the buffers are big-endian.
 */
#ifndef TYNDERAXO_H
#define TYNDERAXO_H

#include <stddef.h>
#include <stdint.h>

#ifdef __cplusplus
extern "C" {
#endif

/*
 * number: 0 if the file was judged, else why it was turned away: the first in this list that holds.
 * length: the bytes of report written; 0 with any refusal, and then no byte of reg, positions or report has changed.
 *
 *    1  the date is not a day of the years 2000 to 2299
 *    2  the table's length does not fit its count, it has over 8,192 rows, or a row's kind is not 0, 5, 6 or 20
 *    3  the positions are not 8 bytes for each row
 *    4  the register is not 4 + 44c bytes with c at most 60,000, or claims more than c entries
 *    5  the sheet ends early or goes on too long
 *    6  over 999 bulks or over 15,000 messages
 *    7  a bulk's kind is neither 1 nor 3
 *    8  a bulk of kind 1 stands after one of kind 3
 *    9  the register has fewer free entries than the sheet has bulks and messages
 *   10  some position could leave the range of 10^18 cents
 *   11  the report is shorter than 4 + 68 bytes a bulk + 38 bytes a message
 */
typedef struct {
    uint32_t number;
    uint64_t length;
} tynderaxo_answer;

/*
 * Judges the sheet on the date (as the number YYYYMMDD). Where it is judged, accepted identifiers are added to the
 * register, accepted amounts move between positions, and the report's first `length` bytes hold the outcome; report
 * bytes after those, and register entries not yet in use, stay as they were.
 *
 * It takes some 62 kilobytes of stack, whatever it is lent, and so does `tynderaxo_judge_indexed`.
 *
 * The report is the number of bulks in 4 bytes and a line of 64 bytes for each, then for each bulk the number of its messages in
 * 4 bytes and a line of 38 bytes for each:
 *   bulk      identifier 35, outcome 1, faults 2, accepted number 4 and cents 8, rejected number 4 and cents 10
 *             outcome 0: all messages accepted, 1: some, 2: none
 *   message   identifier 35, outcome 1, faults 2
 *             outcome 0: accepted, 1: rejected, 2: fell with its bulk, and counts as rejected
 *
 * The faults are bits, bit 0 the lowest; each is set exactly if it holds, whatever the others are. Forms and lists: docs/01-scope.md,
 * "Wording"; what to do about each fault: README.md.
 *   bit  of a bulk                                          of a message
 *    0   marks other than CLRG and EKS alone                identifier badly formed
 *    1   sender no participant on the date                  sender and identifier in the register, tag 1
 *    2   value date is not the date                         receiver badly formed
 *    3   identifier badly formed                            receiver not reachable on the date
 *    4   sender and identifier in the register, tag 2       amount not from 1 to 99,999,999,999 cents
 *    5   no messages                                        payment: original amount, reason or original name given
 *    6   stated number is not the actual one                return: reason not of the list
 *    7   stated sum is not the true one                     return: original name not of the list
 *    8   value date is no open day (below)                  return: amount over the original amount; with another
 *                                                           reason than FOCR, also under it
 */
tynderaxo_answer tynderaxo_judge(uint32_t date,
                                 const uint8_t *sheet, size_t sheet_len,
                                 const uint8_t *table, size_t table_len,
                                 uint8_t *reg, size_t reg_len,
                                 uint8_t *positions, size_t positions_len,
                                 uint8_t *report, size_t report_len);

/*
 * number: as above, or one of these two, which are tried after 4 and before 5:
 *   12  the index is not as long as the register asks: index_len is not (reg_len - 4) / 44 * 8
 *   13  the index is not the one that tynderaxo_build_index writes for the register
 * length: as above.
 * slots:  the slots that the searches looked at; 0 with any refusal, and then no byte of index has changed either.
 */
typedef struct {
    uint32_t number;
    uint64_t length;
    uint64_t slots;
} tynderaxo_indexed_answer;

/*
 * Judges the sheet as tynderaxo_judge does, and finds the register's entries by an index of it. Unless it answers 12 or 13,
 * number, length, register, positions and report are those of tynderaxo_judge. The index is kept as entries are added, so it
 * serves for the next file too.
 *
 * An index has two slots of 4 bytes for each of the c entries that the register has room for. A slot is 0 where it is empty,
 * else it names an entry by its place in the register, counted from 1. An entry's 44 bytes, read as a number to base 257 with
 * the first byte as the highest digit, give modulo 2c the slot at which its search starts. From there it goes forward, and
 * behind the last slot on with the first, to the slot that names the entry or to an empty one: at most one slot more than
 * entries are used. There is a search for each bulk and each message, and one more for each bulk that is recorded. That the
 * index is right is looked at in every call; it costs a search for each entry used, which slots does not count.
 */
tynderaxo_indexed_answer tynderaxo_judge_indexed(uint32_t date,
                                                 const uint8_t *sheet, size_t sheet_len,
                                                 const uint8_t *table, size_t table_len,
                                                 uint8_t *reg, size_t reg_len,
                                                 uint8_t *positions, size_t positions_len,
                                                 uint8_t *report, size_t report_len,
                                                 uint8_t *index, size_t index_len);

/*
 * Writes the index of a register. The answer is 0, or 4 or 12 as above, and then no byte of index has changed.
 */
uint32_t tynderaxo_build_index(const uint8_t *reg, size_t reg_len, uint8_t *index, size_t index_len);

/*
 * number:    0 if the table was searched; 1 or 2 as above; 18 if the BIC is not 11 bytes long.
 * found:     1 if a row counts for the BIC, else 0.
 * row:       that row's number, from 0; 0 where none was found.
 * reachable: 1 if a row was found and its kind is not 0, else 0.
 * With any refusal the last three are 0.
 */
typedef struct {
    uint32_t number, found, row, reachable;
} tynderaxo_route;

/* Finds the row a receiver's BIC goes by on the date: its own row, else its head office's XXX row. Writes nothing. */
tynderaxo_route tynderaxo_lookup(uint32_t date,
                                 const uint8_t *table, size_t table_len,
                                 const uint8_t *bic, size_t bic_len);

/*
 * number: 0 if the text became a sheet, else why not:
 *   21  the text is not of the accepted form (docs/01-scope.md, "Documents")
 *   22  an element stands at level 33
 *   23  in an element something needed is missing or stands twice, or a document is no Document
 *   24  the sheet's space is too short
 *      The text is read from its front, so 21 and 22 go by which of them comes first; 23 is asked of a text that is neither, and 24 last.
 * length: the bytes of sheet written; 0 with any refusal, and then no byte of it has changed.
 * at:     with 21 and 22 the place in the text, from 0, of the byte at which it is met; with 23 that of the first element in which
 *         something is missing or stands twice; else 0.
 */
typedef struct {
    uint32_t number;
    uint64_t length;
    uint64_t at;
} tynderaxo_read_answer;

/*
 * Reads a text of one document or several, each of them one bulk, into a sheet for tynderaxo_judge. Bytes of sheet after its
 * length stay as they were. A sheet has 4 bytes, 69 for each bulk and 81 for each message. It takes some twelve kilobytes of stack,
 * however long the text is and however deep its elements stand.
 */
tynderaxo_read_answer tynderaxo_read(const uint8_t *document, size_t document_len, uint8_t *sheet, size_t sheet_len);

/*
 * Open days of TARGET: every day of the years 2000 to 2299 but Saturdays, Sundays, 1 January, Good Friday, Easter Monday, 1 May,
 * 25 and 26 December. A date is the number YYYYMMDD.
 *
 * number: 0 if the question was answered, else the first of these that holds:
 *   31  a date is not a day of the years 2000 to 2299; of two dates, either
 *   32  no open day of those years comes later
 * value:  the answer; 0 with any refusal.
 */
typedef struct {
    uint32_t number;
    uint32_t value;
} tynderaxo_day;

/* 1 if the date is an open day, 0 if it is a closed one; or 31. */
tynderaxo_day tynderaxo_open_day(uint32_t date);

/* The first open day after the date, which may itself be open or closed; or 31 or 32. */
tynderaxo_day tynderaxo_next_open_day(uint32_t date);

/* How many open days there are from the first date up to the second, which is not counted; 0 if that is not later; or 31. */
tynderaxo_day tynderaxo_open_days(uint32_t from, uint32_t to);

#ifdef __cplusplus
}
#endif

#endif
