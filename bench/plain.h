/* The plain judges: the functions of tynderaxo.h under other names, and two more judges, to be measured against. */
#ifndef PLAIN_H
#define PLAIN_H

#include "../include/tynderaxo.h"

/* What every judge is lent. */
#define JUDGED uint32_t date, const uint8_t *sheet, size_t sheet_len, const uint8_t *table, size_t table_len, uint8_t *reg, \
    size_t reg_len, uint8_t *positions, size_t positions_len, uint8_t *report, size_t report_len

tynderaxo_answer plain_judge(JUDGED);
tynderaxo_indexed_answer plain_judge_indexed(JUDGED, uint8_t *index, size_t index_len);
uint32_t plain_build_index(const uint8_t *reg, size_t reg_len, uint8_t *index, size_t index_len);

/*
 * Searches by hash tables of its own. The register's is lent: names of entries, counted from 1, in a power of two of slots, more
 * than the register has room for. It trusts that table to be the register's. The routing table's it makes in each call.
 */
tynderaxo_answer plain_judge_hashed(JUDGED, uint32_t *names, size_t slots);
void plain_build_hash(uint8_t *reg, uint32_t *names, size_t slots);

/* Finds rows as the judge above does, and entries by reading them all: this tells apart what the two hash tables cost. */
tynderaxo_answer plain_judge_routed(JUDGED);

tynderaxo_route plain_lookup(uint32_t date, const uint8_t *table, size_t table_len, const uint8_t *bic, size_t bic_len);

#endif
