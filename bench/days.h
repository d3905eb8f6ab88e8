/* Which days are open, for the plain judges, and the questions of tynderaxo.h about them under other names. */
#ifndef DAYS_H
#define DAYS_H

#include <stdbool.h>

#include "../include/tynderaxo.h"

/* A number that is no date is not open either. */
bool is_open(uint32_t date);

tynderaxo_day plain_open_day(uint32_t date);
tynderaxo_day plain_next_open_day(uint32_t date);
tynderaxo_day plain_open_days(uint32_t from, uint32_t to);

#endif
