/*
 * How a bureau asks about open days: whether a bulk may be dated so, when the next files go, and how many days of clearing lie between
 * two dates. Nothing is lent.
 */
#include <inttypes.h>
#include <stdio.h>

#include "../include/tynderaxo.h"

static void print_open(uint32_t date) {
    tynderaxo_day day = tynderaxo_open_day(date);
    if (day.number != 0) printf("%" PRIu32 ": refusal %" PRIu32 "\n", date, day.number);
    else printf("%" PRIu32 ": %s\n", date, day.value ? "open" : "closed");
}

static void print_next(uint32_t date) {
    tynderaxo_day day = tynderaxo_next_open_day(date);
    if (day.number != 0) printf("after %" PRIu32 ": refusal %" PRIu32 "\n", date, day.number);
    else printf("after %" PRIu32 ": %" PRIu32 "\n", date, day.value);
}

static void print_count(uint32_t from, uint32_t to) {
    tynderaxo_day day = tynderaxo_open_days(from, to);
    printf("from %" PRIu32 " up to %" PRIu32 ": ", from, to);
    if (day.number != 0) printf("refusal %" PRIu32 "\n", day.number);
    else printf("%" PRIu32 " open\n", day.value);
}

int main(void) {
    /* Easter of 2026, from the Thursday before to the Tuesday behind it */
    for (uint32_t date = 20260402; date <= 20260407; date++) print_open(date);
    print_open(20230229);

    print_next(20260402);
    print_next(20260404);
    print_next(20261231);
    print_next(22991229);
    print_next(20230229);

    /* two open days on, over Christmas */
    uint32_t date = 20261223;
    for (int i = 0; i < 2; i++) date = tynderaxo_next_open_day(date).value;
    printf("two open days behind 20261223: %" PRIu32 "\n", date);

    print_count(20260401, 20260408);
    print_count(20260101, 20270101);
    print_count(20270101, 20260101);
    print_count(20260615, 20230229);
    return 0;
}
