/* Open days as a C programmer would tell them: weekdays by Zeller, Easter by Gauss, counts from a table filled day by day. */
#include "days.h"

#include "wording.h"

enum { FIRST = 20000101, LAST = 22991231, SATURDAY = 0, SUNDAY = 1 };

/* Zeller's congruence: January and February are months 13 and 14 of the year before. */
static uint32_t weekday(uint32_t year, uint32_t month, uint32_t day) {
    if (month < 3) {
        month += 12;
        year -= 1;
    }
    return (day + 13 * (month + 1) / 5 + year + year / 4 - year / 100 + year / 400) % 7;
}

/* Gauss's rule, with its two numbers for each of the centuries. The answer is a day of March; 32 is 1 April. */
static uint32_t easter(uint32_t year) {
    static const uint32_t m[] = {24, 24, 25}, n[] = {5, 6, 0};
    uint32_t century = year / 100 - 20, a = year % 19, b = year % 4, c = year % 7;
    uint32_t d = (19 * a + m[century]) % 30;
    uint32_t e = (2 * b + 4 * c + 6 * d + n[century]) % 7;
    bool late = e == 6 && (d == 29 || (d == 28 && a > 10));
    return 22 + d + e - (late ? 7 : 0);
}

bool is_open(uint32_t date) {
    if (!is_date(date)) return false;
    uint32_t year = date / 10000, month = date / 100 % 100, day = date % 100;
    uint32_t on = weekday(year, month, day);
    if (on == SATURDAY || on == SUNDAY) return false;
    if ((month == 1 && day == 1) || (month == 5 && day == 1)) return false;
    if (month == 12 && (day == 25 || day == 26)) return false;
    if (month != 3 && month != 4) return true;
    uint32_t of_march = month == 3 ? day : 31 + day;
    uint32_t good_friday = easter(year) - 2, easter_monday = easter(year) + 1;
    return of_march != good_friday && of_march != easter_monday;
}

tynderaxo_day plain_open_day(uint32_t date) {
    if (!is_date(date)) return (tynderaxo_day){31, 0};
    return (tynderaxo_day){0, is_open(date)};
}

tynderaxo_day plain_next_open_day(uint32_t date) {
    if (!is_date(date)) return (tynderaxo_day){31, 0};
    for (uint32_t later = date + 1; later <= LAST; later++)
        if (is_open(later)) return (tynderaxo_day){0, later};
    return (tynderaxo_day){32, 0};
}

/* How many open days come before a date. The table has a place for every number, also for those that are no date. */
static uint32_t open_before(uint32_t date) {
    static uint32_t before[LAST - FIRST + 2];
    static bool filled;
    for (uint32_t day = FIRST; !filled && day <= LAST; day++) before[day - FIRST + 1] = before[day - FIRST] + is_open(day);
    filled = true;
    return before[date - FIRST];
}

tynderaxo_day plain_open_days(uint32_t from, uint32_t to) {
    if (!is_date(from) || !is_date(to)) return (tynderaxo_day){31, 0};
    if (to <= from) return (tynderaxo_day){0, 0};
    return (tynderaxo_day){0, open_before(to) - open_before(from)};
}
