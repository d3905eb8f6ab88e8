/* How dates and texts have to be worded. */
#include "wording.h"

#include <string.h>

bool is_date(uint32_t date) {
    static const uint8_t days[] = {31, 28, 31, 30, 31, 30, 31, 31, 30, 31, 30, 31};
    uint32_t year = date / 10000, month = date / 100 % 100, day = date % 100;
    if (year < 2000 || year > 2299 || month < 1 || month > 12) return false;
    bool leap = year % 4 == 0 && (year % 100 != 0 || year % 400 == 0);
    return day >= 1 && day <= days[month - 1] + (uint32_t)(month == 2 && leap);
}

static bool letter(uint8_t c) { return c >= 'A' && c <= 'Z'; }
static bool digit(uint8_t c) { return c >= '0' && c <= '9'; }
static bool in_set(uint8_t c) {
    return letter(c) || digit(c) || (c >= 'a' && c <= 'z') || (c != 0 && strchr("/-?:().,'+ ", c) != NULL);
}

bool badly_formed(const uint8_t *identifier) {
    int length = IDENTIFIER;
    while (length > 0 && identifier[length - 1] == ' ') length--;
    if (length == 0 || identifier[0] == ' ' || identifier[0] == '/' || identifier[length - 1] == '/') return true;
    for (int i = 0; i < length; i++) {
        if (!in_set(identifier[i])) return true;
        if (i > 0 && identifier[i] == '/' && identifier[i - 1] == '/') return true;
    }
    return false;
}

bool bad_bic(const uint8_t *bic) {
    for (int i = 0; i < BIC; i++) {
        bool country = i == 4 || i == 5;
        if (!letter(bic[i]) && (country || !digit(bic[i]))) return true;
    }
    return false;
}

bool known_reason(const uint8_t *reason) {
    static const char reasons[] = "AC01AC04AC06AG01AG02AM05BE04CNORFOCRMD07MS02MS03RC01RR01RR02RR03RR04";
    for (int i = 0; i < 17; i++)
        if (memcmp(reason, reasons + 4 * i, 4) == 0) return true;
    return false;
}

/* Whether a return for this reason may be less by a charge. */
bool answers_cancellation(const uint8_t *reason) {
    return memcmp(reason, "FOCR", 4) == 0;
}

bool known_name(const uint8_t *name) {
    return memcmp(name, "pacs.008.001.08", 15) == 0 || memcmp(name, "pacs.008.001.02", 15) == 0;
}

bool blank(const uint8_t *text, size_t len) {
    for (size_t i = 0; i < len; i++)
        if (text[i] != ' ') return false;
    return true;
}
