/* How dates and texts have to be worded, for the plain judges. */
#ifndef WORDING_H
#define WORDING_H

#include <stdbool.h>
#include <stddef.h>
#include <stdint.h>

enum { IDENTIFIER = 35, SENDER = 8, BIC = 11 };

bool is_date(uint32_t date);
bool badly_formed(const uint8_t *identifier);
bool bad_bic(const uint8_t *bic);
bool known_reason(const uint8_t *reason);
/* Whether a return for this reason may be less by a charge. */
bool answers_cancellation(const uint8_t *reason);
bool known_name(const uint8_t *name);
bool blank(const uint8_t *text, size_t len);

#endif
