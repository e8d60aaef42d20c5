/* What the tests in C share of line contacts: their keys, read where docs/STORE.md says that they stand. */
#ifndef LINES_H
#define LINES_H

#include "set.h"

/* IDtype and digits, one a byte, as otap_line_of takes them; there is room for a digit too many. */
typedef struct {
    uint32_t id_type;
    uint8_t digits[OTAP_DIGITS + 1];
    size_t length;
} Key;

/* The key of the line in this row; no digits where there is none. */
static inline Key key_of(const uint8_t *bytes, uint32_t row)
{
    const uint8_t *slot = bytes + LINES_AT + LINE_BYTES * row;
    Key key = {0, {0}, 0};
    key.id_type = slot[1];
    for (; key.length < OTAP_DIGITS && slot[2 + key.length] != 0; key.length++) {
        key.digits[key.length] = (uint8_t)(slot[2 + key.length] - 1);
    }
    return key;
}

#endif
