/* The lines of a store and the order of their keys, where docs/STORE.md says that they stand. */
#ifndef ORDERS_H
#define ORDERS_H

#include "set.h"

#include <string.h>

/* The low byte of the count of lines, which is all of it; and the bytes of a key. */
enum { LINES_HELD_AT = LINE_COUNT_AT + 1, KEY_BYTES = 19 };

/* A line's key: IDtype, then its digits, each as one more than itself, and zeros. */
static const uint8_t *key_at(const uint8_t *store, unsigned row)
{
    return store + LINES_AT + LINE_BYTES * row + 1;
}

/* Gives the lines that are counted their order. The end of a number is 0 and a digit is more, so that keys compare as their bytes do. */
static void order_lines(uint8_t *store)
{
    uint8_t *order = store + ORDER_AT;
    unsigned row, at;
    memset(order, 0, OTAP_LINE_ROWS);
    for (row = 0; row < store[LINES_HELD_AT] && row < OTAP_LINE_ROWS; row++) {
        for (at = row; at > 0 && memcmp(key_at(store, row), key_at(store, order[at - 1] - 1u), KEY_BYTES) < 0; at--) {
            order[at] = order[at - 1];
        }
        order[at] = (uint8_t)(row + 1);
    }
}

#endif
