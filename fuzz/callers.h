/* Who is calling: what every line of a store, and what comes near one, has to be answered. */
#ifndef CALLERS_H
#define CALLERS_H

#include "input.h"
#include "orders.h"
#include "rows.h"

/* The digits of a line, one a byte; how many they are. */
static size_t digits_of(const uint8_t *store, unsigned row, uint8_t *digits)
{
    const uint8_t *kept = key_at(store, row) + 1;
    size_t length = 0;
    while (length < OTAP_DIGITS && kept[length] != 0) {
        digits[length] = (uint8_t)(kept[length] - 1);
        length++;
    }
    return length;
}

/* The row with this key, looked for line by line; OTAP_LINE_ROWS if none has it. */
static uint32_t row_with(const uint8_t *store, uint32_t id_type, const uint8_t *digits, size_t length)
{
    uint8_t key[KEY_BYTES] = {0};
    uint32_t row = 0;
    size_t at;
    key[0] = (uint8_t)id_type;
    for (at = 0; at < length; at++) {
        key[1 + at] = (uint8_t)(digits[at] + 1);
    }
    while (row < store[LINES_HELD_AT] && (id_type > OTAP_PABX || !same_bytes(key, key_at(store, row), KEY_BYTES))) {
        row++;
    }
    return row < store[LINES_HELD_AT] ? row : (uint32_t)OTAP_LINE_ROWS;
}

/* The answer to a caller of a store is the row that has its key, and no other. */
static void check_caller(const uint8_t *store, uint32_t id_type, const uint8_t *digits, size_t length, uint64_t answer)
{
    uint32_t row;
    must(answer != OTAP_NO_STORE, "a store is known as one");
    if (is_number(digits, length)) {
        row = row_with(store, id_type, digits, length);
        must(answer == (row < OTAP_LINE_ROWS ? 0x100 | (uint64_t)row << 16 : 0), "a caller is found at its own row");
    }
}

static void ask_once(const uint8_t *store, uint32_t id_type, const uint8_t *digits, size_t length)
{
    check_caller(store, id_type, digits, length, line_of_once(id_type, digits, length, store, OTAP_STORE_BYTES, 0));
}

/* The order of a store's lines is the one that they have. */
static void check_order(const uint8_t *store)
{
    static uint8_t ordered[OTAP_STORE_BYTES];
    memcpy(ordered, store, sizeof ordered);
    order_lines(ordered);
    must(same_bytes(ordered, store, sizeof ordered), "the lines have their order");
}

/* Every line is found; what it begins with, what begins with it, and its digits with another IDtype, only if they are lines. */
static void check_callers(const uint8_t *store)
{
    unsigned row;
    check_order(store);
    for (row = 0; row < store[LINES_HELD_AT]; row++) {
        uint8_t digits[OTAP_DIGITS + 1];
        size_t length = digits_of(store, row, digits);
        uint32_t id_type = key_at(store, row)[0];
        must(row_with(store, id_type, digits, length) == row, "a line has its own key");
        ask_once(store, id_type, digits, length);
        ask_once(store, id_type, digits, length - 1);
        ask_once(store, id_type ^ 1, digits, length);
        ask_once(store, id_type + 2, digits, length);
        digits[length] = (uint8_t)(row % 10);
        ask_once(store, id_type, digits, length + 1);
    }
}

/* A key that is a line's or comes near it: a digit fewer or more, another digit, fewer digits, another IDtype. How many digits it has. */
static size_t near_line(Input *input, const uint8_t *store, unsigned row, uint32_t *id_type, uint8_t *digits)
{
    unsigned change = next_byte(input), choice = change / 8;
    size_t length = digits_of(store, row, digits);
    *id_type = key_at(store, row)[0];
    switch (change % 8) {
    case 2: return length - 1;
    case 3: digits[length] = (uint8_t)(choice % 10); return length + 1;
    case 4: *id_type ^= 1; return length;
    case 5: *id_type += 1 + choice * 0x01010101u; return length;
    case 6: digits[choice % length] = (uint8_t)(choice % 12); return length;
    case 7: return choice % (length + 1);
    default: return length;
    }
}

#endif
