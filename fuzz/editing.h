/* A list of a store with one entry more or fewer, its text with it: as a store has it, but for the order of lines. */
#ifndef EDITING_H
#define EDITING_H

#include "places.h"

#include <string.h>

/* Makes so many bytes of so many, from a byte of the area on: the texts behind them move. */
static inline void resize(uint8_t *store, size_t at, size_t length, size_t wanted)
{
    size_t end = SHARED_AT + text_sum(layout, store);
    memmove(store + at + wanted, store + at + length, end - at - length);
    if (wanted < length) {
        memset(store + end + wanted - length, 0, length - wanted);
    }
}

/* Puts a copy of an entry behind the last one; whether there is room for it. */
static inline int repeat_entry(uint8_t *store, uint32_t table, uint32_t place)
{
    uint32_t count = store[held_at(table)];
    Text text = text_at(store, table, place);
    if (count == layout[table].rows || (shares(layout) && text_sum(layout, store) + text.length > SHARED_BYTES)) {
        return 0;
    }
    if (shares(layout)) {
        size_t at = text_at(store, table, count).offset;
        resize(store, at, 0, text.length);
        memcpy(store + at, store + text.offset, text.length);
    }
    memcpy(store + slot_at(table, count), store + slot_at(table, place), layout[table].width);
    store[held_at(table)]++;
    return 1;
}

/* Takes an entry out: those behind it move up. */
static inline void drop_entry(uint8_t *store, uint32_t table, uint32_t place)
{
    uint32_t last = store[held_at(table)] - 1u;
    Text text = text_at(store, table, place);
    if (shares(layout)) {
        resize(store, text.offset, text.length, 0);
    }
    memmove(store + slot_at(table, place), store + slot_at(table, place + 1), layout[table].width * (last - place));
    memset(store + slot_at(table, last), 0, layout[table].width);
    store[held_at(table)]--;
}

#endif
