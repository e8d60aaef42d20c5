/* What the tests in C share of texts: where docs/STORE.md says that they stand, so that a row's part is held to it. */
#ifndef PLACES_H
#define PLACES_H

#include "set.h"

/* A table with texts: the row of its first slot, where that stands, how long a slot is, how many there are, and the most units of a text. */
typedef struct {
    uint32_t table, first;
    size_t at, bytes, count, most;
} Slots;

/* In the order in which a hand-held's area has their texts. */
static const Slots slots_with_texts[OTAP_TABLES] = {
    {OTAP_QUICK_TEXTS, 0, QUICK_AT, QUICK_BYTES, 64, 23},
    {OTAP_STATUS_TEXTS, 32, STATUS_AT, STATUS_BYTES, 96, 16},
    {OTAP_GROUPS, 0, GROUPS_AT, SLOT_BYTES, 16, 16},
    {OTAP_INDIVIDUALS, 0, INDIVIDUALS_AT, SLOT_BYTES, 16, 16},
    {OTAP_LINE_SLOTS, 0, LINE_SLOTS_AT, LINE_BYTES, 16, 16},
    {OTAP_GROUP_CONTACTS, 0, GROUP_CONTACTS_AT, SLOT_BYTES, 64, 16},
    {OTAP_INDIVIDUAL_CONTACTS, 0, INDIVIDUAL_CONTACTS_AT, SLOT_BYTES, 64, 16},
    {OTAP_LINES, 0, LINES_AT, LINE_BYTES, LINE_ROOM, 16}
};

static inline const Slots *slots_of(uint32_t table)
{
    const Slots *slots = slots_with_texts;
    while (slots->table != table) {
        slots++;
    }
    return slots;
}

#ifdef VEHICLE
/* Where the text of a row stands: at the end of its slot, with room for the most units. */
static inline size_t text_at(const uint8_t *bytes, uint32_t table, uint32_t row)
{
    const Slots *slots = slots_of(table);
    (void)bytes;
    return slots->at + slots->bytes * (row - slots->first + 1) - 2 * slots->most;
}
#else
/* How many bytes the texts of so many slots have: two for each unit that the last byte of a slot counts. */
static inline size_t text_bytes(const uint8_t *bytes, const Slots *slots, size_t count)
{
    size_t sum = 0;
    for (; count > 0; count--) {
        sum += 2u * bytes[slots->at + slots->bytes * count - 1];
    }
    return sum;
}

/* Where the text of a row stands: in the area, right behind those of the tables and rows before it. */
static inline size_t text_at(const uint8_t *bytes, uint32_t table, uint32_t row)
{
    const Slots *slots;
    size_t at = AREA_AT;
    for (slots = slots_with_texts; slots->table != table; slots++) {
        at += text_bytes(bytes, slots, slots->count);
    }
    return at + text_bytes(bytes, slots, row - slots->first);
}
#endif

#endif
