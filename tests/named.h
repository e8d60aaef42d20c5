/* What the tests of texts share: an entry of any table, whose text says whose it is. */
#ifndef NAMED_H
#define NAMED_H

#include "messages.h"

static inline int is_line(uint32_t table)
{
    return table == OTAP_LINES || table == OTAP_LINE_SLOTS;
}

static inline int is_text(uint32_t table)
{
    return table == OTAP_QUICK_TEXTS || table == OTAP_STATUS_TEXTS;
}

static inline int is_group(uint32_t table)
{
    return table == OTAP_GROUPS || table == OTAP_GROUP_CONTACTS;
}

/* Slots and quick texts have an index and no count. */
static inline int has_index(uint32_t table)
{
    return table == OTAP_QUICK_TEXTS || table == OTAP_GROUPS || table == OTAP_INDIVIDUALS || table == OTAP_LINE_SLOTS;
}

/*
 * A setting of one entry, its key from 0 on: index, code less 32, the last byte of an address less 1, or what the digits of a line are. Its text has so many
 * units, each with the table as its high byte and the key plus one as its low.
 */
static inline void put_named(Message *m, uint32_t table, unsigned operation, unsigned key, unsigned units)
{
    static const uint8_t types[OTAP_TABLES + 1] = {0, 0xCA, 0xCC, 0xD0, 0xD1, 0xD2, 0xC8, 0xC9, 0xD3};
    size_t at = open_setting(m, types[table]);
    put(m, operation * 64 + (is_group(table) ? 0x20 : table == OTAP_QUICK_TEXTS));
    if (table == OTAP_GROUP_CONTACTS) {
        put(m, 0);
    }
    put(m, has_index(table) ? key : 1);
    if (table == OTAP_STATUS_TEXTS) {
        put(m, 32 + key);
    } else if (is_line(table)) {
        put_number(m, key, 3);
    } else if (!is_text(table)) {
        put(m, 0x10);
        put(m, 0);
        put(m, 1 + key);
    }
    for (; units > 0; units--) {
        put(m, table);
        put(m, 1 + key);
    }
    put(m, 0);
    put(m, 0);
    close_setting(m, at);
}

#endif
