/*
 * What stands behind a row, and what the radio works by: what has to hold of each call whatever was lent; and, of a store, that entries, rows and exports
 * agree: what the row shows and what stands behind it are exported in one entry of one setting.
 */
#ifndef ENTRIES_H
#define ENTRIES_H

#include "input.h"
#include "memo.h"
#include "rows.h"

enum { CHANNEL, KEY, HOME, SYSTEM };

static int of_lines(uint32_t table)
{
    return table == OTAP_LINES || table == OTAP_LINE_SLOTS;
}

/* A call that only reads: its numbers, no bits but its own, and of a refusal none. */
static void check_read(uint64_t answer, uint64_t own, size_t store_length)
{
    uint32_t number = otap_answer_number(answer);
    must(number == OTAP_OK || number == OTAP_NO_STORE || number == OTAP_NOTHING_THERE, "a number of a value");
    must(number == OTAP_OK ? (answer & ~own) == 0 : answer == number, "bits of a value that must be 0");
    must(number == OTAP_NO_STORE || store_length == OTAP_STORE_BYTES, "a store has its size");
}

static uint64_t entry_once(uint32_t table, uint32_t index, const uint8_t *store, size_t store_length, int twice)
{
    Lent s = lend(store, store_length, twice);
    uint64_t answer = otap_entry(table, index, s.bytes, s.length);
    check_read(answer, 0x1FFFFFFFF00u, store_length);
    must(same_bytes(s.bytes, store, store_length), "an entry leaves the store");
    must(otap_answer_number(answer) != OTAP_OK || (lies(table, index) && table != OTAP_QUICK_TEXTS && table != OTAP_STATUS_TEXTS), "an entry that there can be");
    give_back(&s);
    return answer;
}

/* Digits at the start of a buffer, which are left in `said`; the bytes past them stay. */
static uint64_t digits_once(uint32_t table, uint32_t index, const uint8_t *store, size_t store_length, size_t length, int twice, uint8_t *said)
{
    Lent s = lend(store, store_length, twice), d = lend(stale(), length, twice);
    uint64_t answer = otap_entry_digits(table, index, s.bytes, s.length, d.bytes, d.length);
    size_t count = otap_digits_count(answer);
    must((answer == OTAP_SHORT_BUFFER) == (length < OTAP_DIGITS), "15 exactly of short digits buffers");
    must(same_bytes(s.bytes, store, store_length), "digits leave the store");
    must(count <= OTAP_DIGITS && count <= length && same_bytes(d.bytes + count, stale() + count, length - count), "bytes past the digits stay");
    if (length >= OTAP_DIGITS) {
        check_read(answer, 0x1F00, store_length);
        must(otap_answer_number(answer) != OTAP_OK || (of_lines(table) && is_number(d.bytes, count)), "digits of a line");
    }
    memcpy(said, d.bytes, count);
    give_back(&s);
    give_back(&d);
    return answer;
}

/* A channel, or what is always there. */
static uint64_t setting_once(unsigned which, uint32_t position, const uint8_t *store, size_t store_length, int twice)
{
    static const uint64_t own[] = {0xFFF00u, 0x1FFFFFFF00u, 0x7FFFF00u, 0x7FFFF00u};
    Lent s = lend(store, store_length, twice);
    uint64_t answer = which == CHANNEL ? otap_channel(position, s.bytes, s.length) : which == KEY ? otap_emergency_key(s.bytes, s.length)
                    : which == HOME ? otap_home_numbers(s.bytes, s.length) : otap_system_code(s.bytes, s.length);
    check_read(answer, own[which], store_length);
    must(which == CHANNEL || answer != OTAP_NOTHING_THERE, "key and numbers are always there");
    must(same_bytes(s.bytes, store, store_length), "a setting leaves the store");
    give_back(&s);
    return answer;
}

/* Whether each of the six calls knows these bytes as a store. */
static int known_behind(const uint8_t *store, int known)
{
    uint8_t digits[OTAP_DIGITS];
    unsigned which;
    int agree = known == (entry_once(OTAP_GROUPS, 0, store, OTAP_STORE_BYTES, 1) != OTAP_NO_STORE);
    agree &= known == (digits_once(OTAP_LINES, 0, store, OTAP_STORE_BYTES, OTAP_DIGITS, 1, digits) != OTAP_NO_STORE);
    for (which = CHANNEL; which <= SYSTEM; which++) {
        agree &= known == (setting_once(which, 0, store, OTAP_STORE_BYTES, 1) != OTAP_NO_STORE);
    }
    return agree;
}

/* How each table is exported: its part, how many settings stand before its first entry, and the bytes from DataLength to the address or the number, if any. */
static const struct { uint32_t part, before, head; } exports[OTAP_TABLES + 1] = {
    {0, 0, 0}, {OTAP_EXPORT_LINES, 1, 2}, {OTAP_EXPORT_QUICK_TEXTS, 0, 0}, {OTAP_EXPORT_STATUS_TEXTS, 0, 0}, {OTAP_EXPORT_GROUPS, 0, 2},
    {OTAP_EXPORT_INDIVIDUALS, 0, 2}, {OTAP_EXPORT_GROUP_CONTACTS, 1, 3}, {OTAP_EXPORT_INDIVIDUAL_CONTACTS, 1, 2}, {OTAP_EXPORT_LINE_SLOTS, 0, 2}
};

/* A setting of an exported part, counted from 0; NULL if there are fewer. */
static const uint8_t *setting_at(const uint8_t *request, uint32_t which)
{
    const uint8_t *at = request + 8;
    if (which >= request[7]) {
        return NULL;
    }
    for (; which > 0; which--) {
        at += 1 + at[1] * 256u + at[2];
    }
    return at;
}

/* The digits of an exported number; its bytes are as many as hold them and the end. */
static size_t exported_digits(const uint8_t *number, uint8_t *digits)
{
    size_t count = 0;
    unsigned digit;
    while (count < OTAP_DIGITS && (digit = number[count / 2] >> (count % 2 == 0 ? 4 : 0) & 15u) != 15) {
        digits[count++] = (uint8_t)digit;
    }
    return count;
}

/* An entry as it is exported, in the bits of otap_entry. */
static uint64_t exported_entry(uint32_t table, const uint8_t *at)
{
    const uint8_t *address = at + 3 + exports[table].head;
    uint64_t flags = at[3], answer = of_lines(table) ? 0 : (uint64_t)(address[0] * 65536u + address[1] * 256u + address[2]) << 8;
    if (of_groups(table)) {
        return answer | (flags >> 2 & 1) << 33 | (flags & 1) << 34 | (uint64_t)(at[4] >> 6) << 35 | (flags >> 4 & 3) << 37 | (flags >> 3 & 1) << 39
             | (flags >> 1 & 1) << 40;
    }
    return answer | (of_lines(table) ? flags >> 1 & 1 : 0) << 32 | (flags >> 5 & 1) << 33 | (flags >> 4 & 1) << 34 | (flags >> 2 & 3) << 35;
}

/* What the screen shows in a row is the text that is exported; a number is shown only where that is empty. */
static void check_name(const uint8_t *store, uint32_t table, uint32_t index, const uint8_t *text)
{
    uint8_t scratch[OTAP_SCRATCH_BYTES];
    uint64_t part = otap_row_part(table, index, store, OTAP_STORE_BYTES, scratch, sizeof scratch);
    size_t length = otap_part_in_scratch(part) ? 0 : otap_part_length(part);
    must(part != 0, "a row has a part");
    must(same_bytes(text, store + otap_part_offset(part), length) && unit_is(text, length, 0), "the name is exported with what stands behind it");
}

/* The digits of a line are those that are exported; how many. */
static size_t check_digits(const uint8_t *store, uint32_t table, uint32_t index, const uint8_t *number)
{
    uint8_t said[OTAP_DIGITS], digits[OTAP_DIGITS];
    uint64_t answer = digits_once(table, index, store, OTAP_STORE_BYTES, OTAP_DIGITS, 0, said);
    size_t count = exported_digits(number, digits);
    must(answer == (uint64_t)count << 8 && same_bytes(said, digits, count), "digits are those that are exported");
    return count;
}

/* Entry, digits, row and export of one place agree; an empty slot is exported as a delete. */
static void check_behind(const uint8_t *store, const uint8_t *request, uint32_t table, uint32_t index)
{
    const uint8_t *at = setting_at(request, exports[table].before + index), *key;
    uint64_t answer = entry_once(table, index, store, OTAP_STORE_BYTES, 0);
    int there = at != NULL && at[3] >> 6 == 1, shown;
    must(answer == (there ? exported_entry(table, at) : OTAP_NOTHING_THERE), "an entry is what is exported");
    shown = row_once(table, index, store, OTAP_STORE_BYTES, OTAP_SCRATCH_BYTES, 0) == OTAP_OK;
    must(shown == (there && otap_entry_attribute(answer) != OTAP_BACKGROUND), "a row is shown exactly where an entry is no background group's");
    if (there) {
        key = at + 3 + exports[table].head;
        key += of_lines(table) ? check_digits(store, table, index, key) / 2 + 1 : 3; /* the text stands behind it */
        if (shown) {
            check_name(store, table, index, key);
        }
    }
}

/* The channels in their order, and none behind the last. */
static void check_channels(const uint8_t *store, const uint8_t *request)
{
    uint32_t position, count = (request[11] & 3u) * 256u + request[12];
    for (position = 0; position < count; position++) {
        const uint8_t *pair = request + 13 + position / 2 * 3;
        uint32_t channel = position % 2 == 0 ? pair[0] * 16u + (pair[1] >> 4) : (pair[1] & 15u) * 256u + pair[2];
        must(setting_once(CHANNEL, position, store, OTAP_STORE_BYTES, 0) == (uint64_t)channel << 8, "channels are exported in their order");
    }
    must(setting_once(CHANNEL, count, store, OTAP_STORE_BYTES, 0) == OTAP_NOTHING_THERE, "no channel behind the last");
}

/* Emergency key, home numbers and system code are those that are exported. */
static void check_fixed(const uint8_t *store, const uint8_t *request)
{
    const uint8_t *key = setting_at(request, 0), *home = setting_at(request, 1), *code = setting_at(request, 2);
    uint64_t flags = key[3], address = flags >> 7 ? 0 : key[4] * 65536u + key[5] * 256u + key[6];
    uint64_t nzi = home[3] * 2u + (home[4] >> 7), np = (home[4] & 127u) * 8u + (home[5] >> 5);
    uint64_t lai = code[3] * 16u + (code[4] >> 4);
    must(setting_once(KEY, 0, store, OTAP_STORE_BYTES, 0)
             == (address << 8 | (flags >> 7) << 32 | (flags >> 6 & 1) << 33 | (flags >> 5 & 1) << 34 | (flags >> 4 & 1) << 35 | (flags >> 3 & 1) << 36),
         "the key is the one that is exported");
    must(setting_once(HOME, 0, store, OTAP_STORE_BYTES, 0) == (nzi << 8 | np << 17), "the home numbers are those that are exported");
    must(setting_once(SYSTEM, 0, store, OTAP_STORE_BYTES, 0)
             == (lai << 8 | (code[4] & 15u) << 20 | (uint64_t)(code[5] >> 6) << 24 | (uint64_t)(code[5] >> 5 & 1u) << 26), "the system code too");
}

/* Texts have their rows, and nothing behind them. */
static void check_alone(const uint8_t *store, uint32_t table)
{
    uint32_t row;
    for (row = layout[table].from; lies(table, row); row++) {
        must(!held(store, table, row) || row_once(table, row, store, OTAP_STORE_BYTES, OTAP_SCRATCH_BYTES, 0) == OTAP_OK, "a text has a row");
    }
    must(entry_once(table, layout[table].from, store, OTAP_STORE_BYTES, 0) == OTAP_NOTHING_THERE, "a text has nothing behind it");
}

/* Every place of the slots; of a list those in use, and the next. */
static void check_entries(const uint8_t *store)
{
    static uint8_t request[OTAP_EXPORT_BYTES];
    uint8_t said[OTAP_DIGITS];
    uint32_t table, index, places;
    for (table = OTAP_LINES; table <= OTAP_TABLES; table++) {
        if (exports[table].head == 0) {
            check_alone(store, table);
            continue;
        }
        export_known(exports[table].part, store, request);
        places = exports[table].before == 0 ? OTAP_SLOT_ROWS : request[7];
        for (index = 0; index < places; index++) {
            check_behind(store, request, table, index);
        }
        must(entry_once(table, places, store, OTAP_STORE_BYTES, 0) == OTAP_NOTHING_THERE, "nothing behind the last place");
        must(digits_once(table, of_lines(table) ? places : 0, store, OTAP_STORE_BYTES, OTAP_DIGITS, 0, said) == OTAP_NOTHING_THERE, "digits of lines alone");
    }
    export_known(OTAP_EXPORT_CHANNELS, store, request);
    check_channels(store, request);
    export_known(OTAP_EXPORT_FIXED, store, request);
    check_fixed(store, request);
}

/* A value of the store, or of bytes of another size; twice, on blocks of their own. */
static void ask_value(Input *input, const uint8_t *store)
{
    unsigned which = next_byte(input), choice = next_byte(input), table = next_byte(input), at = next_byte(input);
    uint32_t index = at < 250 ? at : at * 0x01010101u;
    size_t store_length = chosen_store(choice), length = chosen_size(choice, OTAP_DIGITS);
    uint8_t said[OTAP_DIGITS], again[OTAP_DIGITS];
    uint64_t answer, key = keyed(keyed_by(OF_VALUE, choice), store, OTAP_STORE_BYTES);
    if (was_checked(keyed_by(keyed_by(keyed_by(key, which), table), at))) {
        return;
    }
    table = table < 250 ? table % (OTAP_TABLES + 2) : 0xFFFFFFFFu - table;
    switch (which % 6) {
    case 0:
        answer = entry_once(table, index, store, store_length, 0);
        must(answer == entry_once(table, index, store, store_length, 1), "the same entry twice");
        break;
    case 1:
        answer = digits_once(table, index, store, store_length, length, 0, said);
        must(answer == digits_once(table, index, store, store_length, length, 1, again), "as many digits twice");
        must(same_bytes(said, again, otap_digits_count(answer)), "the same digits twice");
        break;
    default:
        answer = setting_once(which % 6 - 2, index, store, store_length, 0);
        must(answer == setting_once(which % 6 - 2, index, store, store_length, 1), "the same setting twice");
        break;
    }
    must(store_length != OTAP_STORE_BYTES || answer != OTAP_NO_STORE, "a store is known as one");
}

#endif
