/* Where a row's part may lie, and what may stand in it: by the store's layout (docs/STORE.md) and the other calls. */
#ifndef ROWS_H
#define ROWS_H

#include "calls.h"

static int lies(uint32_t table, uint32_t row)
{
    return table >= 1 && table <= OTAP_TABLES && row >= layout[table].from && row - layout[table].from < layout[table].rows;
}

/* The row's own slot: its first byte. */
static size_t slot_of(uint32_t table, uint32_t row)
{
    must(lies(table, row), "a row that is shown is one that there can be");
    return slot_at(table, row - layout[table].from);
}

/* Whether something stands in the row's slot: an empty one is 0 before its text, and a quick text is never empty. */
static int held(const uint8_t *store, uint32_t table, uint32_t row)
{
    static const uint8_t none[20];
    size_t slot = slot_of(table, row), before = layout[table].before;
    return before > 0 ? !same_bytes(store + slot, none, before) : text_length(layout, store, table, row - layout[table].from) > 0;
}

static int of_groups(uint32_t table)
{
    return table == OTAP_GROUPS || table == OTAP_GROUP_CONTACTS;
}

/* A row is shown exactly where something stands in its slot that is no background group, attribute 01. */
static void check_shown(const uint8_t *store, uint32_t table, uint32_t row, uint32_t number)
{
    int there = lies(table, row) && held(store, table, row);
    int background = there && of_groups(table) && store[slot_of(table, row)] >> 6 == 1;
    must(!background || number == OTAP_NO_ROW, "a background group has no row");
    must(background || there == (number == OTAP_OK), "a row is shown exactly where something stands");
}

static int unit_is(const uint8_t *bytes, size_t at, unsigned unit)
{
    return bytes[at] * 256u + bytes[at + 1] == unit;
}

/* The part is the row's own text and all of it, without a unit 0: in its place, or in the area behind the texts before it. */
static void check_text(const uint8_t *store, uint32_t table, uint32_t row, uint64_t part)
{
    Text text = text_at(store, table, row - layout[table].from);
    size_t at;
    must(otap_part_offset(part) == text.offset, "a part lies where its row's own text does");
    must(otap_part_length(part) == text.length && text.length <= layout[table].most, "the whole text, and no longer than one may be");
    for (at = 0; at < text.length; at += 2) {
        must(!unit_is(store, text.offset + at, 0), "no end unit in a text");
    }
}

static size_t line_number(const uint8_t *slot, char *text)
{
    size_t count = 0;
    while (count < 18 && slot[2 + count] != 0) {
        text[count] = (char)('0' + slot[2 + count] - 1);
        count++;
    }
    return count;
}

/* The number that stands for a row without a text: its digits, its dialled number, or its address. */
static size_t number_of(uint32_t table, const uint8_t *slot, char *text)
{
    uint32_t address = slot[1] * 65536u + slot[2] * 256u + slot[3];
    uint64_t dialled = of_groups(table) ? otap_dialled_of_group(address) : otap_dialled_of_individual(address);
    if (table == OTAP_LINES || table == OTAP_LINE_SLOTS) {
        return line_number(slot, text);
    }
    must(table != OTAP_QUICK_TEXTS && table != OTAP_STATUS_TEXTS, "only lines, groups and individuals have a number");
    return (size_t)(otap_answer_number(dialled) == OTAP_OK ? snprintf(text, 20, "%08u", (unsigned)otap_value(dialled))
                                                           : snprintf(text, 20, "%06X", (unsigned)address));
}

static void check_number(const uint8_t *store, uint32_t table, uint32_t row, const uint8_t *scratch, uint64_t part)
{
    char text[20];
    size_t count = number_of(table, store + slot_of(table, row), text), at;
    must(text_at(store, table, row - layout[table].from).length == 0, "a number only where there is no text");
    must(otap_part_offset(part) == 0 && otap_part_length(part) == 2 * count, "a number stands at the scratch's start");
    for (at = 0; at < count; at++) {
        must(unit_is(scratch, 2 * at, (unsigned char)text[at]), "a number's own digits");
    }
}

static uint32_t row_once(uint32_t table, uint32_t row, const uint8_t *store, size_t store_length, size_t length, int twice)
{
    Lent s = lend(store, store_length, twice), b = lend(stale(), length, twice);
    uint32_t number = otap_row_number(table, row, s.bytes, s.length, b.bytes, b.length);
    uint64_t part;
    size_t wrote;
    must(same_bytes(b.bytes, stale(), length), "the number of a row touches nothing");
    must((number == OTAP_SHORT_BUFFER) == (length < OTAP_SCRATCH_BYTES), "15 exactly of short scratches");
    must(number == OTAP_OK || number == OTAP_SHORT_BUFFER || number == OTAP_NO_STORE || number == OTAP_NO_ROW, "a number of a row");
    part = otap_row_part(table, row, s.bytes, s.length, b.bytes, b.length);
    wrote = otap_part_in_scratch(part) ? otap_part_length(part) : 0;
    must((part & 0xFFFF00000000FFFEu) == 0, "bits of a part that must be 0");
    must(number == OTAP_OK || part == 0, "a refused row is an empty part");
    must(wrote <= length && same_bytes(b.bytes + wrote, stale() + wrote, length - wrote), "scratch bytes past the number stay");
    must(same_bytes(s.bytes, store, store_length), "a row leaves the store");
    if (number == OTAP_OK || number == OTAP_NO_ROW) {
        check_shown(s.bytes, table, row, number);
    }
    if (number == OTAP_OK && otap_part_in_scratch(part)) {
        check_number(s.bytes, table, row, b.bytes, part);
    } else if (number == OTAP_OK) {
        check_text(s.bytes, table, row, part);
    }
    give_back(&s);
    give_back(&b);
    return number;
}

static uint32_t row_twice(uint32_t table, uint32_t row, const uint8_t *store, size_t store_length, size_t length)
{
    uint32_t number = row_once(table, row, store, store_length, length, 0);
    must(number == row_once(table, row, store, store_length, length, 1), "the same row twice");
    return number;
}

/* The counts of a store are those of what the other calls give: the last line counted is shown and none behind it, and as many channels are exported. */
static uint64_t check_counts(const uint8_t *store)
{
    static uint8_t request[OTAP_EXPORT_BYTES];
    uint64_t counts = counts_twice(store, OTAP_STORE_BYTES);
    uint32_t lines = otap_counts_lines(counts);
    must(otap_answer_number(counts) == OTAP_OK, "a store has counts");
    must(lines == 0 || row_once(OTAP_LINES, lines - 1, store, OTAP_STORE_BYTES, OTAP_SCRATCH_BYTES, 0) == OTAP_OK, "the last line counted is shown");
    must(row_once(OTAP_LINES, lines, store, OTAP_STORE_BYTES, OTAP_SCRATCH_BYTES, 0) == OTAP_NO_ROW, "no line behind those counted is shown");
    must(otap_answer_number(export_known(OTAP_EXPORT_CHANNELS, store, request)) == OTAP_OK, "channels are exported");
    must((request[11] & 3) * 256u + request[12] == otap_counts_channels(counts), "as many channels as are exported");
    return counts;
}

/* The lists by a key, and how many bytes it has, which stand behind the flags of a slot. */
typedef struct {
    uint32_t table;
    size_t bytes;
} List;

static const List lists[] = {{OTAP_LINES, 19}, {OTAP_GROUP_CONTACTS, 3}, {OTAP_INDIVIDUAL_CONTACTS, 3}};

static uint32_t count_of(const uint8_t *store, const List *list)
{
    size_t low = held_at(list->table);
    return store[low - 1] * 256u + store[low];
}

/* Whether one of the list's first entries has the key of this slot. */
static int has_key(const uint8_t *store, const List *list, uint32_t entries, const uint8_t *slot)
{
    uint32_t row = 0;
    while (row < entries && !same_bytes(store + slot_of(list->table, row) + 1, slot + 1, list->bytes)) {
        row++;
    }
    return row < entries;
}

/* As many entries as are counted, at the front, and no two of one key. The row behind them is not shown. */
static void check_list(const uint8_t *store, const List *list)
{
    uint32_t row, count = count_of(store, list);
    must(count <= layout[list->table].rows, "a count within the room");
    for (row = 0; row < layout[list->table].rows; row++) {
        must(held(store, list->table, row) == (row < count), "as many entries as are counted");
        must(row >= count || !has_key(store, list, row, store + slot_of(list->table, row)), "no two entries of one key");
    }
    must(row_once(list->table, count, store, OTAP_STORE_BYTES, OTAP_SCRATCH_BYTES, 0) == OTAP_NO_ROW, "no row behind those counted");
}

/* Each list; and as many lines as are shown, each looked at. */
static void check_lists(const uint8_t *store, uint64_t counts)
{
    uint32_t each, shown = 0;
    for (each = 0; each < sizeof lists / sizeof lists[0]; each++) {
        check_list(store, &lists[each]);
    }
    for (each = 0; each <= OTAP_LINE_ROWS; each++) {
        shown += row_once(OTAP_LINES, each, store, OTAP_STORE_BYTES, OTAP_SCRATCH_BYTES, 0) == OTAP_OK;
    }
    must(shown == otap_counts_lines(counts), "as many lines as are shown");
}

#endif
