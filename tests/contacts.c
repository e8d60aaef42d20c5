/*
 * Contacts and slots as C sees them: what tells two lines, groups or individuals apart, how many have room, which rows a background group has not, what is
 * at fault in C8, C9 and D3, and what is exported of them. Each case was worked out by hand from docs/RULES.md.
 */
#include "answers.h"
#include "places.h"

/* A request with one setting of lines without texts; their numbers are three digits, from the first on. Operations are 1 add, 2 delete, 3 replace. */
static void write_lines(unsigned operation, unsigned pabx, unsigned first, unsigned count)
{
    size_t at;
    unsigned each;
    open_request(&said, 1);
    at = open_setting(&said, 0xCA);
    put(&said, operation * 64 + pabx * 2);
    put(&said, count);
    for (each = 0; each < count; each++) {
        put_number(&said, first + each, 3);
        put_text(&said, 0);
    }
    close_setting(&said, at);
}

/* IDtype is a part of a line's key: each step's number, and how many lines there are after it. The places are for both IDtypes. */
static void keys_of_lines(uint8_t *other)
{
    static const struct { unsigned operation, pabx, first, count, number, lines; } steps[] = {
        {1, 1, 23, 1, OTAP_OK, 1}, {2, 0, 23, 1, OTAP_OK, 1}, {1, 0, 23, 1, OTAP_OK, 2}, {1, 1, 23, 1, OTAP_OK, 2},
        {1, 0, 23, 1, OTAP_OK, 2}, {2, 1, 23, 1, OTAP_OK, 1}, {1, 1, 0, LINE_ROOM - 1, OTAP_OK, LINE_ROOM}, {1, 0, 5, 1, OTAP_NO_ROOM, LINE_ROOM},
        {1, 1, 5, 1, OTAP_OK, LINE_ROOM}, {2, 0, 5, 1, OTAP_OK, LINE_ROOM}, {2, 1, 5, 1, OTAP_OK, LINE_ROOM - 1}, {1, 0, 5, 1, OTAP_OK, LINE_ROOM},
        {3, 0, 50, 2, OTAP_OK, 2}, {1, 1, 50, 2, OTAP_OK, 4}, {3, 1, 50, 1, OTAP_OK, 1}, {3, 0, 50, 0, OTAP_OK, 0}
    };
    size_t each;
    same("start", 0, OTAP_OK, otap_start(other, OTAP_STORE_BYTES));
    for (each = 0; each < sizeof steps / sizeof steps[0]; each++) {
        uint64_t answer;
        write_lines(steps[each].operation, steps[each].pabx, steps[each].first, steps[each].count);
        answer = judge_and_commit(said.bytes, said.length, other, OTAP_STORE_BYTES, reply, sizeof reply);
        same("a line by its key", steps[each].number, steps[each].number, otap_answer_number(answer));
        counts_are("lines by their keys", other, steps[each].lines, 0);
    }
}

/* Example 11 adds extension 2345; telephone 2345 stands beside it, and one of the two is deleted. */
static void both_lines(void)
{
    static uint8_t one[OTAP_STORE_BYTES], both[OTAP_STORE_BYTES];
    uint8_t line[] = {2, 2, 0, 0x0E, 8, 7, 8, 1, 0xCA, 0, 9, 0x42, 1, 0x23, 0x45, 0xFF, 0, 0}, *second = both + LINES_AT + LINE_BYTES;
    uint32_t at;
    keys_of_lines(one);
    told("example 11", line, sizeof line, OTAP_OK, 0, one);
    memcpy(both, one, sizeof both);
    line[11] = 0x40;
    same("the telephone", 0, OTAP_OK, otap_answer_number(judge_and_commit(line, sizeof line, both, sizeof both, reply, sizeof reply)));
    counts_are("both lines", both, 2, 0);
    for (at = 0; at < 2; at++) {
        same("its number", 1 | (uint64_t)8 << 32, 1 | (uint64_t)8 << 32, otap_row_part(OTAP_LINES, at, both, sizeof both, scratch, sizeof scratch));
        same("2345", 0, 0, (uint64_t)(memcmp(scratch, "\0" "2\0" "3\0" "4\0" "5", 8) != 0));
    }
    second[1] = 1;
    no_store("one IDtype and number twice", both);
    second[0] = 15;
    no_store("the same with other flags", both);
    second[0] = second[1] = 0;
    line[11] = 0x80;
    same("deleted", 0, OTAP_OK, otap_answer_number(judge_and_commit(line, sizeof line, both, sizeof both, reply, sizeof reply)));
    same("the extension stays", 0, 0, (uint64_t)(memcmp(one, both, sizeof one) != 0));
}

/* A request with one setting of these fields; its DataLength is theirs. */
static void write_fields(unsigned type, const uint8_t *fields, size_t length)
{
    open_request(&said, 1);
    put_bytes(&said, type, fields, length);
}

/* A delete holds every field to its range too: attribute, address and number. Only DataLength is always as long as the fields. */
static void fields_at_fault(uint8_t *other)
{
    static const struct { const char *what; uint8_t type, length, number, fields[11]; } rows[] = {
        {"a response group", 0xC8, 10, OTAP_OK, {0x60, 0, 1, 0x10, 0, 1, 0, 0x41, 0, 0}},
        {"a background group", 0xC8, 10, OTAP_OK, {0x50, 0, 1, 0x10, 0, 1, 0, 0x41, 0, 0}},
        {"reserved bits of C8", 0xC8, 8, OTAP_OK, {0x60, 0x3F, 1, 0x10, 0, 1, 0, 0}},
        {"attribute 00, added", 0xC8, 8, OTAP_BAD_FIELD, {0x40, 0, 1, 0x10, 0, 1, 0, 0}},
        {"attribute 00, deleted", 0xC8, 8, OTAP_BAD_FIELD, {0x80, 0, 1, 0x10, 0, 1, 0, 0}},
        {"attribute 00, no entry", 0xC8, 3, OTAP_BAD_FIELD, {0xC0, 0, 0}},
        {"attribute 01, no entry", 0xC8, 3, OTAP_OK, {0xD0, 0, 0}},
        {"C8 without a count", 0xC8, 2, OTAP_BAD_FIELD, {0xD0, 0}},
        {"address 0FFFFF", 0xC8, 8, OTAP_BAD_FIELD, {0x60, 0, 1, 0x0F, 0xFF, 0xFF, 0, 0}},
        {"address 108000, deleted", 0xC8, 8, OTAP_BAD_FIELD, {0x90, 0, 1, 0x10, 0x80, 0, 0, 0}},
        {"an individual", 0xC9, 7, OTAP_OK, {0x40, 1, 0x10, 0, 1, 0, 0}},
        {"reserved bits of C9", 0xC9, 7, OTAP_OK, {0x43, 1, 0x10, 0, 1, 0, 0}},
        {"address 0FFFFF, deleted", 0xC9, 7, OTAP_BAD_FIELD, {0x80, 1, 0x0F, 0xFF, 0xFF, 0, 0}},
        {"operation 00", 0xC9, 2, OTAP_BAD_FIELD, {0x00, 0}},
        {"no individual", 0xC9, 2, OTAP_OK, {0xC0, 0}},
        {"a line slot", 0xD3, 7, OTAP_OK, {0x42, 3, 0x23, 0x45, 0xFF, 0, 0}},
        {"reserved bits of D3", 0xD3, 7, OTAP_OK, {0x43, 0xF3, 0x23, 0x45, 0xFF, 0, 0}},
        {"a line slot replaced", 0xD3, 5, OTAP_BAD_FIELD, {0xC0, 3, 0x1F, 0, 0}},
        {"a line slot deleted", 0xD3, 5, OTAP_OK, {0x80, 3, 0x0F, 0, 0}},
        {"deleted without a number", 0xD3, 5, OTAP_BAD_FIELD, {0x80, 3, 0xFF, 0, 0}},
        {"type D4", 0xD4, 5, OTAP_UNKNOWN_TYPE, {0x40, 3, 0x1F, 0, 0}}
    };
    size_t each;
    for (each = 0; each < sizeof rows / sizeof rows[0]; each++) {
        write_fields(rows[each].type, rows[each].fields, rows[each].length);
        told(rows[each].what, said.bytes, said.length, rows[each].number, rows[each].number == OTAP_OK ? 0 : 1, other);
    }
}

/* A request with one setting of group contacts of attribute 11, or of individual ones, without texts: addresses from 100001 on. */
static void write_contacts(unsigned type, unsigned operation, unsigned first, unsigned count)
{
    size_t at;
    unsigned each;
    open_request(&said, 1);
    at = open_setting(&said, type);
    put(&said, operation * 64 + (type == 0xC8 ? 0x30 : 0));
    if (type == 0xC8) {
        put(&said, 0);
    }
    put(&said, count);
    for (each = 0; each < count; each++) {
        put(&said, 0x10);
        put(&said, 0);
        put(&said, 1 + first + each);
        put_text(&said, 0);
    }
    close_setting(&said, at);
}

/* The key is the address: each step's number, how many contacts there are after it, and the last one's address. The two lists are apart. */
static void keys_of_contacts(uint8_t *other, unsigned type, size_t region)
{
    static const struct { unsigned operation, first, count, number, held, last; } steps[] = {
        {1, 0, 1, OTAP_OK, 1, 1}, {1, 0, 1, OTAP_OK, 1, 1}, {2, 1, 1, OTAP_OK, 1, 1}, {1, 1, 4, OTAP_OK, 5, 5}, {2, 1, 2, OTAP_OK, 3, 5},
        {1, 1, 1, OTAP_OK, 4, 2}, {3, 0, 64, OTAP_OK, 64, 64}, {1, 64, 1, OTAP_NO_ROOM, 64, 64}, {1, 63, 1, OTAP_OK, 64, 64},
        {3, 0, 65, OTAP_NO_ROOM, 64, 64}, {2, 70, 3, OTAP_OK, 64, 64}, {2, 9, 1, OTAP_OK, 63, 64}, {1, 64, 1, OTAP_OK, 64, 65},
        {3, 7, 2, OTAP_OK, 2, 9}, {2, 0, 0, OTAP_OK, 2, 9}, {3, 0, 0, OTAP_OK, 0, 0}
    };
    static uint8_t fresh[OTAP_STORE_BYTES];
    size_t each;
    same("start", 0, otap_start(fresh, sizeof fresh), otap_start(other, OTAP_STORE_BYTES));
    for (each = 0; each < sizeof steps / sizeof steps[0]; each++) {
        uint64_t answer;
        size_t last = region + 2 + (size_t)SLOT_BYTES * (steps[each].held - (steps[each].held > 0));
        write_contacts(type, steps[each].operation, steps[each].first, steps[each].count);
        answer = judge_and_commit(said.bytes, said.length, other, OTAP_STORE_BYTES, reply, sizeof reply);
        same("a contact by its address", steps[each].number, steps[each].number, otap_answer_number(answer));
        same("contacts held", steps[each].held, other[region] * 256u + other[region + 1], steps[each].held);
        same("the last one's address", steps[each].last, other[last + 3], steps[each].last);
        counts_are("lines and channels", other, 0, 0);
    }
    same("nothing is left", 0, 0, (uint64_t)(memcmp(other, fresh, sizeof fresh) != 0));
}

/* One address twice is no store, whatever its flags are. */
static void address_twice(uint8_t *other, unsigned type, size_t region)
{
    write_contacts(type, 1, 0, 2);
    told("two contacts", said.bytes, said.length, OTAP_OK, 0, other);
    other[region + 2 + SLOT_BYTES + 3] = 1;
    no_store("one address twice", other);
    other[region + 2 + SLOT_BYTES] ^= 1;
    no_store("the same with other flags", other);
    other[region + 2 + SLOT_BYTES + 2] = 1;
    counts_are("another address", other, 0, 0);
}

static uint32_t row(uint32_t table, uint32_t at, const uint8_t *bytes)
{
    uint32_t number = otap_row_number(table, at, bytes, OTAP_STORE_BYTES, scratch, sizeof scratch);
    uint64_t part = otap_row_part(table, at, bytes, OTAP_STORE_BYTES, scratch, sizeof scratch);
    same("a row that is shown", number == OTAP_OK, part != 0, part != 0);
    return number;
}

/* A response group, a background group and a member group, as contacts and in slots: the second has no row, and the third keeps its own. */
static void background_groups(uint8_t *other)
{
    static const uint8_t message[] = {2, 2, 0, 0, 8, 4, 8, 6,
                                      0xC8, 0, 10, 0x60, 0, 1, 0x10, 0, 1, 'a', 0, 0xC8, 0, 9, 0x50, 0, 1, 0x10, 0, 2, 0,
                                      0xC8, 0, 10, 0x70, 0, 1, 0x10, 0, 3, 'c', 0, 0xD1, 0, 9, 0x60, 0, 0x10, 0, 1, 'a', 0,
                                      0xD1, 0, 8, 0x50, 1, 0x10, 0, 2, 0, 0xD1, 0, 9, 0x70, 2, 0x10, 0, 3, 'c', 0};
    static const uint32_t tables[] = {OTAP_GROUPS, OTAP_GROUP_CONTACTS};
    static const uint8_t background[] = {0xC8, 0, 10, 0x50, 0, 1, 0x10, 0, 2, 0, 0};
    uint64_t part;
    size_t each;
    told("three groups", message, sizeof message, OTAP_OK, 0, other);
    for (each = 0; each < 2; each++) {
        same("a response group", 0, OTAP_OK, row(tables[each], 0, other));
        same("a background group", 17, OTAP_NO_ROW, row(tables[each], 1, other));
        same("a member group", 0, OTAP_OK, row(tables[each], 2, other));
        same("nothing behind it", 17, OTAP_NO_ROW, row(tables[each], 3, other));
    }
    part = otap_row_part(OTAP_GROUP_CONTACTS, 2, other, OTAP_STORE_BYTES, scratch, sizeof scratch);
    same("its own name", text_at(other, OTAP_GROUP_CONTACTS, 2), otap_part_offset(part), text_at(other, OTAP_GROUP_CONTACTS, 2));
    same("c", 'c', 'c', otap_part_bytes(part, other, scratch)[1]);
    part = otap_export(OTAP_EXPORT_GROUP_CONTACTS, other, OTAP_STORE_BYTES, buffer, sizeof buffer);
    same("settings of the part", 4, 4, buffer[7]);
    same("the background group is exported", 0, 0, (uint64_t)(memcmp(buffer + 8 + 6 + 13, background, sizeof background) != 0));
    other[GROUP_CONTACTS_AT + SLOT_BYTES] ^= 0xC0;
    same("as a response group it is shown", 0, OTAP_OK, row(OTAP_GROUP_CONTACTS, 1, other));
}

/* By index: an add overwrites, a delete of any number empties, and 16 with one number have room. */
static void line_slots(uint8_t *other)
{
    static const uint8_t first[] = {0x42, 3, 0x23, 0x45, 0xFF, 0, 0}, again[] = {0x7C, 3, 0x1F, 0, 'b', 0, 0}, gone[] = {0x80, 3, 0x0F, 0, 0};
    const uint8_t *third = other + LINE_SLOTS_AT + 3 * LINE_BYTES;
    unsigned slot;
    write_fields(0xD3, first, sizeof first);
    told("a line slot", said.bytes, said.length, OTAP_OK, 0, other);
    same("its number", 1 | (uint64_t)8 << 32, 1 | (uint64_t)8 << 32, otap_row_part(OTAP_LINE_SLOTS, 3, other, OTAP_STORE_BYTES, scratch, sizeof scratch));
    same("flags and IDtype", 1, 1, third[0] * 256u + third[1]);
    write_fields(0xD3, again, sizeof again);
    same("overwritten", 0, OTAP_OK, otap_answer_number(judge_and_commit(said.bytes, said.length, other, OTAP_STORE_BYTES, reply, sizeof reply)));
    same("flags and IDtype", 0x0F00, 0x0F00, third[0] * 256u + third[1]);
    write_fields(0xD3, gone, sizeof gone);
    same("deleted", 0, OTAP_OK, otap_answer_number(judge_and_commit(said.bytes, said.length, other, OTAP_STORE_BYTES, reply, sizeof reply)));
    same("no row", 17, OTAP_NO_ROW, row(OTAP_LINE_SLOTS, 3, other));
    open_request(&said, OTAP_SLOT_ROWS);
    for (slot = 0; slot < OTAP_SLOT_ROWS; slot++) {
        put_line_slot(&said, 1, slot, 0);
    }
    told("sixteen line slots", said.bytes, said.length, OTAP_OK, 0, other);
    same("the last one", 0, OTAP_OK, row(OTAP_LINE_SLOTS, OTAP_SLOT_ROWS - 1, other));
    same("none behind it", 17, OTAP_NO_ROW, row(OTAP_LINE_SLOTS, OTAP_SLOT_ROWS, other));
}

/* Parts 8 to 10 of a fresh store: what empties the other store's lists and slots, and is taken there. */
static void parts(uint8_t *other)
{
    static const uint8_t groups[] = {2, 2, 0, 10, 8, 7, 8, 1, 0xC8, 0, 5, 0xD0, 0, 0}, individuals[] = {2, 2, 0, 9, 8, 7, 8, 1, 0xC9, 0, 4, 0xC0, 0};
    static uint8_t fresh[OTAP_STORE_BYTES];
    uint32_t part;
    same("start", 0, OTAP_OK, otap_start(fresh, sizeof fresh));
    same("part 8", sizeof groups, sizeof groups, otap_export(8, fresh, sizeof fresh, buffer, sizeof buffer) >> 16);
    same("part 8", 0, 0, (uint64_t)(memcmp(buffer, groups, sizeof groups) != 0));
    same("part 9", sizeof individuals, sizeof individuals, otap_export(9, fresh, sizeof fresh, buffer, sizeof buffer) >> 16);
    same("part 9", 0, 0, (uint64_t)(memcmp(buffer, individuals, sizeof individuals) != 0));
    same("part 10", 8 + 16 * 8, 8 + 16 * 8, otap_export(10, fresh, sizeof fresh, buffer, sizeof buffer) >> 16);
    same("its last delete", 0, 0, (uint64_t)(memcmp(buffer + 8 + 15 * 8, "\xD3\0\x07\x80\x0F\x0F\0\0", 8) != 0));
    for (part = 7; part < 10; part++) {
        write_filling(&said, part, 0);
        same("filled", 0, OTAP_OK, otap_answer_number(judge_and_commit(said.bytes, said.length, other, OTAP_STORE_BYTES, reply, sizeof reply)));
    }
    for (part = 8; part <= 10; part++) {
        uint64_t length = otap_export_length(otap_export(part, fresh, sizeof fresh, buffer, sizeof buffer));
        same("taken", 0, OTAP_OK, otap_answer_number(judge_and_commit(buffer, length, other, OTAP_STORE_BYTES, reply, sizeof reply)));
    }
    same("the same tables", 0, 0, (uint64_t)(memcmp(other, fresh, sizeof fresh) != 0));
}

int main(void)
{
    static uint8_t other[OTAP_STORE_BYTES];
    both_lines();
    fields_at_fault(other);
    keys_of_contacts(other, 0xC8, GROUP_COUNT_AT);
    keys_of_contacts(other, 0xC9, INDIVIDUAL_COUNT_AT);
    address_twice(other, 0xC8, GROUP_COUNT_AT);
    address_twice(other, 0xC9, INDIVIDUAL_COUNT_AT);
    background_groups(other);
    line_slots(other);
    parts(other);
    printf("contacts go by their key, slots by their index, and a background group has no row\n");
    return 0;
}
