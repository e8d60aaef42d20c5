/*
 * Texts where docs/STORE.md has them (request A11), as C sees them: its example byte by byte, what a row shows while others grow, shrink and go, and which
 * bytes are no store. A hand-held's share one area and move in it; a vehicle's have their places.
 */
#include "answers.h"
#include "named.h"
#include "places.h"

enum { STEPS = 3000, LOOK = 100, KEYS = 128 };

static uint8_t store[OTAP_STORE_BYTES], other[OTAP_STORE_BYTES];
static unsigned sent[OTAP_TABLES + 1][KEYS]; /* what each entry was last sent with: its units plus one, 0 where there is none */

/* Quick text 5 `A1`, the empty status text 40, and PSTN 3 with the name Z; coding type 0100. */
static const uint8_t example[] = {2, 2, 0, 0, 8, 4, 8, 3, 0xCC, 0, 7, 0x41, 5, 'A', '1', 0, 0xD0, 0, 6, 0x40, 1, 40, 0, 0xCA, 0, 7, 0x40, 1, 0x3F, 'Z', 0};

static void bytes_are(const char *what, size_t at, const uint8_t *bytes, size_t length)
{
    same(what, 0, 0, (uint64_t)(memcmp(store + at, bytes, length) != 0));
    memset(store + at, 0, length);
}

/* The example's bytes, each written out; all others are 0. */
static void by_hand(void)
{
    told("the example", example, sizeof example, OTAP_OK, 0, store);
#ifdef VEHICLE
    bytes_are("A1", 22 + 5 * 46, (const uint8_t *)"\0A\0" "1", 4);
    bytes_are("an empty status text", 2966 + 8 * 33, (const uint8_t *)"\1", 1);
    bytes_are("one line", 13244, (const uint8_t *)"\0\1\0\0\4", 5);
    bytes_are("Z", 13246 + 20, (const uint8_t *)"\0Z", 2);
    bytes_are("its order", 19902, (const uint8_t *)"\1", 1);
#else
    bytes_are("two units", 27, (const uint8_t *)"\2", 1);
    bytes_are("an empty status text", 102, (const uint8_t *)"\1", 1);
    bytes_are("one line", 1548, (const uint8_t *)"\0\1\0\0\4", 5);
    bytes_are("a unit", 1570, (const uint8_t *)"\1", 1);
    bytes_are("its order", 2222, (const uint8_t *)"\1", 1);
    bytes_are("A1Z", 2254, (const uint8_t *)"\0A\0" "1\0Z", 6);
#endif
    same("start", 0, OTAP_OK, otap_start(other, sizeof other));
    same("all others are 0", 0, 0, (uint64_t)(memcmp(store, other, sizeof store) != 0));
}

/* The key of what stands in a row, as put_named has it; KEYS where nothing does. */
static unsigned key_in(uint32_t table, uint32_t row)
{
    uint64_t entry = otap_entry(table, row, store, sizeof store);
    uint8_t digits[OTAP_DIGITS];
    if (is_text(table)) {
        uint64_t part = otap_row_part(table, row, store, sizeof store, scratch, sizeof scratch);
        return part == 0 ? KEYS : row - slots_of(table)->first;
    }
    if (otap_answer_number(entry) != OTAP_OK) {
        return KEYS;
    }
    if (!is_line(table)) {
        return otap_entry_address(entry) - 0x100001;
    }
    same("three digits", 3 << 8, otap_entry_digits(table, row, store, sizeof store, digits, sizeof digits), 3 << 8);
    return digits[0] * 100u + digits[1] * 10u + digits[2] - 100;
}

/* A row shows the whole of its own text, where that stands, and nothing else; or its number where it has no text. */
static void shows(uint32_t table, uint32_t row, unsigned key)
{
    uint64_t part = otap_row_part(table, row, store, sizeof store, scratch, sizeof scratch);
    size_t units = sent[table][key] - 1, each;
    same("shown by its number", units == 0 && !is_text(table), (uint64_t)otap_part_in_scratch(part), part & 1);
    if (!otap_part_in_scratch(part)) {
        same("its units", 2 * units, otap_part_length(part), 2 * units);
        same("where they stand", text_at(store, table, row), otap_part_offset(part), text_at(store, table, row));
        for (each = 0; each < units; each++) {
            const uint8_t *unit = otap_part_bytes(part, store, scratch) + 2 * each;
            same("its own unit", 256 * table + 1 + key, unit[0] * 256u + unit[1], 256 * table + 1 + key);
        }
    }
}

/* Each row of each table; as many as were sent are there. */
static void all_shown(void)
{
    uint32_t table, row;
    for (table = 1; table <= OTAP_TABLES; table++) {
        unsigned there = 0, key;
        for (row = slots_of(table)->first; row < slots_of(table)->first + slots_of(table)->count; row++) {
            key = key_in(table, row);
            if (key < KEYS) {
                same("what was sent", 1, sent[table][key] > 0, 1);
                shows(table, row, key);
                there++;
            }
        }
        for (key = 0; key < KEYS; key++) {
            there -= sent[table][key] > 0;
        }
        same("as many as were sent", 0, there, 0);
    }
}

/* The bytes of all texts that were sent. */
static unsigned bytes_sent(void)
{
    unsigned sum = 0, table, key;
    for (table = 1; table <= OTAP_TABLES; table++) {
        for (key = 0; key < KEYS; key++) {
            sum += sent[table][key] > 0 ? 2 * (sent[table][key] - 1) : 0;
        }
    }
    return sum;
}

/* One entry more, another text for it, or one fewer: taken, unless its text is more than has room. Whether it was. */
static int change(uint32_t table, unsigned operation, unsigned key, unsigned units)
{
    unsigned was = sent[table][key];
    uint64_t answer;
    open_request(&said, 1);
    put_named(&said, table, operation, key, units);
    if (operation == DELETE || table != OTAP_QUICK_TEXTS || was == 0) { /* a quick text that is there stays */
        sent[table][key] = operation == DELETE ? 0 : units + 1;
    }
    answer = judge_and_commit(said.bytes, said.length, store, sizeof store, reply, sizeof reply) & 0xFFFF;
    if (bytes_sent() > TEXT_ROOM) {
        same("no room", OTAP_NO_ROOM | 1 << 8, answer, OTAP_NO_ROOM | 1 << 8);
        sent[table][key] = was;
    } else {
        same("taken", 0, OTAP_OK, answer);
    }
    return answer == OTAP_OK;
}

/* Adds and deletes in all tables: so many that a hand-held's area is full again and again. */
static void walk(void)
{
    unsigned step, refused = 0;
    same("start", 0, OTAP_OK, otap_start(store, sizeof store));
    memset(sent, 0, sizeof sent);
    for (step = 1; step <= STEPS; step++) {
        const Slots *slots = slots_with_texts + random_below(OTAP_TABLES);
        unsigned key = random_below((unsigned)slots->count), least = slots->table == OTAP_QUICK_TEXTS;
        unsigned units = random_below(3) == 0 ? (unsigned)slots->most : least + random_below((unsigned)slots->most + 1 - least);
        refused += !change(slots->table, random_below(3) == 0 ? DELETE : ADD, key, units);
        if (step % LOOK == 0) {
            all_shown();
        }
    }
    same("no room often, or of a vehicle never", 1, TEXT_ROOM > 4096 ? refused == 0 : refused > 300, 1);
}

/* What the walk has left is exported, and taken by a fresh set: equal tables are equal bytes, whatever messages made them. */
static void exported(void)
{
    uint32_t part;
    same("start", 0, OTAP_OK, otap_start(other, sizeof other));
    for (part = 1; part <= OTAP_EXPORT_PARTS; part++) {
        size_t length = otap_export_length(otap_export(part, store, sizeof store, buffer, sizeof buffer));
        same("a part is taken", 0, OTAP_OK, otap_answer_number(judge_and_commit(buffer, length, other, sizeof other, reply, sizeof reply)));
    }
    same("the same bytes", 0, 0, (uint64_t)(memcmp(store, other, sizeof store) != 0));
}

/* Another value of a byte of the example is no store. */
static void false_byte(const char *what, size_t at, unsigned value)
{
    told("the example", example, sizeof example, OTAP_OK, 0, store);
    same("another value", 1, store[at] != value, 1);
    store[at] = (uint8_t)value;
    no_store(what, store);
}

#ifdef VEHICLE
/* Where the example has no unit, and where it has one. */
static void false_bytes(void)
{
    false_byte("a unit that is 0 before another", 22 + 5 * 46 + 1, 0);
    false_byte("a unit behind a unit that is 0", 22 + 5 * 46 + 7, 1);
    false_byte("a status text that is not there", 2966 + 9 * 33 + 1, 1);
    false_byte("a name of no line", 13246 + 52 + 20, 1);
}
#else
/* What says how long a text is, what stands in the area, and what stands behind its texts. */
static void false_bytes(void)
{
    size_t at;
    false_byte("one unit for two", 27, 1);
    false_byte("three for two", 27, 3);
    false_byte("a quick text that there is not", 28, 1);
    false_byte("a unit of the empty text", 103, 1);
    false_byte("a unit of no status text", 105, 1);
    false_byte("no name", 1570, 0);
    false_byte("a name of no line", 1591, 1);
    for (at = AREA_AT + 1; at < AREA_AT + 6; at += 2) {
        false_byte("a unit that is 0", at, 0);
    }
    for (at = AREA_AT + 6; at < SPARE_AT; at = at < AREA_AT + 10 || at >= SPARE_AT - 4 ? at + 1 : SPARE_AT - 4) {
        false_byte("a byte behind the last text", at, 1);
    }
    false_byte("the first spare byte", SPARE_AT, 1);
}

/* So many bytes of the area are of units that are not 0. */
static void area_holds(size_t bytes)
{
    memset(store + AREA_AT, 0, SPARE_AT - AREA_AT);
    memset(store + AREA_AT, 1, bytes);
}

/* Bytes whose slots count the units of the area are a store: nothing else says where a text starts. But each has its most units, and an empty slot has none. */
static void counted_units(void)
{
    static const uint8_t most[] = {23, 16, 16};
    static const size_t places[] = {QUICK_AT + 5, STATUS_AT + 8 * STATUS_BYTES + 1, LINES_AT + LINE_BYTES - 1};
    static const size_t empty[] = {STATUS_AT + 9 * STATUS_BYTES + 1, GROUPS_AT + 4, LINES_AT + 2 * LINE_BYTES - 1};
    size_t each;
    told("the example", example, sizeof example, OTAP_OK, 0, store);
    store[places[0]] = store[places[1]] = 1;
    counts_are("a unit goes to the next text", store, 1, 0);
    same("it stands there", AREA_AT + 2, text_at(store, OTAP_STATUS_TEXTS, 40),
         otap_part_offset(otap_row_part(OTAP_STATUS_TEXTS, 40, store, sizeof store, scratch, sizeof scratch)));
    for (each = 0; each < 3; each++) {
        store[places[0]] = store[places[1]] = store[places[2]] = 1;
        store[places[each]] = most[each];
        area_holds(2u * (most[each] + 2u));
        counts_are("the most units", store, 1, 0);
        store[places[each]]++;
        area_holds(2u * (most[each] + 3u));
        no_store("one more", store);
    }
    for (each = 0; each < 3; each++) {
        told("the example", example, sizeof example, OTAP_OK, 0, store);
        store[empty[each]] = 1;
        area_holds(8);
        no_store("a text of what is not there", store);
    }
}

/* Slots that count 2,048 units, and one more. */
static void counted_too_many(void)
{
    size_t each;
    same("start", 0, OTAP_OK, otap_start(store, sizeof store));
    memset(store + QUICK_AT, 23, 64);
    for (each = 0; each < 36; each++) {
        store[STATUS_AT + 2 * each] = 1;
        store[STATUS_AT + 2 * each + 1] = 16;
    }
    area_holds(TEXT_ROOM);
    counts_are("as many as the area has room for", store, 0, 0);
    store[STATUS_AT + 2 * 36] = 1;
    counts_are("and an empty one", store, 0, 0);
    store[STATUS_AT + 2 * 36 + 1] = 1;
    no_store("a unit more", store);
    store[SPARE_AT] = store[SPARE_AT + 1] = 1;
    no_store("and with bytes for it behind the area", store);
}
#endif

int main(void)
{
    by_hand();
    walk();
    exported();
    false_bytes();
#ifndef VEHICLE
    counted_units();
    counted_too_many();
#endif
    printf("each row shows its own text and nothing else, wherever the others moved it\n");
    return 0;
}
