/* The header's constants and the archive's answers: each number of document 01's table is provoked, and is the constant that is named after it. */
#include "answers.h"
#include "places.h"

static uint8_t store[OTAP_STORE_BYTES + 1];

static uint64_t commit(void)
{
    return judge_and_commit(said.bytes, said.length, store, OTAP_STORE_BYTES, reply, sizeof reply);
}

/* 0 to 5: a reply is written. The last byte of the answer's low 32 bits is its length; bit 16 says send. */
static void replied(void)
{
    write_message(&said, 0, 0);
    said.bytes[6] = 0x10;
    same("version", 1, OTAP_BAD_VERSION, otap_answer_number(commit()));
    write_message(&said, 9, 0);
    same("room", 2, OTAP_NO_ROOM, otap_answer_number(commit()));
    same("room, packed", 0x0A010102, commit(), 0x0A010102);
    write_message(&said, 0, 0);
    said.bytes[8] = 0xD4;
    same("type", 3, OTAP_UNKNOWN_TYPE, otap_answer_number(commit()));
    said.bytes[8] = 0xCB;
    same("field", 4, OTAP_BAD_FIELD, otap_answer_number(commit()));
    write_query(&said, 1);
    same("query", 5, OTAP_NO_MATCH, otap_answer_number(commit()));
    same("query, packed", 0x14010005, commit(), 0x14010005);
    write_query(&said, 2);
    same("query that matches", 0, OTAP_OK, otap_answer_number(commit()));
}

/* The documents' sizes and the header's. */
static void sizes(void)
{
    same("bytes of a store", STORE_SIZE, OTAP_STORE_BYTES, STORE_SIZE);
    same("most bytes of a message", MESSAGE_SIZE, OTAP_MESSAGE_BYTES, MESSAGE_SIZE);
    same("an export buffer", MESSAGE_SIZE, OTAP_EXPORT_BYTES, MESSAGE_SIZE);
    same("a report buffer", MESSAGE_SIZE, OTAP_REPORT_BYTES, MESSAGE_SIZE);
    same("a join buffer", MESSAGE_SIZE, OTAP_JOIN_BYTES, MESSAGE_SIZE);
    same("a proposal buffer", MESSAGE_SIZE, OTAP_PROPOSAL_BYTES, MESSAGE_SIZE);
    same("room for lines", LINE_ROOM, OTAP_LINE_ROWS, LINE_ROOM);
    same("room for channels", CHANNEL_ROOM, OTAP_CHANNEL_PLACES, CHANNEL_ROOM);
    same("room for a hand-held's texts", 4096, OTAP_TEXT_BYTES, 4096);
}

/* 10 to 14: the number is the whole answer. */
static void untouched(void)
{
    static uint8_t any[OTHER_STORE_SIZE];
    write_message(&said, 0, 0);
    same("reply", 10, OTAP_SHORT_REPLY, judge_and_commit(said.bytes, said.length, store, OTAP_STORE_BYTES, reply, OTAP_REPLY_BYTES - 1));
    same("store", 11, OTAP_NO_STORE, judge_and_commit(said.bytes, said.length, store, OTAP_STORE_BYTES - 1, reply, OTAP_REPLY_BYTES));
    same("store", 11, OTAP_NO_STORE, otap_start(store, OTAP_STORE_BYTES + 1));
    same("a store's size of layout 3", 11, OTAP_NO_STORE, otap_start(store, 12288));
    same("a store of the other set", 11, OTAP_NO_STORE, otap_start(any, OTHER_STORE_SIZE));
    same("the same, to be judged", 11, OTAP_NO_STORE, judge_and_commit(said.bytes, said.length, any, OTHER_STORE_SIZE, reply, OTAP_REPLY_BYTES));
    said.length = 6;
    same("short message", 12, OTAP_MESSAGE_LENGTH, commit());
    said.length = OTAP_MESSAGE_BYTES + 1;
    same("long message", 12, OTAP_MESSAGE_LENGTH, commit());
    said.length = OTAP_MESSAGE_BYTES;
    same("longest message", 4, OTAP_BAD_FIELD, otap_answer_number(commit()));
    said.bytes[0] = 3;
    same("carrier", 13, OTAP_BAD_CARRIER, commit());
    said.bytes[0] = 2;
    said.bytes[6] = 0x09;
    same("reply as a message", 14, OTAP_OTHER_MESSAGE, commit());
}

static void exported(void)
{
    static const uint8_t types[OTAP_EXPORT_PARTS + 1] = {0, 0xCA, 0xCB, 0xCC, 0xCE, 0xD0, 0xD1, 0xD2, 0xC8, 0xC9, 0xD3};
    static const uint8_t parts[OTAP_EXPORT_PARTS + 1] = {0, OTAP_EXPORT_LINES, OTAP_EXPORT_FIXED, OTAP_EXPORT_QUICK_TEXTS, OTAP_EXPORT_CHANNELS,
                                                         OTAP_EXPORT_STATUS_TEXTS, OTAP_EXPORT_GROUPS, OTAP_EXPORT_INDIVIDUALS,
                                                         OTAP_EXPORT_GROUP_CONTACTS, OTAP_EXPORT_INDIVIDUAL_CONTACTS, OTAP_EXPORT_LINE_SLOTS};
    uint32_t part;
    same("parts", 10, OTAP_EXPORT_PARTS, sizeof types - 1);
    for (part = 1; part <= OTAP_EXPORT_PARTS; part++) {
        uint64_t answer = otap_export(part, store, OTAP_STORE_BYTES, buffer, sizeof buffer);
        same("export", 0, OTAP_OK, otap_answer_number(answer));
        same("part", part, parts[part], part);
        same("part's first setting", types[part], types[part], buffer[8]);
        same("part's length", otap_export_length(answer), buffer[2] * 256u + buffer[3] + 4u, answer >> 16);
    }
    same("short buffer", 15, OTAP_SHORT_BUFFER, otap_export(1, store, OTAP_STORE_BYTES, buffer, OTAP_EXPORT_BYTES - 1));
    same("part", 16, OTAP_NO_PART, otap_export(OTAP_EXPORT_PARTS + 1, store, OTAP_STORE_BYTES, buffer, OTAP_EXPORT_BYTES));
    same("part", 16, OTAP_NO_PART, otap_export(0, store, OTAP_STORE_BYTES, buffer, OTAP_EXPORT_BYTES));
}

/* A full store reports 388 entries in two messages, a vehicle's 676 in three; the bytes of each are in reports.c. */
static void reported(void)
{
    const uint32_t messages = LINE_ROOM > 32 ? 3 : 2;
    uint32_t index, entries = 0;
    write_asking_all(&said, 10, 0);
    for (index = 1; index <= messages; index++) {
        uint64_t answer = otap_report(said.bytes, said.length, index, store, OTAP_STORE_BYTES, buffer, sizeof buffer);
        same("report", 0, OTAP_OK, otap_answer_number(answer));
        same("messages", messages, otap_report_total(answer), answer >> 8 & 0xFF);
        same("a message's length", otap_report_length(answer), buffer[2] * 256u + buffer[3] + 4u, answer >> 16);
        entries += buffer[9];
    }
    same("entries", 64 + 64 + LINE_ROOM + 64 + CHANNEL_ROOM + 96 + 4, entries, entries);
    same("message", 16, OTAP_NO_MESSAGE, otap_report(said.bytes, said.length, index, store, OTAP_STORE_BYTES, buffer, OTAP_REPORT_BYTES));
    same("message", 16, OTAP_NO_MESSAGE, otap_report(said.bytes, said.length, 0, store, OTAP_STORE_BYTES, buffer, OTAP_REPORT_BYTES));
    same("short buffer", 15, OTAP_SHORT_BUFFER, otap_report(said.bytes, said.length, 1, store, OTAP_STORE_BYTES, buffer, OTAP_REPORT_BYTES - 1));
    said.bytes[3] = 0; /* its length is not stated */
    same("no types", 4, OTAP_BAD_FIELD, otap_report(said.bytes, 7, 1, store, OTAP_STORE_BYTES, buffer, OTAP_REPORT_BYTES));
    said.bytes[6] = 0x12;
    same("version", 1, OTAP_BAD_VERSION, otap_report(said.bytes, said.length, 1, store, OTAP_STORE_BYTES, buffer, OTAP_REPORT_BYTES));
    said.bytes[6] = 0x08;
    same("a request", 14, OTAP_OTHER_MESSAGE, otap_report(said.bytes, said.length, 1, store, OTAP_STORE_BYTES, buffer, OTAP_REPORT_BYTES));
    said.bytes[0] = 3;
    same("carrier", 13, OTAP_BAD_CARRIER, otap_report(said.bytes, said.length, 1, store, OTAP_STORE_BYTES, buffer, OTAP_REPORT_BYTES));
    same("short query", 12, OTAP_MESSAGE_LENGTH, otap_report(said.bytes, 6, 1, store, OTAP_STORE_BYTES, buffer, OTAP_REPORT_BYTES));
}

static uint32_t row(uint32_t table, uint32_t at)
{
    return otap_row_number(table, at, store, OTAP_STORE_BYTES, scratch, sizeof scratch);
}

/* Each row of a table is there, and none beside them. A text is a part of the store, where docs/STORE.md has it. */
static void rows_of(uint32_t table, uint32_t first, uint32_t last)
{
    uint32_t at;
    same("row before", 17, OTAP_NO_ROW, row(table, first - 1));
    same("row after", 17, OTAP_NO_ROW, row(table, last + 1));
    for (at = first; at <= last; at++) {
        uint64_t part = otap_row_part(table, at, store, OTAP_STORE_BYTES, scratch, sizeof scratch);
        same("a row", 0, OTAP_OK, row(table, at));
        same("in the scratch", part & 1, (uint64_t)otap_part_in_scratch(part), part & 1);
        same("place", at > first && (part & 1) != 0 ? 0 : text_at(store, table, at), otap_part_offset(part), part >> 16 & 0xFFFF);
        same("the longest first", at == first ? (table == OTAP_QUICK_TEXTS ? OTAP_ROW_BYTES : 32) : part >> 32, otap_part_length(part), part >> 32);
    }
}

static void rows(void)
{
    static const struct { uint32_t table, first, last; } tables[OTAP_TABLES] = {
        {OTAP_LINES, 0, OTAP_LINE_ROWS - 1},
        {OTAP_QUICK_TEXTS, 0, OTAP_QUICK_ROWS - 1},
        {OTAP_STATUS_TEXTS, OTAP_STATUS_FIRST, OTAP_STATUS_LAST},
        {OTAP_GROUPS, 0, OTAP_SLOT_ROWS - 1},
        {OTAP_INDIVIDUALS, 0, OTAP_SLOT_ROWS - 1},
        {OTAP_GROUP_CONTACTS, 0, OTAP_CONTACT_ROWS - 1},
        {OTAP_INDIVIDUAL_CONTACTS, 0, OTAP_CONTACT_ROWS - 1},
        {OTAP_LINE_SLOTS, 0, OTAP_SLOT_ROWS - 1}
    };
    uint32_t each;
    for (each = 0; each < OTAP_TABLES; each++) {
        same("table", each + 1, tables[each].table, tables[each].table);
        rows_of(tables[each].table, tables[each].first, tables[each].last);
    }
    same("no table", 17, OTAP_NO_ROW, row(0, 0));
    same("no table", 17, OTAP_NO_ROW, row(OTAP_TABLES + 1, 0));
    same("short scratch", 15, OTAP_SHORT_BUFFER, otap_row_number(1, 0, store, OTAP_STORE_BYTES, scratch, OTAP_SCRATCH_BYTES - 1));
}

/* Eighteen digits fill the scratch; an address outside the plan is six hex digits. */
static void numbers_shown(void)
{
    uint64_t line = otap_row_part(OTAP_LINES, 16, store, OTAP_STORE_BYTES, scratch, sizeof scratch);
    same("line's number", 1 | (uint64_t)OTAP_SCRATCH_BYTES << 32, line, line);
    same("its last digit", '6', scratch[OTAP_SCRATCH_BYTES - 1], otap_part_bytes(line, store, scratch)[OTAP_SCRATCH_BYTES - 1]);
    line = otap_row_part(OTAP_GROUPS, 15, store, OTAP_STORE_BYTES, scratch, sizeof scratch);
    same("group's number", 1 | (uint64_t)12 << 32, line, line);
    same("its digits", 0, (uint64_t)memcmp(scratch, "\0F\0F\0F\0F\0" "1\0" "0", 12), 0);
    line = otap_row_part(OTAP_INDIVIDUAL_CONTACTS, 33, store, OTAP_STORE_BYTES, scratch, sizeof scratch);
    same("contact's number", 1 | (uint64_t)12 << 32, line, line);
    same("its digits", 0, (uint64_t)memcmp(scratch, "\0F\0F\0" "7\0F\0" "2\0" "2", 12), 0);
    line = otap_row_part(OTAP_LINE_SLOTS, 13, store, OTAP_STORE_BYTES, scratch, sizeof scratch);
    same("line slot's number", 1 | (uint64_t)10 << 32, line, line);
    same("its digits", 0, (uint64_t)memcmp(scratch, "\0" "1\0" "1\0" "1\0" "1\0" "3", 10), 0);
}

/* One call is enough for a row: otap_row_part answers 0 exactly where otap_row_number does not. */
static void asked_once(const uint8_t *bytes, size_t room)
{
    uint32_t table, at;
    for (table = 0; table <= OTAP_TABLES + 1; table++) {
        for (at = 0; at <= OTAP_STATUS_LAST + 1; at++) {
            uint32_t number = otap_row_number(table, at, bytes, OTAP_STORE_BYTES, scratch, room);
            uint64_t part = otap_row_part(table, at, bytes, OTAP_STORE_BYTES, scratch, room);
            same("a row that is shown", number == OTAP_OK, part != 0, part != 0);
        }
    }
}

static void asked_of_stores(void)
{
    static uint8_t fresh[OTAP_STORE_BYTES], none[OTAP_STORE_BYTES];
    same("start", 0, OTAP_OK, otap_start(fresh, sizeof fresh));
    memset(none, 0xFF, sizeof none);
    asked_once(store, OTAP_SCRATCH_BYTES);
    asked_once(store, OTAP_SCRATCH_BYTES - 1);
    asked_once(fresh, OTAP_SCRATCH_BYTES);
    asked_once(none, OTAP_SCRATCH_BYTES);
}

/* Another value of a byte of a count, which stand where docs/STORE.md says, makes a store none: group contacts, individual ones, channels, lines. */
static void poked_counts(uint8_t *bytes)
{
    static const size_t places[] = {GROUP_COUNT_AT, GROUP_COUNT_AT + 1, INDIVIDUAL_COUNT_AT, INDIVIDUAL_COUNT_AT + 1,
                                    CHANNEL_COUNT_AT, CHANNEL_COUNT_AT + 1, LINE_COUNT_AT, LINE_COUNT_AT + 1};
    static const uint8_t steps[] = {1, 2, 32, 64, 128, 192, 255};
    size_t each, step;
    for (each = 0; each < sizeof places / sizeof places[0]; each++) {
        uint8_t right = bytes[places[each]];
        for (step = 0; step < sizeof steps; step++) {
            bytes[places[each]] = (uint8_t)(right + steps[step]);
            no_store("false count", bytes);
        }
        bytes[places[each]] = right;
    }
}

/* A fresh store, and stores with some of the lines and channels of a full one. */
static void counted(void)
{
    static uint8_t other[OTAP_STORE_BYTES];
    unsigned vary, each;
    counts_are("counts of a full store", store, LINE_ROOM, CHANNEL_ROOM);
    poked_counts(store);
    same("start", 0, OTAP_OK, otap_start(other, sizeof other));
    counts_are("counts of a fresh store", other, 0, 0);
    poked_counts(other);
    for (vary = 0; vary < 23; vary++) {
        for (each = 0; each <= 4; each += 4) {
            write_filling(&said, each, vary);
            same("taken", 0, OTAP_OK, otap_answer_number(judge_and_commit(said.bytes, said.length, other, sizeof other, reply, sizeof reply)));
        }
        counts_are("counts of a store", other, LINE_ROOM - vary, CHANNEL_ROOM - vary);
    }
    same("short store", 11, OTAP_NO_STORE, otap_counts(store, OTAP_STORE_BYTES - 1));
    same("long store", 11, OTAP_NO_STORE, otap_counts(store, OTAP_STORE_BYTES + 1));
    same("long store, and no digits", 11, OTAP_NO_STORE, otap_line_of(OTAP_PABX, reply, 0, store, OTAP_STORE_BYTES + 1));
    same("long store, and no table", 11, OTAP_NO_STORE, otap_entry(0, 0, store, OTAP_STORE_BYTES + 1));
    memset(other, 0xFF, sizeof other);
    no_store("erased flash", other);
}

/* A request of coding type 0100 with a group (D1) or a quick text (CC) of as many characters, and any DataLength. */
static void write_narrow(unsigned type, unsigned units, unsigned data_length)
{
    open_request(&said, 1);
    said.bytes[5] = 4;
    put(&said, type);
    put(&said, 0);
    put(&said, data_length);
    put(&said, type == 0xD1 ? 0x60 : 0x41);
    put(&said, 0);
    if (type == 0xD1) {
        put(&said, 0x10);
        put(&said, 0);
        put(&said, 1);
    }
    memset(said.bytes + said.length, 0xFF, units);
    said.length += units;
    put(&said, 0);
}

/* Texts have 16 and 23 units at most under 0100 too, and one byte ends them. */
static void lengths_of_narrow(uint8_t *other)
{
    static const struct { unsigned type, units, data_length, number; } rows[] = {
        {0xD1, 0, 8, OTAP_OK}, {0xD1, 16, 24, OTAP_OK}, {0xD1, 17, 25, OTAP_BAD_FIELD}, {0xD1, 0, 9, OTAP_BAD_FIELD},
        {0xCC, 23, 28, OTAP_OK}, {0xCC, 24, 29, OTAP_BAD_FIELD}, {0xCC, 0, 5, OTAP_BAD_FIELD}
    };
    size_t each, at;
    for (each = 0; each < sizeof rows / sizeof rows[0]; each++) {
        write_narrow(rows[each].type, rows[each].units, rows[each].data_length);
        told("a text under 0100", said.bytes, said.length, rows[each].number, rows[each].number == OTAP_OK ? 0 : 1, other);
    }
    write_narrow(0xD1, 1, 9);
    told("the last character", said.bytes, said.length, OTAP_OK, 0, other);
    at = text_at(other, OTAP_GROUPS, 0);
    same("its unit", 0x00FF, 0x00FF, other[at] * 256u + other[at + 1]);
    write_narrow(0xD1, 2, 9);
    told("a text without its end", said.bytes, said.length - 1, OTAP_BAD_FIELD, 1, other);
}

/* Group 0 gets the name A1 in eight-bit characters, and in 16-bit Unicode: the same store, and 16-bit units on the screen. */
static void coding_types(void)
{
    static const uint8_t wide[] = {2, 2, 0, 0x12, 8, 7, 8, 1, 0xD1, 0, 0x0D, 0x60, 0, 0x10, 0, 1, 0, 0x41, 0, 0x31, 0, 0};
    static const uint8_t others[] = {5, 0, 12};
    static uint8_t one[OTAP_STORE_BYTES], two[OTAP_STORE_BYTES];
    uint8_t narrow[] = {2, 2, 0, 0x0F, 8, 4, 8, 1, 0xD1, 0, 0x0A, 0x60, 0, 0x10, 0, 1, 0x41, 0x31, 0};
    uint64_t part;
    size_t each;
    told("0100", narrow, sizeof narrow, OTAP_OK, 0, one);
    told("0111", wide, sizeof wide, OTAP_OK, 0, two);
    same("the same store", 0, 0, (uint64_t)(memcmp(one, two, sizeof one) != 0));
    part = otap_row_part(OTAP_GROUPS, 0, one, sizeof one, scratch, sizeof scratch);
    same("bytes of A1", 4, 4, otap_part_length(part));
    same("A1", 0, 0, (uint64_t)(memcmp(otap_part_bytes(part, one, scratch), "\0A\0" "1", 4) != 0));
    lengths_of_narrow(one);
    narrow[5] = 0xF4;
    told("reserved bits", narrow, sizeof narrow, OTAP_OK, 0, one);
    narrow[5] = 7;
    told("0100 read as 0111", narrow, sizeof narrow, OTAP_BAD_FIELD, 1, one);
    for (each = 0; each < sizeof others; each++) {
        narrow[5] = others[each];
        told("another coding type", narrow, sizeof narrow, OTAP_BAD_FIELD, 0, one);
    }
}

#ifdef VEHICLE
#define FULL_STORE_SUM 0xFE36F173u
#else
#define FULL_STORE_SUM 0x749DFC7Eu
#endif

/* The bytes of the full store, summed (FNV-1a). If the layout has changed, OTAP_LAYOUT must be another number, and this sum too. */
static void layout(void)
{
    uint32_t sum = 2166136261u;
    size_t at;
    for (at = 0; at < OTAP_STORE_BYTES; at++) {
        sum = (sum ^ store[at]) * 16777619u;
    }
    same("layout", 6, OTAP_LAYOUT, 6);
    same("sum of a full store of layout 6", FULL_STORE_SUM, sum, sum);
}

static void conversions(void)
{
    same("32820200", 0x100001, otap_value(otap_individual_of_dialled(32820200)), otap_individual_of_dialled(32820200) >> 8);
    same("80689999", 0xFF1B58, otap_value(otap_group_of_dialled(80689999)), otap_group_of_dialled(80689999) >> 8);
    same("103C28", 32841899, otap_value(otap_dialled_of_individual(0x103C28)), otap_dialled_of_individual(0x103C28) >> 8);
    same("100001", 32820900, otap_value(otap_dialled_of_group(0x100001)), otap_dialled_of_group(0x100001) >> 8);
    same("channel 640", 3560000, otap_value(otap_transmit(640)), otap_transmit(640) >> 8);
    same("channel 640", 3660000, otap_value(otap_receive(640)), otap_receive(640) >> 8);
    same("3610000", 240, otap_value(otap_channel_of_transmit(3610000)), otap_channel_of_transmit(3610000) >> 8);
    same("32819200", 20, OTAP_OUTSIDE_PLAN, otap_individual_of_dialled(32819200));
    same("group 32820200", 20, OTAP_OUTSIDE_PLAN, otap_group_of_dialled(32820200));
    same("100000", 21, OTAP_OUTSIDE_KIND, otap_dialled_of_individual(0x100000));
    same("group 101B59", 21, OTAP_OUTSIDE_KIND, otap_dialled_of_group(0x101B59));
    same("channel 0", 22, OTAP_NO_CHANNEL, otap_transmit(0));
    same("channel 641", 22, OTAP_NO_CHANNEL, otap_receive(641));
    same("3510126", 22, OTAP_NO_CHANNEL, otap_channel_of_transmit(3510126));
}

int main(void)
{
    sizes();
    fill_store(store, 0);
    replied();
    untouched();
    exported();
    reported();
    rows();
    numbers_shown();
    asked_of_stores();
    counted();
    coding_types();
    layout();
    conversions();
    printf("every number and constant is as the table says\n");
    return 0;
}
