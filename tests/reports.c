/*
 * Reports as the set writes them: every type, byte by byte, cuts at 255 parameters and at 4,096 bytes, and refusals in their order, which write nothing.
 * Each case was worked out by hand from docs/REPORTS.md. What the office reads of them is in office.c.
 */
#include "answers.h"

static uint8_t store[OTAP_STORE_BYTES];

/* Something of every type, and each flag set in one entry and not in another; coding type 0100. */
static const uint8_t all[] = {
    2, 2, 0, 0, 8, 4, 8, 13,
    0xC8, 0, 10, 0x6A, 0x40, 1, 0x10, 0, 1, 'A', 0,              /* group contact 0: response, broadcast, OVCM, priority 1 */
    0xC8, 0, 9, 0x55, 0x80, 1, 0xFF, 0xFF, 0xFF, 0,              /* 1: background, encryption, emergency, priority 2 */
    0xC9, 0, 9, 0x6C, 1, 0x10, 0, 1, 'B', 0,                     /* individual contact 0: encryption, priority 3 */
    0xC9, 0, 8, 0x50, 1, 0x10, 0, 2, 0,                          /* 1: emergency */
    0xCA, 0, 9, 0x6A, 1, 0x23, 0x45, 0xFF, 'C', 0,               /* line 0: encryption, priority 2, PABX 2345 */
    0xCA, 0, 8, 0x54, 1, 0x12, 0x2F, 'D', 0,                     /* line 1: emergency, priority 1, PSTN 122 */
    0xCB, 0, 6, 0x68, 0x10, 0, 7,                                /* the key: group 100007, voice, siren */
    0xCC, 0, 9, 0x42, 63, 'E', 0, 3, 'F', 0,                     /* quick texts 63 and 3 */
    0xCD, 0, 5, 0x07, 0xE4, 0xC0,                                /* NZI 15, NP 806 */
    0xCE, 0, 7, 0xC0, 2, 0x0F, 0x12, 0x80,                       /* channels 241 and 640 */
    0xCF, 0, 5, 0xAB, 0xC8, 0x60,                                /* LAI ABC, LA 8, roaming 1, PAR */
    0xD0, 0, 9, 0x40, 2, 127, 0, 33, 'G', 0,                     /* status texts 127 and 33 */
    0xFF, 0, 7, 0x41, 1, 2, 3, 4                                 /* HashCode 1 */
};

/* What is reported of each type of it, by hand. */
static const struct { uint8_t type, parameters, length, bytes[48]; } reported[] = {
    {OTAP_ASK_GROUP_CONTACTS, 2, 20, {0x88, 0, 0x10, 0, 1, 0x0A, 0x90, 0, 'A', 0, 0, 0x88, 0, 0xFF, 0xFF, 0xFF, 0x15, 0x60, 0, 0}},
    {OTAP_ASK_INDIVIDUAL_CONTACTS, 2, 18, {0x89, 0, 0x10, 0, 1, 0x0B, 0, 'B', 0, 0, 0x89, 0, 0x10, 0, 2, 0x14, 0, 0}},
    {OTAP_ASK_LINES, 2, 21, {0x8A, 0, 0xD0, 0, 0x23, 0x45, 0xFF, 0, 'C', 0, 0, 0x8A, 0, 0x28, 1, 0x12, 0x2F, 0, 'D', 0, 0}},
    {OTAP_ASK_EMERGENCY_KEY, 1, 6, {0x8B, 0, 0xA8, 0x10, 0, 7}},
    {OTAP_ASK_QUICK_TEXTS, 2, 14, {0x8C, 0, 0x0C, 0, 'F', 0, 0, 0x8C, 0, 0xFC, 0, 'E', 0, 0}},
    {OTAP_ASK_HOME_NUMBERS, 1, 5, {0x8D, 0, 0x07, 0xE4, 0xC0}},
    {OTAP_ASK_CHANNELS, 2, 10, {0x8E, 0, 0x0F, 0x10, 0, 0x8E, 0, 0x28, 0, 1}},
    {OTAP_ASK_SYSTEM_CODE, 1, 5, {0x8F, 0, 0xAB, 0xC8, 0x60}},
    {OTAP_ASK_STATUS_TEXTS, 2, 14, {0x90, 0, 33, 0, 0, 'G', 0, 0, 0x90, 0, 127, 1, 0, 0}},
    {OTAP_ASK_HASH, 1, 7, {0xBF, 1, 1, 1, 2, 3, 4}}
};
enum { TYPES = sizeof reported / sizeof reported[0] };

/* The call with any sizes: query and store stay, and the bytes of the buffer past the message too. */
static uint64_t ask_with(uint32_t index, const uint8_t *bytes, size_t store_length, size_t buffer_length)
{
    static uint8_t before[OTAP_STORE_BYTES];
    static Message query;
    uint64_t answer;
    size_t at;
    query = said;
    memcpy(before, bytes, store_length);
    memset(buffer, 0xA5, sizeof buffer);
    answer = otap_report(said.bytes, said.length, index, bytes, store_length, buffer, buffer_length);
    for (at = otap_report_length(answer); at < sizeof buffer; at++) {
        same("bytes past the message stay", 0xA5, 0xA5, buffer[at]);
    }
    same("a report leaves the query", 0, 0, (uint64_t)(memcmp(&query, &said, sizeof said) != 0));
    same("a report leaves the store", 0, 0, (uint64_t)(memcmp(before, bytes, store_length) != 0));
    return answer;
}

static uint64_t ask(uint32_t index)
{
    return ask_with(index, store, sizeof store, sizeof buffer);
}

/* The message of this index, of as many, has these parameters: the whole answer, and every byte. */
static void message_is(const char *what, uint32_t index, uint32_t total, uint32_t parameters, const uint8_t *bytes, size_t length)
{
    const uint8_t head[] = {2, 2, (uint8_t)((length + 6) >> 8), (uint8_t)(length + 6), 8, 7, 0x0B, (uint8_t)total, (uint8_t)index, (uint8_t)parameters};
    uint64_t answer = ask(index);
    same(what, (uint64_t)total << 8 | (uint64_t)(length + 10) << 16, answer, answer);
    same("its number", 0, OTAP_OK, otap_answer_number(answer));
    same("its total", total, otap_report_total(answer), total);
    same("its length", length + 10, otap_report_length(answer), length + 10);
    same("its head", 0, 0, (uint64_t)(memcmp(buffer, head, sizeof head) != 0));
    same(what, 0, 0, (uint64_t)(memcmp(buffer + sizeof head, bytes, length) != 0));
}

/* One message answers these types; index 0 and 2 are none. */
static void answers(const char *what, const uint8_t *types, size_t count, uint32_t parameters, const uint8_t *bytes, size_t length)
{
    write_asking(&said, types, count);
    message_is(what, 1, 1, parameters, bytes, length);
    same("index 0", 16, OTAP_NO_MESSAGE, ask(0));
    same("index 2", 16, OTAP_NO_MESSAGE, ask(2));
}

static void cases_by_hand(void)
{
    static const uint8_t channels[] = {2, 2, 0, 0, 8, 7, 8, 1, 0xCE, 0, 7, 0xC0, 2, 0x0F, 0x12, 0x80};
    static const uint8_t query[] = {2, 2, 0, 5, 8, 0, 0x0A, 1, 0xCE};
    static const uint8_t report[] = {2, 2, 0, 0x10, 8, 7, 0x0B, 1, 1, 2, 0x8E, 0, 0x0F, 0x10, 0, 0x8E, 0, 0x28, 0, 1};
    static const uint8_t quick[] = {0xCC}, slots[] = {0xD1, 0xCE}, numbers[] = {0xCD, 0, 0xCF}, hash[] = {0xFF, 0xCB};
    told("channels", channels, sizeof channels, OTAP_OK, 0, store);
    same("channels 241 and 640", 0x140100, otap_report(query, sizeof query, 1, store, sizeof store, buffer, sizeof buffer), 0x140100);
    same("channels 241 and 640", 0, 0, (uint64_t)(memcmp(buffer, report, sizeof report) != 0));
    same("start", 0, OTAP_OK, otap_start(store, sizeof store));
    answers("nothing to report: its head alone", quick, 1, 0, quick, 0);
    answers("a type that isn't known ends it", slots, 2, 1, (const uint8_t *)"\xD1\x83", 2);
    answers("home numbers, then an unknown type", numbers, 3, 2, (const uint8_t *)"\x8D\0\0\0\0\0\x83", 7);
    answers("no hash kept, and the key of the current place", hash, 2, 2, (const uint8_t *)"\xBF\0\x8B\0\x40\0\0\0", 8);
}

/* Each type by itself; then all in one message, one of them twice, and an unknown one at their end. */
static void every_type(void)
{
    uint8_t types[TYPES + 3], bytes[256];
    uint32_t parameters = 0;
    size_t each, length = 0;
    told("all", all, sizeof all, OTAP_OK, 0, store);
    same("types that ask", 10, TYPES, 10);
    for (each = 0; each < TYPES; each++) {
        same("a type", each < 9 ? 0xC8 + each : 0xFF, reported[each].type, reported[each].type);
        answers("a type", &reported[each].type, 1, reported[each].parameters, reported[each].bytes, reported[each].length);
    }
    for (each = 0; each <= TYPES; each++) {
        types[each] = reported[each % TYPES].type;
        memcpy(bytes + length, reported[each % TYPES].bytes, reported[each % TYPES].length);
        length += reported[each % TYPES].length;
        parameters += reported[each % TYPES].parameters;
    }
    answers("all types, and the first once more", types, TYPES + 1, parameters, bytes, length);
    types[TYPES + 1] = 0xD3;
    types[TYPES + 2] = OTAP_ASK_LINES;
    bytes[length] = 0xD3;
    bytes[length + 1] = 0x83;
    answers("all types, an unknown one, and one behind it", types, TYPES + 3, parameters + 1, bytes, length + 2);
}

/* Every other byte is unknown: it is answered as it is, also such as are a report's own type. */
static void unknown_types(void)
{
    unsigned type;
    for (type = 0; type < 255; type++) {
        uint8_t types[2], bytes[2] = {0, 0x83};
        types[0] = bytes[0] = (uint8_t)type;
        types[1] = OTAP_ASK_CHANNELS;
        if (type < OTAP_ASK_GROUP_CONTACTS || type > OTAP_ASK_STATUS_TEXTS) {
            answers("an unknown type", types, 2, 1, bytes, 2);
        }
    }
}

/* HashCode 2, and the key's other flags: the current place keeps the group bit, and has the address 0. */
static void other_values(void)
{
    static const uint8_t key[] = {0xD8}, hash[] = {OTAP_ASK_HASH}, asked[] = {OTAP_ASK_EMERGENCY_KEY};
    static const uint8_t stamped[] = {0xBF, 1, 2, 1, 2, 3, 4, 5, 6, 7, 8, 9, 10}, current[] = {0x8B, 0, 0xD8, 0, 0, 0};
    open_request(&said, 2);
    put_bytes(&said, 0xCB, key, sizeof key);
    put_last(&said);
    told("the current place", said.bytes, said.length, OTAP_OK, 0, store);
    answers("HashCode 2", hash, 1, 1, stamped, sizeof stamped);
    answers("the current place", asked, 1, 1, current, sizeof current);
}

/* The index of 4 bits is the position mod 16: contacts 15, 16 and 63, and line 31; that of a status text its rank. */
static void indexes(void)
{
    static const uint8_t types[] = {OTAP_ASK_INDIVIDUAL_CONTACTS, OTAP_ASK_LINES, OTAP_ASK_STATUS_TEXTS};
    uint32_t each;
    size_t at = 10;
    open_request(&said, 3);
    put_contacts(&said, 0xC9, 1, 64, 16);
    put_lines(&said, 1, 32, 0);
    put_status(&said, 1, 40, 0);
    told("contacts, lines and status texts", said.bytes, said.length, OTAP_OK, 0, store);
    write_asking(&said, types, sizeof types);
    same("one message", 1, otap_report_total(ask(1)), 1);
    for (each = 0; each < 64 + 32 + 40; each++) {
        const uint8_t *parameter = buffer + at;
        unsigned index = each < 64 ? parameter[5] >> 4 : each < 96 ? parameter[3] & 15u : parameter[3];
        same("an index", each < 64 ? each % 16 : each < 96 ? (each - 64) % 16 : each - 96, index, index);
        at += each < 64 ? 6 : 4;
        while (each >= 64 && each < 96 && (buffer[at++] & 15) != 15) {
            continue; /* the digits, up to their end */
        }
        for (; buffer[at] != 0 || buffer[at + 1] != 0; at += 2) {
            continue; /* the text */
        }
        at += 2;
    }
    same("nothing behind the last", at, otap_report_length(ask(1)), at);
}

/* All channels, of a hand-held asked for four times: 256 parameters, of which a message takes 255. */
static void cut_by_count(void)
{
    static const uint8_t types[] = {OTAP_ASK_CHANNELS, OTAP_ASK_CHANNELS, OTAP_ASK_CHANNELS, OTAP_ASK_CHANNELS, 0xD2};
    static uint8_t bytes[256 * 5 + 2];
    const size_t times = 256 / CHANNEL_ROOM;
    unsigned each;
    write_filling(&said, 4, 0);
    told("as many channels as there can be", said.bytes, said.length, OTAP_OK, 0, store);
    for (each = 0; each < 256; each++) {
        const uint8_t parameter[] = {0x8E, 0, each % 2 == 0 ? 0x0F : 0x28, each % 2 == 0 ? 0x10 : 0, (uint8_t)(each % CHANNEL_ROOM)};
        memcpy(bytes + 5 * each, parameter, sizeof parameter);
    }
    bytes[256 * 5] = 0xD2;
    bytes[256 * 5 + 1] = 0x83;
    write_asking(&said, types, times);
    message_is("255 of them", 1, 2, 255, bytes, 255 * 5);
    message_is("the last one", 2, 2, 1, bytes + 255 * 5, 5);
    same("index 3", 16, OTAP_NO_MESSAGE, ask(3));
    write_asking(&said, types + 4 - times, times + 1);
    message_is("255 of them", 1, 2, 255, bytes, 255 * 5);
    message_is("the last one, and an unknown type", 2, 2, 2, bytes + 255 * 5, 7);
}

/* As many quick texts of 51 bytes as a message takes, and before them values of 16 bytes where they leave room: 6 bytes are then free. */
enum { TEXTS = MESSAGE_SIZE / 51, FRONT = (MESSAGE_SIZE - 16 - 51 * TEXTS) / 5 };

/* These, and what comes behind them: `more` parameters fit into the first message, and leave so many bytes of it free. */
static void cut_by_size(const char *what, const uint8_t *behind, size_t count, uint32_t more, size_t free_bytes, uint32_t total, uint32_t left)
{
    static const uint8_t front[] = {OTAP_ASK_EMERGENCY_KEY, OTAP_ASK_HOME_NUMBERS, OTAP_ASK_SYSTEM_CODE};
    static uint8_t types[OTAP_QUERY_MOST_TYPES];
    uint64_t answer;
    memset(types, OTAP_ASK_QUICK_TEXTS, sizeof types);
    memcpy(types, front, FRONT);
    memcpy(types + FRONT + TEXTS, behind, count);
    write_asking(&said, types, FRONT + TEXTS + count);
    answer = ask(1);
    same(what, (uint64_t)total << 8 | (uint64_t)(MESSAGE_SIZE - free_bytes) << 16, answer, answer);
    same("its parameters", FRONT + TEXTS + more, FRONT + TEXTS + more, buffer[9]);
    answer = ask(2);
    same("the second message", total, otap_answer_number(answer) == OTAP_OK ? otap_report_total(answer) : 1, total);
    same("parameters of the second message", left, left, total == 1 ? 0 : buffer[9]);
}

static void cuts_by_size(void)
{
    static const uint8_t key[] = {0xCB, 0xCB}, home[] = {0xCD, 0xD1}, hash[] = {0xFF, 0xFF, 0xD1, 0xCE}, same_text[] = {0xCC, 0xCB};
    open_request(&said, 1);
    put_quick(&said, 1, 9, 1, 0);
    told("a quick text", said.bytes, said.length, OTAP_OK, 0, store);
    cut_by_size("6 bytes free", key, 0, 0, 6, 1, 0);
    cut_by_size("no byte free", key, 1, 1, 0, 1, 0);
    cut_by_size("nothing fits behind them", key, 2, 1, 0, 2, 1);
    cut_by_size("a byte free", home, 1, 1, 1, 1, 0);
    cut_by_size("an error that does not fit", home, 2, 1, 1, 2, 1);
    cut_by_size("an error that fits", hash, 4, 3, 0, 1, 0);
    cut_by_size("what is shorter does not pass what is longer", same_text, 2, 0, 6, 2, 2);
}

/* 96 status texts of 16 units, which have room in a hand-held's area: no other type has it report as many bytes. */
static void write_longest_texts(void)
{
    size_t at;
    unsigned code;
    open_request(&said, 1);
    at = open_setting(&said, 0xD0);
    put(&said, REPLACE * 64);
    put(&said, 96);
    for (code = OTAP_STATUS_FIRST; code <= OTAP_STATUS_LAST; code++) {
        put(&said, code);
        put_text(&said, 16);
    }
    close_setting(&said, at);
}

/* 255 types, as many as a query can have: each message but the last is full, and all entries come in it. */
static void longest_query(void)
{
    static uint8_t types[OTAP_QUERY_MOST_TYPES];
    uint32_t index, total, parameters = 0;
    same("most types", 255, OTAP_QUERY_MOST_TYPES, 255);
    memset(types, OTAP_ASK_STATUS_TEXTS, sizeof types);
    write_longest_texts();
    told("96 status texts", said.bytes, said.length, OTAP_OK, 0, store);
    write_asking(&said, types, sizeof types);
    total = otap_report_total(ask(1));
    same("107 parameters in a message, of a vehicle 215", MESSAGE_SIZE > 4096 ? 114 : 229, total, total);
    for (index = 1; index <= total; index++) {
        uint64_t answer = ask(index);
        same("a full message", 1, index == total || buffer[9] == 255 || otap_report_length(answer) > OTAP_REPORT_BYTES - 38, 1);
        same("the same total", total, otap_report_total(answer), buffer[7]);
        same("its own index", index, index, buffer[8]);
        parameters += buffer[9];
    }
    same("every entry", 255 * 96, parameters, parameters);
    same("behind the last", 16, OTAP_NO_MESSAGE, ask(total + 1));
}

/* A query of these data bytes, and the number that it is refused with, whatever the index. */
static void refused(const char *what, unsigned number, const uint8_t *data, size_t length)
{
    static const uint32_t indexes_asked[] = {0, 1, 2, 0xFFFFFFFFu};
    static const uint8_t head[] = {2, 2, 0, 0, 8, 0};
    size_t each;
    memcpy(said.bytes, head, sizeof head);
    memcpy(said.bytes + sizeof head, data, length);
    said.length = sizeof head + length;
    for (each = 0; each < 4; each++) {
        same(what, number, number, ask(indexes_asked[each]));
    }
}

static void refused_queries(void)
{
    static const uint8_t longest[OTAP_MESSAGE_BYTES] = {0x0A, 255};
    refused("0A alone", OTAP_BAD_FIELD, (const uint8_t *)"\x0A", 1);
    refused("no types", OTAP_BAD_FIELD, (const uint8_t *)"\x0A\0", 2);
    refused("a type too few", OTAP_BAD_FIELD, (const uint8_t *)"\x0A\1", 2);
    refused("a type too many", OTAP_BAD_FIELD, (const uint8_t *)"\x0A\1\xCE\xCE", 4);
    refused("OTAPVer 2", OTAP_BAD_VERSION, (const uint8_t *)"\x12\1\xCE", 3);
    refused("OTAPVer 2, and no types", OTAP_BAD_VERSION, (const uint8_t *)"\x12", 1);
    refused("a request", OTAP_OTHER_MESSAGE, (const uint8_t *)"\x08\1\xCE", 3);
    refused("a report", OTAP_OTHER_MESSAGE, (const uint8_t *)"\x0B\1\1\0", 4);
    refused("a result query of OTAPVer 2", OTAP_OTHER_MESSAGE, (const uint8_t *)"\x15\1", 2);
    refused("no data", OTAP_MESSAGE_LENGTH, (const uint8_t *)"", 0);
    refused("the longest", OTAP_BAD_FIELD, longest, OTAP_MESSAGE_BYTES - 6);
    refused("a byte longer", OTAP_MESSAGE_LENGTH, longest, OTAP_MESSAGE_BYTES - 5);
}

/* Each refusal comes before those behind it: the query is wrong in all that follows, and is put right step by step. */
static void refusals_in_order(void)
{
    static const uint32_t none[] = {0, 2, 256, 257, 0x10001, 0x80000001u, 0xFFFFFFFFu};
    static const uint8_t wrong[] = {3, 2, 0, 0, 8, 0xF5, 0x10}, types[] = {OTAP_ASK_CHANNELS};
    size_t each;
    memcpy(said.bytes, wrong, sizeof wrong);
    said.length = 6;
    same("a byte short, and no store", 15, OTAP_SHORT_BUFFER, ask_with(0, store, 0, OTAP_REPORT_BYTES - 1));
    same("no buffer, and no store", 15, OTAP_SHORT_BUFFER, ask_with(0, store, 0, 0));
    same("no store, and a short query", 11, OTAP_NO_STORE, ask_with(0, store, sizeof store - 1, OTAP_REPORT_BYTES));
    store[OTAP_STORE_BYTES - 1] = 1;
    same("a store that is none", 11, OTAP_NO_STORE, ask_with(0, store, sizeof store, OTAP_REPORT_BYTES));
    store[OTAP_STORE_BYTES - 1] = 0;
    same("a short query", 12, OTAP_MESSAGE_LENGTH, ask(0));
    said.length = 7;
    same("its carrier", 13, OTAP_BAD_CARRIER, ask(0));
    said.bytes[0] = 2;
    same("its MsgType", 14, OTAP_OTHER_MESSAGE, ask(0));
    said.bytes[6] = 0x12;
    same("its OTAPVer", 1, OTAP_BAD_VERSION, ask(0));
    said.bytes[6] = 0x0A;
    same("its types", 4, OTAP_BAD_FIELD, ask(0));
    write_asking(&said, types, 1);
    said.bytes[5] = 0xF5;
    for (each = 0; each < sizeof none / sizeof none[0]; each++) {
        same("its index", 16, OTAP_NO_MESSAGE, ask(none[each]));
    }
    same("both meanings of 16", 16, OTAP_NO_PART, OTAP_NO_MESSAGE);
    same("any coding type and reserved bits", 0, OTAP_OK, otap_answer_number(ask(1)));
    said.bytes[3]++;
    same("another length than its own", 13, OTAP_BAD_CARRIER, ask(1));
    said.bytes[2] = said.bytes[3] = 0;
    same("no length stated", 0, OTAP_OK, otap_answer_number(ask(1)));
    same("a query is not taken", 14, OTAP_OTHER_MESSAGE, judge_and_commit(said.bytes, said.length, store, sizeof store, reply, sizeof reply));
}

int main(void)
{
    same("the least buffer", MESSAGE_SIZE, OTAP_REPORT_BYTES, sizeof buffer);
    cases_by_hand();
    every_type();
    unknown_types();
    other_values();
    indexes();
    cut_by_count();
    cuts_by_size();
    longest_query();
    refused_queries();
    refusals_in_order();
    printf("a set reports what it holds, byte by byte, and refuses in order\n");
    return 0;
}
