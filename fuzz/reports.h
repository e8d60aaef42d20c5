/*
 * Reports: what has to hold of the report call and of the office's reader whatever was lent; and, of a store, that reading its reports back gives what its
 * other calls say of it, type by type as asked, each message as full as it can be.
 */
#ifndef REPORTS_H
#define REPORTS_H

#include "entries.h"

/* A hand-held's report has at most 231 messages; a vehicle's could have more than 255, and is then refused. */
#ifdef VEHICLE
enum { MOST_MESSAGES = 255 };
#else
enum { MOST_MESSAGES = 231 };
#endif
enum { MOST_PARAMETERS = 255, LONGEST_PARAMETER = 51 };

typedef struct {
    uint8_t bytes[OTAP_MESSAGE_BYTES + 64];
    size_t length;
} Query;

/* Where a report is read: the types asked, and the type and the position of the next entry. */
typedef struct {
    const uint8_t *store, *types;
    size_t count, type;
    uint32_t position, row;
} Asked;

static int asks(unsigned type)
{
    return (type >= OTAP_ASK_GROUP_CONTACTS && type <= OTAP_ASK_STATUS_TEXTS) || type == OTAP_ASK_HASH;
}

/* A message of a report: its head, which says the total, its index and as many parameters as one can have. */
static void check_head(const uint8_t *message, size_t length, uint32_t index, uint32_t total)
{
    must(length >= OTAP_REPORT_FIRST && length <= OTAP_REPORT_BYTES, "a length of a report");
    must(message[0] == 2 && message[1] == 2 && message[2] * 256u + message[3] + 4u == length, "a report's head, and its true length");
    must(message[4] == 8 && message[5] == 7 && message[6] == 0x0B, "a report's kind");
    must(total >= 1 && total <= MOST_MESSAGES && index >= 1 && index <= total, "an index that the report has");
    must(message[7] == total && message[8] == index, "a report says its total and its index");
    must(message[9] != 0 || (total == 1 && length == OTAP_REPORT_FIRST), "only a report of one message is without parameters");
}

static int is_refusal(uint32_t number)
{
    return number == OTAP_BAD_VERSION || number == OTAP_BAD_FIELD || (number >= OTAP_NO_STORE && number <= OTAP_NO_MESSAGE);
}

/* A message of a report; what was written is left in `message`. */
static uint64_t report_once(const Query *query, uint32_t index, const uint8_t *store, size_t store_length, size_t length, int twice, uint8_t *message)
{
    Lent q = lend(query->bytes, query->length, twice), s = lend(store, store_length, twice), b = lend(stale(), length, twice);
    uint64_t answer = otap_report(q.bytes, q.length, index, s.bytes, s.length, b.bytes, b.length);
    uint32_t number = otap_answer_number(answer);
    size_t wrote = otap_report_length(answer);
    must(answer >> 32 == 0, "bits of a report that must be 0");
    must(same_bytes(q.bytes, query->bytes, query->length) && same_bytes(s.bytes, store, store_length), "a report leaves the query and the store");
    must(wrote <= length && same_bytes(b.bytes + wrote, stale() + wrote, length - wrote), "bytes past the message stay");
    must(number == OTAP_OK || (is_refusal(number) && answer == number), "a refused report has no total and no length");
    must((number == OTAP_SHORT_BUFFER) == (length < OTAP_REPORT_BYTES), "15 exactly of short report buffers");
    must(number == OTAP_NO_STORE || number == OTAP_SHORT_BUFFER || store_length == OTAP_STORE_BYTES, "a store has its size");
    must(number != OTAP_MESSAGE_LENGTH || query->length < 7 || query->length > OTAP_MESSAGE_BYTES, "12 only of lengths");
    if (number == OTAP_OK) {
        check_head(b.bytes, wrote, index, otap_report_total(answer));
    }
    memcpy(message, b.bytes, wrote);
    give_back(&q);
    give_back(&s);
    give_back(&b);
    return answer;
}

static uint64_t report_twice(const Query *query, uint32_t index, const uint8_t *store, size_t store_length, size_t length, uint8_t *message)
{
    static uint8_t again[OTAP_REPORT_BYTES];
    uint64_t answer = report_once(query, index, store, store_length, length, 0, message);
    must(answer == report_once(query, index, store, store_length, length, 1, again), "the same report twice");
    must(same_bytes(message, again, otap_report_length(answer)), "the same message twice");
    return answer;
}

/* Reads a message: its numbers, and what a head has to be. */
static uint64_t read_once(const uint8_t *message, size_t length, int twice)
{
    Lent m = lend(message, length, twice);
    uint64_t answer = otap_read_report(m.bytes, m.length);
    uint32_t number = otap_answer_number(answer), total = otap_read_total(answer), index = otap_read_index(answer);
    must(answer >> 32 == 0, "bits of reading that must be 0");
    must(number == OTAP_OK || number == OTAP_BAD_VERSION || number == OTAP_BAD_FIELD || (number >= OTAP_MESSAGE_LENGTH && number <= OTAP_OTHER_MESSAGE),
         "a number of reading");
    must(number == OTAP_OK || answer == number, "a message that is no report has nothing but a number");
    must((number == OTAP_MESSAGE_LENGTH) == (length < 7 || length > OTAP_MESSAGE_BYTES), "12 exactly of lengths");
    must(number != OTAP_OK || (index >= 1 && index <= total && (otap_read_parameters(answer) > 0 || total == 1)), "a head that a report can have");
    must(same_bytes(m.bytes, message, length), "reading leaves the message");
    give_back(&m);
    return answer;
}

/* Where the parts of a parameter may lie: behind its head, within it, and a text with its end, which is the parameter's. */
static void check_places(const uint8_t *message, uint32_t at, uint64_t entry, uint64_t places)
{
    size_t next = otap_places_next(places), text = otap_places_text(places), length = otap_places_text_length(places), number = otap_places_hash(places), each;
    must(next >= at + 2u && text + length <= next && number <= next, "a parameter has its parts within it");
    must(text == 0 ? length == 0 : text > at && length % 2 == 0 && text + length + 2 == next && unit_is(message, next - 2, 0), "a text and its end");
    for (each = 0; each < length; each += 2) {
        must(!unit_is(message, text + each, 0), "no end unit in a reported text");
    }
    if (otap_reported_type(entry) == OTAP_ASK_LINES) {
        must(otap_places_digits(places) >= 1 && otap_places_digits(places) <= OTAP_DIGITS && number > at, "a line has digits");
        must(number + otap_places_digits(places) / 2 + 1 == text, "a line's number ends where its text starts");
    } else {
        must(otap_places_hash_code(places) <= OTAP_HASH_OF_10 && (number == 0) == (otap_places_hash_code(places) == 0), "a hash has its place");
        must(number == 0 || number + otap_places_hash_length(places) == next, "a hash value ends its parameter");
    }
}

/* The parameter at a byte, of which both calls know, or none; its entry. */
static uint64_t parameter_once(const uint8_t *message, size_t length, uint32_t at, int twice, uint64_t *places)
{
    Lent m = lend(message, length, twice);
    uint64_t entry = otap_report_entry(m.bytes, m.length, at);
    uint32_t type = otap_reported_type(entry);
    *places = otap_report_places(m.bytes, m.length, at);
    must((entry & 0xFF000000E0000000u) == 0, "bits of an entry that must be 0");
    must((entry == 0) == (*places == 0), "both calls know a parameter, or none does");
    must(otap_places_next(*places) <= length && (entry == 0 || at < length), "a parameter within its message");
    must(entry == 0 || asks(type) != otap_reported_unknown(entry), "a type asks, or is unknown");
    must(!otap_reported_unknown(entry) || (entry == (type | 1u << 28) && message[at] == type && message[at + 1] == 0x83), "an unknown type is its byte alone");
    if (entry != 0) {
        check_places(message, at, entry, *places);
    }
    must(same_bytes(m.bytes, message, length), "a parameter leaves the message");
    give_back(&m);
    return entry;
}

/* How many entries of a type there are: by the store's layout, and for what is always there 1. */
static uint32_t entries_of(const uint8_t *store, unsigned type)
{
    uint32_t table = type == OTAP_ASK_QUICK_TEXTS ? OTAP_QUICK_TEXTS : OTAP_STATUS_TEXTS, row, count = 0;
    switch (type) {
    case OTAP_ASK_LINES: return count_of(store, &lists[0]);
    case OTAP_ASK_GROUP_CONTACTS: return count_of(store, &lists[1]);
    case OTAP_ASK_INDIVIDUAL_CONTACTS: return count_of(store, &lists[2]);
    case OTAP_ASK_CHANNELS: return store[CHANNEL_COUNT_AT] * 256u + store[CHANNEL_COUNT_AT + 1];
    case OTAP_ASK_QUICK_TEXTS: case OTAP_ASK_STATUS_TEXTS:
        for (row = layout[table].from; lies(table, row); row++) {
            count += (uint32_t)held(store, table, row);
        }
        return count;
    default: return 1;
    }
}

/* A contact or a line is what otap_entry says, in its bits; a line has the digits that are its own. */
static void check_called(const Asked *asked, uint32_t table, const uint8_t *message, uint64_t entry, uint64_t places)
{
    uint64_t behind = otap_entry(table, asked->position, asked->store, OTAP_STORE_BYTES);
    uint64_t said = (uint64_t)otap_reported_address(entry) << 8 | (uint64_t)otap_reported_id_type(entry) << 32
                  | (uint64_t)otap_reported_encryption(entry) << 33 | (uint64_t)otap_reported_emergency(entry) << 34
                  | (uint64_t)otap_reported_priority(entry) << 35 | (uint64_t)otap_reported_attribute(entry) << 37
                  | (uint64_t)otap_reported_broadcast(entry) << 39 | (uint64_t)otap_reported_ovcm(entry) << 40;
    uint8_t digits[OTAP_DIGITS];
    size_t at, count = otap_digits_count(otap_entry_digits(table, asked->position, asked->store, OTAP_STORE_BYTES, digits, sizeof digits));
    must(said == behind, "a reported entry is what stands behind its row");
    must(otap_reported_index(entry) == asked->position % 16, "an index of 4 bits is the position mod 16");
    must(table != OTAP_LINES || otap_places_digits(places) == count, "as many digits are reported as a line has");
    for (at = 0; table == OTAP_LINES && at < count; at++) {
        must(otap_places_digit(places, message, at) == digits[at], "a line's own digits are reported");
    }
}

/* A text is that of the row. */
static void check_reported_text(const uint8_t *store, uint32_t table, uint32_t row, const uint8_t *message, uint64_t places)
{
    Text text = text_at(store, table, row - layout[table].from);
    must(otap_places_text_length(places) == text.length, "a text is reported whole");
    must(same_bytes(message + otap_places_text(places), store + text.offset, text.length), "a text is reported as it is");
}

/* What is always there, and a channel, is what its own call says; the hash is the one that is kept. */
static void check_value(const Asked *asked, const uint8_t *message, uint64_t entry, uint64_t places)
{
    const uint8_t *store = asked->store;
    uint64_t home = (uint64_t)otap_reported_nzi(entry) << 8 | (uint64_t)otap_reported_np(entry) << 17;
    uint64_t code = (uint64_t)otap_reported_lai(entry) << 8 | (uint64_t)otap_reported_la(entry) << 20 | (uint64_t)otap_reported_roaming(entry) << 24
                  | (uint64_t)otap_reported_par(entry) << 26;
    uint64_t key = (uint64_t)otap_reported_address(entry) << 8 | (uint64_t)otap_reported_current(entry) << 32 | (uint64_t)otap_reported_group(entry) << 33
                 | (uint64_t)otap_reported_voice(entry) << 34 | (uint64_t)otap_reported_status(entry) << 35 | (uint64_t)otap_reported_siren(entry) << 36;
    switch (otap_reported_type(entry)) {
    case OTAP_ASK_EMERGENCY_KEY: must(key == otap_emergency_key(store, OTAP_STORE_BYTES), "the key is reported as it is"); break;
    case OTAP_ASK_HOME_NUMBERS: must(home == otap_home_numbers(store, OTAP_STORE_BYTES), "the home numbers are reported as they are"); break;
    case OTAP_ASK_SYSTEM_CODE: must(code == otap_system_code(store, OTAP_STORE_BYTES), "the system code is reported as it is"); break;
    case OTAP_ASK_CHANNELS:
        must(otap_reported_index(entry) == asked->position, "a channel's index is its position");
        must((uint64_t)otap_reported_channel(entry) << 8 == otap_channel(asked->position, store, OTAP_STORE_BYTES), "channels are reported in their order");
        break;
    case OTAP_ASK_HASH:
        must(otap_places_hash_code(places) == store[0], "the kept HashCode is reported");
        must(same_bytes(message + otap_places_hash(places), store + 1, otap_places_hash_length(places)), "the kept hash is reported");
        break;
    default: must(otap_reported_unknown(entry), "any other type is unknown"); break;
    }
}

/* The next text of a table is the next that is held, and its index or code says so. */
static void check_next_text(Asked *asked, uint32_t table, const uint8_t *message, uint64_t entry, uint64_t places)
{
    asked->row = asked->position == 0 ? layout[table].from : asked->row + 1;
    while (!held(asked->store, table, asked->row)) {
        asked->row++;
    }
    must((table == OTAP_QUICK_TEXTS ? otap_reported_index(entry) : otap_reported_code(entry)) == asked->row, "texts by index or code, in their order");
    check_reported_text(asked->store, table, asked->row, message, places);
}

/* The parameter is the next entry of what was asked for. */
static void check_next(Asked *asked, const uint8_t *message, uint64_t entry, uint64_t places)
{
    unsigned type = otap_reported_type(entry);
    uint32_t table = type == OTAP_ASK_LINES ? OTAP_LINES : type == OTAP_ASK_GROUP_CONTACTS ? OTAP_GROUP_CONTACTS : OTAP_INDIVIDUAL_CONTACTS;
    while (asked->type < asked->count && asked->position == entries_of(asked->store, asked->types[asked->type])) {
        asked->type++;
        asked->position = 0;
    }
    must(asked->type < asked->count && type == asked->types[asked->type], "types are reported in the order asked, and none more often");
    switch (type) {
    case OTAP_ASK_LINES: case OTAP_ASK_GROUP_CONTACTS: case OTAP_ASK_INDIVIDUAL_CONTACTS:
        check_called(asked, table, message, entry, places);
        check_reported_text(asked->store, table, asked->position, message, places);
        break;
    case OTAP_ASK_QUICK_TEXTS: check_next_text(asked, OTAP_QUICK_TEXTS, message, entry, places); break;
    case OTAP_ASK_STATUS_TEXTS: check_next_text(asked, OTAP_STATUS_TEXTS, message, entry, places); break;
    default: check_value(asked, message, entry, places); break;
    }
    asked->position++;
}

/* Walks what was read: the parameters add up to the message. Without `asked` they may be any. How long the first is. */
static size_t walk(const uint8_t *message, size_t length, uint64_t read, Asked *asked)
{
    uint32_t at = OTAP_REPORT_FIRST, each;
    size_t first = 0;
    for (each = 0; each < otap_read_parameters(read); each++) {
        uint64_t places, entry = parameter_once(message, length, at, (int)(each % 2), &places);
        must(entry != 0, "what is read can be walked");
        must(!otap_reported_unknown(entry) || (each + 1 == otap_read_parameters(read) && otap_read_index(read) == otap_read_total(read)),
             "an unknown type is the last of its report");
        if (asked != NULL) {
            check_next(asked, message, entry, places);
        }
        first = each == 0 ? otap_places_next(places) - at : first;
        at = (uint32_t)otap_places_next(places);
    }
    must(at == length, "the parameters add up to the message");
    return first;
}

/* Every entry of every type asked for was reported, up to the first unknown one, which is reported too. */
static void check_all(const Asked *asked)
{
    size_t type = asked->type;
    uint32_t position = asked->position;
    while (type < asked->count && position == entries_of(asked->store, asked->types[type])) {
        position = 0;
        type = asks(asked->types[type]) ? type + 1 : asked->count;
    }
    must(type == asked->count, "all that was asked for is reported");
}

/* The whole report to a good query: every message read back, and full but for the last. */
static void check_report(const Query *query, const uint8_t *types, size_t count, const uint8_t *store)
{
    static uint8_t message[OTAP_REPORT_BYTES];
    Asked asked = {store, types, count, 0, 0, 0};
    uint32_t index, total = 1;
    size_t before = 0, sum = 0;
    for (index = 1; index <= total; index++) {
        uint64_t answer = report_once(query, index, store, OTAP_STORE_BYTES, OTAP_REPORT_BYTES, (int)(index % 2), message), read;
        size_t length = otap_report_length(answer), first;
        must(otap_answer_number(answer) == OTAP_OK, "a good query is answered");
        must(index == 1 || otap_report_total(answer) == total, "the same total in all calls");
        total = otap_report_total(answer);
        read = read_once(message, length, (int)(index % 2));
        must(read == ((uint64_t)total << 8 | (uint64_t)index << 16 | (uint64_t)message[9] << 24), "a report is read back");
        first = walk(message, length, read, &asked);
        must(index == 1 || sum == MOST_PARAMETERS || before + first > OTAP_REPORT_BYTES, "a message takes all that fits");
        before = length;
        sum = message[9];
    }
    check_all(&asked);
    must(report_once(query, total + 1, store, OTAP_STORE_BYTES, OTAP_REPORT_BYTES, 0, message) == OTAP_NO_MESSAGE, "no message behind the last");
    must(report_once(query, 0, store, OTAP_STORE_BYTES, OTAP_REPORT_BYTES, 0, message) == OTAP_NO_MESSAGE, "messages are counted from 1");
}

/* A good query of these types. */
static void write_types(Query *query, const uint8_t *types, size_t count, unsigned coding)
{
    static const uint8_t head[] = {2, 2, 0, 0, 8, 0, 0x0A};
    memcpy(query->bytes, head, sizeof head);
    memcpy(query->bytes + 8, types, count);
    query->length = 8 + count;
    query->bytes[2] = (uint8_t)((query->length - 4) >> 8);
    query->bytes[3] = (uint8_t)(query->length - 4);
    query->bytes[5] = (uint8_t)coding;
    query->bytes[7] = (uint8_t)count;
}

/* All that a store holds, at the end of every input. */
static void check_reports(const uint8_t *store)
{
    static const uint8_t types[] = {0xC8, 0xC9, 0xCA, 0xCB, 0xCC, 0xCD, 0xCE, 0xCF, 0xD0, 0xFF, 0xD1};
    static Query query;
    write_types(&query, types, sizeof types, 0);
    check_report(&query, types, sizeof types, store);
}

#endif
