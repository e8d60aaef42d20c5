/* The records of an input that ask for a report, and that read one: a set's own with changes, or any bytes behind a head. */
#ifndef ASKING_H
#define ASKING_H

#include "reports.h"

enum { FEW_TYPES = 24 };

/* Types of an input, mostly such as ask; how many. */
static size_t next_types(Input *input, uint8_t *types)
{
    static const uint8_t asking[] = {0xC8, 0xC9, 0xCA, 0xCB, 0xCC, 0xCD, 0xCE, 0xCF, 0xD0, 0xFF};
    size_t count = next_byte(input), at;
    count = next_bytes(input, count < 200 ? 1 + count % 16 : count, types);
    for (at = 0; at < count; at++) {
        types[at] = types[at] < 0xC0 ? asking[types[at] % sizeof asking] : types[at];
    }
    return count;
}

/* Some indexes are past 255, and one that there is in their low byte. */
static uint32_t next_index(Input *input)
{
    unsigned byte = next_byte(input);
    return byte < 240 ? byte : byte < 248 ? byte + 17 : byte * 0x01010101u;
}

/* A query with one byte changed, or cut. */
static void spoil(Input *input, Query *query, unsigned way)
{
    size_t at = next_byte(input) % query->length;
    if (way % 2 == 0) {
        query->bytes[at] = (uint8_t)next_byte(input);
    } else {
        query->length = at;
    }
}

/* How many parameters the types ask for, up to the first unknown one. */
static size_t parameters_asked(const uint8_t *types, size_t count, const uint8_t *store)
{
    size_t sum = 0, at = 0;
    while (at < count && asks(types[at])) {
        sum += entries_of(store, types[at++]);
    }
    return sum + (at < count);
}

/* A good query to a store is answered, unless its report has over 255 messages: all but the last have 255 parameters or no room for the next. */
static int is_answered(const uint8_t *types, size_t count, const uint8_t *store, uint64_t first)
{
    size_t sum = parameters_asked(types, count, store), total = otap_report_total(first);
    size_t least = (sum + MOST_PARAMETERS - 1) / MOST_PARAMETERS, most = 1 + sum / ((OTAP_REPORT_BYTES - OTAP_REPORT_FIRST) / LONGEST_PARAMETER);
    int answered = otap_answer_number(first) == OTAP_OK;
    must(answered || first == OTAP_BAD_FIELD, "a good query is answered with a first message, or is 4");
    must(answered ? total >= least && total <= most : MOST_MESSAGES == 255 && most > 255, "as many messages as the parameters need");
    return answered;
}

/* A good query to a store: the message of this index, or 16 exactly where there is none. */
static void check_asked(const Query *query, uint32_t index, const uint8_t *types, size_t count, const uint8_t *store, uint64_t answer)
{
    static uint8_t message[OTAP_REPORT_BYTES];
    uint64_t first = report_once(query, 1, store, OTAP_STORE_BYTES, OTAP_REPORT_BYTES, 0, message);
    int there = index >= 1 && index <= otap_report_total(first);
    if (!is_answered(types, count, store, first)) {
        must(answer == OTAP_BAD_FIELD, "a report that is too long is 4 for every index");
        return;
    }
    must(otap_answer_number(answer) == (there ? OTAP_OK : OTAP_NO_MESSAGE), "16 exactly where a report has no such message");
    must(!there || otap_report_total(answer) == otap_report_total(first), "the same total in every call");
    if (count <= FEW_TYPES) {
        check_report(query, types, count, store);
    }
}

static void ask_report(Input *input, const uint8_t *store)
{
    static uint8_t message[OTAP_REPORT_BYTES];
    static Query query;
    uint8_t types[256];
    unsigned choice = next_byte(input), how = next_byte(input);
    uint32_t index = next_index(input);
    size_t count = next_types(input, types), store_length = chosen_store(choice), length = chosen_size(choice, OTAP_REPORT_BYTES);
    uint64_t answer;
    write_types(&query, types, count, how);
    if (how >= 192) {
        spoil(input, &query, how);
    }
    if (was_checked(keyed_by(keyed_by(keyed(keyed(keyed_by(OF_REPORT, choice), store, OTAP_STORE_BYTES), query.bytes, query.length), index), how))) {
        return;
    }
    answer = report_twice(&query, index, store, store_length, length, message);
    must(store_length != OTAP_STORE_BYTES || answer != OTAP_NO_STORE, "a store is known as one");
    must(store_length == OTAP_STORE_BYTES || length < OTAP_REPORT_BYTES || answer == OTAP_NO_STORE, "11 before what is wrong with the query");
    if (how < 192 && store_length == OTAP_STORE_BYTES && length >= OTAP_REPORT_BYTES) {
        if (count == 0) {
            must(answer == OTAP_BAD_FIELD, "a query of no types is 4");
        } else {
            check_asked(&query, index, types, count, store, answer);
        }
    }
}

/* The number of a report of the channels, to see whether bytes are a store. */
static uint64_t ask_channels(const uint8_t *store)
{
    static const uint8_t types[] = {OTAP_ASK_CHANNELS};
    static uint8_t message[OTAP_REPORT_BYTES];
    static Query query;
    write_types(&query, types, sizeof types, 0);
    return report_twice(&query, 1, store, OTAP_STORE_BYTES, OTAP_REPORT_BYTES, message);
}

/* A set's own report, with some bytes changed and now and then cut, its length not stated; how long it is. */
static size_t own_message(Input *input, const uint8_t *store, uint8_t *message)
{
    static Query query;
    uint8_t types[256];
    size_t count = next_types(input, types), length, at;
    unsigned changes = next_byte(input);
    write_types(&query, types, count, 7);
    length = otap_report_length(report_once(&query, 1, store, OTAP_STORE_BYTES, OTAP_REPORT_BYTES, 0, message));
    message[2] = message[3] = 0;
    for (; length > 0 && changes % 4 > 0; changes--) {
        at = next_byte(input);
        at = (at + 256 * next_byte(input)) % length;
        message[at] = (uint8_t)next_byte(input);
    }
    return changes >= 128 ? length - length / (1 + changes / 4) : length;
}

/* Any bytes, behind a report's head. */
static size_t any_message(Input *input, uint8_t *message)
{
    static const uint8_t head[] = {2, 2, 0, 0, 8, 7, 0x0B};
    memcpy(message, head, sizeof head);
    return sizeof head + next_bytes(input, next_byte(input), message + sizeof head);
}

/* The office reads a message: if it is a report it can be walked; and at any byte a parameter stands, or none. */
static void read_message(Input *input, const uint8_t *store)
{
    static uint8_t message[OTAP_REPORT_BYTES];
    uint8_t looked[8] = {0};
    unsigned how = next_byte(input), each;
    size_t length = how % 4 == 0 ? any_message(input, message) : own_message(input, store, message);
    uint64_t read, places;
    next_bytes(input, sizeof looked, looked);
    if (was_checked(keyed_by(keyed(keyed(OF_READING, message, length), looked, sizeof looked), how))) {
        return;
    }
    read = read_once(message, length, 0);
    must(read == read_once(message, length, 1), "the same is read twice");
    if (otap_answer_number(read) == OTAP_OK) {
        walk(message, length, read, NULL);
    }
    for (each = 0; each < 8; each++) {
        uint32_t at = looked[each];
        at = each < 6 ? (uint32_t)((at + how * each) % (length + 1)) : at * 0x01010101u;
        must(parameter_once(message, length, at, 0, &places) == parameter_once(message, length, at, 1, &places), "the same parameter twice");
    }
}

#endif
