/*
 * Joining: that it refuses exactly what a set finds wrong with either request where all have room, by that set's own judging, and what is wrong with the two
 * together; the bytes that it writes; and that the joined request leaves the store that both leave in turn, or lacks room where they do.
 */
#ifndef JOINING_H
#define JOINING_H

#include "calls.h"

typedef struct {
    const uint8_t *bytes;
    size_t length;
} Request;

enum { REQUEST_HEAD = 8, MOST_SETTINGS = 255 };

/* The byte behind as many settings that are in range, whose DataLength is true. */
static size_t behind_settings(const uint8_t *message, unsigned count)
{
    size_t at = REQUEST_HEAD;
    for (; count > 0; count--) {
        at += 1 + message[at + 1] * 256u + message[at + 2];
    }
    return at;
}

/* A message judged by a set that holds nothing. */
static uint64_t judge_fresh(const uint8_t *message, size_t length)
{
    static uint8_t fresh[OTAP_STORE_BYTES];
    uint8_t said[OTAP_REPLY_BYTES];
    must(otap_start(fresh, sizeof fresh) == OTAP_OK, "a store can be started");
    return judge_once(message, length, fresh, sizeof fresh, sizeof said, 0, said);
}

/* The fault of a request's settings, number and failed ID: what lacks room is passed over, and what is behind it judged by itself. */
static uint64_t fault_of_settings(const Request *request, uint64_t answer)
{
    static uint8_t rest[OTAP_MESSAGE_BYTES];
    size_t length = request->length, at;
    unsigned passed = 0, failed;
    memcpy(rest, request->bytes, length);
    rest[2] = rest[3] = 0;
    while (otap_answer_number(answer) == OTAP_NO_ROOM) {
        failed = otap_answer_failed(answer);
        at = behind_settings(rest, failed);
        memmove(rest + REQUEST_HEAD, rest + at, length - at);
        length -= at - REQUEST_HEAD;
        passed += failed;
        rest[7] = (uint8_t)(rest[7] - failed);
        if (rest[7] == 0) {
            return length > REQUEST_HEAD ? OTAP_BAD_FIELD : OTAP_OK;
        }
        answer = judge_fresh(rest, length);
    }
    failed = otap_answer_failed(answer);
    if (otap_answer_number(answer) != OTAP_OK) {
        return otap_answer_number(answer) | (uint64_t)(failed == 0 ? 0 : failed + passed) << 8;
    }
    return rest[behind_settings(rest, rest[7] - 1u)] == 0xFF ? OTAP_BAD_FIELD | (uint64_t)request->bytes[7] << 8 : OTAP_OK;
}

static uint64_t fault_of(const Request *request)
{
    uint64_t answer = judge_fresh(request->bytes, request->length);
    uint32_t number = otap_answer_number(answer);
    if (number == OTAP_MESSAGE_LENGTH || number == OTAP_BAD_CARRIER) {
        return number;
    }
    return (request->bytes[6] & 7) != 0 ? OTAP_OTHER_MESSAGE : number == OTAP_BAD_VERSION ? number : fault_of_settings(request, answer);
}

/* The whole answer of joining them. */
static uint64_t expected_join(const Request *first, const Request *second, size_t buffer_length)
{
    uint64_t of_first, of_second;
    size_t length = first->length + second->length - REQUEST_HEAD;
    if (buffer_length < OTAP_JOIN_BYTES) {
        return OTAP_SHORT_BUFFER;
    }
    of_first = fault_of(first);
    of_second = fault_of(second);
    if (of_first != OTAP_OK || of_second != OTAP_OK) {
        return of_first != OTAP_OK ? of_first : of_second | (uint64_t)1 << 32;
    }
    if ((first->bytes[5] & 15) != (second->bytes[5] & 15) || first->bytes[7] + second->bytes[7] > MOST_SETTINGS) {
        return OTAP_BAD_FIELD;
    }
    return length > OTAP_MESSAGE_BYTES ? OTAP_MESSAGE_LENGTH : (uint64_t)length << 16;
}

/* Joins them; what was written is left in `joined`. */
static uint64_t join_once(const Request *first, const Request *second, size_t buffer_length, int twice, uint8_t *joined)
{
    Lent one = lend(first->bytes, first->length, twice), two = lend(second->bytes, second->length, twice), b = lend(stale(), buffer_length, twice);
    uint64_t answer = otap_join(one.bytes, one.length, two.bytes, two.length, b.bytes, b.length);
    size_t wrote = otap_join_length(answer);
    must(same_bytes(one.bytes, first->bytes, first->length) && same_bytes(two.bytes, second->bytes, second->length), "joining leaves the requests");
    must(wrote <= buffer_length && same_bytes(b.bytes + wrote, stale() + wrote, buffer_length - wrote), "bytes past the joined request stay");
    memcpy(joined, b.bytes, wrote);
    give_back(&one);
    give_back(&two);
    give_back(&b);
    return answer;
}

/* One header, with reserved bits 0 and the sum of both counts, and then the settings of both as they are. */
static void check_joined_bytes(const Request *first, const Request *second, const uint8_t *joined, size_t length)
{
    const uint8_t head[REQUEST_HEAD] = {2, 2, (uint8_t)((length - 4) >> 8), (uint8_t)(length - 4), 8, first->bytes[5] & 15, 8,
                                        (uint8_t)(first->bytes[7] + second->bytes[7])};
    size_t own = first->length - REQUEST_HEAD;
    must(same_bytes(joined, head, REQUEST_HEAD), "the header of a joined request");
    must(same_bytes(joined + REQUEST_HEAD, first->bytes + REQUEST_HEAD, own), "the first's settings, as they are");
    must(same_bytes(joined + REQUEST_HEAD + own, second->bytes + REQUEST_HEAD, second->length - REQUEST_HEAD), "then the second's, as they are");
}

/* The joined request comes to what both come to in turn: it is taken and leaves the same store, or lacks room, its failed ID counted through. */
static void check_in_turn(const Request *first, const Request *second, const Request *joined, const uint8_t *store)
{
    static uint8_t between[OTAP_STORE_BYTES], turned[OTAP_STORE_BYTES], after[OTAP_STORE_BYTES];
    uint8_t said[OTAP_REPLY_BYTES];
    uint64_t answer = commit_once(first->bytes, first->length, store, OTAP_STORE_BYTES, OTAP_REPLY_BYTES, 0, between, said), whole;
    uint32_t failed = otap_answer_failed(answer);
    if (otap_answer_number(answer) == OTAP_OK) {
        answer = commit_once(second->bytes, second->length, between, OTAP_STORE_BYTES, OTAP_REPLY_BYTES, 0, turned, said);
        failed = otap_answer_number(answer) == OTAP_OK ? 0 : first->bytes[7] + otap_answer_failed(answer);
    }
    must(otap_answer_number(answer) == OTAP_OK || otap_answer_number(answer) == OTAP_NO_ROOM, "what may be joined is taken or lacks room");
    whole = commit_once(joined->bytes, joined->length, store, OTAP_STORE_BYTES, OTAP_REPLY_BYTES, 0, after, said);
    must(otap_answer_number(whole) == otap_answer_number(answer), "the joined request is taken where both are in turn");
    must(otap_answer_failed(whole) == failed, "the failed ID is counted through");
    must(otap_answer_number(whole) != OTAP_OK || same_bytes(after, turned, OTAP_STORE_BYTES), "the joined request leaves the store of both in turn");
}

/* Any two messages, joined beside this store. The answer. */
static uint64_t check_joined(const Request *first, const Request *second, size_t buffer_length, const uint8_t *store)
{
    static uint8_t joined[OTAP_MESSAGE_BYTES + 64], again[OTAP_MESSAGE_BYTES + 64];
    uint64_t answer = join_once(first, second, buffer_length, 0, joined);
    Request made = {joined, otap_join_length(answer)};
    must(answer == join_once(first, second, buffer_length, 1, again) && same_bytes(joined, again, made.length), "the same is joined twice");
    must(answer == expected_join(first, second, buffer_length), "joined or refused as a set that has room finds both");
    if (otap_answer_number(answer) == OTAP_OK) {
        check_joined_bytes(first, second, joined, made.length);
        check_in_turn(first, second, &made, store);
    }
    return answer;
}

/* Each exported part with itself and with the one behind it: long requests, which an input is too short to hold. */
static void join_exports(const uint8_t *store)
{
    static uint8_t parts[2][OTAP_EXPORT_BYTES];
    Request requests[2];
    uint32_t part;
    for (part = 1; part <= OTAP_EXPORT_PARTS; part++) {
        Request *now = &requests[part % 2];
        now->bytes = parts[part % 2];
        now->length = otap_export_length(export_known(part, store, parts[part % 2]));
        check_joined(now, now, OTAP_JOIN_BYTES, store);
        if (part > 1) {
            check_joined(&requests[1 - part % 2], now, OTAP_JOIN_BYTES, store);
        }
    }
}

#endif
