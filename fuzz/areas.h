/*
 * The desk emulator's calls, each made twice on buffers of their own, and what has to hold of them whatever was lent: beside a hand-held's archive, which is sent
 * the same, and says what is to be answered, replied and shown, and which bytes are an area.
 */
#ifndef AREAS_H
#define AREAS_H

#include "lent.h"
#include "memo.h"
#include "otap_desk.h"
#include "set.h"

enum { AREA_HEAD = 4, AREA_LENGTH = 2 };

/* Any bytes that the buffers hold before a call: what stays is compared with them. */
static const uint8_t *stale(void)
{
    static uint8_t bytes[256];
    size_t at;
    for (at = 0; at < sizeof bytes; at++) {
        bytes[at] = (uint8_t)(at * 7 + 3);
    }
    return bytes;
}

static size_t area_used(const uint8_t *area)
{
    return (size_t)area[0] << 24 | (size_t)area[1] << 16 | (size_t)area[2] << 8 | area[3];
}

static void put_used(uint8_t *area, size_t used)
{
    area[0] = (uint8_t)(used >> 24);
    area[1] = (uint8_t)(used >> 16);
    area[2] = (uint8_t)(used >> 8);
    area[3] = (uint8_t)used;
}

/* A request by its head: MsgType 0. */
static int is_request(const uint8_t *message, size_t length)
{
    return length > 6 && (message[6] & 7) == 0;
}

/* A message to a hand-held's store, without any check: its answer. */
static uint64_t send_to(uint8_t *store, const uint8_t *message, size_t length)
{
    uint8_t reply[OTAP_REPLY_BYTES];
    return otap_commit(message, length, store, OTAP_STORE_BYTES, reply, sizeof reply);
}

/* Whether bytes are an area, by their form and by a hand-held that takes each request in its turn; its store is left in `store`. */
static int replayed(const uint8_t *area, uint8_t *store)
{
    size_t used = area_used(area), at = AREA_HEAD, end = AREA_HEAD + used, behind;
    if (used > OTAP_AREA_BYTES - AREA_HEAD) {
        return 0;
    }
    must(otap_start(store, OTAP_STORE_BYTES) == OTAP_OK, "any bytes can be started");
    while (at < end) {
        size_t length;
        if (end - at < AREA_LENGTH) {
            return 0;
        }
        length = (size_t)area[at] << 8 | area[at + 1];
        at += AREA_LENGTH;
        if (length > end - at || !is_request(area + at, length) || otap_answer_number(send_to(store, area + at, length)) != OTAP_OK) {
            return 0;
        }
        at += length;
    }
    for (behind = end; behind < OTAP_AREA_BYTES && area[behind] == 0; behind++) {
    }
    return behind == OTAP_AREA_BYTES;
}

/* Takes a message: what the area is then is left in `after`, and the reply buffer in `said`. */
static uint64_t take_once(const uint8_t *message, size_t length, const uint8_t *area, size_t area_length, size_t reply_length, int twice, uint8_t *after,
                          uint8_t *said)
{
    Lent m = lend(message, length, twice), a = lend(area, area_length, twice), r = lend(stale(), reply_length, twice);
    uint64_t answer = otap_plain_take(m.bytes, m.length, a.bytes, a.length, r.bytes, r.length);
    size_t wrote = otap_answer_length(answer);
    must(same_bytes(m.bytes, message, length), "the message stays");
    must(wrote <= reply_length && same_bytes(r.bytes + wrote, stale() + wrote, reply_length - wrote), "bytes past the reply stay");
    memcpy(after, a.bytes, area_length);
    memcpy(said, r.bytes, wrote);
    give_back(&m);
    give_back(&a);
    give_back(&r);
    return answer;
}

/* The area with a message behind what it keeps is left in `wanted`; 0 where it passes the end. */
static int with_record(const uint8_t *area, const uint8_t *message, size_t length, uint8_t *wanted)
{
    size_t end = AREA_HEAD + area_used(area);
    memcpy(wanted, area, OTAP_AREA_BYTES);
    if (OTAP_AREA_BYTES - end < AREA_LENGTH + length) {
        return 0;
    }
    wanted[end] = (uint8_t)(length >> 8);
    wanted[end + 1] = (uint8_t)length;
    memcpy(wanted + end + AREA_LENGTH, message, length);
    put_used(wanted, end + AREA_LENGTH + length - AREA_HEAD);
    return 1;
}

/*
 * A message to an area, and to a store that has taken what it keeps: the same answer and reply; a request that is taken is kept as it came, or, where it passes
 * the end, comes to 18 and nothing is written. Of another size, the store's is another too. What the area is then is left in `after`.
 */
static uint64_t take_beside(const uint8_t *message, size_t length, const uint8_t *area, size_t area_length, size_t reply_length, const uint8_t *store, uint8_t *after)
{
    static uint8_t again[OTAP_AREA_BYTES + 64], wanted[OTAP_AREA_BYTES], then[OTAP_STORE_BYTES];
    uint8_t said[OTAP_REPLY_BYTES], same[OTAP_REPLY_BYTES], expected[OTAP_REPLY_BYTES + 64];
    uint64_t answer = take_once(message, length, area, area_length, reply_length, 0, after, said), other;
    int keeps;
    must(answer == take_once(message, length, area, area_length, reply_length, 1, again, same), "the same answer twice");
    must(same_bytes(after, again, area_length) && same_bytes(said, same, otap_answer_length(answer)), "the same area and reply twice");
    memcpy(then, store, sizeof then);
    other = otap_commit(message, length, then, area_length == OTAP_AREA_BYTES ? OTAP_STORE_BYTES : 0, expected, reply_length);
    keeps = otap_answer_number(other) == OTAP_OK && is_request(message, length);
    if (keeps && !with_record(area, message, length, wanted)) {
        must(answer == OTAP_AREA_FULL, "a request that passes the end is 18, and nothing else");
    } else {
        must(answer == other, "the desk's answer is the hand-held's");
        must(same_bytes(said, expected, otap_answer_length(answer)), "the desk's reply is the hand-held's");
    }
    if (otap_answer_number(answer) == OTAP_OK && keeps) {
        must(same_bytes(after, wanted, OTAP_AREA_BYTES), "a request that is taken is kept as it came");
    } else {
        must(same_bytes(after, area, area_length), "only a taken request changes the area");
    }
    return answer;
}

/* A row of an area, by both calls; its units are left in `shown`. */
static uint32_t plain_row_once(uint32_t table, uint32_t row, const uint8_t *area, size_t area_length, size_t length, int twice, uint8_t *shown, size_t *shows)
{
    Lent a = lend(area, area_length, twice), b = lend(stale(), length, twice);
    uint32_t number = otap_plain_row_number(table, row, a.bytes, a.length, b.bytes, b.length);
    uint64_t part;
    must(same_bytes(b.bytes, stale(), length), "the number of a row touches nothing");
    must((number == OTAP_SHORT_BUFFER) == (length < OTAP_PLAIN_SCRATCH_BYTES), "15 exactly of short scratches");
    must(number == OTAP_OK || number == OTAP_SHORT_BUFFER || number == OTAP_NO_STORE || number == OTAP_NO_ROW, "a number of a row");
    part = otap_plain_row_part(table, row, a.bytes, a.length, b.bytes, b.length);
    *shows = otap_part_length(part);
    must(part == (number == OTAP_OK ? (uint64_t)*shows << 32 | 1 : 0), "a row that is shown is the scratch's start, and a refusal 0");
    must(*shows <= OTAP_ROW_BYTES && same_bytes(b.bytes + *shows, stale() + *shows, length - *shows), "scratch bytes past the row stay");
    must(same_bytes(a.bytes, area, area_length), "a row leaves the area");
    memcpy(shown, b.bytes, *shows);
    give_back(&a);
    give_back(&b);
    return number;
}

/* A row of an area, or of bytes that are none, and of a store that has taken what it keeps: the same number, but for the scratch's size, and the same units. */
static uint32_t row_beside(uint32_t table, uint32_t row, const uint8_t *area, size_t area_length, size_t length, const uint8_t *store, int known)
{
    uint8_t shown[OTAP_ROW_BYTES], again[OTAP_ROW_BYTES], scratch[OTAP_SCRATCH_BYTES];
    size_t shows, same;
    uint32_t number = plain_row_once(table, row, area, area_length, length, 0, shown, &shows);
    uint64_t part = otap_row_part(table, row, store, OTAP_STORE_BYTES, scratch, sizeof scratch);
    must(number == plain_row_once(table, row, area, area_length, length, 1, again, &same) && shows == same, "the same row twice");
    if (number == OTAP_SHORT_BUFFER) {
        return number;
    }
    must((number == OTAP_NO_STORE) == !known, "11 exactly where the bytes are no area");
    if (known) {
        must((number == OTAP_OK) == (part != 0), "a row is shown exactly where the hand-held shows it");
        must(shows == otap_part_length(part) && same_bytes(shown, otap_part_bytes(part, store, scratch), shows), "a row shows what the hand-held's does");
    }
    return number;
}

#endif
