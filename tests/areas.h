/* What the tests of the desk emulator share: an area, a message to it, and a hand-held's store beside it, which is sent the same. */
#ifndef AREAS_H
#define AREAS_H

#include "answers.h"
#include "otap_desk.h"

enum { HEAD_BYTES = 4, LENGTH_BYTES = 2, STALE = 0xA5 };

static uint8_t area[OTAP_AREA_BYTES], copied[OTAP_AREA_BYTES], store[OTAP_STORE_BYTES], plain_reply[OTAP_REPLY_BYTES + 8];

/* How many bytes the area says are used. */
static inline size_t used(void)
{
    return (size_t)area[0] << 24 | (size_t)area[1] << 16 | (size_t)area[2] << 8 | area[3];
}

/* The whole answer of taking a message, with a reply buffer of stale bytes: none behind the reply changes, 10 and more change none, and no area but with 0. */
static inline uint64_t take(const Message *m)
{
    uint64_t answer;
    size_t at, wrote;
    memcpy(copied, area, sizeof area);
    memset(plain_reply, STALE, sizeof plain_reply);
    answer = otap_plain_take(m->bytes, m->length, area, sizeof area, plain_reply, OTAP_REPLY_BYTES);
    wrote = otap_answer_length(answer);
    same("no other bits", answer & 0xFF03FFFFu, answer, answer & 0xFF03FFFFu);
    if (otap_answer_number(answer) > OTAP_NO_MATCH) {
        same("a refusal is its number alone", otap_answer_number(answer), answer, answer);
    }
    for (at = wrote; at < sizeof plain_reply; at++) {
        same("bytes past the reply stay", STALE, STALE, plain_reply[at]);
    }
    if (otap_answer_number(answer) != OTAP_OK || m->bytes[6] % 8 != 0) {
        same("the area stays", 0, 0, (uint64_t)(memcmp(copied, area, sizeof area) != 0));
    }
    return answer;
}

/* Number and failed ID. */
static inline void comes_to(const char *what, const Message *m, uint64_t number, uint64_t failed)
{
    uint64_t answer = take(m);
    same(what, number, number, otap_answer_number(answer));
    same(what, failed, failed, otap_answer_failed(answer));
}

/*
 * A good request of as many bytes, 15 to LONG_BYTES, with as few entries as can be, since a call takes time that grows with their square: quick text 63 is
 * deleted, each time with up to 23 units.
 */
enum { LONG_BYTES = 12 + 63 * 49 };

static inline void write_kept(Message *m, size_t size)
{
    size_t fields = size - 12, entries = (fields + 48) / 49, units, at;
    entries += (entries + fields) % 2;
    units = (fields - 3 * entries) / 2;
    open_request(m, 1);
    at = open_setting(m, 0xCC);
    put(m, DELETE * 64 + (unsigned)entries);
    for (; entries > 0; entries--) {
        unsigned own = units < 23 ? (unsigned)units : 23;
        put(m, 63);
        put_text(m, own);
        units -= own;
    }
    close_setting(m, at);
    same("a request of this size", size, m->length, size);
}

static inline void start_area(void)
{
    memset(area, STALE, sizeof area);
    same("start", 0, OTAP_OK, otap_plain_start(area, sizeof area));
}

/* What a row shows, in a scratch of stale bytes, and by the other call: always at the scratch's start, and no byte behind it changes. */
static inline uint64_t row_part(uint32_t table, uint32_t row, uint8_t *shown)
{
    uint32_t number;
    uint64_t part;
    size_t at;
    memset(shown, STALE, OTAP_PLAIN_SCRATCH_BYTES);
    number = otap_plain_row_number(table, row, area, sizeof area, shown, OTAP_PLAIN_SCRATCH_BYTES);
    part = otap_plain_row_part(table, row, area, sizeof area, shown, OTAP_PLAIN_SCRATCH_BYTES);
    same("shown, or 17", part == 0 ? OTAP_NO_ROW : OTAP_OK, number, number);
    same("the scratch's start and a length, or 0", part, part == 0 ? 0 : (uint64_t)otap_part_length(part) << 32 | 1, part);
    for (at = otap_part_length(part); at < OTAP_PLAIN_SCRATCH_BYTES; at++) {
        same("bytes of the scratch past the row stay", STALE, STALE, shown[at]);
    }
    return part;
}

/* A row of the area is the store's: there or not, with the same units. Whether it is shown. */
static inline int same_row(uint32_t table, uint32_t row)
{
    static uint8_t shown[OTAP_PLAIN_SCRATCH_BYTES];
    uint64_t wanted = otap_row_part(table, row, store, sizeof store, scratch, sizeof scratch), part = row_part(table, row, shown);
    same("a row of both", wanted != 0, part != 0, wanted != 0);
    same("its length", otap_part_length(wanted), otap_part_length(part), otap_part_length(wanted));
    same("its units", 0, 0, (uint64_t)(memcmp(shown, otap_part_bytes(wanted, store, scratch), otap_part_length(wanted)) != 0));
    return part != 0;
}

/* A message to both: the same answer and reply; or 18 exactly where a request that the store would take passes the area's end, and the store is not sent it. */
static inline uint64_t take_both(const Message *m)
{
    size_t end = HEAD_BYTES + used() + LENGTH_BYTES + m->length;
    uint64_t judged = otap_judge(m->bytes, m->length, store, sizeof store, reply, sizeof reply), answer = take(m);
    if (otap_answer_number(judged) == OTAP_OK && m->bytes[6] % 8 == 0 && end > OTAP_AREA_BYTES) {
        same("a request that passes the end", 18, OTAP_AREA_FULL, answer);
        return answer;
    }
    same("the same answer", judged, answer, otap_commit(m->bytes, m->length, store, sizeof store, reply, sizeof reply));
    same("the same reply", 0, 0, (uint64_t)(memcmp(plain_reply, reply, otap_answer_length(answer)) != 0));
    return answer;
}

/* Such requests to both, until so many bytes are left. */
static inline void fill_both(size_t left)
{
    size_t room;
    for (room = OTAP_AREA_BYTES - HEAD_BYTES - used(); room >= left + 40; room = OTAP_AREA_BYTES - HEAD_BYTES - used()) {
        size_t size = room - left - LENGTH_BYTES;
        write_kept(&said, size <= LONG_BYTES ? size : size < LONG_BYTES + 40 ? LONG_BYTES - 40 : LONG_BYTES);
        same("it is taken", 0, OTAP_OK, otap_answer_number(take_both(&said)));
    }
}

#endif
