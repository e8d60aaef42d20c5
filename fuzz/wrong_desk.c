/* Wrong desk emulators, to see that the checks of desk.c can fail: the linker puts these before the archive's functions (--wrap). WRONG says which. */
#ifndef WRONG
#define WRONG 0
#endif

#include "otap_desk.h"

#include <string.h>

uint32_t __real_otap_plain_start(uint8_t *, uint64_t);
uint64_t __real_otap_plain_take(const uint8_t *, uint64_t, uint8_t *, uint64_t, uint8_t *, uint64_t);
uint32_t __real_otap_plain_row_number(uint32_t, uint32_t, const uint8_t *, uint64_t, const uint8_t *, uint64_t);
uint64_t __real_otap_plain_row_part(uint32_t, uint32_t, const uint8_t *, uint64_t, uint8_t *, uint64_t);
uint32_t __wrap_otap_plain_start(uint8_t *, uint64_t);
uint64_t __wrap_otap_plain_take(const uint8_t *, uint64_t, uint8_t *, uint64_t, uint8_t *, uint64_t);
uint32_t __wrap_otap_plain_row_number(uint32_t, uint32_t, const uint8_t *, uint64_t, const uint8_t *, uint64_t);
uint64_t __wrap_otap_plain_row_part(uint32_t, uint32_t, const uint8_t *, uint64_t, uint8_t *, uint64_t);

static size_t used(const uint8_t *area)
{
    return (size_t)area[0] << 24 | (size_t)area[1] << 16 | (size_t)area[2] << 8 | area[3];
}

/* Whether a call knows these bytes as an area. */
static int is_area(const uint8_t *area, uint64_t area_length)
{
    static const uint8_t scratch[OTAP_PLAIN_SCRATCH_BYTES];
    return __real_otap_plain_row_number(0, 0, area, area_length, scratch, sizeof scratch) != OTAP_NO_STORE;
}

/* Where the request that was kept last stands: behind its length. */
static size_t last_kept(const uint8_t *area)
{
    size_t at = 4, end = 4 + used(area), length = 0;
    while (at < end) {
        length = (size_t)area[at] << 8 | area[at + 1];
        at += 2 + length;
    }
    return at - length;
}

static void put_used(uint8_t *area, size_t bytes)
{
    area[0] = 0;
    area[1] = 0;
    area[2] = (uint8_t)(bytes >> 8);
    area[3] = (uint8_t)bytes;
}

/* Keeps a message, whatever it is. */
static void keep(uint8_t *area, const uint8_t *message, size_t length)
{
    size_t end = 4 + used(area);
    if (end + 2 + length <= OTAP_AREA_BYTES) {
        area[end] = (uint8_t)(length >> 8);
        area[end + 1] = (uint8_t)length;
        memcpy(area + end + 2, message, length);
        put_used(area, end + 2 + length - 4);
    }
}

/* Bytes of an area that has a byte too many behind the used ones, without it. */
static uint8_t *cleared(const uint8_t *area, uint64_t area_length)
{
    static uint8_t other[OTAP_AREA_BYTES];
    size_t at;
    if (area_length != OTAP_AREA_BYTES || used(area) > OTAP_AREA_BYTES - 4) {
        return NULL;
    }
    memcpy(other, area, sizeof other);
    for (at = 4 + used(area); at < sizeof other; at++) {
        other[at] = 0;
    }
    return other;
}

/* A refusal that comes before the area and the message are looked at; 0 where there is none. */
static uint64_t refused_first(const uint8_t *message, uint64_t length, const uint8_t *area, uint64_t area_length, uint64_t reply_length)
{
    int passes = area_length == OTAP_AREA_BYTES && is_area(area, area_length) && 4 + used(area) + 2 + length > OTAP_AREA_BYTES;
    switch (WRONG) {
    case 1: return passes && reply_length >= OTAP_REPLY_BYTES && length > 6 && (message[6] & 7) == 0 ? OTAP_AREA_FULL : 0; /* 18 before what else is wrong */
    case 2: return area_length == OTAP_AREA_BYTES && 4 + used(area) + 2 + length == OTAP_AREA_BYTES ? OTAP_AREA_FULL : 0;  /* the last byte cannot be used */
    case 3: return passes && length > 6 && (message[6] & 7) == 5 ? OTAP_AREA_FULL : 0;                                     /* a query of a full area too */
    case 4: return !is_area(area, area_length) ? OTAP_NO_STORE : 0;                                                        /* 11 before 10 */
    case 5: return length < 7 || length > OTAP_MESSAGE_BYTES ? OTAP_MESSAGE_LENGTH : 0;                                    /* 12 before 10 and 11 */
    default: return 0;
    }
}

/* What a request that was taken leaves, wrongly. */
static uint64_t wrong_kept(const uint8_t *before, uint8_t *area, uint64_t answer)
{
    size_t at = last_kept(area), previous = last_kept(before);
    size_t length = 4 + used(area) - at;
    switch (WRONG) {
    case 6: area[at + 5] &= 0x0F; return answer;              /* reserved bits are not kept */
    case 7: area[at + 2] = area[at + 3] = 0; return answer;   /* nor the length that it states */
    case 8: put_used(area, used(area) - 2); return answer;    /* the length is not counted */
    case 9:                                                   /* one that is kept already is not kept again */
        if (used(before) > 0 && 4 + used(before) - previous == length && memcmp(before + previous, area + at, length) == 0) {
            memcpy(area, before, OTAP_AREA_BYTES);
        }
        return answer;
    case 10: return answer & ~(UINT64_C(1) << 17);            /* no restart */
    default: return answer;
    }
}

/* What any other message leaves, wrongly. */
static uint64_t wrong_answered(const uint8_t *message, uint64_t length, uint8_t *area, uint8_t *reply, uint64_t answer)
{
    uint32_t number = otap_answer_number(answer);
    switch (WRONG) {
    case 11: if (number == OTAP_OK) { keep(area, message, (size_t)length); } return answer;                     /* a query that matches is kept */
    case 12: if (number == OTAP_BAD_FIELD) { keep(area, message, (size_t)length); } return answer;              /* a refused request is kept */
    case 13: if (number == OTAP_AREA_FULL) { reply[0] = 2; } return answer;                                     /* 18 writes */
    case 14: return number == OTAP_AREA_FULL ? answer | UINT64_C(1) << 16 : answer;                             /* 18 is sent */
    case 15: if (number == OTAP_NO_MATCH) { reply[9] = 0; } return answer;                                      /* no hash in a reply of 5 */
    case 16: return number == OTAP_NO_ROOM ? (answer & ~UINT64_C(0xFF00)) | UINT64_C(0x100) : answer;           /* always the first setting lacks room */
    case 17: return number == OTAP_AREA_FULL ? OTAP_NO_ROOM | UINT64_C(1) << 8 | UINT64_C(10) << 24 : answer;   /* a full area is no room, as of a table */
    default: return answer;
    }
}

uint64_t __wrap_otap_plain_take(const uint8_t *message, uint64_t message_length, uint8_t *area, uint64_t area_length, uint8_t *reply, uint64_t reply_length)
{
    static uint8_t before[OTAP_AREA_BYTES];
    uint64_t answer = refused_first(message, message_length, area, area_length, reply_length);
    int known;
    if (answer != 0) {
        return answer;
    }
    known = area_length == OTAP_AREA_BYTES && is_area(area, area_length);
    if (WRONG == 18 && area_length == OTAP_AREA_BYTES && !known && cleared(area, area_length) != NULL && is_area(cleared(area, area_length), area_length)) {
        return __real_otap_plain_take(message, message_length, cleared(area, area_length), area_length, reply, reply_length); /* bytes behind the used ones are not looked at */
    }
    if (known) {
        memcpy(before, area, sizeof before);
    }
    answer = __real_otap_plain_take(message, message_length, area, area_length, reply, reply_length);
    if (!known || reply_length < OTAP_REPLY_BYTES) {
        return answer;
    }
    if (WRONG == 19 && otap_answer_length(answer) > 0 && otap_answer_length(answer) < reply_length) {
        reply[otap_answer_length(answer)] = 0; /* a byte behind the reply */
    }
    return otap_answer_number(answer) == OTAP_OK && (message[6] & 7) == 0 ? wrong_kept(before, area, answer)
                                                                          : wrong_answered(message, message_length, area, reply, answer);
}

uint32_t __wrap_otap_plain_start(uint8_t *area, uint64_t area_length)
{
    uint32_t number;
    if (WRONG == 20 && area_length == OTAP_AREA_BYTES) {
        memset(area, 0, 4); /* only the used length is 0 */
        return OTAP_OK;
    }
    number = __real_otap_plain_start(area, area_length);
    if (WRONG == 21 && area_length == OTAP_AREA_BYTES + 1) {
        return __real_otap_plain_start(area, OTAP_AREA_BYTES); /* larger ones are taken too */
    }
    return number;
}

uint32_t __wrap_otap_plain_row_number(uint32_t table, uint32_t row, const uint8_t *area, uint64_t area_length, const uint8_t *scratch, uint64_t scratch_length)
{
    static const uint8_t enough[OTAP_PLAIN_SCRATCH_BYTES];
    uint32_t number = __real_otap_plain_row_number(table, row, area, area_length, scratch, scratch_length);
    switch (WRONG) {
    case 18:
        return number == OTAP_NO_STORE && cleared(area, area_length) != NULL
            ? __real_otap_plain_row_number(table, row, cleared(area, area_length), area_length, scratch, scratch_length) : number;
    case 22: /* a hand-held's scratch is enough */
        return scratch_length >= OTAP_SCRATCH_BYTES ? __real_otap_plain_row_number(table, row, area, area_length, enough, sizeof enough) : number;
    case 23: return number == OTAP_NO_STORE && (table == 0 || table > OTAP_TABLES) ? OTAP_NO_ROW : number; /* 17 before 11 */
    case 24: return number == OTAP_OK && table == OTAP_QUICK_TEXTS && row == 0 ? OTAP_NO_ROW : number;     /* shown, and not by this call */
    default: return number;
    }
}

/* A row that is shown, wrongly. */
static uint64_t wrong_shown(uint32_t table, uint8_t *scratch, uint64_t part)
{
    size_t length = otap_part_length(part), at;
    switch (WRONG) {
    case 25: return length == 0 ? 0 : part;                                          /* an empty text is no row */
    case 26: return part & ~UINT64_C(1);                                             /* as a part of the area */
    case 27: scratch[length] = scratch[length + 1] = 0; return part;                 /* with an end unit */
    case 28: return table == OTAP_QUICK_TEXTS && length > 2 ? part - (UINT64_C(2) << 32) : part; /* without the last unit */
    case 29: for (at = 0; at < length; at += 2) { scratch[at] = 0; } return part;    /* eight bits of each unit */
    case 30: if (length > 0) { scratch[0] ^= 0x80; } return part;
    default: return part;
    }
}

uint64_t __wrap_otap_plain_row_part(uint32_t table, uint32_t row, const uint8_t *area, uint64_t area_length, uint8_t *scratch, uint64_t scratch_length)
{
    uint64_t part = __real_otap_plain_row_part(table, row, area, area_length, scratch, scratch_length);
    if (part != 0) {
        return wrong_shown(table, scratch, part);
    }
    if (WRONG == 31 && scratch_length > 0) {
        scratch[0] = 0; /* a refusal that writes */
    }
    if (WRONG == 32 && table == OTAP_GROUP_CONTACTS && row < 0xFFFFFFFFu) { /* those behind a background group move up */
        return __real_otap_plain_row_part(table, row + 1, area, area_length, scratch, scratch_length);
    }
    return part;
}
