/*
 * otap_desk.h: the C functions of libotap_desk.a, the plain engine: a desk emulator of a PDT hand-held, for the training room. otap.h, which this file
 * includes, has the hand-held's own calls; what is said there of pointers, overlap, the lock and the stack holds here too.
 *
 * The emulator has no tables. It keeps the requests that were taken, one behind the other, in the area, bytes that the caller lends, and nothing else: whatever
 * it is asked, it reads the requests from the first. So it answers, replies and shows the rows of a hand-held that took the same messages, by the same
 * limits, for as long as the area lasts; and who reads the area reads what was sent.
 *
 * The area is OTAP_AREA_BYTES bytes: the first four say how many of those behind them are used, these four not counted; then each request as it was received,
 * behind its length in two bytes; then zeros. Numbers are in network order, high byte first. A fresh area is all 0. Bytes are an area exactly where they have
 * this form and a fresh hand-held takes each request in its turn: every other byte string is 11, in every call.
 *
 * It is slow, and is meant to be: each call reads all that is kept, and judges each of it by all that was kept before. So a call, a row too, costs time that
 * grows with the square of what is kept. It suits a desk, and no radio: firmware links libotap_handheld.a.
 *
 * The archive needs nothing but memcpy and memset. No name of it is in another archive, so that a program may link a hand-held beside it.
 */
#ifndef OTAP_DESK_H
#define OTAP_DESK_H

#include "otap.h"

#ifdef __cplusplus
extern "C" {
#endif

/* Sizes in bytes. A message and a reply buffer have those of otap.h. */
enum {
    OTAP_AREA_BYTES = 32768,       /* an area has exactly as many */
    OTAP_PLAIN_SCRATCH_BYTES = 64  /* a scratch has at least as many */
};

/* The number that a hand-held never gives. */
enum {
    OTAP_AREA_FULL = 18            /* of otap_plain_take: the request would be taken, but passes the area's end */
};

/* Stack in bytes, as in otap.h, measured on x86-64 alone; there is no working copy. */
enum {
    OTAP_PLAIN_START_STACK = 256,  /* measured 24 */
    OTAP_PLAIN_TAKE_STACK = 6656,  /* 3,544 */
    OTAP_PLAIN_ROW_STACK = 7168    /* 3,944 otap_plain_row_number, 3,992 otap_plain_row_part */
};

/*
 * Makes a fresh area of any OTAP_AREA_BYTES bytes: nothing is kept.
 *   0   every byte of the area is written
 *   11  area_length is not OTAP_AREA_BYTES; no byte is touched
 */
uint32_t otap_plain_start(uint8_t *area, uint64_t area_length);

/*
 * Takes one message, a request or a result query, as otap_commit does: the same answer and the same reply as those of a hand-held that took the kept
 * requests. A request that is taken is put behind the kept ones; a message that is refused is not kept, and a result query is answered and not kept.
 *   0         a request was taken and is kept, or a result query matches: the reply is written
 *   1 to 5    refused, or the query does not match: the area stays, and the reply is written
 *   10 to 14  no byte of any buffer is touched; failed ID 0, no send, no reboot, reply length 0. 11: not an area
 *   18        OTAP_AREA_FULL: the request would be taken, but with its length it passes the area's end; as 10 to 14. A shorter one may still be taken
 * The first that applies is the answer: as in otap_commit, and 18 last. The message is only read.
 * Unpack with otap_answer_number, otap_answer_failed, otap_answer_send, otap_answer_reboot, otap_answer_length.
 */
uint64_t otap_plain_take(const uint8_t *message, uint64_t message_length,
                         uint8_t *area, uint64_t area_length,
                         uint8_t *reply, uint64_t reply_length);

/*
 * Whether a row can be shown. Touches no byte.
 *   0   yes: otap_plain_row_part with the same lengths gives its part
 *   15  scratch_length is under OTAP_PLAIN_SCRATCH_BYTES
 *   11  not an area
 *   17  no such table, no such row, nothing in it, or a background group in it
 * The first that applies, in this order: 15, 11, 17. Tables and rows are those of otap_row_number.
 */
uint32_t otap_plain_row_number(uint32_t table, uint32_t row,
                               const uint8_t *area, uint64_t area_length,
                               const uint8_t *scratch, uint64_t scratch_length);

/*
 * What a row shows: 16-bit units, high byte first, without an end unit, the same as otap_row_part gives of a hand-held. Here they are always written at the
 * scratch's start, text or number, since what is kept may be coded otherwise; its other bytes stay. An empty status text is an empty part of the scratch.
 * The answer is 0, and no byte is touched, exactly where otap_plain_row_number would not answer 0. The area is only read. The part is good until the scratch
 * is next written; a message that is taken does not reach it.
 * In the answer, bit 0 is 1, bits 32 to 47 are the length; all others are 0.
 * Unpack with otap_part_length, or as a part of otap_row_part is: otap_part_in_scratch is 1, and otap_part_offset 0.
 */
uint64_t otap_plain_row_part(uint32_t table, uint32_t row,
                             const uint8_t *area, uint64_t area_length,
                             uint8_t *scratch, uint64_t scratch_length);

#ifdef __cplusplus
}
#endif

#endif
