/* Wrong sets, for wrong.c, which take a request by itself right: only a joined one shows what is wrong. */
#ifndef WRONG_SETS_H
#define WRONG_SETS_H

#include "set.h"

#include <string.h>

uint64_t __real_otap_judge(const uint8_t *, uint64_t, const uint8_t *, uint64_t, uint8_t *, uint64_t);

/* The place of the first channels behind the first setting, of a message that is taken; 0 if it has none. */
static unsigned late_channels(const uint8_t *message)
{
    size_t at = 8;
    unsigned each;
    for (each = 1; each <= message[7] && (message[6] & 7) == 0; each++) {
        if (each > 1 && message[at] == OTAP_ASK_CHANNELS) {
            return each;
        }
        at += 1 + message[at + 1] * 256u + message[at + 2];
    }
    return 0;
}

/* 90: a failed ID is 2 at most. */
static uint64_t early_failed(uint8_t *reply, uint64_t answer)
{
    uint32_t failed = otap_answer_failed(answer);
    if (otap_answer_number(answer) != OTAP_NO_ROOM || failed <= 2) {
        return answer;
    }
    reply[8] = 2;
    return answer - ((uint64_t)(failed - 2) << 8);
}

/* 91: channels behind another setting are not kept. */
static void lose_late(const uint8_t *message, const uint8_t *before, uint8_t *store)
{
    if (late_channels(message) != 0) {
        memcpy(store + CHANNEL_COUNT_AT, before + CHANNEL_COUNT_AT, LINE_COUNT_AT - CHANNEL_COUNT_AT);
    }
}

/* The answer of a setting without room, with its reply. */
static uint64_t lacks_room(uint8_t *reply, unsigned failed)
{
    const uint8_t refusal[] = {2, 2, 0, 6, 8, 0, 9, OTAP_NO_ROOM, (uint8_t)failed, 0};
    memcpy(reply, refusal, sizeof refusal);
    return OTAP_NO_ROOM | (uint64_t)failed << 8 | 1u << 16 | (uint64_t)sizeof refusal << 24;
}

/* 92: channels behind another setting lack room: the refusal, or 0 where this is none. */
static uint64_t refuse_late(const uint8_t *message, uint64_t message_length, const uint8_t *store, uint64_t store_length, uint8_t *reply, uint64_t reply_length)
{
    uint8_t other[OTAP_REPLY_BYTES];
    uint64_t answer = __real_otap_judge(message, message_length, store, store_length, other, sizeof other);
    if (otap_answer_number(answer) != OTAP_OK || reply_length < OTAP_REPLY_BYTES || late_channels(message) == 0) {
        return 0;
    }
    return lacks_room(reply, late_channels(message));
}

#endif
