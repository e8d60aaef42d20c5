/*
 * What the tests of C share of a message that is taken: it is judged first, and then committed. Both answer the same and leave the same reply buffer, and
 * judging leaves the store.
 */
#ifndef JUDGED_H
#define JUDGED_H

#include "set.h"

#include <stdio.h>
#include <stdlib.h>
#include <string.h>

/* The longest store and reply buffer that these tests lend: a vehicle's store to any set. */
enum { LENT_BYTES = OTAP_VEHICLE_STORE_BYTES + 64 };

static inline void judged_must(int holds, const char *what)
{
    if (!holds) {
        fprintf(stderr, "judging and committing: %s\n", what);
        exit(1);
    }
}

static inline uint64_t judge_and_commit(const uint8_t *message, uint64_t message_length, uint8_t *store, uint64_t store_length,
                                        uint8_t *reply, uint64_t reply_length)
{
    static uint8_t before[LENT_BYTES], forecast[LENT_BYTES];
    uint64_t judged, answer;
    judged_must(store_length <= LENT_BYTES && reply_length <= LENT_BYTES, "longer than these tests lend");
    memcpy(before, store, (size_t)store_length);
    memcpy(forecast, reply, (size_t)reply_length);
    judged = otap_judge(message, message_length, store, store_length, forecast, reply_length);
    judged_must(memcmp(before, store, (size_t)store_length) == 0, "judging changed the store");
    answer = otap_commit(message, message_length, store, store_length, reply, reply_length);
    judged_must(judged == answer, "another answer");
    judged_must(memcmp(forecast, reply, (size_t)reply_length) == 0, "another reply buffer");
    judged_must(otap_answer_number(answer) == OTAP_OK || memcmp(before, store, (size_t)store_length) == 0, "a refusal changed the store");
    return answer;
}

#endif
