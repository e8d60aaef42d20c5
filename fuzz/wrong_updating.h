/* Wrong libraries of updates, for wrong.c. */
#ifndef WRONG_UPDATING_H
#define WRONG_UPDATING_H

#include "set.h"

uint64_t __real_otap_check_update(const uint8_t *, uint64_t, const uint8_t *, uint64_t, const uint8_t *, uint64_t);
uint64_t __real_otap_propose(const uint8_t *, uint64_t, const uint8_t *, uint64_t, uint8_t *, uint64_t);
uint64_t __wrap_otap_check_update(const uint8_t *, uint64_t, const uint8_t *, uint64_t, const uint8_t *, uint64_t);
uint64_t __wrap_otap_propose(const uint8_t *, uint64_t, const uint8_t *, uint64_t, uint8_t *, uint64_t);

/* The kept hash is the first bytes of a store; and the bit of a yes. */
enum { HASH_BYTES = 11, SAYS_YES = 0x100 };

/* The answer of the check to stores, where the first takes the message and has then become `after`. */
static uint64_t wrong_taken_update(const uint8_t *message, uint8_t *first, const uint8_t *after, const uint8_t *second, uint64_t answer)
{
    int query = (message[6] & 7) != 0;
    switch (WRONG) {
    case 116: return query ? answer : SAYS_YES; /* whatever the second has */
    case 117: return memcmp(after, second, HASH_BYTES) == 0 ? answer : OTAP_OK; /* the kept hash is compared too */
    case 121: return query && memcmp(after, second, OTAP_STORE_BYTES) == 0 ? SAYS_YES : answer; /* a result query that matches is an update of nothing */
    case 122: memcpy(first, after, OTAP_STORE_BYTES); return answer; /* the first is left as the request makes it */
    default: return answer;
    }
}

uint64_t __wrap_otap_check_update(const uint8_t *first, uint64_t first_length, const uint8_t *second, uint64_t second_length, const uint8_t *request,
                                  uint64_t request_length)
{
    static uint8_t after[OTAP_STORE_BYTES];
    uint8_t reply[OTAP_REPLY_BYTES];
    uint64_t answer = __real_otap_check_update(first, first_length, second, second_length, request, request_length);
    if (otap_answer_number(answer) != OTAP_OK) {
        return WRONG == 123 && __real_otap_counts(first, first_length) != OTAP_NO_STORE ? OTAP_OK : answer; /* what is no second store is a no */
    }
    memcpy(after, first, sizeof after);
    if (otap_answer_number(__real_otap_commit(request, request_length, after, sizeof after, reply, sizeof reply)) != OTAP_OK) {
        return answer;
    }
    return wrong_taken_update(request, (uint8_t *)(uintptr_t)first, after, second, answer);
}

/* The first part that two stores export otherwise; 0 if there is none. */
static uint32_t first_differing(const uint8_t *first, const uint8_t *second)
{
    static uint8_t one[OTAP_EXPORT_BYTES], two[OTAP_EXPORT_BYTES];
    uint32_t part;
    for (part = 1; part <= OTAP_EXPORT_PARTS; part++) {
        uint64_t answer = __real_otap_export(part, first, OTAP_STORE_BYTES, one, sizeof one);
        if (answer != __real_otap_export(part, second, OTAP_STORE_BYTES, two, sizeof two) || memcmp(one, two, otap_export_length(answer)) != 0) {
            return part;
        }
    }
    return 0;
}

uint64_t __wrap_otap_propose(const uint8_t *first, uint64_t first_length, const uint8_t *second, uint64_t second_length, uint8_t *buffer,
                             uint64_t buffer_length)
{
    int stores = __real_otap_counts(first, first_length) != OTAP_NO_STORE && __real_otap_counts(second, second_length) != OTAP_NO_STORE;
    uint64_t answer;
    if (WRONG == 124 && buffer_length < OTAP_PROPOSAL_BYTES) {
        return OTAP_SHORT_BUFFER; /* 15 first */
    }
    if (WRONG == 125 && stores && buffer_length >= OTAP_PROPOSAL_BYTES && memcmp(first, second, HASH_BYTES) != 0) {
        return OTAP_NO_SINGLE_PART; /* the kept hash is one part more */
    }
    answer = WRONG == 118 ? __real_otap_propose(second, second_length, first, first_length, buffer, buffer_length) /* the first's part */
                          : __real_otap_propose(first, first_length, second, second_length, buffer, buffer_length);
    if (WRONG == 119 && answer == OTAP_NO_SINGLE_PART && first_differing(first, second) != 0) {
        return __real_otap_export(first_differing(first, second), second, second_length, buffer, buffer_length); /* one of several */
    }
    if (WRONG == 120 && answer == OTAP_NO_SINGLE_PART) {
        buffer[0] = 2; /* a refusal that writes */
    }
    return answer;
}

#endif
