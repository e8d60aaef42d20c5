/* What the tests of short updates share: the stores that are compared, what the check says of a message, and what is proposed. */
#ifndef UPDATES_H
#define UPDATES_H

#include "answers.h"
#include "named.h"

/* The kept hash stands at a store's start, and its tables behind it. */
enum { HASH_BYTES = 11 };

static uint8_t held[OTAP_STORE_BYTES], wanted[OTAP_STORE_BYTES];
static uint8_t made[OTAP_PROPOSAL_BYTES + 64]; /* what was proposed, and the bytes of the buffer behind it */
static Message request;

static inline int same_tables(const uint8_t *one, const uint8_t *other)
{
    return memcmp(one + HASH_BYTES, other + HASH_BYTES, OTAP_STORE_BYTES - HASH_BYTES) == 0;
}

/* A message to a store, by the set's own archive: its number. */
static inline uint32_t take(const Message *m, uint8_t *bytes)
{
    return otap_answer_number(judge_and_commit(m->bytes, m->length, bytes, OTAP_STORE_BYTES, reply, sizeof reply));
}

/* This request, to one store: it is taken. */
static inline void taken_by(uint8_t *bytes)
{
    same("taken", 0, OTAP_OK, take(&request, bytes));
}

/* A fresh store that is held, and the same that is wanted. */
static inline void both_fresh(void)
{
    same("start", 0, otap_start(held, sizeof held), otap_start(wanted, sizeof wanted));
}

/* What the check answers to these lengths of both stores: no store changes, nor does the message. */
static inline uint64_t check_with(size_t first_length, size_t second_length)
{
    static uint8_t one[OTAP_STORE_BYTES], two[OTAP_STORE_BYTES];
    static Message before;
    uint64_t answer;
    memcpy(one, held, sizeof one);
    memcpy(two, wanted, sizeof two);
    before = request;
    answer = otap_check_update(held, first_length, wanted, second_length, request.bytes, request.length);
    same("checking leaves the stores", 0, (uint64_t)(memcmp(one, held, sizeof one) != 0), (uint64_t)(memcmp(two, wanted, sizeof two) != 0));
    same("and the message", 0, 0, (uint64_t)(memcmp(&before, &request, sizeof before) != 0));
    return answer;
}

/* What the check must say, by the set's own archive and a comparison: a request, MsgType 0, that is taken and leaves the tables that are wanted. */
static inline int is_update(void)
{
    static uint8_t after[OTAP_STORE_BYTES];
    memcpy(after, held, sizeof after);
    return take(&request, after) == OTAP_OK && request.bytes[6] % 8 == 0 && same_tables(after, wanted);
}

/* The whole answer of the check: a 1 in bit 8, or 0. */
static inline void says(const char *what, int yes)
{
    uint64_t answer = check_with(sizeof held, sizeof wanted);
    same(what, (uint64_t)yes << 8, answer, (uint64_t)otap_check_yes(answer) << 8);
    same(what, 0, OTAP_OK, otap_answer_number(answer));
    same("as committing and comparing say", (uint64_t)yes, (uint64_t)is_update(), (uint64_t)yes);
}

/* Proposes with these lengths: no store changes, nor do the bytes of the buffer past what is written, and a refusal is its number alone. */
static inline uint64_t propose_with(size_t first_length, size_t second_length, size_t buffer_length)
{
    static uint8_t one[OTAP_STORE_BYTES], two[OTAP_STORE_BYTES];
    uint64_t answer;
    size_t at;
    memcpy(one, held, sizeof one);
    memcpy(two, wanted, sizeof two);
    memset(made, 0xA5, sizeof made);
    answer = otap_propose(held, first_length, wanted, second_length, made, buffer_length);
    same("proposing leaves the stores", 0, (uint64_t)(memcmp(one, held, sizeof one) != 0), (uint64_t)(memcmp(two, wanted, sizeof two) != 0));
    same("its bits", answer, (uint64_t)otap_proposal_length(answer) << 16 | otap_answer_number(answer), answer);
    same("a length, or a refusal", 1, (otap_proposal_length(answer) > 0) == (otap_answer_number(answer) == OTAP_OK), 1);
    same("a length within the buffer", 1, otap_proposal_length(answer) <= buffer_length, 1);
    for (at = otap_proposal_length(answer); at < sizeof made; at++) {
        same("bytes past the request stay", 0xA5, 0xA5, made[at]);
    }
    return answer;
}

static inline uint64_t propose(void)
{
    return propose_with(sizeof held, sizeof wanted, OTAP_PROPOSAL_BYTES);
}

/* These bytes are proposed, and are left in `request`. */
static inline void proposes(const char *what, const uint8_t *bytes, size_t length)
{
    uint64_t answer = propose();
    same(what, (uint64_t)length << 16, answer, (uint64_t)length << 16);
    same(what, 0, 0, (uint64_t)(memcmp(made, bytes, length) != 0));
    write_bytes(&request, made, length);
}

/* The wanted store's part is proposed, as the set's own archive exports it. */
static inline void proposes_part(const char *what, uint32_t part)
{
    size_t length = otap_export_length(otap_export(part, wanted, sizeof wanted, buffer, sizeof buffer));
    proposes(what, buffer, length);
}

#endif
