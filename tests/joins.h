/* What the tests of joining share: two requests and what is made of them, and a refusal that must be. */
#ifndef JOINS_H
#define JOINS_H

#include "answers.h"

static const uint8_t home[] = {0x07, 0xE4, 0xC0};

/* Replaces the channels by 241 and 640; adds PABX 2345. */
static const uint8_t two_channels[] = {2, 2, 0, 0x0C, 8, 7, 8, 1, 0xCE, 0, 7, 0xC0, 2, 0x0F, 0x12, 0x80};
static const uint8_t one_line[] = {2, 2, 0, 0x0E, 8, 7, 8, 1, 0xCA, 0, 9, 0x42, 1, 0x23, 0x45, 0xFF, 0, 0};

static Message first, second, made;

/* Joins with a buffer of this size: the requests stay, and the bytes of the buffer past what is written too. What is written is left in `made`. */
static inline uint64_t join_with(size_t buffer_length)
{
    static uint8_t joined[OTAP_JOIN_BYTES + 64];
    static Message one, two;
    uint64_t answer;
    size_t at;
    one = first;
    two = second;
    memset(joined, 0xA5, sizeof joined);
    answer = otap_join(first.bytes, first.length, second.bytes, second.length, joined, buffer_length);
    same("a length within the buffer", 1, otap_join_length(answer) <= buffer_length, 1);
    for (at = otap_join_length(answer); at < sizeof joined; at++) {
        same("bytes past the joined request stay", 0xA5, 0xA5, joined[at]);
    }
    same("joining leaves the requests", 0, (uint64_t)(memcmp(&one, &first, sizeof one) != 0), (uint64_t)(memcmp(&two, &second, sizeof two) != 0));
    made.length = otap_join_length(answer);
    memcpy(made.bytes, joined, made.length);
    return answer;
}

static inline uint64_t join(void)
{
    return join_with(OTAP_JOIN_BYTES);
}

/* A request of as many home numbers. */
static inline void write_homes(Message *m, unsigned count)
{
    unsigned each;
    open_request(m, count);
    for (each = 0; each < count; each++) {
        put_bytes(m, 0xCD, home, sizeof home);
    }
}

/* A refusal has this number and failed ID, says which request it is, and has written nothing. */
static inline void refused(const char *what, uint64_t number, uint64_t failed, int by_second, uint64_t answer)
{
    same(what, number | failed << 8 | (uint64_t)by_second << 32, answer, answer);
    same(what, number, otap_answer_number(answer), number);
    same("its failed ID", failed, otap_answer_failed(answer), failed);
    same("which is at fault", (uint64_t)by_second, (uint64_t)otap_join_second_at_fault(answer), (uint64_t)by_second);
    same("a refusal has no length", 0, otap_join_length(answer), made.length);
}

#endif
