/* Wrong libraries of joining, for wrong.c. */
#ifndef WRONG_JOINING_H
#define WRONG_JOINING_H

#include "set.h"

uint64_t __real_otap_join(const uint8_t *, uint64_t, const uint8_t *, uint64_t, uint8_t *, uint64_t);
uint64_t __wrap_otap_join(const uint8_t *, uint64_t, const uint8_t *, uint64_t, uint8_t *, uint64_t);

static const uint64_t second_at_fault = (uint64_t)1 << 32;

/* The byte where the last setting that is counted starts, by DataLength, and with `behind` the one behind it; 0 where it is not in the request. */
static size_t last_setting(const uint8_t *request, size_t length, int behind)
{
    size_t at = 8;
    unsigned left = length > 8 ? request[7] - 1u + (unsigned)behind : 0;
    for (; left > 0 && left < 256; left--) {
        if (at + 2 >= length) {
            return 0;
        }
        at += 1 + request[at + 1] * 256u + request[at + 2];
    }
    return left == 0 && at < length ? at : 0;
}

static int ends_in_last(const uint8_t *request, size_t length)
{
    size_t at = last_setting(request, length, 0);
    return at != 0 && request[at] == 0xFF;
}

/* Joins them whatever they are. */
static uint64_t join_any(const uint8_t *first, size_t first_length, const uint8_t *second, size_t second_length, uint8_t *buffer)
{
    size_t length = first_length + second_length - 8;
    memcpy(buffer, first, first_length);
    memcpy(buffer + first_length, second + 8, second_length - 8);
    buffer[2] = (uint8_t)((length - 4) >> 8);
    buffer[3] = (uint8_t)(length - 4);
    buffer[5] &= 15;
    buffer[7] = (uint8_t)(first[7] + second[7]);
    return (uint64_t)length << 16;
}

/* What is wrong with a joined request, which is written. */
static uint64_t wrong_joined(const uint8_t *first, size_t first_length, const uint8_t *second, size_t second_length, uint8_t *buffer, uint64_t answer)
{
    size_t length = otap_join_length(answer);
    switch (WRONG) {
    case 68: buffer[7] = first[7]; break; /* the first's count alone */
    case 69: /* the second's settings before the first's */
        memcpy(buffer + 8, second + 8, second_length - 8);
        memcpy(buffer + second_length, first + 8, first_length - 8);
        break;
    case 70: buffer[2] = buffer[3] = 0; break; /* its length not stated */
    case 71: buffer[5] = first[5]; break; /* reserved bits of the first */
    case 72: buffer[length < OTAP_JOIN_BYTES ? length : 0] = 0; break; /* an end behind it */
    case 73: buffer[length - 1] &= (uint8_t)(second[last_setting(second, second_length, 0)] == 0xCD ? 0xE0 : 0xFF); break; /* a setting written anew */
    default: break;
    }
    return answer;
}

/* Refuses what may be joined. */
static uint64_t refused_joined(const uint8_t *joined, uint64_t answer)
{
    static uint8_t fresh[OTAP_STORE_BYTES];
    uint8_t said[OTAP_REPLY_BYTES];
    uint64_t judged;
    otap_start(fresh, sizeof fresh);
    judged = __real_otap_judge(joined, otap_join_length(answer), fresh, sizeof fresh, said, sizeof said);
    if (WRONG == 74 && otap_answer_number(judged) == OTAP_NO_ROOM) {
        return judged & 0xFFFF; /* asks for room */
    }
    if (WRONG == 75 && joined[7] == 255) {
        return OTAP_BAD_FIELD; /* 255 are too many */
    }
    if (WRONG == 100 && otap_join_length(answer) > OTAP_MESSAGE_BYTES / 2) {
        return OTAP_MESSAGE_LENGTH; /* half the bytes are too many */
    }
    return WRONG == 76 && otap_join_length(answer) == OTAP_MESSAGE_BYTES ? OTAP_MESSAGE_LENGTH : OTAP_OK; /* all the bytes are too many */
}

/* Joins what is to be refused: whether it does. */
static int joins_wrong(const uint8_t *first, size_t first_length, const uint8_t *second, size_t second_length, uint64_t answer)
{
    if (first_length < 9 || second_length < 9 || first_length + second_length - 8 > OTAP_JOIN_BYTES || otap_answer_number(answer) != OTAP_BAD_FIELD) {
        return 0;
    }
    switch (WRONG) {
    case 77: return (answer & second_at_fault) != 0 && ends_in_last(second, second_length); /* an FF item at the end of the second */
    case 78: return answer == OTAP_BAD_FIELD && (first[5] & 15) != (second[5] & 15); /* two coding types */
    case 79: return answer == OTAP_BAD_FIELD && first[7] + second[7] > 255; /* over 255 settings */
    case 80: return answer == (OTAP_BAD_FIELD | second_at_fault) && last_setting(second, second_length, 1) != 0; /* bytes left over */
    default: return 0;
    }
}

/* Another refusal than the one that comes first. */
static uint64_t wrong_refusal(const uint8_t *first, size_t first_length, const uint8_t *second, size_t second_length, uint64_t answer)
{
    static uint8_t buffer[OTAP_JOIN_BYTES];
    uint64_t of_second = __real_otap_join(second, second_length, second, second_length, buffer, sizeof buffer);
    int by_second = otap_join_second_at_fault(answer);
    switch (WRONG) {
    case 81: return answer & ~second_at_fault; /* does not say that it is the second */
    case 82: return by_second && otap_answer_failed(answer) > 0 ? answer + ((uint64_t)first[7] << 8) : answer; /* counts through */
    case 83: return otap_answer_number(of_second) != OTAP_OK ? of_second | second_at_fault : answer; /* the second before the first */
    case 84: return answer == OTAP_MESSAGE_LENGTH && first_length > 6 && first_length <= OTAP_MESSAGE_BYTES ? OTAP_BAD_FIELD : answer; /* too long together */
    case 85: return answer == OTAP_OTHER_MESSAGE && first[6] >> 3 != 1 ? OTAP_BAD_VERSION : answer; /* the version before MsgType */
    case 86: /* an FF item before bytes left over */
        return answer == OTAP_BAD_FIELD && last_setting(first, first_length, 1) != 0 && ends_in_last(first, first_length) ? answer | first[7] << 8 : answer;
    case 87: return answer | 8 << 16; /* a length */
    default: return answer;
    }
}

uint64_t __wrap_otap_join(const uint8_t *first, uint64_t first_length, const uint8_t *second, uint64_t second_length, uint8_t *buffer, uint64_t buffer_length)
{
    static uint8_t joined[OTAP_JOIN_BYTES];
    uint64_t answer = __real_otap_join(first, first_length, second, second_length, joined, sizeof joined), refusal;
    if (buffer_length < OTAP_JOIN_BYTES) {
        return WRONG == 88 && otap_answer_number(answer) != OTAP_OK ? answer : OTAP_SHORT_BUFFER; /* 15 last */
    }
    if (otap_answer_number(answer) == OTAP_OK) {
        refusal = refused_joined(joined, answer);
        if (refusal != OTAP_OK) {
            return refusal;
        }
        memcpy(buffer, joined, otap_join_length(answer));
        return wrong_joined(first, (size_t)first_length, second, (size_t)second_length, buffer, answer);
    }
    if (joins_wrong(first, (size_t)first_length, second, (size_t)second_length, answer)) {
        return join_any(first, (size_t)first_length, second, (size_t)second_length, buffer);
    }
    buffer[0] = (uint8_t)(WRONG == 89 ? 2 : buffer[0]); /* a refusal that writes */
    return wrong_refusal(first, (size_t)first_length, second, (size_t)second_length, answer);
}

#endif
