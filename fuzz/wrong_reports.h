/* Wrong libraries of reports and of the office's reader, for wrong.c. */
#ifndef WRONG_REPORTS_H
#define WRONG_REPORTS_H

#include "set.h"

uint64_t __real_otap_read_report(const uint8_t *, uint64_t);
uint64_t __real_otap_report_entry(const uint8_t *, uint64_t, uint32_t);
uint64_t __real_otap_report_places(const uint8_t *, uint64_t, uint32_t);
uint64_t __wrap_otap_report(const uint8_t *, uint64_t, uint32_t, const uint8_t *, uint64_t, uint8_t *, uint64_t);
uint64_t __wrap_otap_read_report(const uint8_t *, uint64_t);
uint64_t __wrap_otap_report_entry(const uint8_t *, uint64_t, uint32_t);
uint64_t __wrap_otap_report_places(const uint8_t *, uint64_t, uint32_t);

/* A good query without some of its types: with 48 those that come a second time, with 49 those that are unknown. */
static size_t fewer_types(const uint8_t *query, size_t length, uint8_t *other)
{
    uint8_t seen[256] = {0};
    size_t at, kept = 8;
    memcpy(other, query, 8);
    for (at = 8; at < length; at++) {
        int asks = (query[at] >= OTAP_ASK_GROUP_CONTACTS && query[at] <= OTAP_ASK_STATUS_TEXTS) || query[at] == OTAP_ASK_HASH;
        if (WRONG == 48 ? !seen[query[at]] : asks) {
            seen[query[at]] = 1;
            other[kept++] = query[at];
        }
    }
    other[2] = other[3] = 0;
    other[7] = (uint8_t)(kept - 8);
    return kept;
}

static int good_query(const uint8_t *query, uint64_t length)
{
    return length > 8 && length <= 263 && query[6] == 0x0A && query[7] == length - 8;
}

/* The length of a message that was written, stated in it. */
static uint64_t of_length(uint8_t *message, uint64_t answer, size_t length)
{
    message[2] = (uint8_t)((length - 4) >> 8);
    message[3] = (uint8_t)(length - 4);
    return (answer & 0xFFFF) | (uint64_t)length << 16;
}

static size_t last_parameter(const uint8_t *message, size_t length)
{
    size_t at = OTAP_REPORT_FIRST, next;
    while ((next = otap_places_next(__real_otap_report_places(message, length, (uint32_t)at))) < length) {
        at = next;
    }
    return at;
}

/* A message without its last parameter. */
static uint64_t without_last(uint8_t *message, uint64_t answer)
{
    message[9]--;
    return of_length(message, answer, last_parameter(message, otap_report_length(answer)));
}

/* The last parameter of a report of one message alone, as a second message. */
static uint64_t last_alone(uint8_t *message, uint64_t answer)
{
    size_t length = otap_report_length(answer), at = last_parameter(message, length);
    memmove(message + OTAP_REPORT_FIRST, message + at, length - at);
    message[8] = 2;
    message[9] = 1;
    return of_length(message, answer, OTAP_REPORT_FIRST + length - at);
}

/* A channel's index counted from 1. */
static void late_indexes(uint8_t *message, size_t length)
{
    size_t at = OTAP_REPORT_FIRST;
    while (at < length) {
        message[at + 4] = (uint8_t)(message[at + 4] + (message[at] == 0x8E && message[at + 1] == 0));
        at = otap_places_next(__real_otap_report_places(message, length, (uint32_t)at));
    }
}

/* What is wrong with a message that was written. */
static uint64_t wrong_message(uint32_t index, uint8_t *buffer, uint64_t answer)
{
    size_t length = otap_report_length(answer);
    if (WRONG == 42) {
        return answer + 0x100; /* one message more than there are */
    }
    if (WRONG == 43 && index == otap_report_total(answer) && index > 1) {
        buffer[7]++;
        return answer + 0x100; /* another total in the last message */
    }
    if (WRONG == 44 && length < OTAP_REPORT_BYTES) {
        buffer[length] = 0; /* an end behind the message */
    }
    if (WRONG == 46) {
        late_indexes(buffer, length);
    }
    return answer;
}

/* The report with fewer parameters in its messages than there could be: without the last, or (47) with that in a second message of its own. */
static uint64_t cut_early(const uint8_t *query, uint64_t query_length, uint32_t index, const uint8_t *store, uint8_t *buffer)
{
    static uint8_t message[OTAP_REPORT_BYTES];
    uint64_t first = __real_otap_report(query, query_length, 1, store, OTAP_STORE_BYTES, message, sizeof message), answer;
    int split = WRONG == 47 && otap_report_total(first) == 1 && message[9] > 1 && index <= 2;
    answer = split ? first + 0x100 : __real_otap_report(query, query_length, index, store, OTAP_STORE_BYTES, message, sizeof message);
    if (otap_answer_number(answer) == OTAP_OK && (split || (WRONG == 45 && message[9] > 1))) {
        message[7] = (uint8_t)otap_report_total(answer);
        answer = split && index == 2 ? last_alone(message, answer) : without_last(message, answer);
    }
    memcpy(buffer, message, otap_report_length(answer));
    return answer;
}

uint64_t __wrap_otap_report(const uint8_t *query, uint64_t query_length, uint32_t index, const uint8_t *store, uint64_t store_length, uint8_t *buffer,
                            uint64_t buffer_length)
{
    uint8_t other[OTAP_MESSAGE_BYTES];
    int sound = otap_answer_number(__real_otap_counts(store, store_length)) == OTAP_OK && buffer_length >= OTAP_REPORT_BYTES;
    int fewer = (WRONG == 48 || WRONG == 49) && good_query(query, query_length), lost = WRONG == 50 && sound; /* 50: background groups are not reported */
    uint64_t length = fewer ? fewer_types(query, (size_t)query_length, other) : query_length, answer;
    uint32_t low = WRONG == 51 ? index & 0xFF : index; /* an index in its low byte alone */
    if (takes_short(97, buffer_length)) {
        return report_short(query, query_length, index, store, store_length, buffer, buffer_length);
    }
    if ((WRONG == 45 || WRONG == 47) && sound && index > 0) {
        return cut_early(query, query_length, index, store, buffer);
    }
    answer = __real_otap_report(fewer ? other : query, length, low, lost ? without_background(store) : store, store_length, buffer, buffer_length);
    if (otap_answer_number(answer) == OTAP_OK) {
        return wrong_message(low, buffer, answer);
    }
    if (WRONG == 52 && (answer == OTAP_NO_MESSAGE || answer == OTAP_BAD_VERSION)) {
        buffer[0] = 2; /* a refusal that writes */
    }
    if (WRONG == 53 && answer == OTAP_NO_STORE && store_length == OTAP_STORE_BYTES) {
        return OTAP_NO_MESSAGE; /* takes any bytes for a store */
    }
    return WRONG == 54 && answer == OTAP_NO_STORE && query_length < 7 ? OTAP_MESSAGE_LENGTH : answer; /* the query before the store */
}

uint64_t __wrap_otap_read_report(const uint8_t *message, uint64_t message_length)
{
    uint64_t answer = __real_otap_read_report(message, message_length);
    if (WRONG == 55 && otap_read_parameters(answer) > 1) {
        return answer - (1u << 24); /* one parameter fewer */
    }
    if (WRONG == 56 && otap_read_parameters(answer) == 255) {
        return OTAP_BAD_FIELD; /* 255 are too many */
    }
    if (WRONG == 57 && otap_answer_number(answer) == OTAP_OK && otap_read_total(answer) == 1 && otap_read_parameters(answer) == 0) {
        return OTAP_BAD_FIELD; /* nothing to report is none */
    }
    if (WRONG == 58 && answer == OTAP_BAD_FIELD && message_length > 10 && message[7] == 1) {
        return 0x01010100; /* any bytes are a report of one parameter */
    }
    return WRONG == 99 && message_length > OTAP_MESSAGE_BYTES / 2 ? OTAP_MESSAGE_LENGTH : answer; /* half the bytes are too many */
}

uint64_t __wrap_otap_report_entry(const uint8_t *message, uint64_t message_length, uint32_t at)
{
    uint64_t answer = __real_otap_report_entry(message, message_length, at);
    uint32_t type = otap_reported_type(answer);
    if (WRONG == 59 && type == OTAP_ASK_GROUP_CONTACTS) {
        return answer ^ (uint64_t)1 << 32; /* another address */
    }
    if (WRONG == 60 && type == OTAP_ASK_LINES) {
        return answer & ~(uint64_t)0x1000; /* no IDtype */
    }
    if (WRONG == 61 && answer == 0 && at + (uint64_t)1 < message_length && message[at + 1] == 0x84) {
        return message[at] | 1u << 28; /* any reason is an unknown type */
    }
    if (WRONG == 62 && type == OTAP_ASK_EMERGENCY_KEY) {
        return answer ^ 0x800; /* the other kind that the key calls */
    }
    return WRONG == 63 && type == OTAP_ASK_STATUS_TEXTS ? answer - (32u << 16) : answer; /* a code from 0 */
}

uint64_t __wrap_otap_report_places(const uint8_t *message, uint64_t message_length, uint32_t at)
{
    uint64_t answer = __real_otap_report_places(message, message_length, at);
    if (WRONG == 64 && otap_places_text_length(answer) > 0) {
        return answer + ((uint64_t)2 << 32); /* a text with its end */
    }
    if (WRONG == 65 && answer != 0) {
        return answer + 1; /* the byte behind it, one too far */
    }
    if (WRONG == 66 && otap_places_digits(answer) > 2) {
        return answer - ((uint64_t)1 << 56); /* one digit fewer */
    }
    return WRONG == 67 && otap_places_text(answer) != 0 && otap_places_text_length(answer) == 0 ? answer & 0xFFFFFFFF0000FFFFu : answer; /* no place */
}

#endif
