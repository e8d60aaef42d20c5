/* Wrong libraries, for wrong.c, that go by other limits than the set's own: by one place fewer, or by sizes as small as the other set's. */
#ifndef WRONG_LIMITS_H
#define WRONG_LIMITS_H

#include "places.h"
#include "wrong_sets.h"

uint64_t __real_otap_commit(const uint8_t *, uint64_t, uint8_t *, uint64_t, uint8_t *, uint64_t);
uint64_t __real_otap_export(uint32_t, const uint8_t *, uint64_t, uint8_t *, uint64_t);
uint64_t __real_otap_report(const uint8_t *, uint64_t, uint32_t, const uint8_t *, uint64_t, uint8_t *, uint64_t);
uint64_t __real_otap_counts(const uint8_t *, uint64_t);

/* Whether a message takes the last place of the lines (93) or of the channels (94). */
static int takes_last(uint64_t before, uint64_t after)
{
    return WRONG == 93 ? otap_counts_lines(before) < OTAP_LINE_ROWS && otap_counts_lines(after) == OTAP_LINE_ROWS
                       : WRONG == 94 && otap_counts_channels(before) < OTAP_CHANNEL_PLACES && otap_counts_channels(after) == OTAP_CHANNEL_PLACES;
}

/* Whether a message takes the last bytes of a hand-held's area (110), or has a vehicle hold more texts than such an area could (115). */
static int fills_area(const uint8_t *store, const uint8_t *after)
{
    size_t sum = text_sum(layout, after);
    return WRONG == 110 ? sum == SHARED_BYTES && sum > text_sum(layout, store) : WRONG == 115 && sum > SHARED_BYTES;
}

/* 93, 94, 110, 115: the last place lacks room; 95: half the bytes that a message may have are too many. The refusal, or 0 where this is none. */
static uint64_t refuse_large(const uint8_t *message, uint64_t message_length, const uint8_t *store, uint64_t store_length, uint8_t *reply,
                             uint64_t reply_length)
{
    static uint8_t after[OTAP_STORE_BYTES];
    uint8_t other[OTAP_REPLY_BYTES];
    uint64_t before = __real_otap_counts(store, store_length);
    if (otap_answer_number(before) != OTAP_OK || reply_length < OTAP_REPLY_BYTES) {
        return 0;
    }
    memcpy(after, store, sizeof after);
    if (otap_answer_number(__real_otap_commit(message, message_length, after, sizeof after, other, sizeof other)) != OTAP_OK) {
        return 0;
    }
    if (takes_last(before, __real_otap_counts(after, sizeof after)) || fills_area(store, after)) {
        return lacks_room(reply, 1);
    }
    return WRONG == 95 && message_length > OTAP_MESSAGE_BYTES / 2 ? OTAP_MESSAGE_LENGTH : 0;
}

/* Whether a buffer that is too short is taken all the same: 96 of an export, 97 of a report. */
static int takes_short(int wrong, uint64_t buffer_length)
{
    return WRONG == wrong && buffer_length >= OTAP_EXPORT_BYTES / 2 && buffer_length < OTAP_EXPORT_BYTES;
}

/* What was written at the front of a longer buffer, where it fits. */
static uint64_t moved(const uint8_t *from, uint8_t *buffer, uint64_t buffer_length, uint64_t answer)
{
    memcpy(buffer, from, otap_export_length(answer) <= buffer_length ? otap_export_length(answer) : 0);
    return answer;
}

static uint64_t export_short(uint32_t part, const uint8_t *store, uint64_t store_length, uint8_t *buffer, uint64_t buffer_length)
{
    static uint8_t whole[OTAP_EXPORT_BYTES];
    return moved(whole, buffer, buffer_length, __real_otap_export(part, store, store_length, whole, sizeof whole));
}

static uint64_t report_short(const uint8_t *query, uint64_t query_length, uint32_t index, const uint8_t *store, uint64_t store_length, uint8_t *buffer,
                             uint64_t buffer_length)
{
    static uint8_t whole[OTAP_REPORT_BYTES];
    return moved(whole, buffer, buffer_length, __real_otap_report(query, query_length, index, store, store_length, whole, sizeof whole));
}

/* 98: only the first quarter of the lines is shown, as of a vehicle what a hand-held has room for. */
static int past_quarter(uint32_t table, uint32_t row)
{
    return WRONG == 98 && table == OTAP_LINES && row >= OTAP_LINE_ROWS / 4;
}

#endif
