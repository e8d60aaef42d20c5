/* What fitting.h says. It has no part in set.h: the calls of the other set have their own names here. */
#include "fitting.h"
#include "lent.h"
#include "otap_vehicle.h"
#include "places.h"

#ifdef VEHICLE
#define OTHER(name) otap_##name
enum { STORE_BYTES = OTAP_STORE_BYTES, MOST_BYTES = OTAP_MESSAGE_BYTES, LINE_PLACES = OTAP_LINE_ROWS, CHANNEL_PLACES = OTAP_CHANNEL_PLACES };
static const Table *const others = in_area;
#else
#define OTHER(name) otap_vehicle_##name
enum {
    STORE_BYTES = OTAP_VEHICLE_STORE_BYTES,
    MOST_BYTES = OTAP_VEHICLE_MESSAGE_BYTES,
    LINE_PLACES = OTAP_VEHICLE_LINE_ROWS,
    CHANNEL_PLACES = OTAP_VEHICLE_CHANNEL_PLACES
};
static const Table *const others = in_places;
#endif

/* A vehicle's goes from input to input. */
static uint8_t other[STORE_BYTES];

void meet_other(void)
{
    static int started;
    if (!started || shares(others)) {
        must(OTHER(start)(other, sizeof other) == OTAP_OK, "the other set can be started");
    }
    started = 1;
}

static uint8_t kept[STORE_BYTES];
static uint64_t kept_key;

int recall_other(uint64_t key)
{
    if (key != kept_key || key == 0) {
        return 0;
    }
    memcpy(other, kept, sizeof other);
    return 1;
}

void keep_other(uint64_t key)
{
    memcpy(kept, other, sizeof kept);
    kept_key = key;
}

/* The number, and the failed ID from bit 8 on: the first line without a place comes behind a replace and an add for each place. */
static uint64_t expected(const Sent *sent)
{
    if (sent->length > MOST_BYTES) {
        return OTAP_MESSAGE_LENGTH;
    }
    if (sent->part == OTAP_EXPORT_LINES && sent->lines > LINE_PLACES) {
        return OTAP_NO_ROOM | (LINE_PLACES + 2) << 8;
    }
    if (sent->part == OTAP_EXPORT_CHANNELS && sent->channels > CHANNEL_PLACES) {
        return OTAP_NO_ROOM | 1 << 8;
    }
    return shares(others) && sent->over > 0 ? OTAP_NO_ROOM | sent->over << 8 : OTAP_OK;
}

int other_takes(const Sent *sent)
{
    static uint8_t before[STORE_BYTES];
    uint8_t reply[OTAP_REPLY_BYTES];
    uint64_t answer;
    memcpy(before, other, sizeof before);
    answer = OTHER(commit)(sent->request, sent->length, other, sizeof other, reply, sizeof reply) & 0xFFFF;
    must(answer == expected(sent), "the other set takes a part exactly where it fits, and says why it does not");
    must(answer == OTAP_OK || same_bytes(before, other, sizeof before), "a part that does not fit changes nothing");
    return answer == OTAP_OK;
}

void check_other_part(const Sent *sent)
{
    static uint8_t buffer[OTAP_VEHICLE_EXPORT_BYTES];
    uint64_t answer = OTHER(export)(sent->part, other, sizeof other, buffer, sizeof buffer);
    must(answer == (uint64_t)sent->length << 16 && same_bytes(buffer, sent->request, sent->length), "the other set has the same tables");
}

int fits_handheld(const uint8_t *setting, size_t length, unsigned coding)
{
    static uint8_t request[8 + OTAP_MESSAGE_BYTES] = {2, 2, 0, 0, 8, 0, 8, 1};
    uint8_t reply[OTAP_REPLY_BYTES];
    uint64_t answer, counts;
    memcpy(request + 8, setting, length);
    request[5] = (uint8_t)coding;
    answer = OTHER(commit)(request, 8 + length, other, sizeof other, reply, sizeof reply);
    counts = OTHER(counts)(other, sizeof other);
    must(otap_answer_number(answer) == OTAP_OK || otap_answer_number(answer) == OTAP_NO_ROOM, "what is in range is taken by the other set, or lacks room");
    return otap_answer_number(answer) == OTAP_OK && otap_counts_lines(counts) <= OTAP_LINE_ROWS && otap_counts_channels(counts) <= OTAP_CHANNEL_PLACES
        && text_sum(others, other) <= SHARED_BYTES;
}
