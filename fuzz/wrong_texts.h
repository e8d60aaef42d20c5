/* Wrong libraries of texts, for wrong.c: 105 to 107 of either set, by where a text stands and how it is exported; 108 to 114 of a hand-held, by its area. */
#ifndef WRONG_TEXTS_H
#define WRONG_TEXTS_H

#include "wrong_limits.h"

uint64_t __real_otap_row_part(uint32_t, uint32_t, const uint8_t *, uint64_t, uint8_t *, uint64_t);

/* The text of another row, if it has one, for that of this row. */
static uint64_t part_of(uint32_t table, uint32_t row, const uint8_t *store, uint64_t store_length, uint64_t part)
{
    uint8_t scratch[OTAP_SCRATCH_BYTES];
    uint64_t other = __real_otap_row_part(table, row, store, store_length, scratch, sizeof scratch);
    return part == 0 || otap_part_in_scratch(part) || other == 0 || otap_part_in_scratch(other) ? part : other;
}

/* The place of the last text, in the order of an area, that has so many bytes less than a text may have; whether there is one. */
static int last_text(const uint8_t *store, size_t less, uint32_t *table, uint32_t *place)
{
    uint32_t each, at;
    int found = 0;
    for (each = 0; each < OTAP_TABLES; each++) {
        for (at = 0; at < layout[text_order[each]].rows; at++) {
            size_t length = text_length(layout, store, text_order[each], at);
            if (length > 0 && length + less <= layout[text_order[each]].most) {
                *table = text_order[each];
                *place = at;
                found = 1;
            }
        }
    }
    return found;
}

/* A store without its last text. */
static const uint8_t *without_last_text(const uint8_t *store)
{
    static uint8_t other[OTAP_STORE_BYTES];
    uint32_t table, place;
    memcpy(other, store, sizeof other);
    if (last_text(store, 0, &table, &place)) {
        Text text = text_at(store, table, place);
        memset(other + text.offset, 0, text.length);
        other[slot_at(table, place) + layout[table].before] = 0;
    }
    return other;
}

/* An answer of 0, with its reply. */
static uint64_t says_taken(uint8_t *reply)
{
    static const uint8_t good[] = {2, 2, 0, 6, 8, 0, 9, 0, 0, 0};
    memcpy(reply, good, sizeof good);
    return (uint64_t)sizeof good << 24;
}

/* An answer of 2 from an area with less room than the longest text needs. */
static uint64_t wrong_room(const uint8_t *message, const uint8_t *store, uint8_t *reply, uint64_t answer)
{
    if (otap_answer_number(answer) != OTAP_NO_ROOM || text_sum(layout, store) + layout[OTAP_QUICK_TEXTS].most <= SHARED_BYTES) {
        return answer;
    }
    switch (WRONG) {
    case 108: case 109: return says_taken(reply); /* says that it has what it has not; 109 has more than the area holds, by `overfill` */
    case 113: reply[8] = message[7]; return (answer & ~(uint64_t)0xFF00) | (uint64_t)message[7] << 8; /* the failed ID of the last setting */
    default: return answer;
    }
}

/* A full area holds one unit more, behind it. */
static void overfill(uint8_t *store)
{
    uint32_t table, place;
    if (text_sum(layout, store) == SHARED_BYTES && last_text(store, 2, &table, &place)) {
        store[slot_at(table, place) + layout[table].before]++;
        store[SHARED_AT + SHARED_BYTES + 1] = 'A';
    }
}

/* A request of two settings as it is, or with the second first if it has room so and has none as it is: the texts are summed after both. */
static const uint8_t *in_best_order(const uint8_t *message, uint64_t length, const uint8_t *store, uint64_t store_length)
{
    static uint8_t other[OTAP_MESSAGE_BYTES];
    uint8_t reply[OTAP_REPLY_BYTES];
    uint64_t first, answer = __real_otap_judge(message, length, store, store_length, reply, sizeof reply);
    if (otap_answer_number(answer) != OTAP_NO_ROOM || message[7] != 2) {
        return message;
    }
    first = 1 + message[9] * 256u + message[10];
    memcpy(other, message, 8);
    memcpy(other + 8, message + 8 + first, length - 8 - first);
    memcpy(other + length - first, message + 8, first);
    answer = __real_otap_judge(other, length, store, store_length, reply, sizeof reply);
    return otap_answer_number(answer) == OTAP_OK ? other : message;
}

/* A group slot's text needs its room beside the one that it overwrites: the refusal, or 0 where this is none. */
static uint64_t refuse_overwrite(const uint8_t *message, uint64_t message_length, const uint8_t *store, uint64_t store_length, uint8_t *reply,
                                 uint64_t reply_length)
{
    uint8_t other[OTAP_REPLY_BYTES];
    uint64_t answer = __real_otap_judge(message, message_length, store, store_length, other, sizeof other);
    size_t text;
    if (otap_answer_number(answer) != OTAP_OK || reply_length < OTAP_REPLY_BYTES || (message[6] & 7) != 0 || message[8] != 0xD1 || message[11] >> 6 != 1) {
        return 0;
    }
    text = (message[5] & 15) == 7 ? message[10] - 9u : 2 * (message[10] - 8u);
    return text_sum(layout, store) + text > SHARED_BYTES ? lacks_room(reply, 1) : 0;
}

/* What is freed of the area stays as it was. */
static void keep_freed(const uint8_t *before, uint8_t *store)
{
    size_t sum = text_sum(layout, store), freed = text_sum(layout, before);
    memcpy(store + SHARED_AT + sum, before + SHARED_AT + sum, freed > sum ? freed - sum : 0);
}

#endif
