/* Wrong libraries, to see that the checks of target.c can fail: the linker puts these before the archive's functions (--wrap). WRONG says which. */
#ifndef WRONG
#define WRONG 0
#endif

#include "editing.h"
#include "orders.h"
#include "wrong_outside.h"
#include "wrong_texts.h"

uint32_t __real_otap_row_number(uint32_t, uint32_t, const uint8_t *, uint64_t, const uint8_t *, uint64_t);
uint64_t __real_otap_line_of(uint32_t, const uint8_t *, uint64_t, const uint8_t *, uint64_t);
uint64_t __real_otap_entry(uint32_t, uint32_t, const uint8_t *, uint64_t);
uint64_t __real_otap_entry_digits(uint32_t, uint32_t, const uint8_t *, uint64_t, uint8_t *, uint64_t);
uint64_t __real_otap_channel(uint32_t, const uint8_t *, uint64_t);
uint64_t __real_otap_emergency_key(const uint8_t *, uint64_t);
uint64_t __real_otap_home_numbers(const uint8_t *, uint64_t);
uint64_t __real_otap_system_code(const uint8_t *, uint64_t);
uint64_t __wrap_otap_judge(const uint8_t *, uint64_t, const uint8_t *, uint64_t, uint8_t *, uint64_t);
uint64_t __wrap_otap_commit(const uint8_t *, uint64_t, uint8_t *, uint64_t, uint8_t *, uint64_t);
uint64_t __wrap_otap_export(uint32_t, const uint8_t *, uint64_t, uint8_t *, uint64_t);
uint32_t __wrap_otap_row_number(uint32_t, uint32_t, const uint8_t *, uint64_t, const uint8_t *, uint64_t);
uint64_t __wrap_otap_row_part(uint32_t, uint32_t, const uint8_t *, uint64_t, uint8_t *, uint64_t);
uint64_t __wrap_otap_counts(const uint8_t *, uint64_t);
uint64_t __wrap_otap_line_of(uint32_t, const uint8_t *, uint64_t, const uint8_t *, uint64_t);
uint64_t __wrap_otap_entry(uint32_t, uint32_t, const uint8_t *, uint64_t);
uint64_t __wrap_otap_entry_digits(uint32_t, uint32_t, const uint8_t *, uint64_t, uint8_t *, uint64_t);
uint64_t __wrap_otap_channel(uint32_t, const uint8_t *, uint64_t);
uint64_t __wrap_otap_emergency_key(const uint8_t *, uint64_t);
uint64_t __wrap_otap_home_numbers(const uint8_t *, uint64_t);
uint64_t __wrap_otap_system_code(const uint8_t *, uint64_t);

/* The first line with the last one's digits, whatever its IDtype: it may be the last itself. */
static unsigned same_number(const uint8_t *store)
{
    unsigned row = 0, last = store[LINES_HELD_AT] - 1u;
    while (row < last && memcmp(key_at(store, row) + 1, key_at(store, last) + 1, KEY_BYTES - 1) != 0) {
        row++;
    }
    return row;
}

/* Whether a line before the last has its digits. */
static int has_same_number(const uint8_t *store)
{
    return store[LINES_HELD_AT] > 0 && same_number(store) + 1 < store[LINES_HELD_AT];
}

/* The second line with a number wipes the first. */
static void wipe(uint8_t *store)
{
    if (has_same_number(store)) {
        drop_entry(store, OTAP_LINES, same_number(store));
        order_lines(store);
    }
}

/* A group contact that was overwritten in its place is put at the end as well. */
static void add_twice(const uint8_t *before, uint8_t *store)
{
    size_t held = held_at(OTAP_GROUP_CONTACTS), at;
    uint32_t place, count = store[held];
    for (place = 0; count == before[held] && place < count; place++) {
        at = slot_at(OTAP_GROUP_CONTACTS, place);
        if (memcmp(store + at, before + at, layout[OTAP_GROUP_CONTACTS].width) != 0 && memcmp(store + at + 1, before + at + 1, 3) == 0) {
            repeat_entry(store, OTAP_GROUP_CONTACTS, place);
        }
    }
}

/* A store without its background groups among the contacts. */
static const uint8_t *without_background(const uint8_t *store)
{
    static uint8_t other[OTAP_STORE_BYTES];
    uint32_t place = 0;
    memcpy(other, store, sizeof other);
    while (place < other[held_at(OTAP_GROUP_CONTACTS)]) {
        if (other[slot_at(OTAP_GROUP_CONTACTS, place)] >> 6 == 1) {
            drop_entry(other, OTAP_GROUP_CONTACTS, place);
        } else {
            place++;
        }
    }
    return other;
}

/* A store whose background groups are response groups: the same names in the same places. */
static const uint8_t *all_shown(const uint8_t *store)
{
    static const uint32_t tables[] = {OTAP_GROUPS, OTAP_GROUP_CONTACTS};
    static uint8_t other[OTAP_STORE_BYTES];
    uint32_t each, place;
    memcpy(other, store, sizeof other);
    for (each = 0; each < 2; each++) {
        for (place = 0; place < layout[tables[each]].rows; place++) {
            uint8_t *flags = other + slot_at(tables[each], place);
            flags[0] = (uint8_t)(flags[0] >> 6 == 1 ? flags[0] + 64 : flags[0]);
        }
    }
    return other;
}

/* A refusal that comes before the message is looked at; 0 where there is none. */
static uint64_t refused_first(const uint8_t *message, uint64_t message_length, const uint8_t *store, uint64_t store_length, uint8_t *reply,
                              uint64_t reply_length)
{
    switch (WRONG) {
    case 92: return refuse_late(message, message_length, store, store_length, reply, reply_length);
    case 93: case 94: case 95: case 110: case 115: return refuse_large(message, message_length, store, store_length, reply, reply_length);
    case 112: return refuse_overwrite(message, message_length, store, store_length, reply, reply_length);
    default: return 0;
    }
}

/* The last message that was judged good, what was said of it, and the store that it would leave. */
static struct {
    uint8_t message[OTAP_MESSAGE_BYTES], reply[OTAP_REPLY_BYTES], after[OTAP_STORE_BYTES];
    uint64_t length, answer;
} verdict;

static void remember(const uint8_t *message, uint64_t message_length, const uint8_t *store, uint64_t answer)
{
    verdict.length = 0;
    if (otap_answer_number(answer) == OTAP_OK) {
        memcpy(verdict.message, message, message_length);
        memcpy(verdict.after, store, sizeof verdict.after);
        verdict.answer = __real_otap_commit(message, message_length, verdict.after, sizeof verdict.after, verdict.reply, sizeof verdict.reply);
        verdict.length = message_length;
    }
}

/* A judged message's verdict is done without a look at the store. */
static uint64_t trust(uint8_t *store, uint8_t *reply)
{
    memcpy(store, verdict.after, sizeof verdict.after);
    memcpy(reply, verdict.reply, otap_answer_length(verdict.answer));
    return verdict.answer;
}

/* The reply with the hash that the store keeps, if that is not shorter. */
static uint64_t with_kept_hash(const uint8_t *store, uint8_t *reply, uint64_t answer)
{
    static const uint8_t sizes[] = {0, 4, 10};
    size_t size = sizes[store[0]];
    if (10 + size < otap_answer_length(answer)) {
        return answer;
    }
    memcpy(reply + 10, store + 1, size);
    reply[9] = store[0];
    reply[3] = (uint8_t)(6 + size);
    return (answer & 0xFFFFFFu) | (uint64_t)(10 + size) << 24;
}

uint64_t __wrap_otap_judge(const uint8_t *message, uint64_t message_length, const uint8_t *store, uint64_t store_length, uint8_t *reply,
                           uint64_t reply_length)
{
    uint64_t answer = refused_first(message, message_length, store, store_length, reply, reply_length);
    if (answer != 0) {
        return answer;
    }
    message = WRONG == 111 ? in_best_order(message, message_length, store, store_length) : message;
    answer = __real_otap_judge(message, message_length, store, store_length, reply, reply_length);
    if (WRONG == 90) {
        return early_failed(reply, answer);
    }
    if (WRONG == 22 && otap_answer_number(answer) == OTAP_OK) {
        ((uint8_t *)(uintptr_t)store)[0] ^= 1; /* judging changes a byte of the store */
    }
    if (WRONG == 23) {
        remember(message, message_length, store, answer);
    }
    if (WRONG == 24 && otap_answer_number(answer) == OTAP_OK) {
        return with_kept_hash(store, reply, answer); /* the hash kept, and not the request's own */
    }
    return wrong_room(message, store, reply, answer);
}

/* What is wrong with a message that was taken. */
static void wrong_taken(const uint8_t *message, const uint8_t *before, uint8_t *store, uint8_t *reply, uint64_t reply_length)
{
    switch (WRONG) {
    case 2: reply[reply_length] = 0; break; /* one byte after the reply buffer */
    case 3: store[OTAP_STORE_BYTES - 1] = 1; break; /* not a store any more */
    case 16: wipe(store); break; /* lines by their digits alone */
    case 18: add_twice(before, store); break; /* a known address added twice */
    case 91: lose_late(message, before, store); break;
    case 114: keep_freed(before, store); break;
    default: break;
    }
}

uint64_t __wrap_otap_commit(const uint8_t *message, uint64_t message_length, uint8_t *store, uint64_t store_length, uint8_t *reply,
                            uint64_t reply_length)
{
    static uint8_t before[OTAP_STORE_BYTES];
    uint64_t answer = refused_first(message, message_length, store, store_length, reply, reply_length);
    uint32_t number;
    if (answer != 0) {
        return answer;
    }
    if (WRONG == 23 && store_length == OTAP_STORE_BYTES && reply_length >= OTAP_REPLY_BYTES && message_length > 0 && message_length == verdict.length
        && memcmp(message, verdict.message, message_length) == 0) {
        return trust(store, reply); /* committing trusts an earlier verdict */
    }
    memcpy(before, store, store_length < sizeof before ? store_length : sizeof before);
    message = WRONG == 111 ? in_best_order(message, message_length, store, store_length) : message;
    answer = __real_otap_commit(message, message_length, store, store_length, reply, reply_length);
    number = otap_answer_number(answer);
    if (WRONG == 1 && number == OTAP_BAD_FIELD) {
        store[slot_at(OTAP_GROUPS, 0) + 3]++; /* the setting before the fault was applied */
    }
    if (WRONG == 4 && number == OTAP_NO_ROOM) {
        answer -= answer & 0xFF00; /* the setting at fault is not named */
    }
    if (number == OTAP_OK) {
        wrong_taken(message, before, store, reply, reply_length);
    }
    if (WRONG == 90) {
        return early_failed(reply, answer);
    }
    answer = wrong_room(message, before, reply, answer);
    if (WRONG == 109 && number == OTAP_NO_ROOM) {
        overfill(store);
    }
    answer = outside(store, store_length, reply, reply_length, answer);
    return WRONG == 5 && number == OTAP_BAD_CARRIER ? answer + 0x10000 : answer; /* sends what there is not */
}

/* The store as it is exported. */
static const uint8_t *exported(uint32_t part, const uint8_t *store, uint64_t store_length)
{
    if (otap_answer_number(__real_otap_counts(store, store_length)) != OTAP_OK) {
        return store;
    }
    return WRONG == 19 && part == OTAP_EXPORT_GROUP_CONTACTS ? without_background(store) /* a background group is not exported */
         : WRONG == 107 ? without_last_text(store) : store; /* the last text is not */
}

uint64_t __wrap_otap_export(uint32_t part, const uint8_t *store, uint64_t store_length, uint8_t *buffer, uint64_t buffer_length)
{
    uint64_t answer = takes_short(96, buffer_length) ? export_short(part, store, store_length, buffer, buffer_length)
                    : __real_otap_export(part, exported(part, store, store_length), store_length, buffer, buffer_length);
    if (WRONG == 6 && part == OTAP_EXPORT_CHANNELS && otap_export_length(answer) > 13) {
        buffer[14] ^= 1; /* another channel */
    }
    if (WRONG == 7 && otap_answer_number(answer) == OTAP_OK) {
        buffer[otap_export_length(answer)] = 0; /* one byte too many */
    }
    return answer;
}

uint32_t __wrap_otap_row_number(uint32_t table, uint32_t row, const uint8_t *store, uint64_t store_length, const uint8_t *scratch,
                                uint64_t scratch_length)
{
    int shown = WRONG == 20 && store_length == OTAP_STORE_BYTES; /* background groups have rows */
    uint32_t number = __real_otap_row_number(table, row, shown ? all_shown(store) : store, store_length, scratch, scratch_length);
    if (WRONG == 8 && number == OTAP_NO_STORE && store_length == OTAP_STORE_BYTES) {
        return OTAP_NO_ROW; /* takes any bytes for a store */
    }
    if (WRONG == 17 && (number == OTAP_OK || number == OTAP_NO_ROW) && has_same_number(store)) {
        return OTAP_NO_STORE; /* knows no store with two lines of one number */
    }
    return past_quarter(table, row) && number == OTAP_OK ? OTAP_NO_ROW : number;
}

uint64_t __wrap_otap_row_part(uint32_t table, uint32_t row, const uint8_t *store, uint64_t store_length, uint8_t *scratch, uint64_t scratch_length)
{
    int shown = (WRONG == 20 || WRONG == 21) && store_length == OTAP_STORE_BYTES; /* 21: they have a part, though no number 0 */
    uint64_t part = past_quarter(table, row) ? 0
                  : __real_otap_row_part(table, row, shown ? all_shown(store) : store, store_length, scratch, scratch_length);
    if (WRONG == 9 && table == OTAP_GROUPS) {
        return part_of(table, row + 1, store, store_length, part); /* the next group's name */
    }
    if (WRONG == 10 && otap_part_in_scratch(part)) {
        scratch[1] = '9'; /* another number */
    }
    if (WRONG == 11 && otap_part_length(part) > 2) {
        return part - ((uint64_t)2 << 32); /* a name cut short */
    }
    if (WRONG == 105 && part != 0 && !otap_part_in_scratch(part)) {
        return part + ((uint64_t)2 << 32); /* a name and a unit of what stands behind it */
    }
    return WRONG == 106 ? part_of(table, row - 1, store, store_length, part) : part; /* the name of the row before */
}

uint64_t __wrap_otap_counts(const uint8_t *store, uint64_t store_length)
{
    uint64_t answer = __real_otap_counts(store, store_length);
    uint64_t lines = otap_counts_lines(answer), channels = otap_counts_channels(answer);
    if (WRONG == 12 && lines > 0) {
        return answer + 0x10000; /* one line more than there are */
    }
    if (WRONG == 13 && channels > 0) {
        return answer - ((uint64_t)1 << 32); /* one channel fewer */
    }
    if (WRONG == 14 && otap_answer_number(answer) == OTAP_OK) {
        return lines << 32 | channels << 16; /* lines for channels */
    }
    return WRONG == 15 && store_length == OTAP_STORE_BYTES && answer == OTAP_NO_STORE ? OTAP_OK : answer; /* an empty set for no store */
}

/* The same bytes with the order that their lines have. */
static const uint8_t *in_order(const uint8_t *store)
{
    static uint8_t other[OTAP_STORE_BYTES];
    memcpy(other, store, sizeof other);
    order_lines(other);
    return other;
}

uint64_t __wrap_otap_line_of(uint32_t id_type, const uint8_t *digits, uint64_t digits_length, const uint8_t *store, uint64_t store_length)
{
    uint64_t answer = __real_otap_line_of(id_type, digits, digits_length, store, store_length);
    if (WRONG == 25 && otap_line_found(answer)) {
        return answer + 0x10000; /* the next row */
    }
    if (WRONG == 26 && answer == OTAP_OK) {
        return __real_otap_line_of(id_type ^ 1, digits, digits_length, store, store_length); /* the digits alone */
    }
    if (WRONG == 27 && answer == OTAP_OK && digits_length > 1) {
        return __real_otap_line_of(id_type, digits, digits_length - 1, store, store_length); /* a line that the caller's number begins with */
    }
    if (WRONG == 28 && answer == OTAP_OK) {
        return OTAP_NO_ROW; /* a refusal, where no row has the number */
    }
    if (WRONG == 29 && store_length == OTAP_STORE_BYTES && answer == OTAP_NO_STORE) {
        return __real_otap_line_of(id_type, digits, digits_length, in_order(store), store_length); /* any order will do */
    }
    return WRONG == 30 && otap_line_found(answer) && digits_length == OTAP_DIGITS ? OTAP_BAD_NUMBER : answer; /* 18 digits are too many */
}

/* The address of an answer of otap_entry; its other bits but the number's are flags. */
static const uint64_t address_bits = 0xFFFFFF00u;

uint64_t __wrap_otap_entry(uint32_t table, uint32_t index, const uint8_t *store, uint64_t store_length)
{
    uint64_t answer = __real_otap_entry(table, index, store, store_length);
    uint64_t next = __real_otap_entry(table, index + 1, store, store_length), before = __real_otap_entry(table, index - 1, store, store_length);
    if (otap_answer_number(answer) != OTAP_OK) {
        return WRONG == 31 && store_length == OTAP_STORE_BYTES ? OTAP_NOTHING_THERE : answer; /* takes any bytes for a store */
    }
    if (WRONG == 32 && otap_answer_number(next) == OTAP_OK) {
        return (answer & ~address_bits) | (next & address_bits); /* the neighbour's address */
    }
    if (WRONG == 33 && (table == OTAP_GROUPS || table == OTAP_GROUP_CONTACTS)) {
        return answer & 0x1FFFFFFF00u; /* an individual's kind for a group: without attribute, broadcast and OVCM */
    }
    if (WRONG == 34 && otap_answer_number(before) == OTAP_OK) {
        return (answer & address_bits) | (before & ~address_bits); /* the flags of the slot before */
    }
    return WRONG == 35 && otap_entry_attribute(answer) == OTAP_BACKGROUND ? OTAP_NOTHING_THERE : answer; /* nothing behind what has no row */
}

uint64_t __wrap_otap_entry_digits(uint32_t table, uint32_t index, const uint8_t *store, uint64_t store_length, uint8_t *digits, uint64_t digits_length)
{
    uint32_t other = WRONG == 36 && table == OTAP_LINES && index > 0 ? index - 1 : index; /* the digits of the line before */
    uint64_t answer = __real_otap_entry_digits(table, other, store, store_length, digits, digits_length);
    size_t count = otap_digits_count(answer);
    if (WRONG == 37 && count > 0 && count < OTAP_DIGITS) {
        digits[count] = 0; /* an end behind the digits */
    }
    return answer;
}

uint64_t __wrap_otap_channel(uint32_t position, const uint8_t *store, uint64_t store_length)
{
    return __real_otap_channel(WRONG == 38 ? position + 1 : position, store, store_length); /* a channel one position late */
}

uint64_t __wrap_otap_emergency_key(const uint8_t *store, uint64_t store_length)
{
    uint64_t answer = __real_otap_emergency_key(store, store_length);
    return WRONG == 39 && otap_key_current(answer) ? answer & ~((uint64_t)1 << 33) : answer; /* the current place loses the group bit */
}

uint64_t __wrap_otap_home_numbers(const uint8_t *store, uint64_t store_length)
{
    uint64_t answer = __real_otap_home_numbers(store, store_length);
    return WRONG == 40 ? answer & 0x3FFFFFFu : answer; /* NP in nine bits */
}

uint64_t __wrap_otap_system_code(const uint8_t *store, uint64_t store_length)
{
    uint64_t answer = __real_otap_system_code(store, store_length);
    return WRONG == 41 && otap_answer_number(answer) == OTAP_OK ? answer ^ 1u << 26 : answer; /* the other PAR */
}

#include "wrong_reports.h"
#include "wrong_joining.h"
#include "wrong_updating.h"
