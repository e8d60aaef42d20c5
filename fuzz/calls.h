/*
 * Each call of the archive, made twice on buffers of their own, and what has to hold of it whatever was lent. No second implementation: what is checked
 * is the ladder of refusals by size, what may change, the bits that must be 0, the form of replies and exports, and that texts fit where they are kept; and
 * that judging says what committing then does.
 */
#ifndef CALLS_H
#define CALLS_H

#include "lent.h"
#include "memo.h"
#include "places.h"
#include "set.h"

/* Any bytes that the buffers hold before a call: what stays is compared with them. */
static const uint8_t *stale(void)
{
    static uint8_t bytes[2 * OTAP_EXPORT_BYTES];
    if (bytes[1] == 0) {
        size_t at;
        for (at = 0; at < sizeof bytes; at++) {
            bytes[at] = (uint8_t)(at * 7 + 3);
        }
    }
    return bytes;
}

/* A reply's bytes are those of its answer: 02 02, true length, 08 00, version and kind, result, failed ID, hash code, as many bytes as it has. */
static void check_reply(const uint8_t *reply, uint64_t answer)
{
    static const uint8_t lengths[] = {10, 14, 20};
    uint32_t number = otap_answer_number(answer);
    size_t length = otap_answer_length(answer);
    must(reply[0] == 2 && reply[1] == 2 && reply[2] == 0 && reply[3] == length - 4, "a reply's head");
    must(reply[4] == 8 && reply[5] == 0 && reply[6] == 9, "a reply's kind");
    must(reply[7] == number && reply[8] == otap_answer_failed(answer), "a reply says the answer");
    must(reply[9] <= 2 && length == lengths[reply[9]], "a reply's hash code and length");
    must(number == 0 || number == 5 || reply[9] == 0, "1 to 4 carry no hash");
}

static void check_answer(uint64_t answer)
{
    uint32_t number = otap_answer_number(answer);
    must((answer & 0xFFFFFFFF00FC0000u) == 0, "bits of an answer that must be 0");
    must(number <= 5 || (number >= 10 && number <= 14), "a number of a message");
    must(number < 10 || answer == number, "10 to 14: nothing but the number");
    must((number >= 10) == (otap_answer_length(answer) == 0), "a reply exactly for 0 to 5");
    must(number == 0 || number >= 10 || otap_answer_send(answer), "1 to 5 are sent");
    must(number == 0 || !otap_answer_reboot(answer), "only what is taken reboots");
    must((number >= 2 && number <= 4) || otap_answer_failed(answer) == 0, "failed ID 0 but for 2 to 4");
    must((number != 2 && number != 3) || otap_answer_failed(answer) != 0, "2 and 3 name a setting");
}

/* The first refusal that sizes alone say; 0 if none. */
static uint32_t refusal_by_size(size_t message_length, size_t store_length, size_t reply_length)
{
    return reply_length < OTAP_REPLY_BYTES ? OTAP_SHORT_REPLY : store_length != OTAP_STORE_BYTES ? OTAP_NO_STORE
         : message_length < 7 || message_length > OTAP_MESSAGE_BYTES ? OTAP_MESSAGE_LENGTH : OTAP_OK;
}

/* What has to hold of the answer to a message, and of the reply buffer after it, judged or committed. */
static void check_message(const uint8_t *message, size_t message_length, const Lent *reply, const uint8_t *held, uint64_t answer)
{
    size_t wrote = otap_answer_length(answer);
    int query = message_length > 6 && (message[6] & 7) == 5;
    must(wrote <= reply->length && same_bytes(reply->bytes + wrote, held + wrote, reply->length - wrote), "bytes past the reply stay");
    check_answer(answer);
    must(otap_answer_number(answer) != OTAP_NO_MATCH || query, "5 only of a query");
    if (wrote > 0) {
        check_reply(reply->bytes, answer);
    }
}

/* The texts of a set that has an area for them fit it, and stand in it without a gap: no unit of them is 0, and all behind them is. */
UNTRACED static void check_texts(const uint8_t *store)
{
    size_t sum, at;
    if (!shares(layout)) {
        return;
    }
    sum = text_sum(layout, store);
    must(sum <= SHARED_BYTES, "all texts together fit the area");
    for (at = 0; at < SHARED_BYTES; at += 2) {
        must((store[SHARED_AT + at] != 0 || store[SHARED_AT + at + 1] != 0) == (at < sum), "the area holds the texts that are counted, and no more");
    }
}

/* A message judged on these bytes: the store stays. Its reply is left in `said`; the buffer held other bytes than that of committing. */
static uint64_t judge_once(const uint8_t *message, size_t message_length, const uint8_t *store, size_t store_length,
                           size_t reply_length, int twice, uint8_t *said)
{
    const uint8_t *held = stale() + OTAP_EXPORT_BYTES / 2;
    Lent m = lend(message, message_length, twice), s = lend(store, store_length, twice), r = lend(held, reply_length, twice);
    uint64_t answer = otap_judge(m.bytes, m.length, s.bytes, s.length, r.bytes, r.length);
    must(same_bytes(m.bytes, message, message_length), "the message stays");
    must(same_bytes(s.bytes, store, store_length), "judging leaves the store");
    check_message(message, message_length, &r, held, answer);
    memcpy(said, r.bytes, otap_answer_length(answer));
    give_back(&m);
    give_back(&s);
    give_back(&r);
    return answer;
}

/* A message committed to these bytes; the store afterwards is left in `after`, and the reply in `said`. */
static uint64_t commit_once(const uint8_t *message, size_t message_length, const uint8_t *store, size_t store_length,
                            size_t reply_length, int twice, uint8_t *after, uint8_t *said)
{
    Lent m = lend(message, message_length, twice), s = lend(store, store_length, twice), r = lend(stale(), reply_length, twice);
    uint64_t answer = otap_commit(m.bytes, m.length, s.bytes, s.length, r.bytes, r.length);
    int query = message_length > 6 && (message[6] & 7) == 5;
    must(same_bytes(m.bytes, message, message_length), "the message stays");
    must((otap_answer_number(answer) == OTAP_OK && !query) || same_bytes(s.bytes, store, store_length), "only a taken request changes the store");
    check_message(message, message_length, &r, stale(), answer);
    if (otap_answer_number(answer) == OTAP_OK) {
        check_texts(s.bytes);
    }
    memcpy(after, s.bytes, store_length);
    memcpy(said, r.bytes, otap_answer_length(answer));
    give_back(&m);
    give_back(&s);
    give_back(&r);
    return answer;
}

/* Judged, then committed to the same bytes: the same answer, and the same reply. */
static uint64_t commit_judged(const uint8_t *message, size_t message_length, const uint8_t *store, size_t store_length,
                              size_t reply_length, int twice, uint8_t *after)
{
    uint8_t forecast[OTAP_REPLY_BYTES], said[OTAP_REPLY_BYTES];
    uint64_t judged = judge_once(message, message_length, store, store_length, reply_length, twice, forecast);
    uint64_t answer = commit_once(message, message_length, store, store_length, reply_length, twice, after, said);
    must(judged == answer, "what was judged is committed to the same store");
    must(same_bytes(forecast, said, otap_answer_length(answer)), "judging writes the reply that committing writes");
    return answer;
}

static uint64_t commit_twice(const uint8_t *message, size_t message_length, const uint8_t *store, size_t store_length,
                             size_t reply_length, uint8_t *after)
{
    static uint8_t again[OTAP_STORE_BYTES + 64];
    uint32_t refusal = refusal_by_size(message_length, store_length, reply_length);
    uint64_t answer = commit_judged(message, message_length, store, store_length, reply_length, 0, after);
    must(answer == commit_judged(message, message_length, store, store_length, reply_length, 1, again), "the same answer twice");
    must(same_bytes(after, again, store_length), "the same store twice");
    must(refusal == OTAP_OK || answer == refusal || (refusal == OTAP_MESSAGE_LENGTH && answer == OTAP_NO_STORE), "refusals by size, in order");
    must(refusal != OTAP_OK || (answer != OTAP_SHORT_REPLY && answer != OTAP_MESSAGE_LENGTH), "no refusal by size");
    return answer;
}

/* A message that was judged, and waits while another is committed: it is then committed as if it were judged for that store, and not as it was. */
static void commit_late(const uint8_t *late, size_t late_length, const uint8_t *message, size_t message_length, const uint8_t *store)
{
    static uint8_t between[OTAP_STORE_BYTES], after[OTAP_STORE_BYTES], again[OTAP_STORE_BYTES];
    uint8_t said[OTAP_REPLY_BYTES], forecast[OTAP_REPLY_BYTES];
    uint64_t answer;
    judge_once(late, late_length, store, OTAP_STORE_BYTES, OTAP_REPLY_BYTES, 0, forecast);
    commit_once(message, message_length, store, OTAP_STORE_BYTES, OTAP_REPLY_BYTES, 0, between, said);
    answer = commit_once(late, late_length, between, OTAP_STORE_BYTES, OTAP_REPLY_BYTES, 0, after, said);
    must(answer == judge_once(late, late_length, between, OTAP_STORE_BYTES, OTAP_REPLY_BYTES, 0, forecast), "what has waited is judged again");
    must(same_bytes(said, forecast, otap_answer_length(answer)), "what has waited gets the reply of now");
    commit_once(late, late_length, between, OTAP_STORE_BYTES, OTAP_REPLY_BYTES, 0, again, said);
    must(same_bytes(after, again, OTAP_STORE_BYTES), "what has waited changes the store of now");
}

/* An export; what it wrote is left in `request`. */
static uint64_t export_once(uint32_t part, const uint8_t *store, size_t store_length, size_t length, int twice, uint8_t *request)
{
    Lent s = lend(store, store_length, twice), b = lend(stale(), length, twice);
    uint64_t answer = otap_export(part, s.bytes, s.length, b.bytes, b.length);
    uint32_t number = otap_answer_number(answer);
    size_t wrote = otap_export_length(answer);
    must((answer & 0xFFFFFFFF0000FF00u) == 0, "bits of export that must be 0");
    must(same_bytes(s.bytes, store, store_length), "an export leaves the store");
    must(wrote <= length && same_bytes(b.bytes + wrote, stale() + wrote, length - wrote), "bytes past the request stay");
    must((number == OTAP_SHORT_BUFFER) == (length < OTAP_EXPORT_BYTES), "15 exactly of short buffers");
    must(number == OTAP_OK || answer == number, "a refused export has length 0");
    must(number == OTAP_OK || number == OTAP_SHORT_BUFFER || number == OTAP_NO_STORE || number == OTAP_NO_PART, "a number of export");
    must(number != OTAP_OK || (part >= 1 && part <= OTAP_EXPORT_PARTS && wrote >= 12 && wrote <= OTAP_EXPORT_BYTES), "a part that there is");
    must(number != OTAP_NO_PART || part < 1 || part > OTAP_EXPORT_PARTS, "16 only of other parts");
    must(number != OTAP_OK || b.bytes[2] * 256u + b.bytes[3] + 4u == wrote, "an export states its true length");
    memcpy(request, b.bytes, wrote);
    give_back(&s);
    give_back(&b);
    return answer;
}

static uint64_t export_twice(uint32_t part, const uint8_t *store, size_t store_length, size_t length, uint8_t *request)
{
    static uint8_t again[OTAP_EXPORT_BYTES];
    uint64_t answer = export_once(part, store, store_length, length, 0, request);
    must(answer == export_once(part, store, store_length, length, 1, again), "the same export twice");
    must(same_bytes(request, again, otap_export_length(answer)), "the same request twice");
    return answer;
}

/* The stores that were last exported, by their keys, with the parts that they were asked for. */
enum { EXPORTED_STORES = 8 };
static struct {
    uint64_t key, answers[OTAP_EXPORT_PARTS + 1];
    uint8_t known[OTAP_EXPORT_PARTS + 1], parts[OTAP_EXPORT_PARTS + 1][OTAP_EXPORT_BYTES];
} exported[EXPORTED_STORES];

/* The place of a store among them; that of the one before longest, if it is new. */
static unsigned exported_place(uint64_t key)
{
    static unsigned oldest;
    unsigned place = 0;
    while (place < EXPORTED_STORES && exported[place].key != key) {
        place++;
    }
    if (place == EXPORTED_STORES) {
        place = oldest++ % EXPORTED_STORES;
        exported[place].key = key;
        memset(exported[place].known, 0, sizeof exported[place].known);
    }
    return place;
}

/* A part of a store, for what is compared with it: exported once for each store, as long as few others come between. */
static uint64_t export_known(uint32_t part, const uint8_t *store, uint8_t *request)
{
    unsigned place = exported_place(keyed(OF_EXPORT, store, OTAP_STORE_BYTES));
    uint64_t answer;
    if (!exported[place].known[part]) {
        exported[place].answers[part] = export_once(part, store, OTAP_STORE_BYTES, OTAP_EXPORT_BYTES, 0, exported[place].parts[part]);
        exported[place].known[part] = 1;
    }
    answer = exported[place].answers[part];
    memcpy(request, exported[place].parts[part], otap_export_length(answer));
    return answer;
}

/* The counts that the store keeps: within the room, and both 0 of a refusal. */
static uint64_t counts_once(const uint8_t *store, size_t store_length, int twice)
{
    Lent s = lend(store, store_length, twice);
    uint64_t answer = otap_counts(s.bytes, s.length);
    must((answer & 0xFFFF00000000FF00u) == 0, "bits of counts that must be 0");
    must(same_bytes(s.bytes, store, store_length), "the counts leave the store");
    must(answer == OTAP_NO_STORE || otap_answer_number(answer) == OTAP_OK, "a number of counts; a refusal has both 0");
    must(answer == OTAP_NO_STORE || store_length == OTAP_STORE_BYTES, "a store has its size");
    must(otap_counts_lines(answer) <= OTAP_LINE_ROWS && otap_counts_channels(answer) <= OTAP_CHANNEL_PLACES, "counts within the room");
    give_back(&s);
    return answer;
}

static uint64_t counts_twice(const uint8_t *store, size_t store_length)
{
    uint64_t answer = counts_once(store, store_length, 0);
    must(answer == counts_once(store, store_length, 1), "the same counts twice");
    return answer;
}

/* 1 to 18 digits, each 0 to 9. */
static int is_number(const uint8_t *digits, size_t length)
{
    size_t at = 0;
    while (at < length && at < OTAP_DIGITS && digits[at] <= 9) {
        at++;
    }
    return length > 0 && at == length;
}

/* Who is calling: a row only where the answer is 0, and then one that there can be. */
static uint64_t line_of_once(uint32_t id_type, const uint8_t *digits, size_t length, const uint8_t *store, size_t store_length, int twice)
{
    Lent d = lend(digits, length, twice), s = lend(store, store_length, twice);
    uint64_t answer = otap_line_of(id_type, d.bytes, d.length, s.bytes, s.length);
    uint32_t number = otap_answer_number(answer);
    must((answer & 0xFFFFFFFF0000FE00u) == 0, "bits of a caller that must be 0");
    must(same_bytes(d.bytes, digits, length) && same_bytes(s.bytes, store, store_length), "looking up leaves the digits and the store");
    must(number == OTAP_OK || number == OTAP_NO_STORE || number == OTAP_BAD_NUMBER, "a number of a caller");
    must(number == OTAP_NO_STORE || store_length == OTAP_STORE_BYTES, "a store has its size");
    must(number == OTAP_NO_STORE || (number == OTAP_BAD_NUMBER) != is_number(digits, length), "20 exactly of what is no number");
    must(otap_line_found(answer) ? number == OTAP_OK && otap_line_row(answer) < OTAP_LINE_ROWS : answer == number, "a row that there can be, or none");
    must(!otap_line_found(answer) || id_type <= OTAP_PABX, "no line has another IDtype");
    give_back(&d);
    give_back(&s);
    return answer;
}

static uint64_t line_of_twice(uint32_t id_type, const uint8_t *digits, size_t length, const uint8_t *store, size_t store_length)
{
    uint64_t answer = line_of_once(id_type, digits, length, store, store_length, 0);
    must(answer == line_of_once(id_type, digits, length, store, store_length, 1), "the same row twice");
    return answer;
}

/* Whether bytes are a store, by the number of a row. */
static int is_store(const uint8_t *store, size_t store_length)
{
    return otap_row_number(0, 0, store, store_length, stale(), OTAP_SCRATCH_BYTES) != OTAP_NO_STORE;
}

#endif
