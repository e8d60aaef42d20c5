/* Each call on lent bytes, for the test of the bounds: what it may touch, and the numbers that sizes alone say. */
#ifndef BOUNDED_H
#define BOUNDED_H

#include "messages.h"
#include "must.h"

#include <string.h>

#ifdef __unix__
#include "pages.h"
enum { TIMES = 20 };
#else
#include "guards.h"
enum { TIMES = 1 }; /* an emulator is slow */
#endif

enum { LONGEST = OTAP_STORE_BYTES + 8192 };

static Lent message, store, buffer;
static unsigned long calls, seen[256], reports_seen[256];
static uint8_t filled[OTAP_STORE_BYTES + 1];
static uint8_t copy_of_store[LONGEST], copy_of_buffer[LONGEST], forecast[LONGEST];

/* After each call. */
static void nothing_outside(void)
{
    must(kept(&message) && kept(&store) && kept(&buffer), "outside the lent bytes, or writing what is only to be read");
}

static void remember(void)
{
    memcpy(copy_of_store, store.bytes, store.length);
    memcpy(copy_of_buffer, buffer.bytes, buffer.length);
    calls++;
}

static int store_stays(void)
{
    return memcmp(copy_of_store, store.bytes, store.length) == 0;
}

static int buffer_stays(size_t from)
{
    return memcmp(copy_of_buffer + from, buffer.bytes + from, buffer.length - from) == 0;
}

/* Of a message, by the sizes of what is lent: the same of judging and committing. */
static uint32_t expected_by_size(void)
{
    if (buffer.length < OTAP_REPLY_BYTES) {
        return OTAP_SHORT_REPLY;
    }
    if (store.length != OTAP_STORE_BYTES) {
        return OTAP_NO_STORE;
    }
    return message.length < 7 || message.length > OTAP_MESSAGE_BYTES ? OTAP_MESSAGE_LENGTH : OTAP_OK;
}

/* The numbers that a message can get, and what they leave of the reply buffer. */
static void answered(uint64_t answer)
{
    uint32_t expected = expected_by_size();
    must(expected == OTAP_OK ? otap_answer_number(answer) < OTAP_SHORT_REPLY || otap_answer_number(answer) > OTAP_MESSAGE_LENGTH
                                   || otap_answer_number(answer) == OTAP_NO_STORE
                             : answer == expected, "number");
    must(buffer_stays(otap_answer_length(answer)), "bytes past the reply changed");
}

static uint64_t call_judge(void)
{
    uint64_t answer = otap_judge(message.bytes, message.length, store.bytes, store.length, buffer.bytes, buffer.length);
    nothing_outside();
    return answer;
}

/* Judged on a store that cannot be written; what leaves the reply buffer, again on one that cannot be written either. The buffer is left in `forecast`. */
static uint64_t judge(void)
{
    uint64_t answer;
    current = "otap_judge";
    remember();
    answer = call_judge();
    answered(answer);
    memcpy(forecast, buffer.bytes, buffer.length);
    if (otap_answer_number(answer) >= OTAP_SHORT_REPLY) {
        seal(&buffer);
        calls++;
        must(answer == call_judge(), "another answer");
    }
    return answer;
}

static uint64_t call_commit(void)
{
    uint64_t answer = otap_commit(message.bytes, message.length, store.bytes, store.length, buffer.bytes, buffer.length);
    nothing_outside();
    return answer;
}

/* What changes nothing does not write either, not even what was there: the same call again, on bytes that cannot be written. */
static void commit_again(uint64_t answer)
{
    current = "otap_commit that is refused";
    seal(&store);
    if (otap_answer_number(answer) >= OTAP_SHORT_REPLY) {
        seal(&buffer);
    }
    calls++;
    must(answer == call_commit(), "another answer");
}

static uint64_t commit(void)
{
    uint64_t answer;
    current = "otap_commit";
    remember();
    answer = call_commit();
    answered(answer);
    must(otap_answer_number(answer) == OTAP_OK || store_stays(), "a refusal changed the store");
    seen[otap_answer_number(answer)]++;
    if (otap_answer_number(answer) != OTAP_OK) {
        commit_again(answer);
    }
    return answer;
}

/* A message to these bytes, judged and then committed: the same answer, and the same bytes in the reply buffer. */
static uint64_t commit_to(int at_end, const Message *said, const uint8_t *bytes, size_t store_length, size_t reply_length)
{
    uint64_t judged, answer;
    lend(&message, at_end, said->bytes, said->length, 0);
    lend(&store, at_end, bytes, store_length, 0);
    lend(&buffer, at_end, filled, reply_length, 1);
    judged = judge();
    lend(&store, at_end, bytes, store_length, 1);
    lend(&buffer, at_end, filled, reply_length, 1);
    answer = commit();
    must(judged == answer, "another answer than judging");
    must(memcmp(forecast, buffer.bytes, reply_length) == 0, "another reply than judging");
    return answer;
}

static void start_at(int at_end, size_t length)
{
    uint32_t number;
    current = "otap_start";
    lend(&store, at_end, filled, length, 1);
    memcpy(copy_of_store, store.bytes, length);
    number = otap_start(store.bytes, length);
    nothing_outside();
    calls++;
    must(number == (length == OTAP_STORE_BYTES ? OTAP_OK : OTAP_NO_STORE), "number");
    must(number == OTAP_OK || store_stays(), "a refusal changed the store");
}

static void counts_at(int at_end, const uint8_t *bytes, size_t store_length)
{
    uint64_t answer;
    current = "otap_counts";
    lend(&store, at_end, bytes, store_length, 0);
    calls++;
    answer = otap_counts(store.bytes, store_length);
    nothing_outside();
    must(store_length == OTAP_STORE_BYTES || answer == OTAP_NO_STORE, "number");
    must(otap_answer_number(answer) == OTAP_OK || (answer == OTAP_NO_STORE && (store_length != OTAP_STORE_BYTES || bytes != filled)),
         "a refusal has counts, or a store has none");
    must(otap_counts_lines(answer) <= OTAP_LINE_ROWS && otap_counts_channels(answer) <= OTAP_CHANNEL_PLACES, "more than there is room for");
}

/* The digits are lent where messages are. A refusal, and a number that no line has, come without a row. */
static void line_of_at(int at_end, uint32_t id_type, const uint8_t *digits, size_t length, const uint8_t *bytes, size_t store_length)
{
    uint64_t answer;
    uint32_t number;
    current = "otap_line_of";
    lend(&message, at_end, digits, length, 0);
    lend(&store, at_end, bytes, store_length, 0);
    calls++;
    answer = otap_line_of(id_type, message.bytes, length, store.bytes, store_length);
    nothing_outside();
    number = otap_answer_number(answer);
    must(store_length == OTAP_STORE_BYTES ? number != OTAP_NO_STORE || bytes != filled : number == OTAP_NO_STORE, "number");
    must(number == OTAP_NO_STORE || number == OTAP_BAD_NUMBER || (number == OTAP_OK && length >= 1 && length <= OTAP_DIGITS), "number");
    must(otap_line_found(answer) ? otap_line_row(answer) < OTAP_LINE_ROWS : answer == number, "a row that there is not");
}

/* Of a call that only reads a store: the numbers that it can get, and that no other bits than its own are set, of a refusal none. */
static void read_only(uint64_t answer, const uint8_t *bytes, size_t store_length, uint64_t own)
{
    uint32_t number = otap_answer_number(answer);
    nothing_outside();
    must(store_length == OTAP_STORE_BYTES ? number != OTAP_NO_STORE || bytes != filled : number == OTAP_NO_STORE, "number");
    must(number == OTAP_OK || number == OTAP_NO_STORE || number == OTAP_NOTHING_THERE, "number");
    must(number == OTAP_OK ? (answer & ~own) == 0 : answer == number, "bits that must be 0");
}

static void entry_at(int at_end, uint32_t table, uint32_t index, const uint8_t *bytes, size_t store_length)
{
    current = "otap_entry";
    lend(&store, at_end, bytes, store_length, 0);
    calls++;
    read_only(otap_entry(table, index, store.bytes, store_length), bytes, store_length, 0x1FFFFFFFF00u);
}

/* A channel, and what has no row. */
static void settings_at(int at_end, uint32_t position, const uint8_t *bytes, size_t store_length)
{
    lend(&store, at_end, bytes, store_length, 0);
    calls += 4;
    current = "otap_channel";
    read_only(otap_channel(position, store.bytes, store_length), bytes, store_length, 0xFFF00u);
    current = "otap_emergency_key";
    read_only(otap_emergency_key(store.bytes, store_length), bytes, store_length, 0x1FFFFFFF00u);
    current = "otap_home_numbers";
    read_only(otap_home_numbers(store.bytes, store_length), bytes, store_length, 0x7FFFF00u);
    current = "otap_system_code";
    read_only(otap_system_code(store.bytes, store_length), bytes, store_length, 0x7FFFF00u);
}

static void digits_at(int at_end, uint32_t table, uint32_t index, const uint8_t *bytes, size_t store_length, size_t length)
{
    uint64_t answer;
    current = "otap_entry_digits";
    lend(&store, at_end, bytes, store_length, 0);
    lend(&buffer, at_end, filled, length, 1);
    remember();
    answer = otap_entry_digits(table, index, store.bytes, store_length, buffer.bytes, length);
    must((answer == OTAP_SHORT_BUFFER) == (length < OTAP_DIGITS), "15 exactly of short buffers");
    must(otap_digits_count(answer) <= OTAP_DIGITS && buffer_stays(otap_digits_count(answer)), "bytes past the digits changed");
    if (length >= OTAP_DIGITS) {
        read_only(answer, bytes, store_length, 0x1F00);
    }
    nothing_outside();
}

static void export_at(int at_end, uint32_t part, const uint8_t *bytes, size_t store_length, size_t length)
{
    uint32_t expected = length < OTAP_EXPORT_BYTES ? OTAP_SHORT_BUFFER : store_length != OTAP_STORE_BYTES ? OTAP_NO_STORE
                      : part < 1 || part > OTAP_EXPORT_PARTS ? OTAP_NO_PART : OTAP_OK;
    uint64_t answer;
    current = "otap_export";
    lend(&store, at_end, bytes, store_length, 0);
    lend(&buffer, at_end, filled, length, 1);
    remember();
    answer = otap_export(part, store.bytes, store_length, buffer.bytes, length);
    nothing_outside();
    must(otap_answer_number(answer) == expected || (bytes != filled && answer == OTAP_NO_STORE), "number");
    must(otap_answer_number(answer) == OTAP_OK || otap_export_length(answer) == 0, "a refusal has a length");
    must(otap_export_length(answer) <= length && buffer_stays(otap_export_length(answer)), "bytes past the request changed");
}

/* A message of a report, or none; what is refused is asked for again, of a buffer that cannot be written. */
static void report_at(int at_end, const Message *query, uint32_t index, const uint8_t *bytes, size_t store_length, size_t length)
{
    uint32_t expected = length < OTAP_REPORT_BYTES ? OTAP_SHORT_BUFFER : store_length != OTAP_STORE_BYTES ? OTAP_NO_STORE
                      : query->length < 7 || query->length > OTAP_MESSAGE_BYTES ? OTAP_MESSAGE_LENGTH : OTAP_OK;
    uint64_t answer;
    current = "otap_report";
    lend(&message, at_end, query->bytes, query->length, 0);
    lend(&store, at_end, bytes, store_length, 0);
    lend(&buffer, at_end, filled, length, 1);
    remember();
    answer = otap_report(message.bytes, message.length, index, store.bytes, store_length, buffer.bytes, length);
    nothing_outside();
    must(expected == OTAP_OK || answer == expected || (bytes != filled && answer == OTAP_NO_STORE), "number");
    must(otap_report_length(answer) <= length && buffer_stays(otap_report_length(answer)), "bytes past the message changed");
    reports_seen[otap_answer_number(answer)]++;
    if (otap_answer_number(answer) != OTAP_OK) {
        must(answer == otap_answer_number(answer), "a refusal has a total or a length");
        seal(&buffer);
        must(answer == otap_report(message.bytes, message.length, index, store.bytes, store_length, buffer.bytes, length), "another answer");
        nothing_outside();
    }
}

static void row_at(int at_end, uint32_t table, uint32_t row, const uint8_t *bytes, size_t store_length, size_t length)
{
    uint32_t expected = length < OTAP_SCRATCH_BYTES ? OTAP_SHORT_BUFFER : store_length != OTAP_STORE_BYTES ? OTAP_NO_STORE : OTAP_OK;
    uint32_t number;
    uint64_t part;
    size_t wrote;
    current = "otap_row_number";
    lend(&store, at_end, bytes, store_length, 0);
    lend(&buffer, at_end, filled, length, 0);
    number = otap_row_number(table, row, store.bytes, store_length, buffer.bytes, length);
    nothing_outside();
    must(number == expected || (expected == OTAP_OK && number == OTAP_NO_ROW) || (bytes != filled && number == OTAP_NO_STORE), "number");
    current = "otap_row_part";
    lend(&buffer, at_end, filled, length, 1);
    remember();
    part = otap_row_part(table, row, store.bytes, store_length, buffer.bytes, length);
    nothing_outside();
    wrote = otap_part_in_scratch(part) ? otap_part_length(part) : 0;
    must(number == OTAP_OK || part == 0, "a refusal has a part");
    must(otap_part_offset(part) + otap_part_length(part) <= (wrote != 0 ? length : store_length), "the part is outside");
    must(buffer_stays(wrote), "bytes past the number changed");
}

#endif
