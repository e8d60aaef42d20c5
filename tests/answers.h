/* What several tests of C share: an answer that must be, counts of a store, bytes that are none, a message to a fresh one, full ones, requests of any size. */
#ifndef ANSWERS_H
#define ANSWERS_H

#include "judged.h"
#include "messages.h"

#include <stdio.h>
#include <stdlib.h>

static uint8_t reply[OTAP_REPLY_BYTES], buffer[OTAP_EXPORT_BYTES], scratch[OTAP_SCRATCH_BYTES];
static Message said;

/* The number in the table, the constant, and what the archive answers. */
static inline void same(const char *what, uint64_t number, uint64_t constant, uint64_t answer)
{
    if (number != constant || number != answer) {
        fprintf(stderr, "%s: document %lu, header %lu, archive %lu\n", what, (unsigned long)number, (unsigned long)constant,
                (unsigned long)answer);
        exit(1);
    }
}

/* What a store holds and has free; the packed answer has no other bits. */
static inline void counts_are(const char *what, const uint8_t *bytes, uint64_t lines, uint64_t channels)
{
    uint64_t answer = otap_counts(bytes, OTAP_STORE_BYTES);
    same(what, channels << 32 | lines << 16, answer, answer);
    same("number of counts", 0, OTAP_OK, otap_answer_number(answer));
    same("lines held", lines, otap_counts_lines(answer), answer >> 16 & 0xFFFF);
    same("channels held", channels, otap_counts_channels(answer), answer >> 32);
    same("lines free", LINE_ROOM - lines, OTAP_LINE_ROWS - lines, otap_counts_free_lines(answer));
    same("channels free", CHANNEL_ROOM - channels, OTAP_CHANNEL_PLACES - channels, otap_counts_free_channels(answer));
}

/* Every call refuses these bytes, and this one with both counts 0 and nothing free. */
static inline void no_store(const char *what, uint8_t *bytes)
{
    uint64_t answer = otap_counts(bytes, OTAP_STORE_BYTES);
    same(what, 11, OTAP_NO_STORE, answer);
    same("lines and channels of no store", 0, otap_counts_lines(answer), otap_counts_channels(answer));
    same("free of no store", 0, otap_counts_free_lines(answer), otap_counts_free_channels(answer));
    same(what, 11, OTAP_NO_STORE, otap_line_of(OTAP_PSTN, reply, 0, bytes, OTAP_STORE_BYTES));
    same(what, 11, OTAP_NO_STORE, otap_entry(OTAP_GROUPS, 0, bytes, OTAP_STORE_BYTES));
    same(what, 11, OTAP_NO_STORE, otap_entry_digits(OTAP_LINES, 0, bytes, OTAP_STORE_BYTES, scratch, sizeof scratch));
    same(what, 11, OTAP_NO_STORE, otap_channel(0, bytes, OTAP_STORE_BYTES));
    same(what, 11, OTAP_NO_STORE, otap_emergency_key(bytes, OTAP_STORE_BYTES));
    same(what, 11, OTAP_NO_STORE, otap_home_numbers(bytes, OTAP_STORE_BYTES));
    same(what, 11, OTAP_NO_STORE, otap_system_code(bytes, OTAP_STORE_BYTES));
    same(what, 11, OTAP_NO_STORE, otap_export(1, bytes, OTAP_STORE_BYTES, buffer, sizeof buffer));
    same(what, 11, OTAP_NO_STORE, otap_report(reply, 0, 1, bytes, OTAP_STORE_BYTES, buffer, sizeof buffer));
    same(what, 11, OTAP_NO_STORE, otap_row_number(OTAP_GROUPS, 0, bytes, OTAP_STORE_BYTES, scratch, sizeof scratch));
    write_query(&said, 0);
    same(what, 11, OTAP_NO_STORE, judge_and_commit(said.bytes, said.length, bytes, OTAP_STORE_BYTES, reply, sizeof reply));
}

static inline void write_bytes(Message *m, const uint8_t *bytes, size_t length)
{
    memcpy(m->bytes, bytes, length);
    m->length = length;
}

/* What a message to a fresh store comes to; the store afterwards is left in `other`. */
static inline void told(const char *what, const uint8_t *message, size_t length, uint64_t number, uint64_t failed, uint8_t *other)
{
    uint64_t answer;
    same("start", 0, OTAP_OK, otap_start(other, OTAP_STORE_BYTES));
    answer = judge_and_commit(message, length, other, OTAP_STORE_BYTES, reply, sizeof reply);
    same(what, number, number, otap_answer_number(answer));
    same(what, failed, failed, otap_answer_failed(answer));
    same("coding type of the reply", 0, 0, reply[5]);
}

/* A store that is full with `vary` 0, and has shorter lists with another. */
static inline void fill_store(uint8_t *bytes, unsigned vary)
{
    unsigned each;
    same("start", 0, OTAP_OK, otap_start(bytes, OTAP_STORE_BYTES));
    for (each = 0; each < FILLING_MESSAGES; each++) {
        write_filling(&said, each, vary);
        same("a filling message", 0, OTAP_OK, otap_answer_number(judge_and_commit(said.bytes, said.length, bytes, OTAP_STORE_BYTES, reply, sizeof reply)));
    }
}

/* An empty status text, as often: 5 bytes, and 3 for each. */
static inline void put_status_texts(Message *m, size_t count)
{
    size_t at = open_setting(m, 0xD0);
    put(m, ADD * 64);
    put(m, (unsigned)count);
    for (; count > 0; count--) {
        put(m, 33);
        put(m, 0);
        put(m, 0);
    }
    close_setting(m, at);
    m->bytes[7]++;
}

/* A good request of as many bytes, 20 at least. */
static inline void write_sized(Message *m, size_t size)
{
    static const uint8_t key[] = {0x80}, no_contacts[] = {0x40, 0};
    open_request(m, 0);
    while (size - m->length > 700) {
        put_status_texts(m, 200);
    }
    if ((size - m->length) % 3 != 2) {
        int four = (size - m->length) % 3 == 0;
        put_bytes(m, four ? 0xCB : 0xC9, four ? key : no_contacts, four ? 1 : 2);
        m->bytes[7]++;
    }
    put_status_texts(m, (size - m->length - 5) / 3);
    same("a request of this size", size, m->length, size);
}

#endif
