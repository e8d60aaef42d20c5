/* Messages for the tests in C: one of each kind, those that fill a store, long, damaged and random ones. Seeded, so that each run is the same. */
#ifndef MESSAGES_H
#define MESSAGES_H

#include "set.h"

#include <string.h>

typedef struct {
    uint8_t bytes[OTAP_MESSAGE_BYTES + 64];
    size_t length;
} Message;

enum { MESSAGE_KINDS = 20, REQUEST_KINDS = 17, FILLING_MESSAGES = 11 };

/* A hand-held's texts share one area: those behind the first of every length have two fifths of theirs, and some status texts more fill the rest. */
#ifdef VEHICLE
enum { LATER_FIFTHS = 5, LONGER_STATUS = 0 };
#else
enum { LATER_FIFTHS = 2, LONGER_STATUS = 11 };
#endif

enum { ADD = 1, DELETE = 2, REPLACE = 3 };

static uint64_t random_state = 0x9E3779B97F4A7C15u;

static inline unsigned random_below(unsigned most)
{
    random_state ^= random_state << 13;
    random_state ^= random_state >> 7;
    random_state ^= random_state << 17;
    return (unsigned)((random_state >> 11) % most);
}

static inline void put(Message *m, unsigned byte)
{
    m->bytes[m->length++] = (uint8_t)byte;
}

/* The carrier of a request, its length not stated yet, and ParamSum. */
static inline void open_request(Message *m, unsigned settings)
{
    static const uint8_t head[] = {0x02, 0x02, 0x00, 0x00, 0x08, 0x07, 0x08};
    memcpy(m->bytes, head, sizeof head);
    m->length = sizeof head;
    put(m, settings);
}

static inline size_t open_setting(Message *m, unsigned type)
{
    put(m, type);
    put(m, 0);
    put(m, 0);
    return m->length - 2;
}

static inline void close_setting(Message *m, size_t at)
{
    size_t data_length = m->length - at;
    m->bytes[at] = (uint8_t)(data_length >> 8);
    m->bytes[at + 1] = (uint8_t)data_length;
}

static inline void put_text(Message *m, unsigned units)
{
    unsigned each;
    for (each = 0; each < units; each++) {
        put(m, 0x4E + each);
        put(m, 0x2D);
    }
    put(m, 0);
    put(m, 0);
}

/* How many units an entry's text has: the most, and one fewer from entry to entry down to the least, then the most again; `vary` moves that on. */
static inline unsigned units_of(unsigned most, unsigned least, unsigned each, unsigned vary)
{
    unsigned lengths = most - least + 1, units = most - (each + vary) % lengths;
    unsigned later = units * LATER_FIFTHS / 5;
    return each < lengths ? units : later < least ? least : later;
}

/* The number of a line, in as many digits, 1 to 18: the last three say which line it is. */
static inline void put_number(Message *m, unsigned which, unsigned digits)
{
    unsigned at, pair = 0;
    for (at = 0; at < digits + 1 + (digits + 1) % 2; at++) {
        unsigned digit = at >= digits ? 15 : at + 1 == digits ? which % 10 : at + 2 == digits ? which / 10 % 10 : at + 3 == digits ? 1 + which / 100 : 1;
        pair = pair * 16 % 256 + digit;
        if (at % 2 == 1) {
            put(m, pair);
        }
    }
}

/* Texts and numbers of every length: `vary` says with which the first entry starts, 0 with the longest. Far behind, three digits tell the lines apart. */
static inline void put_lines(Message *m, unsigned operation, unsigned count, unsigned vary)
{
    size_t at = open_setting(m, 0xCA);
    unsigned each;
    put(m, operation * 64 + vary % 32 * 2);
    put(m, count);
    for (each = 0; each < count; each++) {
        put_number(m, each, 18 - (each + 6 * vary) % (vary == 0 || each >= 64 ? 16 : 18));
        put_text(m, units_of(16, 0, each, vary));
    }
    close_setting(m, at);
}

static inline void put_quick(Message *m, unsigned operation, unsigned first, unsigned count, unsigned vary)
{
    size_t at = open_setting(m, 0xCC);
    unsigned each;
    put(m, operation * 64 + count);
    for (each = 0; each < count; each++) {
        put(m, first + each);
        put_text(m, units_of(23, 1, each, vary));
    }
    close_setting(m, at);
}

static inline void put_status(Message *m, unsigned operation, unsigned count, unsigned vary)
{
    size_t at = open_setting(m, 0xD0);
    unsigned each;
    put(m, operation * 64);
    put(m, count);
    for (each = 0; each < count; each++) {
        put(m, 32 + (each + vary * 7) % 96);
        put_text(m, units_of(16, 0, each, vary));
    }
    close_setting(m, at);
}

/* Two channels in three bytes; the last one alone, with its fill, if the count is odd. */
static inline void put_channels(Message *m, unsigned operation, unsigned count)
{
    size_t at = open_setting(m, 0xCE);
    unsigned each;
    put(m, operation * 64 + count / 256);
    put(m, count % 256);
    for (each = 0; each < count; each += 2) {
        put(m, 0x0F);
        put(m, each + 1 < count ? 0x12 : 0x1F);
        if (each + 1 < count) {
            put(m, 0x80);
        }
    }
    close_setting(m, at);
}

/* A group (D1), of attribute 10 with `vary` 0, or an individual (D2). Slots 13 to 15 have no text; the address of 14 is a group outside the plan, that of 15 both. */
static inline void put_slot(Message *m, unsigned type, unsigned operation, unsigned index, unsigned vary)
{
    size_t at = open_setting(m, type);
    put(m, operation * 64 + (type == 0xD1 ? (1 + (vary + 1) % 3) * 16 + vary % 16 : vary % 16 * 4));
    put(m, (type == 0xD1 ? vary % 4 * 64 : 0) + index);
    put(m, index == 15 ? 0xFF : 0x10);
    put(m, index == 15 ? 0xFF : index == 14 ? 0x3C : 0x00);
    put(m, index == 14 ? 0x29 + vary : 1 + index);
    put_text(m, index >= 13 ? 0 : units_of(16, 0, index, vary));
    close_setting(m, at);
}

/* Group contacts (C8), of attribute 10 with `vary` 0, or individual contacts (C9): no two have one address, and every second is outside both plans. */
static inline void put_contacts(Message *m, unsigned type, unsigned operation, unsigned count, unsigned vary)
{
    size_t at = open_setting(m, type);
    unsigned each;
    put(m, operation * 64 + (type == 0xC8 ? (1 + (vary + 1) % 3) * 16 + vary % 16 : vary % 16 * 4));
    if (type == 0xC8) {
        put(m, vary % 4 * 64);
    }
    put(m, count);
    for (each = 0; each < count; each++) {
        put(m, each % 2 == 0 ? 0x10 : 0xFF);
        put(m, each % 2 == 0 ? 0x00 : 0x7F);
        put(m, 1 + each);
        put_text(m, units_of(16, 0, each, vary));
    }
    close_setting(m, at);
}

/* A line slot: the first one's number has 18 digits with `vary` 0, and slots 13 to 15 have no text. */
static inline void put_line_slot(Message *m, unsigned operation, unsigned index, unsigned vary)
{
    size_t at = open_setting(m, 0xD3);
    put(m, operation * 64 + vary % 32 * 2);
    put(m, vary % 16 * 16 + index);
    put_number(m, index, 18 - (index + vary) % 18);
    put_text(m, index >= 13 ? 0 : units_of(16, 0, index, vary));
    close_setting(m, at);
}

static inline void put_bytes(Message *m, unsigned type, const uint8_t *fields, size_t length)
{
    size_t at = open_setting(m, type);
    memcpy(m->bytes + m->length, fields, length);
    m->length += length;
    close_setting(m, at);
}

static inline void put_fixed(Message *m)
{
    static const uint8_t key[] = {0x78, 0x10, 0x00, 0x01}, home[] = {0x07, 0xE4, 0xC0}, code[] = {0xAB, 0xC8, 0x60};
    put_bytes(m, 0xCB, key, sizeof key);
    put_bytes(m, 0xCD, home, sizeof home);
    put_bytes(m, 0xCF, code, sizeof code);
}

static inline void put_last(Message *m)
{
    static const uint8_t last[] = {0xC2, 1, 2, 3, 4, 5, 6, 7, 8, 9, 10};
    put_bytes(m, 0xFF, last, sizeof last);
}

static inline void write_query(Message *m, unsigned code)
{
    static const uint8_t head[] = {0x02, 0x02, 0x00, 0x00, 0x08, 0x00, 0x0D};
    unsigned each, length = code == 2 ? 10 : code == 1 ? 4 : 0;
    memcpy(m->bytes, head, sizeof head);
    m->length = sizeof head;
    put(m, code);
    for (each = 1; each <= length; each++) {
        put(m, each);
    }
}

/* A query for reports of these types, 255 at most; its coding type is none that a request may have. */
static inline void write_asking(Message *m, const uint8_t *types, size_t count)
{
    static const uint8_t head[] = {0x02, 0x02, 0x00, 0x00, 0x08, 0x00, 0x0A};
    memcpy(m->bytes, head, sizeof head);
    m->length = sizeof head;
    put(m, (unsigned)count);
    memcpy(m->bytes + m->length, types, count);
    m->length += count;
    m->bytes[2] = (uint8_t)((m->length - 4) >> 8);
    m->bytes[3] = (uint8_t)(m->length - 4);
}

/* A query for as many types, each that asks in turn; with `vary` 0 none is unknown, with another every `vary`-th is. */
static inline void write_asking_all(Message *m, size_t count, unsigned vary)
{
    uint8_t types[OTAP_QUERY_MOST_TYPES];
    size_t each;
    for (each = 0; each < count; each++) {
        size_t type = (each + vary) % 10;
        types[each] = (uint8_t)(vary > 0 && each % vary == vary - 1 ? 0xD1 : type == 9 ? OTAP_ASK_HASH : OTAP_ASK_GROUP_CONTACTS + type);
    }
    write_asking(m, types, count);
}

/* A message of each kind; turn varies the operation where there is one, and whether the length is stated. */
static inline void write_message(Message *m, unsigned kind, unsigned turn)
{
    unsigned operation = 1 + turn % 3, i;
    open_request(m, kind == 3 ? 4 : 2);
    switch (kind) {
    case 0: put_lines(m, operation, 3, turn); break;
    case 1: put_quick(m, operation, turn % 60, 2, turn); break;
    case 2: put_status(m, operation, 2, turn); break;
    case 3: put_fixed(m); break;
    case 4: put_channels(m, operation, turn % 7); break;
    case 5: put_slot(m, 0xD1, 1, turn % 16, turn / 16); break;
    case 6: put_slot(m, 0xD2, 1, turn % 16, turn / 16); break;
    case 7: put_slot(m, 0xD1, 2, turn % 16, turn / 16); break;
    case 8: put_slot(m, 0xD2, 2, turn % 16, turn / 16); break;
    case 9: put_lines(m, 3, LINE_ROOM + 1, turn); break;
    case 10: put_channels(m, 1, CHANNEL_ROOM + 1); break;
    case 11: put_contacts(m, 0xC8, operation, 3, turn); break;
    case 12: put_contacts(m, 0xC9, operation, 3, turn); break;
    case 13: put_line_slot(m, 1, turn % 16, turn / 16); break;
    case 14: put_line_slot(m, 2, turn % 16, turn / 16); break;
    case 15: put_contacts(m, 0xC8, 3, 65, turn); break;
    case 16: put_contacts(m, 0xC9, 3, 65, turn); break;
    default: write_query(m, kind - REQUEST_KINDS); break;
    }
    if (kind < REQUEST_KINDS) {
        put_last(m);
    }
    i = (unsigned)(m->length - 4) * (turn % 2);
    m->bytes[2] = (uint8_t)(i >> 8);
    m->bytes[3] = (uint8_t)i;
}

/* A request of each kind that may be joined: without its FF item, which has 14 bytes, and its length not stated. */
static inline void write_joinable(Message *m, unsigned kind, unsigned turn)
{
    write_message(m, kind, turn);
    m->length -= 14;
    m->bytes[7]--;
    m->bytes[2] = m->bytes[3] = 0;
}

/*
 * One of the messages that together leave no place of a fresh store empty, and no byte of a hand-held's area of texts, with `vary` 0; with another, some of the
 * lists and texts are shorter.
 */
static inline void write_filling(Message *m, unsigned each, unsigned vary)
{
    unsigned slot;
    open_request(m, each == 5 || each == 6 || each == 9 ? 16 : each == 10 ? 4 : each == 3 ? 2 : 1);
    switch (each) {
    case 0: put_lines(m, 3, LINE_ROOM - vary, vary); break;
    case 1: put_quick(m, 3, 0, 63, vary); break;
    case 2: put_quick(m, 1, 63, 1, vary); break;
    case 3: put_status(m, 3, 96, vary); put_status(m, 1, LONGER_STATUS, vary + 4); break;
    case 4: put_channels(m, 3, CHANNEL_ROOM - vary); break;
    case 7: put_contacts(m, 0xC8, 3, 64 - vary, vary); break;
    case 8: put_contacts(m, 0xC9, 3, 64 - vary, vary); break;
    case 10: put_fixed(m); put_last(m); break;
    default: break;
    }
    for (slot = 0; slot < 16 && (each == 5 || each == 6); slot++) {
        put_slot(m, each == 5 ? 0xD1 : 0xD2, 1, slot, vary);
    }
    for (slot = 0; slot < 16 && each == 9; slot++) {
        put_line_slot(m, 1, slot, vary);
    }
}

/* A request of as many bytes: lines and texts that a cut, bytes left over or a length over the limit ends. */
static inline void write_long(Message *m, size_t length)
{
    memset(m->bytes, 0x12, sizeof m->bytes);
    open_request(m, 4);
    put_lines(m, 3, LINE_ROOM, 0);
    put_quick(m, 3, 0, 63, 0);
    put_status(m, 3, 96, 0);
    put_last(m);
    m->length = length;
}

static inline void damage(uint8_t *bytes, size_t length, unsigned changes)
{
    static const uint8_t likely[] = {0x00, 0x01, 0x7F, 0x80, 0xFF};
    for (; changes > 0 && length > 0; changes--) {
        size_t at = random_below((unsigned)length);
        unsigned way = random_below(3);
        bytes[at] = (uint8_t)(way == 0 ? random_below(256) : way == 1 ? bytes[at] ^ (1u << random_below(8)) : likely[random_below(5)]);
    }
}

/* Random bytes; two of three have a request's head, so that they are read as settings. */
static inline void write_random(Message *m)
{
    static const uint8_t types[] = {0xC8, 0xC9, 0xCA, 0xCB, 0xCC, 0xCD, 0xCE, 0xCF, 0xD0, 0xD1, 0xD2, 0xD3, 0xFF};
    size_t length = random_below(8) == 0 ? random_below(OTAP_MESSAGE_BYTES + 2) : random_below(64), at;
    for (at = 0; at < length; at++) {
        m->bytes[at] = (uint8_t)random_below(256);
    }
    m->length = length;
    if (length > 11 && random_below(3) != 0) {
        open_request(m, 1 + random_below(3));
        put(m, types[random_below(sizeof types)]);
        put(m, 0);
        put(m, (unsigned)(length - 9));
        m->length = length;
    }
}

#endif
