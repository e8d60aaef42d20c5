/*
 * No call of the desk emulator leaves the bytes that it was lent: messages of every kind, cut and damaged, areas that are filled to the last byte, damaged ones
 * and ones of a wrong size, with reply buffers and scratches of each size, at both ends of their pages (pages.h). What is only read cannot be written, and what a
 * refusal must leave neither. With the word "outside" a call is lent one byte too many, of the buffer that a second word names, to see the fault.
 */
#define _DEFAULT_SOURCE
#include "messages.h"
#include "must.h"
#include "otap_desk.h"
#include "pages.h"

enum { ROOM = OTAP_AREA_BYTES + PAGE };

static Lent message, area, buffer;
static uint8_t log_bytes[OTAP_AREA_BYTES + 1], full[OTAP_AREA_BYTES + 1], copy_of_area[ROOM], stale[256];
static unsigned long calls, seen[256], rows_seen[256];

/* After each call. */
static void came_back(void)
{
    calls++;
    must(kept(&message) && kept(&area) && kept(&buffer), "outside the lent bytes");
}

static void start_at(int at_end, size_t length)
{
    current = "otap_plain_start";
    lend(&area, at_end, log_bytes, length, length == OTAP_AREA_BYTES);
    must(otap_plain_start(area.bytes, length) == (length == OTAP_AREA_BYTES ? OTAP_OK : OTAP_NO_STORE), "number");
    came_back();
}

/* Number by the sizes alone. */
static uint32_t by_size(size_t message_length, size_t area_length, size_t reply_length)
{
    if (reply_length < OTAP_REPLY_BYTES) {
        return OTAP_SHORT_REPLY;
    }
    if (area_length != OTAP_AREA_BYTES) {
        return OTAP_NO_STORE;
    }
    return message_length < 7 || message_length > OTAP_MESSAGE_BYTES ? OTAP_MESSAGE_LENGTH : OTAP_OK;
}

/* A message to these bytes, which a request that is taken changes; all else is sent again where nothing but a reply can be written, and that neither with 10 up. */
static uint32_t take_at(int at_end, const Message *said, const uint8_t *bytes, size_t area_length, size_t reply_length)
{
    uint32_t expected = by_size(said->length, area_length, reply_length);
    uint64_t answer;
    uint32_t number;
    current = "otap_plain_take";
    lend(&message, at_end, said->bytes, said->length, 0);
    lend(&area, at_end, bytes, area_length, 1);
    lend(&buffer, at_end, stale, reply_length, 1);
    memcpy(copy_of_area, bytes, area_length);
    answer = otap_plain_take(message.bytes, message.length, area.bytes, area_length, buffer.bytes, reply_length);
    number = otap_answer_number(answer);
    came_back();
    must(expected == OTAP_OK || number == expected || number == OTAP_NO_STORE, "number");
    must(memcmp(buffer.bytes + otap_answer_length(answer), stale, reply_length - otap_answer_length(answer)) == 0, "bytes past the reply changed");
    seen[number]++;
    if (number != OTAP_OK || memcmp(copy_of_area, area.bytes, area_length) == 0) {
        current = "otap_plain_take that keeps nothing";
        must(memcmp(copy_of_area, area.bytes, area_length) == 0, "the area changed");
        seal(&area);
        if (number > OTAP_NO_MATCH) {
            seal(&buffer);
        }
        must(answer == otap_plain_take(message.bytes, message.length, area.bytes, area_length, buffer.bytes, reply_length), "another answer");
        came_back();
    }
    return number;
}

/* Both calls of a row; the scratch of a refusal cannot be written. */
static void row_at(int at_end, uint32_t table, uint32_t row, const uint8_t *bytes, size_t area_length, size_t scratch_length)
{
    uint32_t number;
    uint64_t part;
    current = "otap_plain_row_number";
    lend(&area, at_end, bytes, area_length, 0);
    lend(&buffer, at_end, stale, scratch_length, 0);
    number = otap_plain_row_number(table, row, area.bytes, area_length, buffer.bytes, scratch_length);
    must(scratch_length >= OTAP_PLAIN_SCRATCH_BYTES || number == OTAP_SHORT_BUFFER, "number");
    must(scratch_length < OTAP_PLAIN_SCRATCH_BYTES || area_length == OTAP_AREA_BYTES || number == OTAP_NO_STORE, "number");
    rows_seen[number]++;
    came_back();
    current = "otap_plain_row_part";
    lend(&buffer, at_end, stale, scratch_length, number == OTAP_OK);
    part = otap_plain_row_part(table, row, area.bytes, area_length, buffer.bytes, scratch_length);
    came_back();
    must((part == 0) == (number != OTAP_OK), "a part exactly with 0");
    must(part == 0 || part == ((uint64_t)otap_part_length(part) << 32 | 1), "at the scratch's start");
    must(otap_part_length(part) <= OTAP_ROW_BYTES, "longer than a row");
    must(memcmp(buffer.bytes + otap_part_length(part), stale, scratch_length - otap_part_length(part)) == 0, "bytes past the row changed");
}

/* A small log of every kind of message, and one that fills the area. */
static void fill(void)
{
    static Message said;
    unsigned turn;
    current = "filling an area";
    must(otap_plain_start(log_bytes, OTAP_AREA_BYTES) == OTAP_OK && otap_plain_start(full, OTAP_AREA_BYTES) == OTAP_OK, "start");
    for (turn = 0; turn < MESSAGE_KINDS; turn++) {
        write_message(&said, turn, 3 * turn);
        take_at(1, &said, log_bytes, OTAP_AREA_BYTES, OTAP_REPLY_BYTES);
        memcpy(log_bytes, area.bytes, OTAP_AREA_BYTES);
    }
    write_filling(&said, 0, 0);
    while (take_at(1, &said, full, OTAP_AREA_BYTES, OTAP_REPLY_BYTES) == OTAP_OK) {
        memcpy(full, area.bytes, OTAP_AREA_BYTES);
        write_filling(&said, random_below(2), 1 + random_below(5)); /* lines or quick texts, each with a long text */
    }
}

static void sizes(void)
{
    static const size_t areas[] = {0, 1, 3, 4, OTAP_AREA_BYTES - 1, OTAP_AREA_BYTES, OTAP_AREA_BYTES + 1};
    static const size_t replies[] = {0, 1, OTAP_REPLY_BYTES - 1, OTAP_REPLY_BYTES, OTAP_REPLY_BYTES + 1};
    static const size_t scratches[] = {0, 1, 36, OTAP_PLAIN_SCRATCH_BYTES - 1, OTAP_PLAIN_SCRATCH_BYTES, OTAP_PLAIN_SCRATCH_BYTES + 1};
    static const size_t messages[] = {0, 1, 6, 7, 8, OTAP_MESSAGE_BYTES - 1, OTAP_MESSAGE_BYTES, OTAP_MESSAGE_BYTES + 1};
    static Message said;
    unsigned at_end, each, other;
    for (at_end = 0; at_end < 2; at_end++) {
        for (each = 0; each < 7; each++) {
            start_at((int)at_end, areas[each]);
            for (other = 0; other < 5; other++) {
                write_message(&said, (each * 5 + other) % MESSAGE_KINDS, other);
                take_at((int)at_end, &said, log_bytes, areas[each], replies[other]);
            }
            for (other = 0; other < 12; other++) {
                row_at((int)at_end, other < 6 ? OTAP_LINES : 9, 0, log_bytes, areas[each], scratches[other % 6]);
            }
        }
        for (each = 0; each < 8; each++) {
            write_long(&said, messages[each]);
            take_at((int)at_end, &said, log_bytes, OTAP_AREA_BYTES, OTAP_REPLY_BYTES);
        }
    }
}

/* Every cut of every kind of message; damaged and random ones. */
static void messages(void)
{
    static Message said;
    unsigned turn;
    size_t length;
    for (turn = 0; turn < MESSAGE_KINDS; turn++) {
        write_message(&said, turn, 1);
        for (length = said.length; length-- > 0;) {
            said.length = length;
            take_at(1, &said, log_bytes, OTAP_AREA_BYTES, OTAP_REPLY_BYTES);
        }
    }
    for (turn = 0; turn < 2000; turn++) {
        write_message(&said, random_below(MESSAGE_KINDS), turn);
        damage(said.bytes, said.length, 1 + random_below(4));
        take_at((int)(turn % 2), &said, log_bytes, OTAP_AREA_BYTES, OTAP_REPLY_BYTES + turn % 3);
        write_random(&said);
        take_at((int)(turn % 2), &said, log_bytes, OTAP_AREA_BYTES, OTAP_REPLY_BYTES);
    }
}

/* Every row of the small log, some of the full one; and damaged areas. */
static void rows(void)
{
    static uint8_t bytes[OTAP_AREA_BYTES];
    static Message said;
    uint32_t each;
    size_t used = (size_t)log_bytes[2] << 8 | log_bytes[3];
    for (each = 0; each < (OTAP_TABLES + 2) * 130; each++) {
        row_at((int)(each % 2), each / 130, each % 130, log_bytes, OTAP_AREA_BYTES, OTAP_PLAIN_SCRATCH_BYTES + each % 3);
    }
    for (each = 0; each < 40; each++) {
        row_at((int)(each % 2), 1 + each % OTAP_TABLES, each < 20 ? 33 : each % 10, full, OTAP_AREA_BYTES, OTAP_PLAIN_SCRATCH_BYTES);
        write_message(&said, each % MESSAGE_KINDS, each);
        take_at((int)(each % 2), &said, full, OTAP_AREA_BYTES, OTAP_REPLY_BYTES);
    }
    for (each = 0; each < 2000; each++) {
        memcpy(bytes, log_bytes, sizeof bytes);
        damage(bytes, each % 8 == 0 ? sizeof bytes : used + 8, 1 + random_below(3));
        row_at((int)(each % 2), 1 + each % OTAP_TABLES, random_below(64), bytes, sizeof bytes, OTAP_PLAIN_SCRATCH_BYTES);
        write_message(&said, each % MESSAGE_KINDS, each);
        take_at((int)(each % 2), &said, bytes, sizeof bytes, OTAP_REPLY_BYTES);
    }
}

/* Less of one buffer than the call is told: it comes to the byte that is not there. */
static int outside(const char *which)
{
    static Message said;
    write_message(&said, 4, 3);
    current = "a byte too many, as asked";
    lend(&message, 1, said.bytes, said.length - (strcmp(which, "message") == 0), 0);
    lend(&area, 1, log_bytes, OTAP_AREA_BYTES - (strcmp(which, "area") == 0), 1);
    if (strcmp(which, "scratch") == 0) {
        lend(&buffer, 1, stale, 1, 1);
        otap_plain_row_part(OTAP_INDIVIDUAL_CONTACTS, 0, area.bytes, OTAP_AREA_BYTES, buffer.bytes, OTAP_PLAIN_SCRATCH_BYTES);
    } else {
        lend(&buffer, 1, stale, strcmp(which, "reply") == 0 ? 9 : OTAP_REPLY_BYTES, 1);
        otap_plain_take(message.bytes, said.length, area.bytes, OTAP_AREA_BYTES, buffer.bytes, OTAP_REPLY_BYTES);
    }
    return 3;
}

int main(int count, char **words)
{
    static const uint8_t numbers[] = {OTAP_OK, OTAP_BAD_VERSION, OTAP_NO_ROOM, OTAP_UNKNOWN_TYPE, OTAP_BAD_FIELD, OTAP_NO_MATCH, OTAP_SHORT_REPLY,
                                      OTAP_NO_STORE, OTAP_MESSAGE_LENGTH, OTAP_BAD_CARRIER, OTAP_OTHER_MESSAGE, OTAP_AREA_FULL};
    static const uint8_t of_rows[] = {OTAP_OK, OTAP_SHORT_BUFFER, OTAP_NO_STORE, OTAP_NO_ROW};
    size_t each;
    make_room(&message, 2 * PAGE);
    make_room(&area, ROOM);
    make_room(&buffer, PAGE);
    memset(stale, 0xA5, sizeof stale);
    fill();
    if (count > 2 && strcmp(words[1], "outside") == 0) {
        return outside(words[2]);
    }
    sizes();
    messages();
    rows();
    current = "the calls of this test";
    for (each = 0; each < sizeof numbers; each++) {
        must(seen[numbers[each]] > 0, "a number never came");
    }
    for (each = 0; each < sizeof of_rows; each++) {
        must(rows_seen[of_rows[each]] > 0, "a number of a row never came");
    }
    printf("no call left its bytes: %lu calls, %lu requests kept, %lu rows shown\n", calls, seen[OTAP_OK], rows_seen[OTAP_OK]);
    return 0;
}
