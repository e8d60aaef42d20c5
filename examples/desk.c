/*
 * A desk of the training room: an emulator over libotap_desk.a beside a hand-held over libotap_handheld.a. The instructor sends both the same messages, and both
 * answer, reply and show the same; what was sent stands in the emulator's area, to be read. The emulator keeps that alone, so that its area is full some day:
 * then it is started again. Every answer is checked; the first that is not what it must be ends the program with 1. examples/desk.out is what it prints.
 */
#include "otap_desk.h"
#include "text.h"

#include <stdio.h>
#include <stdlib.h>
#include <string.h>

/* Names for a group contact and a background group, PABX 2345 and PSTN 110, a quick text and a status; coding type 0100, eight-bit characters. */
static const uint8_t lesson[] = {
    0x02, 0x02, 0x00, 0x00, 0x08, 0x04, 0x08, 0x06,
    0xC8, 0x00, 0x0F, 0x60, 0x00, 0x01, 0x10, 0x00, 0x01, 'P', 'a', 't', 'r', 'o', 'l', 0x00,
    0xC8, 0x00, 0x0D, 0x50, 0x00, 0x01, 0x10, 0x00, 0x02, 'B', 'a', 's', 'e', 0x00,
    0xCA, 0x00, 0x0E, 0x42, 0x01, 0x23, 0x45, 0xFF, 'C', 'e', 'n', 't', 'e', 'r', 0x00,
    0xCA, 0x00, 0x07, 0x40, 0x01, 0x11, 0x0F, 0x00,
    0xCC, 0x00, 0x08, 0x41, 0x05, 'Y', 'e', 's', 0x00,
    0xD0, 0x00, 0x0B, 0x40, 0x01, 0x21, 'R', 'e', 'a', 'd', 'y', 0x00
};

/* The group contact again, now with a name of 16-bit units and a last item: start again, reply, HashCode 1. */
static const uint8_t renaming[] = {
    0x02, 0x02, 0x00, 0x1B, 0x08, 0x07, 0x08, 0x02,
    0xC8, 0x00, 0x0E, 0x60, 0x00, 0x01, 0x10, 0x00, 0x01, 0x5D, 0xE1, 0x90, 0x3B, 0x00, 0x00,
    0xFF, 0x00, 0x07, 0xC1, 0x12, 0x34, 0x56, 0x78
};

/* Asks for that hash; and home numbers with NP 807, which is none. */
static const uint8_t asking[] = {0x02, 0x02, 0x00, 0x08, 0x08, 0x00, 0x0D, 0x01, 0x12, 0x34, 0x56, 0x78};
static const uint8_t wrong[] = {0x02, 0x02, 0x00, 0x0A, 0x08, 0x07, 0x08, 0x01, 0xCD, 0x00, 0x05, 0x07, 0xE4, 0xE0};

static uint8_t area[OTAP_AREA_BYTES], store[OTAP_STORE_BYTES];
static uint8_t longer[8 + 4 + 63 * 49]; /* see write_longer */

static void must_be(const char *what, uint64_t is, uint64_t must)
{
    if (is != must) {
        fprintf(stderr, "%s is %lu, must be %lu\n", what, (unsigned long)is, (unsigned long)must);
        exit(1);
    }
}

/* How many bytes of the area are used, its first four not counted. */
static size_t used(void)
{
    return (size_t)area[0] << 24 | (size_t)area[1] << 16 | (size_t)area[2] << 8 | area[3];
}

static void start(void)
{
    must_be("starting the area", otap_plain_start(area, sizeof area), OTAP_OK);
    must_be("starting the store", otap_start(store, sizeof store), OTAP_OK);
}

/* A message to both: the same answer, and the same bytes of a reply. */
static uint64_t send(const uint8_t *message, size_t length)
{
    uint8_t reply[OTAP_REPLY_BYTES], other[OTAP_REPLY_BYTES];
    uint64_t answer = otap_plain_take(message, length, area, sizeof area, reply, sizeof reply);
    if (otap_answer_number(answer) == OTAP_AREA_FULL) {
        return answer; /* the hand-held would take it: it has tables, and no log */
    }
    must_be("the hand-held's answer", otap_commit(message, length, store, sizeof store, other, sizeof other), answer);
    must_be("the hand-held's reply", (uint64_t)(memcmp(reply, other, otap_answer_length(answer)) != 0), 0);
    return answer;
}

static void tell(const char *what, const uint8_t *message, size_t length)
{
    uint64_t answer = send(message, length);
    printf("%s: number %u, failed ID %u%s%s; %u bytes used\n", what, (unsigned)otap_answer_number(answer), (unsigned)otap_answer_failed(answer),
           otap_answer_send(answer) ? ", reply" : "", otap_answer_reboot(answer) ? ", start again" : "", (unsigned)used());
}

/* A row as the emulator shows it, which is as the hand-held shows it. It stands in the scratch; a hand-held's text would stand in its store. */
static void draw_row(uint32_t table, uint32_t row)
{
    uint8_t scratch[OTAP_PLAIN_SCRATCH_BYTES], other[OTAP_SCRATCH_BYTES];
    uint64_t part = otap_plain_row_part(table, row, area, sizeof area, scratch, sizeof scratch);
    uint64_t wanted = otap_row_part(table, row, store, sizeof store, other, sizeof other);
    must_be("whether it is shown", part != 0, wanted != 0);
    if (part == 0) {
        return; /* nothing there, or a background group */
    }
    must_be("its length", otap_part_length(part), otap_part_length(wanted));
    must_be("its bytes", (uint64_t)(memcmp(scratch, otap_part_bytes(wanted, store, other), otap_part_length(part)) != 0), 0);
    printf("  table %u row %u: ", (unsigned)table, (unsigned)row);
    print_text(scratch, otap_part_length(part));
    printf("\n");
}

static void draw(void)
{
    uint32_t table, row;
    for (table = 1; table <= OTAP_TABLES; table++) {
        for (row = 0; row <= OTAP_STATUS_LAST; row++) {
            draw_row(table, row);
        }
    }
}

/* The area, request by request: each behind its length. */
static void read_back(void)
{
    size_t at = 4;
    unsigned count = 0;
    while (at < 4 + used()) {
        size_t length = (size_t)area[at] << 8 | area[at + 1];
        printf("  request %u: %u bytes, %u settings\n", ++count, (unsigned)length, (unsigned)area[at + 2 + 7]);
        at += 2 + length;
    }
}

/* A request of 63 quick texts, each of 23 units: what fills an area soonest. The first text with an index stays, so that it changes nothing the second time. */
static void write_longer(void)
{
    static const uint8_t head[] = {0x02, 0x02, 0x00, 0x00, 0x08, 0x07, 0x08, 0x01, 0xCC, (uint8_t)((sizeof longer - 9) >> 8), (uint8_t)(sizeof longer - 9), 0x7F};
    size_t at = sizeof head;
    unsigned index, unit;
    memcpy(longer, head, sizeof head);
    for (index = 0; index < 63; index++) {
        longer[at] = (uint8_t)index;
        for (unit = 0; unit < 23; unit++) {
            longer[at + 2 + 2 * unit] = (uint8_t)('A' + (index + unit) % 26);
        }
        at += 49;
    }
}

int main(void)
{
    unsigned more = 0;
    start();
    tell("the lesson", lesson, sizeof lesson);
    draw();
    tell("another name", renaming, sizeof renaming);
    tell("a query for its hash", asking, sizeof asking);
    tell("a field that is wrong", wrong, sizeof wrong);
    draw();
    printf("what was taken\n");
    read_back();
    write_longer();
    while (otap_answer_number(send(longer, sizeof longer)) == OTAP_OK) {
        more++;
    }
    printf("a longer lesson %u times\n", more);
    tell("once more", longer, sizeof longer);
    tell("a shorter one", renaming, sizeof renaming);
    start();
    printf("started again: %u bytes used\n", (unsigned)used());
    tell("the lesson", lesson, sizeof lesson);
    return 0;
}
