/*
 * A vehicle and its hand-held in one program, which links libotap_handheld.a and libotap_vehicle.a. What the vehicle exports is handed on part by part: as long
 * as it fits the hand-held's room it is taken whole, and both have the same tables. Then the vehicle gets more lines than the hand-held has room for, and the
 * first part is refused. What the hand-held exports the vehicle takes. Last the vehicle gets more texts than a hand-held's area holds, and the part with which
 * they are too many is refused. examples/two_sets.out is what it prints. The first answer that is not what it must be ends it with 1.
 */
#include "otap_vehicle.h"
#include "text.h"

#include <stdlib.h>
#include <string.h>

static uint8_t vehicle[OTAP_VEHICLE_STORE_BYTES], handheld[OTAP_STORE_BYTES];
static uint8_t part_bytes[OTAP_VEHICLE_EXPORT_BYTES], own_part[OTAP_EXPORT_BYTES]; /* each set writes into a buffer of its own size */
static uint8_t reply[OTAP_REPLY_BYTES], scratch[OTAP_SCRATCH_BYTES];

/* The line Center, PABX 2345; channels 241 and 640. Coding type 0100, eight-bit characters. */
static const uint8_t adding[] = {
    0x02, 0x02, 0x00, 0x00, 0x08, 0x04, 0x08, 0x02,
    0xCA, 0x00, 0x0E, 0x42, 0x01, 0x23, 0x45, 0xFF, 'C', 'e', 'n', 't', 'e', 'r', 0x00, /* add, PABX; one entry */
    0xCE, 0x00, 0x07, 0xC0, 0x02, 0x0F, 0x12, 0x80                                      /* replace by two channels */
};

static void must_be(const char *what, uint64_t is, uint64_t must)
{
    if (is != must) {
        fprintf(stderr, "%s is %lx, must be %lx\n", what, (unsigned long)is, (unsigned long)must);
        exit(1);
    }
}

/* A request of `count` lines with two digits each, from `first` on: 10 to 99, without names. How long it is. */
static size_t write_lines(uint8_t *message, unsigned first, unsigned count)
{
    static const uint8_t head[] = {0x02, 0x02, 0x00, 0x00, 0x08, 0x04, 0x08, 0x01, 0xCA};
    size_t at = sizeof head, data_length = 4 + 3 * (size_t)count;
    unsigned each;
    memcpy(message, head, sizeof head);
    message[at++] = (uint8_t)(data_length >> 8);
    message[at++] = (uint8_t)data_length;
    message[at++] = 0x40; /* add, PSTN */
    message[at++] = (uint8_t)count;
    for (each = first; each < first + count; each++) {
        message[at++] = (uint8_t)(each / 10 * 16 + each % 10);
        message[at++] = 0xFF; /* the number's end */
        message[at++] = 0x00; /* the text's end */
    }
    return at;
}

/* A request of `count` texts of `units` letters each: quick texts (CC) from index 0 on, or status texts (D0) from code 32 on. How long it is. */
static size_t write_texts(uint8_t *message, int quick, unsigned count, unsigned units)
{
    static const uint8_t head[] = {0x02, 0x02, 0x00, 0x00, 0x08, 0x04, 0x08, 0x01};
    size_t at = sizeof head, data_length = (quick ? 3 : 4) + (size_t)count * (units + 2);
    unsigned each;
    memcpy(message, head, sizeof head);
    message[at++] = quick ? 0xCC : 0xD0;
    message[at++] = (uint8_t)(data_length >> 8);
    message[at++] = (uint8_t)data_length;
    message[at++] = (uint8_t)(quick ? 0x40 + count : 0x40); /* add; of quick texts the count is in the same byte */
    if (!quick) {
        message[at++] = (uint8_t)count;
    }
    for (each = 0; each < count; each++) {
        message[at++] = (uint8_t)(quick ? each : 32 + each);
        memset(message + at, 'x', units);
        at += units;
        message[at++] = 0x00; /* the text's end */
    }
    return at;
}

static void vehicle_takes(const uint8_t *message, size_t length)
{
    uint64_t answer = otap_vehicle_commit(message, length, vehicle, sizeof vehicle, reply, sizeof reply);
    must_be("the vehicle's answer", otap_answer_number(answer), OTAP_OK);
}

/* The ten parts in order, up to the first that the hand-held refuses. A refused part changes nothing; those before it stay. */
static void hand_on(void)
{
    uint32_t part;
    for (part = 1; part <= OTAP_EXPORT_PARTS; part++) {
        uint64_t written = otap_vehicle_export(part, vehicle, sizeof vehicle, part_bytes, sizeof part_bytes);
        uint64_t answer = otap_commit(part_bytes, otap_export_length(written), handheld, sizeof handheld, reply, sizeof reply);
        if (otap_answer_number(answer) != OTAP_OK) {
            printf("part %u, of %u bytes, is refused with %u, setting %u\n", (unsigned)part, (unsigned)otap_export_length(written),
                   (unsigned)otap_answer_number(answer), (unsigned)otap_answer_failed(answer));
            return;
        }
    }
    printf("all parts are taken\n");
}

/* The other way: a hand-held's part is taken by every vehicle. */
static void hand_back(uint32_t part)
{
    uint64_t written = otap_export(part, handheld, sizeof handheld, own_part, sizeof own_part);
    vehicle_takes(own_part, otap_export_length(written));
    printf("part %u of the hand-held is taken by the vehicle\n", (unsigned)part);
}

/* How many bytes of the two sets' exports are the same, part by part, if all are. */
static void compare(void)
{
    size_t sum = 0;
    uint32_t part;
    for (part = 1; part <= OTAP_EXPORT_PARTS; part++) {
        uint64_t written = otap_vehicle_export(part, vehicle, sizeof vehicle, part_bytes, sizeof part_bytes);
        must_be("the hand-held's part", otap_export(part, handheld, sizeof handheld, own_part, sizeof own_part), written);
        must_be("a byte that differs", (uint64_t)(memcmp(own_part, part_bytes, otap_export_length(written)) != 0), 0);
        sum += otap_export_length(written);
    }
    printf("both export the same %u bytes\n", (unsigned)sum);
}

static void print_room(void)
{
    uint64_t large = otap_vehicle_counts(vehicle, sizeof vehicle), small = otap_counts(handheld, sizeof handheld);
    printf("vehicle: %u lines, %u free; hand-held: %u lines, %u free\n", (unsigned)otap_counts_lines(large),
           (unsigned)otap_vehicle_counts_free_lines(large), (unsigned)otap_counts_lines(small), (unsigned)otap_counts_free_lines(small));
}

int main(void)
{
    static uint8_t message[OTAP_MESSAGE_BYTES];
    uint64_t part;
    must_be("start", otap_vehicle_start(vehicle, sizeof vehicle), OTAP_OK);
    must_be("start", otap_start(handheld, sizeof handheld), OTAP_OK);
    vehicle_takes(adding, sizeof adding);
    vehicle_takes(message, write_lines(message, 10, 31));
    print_room();
    hand_on();
    compare();
    part = otap_row_part(OTAP_LINES, 0, handheld, sizeof handheld, scratch, sizeof scratch);
    printf("the hand-held's first line: ");
    print_text(otap_part_bytes(part, handheld, scratch), otap_part_length(part));
    printf("\n");
    vehicle_takes(message, write_lines(message, 41, 1));
    print_room();
    hand_on();
    hand_back(OTAP_EXPORT_LINES);
    print_room();
    vehicle_takes(message, write_texts(message, 1, 63, 23));
    vehicle_takes(message, write_texts(message, 0, 40, 16));
    printf("the vehicle has 63 quick texts of 23 units and 40 status texts of 16\n");
    hand_on();
    return 0;
}
