/*
 * Both sets in one program, which links both archives (requests A10 and A11): when a hand-held takes what a vehicle has exported and what it refuses it with,
 * that a vehicle takes a hand-held's, and that neither knows the other's store. Each case was worked out by hand from docs/RULES.md, Y3 to Y7.
 */
#include "answers.h"

enum { EXPORTED_LINE = 49, REPLACE_LINES = 5 }; /* bytes of an exported line of 18 digits and 16 units, and of the setting before the lines */

static uint8_t handheld[OTAP_STORE_BYTES], vehicle[OTAP_VEHICLE_STORE_BYTES], large[OTAP_VEHICLE_EXPORT_BYTES];

static uint64_t take_in_vehicle(const uint8_t *message, size_t length)
{
    static uint8_t before[sizeof vehicle];
    uint8_t forecast[OTAP_REPLY_BYTES];
    uint64_t judged, answer;
    memcpy(before, vehicle, sizeof before);
    judged = otap_vehicle_judge(message, length, vehicle, sizeof vehicle, forecast, sizeof forecast);
    same("judging leaves the store", 0, 0, (uint64_t)(memcmp(before, vehicle, sizeof before) != 0));
    answer = otap_vehicle_commit(message, length, vehicle, sizeof vehicle, reply, sizeof reply);
    same("as it was judged", judged, answer, judged);
    return answer & 0xFFFF;
}

static uint64_t take_in_handheld(const uint8_t *message, size_t length)
{
    return judge_and_commit(message, length, handheld, sizeof handheld, reply, sizeof reply) & 0xFFFF;
}

/* So many lines of 18 digits and 16 units for the vehicle, from this one on. */
static void give_lines(unsigned first, unsigned count)
{
    size_t at;
    unsigned each;
    open_request(&said, 1);
    at = open_setting(&said, 0xCA);
    put(&said, ADD * 64);
    put(&said, count);
    for (each = 0; each < count; each++) {
        put_number(&said, first + each, OTAP_DIGITS);
        put_text(&said, 16);
    }
    close_setting(&said, at);
    same("lines for the vehicle", 0, OTAP_OK, take_in_vehicle(said.bytes, said.length));
}

static void give_channels(unsigned count)
{
    open_request(&said, 1);
    put_channels(&said, REPLACE, count);
    same("channels for the vehicle", 0, OTAP_OK, take_in_vehicle(said.bytes, said.length));
}

/* Status texts of so many units in all, of 16 each and the last of what is left; no others. */
static void give_status(unsigned units)
{
    size_t at;
    unsigned code;
    open_request(&said, 1);
    at = open_setting(&said, 0xD0);
    put(&said, REPLACE * 64);
    put(&said, (units + 15) / 16);
    for (code = 32; units > 0; code++) {
        unsigned now = units < 16 ? units : 16;
        put(&said, code);
        put_text(&said, now);
        units -= now;
    }
    close_setting(&said, at);
    same("status texts for the vehicle", 0, OTAP_OK, take_in_vehicle(said.bytes, said.length));
}

/* A vehicle with so many lines and channels, quick texts, contacts and slots as a full hand-held has them, 1,445 units of texts, and no status texts. */
static void fill_vehicle(unsigned lines, unsigned channels)
{
    unsigned each;
    same("start", 0, OTAP_OK, otap_vehicle_start(vehicle, sizeof vehicle));
    for (each = 1; each < FILLING_MESSAGES; each++) {
        write_filling(&said, each, 0);
        same("a full vehicle", 0, OTAP_OK, take_in_vehicle(said.bytes, said.length));
    }
    give_status(0);
    for (each = 0; each < lines; each += 64) {
        give_lines(each, lines - each < 64 ? lines - each : 64);
    }
    give_channels(channels);
}

static void start_handheld(void)
{
    same("start", 0, OTAP_OK, otap_start(handheld, sizeof handheld));
}

/* A full hand-held; its hash is kept. */
static void fill_handheld(void)
{
    fill_store(handheld, 0);
}

/* A part of the vehicle, left in `large`: how long it is. */
static size_t part_length(uint32_t part)
{
    return otap_export_length(otap_vehicle_export(part, vehicle, sizeof vehicle, large, sizeof large));
}

/* The vehicle's parts, in turn to the hand-held, up to the first that is refused: which that is, 11 if none, and what it comes to. */
static void handheld_takes(const char *what, uint32_t stops_at, uint64_t number, uint64_t failed)
{
    uint64_t answer = OTAP_OK;
    uint32_t part = 0;
    while (answer == OTAP_OK && part < OTAP_EXPORT_PARTS) {
        size_t length = part_length(++part);
        answer = take_in_handheld(large, length);
    }
    same(what, stops_at, answer == OTAP_OK ? part + 1 : part, stops_at);
    same(what, number | failed << 8, answer, number | failed << 8);
}

/* Both export the same bytes, part by part: they have the same tables. */
static void same_tables(void)
{
    uint32_t part;
    for (part = 1; part <= OTAP_EXPORT_PARTS; part++) {
        uint64_t other = otap_vehicle_export(part, vehicle, sizeof vehicle, large, sizeof large);
        same("as long an export", other, otap_export(part, handheld, sizeof handheld, buffer, sizeof buffer), other);
        same("the same export", 0, 0, (uint64_t)(memcmp(buffer, large, otap_export_length(other)) != 0));
    }
}

/*
 * Texts at the edge of a hand-held's area: 512 units of lines, 497 of quick texts, the status texts, three times 130 of slots and twice 279 of contacts, in the
 * order of the parts. The last text of the line slots is in slot 12, and the last individual contact has one unit.
 */
static void texts_to_handheld(void)
{
    static const struct { unsigned status; uint32_t part; uint64_t number, failed; } rows[] = {
        {0, 11, 0, 0}, {91, 11, 0, 0}, {92, OTAP_EXPORT_LINE_SLOTS, 2, 13}, {221, OTAP_EXPORT_LINE_SLOTS, 2, 1},
        {222, OTAP_EXPORT_INDIVIDUAL_CONTACTS, 2, 65}, {1039, OTAP_EXPORT_GROUPS, 2, 1}, {1040, OTAP_EXPORT_STATUS_TEXTS, 2, 1}
    };
    size_t each;
    fill_vehicle(32, 64);
    for (each = 0; each < sizeof rows / sizeof rows[0]; each++) {
        give_status(rows[each].status);
        start_handheld();
        handheld_takes("32 lines, 64 channels, and so many texts", rows[each].part, rows[each].number, rows[each].failed);
        counts_are("all lines are there, and the channels", handheld, 32, 64);
        if (rows[each].number == OTAP_OK) {
            same_tables();
        }
    }
}

/* A hand-held that holds other texts: those of parts that are still to come are in the way, or leave room enough. */
static void used_handheld(void)
{
    unsigned each;
    fill_vehicle(32, 64);
    give_status(91);
    fill_handheld();
    handheld_takes("1,864 units of a full hand-held, and 12 lines", OTAP_EXPORT_LINES, 2, 13);
    start_handheld();
    for (each = 4; each < 7; each++) {
        write_filling(&said, each, 1);
        same("channels and slots", 0, OTAP_OK, take_in_handheld(said.bytes, said.length));
    }
    handheld_takes("room enough", 11, 0, 0);
    same_tables();
}

/* At the edges of a hand-held's places, and of its message size. The hand-held holds what the vehicle held before. */
static void vehicle_to_handheld(void)
{
    fill_vehicle(32, 64);
    start_handheld();
    handheld_takes("32 lines, 64 channels", 11, 0, 0);
    same_tables();
    counts_are("all are there", handheld, 32, 64);
    give_lines(32, 1);
    handheld_takes("33 lines", OTAP_EXPORT_LINES, 2, 34);
    counts_are("nothing of them is there", handheld, 32, 64);
    fill_vehicle(83, 64);
    same("a part of 83 lines", 8 + REPLACE_LINES + 83 * EXPORTED_LINE, 4080, part_length(OTAP_EXPORT_LINES));
    handheld_takes("83 lines", OTAP_EXPORT_LINES, 2, 34);
    give_lines(83, 1);
    same("a part of 84 lines", 8 + REPLACE_LINES + 84 * EXPORTED_LINE, 4129, part_length(OTAP_EXPORT_LINES));
    handheld_takes("84 lines", OTAP_EXPORT_LINES, 12, 0);
    fill_vehicle(128, 256);
    handheld_takes("a full vehicle", OTAP_EXPORT_LINES, 12, 0);
}

/* Parts before the one that does not fit are taken: the lines are gone, and the channels stay. */
static void too_many_channels(void)
{
    fill_handheld();
    fill_vehicle(1, 65);
    handheld_takes("65 channels", OTAP_EXPORT_CHANNELS, 2, 1);
    counts_are("one line, and the old channels", handheld, 1, 64);
    fill_vehicle(0, 256);
    handheld_takes("256 channels", OTAP_EXPORT_CHANNELS, 2, 1);
    counts_are("no line, and the old channels", handheld, 0, 64);
}

/* A full hand-held's parts to a full vehicle, whose texts are far more: all are taken. */
static void handheld_to_vehicle(void)
{
    uint32_t part;
    fill_handheld();
    fill_vehicle(128, 256);
    give_status(96 * 16);
    for (part = 1; part <= OTAP_EXPORT_PARTS; part++) {
        size_t length = otap_export_length(otap_export(part, handheld, sizeof handheld, buffer, sizeof buffer));
        same("taken by a vehicle", 0, OTAP_OK, take_in_vehicle(buffer, length));
    }
    same_tables();
    same("counts of the vehicle", otap_counts(handheld, sizeof handheld), otap_vehicle_counts(vehicle, sizeof vehicle), (uint64_t)64 << 32 | 32 << 16);
    same("free lines", 96, otap_vehicle_counts_free_lines(otap_vehicle_counts(vehicle, sizeof vehicle)), 96);
    same("free channels", 192, otap_vehicle_counts_free_channels(otap_vehicle_counts(vehicle, sizeof vehicle)), 192);
}

/* 11: each set's store is none to the other, and neither is its first half or what stands before it. */
static void other_stores(void)
{
    static uint8_t both[OTAP_VEHICLE_STORE_BYTES];
    fill_handheld();
    fill_vehicle(32, 64);
    same("a vehicle's store", 11, OTAP_NO_STORE, otap_counts(vehicle, sizeof vehicle));
    same("the first half of it", 11, OTAP_NO_STORE, otap_counts(vehicle, sizeof handheld));
    same("a hand-held's store", 11, OTAP_NO_STORE, otap_vehicle_counts(handheld, sizeof handheld));
    memcpy(both, handheld, sizeof handheld);
    same("the same with zeros behind it", 11, OTAP_NO_STORE, otap_vehicle_counts(both, sizeof both));
    same("no vehicle's to start", 11, OTAP_NO_STORE, otap_vehicle_start(handheld, sizeof handheld));
    same("no hand-held's to start", 11, OTAP_NO_STORE, otap_start(vehicle, sizeof vehicle));
}

int main(void)
{
    vehicle_to_handheld();
    texts_to_handheld();
    used_handheld();
    too_many_channels();
    handheld_to_vehicle();
    other_stores();
    printf("a hand-held takes a vehicle's export exactly where it fits, and a vehicle takes every hand-held's\n");
    return 0;
}
