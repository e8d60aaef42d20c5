/*
 * The room and the sizes of a set at their edges, as C sees them (requests A10 and A11): the last line and channel, the last unit of all texts, the longest
 * message, the least buffers, and a report of more messages than it can count. Run for both sets, so that what is too much for one is seen to be taken by the
 * other.
 */
#include "answers.h"
#include "named.h"
#include "places.h"

static uint8_t store[OTAP_STORE_BYTES];

static uint64_t take(void)
{
    return judge_and_commit(said.bytes, said.length, store, sizeof store, reply, sizeof reply) & 0xFFFF;
}

/* A setting of lines without texts; the last three of their 18 digits say which they are. */
static void put_plain_lines(unsigned operation, unsigned first, unsigned count)
{
    size_t at = open_setting(&said, 0xCA);
    unsigned each;
    put(&said, operation * 64);
    put(&said, count);
    for (each = 0; each < count; each++) {
        put_number(&said, first + each, OTAP_DIGITS);
        put_text(&said, 0);
    }
    close_setting(&said, at);
}

/* So many of them, from this one on, in one setting: the number and the failed ID that this comes to, and how many there are then. */
static void lines_come_to(const char *what, unsigned first, unsigned count, uint64_t answer, unsigned lines)
{
    open_request(&said, 1);
    put_plain_lines(ADD, first, count);
    same(what, answer, take(), answer);
    counts_are(what, store, lines, 0);
}

/* Whether so many have room: what a setting that needs it comes to, as the first of its request. */
static uint64_t with_room(unsigned count, unsigned room)
{
    return count <= room ? OTAP_OK : OTAP_NO_ROOM | 1 << 8;
}

static void lines(void)
{
    same("start", 0, OTAP_OK, otap_start(store, sizeof store));
    lines_come_to("32 lines", 0, 32, OTAP_OK, 32);
    lines_come_to("the 33rd", 32, 1, with_room(33, LINE_ROOM), LINE_ROOM > 32 ? 33 : 32);
    lines_come_to("up to the last", 0, LINE_ROOM, OTAP_OK, LINE_ROOM);
    lines_come_to("known ones", 1, LINE_ROOM - 1, OTAP_OK, LINE_ROOM);
    lines_come_to("one more", LINE_ROOM, 1, with_room(LINE_ROOM + 1, LINE_ROOM), LINE_ROOM);
    lines_come_to("one more behind a known one", LINE_ROOM - 1, 2, with_room(LINE_ROOM + 1, LINE_ROOM), LINE_ROOM);
    open_request(&said, 2);
    put_plain_lines(REPLACE, 0, LINE_ROOM);
    put_plain_lines(ADD, LINE_ROOM, 1);
    same("one more, in the second setting", OTAP_NO_ROOM | 2 << 8, take(), OTAP_NO_ROOM | 2 << 8);
    open_request(&said, 2);
    put_plain_lines(DELETE, 0, 1);
    put_plain_lines(ADD, LINE_ROOM, 1);
    same("in the place of a deleted one", 0, OTAP_OK, take());
}

/* The last row: shown, found, with its entry; none behind it. */
static void last_line(void)
{
    const uint32_t last = LINE_ROOM - 1;
    uint8_t digits[OTAP_DIGITS];
    uint64_t part = otap_row_part(OTAP_LINES, last, store, sizeof store, scratch, sizeof scratch);
    same("18 digits are shown", 1 | (uint64_t)36 << 32, part, part);
    same("as many are dialled", OTAP_DIGITS << 8, otap_entry_digits(OTAP_LINES, last, store, sizeof store, digits, sizeof digits), OTAP_DIGITS << 8);
    same("the last digit", LINE_ROOM % 10, digits[OTAP_DIGITS - 1], scratch[35] - (unsigned)'0');
    same("it is found", 0x100 | (uint64_t)last << 16, otap_line_of(OTAP_PSTN, digits, sizeof digits, store, sizeof store), 0x100 | (uint64_t)last << 16);
    same("it is there", 0, OTAP_OK, otap_entry(OTAP_LINES, last, store, sizeof store));
    same("no row behind it", 17, OTAP_NO_ROW, otap_row_number(OTAP_LINES, last + 1, store, sizeof store, scratch, sizeof scratch));
    same("nothing behind it", 17, OTAP_NOTHING_THERE, otap_entry(OTAP_LINES, last + 1, store, sizeof store));
    same("spare bytes behind all others", 0, 0, store[SPARE_AT]);
    store[SPARE_AT] = 1;
    no_store("a spare byte that is not 0", store);
}

static void channels_come_to(const char *what, unsigned operation, unsigned count, uint64_t answer, unsigned channels)
{
    open_request(&said, 1);
    put_channels(&said, operation, count);
    same(what, answer, take(), answer);
    counts_are(what, store, 0, channels);
}

static void channels(void)
{
    same("start", 0, OTAP_OK, otap_start(store, sizeof store));
    channels_come_to("64 channels", ADD, 64, OTAP_OK, 64);
    channels_come_to("the 65th", ADD, 1, with_room(65, CHANNEL_ROOM), CHANNEL_ROOM > 64 ? 65 : 64);
    channels_come_to("one more than all", REPLACE, CHANNEL_ROOM + 1, with_room(CHANNEL_ROOM + 1, CHANNEL_ROOM), CHANNEL_ROOM > 64 ? 65 : 64);
    channels_come_to("all", REPLACE, CHANNEL_ROOM, OTAP_OK, CHANNEL_ROOM);
    channels_come_to("one more", ADD, 1, with_room(CHANNEL_ROOM + 1, CHANNEL_ROOM), CHANNEL_ROOM);
    same("the last", 640 << 8, otap_channel(CHANNEL_ROOM - 1, store, sizeof store), 640 << 8);
    same("none behind it", 17, OTAP_NOTHING_THERE, otap_channel(CHANNEL_ROOM, store, sizeof store));
}

/* A request of one entry with a text of so many units: its number and failed ID. */
static void named_comes_to(const char *what, uint32_t table, unsigned operation, unsigned key, unsigned units, uint64_t answer)
{
    open_request(&said, 1);
    put_named(&said, table, operation, key, units);
    same(what, answer, take(), answer);
}

static void give_texts(uint32_t table, unsigned first, unsigned count, unsigned units)
{
    unsigned each;
    for (each = 0; each < count; each++) {
        named_comes_to("a text", table, ADD, first + each, units, OTAP_OK);
    }
}

/* The same of a setting of these fields, under coding type 0100. */
static void narrow_comes_to(const char *what, unsigned type, const uint8_t *fields, size_t length, uint64_t answer)
{
    open_request(&said, 1);
    put_bytes(&said, type, fields, length);
    said.bytes[5] = 4;
    same(what, answer, take(), answer);
}

/* 4,086 bytes of texts, so that 5 units are left of a hand-held's area; the last quick text, codes from 70 on and all other tables are empty. */
static void give_nearly_all(void)
{
    same("start", 0, OTAP_OK, otap_start(store, sizeof store));
    give_texts(OTAP_QUICK_TEXTS, 0, 63, 23);
    give_texts(OTAP_STATUS_TEXTS, 0, 37, 16);
    give_texts(OTAP_STATUS_TEXTS, 37, 1, 2);
}

/* And a line that takes the 5. */
static void give_all(void)
{
    give_nearly_all();
    give_texts(OTAP_LINES, 0, 1, 5);
}

/* In each table: a unit too many, then as many as are left, and no unit more; what a delete frees is used again, and leaves no trace. */
static void last_units(void)
{
    static uint8_t nearly[OTAP_STORE_BYTES];
    uint32_t table;
    give_nearly_all();
    memcpy(nearly, store, sizeof nearly);
    for (table = 1; table <= OTAP_TABLES; table++) {
        unsigned key = table == OTAP_QUICK_TEXTS ? 63 : table == OTAP_STATUS_TEXTS ? 40 : 3;
        memcpy(store, nearly, sizeof store);
        named_comes_to("a unit too many", table, ADD, key, 6, with_room(4098, TEXT_ROOM));
        named_comes_to("all that are left", table, ADD, key, 5, OTAP_OK);
        named_comes_to("the same again", table, ADD, key, 5, OTAP_OK);
        named_comes_to("one unit more", OTAP_STATUS_TEXTS, ADD, 50, 1, with_room(4098, TEXT_ROOM));
        named_comes_to("an empty text more", OTAP_STATUS_TEXTS, ADD, 50, 0, OTAP_OK);
        named_comes_to("fields come first", OTAP_STATUS_TEXTS, ADD, 51, 17, OTAP_BAD_FIELD | 1 << 8);
        named_comes_to("the empty one is deleted", OTAP_STATUS_TEXTS, DELETE, 50, 0, OTAP_OK);
        named_comes_to("the last one is deleted", table, DELETE, key, 5, OTAP_OK);
        same("they leave no trace", 0, 0, (uint64_t)(memcmp(store, nearly, sizeof store) != 0));
        named_comes_to("room that was freed", table, ADD, key, 5, OTAP_OK);
    }
}

/* Two entries in one request, as its settings 1 and 2, to 4,096 bytes of texts. */
static void two_come_to(const char *what, unsigned first, unsigned first_units, unsigned second, unsigned second_units, uint64_t answer)
{
    static uint8_t before[OTAP_STORE_BYTES];
    memcpy(before, store, sizeof before);
    open_request(&said, 2);
    put_named(&said, OTAP_STATUS_TEXTS, ADD, first, first_units);
    put_named(&said, OTAP_STATUS_TEXTS, ADD, second, second_units);
    same(what, answer, take(), answer);
    memcpy(store, before, sizeof store);
}

/* With no unit left, a line without a text and a channel need none; the name of a background group, which no row shows, needs its own. */
static void without_texts(void)
{
    static const uint8_t background[] = {0x50, 0, 1, 0x10, 0, 1, 'A', 0};
    give_all();
    named_comes_to("a line without a text", OTAP_LINES, ADD, 1, 0, OTAP_OK);
    open_request(&said, 1);
    put_channels(&said, ADD, 1);
    same("a channel", 0, OTAP_OK, take());
    counts_are("two lines and a channel", store, 2, 1);
    narrow_comes_to("a background group's name", 0xC8, background, sizeof background, with_room(4098, TEXT_ROOM));
}

/* Texts are summed after each setting: neither after an entry, nor after the request. Two bytes a unit, also of those that came in eight bits. */
static void sums_in_turn(void)
{
    static const uint8_t in_between[] = {0x40, 3, 80, 'A', 'B', 0, 80, 'C', 0, 80, 0}, two[] = {0x40, 1, 80, 'A', 'B', 0};
    uint64_t first = with_room(4098, TEXT_ROOM), second = first == OTAP_OK ? OTAP_OK : OTAP_NO_ROOM | 2 << 8;
    give_all();
    two_come_to("room that the first makes", 3, 15, 60, 1, OTAP_OK);
    two_come_to("too little of it", 3, 15, 60, 2, second);
    two_come_to("room that comes too late", 60, 1, 3, 15, first);
    two_come_to("none, behind what needs none", 60, 0, 61, 1, second);
    narrow_comes_to("too many in between", 0xD0, in_between, sizeof in_between, OTAP_OK);
    named_comes_to("one unit is freed", OTAP_STATUS_TEXTS, ADD, 3, 15, OTAP_OK);
    narrow_comes_to("two characters", 0xD0, two, sizeof two, first);
}

/* Texts as long as they can be in every place, as far as there is room: of a vehicle in all, of a hand-held up to the last byte. */
static void every_place(void)
{
    const Slots *slots;
    unsigned key, bytes = 0;
    same("start", 0, OTAP_OK, otap_start(store, sizeof store));
    for (slots = slots_with_texts; slots < slots_with_texts + OTAP_TABLES; slots++) {
        for (key = 0; key < slots->count; key++) {
            unsigned more = bytes + 2 * (unsigned)slots->most;
            named_comes_to("a text in every place", slots->table, ADD, key, (unsigned)slots->most, with_room(more, TEXT_ROOM));
            bytes = more <= TEXT_ROOM ? more : bytes;
        }
    }
    same("all texts", TEXT_ROOM, bytes, TEXT_ROOM);
}

/* The full store of the other tests: 4,096 bytes of texts in a hand-held, so that a status text of 15 units cannot have one more. */
static void filled(void)
{
    fill_store(store, 0);
    named_comes_to("as long as it was", OTAP_STATUS_TEXTS, ADD, 1, 15, OTAP_OK);
    named_comes_to("a unit more", OTAP_STATUS_TEXTS, ADD, 1, 16, with_room(4098, TEXT_ROOM));
}

static void texts(void)
{
    last_units();
    without_texts();
    sums_in_turn();
    every_place();
    filled();
}

/* Good requests: 4,096 bytes are taken by every set, 8,192 by a vehicle. */
static void messages(void)
{
    static const size_t sizes[] = {20, 4095, 4096, 4097, 8191, 8192, 8193};
    size_t each;
    same("start", 0, OTAP_OK, otap_start(store, sizeof store));
    for (each = 0; each < sizeof sizes / sizeof sizes[0] && sizes[each] <= MESSAGE_SIZE + 1; each++) {
        write_sized(&said, sizes[each]);
        same("a request of as many bytes", sizes[each] <= MESSAGE_SIZE ? 0 : 12, sizes[each] <= MESSAGE_SIZE ? OTAP_OK : OTAP_MESSAGE_LENGTH, take());
    }
    same("the last was too long", MESSAGE_SIZE + 1, said.length, MESSAGE_SIZE + 1);
}

/* Export and report buffers, one of the hand-held's size among them. */
static void buffers(void)
{
    static const size_t sizes[] = {0, 4095, 4096, 4097, 8191, 8192};
    static uint8_t large[8192];
    size_t each;
    write_asking_all(&said, 10, 0);
    for (each = 0; each < sizeof sizes / sizeof sizes[0]; each++) {
        int enough = sizes[each] >= MESSAGE_SIZE;
        uint64_t answer = otap_export(1, store, sizeof store, large, sizes[each]);
        same("an export buffer", enough ? 0 : 15, enough ? OTAP_OK : OTAP_SHORT_BUFFER, otap_answer_number(answer));
        answer = otap_report(said.bytes, said.length, 1, store, sizeof store, large, sizes[each]);
        same("a report buffer", enough ? 0 : 15, enough ? OTAP_OK : OTAP_SHORT_BUFFER, otap_answer_number(answer));
    }
}

/* The channels of a full store, asked for so often: the number of messages, or 4 where they are over 255, which comes before 16. */
static void channels_reported(size_t times)
{
    static const uint32_t none[] = {0, 256, 257, 0xFFFFFFFFu};
    uint8_t types[OTAP_QUERY_MOST_TYPES];
    uint64_t total = (times * CHANNEL_ROOM + 254) / 255, number = total > 255 ? OTAP_BAD_FIELD : OTAP_NO_MESSAGE, answer;
    size_t each;
    memset(types, OTAP_ASK_CHANNELS, sizeof types);
    write_asking(&said, types, times);
    answer = otap_report(said.bytes, said.length, 1, store, sizeof store, buffer, sizeof buffer);
    same("channels asked for", total > 255 ? 4 : total << 8, answer & 0xFFFF, total > 255 ? 4 : total << 8);
    for (each = 0; each < sizeof none / sizeof none[0]; each++) {
        same("an index that there is not", number, number, otap_report(said.bytes, said.length, none[each], store, sizeof store, buffer, sizeof buffer));
    }
    answer = otap_report(said.bytes, said.length, (uint32_t)total, store, sizeof store, buffer, sizeof buffer);
    same("the last message", total > 255 ? 4 : total << 8, answer & 0xFFFF, total > 255 ? 4 : total << 8);
    same("its parameters", 1, total > 255 || buffer[9] == times * CHANNEL_ROOM - 255 * (total - 1), 1);
}

int main(void)
{
    lines();
    last_line();
    channels();
    channels_reported(253);
    channels_reported(254);
    channels_reported(255);
    texts();
    messages();
    buffers();
    printf("room and sizes are the set's own, to the last line, channel, unit and byte\n");
    return 0;
}
