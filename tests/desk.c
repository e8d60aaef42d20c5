/*
 * The desk emulator (request A12), as C sees it, by hand: its constants and numbers, what stands in the area byte by byte, where it ends, which bytes are none,
 * and what its rows show.
 */
#include "areas.h"
#include "named.h"

/* Adds channel 241, with a length of 0 and with reserved bits; and NZI 15, NP 806, with a last item: start again, reply, HashCode 1. */
static const uint8_t first[] = {2, 2, 0, 0, 8, 0xF7, 8, 1, 0xCE, 0, 6, 0x7C, 1, 0x0F, 0x1F};
static const uint8_t second[] = {2, 2, 0, 18, 8, 7, 8, 2, 0xCD, 0, 5, 0x07, 0xE4, 0xC0, 0xFF, 0, 7, 0xC1, 1, 2, 3, 4};

static void send(const uint8_t *bytes, size_t length, uint64_t answer)
{
    write_bytes(&said, bytes, length);
    same("a message", answer, take(&said), answer);
}

static void constants(void)
{
    static uint8_t longer[OTAP_AREA_BYTES + 1], least[OTAP_PLAIN_SCRATCH_BYTES];
    static const size_t sizes[] = {0, 1, 24576, 32767, 32769};
    size_t each, at;
    same("an area", 32768, OTAP_AREA_BYTES, 32768);
    same("a scratch", 64, OTAP_PLAIN_SCRATCH_BYTES, 64);
    memset(longer, STALE, sizeof longer);
    for (each = 0; each < sizeof sizes / sizeof sizes[0]; each++) {
        same("another size", 11, OTAP_NO_STORE, otap_plain_start(longer, sizes[each]));
        same("another size", 11, OTAP_NO_STORE, otap_plain_take(first, sizeof first, longer, sizes[each], reply, sizeof reply));
        same("another size", 11, OTAP_NO_STORE, otap_plain_row_number(OTAP_LINES, 0, longer, sizes[each], least, sizeof least));
    }
    for (at = 0; at < sizeof longer; at++) {
        same("a refused start writes nothing", STALE, STALE, longer[at]);
    }
    start_area();
    for (at = 0; at < sizeof area; at++) {
        same("a fresh area is all 0", 0, 0, area[at]);
    }
    same("a row of it", 17, OTAP_NO_ROW, otap_plain_row_number(OTAP_LINES, 0, area, sizeof area, least, sizeof least));
    same("one byte less of a scratch", 15, OTAP_SHORT_BUFFER, otap_plain_row_number(OTAP_LINES, 0, area, sizeof area, least, sizeof least - 1));
}

/* What is taken stands in the area as it came; what is refused does not, nor does a query. Each bit of the answers. */
static void byte_by_byte(void)
{
    static const uint8_t wanted[] = {0, 0, 0, 41, 0, 15};
    static const uint8_t reply_of_second[] = {2, 2, 0, 10, 8, 0, 9, 0, 0, 1, 1, 2, 3, 4};
    static uint8_t after[OTAP_AREA_BYTES];
    start_area();
    send(first, sizeof first, 10u << 24);
    send(second, sizeof second, 14u << 24 | 1u << 17 | 1u << 16);
    same("its reply", 0, 0, (uint64_t)(memcmp(plain_reply, reply_of_second, sizeof reply_of_second) != 0));
    memcpy(after, wanted, sizeof wanted);
    memcpy(after + 6, first, sizeof first);
    after[22] = sizeof second;
    memcpy(after + 23, second, sizeof second);
    same("the area", 0, 0, (uint64_t)(memcmp(area, after, sizeof area) != 0));
    write_query(&said, 1);
    same("a query that matches", 14u << 24 | 1u << 16, take(&said), 14u << 24 | 1u << 16);
    write_query(&said, 2);
    same("one that does not", 14u << 24 | 1u << 16 | 5, take(&said), 14u << 24 | 1u << 16 | 5);
    write_message(&said, 4, 5);
    said.bytes[8] = 0xC7;
    comes_to("an unknown type", &said, OTAP_UNKNOWN_TYPE, 1);
    write_message(&said, 9, 1);
    comes_to("a line too many", &said, OTAP_NO_ROOM, 1);
    said.bytes[6] = 0x10;
    comes_to("another version", &said, OTAP_BAD_VERSION, 0);
    said.bytes[6] = 0x09;
    comes_to("another type of message", &said, OTAP_OTHER_MESSAGE, 0);
    said.bytes[4] = 9;
    comes_to("another carrier", &said, OTAP_BAD_CARRIER, 0);
    said.length = 6;
    comes_to("six bytes", &said, OTAP_MESSAGE_LENGTH, 0);
    same("a short reply buffer", 10, OTAP_SHORT_REPLY, otap_plain_take(first, sizeof first, area, sizeof area, reply, sizeof reply - 1));
    same("the area", 0, 0, (uint64_t)(memcmp(area, after, sizeof area) != 0));
}

/* An area with so many bytes left. */
static void leave(size_t left)
{
    start_area();
    same("start", 0, OTAP_OK, otap_start(store, sizeof store));
    fill_both(left);
    same("what is left", left, OTAP_AREA_BYTES - HEAD_BYTES - used(), left);
}

/* 18 comes last, and what is shorter may still be taken, up to the last byte. */
static void the_end(void)
{
    static const size_t sizes[] = {99, 3000, 50, 47, 24, 20, 20};
    static const uint64_t numbers[] = {18, 18, 0, 18, 0, 0, 18};
    size_t each;
    leave(100);
    for (each = 0; each < sizeof sizes / sizeof sizes[0]; each++) {
        write_kept(&said, sizes[each]);
        comes_to("near the end", &said, numbers[each], 0);
    }
    same("all is used", OTAP_AREA_BYTES - HEAD_BYTES, used(), OTAP_AREA_BYTES - HEAD_BYTES);
    same("full", 18, OTAP_AREA_FULL, take(&said));
    write_query(&said, 0);
    comes_to("a query to a full area", &said, OTAP_NO_MATCH, 0);
    write_message(&said, 9, 1);
    comes_to("a line too many, in a full area", &said, OTAP_NO_ROOM, 1);
    leave(100);
    write_kept(&said, 98);
    comes_to("just what is left", &said, OTAP_OK, 0);
    leave(1);
    write_kept(&said, 20);
    comes_to("no room for a length", &said, OTAP_AREA_FULL, 0);
}

static void no_area(const char *what)
{
    uint8_t shown[OTAP_PLAIN_SCRATCH_BYTES];
    write_bytes(&said, first, sizeof first);
    comes_to(what, &said, OTAP_NO_STORE, 0);
    write_query(&said, 0);
    comes_to(what, &said, OTAP_NO_STORE, 0);
    said.length = 0;
    comes_to(what, &said, OTAP_NO_STORE, 0);
    same(what, 11, OTAP_NO_STORE, otap_plain_row_number(OTAP_LINES, 0, area, sizeof area, shown, sizeof shown));
    same(what, 0, 0, otap_plain_row_part(9, 0, area, sizeof area, shown, sizeof shown));
}

/* A byte changed so that the form is broken, or so that a request would not be taken. */
static void damaged(void)
{
    static const size_t places[] = {0, 2, 3, 4, 5, 6, 10, 12, 13, 14, 15, 16, 22, 25, 36, 37, 45, 46, 4096, 32767};
    size_t each;
    for (each = 0; each < sizeof places / sizeof places[0]; each++) {
        start_area();
        send(first, sizeof first, 10u << 24);
        send(second, sizeof second, 14u << 24 | 1u << 17 | 1u << 16);
        area[places[each]] ^= places[each] == 36 ? 0x20 : 1; /* NP 807 */
        no_area("a damaged area");
    }
    memset(area, 0xFF, sizeof area);
    no_area("all ones");
    start_area();
    area[3] = 10;
    write_query(&said, 0);
    area[5] = (uint8_t)said.length;
    memcpy(area + 6, said.bytes, said.length);
    no_area("a query that is kept");
}

/* A row shows these units, given as bytes. */
static void shows(uint32_t table, uint32_t row, const char *bytes, size_t length)
{
    uint8_t shown[OTAP_PLAIN_SCRATCH_BYTES];
    same("a row", (uint64_t)length << 32 | 1, row_part(table, row, shown), (uint64_t)length << 32 | 1);
    same("its units", 0, 0, (uint64_t)(memcmp(shown, bytes, length) != 0));
}

static void rows(void)
{
    /* Eight-bit characters: PABX 2345 `A1`, PSTN 3 without a text, quick text 5 `Yes`, an empty status text 40, group contacts, the first in the background. */
    static const uint8_t sent[] = {2, 2, 0, 0, 8, 4, 8, 6, 0xCA, 0, 10, 0x42, 1, 0x23, 0x45, 0xFF, 'A', '1', 0, 0xCA, 0, 6, 0x40, 1, 0x3F, 0,
                                   0xCC, 0, 8, 0x41, 5, 'Y', 'e', 's', 0, 0xD0, 0, 6, 0x40, 1, 40, 0,
                                   0xC8, 0, 9, 0x50, 0, 1, 0x10, 0, 1, 0, 0xC8, 0, 9, 0x60, 0, 1, 0xFF, 0x7D, 0xC8, 0};
    uint8_t shown[OTAP_PLAIN_SCRATCH_BYTES];
    uint32_t table;
    start_area();
    send(sent, sizeof sent, 10u << 24);
    shows(OTAP_LINES, 0, "\0A\0" "1", 4);
    shows(OTAP_LINES, 1, "\0" "3", 2);
    shows(OTAP_QUICK_TEXTS, 5, "\0Y\0e\0s", 6);
    shows(OTAP_STATUS_TEXTS, 40, "", 0);
    shows(OTAP_GROUP_CONTACTS, 1, "\0F\0F\0" "7\0D\0C\0" "8", 12);
    same("a background group", 0, 0, row_part(OTAP_GROUP_CONTACTS, 0, shown));
    same("no line", 0, 0, row_part(OTAP_LINES, 2, shown));
    same("no table", 0, row_part(0, 0, shown), row_part(9, 0, shown));
    same("a row of another table's number", 0, row_part(0x101, 0, shown), row_part(OTAP_LINES, 0x10000, shown));
    for (table = 1; table <= OTAP_TABLES; table++) {
        open_request(&said, 1);
        put_named(&said, table, ADD, 7, 9);
        comes_to("an entry of each table", &said, OTAP_OK, 0);
    }
    shows(OTAP_LINES, 2, "\1\10\1\10\1\10\1\10\1\10\1\10\1\10\1\10\1\10", 18);
    shows(OTAP_QUICK_TEXTS, 7, "\2\10\2\10\2\10\2\10\2\10\2\10\2\10\2\10\2\10", 18);
    shows(OTAP_STATUS_TEXTS, 39, "\3\10\3\10\3\10\3\10\3\10\3\10\3\10\3\10\3\10", 18);
    shows(OTAP_GROUPS, 7, "\4\10\4\10\4\10\4\10\4\10\4\10\4\10\4\10\4\10", 18);
    shows(OTAP_INDIVIDUALS, 7, "\5\10\5\10\5\10\5\10\5\10\5\10\5\10\5\10\5\10", 18);
    shows(OTAP_GROUP_CONTACTS, 2, "\6\10\6\10\6\10\6\10\6\10\6\10\6\10\6\10\6\10", 18);
    shows(OTAP_INDIVIDUAL_CONTACTS, 0, "\7\10\7\10\7\10\7\10\7\10\7\10\7\10\7\10\7\10", 18);
    shows(OTAP_LINE_SLOTS, 7, "\10\10\10\10\10\10\10\10\10\10\10\10\10\10\10\10\10\10", 18);
}

int main(void)
{
    constants();
    byte_by_byte();
    the_end();
    damaged();
    rows();
    return 0;
}
