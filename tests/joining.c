/*
 * Two requests joined under one header: the bytes that are written, and each refusal in its order, of the first and of the second. Each case was worked out by
 * hand from docs/RULES.md, D1, D2, D7 and D8. What a set makes of the joined request is in joined.c.
 */
#include "joins.h"

enum { HEAD = 8 };

/* The whole answer, and every byte. */
static void joined_is(const char *what, const uint8_t *bytes, size_t length)
{
    uint64_t answer = join();
    same(what, (uint64_t)length << 16, answer, (uint64_t)otap_join_length(answer) << 16);
    same(what, 0, OTAP_OK, otap_answer_number(answer));
    same("none is at fault", 0, otap_answer_failed(answer), (uint64_t)otap_join_second_at_fault(answer));
    same(what, 0, 0, (uint64_t)(memcmp(made.bytes, bytes, length) != 0));
}

/* In the order given; lengths of 0 and reserved bits of the header come to a true length and to 0, and a setting keeps its own reserved bits. */
static void by_hand(void)
{
    static const uint8_t joined[] = {2, 2, 0, 0x16, 8, 7, 8, 2, 0xCE, 0, 7, 0xC0, 2, 0x0F, 0x12, 0x80, 0xCA, 0, 9, 0x42, 1, 0x23, 0x45, 0xFF, 0, 0};
    static const uint8_t turned[] = {2, 2, 0, 0x16, 8, 7, 8, 2, 0xCA, 0, 9, 0x42, 1, 0x23, 0x45, 0xFF, 0, 0, 0xCE, 0, 7, 0xC0, 2, 0x0F, 0x12, 0x80};
    static const uint8_t narrow[] = {2, 2, 0, 0, 8, 0xA4, 8, 1, 0xCD, 0, 5, 0x07, 0xE4, 0xDF}, other[] = {2, 2, 0, 0, 8, 4, 8, 1, 0xD0, 0, 7, 0x7F, 1, 32, 'A', 0};
    static const uint8_t kept[] = {2, 2, 0, 0x12, 8, 4, 8, 2, 0xCD, 0, 5, 0x07, 0xE4, 0xDF, 0xD0, 0, 7, 0x7F, 1, 32, 'A', 0};
    static const uint8_t back[] = {2, 2, 0, 0x12, 8, 4, 8, 2, 0xD0, 0, 7, 0x7F, 1, 32, 'A', 0, 0xCD, 0, 5, 0x07, 0xE4, 0xDF};
    write_bytes(&first, two_channels, sizeof two_channels);
    write_bytes(&second, one_line, sizeof one_line);
    joined_is("channels, then a line", joined, sizeof joined);
    same("a longer buffer", (uint64_t)sizeof joined << 16, join_with(OTAP_JOIN_BYTES + 1), (uint64_t)sizeof joined << 16);
    first.bytes[3] = second.bytes[3] = 0;
    joined_is("lengths of 0", joined, sizeof joined);
    first.bytes[5] = 0xF7;
    joined_is("reserved bits of the first", joined, sizeof joined);
    second.bytes[5] = 0x17;
    joined_is("reserved bits of both", joined, sizeof joined);
    write_bytes(&first, one_line, sizeof one_line);
    write_bytes(&second, two_channels, sizeof two_channels);
    joined_is("a line, then channels", turned, sizeof turned);
    write_bytes(&first, narrow, sizeof narrow);
    write_bytes(&second, other, sizeof other);
    joined_is("coding type 0100", kept, sizeof kept);
    write_bytes(&first, other, sizeof other);
    write_bytes(&second, narrow, sizeof narrow);
    joined_is("the other way round", back, sizeof back);
}

/* What is wrong with one request, in D8's order: each has faults that come later too, where it can have them. */
static const struct { uint8_t number, failed, length, bytes[24]; } faults[] = {
    {12, 0, 0, {2}},
    {12, 0, 6, {2, 3, 0, 9, 9, 0}},
    {13, 0, 8, {1, 2, 0, 4, 8, 0, 0x12, 0}},
    {13, 0, 8, {2, 3, 0, 4, 8, 0, 0x12, 0}},
    {13, 0, 8, {2, 2, 0, 4, 9, 0, 0x12, 0}},
    {13, 0, 8, {2, 2, 0, 5, 8, 0, 0x12, 0}},                                        /* its length is not stated true */
    {14, 0, 8, {2, 2, 0, 4, 8, 0, 0x15, 0}},                                        /* a result query of version 2 */
    {14, 0, 8, {2, 2, 0, 0, 8, 0, 0x0D, 0}},                                        /* and of version 1 */
    {14, 0, 7, {2, 2, 0, 3, 8, 0, 0x0A}},
    {1, 0, 8, {2, 2, 0, 0, 8, 0, 0x10, 0}},
    {4, 0, 7, {2, 2, 0, 3, 8, 7, 8}},                                               /* no ParamSum */
    {4, 0, 9, {2, 2, 0, 5, 8, 7, 8, 0, 0xC7}},
    {4, 0, 9, {2, 2, 0, 5, 8, 5, 8, 1, 0xC7}},                                      /* coding type 0101 */
    {3, 1, 9, {2, 2, 0, 5, 8, 7, 8, 2, 0xC7}},
    {3, 2, 18, {2, 2, 0, 14, 8, 7, 8, 2, 0xCD, 0, 5, 0x07, 0xE4, 0xC0, 0xD4, 0, 3, 0}},
    {4, 1, 19, {2, 2, 0, 15, 8, 7, 8, 2, 0xCD, 0, 5, 0x07, 0xE4, 0xE0, 0xFF, 0, 3, 0, 0}}, /* NP 807 */
    {4, 2, 14, {2, 2, 0, 10, 8, 7, 8, 2, 0xCD, 0, 5, 0x07, 0xE4, 0xC0}},            /* one setting more is counted than there is */
    {4, 1, 18, {2, 2, 0, 14, 8, 7, 8, 2, 0xFF, 0, 3, 0, 0xCD, 0, 5, 0x07, 0xE4, 0xC0}}, /* FF before another */
    {4, 0, 15, {2, 2, 0, 11, 8, 7, 8, 1, 0xCD, 0, 5, 0x07, 0xE4, 0xC0, 0}},         /* a byte left over */
    {4, 0, 19, {2, 2, 0, 15, 8, 7, 8, 2, 0xCD, 0, 5, 0x07, 0xE4, 0xC0, 0xFF, 0, 3, 0, 0}}, /* and behind an FF item */
    {4, 1, 12, {2, 2, 0, 8, 8, 7, 8, 1, 0xFF, 0, 3, 0}},                            /* nothing but FF */
    {4, 2, 18, {2, 2, 0, 14, 8, 7, 8, 2, 0xCD, 0, 5, 0x07, 0xE4, 0xC0, 0xFF, 0, 3, 0}}
};
enum { FAULTS = sizeof faults / sizeof faults[0] };

/* Each of the first, also before each of the second; each of the second behind a good first, and 15 before them all. */
static void each_fault(void)
{
    size_t one, two;
    for (one = 0; one < FAULTS; one++) {
        write_bytes(&first, faults[one].bytes, faults[one].length);
        write_bytes(&second, two_channels, sizeof two_channels);
        refused("a fault of the first", faults[one].number, faults[one].failed, 0, join());
        for (two = 0; two < FAULTS; two++) {
            write_bytes(&second, faults[two].bytes, faults[two].length);
            refused("a fault of both", faults[one].number, faults[one].failed, 0, join());
        }
        refused("a short buffer, and faults", OTAP_SHORT_BUFFER, 0, 0, join_with(OTAP_JOIN_BYTES - 1));
        write_bytes(&first, two_channels, sizeof two_channels);
        write_bytes(&second, faults[one].bytes, faults[one].length);
        refused("a fault of the second", faults[one].number, faults[one].failed, 1, join());
    }
    write_bytes(&second, one_line, sizeof one_line);
    same("the least buffer", MESSAGE_SIZE, OTAP_JOIN_BYTES, OTAP_MESSAGE_BYTES);
    refused("a short buffer", 15, 0, 0, join_with(OTAP_JOIN_BYTES - 1));
    refused("no buffer", 15, 0, 0, join_with(0));
}

/* A fault late in a long request: its place is counted in its own request. */
static void late_faults(void)
{
    write_homes(&first, 255);
    write_homes(&second, 255);
    second.bytes[second.length - 1] = 0xE0;
    refused("the second's setting 255", 4, 255, 1, join());
    first.bytes[first.length - 6] = 0xC7;
    refused("the first's setting 255", 3, 255, 0, join());
    first.bytes[2] = first.bytes[3] = 0;
    first.length = OTAP_MESSAGE_BYTES + 1;
    refused("a byte too many", 12, 0, 0, join());
    second = first;
    write_homes(&first, 1);
    refused("a byte too many of the second", 12, 0, 1, join());
}

/* A channel too many lacks room in every such set: joining looks past them to what is behind them, and joins them where that is nothing wrong. */
static void room_is_not_asked(void)
{
    static const uint8_t np_807[] = {0x07, 0xE4, 0xE0};
    write_homes(&second, 1);
    open_request(&first, 2);
    put_channels(&first, ADD, CHANNEL_ROOM + 1);
    put_bytes(&first, 0xCD, np_807, sizeof np_807);
    refused("a fault behind them", 4, 2, 0, join());
    first.bytes[first.length - 6] = 0xC7;
    refused("an unknown type behind them", 3, 2, 0, join());
    first.length -= 6;
    put_last(&first);
    refused("an FF item behind them", 4, 2, 0, join());
    put(&first, 0);
    refused("and a byte left over", 4, 0, 0, join());
    first.length -= 15;
    first.bytes[7] = 1;
    second = first;
    same("too many channels, twice", (uint64_t)(2 * first.length - HEAD) << 16, join(), (uint64_t)(2 * first.length - HEAD) << 16);
}

/* What is wrong with the two together has failed ID 0 and is neither's fault: coding types, then settings, then bytes. */
static void together(void)
{
    write_homes(&first, 128);
    write_homes(&second, 128);
    refused("128 and 128 settings", 4, 0, 0, join());
    write_homes(&second, 127);
    same("255 settings", (uint64_t)(HEAD + 255 * 6) << 16, join(), (uint64_t)(HEAD + 255 * 6) << 16);
    same("their count", 255, made.bytes[7], 255);
    second.bytes[5] = 4;
    refused("two coding types", 4, 0, 0, join());
    write_sized(&first, MESSAGE_SIZE - 96);
    write_sized(&second, 200);
    refused("96 bytes too many", 12, 0, 0, join());
    write_sized(&second, 96 + HEAD);
    same("the longest", (uint64_t)MESSAGE_SIZE << 16, join(), (uint64_t)MESSAGE_SIZE << 16);
    same("its length, stated", MESSAGE_SIZE - 4, made.bytes[2] * 256u + made.bytes[3], MESSAGE_SIZE - 4);
    write_sized(&second, 97 + HEAD);
    refused("a byte too many", 12, 0, 0, join());
    write_homes(&first, 250);
    write_sized(&second, MESSAGE_SIZE);
    refused("too many settings and bytes", 4, 0, 0, second.bytes[7] > 5 ? join() : 0);
    write_homes(&first, 2);
    first.bytes[5] = 4;
    refused("two coding types, and too many bytes", 4, 0, 0, join());
}

int main(void)
{
    by_hand();
    each_fault();
    late_faults();
    room_is_not_asked();
    together();
    printf("bytes and refusals of joining are as the rules say\n");
    return 0;
}
