/*
 * What a set makes of a joined request: the store that both leave in turn, or 2 where they lack room, the failed ID counted through; and of requests that are
 * sent twice. Each case was worked out by hand from docs/RULES.md, D3 to D6.
 */
#include "joins.h"
#include "named.h"
#include "places.h"

static uint8_t store[OTAP_STORE_BYTES];

/* What a message to a store comes to: number, and failed ID from bit 8 on. */
static uint64_t take(const Message *m, uint8_t *bytes)
{
    return judge_and_commit(m->bytes, m->length, bytes, OTAP_STORE_BYTES, reply, sizeof reply) & 0xFFFF;
}

/* The two in turn, and the joined one, on the same store: this number and failed ID, counted through, and the same store, or the one before. */
static uint64_t both_ways(void)
{
    static uint8_t turned[OTAP_STORE_BYTES], joined[OTAP_STORE_BYTES];
    uint64_t in_turn;
    memcpy(turned, store, sizeof turned);
    memcpy(joined, store, sizeof joined);
    in_turn = take(&first, turned);
    if (in_turn == 0) {
        in_turn = take(&second, turned);
        in_turn += in_turn == 0 ? 0 : (uint64_t)first.bytes[7] << 8;
    }
    same("they may be joined", 0, OTAP_OK, otap_answer_number(join()));
    same("the joined one comes to what both come to", in_turn, take(&made, joined), in_turn);
    same("and leaves the same store", 0, 0, (uint64_t)(memcmp(joined, in_turn == 0 ? turned : store, sizeof joined) != 0));
    memcpy(store, joined, sizeof store);
    return in_turn;
}

static void both_come_to(const char *what, uint64_t number, uint64_t failed)
{
    uint64_t answer = both_ways();
    same(what, number | failed << 8, answer, answer);
}

static void fresh(void)
{
    same("start", 0, OTAP_OK, otap_start(store, sizeof store));
}

/* A request of one setting of this operation with as many entries, of one of the six types that can replace. */
static void write_list(Message *m, unsigned type, unsigned operation, unsigned count)
{
    open_request(m, 1);
    switch (type) {
    case 0xCA: put_lines(m, operation, count, 0); break;
    case 0xCC: put_quick(m, operation, 7, count, 0); break;
    case 0xCE: put_channels(m, operation, count); break;
    case 0xD0: put_status(m, operation, count, 0); break;
    default: put_contacts(m, type, operation, count, 0); break;
    }
}

/* A setting of home numbers in front, so that the list is the second of its request. */
static void write_home_and_channels(Message *m, unsigned operation, unsigned count)
{
    write_homes(m, 2);
    m->length -= 6;
    put_channels(m, operation, count);
}

static void rooms(void)
{
    fresh();
    write_bytes(&first, two_channels, sizeof two_channels);
    write_bytes(&second, one_line, sizeof one_line);
    both_come_to("both are taken", 0, 0);
    counts_are("a line and two channels", store, 1, 2);
    write_list(&first, 0xCA, ADD, LINE_ROOM + 1);
    both_come_to("the first lacks room", 2, 1);
    write_list(&second, 0xCA, ADD, LINE_ROOM + 1);
    both_come_to("so do both", 2, 1);
    write_home_and_channels(&first, REPLACE, CHANNEL_ROOM - 4);
    write_list(&second, 0xCE, ADD, 5);
    both_come_to("the second lacks room, behind two settings", 2, 3);
    counts_are("nothing was taken", store, 1, 2);
    write_list(&first, 0xCE, ADD, CHANNEL_ROOM - 2);
    write_home_and_channels(&second, ADD, 1);
    both_come_to("its second setting lacks room", 2, 3);
    write_list(&second, 0xCE, REPLACE, CHANNEL_ROOM);
    both_come_to("room that a replace makes", 0, 0);
    write_list(&first, 0xCE, DELETE, CHANNEL_ROOM);
    write_list(&second, 0xCE, ADD, CHANNEL_ROOM);
    both_come_to("room that the first makes", 0, 0);
    counts_are("all channels again", store, 1, CHANNEL_ROOM);
    write_homes(&first, 127);
    write_homes(&second, 128);
    second.length -= 6;
    put_channels(&second, ADD, 1);
    both_come_to("counted through to 255", 2, 255);
}

static void write_named(Message *m, uint32_t table, unsigned key, unsigned units)
{
    open_request(m, 1);
    put_named(m, table, ADD, key, units);
}

/* A full store, whose status text 33 has 15 units and whose group slot 12 has 4: of a hand-held, one can grow only where the other shrinks before it. */
static void rooms_for_texts(void)
{
    const int shared = TEXT_ROOM == 4096;
    fill_store(store, 0);
    write_named(&first, OTAP_STATUS_TEXTS, 1, 14);
    write_named(&second, OTAP_GROUPS, 12, 5);
    both_come_to("room that the first makes", 0, 0);
    write_named(&second, OTAP_GROUPS, 12, 6);
    both_come_to("too little of it", shared ? OTAP_NO_ROOM : OTAP_OK, shared ? 2 : 0);
    write_named(&first, OTAP_GROUPS, 12, 7);
    write_named(&second, OTAP_GROUPS, 12, 4);
    both_come_to("room that comes too late", shared ? OTAP_NO_ROOM : OTAP_OK, shared ? 1 : 0);
}

/* Coding type 0100, and a hash that was kept: no request without an FF item keeps one. */
static void other_stores(void)
{
    static const uint8_t group[] = {2, 2, 0, 0, 8, 0x14, 8, 1, 0xD1, 0, 9, 0x60, 0, 0x10, 0, 1, 'A', 0};
    static const uint8_t text[] = {2, 2, 0, 0, 8, 4, 8, 1, 0xCC, 0, 6, 0xC1, 5, 'B', 0, 0};
    fresh();
    open_request(&said, 4);
    put_fixed(&said);
    put_last(&said);
    same("taken", 0, OTAP_OK, take(&said, store));
    same("its hash is kept", 2, store[0], 2);
    write_bytes(&first, group, sizeof group);
    write_bytes(&second, text, sizeof text - 1);
    both_come_to("coding type 0100", 0, 0);
    same("a name", 'A', store[text_at(store, OTAP_GROUPS, 0) + 1], store[text_at(store, OTAP_GROUPS, 0)] + (unsigned)'A');
    same("a text", 'B', store[text_at(store, OTAP_QUICK_TEXTS, 5) + 1], 'B');
    same("no hash", 0, store[0], store[1]);
}

/* What replaces leaves the same store twice as once, with an FF item too, which cannot be joined; a channel that is added is there twice. */
static void twice(void)
{
    static const uint8_t types[] = {0xC8, 0xC9, 0xCA, 0xCC, 0xCE, 0xD0};
    static uint8_t once[OTAP_STORE_BYTES];
    size_t each;
    fresh();
    for (each = 0; each < sizeof types; each++) {
        write_list(&first, types[each], REPLACE, 5);
        second = first;
        same("a replace", 0, OTAP_OK, take(&first, store));
        memcpy(once, store, sizeof once);
        both_come_to("a replace twice", 0, 0);
        same("it leaves the same store", 0, 0, (uint64_t)(memcmp(store, once, sizeof once) != 0));
        put_last(&first);
        first.bytes[7]++;
        same("with an FF item", 0, OTAP_OK, take(&first, store));
        memcpy(once, store, sizeof once);
        same("and again", 0, OTAP_OK, take(&first, store));
        same("it leaves the same store", 0, 0, (uint64_t)(memcmp(store, once, sizeof once) != 0));
        refused("it cannot be joined", 4, 2, 0, join());
    }
    write_list(&first, 0xCE, ADD, 5);
    second = first;
    both_come_to("an add twice", 0, 0);
    counts_are("5 lines, and 5 channels three times", store, 5, 15);
    write_list(&first, 0xCE, ADD, CHANNEL_ROOM - 34);
    second = first;
    both_come_to("an add that has room once", 2, 2);
}

/* The store that pairs of this turn go to: a full one, one with shorter lists, or a fresh one. */
static void begin(unsigned turn)
{
    if (turn % 3 == 2) {
        fresh();
    } else {
        fill_store(store, turn % 3 * 20);
    }
}

/* Two of every kind, to stores that go from pair to pair, and in turn 6 each to a full one: all three that can come of it come often. */
static void every_pair(void)
{
    unsigned long taken = 0, of_first = 0, all = 0;
    unsigned turn, each;
    for (turn = 0; turn < 7; turn++) {
        begin(turn);
        for (each = 0; each < REQUEST_KINDS * REQUEST_KINDS; each++, all++) {
            uint64_t answer;
            if (turn == 6) {
                begin(turn);
            }
            write_joinable(&first, each % REQUEST_KINDS, turn + each);
            write_joinable(&second, each / REQUEST_KINDS, turn + each / 2);
            answer = both_ways();
            same("taken, or no room", 1, answer == 0 || (answer & 0xFF) == OTAP_NO_ROOM, 1);
            taken += answer == 0;
            of_first += answer != 0 && answer >> 8 <= first.bytes[7];
        }
    }
    printf("%lu pairs: %lu taken, %lu whose first lacks room, %lu whose second does\n", all, taken, of_first, all - taken - of_first);
    same("each often", 1, taken > 200 && of_first > 200 && all - taken - of_first > 200, 1);
}

int main(void)
{
    rooms();
    rooms_for_texts();
    other_stores();
    twice();
    every_pair();
    return 0;
}
