/*
 * Short updates as they are checked (request A14): whether a request takes one store to the tables of another. Each case was worked out by hand from docs/RULES.md,
 * I1 to I4, and is held to what the set's own archive and a comparison of the stores say (updates.h). What is proposed is in proposing.c, but that what is no store
 * is refused before a buffer is here (I6).
 */
#include "updates.h"

/* Adds PABX 2345; the same and PABX 7; only the latter. */
static const uint8_t one_line[] = {2, 2, 0, 0x0E, 8, 7, 8, 1, 0xCA, 0, 9, 0x42, 1, 0x23, 0x45, 0xFF, 0, 0};
static const uint8_t two_lines[] = {2, 2, 0, 0x11, 8, 7, 8, 1, 0xCA, 0, 12, 0x42, 2, 0x23, 0x45, 0xFF, 0, 0, 0x7F, 0, 0};
static const uint8_t other_line[] = {2, 2, 0, 0, 8, 7, 8, 1, 0xCA, 0, 7, 0x42, 1, 0x7F, 0, 0};

/* Adds PABX 2345; then FF: start again, send, hash 12 34 56 78. And FF alone: hash 12 34 56 78. */
static const uint8_t line_and_hash[] = {2, 2, 0, 0, 8, 7, 8, 2, 0xCA, 0, 9, 0x42, 1, 0x23, 0x45, 0xFF, 0, 0, 0xFF, 0, 7, 0xC1, 0x12, 0x34, 0x56, 0x78};
static const uint8_t hash_alone[] = {2, 2, 0, 0, 8, 7, 8, 1, 0xFF, 0, 7, 1, 0x12, 0x34, 0x56, 0x78};

static void sends(const uint8_t *bytes, size_t length)
{
    write_bytes(&request, bytes, length);
}

/* A store keeps the ten bytes of put_last, and its tables stay. */
static void keep_hash(uint8_t *bytes)
{
    open_request(&said, 1);
    put_last(&said);
    same("a hash", 0, OTAP_OK, take(&said, bytes));
    same("it is kept", 2, bytes[0], 2);
}

/* One line more is wanted: the line that it is, whatever hashes are kept or sent, and not that and another. */
static void a_line_more(void)
{
    both_fresh();
    sends(one_line, sizeof one_line);
    taken_by(wanted);
    says("a line more", 1);
    sends(line_and_hash, sizeof line_and_hash);
    says("and a hash to keep", 1);
    keep_hash(wanted);
    says("another hash in the wanted store", 1);
    sends(one_line, sizeof one_line);
    says("and none to keep", 1);
    keep_hash(held);
    says("the same hash in both", 1);
    sends(two_lines, sizeof two_lines);
    says("an entry more than wanted", 0);
    sends(other_line, sizeof other_line);
    says("another entry", 0);
    taken_by(held);
    sends(one_line, sizeof one_line);
    says("an entry too many was held", 0);
}

/* Two lines are wanted: one of them, and both in the other order, are not enough. */
static void lines_in_order(void)
{
    both_fresh();
    sends(two_lines, sizeof two_lines);
    taken_by(wanted);
    says("both", 1);
    sends(one_line, sizeof one_line);
    says("an entry fewer", 0);
    taken_by(held);
    sends(other_line, sizeof other_line);
    says("the other one", 1);
    both_fresh();
    taken_by(held);
    sends(two_lines, sizeof two_lines);
    taken_by(wanted);
    sends(one_line, sizeof one_line);
    says("in another order", 0);
}

/* Equal stores: what changes no table is an update, what changes one is not. */
static void equal_stores(void)
{
    static const uint8_t types[] = {0xCA, 0xCC, 0xCE, 0xD0, 0xC8, 0xC9};
    size_t each;
    both_fresh();
    for (each = 0; each < sizeof types; each++) {
        open_request(&request, 1);
        switch (types[each]) {
        case 0xCA: put_lines(&request, REPLACE, 0, 0); break;
        case 0xCC: put_quick(&request, REPLACE, 0, 0, 0); break;
        case 0xCE: put_channels(&request, REPLACE, 0); break;
        case 0xD0: put_status(&request, REPLACE, 0, 0); break;
        default: put_contacts(&request, types[each], REPLACE, 0, 0); break;
        }
        says("an empty replace of an empty table", 1);
    }
    sends(hash_alone, sizeof hash_alone);
    says("a hash to keep, and nothing else", 1);
    sends(one_line, sizeof one_line);
    says("a line", 0);
    taken_by(held);
    taken_by(wanted);
    says("a line that is there", 1);
    open_request(&request, 1);
    put_lines(&request, REPLACE, 0, 0);
    says("an empty replace of a line", 0);
}

/* Equal stores, and a query of their own hash: the set answers 0 to it, but it is no update; nor is one that does not match. */
static void result_queries(void)
{
    both_fresh();
    keep_hash(held);
    keep_hash(wanted);
    write_query(&request, 2);
    taken_by(held);
    says("a query that matches", 0);
    write_query(&request, 1);
    says("a query that does not", 0);
    open_request(&request, 1);
    put_last(&request);
    says("the hash, as a request", 1);
}

/* No is the answer to a message with any fault, however late: every cut, with its length stated or not, each number, and a byte too many. */
static void no_refusals(void)
{
    static const struct { uint8_t at, value; uint32_t number; } faults[] = {
        {0, 1, 13}, {3, 0x0F, 13}, {4, 9, 13}, {6, 9, 14}, {6, 0x0A, 14}, {6, 0x10, 1}, {5, 5, 4}, {7, 0, 4}, {7, 2, 4}, {8, 0xC7, 3}, {11, 0x02, 4}
    };
    size_t each, cut;
    both_fresh();
    sends(one_line, sizeof one_line);
    taken_by(wanted);
    for (each = 0; each < sizeof faults / sizeof faults[0]; each++) {
        sends(one_line, sizeof one_line);
        request.bytes[faults[each].at] = faults[each].value;
        same("its number", faults[each].number, take(&request, held), faults[each].number);
        says("a message with a fault", 0);
    }
    for (cut = 0; cut < 2 * sizeof one_line; cut++) {
        sends(one_line, cut / 2);
        request.bytes[3] = cut % 2 == 0 ? one_line[3] : 0;
        says("a message that is cut", 0);
    }
    sends(one_line, sizeof one_line);
    request.bytes[3] = 0;
    says("whole, its length not stated", 1);
    request.bytes[request.length++] = 0;
    says("a byte left over", 0);
}

/* A request of the most bytes that leaves what it finds, and of one more; and what has no room. */
static void sizes_and_room(void)
{
    both_fresh();
    write_sized(&request, MESSAGE_SIZE);
    taken_by(held);
    taken_by(wanted);
    says("a message of the most bytes", 1);
    write_sized(&request, MESSAGE_SIZE + 1);
    same("its number", 12, OTAP_MESSAGE_LENGTH, take(&request, held));
    says("a byte too many", 0);
    open_request(&request, 1);
    put_lines(&request, ADD, LINE_ROOM, 0);
    taken_by(wanted);
    says("as many lines as have room", 1);
    open_request(&request, 1);
    put_lines(&request, ADD, LINE_ROOM + 1, 0);
    says("one more", 0);
    memcpy(held, wanted, sizeof held);
    says("one more, of equal stores", 0);
}

/* 11 for the first store, and for the second, whatever the message; without a yes, of one that would get it. */
static void no_stores(void)
{
    static const size_t sizes[] = {0, 1, OTAP_STORE_BYTES - 1};
    size_t each;
    both_fresh();
    sends(one_line, sizeof one_line);
    taken_by(wanted);
    for (each = 0; each < 3; each++) {
        same("the first is too short", 11, OTAP_NO_STORE, check_with(sizes[each], sizeof wanted));
        same("the second is too short", 11, OTAP_NO_STORE, check_with(sizeof held, sizes[each]));
        same("to be proposed", 11, OTAP_NO_STORE, propose_with(sizes[each], sizeof wanted, OTAP_PROPOSAL_BYTES));
        same("the second, to be proposed", 11, OTAP_NO_STORE, propose_with(sizeof held, sizes[each], OTAP_PROPOSAL_BYTES));
    }
    for (each = 0; each < 2; each++) {
        uint8_t *bytes = each == 0 ? held : wanted;
        bytes[SPARE_AT] = 1;
        sends(one_line, sizeof one_line);
        same("a byte is no store's", 11, OTAP_NO_STORE, check_with(sizeof held, sizeof wanted));
        request.length = 0;
        same("and no message", 11, OTAP_NO_STORE, check_with(sizeof held, sizeof wanted));
        same("to be proposed", 11, OTAP_NO_STORE, propose());
        same("with a short buffer", 11, OTAP_NO_STORE, propose_with(sizeof held, sizeof wanted, OTAP_PROPOSAL_BYTES - 1));
        same("with none", 11, OTAP_NO_STORE, propose_with(sizeof held, sizeof wanted, 0));
        bytes[SPARE_AT] = 0;
    }
}

/* Bytes of the other set's size are no store of this one, as the first and as the second. */
static void other_set(void)
{
    static uint8_t other[OTHER_STORE_SIZE];
    both_fresh();
    sends(one_line, sizeof one_line);
    same("the first", 11, OTAP_NO_STORE, otap_check_update(other, sizeof other, wanted, sizeof wanted, one_line, sizeof one_line));
    same("the second", 11, OTAP_NO_STORE, otap_check_update(held, sizeof held, other, sizeof other, one_line, sizeof one_line));
    same("the first, to be proposed", 11, OTAP_NO_STORE, otap_propose(other, sizeof other, wanted, sizeof wanted, made, OTAP_PROPOSAL_BYTES));
    same("the second, to be proposed", 11, OTAP_NO_STORE, otap_propose(held, sizeof held, other, sizeof other, made, OTAP_PROPOSAL_BYTES));
}

int main(void)
{
    a_line_more();
    lines_in_order();
    equal_stores();
    result_queries();
    no_refusals();
    sizes_and_room();
    no_stores();
    other_set();
    printf("the check says yes exactly to what takes the one store to the other's tables\n");
    return 0;
}
