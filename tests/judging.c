/*
 * Judging as C sees it (request A6): what is judged, and what then is committed to the same store or to another. Each case was worked out by hand from
 * docs/RULES.md. Every other test of C judges a message before it commits it, too.
 */
#include "answers.h"

static uint8_t store[OTAP_STORE_BYTES], before[OTAP_STORE_BYTES];

/* What judging answers: `wanted` packed, and the whole reply buffer, which held E1 and now begins with these bytes. The store stays. */
static void judged(const char *what, const uint8_t *message, size_t length, uint64_t wanted, const uint8_t *bytes)
{
    static uint8_t held[OTAP_REPLY_BYTES + 4], filled[OTAP_REPLY_BYTES + 4];
    size_t size = otap_answer_length(wanted);
    memset(filled, 0xE1, sizeof filled);
    memcpy(held, filled, sizeof held);
    memcpy(before, store, sizeof before);
    same(what, wanted, wanted, otap_judge(message, length, store, sizeof store, held, sizeof held));
    same("the reply", 0, 0, (uint64_t)(memcmp(held, bytes, size) != 0));
    same("bytes behind the reply", 0, 0, (uint64_t)(memcmp(held + size, filled + size, sizeof held - size) != 0));
    same("the store that was judged", 0, 0, (uint64_t)(memcmp(before, store, sizeof store) != 0));
}

/* What committing answers, packed, and that its reply is these bytes. */
static void committed(const char *what, const uint8_t *message, size_t length, uint64_t wanted, const uint8_t *bytes)
{
    memset(reply, 0x1E, sizeof reply);
    same(what, wanted, wanted, otap_commit(message, length, store, sizeof store, reply, sizeof reply));
    same("the reply", 0, 0, (uint64_t)(memcmp(reply, bytes, otap_answer_length(wanted)) != 0));
}

/* NZI 15, NP 806; then FF: start again, send, hash 12 34 56 78. */
static const uint8_t good[] = {2, 2, 0, 0x12, 8, 7, 8, 2, 0xCD, 0, 5, 0x07, 0xE4, 0xC0, 0xFF, 0, 7, 0xC1, 0x12, 0x34, 0x56, 0x78};
static const uint8_t good_reply[] = {2, 2, 0, 0x0A, 8, 0, 9, 0, 0, 1, 0x12, 0x34, 0x56, 0x78};
enum { GOOD = 0x0E030000 }; /* 14 bytes; start again, send; 0 */

/* The hash is the request's own in both replies, whichever was kept before. The answers are unpacked by the header. */
static void taken_later(void)
{
    uint64_t answer;
    same("start", 0, OTAP_OK, otap_start(store, sizeof store));
    judged("a good request", good, sizeof good, GOOD, good_reply);
    judged("the same again", good, sizeof good, GOOD, good_reply);
    committed("it is committed", good, sizeof good, GOOD, good_reply);
    same("the hash is kept only now", 1, store[0], before[0] + 1u);
    same("NP", 806, 806, store[17] * 256u + store[18]);
    judged("to its own store", good, sizeof good, GOOD, good_reply);
    write_message(&said, 3, 0);
    answer = otap_judge(said.bytes, said.length, store, sizeof store, reply, sizeof reply);
    same("another one", 0, OTAP_OK, otap_answer_number(answer));
    same("its failed ID", 0, otap_answer_failed(answer), answer >> 8 & 0xFF);
    same("its send", 1, (uint64_t)otap_answer_send(answer), answer >> 16 & 1);
    same("its reboot", 1, (uint64_t)otap_answer_reboot(answer), answer >> 17 & 1);
    same("its reply length", 20, otap_answer_length(answer), answer >> 24);
    same("its own hash, not the one kept", 2, 2, reply[9]);
}

/* Room for one channel more, and two requests that add one each: both are judged good, and the second to be committed has no room; nor is its first setting applied. */
static void another_between(void)
{
    static const uint8_t late[] = {2, 2, 0, 0, 8, 7, 8, 2, 0xCD, 0, 5, 0, 0, 0, 0xCE, 0, 6, 0x40, 1, 0x0F, 0x1F};
    static const uint8_t other[] = {2, 2, 0, 0, 8, 7, 8, 1, 0xCE, 0, 6, 0x40, 1, 0x0F, 0x1F};
    static const uint8_t done[] = {2, 2, 0, 6, 8, 0, 9, 0, 0, 0}, full[] = {2, 2, 0, 6, 8, 0, 9, 2, 2, 0};
    write_filling(&said, 4, 1);
    committed("all channels but one", said.bytes, said.length, 0x0A000000, done);
    judged("one more", late, sizeof late, 0x0A000000, done);
    committed("another request", other, sizeof other, 0x0A000000, done);
    memcpy(before, store, sizeof before);
    committed("there is no room any more", late, sizeof late, 0x0A010202, full);
    same("a refused request changes nothing", 0, 0, (uint64_t)(memcmp(before, store, sizeof store) != 0));
    judged("judged anew", late, sizeof late, 0x0A010202, full);
    write_filling(&said, 4, 2);
    committed("all but two", said.bytes, said.length, 0x0A000000, done);
    committed("room was made", late, sizeof late, 0x0A000000, done);
    counts_are("channels", store, 0, CHANNEL_ROOM - 1);
}

/* A query is judged with the hash kept; a refused message with none. */
static void without_a_change(void)
{
    static const uint8_t query[] = {2, 2, 0, 0, 8, 0, 0x0D, 1, 0x12, 0x34, 0x56, 0x78}, none[] = {2, 2, 0, 0, 8, 0, 0x0D, 0};
    static const uint8_t differs[] = {2, 2, 0, 0x0A, 8, 0, 9, 5, 0, 1, 0x12, 0x34, 0x56, 0x78}, bad[] = {2, 2, 0, 6, 8, 0, 9, 4, 1, 0};
    uint8_t wrong[sizeof good];
    committed("the hash again", good, sizeof good, GOOD, good_reply);
    judged("a query that matches", query, sizeof query, 0x0E010000, good_reply);
    committed("the same committed", query, sizeof query, 0x0E010000, good_reply);
    judged("a query without a hash", none, sizeof none, 0x0E010005, differs);
    memcpy(wrong, good, sizeof wrong);
    wrong[13] = 0xE0;
    judged("NP 807", wrong, sizeof wrong, 0x0A010104, bad);
    committed("the same committed", wrong, sizeof wrong, 0x0A010104, bad);
}

/* 10 to 14: the number is the whole answer, in this order, and no byte is touched. */
static void untouched(void)
{
    uint8_t wrong[sizeof good];
    memset(reply, 0xE1, sizeof reply);
    memcpy(wrong, good, sizeof wrong);
    same("19 bytes", 10, OTAP_SHORT_REPLY, otap_judge(good, sizeof good, store, sizeof store, reply, OTAP_REPLY_BYTES - 1));
    same("19 bytes, and no store", 10, OTAP_SHORT_REPLY, otap_judge(good, 3, store, 5, reply, OTAP_REPLY_BYTES - 1));
    same("no store", 11, OTAP_NO_STORE, otap_judge(good, 3, store, sizeof store - 1, reply, sizeof reply));
    same("six bytes", 12, OTAP_MESSAGE_LENGTH, otap_judge(good, 6, store, sizeof store, reply, sizeof reply));
    wrong[4] = 9;
    same("carrier", 13, OTAP_BAD_CARRIER, otap_judge(wrong, sizeof wrong, store, sizeof store, reply, sizeof reply));
    wrong[4] = 8;
    wrong[6] = 9;
    same("a reply as a message", 14, OTAP_OTHER_MESSAGE, otap_judge(wrong, sizeof wrong, store, sizeof store, reply, sizeof reply));
    same("the reply buffer", 0xE1, reply[0], reply[sizeof reply - 1]);
}

int main(void)
{
    taken_later();
    another_between();
    without_a_change();
    untouched();
    printf("what was judged good is committed to the same store, and judged again for another\n");
    return 0;
}
