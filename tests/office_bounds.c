/*
 * No call of the office leaves the bytes that it was lent, or writes a message or a store: reports of full stores and of others, requests to be joined, cut at
 * every byte and damaged, stores and requests between them stand at both ends of pages that can only be read (pages.h), and the buffers of joining and proposing
 * at those of their own. With the word "outside" a call is lent one byte too many, of the buffer that a second word names, to see the fault.
 */
#define _DEFAULT_SOURCE
#include "messages.h"
#include "must.h"
#include "pages.h"

enum { LONGEST = 73728 };

static Lent message, one, two, buffer, from, to;
static uint8_t store[OTAP_STORE_BYTES + 1], wanted[OTAP_STORE_BYTES + 1], report[LONGEST], held[2 * OTAP_JOIN_BYTES];
static unsigned long calls, good, refused, joined, unjoined, updates, others, proposals, unproposed;

/* The two calls at a byte: both know a parameter, or none does, and it ends within the message. */
static uint64_t parameter_at(uint32_t at)
{
    uint64_t entry, places;
    current = "otap_report_entry";
    entry = otap_report_entry(message.bytes, message.length, at);
    current = "otap_report_places";
    places = otap_report_places(message.bytes, message.length, at);
    must(kept(&message) && (entry != 0) == (places != 0), "one of both calls alone");
    must(otap_places_next(places) <= message.length, "the byte behind a parameter is outside");
    must(otap_places_text(places) + otap_places_text_length(places) <= otap_places_next(places), "a text is outside");
    must(otap_places_hash(places) <= otap_places_next(places), "a number is outside");
    calls += 2;
    return places;
}

/* Reads the message of these bytes, walks it if it is a report, and asks at any bytes. */
static void read_at(int at_end, const uint8_t *bytes, size_t length)
{
    static const uint32_t far[] = {0, 1, 9, 10, 0x1000A, 0x80000000u, 0xFFFFFFFFu};
    uint64_t read;
    uint32_t each, at = OTAP_REPORT_FIRST;
    lend(&message, at_end, bytes, length, 0);
    current = "otap_read_report";
    read = otap_read_report(message.bytes, length);
    calls++;
    good += otap_answer_number(read) == OTAP_OK;
    refused += otap_answer_number(read) != OTAP_OK;
    must(otap_answer_number(read) == OTAP_OK || read == otap_answer_number(read), "a refusal has more than its number");
    for (each = 0; each < otap_read_parameters(read); each++) {
        at = (uint32_t)otap_places_next(parameter_at(at));
    }
    must(otap_answer_number(read) != OTAP_OK || at == length, "the parameters do not add up");
    for (each = 0; each < 7; each++) {
        parameter_at(far[each]);
        parameter_at((uint32_t)length - each);
        parameter_at(random_below((unsigned)length + 1));
    }
}

/* Number, of a message to a store. */
static uint32_t commit(const Message *said, uint8_t *bytes)
{
    uint8_t reply[OTAP_REPLY_BYTES];
    return otap_answer_number(otap_commit(said->bytes, said->length, bytes, OTAP_STORE_BYTES, reply, sizeof reply));
}

/* A store that is full with 0, and varied with others. */
static void fill(unsigned vary)
{
    static Message said;
    unsigned each;
    current = "filling a store";
    must(otap_start(store, OTAP_STORE_BYTES) == OTAP_OK, "start");
    for (each = 0; each < FILLING_MESSAGES; each++) {
        write_filling(&said, each, vary);
        must(commit(&said, store) == OTAP_OK, "refused");
    }
}

/* Such a store, and one message of its report. How long that is. */
static size_t write_own(unsigned vary, uint32_t index)
{
    static Message said;
    uint64_t answer;
    fill(vary);
    write_asking_all(&said, 10, vary % 3 == 1 ? 9 : 0);
    answer = otap_report(said.bytes, said.length, index, store, OTAP_STORE_BYTES, report, OTAP_REPORT_BYTES);
    must(otap_answer_number(answer) == OTAP_OK, "no report");
    return otap_report_length(answer);
}

/* A report as it is, cut at every byte with its length not stated, and damaged. */
static void read_all(unsigned vary, uint32_t index)
{
    static uint8_t wrong[OTAP_REPORT_BYTES];
    size_t length = write_own(vary, index), cut;
    unsigned turn;
    read_at(0, report, length);
    read_at(1, report, length);
    for (turn = 0; turn < 200; turn++) {
        memcpy(wrong, report, length);
        damage(wrong, length, 1 + turn % 2);
        read_at((int)(turn % 2), wrong, length);
    }
    report[2] = report[3] = 0;
    for (cut = 0; cut < length; cut += 1 + vary % 5) {
        read_at(1, report, cut);
    }
}

/* Two requests in a buffer of this size; what is refused is joined again, into a buffer that cannot be written. */
static uint64_t join_at(int at_end, const Message *first, const Message *second, size_t length)
{
    uint64_t answer;
    size_t wrote;
    current = "otap_join";
    lend(&one, at_end, first->bytes, first->length, 0);
    lend(&two, at_end, second->bytes, second->length, 0);
    lend(&buffer, at_end, held, length, 1);
    answer = otap_join(one.bytes, one.length, two.bytes, two.length, buffer.bytes, length);
    wrote = otap_join_length(answer);
    calls++;
    must(answer >> 33 == 0 && (otap_answer_number(answer) == OTAP_SHORT_BUFFER) == (length < OTAP_JOIN_BYTES), "number");
    must(wrote <= length && memcmp(buffer.bytes + wrote, held + wrote, length - wrote) == 0, "bytes past the joined request changed");
    if (otap_answer_number(answer) == OTAP_OK) {
        must(answer == (uint64_t)(first->length + second->length - 8) << 16, "another length than both have");
        joined++;
    } else {
        must(wrote == 0, "a refusal has a length");
        seal(&buffer);
        must(answer == otap_join(one.bytes, one.length, two.bytes, two.length, buffer.bytes, length), "another answer");
        unjoined++;
    }
    return answer;
}

/* A request cut at every byte, and damaged, as the first and as the second. */
static void join_wrong(const Message *whole, const Message *other)
{
    static Message wrong;
    unsigned turn;
    wrong = *whole;
    for (wrong.length = 0; wrong.length < whole->length; wrong.length++) {
        must(otap_answer_number(join_at(1, &wrong, other, OTAP_JOIN_BYTES)) != OTAP_OK, "a cut request is joined");
        must(otap_join_second_at_fault(join_at(1, other, &wrong, OTAP_JOIN_BYTES)), "a cut second is not at fault");
    }
    for (turn = 0; turn < 50; turn++) {
        wrong = *whole;
        damage(wrong.bytes, wrong.length, 1 + turn % 2);
        join_at((int)(turn % 2), &wrong, other, OTAP_JOIN_BYTES);
        join_at((int)(turn % 2), other, &wrong, OTAP_JOIN_BYTES);
    }
}

/* Every two kinds, in buffers of every size that matters; then wrong ones, random ones, and the longest. */
static void join_all(void)
{
    static const size_t sizes[] = {0, 1, OTAP_JOIN_BYTES - 1, OTAP_JOIN_BYTES, OTAP_JOIN_BYTES + 1, sizeof held};
    static Message first, second;
    unsigned pair, turn;
    for (pair = 0; pair < REQUEST_KINDS * REQUEST_KINDS; pair++) {
        write_joinable(&first, pair % REQUEST_KINDS, pair);
        write_joinable(&second, pair / REQUEST_KINDS, pair / 2);
        for (turn = 0; turn < sizeof sizes / sizeof sizes[0]; turn++) {
            join_at((int)(pair + turn) % 2, &first, &second, sizes[turn]);
        }
        if (pair / REQUEST_KINDS == 4) {
            join_wrong(&first, &second);
        }
    }
    for (turn = 0; turn < 5000; turn++) {
        write_random(&first);
        write_random(&second);
        join_at((int)(turn % 2), turn % 3 == 0 ? &second : &first, &second, OTAP_JOIN_BYTES);
    }
    for (turn = 0; turn < 6; turn++) {
        write_filling(&first, turn % 2 == 0 ? 1 : 3, 0);
        write_long(&second, OTAP_MESSAGE_BYTES - 2 + turn);
        join_at(1, &first, &second, OTAP_JOIN_BYTES);
        join_at(1, &second, &first, OTAP_JOIN_BYTES);
        join_at(1, &first, &first, OTAP_JOIN_BYTES);
    }
}

/* Good requests, and less of one buffer than the call is told: it comes to the byte that is not there. */
static void join_outside(const char *which)
{
    static Message first, second;
    write_joinable(&first, 0, 0);
    write_joinable(&second, 4, 5);
    lend(&one, 1, first.bytes, first.length - (strcmp(which, "first") == 0), 0);
    lend(&two, 1, second.bytes, second.length - (strcmp(which, "second") == 0), 0);
    lend(&buffer, 1, held, strcmp(which, "buffer") == 0 ? first.length + second.length - 9 : OTAP_JOIN_BYTES, 1);
    otap_join(one.bytes, first.length, two.bytes, second.length, buffer.bytes, OTAP_JOIN_BYTES);
}

/* The two stores of these sizes, at one end of their pages. */
static void lend_stores(int at_end, size_t first_length, size_t second_length)
{
    lend(&from, at_end, store, first_length, 0);
    lend(&to, at_end, wanted, second_length, 0);
}

/* A message between two stores, none of which can be written: 11 where a size says so, else a yes or a no. */
static void check_at(int at_end, const Message *said, size_t first_length, size_t second_length)
{
    uint64_t answer;
    current = "otap_check_update";
    lend_stores(at_end, first_length, second_length);
    lend(&message, at_end, said->bytes, said->length, 0);
    answer = otap_check_update(from.bytes, first_length, to.bytes, second_length, message.bytes, message.length);
    calls++;
    must(answer == OTAP_OK || answer == 1 << 8 || answer == OTAP_NO_STORE, "another answer");
    must(answer == OTAP_NO_STORE || (first_length == OTAP_STORE_BYTES && second_length == OTAP_STORE_BYTES), "a store of another size");
    updates += (unsigned long)otap_check_yes(answer);
    others += answer == OTAP_OK;
}

/* What is proposed in a buffer of this size; what is refused is asked for again, with a buffer that cannot be written. */
static void propose_at(int at_end, size_t first_length, size_t second_length, size_t length)
{
    uint64_t answer;
    size_t wrote;
    current = "otap_propose";
    lend_stores(at_end, first_length, second_length);
    lend(&buffer, at_end, held, length, 1);
    answer = otap_propose(from.bytes, first_length, to.bytes, second_length, buffer.bytes, length);
    wrote = otap_proposal_length(answer);
    calls++;
    must(wrote <= length && memcmp(buffer.bytes + wrote, held + wrote, length - wrote) == 0, "bytes past the proposal changed");
    if (otap_answer_number(answer) == OTAP_OK) {
        must(first_length == OTAP_STORE_BYTES && second_length == OTAP_STORE_BYTES && length >= OTAP_PROPOSAL_BYTES, "a size that is refused");
        proposals++;
    } else {
        must(answer == OTAP_NO_STORE || answer == OTAP_SHORT_BUFFER || answer == OTAP_NO_SINGLE_PART, "another answer");
        seal(&buffer);
        must(answer == otap_propose(from.bytes, first_length, to.bytes, second_length, buffer.bytes, length), "another answer");
        unproposed++;
    }
}

/* Stores and buffers of every size that matters, and the message that leads from the one store to the other, cut and damaged. */
static void update_sizes(const Message *said)
{
    static const size_t stores[] = {OTAP_STORE_BYTES, OTAP_STORE_BYTES + 1, OTAP_STORE_BYTES - 1, 1, 0};
    static const size_t sizes[] = {0, 1, OTAP_PROPOSAL_BYTES - 1, OTAP_PROPOSAL_BYTES, OTAP_PROPOSAL_BYTES + 1, sizeof held};
    static Message wrong;
    unsigned pair, turn;
    for (pair = 0; pair < 25; pair++) {
        check_at((int)pair % 2, said, stores[pair / 5], stores[pair % 5]);
        for (turn = 0; turn < sizeof sizes / sizeof sizes[0]; turn++) {
            propose_at((int)(pair + turn) % 2, stores[pair / 5], stores[pair % 5], sizes[turn]);
        }
    }
    wrong = *said;
    for (wrong.length = 0; wrong.length < said->length; wrong.length += 1 + said->length / 100) {
        check_at(1, &wrong, OTAP_STORE_BYTES, OTAP_STORE_BYTES);
    }
    for (turn = 0; turn < 20; turn++) {
        wrong = *said;
        damage(wrong.bytes, wrong.length, 1 + turn % 2);
        check_at((int)(turn % 2), &wrong, OTAP_STORE_BYTES, OTAP_STORE_BYTES);
    }
}

/* Messages of every kind between stores that are full and others; long and random ones; and stores of which either is damaged. */
static void update_all(void)
{
    static Message said;
    unsigned turn;
    for (turn = 0; turn < 3 * MESSAGE_KINDS; turn++) {
        fill(turn / MESSAGE_KINDS * 6);
        memcpy(wanted, store, sizeof wanted);
        write_message(&said, turn % MESSAGE_KINDS, turn);
        commit(&said, wanted);
        update_sizes(&said);
        propose_at((int)(turn % 2), OTAP_STORE_BYTES, OTAP_STORE_BYTES, OTAP_PROPOSAL_BYTES);
    }
    for (turn = 0; turn < 1000; turn++) {
        write_random(&said);
        check_at((int)(turn % 2), &said, OTAP_STORE_BYTES, OTAP_STORE_BYTES);
    }
    for (turn = 0; turn < 6; turn++) {
        write_long(&said, OTAP_MESSAGE_BYTES - 2 + turn);
        check_at(1, &said, OTAP_STORE_BYTES, OTAP_STORE_BYTES);
    }
    for (turn = 0; turn < 400; turn++) {
        fill(turn % 5);
        memcpy(wanted, store, sizeof wanted);
        damage(turn % 2 == 0 ? store : wanted, turn % 3 == 0 ? OTAP_STORE_BYTES : SPARE_AT, 1 + turn % 2);
        check_at((int)(turn % 2), &said, OTAP_STORE_BYTES, OTAP_STORE_BYTES);
        propose_at((int)(turn % 2), OTAP_STORE_BYTES, OTAP_STORE_BYTES, OTAP_PROPOSAL_BYTES);
    }
}

/* Two stores between which a message leads, and less of one buffer than the call is told: it comes to the byte that is not there. */
static void update_outside(int proposing, const char *which)
{
    static Message said;
    size_t length = OTAP_PROPOSAL_BYTES;
    memcpy(wanted, store, sizeof wanted);
    write_message(&said, 4, 5);
    commit(&said, wanted);
    if (strcmp(which, "buffer") == 0) {
        length = otap_proposal_length(otap_propose(store, OTAP_STORE_BYTES, wanted, OTAP_STORE_BYTES, held, OTAP_PROPOSAL_BYTES)) - 1;
    }
    lend_stores(1, OTAP_STORE_BYTES - (strcmp(which, "from") == 0), OTAP_STORE_BYTES - (strcmp(which, "to") == 0));
    lend(&message, 1, said.bytes, said.length - (strcmp(which, "request") == 0), 0);
    lend(&buffer, 1, held, length, 1);
    if (proposing) {
        otap_propose(from.bytes, OTAP_STORE_BYTES, to.bytes, OTAP_STORE_BYTES, buffer.bytes, OTAP_PROPOSAL_BYTES);
    } else {
        otap_check_update(from.bytes, OTAP_STORE_BYTES, to.bytes, OTAP_STORE_BYTES, message.bytes, said.length);
    }
}

/* A byte too many of a report, of a request or buffer of joining, or of what checking or proposing is lent. */
static int outside(int count, char **words, size_t length)
{
    current = "a byte too many, as asked";
    if (count > 3) {
        update_outside(strcmp(words[2], "propose") == 0, words[3]);
    } else if (count > 2) {
        join_outside(words[2]);
    } else {
        lend(&message, 1, report, length, 0);
        otap_report_entry(message.bytes + 1, message.length, (uint32_t)message.length - 1);
        otap_read_report(message.bytes + 1, message.length);
    }
    return 3;
}

int main(int count, char **words)
{
    unsigned vary;
    size_t length = write_own(0, 1);
    make_room(&message, LONGEST);
    make_room(&one, sizeof held);
    make_room(&two, sizeof held);
    make_room(&buffer, sizeof held);
    make_room(&from, OTAP_STORE_BYTES + PAGE);
    make_room(&to, OTAP_STORE_BYTES + PAGE);
    memset(held, 0xA5, sizeof held);
    if (count > 1 && strcmp(words[1], "outside") == 0) {
        return outside(count, words, length);
    }
    for (vary = 0; vary < 12; vary++) {
        read_all(vary, 1 + vary % 2);
    }
    memset(report, 0, sizeof report);
    for (length = OTAP_MESSAGE_BYTES; length < OTAP_MESSAGE_BYTES + 3; length++) {
        read_at(1, report, length);
    }
    read_at(1, report, sizeof report);
    must(good > 100 && refused > 1000, "too few reports, or too few that are none");
    join_all();
    must(joined > 1000 && unjoined > 1000, "too few requests that are joined, or too few that are not");
    update_all();
    must(updates > 100 && others > 1000 && proposals > 100 && unproposed > 1000, "too few that are updates or proposed, or too few that are not");
    printf("no call left its bytes: %lu calls, %lu reports, %lu joined requests, %lu updates, %lu proposals\n", calls, good, joined, updates, proposals);
    return 0;
}
