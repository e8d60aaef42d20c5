/*
 * Updates: that the check says yes exactly where the first store takes the request and then has the second's tables; that the proposer writes the second's part
 * exactly where it alone is exported otherwise, which is an update wherever the first takes it; and what both refuse, and that they change no store.
 */
#ifndef UPDATING_H
#define UPDATING_H

#include "restoring.h"

/* Two stores of the set, or bytes that are none. */
typedef struct {
    const uint8_t *first;
    size_t first_length;
    const uint8_t *second;
    size_t second_length;
} Pair;

/* The answer of the check to what is an update. */
enum { IS_UPDATE = 0x100 };

static Pair pair_of(const uint8_t *first, const uint8_t *second)
{
    Pair pair = {first, OTAP_STORE_BYTES, second, OTAP_STORE_BYTES};
    return pair;
}

static int are_stores(const Pair *pair)
{
    return is_store(pair->first, pair->first_length) && is_store(pair->second, pair->second_length);
}

static void give_back_pair(const Pair *pair, Lent *one, Lent *two)
{
    must(same_bytes(one->bytes, pair->first, pair->first_length) && same_bytes(two->bytes, pair->second, pair->second_length), "an update's stores stay");
    give_back(one);
    give_back(two);
}

static uint64_t check_once(const Pair *pair, const Request *request, int twice)
{
    Lent one = lend(pair->first, pair->first_length, twice), two = lend(pair->second, pair->second_length, twice);
    Lent r = lend(request->bytes, request->length, twice);
    uint64_t answer = otap_check_update(one.bytes, one.length, two.bytes, two.length, r.bytes, r.length);
    must(same_bytes(r.bytes, request->bytes, request->length), "the checked request stays");
    give_back_pair(pair, &one, &two);
    give_back(&r);
    return answer;
}

/* The whole answer of the check: what committing to a copy of the first comes to. A result query is taken too, where it matches, and is no update. */
static uint64_t expected_check(const Pair *pair, const Request *request)
{
    static uint8_t after[OTAP_STORE_BYTES];
    uint8_t said[OTAP_REPLY_BYTES];
    uint64_t answer;
    if (!are_stores(pair)) {
        return OTAP_NO_STORE;
    }
    answer = commit_once(request->bytes, request->length, pair->first, OTAP_STORE_BYTES, OTAP_REPLY_BYTES, 0, after, said);
    return otap_answer_number(answer) == OTAP_OK && (request->bytes[6] & 7) == 0 && same_tables(after, pair->second) ? IS_UPDATE : OTAP_OK;
}

/* Any message between any two. The answer. */
static uint64_t check_between(const Pair *pair, const Request *request)
{
    uint64_t answer = check_once(pair, request, 0);
    must(answer == check_once(pair, request, 1), "the same of an update twice");
    must(answer == expected_check(pair, request), "an update exactly where a request is taken and leaves the second's tables");
    return answer;
}

/* Proposes; what was written is left in `proposal`. */
static uint64_t propose_once(const Pair *pair, size_t buffer_length, int twice, uint8_t *proposal)
{
    Lent one = lend(pair->first, pair->first_length, twice), two = lend(pair->second, pair->second_length, twice), b = lend(stale(), buffer_length, twice);
    uint64_t answer = otap_propose(one.bytes, one.length, two.bytes, two.length, b.bytes, b.length);
    size_t wrote = otap_proposal_length(answer);
    must(wrote <= buffer_length && same_bytes(b.bytes + wrote, stale() + wrote, buffer_length - wrote), "bytes past the proposal stay");
    memcpy(proposal, b.bytes, wrote);
    give_back_pair(pair, &one, &two);
    give_back(&b);
    return answer;
}

/* The part that alone two stores export otherwise; 0 if there is none, or there are several. */
static uint32_t single_part(const Pair *pair)
{
    static uint8_t one[OTAP_EXPORT_BYTES], two[OTAP_EXPORT_BYTES];
    unsigned differing = 0;
    uint32_t part, last = 0;
    for (part = 1; part <= OTAP_EXPORT_PARTS; part++) {
        uint64_t first = export_known(part, pair->first, one);
        uint64_t second = export_known(part, pair->second, two);
        if (first != second || !same_bytes(one, two, otap_export_length(first))) {
            differing++;
            last = part;
        }
    }
    must((differing == 0) == same_tables(pair->first, pair->second), "a part is exported otherwise exactly where tables differ");
    return differing == 1 ? last : 0;
}

/* The whole answer of the proposer, which is packed as that of an export; the part that it has to write is left in `request`. */
static uint64_t expected_proposal(const Pair *pair, size_t buffer_length, uint32_t *part, uint8_t *request)
{
    if (!are_stores(pair)) {
        return OTAP_NO_STORE;
    }
    if (buffer_length < OTAP_PROPOSAL_BYTES) {
        return OTAP_SHORT_BUFFER;
    }
    *part = single_part(pair);
    return *part == 0 ? OTAP_NO_SINGLE_PART : export_known(*part, pair->second, request);
}

/* A proposal is an update wherever it is taken: always, but that a hand-held may lack room for slots, which go one by one. */
static void check_taken(const Pair *pair, const Request *proposal, uint32_t part)
{
    uint8_t said[OTAP_REPLY_BYTES];
    uint32_t number = otap_answer_number(judge_once(proposal->bytes, proposal->length, pair->first, OTAP_STORE_BYTES, OTAP_REPLY_BYTES, 0, said));
    int slots = part == OTAP_EXPORT_GROUPS || part == OTAP_EXPORT_INDIVIDUALS || part == OTAP_EXPORT_LINE_SLOTS;
    must(number == OTAP_OK || (number == OTAP_NO_ROOM && slots && shares(layout)), "a proposal is taken, but for slots of a hand-held that lack room");
    must(check_between(pair, proposal) == (number == OTAP_OK ? IS_UPDATE : OTAP_OK), "a proposal is an update wherever it is taken");
}

/* What is proposed between any two. The answer. */
static uint64_t check_proposed(const Pair *pair, size_t buffer_length)
{
    static uint8_t proposal[OTAP_PROPOSAL_BYTES + 64], again[OTAP_PROPOSAL_BYTES + 64], wanted[OTAP_EXPORT_BYTES];
    uint64_t answer = propose_once(pair, buffer_length, 0, proposal);
    Request made = {proposal, otap_proposal_length(answer)};
    uint32_t part = 0;
    must(answer == propose_once(pair, buffer_length, 1, again) && same_bytes(proposal, again, made.length), "the same is proposed twice");
    must(answer == expected_proposal(pair, buffer_length, &part, wanted), "proposed exactly where one part differs, or refused in order");
    if (otap_answer_number(answer) == OTAP_OK) {
        must(same_bytes(proposal, wanted, made.length), "a proposal is the second's part as it is exported");
        check_taken(pair, &made, part);
    }
    return answer;
}

static uint64_t pair_key(unsigned of, const Pair *pair)
{
    return keyed(keyed(of, pair->first, pair->first_length), pair->second, pair->second_length);
}

/* Each of the two, if it was not checked before; a proposal is then said to be none. */
static void new_between(const Pair *pair, const Request *request)
{
    if (!was_checked(keyed(pair_key(OF_UPDATE, pair), request->bytes, request->length))) {
        check_between(pair, request);
    }
}

static uint64_t new_proposed(const Pair *pair, size_t buffer_length)
{
    return was_checked(keyed_by(pair_key(OF_PROPOSAL, pair), buffer_length)) ? OTAP_NO_SINGLE_PART : check_proposed(pair, buffer_length);
}

/* Both calls between any two, either way. What is proposed for the first. */
static uint64_t check_both_ways(const Pair *pair, const Request *request, size_t buffer_length)
{
    Pair turned = {pair->second, pair->second_length, pair->first, pair->first_length};
    new_between(pair, request);
    new_between(&turned, request);
    new_proposed(&turned, buffer_length);
    return new_proposed(pair, buffer_length);
}

/* A store as it is and with other bytes, which may be none: before 15 comes 11. */
static void update_changed(const uint8_t *store, const uint8_t *changed)
{
    static const uint8_t deletes[] = {2, 2, 0, 0, 8, 7, 8, 1, 0xCE, 0, 6, 0x80, 1, 0x0F, 0x1F};
    Request request = {deletes, sizeof deletes};
    Pair pair = pair_of(store, changed);
    check_both_ways(&pair, &request, OTAP_PROPOSAL_BYTES);
    check_both_ways(&pair, &request, OTAP_PROPOSAL_BYTES - 1);
}

/* A message to a store, between the stores around it: the one before, the store, and what it is after the message. What is proposed for that. */
static uint64_t update_around(const Request *message, unsigned choice, const uint8_t *before, const uint8_t *store, const uint8_t *after)
{
    size_t buffer_length = chosen_size(choice, OTAP_PROPOSAL_BYTES);
    Pair last = pair_of(before, store), equal = pair_of(store, store), other = pair_of(store, store), next = pair_of(store, after), both = pair_of(before, after);
    new_between(&last, message);
    new_between(&equal, message);
    other.second_length = chosen_store(choice);
    if (other.second_length != OTAP_STORE_BYTES) {
        check_both_ways(&other, message, buffer_length);
    }
    if (same_bytes(store, after, OTAP_STORE_BYTES)) {
        /* Either way it is between the store and itself; and from the one before to it was proposed when it came. */
        return new_proposed(&equal, buffer_length);
    }
    new_proposed(&both, buffer_length);
    return check_both_ways(&next, message, buffer_length);
}

/* The last message to a store, and a fresh one: tables that have nothing in common. */
static void update_fresh(const Request *message, const uint8_t *store)
{
    static uint8_t fresh[OTAP_STORE_BYTES];
    Pair pair = pair_of(fresh, store);
    must(otap_start(fresh, sizeof fresh) == OTAP_OK, "a store can be started");
    check_both_ways(&pair, message, OTAP_PROPOSAL_BYTES);
}

#endif
