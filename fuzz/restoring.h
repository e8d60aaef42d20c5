/*
 * What a store is exported as: a fresh set becomes the same by it, and a used one too, but that another table's texts can take the room of a hand-held; the
 * other set takes it as far as it fits there. And where a hand-held lacks room, by what a vehicle takes, which no sum binds.
 */
#ifndef RESTORING_H
#define RESTORING_H

#include "entries.h"
#include "fitting.h"
#include "joining.h"

/* The first setting of a part after which the texts, those of the parts before it too, are more than an area holds; 0 if there is none. All status texts are
 * one setting; quick texts, which can be two, come too early to be too many. */
static uint32_t first_over(const uint8_t *store, uint32_t part, size_t *texts)
{
    uint32_t table = OTAP_LINES, place, over = 0;
    while (table <= OTAP_TABLES && exports[table].part != part) {
        table++;
    }
    for (place = 0; table <= OTAP_TABLES && place < layout[table].rows; place++) {
        *texts += text_length(layout, store, table, place);
        if (*texts > SHARED_BYTES && over == 0) {
            over = exports[table].head == 0 ? 1 : 1 + exports[table].before + place;
        }
    }
    return over;
}

/* The ten parts in order to the other set, up to the first that does not fit; whether all do. */
static int hand_parts(const uint8_t *store)
{
    static uint8_t request[OTAP_EXPORT_BYTES];
    uint64_t counts = counts_once(store, OTAP_STORE_BYTES, 0);
    Sent sent = {0, otap_counts_lines(counts), otap_counts_channels(counts), 0, request, 0};
    size_t texts = 0;
    int taken = 1;
    meet_other();
    for (sent.part = 1; sent.part <= OTAP_EXPORT_PARTS && taken; sent.part++) {
        sent.length = otap_export_length(export_known(sent.part, store, request));
        sent.over = first_over(store, sent.part, &texts);
        taken = other_takes(&sent);
    }
    return taken;
}

/* If they all do, the other set exports the same. */
static void hand_on(const uint8_t *store)
{
    static uint8_t request[OTAP_EXPORT_BYTES];
    Sent sent = {0, 0, 0, 0, request, 0};
    if (hand_parts(store)) {
        for (sent.part = 1; sent.part <= OTAP_EXPORT_PARTS; sent.part++) {
            sent.length = otap_export_length(export_known(sent.part, store, request));
            check_other_part(&sent);
        }
    }
}

/* A request has this answer from this store: its settings up to the first at fault go one by one to a vehicle with the same tables, which no sum binds. Each
 * was found to have room exactly where what the vehicle then holds fits a hand-held. No set stands so beside a vehicle. */
static void check_room(const uint8_t *store, const uint8_t *message, uint64_t answer)
{
    uint32_t number = otap_answer_number(answer), failed = otap_answer_failed(answer), each;
    uint32_t last = number == OTAP_OK ? message[7] : number == OTAP_NO_ROOM || failed == 0 ? failed : failed - 1;
    const uint8_t *at = message + REQUEST_HEAD;
    uint64_t key;
    if (!shares(layout) || last == 0) {
        return;
    }
    key = keyed(OF_STORE, store, OTAP_STORE_BYTES);
    if (!recall_other(key)) {
        must(hand_parts(store), "a vehicle takes what a hand-held has");
        keep_other(key);
    }
    for (each = 1; each <= last; each++) {
        size_t length = 1 + at[1] * 256u + at[2];
        must(fits_handheld(at, length, message[5]) == (each != failed), "a setting has room exactly where lines, channels and texts fit after it");
        at += length;
    }
}

/* A part committed to a set of the same kind; how long it is. */
static size_t send_part(uint32_t part, const uint8_t *store, uint8_t *set, uint8_t *request, uint64_t *answer)
{
    static uint8_t after[OTAP_STORE_BYTES];
    uint64_t written = export_known(part, store, request);
    must(otap_answer_number(written) == OTAP_OK, "a store can be exported");
    *answer = commit_judged(request, otap_export_length(written), set, OTAP_STORE_BYTES, OTAP_REPLY_BYTES, 1, after);
    memcpy(set, after, OTAP_STORE_BYTES);
    return otap_export_length(written);
}

/* The same tables: all but the kept hash, which is the first 11 bytes. */
static int same_tables(const uint8_t *one, const uint8_t *two)
{
    return same_bytes(one + 11, two + 11, OTAP_STORE_BYTES - 11);
}

/* The ten parts make a fresh set the same, which exports each of them as the same bytes. */
static void restore_fresh(const uint8_t *store)
{
    static uint8_t fresh[OTAP_STORE_BYTES], request[OTAP_EXPORT_BYTES], again[OTAP_EXPORT_BYTES];
    uint32_t part;
    must(otap_start(fresh, OTAP_STORE_BYTES) == OTAP_OK, "a store can be started");
    for (part = 1; part <= OTAP_EXPORT_PARTS; part++) {
        uint64_t answer;
        size_t length = send_part(part, store, fresh, request, &answer);
        must(otap_answer_number(answer) == OTAP_OK, "an export is taken");
        must((uint64_t)length << 16 == export_once(part, fresh, OTAP_STORE_BYTES, OTAP_EXPORT_BYTES, 1, again), "the other store's export is as long");
        must(same_bytes(request, again, length), "the other store's export is the same");
    }
    must(same_tables(store, fresh), "the other store has the same tables");
    must(check_counts(fresh) == check_counts(store), "the other store has the same counts");
}

/* They make a used set the same too, a vehicle always, a hand-held if it takes them all: it can lack room for texts, as a vehicle with its tables shows. */
static void restore_used(const uint8_t *store, const uint8_t *used)
{
    static uint8_t set[OTAP_STORE_BYTES], request[OTAP_EXPORT_BYTES];
    uint64_t answer = OTAP_OK;
    uint32_t part;
    memcpy(set, used, sizeof set);
    for (part = 1; part <= OTAP_EXPORT_PARTS && otap_answer_number(answer) == OTAP_OK; part++) {
        send_part(part, store, set, request, &answer);
    }
    must(otap_answer_number(answer) == OTAP_OK || (shares(layout) && otap_answer_number(answer) == OTAP_NO_ROOM), "a used set takes an export, or lacks room");
    if (otap_answer_number(answer) == OTAP_OK) {
        must(same_tables(store, set), "a used set that takes an export has the same tables");
    } else {
        check_room(set, request, answer);
    }
}

#endif
