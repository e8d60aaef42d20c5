/*
 * A query and its report, from both ends: a bit of firmware over libotap_handheld.a asks its store for the messages of a report, from index 1 to the total,
 * and the office's software over libotap_office.a reads each and prints its entries, as the program `office` does. Then a short update: the office knows what the
 * set holds and what it should hold, checks a request that was found for it, gets one proposed, and sends it. Every answer is checked; the first that is not what
 * it must be ends the program with 1. examples/office.out is what it prints.
 */
#include "otap_office.h"
#include "text.h"

#include <stdio.h>
#include <stdlib.h>
#include <string.h>

/* Settings of every kind; coding type 0100, eight-bit characters. */
static const uint8_t adding[] = {
    0x02, 0x02, 0x00, 0x00, 0x08, 0x04, 0x08, 0x0A,
    0xC8, 0x00, 0x0F, 0x55, 0x80, 0x01, 0x10, 0x00, 0x01, 'P', 'a', 't', 'r', 'o', 'l', 0x00, /* group contact: background, encryption, emergency, priority 2 */
    0xC9, 0x00, 0x08, 0x5C, 0x01, 0x10, 0x03, 0xE9, 0x00, /* individual contact: emergency, priority 3; no text */
    0xCA, 0x00, 0x0E, 0x42, 0x01, 0x23, 0x45, 0xFF, 'C', 'e', 'n', 't', 'e', 'r', 0x00, /* line: PABX 2345 */
    0xCB, 0x00, 0x06, 0x68, 0x10, 0x00, 0x01,             /* emergency key: group 100001, voice, siren */
    0xCC, 0x00, 0x08, 0x41, 0x05, 'Y', 'e', 's', 0x00,    /* quick text 5 */
    0xCD, 0x00, 0x05, 0x00, 0xE4, 0xC0,                   /* NZI 1, NP 806 */
    0xCE, 0x00, 0x07, 0xC0, 0x02, 0x0F, 0x12, 0x80,       /* channels 241 and 640 */
    0xCF, 0x00, 0x05, 0x00, 0x18, 0xA0,                   /* LAI 1, LA 8, roaming 2, PAR */
    0xD0, 0x00, 0x0B, 0x40, 0x01, 0x21, 'R', 'e', 'a', 'd', 'y', 0x00, /* status text 33 */
    0xFF, 0x00, 0x07, 0x01, 0x12, 0x34, 0x56, 0x78        /* last item: HashCode 1 */
};

/* Asks for all that there is, and for the slots at last, which no set reports. */
static const uint8_t asking[] = {
    0x02, 0x02, 0x00, 0x0F,             /* protocol version, service; length: 15 bytes follow */
    0x08, 0x00,                         /* MFID; coding type, which may be any */
    0x0A, 0x0B,                         /* OTAPVer 1, MsgType 2 query; eleven types */
    OTAP_ASK_GROUP_CONTACTS, OTAP_ASK_INDIVIDUAL_CONTACTS, OTAP_ASK_LINES, OTAP_ASK_EMERGENCY_KEY, OTAP_ASK_QUICK_TEXTS, OTAP_ASK_HOME_NUMBERS,
    OTAP_ASK_CHANNELS, OTAP_ASK_SYSTEM_CODE, OTAP_ASK_STATUS_TEXTS, OTAP_ASK_HASH, 0xD1
};

static uint8_t store[OTAP_STORE_BYTES], reply[OTAP_REPLY_BYTES], message[OTAP_REPORT_BYTES];

static void must_be(const char *what, uint64_t is, uint64_t must)
{
    if (is != must) {
        fprintf(stderr, "%s is %lu, must be %lu\n", what, (unsigned long)is, (unsigned long)must);
        exit(1);
    }
}

static void print_flags(uint64_t entry)
{
    printf(" encryption %d", otap_reported_encryption(entry));
    if (otap_reported_type(entry) == OTAP_ASK_GROUP_CONTACTS) {
        printf(" OVCM %d", otap_reported_ovcm(entry));
    }
    printf(" emergency %d priority %u", otap_reported_emergency(entry), (unsigned)otap_reported_priority(entry));
}

static void print_quoted(uint64_t places)
{
    printf(" \"");
    print_text(message + otap_places_text(places), otap_places_text_length(places));
    printf("\"");
}

static void print_contact(const char *name, uint64_t entry, uint64_t places)
{
    printf("%s contact %u: %06X", name, (unsigned)otap_reported_index(entry), (unsigned)otap_reported_address(entry));
    print_quoted(places);
    if (otap_reported_type(entry) == OTAP_ASK_GROUP_CONTACTS) {
        printf(" attribute %u broadcast %d", (unsigned)otap_reported_attribute(entry), otap_reported_broadcast(entry));
    }
    print_flags(entry);
}

static void print_line(uint64_t entry, uint64_t places)
{
    size_t at;
    printf("line contact %u: %s ", (unsigned)otap_reported_index(entry), otap_reported_id_type(entry) == OTAP_PABX ? "PABX" : "PSTN");
    for (at = 0; at < otap_places_digits(places); at++) {
        printf("%u", (unsigned)otap_places_digit(places, message, at));
    }
    print_quoted(places);
    print_flags(entry);
}

static void print_key(uint64_t entry)
{
    if (otap_reported_current(entry)) {
        printf("emergency key: current place group %d", otap_reported_group(entry));
    } else {
        printf("emergency key: %s %06X", otap_reported_group(entry) ? "group" : "individual", (unsigned)otap_reported_address(entry));
    }
    printf(" voice %d status %d siren %d", otap_reported_voice(entry), otap_reported_status(entry), otap_reported_siren(entry));
}

static void print_hash(uint64_t places)
{
    size_t at;
    if (otap_places_hash_code(places) == OTAP_NO_HASH) {
        printf("kept hash: none");
        return;
    }
    printf("kept hash: code %u value ", (unsigned)otap_places_hash_code(places));
    for (at = 0; at < otap_places_hash_length(places); at++) {
        printf("%02X", message[otap_places_hash(places) + at]);
    }
}

static void print_entry(uint64_t entry, uint64_t places)
{
    printf("  ");
    switch (otap_reported_type(entry)) {
    case OTAP_ASK_GROUP_CONTACTS: print_contact("group", entry, places); break;
    case OTAP_ASK_INDIVIDUAL_CONTACTS: print_contact("individual", entry, places); break;
    case OTAP_ASK_LINES: print_line(entry, places); break;
    case OTAP_ASK_EMERGENCY_KEY: print_key(entry); break;
    case OTAP_ASK_QUICK_TEXTS: printf("quick text %u:", (unsigned)otap_reported_index(entry)); print_quoted(places); break;
    case OTAP_ASK_HOME_NUMBERS: printf("home numbers: NZI %u NP %u", (unsigned)otap_reported_nzi(entry), (unsigned)otap_reported_np(entry)); break;
    case OTAP_ASK_CHANNELS: printf("scan channel %u: %u", (unsigned)otap_reported_index(entry), (unsigned)otap_reported_channel(entry)); break;
    case OTAP_ASK_SYSTEM_CODE:
        printf("system code: LAI %u LA %u roaming %u PAR %d", (unsigned)otap_reported_lai(entry), (unsigned)otap_reported_la(entry),
               (unsigned)otap_reported_roaming(entry), otap_reported_par(entry));
        break;
    case OTAP_ASK_STATUS_TEXTS: printf("status text %u:", (unsigned)otap_reported_code(entry)); print_quoted(places); break;
    case OTAP_ASK_HASH: print_hash(places); break;
    default: printf("unknown type %02X", (unsigned)otap_reported_type(entry)); break;
    }
    printf("\n");
}

/* The office: the whole message is read first, and then walked from parameter to parameter; with `heads_only` they are not printed. What it answers. */
static uint64_t office_reads(size_t length, int heads_only)
{
    uint64_t read = otap_read_report(message, length);
    uint32_t left, at = OTAP_REPORT_FIRST;
    if (otap_answer_number(read) != OTAP_OK) {
        printf("refused %u\n", (unsigned)otap_answer_number(read));
        return read;
    }
    printf("message %u of %u, %u parameters\n", (unsigned)otap_read_index(read), (unsigned)otap_read_total(read), (unsigned)otap_read_parameters(read));
    for (left = otap_read_parameters(read); left > 0; left--) {
        uint64_t places = otap_report_places(message, length, at);
        if (!heads_only) {
            print_entry(otap_report_entry(message, length, at), places);
        }
        at = (uint32_t)otap_places_next(places);
    }
    must_be("the byte behind the last parameter", at, length);
    return read;
}

/* The set: each message of the report in turn, into one buffer; here the office reads it right there. The total is known with the first. */
static void set_reports(const uint8_t *query, size_t length, int heads_only)
{
    uint32_t index = 1, total;
    do {
        uint64_t answer = otap_report(query, length, index, store, sizeof store, message, sizeof message);
        must_be("the number of a report", otap_answer_number(answer), OTAP_OK);
        total = otap_report_total(answer);
        must_be("the index that is read", otap_read_index(office_reads(otap_report_length(answer), heads_only)), index);
        index++;
    } while (index <= total);
    must_be("a message behind the last", otap_report(query, length, index, store, sizeof store, message, sizeof message), OTAP_NO_MESSAGE);
}

/* The same type 128 times: of two channels these are 256 parameters, one more than a message can have. */
static void ask_for_many(void)
{
    uint8_t many[8 + 128];
    size_t at;
    for (at = 0; at < sizeof many; at++) {
        many[at] = at < 8 ? asking[at] : (uint8_t)OTAP_ASK_CHANNELS;
    }
    many[3] = (uint8_t)(sizeof many - 4);
    many[7] = (uint8_t)(sizeof many - 8);
    set_reports(many, sizeof many, 1);
}

/* The office: whether a request takes the set to what it should hold. */
static int office_checks(const char *what, const uint8_t *wanted, const uint8_t *request, size_t length)
{
    uint64_t answer = otap_check_update(store, sizeof store, wanted, OTAP_STORE_BYTES, request, length);
    must_be("the number of a check", otap_answer_number(answer), OTAP_OK);
    printf("  %s, %u bytes: %s\n", what, (unsigned)length, otap_check_yes(answer) ? "yes" : "no");
    return otap_check_yes(answer);
}

/* One line more is wanted, PSTN 119: the office has a store of its own for that, and one for what the set holds, here the set's. */
static void update(void)
{
    static const uint8_t found[] = {0x02, 0x02, 0x00, 0x10, 0x08, 0x04, 0x08, 0x01, 0xCA, 0x00, 0x0B, 0x40, 0x01, 0x11, 0x9F, 'F', 'i', 'r', 'e', 0x00};
    static uint8_t wanted[OTAP_STORE_BYTES];
    uint64_t answer;
    memcpy(wanted, store, sizeof wanted);
    must_be("what it should hold", otap_answer_number(otap_commit(found, sizeof found, wanted, sizeof wanted, reply, sizeof reply)), OTAP_OK);
    must_be("the one that was found", (uint64_t)office_checks("found", wanted, found, sizeof found), 1);
    must_be("another", (uint64_t)office_checks("another", wanted, adding, sizeof adding), 0);
    answer = otap_propose(store, sizeof store, wanted, sizeof wanted, message, sizeof message);
    must_be("the number of a proposal", otap_answer_number(answer), OTAP_OK);
    must_be("the proposal", (uint64_t)office_checks("proposed", wanted, message, otap_proposal_length(answer)), 1);
    must_be("sending it", otap_answer_number(otap_commit(message, otap_proposal_length(answer), store, sizeof store, reply, sizeof reply)), OTAP_OK);
    must_be("then none differs", otap_propose(store, sizeof store, wanted, sizeof wanted, message, sizeof message), OTAP_NO_SINGLE_PART);
}

int main(void)
{
    uint64_t answer;
    must_be("starting a store", otap_start(store, sizeof store), OTAP_OK);
    printf("a fresh set\n");
    set_reports(asking, sizeof asking, 0);
    answer = otap_commit(adding, sizeof adding, store, sizeof store, reply, sizeof reply);
    must_be("the number of the adding", otap_answer_number(answer), OTAP_OK);
    printf("the set after a request\n");
    set_reports(asking, sizeof asking, 0);
    printf("its channels, asked for 128 times\n");
    ask_for_many();
    printf("a request, which is no query, and a report, which ends too early\n");
    must_be("a request", otap_report(adding, sizeof adding, 1, store, sizeof store, message, sizeof message), OTAP_OTHER_MESSAGE);
    answer = otap_report(asking, sizeof asking, 1, store, sizeof store, message, sizeof message);
    must_be("a cut report", office_reads(otap_report_length(answer) - 1, 0), OTAP_BAD_CARRIER);
    printf("one line more is wanted: is the request an update?\n");
    update();
    return 0;
}
