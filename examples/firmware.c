/*
 * A bit of firmware over libotap_handheld.a: keep a store at power-on or start one, judge messages and commit them, save, start again, draw the rows and
 * what stands behind them, name who is calling, write the settings out and into another set. Every answer is checked; the first that is not what it must
 * be ends the program with 1. examples/firmware.out is what it prints.
 * It is one task, so it needs no lock; docs/FIRMWARE.md says where three need one, and how to save so that a power cut loses nothing (banks.c).
 */
#include "otap.h"
#include "text.h"

#include <stdio.h>
#include <stdlib.h>
#include <string.h>

/* Two groups and a line contact, each with its name; then the last item, which asks for a reply and leaves a hash. */
static const uint8_t adding[] = {
    0x02, 0x02, 0x00, 0x42,             /* protocol version, service; length: 66 bytes follow */
    0x08, 0x07,                         /* MFID; coding type 0111, 16-bit Unicode */
    0x08, 0x04,                         /* OTAPVer 1, MsgType 0 request; four settings */
    0xD1, 0x00, 0x11,                   /* group slot, DataLength 17 */
    0x60, 0x00, 0x10, 0x00, 0x01,       /* add, attribute 10; priority 0, index 0; address 100001 */
    0x52, 0x11, 0x8B, 0x66, 0x4E, 0x00, 0x96, 0x1F, 0x00, 0x00, /* 刑警一队, end */
    0xD1, 0x00, 0x11,                   /* group slot, DataLength 17 */
    0x60, 0x01, 0x10, 0x00, 0x02,       /* add, attribute 10; priority 0, index 1; address 100002 */
    0x4E, 0xA4, 0x8B, 0x66, 0x4E, 0x8C, 0x96, 0x1F, 0x00, 0x00, /* 交警二队, end */
    0xCA, 0x00, 0x11,                   /* line contacts, DataLength 17 */
    0x42, 0x01,                         /* add, IDtype PABX; one entry */
    0x23, 0x45, 0xFF,                   /* number 2345, end, fill */
    0x63, 0x07, 0x63, 0x25, 0x4E, 0x2D, 0x5F, 0xC3, 0x00, 0x00, /* 指挥中心, end */
    0xFF, 0x00, 0x07,                   /* last item, DataLength 7 */
    0x41, 0x12, 0x34, 0x56, 0x78        /* no reboot, reply, HashCode 1; the hash value */
};

/* Another name for group slot 1, and an individual without a name: it is shown by its dialled number. Then the set is to start again. */
static const uint8_t renaming[] = {
    0x02, 0x02, 0x00, 0x00,             /* length 0: not stated */
    0x08, 0x07,                         /* MFID, coding type */
    0x08, 0x03,                         /* request, three settings */
    0xD1, 0x00, 0x11,                   /* group slot, DataLength 17 */
    0x60, 0x01, 0x10, 0x00, 0x02,       /* add, attribute 10; index 1; address 100002 */
    0x5D, 0xE1, 0x90, 0x3B, 0x4E, 0x09, 0x7E, 0xC4, 0x00, 0x00, /* 巡逻三组, end */
    0xD2, 0x00, 0x09,                   /* individual slot, DataLength 9 */
    0x40, 0x00, 0x10, 0x3C, 0x28,       /* add; index 0; address 103C28 */
    0x00, 0x00,                         /* no text, end */
    0xFF, 0x00, 0x03,                   /* last item, DataLength 3 */
    0x80                                /* reboot, no reply, HashCode 0 */
};

/* Two group contacts, of which the first is a background group and is not shown, an individual contact without a name, a line slot; then two channels,
 * and the emergency key. */
static const uint8_t contacts[] = {
    0x02, 0x02, 0x00, 0x00,             /* length 0: not stated */
    0x08, 0x04,                         /* MFID; coding type 0100, eight-bit characters */
    0x08, 0x06,                         /* request, six settings */
    0xC8, 0x00, 0x0D,                   /* group contacts, DataLength 13 */
    0x50, 0x00, 0x01, 0x10, 0x00, 0x03, /* add, attribute 01, background; priority 0; one entry: address 100003 */
    'D', 'a', 't', 'a', 0x00,           /* Data, end */
    0xC8, 0x00, 0x10,                   /* group contacts, DataLength 16 */
    0x70, 0x00, 0x01, 0x10, 0x00, 0x04, /* add, attribute 11, member; priority 0; one entry: address 100004 */
    'T', 'r', 'a', 'f', 'f', 'i', 'c', 0x00, /* Traffic, end */
    0xC9, 0x00, 0x08,                   /* individual contacts, DataLength 8 */
    0x40, 0x01, 0x10, 0x00, 0x01, 0x00, /* add; one entry: address 100001; no text, end */
    0xD3, 0x00, 0x0D,                   /* line slot, DataLength 13 */
    0x40, 0x02, 0x12, 0x2F,             /* add, IDtype PSTN; index 2; number 122, end */
    'P', 'o', 'l', 'i', 'c', 'e', 0x00, /* Police, end */
    0xCE, 0x00, 0x07, 0xC0, 0x02, 0x0F, 0x12, 0x80, /* scan channels, DataLength 7: replace by two, 241 and 640 */
    0xCB, 0x00, 0x06, 0x60, 0x10, 0x00, 0x04 /* emergency key, DataLength 6: group 100004, voice */
};

/* Setting 1 is good, setting 2 is not: so that nothing may change. */
static const uint8_t refused[] = {
    0x02, 0x02, 0x00, 0x00,             /* length 0: not stated */
    0x08, 0x07,                         /* MFID, coding type */
    0x08, 0x02,                         /* request, two settings */
    0xD1, 0x00, 0x0B,                   /* group slot, DataLength 11 */
    0x60, 0x00, 0x10, 0x00, 0x02,       /* add, attribute 10; index 0; address 100002 */
    0x96, 0x1F, 0x00, 0x00,             /* 队, end */
    0xCD, 0x00, 0x05,                   /* home numbers, DataLength 5 */
    0x07, 0xE4, 0xE0                    /* NZI 15, NP 807: one too many */
};

static uint8_t flash[OTAP_STORE_BYTES];
static uint8_t store[OTAP_STORE_BYTES];
static uint8_t other[OTAP_STORE_BYTES];
static uint8_t reply[OTAP_REPLY_BYTES];
static uint8_t forecast[OTAP_REPLY_BYTES]; /* the reply of what is only judged */
static uint8_t request[OTAP_EXPORT_BYTES];
static uint8_t scratch[OTAP_SCRATCH_BYTES];
static uint8_t other_scratch[OTAP_SCRATCH_BYTES];

static void must_be(const char *what, uint64_t is, uint64_t must)
{
    if (is != must) {
        fprintf(stderr, "%s is %lu, must be %lu\n", what, (unsigned long)is, (unsigned long)must);
        exit(1);
    }
}

/* What a call to the row goes to, digits or an address: a task of its own would ask under the same hold of the lock as for the name, and keep both
 * together (ptt.c). A text has nothing behind it. */
static void print_target(uint32_t table, uint32_t row)
{
    uint8_t digits[OTAP_DIGITS];
    size_t at, count = otap_digits_count(otap_entry_digits(table, row, store, sizeof store, digits, sizeof digits));
    uint64_t entry = otap_entry(table, row, store, sizeof store);
    if (table == OTAP_QUICK_TEXTS || table == OTAP_STATUS_TEXTS) {
        must_be("what stands behind a text", entry, OTAP_NOTHING_THERE);
        return;
    }
    must_be("the number behind a row that is shown", otap_answer_number(entry), OTAP_OK);
    printf(" -> ");
    if (count == 0) {
        printf("%06X", (unsigned)otap_entry_address(entry));
    }
    for (at = 0; at < count; at++) {
        printf("%u", (unsigned)digits[at]);
    }
}

/* What the radio works by. The number is asked first, for a refusal's values are 0. */
static void draw_settings(void)
{
    uint64_t key = otap_emergency_key(store, sizeof store), home = otap_home_numbers(store, sizeof store), code = otap_system_code(store, sizeof store);
    uint32_t at;
    must_be("the numbers of the settings", otap_answer_number(key) + otap_answer_number(home) + otap_answer_number(code), OTAP_OK);
    if (otap_key_current(key)) {
        printf("  emergency key: current place");
    } else {
        printf("  emergency key: %s %06X", otap_key_group(key) ? "group" : "individual", (unsigned)otap_key_address(key));
    }
    printf("; NZI %u, NP %u; LAI %u; channels:", (unsigned)otap_home_nzi(home), (unsigned)otap_home_np(home), (unsigned)otap_system_lai(code));
    for (at = 0; otap_answer_number(otap_channel(at, store, sizeof store)) == OTAP_OK; at++) {
        printf(" %u", (unsigned)otap_channel_value(otap_channel(at, store, sizeof store)));
    }
    printf("\n");
}

/* A task of its own would hold the lock of otap_commit from here to the last print_text. Each row is asked for once: 0 is a row that is not shown, which
 * does not end a list, for it may be a background group's. */
static void draw_table(const char *name, uint32_t table, uint32_t first, uint32_t last)
{
    uint32_t row;
    for (row = first; row <= last; row++) {
        uint64_t part = otap_row_part(table, row, store, sizeof store, scratch, sizeof scratch);
        if (part == 0) {
            must_be("why a row is not shown", otap_row_number(table, row, store, sizeof store, scratch, sizeof scratch), OTAP_NO_ROW);
            continue;
        }
        printf("  %s %u: ", name, (unsigned)row);
        print_text(otap_part_bytes(part, store, scratch), otap_part_length(part));
        printf("%s", otap_part_in_scratch(part) ? " (number)" : "");
        print_target(table, row);
        printf("\n");
    }
}

/* What the settings menu shows. The number is asked first: a refusal's counts are 0 and 0, like those of an empty set. */
static void draw_room(void)
{
    uint64_t counts = otap_counts(store, sizeof store);
    must_be("the number of the counts", otap_answer_number(counts), OTAP_OK);
    printf("  lines: %u held, %u free; channels: %u held, %u free\n", (unsigned)otap_counts_lines(counts),
           (unsigned)otap_counts_free_lines(counts), (unsigned)otap_counts_channels(counts), (unsigned)otap_counts_free_channels(counts));
}

static void draw(const char *title)
{
    printf("%s\n", title);
    draw_room();
    draw_table("line", OTAP_LINES, 0, OTAP_LINE_ROWS - 1);
    draw_table("quick text", OTAP_QUICK_TEXTS, 0, OTAP_QUICK_ROWS - 1);
    draw_table("status text", OTAP_STATUS_TEXTS, OTAP_STATUS_FIRST, OTAP_STATUS_LAST);
    draw_table("group", OTAP_GROUPS, 0, OTAP_SLOT_ROWS - 1);
    draw_table("individual", OTAP_INDIVIDUALS, 0, OTAP_SLOT_ROWS - 1);
    draw_table("group contact", OTAP_GROUP_CONTACTS, 0, OTAP_CONTACT_ROWS - 1);
    draw_table("individual contact", OTAP_INDIVIDUAL_CONTACTS, 0, OTAP_CONTACT_ROWS - 1);
    draw_table("line slot", OTAP_LINE_SLOTS, 0, OTAP_SLOT_ROWS - 1);
    draw_settings();
}

/* Keeps what was saved if it is a store, and starts one only where it is none. */
static int power_on(void)
{
    uint64_t counts;
    memcpy(store, flash, sizeof store);
    counts = otap_counts(store, sizeof store);
    if (otap_answer_number(counts) == OTAP_OK) { /* exactly where the bytes are a store */
        printf("power-on: the store is kept\n");
        return 1;
    }
    must_be("why it was not kept", counts, OTAP_NO_STORE);
    must_be("starting a store", otap_start(store, sizeof store), OTAP_OK);
    printf("power-on: no store in flash, a fresh one is started\n");
    return 0;
}

/* A restart: what was not saved is gone. */
static void restart(void)
{
    memset(store, 0, sizeof store);
    must_be("whether the store was kept", (uint64_t)power_on(), 1);
}

static void print_answer(const char *what, uint64_t answer)
{
    size_t at;
    printf("%s: number %u, failed ID %u, %s, %s, reply", what, (unsigned)otap_answer_number(answer), (unsigned)otap_answer_failed(answer),
           otap_answer_send(answer) ? "send" : "do not send", otap_answer_reboot(answer) ? "start again" : "no restart");
    for (at = 0; at < otap_answer_length(answer); at++) {
        printf(" %02X", reply[at]);
    }
    printf("\n");
}

/* What committing would answer. The store stays as it is, and nothing is sent: the set has nothing of the message yet. */
static uint64_t judge(const uint8_t *message, size_t length, const uint8_t *bytes)
{
    return otap_judge(message, length, bytes, OTAP_STORE_BYTES, forecast, sizeof forecast);
}

/* Judges and commits. The store is the same for both, so both answer alike and write the same reply: always, with a reply buffer of 20 bytes. */
static uint64_t judge_and_commit(const uint8_t *message, size_t length, uint8_t *bytes)
{
    uint64_t judged = judge(message, length, bytes);
    uint64_t answer = otap_commit(message, length, bytes, OTAP_STORE_BYTES, reply, sizeof reply);
    must_be("what committing answers", answer, judged);
    must_be("whether its reply is another", memcmp(forecast, reply, otap_answer_length(answer)) != 0, 0);
    return answer;
}

/* What is taken is saved before a reply says so, and before a restart; here printing is sending. */
static uint64_t commit(const char *what, const uint8_t *message, size_t length)
{
    uint64_t answer = judge_and_commit(message, length, store);
    if (otap_answer_number(answer) == OTAP_OK) {
        memcpy(flash, store, sizeof flash);
    }
    print_answer(what, answer);
    if (otap_answer_reboot(answer)) {
        restart();
    }
    return answer;
}

/* A request that comes during a call waits; the user is told what it will come to. */
static void wait_for_the_call(const char *what, const uint8_t *message, size_t length)
{
    uint64_t judged = judge(message, length, store);
    printf("%s, during a call: it %s be taken; %s then\n", what, otap_answer_number(judged) == OTAP_OK ? "will" : "will not",
           otap_answer_reboot(judged) ? "the set starts again" : "no restart");
}

static void add_and_rename(void)
{
    uint64_t answer = commit("adding", adding, sizeof adding);
    must_be("the number of the adding", otap_answer_number(answer), OTAP_OK);
    must_be("its send", (uint64_t)otap_answer_send(answer), 1);
    must_be("its reboot", (uint64_t)otap_answer_reboot(answer), 0);
    must_be("its reply length", otap_answer_length(answer), 14);
    wait_for_the_call("renaming", renaming, sizeof renaming);
    draw("rows after the adding");
    answer = commit("renaming", renaming, sizeof renaming);
    must_be("the number of the renaming", otap_answer_number(answer), OTAP_OK);
    must_be("its send", (uint64_t)otap_answer_send(answer), 0);
    must_be("its reboot", (uint64_t)otap_answer_reboot(answer), 1);
    draw("rows after the renaming");
}

/* The background group is held, and exported below; its row is absent, and that of the group behind it is its own. */
static void add_contacts(void)
{
    uint64_t answer = commit("contacts", contacts, sizeof contacts);
    must_be("the number of the contacts", otap_answer_number(answer), OTAP_OK);
    must_be("a background group's row", otap_row_number(OTAP_GROUP_CONTACTS, 0, store, sizeof store, scratch, sizeof scratch), OTAP_NO_ROW);
    must_be("a member group's row", otap_row_number(OTAP_GROUP_CONTACTS, 1, store, sizeof store, scratch, sizeof scratch), OTAP_OK);
    draw("rows after the contacts");
}

/* A task of its own would have held the lock of otap_commit since it asked for the row: a message in between could move it. */
static void print_caller(uint64_t caller)
{
    uint64_t part = otap_row_part(OTAP_LINES, otap_line_row(caller), store, sizeof store, scratch, sizeof scratch);
    must_be("whether the caller's row is shown", part != 0, 1);
    print_text(otap_part_bytes(part, store, scratch), otap_part_length(part));
    printf(" (line %u)\n", (unsigned)otap_line_row(caller));
}

/* An incoming line call: its name, if a line contact has this IDtype and these digits, and else its digits. Line slots are not looked up. */
static uint64_t line_call(uint32_t id_type, const uint8_t *digits, size_t length)
{
    uint64_t caller = otap_line_of(id_type, digits, length, store, sizeof store);
    size_t at;
    printf("call from %s ", id_type == OTAP_PABX ? "PABX" : "PSTN");
    for (at = 0; at < length; at++) {
        printf("%u", (unsigned)digits[at]);
    }
    printf(": ");
    if (otap_line_found(caller)) {
        print_caller(caller);
    } else {
        printf("%s\n", otap_answer_number(caller) == OTAP_OK ? "not among the lines" : "not a number");
    }
    return caller;
}

/* The line is PABX 2345, in row 0; 122 stands in a line slot only, and nineteen digits are no number. */
static void line_calls(void)
{
    static const uint8_t center[] = {2, 3, 4, 5}, police[] = {1, 2, 2}, long_one[OTAP_DIGITS + 1] = {1};
    must_be("PABX 2345", line_call(OTAP_PABX, center, sizeof center), 0x100);
    must_be("PSTN 2345", line_call(OTAP_PSTN, center, sizeof center), OTAP_OK);
    must_be("PABX 234", line_call(OTAP_PABX, center, sizeof center - 1), OTAP_OK);
    must_be("PSTN 122", line_call(OTAP_PSTN, police, sizeof police), OTAP_OK);
    must_be("nineteen digits", line_call(OTAP_PSTN, long_one, sizeof long_one), OTAP_BAD_NUMBER);
}

static void try_refused(void)
{
    uint64_t answer;
    memcpy(other, store, sizeof store);
    answer = commit("refused", refused, sizeof refused);
    must_be("the number of the refused message", otap_answer_number(answer), OTAP_BAD_FIELD);
    must_be("its failed ID", otap_answer_failed(answer), 2);
    must_be("whether the store changed", memcmp(other, store, sizeof store) != 0, 0);
    printf("the store is as it was, byte for byte\n");
}

static void export_to_other(void)
{
    uint32_t part;
    must_be("starting the other store", otap_start(other, sizeof other), OTAP_OK);
    for (part = 1; part <= OTAP_EXPORT_PARTS; part++) {
        uint64_t written = otap_export(part, store, sizeof store, request, sizeof request);
        uint64_t answer;
        must_be("the number of an export", otap_answer_number(written), OTAP_OK);
        answer = judge_and_commit(request, otap_export_length(written), other);
        must_be("the number of an exported request", otap_answer_number(answer), OTAP_OK);
        printf("part %u: %u bytes, taken by the other store\n", (unsigned)part, (unsigned)otap_export_length(written));
    }
}

/* Both stores show the same row: the same number, and the same bytes. */
static void same_row(uint32_t table, uint32_t row)
{
    uint32_t here = otap_row_number(table, row, store, sizeof store, scratch, sizeof scratch);
    uint32_t there = otap_row_number(table, row, other, sizeof other, other_scratch, sizeof other_scratch);
    uint64_t mine = otap_row_part(table, row, store, sizeof store, scratch, sizeof scratch);
    uint64_t theirs = otap_row_part(table, row, other, sizeof other, other_scratch, sizeof other_scratch);
    must_be("the number of the other store's row", there, here);
    must_be("the part of the other store's row", theirs, mine);
    must_be("whether two rows differ", memcmp(otap_part_bytes(mine, store, scratch),
            otap_part_bytes(theirs, other, other_scratch), otap_part_length(mine)) != 0, 0);
}

static void same_rows(void)
{
    uint32_t table, row;
    for (table = 1; table <= OTAP_TABLES; table++) {
        for (row = 0; row <= OTAP_STATUS_LAST; row++) {
            same_row(table, row);
        }
    }
    must_be("the counts of the other store", otap_counts(other, sizeof other), otap_counts(store, sizeof store));
    printf("every row of the other store is the same, and so are its counts\n");
}

static void convert(void)
{
    uint64_t address = otap_individual_of_dialled(32841899);
    uint64_t frequency = otap_transmit(241);
    must_be("the number of 32841899", otap_answer_number(address), OTAP_OK);
    must_be("the address of 32841899", otap_value(address), 0x103C28);
    must_be("the number of channel 241", otap_answer_number(frequency), OTAP_OK);
    must_be("the frequency of channel 241", otap_value(frequency), 3510125);
    must_be("channel 641", otap_transmit(641), OTAP_NO_CHANNEL);
    printf("32841899 is address %06X; channel 241 sends on %u x 100 Hz\n", (unsigned)otap_value(address),
           (unsigned)otap_value(frequency));
}

int main(void)
{
    memset(flash, 0xFF, sizeof flash);
    must_be("whether erased flash was kept", (uint64_t)power_on(), 0);
    draw("rows of a fresh store");
    add_and_rename();
    add_contacts();
    line_calls();
    try_refused();
    export_to_other();
    same_rows();
    convert();
    return 0;
}
