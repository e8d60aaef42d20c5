/*
 * otap.h: the C functions of libotap_handheld.a, for the firmware of a PDT hand-held. otap_vehicle.h has those of a vehicle set, which go by its own sizes.
 *
 * The library owns no memory and keeps nothing between two calls: the tables are in the store, bytes that the caller lends. No call allocates, waits or
 * calls back, and every call comes back. Every answer is a number of the table below; a call that answers more than a number packs it into 64 bits, and
 * the functions of otap_unpack.h, which this file includes, unpack it.
 *
 * What the caller has to hold, for no C function can look at it:
 *
 *  - Each pointer is good for as many bytes as its length says, and is not null, also with length 0. A length has 64 bits on every processor, since
 *    that is what every archive takes; a size_t widens by itself.
 *  - The buffers of one call do not overlap. This is not checked.
 *  - While one task is in a call, no other task writes its buffers or reads those that the call may change. See "Screens".
 *  - The stack has room: OTAP_COMMIT_STACK and its like, below. otap_judge, otap_commit, otap_export and otap_report work on a copy of the store there.
 *  - memcpy and memset are there to link with (on Cortex-M __aeabi_memcpy and __aeabi_memclr, which come with every C library for Arm); the archive
 *    needs nothing else.
 *
 * Otherwise anything may be lent: any bytes, of any length, as a message, a store or a buffer. What is wrong is refused with a number.
 * docs/FIRMWARE.md says how firmware calls this: tasks and their lock, power-on, saving a store so that a power cut loses nothing, and updates.
 *
 * Screens. A row's part is not a copy: it is a place in the store, or in the scratch. It is good until the store or the scratch is next written: by
 * otap_commit and otap_start (the store), by otap_row_part (the scratch), or by anything else. All texts stand one behind the other in one area, so that
 * a message which changes one text can move the others: what was a row's part may then be parts of two names. And a screen task that draws a list while
 * another task commits a message can draw one row's name beside another row's number. So either draw while holding the lock under which otap_commit is
 * called, or, under that lock, ask for the rows and copy their bytes out (at most OTAP_ROW_BYTES each), then draw the copies. Copy all rows that are
 * drawn together under one hold of the lock: rows asked for in two holds can be of two lists. Asking twice without a lock does not help.
 *
 * Calling. An officer picks a row by its name and presses PTT. Ask for the name and for what stands behind it, otap_entry and for a line otap_entry_digits
 * too, under one hold of the lock, and keep both together. What is called is the target that was kept with the name that was drawn, never the row as it is
 * when the key is pressed: a message may have come in between, and the row may be another's.
 *
 * Judging. A message is taken in two steps. otap_judge says what it would come to, otap_commit does it. So a request that comes during a call is judged
 * then, for the user to know whether it will be taken and whether the set will start again, and committed after the call. What judging promises: a
 * message that was judged with 0, and is committed to the same store with a reply buffer of OTAP_REPLY_BYTES bytes, is taken, always. otap_commit is
 * handed no verdict and judges again, since the store may have changed in between: a message that was judged good can be refused then, and one that was
 * judged to have no room can have some. otap_judge reads the store, so it is called under the same lock as otap_commit; it changes no byte of it.
 */
#ifndef OTAP_H
#define OTAP_H

#include <stddef.h>
#include <stdint.h>

#ifdef __cplusplus
extern "C" {
#endif

/* Sizes in bytes. */
enum {
    OTAP_STORE_BYTES = 24576,  /* a store has exactly as many */
    OTAP_MESSAGE_BYTES = 4096, /* a message has at most as many, and at least 7 */
    OTAP_REPLY_BYTES = 20,     /* a reply buffer has at least as many */
    OTAP_EXPORT_BYTES = 4096,  /* an export buffer has at least as many */
    OTAP_REPORT_BYTES = 4096,  /* a report buffer has at least as many */
    OTAP_SCRATCH_BYTES = 36,   /* a scratch has at least as many */
    OTAP_ROW_BYTES = 46,       /* a row's part has at most as many: 23 units */
    OTAP_TEXT_BYTES = 4096     /* all texts of a store together have at most as many, two a unit: see otap_commit */
};

/* A line's number has at most as many digits, and at least 1; a buffer for digits has at least as many bytes. */
enum { OTAP_DIGITS = 18 };

/*
 * The number of a store's layout, docs/STORE.md: it changes where the layout does. No store holds it; firmware saves it beside the store. From 5 to 6 the
 * texts of a hand-held went into one area; a vehicle's store stayed as it was, so that its firmware may keep what it has saved under 5.
 */
enum { OTAP_LAYOUT = 6 };

/*
 * Stack in bytes: a ceiling for each call on every processor, which tests/stack.c holds it to, and the most that it measured (docs/TESTING.md has those of the older kit): on
 * x86-64, and with the older kit on Cortex-M4 and Cortex-M33, of otap_start and the conversions on AArch64 too. It is tested on a full store with every kind
 * of message; no theorem bounds it.
 */
enum {
    OTAP_START_STACK = 256,      /* measured 40 */
    OTAP_JUDGE_STACK = 29696,    /* 27,824: it has the working copy that otap_commit has */
    OTAP_COMMIT_STACK = 29696,   /* 28,104: 24,576 of them are the working copy of the store */
    OTAP_EXPORT_STACK = 27136,   /* 26,520, with a working copy too */
    OTAP_REPORT_STACK = 27136,   /* 26,616, with a working copy too */
    OTAP_ROW_STACK = 3072,       /* 2,312 otap_row_number, 2,328 otap_row_part */
    OTAP_COUNTS_STACK = 2048,    /* 1,784 */
    OTAP_LINE_OF_STACK = 2048,   /* 1,848 */
    OTAP_VALUE_STACK = 2048,     /* 1,864 otap_entry, otap_entry_digits; 1,800 otap_channel, 1,784 otap_emergency_key and the others of a value */
    OTAP_CONVERSION_STACK = 256  /* 64 */
};

/* The numbers. */
enum {
    OTAP_OK = 0,               /* taken, or the query matches (of otap_judge: it would be, or matches); otherwise: done */
    OTAP_BAD_VERSION = 1,      /* OTAPVer is not 1 */
    OTAP_NO_ROOM = 2,          /* a setting needs a place in a full table, or the texts held after it are over OTAP_TEXT_BYTES */
    OTAP_UNKNOWN_TYPE = 3,     /* a setting's type is not among the thirteen */
    OTAP_BAD_FIELD = 4,        /* bad field, length or count */
    OTAP_NO_MATCH = 5,         /* query: code 0, nothing kept, or code or value differs */
    OTAP_SHORT_REPLY = 10,     /* reply buffer under 20 bytes */
    OTAP_NO_STORE = 11,        /* store not 24,576 bytes, or not a store */
    OTAP_MESSAGE_LENGTH = 12,  /* message under 7 or over 4,096 bytes */
    OTAP_BAD_CARRIER = 13,     /* carrier field or length wrong */
    OTAP_OTHER_MESSAGE = 14,   /* MsgType is neither request nor result query; of otap_report: is not query; of otap_join: is not request */
    OTAP_SHORT_BUFFER = 15,    /* scratch under 36 bytes, export, report, join or proposal buffer under 4,096, or digits buffer under 18 */
    OTAP_NO_PART = 16,         /* export part not 1 to 10 */
    OTAP_NO_MESSAGE = 16,      /* the same number, of otap_report: the report has no message of this index */
    OTAP_NO_ROW = 17,          /* the screen's row is absent, or a background group's */
    OTAP_NOTHING_THERE = 17,   /* the same number, of otap_entry, otap_entry_digits and otap_channel: nothing stands there */
    /* 18 is the desk emulator's: OTAP_AREA_FULL of otap_desk.h */
    OTAP_NO_SINGLE_PART = 19,  /* of otap_propose: the tables of no export part differ, or those of several */
    OTAP_OUTSIDE_PLAN = 20,    /* of a conversion: dialled number outside the plan */
    OTAP_BAD_NUMBER = 20,      /* of otap_line_of, the same number: not 1 to 18 digits, or a digit above 9; which of the two it is, the call says */
    OTAP_OUTSIDE_KIND = 21,    /* address outside its kind's plan */
    OTAP_NO_CHANNEL = 22       /* channel outside 1 to 640, or no channel's transmit value */
};

/* The tables of the screen, and how their rows are counted. A background group has no row, in OTAP_GROUPS and OTAP_GROUP_CONTACTS: see otap_row_number. */
enum {
    OTAP_LINES = 1,               /* line contacts by position, from 0; the first absent row ends the list */
    OTAP_QUICK_TEXTS = 2,         /* quick texts by index */
    OTAP_STATUS_TEXTS = 3,        /* status texts by code */
    OTAP_GROUPS = 4,              /* group slots by index */
    OTAP_INDIVIDUALS = 5,         /* individual slots by index */
    OTAP_GROUP_CONTACTS = 6,      /* group contacts by position, from 0; an absent row may be a background group's, and does not end the list */
    OTAP_INDIVIDUAL_CONTACTS = 7, /* individual contacts by position, from 0; the first absent row ends the list */
    OTAP_LINE_SLOTS = 8,          /* line slots by index */
    OTAP_TABLES = 8               /* as many: 1 to OTAP_TABLES */
};

enum {
    OTAP_LINE_ROWS = 32,       /* positions 0 to 31 */
    OTAP_QUICK_ROWS = 64,      /* indexes 0 to 63 */
    OTAP_STATUS_FIRST = 32,    /* codes 32 to 127 */
    OTAP_STATUS_LAST = 127,
    OTAP_SLOT_ROWS = 16,       /* group, individual and line slots 0 to 15 */
    OTAP_CONTACT_ROWS = 64     /* positions 0 to 63 of group contacts, and of individual contacts */
};

/* The IDtypes of a line. */
enum {
    OTAP_PSTN = 0,             /* the telephone network */
    OTAP_PABX = 1              /* a private exchange */
};

/* The attributes of a group. */
enum {
    OTAP_BACKGROUND = 1,       /* the radio listens to it, and the screen has no row for it */
    OTAP_RESPONSE = 2,
    OTAP_MEMBER = 3
};

/* Room for as many scan channels, which no row shows; in each list of contacts, for as many as it has rows: OTAP_LINE_ROWS, OTAP_CONTACT_ROWS. */
enum { OTAP_CHANNEL_PLACES = 64 };

/* The parts of an export. */
enum {
    OTAP_EXPORT_LINES = 1,
    OTAP_EXPORT_FIXED = 2,     /* emergency key, home numbers, system code */
    OTAP_EXPORT_QUICK_TEXTS = 3,
    OTAP_EXPORT_CHANNELS = 4,
    OTAP_EXPORT_STATUS_TEXTS = 5,
    OTAP_EXPORT_GROUPS = 6,
    OTAP_EXPORT_INDIVIDUALS = 7,
    OTAP_EXPORT_GROUP_CONTACTS = 8,
    OTAP_EXPORT_INDIVIDUAL_CONTACTS = 9,
    OTAP_EXPORT_LINE_SLOTS = 10,
    OTAP_EXPORT_PARTS = 10     /* as many: 1 to OTAP_EXPORT_PARTS */
};

/* The types that a query asks for, each for a table or a value; every other byte is unknown to it. A query has 1 to OTAP_QUERY_MOST_TYPES of them. */
enum {
    OTAP_ASK_GROUP_CONTACTS = 0xC8,
    OTAP_ASK_INDIVIDUAL_CONTACTS = 0xC9,
    OTAP_ASK_LINES = 0xCA,
    OTAP_ASK_EMERGENCY_KEY = 0xCB,
    OTAP_ASK_QUICK_TEXTS = 0xCC,
    OTAP_ASK_HOME_NUMBERS = 0xCD,
    OTAP_ASK_CHANNELS = 0xCE,
    OTAP_ASK_SYSTEM_CODE = 0xCF,
    OTAP_ASK_STATUS_TEXTS = 0xD0,
    OTAP_ASK_HASH = 0xFF,
    OTAP_QUERY_MOST_TYPES = 255
};

/*
 * Makes a fresh store of any OTAP_STORE_BYTES bytes: empty tables, no hash kept.
 *   0   every byte of the store is written
 *   11  store_length is not OTAP_STORE_BYTES; no byte is touched
 */
uint32_t otap_start(uint8_t *store, uint64_t store_length);

/*
 * Judges one message, a request or a result query: the answer that otap_commit would give with the same three buffers, number, failed ID, send, reboot
 * and reply length, and the same reply in the reply buffer. So the reply to a good request carries the request's own hash already. No byte of the store
 * changes. The numbers, and the order in which they are looked for, are those of otap_commit:
 *   0         a request would be taken, or a result query matches: the reply is written
 *   1 to 5    it would be refused, or the query does not match: the reply is written
 *   10 to 14  no byte of any buffer is touched; failed ID 0, no send, no reboot, reply length 0
 * The reply is not to be sent for a message that is still to be committed: with result 0 it says that the set has the settings. Keep the message, and send
 * what otap_commit writes. See "Judging" above.
 * Unpack with otap_answer_number, otap_answer_failed, otap_answer_send, otap_answer_reboot, otap_answer_length.
 */
uint64_t otap_judge(const uint8_t *message, uint64_t message_length,
                    const uint8_t *store, uint64_t store_length,
                    uint8_t *reply, uint64_t reply_length);

/*
 * Commits one message, a request or a result query: takes it whole or not at all. It judges the message itself, whether that was judged before or not.
 *   0         a request was taken: the store has all its settings, and the reply is written;
 *             or a result query matches: the store stays, and the reply is written
 *   1 to 5    refused, or the query does not match: the store stays, and the reply is written
 *   10 to 14  no byte of any buffer is touched; failed ID 0, no send, no reboot, reply length 0
 * The first that applies is the answer: 10, 11, 12, 13, 14, 1; then, of a request, its count or coding (4), setting by setting its type (3), its
 * fields (4), room for it (2), and last bytes left over (4); of a query, its form (4) or 5. The message is only read.
 * Texts of a request are eight-bit characters if its coding type is 0100, each the unit of the same value, and 16-bit Unicode if it is 0111; another
 * coding type is 4, failed ID 0. The store keeps 16-bit units of both: the same names leave the same store. A query's coding type may be any.
 * A line contact is known by its IDtype, PSTN or PABX, together with its digits as they are written: PSTN 2345 and PABX 2345 are two lines, and so are
 * PABX 1 and PABX 01. An add overwrites, and a delete takes away, the line that has both, and no other. A replace empties the list of lines of both
 * IDtypes, whichever it has itself; the OTAP_LINE_ROWS places are for both.
 * A group contact, and an individual contact, is known by its address. An add puts a new address at the list's end and overwrites a known one in its
 * place, flags and text; a delete closes the gap; a replace empties the list first. There are OTAP_CONTACT_ROWS places for each of the two lists: one
 * more address is 2. Slots go by their index and are never full. The same address may stand among the contacts and in slots, of groups and of
 * individuals; the same number among the line contacts and in line slots. A setting changes its own table and no other.
 * All texts share OTAP_TEXT_BYTES bytes, two a unit: those of the eight tables of the screen, background groups' too. A setting has no room, 2, also where the
 * texts that are held after it are more. That is judged after each whole setting, by what is then held alone: not after an entry of it, and not at the
 * message's end. So text that an earlier setting of the message deletes or makes shorter gives room, and a later one comes too late.
 * A reply has 10, 14 or 20 bytes; bytes of the reply buffer past them stay. It is written for 0 to 5 also where send is no.
 * Unpack with otap_answer_number, otap_answer_failed, otap_answer_send, otap_answer_reboot, otap_answer_length.
 */
uint64_t otap_commit(const uint8_t *message, uint64_t message_length,
                     uint8_t *store, uint64_t store_length,
                     uint8_t *reply, uint64_t reply_length);

/*
 * Writes a part of the store as a request at the buffer's start. The ten parts, committed to a fresh set, give it the same tables, background groups too. A
 * set that holds other texts may refuse one of them with 2, since those of a table whose part is still to come take the room: start it first. Its coding
 * type is 0111, whatever the texts came in.
 *   0   the request is written; bytes of the buffer past its length stay
 *   15  buffer_length is under OTAP_EXPORT_BYTES; no byte is touched, length 0
 *   11  not a store; no byte is touched, length 0
 *   16  part is not 1 to 10; no byte is touched, length 0
 * The first that applies, in this order: 15, 11, 16. The store is only read.
 * Unpack with otap_answer_number, otap_export_length.
 */
uint64_t otap_export(uint32_t part,
                     const uint8_t *store, uint64_t store_length,
                     uint8_t *buffer, uint64_t buffer_length);

/*
 * Answers a query of the office: writes one message of the report to it at the buffer's start, docs/REPORTS.md. Ask with index 1, then with each up to the
 * total, 231 at most. It is one report while the store stays: where a message is committed in between, ask again from index 1.
 *   0   the message is written; bytes of the buffer past its length stay
 *   15  buffer_length is under OTAP_REPORT_BYTES
 *   11  not a store
 *   12  OTAP_MESSAGE_LENGTH, of the query; 13 its carrier is wrong; 14 it is no query (MsgType 2); 1 its OTAPVer is not 1
 *   4   no types, or their count does not match the query's bytes
 *   16  OTAP_NO_MESSAGE: index is 0, or more than the total
 * The first that applies, in this order: 15, 11, 12, 13, 14, 1, 4, 16; a refusal has total 0 and length 0, and touches no byte, 1 too: there is no reply
 * to be sent. Query and store are only read; otap_judge and otap_commit refuse a query with 14.
 * The report has an entry for each that the tables asked for hold, background groups too, in the order of the types asked; a type asked twice is answered
 * twice. The slots cannot be asked for. The first type that is none of OTAP_ASK_GROUP_CONTACTS and its like is answered as unknown, and ends the report.
 * In the answer, bits 0 to 7 are the number, 8 to 15 the total of messages, 16 to 31 the length; all others are 0.
 * Unpack with otap_answer_number, otap_report_total, otap_report_length. The office reads it with otap_office.h.
 */
uint64_t otap_report(const uint8_t *query, uint64_t query_length, uint32_t index,
                     const uint8_t *store, uint64_t store_length,
                     uint8_t *buffer, uint64_t buffer_length);

/*
 * How many line contacts and how many scan channels the store holds. Touches no byte.
 *   0   both counts
 *   11  not a store; both counts are 0
 * Ask the number first: a refusal's 0 and 0 look like an empty set. It is 0 exactly where the bytes are a store: that is how power-on knows whether to
 * keep them or to start. The store keeps both counts, so no entry is counted here; but the whole store is judged, as in every call. Group and individual
 * contacts have counts in the store too, which are judged and not answered. What is free are places: a free place promises no room for its text, which it
 * shares with all others; a line without a text, and a channel, need none.
 * In the answer, bits 0 to 7 are the number, 16 to 31 the lines, 32 to 47 the channels; all others are 0.
 * Unpack with otap_answer_number, otap_counts_lines, otap_counts_channels; what is free, with otap_counts_free_lines, otap_counts_free_channels.
 */
uint64_t otap_counts(const uint8_t *store, uint64_t store_length);

/*
 * Who is calling: the row of the line contact that has this IDtype and these digits. Touches no byte.
 *   0   a row has that number: otap_line_found is 1, and otap_line_row the row, of OTAP_LINES;
 *       or no row has it: otap_line_found is 0
 *   11  not a store; no row
 *   20  OTAP_BAD_NUMBER: no digits, more than OTAP_DIGITS, or a digit above 9; no row
 * The first that applies, in this order: 11, 20. That no row has the number is no refusal, and row 0 is a row: ask otap_line_found.
 * id_type is OTAP_PSTN or OTAP_PABX; any other is one that no line has. Digits are one a byte, 0 to 9 and not their characters. They are compared as they
 * are: 1 and 01 differ, and a number that only begins like a line's is not that line's. Line slots are not looked up.
 * The row is the line's position: otap_row_part shows its name there, or its digits where it has none. After any messages that is the name last sent with
 * this IDtype and these digits. Ask for the part under the same hold of the lock: a message that is committed in between can move the rows.
 * In the answer, bits 0 to 7 are the number, bit 8 whether a row has it, 16 to 31 the row; all others are 0.
 * Unpack with otap_answer_number, otap_line_found, otap_line_row.
 */
uint64_t otap_line_of(uint32_t id_type,
                      const uint8_t *digits, uint64_t digits_length,
                      const uint8_t *store, uint64_t store_length);

/*
 * Whether a row can be shown. Touches no byte.
 *   0   yes: otap_row_part with the same lengths gives its part
 *   15  scratch_length is under OTAP_SCRATCH_BYTES
 *   11  not a store
 *   17  no such table, no such row, nothing in it, or a background group in it
 * The first that applies, in this order: 15, 11, 17.
 * A background group (attribute 01) is held and exported, but has no row; a response or member group (10, 11) has one. It keeps its position, and the
 * rows behind it do not move up: so ask for all OTAP_CONTACT_ROWS positions of the group contacts, and pass over those that are 17.
 */
uint32_t otap_row_number(uint32_t table, uint32_t row,
                         const uint8_t *store, uint64_t store_length,
                         const uint8_t *scratch, uint64_t scratch_length);

/*
 * The part of the store or of the scratch that shows a row: 16-bit units, high byte first, without an end unit, also of texts that came in eight bits.
 * A row with a text shows the whole of it and nothing else, the text's own part of the store; no byte is touched. A line, group or
 * individual without one, a contact or in a slot, shows its number: it is written at the scratch's start (line digits, eight dialled digits, or six
 * upper-case hex digits), and the scratch's other bytes stay. An empty status text is an empty part of the store. A row does not say a line's IDtype:
 * two lines with one number and no text look alike.
 * The answer is 0, and no byte is touched, exactly where otap_row_number would not answer 0. So one call is enough for a row: an answer that is not 0 is
 * a row that is shown, also where its part is empty, and a program that gets 0 may ask otap_row_number why. The store is only read.
 * The part is good until the store or the scratch is next written: see "Screens" above.
 * Unpack with otap_part_in_scratch, otap_part_offset, otap_part_length, or with otap_part_bytes.
 */
uint64_t otap_row_part(uint32_t table, uint32_t row,
                       const uint8_t *store, uint64_t store_length,
                       uint8_t *scratch, uint64_t scratch_length);

/*
 * What stands behind a row, for a call to it: the address and the flags of a group or an individual, the flags of a line. Touches no byte.
 *   0   they are in the answer
 *   11  not a store
 *   17  OTAP_NOTHING_THERE: an empty place, an index or a position that the table does not have, or another table: a text has nothing behind it
 * The first that applies, in this order: 11, 17; a refusal has all other bits 0. The table says which kind it is: a group's in OTAP_GROUPS and
 * OTAP_GROUP_CONTACTS, an individual's in OTAP_INDIVIDUALS and OTAP_INDIVIDUAL_CONTACTS, a line's in OTAP_LINES and OTAP_LINE_SLOTS. A group and an
 * individual may have the same address, so keep the table with it. A row is named as for otap_row_part. A background group, which has no row there, is
 * answered like any other, for the radio listens to it; and every row of these six tables that is shown has something behind it.
 * After any messages, the name that otap_row_part shows and what this answers were sent together, in one entry of one setting. Ask for both under one
 * hold of the lock, and keep both: see "Calling" above.
 * In the answer, bits 0 to 7 are the number, 8 to 31 the address, 0 of a line, 32 IDtype, 33 encryption, 34 emergency, 35 to 36 priority, 37 to 38
 * attribute, 39 broadcast, 40 OVCM; all others are 0, and so is what the kind has not: IDtype is a line's, the last three are a group's.
 * Unpack with otap_answer_number, otap_entry_address, otap_entry_id_type, otap_entry_encryption, otap_entry_emergency, otap_entry_priority,
 * otap_entry_attribute, otap_entry_broadcast, otap_entry_ovcm.
 */
uint64_t otap_entry(uint32_t table, uint32_t index,
                    const uint8_t *store, uint64_t store_length);

/*
 * The digits of a line contact or of a line slot, to be dialled: one a byte, 0 to 9, at the start of the buffer; its bytes past them stay.
 *   0   they are written; otap_digits_count is how many, 1 to OTAP_DIGITS
 *   15  digits_length is under OTAP_DIGITS
 *   11  not a store
 *   17  OTAP_NOTHING_THERE: no line there, or a table other than OTAP_LINES and OTAP_LINE_SLOTS
 * The first that applies, in this order: 15, 11, 17; a refusal has all other bits 0, and touches no byte. The store is only read.
 * In the answer, bits 0 to 7 are the number, 8 to 15 how many; all others are 0. Unpack with otap_answer_number, otap_digits_count.
 */
uint64_t otap_entry_digits(uint32_t table, uint32_t index,
                           const uint8_t *store, uint64_t store_length,
                           uint8_t *digits, uint64_t digits_length);

/*
 * The scan channel at a position, from 0: they stand in the order in which they were added, repeats too, and otap_counts says how many. Touches no byte.
 *   0   the channel, 241 to 640, which otap_transmit and otap_receive take
 *   11  not a store
 *   17  OTAP_NOTHING_THERE: no channel at this position, nor at any behind it
 * The first that applies, in this order: 11, 17. In the answer, bits 0 to 7 are the number, 8 to 19 the channel; all others are 0.
 * Unpack with otap_answer_number, otap_channel_value.
 */
uint64_t otap_channel(uint32_t position, const uint8_t *store, uint64_t store_length);

/*
 * What the emergency key calls, and how. Touches no byte.
 *   0   the key, which is always there: a fresh store's calls the current place, with its flags 0
 *   11  not a store; all other bits are 0
 * With current it has no address, and its group bit is kept. Otherwise the address is a group's if otap_key_group is 1, else an individual's.
 * In the answer, bits 0 to 7 are the number, 8 to 31 the address, 0 with current, 32 current, 33 group, 34 voice, 35 status, 36 siren; all others are 0.
 * Unpack with otap_answer_number, otap_key_current, otap_key_address, otap_key_group, otap_key_voice, otap_key_status, otap_key_siren.
 */
uint64_t otap_emergency_key(const uint8_t *store, uint64_t store_length);

/*
 * The numbers that the set works by. Each touches no byte, and answers 0, or 11 with all other bits 0: not a store. A fresh store's are 0, so ask the
 * number first.
 * Home numbers: bits 0 to 7 the number, 8 to 16 NZI, 17 to 26 NP. Unpack with otap_answer_number, otap_home_nzi, otap_home_np.
 * System code: bits 0 to 7 the number, 8 to 19 LAI, 20 to 23 LA, 24 to 25 roaming, 26 PAR. Unpack with otap_answer_number, otap_system_lai, otap_system_la,
 * otap_system_roaming, otap_system_par. All other bits are 0.
 */
uint64_t otap_home_numbers(const uint8_t *store, uint64_t store_length);
uint64_t otap_system_code(const uint8_t *store, uint64_t store_length);

/*
 * Conversions of GA/T 1056-2013. Frequencies are in units of 100 Hz; a dialled number has eight digits.
 * Unpack with otap_answer_number, otap_value; the value of a refusal is 0.
 */
uint64_t otap_individual_of_dialled(uint32_t dialled); /* 0: its address; 20 */
uint64_t otap_group_of_dialled(uint32_t dialled);      /* 0: its address; 20 */
uint64_t otap_dialled_of_individual(uint32_t address); /* 0: its dialled number; 21 */
uint64_t otap_dialled_of_group(uint32_t address);      /* 0: its dialled number; 21 */
uint64_t otap_transmit(uint32_t channel);              /* 0: the frequency to send on; 22 */
uint64_t otap_receive(uint32_t channel);               /* 0: the frequency to listen on; 22 */
uint64_t otap_channel_of_transmit(uint32_t frequency); /* 0: the channel that sends on it; 22 */

#ifdef __cplusplus
}
#endif

#include "otap_unpack.h"

#endif
