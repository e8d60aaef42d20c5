/*
 * otap_office.h: the C functions of libotap_office.a, for the software of the network office: it reads the reports of PDT sets, whose bytes are in
 * docs/REPORTS.md, joins requests that wait to be sent, and checks and proposes short updates. Firmware needs none of it: a set writes its reports with
 * otap_report of libotap_handheld.a, a vehicle set with otap_vehicle_report of libotap_vehicle.a. A report is read, requests are joined, and updates are checked
 * and proposed, by the call of the set that it is from or they are to.
 *
 * otap.h is included for the numbers, the types asked, IDtypes and attributes; the functions that it declares are not in this archive. What it says of
 * pointers, lengths, overlap and memcpy holds here too. No call allocates or waits, only joining and proposing write a byte, of their buffer, and anything may
 * be lent as a message, a store or a buffer. Checking and proposing have working copies on the stack: see OTAP_CHECK_STACK.
 *
 * A report has one or more messages, and each is read by itself:
 *
 *     uint64_t read = otap_read_report(message, length), places;
 *     size_t at = OTAP_REPORT_FIRST;
 *     if (otap_answer_number(read) == OTAP_OK) {
 *         for (uint32_t left = otap_read_parameters(read); left > 0; left--, at = otap_places_next(places)) {
 *             uint64_t entry = otap_report_entry(message, length, (uint32_t)at);
 *             places = otap_report_places(message, length, (uint32_t)at);
 *             .. what otap_reported_type(entry) says it is
 *         }
 *     }
 *
 * All messages of a set's report, from index 1 to the total, have exactly the entries of the tables that the query asked for, up to the first type that
 * is unknown to the set.
 */
#ifndef OTAP_OFFICE_H
#define OTAP_OFFICE_H

#include "otap.h"

#ifdef __cplusplus
extern "C" {
#endif

/* The first parameter of a message stands at this byte. */
enum { OTAP_REPORT_FIRST = 10 };

/* The HashCodes. */
enum {
    OTAP_NO_HASH = 0,          /* no hash is kept */
    OTAP_HASH_OF_4 = 1,        /* its value has 4 bytes */
    OTAP_HASH_OF_10 = 2        /* 10 bytes */
};

/* A buffer for a joined request has at least as many bytes: any that the set takes fits. */
enum {
    OTAP_JOIN_BYTES = 4096,
    OTAP_VEHICLE_JOIN_BYTES = 8192
};

/* A buffer for a proposed request has at least as many. */
enum {
    OTAP_PROPOSAL_BYTES = 4096,
    OTAP_VEHICLE_PROPOSAL_BYTES = 8192
};

/* Stack in bytes, as in otap.h: a ceiling, which tests/office_stack.c holds each call to, and the most that it measured, on x86-64. */
enum {
    OTAP_CHECK_STACK = 54272,           /* measured 52,216: 49,152 of them are two working copies of the store */
    OTAP_PROPOSE_STACK = 36864,         /* 35,128, with a working copy and two requests */
    OTAP_VEHICLE_CHECK_STACK = 103424,  /* 101,368: 98,304 of them are two working copies */
    OTAP_VEHICLE_PROPOSE_STACK = 20480, /* 18,766, with two requests */
    OTAP_OFFICE_STACK = 2048            /* 808: every other call of this archive */
};

/*
 * Reads one message of a report, without the query that it answers.
 *   0   it is one: its total, its index, and how many parameters it has, each of which is in range
 *   12  OTAP_MESSAGE_LENGTH: under 7 or over OTAP_MESSAGE_BYTES bytes
 *   13  OTAP_BAD_CARRIER
 *   14  OTAP_OTHER_MESSAGE: MsgType is not report (3)
 *   1   OTAP_BAD_VERSION
 *   4   OTAP_BAD_FIELD: any other fault, docs/REPORTS.md
 * The first that applies, in this order: 12, 13, 14, 1, 4; a refusal has all other bits 0. Only a report of one message can have no parameters.
 * In the answer, bits 0 to 7 are the number, 8 to 15 the total, 16 to 23 the index, 24 to 31 how many parameters; all others are 0.
 * Unpack with otap_answer_number, otap_read_total, otap_read_index, otap_read_parameters.
 */
uint64_t otap_read_report(const uint8_t *message, uint64_t message_length);

/* As otap_read_report, of a vehicle's: 12 is under 7 or over 8,192 bytes. What was read is walked by the same two calls below, whichever set it came from. */
uint64_t otap_vehicle_read_report(const uint8_t *message, uint64_t message_length);

/*
 * The parameter that starts at this byte, by the bytes from there on alone; 0 in all bits where none in range does. So read the message first.
 * In the answer, bits 0 to 7 are the type asked, 8 to 15 flags, 16 to 27 index or code, 28 is set where the set does not know the type, 32 to 55 are the
 * value; all others are 0. Which flags and which value there are goes by the type. There is no number in it.
 * Unpack with otap_reported_type, and of the type that it is:
 *   OTAP_ASK_GROUP_CONTACTS       otap_reported_index, _address, _encryption, _emergency, _priority, _attribute, _broadcast, _ovcm
 *   OTAP_ASK_INDIVIDUAL_CONTACTS  otap_reported_index, _address, _encryption, _emergency, _priority
 *   OTAP_ASK_LINES                otap_reported_index, _id_type, _encryption, _emergency, _priority
 *   OTAP_ASK_EMERGENCY_KEY        otap_reported_current, _group, _address, _voice, _status, _siren
 *   OTAP_ASK_QUICK_TEXTS          otap_reported_index
 *   OTAP_ASK_HOME_NUMBERS         otap_reported_nzi, _np
 *   OTAP_ASK_CHANNELS             otap_reported_index, _channel
 *   OTAP_ASK_SYSTEM_CODE          otap_reported_lai, _la, _roaming, _par
 *   OTAP_ASK_STATUS_TEXTS         otap_reported_code
 *   OTAP_ASK_HASH                 nothing: see otap_places_hash_code
 *   any other                     otap_reported_unknown is 1, and it is the last of the report
 * Each of them is 0 of every other type.
 */
uint64_t otap_report_entry(const uint8_t *message, uint64_t message_length, uint32_t at);

/*
 * Where the parts of the parameter stand that starts at this byte, as bytes of the message; 0 in all bits where otap_report_entry is 0, and where the byte
 * behind it is over 65,535, as in no message that was read.
 * In the answer, bits 0 to 15 are the byte behind it, 16 to 31 the first byte of its text, 32 to 39 how many bytes the text has without its end, 40 to 55
 * the first byte of its number or hash value, 56 to 63 how many digits the number has, or the HashCode; 0 of what the type has not.
 * A text is 16-bit units, high byte first. An empty one has its place, and 0 bytes.
 * Unpack with otap_places_next; of a contact, a line, a quick text or a status text otap_places_text, otap_places_text_length; of a line
 * otap_places_digits, otap_places_digit; of OTAP_ASK_HASH otap_places_hash_code, otap_places_hash, otap_places_hash_length.
 */
uint64_t otap_report_places(const uint8_t *message, uint64_t message_length, uint32_t at);

/*
 * Joins two requests that wait for the same set under one header, which saves air time: the first's settings and then the second's, byte for byte.
 *   0   the joined request is written at the buffer's start, with its true length and reserved bits of its header 0; bytes of the buffer past it stay
 *   15  OTAP_SHORT_BUFFER: buffer_length is under OTAP_JOIN_BYTES
 *   12  OTAP_MESSAGE_LENGTH: a request is under 7 or over OTAP_MESSAGE_BYTES bytes; or, last of all, the joined one would be over that
 *   13  OTAP_BAD_CARRIER
 *   14  OTAP_OTHER_MESSAGE: MsgType is not request (0), so a result query too
 *   1   OTAP_BAD_VERSION
 *   3   OTAP_UNKNOWN_TYPE, with the failed ID of the setting
 *   4   OTAP_BAD_FIELD: with failed ID 0 its count is 0, its coding type is neither 0100 nor 0111, or bytes are left over; else that setting is at fault, or
 *       is an FF item; or, with failed ID 0, the two have two coding types, or over 255 settings together
 * The first that applies: 15; then of the first request 12, 13, 14, 1, its count or coding, setting by setting 3 or 4 as otap_commit has them where all have
 * room, bytes left over, an FF item; then the same of the second; then two coding types, over 255 settings, over the length. A refusal writes nothing and has
 * length 0. Its failed ID is counted in the request that is at fault: the second where otap_join_second_at_fault is 1, else the first, or neither by itself.
 * A request with an FF item asks for a restart, for a reply or to keep a hash: it is sent alone. Room in the set's tables is not asked for here.
 * What the set makes of the joined request: where it would take the first and then the second, it takes the joined one, and its store is the same. Where
 * the first lacks room, or the second does behind the first, it refuses the joined one whole, with OTAP_NO_ROOM and the failed ID counted through: IDs above
 * the first's count of settings are the second's. There is no other case. So the first is not taken either where only the second lacks room: dispatch that
 * wants the first alone sends it alone.
 * In the answer, bits 0 to 7 are the number, 8 to 15 the failed ID, 16 to 31 the length, 32 is set where the second request is at fault; all others are 0.
 * Unpack with otap_answer_number, otap_answer_failed, otap_join_length, otap_join_second_at_fault.
 */
uint64_t otap_join(const uint8_t *first, uint64_t first_length,
                   const uint8_t *second, uint64_t second_length,
                   uint8_t *buffer, uint64_t buffer_length);

/* As otap_join, of requests to a vehicle: 15 goes by OTAP_VEHICLE_JOIN_BYTES, and 12 is under 7 or over 8,192 bytes. */
uint64_t otap_vehicle_join(const uint8_t *first, uint64_t first_length,
                           const uint8_t *second, uint64_t second_length,
                           uint8_t *buffer, uint64_t buffer_length);

/*
 * Checks a short update: whether a request takes a set from what it holds, the first store, to what it should hold, the second. Both are of one kind of set.
 *   0   otap_check_yes is 1 exactly where the first store would take the request, as otap_commit does with a reply buffer of OTAP_REPLY_BYTES bytes, and would
 *       then have the second's tables, the kept hash aside
 *   11  OTAP_NO_STORE: the first is not OTAP_STORE_BYTES bytes or not a store; then the same of the second; whatever the message
 * All else is a no and no refusal: a request that would be refused, with whatever number, a message that is malformed or too long, and every result query, also
 * one that matches, however equal the tables. Aside is every hash: what either store keeps, and what an FF item of the request would have the first keep. A
 * request that changes no table is an update between equal ones. No byte is touched.
 * A yes is of the first store as it is lent: where the set may have taken another message since, it promises nothing.
 * In the answer, bits 0 to 7 are the number, bit 8 is set where the check says yes; all others are 0. Unpack with otap_answer_number, otap_check_yes.
 */
uint64_t otap_check_update(const uint8_t *first, uint64_t first_length,
                           const uint8_t *second, uint64_t second_length,
                           const uint8_t *request, uint64_t request_length);

/* As otap_check_update, of a vehicle's stores and a request to it: 11 goes by 49,152 bytes. */
uint64_t otap_vehicle_check_update(const uint8_t *first, uint64_t first_length,
                                   const uint8_t *second, uint64_t second_length,
                                   const uint8_t *request, uint64_t request_length);

/*
 * Proposes an update where the tables of one export part differ and those of the nine others are equal: the second's part, as otap_export writes it.
 *   0   the request is written at the buffer's start; bytes of the buffer past it stay
 *   11  OTAP_NO_STORE: the first is not OTAP_STORE_BYTES bytes or not a store; then the same of the second
 *   15  OTAP_SHORT_BUFFER: buffer_length is under OTAP_PROPOSAL_BYTES
 *   19  OTAP_NO_SINGLE_PART: the tables of no export part differ, or those of several
 * The first that applies, in this order: 11 of the first store, 11 of the second, 15, 19. A refusal touches no byte and has length 0. The stores are only read,
 * and the kept hashes are not compared. The emergency key, the home numbers and the system code are one part, OTAP_EXPORT_FIXED: any of them may differ.
 * otap_check_update says yes to a proposal wherever the first store takes it. A hand-held takes those of all parts but OTAP_EXPORT_GROUPS,
 * OTAP_EXPORT_INDIVIDUALS and OTAP_EXPORT_LINE_SLOTS, which it may refuse with OTAP_NO_ROOM: they go slot by slot, and a text may grow before another shrinks.
 * So check it before it is sent; where that says no, send the slots in another order.
 * In the answer, bits 0 to 7 are the number, 16 to 31 the length; all others are 0. Unpack with otap_answer_number, otap_proposal_length.
 */
uint64_t otap_propose(const uint8_t *first, uint64_t first_length,
                      const uint8_t *second, uint64_t second_length,
                      uint8_t *buffer, uint64_t buffer_length);

/* As otap_propose, of a vehicle's stores: 11 goes by 49,152 bytes, and 15 by OTAP_VEHICLE_PROPOSAL_BYTES. A vehicle takes every proposal. */
uint64_t otap_vehicle_propose(const uint8_t *first, uint64_t first_length,
                              const uint8_t *second, uint64_t second_length,
                              uint8_t *buffer, uint64_t buffer_length);

/* Of an answer of otap_check_update: 1 if the check says yes; 0 if it says no, and of a refusal. */
static inline int otap_check_yes(uint64_t answer)
{
    return (int)((answer >> 8) & 1u);
}

/* Of an answer of otap_propose: how many bytes of the buffer are the request; 0 of a refusal. */
static inline size_t otap_proposal_length(uint64_t answer)
{
    return (size_t)((answer >> 16) & 0xFFFFu);
}

/* Of an answer of otap_join: how many bytes of the buffer are the joined request; 0 of a refusal. */
static inline size_t otap_join_length(uint64_t answer)
{
    return (size_t)((answer >> 16) & 0xFFFFu);
}

/* 1 if the second request is at fault; 0 if the first is, or neither by itself, or if they were joined. */
static inline int otap_join_second_at_fault(uint64_t answer)
{
    return (int)((answer >> 32) & 1u);
}

/* Of an answer of otap_read_report: how many messages the report has; 0 of a refusal. */
static inline uint32_t otap_read_total(uint64_t answer)
{
    return (uint32_t)((answer >> 8) & 0xFFu);
}

/* Which of them this message is, 1 to the total; 0 of a refusal. */
static inline uint32_t otap_read_index(uint64_t answer)
{
    return (uint32_t)((answer >> 16) & 0xFFu);
}

/* How many parameters the message has; 0 also of a refusal, so ask the number first. */
static inline uint32_t otap_read_parameters(uint64_t answer)
{
    return (uint32_t)((answer >> 24) & 0xFFu);
}

/* Of an answer of otap_report_entry: the type that was asked for. */
static inline uint32_t otap_reported_type(uint64_t entry)
{
    return (uint32_t)(entry & 0xFFu);
}

/* 1 if the set does not know the type, else 0. */
static inline int otap_reported_unknown(uint64_t entry)
{
    return (int)((entry >> 28) & 1u);
}

/* For the functions below: the flags of an entry of this type, and 0 of every other. */
static inline uint32_t otap_reported_flags(uint64_t entry, uint32_t type)
{
    return otap_reported_type(entry) == type ? (uint32_t)((entry >> 8) & 0xFFu) : 0;
}

/* For the functions below: the value of an entry of this type, and 0 of every other. */
static inline uint32_t otap_reported_value(uint64_t entry, uint32_t type)
{
    return otap_reported_type(entry) == type ? (uint32_t)((entry >> 32) & 0xFFFFFFu) : 0;
}

/* The index of a quick text; of a channel its position, and of a contact or a line its position mod 16; 0 of others. */
static inline uint32_t otap_reported_index(uint64_t entry)
{
    return otap_reported_type(entry) == OTAP_ASK_STATUS_TEXTS ? 0 : (uint32_t)((entry >> 16) & 0xFFFu);
}

/* The code of a status text, OTAP_STATUS_FIRST to OTAP_STATUS_LAST; 0 of others. */
static inline uint32_t otap_reported_code(uint64_t entry)
{
    return otap_reported_type(entry) == OTAP_ASK_STATUS_TEXTS ? (uint32_t)((entry >> 16) & 0xFFFu) : 0;
}

/* The address of a contact, or the one that the emergency key calls, 0 with the current place; 0 of others. */
static inline uint32_t otap_reported_address(uint64_t entry)
{
    return otap_reported_value(entry, OTAP_ASK_GROUP_CONTACTS) | otap_reported_value(entry, OTAP_ASK_INDIVIDUAL_CONTACTS)
         | otap_reported_value(entry, OTAP_ASK_EMERGENCY_KEY);
}

/* OTAP_PSTN or OTAP_PABX of a line; 0 of others. */
static inline uint32_t otap_reported_id_type(uint64_t entry)
{
    return otap_reported_flags(entry, OTAP_ASK_LINES) >> 4 & 1u;
}

/* The encryption flag of a contact or a line; 0 of others. */
static inline int otap_reported_encryption(uint64_t entry)
{
    uint32_t flags = otap_reported_flags(entry, OTAP_ASK_INDIVIDUAL_CONTACTS) | otap_reported_flags(entry, OTAP_ASK_LINES);
    return (int)((otap_reported_flags(entry, OTAP_ASK_GROUP_CONTACTS) >> 4 | flags >> 3) & 1u);
}

/* For the two functions below: flags that a contact and a line have in the same bits. */
static inline uint32_t otap_reported_call_flags(uint64_t entry)
{
    return otap_reported_flags(entry, OTAP_ASK_GROUP_CONTACTS) | otap_reported_flags(entry, OTAP_ASK_INDIVIDUAL_CONTACTS)
         | otap_reported_flags(entry, OTAP_ASK_LINES);
}

/* The emergency flag of a contact or a line; 0 of others. */
static inline int otap_reported_emergency(uint64_t entry)
{
    return (int)(otap_reported_call_flags(entry) >> 2 & 1u);
}

/* The priority of a contact or a line, 0 to 3; 0 of others. */
static inline uint32_t otap_reported_priority(uint64_t entry)
{
    return otap_reported_call_flags(entry) & 3u;
}

/* OTAP_BACKGROUND, OTAP_RESPONSE or OTAP_MEMBER of a group contact; 0 of others. */
static inline uint32_t otap_reported_attribute(uint64_t entry)
{
    return otap_reported_flags(entry, OTAP_ASK_GROUP_CONTACTS) >> 6;
}

/* The broadcast flag of a group contact; 0 of others. */
static inline int otap_reported_broadcast(uint64_t entry)
{
    return (int)(otap_reported_flags(entry, OTAP_ASK_GROUP_CONTACTS) >> 5 & 1u);
}

/* The OVCM flag of a group contact; 0 of others. */
static inline int otap_reported_ovcm(uint64_t entry)
{
    return (int)(otap_reported_flags(entry, OTAP_ASK_GROUP_CONTACTS) >> 3 & 1u);
}

/* 1 if the emergency key calls the current place, and has no address; 0 of others. */
static inline int otap_reported_current(uint64_t entry)
{
    return (int)(otap_reported_flags(entry, OTAP_ASK_EMERGENCY_KEY) >> 4 & 1u);
}

/* 1 if it is a group that the key calls, else an individual; with the current place it is kept all the same. */
static inline int otap_reported_group(uint64_t entry)
{
    return (int)(otap_reported_flags(entry, OTAP_ASK_EMERGENCY_KEY) >> 3 & 1u);
}

/* The key's voice flag. */
static inline int otap_reported_voice(uint64_t entry)
{
    return (int)(otap_reported_flags(entry, OTAP_ASK_EMERGENCY_KEY) >> 2 & 1u);
}

/* The key's status flag. */
static inline int otap_reported_status(uint64_t entry)
{
    return (int)(otap_reported_flags(entry, OTAP_ASK_EMERGENCY_KEY) >> 1 & 1u);
}

/* The key's siren flag. */
static inline int otap_reported_siren(uint64_t entry)
{
    return (int)(otap_reported_flags(entry, OTAP_ASK_EMERGENCY_KEY) & 1u);
}

/* Of the home numbers: NZI, 0 to 511. */
static inline uint32_t otap_reported_nzi(uint64_t entry)
{
    return otap_reported_value(entry, OTAP_ASK_HOME_NUMBERS) >> 15;
}

/* Of the home numbers: NP, 0 to 806. */
static inline uint32_t otap_reported_np(uint64_t entry)
{
    return otap_reported_value(entry, OTAP_ASK_HOME_NUMBERS) >> 5 & 0x3FFu;
}

/* The scan channel, 241 to 640; 0 of others. */
static inline uint32_t otap_reported_channel(uint64_t entry)
{
    return otap_reported_value(entry, OTAP_ASK_CHANNELS);
}

/* Of the system code: LAI, 0 to 4095. */
static inline uint32_t otap_reported_lai(uint64_t entry)
{
    return otap_reported_value(entry, OTAP_ASK_SYSTEM_CODE) >> 12;
}

/* Of the system code: LA, 0 to 8. */
static inline uint32_t otap_reported_la(uint64_t entry)
{
    return otap_reported_value(entry, OTAP_ASK_SYSTEM_CODE) >> 8 & 0xFu;
}

/* Of the system code: roaming, 0 to 2. */
static inline uint32_t otap_reported_roaming(uint64_t entry)
{
    return otap_reported_value(entry, OTAP_ASK_SYSTEM_CODE) >> 6 & 3u;
}

/* Of the system code: PAR. */
static inline int otap_reported_par(uint64_t entry)
{
    return (int)(otap_reported_value(entry, OTAP_ASK_SYSTEM_CODE) >> 5 & 1u);
}

/* Of an answer of otap_report_places: the byte behind the parameter, where the next one starts. */
static inline size_t otap_places_next(uint64_t places)
{
    return (size_t)(places & 0xFFFFu);
}

/* The first byte of its text; 0 if its type has none. */
static inline size_t otap_places_text(uint64_t places)
{
    return (size_t)((places >> 16) & 0xFFFFu);
}

/* How many bytes its text has, without its end: twice its units. */
static inline size_t otap_places_text_length(uint64_t places)
{
    return (size_t)((places >> 32) & 0xFFu);
}

/* Of a line: how many digits its number has, 1 to OTAP_DIGITS. */
static inline size_t otap_places_digits(uint64_t places)
{
    return (size_t)(places >> 56);
}

/* Of a line: the digit at a position, from 0, of the number in its message. */
static inline uint32_t otap_places_digit(uint64_t places, const uint8_t *message, size_t position)
{
    uint32_t pair = message[((places >> 40) & 0xFFFFu) + position / 2];
    return position % 2 == 0 ? pair >> 4 : pair & 15u;
}

/* Of OTAP_ASK_HASH: the HashCode, OTAP_NO_HASH where none is kept. */
static inline uint32_t otap_places_hash_code(uint64_t places)
{
    return (uint32_t)(places >> 56);
}

/* Of OTAP_ASK_HASH: the first byte of the hash value; 0 where none is kept. */
static inline size_t otap_places_hash(uint64_t places)
{
    return (size_t)((places >> 40) & 0xFFFFu);
}

/* Of OTAP_ASK_HASH: how many bytes the hash value has. */
static inline size_t otap_places_hash_length(uint64_t places)
{
    uint32_t code = otap_places_hash_code(places);
    return code == OTAP_HASH_OF_4 ? 4 : code == OTAP_HASH_OF_10 ? 10 : 0;
}

#ifdef __cplusplus
}
#endif

#endif
