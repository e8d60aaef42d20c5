/*
 * otap_vehicle.h: the C functions of libotap_vehicle.a, for the firmware of a PDT vehicle set.
 *
 * A vehicle set has more room than a hand-held, with a place for each text, and all other rules are the same. So each call stands in otap.h, which this
 * file includes, under its name without vehicle_: what is said there, of pointers, overlap, the lock and the stack too, holds here, with the sizes below
 * in place of the hand-held's. Answers are packed alike and unpacked by the functions of otap_unpack.h, but for what is free of a store's room: see the
 * end of this file.
 *
 * The conversions of otap.h are no set's, and stand in libotap_handheld.a alone: firmware that needs them links both archives. No name is in both, and each
 * function is a section of its own, so that a linker can drop what is not called (--gc-sections).
 *
 * A store is one set's: either set refuses the other's with 11. What goes from one to the other is an export. A hand-held's, and a vehicle's, is taken
 * by every vehicle, whatever that held. A vehicle's is taken by a fresh hand-held, all ten parts in order, exactly if it has at most OTAP_LINE_ROWS
 * lines and OTAP_CHANNEL_PLACES channels, none of its parts is longer than OTAP_MESSAGE_BYTES, and its texts are at most OTAP_TEXT_BYTES in all; both
 * then have the same tables. Otherwise the parts before the first one that does not fit are taken, and that one is refused: with OTAP_MESSAGE_LENGTH if
 * it is too long; else with OTAP_NO_ROOM, for lines with the failed ID OTAP_LINE_ROWS + 2, since a replace and one add for each line that has room come
 * before, for channels with 1, and for texts with that of the first setting after which they are too many. A hand-held that is not fresh may refuse a
 * part that would fit, for the other texts that it holds.
 */
#ifndef OTAP_VEHICLE_H
#define OTAP_VEHICLE_H

#include "otap.h"

#ifdef __cplusplus
extern "C" {
#endif

/* Sizes in bytes. A reply buffer, a scratch and a digits buffer have those of otap.h. */
enum {
    OTAP_VEHICLE_STORE_BYTES = 49152,  /* a store has exactly as many */
    OTAP_VEHICLE_MESSAGE_BYTES = 8192, /* a message has at most as many, and at least 7 */
    OTAP_VEHICLE_EXPORT_BYTES = 8192,  /* an export buffer has at least as many */
    OTAP_VEHICLE_REPORT_BYTES = 8192   /* a report buffer has at least as many */
};

/* Positions 0 to 127 of line contacts; room for as many scan channels. The other tables are as large as a hand-held's. OTAP_TEXT_BYTES is no limit here: each
   text has its own place. */
enum {
    OTAP_VEHICLE_LINE_ROWS = 128,
    OTAP_VEHICLE_CHANNEL_PLACES = 256
};

/*
 * Stack in bytes, as in otap.h: judging and committing have a working copy of the store there, of 49,152 bytes; exporting and reporting need none, since each
 * text has its place. The others have the ceilings of otap.h.
 */
enum {
    OTAP_VEHICLE_JUDGE_STACK = 53248,  /* measured 52,408 */
    OTAP_VEHICLE_COMMIT_STACK = 53248, /* 52,416 */
    OTAP_VEHICLE_EXPORT_STACK = 2560,  /* 2,024 */
    OTAP_VEHICLE_REPORT_STACK = 2560   /* 2,062 */
};

/* As otap_start, of OTAP_VEHICLE_STORE_BYTES bytes. */
uint32_t otap_vehicle_start(uint8_t *store, uint64_t store_length);

/* As otap_judge and otap_commit: 11 goes by OTAP_VEHICLE_STORE_BYTES, 12 by OTAP_VEHICLE_MESSAGE_BYTES, and 2 by the room above; no sum of texts is 2. */
uint64_t otap_vehicle_judge(const uint8_t *message, uint64_t message_length,
                            const uint8_t *store, uint64_t store_length,
                            uint8_t *reply, uint64_t reply_length);
uint64_t otap_vehicle_commit(const uint8_t *message, uint64_t message_length,
                             uint8_t *store, uint64_t store_length,
                             uint8_t *reply, uint64_t reply_length);

/* As otap_export: 15 goes by OTAP_VEHICLE_EXPORT_BYTES. The parts are taken by every vehicle, fresh or not, and by a hand-held as said above. */
uint64_t otap_vehicle_export(uint32_t part,
                             const uint8_t *store, uint64_t store_length,
                             uint8_t *buffer, uint64_t buffer_length);

/*
 * As otap_report: 15 goes by OTAP_VEHICLE_REPORT_BYTES, 12 by OTAP_VEHICLE_MESSAGE_BYTES, and a message of the report has up to as many bytes. The total is
 * 255 at most. A report of more messages, which no hand-held has, is refused with 4, before 16: so are 256 channels that are asked for 255 times. The office
 * reads it with otap_vehicle_read_report of otap_office.h.
 */
uint64_t otap_vehicle_report(const uint8_t *query, uint64_t query_length, uint32_t index,
                             const uint8_t *store, uint64_t store_length,
                             uint8_t *buffer, uint64_t buffer_length);

/* As otap_counts; what is free, with otap_vehicle_counts_free_lines and otap_vehicle_counts_free_channels. */
uint64_t otap_vehicle_counts(const uint8_t *store, uint64_t store_length);

/* As otap_line_of. */
uint64_t otap_vehicle_line_of(uint32_t id_type,
                              const uint8_t *digits, uint64_t digits_length,
                              const uint8_t *store, uint64_t store_length);

/* As otap_row_number and otap_row_part; OTAP_LINES has OTAP_VEHICLE_LINE_ROWS rows. Each text stands in a place of its own, where no other moves it. */
uint32_t otap_vehicle_row_number(uint32_t table, uint32_t row,
                                 const uint8_t *store, uint64_t store_length,
                                 const uint8_t *scratch, uint64_t scratch_length);
uint64_t otap_vehicle_row_part(uint32_t table, uint32_t row,
                               const uint8_t *store, uint64_t store_length,
                               uint8_t *scratch, uint64_t scratch_length);

/* As otap_entry and otap_entry_digits. */
uint64_t otap_vehicle_entry(uint32_t table, uint32_t index,
                            const uint8_t *store, uint64_t store_length);
uint64_t otap_vehicle_entry_digits(uint32_t table, uint32_t index,
                                   const uint8_t *store, uint64_t store_length,
                                   uint8_t *digits, uint64_t digits_length);

/* As otap_channel, otap_emergency_key, otap_home_numbers and otap_system_code. */
uint64_t otap_vehicle_channel(uint32_t position, const uint8_t *store, uint64_t store_length);
uint64_t otap_vehicle_emergency_key(const uint8_t *store, uint64_t store_length);
uint64_t otap_vehicle_home_numbers(const uint8_t *store, uint64_t store_length);
uint64_t otap_vehicle_system_code(const uint8_t *store, uint64_t store_length);

/* Of an answer of otap_vehicle_counts: how many more line contacts have room; 0 of a refusal. */
static inline uint32_t otap_vehicle_counts_free_lines(uint64_t answer)
{
    return otap_answer_number(answer) == OTAP_OK ? (uint32_t)OTAP_VEHICLE_LINE_ROWS - otap_counts_lines(answer) : 0;
}

/* How many more scan channels have room; 0 of a refusal. */
static inline uint32_t otap_vehicle_counts_free_channels(uint64_t answer)
{
    return otap_answer_number(answer) == OTAP_OK ? (uint32_t)OTAP_VEHICLE_CHANNEL_PLACES - otap_counts_channels(answer) : 0;
}

#ifdef __cplusplus
}
#endif

#endif
