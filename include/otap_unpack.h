/*
 * otap_unpack.h: the functions that unpack the answers of otap.h, which says of each call what its bits are, and of the same calls of otap_vehicle.h. otap.h
 * includes this file; firmware need not.
 */
#ifndef OTAP_UNPACK_H
#define OTAP_UNPACK_H

#include "otap.h"

#ifdef __cplusplus
extern "C" {
#endif

/* The number of every answer of 64 bits, but for those of otap_row_part, otap_report_entry and otap_report_places, which have none. */
static inline uint32_t otap_answer_number(uint64_t answer)
{
    return (uint32_t)(answer & 0xFFu);
}

/* Of an answer of otap_judge, otap_commit or otap_join: the place, from 1, of the first setting at fault; 0 if it is none of them. */
static inline uint32_t otap_answer_failed(uint64_t answer)
{
    return (uint32_t)((answer >> 8) & 0xFFu);
}

/* 1 if the reply is to be sent, once the message is committed, else 0. */
static inline int otap_answer_send(uint64_t answer)
{
    return (int)((answer >> 16) & 1u);
}

/* 1 if the set is to start again, once the message is committed, else 0. */
static inline int otap_answer_reboot(uint64_t answer)
{
    return (int)((answer >> 17) & 1u);
}

/* How many bytes of the reply buffer are the reply. */
static inline size_t otap_answer_length(uint64_t answer)
{
    return (size_t)((answer >> 24) & 0xFFu);
}

/* How many bytes of the buffer are the request. */
static inline size_t otap_export_length(uint64_t answer)
{
    return (size_t)((answer >> 16) & 0xFFFFu);
}

/* How many messages the report has, 1 to 231, of a vehicle 1 to 255; 0 of a refusal. */
static inline uint32_t otap_report_total(uint64_t answer)
{
    return (uint32_t)((answer >> 8) & 0xFFu);
}

/* How many bytes of the buffer are the message of the report. */
static inline size_t otap_report_length(uint64_t answer)
{
    return (size_t)((answer >> 16) & 0xFFFFu);
}

/* How many line contacts the store holds; 0 also of a refusal, so ask the number first. */
static inline uint32_t otap_counts_lines(uint64_t answer)
{
    return (uint32_t)((answer >> 16) & 0xFFFFu);
}

/* How many scan channels the store holds, repeats counted; 0 also of a refusal, so ask the number first. */
static inline uint32_t otap_counts_channels(uint64_t answer)
{
    return (uint32_t)((answer >> 32) & 0xFFFFu);
}

/* How many more line contacts have a place in a hand-held, if not room for a text; 0 of a refusal. Of a vehicle: otap_vehicle_counts_free_lines. */
static inline uint32_t otap_counts_free_lines(uint64_t answer)
{
    return otap_answer_number(answer) == OTAP_OK ? (uint32_t)OTAP_LINE_ROWS - otap_counts_lines(answer) : 0;
}

/* How many more scan channels have a place in a hand-held; 0 of a refusal. Of a vehicle: otap_vehicle_counts_free_channels. */
static inline uint32_t otap_counts_free_channels(uint64_t answer)
{
    return otap_answer_number(answer) == OTAP_OK ? (uint32_t)OTAP_CHANNEL_PLACES - otap_counts_channels(answer) : 0;
}

/* 1 if a row has the caller's number; 0 if none has, and of a refusal. */
static inline int otap_line_found(uint64_t answer)
{
    return (int)((answer >> 8) & 1u);
}

/* The row of OTAP_LINES that has the caller's number; 0 also where none has, so ask otap_line_found first. */
static inline uint32_t otap_line_row(uint64_t answer)
{
    return (uint32_t)((answer >> 16) & 0xFFFFu);
}

/* 1 if the part lies in the scratch, 0 if in the store. */
static inline int otap_part_in_scratch(uint64_t part)
{
    return (int)(part & 1u);
}

/* The part's first byte. */
static inline size_t otap_part_offset(uint64_t part)
{
    return (size_t)((part >> 16) & 0xFFFFu);
}

/* The part's length in bytes: twice its units. */
static inline size_t otap_part_length(uint64_t part)
{
    return (size_t)((part >> 32) & 0xFFFFu);
}

/* The part's bytes, of the two buffers that otap_row_part was lent. */
static inline const uint8_t *otap_part_bytes(uint64_t part, const uint8_t *store, const uint8_t *scratch)
{
    return (otap_part_in_scratch(part) ? scratch : store) + otap_part_offset(part);
}

/* The address of a group or of an individual, as the table says; 0 of a line, and of a refusal. */
static inline uint32_t otap_entry_address(uint64_t answer)
{
    return (uint32_t)((answer >> 8) & 0xFFFFFFu);
}

/* OTAP_PSTN or OTAP_PABX of a line; 0 of others. */
static inline uint32_t otap_entry_id_type(uint64_t answer)
{
    return (uint32_t)((answer >> 32) & 1u);
}

/* The encryption flag, of every kind. */
static inline int otap_entry_encryption(uint64_t answer)
{
    return (int)((answer >> 33) & 1u);
}

/* The emergency flag, of every kind. */
static inline int otap_entry_emergency(uint64_t answer)
{
    return (int)((answer >> 34) & 1u);
}

/* The priority, 0 to 3, of every kind. */
static inline uint32_t otap_entry_priority(uint64_t answer)
{
    return (uint32_t)((answer >> 35) & 0x3u);
}

/* OTAP_BACKGROUND, OTAP_RESPONSE or OTAP_MEMBER of a group; 0 of others. */
static inline uint32_t otap_entry_attribute(uint64_t answer)
{
    return (uint32_t)((answer >> 37) & 0x3u);
}

/* The broadcast flag of a group; 0 of others. */
static inline int otap_entry_broadcast(uint64_t answer)
{
    return (int)((answer >> 39) & 1u);
}

/* The OVCM flag of a group; 0 of others. */
static inline int otap_entry_ovcm(uint64_t answer)
{
    return (int)((answer >> 40) & 1u);
}

/* How many bytes of the digits buffer are digits; 0 of a refusal. */
static inline size_t otap_digits_count(uint64_t answer)
{
    return (size_t)((answer >> 8) & 0xFFu);
}

/* The scan channel; 0 of a refusal, which no channel is. */
static inline uint32_t otap_channel_value(uint64_t answer)
{
    return (uint32_t)((answer >> 8) & 0xFFFu);
}

/* 1 if the key calls the current place, and has no address; 0 also of a refusal, so ask the number first. */
static inline int otap_key_current(uint64_t answer)
{
    return (int)((answer >> 32) & 1u);
}

/* The address that the key calls, of a group or of an individual as otap_key_group says; 0 with current, and of a refusal. */
static inline uint32_t otap_key_address(uint64_t answer)
{
    return (uint32_t)((answer >> 8) & 0xFFFFFFu);
}

/* 1 if it is a group that the key calls, else 0; with current it is kept all the same. */
static inline int otap_key_group(uint64_t answer)
{
    return (int)((answer >> 33) & 1u);
}

/* The key's voice flag. */
static inline int otap_key_voice(uint64_t answer)
{
    return (int)((answer >> 34) & 1u);
}

/* The key's status flag. */
static inline int otap_key_status(uint64_t answer)
{
    return (int)((answer >> 35) & 1u);
}

/* The key's siren flag. */
static inline int otap_key_siren(uint64_t answer)
{
    return (int)((answer >> 36) & 1u);
}

/* Of the home numbers: NZI, 0 to 511. */
static inline uint32_t otap_home_nzi(uint64_t answer)
{
    return (uint32_t)((answer >> 8) & 0x1FFu);
}

/* Of the home numbers: NP, 0 to 806. */
static inline uint32_t otap_home_np(uint64_t answer)
{
    return (uint32_t)((answer >> 17) & 0x3FFu);
}

/* Of the system code: LAI, 0 to 4095. */
static inline uint32_t otap_system_lai(uint64_t answer)
{
    return (uint32_t)((answer >> 8) & 0xFFFu);
}

/* Of the system code: LA, 0 to 8. */
static inline uint32_t otap_system_la(uint64_t answer)
{
    return (uint32_t)((answer >> 20) & 0xFu);
}

/* Of the system code: roaming, 0 to 2. */
static inline uint32_t otap_system_roaming(uint64_t answer)
{
    return (uint32_t)((answer >> 24) & 0x3u);
}

/* Of the system code: PAR. */
static inline int otap_system_par(uint64_t answer)
{
    return (int)((answer >> 26) & 1u);
}

/* The value of a conversion. */
static inline uint32_t otap_value(uint64_t answer)
{
    return (uint32_t)((answer >> 8) & 0xFFFFFFFFu);
}

#ifdef __cplusplus
}
#endif

#endif
