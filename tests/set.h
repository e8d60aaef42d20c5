/*
 * The set that a test is of: the hand-held, or, built with VEHICLE, the vehicle set. A test is written with the names of the hand-held, which here become the
 * vehicle's, so that one source is run for both. Its numbers are those of the documents and not of the headers: numbers.c holds the two together.
 */
#ifndef SET_H
#define SET_H

#include "otap_office.h"
#include "otap_vehicle.h"

#ifdef VEHICLE
#define PREFIX "otap_vehicle_"
enum { LINE_ROOM = 128, CHANNEL_ROOM = 256, TEXT_ROOM = 15744, MESSAGE_SIZE = 8192, STORE_SIZE = 49152, OTHER_STORE_SIZE = 24576 };

#define OTAP_STORE_BYTES OTAP_VEHICLE_STORE_BYTES
#define OTAP_MESSAGE_BYTES OTAP_VEHICLE_MESSAGE_BYTES
#define OTAP_EXPORT_BYTES OTAP_VEHICLE_EXPORT_BYTES
#define OTAP_REPORT_BYTES OTAP_VEHICLE_REPORT_BYTES
#define OTAP_JOIN_BYTES OTAP_VEHICLE_JOIN_BYTES
#define OTAP_PROPOSAL_BYTES OTAP_VEHICLE_PROPOSAL_BYTES
#define OTAP_LINE_ROWS OTAP_VEHICLE_LINE_ROWS
#define OTAP_CHANNEL_PLACES OTAP_VEHICLE_CHANNEL_PLACES
#define OTAP_JUDGE_STACK OTAP_VEHICLE_JUDGE_STACK
#define OTAP_COMMIT_STACK OTAP_VEHICLE_COMMIT_STACK
#define OTAP_EXPORT_STACK OTAP_VEHICLE_EXPORT_STACK
#define OTAP_REPORT_STACK OTAP_VEHICLE_REPORT_STACK
#define OTAP_CHECK_STACK OTAP_VEHICLE_CHECK_STACK
#define OTAP_PROPOSE_STACK OTAP_VEHICLE_PROPOSE_STACK

#define otap_start otap_vehicle_start
#define otap_judge otap_vehicle_judge
#define otap_commit otap_vehicle_commit
#define otap_export otap_vehicle_export
#define otap_report otap_vehicle_report
#define otap_counts otap_vehicle_counts
#define otap_counts_free_lines otap_vehicle_counts_free_lines
#define otap_counts_free_channels otap_vehicle_counts_free_channels
#define otap_line_of otap_vehicle_line_of
#define otap_row_number otap_vehicle_row_number
#define otap_row_part otap_vehicle_row_part
#define otap_entry otap_vehicle_entry
#define otap_entry_digits otap_vehicle_entry_digits
#define otap_channel otap_vehicle_channel
#define otap_emergency_key otap_vehicle_emergency_key
#define otap_home_numbers otap_vehicle_home_numbers
#define otap_system_code otap_vehicle_system_code
#define otap_read_report otap_vehicle_read_report
#define otap_join otap_vehicle_join
#define otap_check_update otap_vehicle_check_update
#define otap_propose otap_vehicle_propose
#else
#define PREFIX "otap_"
enum { LINE_ROOM = 32, CHANNEL_ROOM = 64, TEXT_ROOM = 4096, MESSAGE_SIZE = 4096, STORE_SIZE = 24576, OTHER_STORE_SIZE = 49152 };
#endif

/*
 * Where docs/STORE.md has the tables: their first slot or, of lists, the count before it; how long a slot is; the order of the lines; and what is spare. Each
 * text of a vehicle ends its slot, and TEXT_ROOM is all their places together; a hand-held's slot ends with the number of units, and the text is in the area.
 */
#ifdef VEHICLE
enum {
    QUICK_AT = 22, STATUS_AT = 2966, GROUPS_AT = 6134, INDIVIDUALS_AT = 6710, LINE_SLOTS_AT = 7286, GROUP_COUNT_AT = 8118, INDIVIDUAL_COUNT_AT = 10424,
    CHANNEL_COUNT_AT = 12730, LINE_COUNT_AT = 13244, ORDER_AT = 19902, SPARE_AT = 20030
};
enum { QUICK_BYTES = 46, STATUS_BYTES = 33, SLOT_BYTES = 36, LINE_BYTES = 52 };
#else
enum {
    QUICK_AT = 22, STATUS_AT = 86, GROUPS_AT = 278, INDIVIDUALS_AT = 358, LINE_SLOTS_AT = 438, GROUP_COUNT_AT = 774, INDIVIDUAL_COUNT_AT = 1096,
    CHANNEL_COUNT_AT = 1418, LINE_COUNT_AT = 1548, ORDER_AT = 2222, AREA_AT = 2254, SPARE_AT = 6350
};
enum { QUICK_BYTES = 1, STATUS_BYTES = 2, SLOT_BYTES = 5, LINE_BYTES = 21 };
#endif

/* Behind the count of a list stand its slots. */
enum { GROUP_CONTACTS_AT = GROUP_COUNT_AT + 2, INDIVIDUAL_CONTACTS_AT = INDIVIDUAL_COUNT_AT + 2, LINES_AT = LINE_COUNT_AT + 2 };

#endif
