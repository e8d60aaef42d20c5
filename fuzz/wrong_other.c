/* Wrong libraries of the other set, for the checks of fitting.c, as those of wrong.c: 101 of either set, 102 to 104 of a hand-held beside a vehicle. */
#include "otap_vehicle.h"

#ifdef VEHICLE
#define REAL __real_otap_commit
#define WRAP __wrap_otap_commit
#else
#define REAL __real_otap_vehicle_commit
#define WRAP __wrap_otap_vehicle_commit
#endif

uint64_t REAL(const uint8_t *, uint64_t, uint8_t *, uint64_t, uint8_t *, uint64_t);
uint64_t WRAP(const uint8_t *, uint64_t, uint8_t *, uint64_t, uint8_t *, uint64_t);

/* Whether it is an exported part of as many lines as a full hand-held has: a replace, and a setting for each. */
static int has_full_lines(const uint8_t *message)
{
    return message[8] == 0xCA && message[7] == OTAP_LINE_ROWS + 1;
}

uint64_t WRAP(const uint8_t *message, uint64_t message_length, uint8_t *store, uint64_t store_length, uint8_t *reply, uint64_t reply_length)
{
    uint64_t answer;
    if (WRONG == 101 && has_full_lines(message)) {
        return OTAP_NO_ROOM | 1 << 8; /* refuses what fits */
    }
    answer = REAL(message, message_length, store, store_length, reply, reply_length);
    if (WRONG == 102 && otap_answer_number(answer) == OTAP_NO_ROOM) {
        return OTAP_OK; /* says that it has what it has not */
    }
    if (WRONG == 103 && otap_answer_number(answer) == OTAP_NO_ROOM) {
        return OTAP_NO_ROOM | 1 << 8; /* the failed ID of a part that is one setting */
    }
    return WRONG == 104 && answer == OTAP_MESSAGE_LENGTH ? OTAP_NO_ROOM | (OTAP_LINE_ROWS + 2) << 8 : answer; /* looks at the lines before the length */
}
