/* The other set, a hand-held beside a vehicle and a vehicle beside a hand-held, which is lent the parts of a store one by one. */
#ifndef FITTING_H
#define FITTING_H

#include <stddef.h>
#include <stdint.h>

/* A part as it is exported, and what it has to fit: the set's lines and channels, and the first of its settings, from 1, after which the texts of all parts
 * so far are more than an area holds; 0 if there is none. */
typedef struct {
    uint32_t part, lines, channels, over;
    const uint8_t *request;
    size_t length;
} Sent;

/* Before the first part: a hand-held is started, for it has to be fresh; of a vehicle it does not matter what it held. */
void meet_other(void);

/* The other set as it was kept under this key, if that is the last that was: whether it is. */
int recall_other(uint64_t key);

void keep_other(uint64_t key);

/* The answer to a part is what docs/RULES.md says, Y3 to Y7: whether it is taken. */
int other_takes(const Sent *sent);

/* The other set exports the part as these bytes. */
void check_other_part(const Sent *sent);

/* A setting that is in range, alone to the other set: whether it is taken, and what that set then holds would fit a hand-held. */
int fits_handheld(const uint8_t *setting, size_t length, unsigned coding);

#endif
