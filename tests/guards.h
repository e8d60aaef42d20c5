/*
 * Lent bytes, on a machine without pages: each buffer stands between guard bytes, and what may only be read is compared with a copy after each call.
 * A write outside, or to what is only to be read, is seen where it changes a byte; a read outside is not.
 */
#ifndef GUARDS_H
#define GUARDS_H

#include <stddef.h>
#include <stdint.h>
#include <stdlib.h>
#include <string.h>

enum { GUARD = 64, GUARD_BYTE = 0xB7 };

/* The buffer between its guards; a copy of it while it may only be read. */
typedef struct {
    uint8_t *area;
    uint8_t *copy;
    uint8_t *bytes;
    size_t length;
    int sealed;
} Lent;

static void make_room(Lent *lent, size_t room)
{
    lent->area = (uint8_t *)malloc(room + 2 * GUARD);
    lent->copy = (uint8_t *)malloc(room);
    must(lent->area != NULL && lent->copy != NULL, "no memory");
    lent->length = 0;
}

/* From now on it may only be read. */
static void seal(Lent *lent)
{
    memcpy(lent->copy, lent->bytes, lent->length);
    lent->sealed = 1;
}

/* A buffer of these bytes; an odd place for one of both ends, since nothing may ask for an even one. */
static void lend(Lent *lent, int at_end, const uint8_t *bytes, size_t length, int writable)
{
    lent->bytes = lent->area + GUARD - (at_end ? 1 : 0);
    lent->length = length;
    lent->sealed = 0;
    memset(lent->bytes - GUARD / 2, GUARD_BYTE, GUARD / 2);
    memcpy(lent->bytes, bytes, length);
    memset(lent->bytes + length, GUARD_BYTE, GUARD / 2);
    if (!writable) {
        seal(lent);
    }
}

/* Whether a call kept to what it was lent. */
static int kept(const Lent *lent)
{
    size_t each;
    for (each = 1; lent->bytes != NULL && each <= GUARD / 2; each++) {
        if (lent->bytes[lent->length + each - 1] != GUARD_BYTE || *(lent->bytes - each) != GUARD_BYTE) {
            return 0;
        }
    }
    return !lent->sealed || memcmp(lent->copy, lent->bytes, lent->length) == 0;
}

#endif
