/* Messages that an input has: as they are, or built of settings. */
#ifndef BUILT_H
#define BUILT_H

#include "input.h"

/* Any bytes, of any length up to one too many. How many. */
static size_t raw_message(Input *input, uint8_t *message)
{
    size_t length = next_byte(input);
    length = (length + 256 * next_byte(input)) % (OTAP_MESSAGE_BYTES + 2);
    return next_bytes(input, length, message);
}

/* One setting with a true DataLength, so that inputs get past it to the fields. */
static size_t build_setting(Input *input, uint8_t *to)
{
    static const uint8_t types[] = {0xCA, 0xCB, 0xCC, 0xCD, 0xCE, 0xCF, 0xD0, 0xD1, 0xD2, 0xFF, 0xC8, 0xC9, 0xD3};
    unsigned type = next_byte(input);
    size_t length = next_bytes(input, next_byte(input), to + 3);
    to[0] = type < 0xC0 ? types[type % sizeof types] : (uint8_t)type;
    to[1] = (uint8_t)((length + 2) >> 8);
    to[2] = (uint8_t)(length + 2);
    return length + 3;
}

/* A request with a true length. How many bytes. */
static size_t built_message(Input *input, uint8_t *message)
{
    static const uint8_t head[] = {2, 2, 0, 0, 8, 7, 8};
    unsigned chosen = next_byte(input), settings = 1 + chosen % 12, each;
    size_t length = 8;
    memcpy(message, head, sizeof head);
    message[5] = chosen < 128 ? 7 : 4; /* coding type 0111 or 0100 */
    message[7] = (uint8_t)settings;
    for (each = 0; each < settings; each++) {
        length += build_setting(input, message + length);
    }
    message[2] = (uint8_t)((length - 4) >> 8);
    message[3] = (uint8_t)(length - 4);
    return length;
}

#endif
