/* An input, read from its front: bytes, and the sizes that a choice asks for. */
#ifndef INPUT_H
#define INPUT_H

#include "set.h"

#include <string.h>

typedef struct {
    const uint8_t *bytes;
    size_t left;
} Input;

static unsigned next_byte(Input *input)
{
    if (input->left == 0) {
        return 0;
    }
    input->left--;
    return *input->bytes++;
}

static size_t next_bytes(Input *input, size_t length, uint8_t *to)
{
    size_t given = length < input->left ? length : input->left;
    memcpy(to, input->bytes, given);
    input->bytes += given;
    input->left -= given;
    return given;
}

/* The high five bits of a choice: mostly what the call needs; else the buffer or the store is one more, one less, none, or some more. */
static size_t chosen_size(unsigned choice, size_t least)
{
    switch (choice >> 3) {
    case 16: return least + 1;
    case 17: case 18: return least - 1;
    case 19: return 0;
    case 20: return least + 40;
    default: return least;
    }
}

static size_t chosen_store(unsigned choice)
{
    switch (choice >> 3) {
    case 18: case 21: return OTAP_STORE_BYTES - 1;
    case 22: return OTAP_STORE_BYTES + 1;
    case 23: return 0;
    default: return OTAP_STORE_BYTES;
    }
}

#endif
