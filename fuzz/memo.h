/*
 * What was checked before in this process. An archive has no state of its own, so that the same bytes lent to the same calls come to the same: a record that
 * an input has in common with an earlier one is then only carried out, and a store only looked at whole the first time. An input alone is always checked whole,
 * and so is every 64th, whatever came before it.
 */
#ifndef MEMO_H
#define MEMO_H

#include <stddef.h>
#include <stdint.h>
#include <string.h>

enum { MEMO_BITS = 20, WHOLE_EVERY = 64 };

/* What a key is of, so that no two kinds of check share one. */
enum { OF_COMMIT = 1, OF_ROW, OF_EXPORT, OF_COUNTS, OF_CALLER, OF_VALUE, OF_REPORT, OF_READING, OF_POKE, OF_LISTS, OF_STORE, OF_USED, OF_FRESH, OF_UPDATE, OF_PROPOSAL };

/* The keys of what was checked: each has one place, and the last to come keeps it. */
static uint64_t memo[1 << MEMO_BITS];

/* How many inputs came before. */
static unsigned long inputs_before;

/* Loops over whole stores, whose branches tell a fuzzer nothing. */
#ifdef __clang__
#define UNTRACED __attribute__((no_sanitize("coverage")))
#else
#define UNTRACED
#endif

/* A word more in a key. */
#define STIR(key, word) ((key) = ((key) ^ (word)) * 0xD6E8FEB86659FD93u, (key) ^= (key) >> 32)

/* A key that these bytes are part of too, with their length. It reads words, four at a time, which no sanitizer has to follow. */
UNTRACED __attribute__((no_sanitize("address", "undefined"))) static uint64_t keyed(uint64_t key, const uint8_t *bytes, size_t length)
{
    uint64_t words[4], one = key, two = ~key, three = key + 0x9E3779B97F4A7C15u, four = length;
    size_t at;
    for (at = 0; at + sizeof words <= length; at += sizeof words) {
        __builtin_memcpy(words, bytes + at, sizeof words);
        STIR(one, words[0]);
        STIR(two, words[1]);
        STIR(three, words[2]);
        STIR(four, words[3]);
    }
    for (; at < length; at++) {
        STIR(one, bytes[at]);
    }
    STIR(one, two);
    STIR(one, three);
    STIR(one, four);
    return one;
}

/* The same of a number. */
static uint64_t keyed_by(uint64_t key, uint64_t number)
{
    return keyed(key, (const uint8_t *)&number, sizeof number);
}

/* Whether what has this key was checked before; from now on it was, since a check that fails ends the process. */
static int was_checked(uint64_t key)
{
    uint64_t *place = &memo[key >> (64 - MEMO_BITS)];
    int known = *place == key && key != 0 && inputs_before % WHOLE_EVERY != 0;
    *place = key;
    return known;
}

#endif
