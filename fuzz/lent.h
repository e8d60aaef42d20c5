/* Buffers to lend, and what every call has to leave of them. */
#ifndef LENT_H
#define LENT_H

#include <stdint.h>
#include <stdio.h>
#include <stdlib.h>
#include <string.h>

/* gcc says it by a macro, clang by a feature. */
#ifdef __has_feature
#if __has_feature(address_sanitizer)
#define SANITIZED
#endif
#endif
#if defined(SANITIZED) || defined(__SANITIZE_ADDRESS__)
#include <sanitizer/asan_interface.h>
#else
#define ASAN_POISON_MEMORY_REGION(bytes, length) ((void)(bytes), (void)(length))
#define ASAN_UNPOISON_MEMORY_REGION(bytes, length) ((void)(bytes), (void)(length))
#endif

/* As many bytes before and behind a lent buffer, the most that a buffer has, and as many as are lent at a time. */
enum { GUARD = 32, MOST_LENT = 49152 + 64, BLOCKS = 8 };

/* Bytes between guards, in a block that is used again: to allocate one for each call took longer than most calls. The archive is not instrumented, so that a
 * sanitizer sees only what it does through memcpy and memset: for those the guards are closed to it, and for the archive's own writes they are compared.
 * Reading outside shows as two answers that differ, since the guards of the second call of two hold other bytes. */
typedef struct {
    uint8_t *block;
    uint8_t *bytes;
    size_t length;
    uint8_t fill;
} Lent;

static _Alignas(16) uint8_t blocks[BLOCKS][GUARD + MOST_LENT + GUARD];
static uint8_t block_used[BLOCKS];

static void must(int holds, const char *what)
{
    if (!holds) {
        fprintf(stderr, "NOT KEPT: %s\n", what);
        abort();
    }
}

/* A block that is not lent; all of it is closed. */
static inline uint8_t *free_block(void)
{
    static int closed;
    unsigned each = 0;
    if (!closed) {
        ASAN_POISON_MEMORY_REGION(blocks, sizeof blocks);
        closed = 1;
    }
    while (each < BLOCKS && block_used[each]) {
        each++;
    }
    must(each < BLOCKS, "a block to lend");
    block_used[each] = 1;
    return blocks[each];
}

/* A copy of these bytes; `twice` says that it is for the second of two calls. */
static inline Lent lend(const uint8_t *bytes, size_t length, int twice)
{
    Lent lent;
    must(length <= MOST_LENT, "a buffer that a block can hold");
    lent.block = free_block();
    ASAN_UNPOISON_MEMORY_REGION(lent.block, length + 2 * GUARD);
    lent.bytes = lent.block + GUARD;
    lent.length = length;
    lent.fill = twice ? 0xA5 : 0x5A;
    memset(lent.block, lent.fill, GUARD);
    memset(lent.bytes + length, lent.fill, GUARD);
    if (length > 0) {
        memcpy(lent.bytes, bytes, length);
    }
    ASAN_POISON_MEMORY_REGION(lent.block, GUARD);
    ASAN_POISON_MEMORY_REGION(lent.bytes + length, GUARD);
    return lent;
}

static inline int same_bytes(const uint8_t *one, const uint8_t *two, size_t length)
{
    return length == 0 || memcmp(one, two, length) == 0;
}

/* The guards as they were: whether none of these bytes is another. */
static inline int is_filled(const uint8_t *guard, uint8_t fill)
{
    uint8_t wanted[GUARD];
    memset(wanted, fill, GUARD);
    return memcmp(guard, wanted, GUARD) == 0;
}

static inline void give_back(Lent *lent)
{
    ASAN_UNPOISON_MEMORY_REGION(lent->block, lent->length + 2 * GUARD);
    must(is_filled(lent->block, lent->fill), "bytes before a lent buffer stay");
    must(is_filled(lent->bytes + lent->length, lent->fill), "bytes after a lent buffer stay");
    ASAN_POISON_MEMORY_REGION(lent->block, lent->length + 2 * GUARD);
    block_used[(size_t)(lent->block - blocks[0]) / sizeof blocks[0]] = 0;
}

#endif
