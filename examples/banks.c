/* Two banks of flash for a store: see banks.h. */
#include "banks.h"

#include <string.h>

/* CRC-32 as in IEEE 802.3, with a table for each half of a byte. */
static uint32_t check_of(const uint8_t *bytes, size_t length)
{
    static const uint32_t high[16] = {
        0x00000000u, 0x1DB71064u, 0x3B6E20C8u, 0x26D930ACu, 0x76DC4190u, 0x6B6B51F4u, 0x4DB26158u, 0x5005713Cu,
        0xEDB88320u, 0xF00F9344u, 0xD6D6A3E8u, 0xCB61B38Cu, 0x9B64C2B0u, 0x86D3D2D4u, 0xA00AE278u, 0xBDBDF21Cu
    };
    static const uint32_t low[16] = {
        0x00000000u, 0x77073096u, 0xEE0E612Cu, 0x990951BAu, 0x076DC419u, 0x706AF48Fu, 0xE963A535u, 0x9E6495A3u,
        0x0EDB8832u, 0x79DCB8A4u, 0xE0D5E91Eu, 0x97D2D988u, 0x09B64C2Bu, 0x7EB17CBDu, 0xE7B82D07u, 0x90BF1D91u
    };
    uint32_t check = 0xFFFFFFFFu;
    size_t at;
    for (at = 0; at < length; at++) {
        check ^= bytes[at];
        check = check >> 8 ^ high[check >> 4 & 15] ^ low[check & 15];
    }
    return ~check;
}

/* The counts' number is 0 exactly where the bytes are a store. */
static int is_store(const uint8_t *bytes)
{
    return otap_answer_number(otap_counts(bytes, OTAP_STORE_BYTES)) == OTAP_OK;
}

static void make_head(uint8_t *head, uint8_t sequence, const uint8_t *store)
{
    uint32_t check = check_of(store, OTAP_STORE_BYTES);
    unsigned each;
    head[0] = OTAP_LAYOUT;
    head[1] = sequence;
    for (each = 0; each < 4; each++) {
        head[2 + each] = (uint8_t)(check >> (24 - 8 * each));
    }
    head[6] = 0;
    head[7] = 0;
    for (each = 0; each < 8; each++) {
        head[8 + each] = (uint8_t)~head[each];
    }
}

/* Reads the bank; whether its head is the head of its bytes, and they are a store. */
static int read_bank(unsigned bank, const uint8_t *head, uint8_t *store)
{
    uint8_t right[BANK_HEAD_BYTES];
    flash_read(bank, BANK_HEAD_BYTES, store, OTAP_STORE_BYTES);
    make_head(right, head[1], store);
    return memcmp(head, right, sizeof right) == 0 && is_store(store);
}

int banks_load(Banks *banks, uint8_t *store)
{
    uint8_t heads[2][BANK_HEAD_BYTES];
    unsigned bank, first, each;
    flash_read(0, 0, heads[0], BANK_HEAD_BYTES);
    flash_read(1, 0, heads[1], BANK_HEAD_BYTES);
    first = (uint8_t)(heads[1][1] - heads[0][1]) < 128; /* 0 comes after 255 */
    for (each = 0; each < 2; each++) {
        bank = first ^ each;
        if (read_bank(bank, heads[bank], store)) {
            banks->newest = bank;
            banks->sequence = heads[bank][1];
            return 1;
        }
    }
    banks->newest = NO_BANK;
    banks->sequence = heads[first][1]; /* so that the next number is newer than what stands there */
    otap_start(store, OTAP_STORE_BYTES);
    return 0;
}

static int holds(unsigned bank, size_t at, const uint8_t *bytes, size_t length)
{
    uint8_t piece[64];
    while (length > 0) {
        size_t now = length < sizeof piece ? length : sizeof piece;
        flash_read(bank, at, piece, now);
        if (memcmp(piece, bytes, now) != 0) {
            return 0;
        }
        at += now;
        bytes += now;
        length -= now;
    }
    return 1;
}

static int put_bytes(unsigned bank, size_t at, const uint8_t *bytes, size_t length)
{
    flash_write(bank, at, bytes, length);
    return holds(bank, at, bytes, length);
}

int banks_save(Banks *banks, const uint8_t *store)
{
    unsigned next = banks->newest == 0;
    uint8_t head[BANK_HEAD_BYTES];
    if (!is_store(store)) {
        return 0;
    }
    make_head(head, banks->sequence, store);
    if (banks->newest != NO_BANK && holds(banks->newest, 0, head, sizeof head)
        && holds(banks->newest, BANK_HEAD_BYTES, store, OTAP_STORE_BYTES)) {
        return 1; /* a query, or a request that changed nothing: the flash is spared */
    }
    make_head(head, (uint8_t)(banks->sequence + 1), store);
    flash_erase(next);
    if (!put_bytes(next, BANK_HEAD_BYTES, store, OTAP_STORE_BYTES)) {
        return 0;
    }
    if (!put_bytes(next, 0, head, sizeof head)) { /* last: until the head stands whole, the other bank is the newest */
        return 0;
    }
    banks->newest = next;
    banks->sequence = head[1];
    return 1;
}
